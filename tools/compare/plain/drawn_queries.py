"""Random queries. Most of them are lawful, and find something."""
import re

from .drawn_values import BOUNDS, COMMON_WORDS, NAMES, TAGS, WORDS, Draw

MOST_DEPTH = 4
SEPARATOR = re.compile(r"([\x00-/:-@\[-^`{-\x7f])")
# Escapes, forms that are left out, and faults.
ODD_PARTS = ("red\\-blue", "red\\-blue", "hel*lo", '"a\\"b"', "w'x'", "W'", "@t:w'x'", "*red", "*\\-a", "%red%", '"a\\b"',
             "a\\", "@g:{red\\", "$nope")
SIGNS = '()|-~@:[]{}"*$%\\=>;\' w1,.'
SLOPS = ("$slop:0", "$slop:0", "$slop:1", "$slop:1", "$slop:3", "$slop:$lo")
ORDERS = ("$inorder:true", "$inorder:true", "$inorder:FALSE")
ODD_ATTRIBUTES = ("$slop:-1", "$slop:01", "$slop:4294967296", "$slop:4294967295", "$inorder:1", "$weight:.5",
                  "$phonetic:true", "$slop", ";", "slop:1")


def escaped(name: str) -> str:
    """A name as one word of a query."""
    return SEPARATOR.sub(r"\\\1", name)


def query(draw: Draw, fields: list) -> str:
    if draw.chance(0.15):
        return "*"
    drawn = union(draw, fields, 0)
    if draw.chance(0.01):
        opened, levels = draw.pick("(-~"), draw.between(28, 34)
        drawn = opened * levels + "red" + (")" * levels if opened == "(" else "") + drawn
    return changed(draw, drawn) if draw.chance(0.08) else drawn


def changed(draw: Draw, drawn: str) -> str:
    """A query with one byte that is gone, new or another."""
    at = draw.between(0, len(drawn))
    put, taken = draw.pick((("", 1), (draw.pick(SIGNS), 0), (draw.pick(SIGNS), 1)))
    return drawn[:at] + put + drawn[at + taken:]


def union(draw: Draw, fields: list, depth: int) -> str:
    parts = [inter(draw, fields, depth) for _ in range(draw.pick((1, 1, 1, 2, 3)))]
    return draw.pick(("|", " | ")).join(parts)


def inter(draw: Draw, fields: list, depth: int) -> str:
    return " ".join(part(draw, fields, depth) for _ in range(draw.pick((1, 1, 1, 1, 1, 1, 2, 2, 3))))


def part(draw: Draw, fields: list, depth: int) -> str:
    if depth == MOST_DEPTH:
        return draw.pick(WORDS)
    forms = {word: 30, prefix: 10, quote: 8, star: 4, param: 4, group: 14, phrase: 8, signed: 12}
    kinds = [field.kind for field in fields]
    forms |= {form: 20 for kind, form in FIELD_FORMS.items() if kind in kinds or draw.chance(0.01)}
    return draw.weighted(forms)(draw, fields, depth + 1)


def word(draw: Draw, _fields: list, _depth: int) -> str:
    return draw.pick(WORDS) if draw.chance(0.97) else draw.pick(ODD_PARTS)


def prefix(draw: Draw, _fields: list, _depth: int) -> str:
    return draw.pick(("r", "re", "BL", "sh", "x", "caf", "the", "$p", "0")) + "*"


def quote(draw: Draw, _fields: list, _depth: int) -> str:
    words = [draw.pick(COMMON_WORDS if draw.chance(0.8) else WORDS) for _ in range(draw.pick((0, 1, 2, 2, 2, 3)))]
    drawn = '"' + draw.pick((" ", " ", ", ", "-", "\\-")).join(words) + '"'
    return drawn + attributes(draw) if draw.chance(0.3) else drawn


def star(_draw: Draw, _fields: list, _depth: int) -> str:
    return "*"


def param(_draw: Draw, _fields: list, _depth: int) -> str:
    return "$p"


def group(draw: Draw, fields: list, depth: int) -> str:
    drawn = "()" if draw.chance(0.03) else "(" + union(draw, fields, depth) + ")"
    return drawn + attributes(draw) if draw.chance(0.1) else drawn


def phrase(draw: Draw, fields: list, _depth: int) -> str:
    """Words in a group, each now and then of a field that is named, with attributes."""
    named = [f"@{alias(draw, fields, 'TEXT')}:" for _ in range(2)] if draw.chance(0.15) else [""]
    words = [draw.pick(named) + draw.pick(COMMON_WORDS) for _ in range(draw.between(1, 3))]
    return "(" + " ".join(words) + ")" + attributes(draw)


def attributes(draw: Draw) -> str:
    pairs = [draw.pick(SLOPS)] if draw.chance(0.5) else []
    pairs += [draw.pick(ORDERS)] if draw.chance(0.5) else []
    pairs += ["$weight:1.5"] if draw.chance(0.1) else []
    pairs += [draw.pick(ODD_ATTRIBUTES)] if draw.chance(0.06) else []
    draw.random.shuffle(pairs)
    return draw.pick(("=>{", " => { ")) + ";".join(pairs) + draw.pick(("}", "; }" if pairs else " }"))


def signed(draw: Draw, fields: list, depth: int) -> str:
    return draw.pick("--~") + part(draw, fields, depth)


def alias(draw: Draw, fields: list, kind: str) -> str:
    """The alias of a field of this kind, and now and then any name."""
    aliases = [field.alias for field in fields if field.kind == kind]
    return escaped(draw.pick(aliases if aliases and draw.chance(0.98) else NAMES))


def text_field(draw: Draw, fields: list, depth: int) -> str:
    names = [alias(draw, fields, "TEXT") for _ in range(draw.pick((1, 1, 2)))]
    return "@" + "|".join(names) + ":" + draw.pick((word, prefix, quote, group, phrase, param))(draw, fields, depth)


def names_of(draw: Draw, fields: list, kind: str) -> str:
    """One name, and now and then two, where only one is lawful."""
    return "|".join(alias(draw, fields, kind) for _ in range(2 if draw.chance(0.03) else 1))


def number_range(draw: Draw, fields: list, _depth: int) -> str:
    ends = [draw.pick(("", "", "", "(")) + draw.pick(BOUNDS) for _ in range(2)]
    return f"@{names_of(draw, fields, 'NUMERIC')}:[{' '.join(ends)}]"


def tags(draw: Draw, fields: list, _depth: int) -> str:
    texts = [draw.pick(TAGS).replace("*", "\\*") for _ in range(draw.pick((0, 1, 1, 2, 3)))]
    pieces = [text + draw.pick(("", "", "*" if text.strip() or draw.chance(0.1) else "", " ")) for text in texts]
    return f"@{names_of(draw, fields, 'TAG')}:{{{draw.pick((' | ', '|')).join(pieces)}}}"


FIELD_FORMS = {"TEXT": text_field, "NUMERIC": number_range, "TAG": tags}
