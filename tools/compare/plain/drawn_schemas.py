"""Random words of FT.CREATE and FT.ALTER."""
from .drawn_values import NAMES, ODD_NAMES, Draw

FIELD_OPTIONS = {
    "TEXT": (["NOSTEM"], ["WEIGHT", "2"], ["WEIGHT", "0.50"], ["SORTABLE"], ["SORTABLE", "UNF"], ["NOINDEX"]),
    "TAG": (["SEPARATOR", ";"], ["SEPARATOR", " "], ["CASESENSITIVE"], ["CASESENSITIVE"], ["SORTABLE"],
            ["SORTABLE", "UNF"], ["NOINDEX"]),
    "NUMERIC": (["SORTABLE"], ["SORTABLE", "UNF"], ["NOINDEX"]),
}
INDEX_OPTIONS = (["ON", "HASH"], ["PREFIX", "1", "p:"], ["PREFIX", "2", "q:", "p:1"], ["PREFIX", "1", ""],
                 ["STOPWORDS", "0"], ["STOPWORDS", "2", "RED", "a b"], ["MAXTEXTFIELDS"], ["NOHL"], ["NOFREQS"],
                 ["SCORE", "1.0"])
# Options that are refused, or that begin the next field.
ODD_FIELD_OPTIONS = (["SEPARATOR", ""], ["SEPARATOR", ";;"], ["WEIGHT", "-1"], ["WEIGHT", "1."], ["PHONETIC", "dm:en"],
                     ["INDEXMISSING"], ["SORTABLE", "SORTABLE"], ["SORTABLE", "UNF", "UNF"], ["NOINDEX", "NOINDEX"],
                     ["UNF"], ["NOSTEM"])
ODD_INDEX_OPTIONS = (["ON", "JSON"], ["PREFIX", "0"], ["PREFIX", "01", "p:"], ["PREFIX", "99", "p:"], ["STOPWORDS", "-1"],
                     ["SCORE", ".5"], ["TEMPORARY", "5"], ["NOHL", "NOHL"], ["SKIPINITIALSCAN"], ["NOPE"])


def kinds_of_names(draw: Draw) -> dict:
    """The kind that most indexes of a session give to a field of each name."""
    kinds = {name: draw.pick(("TEXT", "TEXT", "TAG", "NUMERIC")) for name in NAMES}
    return kinds | {"t": "TEXT", "g": "TAG", "n": "NUMERIC"}


def options(draw: Draw, choice: tuple, odd: tuple) -> list:
    """Some of the options, of each name one, and now and then an odd one."""
    drawn = {option[0]: option for option in draw.sample(choice, draw.between(0, 2))}
    if draw.chance(0.02):
        drawn[""] = draw.pick(odd)
    return [word for option in drawn.values() for word in [draw.cased(option[0])] + option[1:]]


def field(draw: Draw, kinds: dict, name: str) -> tuple:
    """The words of a field, and its alias."""
    kind = kinds.get(name) if draw.chance(0.9) else None
    kind = kind or draw.pick(("TEXT", "TEXT", "TAG", "TAG", "NUMERIC", "GEO"))
    alias = name if draw.chance(0.7) else draw.pick(NAMES + ODD_NAMES)
    named = [name, draw.cased("AS"), alias] if alias != name or draw.chance(0.1) else [name]
    return named + [draw.cased(kind)] + options(draw, FIELD_OPTIONS.get(kind, ()), ODD_FIELD_OPTIONS), alias


def fields(draw: Draw, kinds: dict, most: int, taken: list) -> list:
    """The words of some fields. Few have an alias that is taken."""
    names = draw.sample(NAMES, draw.between(1, most))
    if draw.chance(0.1):
        names.append(draw.pick(ODD_NAMES[:3]))
    words = []
    for name in names:
        more, alias = field(draw, kinds, name)
        if alias not in taken or not words or draw.chance(0.02):
            words += more
            taken = taken + [alias]
    return words


def wide(draw: Draw) -> list:
    """About as many TEXT fields as an index may have."""
    return [word for number in range(draw.between(31, 34)) for word in ("t", "AS", f"t{number}", "TEXT")]


def create(draw: Draw, kinds: dict, index: str) -> list:
    words = wide(draw) if draw.chance(0.02) else fields(draw, kinds, 6, [])
    return ["FT.CREATE", index] + options(draw, INDEX_OPTIONS, ODD_INDEX_OPTIONS) + [draw.cased("SCHEMA")] + words


def alter(draw: Draw, kinds: dict, index: str, known: list) -> list:
    words = fields(draw, kinds, 3, [field.alias for field in known])
    return ["FT.ALTER", index, draw.cased("SCHEMA"), draw.cased("ADD")] + words
