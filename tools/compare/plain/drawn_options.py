"""Random options of FT.SEARCH, and PARAMS of both searches."""
from .drawn_values import BOUNDS, KEYS, NAMES, ODD_NAMES, Draw, number

PARAM_WORDS = ("red", "RED", "blue", "the", "a b", "re", "", "7")
PARAM_ENDS = ("0", "1", "5", "10", "20", "-3", "+007", "inf", "-inf", "(5", "x", "")
WITHOUT_EFFECT = (["VERBATIM"], ["TIMEOUT", "7"], ["DIALECT", "2"], ["DIALECT", "2"], ["DIALECT", "3"])


def words_of(draw: Draw, options: list) -> list:
    """The options' words one behind the other, the name of each in any case."""
    return [word for option in options for word in [draw.cased(option[0])] + option[1:]]


def params(draw: Draw, query: str) -> list:
    """PARAMS as one option, mostly where the query asks for it, and now and then with a fault of its own."""
    if not draw.chance(0.95 if "$" in query else 0.05):
        return []
    names = [name for name in ("p", "lo", "hi") if draw.chance(0.95)]
    if draw.chance(0.03):
        names.append(draw.pick(("p", "lo")))
    words = [word for name in names for word in (name, draw.pick(PARAM_WORDS if name == "p" else PARAM_ENDS))]
    return [["PARAMS", str(len(words) - draw.chance(0.03))] + words]


def without_effect(draw: Draw) -> list:
    """Options that say nothing, and now and then one of them twice or with another dialect."""
    return [draw.pick(WITHOUT_EFFECT) for _ in range(draw.pick((0,) * 12 + (1, 1, 2)))]


def search_options(draw: Draw, fields: list, query: str) -> list:
    """The words of some options, in any order."""
    options = shown(draw, fields) + counted(draw, fields) + params(draw, query) + without_effect(draw)
    if draw.chance(0.3):
        by = alias_or_any(draw, [field.alias for field in fields])
        options.append(["SORTBY", by] + draw.pick(([], [draw.cased("ASC")], [draw.cased("DESC")])))
    if draw.chance(0.3):
        offset, num = draw.pick((0, 0, 0, 1, 2, 5, 999_990)), draw.pick((0, 1, 2, 3, 10, 11, 1000))
        options.append(["LIMIT", str(offset), str(num)])
    draw.random.shuffle(options)
    return words_of(draw, options)


def shown(draw: Draw, fields: list) -> list:
    """What is shown of each document."""
    options = [["NOCONTENT"]] if draw.chance(0.4) else []
    if draw.chance(0.2):
        known = [name for field in fields for name in (field.alias, field.name)] + draw.sample(NAMES + ODD_NAMES, 2)
        names = [draw.pick(("", "@")) + draw.pick(known) for _ in range(draw.between(0, 4))]
        options.append(["RETURN", str(len(names))] + names)
    return options


def counted(draw: Draw, fields: list) -> list:
    """Which documents count."""
    options = []
    if draw.chance(0.1):
        keys = [draw.pick(KEYS) for _ in range(draw.between(0, 12))]
        options.append(["INKEYS", str(len(keys))] + keys)
    numbers = [field.alias for field in fields if field.kind == "NUMERIC"]
    for _ in range(draw.pick((0, 0, 0, 1, 2)) if numbers or draw.chance(0.02) else 0):
        options.append(["FILTER", alias_or_any(draw, numbers), filter_end(draw), filter_end(draw)])
    return options


def alias_or_any(draw: Draw, aliases: list) -> str:
    return draw.pick(aliases if aliases and draw.chance(0.96) else NAMES + ODD_NAMES)


def filter_end(draw: Draw) -> str:
    return draw.pick(("", "", "(")) + (number(draw) if draw.chance(0.7) else draw.pick(BOUNDS))
