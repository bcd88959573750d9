"""Random faults of a command's words."""
from .drawn_queries import changed
from .drawn_values import Draw

# What is a part elsewhere, what is left out, and numbers of another spelling or past a limit.
NUMBERS = ("0", "1", "2", "3", "-1", "01", "+1", "007", "1.", "1000000", "1000001", "9223372036854775808", "")
PARTS = ("NOPE", "AS", "LIMIT", "FILTER", "SORTBY", "PARAMS", "VERBATIM", "DIALECT", "TIMEOUT", "WITHSCORES", "LANGUAGE",
         "SLOP", "ASC", "DESC", "*", "@", "@n")
STEPS = ("LOAD", "GROUPBY", "REDUCE", "COUNT", "AVG", "quantile", "APPLY", "MAX", "WITHCURSOR", "MAXIDLE", "n")
EXPRESSIONS = ("@n +", "'", "1 == 1 == 1", "!@n", "- 1", "007", "9223372036854775808", "nope(1)", "(((@n)))", "1\t+ 1", "")
SCHEMAS = ("SCHEMA", "ADD", "ON", "HASH", "JSON", "PREFIX", "STOPWORDS", "SCORE", "NOHL", "TEMPORARY", "AS", "TEXT", "TAG",
           "NUMERIC", "GEO", "t", "SORTABLE", "UNF", "NOINDEX", "NOSTEM", "PHONETIC", "WEIGHT", "SEPARATOR", ";;",
           "CASESENSITIVE", "INDEXEMPTY")
ODD_WORDS = {
    "FT.SEARCH": PARTS + ("RETURN", "INKEYS", "NOCONTENT", "(1", "((1", "inf", "p"),
    "FT.AGGREGATE": PARTS + STEPS + EXPRESSIONS,
    "FT.CREATE": SCHEMAS,
    "FT.ALTER": SCHEMAS,
    "FT.CURSOR": ("READ", "DEL", "COUNT", "MAXIDLE", "GC", "ix", "iy", "x"),
}


def spoilt(draw: Draw, words: list) -> list:
    """The command with a word that is gone, new, another, or has another byte."""
    at = draw.between(min(1, len(words) - 1), len(words) - 1)
    kind = draw.pick(("gone", "new", "another", "another", "byte"))
    if kind == "byte":
        return words[:at] + [changed(draw, words[at])] + words[at + 1:]
    if kind == "gone":
        return words[:at] + words[at + 1:] or [""]
    odd = NUMBERS if draw.chance(0.3) else ODD_WORDS.get(words[0].upper(), PARTS)
    return words[:at] + [draw.pick(odd)] + words[at + (kind == "another"):]
