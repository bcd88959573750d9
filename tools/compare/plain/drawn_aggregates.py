"""Random expressions, and random parts of FT.AGGREGATE.

Each GROUPBY leaves few names, so that properties drawn at random would mostly be Null behind it. An aggregate draws
them from `names`, in which what a step makes comes more often than the rest.
"""
from .drawn_options import params, without_effect, words_of
from .drawn_values import NAMES, ODD_NAMES, Draw, text

DIGITS = ("0", "1", "2", "3", "7", "10", "100", "9223372036854775807", "4611686018427387904", "3037000500")
ODD_DIGITS = ("007", "9223372036854775808", "1a")
SIGNS = ("+", "-", "*") * 4 + ("==", "!=", "<=", ">=", "<", ">") + ("&&", "||") * 3
FUNCTIONS = ("lower", "UPPER", "strlen", "abs", "Exists", "exists")
REDUCERS = ("COUNT", "COUNT_DISTINCT", "SUM", "MIN", "MAX", "TOLIST", "FIRST_VALUE")
ODD_REDUCERS = ("AVG", "STDDEV", "QUANTILE", "RANDOM_SAMPLE", "COUNT_DISTINCTISH", "HLL")
MADE = ("p", "q", "r", "s")
PLAIN = frozenset("abcdefghijklmnopqrstuvwxyzABCDEFGHIJKLMNOPQRSTUVWXYZ0123456789_")


def is_plain(name: str) -> bool:
    """Whether an expression can name it."""
    return name != "" and PLAIN.issuperset(name)


class Aggregate:
    """One aggregate, drawn from the left."""
    LENGTHS = (0, 1, 1, 2, 2, 3, 3, 4, 5)

    def __init__(self, draw: Draw, fields: list):
        self.draw = draw
        self.kinds = {self.group: 2, self.sort: 3, self.apply: 3, self.filter: 1, self.limit: 1}
        self.names = draw.sample(NAMES, 2)
        for field in fields:
            self.names += [field.name] + [field.alias] * (5 if field.kind == "NUMERIC" else 2)

    def made(self, name: str):
        self.names += [name] * 3

    def property(self) -> str:
        return self.draw.pick(self.names if self.draw.chance(0.96) else ODD_NAMES)

    def new_name(self) -> str:
        return self.draw.pick(MADE if self.draw.chance(0.6) else self.names + list(ODD_NAMES))

    def parts(self, query: str) -> list:
        """The words of LOAD, of some steps, and of options anywhere between them."""
        drawn = [self.draw.weighted(self.kinds)() for _ in range(self.draw.pick(self.LENGTHS))]
        if self.draw.chance(0.6):
            drawn.insert(0 if self.draw.chance(0.95) else len(drawn), self.load())
        for option in self.options(query):
            drawn.insert(self.draw.between(0, len(drawn)), option)
        return words_of(self.draw, drawn)

    def options(self, query: str) -> list:
        return params(self.draw, query) + without_effect(self.draw)

    def load(self) -> list:
        if self.draw.chance(0.35):
            return ["LOAD", "*"]
        names = [self.draw.pick(("", "@")) + self.property() for _ in range(self.draw.between(0, 4))]
        return ["LOAD", str(len(names))] + names

    def group(self) -> list:
        by = [self.property() or "t" for _ in range(self.draw.pick((0, 1, 1, 1, 2, 2, 3)))]
        words = ["GROUPBY", str(len(by))] + ["@" + name for name in by]
        reducers = [self.reducer() for _ in range(self.draw.pick((0, 1, 1, 2, 3, 4)))]
        self.names = self.names[:6]
        for name in by + [name for _, name in reducers]:
            self.made(name)
        return words + [word for reducer, _ in reducers for word in reducer]

    def reducer(self) -> tuple:
        """The words, and the name of the cell."""
        function = self.draw.pick(REDUCERS if self.draw.chance(0.98) else ODD_REDUCERS)
        words, name = ["REDUCE", self.draw.cased(function), "0"], function.lower()
        if function != "COUNT":
            of = self.property() or "t"
            words[2:] = ["1", "@" + of]
            name += "_" + of
        if self.draw.chance(0.5):
            name = self.new_name()
            words += [self.draw.cased("AS"), name]
        return words, name

    def sort(self) -> list:
        keys = []
        for _ in range(self.draw.pick((0, 1, 1, 1, 2, 2, 3))):
            keys += ["@" + (self.property() or "t")] + self.draw.pick(([], ["ASC"], ["DESC"], ["desc"]))
        most = ["MAX", str(self.draw.pick((0, 1, 2, 3, 5, 100)))] if self.draw.chance(0.4) else []
        count = len(keys) - (bool(keys) and self.draw.chance(0.03))
        return ["SORTBY", str(count)] + keys + most

    def apply(self) -> list:
        words, name = ["APPLY", self.expression(self.draw.between(0, 4)), "AS"], self.new_name()
        self.made(name)
        return words + [name]

    def filter(self) -> list:
        drawn = self.expression(self.draw.between(1, 4))
        exists = f"exists(@{self.plain_property()})"
        return ["FILTER", self.draw.pick((drawn, drawn, f"!({drawn})", exists, f"({drawn}) || {exists}"))]

    def limit(self) -> list:
        return ["LIMIT", str(self.draw.pick((0, 0, 0, 1, 2, 5))), str(self.draw.pick((0, 1, 2, 5, 10, 10, 1000)))]

    def plain_property(self) -> str:
        return self.draw.pick([name for name in self.names if is_plain(name)] or NAMES)

    def expression(self, depth: int) -> str:
        if depth == 0 or self.draw.chance(0.2):
            return self.operand()
        blank = self.draw.pick((" ", "", "  "))
        form = self.draw.weighted({"two sides": 60, "one side": 10, "function": 12})
        if form == "function":
            return self.draw.pick(FUNCTIONS) + blank[:1] + "(" + self.expression(depth - 1) + ")"
        if form == "one side":
            return self.draw.pick(("!", "!", "!!", "-", "-")) + blank + self.wrapped(depth - 1)
        return self.wrapped(depth - 1) + blank + self.draw.pick(SIGNS) + blank + self.wrapped(depth - 1)

    def wrapped(self, depth: int) -> str:
        drawn = self.expression(depth)
        return drawn if self.draw.chance(0.35) else f"({drawn})"

    def operand(self) -> str:
        kind = self.draw.weighted({"property": 50, "digits": 38, "text": 12})
        if kind == "property":
            return "@" + self.plain_property()
        if kind == "digits":
            return self.draw.pick(DIGITS if self.draw.chance(0.99) else ODD_DIGITS)
        quote = self.draw.pick("'\"")
        return quote + text(self.draw).replace("\\", "\\\\").replace(quote, "\\" + quote) + quote
