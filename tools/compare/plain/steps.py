"""The parts of FT.AGGREGATE, each with its faults (COMMANDS.md).

A step is a tuple that begins with its name:

    ("group", properties, [(function, property or None, name)])     ("sort", [(property, descending)], most or None)
    ("apply", tree, name)     ("filter", tree)     ("limit", offset, num)
"""
from typing import NamedTuple, Optional

from .reader import LEFT_OUT, Reader
from .wire import syntax, unsupported

MOST_COUNT, USUAL_COUNT = 1_000_000, 1000
MOST_IDLE, USUAL_IDLE = 2_147_483_647, 300_000

# How many properties each function of REDUCE takes, and the functions of RediSearch that are left out.
FUNCTIONS = {b"COUNT": 0, b"COUNT_DISTINCT": 1, b"SUM": 1, b"MIN": 1, b"MAX": 1, b"TOLIST": 1, b"FIRST_VALUE": 1}
FUNCTIONS_LEFT_OUT = (b"AVG", b"STDDEV", b"QUANTILE", b"RANDOM_SAMPLE", b"COUNT_DISTINCTISH")

# What LOAD * loads.
EVERYTHING = "*"

# The steps in which a document's row depends on the others.
OF_ALL_ROWS = ("group", "sort", "limit")


class CursorSpec(NamedTuple):
    """How many rows a read gives where it does not say, and how many milliseconds may lie between two reads."""
    count: int
    max_idle: int


class Aggregate:
    def __init__(self):
        self.load = []
        self.steps = []
        self.params = {}
        self.cursor: Optional[CursorSpec] = None

    def is_stream(self) -> bool:
        """Whether a cursor can make the rows of one document behind the other."""
        return not any(name in OF_ALL_ROWS for name, *_ in self.steps)


def read_aggregate(words: list) -> Aggregate:
    aggregate, reader, seen = Aggregate(), Reader(words, 3), set()
    while reader.left():
        at = reader.at
        name = reader.name()
        if name in STEPS:
            aggregate.steps.append(STEPS[name](reader))
            continue
        if name in LEFT_OUT:
            raise unsupported(at)
        if name not in OPTIONS or name in seen or name == b"LOAD" and aggregate.steps:
            raise syntax(at)
        seen.add(name)
        OPTIONS[name](reader, aggregate)
    return aggregate


def read_load(reader: Reader, aggregate: Aggregate):
    if reader.next_is(b"*"):
        reader.word()
        aggregate.load = EVERYTHING
        return
    for _ in range(reader.count()):
        at = reader.at
        word = reader.word()
        if word.upper() == b"AS":
            raise unsupported(at)
        name = word[1:] if word.startswith(b"@") else word
        if not name:
            raise syntax(at)
        aggregate.load.append(name)


def read_params(reader: Reader, aggregate: Aggregate):
    aggregate.params = reader.params()


def read_cursor(reader: Reader, aggregate: Aggregate):
    count = named_number(reader, b"COUNT", MOST_COUNT)
    max_idle = named_number(reader, b"MAXIDLE", MOST_IDLE)
    aggregate.cursor = CursorSpec(count or USUAL_COUNT, max_idle or USUAL_IDLE)


def named_number(reader: Reader, name: bytes, most: int) -> Optional[int]:
    """The number behind this name, from 1; None where the next word is another."""
    if not reader.next_is(name):
        return None
    reader.word()
    return reader.number_up_to(most)


def read_group(reader: Reader) -> tuple:
    properties = [reader.property() for _ in range(reader.count())]
    reducers = []
    while reader.next_is(b"REDUCE"):
        reader.word()
        reducers.append(read_reducer(reader))
    return ("group", properties, reducers)


def read_reducer(reader: Reader) -> tuple:
    at = reader.at
    function = reader.name()
    if function in FUNCTIONS_LEFT_OUT:
        raise unsupported(at)
    if function not in FUNCTIONS:
        raise syntax(at)
    at = reader.at
    if reader.count() != FUNCTIONS[function]:
        raise syntax(at)
    of = reader.property() if FUNCTIONS[function] else None
    if reader.next_is(b"AS"):
        return (function, of, reader.name_behind_as())
    name = function.lower() if of is None else function.lower() + b"_" + of
    return (function, of, name)


def read_sort(reader: Reader) -> tuple:
    """The count is of properties and directions."""
    words = reader.count()
    end = reader.at + words
    keys = []
    while reader.at < end:
        name = reader.property()
        has_direction = reader.at < end and reader.next_is(b"ASC", b"DESC")
        keys.append((name, has_direction and reader.name() == b"DESC"))
    most = None
    if reader.next_is(b"MAX"):
        reader.word()
        most = reader.number()
    return ("sort", keys, most)


def read_apply(reader: Reader) -> tuple:
    tree = reader.expression()
    return ("apply", tree, reader.name_behind_as())


STEPS = {
    b"GROUPBY": read_group,
    b"SORTBY": read_sort,
    b"APPLY": read_apply,
    b"FILTER": lambda reader: ("filter", reader.expression()),
    b"LIMIT": lambda reader: ("limit", *reader.window()),
}
OPTIONS = {
    b"LOAD": read_load,
    b"PARAMS": read_params,
    b"WITHCURSOR": read_cursor,
    b"VERBATIM": lambda reader, aggregate: None,
    b"TIMEOUT": lambda reader, aggregate: reader.number(),
    b"DIALECT": lambda reader, aggregate: reader.dialect(),
}
