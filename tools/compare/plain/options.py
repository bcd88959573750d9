"""The options of FT.SEARCH, each with its faults (COMMANDS.md)."""
from typing import NamedTuple, Optional

from .reader import LEFT_OUT, Reader
from .texts import high_end, low_end
from .wire import syntax, unsupported


class Filter(NamedTuple):
    """A range over a field, and the word of the field's name."""
    at: int
    field: bytes
    low: int
    high: int


class Sort(NamedTuple):
    at: int
    field: bytes
    descending: bool


class Options:
    def __init__(self):
        self.content = True
        self.returned: Optional[list] = None
        self.keys: Optional[list] = None
        self.filters = []
        self.sort: Optional[Sort] = None
        self.window = (0, 10)
        self.params = {}


def read_options(words: list) -> Options:
    options, reader, seen = Options(), Reader(words, 3), set()
    while reader.left():
        at = reader.at
        name = reader.name()
        if name in LEFT_OUT:
            raise unsupported(at)
        if name not in READERS or name in seen and name != b"FILTER":
            raise syntax(at)
        seen.add(name)
        READERS[name](reader, options)
    return options


def read_nocontent(_reader: Reader, options: Options):
    options.content = False


def read_return(reader: Reader, options: Options):
    """Without a name it is NOCONTENT."""
    options.returned = reader.counted_names()
    options.content &= options.returned != []


def read_inkeys(reader: Reader, options: Options):
    options.keys = reader.counted(least=1)


def read_filter(reader: Reader, options: Options):
    at = reader.at
    options.filters.append(Filter(at, reader.word(), reader.bound(low_end), reader.bound(high_end)))


def read_sortby(reader: Reader, options: Options):
    at = reader.at
    field = reader.word()
    descending = reader.next_is(b"ASC", b"DESC") and reader.name() == b"DESC"
    options.sort = Sort(at, field, descending)


def read_limit(reader: Reader, options: Options):
    options.window = reader.window()


def read_params(reader: Reader, options: Options):
    options.params = reader.params()


READERS = {
    b"NOCONTENT": read_nocontent,
    b"VERBATIM": lambda reader, options: None,
    b"TIMEOUT": lambda reader, options: reader.number(),
    b"DIALECT": lambda reader, options: reader.dialect(),
    b"RETURN": read_return,
    b"INKEYS": read_inkeys,
    b"FILTER": read_filter,
    b"SORTBY": read_sortby,
    b"LIMIT": read_limit,
    b"PARAMS": read_params,
}
