"""Cursors: the rows of an aggregate, read in parts (COMMANDS.md).

A cursor is a stream where each row is made of one document: a read goes on behind the document at which the last one
stopped, over what the query finds by then. All other rows are made when the cursor is opened, and kept. A cursor ends
with the read that gives fewer rows than were asked for. Its id is the number of the event that opened it.
"""
from typing import NamedTuple, Optional

from .pipeline import rows_of, rows_reply, run
from .reader import Reader
from .steps import MOST_COUNT, Aggregate, CursorSpec, named_number
from .wire import Fault, array, integer, line, syntax

# Of one index.
MOST_CURSORS = 128

# What is written in place of the id of a cursor that ended. No event has this number.
ENDED = 0


class Stream:
    def __init__(self, tree: tuple, aggregate: Aggregate):
        self.tree = tree
        self.aggregate = aggregate
        self.after = 0

    def take(self, machine, index, most: int) -> list:
        """The next rows. The index may have more fields and other members than at the last read."""
        rows = []
        for key, document in machine.found(index, self.tree):
            if len(rows) == most:
                break
            if machine.ids[key] > self.after:
                self.after = machine.ids[key]
                rows += made_rows(index, [document], self.aggregate)
        return rows


class KeptRows:
    def __init__(self, rows: list):
        self.rows = rows

    def take(self, _machine, _index, most: int) -> list:
        taken, self.rows = self.rows[:most], self.rows[most:]
        return taken


class Cursor:
    def __init__(self, index, spec: CursorSpec, source):
        self.index = index
        self.spec = spec
        self.source = source
        self.last_use = 0

    def is_idle(self, now: int) -> bool:
        return now - self.last_use > self.spec.max_idle

    def read(self, machine, most: int) -> list:
        self.last_use = machine.now
        return self.source.take(machine, self.index, most)


def made_rows(index, documents: list, aggregate: Aggregate) -> list:
    return run(index, rows_of(index, documents, aggregate.load), aggregate.steps)


def all_rows(machine, index, tree: tuple, aggregate: Aggregate) -> list:
    return made_rows(index, [document for _, document in machine.found(index, tree)], aggregate)


def source_of(machine, index, tree: tuple, aggregate: Aggregate):
    if aggregate.is_stream():
        return Stream(tree, aggregate)
    return KeptRows(all_rows(machine, index, tree, aggregate))


def open_cursor(machine, index, tree: tuple, aggregate: Aggregate) -> bytes:
    """The first read. A cursor that it ends needs no room."""
    spec = aggregate.cursor
    cursor = Cursor(index, spec, source_of(machine, index, tree, aggregate))
    rows = cursor.read(machine, spec.count)
    if len(rows) < spec.count:
        return part_reply(rows, ENDED)
    if sum(other.index is index for other in machine.cursors.values()) == MOST_CURSORS:
        raise Fault("Too many cursors")
    machine.cursors[machine.event] = cursor
    return part_reply(rows, machine.event)


def part_reply(rows: list, number: int) -> bytes:
    return array([rows_reply(rows), integer(number)])


class Asked(NamedTuple):
    """What FT.CURSOR asks of a cursor: its end, or so many rows; None are as many as its opening said."""
    is_read: bool
    index: bytes
    number: int
    count: Optional[int]


def read_asked(words: list) -> Asked:
    reader = Reader(words, 1)
    name = reader.name()
    if name not in (b"READ", b"DEL"):
        raise syntax(1)
    is_read = name == b"READ"
    index, number = reader.word(), reader.number()
    count = named_number(reader, b"COUNT", MOST_COUNT) if is_read else None
    if reader.left():
        raise syntax(reader.at)
    return Asked(is_read, index, number, count)


def read_or_delete(machine, words: list) -> bytes:
    """FT.CURSOR. A cursor is that of its own index alone, and not of another one that has its name since."""
    asked = read_asked(words)
    index = machine.index(asked.index)
    cursor = machine.cursors.get(asked.number)
    if cursor is None or cursor.index is not index:
        raise Fault("Cursor not found")
    if not asked.is_read:
        del machine.cursors[asked.number]
        return line("OK")
    count = asked.count or cursor.spec.count
    rows = cursor.read(machine, count)
    if len(rows) == count:
        return part_reply(rows, asked.number)
    del machine.cursors[asked.number]
    return part_reply(rows, ENDED)
