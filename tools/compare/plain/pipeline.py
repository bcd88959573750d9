"""The rows of FT.AGGREGATE, step by step (COMMANDS.md).

A row has cells, and its document until it is a group's. A value is an int, a text, a tuple of values, or None for Null.
"""
import functools
from typing import Optional

from .expressions import evaluate, is_true
from .steps import EVERYTHING
from .texts import in_64_bits, number
from .wire import array, bulk, integer


class Row:
    def __init__(self, index, document: Optional[dict]):
        self.index = index
        self.document = document
        self.cells = {}

    def value(self, name: bytes):
        """The first of these: the row's cell, the field of this alias, the hash's field of this name."""
        return self.cells[name] if name in self.cells else self.document_value(name)

    def document_value(self, name: bytes):
        if self.document is None:
            return None
        field = self.index.field(name)
        if field is not None and field.name in self.document:
            text = self.document[field.name]
            return number(text) if field.kind == "NUMERIC" else text
        return self.own_value(name)

    def own_value(self, name: bytes):
        """The value of the hash's field of this name: a number where some NUMERIC field of the index is over it."""
        text = self.document.get(name)
        is_numeric = any(field.kind == "NUMERIC" and field.name == name for field in self.index.fields)
        return number(text) if is_numeric and text is not None else text

    def reply(self) -> bytes:
        return array([part for name, value in self.cells.items() for part in (bulk(name), value_reply(value))])


def rows_reply(rows: list) -> bytes:
    """The number of the rows, and the rows."""
    return array([integer(len(rows))] + [row.reply() for row in rows])


def value_reply(value) -> bytes:
    if isinstance(value, tuple):
        return array([value_reply(part) for part in value])
    return bulk(b"%d" % value if isinstance(value, int) else value)


def rows_of(index, documents: list, load) -> list:
    """A row for each document, with a cell for each property of LOAD that is there."""
    rows = [Row(index, document) for document in documents]
    for row in rows:
        if load == EVERYTHING:
            row.cells = {name: row.own_value(name) for name in row.document}
            continue
        for name in load:
            value = row.document_value(name)
            if value is not None:
                row.cells[name] = value
    return rows


def run(index, rows: list, steps: list) -> list:
    for name, *parts in steps:
        rows = STEPS[name](index, rows, *parts)
    return rows


def group(index, rows: list, properties: list, reducers: list) -> list:
    groups = {}
    for row in rows:
        groups.setdefault(tuple(row.value(name) for name in properties), []).append(row)
    made = []
    for values, members in groups.items():
        row = Row(index, None)
        row.cells = dict(zip(properties, values))
        for function, of, name in reducers:
            row.cells[name] = reduced(function, [None if of is None else member.value(of) for member in members])
        made.append(row)
    return made


def reduced(function: bytes, values: list):
    """What a function of REDUCE makes of the values in the rows of a group, of which there is at least one."""
    if function == b"COUNT":
        return len(values)
    if function == b"FIRST_VALUE":
        return values[0]
    distinct = tuple(dict.fromkeys(value for value in values if value is not None))
    if function == b"COUNT_DISTINCT":
        return len(distinct)
    if function == b"TOLIST":
        return distinct
    numbers = [value for value in values if isinstance(value, int)]
    if function == b"SUM":
        return in_64_bits(sum(numbers))
    return {b"MIN": min, b"MAX": max}[function](numbers, default=None)


def sort(_index, rows: list, keys: list, most: Optional[int]) -> list:
    def compare(left: Row, right: Row) -> int:
        orders = (order(left.value(name), right.value(name), descending) for name, descending in keys)
        return next((found for found in orders if found), 0)

    return sorted(rows, key=functools.cmp_to_key(compare))[:most]


def order(left, right, descending: bool) -> int:
    """Below 0 where the left value comes first. Null and lists tie, and are last in both directions."""
    left_last, right_last = (not isinstance(value, (int, bytes)) for value in (left, right))
    if left_last or right_last:
        return left_last - right_last
    if type(left) is type(right):
        found = (left > right) - (left < right)
    else:
        found = -1 if isinstance(left, int) else 1
    return -found if descending else found


def apply(_index, rows: list, tree, name: bytes) -> list:
    for row in rows:
        row.cells[name] = evaluate(tree, row.value)
    return rows


def keep(_index, rows: list, tree) -> list:
    return [row for row in rows if is_true(evaluate(tree, row.value))]


def window(_index, rows: list, offset: int, num: int) -> list:
    return rows[offset:offset + num]


STEPS = {"group": group, "sort": sort, "apply": apply, "filter": keep, "limit": window}
