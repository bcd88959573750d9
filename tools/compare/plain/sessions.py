"""Random sessions: lists of commands that depend on a seed alone.

A session runs its commands through a machine of its own, so that it draws the next one from the indexes that are there.
"""
from . import drawn_schemas
from .drawn_aggregates import Aggregate
from .drawn_cursors import Opening, is_short_lived, read_or_delete
from .drawn_faults import spoilt
from .drawn_options import search_options
from .drawn_queries import query
from .drawn_transactions import with_transactions
from .drawn_values import KEYS, NAMES, ODD_NAMES, Draw, Known, many_pairs, number, text, value
from .machine import Machine

INDEXES = ("ix", "iy", "iz")
COMMANDS = 200

# How often each kind of command comes, and each kind of write.
KINDS = {"write": 32, "read": 8, "search": 22, "aggregate": 13, "opening": 7, "cursor": 13, "schema": 7, "other": 4}
WRITES = {"HSET": 50, "one": 10, "HSETNX": 6, "HDEL": 12, "HINCRBY": 10, "DEL": 6, "RENAME": 6, "FLUSHALL": 0.3}
# How often a command gets a fault of its words, or one more.
SPOILT = {"search": 0.1, "aggregate": 0.12, "opening": 0.06, "cursor": 0.1, "schema": 0.25}
SPOILT_ELSE = 0.04
READS = ("HGETALL", "HGETALL", "HGET", "HMGET", "HKEYS", "HVALS", "HLEN", "HEXISTS", "EXISTS", "TYPE", "DBSIZE")
OTHERS = (["PING"], ["ping", "hello"], ["ECHO", ""], ["SELECT", "0"], ["SELECT", "1"], ["SELECT", "+0"], ["FT._LIST"],
          ["ft._list"], ["NOPE"], [""], ["HELLO", "3"], ["FT.CURSOR", "READ", "ix"], ["FT.DEBUG"], ["FLUSHALL", "now"],
          ["FLUSHALL", "a", "b"], ["FT.DEBUG", "GC_CONTINUE", "ix"], ["FT.INFO"])


class Session:
    """One session: each of its calls but `commands` draws a command, as words, or a part of one."""

    def __init__(self, seed: str):
        self.draw = Draw(seed)
        self.machine = Machine()
        # Of each cursor that was kept, its index's name and its id.
        self.opened = []
        self.kinds = drawn_schemas.kinds_of_names(self.draw)
        self.keys = self.draw.sample(KEYS, self.draw.pick((6, 12, 24, 38)))

    def commands(self) -> list:
        first = self.draw.pick((0, 10, 20, 40))
        sent = [self.sent(self.create(INDEXES[0]))] + [self.sent(self.hset()) for _ in range(first)]
        openings = self.many_openings() if first and self.draw.chance(0.1) else []
        sent += [self.sent(words) for words in openings]
        while len(sent) < COMMANDS + len(openings):
            kind = self.draw.weighted(KINDS) if self.indexes() else "schema"
            sent.append(self.sent(self.spoilt(kind, getattr(self, kind)())))
        return sent + [self.sent(["quit"])]

    def spoilt(self, kind: str, words: list) -> list:
        """The command, now and then with faults of its words."""
        while self.draw.chance(SPOILT.get(kind, SPOILT_ELSE)):
            other = spoilt(self.draw, words)
            words = words if is_short_lived(encoded(other)) else other
        return words

    def sent(self, words: list) -> list:
        """The command as bytes, once the machine has had it."""
        command = encoded(words)
        self.machine.reply(command)
        if self.machine.event in self.machine.cursors:
            self.opened.append((words[1], str(self.machine.event)))
        return command

    def indexes(self) -> list:
        return [name.decode("latin-1") for name in self.machine.indexes]

    def fields(self, index: str) -> list:
        found = self.machine.indexes.get(index.encode("latin-1"))
        return [Known(field.name.decode("latin-1"), field.alias.decode("latin-1"), field.kind)
                for field in (found.fields if found else [])]

    def key(self) -> str:
        return self.draw.pick(self.keys)

    def name(self) -> str:
        return self.draw.pick(NAMES if self.draw.chance(0.97) else ODD_NAMES)

    def index(self) -> str:
        """The name of an index that is there, and now and then any name."""
        return self.draw.pick(self.indexes() if self.indexes() and self.draw.chance(0.97) else INDEXES)

    def pairs(self) -> list:
        """Fields and values in turn, of a document that has some of the fields."""
        names = [name for name in NAMES if self.draw.chance(0.5)] or [self.name()]
        self.draw.random.shuffle(names)
        return [part for name in names for part in (name, value(self.draw, self.kinds.get(name, "TEXT")))]

    def hset(self) -> list:
        pairs = many_pairs(self.draw) if self.draw.chance(0.02) else self.pairs()
        return [self.draw.cased("HSET"), self.key()] + pairs

    def write(self) -> list:
        draw, key, name = self.draw, self.key(), self.name()
        kind = draw.weighted(WRITES)
        if kind == "HSET":
            return self.hset()
        if kind == "HDEL":
            return ["HDEL", key] + [self.name() for _ in range(draw.between(1, 3))]
        if kind == "HINCRBY":
            return ["HINCRBY", key, draw.pick((name, "n")), number(draw)]
        if kind == "DEL":
            return ["DEL"] + [self.key() for _ in range(draw.between(1, 2))]
        if kind == "RENAME":
            return ["RENAME", key, self.key()]
        if kind == "FLUSHALL":
            return ["FLUSHALL"] + draw.pick(([], ["SYNC"], ["async"]))
        return [kind if kind == "HSETNX" else "HSET", key, name, value(draw, self.kinds.get(name, "TEXT"))]

    def read(self) -> list:
        command = self.draw.pick(READS)
        if command == "DBSIZE":
            return [command]
        if command == "EXISTS":
            return [command] + [self.key() for _ in range(self.draw.between(1, 3))]
        names = {"HGET": 1, "HEXISTS": 1, "HMGET": self.draw.between(1, 4)}.get(command, 0)
        return [self.draw.cased(command), self.key()] + [self.name() for _ in range(names)]

    def create(self, index: str) -> list:
        return drawn_schemas.create(self.draw, self.kinds, index)

    def schema(self) -> list:
        missing = [index for index in INDEXES if index not in self.indexes()]
        kind = self.draw.weighted({"create": 9 if missing else 1, "alter": 7, "drop": 2, "tags": 8, "collect": 6, "info": 9})
        index = self.index()
        if kind == "create" or not self.indexes():
            return self.create(self.draw.pick(missing or INDEXES))
        if kind == "alter":
            return drawn_schemas.alter(self.draw, self.kinds, index, self.fields(index))
        if kind == "drop":
            return ["FT.DROPINDEX", index] + self.draw.pick(([], ["DD"], ["dd"], ["NOPE"]))
        if kind == "collect":
            return [self.draw.cased("FT.DEBUG"), self.draw.cased("GC_FORCEINVOKE"), index]
        if kind == "info":
            return [self.draw.cased("FT.INFO"), index]
        aliases = [field.alias for field in self.fields(index) if field.kind == "TAG"]
        return ["FT.TAGVALS", index, self.draw.pick(aliases) if aliases and self.draw.chance(0.9) else self.name()]

    def search(self) -> list:
        index = self.index()
        fields = self.fields(index)
        drawn = query(self.draw, fields)
        return [self.draw.cased("FT.SEARCH"), index, drawn] + search_options(self.draw, fields, drawn)

    def aggregate(self, kind: type = Aggregate) -> list:
        index = self.index()
        fields = self.fields(index)
        drawn = "*" if self.draw.chance(0.5) else query(self.draw, fields)
        return [self.draw.cased("FT.AGGREGATE"), index, drawn] + kind(self.draw, fields).parts(drawn)

    def opening(self) -> list:
        return self.aggregate(Opening)

    def many_openings(self) -> list:
        """About as many as an index may have, where it has a document."""
        return [["FT.AGGREGATE", INDEXES[0], "*", "WITHCURSOR", "COUNT", "1"]] * self.draw.between(127, 131)

    def cursor(self) -> list:
        """Mostly of one of the last cursors that are open, else of any one that was, or of none."""
        still_open = [cursor for cursor in self.opened if int(cursor[1]) in self.machine.cursors]
        if not still_open and self.draw.chance(0.8):
            return self.opening()
        if still_open and self.draw.chance(0.86):
            index, number = self.draw.pick(still_open[-5:])
        else:
            index, number = self.draw.pick(self.opened or [(self.index(), "1")])
        if self.draw.chance(0.03):
            number = str(self.draw.between(0, self.machine.event + 1))
        return read_or_delete(self.draw, index if self.draw.chance(0.93) else self.draw.pick(INDEXES), number)

    def other(self) -> list:
        if self.draw.chance(0.7):
            return self.draw.pick(OTHERS)
        return [self.draw.pick(READS), self.key(), text(self.draw)]


def encoded(words: list) -> list:
    return [word.encode("latin-1") for word in words]


def session(seed: int, number: int) -> list:
    """The commands of the session of this number."""
    return with_transactions(Draw(f"{seed} {number} transactions"), Session(f"{seed} {number}").commands())
