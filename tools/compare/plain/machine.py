"""The indexes, the commands of RediSearch, and the table of all commands (COMMANDS.md)."""
from typing import Callable

from . import hashes
from .cursors import all_rows, open_cursor, read_or_delete
from .grammar import parse
from .hashes import Hashes
from .matching import meets
from .options import Options, read_options
from .pipeline import rows_reply
from .schemas import Index, are_too_many, duplicate, read_alter, read_create, too_many
from .steps import read_aggregate
from .texts import number, tags
from .told import told
from .transactions import NAMES, Transaction
from .wire import Fault, array, bulk, bulks, error, integer, line, pairs, syntax

MOST_INDEXES = 256

# The word that FT.ALTER names where its fields do not go together with those of the index.
ALTERED_FIELD = 5


class Machine(Hashes):
    """All that the commands see: the hashes, the indexes in order of creation, the cursors by id, the latest moment."""

    def __init__(self):
        super().__init__()
        self.indexes = {}
        self.cursors = {}
        self.transaction = Transaction()
        self.now = 0

    def reply(self, words: list, moment: int = 0) -> bytes:
        """The bytes that answer a command of its one connection at a moment, in milliseconds."""
        return self.transaction.reply(words, check_words, lambda waiting: self.executed(waiting, moment))

    def executed(self, words: list, moment: int) -> bytes:
        """The bytes that answer a command that is executed. A refused one is an event too."""
        self.event += 1
        self.now = max(self.now, moment)
        self.keep_cursors(lambda cursor: not cursor.is_idle(self.now))
        try:
            check_words(words)
            command = COMMANDS[words[0].upper()][2]
            return command(self, words) if command in TAKE_ALL_WORDS else command(self, *words[1:])
        except Fault as fault:
            return error(fault.text)

    def index(self, name: bytes) -> Index:
        if name not in self.indexes:
            raise Fault("Unknown index name")
        return self.indexes[name]

    def members(self, index: Index) -> list:
        """Keys and documents in order of the last writes."""
        return [(key, document) for key, document in self.documents.items() if index.has_member(key, document)]

    def write(self, key: bytes, fields: dict):
        super().write(key, fields)
        if fields:
            for index in self.indexes.values():
                index.tries(key, fields)

    def tries_all(self, index: Index):
        for key, document in self.documents.items():
            index.tries(key, document)

    def stamp(self, index: Index) -> tuple:
        """What an index has: it changes with each member that comes, goes or is written, and with the fields."""
        return len(index.fields), {key: self.ids[key] for key, _ in self.members(index)}

    def found(self, index: Index, tree: tuple) -> list:
        return [(key, document) for key, document in self.members(index) if meets(tree, index, document)]

    def keep_cursors(self, stays: Callable):
        self.cursors = {number: cursor for number, cursor in self.cursors.items() if stays(cursor)}


def check_words(words: list):
    """Whether the name is known, and the number of words lawful."""
    name = words[0].upper()
    if name not in COMMANDS and name not in NAMES:
        raise Fault("ERR unknown command")
    least, most, command = COMMANDS.get(name, (1, 1, None))
    has_half_pair = command is hashes.hset and len(words) % 2
    if not least <= len(words) <= (most or len(words)) or has_half_pair:
        raise Fault(f"ERR wrong number of arguments for '{name.decode().lower()}' command")


def flush_all(machine: Machine, *mode: bytes) -> bytes:
    """The indexes and their cursors go too."""
    if mode and mode[0].upper() not in (b"ASYNC", b"SYNC"):
        raise syntax(1)
    machine.documents.clear()
    machine.indexes.clear()
    machine.cursors.clear()
    return line("OK")


def unknown_field(word: int) -> Fault:
    return Fault(f"Unknown field at word {word}")


def create(machine: Machine, words: list) -> bytes:
    index = read_create(words)
    if words[1] in machine.indexes:
        raise Fault("Index already exists")
    if len(machine.indexes) == MOST_INDEXES:
        raise Fault("Too many indexes")
    machine.indexes[words[1]] = index
    machine.tries_all(index)
    return line("OK")


def alter(machine: Machine, words: list) -> bytes:
    added = read_alter(words)
    index = machine.index(words[1])
    if any(index.field(field.alias) for field in added):
        raise duplicate(ALTERED_FIELD)
    if are_too_many(index.fields + added):
        raise too_many(ALTERED_FIELD)
    index.fields += added
    machine.tries_all(index)
    return line("OK")


def drop_index(machine: Machine, name: bytes, *mode: bytes) -> bytes:
    """The index's cursors go too, and with DD its members' hashes."""
    if mode and mode[0].upper() != b"DD":
        raise syntax(2)
    index = machine.index(name)
    if mode:
        for key, _ in machine.members(index):
            del machine.documents[key]
    del machine.indexes[name]
    machine.keep_cursors(lambda cursor: cursor.index is not index)
    return line("OK")


def list_indexes(machine: Machine) -> bytes:
    return bulks(machine.indexes)


def info(machine: Machine, name: bytes) -> bytes:
    index = machine.index(name)
    documents = [document for _, document in machine.members(index)]
    cursors = sum(cursor.index is index for cursor in machine.cursors.values())
    return told(name, index, documents, index.collected == machine.stamp(index), cursors)


def collect(machine: Machine, what: bytes, name: bytes) -> bytes:
    """FT.DEBUG. No entry is left but those of the members."""
    if what.upper() != b"GC_FORCEINVOKE":
        raise syntax(1)
    index = machine.index(name)
    index.collected = machine.stamp(index)
    return line("DONE")


def tag_values(machine: Machine, name: bytes, alias: bytes) -> bytes:
    index = machine.index(name)
    field = index.field(alias)
    if field is None or field.kind != "TAG":
        raise unknown_field(2)
    values = [document[field.name] for _, document in machine.members(index) if field.name in document]
    return bulks(sorted({tag for value in values for tag in tags(value, field.separator, field.case_sensitive)}))


def search(machine: Machine, words: list) -> bytes:
    options = read_options(words)
    index = machine.index(words[1])
    found = machine.found(index, parse(words[2], index, options.params))
    check_fields(index, options)
    found = [pair for pair in found if counts(index, options, *pair)]
    shown = in_order(index, options, found) if options.sort else found
    offset, num = options.window
    reply = [integer(len(found))]
    for key, document in shown[offset:offset + num]:
        reply.append(bulk(key))
        if options.content:
            reply.append(pairs(document) if options.returned is None else returned(index, options.returned, document))
    return array(reply)


def check_fields(index: Index, options: Options):
    """The first word that names a field for SORTBY or FILTER that is not there."""
    wrong = [part.at for part in options.filters if not is_numeric(index, part.field)]
    if options.sort and index.field(options.sort.field) is None:
        wrong.append(options.sort.at)
    if wrong:
        raise unknown_field(min(wrong))


def is_numeric(index: Index, alias: bytes) -> bool:
    field = index.field(alias)
    return field is not None and field.kind == "NUMERIC"


def counts(index: Index, options: Options, key: bytes, document: dict) -> bool:
    """Whether INKEYS and each FILTER let the document through."""
    if options.keys is not None and key not in options.keys:
        return False
    ranges = [("range", index.field(part.field), part.low, part.high) for part in options.filters]
    return all(meets(tree, index, document) for tree in ranges)


def in_order(index: Index, options: Options, found: list) -> list:
    """Sorted by a field. Documents without it are last in both directions, and those that tie keep their order."""
    field = index.field(options.sort.field)

    def rank(pair):
        text = pair[1][field.name]
        if field.kind == "NUMERIC":
            return number(text)
        return text if field.unf else text.lower()

    having = [pair for pair in found if field.name in pair[1]]
    others = [pair for pair in found if field.name not in pair[1]]
    return sorted(having, key=rank, reverse=options.sort.descending) + others


def returned(index: Index, names: list, document: dict) -> bytes:
    """The named fields that are there, each under the name as it was given."""
    reply = []
    for name in names:
        field = index.field(name.removeprefix(b"@"))
        own_name = field.name if field else name.removeprefix(b"@")
        if own_name in document:
            reply += [bulk(name), bulk(document[own_name])]
    return array(reply)


def aggregate(machine: Machine, words: list) -> bytes:
    parts = read_aggregate(words)
    index = machine.index(words[1])
    tree = parse(words[2], index, parts.params)
    if parts.cursor:
        return open_cursor(machine, index, tree, parts)
    return rows_reply(all_rows(machine, index, tree, parts))


# Of each command the least and the greatest number of its words, None where there is no greatest, and what it does.
COMMANDS = {
    b"PING": (1, 2, hashes.ping),
    b"ECHO": (2, 2, hashes.echo),
    b"SELECT": (2, 2, hashes.select),
    b"QUIT": (1, None, hashes.quit_),
    b"HSET": (4, None, hashes.hset),
    b"HSETNX": (4, 4, hashes.hsetnx),
    b"HGET": (3, 3, hashes.hget),
    b"HMGET": (3, None, hashes.hmget),
    b"HGETALL": (2, 2, hashes.hgetall),
    b"HKEYS": (2, 2, hashes.hkeys),
    b"HVALS": (2, 2, hashes.hvals),
    b"HDEL": (3, None, hashes.hdel),
    b"HLEN": (2, 2, hashes.hlen),
    b"HEXISTS": (3, 3, hashes.hexists),
    b"HINCRBY": (4, 4, hashes.hincrby),
    b"DEL": (2, None, hashes.del_),
    b"EXISTS": (2, None, hashes.exists),
    b"TYPE": (2, 2, hashes.type_),
    b"DBSIZE": (1, 1, hashes.dbsize),
    b"RENAME": (3, 3, hashes.rename),
    b"FLUSHALL": (1, 2, flush_all),
    b"FT.CREATE": (5, None, create),
    b"FT.ALTER": (6, None, alter),
    b"FT.DROPINDEX": (2, 3, drop_index),
    b"FT._LIST": (1, 1, list_indexes),
    b"FT.INFO": (2, 2, info),
    b"FT.TAGVALS": (3, 3, tag_values),
    b"FT.SEARCH": (3, None, search),
    b"FT.AGGREGATE": (3, None, aggregate),
    b"FT.CURSOR": (4, None, read_or_delete),
    b"FT.DEBUG": (3, 3, collect),
}
TAKE_ALL_WORDS = (create, alter, search, aggregate, read_or_delete)
