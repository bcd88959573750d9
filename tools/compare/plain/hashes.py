"""The hashes, and the commands of Redis (COMMANDS.md).

`Hashes.documents` has them in the order of their last writes, each with its fields in the order in which they came.
`Hashes.event` is the number of the command, from 1.
"""
from .texts import canonical, in_64_bits
from .wire import Fault, bulk, bulks, integer, line, pairs


class Hashes:
    def __init__(self):
        self.event = 0
        self.documents = {}
        # The number of the last write of each key, also of those that are gone since.
        self.ids = {}

    def fields(self, key: bytes) -> dict:
        return self.documents.get(key, {})

    def write(self, key: bytes, fields: dict):
        """The hash goes last; without fields it is gone."""
        self.documents.pop(key, None)
        if fields:
            self.documents[key] = fields
            self.ids[key] = self.event


def not_an_integer() -> Fault:
    return Fault("ERR value is not an integer or out of range")


def ping(_hashes: Hashes, *message: bytes) -> bytes:
    return bulk(message[0]) if message else line("PONG")


def echo(_hashes: Hashes, message: bytes) -> bytes:
    return bulk(message)


def select(_hashes: Hashes, database: bytes) -> bytes:
    n = canonical(database)
    if n is None:
        raise not_an_integer()
    if n != 0:
        raise Fault("ERR DB index is out of range")
    return line("OK")


def quit_(_hashes: Hashes, *_words: bytes) -> bytes:
    return line("OK")


def hset(hashes: Hashes, key: bytes, *words: bytes) -> bytes:
    fields = hashes.fields(key)
    before = len(fields)
    for name, value in zip(words[::2], words[1::2]):
        fields[name] = value
    hashes.write(key, fields)
    return integer(len(fields) - before)


def hsetnx(hashes: Hashes, key: bytes, name: bytes, value: bytes) -> bytes:
    if name in hashes.fields(key):
        return integer(0)
    return hset(hashes, key, name, value)


def hget(hashes: Hashes, key: bytes, name: bytes) -> bytes:
    return bulk(hashes.fields(key).get(name))


def hmget(hashes: Hashes, key: bytes, *names: bytes) -> bytes:
    return bulks(hashes.fields(key).get(name) for name in names)


def hgetall(hashes: Hashes, key: bytes) -> bytes:
    return pairs(hashes.fields(key))


def hkeys(hashes: Hashes, key: bytes) -> bytes:
    return bulks(hashes.fields(key))


def hvals(hashes: Hashes, key: bytes) -> bytes:
    return bulks(hashes.fields(key).values())


def hdel(hashes: Hashes, key: bytes, *names: bytes) -> bytes:
    """It is a write where it takes a field out."""
    fields = hashes.fields(key)
    kept = {name: value for name, value in fields.items() if name not in names}
    if len(kept) < len(fields):
        hashes.write(key, kept)
    return integer(len(fields) - len(kept))


def hlen(hashes: Hashes, key: bytes) -> bytes:
    return integer(len(hashes.fields(key)))


def hexists(hashes: Hashes, key: bytes, name: bytes) -> bytes:
    return integer(name in hashes.fields(key))


def hincrby(hashes: Hashes, key: bytes, name: bytes, increment: bytes) -> bytes:
    by = canonical(increment)
    if by is None:
        raise not_an_integer()
    value = canonical(hashes.fields(key).get(name, b"0"))
    if value is None:
        raise Fault("ERR hash value is not an integer")
    if in_64_bits(value + by) is None:
        raise Fault("ERR increment or decrement would overflow")
    hset(hashes, key, name, b"%d" % (value + by))
    return integer(value + by)


def del_(hashes: Hashes, *keys: bytes) -> bytes:
    return integer(sum(hashes.documents.pop(key, None) is not None for key in keys))


def exists(hashes: Hashes, *keys: bytes) -> bytes:
    return integer(sum(key in hashes.documents for key in keys))


def type_(hashes: Hashes, key: bytes) -> bytes:
    return line("hash" if key in hashes.documents else "none")


def dbsize(hashes: Hashes) -> bytes:
    return integer(len(hashes.documents))


def rename(hashes: Hashes, key: bytes, other: bytes) -> bytes:
    """To another key it is a write of that key; to itself it changes nothing."""
    if key not in hashes.documents:
        raise Fault("ERR no such key")
    if key != other:
        hashes.write(other, hashes.documents.pop(key))
    return line("OK")
