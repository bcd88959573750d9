#!/usr/bin/env python3
"""Writes the load of a seed as the requests of RESP2, by a generator of its own.

    plain_load.py SEED DOCS        the bytes
    plain_load.py SEED DOCS show   the commands, one a line
    plain_load.py rows             the rows of loads as crates/leaf_rows/stdin has them

It shares no line with the program: the generator is PCG XSH RR 64/32 (O'Neill, "PCG: A Family of Simple Fast
Space-Efficient Statistically Good Algorithms for Random Number Generation"), begun as the reference code's
pcg32_srandom begins it, with the seed as its state and 1 as its stream. The first word that the reference code prints
for 42 and 54 is tried each time.
"""
import sys

WORD = (1 << 64) - 1


def words(seed, stream):
    """The 32-bit words of a seed and a stream, without end."""
    step = (stream << 1 | 1) & WORD
    state = (0 * 6364136223846793005 + step) & WORD
    state = (state + seed) & WORD
    state = (state * 6364136223846793005 + step) & WORD
    while True:
        old = state
        state = (old * 6364136223846793005 + step) & WORD
        mixed = ((old >> 18 ^ old) >> 27) & 0xFFFFFFFF
        turn = old >> 59
        yield (mixed >> turn | mixed << (-turn & 31)) & 0xFFFFFFFF


def commands(seed, docs):
    """The commands of the load, each a list of words."""
    drawn = words(seed, 1)
    yield "FT.CREATE load SCHEMA body TEXT tag TAG n NUMERIC".split()
    for i in range(1, docs + 1):
        body = " ".join(f"w{next(drawn) % 64}" for _ in range(8))
        tag = f"t{next(drawn) % 8}"
        number = str(next(drawn) % 1000)
        yield ["HSET", f"doc:{i}", "body", body, "tag", tag, "n", number]
        if i % 10 == 0:
            yield ["DEL", f"doc:{i // 2}"]
    yield "FT.SEARCH load w1 LIMIT 0 0".split()
    yield ["FT.SEARCH", "load", "@n:[0 499]", "SORTBY", "n"]
    yield "FT.DEBUG GC_FORCEINVOKE load".split()
    yield "FT.AGGREGATE load * GROUPBY 1 @tag REDUCE COUNT 0 AS c".split()
    yield ["DBSIZE"]


def request(command):
    """A command as an array of bulk strings."""
    out = [f"*{len(command)}\r\n"]
    out += [f"${len(word)}\r\n{word}\r\n" for word in command]
    return "".join(out).encode()


def load(seed, docs):
    """The bytes of the load."""
    return b"".join(request(command) for command in commands(seed, docs))


def rows():
    """A row for each of some loads: the call, and its bytes in quotes."""
    for seed in (0, 1, 7, 2**63 - 1):
        for docs in (1, 9, 10, 11):
            text = load(seed, docs).decode().replace("\\", "\\\\").replace('"', '\\"').replace("\r", "\\r").replace("\n", "\\n")
            yield f'make {seed} {docs} | "{text}"'


def main():
    assert next(words(42, 54)) == 0xA15C02B7
    if sys.argv[1:] == ["rows"]:
        return print("\n".join(rows()))
    seed, docs = int(sys.argv[1]), int(sys.argv[2])
    if sys.argv[3:] == ["show"]:
        return print("\n".join(" ".join(map(repr, command)) for command in commands(seed, docs)))
    sys.stdout.buffer.write(load(seed, docs))


main()
