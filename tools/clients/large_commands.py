#!/usr/bin/env python3
"""Sends the largest lawful command of each form to a server, beside a client that asks all the time.

    tools/clients/large_commands.py PORT [WORD]     a server of at least two workers; with WORD those forms alone whose names have it

The server is emptied first. Each form is sent over ten documents, two of which have 32,767 fields. Behind each the other
client reads back what it wrote last. Prints a line for each form: the bytes of the command, the seconds until its reply was
read, the longest that the other client waited meanwhile, and the first bytes of the reply. Ends with status 1 where a reply
does not come, or is otherwise than its form says.
"""
import sys
import time

from asking import Beside, Client


def numbers(count, form=b"%d", first=1):
    return [form % number for number in range(first, first + count)]


def counted(*words):
    return [b"%d" % len(words), *words]


def chain(first, sign, operand):
    """As long a chain of operands as a word has room for."""
    part = sign + operand
    return first + part * ((1048576 - len(first)) // len(part))


def aggregate(*words):
    return [b"FT.AGGREGATE", b"ix", b"*", *words]


def applied(*texts):
    return [word for text in texts for word in (b"APPLY", text, b"AS", b"m")]


def search(text, *words):
    return [b"FT.SEARCH", b"ix", text, *words]


def nested_lists(levels):
    words = [b"GROUPBY", b"0", b"REDUCE", b"TOLIST", b"1", b"@n"]
    return words + [b"GROUPBY", b"0", b"REDUCE", b"TOLIST", b"1", b"@tolist_n", b"AS", b"tolist_n"] * (levels - 1)


# The name of each form, its words, and how its reply begins.
FORMS = [
    *((f"APPLY, a chain of {sign.decode()}", aggregate(*applied(chain(b"1", sign, b"1"))), b"*11\r\n:10\r\n") for sign in (b"+", b"-", b"*", b"&&", b"||")),
    ("FILTER, a chain of +", aggregate(b"FILTER", chain(b"1", b"+", b"1")), b"*11\r\n:10\r\n"),
    ("APPLY, a chain of all signs", aggregate(*applied(chain(b"1", b"||", b"1&&1>1+1*1"))), b"*11\r\n:10\r\n"),
    ("APPLY, a chain of properties", aggregate(*applied(chain(b"@n", b"+", b"@n"))), b"*11\r\n:10\r\n"),
    ("APPLY, chains of groups", aggregate(*applied(chain(b"1", b"+", b"(1*(1+1))"))), b"*11\r\n:10\r\n"),
    ("APPLY, 32 levels at the end of a chain", aggregate(*applied(b"1" + b"+1" * 500000 + b"+" + b"(" * 32 + b"1" + b")" * 32)), b"*11\r\n:10\r\n"),
    ("APPLY, 15 chains of 1 MiB", aggregate(*applied(*[chain(b"1", b"+", b"1")] * 15)), b"*11\r\n:10\r\n"),
    ("APPLY, 15 chains of properties", aggregate(*applied(*[chain(b"@n", b"+", b"@n")] * 15)), b"*11\r\n:10\r\n"),
    ("APPLY, 15 chains of cells behind LOAD *", aggregate(b"LOAD", b"*", *applied(*[chain(b"@f1", b"+", b"@f1")] * 15)), b"*11\r\n:10\r\n"),
    ("APPLY, a chain, and a fault behind it", aggregate(*applied(chain(b"1", b"+", b"1") + b"+")), b"-ERR syntax error at word 4\r\n"),
    ("APPLY, 15 faults behind chains", aggregate(*applied(*[chain(b"1", b"+", b"1")] * 14, b"1+")), b"-ERR syntax error at word 60\r\n"),
    ("APPLY, a chain on no index", [b"FT.AGGREGATE", b"none", b"*", *applied(chain(b"1", b"+", b"1"))], b"-Unknown index name\r\n"),
    ("APPLY, 16,000 of them", aggregate(*applied(*[b"@n+1"] * 16000)), b"*11\r\n:10\r\n"),
    ("APPLY, 16,000 names", aggregate(*[word for name in numbers(16000) for word in (b"APPLY", b"1", b"AS", name)]), b"*11\r\n:10\r\n"),
    ("GROUPBY 0, 21,000 reducers", aggregate(b"GROUPBY", b"0", *[b"REDUCE", b"COUNT", b"0"] * 21000), b"*2\r\n:1\r\n"),
    ("GROUPBY 0, 10,000 names", aggregate(b"GROUPBY", b"0", *[word for name in numbers(10000) for word in (b"REDUCE", b"SUM", b"1", b"@n", b"AS", name)]), b"*2\r\n:1\r\n"),
    ("GROUPBY, 60,000 properties", aggregate(b"GROUPBY", b"60000", *numbers(60000, b"@p%d"), b"REDUCE", b"COUNT", b"0"), b"*2\r\n:1\r\n"),
    ("GROUPBY, 60,000 fields", aggregate(b"GROUPBY", b"60000", *numbers(60000, b"@f%d"), b"REDUCE", b"COUNT", b"0"), b"*3\r\n:2\r\n"),
    ("GROUPBY, 60,000 cells behind LOAD *", aggregate(b"LOAD", b"*", b"GROUPBY", b"60000", *numbers(60000, b"@f%d"), b"REDUCE", b"COUNT", b"0"), b"*3\r\n:2\r\n"),
    ("GROUPBY twice, 30,000 properties each", aggregate(*[word for _ in range(2) for word in (b"GROUPBY", b"30000", *numbers(30000, b"@f%d"))]), b"*3\r\n:2\r\n"),
    ("LOAD *", aggregate(b"LOAD", b"*"), b"*11\r\n:10\r\n"),
    ("LOAD, 60,000 fields", aggregate(b"LOAD", b"60000", *numbers(60000, b"f%d")), b"*11\r\n:10\r\n"),
    ("SORTBY, 32,000 properties", aggregate(b"SORTBY", b"64000", *[word for name in numbers(32000, b"@f%d") for word in (name, b"ASC")]), b"*11\r\n:10\r\n"),
    ("TOLIST, 8,000 lists in one another", aggregate(*nested_lists(8000)), b"*2\r\n:1\r\n"),
    ("RETURN, 60,000 fields", search(b"*", b"RETURN", b"60000", *numbers(60000, b"f%d")), b"*21\r\n:10\r\n"),
    ("INKEYS, 60,000 keys", search(b"*", b"NOCONTENT", b"INKEYS", b"60000", *numbers(60000)), b"*1\r\n:0\r\n"),
    ("FILTER of a search, 15,000 of them", search(b"*", b"NOCONTENT", *[b"FILTER", b"n", b"0", b"9"] * 15000), b"*11\r\n:10\r\n"),
    ("a union of 340,000 words", search(b"|".join([b"ab"] * 340000), b"NOCONTENT"), b"*1\r\n:0\r\n"),
    ("an intersection of 340,000 words", search(b" ".join([b"ab"] * 340000), b"NOCONTENT"), b"*1\r\n:0\r\n"),
    ("a phrase of 340,000 words", search(b'"' + b" ".join([b"ab"] * 340000) + b'"', b"NOCONTENT"), b"*1\r\n:0\r\n"),
    ("a union of 100,000 ranges", search(b"|".join([b"@n:[0 9]"] * 100000), b"NOCONTENT"), b"*11\r\n:10\r\n"),
    ("a union of 340,000 negations", search(b"|".join([b"-z"] * 340000), b"NOCONTENT"), b"*11\r\n:10\r\n"),
    ("a union of 340,000 prefixes", search(b"|".join([b"w*"] * 340000), b"NOCONTENT"), b"*11\r\n:10\r\n"),
    ("30,000 parameters, each used often", search(b"|".join([b"$p30000"] * 120000), b"NOCONTENT", b"PARAMS", b"60000", *[word for name in numbers(30000, b"p%d") for word in (name, b"ab")]), b"*1\r\n:0\r\n"),
    ("60,000 stop words", [b"FT.CREATE", b"is", b"STOPWORDS", b"60000", *numbers(60000), b"SCHEMA", b"t", b"TEXT"], b"+OK\r\n"),
    ("a text of 500,000 words, 60,000 stop words", [b"HSET", b"s", b"t", b"z " * 524288], b":1\r\n"),
    ("ten texts of 500,000 words, 60,000 stop words", [b"HSET", b"s", *[word for number in range(10) for word in (b"t%d" % number, b"z " * 524288)]], b":10\r\n"),
    ("60,000 prefixes", [b"FT.CREATE", b"ip", b"PREFIX", b"60000", *numbers(60000, b"no%d:"), b"SCHEMA", b"t", b"TEXT"], b"+OK\r\n"),
    ("a text of 500,000 words, 60,000 prefixes", [b"HSET", b"s", b"t", b"y " * 524288], b":0\r\n"),
    ("HSET, 32,767 fields", [b"HSET", b"wide", *[word for name in numbers(32767, b"g%d") for word in (name, b"v")]], b":32767\r\n"),
    ("HMGET, 60,000 fields", [b"HMGET", b"wide", *numbers(60000, b"g%d")], b"*60000\r\n"),
    ("HDEL, 60,000 fields", [b"HDEL", b"wide", *numbers(60000, b"g%d", 60001)], b":0\r\n"),
    ("DEL, 60,000 keys", [b"DEL", *numbers(60000, b"none%d")], b":0\r\n"),
    ("ECHO, 1 MiB", [b"ECHO", b"x" * 1048576], b"$1048576\r\n"),
]


def fill(client):
    """Ten documents, two of which have 32,767 fields, in an index."""
    client.ask([b"FLUSHALL"])
    client.ask([b"FT.CREATE", b"ix", b"PREFIX", b"1", b"d:", b"SCHEMA", b"n", b"NUMERIC", b"t", b"TEXT"])
    for number in range(10):
        wide = [word for name in numbers(32765, b"f%d") for word in (name, b"v")] if number < 2 else []
        client.ask([b"HSET", b"d:%d" % number, b"n", b"1", b"t", b"word w%d" % number, *wide])


def main():
    if len(sys.argv) not in (2, 3):
        sys.exit(__doc__)
    client = Client(int(sys.argv[1]))
    fill(client)
    beside = Beside(int(sys.argv[1]))
    wrong = 0
    for name, words, wanted in FORMS:
        if len(sys.argv) == 3 and sys.argv[2] not in name:
            continue
        beside.most = 0.0
        begun = time.monotonic()
        reply = client.ask(words)
        spent = time.monotonic() - begun
        holds = reply.startswith(wanted) and beside.fault is None
        wrong += not holds
        print(f"{'ok ' if holds else 'NOT'} {sum(map(len, words)):>9} bytes {spent:7.3f} s, beside {beside.most:7.3f} s  {name}: {reply[:40]!r}", flush=True)
    beside.end()
    sys.exit(1 if wrong else 0)


if __name__ == "__main__":
    main()
