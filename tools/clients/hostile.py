#!/usr/bin/env python3
"""Sends what one client could take a server with, beside a client that asks all the time.

    tools/clients/hostile.py PORT [WORD]     a server of at least ten workers on this machine; with WORD those rows alone whose names have it

The server is emptied first and filled with 3,000 small documents of 300 words and 100 tags; behind the queries drawn at random it is
filled with 100,000 documents of as many words, 10,000 tags and a number, for queries whose parts all differ. Prints a line for each row: the
seconds until its reply was read, the longest that the other client waited meanwhile, and by how many MB the server's memory grew at
its peak; then what stays after loads by eight connections in turn. Ends with status 1 where a reply does not come or is otherwise than its row
says, or where a bound is passed.
"""
import glob
import os
import random
import sys
import threading
import time

from asking import Beside, Client, request

DOCUMENTS = 3000
MOST = 1048576  # bytes of a query
MOST_SECONDS = 2.0
MOST_MB = 100
MANY = 100000  # documents for the rows of different parts
LOADED = 60000  # documents that each of the eight connections loads


def filled(part, sign, most=MOST):
    """A part again and again, as often as a query has room for it."""
    count = (most + len(sign)) // (len(part) + len(sign))
    return sign.join([part] * count)


def searched(text):
    return [b"FT.SEARCH", b"hx", text, b"NOCONTENT", b"LIMIT", b"0", b"1"]


def worked_out(step, count, rows):
    return [b"FT.AGGREGATE", b"hx", b"@n:[0 %d]" % (rows - 1), *[word for _ in range(count) for word in step], b"LIMIT", b"0", b"1"]


# The name of each row, its command, and how its reply begins.
ROWS = [
    ("3,000 equal prefixes", searched(b"|".join([b"w*"] * 3000)), b"*2\r\n:3000\r\n"),
    ("1 MiB of equal prefixes", searched(filled(b"w*", b"|")), b"*2\r\n:3000\r\n"),
    ("1 MiB of prefixes that differ", searched(b"|".join(b"w%d*" % (number % 300) for number in range(160000))), b"*2\r\n:3000\r\n"),
    ("1 MiB of equal tag prefixes", searched(b"@g:{" + filled(b"t*", b"|", MOST - 5) + b"}"), b"*2\r\n:3000\r\n"),
    ("1 MiB of tag clauses", searched(filled(b"@g:{t*}", b"|")), b"*2\r\n:3000\r\n"),
    ("1 MiB of equal words, all wanted", searched(filled(b"w1", b" ")), b"*2\r\n:10\r\n"),
    ("a phrase of 10,000 equal words", searched(b'"' + b" ".join([b"w1"] * 10000) + b'"'), b"*1\r\n:0\r\n"),
    ("a phrase of 1 MiB of equal words", searched(b'"' + filled(b"w1", b" ", MOST - 2) + b'"'), b"*1\r\n:0\r\n"),
    ("a phrase of 1 MiB of two words", searched(b'"' + filled(b"w1 w2", b" ", MOST - 2) + b'"'), b"*1\r\n:0\r\n"),
    ("1 MiB of short phrases", searched(filled(b'"w1 w2"', b"|")), b"*1\r\n:0\r\n"),
    ("5,000 APPLYs over 270 rows", worked_out((b"APPLY", b"@n+1", b"AS", b"m"), 5000, 270), b"*2\r\n:1\r\n"),
    ("5,000 terms over 3,000 rows", worked_out((b"APPLY", b"+".join([b"@n"] * 5000), b"AS", b"m"), 1, 3000), b"*2\r\n:1\r\n"),
]


REFUSED = b"-OOM"


def numbered(part, sign, most=MOST):
    """As many parts as a query has room for, each with the next number."""
    parts, left = [], most + len(sign)
    while True:
        text = part.replace(b"#", b"%d" % len(parts)).replace(b"~", b"%d" % (len(parts) + 1))
        left -= len(text) + len(sign)
        if left < 0:
            return sign.join(parts)
        parts.append(text)


# The same over many documents: each is found or refused as out of memory, and none takes more than its bounds.
MANY_ROWS = [
    ("prefixes that all differ", searched(numbered(b"u#*", b"|")), (b"*2\r\n", REFUSED)),
    ("one prefix of 100,000 words", searched(b"u*"), (b"*2\r\n", REFUSED)),
    ("tag prefixes that all differ", searched(b"@g:{" + numbered(b"t#*", b"|", MOST - 5) + b"}"), (b"*2\r\n", REFUSED)),
    ("clauses of tag prefixes that all differ", searched(numbered(b"@g:{t#*}", b"|")), (b"*2\r\n", REFUSED)),
    ("tags that all differ", searched(b"@g:{" + numbered(b"t#", b"|", MOST - 5) + b"}"), (b"*2\r\n", REFUSED)),
    ("words that all differ", searched(numbered(b"u#", b"|")), (b"*2\r\n", REFUSED)),
    ("words that all differ, all wanted", searched(numbered(b"u#", b" ")), (b"*1\r\n:0\r\n", REFUSED)),
    ("words of a field that all differ", searched(numbered(b"@t:u#", b"|")), (b"*2\r\n", REFUSED)),
    ("words that are not wanted", searched(numbered(b"-u#", b" ")), (b"*", REFUSED)),
    ("words of which one must be missing", searched(numbered(b"-u#", b"|")), (b"*", REFUSED)),
    ("optional words", searched(numbered(b"-u#", b" ").replace(b"-", b"~")), (b"*", REFUSED)),
    ("pairs of words, both wanted", searched(numbered(b"(u# u~)", b"|")), (b"*1\r\n:0\r\n", REFUSED)),
    ("pairs of words, one wanted", searched(numbered(b"(u#|u~)", b" ")), (b"*1\r\n:0\r\n", REFUSED)),
    ("phrases that all differ", searched(numbered(b'"u# common"', b"|")), (b"*2\r\n", REFUSED)),
    ("a phrase of words that all differ", searched(b'"' + numbered(b"u#", b" ", MOST - 2) + b'"'), (b"*1\r\n:0\r\n", REFUSED)),
    ("numbers that all differ", searched(numbered(b"@n:[# #]", b"|")), (b"*2\r\n", REFUSED)),
    ("intervals that all differ", searched(numbered(b"@n:[# 99999]", b"|")), (b"*2\r\n", REFUSED)),
    ("intervals that all differ, all wanted", searched(numbered(b"@n:[# 99999]", b" ")), (b"*", REFUSED)),
]

# Transactions: the name of each, its commands, and how the reply to EXEC begins. Short of memory, it executes none.
BLOCKS = [
    ("a transaction of 1,000 searches", [searched(b"common")] * 1000, b"*1000\r\n*2\r\n:3000\r\n"),
    ("a transaction of 65,536 short commands", [[b"HSET", b"block", b"f", b"x"]] * 65536, (b"*65536\r\n:1\r\n", b"-EXECABORT")),
    ("a transaction of 100 MiB", [[b"HSET", b"block", b"f", b"x" * MOST]] * 100, (b"*100\r\n:1\r\n", b"-EXECABORT")),
]


def drawn_part(draw, levels):
    """A part of a query, drawn at random."""
    form = draw.randrange(9 if levels else 6)
    word = b"w%d" % draw.randrange(300)
    if form == 0:
        return word + b"*"
    if form == 1:
        return b'"' + b" ".join(b"w%d" % draw.randrange(4) for _ in range(draw.randrange(1, 9))) + b'"'
    if form == 2:
        return b"@g:{t%d|t%d*}" % (draw.randrange(100), draw.randrange(10))
    if form == 3:
        least = draw.randrange(DOCUMENTS)
        return b"@n:[%d %d]" % (least, least + draw.randrange(500))
    if form in (4, 5):
        return word
    if form == 6:
        return b"-" + drawn_part(draw, levels - 1)
    sign = b"|" if form == 7 else b" "
    return b"(" + sign.join(drawn_part(draw, levels - 1) for _ in range(draw.randrange(2, 6))) + b")"


def drawn_query(seed):
    """A query of 1 MiB of drawn parts."""
    draw = random.Random(seed)
    sign = draw.choice((b"|", b" "))
    parts, left = [], MOST
    while True:
        part = drawn_part(draw, draw.randrange(6))
        left -= len(part) + 1
        if left < 0:
            return sign.join(parts)
        parts.append(part)


def process_at(port):
    """The process that listens at a port of this machine."""
    wanted = f"0100007F:{port:04X}"
    sockets = {line.split()[9] for line in open("/proc/net/tcp") if line.split()[1] == wanted and line.split()[3] == "0A"}
    for link in glob.glob("/proc/[0-9]*/fd/*"):
        try:
            target = os.readlink(link)
        except OSError:
            continue
        if target.startswith("socket:[") and target[8:-1] in sockets:
            return int(link.split("/")[2])
    sys.exit(f"no server at port {port}")


class Memory:
    """The resident memory of a process, and its peak since the last look, in MB."""

    def __init__(self, process):
        self.process = process

    def begin(self):
        with open(f"/proc/{self.process}/clear_refs", "w") as file:
            file.write("5")
        return self.told("VmRSS")

    def told(self, name):
        for line in open(f"/proc/{self.process}/status"):
            if line.startswith(name + ":"):
                return int(line.split()[1]) / 1024
        return 0.0


def load(client, count, first=0):
    for start in range(first, first + count, 1000):
        client.link.sendall(b"".join(
            request([b"HSET", b"h:%d" % number, b"t", b"w%d common" % (number % 300), b"g", b"t%d" % (number % 100), b"n", b"%d" % number])
            for number in range(start, min(start + 1000, first + count))))
        for _ in range(start, min(start + 1000, first + count)):
            client.pass_reply()
        client.data.clear()
        client.at = 0


def fill_with_many(client):
    client.ask([b"FLUSHALL"])
    client.ask([b"FT.CREATE", b"hx", b"PREFIX", b"1", b"h:", b"SCHEMA", b"t", b"TEXT", b"g", b"TAG", b"n", b"NUMERIC"])
    for first in range(0, MANY, 1000):
        client.link.sendall(b"".join(
            request([b"HSET", b"h:%d" % number, b"t", b"u%d common" % number, b"g", b"t%d" % (number % 10000), b"n", b"%d" % number])
            for number in range(first, first + 1000)))
        for _ in range(1000):
            client.pass_reply()
        client.data.clear()
        client.at = 0


def fill(client):
    client.ask([b"FLUSHALL"])
    client.ask([b"FT.CREATE", b"hx", b"PREFIX", b"1", b"h:", b"SCHEMA", b"t", b"TEXT", b"g", b"TAG", b"n", b"NUMERIC"])
    load(client, DOCUMENTS)


def answered(client, words, wanted):
    """Whether a command's reply begins as wanted, and what to say of it where it is a refusal."""
    reply = client.ask(words)
    return reply.startswith(wanted), ": refused" if reply.startswith(REFUSED) else ""


def executed(client, commands, wanted):
    """Whether EXEC is answered as wanted behind MULTI and these commands, and what to say of it where it executes none."""
    client.ask([b"MULTI"])
    for first in range(0, len(commands), 1000):
        client.link.sendall(b"".join(map(request, commands[first:first + 1000])))
        for _ in commands[first:first + 1000]:
            client.pass_reply()
        client.data.clear()
        client.at = 0
    reply = client.ask([b"EXEC"])
    client.ask([b"DEL", b"block"])
    return reply.startswith(wanted), ": refused" if reply.startswith(b"-") else ""


class Watch:
    """Measures what is done beside the other client, and says how it went."""

    def __init__(self, beside, memory):
        self.beside = beside
        self.memory = memory
        self.wrong = 0

    def row(self, name, act, seconds=MOST_SECONDS, megabytes=MOST_MB):
        self.beside.most = 0.0
        before = self.memory.begin()
        begun = time.monotonic()
        holds, note = act()
        spent = time.monotonic() - begun
        grown = self.memory.told("VmHWM") - before
        time.sleep(0.05)  # for the reply to the other client
        holds = holds and self.beside.fault is None
        within = spent <= seconds and grown <= megabytes
        self.wrong += not (holds and within)
        says = "ok  " if holds and within else "OVER" if holds else "NOT "
        print(f"{says} {spent:7.2f} s, beside {self.beside.most:6.3f} s, {grown:6.0f} MB  {name}{note}", flush=True)


def pipelined(port):
    """Whether a client is answered that writes 400,000 reads before it reads a reply."""
    client = Client(port)
    client.ask([b"HSET", b"long", b"v", b"x" * 100])
    client.link.sendall(request([b"HGET", b"long", b"v"]) * 400000)
    wanted = b"$100\r\n" + b"x" * 100 + b"\r\n"
    left = len(wanted) * 400000
    while left:
        piece = client.link.recv(1 << 20)
        if not piece:
            return False
        left -= len(piece)
    return True


def loaded_in_turn(port, memory):
    """Whether memory comes back when eight connections load and FLUSHALL empties in between."""
    clients = [Client(port) for _ in range(8)]
    empty = memory.told("VmRSS")
    for client in clients:
        load(client, LOADED)
        full = memory.told("VmRSS")
        client.ask([b"FLUSHALL"])
        client.ask([b"FT.CREATE", b"hx", b"PREFIX", b"1", b"h:", b"SCHEMA", b"t", b"TEXT", b"g", b"TAG", b"n", b"NUMERIC"])
    left = memory.told("VmRSS")
    print(f"     loaded by 8 connections in turn: {empty:.0f} MB empty, {full:.0f} MB with the last load, {left:.0f} MB behind FLUSHALL", flush=True)
    return left - empty <= 20


def main():
    if len(sys.argv) not in (2, 3):
        sys.exit(__doc__)
    port = int(sys.argv[1])
    word = sys.argv[2] if len(sys.argv) == 3 else ""
    client = Client(port)
    fill(client)
    memory = Memory(process_at(port))
    beside = Beside(port)
    watch = Watch(beside, memory)
    for name, words, wanted in ROWS:
        if word in name:
            watch.row(name, lambda: answered(client, words, wanted))
    for seed in range(100):
        name = f"1 MiB drawn at random, {seed}"
        if word in name:
            text = drawn_query(seed)
            watch.row(name, lambda: answered(client, searched(text), (b"*", b"-")))
    for name, commands, wanted in BLOCKS:
        if word in name:
            watch.row(name, lambda: executed(client, commands, wanted), 2, 150)
    if word in "400,000 reads written before a reply is read":
        watch.row("400,000 reads written before a reply is read", lambda: (pipelined(port), ""), 60)
    if any(word in name for name, _, _ in MANY_ROWS):
        # The server is emptied once more, what the other client wrote too.
        beside.end()
        fill_with_many(client)
        beside = watch.beside = Beside(port)
    for name, words, wanted in MANY_ROWS:
        if word in name:
            watch.row(name, lambda: answered(client, words, wanted))
    beside.end()
    # It empties the server again and again, what the other client wrote too.
    if word in "loads in turn" and not loaded_in_turn(port, memory):
        watch.wrong += 1
    sys.exit(1 if watch.wrong else 0)


if __name__ == "__main__":
    main()
