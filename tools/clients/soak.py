#!/usr/bin/env python3
"""Runs writers, readers and changes of indexes side by side for minutes, and checks every answer.

    tools/clients/soak.py PORT MINUTES [PID]     a server with at least 8 workers, to which nobody else is connected

It loads 100,000 documents into an index, and then: two clients write 1,000 of the keys again and again, each its own half;
four ask for documents by their words, tags and numbers; one makes, alters and drops a second index. A writer searches for what
it wrote, and must find just that; a reader's totals lie between what is always there and what may be; FT.INFO of the first
index tells the number of documents exactly. With PID the server's memory is read each ten seconds: at the end it must be within a
quarter of what it was after the first minute, or a tenth of the time where that is longer. Prints what was done, and ends with
status 1 at the first wrong answer.
"""
import os
import random
import sys
import threading
import time

sys.path.insert(0, os.path.dirname(os.path.abspath(__file__)))
from asking import Client

DOCS = 100_000  # the documents of the load
KEYS = 500  # the keys of one writer


def text(number):
    draw = random.Random(number)
    return " ".join(f"w{draw.randrange(2000)}" for _ in range(8))


class Soak:
    def __init__(self, port, minutes, pid):
        self.port = port
        self.ends = time.monotonic() + 60 * minutes
        self.pid = pid
        self.fault = None
        self.done = {"writes": 0, "searches": 0, "changes": 0}
        self.lock = threading.Lock()
        self.longest = {"write": 0.0, "search": 0.0}

    def wrong(self, what, came):
        if self.fault is None:
            self.fault = f"{what}: {came[:200]!r}"

    def goes(self):
        return self.fault is None and time.monotonic() < self.ends

    def count(self, what, one=1):
        with self.lock:
            self.done[what] += one

    def timed(self, client, kind, words):
        begun = time.monotonic()
        reply = client.ask(words)
        took = time.monotonic() - begun
        with self.lock:
            self.longest[kind] = max(self.longest[kind], took)
        return reply

    def load(self):
        client = Client(self.port)
        if client.ask([b"FT.CREATE", b"ix", b"PREFIX", b"1", b"doc:", b"SCHEMA", b"t", b"TEXT", b"g", b"TAG", b"n", b"NUMERIC"]) != b"+OK\r\n":
            return self.wrong("the index", b"not made")
        for number in range(DOCS):
            client.ask([b"HSET", b"doc:%d" % number, b"t", text(number).encode(), b"g", b"t%d" % (number % 8), b"n", b"%d" % (number % 1000)])
        return None

    def write(self, first):
        """Writes its keys again and again: each round has a word and a tag of its own."""
        client, turn, draw = Client(self.port), 0, random.Random(first)
        while self.goes():
            turn += 1
            word, tag = b"r%dx%d" % (first, turn), b"k%dx%d" % (first, turn)
            for key in range(first, first + KEYS):
                reply = self.timed(client, "write", [b"HSET", b"doc:%d" % key, b"t", text(draw.randrange(1 << 30)).encode() + b" " + word, b"g", tag, b"n", b"%d" % (100_000 + turn)])
                if reply != b":0\r\n":
                    return self.wrong("a write", reply)
            self.count("writes", KEYS)
            for query in (word, b"@g:{" + tag + b"}", word + b" @n:[%d %d]" % (100_000 + turn, 100_000 + turn)):
                reply = self.timed(client, "search", [b"FT.SEARCH", b"ix", query, b"NOCONTENT", b"LIMIT", b"0", b"0"])
                if reply != b"*1\r\n:%d\r\n" % KEYS:
                    return self.wrong(f"a search for {query!r}", reply)
            old = b"r%dx%d" % (first, turn - 1)
            reply = self.timed(client, "search", [b"FT.SEARCH", b"ix", old, b"NOCONTENT"])
            if reply != b"*1\r\n:0\r\n":
                return self.wrong(f"a search for what was written over, {old!r}", reply)
            self.count("searches", 4)
        return None

    def read(self, seed):
        """Asks for documents that nobody writes: those from 1,000 on."""
        client, draw = Client(self.port), random.Random(seed)
        while self.goes():
            number = draw.randrange(2 * KEYS, DOCS)
            words = text(number)
            reply = self.timed(client, "search", [b"FT.SEARCH", b"ix", words.encode() + b" @g:{t%d} @n:[%d %d]" % (number % 8, number % 1000, number % 1000), b"NOCONTENT"])
            if b"\r\ndoc:%d\r\n" % number not in reply:
                return self.wrong(f"a search for {words!r}", reply)
            reply = self.timed(client, "search", [b"FT.SEARCH", b"ix", b"@g:{t1}", b"NOCONTENT", b"LIMIT", b"0", b"0"])
            total = int(reply.split(b":")[1]) if reply.startswith(b"*1\r\n:") else -1
            if not DOCS // 8 - 2 * KEYS <= total <= DOCS // 8:
                return self.wrong("a count of a tag", reply)
            self.count("searches", 2)
        return None

    def change(self):
        """Makes, alters and drops a second index, and looks at the first."""
        client = Client(self.port)
        steps = [
            ([b"FT.CREATE", b"iy", b"PREFIX", b"1", b"doc:1", b"SCHEMA", b"t", b"TEXT"], b"+OK\r\n"),
            ([b"FT.ALTER", b"iy", b"SCHEMA", b"ADD", b"n", b"NUMERIC"], b"+OK\r\n"),
            ([b"FT.SEARCH", b"iy", b"@n:[0 999]", b"NOCONTENT", b"LIMIT", b"0", b"0"], None),
            ([b"FT.DROPINDEX", b"iy"], b"+OK\r\n"),
        ]
        while self.goes():
            for words, want in steps:
                reply = client.ask(words)
                if want is not None and reply != want:
                    return self.wrong(f"{words[0].decode()}", reply)
            reply = client.ask([b"FT.INFO", b"ix"])
            if b"num_docs\r\n:%d\r\n" % DOCS not in reply:
                return self.wrong("FT.INFO", reply)
            self.count("changes", len(steps))
            time.sleep(1.0)
        return None

    def resident(self):
        with open(f"/proc/{self.pid}/status", encoding="ascii") as status:
            for line in status:
                if line.startswith("VmRSS:"):
                    return int(line.split()[1]) / 1024
        return 0.0

    def run(self, minutes):
        begun = time.monotonic()
        self.load()
        print(f"loaded {DOCS} documents in {time.monotonic() - begun:.1f} seconds", flush=True)
        self.ends = time.monotonic() + 60 * minutes
        works = [lambda: self.write(0), lambda: self.write(KEYS), self.change] + [lambda seed=seed: self.read(seed) for seed in range(4)]
        threads = [threading.Thread(target=work) for work in works]
        for thread in threads:
            thread.start()
        begun, early, late = time.monotonic(), None, None
        while any(thread.is_alive() for thread in threads):
            time.sleep(1.0)
            if self.pid is not None:
                late = self.resident()
                if early is None and time.monotonic() - begun >= min(60.0, 6.0 * minutes):
                    early = late
        for thread in threads:
            thread.join()
        print(", ".join(f"{count} {what}" for what, count in self.done.items()))
        print(", ".join(f"longest {what} {1000 * took:.1f} ms" for what, took in self.longest.items()))
        if early is not None:
            print(f"resident {early:.0f} MB early, {late:.0f} MB at the end")
            if self.fault is None and late > 1.25 * early:
                self.fault = "memory grew by more than a quarter"
        print(self.fault or "every answer was right")
        return 1 if self.fault else 0


if __name__ == "__main__":
    if len(sys.argv) not in (3, 4):
        sys.exit(__doc__)
    MINUTES = float(sys.argv[2])
    sys.exit(Soak(int(sys.argv[1]), MINUTES, int(sys.argv[3]) if len(sys.argv) == 4 else None).run(MINUTES))
