"""Compares a program with a redis-server, reply by reply: compare_redis.py PROGRAM SOCKET. See compare_redis.sh.

The cases and the differences by decision are in redis_cases.py. A case is a command of a session, or a stream of bytes.
Where a difference is by decision, our reply has to be just the one that the decision says.
"""
import collections
import socket
import subprocess
import sys
import time

from plain.wire import end_of_reply
from redis_cases import RULES, SET, Sessions, groups, request

MOST_SHOWN = 120
MOST_DIFFERENCES = 10
QUIT = request([b"QUIT"])


class Redis:
    """A server, with a connection of our own for settings and for waiting until it has read what was sent."""

    def __init__(self, path):
        self.path = path
        self.control = self.connect()

    def connect(self):
        for _ in range(100):
            connection = socket.socket(socket.AF_UNIX)
            try:
                connection.connect(self.path)
                return connection
            except OSError:
                connection.close()
                time.sleep(0.05)
        sys.exit("compare_redis: the redis-server does not answer")

    def ask(self, *words):
        """One command whose reply is a line."""
        self.control.sendall(request([str(word).encode() for word in words]))
        reply = b""
        while not reply.endswith(b"\r\n"):
            reply += self.control.recv(4096)
        if reply.startswith(b"-"):
            sys.exit(f"compare_redis: redis-server answers {words} with {reply}")

    def begin(self, settings):
        self.ask("FLUSHALL")
        for name, value in settings.items():
            self.ask("CONFIG", "SET", name, value)

    def reply(self, data):
        """All replies to the bytes, whether the server ends the connection or waits for more of them.

        The server reads at least 16 KiB of each connection in a turn of its loop, and answers in the same turn. A reply
        to PING takes one turn, so 64 of them are enough for the megabyte at most that the socket holds.
        """
        with self.connect() as connection:
            try:
                connection.sendall(data)
            except (BrokenPipeError, ConnectionResetError):
                pass  # it has ended the connection, and what it wrote is there to be read
            if not data.endswith(QUIT):
                for _ in range(64):
                    self.ask("PING")
                connection.setblocking(False)
            return b"".join(pieces(connection))


def pieces(connection):
    while True:
        try:
            piece = connection.recv(1 << 20)
        except (BlockingIOError, ConnectionResetError):
            return
        if not piece:
            return
        yield piece


def run(program, data):
    """The program's replies to the bytes, and its status."""
    done = subprocess.run([program, "script"], input=data, stdout=subprocess.PIPE, timeout=600)
    return done.stdout, done.returncode


def split_replies(data):
    replies = []
    at = 0
    while at < len(data):
        end = end_of_reply(data, at)
        replies.append(data[at:end])
        at = end
    return replies


class Group:
    """What was found in a group's cases."""

    def __init__(self, name):
        self.name = name
        self.same = 0
        self.decided = collections.Counter()
        self.others = []

    def note(self, case, theirs, ours, decided, reason):
        """One case. `decided` is our reply by decision, None where there is no decision for it."""
        if ours == theirs:
            self.same += 1
        elif ours == decided:
            self.decided[reason] += 1
        else:
            self.others.append((case, theirs, ours, decided))

    def line(self):
        decided = sum(self.decided.values())
        cases = self.same + decided + len(self.others)
        return f"{self.name:24}{cases:8}{self.same:8}{decided:8}{len(self.others):8}"


def decision(words, theirs):
    """Our reply by decision, and the reason; None where no decision speaks of this reply of Redis."""
    for rule in RULES:
        ours = rule(words, theirs)
        if ours is not None:
            return ours, rule.__doc__
    return None, ""


def compare_sessions(program, redis, group, sessions):
    for commands in sessions.sessions:
        redis.begin(sessions.settings)
        data = b"".join(map(request, commands)) + QUIT
        theirs = split_replies(redis.reply(data))
        written, status = run(program, data)
        ours = split_replies(written)
        for number, words in enumerate(commands + [[b"QUIT"]]):
            their_reply, our_reply = (b"".join(replies[number:number + 1]) for replies in (theirs, ours))
            group.note(words, their_reply, our_reply, *decision(words, their_reply))
        if status != 0 or len(ours) > len(commands) + 1:
            group.others.append(([b"a whole session"], b"", b"status %d, %d replies" % (status, len(ours)), None))


def compare_streams(program, redis, group, streams):
    for stream in streams:
        redis.begin({})
        theirs = redis.reply(stream.data)
        ours, status = run(program, stream.data)
        group.note([stream.data], theirs, ours, stream.ours, stream.reason)
        if status != stream.status:
            group.others.append(([stream.data], b"", b"status %d" % status, b"status %d" % stream.status))


def shown(data):
    text = repr(data)[1:]
    return text if len(text) <= MOST_SHOWN else f"{text[:MOST_SHOWN]}.. ({len(data)} bytes)"


def print_others(group):
    print(f"\n{group.name}: {len(group.others)} differences that no decision has")
    for case, theirs, ours, decided in group.others[:MOST_DIFFERENCES]:
        words = " ".join(shown(word) for word in case[:8]) + (" .." if len(case) > 8 else "")
        print(f"  {words}\n    Redis: {shown(theirs)}\n    ours:  {shown(ours)}")
        if decided is not None:
            print(f"    ours has to be: {shown(decided)}")


def main():
    program, path = sys.argv[1:]
    redis = Redis(path)
    found = []
    print(f"{'group':24}{'cases':>8}{'same':>8}{'decided':>8}{'other':>8}")
    for cases in groups():
        group = Group(cases[0])
        compare = compare_sessions if isinstance(cases, Sessions) else compare_streams
        compare(program, redis, group, cases if isinstance(cases, Sessions) else cases[1])
        print(group.line(), flush=True)
        found.append(group)
    print("\ndifferences by decision")
    for reason, count in sum((group.decided for group in found), collections.Counter()).items():
        print(f"{count:8}  {reason}")
    wrong = [group for group in found if group.others]
    for group in wrong:
        print_others(group)
    return 1 if wrong else 0


sys.exit(main())
