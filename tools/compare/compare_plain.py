#!/usr/bin/env -S python3 -B
"""Compares the program with a plain machine, reply by reply.

    tools/compare/compare_plain.py [SESSIONS [SEED]]            without these, 100 sessions of the first seed
    tools/compare/compare_plain.py --rows < crates/rows/stdin   the plain machine itself, with the rows of sessions

Each session is 200 random commands and more: hashes, schemas, searches, aggregates, cursors, transactions, and now and then a fault.
A seed has the same sessions each time. tools/compare/plain works out what each command has to answer; the program gets the same
requests as `rsearch script`. It is that of ./rsearch, built where it is missing or old, or the one that RSEARCH names.

Prints of each session that differs the commands that are needed for its first difference, as rows with the replies of
the plain machine, and what came in place of the last one; then a line that counts. With --rows, each row that differs.
The number of records that FT.INFO tells may be any from that of the live ones on, unless FT.DEBUG has left no others.
The status is 1 where something differs.
"""
import os
import pathlib
import subprocess
import sys

from plain.drawn_cursors import is_short_lived
from plain.machine import Machine, check_words
from plain.rows import is_reply, read_sessions, spelled_reply, spelled_row
from plain.sessions import session
from plain.transactions import Transaction
from plain.wire import RECORDS, request, split_replies, with_numbers_of

PROGRAM = "crates/rsearch/out/rsearch"
MOST_SECONDS = 60
# More than the members of any session have.
ANY_RECORDS = 10**9


def wanted(commands: list) -> list:
    machine = Machine()
    return [machine.reply(words) for words in commands]


def written(program: str, commands: list) -> list:
    """The program's replies; where it does not end well, its end is one more."""
    data = b"".join(map(request, commands))
    try:
        done = subprocess.run([program, "script"], input=data, stdout=subprocess.PIPE, timeout=MOST_SECONDS)
    except subprocess.TimeoutExpired:
        return [b"no end in %d seconds\r\n" % MOST_SECONDS]
    replies = split_replies(done.stdout)
    return replies if done.returncode == 0 else replies + [b"status %d\r\n" % done.returncode]


def first_difference(program: str, commands: list):
    """The number of the first command whose replies differ, and what came; None where there is none."""
    wants, came = wanted(commands), written(program, commands)
    came += [b""] * (len(wants) - len(came))
    for number, want in enumerate(wants):
        if came[number] != with_numbers_of(want, came[number]):
            return number, came[number]
    return (len(wants) - 1, b"".join(came[-2:])) if len(came) > len(wants) else None


def without_runs(items: list, differs) -> list:
    """The items without what is not needed to differ: runs of them are dropped, ever shorter ones."""
    size = len(items)
    while size > 0:
        at = 0
        while at < len(items):
            fewer = items[:at] + items[at + size:]
            if fewer and differs(fewer):
                items = fewer
            else:
                at += size
        size //= 2
    return items


def those_at(commands: list, places: list) -> list:
    """The commands in these places. A cursor's id is the number of its opening, and so is another one then."""
    before, after = numbers_of(commands), numbers_of([commands[place] for place in places])
    ids = {b"%d" % number: b"0" for number in before.values()}
    ids |= {b"%d" % before[place]: b"%d" % after[at] for at, place in enumerate(places) if place in before and at in after}
    return [with_new_id(commands[place], ids) for place in places]


class Placed(list):
    """The words of a command, with its place in its session."""

    def __init__(self, place: int, words: list):
        super().__init__(words)
        self.place = place


def numbers_of(commands: list) -> dict:
    """The number of each command that is executed, by its place."""
    transaction, found = Transaction(), {}

    def execute(words: Placed) -> bytes:
        found[words.place] = len(found) + 1
        return b""

    for place, words in enumerate(commands):
        transaction.reply(Placed(place, words), check_words, execute)
    return found


def with_new_id(words: list, ids: dict) -> list:
    """The command, with the id of FT.CURSOR as it is now; 0, which none has, where the opening is gone."""
    if words[0].upper() != b"FT.CURSOR":
        return words
    return words[:3] + [ids.get(word, word) for word in words[3:4]] + words[4:]


def cut_down(program: str, commands: list) -> list:
    """The session without the commands, and then the words, that are not needed for a difference."""
    def differs(fewer: list) -> bool:
        return not any(map(is_short_lived, fewer)) and first_difference(program, fewer) is not None

    needed = range(first_difference(program, commands)[0] + 1)
    commands = those_at(commands, without_runs(list(needed), lambda places: differs(those_at(commands, places))))
    for at in range(len(commands)):
        before, behind = commands[:at], commands[at + 1:]
        commands = before + [without_runs(commands[at], lambda words: differs(before + [words] + behind))] + behind
    return commands


def print_difference(program: str, number: int, commands: list):
    commands = cut_down(program, commands)
    found = first_difference(program, commands)
    print(f"== session {number}")
    for words, reply in zip(commands, wanted(commands)):
        print(spelled_row(words, reply))
    print(f"    came: {spelled_reply(found[1])}\n", flush=True)


def program_to_run() -> str:
    """The program, built where it is missing or old."""
    if "RSEARCH" in os.environ:
        return os.environ["RSEARCH"]
    os.chdir(pathlib.Path(__file__).resolve().parent.parent.parent)
    if subprocess.run(["./rsearch", "script"], stdin=subprocess.DEVNULL).returncode != 0:
        sys.exit("compare_plain: ./rsearch does not run")
    return PROGRAM


def told_in(lines: list) -> bytes:
    """The number of records that a row wants, in a reply; any great one where it wants none."""
    behind = lines[lines.index(b"num_records") + 1] if b"num_records" in lines else b":?"
    return RECORDS + (b":%d" % ANY_RECORDS if behind == b":?" else behind) + b"\r\n"


def compare_rows() -> int:
    """The rows of the standard input with the plain machine's replies."""
    rows, differ = 0, 0
    for name, session_rows in read_sessions(sys.stdin.buffer).items():
        machine = Machine()
        for words, lines, moment in session_rows:
            # A row may leave out the number of records, or say any.
            reply = with_numbers_of(machine.reply(words, moment), told_in(lines))
            rows += 1
            if not is_reply(lines, reply):
                differ += 1
                print(f"== {name}\n{spelled_row(words, reply)}\n    wanted: {b' '.join(lines).decode('latin-1')}")
    print(f"{rows} rows, {differ} differ")
    return 1 if differ else 0


def compare_sessions(count: int, seed: int) -> int:
    program = program_to_run()
    names, differ = [], 0
    for number in range(count):
        commands = session(seed, number)
        names += [words[0].upper() for words in commands]
        if first_difference(program, commands) is not None:
            differ += 1
            print_difference(program, number, commands)
    kinds = {"searches": b"FT.SEARCH", "aggregates": b"FT.AGGREGATE", "uses of cursors": b"FT.CURSOR"}
    counted = ", ".join(f"{names.count(name)} {kind}" for kind, name in kinds.items())
    print(f"{count} sessions, {len(names)} commands, {counted}, {differ} differ")
    return 1 if differ else 0


def main() -> int:
    words = sys.argv[1:]
    if words == ["--rows"]:
        return compare_rows()
    if len(words) > 2 or not all(word.isdigit() for word in words):
        sys.exit(__doc__)
    count, seed = [int(word) for word in words] + [100, 1][len(words):]
    return compare_sessions(count, seed)


sys.exit(main())
