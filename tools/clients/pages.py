#!/usr/bin/env python3
"""Types each session of the pages into redis-cli, and compares what it answers with what the page shows.

    tools/clients/pages.py PORT [PAGE..]        without pages, README.md and all of docs/

A session is a block of text in which a line that begins with "> " is a command, and the lines below it are its answer.
A block that begins with FT.CREATE begins with an empty server, and so does the first block of a page; every other one
goes on from the block before it. The server on 127.0.0.1 at PORT has to be empty, as it is emptied again and again.

Prints each answer that differs; then a line that counts. The status is 1 where something differs.
"""
import pathlib
import re
import subprocess
import sys

TOP = pathlib.Path(__file__).resolve().parent.parent.parent
BLOCK = re.compile(r"^```text\n(> .*?)^```$", re.M | re.S)


def typed(port: str, command: str) -> str:
    """What redis-cli shows for a line that is typed."""
    words = ["redis-cli", "-p", port, "--no-raw"]
    ran = subprocess.run(words, input=command + "\n", capture_output=True, text=True, timeout=30)
    return (ran.stdout + ran.stderr).rstrip()


def exchanges(block: str) -> list:
    """The commands of a session, each with the answer that the page shows."""
    parts = re.split(r"^> ", block, flags=re.M)[1:]
    found = []
    for command, _, answer in (part.partition("\n") for part in parts):
        if found and is_under_way(found[-1][0]):
            before = found.pop()
            command, answer = f"{before[0]}\n{command}", f"{before[1]}\n{answer}"
        found.append((command.strip(), answer.rstrip()))
    return found


def is_under_way(command: str) -> bool:
    """Whether a transaction goes on behind it. Its commands are typed together, as they are of one connection."""
    lines = command.upper().splitlines()
    return lines[0] == "MULTI" and lines[-1] not in ("EXEC", "DISCARD")


def true_words(command: str, ids: dict) -> str:
    """A command with the ids that the server gave for those of the page."""
    return re.sub(r"\d+", lambda found: ids.get(found[0], found[0]), command) if "FT.CURSOR" in command else command


def shown_answer(came: str, ids: dict) -> str:
    """An answer with the page's ids for those that the server gave."""
    shown = {true: page for page, true in ids.items()}
    return re.sub(r"(?<=\(integer\) )\d+$", lambda found: shown.get(found[0], found[0]), came, flags=re.M)


def note_id(command: str, wanted: str, came: str, ids: dict):
    """The id of a cursor is the number of the command that opens it, and so depends on what was typed before."""
    last = [re.search(r"\(integer\) (\d+)$", text) for text in (wanted, came)]
    if "WITHCURSOR" in command and all(last):
        ids[last[0][1]] = last[1][1]


def check_page(port: str, path: pathlib.Path) -> tuple:
    """How many answers a page shows, and how many differ."""
    count, differing, ids = 0, 0, {}
    for number, found in enumerate(BLOCK.finditer(path.read_text())):
        pairs = exchanges(found[1])
        if number == 0 or pairs[0][0].startswith("FT.CREATE"):
            typed(port, "FLUSHALL")
        for command, wanted in pairs:
            came = typed(port, true_words(command, ids))
            note_id(command, wanted, came, ids)
            came = shown_answer(came, ids)
            count += 1
            if came != wanted:
                differing += 1
                print(f"{path}: {command}\n--- the page has\n{wanted}\n--- the server answers\n{came}\n")
    return count, differing


def main():
    if len(sys.argv) < 2 or not sys.argv[1].isdigit():
        sys.exit(__doc__)
    port = sys.argv[1]
    if typed(port, "DBSIZE") != "(integer) 0" or typed(port, "FT._LIST") != "(empty array)":
        sys.exit(f"pages: there is no empty server on 127.0.0.1:{port}")
    paths = [pathlib.Path(name) for name in sys.argv[2:]] or [TOP / "README.md", *sorted((TOP / "docs").glob("*.md"))]
    found = [check_page(port, path) for path in paths]
    typed(port, "FLUSHALL")
    print(f"pages: {sum(count for count, _ in found)} answers, {sum(differing for _, differing in found)} differ")
    sys.exit(1 if any(differing for _, differing in found) else 0)


main()
