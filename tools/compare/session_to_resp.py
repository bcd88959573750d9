#!/usr/bin/env python3
"""Prints the requests of one session of rows as a client sends them (RESP2), or with --list the names of all sessions.

    tools/compare/session_to_resp.py "the first search" < crates/rows/stdin | ./rsearch script
    tools/compare/session_to_resp.py --list < crates/rows/stdin

A session with moments (`@ N`) is refused: the program's are those of the system's clock. Rows of a link of its own (`~`) are of no
session.
"""
import sys

from plain.rows import read_sessions
from plain.wire import request


def main():
    if len(sys.argv) != 2:
        sys.exit(__doc__)
    found = read_sessions(sys.stdin.buffer)
    if sys.argv[1] == "--list":
        print("\n".join(found))
        return
    if sys.argv[1] not in found:
        sys.exit(f"session_to_resp: no session has the name {sys.argv[1]}; --list prints all names")
    if any(moment for _, _, moment in found[sys.argv[1]]):
        sys.exit(f"session_to_resp: the session {sys.argv[1]} has moments (@), which no client can send")
    for words, _, _ in found[sys.argv[1]]:
        sys.stdout.buffer.write(request(words))


main()
