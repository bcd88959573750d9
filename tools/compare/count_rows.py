#!/usr/bin/env -S python3 -B
"""Counts the rows of the two programs that run them, as these print it where no row differs.

    tools/compare/count_rows.py            prints the two lines
    tools/compare/count_rows.py --write    writes them to crates/rows/stdout and crates/leaf_rows/stdout
    tools/compare/count_rows.py --check    exits 1 where one of these files has another line

A row of crates/rows/stdin that begins with `N..M` stands for one row for each of these numbers; one that begins with `~`, `?` or `$` is
of no session. Each line of crates/leaf_rows/stdin is a row, but empty ones and those that begin with `#`.
"""
import pathlib
import sys

from plain.rows import read_sessions

CRATES = pathlib.Path(__file__).resolve().parent.parent.parent / "crates"
OF_NO_SESSION = (b"~ ", b"~~ ", b"? ", b"$ ")


def session_rows(path):
    with path.open("rb") as lines:
        sessions = read_sessions(lines)
    others = sum(line.startswith(OF_NO_SESSION) for line in path.read_bytes().split(b"\n"))
    return f"{len(sessions)} sessions, {sum(map(len, sessions.values())) + others} rows, 0 differ\n"


def call_rows(path):
    count = sum(bool(line.strip()) and not line.startswith(b"#") for line in path.read_bytes().split(b"\n"))
    return f"{count} rows, 0 differ\n"


def main():
    status = 0
    for crate, counted in (("rows", session_rows), ("leaf_rows", call_rows)):
        line, kept = counted(CRATES / crate / "stdin"), CRATES / crate / "stdout"
        if "--write" in sys.argv[1:]:
            kept.write_text(line)
        elif "--check" not in sys.argv[1:]:
            print(f"{crate}: {line}", end="")
        elif kept.read_text() != line:
            print(f"crates/{crate}/stdout: it does not say {line.strip()}; tools/compare/count_rows.py --write writes it")
            status = 1
    return status


sys.exit(main())
