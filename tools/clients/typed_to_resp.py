#!/usr/bin/env python3
"""Makes of commands as one types them into redis-cli the requests that it sends (RESP2).

    tools/clients/typed_to_resp.py < examples/first.txt > examples/first.resp    the requests of these lines
    tools/clients/typed_to_resp.py --write                                       those of each file of examples/
    tools/clients/typed_to_resp.py --check                                       exits 1 where one of them is not the same

A word may stand in double quotes, with \\n, \\r, \\t, \\xHH and any other escaped byte in them, or in single quotes with \\'.
"""
import pathlib
import re
import sys

TOP = pathlib.Path(__file__).resolve().parent.parent.parent
WORD = re.compile(rb"""\s*(?:"((?:[^"\\]|\\.)*)"|'((?:[^'\\]|\\.)*)'|(\S+))(?=\s|$)""", re.S)
ESCAPE = re.compile(rb"\\(?:x([0-9a-fA-F]{2})|(.))", re.S)
SHORT = {b"n": b"\n", b"r": b"\r", b"t": b"\t", b"a": b"\a", b"b": b"\b"}


def unescaped(found):
    return bytes([int(found[1], 16)]) if found[1] else SHORT.get(found[2], found[2])


def words_of(line):
    """The words of a line, as redis-cli takes it apart."""
    words, at = [], 0
    while line[at:].strip():
        found = WORD.match(line, at)
        if not found:
            sys.exit(f"typed_to_resp: this line has a quote that is not closed: {line.decode(errors='replace')}")
        double, single, plain = found.groups()
        words.append(ESCAPE.sub(unescaped, double) if double is not None else single.replace(b"\\'", b"'") if single is not None else plain)
        at = found.end()
    return words


def request(words):
    return b"*%d\r\n" % len(words) + b"".join(b"$%d\r\n%s\r\n" % (len(word), word) for word in words)


def requests(text):
    return b"".join(request(words_of(line)) for line in text.splitlines() if line.strip())


def main():
    if sys.argv[1:] not in (["--write"], ["--check"]):
        sys.stdout.buffer.write(requests(sys.stdin.buffer.read()))
        return 0
    status = 0
    for typed in sorted((TOP / "examples").glob("*.txt")):
        sent, made = typed.with_suffix(".resp"), requests(typed.read_bytes())
        if sys.argv[1] == "--write":
            sent.write_bytes(made)
        elif not sent.is_file() or sent.read_bytes() != made:
            print(f"examples/{sent.name}: it does not have the commands of examples/{typed.name}")
            status = 1
    return status


sys.exit(main())
