"""Rows of sessions: a command's words, a bar, and the lines of its reply, as crates/rows/stdin has them.

A line `@ N` there has the moment of the rows behind it, in milliseconds; one that begins with `~`, `?` or `$` is of no session.
"""
import re

from .wire import end_of_reply

WORD = re.compile(rb'"((?:[^"\\]|\\.)*)"|(\S+)', re.S)
ESCAPE = re.compile(rb"\\(?:x([0-9a-fA-F]{2})|(.))", re.S)
LETTERS = {b"n": b"\n", b"r": b"\r", b"t": b"\t"}
NUMBERS = re.compile(rb"(\d+)\.\.(\d+)")
BRACES = re.compile(rb"([^{]*)\{([^}]*)\}(.*)", re.S)
SPAN = re.compile(rb"(\d+)\.\.(\d+)(?::(.*))?", re.S)
TIMES = re.compile(rb"(\d+)\*(.*)", re.S)

BARE = re.compile(rb"(?=.*[A-Za-z0-9])[A-Za-z0-9_@:.+*-]+")
ESCAPES = {ord('"'): '\\"', ord("\\"): "\\\\", ord("\n"): "\\n", ord("\r"): "\\r", ord("\t"): "\\t"}


def unescaped(text: bytes) -> bytes:
    """The bytes of a word in quotes."""
    def meant(found: re.Match) -> bytes:
        return bytes.fromhex(found[1].decode()) if found[1] else LETTERS.get(found[2], found[2])

    return ESCAPE.sub(meant, text)


def read_row(row: bytes) -> tuple:
    """The words of the command, and the lines of the reply. A fault is one line, with blanks in it."""
    found = list(WORD.finditer(row))
    words = [part[2] if part[2] is not None else unescaped(part[1]) for part in found]
    bar = [part[2] for part in found].index(b"|")
    reply = row[found[bar].end():].strip()
    return words[:bar], [reply] if reply.startswith(b"-") else words[bar + 1:]


def meant_by(word: bytes) -> list:
    """The words that a word stands for, as crates/rows/src/spread.rt has them."""
    braces = BRACES.fullmatch(word)
    if not braces:
        return [word]
    before, inner, behind = braces.groups()
    if times := TIMES.fullmatch(inner):
        if before or behind:
            return [before + times[2] * int(times[1]) + behind]
        return times[2].split(b" ") * int(times[1])
    if many := SPAN.fullmatch(inner):
        span = range(int(many[1]), int(many[2]) + 1)
        return [part for number in span for part in (before + b"%d" % number + behind, many[3]) if part is not None]
    return [word]


def all_meant_by(words: list) -> list:
    return [part for word in words for part in meant_by(word)]


def read_rows(row: bytes) -> list:
    """The row, or one for each of the numbers that it begins with."""
    words, reply = read_row(row)
    numbers = NUMBERS.fullmatch(words[0])
    if not numbers:
        return [(all_meant_by(words), reply)]
    span = [b"%d" % number for number in range(int(numbers[1]), int(numbers[2]) + 1)]
    return [(all_meant_by([word.replace(b"{}", n) for word in words[1:]]), [part.replace(b"{}", n) for part in reply]) for n in span]


def read_sessions(lines) -> dict:
    """The rows of each session, by its name: of each the words, the reply and the moment, which is 0 at first."""
    found, rows, moment = {}, [], 0
    for line in lines:
        if line.startswith(b"== "):
            rows, moment = found.setdefault(line[3:].strip().decode(), []), 0
        elif line.startswith(b"@ "):
            moment = int(line[2:])
        elif line.strip() and not line.lstrip().startswith((b"#", b"~", b"? ", b"$ ")):
            rows += [(words, reply, moment) for words, reply in read_rows(line)]
    return found


def is_reply(lines: list, reply: bytes) -> bool:
    """Whether the reply has these lines: `:?` is any number, and `..` any number of lines."""
    wild = {b":?": rb":-?\d+\r\n", b"..": rb"(?:.*?\r\n)??"}
    pattern = b"".join(wild.get(line) or re.escape(line) + b"\r\n" for line in lines)
    return re.fullmatch(pattern, reply, re.S) is not None


def spelled(word: bytes) -> str:
    """A word or a line as rows have it."""
    if BARE.fullmatch(word):
        return word.decode()
    return '"' + "".join(ESCAPES.get(c, chr(c) if 32 <= c < 127 else f"\\x{c:02x}") for c in word) + '"'


def spelled_reply(reply: bytes) -> str:
    """A reply's lines. A bulk is one line, whatever it has in it."""
    lines, at = [], 0
    while at < len(reply):
        line_end = reply.find(b"\r\n", at)
        if line_end < 0:
            return " ".join(lines + [spelled(reply[at:])])
        lines.append(reply[at:line_end].decode("latin-1"))
        end = end_of_reply(reply, at)
        at = line_end + 2
        if lines[-1].startswith("$") and end > at:
            lines.append(spelled(reply[at:end - 2]))
            at = end
    return " ".join(lines)


def spelled_row(words: list, reply: bytes) -> str:
    return f"{' '.join(map(spelled, words)):<64} | {spelled_reply(reply)}"
