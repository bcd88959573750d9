"""Faults, replies and requests, as they are spelled in RESP2."""
import re

# The numbers that may be unknown, in a reply of the plain machine, and those in another one.
RECORDS = b"$11\r\nnum_records\r\n"
EITHER = re.compile(re.escape(RECORDS) + rb":(\d+)(\.\.)?\r\n")
TOLD = re.compile(re.escape(RECORDS) + rb":(\d+)\r\n")


class Fault(Exception):
    """A command that is refused, with the text of its reply."""

    def __init__(self, text: str):
        super().__init__(text)
        self.text = text


def syntax(word: int) -> Fault:
    return Fault(f"ERR syntax error at word {word}")


def limit(word: int) -> Fault:
    return Fault(f"ERR limit exceeded at word {word}")


def unsupported(word: int) -> Fault:
    return Fault(f"ERR not supported at word {word}")


def line(text: str) -> bytes:
    return b"+%s\r\n" % text.encode()


def error(text: str) -> bytes:
    return b"-%s\r\n" % text.encode()


def integer(n: int) -> bytes:
    return b":%d\r\n" % n


def at_least(n: int) -> bytes:
    """A number that is not known, but for the least that it is."""
    return b":%d..\r\n" % n


def with_numbers_of(reply: bytes, other: bytes) -> bytes:
    """The reply with the other one's numbers where its own are not known, and the other's are not too low."""
    numbers = iter(TOLD.findall(other))

    def filled(found):
        number = next(numbers, None)
        if found[2] is None or number is None or int(number) < int(found[1]):
            return found[0]
        return RECORDS + integer(int(number))

    return EITHER.sub(filled, reply)


def bulk(text) -> bytes:
    """A text, or the null bulk for None."""
    return b"$-1\r\n" if text is None else b"$%d\r\n%s\r\n" % (len(text), text)


def array(replies: list) -> bytes:
    return b"*%d\r\n" % len(replies) + b"".join(replies)


def bulks(texts) -> bytes:
    return array([bulk(text) for text in texts])


def pairs(fields: dict) -> bytes:
    """Fields and values in turn."""
    return bulks(part for pair in fields.items() for part in pair)


def request(words: list) -> bytes:
    return bulks(words)


def end_of_reply(data: bytes, at: int) -> int:
    """Where the reply ends that begins there; the end of the data where it is cut short."""
    line_end = data.find(b"\r\n", at) + 2
    if line_end < 2:
        return len(data)
    kind = data[at:at + 1]
    if kind not in (b"$", b"*"):
        return line_end
    count = int(data[at + 1:line_end - 2])
    if kind == b"$":
        return line_end if count < 0 else line_end + count + 2
    for _ in range(count):
        line_end = end_of_reply(data, line_end)
    return line_end


def split_replies(data: bytes) -> list:
    replies, at = [], 0
    while at < len(data):
        end = end_of_reply(data, at)
        replies.append(data[at:end])
        at = end
    return replies
