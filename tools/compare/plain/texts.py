"""The words of a text, the tags of a value, and numbers. QUERY.md has the rules and examples of each."""
import re
from typing import Optional

LEAST, GREATEST = -2**63, 2**63 - 1

# The bytes up to a blank, 0x7F, and ASCII punctuation without `_`.
SEPARATOR = rb"[\x00-/:-@\[-^`{-\x7f]"
NO_SEPARATOR = SEPARATOR.replace(b"[", b"[^", 1)
IS_SEPARATOR = re.compile(SEPARATOR)
WORD = re.compile(rb"(?:" + NO_SEPARATOR + rb"|\\" + SEPARATOR + rb")+", re.S)
ESCAPED = re.compile(rb"\\(.)", re.S)

SIGNED = re.compile(rb"[+-]?[0-9]+")
CANONICAL = re.compile(rb"0|-?[1-9][0-9]*")
WEIGHT = re.compile(rb"[0-9]+(?:\.[0-9]+)?")

STOP_WORDS = frozenset(b"""a is the an and are as at be but by for if in into it no not of on or such that their then there
    these they this to was will with""".split())


def unescaped(word: bytes) -> bytes:
    """A word as it is meant: each backslash in it escapes the byte behind it."""
    return ESCAPED.sub(rb"\1", word)


def is_lone(text: bytes, at: int) -> bool:
    """Whether the backslash there escapes nothing."""
    return not IS_SEPARATOR.match(text, at + 1)


def tokens(text: bytes, stops) -> list:
    """The tokens of a text. The place of the first one is 1, since stop words take none."""
    words = [unescaped(word).lower() for word in WORD.findall(text)]
    return [word for word in words if word not in stops]


def tags(value: bytes, separator: bytes, case_sensitive: bool) -> list:
    """The tags of a value, each once."""
    pieces = [piece.strip(b" ") for piece in value.split(separator)]
    if not case_sensitive:
        pieces = [piece.lower() for piece in pieces]
    return list(dict.fromkeys(piece for piece in pieces if piece))


def in_64_bits(n: int) -> Optional[int]:
    return n if LEAST <= n <= GREATEST else None


def number(text: bytes) -> Optional[int]:
    """The number of a value: a sign or none, then digits."""
    return in_64_bits(int(text)) if SIGNED.fullmatch(text) else None


def canonical(text: bytes) -> Optional[int]:
    """A number in its one spelling, as counts have it: no plus sign, no leading zero."""
    return in_64_bits(int(text)) if CANONICAL.fullmatch(text) else None


def bound(text: bytes) -> Optional[int]:
    """An end of a range, without what leaves it out."""
    ends = {b"inf": GREATEST, b"+inf": GREATEST, b"-inf": LEAST}
    return ends.get(text.lower(), number(text))


def low_end(text: bytes, left_out: bool) -> Optional[int]:
    """The least number of a range that begins so. An infinite end is never left out."""
    end = bound(text)
    return end if end is None or not left_out or number(text) is None else end + 1


def high_end(text: bytes, left_out: bool) -> Optional[int]:
    """The greatest number of a range that ends so."""
    end = bound(text)
    return end if end is None or not left_out or number(text) is None else end - 1
