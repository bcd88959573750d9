"""Random values, numbers and names of a session.

Up to the end of sessions.py a word is a str in which each character stands for one byte.
"""
import random
from typing import NamedTuple

# Words that many texts and queries share; and stop words, capitals, words that look like numbers, bytes that are no UTF-8.
COMMON_WORDS = ("red", "blue", "green", "shoe")
WORDS = COMMON_WORDS * 4 + ("Red", "RED", "shoes", "x_1", "the", "of", "7", "007", "caf\xe9", "\xff", "w", "zeta")
GAPS = (" ",) * 10 + (", ", "-", "\\-", "  ", "\t", "\r\n", "\\", "'", '"', "\x00", "\x7f", "\\\\")
TAGS = ("red", "red", "Red", "RED", "blue", "Blue", "a b", " new in", "\tred", "x*", "$p", "", " ", "7", "\xff\xfe",
        "re")
ODD_TEXTS = ("", "", " ", "-", "+7", "-0", "05", "1e3", "12abc", "0x10", "7 ", "9223372036854775808",
             "-9223372036854775809", 'a"b\\c')
NUMBERS = ("0", "-0", "00", "+007", "7", "10", "100", "-5", "9223372036854775807", "-9223372036854775808",
           "9223372036854775806", "-9223372036854775807", "4611686018427387904", "-4611686018427387904", "3037000500")
BOUNDS = NUMBERS + ("inf", "-inf", "+INF", "0", "5", "-3", "20", "$lo", "$hi")
NAMES = ("t", "u", "g", "h", "n", "m", "T", "title", "tag", "x_1")
ODD_NAMES = ("a b", "a-b", "@t", "AS", "", "\xff")
KEYS = tuple(f"{start}{number}" for start in ("p:", "q:", "") for number in range(12)) + ("", "p:\xff")


class Known(NamedTuple):
    """A field that an index has."""
    name: str
    alias: str
    kind: str


class Draw:
    """Random choices that depend on a seed alone."""

    def __init__(self, seed: str):
        self.random = random.Random(seed)

    def pick(self, items):
        return self.random.choice(items)

    def chance(self, part: float) -> bool:
        return self.random.random() < part

    def between(self, least: int, most: int) -> int:
        return self.random.randint(least, most)

    def sample(self, items, most: int) -> list:
        return self.random.sample(items, min(most, len(items)))

    def weighted(self, weights: dict):
        return self.random.choices(list(weights), list(weights.values()))[0]

    def cased(self, name: str) -> str:
        """A name that is read in any case."""
        return self.pick((name, name, name, name.lower(), name.title()))


def text(draw: Draw) -> str:
    if draw.chance(0.15):
        return draw.pick(ODD_TEXTS)
    if draw.chance(0.05):
        return long_text(draw)
    words = [draw.pick(WORDS) for _ in range(draw.between(1, 8))]
    return "".join(word + draw.pick(GAPS) for word in words[:-1]) + words[-1]


def long_text(draw: Draw) -> str:
    """A text of some 128 bytes, where the length of a length changes."""
    length = draw.between(126, 130)
    return draw.pick(("red ", "a,b;c, ", "0")).ljust(length - 1, draw.pick("x0")) + "7"


def number(draw: Draw) -> str:
    if draw.chance(0.5):
        return str(draw.between(-20, 20))
    if draw.chance(0.05):
        return "7".rjust(draw.between(126, 130), "0")
    return draw.pick(NUMBERS)


def tag_list(draw: Draw) -> str:
    return draw.pick(",,;").join(draw.pick(TAGS) for _ in range(draw.between(1, 4)))


def value(draw: Draw, kind: str) -> str:
    """A value of a field of this kind, and now and then of another."""
    if draw.chance(0.05):
        kind = draw.pick(("TEXT", "TAG", "NUMERIC"))
    return {"TEXT": text, "TAG": tag_list, "NUMERIC": number}[kind](draw)


def many_pairs(draw: Draw) -> list:
    """Fields and values in turn, of a hash with some 64 fields."""
    return [part for i in range(draw.between(60, 70)) for part in (f"f{i}", number(draw))]
