"""A command's words, read from the left. Each call raises the fault of the words that it reads, at its word.

A word that is missing is a fault at the number of words.
"""
from . import expressions
from .texts import canonical
from .wire import limit, syntax, unsupported

WINDOW_END = 1_000_000

# The options of RediSearch that are left out, in FT.SEARCH and FT.AGGREGATE.
LEFT_OUT = frozenset(b"""WITHSCORES SCORER EXPLAINSCORE WITHSORTKEYS SUMMARIZE HIGHLIGHT SLOP INORDER NOSTOPWORDS INFIELDS
    LANGUAGE""".split())


class Reader:
    def __init__(self, words: list, at: int):
        self.words = words
        self.at = at

    def left(self) -> int:
        return len(self.words) - self.at

    def word(self) -> bytes:
        if not self.left():
            raise syntax(len(self.words))
        self.at += 1
        return self.words[self.at - 1]

    def name(self) -> bytes:
        """A word that is read in any case."""
        return self.word().upper()

    def next_is(self, *names: bytes) -> bool:
        return self.left() > 0 and self.words[self.at].upper() in names

    def number(self) -> int:
        at = self.at
        n = canonical(self.word())
        if n is None or n < 0:
            raise syntax(at)
        return n

    def number_up_to(self, most: int) -> int:
        at = self.at
        n = self.number()
        if not 1 <= n <= most:
            raise limit(at)
        return n

    def count(self, least: int = 0) -> int:
        """A number of words that follow."""
        at = self.at
        n = self.number()
        if not least <= n <= self.left():
            raise syntax(at)
        return n

    def counted(self, least: int = 0) -> list:
        return [self.word() for _ in range(self.count(least))]

    def counted_names(self) -> list:
        """Names of fields, among which there is no AS."""
        first = self.at + 1
        names = self.counted()
        for place, name in enumerate(names):
            if name.upper() == b"AS":
                raise unsupported(first + place)
        return names

    def window(self) -> tuple:
        at = self.at
        offset, num = self.number(), self.number()
        if offset + num > WINDOW_END:
            raise limit(at)
        return offset, num

    def dialect(self):
        at = self.at
        if self.number() != 2:
            raise unsupported(at)

    def params(self) -> dict:
        at = self.at
        n = self.count()
        if n % 2:
            raise syntax(at)
        params = {}
        for _ in range(n // 2):
            if self.words[self.at] in params:
                raise syntax(self.at)
            name = self.word()
            params[name] = self.word()
        return params

    def property(self) -> bytes:
        at = self.at
        word = self.word()
        if not word.startswith(b"@") or word == b"@":
            raise syntax(at)
        return word[1:]

    def expression(self):
        at = self.at
        try:
            return expressions.parse(self.word())
        except expressions.NoExpression:
            raise syntax(at) from None

    def name_behind_as(self) -> bytes:
        at = self.at
        if self.name() != b"AS":
            raise syntax(at)
        return self.word()

    def bound(self, read) -> int:
        """An end of a FILTER, which `read` makes of its text and of whether `(` leaves it out."""
        at = self.at
        word = self.word()
        end = read(word[1:], True) if word.startswith(b"(") else read(word, False)
        if end is None:
            raise syntax(at)
        return end
