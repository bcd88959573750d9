"""Expressions of APPLY and FILTER: their tree, and their value in a row (QUERY.md).

A value is an int, a text (bytes), a list (tuple), or None for Null. A tree is an int, a text, or a tuple that begins with
`@`, a sign, or the name of a function.
"""
import re
from typing import Callable

from .texts import canonical, in_64_bits

MOST_LEVELS = 32
TOKEN = re.compile(rb"""(?P<text>'(?:[^'\\]|\\.)*'|"(?:[^"\\]|\\.)*")|(?P<digits>[0-9]+)|@(?P<property>[A-Za-z0-9_]+)
    |(?P<name>[A-Za-z_][A-Za-z0-9_]*)|(?P<sign>\|\||&&|==|!=|<=|>=|[<>+*!()-])""", re.S | re.X)
ESCAPED = re.compile(rb"\\(.)", re.S)
COMPARISONS = ("==", "!=", "<=", ">=", "<", ">")
FUNCTIONS = ("lower", "upper", "strlen", "abs", "exists")


class NoExpression(Exception):
    pass


def tokens_of(text: bytes) -> list:
    """Kinds and values. A sign's kind is the sign; only the blank may stand between tokens."""
    found = []
    at = 0
    while at < len(text):
        if text.startswith(b" ", at):
            at += 1
            continue
        token = TOKEN.match(text, at)
        if not token:
            raise NoExpression
        at = token.end()
        found.append(token_of(token))
    return found


def token_of(token: re.Match):
    kind, text = token.lastgroup, token[token.lastgroup]
    if kind == "text":
        return kind, ESCAPED.sub(rb"\1", text[1:-1])
    if kind == "digits":
        if canonical(text) is None:
            raise NoExpression
        return kind, int(text)
    return (kind, text) if kind != "sign" else (text.decode(), None)


class Parser:
    """One method a rule of the grammar."""

    def __init__(self, tokens: list):
        self.tokens = tokens + [("end", None)]
        self.at = 0
        self.level = 0

    def kind(self) -> str:
        return self.tokens[self.at][0]

    def take(self, *kinds: str):
        if self.kind() not in kinds:
            raise NoExpression
        self.at += 1
        return self.tokens[self.at - 1][1]

    def within(self, part: Callable):
        """A part that is one level deeper."""
        self.level += 1
        if self.level > MOST_LEVELS:
            raise NoExpression
        tree = part()
        self.level -= 1
        return tree

    def chain(self, part: Callable, *signs: str):
        left = part()
        while (sign := self.kind()) in signs:
            self.take(sign)
            left = (sign, left, part())
        return left

    def whole(self):
        tree = self.either()
        self.take("end")
        return tree

    def either(self):
        return self.chain(self.both, "||")

    def both(self):
        return self.chain(self.negation, "&&")

    def negation(self):
        if self.kind() != "!":
            return self.comparison()
        self.take("!")
        return ("!", self.within(self.negation))

    def comparison(self):
        left = self.sum()
        if (sign := self.kind()) not in COMPARISONS:
            return left
        self.take(sign)
        return (sign, left, self.sum())

    def sum(self):
        return self.chain(self.product, "+", "-")

    def product(self):
        return self.chain(self.signed, "*")

    def signed(self):
        if self.kind() != "-":
            return self.item()
        self.take("-")
        return ("minus", self.within(self.signed))

    def item(self):
        if self.kind() in ("digits", "text"):
            return self.take(self.kind())
        if self.kind() == "property":
            return ("@", self.take("property"))
        if self.kind() == "name":
            name = self.take("name").decode().lower()
            if name not in FUNCTIONS:
                raise NoExpression
            return (name, self.parentheses())
        return self.parentheses()

    def parentheses(self):
        self.take("(")
        tree = self.within(self.either)
        self.take(")")
        return tree


def parse(text: bytes):
    return Parser(tokens_of(text)).whole()


def is_true(value) -> bool:
    return isinstance(value, int) and value != 0


def evaluate(tree, look: Callable):
    """The value, where `look` gives the value of a property."""
    # A chain is as deep on its left as it is long.
    chain = []
    while isinstance(tree, tuple) and len(tree) == 3:
        chain.append(tree)
        tree = tree[1]
    value = single(tree, look)
    for sign, _, right in reversed(chain):
        value = joined(sign, value, evaluate(right, look))
    return value


def single(tree, look: Callable):
    """The value of what is no operator between two sides."""
    if not isinstance(tree, tuple):
        return tree
    sign, part = tree
    if sign == "@":
        return look(part)
    value = evaluate(part, look)
    if sign == "!":
        return int(not is_true(value))
    if sign in FUNCTIONS:
        return called(sign, value)
    return in_64_bits(-value) if isinstance(value, int) else None


def joined(sign: str, left, right):
    if sign in ("||", "&&"):
        truths = is_true(left), is_true(right)
        return int(any(truths) if sign == "||" else all(truths))
    if sign in COMPARISONS:
        return compared(sign, left, right)
    if not isinstance(left, int) or not isinstance(right, int):
        return None
    return in_64_bits(worked_out(sign, left, right))


def worked_out(sign: str, left: int, right: int) -> int:
    return {"+": left + right, "-": left - right, "*": left * right}[sign]


def called(name: str, value):
    if name == "exists":
        return int(value is not None)
    if name == "abs":
        return in_64_bits(abs(value)) if isinstance(value, int) else None
    if not isinstance(value, bytes):
        return None
    return {"lower": value.lower(), "upper": value.upper(), "strlen": len(value)}[name]


def compared(sign: str, left, right):
    """1 or 0 for two numbers or two texts, else Null."""
    if type(left) is not type(right) or not isinstance(left, (int, bytes)):
        return None
    return int({"==": left == right, "!=": left != right, "<=": left <= right, ">=": left >= right,
                "<": left < right, ">": left > right}[sign])
