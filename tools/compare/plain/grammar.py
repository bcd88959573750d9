"""A query's text to its tree, with each fault at its offset (QUERY.md).

A tree is a tuple that begins with its form:

    ("word", fields, text)   ("prefix", fields, text)   ("phrase", fields, words, slop, in_order)
    ("tags", field, [(text, is_prefix)])                ("range", field, low, high)
    ("and", parts)   ("or", parts)   ("not", part)      ("optional", part)   ("all",)   ("empty",)

`fields` are the TEXT fields that were named, or None for each of the index. A slop of None is without bound. While a text
is read, None is a part that was taken out, as it had stop words alone.
"""
from typing import Optional

from .attributes import FORMS, ordered, takes_order
from .lexer import Lexeme, lexemes_of
from .texts import high_end, low_end, tokens
from .wire import Fault

MOST_LEVELS = 32

# Of several faults at one offset the first of these is answered.
TEXTS = ("Syntax error", "Unknown field", "Wrong field kind", "No such parameter", "Query too deep", "Not supported")
SYNTAX, UNKNOWN_FIELD, WRONG_KIND, NO_PARAM, TOO_DEEP, UNSUPPORTED = range(6)

WORDS = ("word", "foreign")
ATOMS = WORDS + ("param", "prefix", "param prefix", "quote", "*", "(")
TARGET_KINDS = {"[": "NUMERIC", "{": "TAG"}


class Stop(Exception):
    """Nothing behind this place can change which fault is answered."""


def parse(text: bytes, index, params: dict) -> tuple:
    parser = Parser(text, index, params)
    tree = None
    try:
        tree = parser.query()
    except Stop:
        pass
    if parser.faults:
        offset, fault = min(parser.faults)
        raise Fault(f"{TEXTS[fault]} at offset {offset}")
    return tree or ("empty",)


def joined(form: str, parts: list) -> Optional[tuple]:
    """Parts that were taken out do not count, and one alone stands for itself."""
    parts = [part for part in parts if part is not None]
    if len(parts) < 2:
        return parts[0] if parts else None
    return (form, parts)


class Parser:
    """One method a rule of the grammar. `faults` has an offset and a number for each fault that was met."""

    def __init__(self, text: bytes, index, params: dict):
        self.lexemes = lexemes_of(text) + [Lexeme("end", len(text))]
        self.at = 0
        self.level = 0
        self.faults = []
        self.index = index
        self.params = params

    def kind(self) -> str:
        return self.lexemes[self.at].kind

    def take(self) -> Lexeme:
        self.at += 1
        return self.lexemes[self.at - 1]

    def expect(self, *kinds: str) -> Lexeme:
        if self.kind() not in kinds:
            self.stop(SYNTAX, self.lexemes[self.at])
        return self.take()

    def note(self, fault: int, lexeme: Lexeme):
        self.faults.append((lexeme.at, fault))

    def stop(self, fault: int, lexeme: Lexeme):
        self.note(fault, lexeme)
        raise Stop

    def open(self):
        """Takes a lexeme that opens a level."""
        lexeme = self.take()
        self.level += 1
        if self.level > MOST_LEVELS:
            self.stop(TOO_DEEP, lexeme)

    def value(self, lexeme: Lexeme) -> Optional[bytes]:
        """The lexeme's text, or the value of the parameter that it is."""
        if not lexeme.kind.startswith("param"):
            return lexeme.text
        if lexeme.text not in self.params:
            self.note(NO_PARAM, lexeme)
        return self.params.get(lexeme.text)

    def query(self):
        tree = None if self.kind() == "end" else self.union(None)
        self.expect("end")
        return tree

    def union(self, fields):
        parts = [self.inter(fields)]
        while self.kind() == "|":
            self.take()
            parts.append(self.inter(fields))
        return joined("or", parts)

    def inter(self, fields):
        parts = [self.unary(fields)]
        while self.kind() not in ("|", ")", "end"):
            parts.append(self.unary(fields))
        return joined("and", parts)

    def unary(self, fields):
        form = {"-": "not", "~": "optional"}.get(self.kind())
        if form:
            self.open()
            part = self.unary(fields)
            self.level -= 1
            return None if part is None else (form, part)
        return self.field() if self.kind() == "@" else self.part(fields)

    def field(self):
        self.open()
        fields = [self.field_name()]
        while self.kind() == "|":
            self.take()
            fields.append(self.field_name())
        self.expect(":")
        part = self.target(fields)
        self.level -= 1
        return part

    def field_name(self):
        name = self.expect(*WORDS)
        if name.kind == "foreign":
            self.note(UNSUPPORTED, name)
        field = self.index.field(name.text)
        if field is None:
            self.note(UNKNOWN_FIELD, name)
        return field

    def target(self, fields):
        first = self.lexemes[self.at]
        if first.kind not in ATOMS + ("[", "{") or first.kind in TARGET_KINDS and len(fields) > 1:
            self.stop(SYNTAX, first)
        wanted = TARGET_KINDS.get(first.kind, "TEXT")
        if any(field is not None and field.kind != wanted for field in fields):
            self.note(WRONG_KIND, first)
        if first.kind == "[":
            return self.range(fields[0])
        return self.tags(fields[0]) if first.kind == "{" else self.part(fields)

    def range(self, field):
        self.take()
        low, high = self.range_end(low_end), self.range_end(high_end)
        self.expect("]")
        return ("range", field, low, high)

    def range_end(self, read):
        left_out = self.kind() == "("
        if left_out:
            self.take()
        lexeme = self.expect("raw", "param")
        text = self.value(lexeme)
        end = None if text is None else read(text, left_out)
        if text is not None and end is None:
            self.stop(SYNTAX, lexeme)
        return end

    def tags(self, field):
        self.take()
        found = []
        while self.kind() != "}":
            lexeme = self.expect("tag", "tag prefix", "param")
            text = self.value(lexeme) or b""
            text = text if field is not None and field.case_sensitive else text.lower()
            found.append((text, lexeme.kind == "tag prefix"))
        self.take()
        return ("tags", field, found)

    def part(self, fields):
        is_group = self.kind() == "("
        tree = self.group(fields) if is_group else self.atom(fields)
        return ordered(tree, self.attributes(tree), is_group) if self.kind() == "=>" else tree

    def group(self, fields):
        self.open()
        tree = None if self.kind() == ")" else self.union(fields)
        self.expect(")")
        self.level -= 1
        return tree

    def atom(self, fields):
        lexeme = self.expect(*ATOMS)
        if lexeme.kind == "*":
            return ("all",)
        if lexeme.kind == "foreign":
            self.note(UNSUPPORTED, lexeme)
        text = self.value(lexeme)
        if text is None:
            return None
        if lexeme.kind in ("prefix", "param prefix"):
            return ("prefix", fields, text.lower())
        words = tokens(text, self.index.stops) if lexeme.kind == "quote" else [text.lower()]
        words = [word for word in words if word not in self.index.stops]
        if len(words) > 1:
            return ("phrase", fields, words, 0, True)
        return ("word", fields, words[0]) if words else None

    def attributes(self, tree) -> dict:
        """What the braces behind an arrow say of the part before it."""
        arrow = self.take()
        self.expect("{")
        named = {}
        while self.kind() != "}":
            self.pair(arrow, tree, named)
            if self.kind() != "}":
                self.expect(";")
        self.take()
        return named

    def pair(self, arrow: Lexeme, tree, named: dict):
        name = self.expect("param")
        if name.text in named:
            self.stop(SYNTAX, name)
        if name.text not in FORMS:
            self.note(UNSUPPORTED, name)
        elif name.text != b"weight" and not takes_order(tree):
            self.note(UNSUPPORTED, arrow)
        self.expect(":")
        lexeme = self.expect("raw", "param")
        text = self.value(lexeme)
        named[name.text] = None
        if text is not None and name.text in FORMS:
            named[name.text] = FORMS[name.text](text)
            if named[name.text] is None:
                self.stop(SYNTAX, lexeme)
