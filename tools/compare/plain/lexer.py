"""The lexemes of a query's text ("How a text is read" in QUERY.md).

A lexeme's kind is its own text where that is always the same, else a name: word, prefix, param, param prefix, quote, raw,
tag, tag prefix, and `stray` and `foreign` for what has no place in a query and for what is left out. `[` and `{` open a
range, tags and attributes; elsewhere they are strays.
"""
import re
from typing import NamedTuple

from .texts import NO_SEPARATOR, SEPARATOR, WORD, is_lone, unescaped
from .wire import Fault

PARAM = re.compile(rb"\$([A-Za-z0-9_]+)")
QUOTE = re.compile(rb'"((?:[^"\\]|\\' + SEPARATOR + rb"|\\(?!" + SEPARATOR + rb'))*)"', re.S)
FOREIGN_STAR = re.compile(rb"\*(?:\\|" + NO_SEPARATOR + rb")", re.S)
SIGNS = re.compile(rb"=>|[()|~@:*-]")
STRAYS = b"{}[]"

RANGE_RAW = re.compile(rb"[^ (\[\]$]+", re.S)
PAIRS_RAW = re.compile(rb"[^ ;}:$]+", re.S)
TAG_PIECE = re.compile(rb"(?:[^\\|}]|\\.)*", re.S)
TAG_BYTE = re.compile(rb"\\.|.", re.S)


class Lexeme(NamedTuple):
    kind: str
    at: int
    text: bytes = b""


def syntax_at(offset: int) -> Fault:
    return Fault(f"Syntax error at offset {offset}")


def lexemes_of(text: bytes) -> list:
    found = []
    at = 0
    while at < len(text):
        opened = (found[-1].kind if found else "") + chr(text[at])
        if opened == ":[":
            read, at = between_brackets(text, at)
        elif opened == ":{":
            read, at = between_tag_braces(text, at)
        elif opened == "=>{":
            read, at = between_pair_braces(text, at)
        else:
            read, at = plain_lexeme(text, at)
        found += read
    return found


def plain_lexeme(text: bytes, at: int):
    """What begins there outside of brackets and braces, and where it ends."""
    if found := WORD.match(text, at):
        return word_lexeme(text, found)
    if found := PARAM.match(text, at):
        is_prefix = text.startswith(b"*", found.end())
        return [Lexeme("param prefix" if is_prefix else "param", at, found[1])], found.end() + is_prefix
    if text.startswith(b'"', at):
        return quote_lexeme(text, at)
    if text.startswith(b"%", at) or FOREIGN_STAR.match(text, at):
        return [Lexeme("foreign", at, text[at:at + 1])], at + 1
    if found := SIGNS.match(text, at):
        return [Lexeme(found[0].decode(), at)], found.end()
    if text[at] in STRAYS:
        return [Lexeme("stray", at)], at + 1
    if text.startswith(b"\\", at):
        raise syntax_at(at)
    return [], at + 1


def word_lexeme(text: bytes, found: re.Match):
    at, end = found.span()
    word = unescaped(found[0])
    if text.startswith(b"*", end):
        return [Lexeme("prefix", at, word)], end + 1
    if found[0] in (b"w", b"W") and text.startswith(b"'", end):
        return [Lexeme("foreign", at, word)], end
    return [Lexeme("word", at, word)], end


def quote_lexeme(text: bytes, at: int):
    """A quote that is not closed is the fault, even where a lone backslash is in it."""
    found = QUOTE.match(text, at)
    if not found:
        raise syntax_at(at)
    inside = at + 1
    while (inside := text.find(b"\\", inside, found.end())) >= 0:
        if is_lone(text, inside):
            raise syntax_at(inside)
        inside += 2
    return [Lexeme("quote", at, found[1])], found.end()


def between_brackets(text: bytes, at: int):
    return inside_of(text, at, "]", "([", RANGE_RAW)


def between_pair_braces(text: bytes, at: int):
    return inside_of(text, at, "}", ":;", PAIRS_RAW)


def inside_of(text: bytes, at: int, close: str, signs: str, raw: re.Pattern):
    """The lexemes from an opening bracket or brace to its close, or to the text's end."""
    found = [Lexeme(chr(text[at]), at)]
    at += 1
    while at < len(text):
        sign = chr(text[at])
        if sign == close:
            return found + [Lexeme(close, at)], at + 1
        if param := PARAM.match(text, at):
            found.append(Lexeme("param", at, param[1]))
            at = param.end()
        elif run := raw.match(text, at):
            check_each_backslash(text, at, run.end())
            found.append(Lexeme("raw", at, run[0]))
            at = run.end()
        else:
            if sign in signs:
                found.append(Lexeme("stray" if sign == "[" else sign, at))
            at += 1
    return found, at


def check_each_backslash(text: bytes, at: int, end: int):
    """In brackets a backslash hides nothing, so each is judged alone."""
    for place in range(at, end):
        if text.startswith(b"\\", place) and is_lone(text, place):
            raise syntax_at(place)


def between_tag_braces(text: bytes, at: int):
    found = [Lexeme("{", at)]
    at += 1
    while True:
        piece = TAG_PIECE.match(text, at)
        found += tag_lexeme(at, TAG_BYTE.findall(piece[0]))
        at = piece.end()
        if at == len(text):
            return found, at
        if text.startswith(b"\\", at):
            raise syntax_at(at)
        if text.startswith(b"}", at):
            return found + [Lexeme("}", at)], at + 1
        at += 1


def tag_lexeme(at: int, units: list) -> list:
    """One piece, or none where it is empty. A unit is a byte, with the backslash that escapes it."""
    while units and units[-1] == b" ":
        units = units[:-1]
    while units and units[0] == b" ":
        units = units[1:]
        at += 1
    if not units:
        return []
    if param := PARAM.fullmatch(b"".join(units)):
        return [Lexeme("param", at, param[1])]
    if units == [b"*"]:
        return [Lexeme("stray", at)]
    is_prefix = units[-1] == b"*"
    text = b"".join(unit[-1:] for unit in (units[:-1] if is_prefix else units))
    return [Lexeme("tag prefix" if is_prefix else "tag", at, text)]
