"""The words of FT.CREATE and FT.ALTER, each fault at its word, and which documents are members (COMMANDS.md, QUERY.md)."""
from typing import NamedTuple, Optional

from .texts import STOP_WORDS, WEIGHT, canonical, number
from .wire import Fault, unsupported

MOST_FIELDS = 1_024
MOST_TEXTS = 32

KINDS = (b"TEXT", b"TAG", b"NUMERIC")
KINDS_LEFT_OUT = (b"GEO", b"GEOSHAPE", b"VECTOR")
OPTIONS_LEFT_OUT = frozenset(b"""LANGUAGE LANGUAGE_FIELD SCORE_FIELD PAYLOAD_FIELD FILTER TEMPORARY NOOFFSETS NOFIELDS
    SKIPINITIALSCAN""".split())
FIELD_OPTIONS_LEFT_OUT = (b"PHONETIC", b"WITHSUFFIXTRIE", b"INDEXEMPTY", b"INDEXMISSING")
FIELD_OPTIONS = {
    "TEXT": (b"NOSTEM", b"WEIGHT", b"SORTABLE", b"NOINDEX"),
    "TAG": (b"SEPARATOR", b"CASESENSITIVE", b"SORTABLE", b"NOINDEX"),
    "NUMERIC": (b"SORTABLE", b"NOINDEX"),
}


class Field(NamedTuple):
    name: bytes
    alias: bytes
    kind: str
    separator: bytes = b","
    case_sensitive: bool = False
    sortable: bool = False
    unf: bool = False
    noindex: bool = False


class Index:
    def __init__(self):
        # None where every key is taken.
        self.prefixes = []
        self.stops = STOP_WORDS
        self.fields = []
        # How often a document failed to be a member.
        self.failures = 0
        # The members when the dead entries were last taken out.
        self.collected = None

    def field(self, alias: bytes) -> Optional[Field]:
        return next((field for field in self.fields if field.alias == alias), None)

    def takes_key(self, key: bytes) -> bool:
        """Whether a prefix begins the key."""
        return key.startswith(tuple(self.prefixes or [b""]))

    def has_numbers(self, document: dict) -> bool:
        """Whether each NUMERIC field that the hash has is a number."""
        names = [field.name for field in self.fields if field.kind == "NUMERIC"]
        return all(number(document[name]) is not None for name in names if name in document)

    def has_member(self, key: bytes, document: dict) -> bool:
        return self.takes_key(key) and self.has_numbers(document)

    def tries(self, key: bytes, document: dict):
        """A document is a member, or of no concern, or fails and is counted."""
        self.failures += self.takes_key(key) and not self.has_numbers(document)


def bad_option(word: int) -> Fault:
    return Fault(f"ERR bad option at word {word}")


def bad_kind(word: int) -> Fault:
    return Fault(f"ERR bad field type at word {word}")


def duplicate(word: int) -> Fault:
    return Fault(f"ERR duplicate field at word {word}")


def too_many(word: int) -> Fault:
    return Fault(f"ERR too many fields at word {word}")


def bad_number(word: int) -> Fault:
    return Fault(f"ERR bad number at word {word}")


def are_too_many(fields: list) -> bool:
    return len(fields) > MOST_FIELDS or len([field for field in fields if field.kind == "TEXT"]) > MOST_TEXTS


class SchemaReader:
    """The words from the left. A word that is missing is a bad option at the number of words."""

    def __init__(self, words: list, at: int):
        self.words = words
        self.at = at
        self.fields = []

    def next_name(self) -> Optional[bytes]:
        return self.words[self.at].upper() if self.at < len(self.words) else None

    def word(self) -> bytes:
        if self.at == len(self.words):
            raise bad_option(self.at)
        self.at += 1
        return self.words[self.at - 1]

    def expect(self, name: bytes):
        at = self.at
        if self.word().upper() != name:
            raise bad_option(at)

    def counted(self, least: int) -> list:
        at = self.at
        n = canonical(self.word())
        if n is None or not least <= n <= len(self.words) - self.at:
            raise bad_number(at)
        return [self.word() for _ in range(n)]

    def weight(self):
        at = self.at
        if not WEIGHT.fullmatch(self.word()):
            raise bad_number(at)

    def index_options(self, index: Index):
        """The options up to SCHEMA, and that word."""
        seen = set()
        while True:
            at = self.at
            name = self.word().upper()
            if name == b"SCHEMA":
                return
            if name in OPTIONS_LEFT_OUT:
                raise unsupported(at)
            if name in seen:
                raise bad_option(at)
            seen.add(name)
            self.index_option(index, name, at)

    def index_option(self, index: Index, name: bytes, at: int):
        if name == b"ON":
            if self.word().upper() != b"HASH":
                raise unsupported(at + 1)
        elif name == b"PREFIX":
            index.prefixes = self.counted(least=1)
        elif name == b"STOPWORDS":
            index.stops = frozenset(word.lower() for word in self.counted(least=0))
        elif name == b"SCORE":
            self.weight()
        elif name not in (b"MAXTEXTFIELDS", b"NOHL", b"NOFREQS"):
            raise bad_option(at)

    def all_fields(self) -> list:
        while not self.fields or self.at < len(self.words):
            self.fields.append(self.field())
        return self.fields

    def field(self) -> Field:
        at = self.at
        name = alias = self.word()
        if self.next_name() == b"AS":
            self.word()
            alias = self.word()
        if any(field.alias == alias for field in self.fields):
            raise duplicate(at)
        if len(self.fields) == MOST_FIELDS:
            raise too_many(at)
        field = Field(name, alias, self.kind())
        if are_too_many(self.fields + [field]):
            raise too_many(at)
        return self.field_options(field)

    def kind(self) -> str:
        at = self.at
        kind = self.word().upper()
        if kind in KINDS_LEFT_OUT:
            raise unsupported(at)
        if kind not in KINDS:
            raise bad_kind(at)
        return kind.decode()

    def field_options(self, field: Field) -> Field:
        """A word that is no option of the kind begins the next field."""
        seen = set()
        while True:
            name = self.next_name()
            if name in FIELD_OPTIONS_LEFT_OUT:
                raise unsupported(self.at)
            if name not in FIELD_OPTIONS[field.kind]:
                return field
            if name in seen:
                raise bad_option(self.at)
            seen.add(name)
            self.word()
            field = self.field_option(field, name)

    def field_option(self, field: Field, name: bytes) -> Field:
        if name == b"SORTABLE":
            has_unf = self.next_name() == b"UNF"
            if has_unf:
                self.word()
            return field._replace(sortable=True, unf=has_unf)
        if name == b"NOINDEX":
            return field._replace(noindex=True)
        if name == b"CASESENSITIVE":
            return field._replace(case_sensitive=True)
        if name == b"SEPARATOR":
            at = self.at
            separator = self.word()
            if len(separator) != 1:
                raise bad_option(at)
            return field._replace(separator=separator)
        if name == b"WEIGHT":
            self.weight()
        return field


def read_create(words: list) -> Index:
    index, reader = Index(), SchemaReader(words, 2)
    reader.index_options(index)
    index.fields = reader.all_fields()
    return index


def read_alter(words: list) -> list:
    reader = SchemaReader(words, 2)
    reader.expect(b"SCHEMA")
    reader.expect(b"ADD")
    return reader.all_fields()
