"""What FT.INFO tells of an index (COMMANDS.md)."""
from .matching import texts_of, value_of
from .texts import tags
from .wire import array, at_least, bulk, bulks, integer


def kind_words(field) -> list:
    if field.kind == "TEXT":
        return [b"TEXT", b"NOSTEM"]
    if field.kind == "NUMERIC":
        return [b"NUMERIC"]
    return [b"TAG", b"SEPARATOR", field.separator] + [b"CASESENSITIVE"] * field.case_sensitive


def attribute(field) -> bytes:
    names = [b"identifier", field.name, b"attribute", field.alias, b"type"]
    options = [b"SORTABLE"] * field.sortable + [b"UNF"] * field.unf + [b"NOINDEX"] * field.noindex
    return bulks(names + kind_words(field) + options)


def records_of(index, document: dict) -> int:
    """How often a member is counted: for its different words, for the different tags of each field, and for its numbers."""
    count = len({word for found in texts_of(None, index, document) for word in found})
    for field in index.fields:
        value = value_of(field, document)
        if value is not None and field.kind == "TAG":
            count += len(tags(value, field.separator, field.case_sensitive))
        count += value is not None and field.kind == "NUMERIC"
    return count


def told(name: bytes, index, documents: list, is_clean: bool, cursors: int) -> bytes:
    """The number of entries is that of the members where no other entry is there, and at least that else."""
    records = sum(records_of(index, document) for document in documents)
    return array([
        bulk(b"index_name"), bulk(name),
        bulk(b"prefixes"), bulks(index.prefixes),
        bulk(b"attributes"), array([attribute(field) for field in index.fields]),
        bulk(b"num_docs"), integer(len(documents)),
        bulk(b"num_records"), integer(records) if is_clean else at_least(records),
        bulk(b"hash_indexing_failures"), integer(index.failures),
        bulk(b"cursors"), integer(cursors),
    ])
