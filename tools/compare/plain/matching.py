"""What a query's tree finds: whether one document meets it (QUERY.md)."""
import itertools

from .texts import number, tags, tokens


def meets(tree: tuple, index, document: dict) -> bool:
    """Whether a member of the index meets the tree. NOINDEX fields hold nothing."""
    form = tree[0]
    if form in ("all", "optional"):
        return True
    if form == "empty":
        return False
    if form == "not":
        return not meets(tree[1], index, document)
    if form == "and":
        return all(meets(part, index, document) for part in tree[1])
    if form == "or":
        return any(meets(part, index, document) for part in tree[1])
    if form == "range":
        text = value_of(tree[1], document)
        return text is not None and tree[2] <= number(text) <= tree[3]
    if form == "tags":
        return has_tag(tree[1], tree[2], document)
    return any(text_meets(tree, found) for found in texts_of(tree[1], index, document))


def value_of(field, document: dict):
    """The value that a query sees in the field."""
    return None if field.noindex else document.get(field.name)


def has_tag(field, wanted: list, document: dict) -> bool:
    value = value_of(field, document)
    if value is None:
        return False
    found = tags(value, field.separator, field.case_sensitive)
    return any(tag.startswith(text) if is_prefix else tag == text for tag in found for text, is_prefix in wanted)


def texts_of(fields, index, document: dict) -> list:
    """The tokens of each field that the query names, or of each TEXT field."""
    fields = [field for field in index.fields if field.kind == "TEXT"] if fields is None else fields
    values = [value_of(field, document) for field in fields]
    return [tokens(value, index.stops) for value in values if value is not None]


def text_meets(tree: tuple, found: list) -> bool:
    form, _, wanted = tree[:3]
    if form == "word":
        return wanted in found
    if form == "prefix":
        return any(token.startswith(wanted) for token in found)
    return has_phrase(wanted, *tree[3:], found)


def has_phrase(words: list, slop, in_order: bool, found: list) -> bool:
    """Whether some choice of places, one for each word and all different, is close enough and in order."""
    places = [[place for place, token in enumerate(found) if token == word] for word in words]
    return any(is_phrase(choice, slop, in_order) for choice in itertools.product(*places))


def is_phrase(places: tuple, slop, in_order: bool) -> bool:
    if len(set(places)) < len(places):
        return False
    if in_order and list(places) != sorted(places):
        return False
    return slop is None or max(places) - min(places) + 1 - len(places) <= slop
