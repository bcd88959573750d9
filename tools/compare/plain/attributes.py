"""The attributes behind a part of a query, as `=>{$slop:1; $inorder:true}`, and what they make of it (QUERY.md)."""
from typing import Optional

from .texts import WEIGHT, canonical

MOST_SLOP = 2**32 - 1
ORDERS = {b"true": True, b"false": False}


def slop_of(text: bytes) -> Optional[int]:
    n = canonical(text)
    return n if n is not None and 0 <= n <= MOST_SLOP else None


# What each value says, None where it has another form. A weight says nothing.
FORMS = {
    b"slop": slop_of,
    b"inorder": lambda text: ORDERS.get(text.lower()),
    b"weight": lambda text: WEIGHT.fullmatch(text),
}


def takes_order(tree: Optional[tuple]) -> bool:
    """Whether a slop or an order may stand behind this part: a word, a phrase, or words of the same fields."""
    if tree is None or tree[0] in ("word", "phrase"):
        return True
    return tree[0] == "and" and all(part[0] == "word" and part[1] == tree[1][0][1] for part in tree[1])


def ordered(tree: Optional[tuple], named: dict, is_group: bool) -> Optional[tuple]:
    """The part with these attributes. Of itself a quote has a slop of 0 and is in order, and a group has neither."""
    if not named.keys() & {b"slop", b"inorder"} or tree is None or tree[0] == "word" or not takes_order(tree):
        return tree
    if tree[0] == "phrase":
        fields, words = tree[1:3]
    else:
        fields, words = tree[1][0][1], [part[2] for part in tree[1]]
    return ("phrase", fields, words, named.get(b"slop", None if is_group else 0), named.get(b"inorder", not is_group))
