"""The input of bench_script: bench_input.py WORK COUNT writes the requests of one work of that size."""
import sys

DOCUMENTS = 1_000  # in the index of the works that only search
WORDS = 1_000  # that the texts are drawn from


def request(*words):
    words = [str(word).encode() for word in words]
    return b"*%d\r\n" % len(words) + b"".join(b"$%d\r\n%s\r\n" % (len(word), word) for word in words)


def text(number):
    """Eight words: one of every text, six drawn ones, and one of this text alone."""
    drawn = [f"word{(number * 7_919 + place * 104_729) % WORDS}" for place in range(6)]
    return " ".join(["every"] + drawn + [f"only{number}"])


def create():
    return [request("FT.CREATE", "i", "SCHEMA", "t", "TEXT")]


def writes(count, keys):
    return [request("HSET", f"key{number % keys}", "t", text(number)) for number in range(count)]


def searches(count, word, *options):
    return [request("FT.SEARCH", "i", word, *(options or ["NOCONTENT"]))] * count


SHOP_SEARCHES = 200
SHOP_QUERIES = {
    "load": None,
    "rare": "only77",
    "frequent": "every",
    "and": "every word5",
    "or": "word5|word6",
    "all": "*",
    "not": "-only77",
    "prefix": "only77*",
    "tag": "@c:{color3}",
    "range": "@p:[100 1000]",
    "tag-and-range": "@c:{color3} @p:[100 1000]",
}


# options behind a query: a tenth of the documents have the tags color3 and color4
SHOP_OPTIONS = {
    "ten-rows": ("every", "LIMIT", 0, 10),
    "return-two": ("every", "RETURN", 2, "c", "p"),
    "tenth": ("@c:{color3|color4}", "NOCONTENT"),
    "sort-tenth": ("@c:{color3|color4}", "NOCONTENT", "SORTBY", "p"),
    "sort-tenth-deep": ("@c:{color3|color4}", "NOCONTENT", "SORTBY", "p", "LIMIT", 1_000, 10),
    "sort-all": ("every", "NOCONTENT", "SORTBY", "p"),
    "sort-all-deep": ("every", "NOCONTENT", "SORTBY", "p", "LIMIT", 1_000, 10),
    "sort-tenth-read": ("@c:{color3|color4}", "NOCONTENT", "SORTBY", "read"),
    "sort-text": ("@c:{color3|color4}", "NOCONTENT", "SORTBY", "t"),
    "in-keys": ("every", "NOCONTENT", "INKEYS", 3, "key5", "key77", "key900"),
    "filter": ("every", "NOCONTENT", "FILTER", "p", 100, 1_000),
    "count": ("every", "LIMIT", 0, 0),
}


SHOP_AGGREGATES = 20
SHOP_PARTS = {
    "group": ("GROUPBY", 1, "@c", "REDUCE", "COUNT", 0, "REDUCE", "SUM", 1, "@p"),
    "group-two": ("GROUPBY", 2, "@c", "@p", "REDUCE", "COUNT", 0, "LIMIT", 0, 10),
    "group-sort": ("GROUPBY", 1, "@c", "REDUCE", "SUM", 1, "@p", "AS", "sum", "SORTBY", 2, "@sum", "DESC", "MAX", 10),
    "apply-filter": ("APPLY", "@p * 2", "AS", "twice", "FILTER", "@twice > 100000", "GROUPBY", 0, "REDUCE", "COUNT", 0),
    "aggregate-sort": ("LOAD", 1, "@p", "SORTBY", 1, "@p", "MAX", 10),
}


def shop(count, query, options=()):
    """Documents of eight words, one of twenty tags and one of 100,000 numbers; then the searches. The number is kept to sort
    by, and has another name by which it is not."""
    schema = ("t", "TEXT", "c", "TAG", "p", "NUMERIC", "SORTABLE", "p", "AS", "read", "NUMERIC", "NOINDEX")
    loads = [request("FT.CREATE", "i", "SCHEMA", *schema)]
    for number in range(count):
        price = number * 7_919 % 100_000
        loads.append(request("HSET", f"key{number}", "t", text(number), "c", f"color{number % 20}", "p", price))
    return loads + (searches(SHOP_SEARCHES, query, *options) if query else [])


VERSIONS = 5


def rewritten(count, *behind):
    """Documents of the shop that were each written five times, and then, behind some other commands, searches of a tag."""
    loads = shop(count, None)
    return loads + loads[1:] * (VERSIONS - 1) + list(behind) + searches(SHOP_SEARCHES, SHOP_QUERIES["tag"])


def aggregates(count, *parts):
    """Of all documents of the shop."""
    return shop(count, None) + [request("FT.AGGREGATE", "i", "*", *parts)] * SHOP_AGGREGATES


def cursor(count, size, *parts):
    """All documents of the shop, read by a cursor of so many rows a read. Its id is the number of the command that opens it."""
    opened = count + 2
    opening = request("FT.AGGREGATE", "i", "*", "LOAD", 1, "@p", *parts, "WITHCURSOR", "COUNT", size)
    return shop(count, None) + [opening] + [request("FT.CURSOR", "READ", "i", opened)] * (count // size)


def beside_cursors(count):
    """So many increments while an index has 128 cursors."""
    opening = request("FT.AGGREGATE", "i", "*", "WITHCURSOR", "COUNT", 1)
    return shop(2, None) + [opening] * 128 + [request("HINCRBY", "h", "n", 1)] * count


def fields(count):
    return [part for number in range(count) for part in (f"field{number}", f"value{number}")]


WORKS = {
    "new-keys": lambda count: writes(count, count),
    "updates": lambda count: writes(count, 100),
    "indexed-new-keys": lambda count: create() + writes(count, count),
    "indexed-updates": lambda count: create() + writes(count, 100),
    "search-missing": lambda count: create() + writes(DOCUMENTS, DOCUMENTS) + searches(count, "nowhere"),
    "search-rare": lambda count: create() + writes(DOCUMENTS, DOCUMENTS) + searches(count, "only77"),
    "search-frequent": lambda count: create() + writes(DOCUMENTS, DOCUMENTS) + searches(count, "every"),
    "search-large-index": lambda count: create() + writes(count, count) + searches(100, "every"),
    "search-after-updates": lambda count: create() + writes(count, 100) + searches(100, "every"),
    "hgetall": lambda count: [request("HSET", "h", *fields(1_000))] + [request("HGETALL", "h")] * count,
    "wide-hsets": lambda words: [request("HSET", f"key{number}", *fields((words - 2) // 2)) for number in range(20)],
    "wide-hdel": lambda count: [request("HSET", "h", *fields(count)), request("HDEL", "h", *fields(count)[::2])],
    "increments": lambda count: [request("HINCRBY", "h", "n", 1)] * count,
    "renames": lambda count: [request("HSET", "a", "t", text(1))]
    + [request("RENAME", "a", "b"), request("RENAME", "b", "a")] * (count // 2),
    "fields-of-one-key": lambda count: [request("HSET", "h", f"field{number}", "value") for number in range(count)],
    "nothing": lambda count: [],
    "shop-cursor": lambda count: cursor(count, 1_000),
    "shop-cursor-small": lambda count: cursor(count, 10),
    "shop-cursor-kept": lambda count: cursor(count, 1_000, "SORTBY", 1, "@p"),
    "beside-cursors": beside_cursors,
    "shop-rewritten": rewritten,
    "shop-collected": lambda count: rewritten(count, request("FT.DEBUG", "GC_FORCEINVOKE", "i")),
}
for name, query in SHOP_QUERIES.items():
    WORKS["shop-" + name] = lambda count, query=query: shop(count, query)
for name, (query, *options) in SHOP_OPTIONS.items():
    WORKS["shop-" + name] = lambda count, query=query, options=options: shop(count, query, options)
for name, parts in SHOP_PARTS.items():
    WORKS["shop-" + name] = lambda count, parts=parts: aggregates(count, *parts)


def main():
    work, count = sys.argv[1:]
    sys.stdout.buffer.write(b"".join(WORKS[work](int(count))))


main()
