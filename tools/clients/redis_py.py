"""The session of every client, with redis-py: its own calls for hashes and its search module, `r.ft()`."""
import sys

import redis
from redis.commands.search.aggregation import AggregateRequest, Desc
from redis.commands.search.field import NumericField, TagField, TextField
from redis.commands.search.indexDefinition import IndexDefinition, IndexType
from redis.commands.search.query import NumericFilter, Query
from redis.commands.search.reducers import count

SHOES = [("Red shoe", "Acme", 79), ("Beach shoe", "Zenit", 25), ("Trail shoe", "Acme", 95)]


def refusal(ask):
    """The text with which the server refuses what is asked; an unknown command's is shown whole."""
    try:
        return f"nothing, and answers {ask()}"
    except redis.ResponseError as fault:
        return str(fault)


def spoilt(r):
    """What EXEC is answered behind a command that was refused; redis-py's own pipeline raises that refusal."""
    with r.client() as one:
        one.execute_command("MULTI")
        refusal(lambda: one.execute_command("NOPE"))
        return one.execute_command("EXEC")


def text(value):
    return value.decode() if isinstance(value, bytes) else str(value)


def main():
    r = redis.Redis(port=int(sys.argv[1]), decode_responses=True)
    shop = r.ft("clientcheck")
    print("version", redis.__version__)
    refusal(lambda: r.execute_command("FT.DROPINDEX", "clientcheck", "DD"))
    print("ping", "PONG" if r.ping() else "nothing")
    fields = [TextField("name"), TagField("brand"), NumericField("price", sortable=True)]
    definition = IndexDefinition(prefix=["clientcheck:"], index_type=IndexType.HASH)
    print("create", text(shop.create_index(fields, definition=definition)))
    pipe = r.pipeline(transaction=False)
    for number, (name, brand, price) in enumerate(SHOES, 1):
        pipe.hset(f"clientcheck:{number}", mapping={"name": name, "brand": brand, "price": price})
    print("hset", *pipe.execute())
    print("hget", r.hget("clientcheck:1", "name"))
    query = Query("shoe").add_filter(NumericFilter("price", 20, 80)).sort_by("price").return_fields("name", "price")
    found = shop.search(query)
    print("search", found.total, *[f"| {shoe.id} {shoe.name} {shoe.price}" for shoe in found.docs])
    groups = AggregateRequest("*").group_by("@brand", count().alias("count")).sort_by(Desc("@count"))
    print("aggregate", " | ".join(f"{row[1]} {row[3]}" for row in shop.aggregate(groups).rows))
    part = shop.aggregate(AggregateRequest("*").load("@name").cursor(count=2))
    parts = [part.rows]
    while part.cursor.cid:
        part = shop.aggregate(part.cursor)
        parts.append(part.rows)
    print("cursor", " | ".join(", ".join(row[1] for row in rows) for rows in parts))
    info = shop.info()
    print(f"info {info['index_name']}, {info['num_docs']} documents")
    # redis-py takes the words ERR and EXECABORT from the front of a refusal.
    block = r.pipeline()
    block.hset("clientcheck:4", "name", "Green shoe").hget("clientcheck:4", "name").delete("clientcheck:4")
    print("transaction", *block.execute())
    print("spoilt EXECABORT", refusal(lambda: spoilt(r)))
    print("refused", refusal(lambda: r.ft("missing").search("shoe")))
    print("unknown ERR", refusal(lambda: r.client_setname("x")))
    print("drop", r.execute_command("FT.DROPINDEX", "clientcheck", "DD"))
    print("left", r.exists("clientcheck:1", "clientcheck:2", "clientcheck:3"))


main()
