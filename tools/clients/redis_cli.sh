#!/usr/bin/env bash
# The session of every client, as commands that redis-cli is given one by one and a search on its standard input.
set -u
port=$1
typed() { redis-cli -p "$port" "$@"; } # the reply without quotes, one line for each of its parts
echo "version $(redis-cli --version | cut -d ' ' -f 2)"
typed FT.DROPINDEX clientcheck DD >/dev/null
echo "ping $(typed PING)"
echo "create $(typed FT.CREATE clientcheck PREFIX 1 clientcheck: SCHEMA name TEXT brand TAG price NUMERIC SORTABLE)"
echo "hset" $(typed HSET clientcheck:1 name "Red shoe" brand Acme price 79) \
  $(typed HSET clientcheck:2 name "Beach shoe" brand Zenit price 25) \
  $(typed HSET clientcheck:3 name "Trail shoe" brand Acme price 95)
echo "hget $(typed HGET clientcheck:1 name)"
echo 'FT.SEARCH clientcheck "shoe @price:[20 80]" SORTBY price RETURN 2 name price' | redis-cli -p "$port" |
  paste -s -d '|' | sed -E 's/^/search /; s/[|](clientcheck:)/ | \1/g; s/[|](name|price)[|]/ /g'
typed FT.AGGREGATE clientcheck '*' GROUPBY 1 @brand REDUCE COUNT 0 AS count SORTBY 2 @count DESC |
  paste -s -d ' ' | sed -E 's/^[0-9]+ brand/aggregate/; s/ count / /g; s/ brand / | /g'
names() { sed '1d;$d' | grep -v '^name$' | paste -s -d ',' | sed 's/,/, /g'; } # of the rows of a cursor's read
first=$(typed FT.AGGREGATE clientcheck '*' LOAD 1 name WITHCURSOR COUNT 2)
second=$(typed FT.CURSOR READ clientcheck "$(tail -n 1 <<<"$first")")
echo "cursor $(names <<<"$first") | $(names <<<"$second")"
typed FT.INFO clientcheck | paste -s -d ' ' |
  sed -E 's/^index_name ([^ ]+) .* num_docs ([0-9]+) .*/info \1, \2 documents/'
waits() { printf '%s\n' MULTI "$@" EXEC | redis-cli -p "$port" | grep -v -e '^OK$' -e '^QUEUED$' -e '^$' | paste -s -d ' '; } # one connection
echo "transaction $(waits 'HSET clientcheck:4 name "Green shoe"' 'HGET clientcheck:4 name' 'DEL clientcheck:4')"
echo "spoilt $(waits NOPE 'DEL clientcheck:1' | sed 's/^ERR .* EXEC/EXEC/')"
echo "refused $(typed FT.SEARCH missing shoe | head -n 1)"
echo "unknown $(typed CLIENT SETNAME x | head -n 1)"
echo "drop $(typed FT.DROPINDEX clientcheck DD)"
echo "left $(typed EXISTS clientcheck:1 clientcheck:2 clientcheck:3)"
