#!/usr/bin/env bash
# Runs one short session with each Redis client that is installed, against a server that runs on this machine.
#
#     tools/clients/clients.sh PORT [CONNECTIONS]
#
# The session makes the index `clientcheck` and three hashes, searches with a filter and a sort, aggregates, reads a cursor, asks
# FT.INFO, has a transaction executed and one discarded, is refused twice, and takes all of it out again. tools/clients/ has it once for each client, written as that
# client is usually used; each has to print what tools/clients/expected.txt says. Then redis-benchmark runs its loads to their end,
# with so many CONNECTIONS at once (1 without it, and no more than the server has workers).
#
# Prints for each client: ok, or what differed, or that it is not installed. The status is 1 where one differed, and 2
# where there is no server. Debian's packages: redis-tools python3-redis node-redis php-redis php-cli ruby-redis, and
# for hiredis libhiredis-dev and gcc.
set -u
if [[ $# -lt 1 || $# -gt 2 || ! "$*" =~ ^[0-9]+(\ [0-9]+)?$ ]]; then
  echo "usage: tools/clients/clients.sh PORT [CONNECTIONS]" >&2
  exit 2
fi
port=$1
connections=${2:-1}
(exec 3<>"/dev/tcp/127.0.0.1/$port") 2>/dev/null || { echo "clients: no server on 127.0.0.1:$port" >&2; exit 2; }
cd "$(dirname "$0")" || exit 2
folder=$(mktemp -d) || exit 2
trap 'rm -rf "$folder"' EXIT
status=0

# A program may stand in another place than the first of that name: Debian's packages serve Debian's programs.
python=$(for one in python3 /usr/bin/python3; do "$one" -c 'import redis' 2>/dev/null && echo "$one" && break; done)
export NODE_PATH=${NODE_PATH:-/usr/share/nodejs}

is_there() { # CLIENT
  case $1 in
    redis-cli) command -v redis-cli ;;
    redis-py) [ -n "$python" ] ;;
    node-redis) node -e "require('redis')" ;;
    hiredis) gcc -o "$folder/hiredis" hiredis.c -lhiredis ;;
    phpredis) php -r 'exit(extension_loaded("redis") ? 0 : 1);' ;;
    redis-rb) ruby -e "require 'redis'" ;;
    redis-benchmark) command -v redis-benchmark && command -v redis-cli ;;
  esac >/dev/null 2>&1
}

session() { # CLIENT COMMAND..: runs the client's session, and says how what it printed differs from what is expected
  local name=$1
  shift
  is_there "$name" || { echo "$name: not installed"; return; }
  timeout 60 "$@" "$port" >"$folder/came" 2>"$folder/faults"
  local ended=$?
  local version
  version=$(sed -n 's/^version //p' "$folder/came")
  if grep -v '^version ' "$folder/came" | diff expected.txt - >"$folder/difference" && [ "$ended" -eq 0 ]; then
    echo "$name $version: ok"
    return
  fi
  echo "$name $version: differs, and ended with status $ended; expected (<) and printed (>):"
  cat "$folder/difference"
  head -n 5 "$folder/faults"
  status=1
}

load() { # WORDS..: one load of redis-benchmark, which prints its requests per second once it has come to its end
  timeout 120 redis-benchmark -p "$port" -c "$connections" -q "$@" >"$folder/came" 2>"$folder/faults"
  if grep -q 'requests per second' "$folder/came"; then
    echo "redis-benchmark $*: ok"
  else
    echo "redis-benchmark $*: did not come to its end"
    grep -v 'Could not fetch server CONFIG' "$folder/faults" | head -n 5
    status=1
  fi
}

session redis-cli bash redis_cli.sh
session redis-py "$python" redis_py.py
session node-redis node node_redis.js
session hiredis "$folder/hiredis"
session phpredis php phpredis.php
session redis-rb ruby redis_rb.rb

if is_there redis-benchmark; then
  had_key=$(redis-cli -p "$port" EXISTS myhash) # the key that its HSETs write
  load -n 10000 -t hset
  load -n 10000 -t hset,ping_mbulk -P 16
  redis-cli -p "$port" FT.CREATE clientcheck PREFIX 1 clientcheck: SCHEMA name TEXT price NUMERIC >/dev/null
  redis-cli -p "$port" HSET clientcheck:1 name "Red shoe" price 79 >/dev/null
  load -n 10000 FT.SEARCH clientcheck 'shoe @price:[20 80]'
  load -n 10000 -P 16 -r 1000 HSET clientcheck:__rand_int__ name "Red shoe" price 79
  redis-cli -p "$port" FT.DROPINDEX clientcheck DD >/dev/null
  [ "$had_key" = 1 ] || redis-cli -p "$port" DEL myhash >/dev/null
else
  echo "redis-benchmark: not installed"
fi
exit "$status"
