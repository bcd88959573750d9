#!/usr/bin/env bash
# Compares the hash commands and the faults of the wire with Debian's redis-server, reply by reply.
#
# Run it at the top of the repository: tools/compare/compare_redis.sh. RSEARCH names another program than that of ./rsearch.
# Without a redis-server it says so in one line, and ends with status 0.
#
# It starts a redis-server of its own on a socket in a temporary folder, without persistence and with this project's
# limits where Redis has a setting for them: one data base, and words of at most 1 MiB. Then compare_redis.py sends the
# same bytes to both. It prints a line for each group of cases, the differences by decision with their reasons, and
# every other difference with both replies; where there is one of these, the status is 1.
set -u
cd "$(dirname "$0")/../.." || exit 1
program=${RSEARCH:-crates/rsearch/out/rsearch}

if ! command -v redis-server >/dev/null; then
  echo "compare_redis: skipped, as no redis-server is installed"
  exit 0
fi
[ -n "${RSEARCH:-}" ] || ./rsearch script </dev/null || exit 1 # builds the program where it is missing or old

folder=$(mktemp -d) || exit 1
redis-server --port 0 --unixsocket "$folder/socket" --dir "$folder" --save "" --appendonly no \
  --databases 1 --proto-max-bulk-len 1048576 >"$folder/log" 2>&1 &
server=$!
trap 'kill "$server"; wait "$server"; rm -rf "$folder"' EXIT

python3 -B tools/compare/compare_redis.py "$program" "$folder/socket"
