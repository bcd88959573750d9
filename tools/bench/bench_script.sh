#!/usr/bin/env bash
# Measures `rsearch script`: the time and the memory of its works, and how these grow.
#
# Run it at the top of the repository: tools/bench/bench_script.sh [WORK..], with works that works() below lists and explains;
# without one, all of them. RSEARCH names another program than that of ./rsearch. It needs GNU time (Debian's package
# time) and python3.
#
# It prints a row for each work and size: wall time and processor time in seconds, of the quickest of five short runs or
# of one long run; the most memory in MB; and the factor by which processor time grew from the size before. Where a size
# doubles, n log n has a factor of about 2.2; a greater one than 3 is marked, where the time is long enough to tell.
# A run of more than 300 seconds is stopped.
set -u
cd "$(dirname "$0")/../.." || exit 1
program=${RSEARCH:-crates/rsearch/out/rsearch}
[ -n "${RSEARCH:-}" ] || ./rsearch script </dev/null || exit 1 # builds the program where it is missing or old
[ -x /usr/bin/time ] || { echo "bench_script: /usr/bin/time is missing" >&2; exit 1; }
folder=$(mktemp -d) || exit 1
trap 'rm -rf "$folder"' EXIT

works() { # name, sizes: what it does
  cat <<'END'
nothing 1: an empty input
new-keys 10000 20000 40000: HSETs of new keys, without an index
updates 10000 20000 40000: HSETs of 100 keys, without an index
indexed-new-keys 10000 20000 40000: HSETs of new keys, each text of eight words indexed
indexed-updates 10000 20000 40000: HSETs of 100 keys, indexed
search-missing 10000 20000 40000: searches of a word that no text has, in 1,000 documents
search-rare 10000 20000 40000: searches of a word of one document, in 1,000
search-frequent 10000 20000 40000: searches of a word of all 1,000 documents
search-large-index 10000 20000 40000: so many indexed new keys, then 100 searches of a word of all
search-after-updates 10000 20000 40000: so many indexed updates of 100 keys, then 100 searches of a word of all
shop-load 25000 50000 100000: HSETs of new keys, each eight words, a tag and a number, all indexed
shop-rare 25000 50000 100000: the same, then 200 searches of a word of one document
shop-frequent 25000 50000 100000: the same with a word of all
shop-and 25000 50000 100000: a word of all and a word of six in 1,000
shop-or 25000 50000 100000: one of two words, each of six in 1,000
shop-all 25000 50000 100000: all documents
shop-not 25000 50000 100000: all but one
shop-prefix 25000 50000 100000: words that begin alike, each of one document, one document in 100
shop-tag 25000 50000 100000: a tag of one document in 20
shop-range 25000 50000 100000: numbers of 9 documents in 1,000
shop-tag-and-range 25000 50000 100000: both
shop-ten-rows 25000 50000 100000: a word of all, ten rows with all their fields
shop-return-two 25000 50000 100000: the same with two fields of each
shop-count 25000 50000 100000: the same with LIMIT 0 0
shop-tenth 25000 50000 100000: a tenth of the documents by two tags, unsorted
shop-sort-tenth 25000 50000 100000: the same, sorted by the number, the first ten
shop-sort-tenth-deep 25000 50000 100000: the same, ten from the thousandth on
shop-sort-tenth-read 25000 50000 100000: the same tenth, sorted by the number of a field that is not SORTABLE, the first ten
shop-sort-text 25000 50000 100000: the same tenth, sorted by the text, the first ten
shop-sort-all 25000 50000 100000: all, sorted by the number, the first ten
shop-sort-all-deep 25000 50000 100000: the same, ten from the thousandth on
shop-in-keys 25000 50000 100000: a word of all in three keys
shop-filter 25000 50000 100000: a word of all, and FILTER of 9 documents in 1,000
shop-rewritten 10000 20000 40000: each document written five times, then 200 searches of a tag
shop-collected 10000 20000 40000: the same, with FT.DEBUG GC_FORCEINVOKE before the searches
shop-group 25000 50000 100000: 20 aggregates of all: groups by the tag, the count and the sum of the numbers of each
shop-group-two 25000 50000 100000: the same by tag and number, a group for each document, ten of them shown
shop-group-sort 25000 50000 100000: groups by the tag, the ten with the greatest sums
shop-apply-filter 25000 50000 100000: of all, twice the number, those over 100,000, and how many they are
shop-aggregate-sort 25000 50000 100000: of all the number, the ten least
shop-cursor 25000 50000 100000: all documents by a cursor, 1,000 rows a read
shop-cursor-small 25000 50000 100000: the same, ten rows a read
shop-cursor-kept 25000 50000 100000: the same, sorted by the number, so that the rows are kept, 1,000 a read
beside-cursors 10000 20000 40000: increments of one field while an index has 128 cursors
hgetall 250 500 1000: HGETALLs of a hash of 1,000 fields
wide-hsets 16384 32768 65534: 20 HSETs of so many words each, of new keys
wide-hdel 8000 16000 32000: one HDEL of all fields of a hash, from the first to the last
increments 10000 20000 40000: HINCRBYs of one field
renames 10000 20000 40000: RENAMEs of one key to another name and back
fields-of-one-key 5000 10000 20000: HSETs of so many different fields, one by one, to one key
END
}

measure() { # WORK COUNT: one run; writes wall and processor seconds and kilobytes, or why there is nothing to tell
  /usr/bin/time -q -o "$folder/time" -f '%e %U %S %M' \
    timeout 300 "$program" script <"$folder/input" >"$folder/output"
  local status=$?
  if [ "$status" -eq 124 ]; then
    echo "stopped after 300 s"
  elif [ "$status" -ne 0 ]; then
    echo "ended with status $status"
  elif grep -qa '^-' "$folder/output"; then
    echo "refused: $(grep -am 1 '^-' "$folder/output")"
  else
    awk '{ print $1, $2 + $3, $4 }' "$folder/time"
  fi
}

least() { # WORK COUNT: of five runs, the one of the least processor time; one run is enough where it is long
  python3 -B tools/bench/bench_input.py "$1" "$2" >"$folder/input" || exit 1
  for _ in 1 2 3 4 5; do
    measure "$1" "$2"
    awk '{ exit $2 + $3 < 5 }' "$folder/time" && break
  done | sort -g -k 2 | head -n 1
}

row() { # WORK COUNT: prints a row, and leaves its processor time in `before`, the work's first one in `first` too
  local measured wall cpu memory
  measured=$(least "$1" "$2")
  if [[ ! $measured =~ ^[0-9] ]]; then
    printf '%-22s%8d  %s\n' "$1" "$2" "$measured"
    return
  fi
  read -r wall cpu memory <<<"$measured"
  awk -v work="$1" -v count="$2" -v before="$before" -v first="$first" -v wall="$wall" -v cpu="$cpu" \
    -v memory="$memory" 'BEGIN {
    factor = before > 0 ? cpu / before : 0
    mark = first > 0 && cpu > 9 * first && cpu > 1 ? "  faster than n log n" : ""
    growth = factor ? sprintf("%.2f", factor) : "-"
    printf "%-22s%8d%9.2f%9.2f%9.1f%9s%s\n", work, count, wall, cpu, memory / 1024, growth, mark
  }'
  before=$cpu
  [ "$first" != 0 ] || first=$cpu
}

printf '%-22s%8s%9s%9s%9s%9s\n' work size wall cpu MB growth
works | while IFS=: read -r named _; do
  read -r work sizes <<<"$named"
  [ $# -eq 0 ] || [[ " $* " == *" $work "* ]] || continue
  before=0
  first=0
  for size in $sizes; do
    row "$work" "$size"
  done
done
