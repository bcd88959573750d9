#!/usr/bin/env bash
# Lists the functions that are slow to check, by the size of their `Lts` modules.
#
# The check of a function grows with this module, and that with the values to drop that are alive across a call that may fail.
# Prints those over a size, in KiB, by crate, as the last checks left them: those of tests where that of `server_tests` was
# `rt check --test`.
#
#   tools/proof/slow_functions.sh [KIB]     2,500 where none is given; fails where one is larger
set -u
cd "$(dirname "$0")/../.." || exit 1
limit=${1:-2500}
# (an incremental check writes records of names beside the modules, which say nothing of a function)
found=$(find crates/*/out/incremental -name '*Lts*.oantt' ! -name '*decls*' -size +"${limit}"k -printf '%k %P %H\n' 2>/dev/null |
  sed -E 's|^([0-9]+) (.*) crates/([a-z_]+)/out/incremental$|\3 \1 \2|' | sort -k1,1 -k2,2rn)
if [ -n "$found" ]; then
  echo "$found"
  exit 1
fi
echo "no function's Lts module is over $limit KiB"
