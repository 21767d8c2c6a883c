#!/bin/sh
# Times the producer's same work in more and more memory, on usual and on huge pages, and in new memory.
# SM3ROWS_LIB names the archive; without it, it is the one that `sh tools/build.sh` writes.
set -eu

root=$(cd "$(dirname "$0")/.." && pwd)
archive=${SM3ROWS_LIB:-$root/target/staticlib/libsm3rows.a}
[ -f "$archive" ] || { echo "no archive: run 'sh tools/build.sh' first" >&2; exit 1; }

mkdir -p "$root/target/bench"
gcc -std=c11 -O2 -Wall -Wextra -I "$root/include" "$root/bench/growth.c" "$archive" -o "$root/target/bench/growth"
"$root/target/bench/growth"
