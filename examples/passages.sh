#!/bin/sh
# Builds examples/passages.c with the archive of the passage product and, for the axle band, that of the row library, and
# runs it on a file of passage lines: examples/passages.sh [FILE]; without a name, on examples/passages.txt.
# PASSAGE_LIB and SM3ROWS_LIB name the archives; without them, they are those that `sh tools/build.sh` writes.
set -eu

root=$(cd "$(dirname "$0")/.." && pwd)
passage=${PASSAGE_LIB:-$root/target/staticlib/libpassage_c.a}
archive=${SM3ROWS_LIB:-$root/target/staticlib/libsm3rows.a}
[ -f "$passage" ] || { echo "no archive: run 'sh tools/build.sh' first" >&2; exit 1; }
[ -f "$archive" ] || { echo "no archive: run 'sh tools/build.sh' first" >&2; exit 1; }

mkdir -p "$root/target/examples"
${CC:-cc} -std=c11 -O2 -Wall -Wextra -I "$root/include" "$root/examples/passages.c" "$passage" "$archive" \
    -o "$root/target/examples/passages"
exec "$root/target/examples/passages" "${1:-$root/examples/passages.txt}"
