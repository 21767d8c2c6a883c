#!/bin/sh
# Builds examples/host.c with the archive and runs it. Arguments go to the program.
# SM3ROWS_LIB names the archive; without it, it is the one that `sh tools/build.sh` writes.
set -eu

root=$(cd "$(dirname "$0")/.." && pwd)
archive=${SM3ROWS_LIB:-$root/target/staticlib/libsm3rows.a}
[ -f "$archive" ] || { echo "no archive: run 'sh tools/build.sh' first" >&2; exit 1; }

mkdir -p "$root/target/examples"
${CC:-cc} -std=c11 -O2 -Wall -Wextra -I "$root/include" "$root/examples/host.c" "$archive" -o "$root/target/examples/host"
exec "$root/target/examples/host" "$@"
