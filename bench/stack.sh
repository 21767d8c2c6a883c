#!/bin/sh
# Measures the stack that the functions of both archives use, for the lines in include/ and docs/HOST.md, and the stack
# under which the program `packed` accepts the longest record's claim.
# SM3ROWS_LIB and PASSAGE_LIB name the archives; without them, they are those that `sh tools/build.sh` writes.
# PACKED_PROGRAM names the program; without it, it is target/bin/packed, and where that is missing the program is left out.
set -eu

root=$(cd "$(dirname "$0")/.." && pwd)
archive=${SM3ROWS_LIB:-$root/target/staticlib/libsm3rows.a}
passage=${PASSAGE_LIB:-$root/target/staticlib/libpassage_c.a}
[ -f "$archive" ] || { echo "no archive: run 'sh tools/build.sh' first" >&2; exit 1; }
[ -f "$passage" ] || { echo "no archive: run 'sh tools/build.sh' first" >&2; exit 1; }

mkdir -p "$root/target/bench"
claim=$root/target/bench/claim
# Names are bound at the start (-z now): the loader's own stack does not count.
gcc -std=c11 -O2 -Wall -Wextra -Wl,-z,now -I "$root/include" "$root/bench/stack.c" "$archive" "$passage" -lpthread \
    -o "$root/target/bench/stack"
"$root/target/bench/stack" "$claim"

program=${PACKED_PROGRAM:-$root/target/bin/packed}
[ -x "$program" ] || exit 0

# accepts KIB: whether the program, without an environment, accepts under a stack of so many KiB. Ten times, since a
# stack begins anywhere in its first pages.
accepts() {
    for _ in 1 2 3 4 5 6 7 8 9 10; do
        [ "$(ulimit -s "$1" && env -i "$program" < "$claim")" = accepted ] || return 1
    done
} 2> /dev/null

# The least stack lies above `less` and is at most `enough`.
less=0 enough=8192
accepts "$enough" || { echo "packed does not accept the claim" >&2; exit 1; }
while [ $((enough - less)) -gt 1 ]; do
    half=$(((less + enough) / 2))
    if accepts "$half"; then enough=$half; else less=$half; fi
done
echo "packed                $enough KiB of stack are enough, $less are not"
