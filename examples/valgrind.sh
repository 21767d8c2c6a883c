#!/bin/sh
# Builds examples/host.c and examples/passages.c with their archives and runs them under Valgrind. Any error or leak makes
# it fail.
set -eu

root=$(cd "$(dirname "$0")/.." && pwd)
command -v valgrind > /dev/null || { apt-get update && apt-get install -y valgrind; } > /dev/null

"$root/examples/run.sh" > /dev/null
"$root/examples/passages.sh" > /dev/null
# under PROGRAM ARGUMENTS..
under() {
    program=$root/target/examples/$1
    shift
    valgrind --quiet --error-exitcode=9 --leak-check=full --show-leak-kinds=all --errors-for-leak-kinds=definite \
        "$program" "$@"
}
try() {
    under host "$@"
}
try
for record in "" "a" "$(printf '%055d' 7)" "$(printf '%056d' 7)" "$(printf '%01015d' 7)"; do
    try "$record"
done
# Records that end inside a byte: of one bit, of one block, two and sixteen, each with all the bits that it can have.
for bits in 1 447 959 8127; do
    try "$(printf '%01016d' 7)" "$bits"
done
under passages "$root/examples/passages.txt"
echo "valgrind: no error"
