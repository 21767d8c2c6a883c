#!/bin/sh
# Compares `judge digest` with `openssl dgst -sm3`, which takes whole bytes, for
# every record of 0 to 1,015 bytes, on bytes without a pattern, and on bytes of
# all ones at the lengths around block ends. Run from anywhere after
# `cargo build --release -j1`. JUDGE names another binary if wanted.
set -eu

here=$(cd "$(dirname "$0")/.." && pwd)
judge=${JUDGE:-$here/target/release/judge}
work=$(mktemp -d)
trap 'rm -r "$work"' EXIT

zeros=00000000000000000000000000000000
head -c 1015 /dev/zero > "$work/zeros"
openssl enc -aes-128-ctr -K "$zeros" -iv "$zeros" -in "$work/zeros" -out "$work/mixed"
tr '\000' '\377' < "$work/zeros" > "$work/ones"

# compare FILE LENGTH: the first LENGTH bytes of FILE, by both programs.
compare() {
    head -c "$2" "$1" > "$work/record"
    ours=$("$judge" digest "$((8 * $2))" < "$work/record")
    theirs=$(openssl dgst -sm3 -r < "$work/record")
    theirs=${theirs%% *}
    if [ "$ours" != "$theirs" ]; then
        echo "$2 bytes: judge $ours, openssl $theirs"
        exit 1
    fi
    compared=$((compared + 1))
}

compared=0
length=0
while [ "$length" -le 1015 ]; do
    compare "$work/mixed" "$length"
    case $((length % 64)) in
    0 | 1 | 55 | 56 | 63) compare "$work/ones" "$length" ;;
    esac
    length=$((length + 1))
done
echo "$compared digests agree"
