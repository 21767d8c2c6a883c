#!/bin/sh
# Counts by cachegrind, which no busy machine disturbs: the instructions of a digest on each side, those of records that end
# inside a byte beside those of whole bytes, those of the producer's blocks with the lines that are missed by caches as
# large as this machine's first two, those of a check of right assignments and of ones with an entry turned over, those of
# packing, those of a passage line, and those of its axles between two bounds.
# SM3ROWS_LIB and PASSAGE_LIB name the archives; without them, they are those that `sh tools/build.sh` writes.
set -eu

root=$(cd "$(dirname "$0")/.." && pwd)
archive=${SM3ROWS_LIB:-$root/target/staticlib/libsm3rows.a}
passage=${PASSAGE_LIB:-$root/target/staticlib/libpassage_c.a}
[ -f "$archive" ] || { echo "no archive: run 'sh tools/build.sh' first" >&2; exit 1; }
[ -f "$passage" ] || { echo "no archive: run 'sh tools/build.sh' first" >&2; exit 1; }
command -v valgrind > /dev/null || { apt-get update && apt-get install -y valgrind; } > /dev/null
echo 'int main(void) { return 0; }' | gcc -x c - -lcrypto -lgcrypt -o /dev/null 2> /dev/null ||
    { apt-get update && apt-get install -y gcc libssl-dev libgcrypt20-dev; } > /dev/null

mkdir -p "$root/target/bench"
program=$root/target/bench/count
gcc -std=c11 -O2 -Wall -Wextra -I "$root/include" "$root/bench/count.c" "$root/bench/baseline.c" \
    "$root/bench/passage.c" "$archive" "$passage" -lcrypto -lgcrypt -o "$program"
first=$(getconf LEVEL1_DCACHE_SIZE),$(getconf LEVEL1_DCACHE_ASSOC),64
second=$(getconf LEVEL2_CACHE_SIZE),$(getconf LEVEL2_CACHE_ASSOC),64

# whole SIDE BITS CALLS [FEATURE]: instructions, misses of the first cache and of the second, of the whole program.
whole() {
    valgrind --tool=cachegrind --cachegrind-out-file=/dev/null --D1="$first" --LL="$second" "$program" "$@" 2>&1 |
        tr -d , | awk '/I +refs:/ { i = $4 } /D1 +misses:/ { d = $4 } /LLd misses:/ { l = $4 } END { print i, d, l }'
}

# call SIDE BITS [FEATURE]: the same of one call. What six calls have more than two is four calls'.
call() {
    side=$1 bits=$2
    shift 2
    { whole "$side" "$bits" 2 "$@"; whole "$side" "$bits" 6 "$@"; } |
        awk 'NR == 1 { i = $1; d = $2; l = $3 } NR == 2 { print ($1 - i) / 4, ($2 - d) / 4, ($3 - l) / 4 }'
}

# digest SIDE [FEATURE]: a line for a side's digest; 8,120 bits have fifteen blocks more than none.
digest() {
    name=$1
    shift
    { call "$name" 0 "$@"; call "$name" 8120 "$@"; } | awk -v name="$name${1:+ without $1}" '
        NR == 1 { none = $1 }
        NR == 2 { printf "%-30s %6.0f %6.0f %6.0f\n", name, none, $1, ($1 - none) / 15 }'
}

# beside SIDE BITS WHOLE: a line for a side's record that ends inside a byte, beside one of whole bytes with as many blocks.
beside() {
    { call "$1" "$2"; call "$1" "$3"; } | awk -v side="$1" -v bits="$2" -v whole="$3" '
        NR == 1 { inside = $1 }
        NR == 2 { printf "%-8s %6d %5d %12.0f %12.0f %7.4f\n", side, bits, whole, inside, $1, inside / $1 }'
}

# line SIDE OTHERS..: a line for a passage line's side, or its axles', beside the sum of others for as many bits.
line() {
    name=$1
    shift
    for side in "$name" "$@"; do call "$side" 504; done | awk -v name="$name" -v others="$*" '
        NR == 1 { ours = $1 }
        NR > 1 { sum += $1 }
        END { printf "%-13s %9.0f %9.0f %7.4f  %s\n", name, ours, sum, ours / sum, others }'
}

echo "instructions of a digest, bits       0   8120  a block more"
digest digest
digest openssl
digest libgcrypt
for feature in intel-avx intel-avx2 intel-bmi2; do
    digest libgcrypt "$feature"
done
echo "a record that ends inside a byte beside whole bytes: bits of both, instructions of both, ratio"
for pair in "501 504" "8117 8120" "8127 8120"; do
    beside digest "${pair% *}" "${pair#* }"
done
for pair in "437 440" "8117 8120" "8127 8120"; do
    beside produce "${pair% *}" "${pair#* }"
done
echo "produce, a block of it; caches of $first and $second (bytes, ways, line)"
echo "blocks  instructions  missed by the first  by the second"
for blocks in 1 2 4 8 16; do
    call produce "$((512 * blocks - 72))" |
        awk -v n="$blocks" '{ printf "%6d %13.0f %20.0f %14.0f\n", n, $1 / n, $2 / n, $3 / n }'
done
echo "instructions of a check: bits, the wire whose entry is turned over"
for bits in 0 440 504 8127; do
    call check "$bits" | awk -v bits="$bits" '{ printf "%6d %8s %11.0f\n", bits, "none", $1 }'
done
# start words, padding, a round and the result of one block; the last entries of two and of sixteen
for pair in "440 512" "440 1024" "440 22700" "440 23040" "504 45568" "8127 360960"; do
    call "check@${pair#* }" "${pair% *}" | awk -v bits="${pair% *}" -v wire="${pair#* }" '{ printf "%6d %8d %11.0f\n", bits, wire, $1 }'
done
echo "instructions of a row and of all rows of a record, 504 bits"
call row 504 | awk '{ printf "%.1f %.0f\n", $1 / (512 + 32320 * 2), $1 }'
echo "instructions of a wire, 1 block 16 blocks"
for side in pack c-pack unpack c-unpack; do
    { call "$side" 440; call "$side" 8120; } | awk -v side="$side" '
        { wire[NR] = $1 / (513 + 22528 * (NR == 1 ? 1 : 16)) }
        END { printf "%-22s %7.2f %9.2f\n", side, wire[1], wire[2] }'
done
echo "a passage line: instructions, those of others, ratio, the others"
line passage-read c-read
line passage-write c-write
line passage-seal digest produce
line passage-check check
echo "its axles between two bounds, beside a record of as many bits; of rows all, one after the other"
line axles-row row
line axles-produce produce
line axles-check check
