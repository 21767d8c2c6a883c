#!/bin/sh
# Fuzzes with libFuzzer and ASan, for some seconds each: fuzz/run.sh [SECONDS], 60 without it.
#   entry   the six functions of the row library's archive that take a limit and a record's bits;
#   axles   its three for axles between two bounds;
#   passage the four functions of the passage product's archive, beside the row library;
#   line    the line that the programs `rows` and `steps` read, and the shape of what they print;
#   packed  the line and the bytes that the program `packed` reads, and what it prints.
# SM3ROWS_LIB and PASSAGE_LIB name the archives; without them, they are those that `sh tools/build.sh` writes. So are the
# programs' objects, in target/obj.
set -eu

root=$(cd "$(dirname "$0")/.." && pwd)
seconds=${1:-60}
archive=${SM3ROWS_LIB:-$root/target/staticlib/libsm3rows.a}
passage=${PASSAGE_LIB:-$root/target/staticlib/libpassage_c.a}
[ -f "$archive" ] || { echo "no archive: run 'sh tools/build.sh' first" >&2; exit 1; }
[ -f "$passage" ] || { echo "no archive: run 'sh tools/build.sh' first" >&2; exit 1; }
work=$root/target/fuzz
mkdir -p "$work"

install() {
    { apt-get update && apt-get install -y "$1"; } > /dev/null
}
command -v objcopy > /dev/null || install binutils
command -v clang > /dev/null || install clang

# A program's object whose main, and what it calls of the system to read and write and to ask why that failed, have other
# names, for the harness to call and to answer.
for program in rows steps packed; do
    object=$root/target/obj/$program.o
    [ -f "$object" ] || { echo "no program: run 'sh tools/build.sh' first" >&2; exit 1; }
    objcopy --redefine-sym "main=${program}_main" --redefine-sym read=program_read \
        --redefine-sym write=program_write --redefine-sym rattle_errno=program_errno "$object" "$work/$program.o"
done

# build HARNESS OBJECTS..
build() {
    harness=$1
    shift
    clang -std=c11 -g -O1 -Wall -Wextra -fsanitize=fuzzer,address -I "$root/include" "$root/fuzz/$harness.c" "$@" \
        -o "$work/$harness"
}
# clang's runtime for the sanitizers is a package of its own on some systems.
build entry "$root/fuzz/lent.c" "$archive" 2> /dev/null ||
    { install "libclang-rt-$(clang -dumpversion | cut -d. -f1)-dev" && build entry "$root/fuzz/lent.c" "$archive"; }
build axles "$root/fuzz/lent.c" "$archive"
build passage "$root/fuzz/lent.c" "$passage" "$archive"
build line "$root/fuzz/program.c" "$work/rows.o" "$work/steps.o"
build packed "$root/fuzz/program.c" "$work/packed.o" "$archive"

# One input for each function, some for records of 37, 447, 448 and 8,127 bits and for their refusals, some for limits in
# blocks, some for axles outside their bounds and claims for other bounds, some claims with an entry p - 1, p, p + 1 or
# 2^64 - 1, and some lines, to begin with; claims to `packed` are made by its harness.
mkdir -p "$work/entry.corpus" "$work/axles.corpus" "$work/passage.corpus" "$work/line.corpus" "$work/packed.corpus"
printf '\000\000\000\000\030\000\040\000\000\000abcabc' > "$work/entry.corpus/digest"
printf '\000\000\000\000\045\000\040\000\000\000abcde' > "$work/entry.corpus/inside"
printf '\000\000\000\000\045\300\040\000\000\000abcde' > "$work/entry.corpus/bytes"
printf '\000\000\000\000\045\000\040\000\300\000abcde' > "$work/entry.corpus/spare"
printf '\000\000\351\000\340\000\040\000\000\000abc' > "$work/entry.corpus/wide"
printf '\001\000\000\000\045\004\000\000' > "$work/entry.corpus/row"
printf '\002\000\000\000\045\000\200\000\000\000abcde' > "$work/entry.corpus/produce"
printf '\002\000\161\007\000\200\000\000\000abcde' > "$work/entry.corpus/one-block"
printf '\002\000\161\010\000\200\000\000\000abcde' > "$work/entry.corpus/two-blocks"
printf '\002\000\166\007\000\200\000\000\000abcde' > "$work/entry.corpus/longest"
printf '\003\000\000\000\045\000\001\000\000\002\001\000\002abcabc' > "$work/entry.corpus/check"
printf '\004\000\000\000\045\000\001\000\000\002\001\000\002abcabc' > "$work/entry.corpus/pack"
printf '\005\000\000\000\045\000\005\200\000' > "$work/entry.corpus/unpack"
# Two entries changed: a 2 or wire 0 in front of one that is p, and p in front of 2^64 - 1.
printf '\004\000\000\000\045\000\002\000\000\000\003\000\002\000\000\002\001\140\002abcabc' > "$work/entry.corpus/pack-both"
printf '\003\000\000\000\045\000\002\000\000\000\000\000\000\200\000\000\000\140\002abcabc' > "$work/entry.corpus/wire-0"
printf '\003\000\000\000\045\000\002\000\000\002\001\140\002\200\000\000\000\240\003abcabc' > "$work/entry.corpus/lowest"
# limits FUNCTION REST: under the partner's limit the most bits that it allows and one bit more; 37 bits under limits that
# are out of range, 0, 17, 2^32 + 2 and 2^64 - 1. What comes after the bits is the rest.
limits() {
    number=0
    for front in '\0160\0250\0007' '\0160\0250\0010' '\0140\0000\0000\0045' '\0141\0000\0000\0045' \
        '\0142\0000\0000\0045' '\0143\0000\0000\0045'; do
        number=$((number + 1))
        printf '%b' "\\0$1$front$2" > "$work/entry.corpus/limit-$1-$number"
    done
}
limits 0 '\0000\0040\0000\0000\0000abcde'
limits 1 '\0004\0000\0000'
limits 2 '\0000\0200\0000\0000\0000abcde'
limits 3 '\0000\0000\0000abcabc'
limits 4 '\0000\0000\0000abcabc'
limits 5 '\0000\0005\0200\0000'
printf '\000\000\003\000\002\003\041\000\000abc' > "$work/axles.corpus/row"
printf '\000\000\003\000\002\003\140\240\000\000abc' > "$work/axles.corpus/no-row"
printf '\001\000\003\000\002\003\000\000abc' > "$work/axles.corpus/produce"
printf '\001\000\003\000\002\003\350\000abc' > "$work/axles.corpus/bytes"
printf '\001\000\003\240\320\003\000\004\000\000abc' > "$work/axles.corpus/wide"
printf '\001\000\003\000\000\003\000\000abc' > "$work/axles.corpus/outside"
printf '\001\341\003\000\002\003\000\000abc' > "$work/axles.corpus/no-digit"
printf '\002\000\003\000\002\003\000\000abc' > "$work/axles.corpus/check"
printf '\002\000\003\000\002\003\001\000\001\003\000abc' > "$work/axles.corpus/other-bounds"
printf '\002\000\003\000\002\003\001\000\001\003\001\120\000\000abc' > "$work/axles.corpus/made-to-fit"
printf '\002\000\363\002\000\002\003\000\000abc' > "$work/axles.corpus/high-half"
printf '\000\000\004abcdefghijklmnopqrstuvwxyz0123456789' > "$work/passage.corpus/read"
printf '\000\206\004abcdefghijklmnopqrstuvwxyz0123456789' > "$work/passage.corpus/wrong"
printf '\001\000\000\004abcdefghijklmnopqrstuvwxyz0123456789' > "$work/passage.corpus/write"
printf '\002\000\000\004abcdefghijklmnopqrstuvwxyz0123456789' > "$work/passage.corpus/seal"
printf '\003\000\000\004abcdefghijklmnopqrstuvwxyz0123456789' > "$work/passage.corpus/check"
printf '\003\000\002\004abcdefghijklmnopqrstuvwxyz0123456789' > "$work/passage.corpus/changed"
# An entry in two bytes: p - 1, p, p + 1, 2^64 - 1.
number=0
for value in '\0140\0001' '\0140\0002' '\0140\0003' '\0240\0003'; do
    number=$((number + 1))
    printf '\003\000\000\000\045\000\001\000\000\002\001%babcabc' "$value" > "$work/entry.corpus/check-entry-$number"
    printf '\004\000\000\000\045\000\001\000\000\002\001%babcabc' "$value" > "$work/entry.corpus/pack-entry-$number"
    printf '\002\000\003\000\002\003\000\001\120%babc' "$value" > "$work/axles.corpus/entry-$number"
    printf '\003\000\001\004%061d\001\000\002\001%b' 0 "$value" > "$work/passage.corpus/entry-$number"
done
printf '\000\200\2000,0,2\n' > "$work/line.corpus/rows"
printf '\001\200\20037,291,4\n' > "$work/line.corpus/steps"
printf '\000\200\2008128,0,0\n' > "$work/line.corpus/refused"
printf '\002\200\2000,32832,1\n' > "$work/line.corpus/pieces"
printf '\000\200\200%s,%064d\n' 8128 0 > "$work/packed.corpus/refused"
printf '\000\200\200%s,%064d\n' 0 0 > "$work/packed.corpus/empty"

# In the folder of the work, where a crashing input is then written. A claim of one block to `packed` has up to 75 + 2,881
# bytes, and inputs are that long from the start.
cd "$work"
for harness in entry axles passage line packed; do
    case $harness in
    packed) sizes='-max_len=3100 -len_control=0' ;;
    *) sizes=-max_len=1200 ;;
    esac
    status=0
    # shellcheck disable=SC2086 # two options
    "./$harness" -max_total_time="$seconds" $sizes -timeout=60 -use_value_profile=1 -print_final_stats=1 \
        -verbosity=0 "$harness.corpus" > "$harness.log" 2>&1 || status=$?
    if [ "$status" -ne 0 ]; then
        tail -n 40 "$harness.log"
        echo "fuzz: $harness: FAILED" >&2
        exit "$status"
    fi
    echo "fuzz: $harness"
    grep -e '^stat::' -e "^$harness:" "$harness.log"
done
echo "fuzz: no crash, no sanitizer report, no difference"
