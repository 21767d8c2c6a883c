#!/bin/sh
# Times libsm3rows.a beside OpenSSL, libgcrypt, plain C and the judge, and libpassage_c.a beside plain C and libsm3rows.a,
# in one run. Prints a table; writes bench.csv and bench.svg into target/bench, or into the folder that BENCH_OUT names.
# Arguments: [--runs N] [--without FEATURE]; the feature, as intel-bmi2, is one of the processor's that libgcrypt leaves
# aside.
#
# SM3ROWS_LIB and PASSAGE_LIB name the archives; without them, they are those that `sh tools/build.sh` writes. ROWS_PROGRAM
# names the program `rows`; without it, it is target/bin/rows, and where that is missing the program is left out.
set -eu

root=$(cd "$(dirname "$0")/.." && pwd)
SM3ROWS_LIB=${SM3ROWS_LIB:-$root/target/staticlib/libsm3rows.a}
PASSAGE_LIB=${PASSAGE_LIB:-$root/target/staticlib/libpassage_c.a}
[ -f "$SM3ROWS_LIB" ] || { echo "no archive: run 'sh tools/build.sh' first" >&2; exit 1; }
[ -f "$PASSAGE_LIB" ] || { echo "no archive: run 'sh tools/build.sh' first" >&2; exit 1; }
export SM3ROWS_LIB PASSAGE_LIB
export CARGO_TARGET_DIR="$root/target/judge"
out=${BENCH_OUT:-$root/target/bench}
mkdir -p "$out"

{ echo 'int main(void) { return 0; }' | gcc -x c - -lcrypto -lgcrypt -o /dev/null && command -v python3; } > /dev/null 2>&1 ||
    { apt-get update && apt-get install -y gcc libssl-dev libgcrypt20-dev python3; } > /dev/null

cargo build --quiet --release -j1 --manifest-path "$root/bench/Cargo.toml"
program=${ROWS_PROGRAM:-$root/target/bin/rows}
[ -x "$program" ] && set -- "$@" --program "$program"
"$CARGO_TARGET_DIR/release/bench" --csv "$out/bench.csv" "$@"
python3 "$root/bench/plot.py" "$out/bench.csv" "$out/bench.svg"
echo "written: bench.csv and bench.svg"
