#!/bin/sh
# Compares libsm3rows.a, libpassage_c.a and the programs `rows`, `steps`, `packed`, `axle_rows` and `axle_steps` with the
# judge, and the digest with OpenSSL's too.
#
#   tests/judge/run.sh [--short] [--seed N]      for the gate: a minute at most on two cores
#   tests/judge/run.sh --full [--seed N]
#   tests/judge/run.sh --only axles:             the jobs alone that have this in their names; with --full too
#   tests/judge/run.sh --soak MINUTES [--seed N]
#   tests/judge/run.sh --tests                   the judge's own tests and those of the comparison
#
# SM3ROWS_LIB and PASSAGE_LIB name the archives, ROWS_PROGRAM, STEPS_PROGRAM, PACKED_PROGRAM, AXLE_ROWS_PROGRAM and
# AXLE_STEPS_PROGRAM the programs; without them, they are the ones that `sh tools/build.sh` writes. All seven must be there.
set -eu

# present FILE: the file is there.
present() {
    [ -f "$1" ] || { echo "no $1: run 'sh tools/build.sh' first" >&2; exit 1; }
}

root=$(cd "$(dirname "$0")/../.." && pwd)
SM3ROWS_LIB=${SM3ROWS_LIB:-$root/target/staticlib/libsm3rows.a}
PASSAGE_LIB=${PASSAGE_LIB:-$root/target/staticlib/libpassage_c.a}
rows=${ROWS_PROGRAM:-$root/target/bin/rows}
steps=${STEPS_PROGRAM:-$root/target/bin/steps}
packed=${PACKED_PROGRAM:-$root/target/bin/packed}
axle_rows=${AXLE_ROWS_PROGRAM:-$root/target/bin/axle_rows}
axle_steps=${AXLE_STEPS_PROGRAM:-$root/target/bin/axle_steps}
for file in "$SM3ROWS_LIB" "$PASSAGE_LIB" "$rows" "$steps" "$packed" "$axle_rows" "$axle_steps"; do
    present "$file"
done
export SM3ROWS_LIB PASSAGE_LIB
export CARGO_TARGET_DIR="$root/target/judge"

# A C compiler and libcrypto's development files.
echo 'int main(void) { return 0; }' | ${CC:-cc} -x c - -lcrypto -o /dev/null 2> /dev/null ||
    { apt-get update && apt-get install -y gcc libssl-dev; } > /dev/null

manifest=$root/tests/judge/Cargo.toml
if [ "${1:-}" = --tests ]; then
    exec cargo test --quiet --release -j1 --manifest-path "$manifest" -p judge -p compare --all-targets
fi
cargo build --quiet --release -j1 --manifest-path "$manifest" -p compare

# No call takes long; a library that hangs must not hang the gate.
case " $* " in
*" --full "* | *" --soak "*) limit=7200 ;;
*) limit=300 ;;
esac
exec timeout "$limit" "$CARGO_TARGET_DIR/release/compare" --rows "$rows" --steps "$steps" --packed "$packed" \
    --axle-rows "$axle_rows" --axle-steps "$axle_steps" "$@"
