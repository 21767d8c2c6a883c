#!/bin/sh
# Builds the static libraries and the programs that tests, examples, fuzz and bench use: tools/build.sh [NAME..]; without
# names, all of them. Each is proved first, over what earlier checks kept.
#
#   target/staticlib/libNAME.a    a static library
#   target/bin/NAME               a program; target/obj/NAME.o is its object before it is linked
set -eu

root=$(cd "$(dirname "$0")/.." && pwd)
[ $# -gt 0 ] || set -- sm3rows passage_c rows steps packed axle_rows axle_steps
mkdir -p "$root/target/staticlib" "$root/target/bin" "$root/target/obj"
log=$root/target/build.log

# built NAME: builds in the crate's folder. `rt run` also runs what it built; whatever a program of this repository reads, it
# ends with status 0, so any other status says that it was not built.
built() {
    : > "$log"
    cd "$root/crates/$1" || return 1
    if [ -f src/main.rt ]; then
        rt run < /dev/null 2> "$log" > /dev/null
    else
        rt lib > "$log" 2>&1
    fi
}

for name in "$@"; do
    (built "$name") || { tail -n 40 "$log" >&2; echo "build: $name: FAILED" >&2; exit 1; }
    out=$root/crates/$name/out
    if [ -f "$root/crates/$name/src/main.rt" ]; then
        cp "$out/$name" "$root/target/bin/$name"
        cp "$out/$name.o" "$root/target/obj/$name.o"
    else
        cp "$out/lib$name.a" "$root/target/staticlib/lib$name.a"
    fi
    echo "build: $name"
done
