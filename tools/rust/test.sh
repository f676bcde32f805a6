#!/bin/sh
# test.sh ARCHIVE [SRC]: compiles the wrapper against libsadrokki.a and runs its tests. With SRC, the folder of the
# original's sources, also builds the original (tools/oracle/build.sh) and runs the same random call lists through both:
# LISTS of them (20,000), from SEED (2026). Needs rustc alone.
set -eu
[ $# -eq 1 ] || [ $# -eq 2 ] || { echo "usage: test.sh ARCHIVE [SRC]" >&2; exit 2; }
here=$(cd "$(dirname "$0")" && pwd)
lib=$(cd "$(dirname "$1")" && pwd)
out=$(mktemp -d)
trap 'rm -rf "$out"' EXIT
flags="--edition 2024 -O -L native=$lib -L $out"
rustc $flags --crate-type rlib --crate-name sadrokki -l static=sadrokki --out-dir "$out" "$here/src/lib.rs"
rustc $flags --test -o "$out/fixed" "$here/tests/fixed.rs" --extern sadrokki
"$out/fixed"
[ $# -eq 2 ] || exit 0
"$here/../oracle/build.sh" "$2" "$out"
rustc $flags --test -o "$out/original" "$here/tests/original.rs" \
    --extern sadrokki --extern assembler --extern plank_core --extern alloy_primitives
"$out/original" --nocapture
