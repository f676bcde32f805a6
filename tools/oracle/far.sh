#!/bin/sh
# far.sh ARCHIVE SRC [CHECKS]: lists whose offsets and deltas are around 2^24, which is beyond replay's slices, through
# tools/rust's wrapper over libsadrokki.a and through the original, built from SRC as build.sh does (CHECKS: on or off).
# Ends with status 1 at the first list that differs. Needs rustc alone.
set -eu
[ $# -eq 2 ] || [ $# -eq 3 ] || { echo "usage: far.sh ARCHIVE SRC [on|off]" >&2; exit 2; }
here=$(cd "$(dirname "$0")" && pwd)
lib=$(cd "$(dirname "$1")" && pwd)
out=$(mktemp -d)
trap 'rm -rf "$out"' EXIT
"$here/build.sh" "$2" "$out" "${3:-on}"
flags="--edition 2024 -O -L native=$lib -L $out"
rustc $flags --crate-type rlib --crate-name sadrokki -l static=sadrokki --out-dir "$out" "$here/../rust/src/lib.rs"
rustc $flags -o "$out/far" "$here/far.rs" --extern sadrokki --extern assembler --extern plank_core
"$out/far"
