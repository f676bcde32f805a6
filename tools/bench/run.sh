#!/bin/sh
# tools/bench/run.sh [SRC_DIR [ROWS]]
# Builds the archive of the crate `sadrokki` (or takes $ARCHIVE), and the program that times it. With
# SRC_DIR, the folder of the original's src--*.txt files, the original is built for release, unchanged
# but for stand-ins, and timed in the same run. ROWS is a part of
# the names of the rows wanted. Last, the C example. Writes to target/bench.
set -eu
here=$(CDPATH= cd -- "$(dirname -- "$0")" && pwd)
root=$(CDPATH= cd -- "$here/../.." && pwd)
out=$root/target/bench
mkdir -p "$out"

if [ -n "${ARCHIVE:-}" ]; then
    cp "$ARCHIVE" "$out/libsadrokki.a"
else
    (cd "$root/crates/sadrokki" && rt lib)
    cp "$root/crates/sadrokki/out/libsadrokki.a" "$out/libsadrokki.a"
fi

flags="--edition 2024 -C opt-level=3 -C debug-assertions=off -C overflow-checks=off -L $out"
linked=""
if [ $# -ge 1 ]; then
    src=$1
    core=$out/src/plank_core
    asm=$out/src/assembler
    mkdir -p "$core/index_vec" "$asm"
    take() { cp "$src/src--$1.txt" "$2"; }
    take plankc--crates--plank-core--src--const_print.rs "$core/const_print.rs"
    take plankc--crates--plank-core--src--index.rs "$core/index.rs"
    take plankc--crates--plank-core--src--span.rs "$core/span.rs"
    take plankc--crates--plank-core--src--index_vec--mod.rs "$core/index_vec/mod.rs"
    take plankc--sir--crates--assembler--src--lib.rs "$asm/lib.rs"
    take plankc--sir--crates--assembler--src--display.rs "$asm/display.rs"
    take plankc--sir--crates--assembler--src--op.rs "$asm/op.rs"
    cp "$here/stand-ins/idx_slice.rs" "$core/index_vec/idx_slice.rs"
    cp "$here/stand-ins/plank_core.rs" "$core/lib.rs"
    for name in alloy_primitives allocator_api2; do
        rustc $flags --crate-type rlib --crate-name $name "$here/stand-ins/$name.rs" --out-dir "$out"
    done
    rustc $flags -A warnings --crate-type rlib --crate-name plank_core "$core/lib.rs" \
        --extern allocator_api2="$out/liballocator_api2.rlib" --out-dir "$out"
    rustc $flags -A warnings --crate-type rlib --crate-name assembler "$asm/lib.rs" \
        --extern plank_core="$out/libplank_core.rlib" \
        --extern alloy_primitives="$out/liballoy_primitives.rlib" --out-dir "$out"
    linked="--cfg original --extern assembler=$out/libassembler.rlib --extern plank_core=$out/libplank_core.rlib --extern alloy_primitives=$out/liballoy_primitives.rlib"
fi
# Eight links: the archive's code at four places 16 bytes apart, the functions of this program at two
# alignments; each run twice. The table has the least of them, for both sides.
rm -f "$out/rows"
links=""
for power in 4 6; do
    for bytes in 16 32 48 64; do
        echo "$bytes" >"$out/shift"
        SHIFT=$out rustc $flags --check-cfg 'cfg(original)' --check-cfg 'cfg(shift)' --cfg shift $linked \
            -C llvm-args=-align-all-functions=$power -l static=sadrokki "$here/bench.rs" -o "$out/bench$bytes.$power"
        links="$links $out/bench$bytes.$power"
    done
done
for turn in 1 2; do
    for link in $links; do
        "$link" ${2:+"$2"} >>"$out/rows"
    done
done
"$out/bench16.4" --table "$out/rows"

if [ -x "$root/tools/c/run.sh" ]; then
    "$root/tools/c/run.sh" "$out/libsadrokki.a"
fi
