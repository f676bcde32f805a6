#!/bin/sh
# build.sh SRC OUT [CHECKS [ASSERTIONS]]: builds the original assembler from the src--*.txt files of the folder SRC,
# unchanged, beside the stand-ins, and the driver. The program is OUT/driver. CHECKS (overflow checks) and ASSERTIONS (debug
# assertions; as CHECKS by default) are on, as in the profile dev, or off, as in release. Needs rustc alone.
set -eu
[ $# -ge 2 ] && [ $# -le 4 ] || { echo "usage: build.sh SRC OUT [on|off [on|off]]" >&2; exit 2; }
here=$(cd "$(dirname "$0")" && pwd)
src=$1 out=$2 checks=${3:-on}
assertions=${4:-$checks}

# The original's own layout: src--plankc--a--b.rs.txt is plankc/a/b.rs.
for file in "$src"/src--plankc--*.rs.txt; do
    path=$out/$(basename "$file" .txt | sed 's/^src--//; s/--/\//g')
    mkdir -p "$(dirname "$path")"
    cp "$file" "$path"
done
core=$out/plankc/crates/plank-core/src
cp "$here/stand-ins/plank_core.rs" "$core/lib.rs"
cp "$here/stand-ins/idx_slice.rs" "$core/index_vec/idx_slice.rs"

# With checks an overflow or a broken debug_assert! shows as a panic.
flags="--edition 2024 -O -C overflow-checks=$checks -C debug-assertions=$assertions --cap-lints allow -L $out"
library() { # library NAME FILE, and what it uses
    name=$1 file=$2
    shift 2
    rustc $flags --crate-type rlib --crate-name "$name" --out-dir "$out" "$file" "$@"
}
library alloy_primitives "$here/stand-ins/alloy_primitives.rs"
library allocator_api2 "$here/stand-ins/allocator_api2.rs"
library plank_core "$core/lib.rs" --extern allocator_api2
library assembler "$out/plankc/sir/crates/assembler/src/lib.rs" --extern plank_core --extern alloy_primitives
rustc $flags -o "$out/driver" "$here/driver.rs" --extern assembler --extern plank_core --extern alloy_primitives
