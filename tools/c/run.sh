#!/bin/sh
# run.sh ARCHIVE: compiles calls.c and example.c against libsadrokki.a, runs both, and prints the example's code.
# Exit status 0 if every answer and the code are the expected ones. CC names the compiler, cc by default.
set -eu
[ $# -eq 1 ] || { echo "usage: run.sh ARCHIVE" >&2; exit 2; }
here=$(cd "$(dirname "$0")" && pwd)
out=$(mktemp -d)
trap 'rm -rf "$out"' EXIT
for name in calls example; do
    ${CC:-cc} -std=c99 -Wall -Wextra -Werror -O2 -o "$out/$name" "$here/$name.c" "$1"
done
"$out/calls"
code=$("$out/example")
echo "$code"
[ "$code" = 6003565b ]
