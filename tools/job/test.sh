#!/bin/sh
# test.sh [PROGRAM]: tests make.py and the stored example; with PROGRAM, the binary `job`, also what it prints, for jobs at the limits
# and random ones against the model of tools/replay. JOBS is how many random ones (4,000), SEED where they begin (2026). Needs
# Python 3.10 alone. Exit status 0 if nothing differs.
set -eu
[ $# -le 1 ] || { echo "usage: test.sh [PROGRAM]" >&2; exit 2; }
exec python3 "$(dirname "$0")/test.py" "$@"
