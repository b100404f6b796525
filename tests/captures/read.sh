#!/bin/sh
# Runs a generated test module in a copy of a crate and what it stands on.
#
#     read.sh CRATE SCRIPT ARGUMENTS..
#
# SCRIPT is a Python script beside this one; it is given the folder of captures and ARGUMENTS, and writes the
# module. CAPTURES names the folder. Skipped where there are no captures.
set -eu

here=$(cd "$(dirname "$0")" && pwd)
root=$(cd "$here/../.." && pwd)
captures=${CAPTURES:-$root/../shared/captures}
crate=$1
script=$2
shift 2

if ! ls "$captures"/*/capture.bin >/dev/null 2>&1; then
    echo "$script: skipped, no captures in $captures"
    exit 0
fi

copy=$(mktemp -d)
trap 'rm -rf "$copy"' EXIT
"$root/tests/take_crates.sh" "$copy" "$crate"
python3 "$here/$script" "$captures" "$@" >"$copy/crates/$crate/src/tests.rt"
cd "$copy/crates/$crate"
rt try --test
