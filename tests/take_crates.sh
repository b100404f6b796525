#!/usr/bin/env bash
# Copies crates, and all that they stand on, into a folder for a small program that is built over them there: their
# sources, their lines of crates.txt and the effects that are allowed. Libraries that are proved here already are taken
# over, as far as this checkout's `rt run` or `rt check` built them.
#
# Usage: tests/take_crates.sh WORK CRATE..
set -euo pipefail
top="$(cd "$(dirname "${BASH_SOURCE[0]}")/.." && pwd)"
work="$1"
shift
mkdir -p "$work/crates"
cp "$top/HANDLES" "$work/"
names="$(python3 - "$top/crates.txt" "$@" <<'PYTHON'
import re, sys
stands_on = {}
for line in open(sys.argv[1]):
    if not line.startswith("#") and line.strip():
        head, _, libraries = line.partition(":")
        stands_on[head.split()[0]] = libraries.split()
found = []
def take(name):
    if name in stands_on and name not in found:
        for library in stands_on[name]:
            take(library)
        found.append(name)
for name in sys.argv[2:]:
    if name not in stands_on:
        sys.exit(f"tests/take_crates.sh: crates.txt names no crate {name}")
    take(name)
print(*found)
PYTHON
)"
for name in $names; do
    mkdir "$work/crates/$name"
    cp -r "$top/crates/$name"/{src,specs,proofs} "$work/crates/$name/"
    if [ -f "$top/crates/$name/out/rlib/stamp" ]; then
        mkdir "$work/crates/$name/out"
        cp -r "$top/crates/$name/out/rlib" "$work/crates/$name/out/"
    fi
    grep -E "^$name[ :]" "$top/crates.txt" >> "$work/crates.txt"
done
