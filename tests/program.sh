#!/usr/bin/env bash
# Prints the path of the program. It is the one that `rt ci` or `rt run` left in this checkout, where no source is newer;
# else it is built.
set -eu
cd "$(dirname "$0")/../crates/durability"
program="$PWD/out/durability"
if [ -x "$program" ] && [ -z "$(find ../*/src ../*/specs ../*/proofs ../../crates.txt -newer "$program" -print -quit)" ]; then
    echo "$program"
    exit
fi
told=$(mktemp)
trap 'rm -f "$told"' EXIT
if ! rt run -- list < stdin > "$told" 2>&1; then
    cat "$told" >&2
    echo "tests/program.sh: the program could not be built" >&2
    exit 1
fi
echo "$program"
