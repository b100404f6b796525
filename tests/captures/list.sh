#!/usr/bin/env bash
# `list` over each capture of real traffic prints its listing, octet by octet: under KEEP_ALL and under KEEP_LAST 1, with
# the epoch of the reader that took everything. Skipped where the captures are missing. CAPTURES names their folder.
#
#     list.sh [PROGRAM]
set -eu
cd "$(dirname "$0")/../.."
captures=${CAPTURES:-../shared/captures}
if [ ! -d "$captures" ]; then echo "tests/captures/list.sh: skipped, no captures in $captures"; exit 0; fi
program=${1:-$(tests/program.sh)}
out=$(mktemp)
trap 'rm -f "$out"' EXIT
for folder in "$captures"/*/; do
    name=$(basename "$folder")
    [ -f "$folder/listing.txt" ] || continue
    for kept in '' _last1; do
        cat "$folder/plan$kept.txt" "$folder/capture.bin" | "$program" list --epoch "$(cat "$folder/epoch")" > "$out" || { echo "$name: list ended with $?"; exit 1; }
        cmp "$folder/listing$kept.txt" "$out" || { echo "$name: another listing over plan$kept.txt"; exit 1; }
    done
    echo "$name: both listings, the first of $(wc -l < "$folder/listing.txt") changes"
done
