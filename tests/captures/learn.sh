#!/usr/bin/env bash
# `learn` over each capture of real traffic tells the writers and readers that its discovery announces. Skipped where the
# captures are missing. CAPTURES names their folder.
#
#     learn.sh [PROGRAM]
set -eu
cd "$(dirname "$0")/../.."
captures=${CAPTURES:-../shared/captures}
if [ ! -d "$captures" ]; then echo "tests/captures/learn.sh: skipped, no captures in $captures"; exit 0; fi
program=${1:-$(tests/program.sh)}
for folder in "$captures"/*/; do
    name=$(basename "$folder")
    [ -f "$folder/plan.txt" ] || continue
    found=$(python3 tests/captures/learn.py "$program" "$folder/capture.pcap" "$folder/plan.txt" "$(cat "$folder/epoch")") || { echo "$name: $found"; exit 1; }
    echo "$name: $found"
done
