#!/usr/bin/env bash
# `show` over each capture of real traffic ends with status 0 and prints a line for each datagram, and
# its numbers of facts are those that tshark finds. Skipped where the captures are missing; the counts
# are compared where tshark is there. CAPTURES names the folder of the captures.
#
#     show.sh [PROGRAM]
set -eu
cd "$(dirname "$0")/../.."
captures=${CAPTURES:-../shared/captures}
if [ ! -d "$captures" ]; then echo "tests/captures/show.sh: skipped, no captures in $captures"; exit 0; fi
program=${1:-$(tests/program.sh)}
out=$(mktemp)
trap 'rm -f "$out"' EXIT
for folder in "$captures"/*/; do
    name=$(basename "$folder")
    [ -f "$folder/capture.bin" ] || continue
    cat "$folder/plan.txt" "$folder/capture.bin" | "$program" show > "$out" || { echo "$name: show ended with $?"; exit 1; }
    lines=$(wc -l < "$out")
    datagrams=$(python3 tools/pcap_to_capture.py "$folder/capture.pcap" 2>&1 > /dev/null | grep -oE '[0-9]+ datagrams' | cut -d' ' -f1)
    if [ "$lines" != "$datagrams" ]; then echo "$name: $lines lines for $datagrams datagrams"; exit 1; fi
    own=$(sed -n '1s/^prefix //p' "$folder/plan.txt")00000000
    if counts=$(python3 tools/facts_by_tshark.py "$own" "$folder/capture.pcap" 2> /dev/null); then
        if [ "$(cut -d' ' -f4 "$out")" != "$counts" ]; then echo "$name: other facts than tshark finds"; exit 1; fi
        echo "$name: $lines datagrams, as tshark counts them; $(cut -d' ' -f5 "$out" | sort | uniq -c | awk '{print $1, $2}' | paste -sd, -)"
    else
        echo "$name: $lines datagrams; tshark is missing"
    fi
done
