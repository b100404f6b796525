#!/usr/bin/env bash
# Runs the commands of examples/README.md and compares what they print with what that page says. The
# commands on real traffic are skipped where python3 is missing.
#
#     examples.sh [PROGRAM]
set -eu -o pipefail
cd "$(dirname "$0")/.."
program=${1:-$(tests/program.sh)}
folder=$(mktemp -d)
trap 'rm -rf "$folder"' EXIT

fails() {
    echo "tests/examples.sh: $1"
    exit 1
}

# Whether the page has a text as a line of its own, set off as what is printed.
says() {
    grep -qxF "    $2" examples/README.md || fails "$1: examples/README.md does not say: $2"
}

cat examples/first/plan.txt examples/first/capture.bin | "$program" list > "$folder/out" || fails "first: list failed"
[ "$(wc -l < "$folder/out")" = 1 ] || fails "first: more or less than a line"
says first "$(cat "$folder/out")"
echo "first: as examples/README.md says"
mkdir "$folder/files"
plan=examples/restart/plan.txt
cat "$plan" examples/restart/before.bin | "$program" rerun --dir "$folder/files" > "$folder/sent_before" || fails "restart: the first rerun failed"
"$program" check --dir "$folder/files" > "$folder/out" || fails "restart: check failed"
cat "$plan" "$folder/sent_before" | "$program" show > "$folder/shown" || fails "restart: what was sent first cannot be shown"
[ "$(wc -l < "$folder/shown")" = 1 ] || fails "restart: more or less than one message was sent first"
cat "$plan" examples/restart/after.bin | "$program" rerun --dir "$folder/files" > "$folder/sent_after" || fails "restart: the second rerun failed"
cat "$plan" "$folder/sent_after" | "$program" show >> "$folder/out" || fails "restart: what was sent then cannot be shown"
sed -n '/^## A restart/,/^## Real/s/^    \([fT1-5][ i].*\)/\1/p' examples/README.md | cmp - "$folder/out" || fails "restart: examples/README.md says something else"
echo "restart: as examples/README.md says"
if ! command -v python3 > /dev/null; then echo "tests/examples.sh: real traffic skipped, python3 is missing"; exit 0; fi
python3 tools/capture_from_hex.py < examples/first/capture.hex | cmp - examples/first/capture.bin
python3 tools/pcap_to_capture.py --summary examples/fastdds/capture.pcap 2> /dev/null | sed 's/^./    &/' > "$folder/summary"
sed -n '/^    participant /,/^    Note: where /p' examples/README.md | cmp - "$folder/summary" || fails "summary: examples/README.md says something else"
echo "summary: as examples/README.md says"
python3 tools/pcap_to_capture.py --plan examples/learn/topics.txt examples/learn/capture.pcap 2> /dev/null |
    "$program" learn --epoch 3322252354 | sed 's/^./    &/' > "$folder/learnt" || fails "learn: ended with $?"
sed -n '/^    prefix 01100c67b07f727d$/,/^    end$/p' examples/README.md | cmp - "$folder/learnt" || fails "learn: examples/README.md says something else"
echo "learn: as examples/README.md says"
sed -n 's/^    //p' examples/README.md > "$folder/page"
sed -n '/^prefix 0000000000000000$/,/^end$/p;/^end$/q' "$folder/page" | cmp - examples/two_writers/plan.txt || fails "two_writers: examples/README.md has another plan"
python3 tools/pcap_to_capture.py --plan examples/two_writers/plan.txt examples/two_writers/capture.pcap 2> /dev/null | "$program" list > "$folder/out" || fails "two_writers: list ended with $?"
grep '^T 0110' "$folder/page" | cmp - "$folder/out" || fails "two_writers: examples/README.md has another listing"
echo "two_writers: as examples/README.md says"
for name in cyclonedds fastdds; do
    python3 tools/pcap_to_capture.py --plan "examples/$name/plan.txt" "examples/$name/capture.pcap" > "$folder/in" 2> "$folder/told" || fails "$name: $(cat "$folder/told")"
    "$program" show < "$folder/in" > "$folder/out" || fails "$name: show ended with $?"
    datagrams=$(grep -oE '[0-9]+ datagrams' "$folder/told" | cut -d' ' -f1)
    lines=$(wc -l < "$folder/out")
    [ "$lines" = "$datagrams" ] || fails "$name: $lines lines for $datagrams datagrams"
    says "$name" "$(tail -n 1 "$folder/out")"
    echo "$name: a line for each of $datagrams datagrams, the last as examples/README.md says"
done
