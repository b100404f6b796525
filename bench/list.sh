#!/usr/bin/env bash
# How fast `durability list` goes over captures of 1,000 and of 10,000 samples, or of as many as COUNTS names, of 1, of 16 and
# of 1,000 instances, as datagrams a second and as ratios to `cat` of as many octets and to `durability show` of the same
# capture. What a run over the plan alone takes is the start of a process, and is not counted but beside `show`.
#
#     [COUNTS="100000 1000000"] list.sh [PROGRAM]
set -eu
cd "$(dirname "$0")/.."
program=${1:-$(tests/program.sh)}
counts=${COUNTS:-1000 10000}
folder=$(mktemp -d)
trap 'rm -rf "$folder"' EXIT
python3 - "$folder" $counts <<'PYTHON'
import struct, sys
plan = b"prefix 0102030405060708\ntopic T transient hash 10 - - - - 0\nwriter " + b"a1" * 12 + b"00000102 T -\nend\n"
head = bytes.fromhex("5254505302050000") + b"\xa1" * 12
def record(number, instances):
    key = struct.pack("<I", number % instances) + bytes(12)
    payload = struct.pack("<II", 256, number) + bytes(248)
    data = struct.pack("<HHI", 0, 16, 0) + bytes.fromhex("00000102") + struct.pack("<II", 0, number) + bytes.fromhex("70001000") + key + bytes.fromhex("01000000") + payload
    datagram = head + b"\x15\x07" + struct.pack("<H", len(data)) + data
    return struct.pack("<QHI", number << 32, 7400, len(datagram)) + datagram
def put(name, octets):
    with open(f"{sys.argv[1]}/{name}", "wb") as out:
        out.write(octets)
put("plan", plan)
put("large", bytes(1 << 27))
for count in map(int, sys.argv[2:]):
    for instances in (1, 16, 1000):
        put(f"{count}-{instances}", plan + b"".join(record(number, instances) for number in range(1, count + 1)))
PYTHON
# The least of so many times of a command over a file, in microseconds.
least() {
    times=$1; file=$2; shift 2
    best=
    for _ in $(seq "$times"); do
        start=$(date +%s%N)
        "$@" < "$folder/$file" > /dev/null
        spent=$(( ($(date +%s%N) - start) / 1000 ))
        if [ -z "$best" ] || [ "$spent" -lt "$best" ]; then best=$spent; fi
    done
    echo "$best"
}
start=$(least 5 plan "$program" list)
cat_time=$(( $(least 5 large cat) - $(least 5 plan cat) ))
for count in $counts; do
    for instances in 1 16 1000; do
        name=$count-$instances
        list_time=$(least $(( count > 10000 ? 1 : 5 )) "$name" "$program" list)
        show_time=$(least 5 "$name" "$program" show)
        awk -v count="$count" -v instances="$instances" -v size="$(wc -c < "$folder/$name")" -v large="$(wc -c < "$folder/large")" \
            -v list="$((list_time - start))" -v show="$(awk -v list="$list_time" -v show="$show_time" 'BEGIN { print list / show }')" -v cat="$cat_time" 'BEGIN {
                printf "%d datagrams, %d instances: %d datagrams/s, %.0f times cat, %.1f times show\n",
                    count, instances, count * 1000000 / list, list / (cat * size / large), show
            }'
    done
done
