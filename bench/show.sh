#!/usr/bin/env bash
# How fast `durability show` goes over a capture of 1,000,000 datagrams of 256-octet payloads, into /dev/null, a file
# and a pipe: datagrams a second, as a ratio to `cat` of the same file, to bench/show.c, which decodes and prints the
# same in C, and to tshark over the same datagrams where tshark is there. COUNT sets another number of datagrams.
set -eu
cd "$(dirname "$0")/.."
program=${1:-crates/durability/out/durability}
count=${COUNT:-1000000}
[ -x "$program" ] || { echo "build $program first: (cd crates/durability && rt run -- show < /dev/null)" >&2; exit 1; }
folder=$(mktemp -d)
trap 'rm -rf "$folder"' EXIT
python3 - "$folder" "$count" <<'PYTHON'
import struct, sys
folder, count = sys.argv[1], int(sys.argv[2])
plan = b"prefix 0102030405060708\ntopic T transient hash 10 - - - - 0\nwriter " + b"a1" * 12 + b"00000102 T -\nend\n"
head = bytes.fromhex("5254505302050000") + b"\xa1" * 12
def datagram(number):
    data = struct.pack("<HHI", 0, 16, 0) + bytes.fromhex("00000102") + struct.pack("<II", 0, number) + bytes.fromhex("70001000") + bytes([number % 100]) * 16 + bytes.fromhex("01000000") + struct.pack("<II", 256, number) + bytes(248)
    return head + b"\x15\x07" + struct.pack("<H", len(data)) + data
with open(folder + "/input", "wb") as out, open(folder + "/pcap", "wb") as pcap:
    out.write(plan)
    pcap.write(struct.pack("<IHHiIII", 0xA1B2C3D4, 2, 4, 0, 0, 65535, 101))
    for number in range(1, count + 1):
        octets = datagram(number)
        out.write(struct.pack("<QHI", number << 20, 7400, len(octets)) + octets)
        packet = struct.pack(">BBHHHBBHII", 0x45, 0, 28 + len(octets), 1, 0, 64, 17, 0, 0x7F000001, 0x7F000001) + struct.pack(">HHHH", 40000, 7400, 8 + len(octets), 0) + octets
        pcap.write(struct.pack("<IIII", number >> 12, 0, len(packet), len(packet)) + packet)
PYTHON
gcc -O2 -o "$folder/show_c" bench/show.c
"$program" show < "$folder/input" | cmp - <("$folder/show_c" < "$folder/input") || { echo "bench/show.c prints other lines" >&2; exit 1; }
# The least of five times of a command over the input into a place, in milliseconds.
least() {
    best=
    for _ in 1 2 3 4 5; do
        start=$(date +%s%N)
        case "$1" in
        pipe) "${@:2}" < "$folder/input" | cat > /dev/null ;;
        *) "${@:2}" < "$folder/input" > "$1" ;;
        esac
        spent=$(( ($(date +%s%N) - start) / 1000000 + 1 ))
        if [ -z "$best" ] || [ "$spent" -lt "$best" ]; then best=$spent; fi
    done
    echo "$best"
}
cat_time=$(least /dev/null cat)
for into in /dev/null "$folder/lines" pipe; do
    show_time=$(least "$into" "$program" show)
    c_time=$(least "$into" "$folder/show_c")
    echo "$count datagrams into ${into##"$folder"/}: $((count * 1000 / show_time)) datagrams/s," \
        "$(awk "BEGIN { printf \"%.1f times cat, %.2f of the speed of C\", $show_time / $cat_time, $c_time / $show_time }")"
done
if command -v tshark > /dev/null; then
    start=$(date +%s%N)
    tshark -r "$folder/pcap" -T fields -e rtps.sm.id > /dev/null 2>&1
    tshark_time=$(( ($(date +%s%N) - start) / 1000000 + 1 ))
    echo "tshark takes $(awk "BEGIN { printf \"%.1f\", $tshark_time / $show_time }") times as long as show"
fi
