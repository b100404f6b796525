#!/usr/bin/env bash
# Records a second that `durability rerun` takes into the journal of real files, with 1 and with 100 samples of 256 octets
# in each datagram of a persistent topic that keeps the newest one of 16 instances. Beside it a program in C that appends
# and syncs as many octets for each record as the journal does, and SQLite in WAL mode with synchronous FULL (a
# transaction for each record, by Python's sqlite3). Each line has its ratio to the one in C.
#
# Usage: bench/rerun.sh [SAMPLES [FOLDER]], by default 400 samples, in a folder under the system's temporary folder.
set -euo pipefail
cd "$(dirname "$0")/.."
samples=${1:-400}
program=$(tests/program.sh)
files=$(mktemp -d "${2:-${TMPDIR:-/tmp}}/rerun.XXXXXX")
trap 'rm -rf "$files"' EXIT
cc -O2 -o "$files/append" bench/append.c

input() {
    python3 - "$samples" "$1" <<'PROGRAM'
import struct, sys
samples, each = int(sys.argv[1]), int(sys.argv[2])
writer = b"\xa1" * 12 + bytes([0, 0, 1, 2])
out = sys.stdout.buffer
out.write(b"prefix 0102030405060708\ntopic T persistent hash 1 - - - - 0\n")
out.write(b"writer a1a1a1a1a1a1a1a1a1a1a1a100000102 T -\nend\n")
for first in range(1, samples + 1, each):
    message = b"RTPS\2\5\0\0" + writer[:12]
    for number in range(first, first + each):
        body = struct.pack("<HHI", 0, 16, 0) + writer[12:] + struct.pack("<iI", 0, number)
        body += struct.pack("<HH", 0x70, 16) + bytes([number % 16]) * 16 + struct.pack("<HH", 1, 0) + b"\0\1\0\0" + b"\7" * 252
        message += struct.pack("<BBH", 0x15, 7, len(body)) + body
    out.write(struct.pack("<QHI", first, 7401, len(message)) + message)
PROGRAM
}

measure() {
    local each=$1 records=$((samples / $1)) round
    input "$each" > "$files/input"
    for round in 1 2 3; do
        rm -rf "$files/dir"
        mkdir "$files/dir"
        start=$(date +%s%N)
        "$program" rerun --dir "$files/dir" < "$files/input" > /dev/null
        ours=$(($(date +%s%N) - start))
        octets=$(stat -c '%s' "$files/dir/journal.0" "$files/dir/journal.1" | sort -n | tail -n 1)
        plain=$("$files/append" "$files/plain" "$records" $((octets / records)))
        rm -f "$files"/base*
        echo "$ours $plain $(python3 bench/rows.py "$files/base" "$records" "$each")"
    done > "$files/rounds"
    awk -v each="$each" -v records="$records" '
        NR == 1 || $1 < ours { ours = $1 } NR == 1 || $2 < plain { plain = $2 } NR == 1 || $3 < lite { lite = $3 }
        END {
            printf "%d records of %d: %.0f a second, %.2f of C", records, each, records / ours * 1e9, plain / ours
            printf "; SQLite %.0f a second, %.2f of C\n", records / lite * 1e9, plain / lite
        }' "$files/rounds"
}
measure 1
measure 100
