#!/usr/bin/env bash
# `durability rerun` on real files is killed by its process id at random moments while a writer tells it one sample after
# another, and started again over the same files. After each kill `durability check` must show that the files keep all
# that an ACKNACK of the killed run acknowledged, and at most what was told; and the next run goes on from there, under a
# greater epoch. At the end a run that is not killed must end with 0, with all acknowledged. Bounded by KILLS; outside the
# gate; skipped where python3 is missing.
#
# Usage: tests/rerun_soak.sh [PROGRAM [KILLS [SEED]]], by default the program that is built here, 60 kills, the seed 1.
set -euo pipefail
cd "$(dirname "$0")/.."
command -v python3 > /dev/null || { echo "tests/rerun_soak.sh: skipped, python3 is missing"; exit 0; }
program=${1:-$(tests/program.sh)}
folder=$(mktemp -d)
trap 'rm -rf "$folder"' EXIT
mkdir "$folder/files"

cat > "$folder/soak.py" <<'PROGRAM'
import os, random, signal, struct, subprocess, sys, threading, time
program, files, kills, seed = sys.argv[1], sys.argv[2], int(sys.argv[3]), int(sys.argv[4])
chance = random.Random(seed)
WRITER = b"\xa1" * 12 + bytes([0, 0, 1, 2])
PLAN = b"prefix 0102030405060708\ntopic T persistent hash 4 - - - - 0\nwriter a1a1a1a1a1a1a1a1a1a1a1a100000102 T -\nend\n"
HEADER = b"RTPS\2\5\0\0" + WRITER[:12]


def fail(text):
    print("tests/rerun_soak.sh:", text)
    sys.exit(1)


def number(value):
    return struct.pack("<iI", value >> 32, value & 0xFFFFFFFF)


def beat(value, count):
    """A HEARTBEAT of all numbers up to this one, which asks for an answer."""
    return struct.pack("<BBHI", 7, 1, 28, 0) + WRITER[12:] + number(1) + number(value) + struct.pack("<I", count)


def told(value, count):
    """A message with the DATA of a number, and a HEARTBEAT."""
    key = bytes([value % 3]) * 16
    data = struct.pack("<BBHHHI", 0x15, 7, 52, 0, 16, 0) + WRITER[12:] + number(value) + struct.pack("<HH", 0x70, 16) + key
    data += struct.pack("<HH", 1, 0) + b"\0\1\0\0" + struct.pack("<I", value & 0xFFFFFFFF)
    return HEADER + data + beat(value, count)


def record(moment, octets):
    return struct.pack("<QHI", moment, 7401, len(octets)) + octets


def bases(octets):
    """The bases of the ACKNACKs for the writer in a capture, as far as it has whole records, and their prefixes."""
    at, found = 0, []
    while len(octets) - at >= 14:
        length = struct.unpack_from("<I", octets, at + 10)[0]
        message = octets[at + 14:at + 14 + length]
        if len(message) < length:
            break
        # The header, the INFO_DST, and then the ACKNACK: its ids, and the base of its set.
        if message[36] == 6 and message[44:48] == WRITER[12:]:
            high, low = struct.unpack_from("<iI", message, 48)
            found.append(((high << 32) + low, message[8:20]))
        at += 14 + length
    return found


def kept():
    """The numbers that the files keep, by `check`."""
    done = subprocess.run([program, "check", "--dir", files], stdout=subprocess.PIPE)
    if done.returncode != 0:
        fail(f"check ended with {done.returncode}: {done.stdout.decode()}")
    lines = done.stdout.decode().splitlines()
    return [int(line.split()[2]) for line in lines if line.startswith("T ")]


def run(first, moment, seconds):
    """Tells samples from a number on, for so long or, without a time, 200 of them. The octets that came back, and the
    next number."""
    process = subprocess.Popen([program, "rerun", "--dir", files], stdin=subprocess.PIPE, stdout=subprocess.PIPE)
    came = []
    reader = threading.Thread(target=lambda: came.append(process.stdout.read()))
    reader.start()
    value, end = first, time.monotonic() + (seconds or 1e9)
    try:
        process.stdin.write(PLAN)
        while time.monotonic() < end and (seconds or value < first + 200):
            process.stdin.write(record(moment + value, told(value, value & 0xFFFFFFFF)))
            process.stdin.flush()
            value += 1
            if value % 8 == 0:
                time.sleep(0.001 * chance.random())
        if not seconds:
            # The last number is stored behind the answer to its own datagram, and so acknowledged in the next one.
            process.stdin.write(record(moment + value, HEADER + beat(value - 1, value & 0xFFFFFFFF)))
            process.stdin.close()
            process.wait(60)
    except BrokenPipeError:
        fail(f"rerun ended with {process.wait()}")
    if seconds:
        process.send_signal(signal.SIGKILL)
        process.wait()
    reader.join()
    if not seconds and process.returncode != 0:
        fail(f"rerun ended with {process.returncode}")
    return came[0], value


acknowledged, epoch, told_upto, acks = 0, b"", 0, 0
for kill in range(kills):
    first = (max(kept(), default=0) if kill else 0) + 1
    if first <= acknowledged:
        fail(f"after {kill} kills: {acknowledged} was acknowledged, and {first - 1} is the last one kept")
    if first - 1 > told_upto:
        fail(f"after {kill} kills: {told_upto} was told, and {first - 1} is kept")
    out, after = run(first, 1000 * (kill + 1) << 32, 0.005 + 0.2 * chance.random())
    told_upto = max(told_upto, after - 1)
    for base, prefix in bases(out):
        if prefix < epoch:
            fail(f"after {kill} kills: the prefix {prefix.hex()} after {epoch.hex()}")
        epoch, acknowledged, acks = prefix, max(acknowledged, base - 1), acks + 1
first = max(kept(), default=0) + 1
if first <= acknowledged:
    fail(f"at the end: {acknowledged} was acknowledged, and {first - 1} is the last one kept")
out, after = run(first, 1000 * (kills + 1) << 32, 0)
if max((base for base, _ in bases(out)), default=0) != after or max(kept()) != after - 1:
    fail(f"at the end: not all up to {after - 1} was acknowledged and kept")
print(f"tests/rerun_soak.sh: {kills} kills, {acks} acknowledgements before them, {after - 1} samples kept in turn, ok")
PROGRAM
python3 "$folder/soak.py" "$program" "$folder/files" "${2:-60}" "${3:-1}"
