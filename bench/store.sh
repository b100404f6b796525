#!/usr/bin/env bash
# What the store costs for each entry as what it keeps grows: `durability list` over captures of so many samples of 64
# octets, each in a datagram of its own, of 1, 16 and 1,000 instances and of one for each sample, where the topic keeps the
# newest change of each instance, ten of them, or all, without and with a lifespan. Each line has the microseconds for
# each datagram, less what a run over the plan alone takes, and the ratio to `durability show` of the same capture, which
# reads it alike and keeps nothing. The last lines have the most memory of a run that keeps all, when it has read its input,
# less that of a run over the plan alone, for each change beside its payload.
#
# Usage: [COUNTS="1000 10000 100000 1000000"] bench/store.sh [PROGRAM]
set -eu
cd "$(dirname "$0")/.."
program=${1:-$(tests/program.sh)}
folder=$(mktemp -d)
trap 'rm -rf "$folder"' EXIT
COUNTS=${COUNTS:-1000 10000 100000} python3 - "$program" "$folder" <<'PYTHON'
import os, shutil, struct, subprocess, sys, time
program, folder = sys.argv[1:]
counts = [int(word) for word in os.environ["COUNTS"].split()]
WRITER, SIZE = b"\xa1" * 12 + bytes.fromhex("00000102"), 64
HEAD = bytes.fromhex("5254505302050000") + WRITER[:12]

def plan(history):
    return f"prefix 0102030405060708\ntopic T transient hash {history} - - - - 0\nwriter {WRITER.hex()} T -\nend\n".encode()

def record(number, instances, lifespan):
    inline = bytes.fromhex("70001000") + struct.pack("<Q", number % instances) + bytes(8)
    if lifespan:
        inline += bytes.fromhex("2b000800") + struct.pack("<iI", 1 << 30, 0)
    data = struct.pack("<HHI", 0, 16, 0) + WRITER[12:] + struct.pack("<iI", number >> 32, number & 0xffffffff)
    data += inline + bytes.fromhex("01000000") + struct.pack("<HHI", 256, 0, number & 0xffffffff) + bytes(SIZE - 8)
    moment = number << 10
    time_stamp = b"\x09\x01\x08\x00" + struct.pack("<II", moment >> 32, moment & 0xffffffff)
    datagram = HEAD + time_stamp + b"\x15\x07" + struct.pack("<H", len(data)) + data
    return struct.pack("<QHI", moment, 7400, len(datagram)) + datagram

def make(name, history, count, instances, lifespan):
    path = f"{folder}/{name}"
    with open(path, "wb", 1 << 20) as out:
        out.write(plan(history))
        for number in range(1, count + 1):
            out.write(record(number, instances, lifespan))
    return path

def run(path, word):
    """The time of a run in seconds."""
    with open(path, "rb") as given:
        start = time.perf_counter()
        subprocess.run([program, word], stdin=given, stdout=subprocess.DEVNULL, check=True)
        return time.perf_counter() - start

def least(path, word):
    first = run(path, word)
    return min([first] + [run(path, word) for _ in range(4 if first < 0.2 else 1 if first < 3 else 0)])

def memory(path):
    """The most memory that a run has, in octets, when it has read its input and waits for more."""
    with subprocess.Popen([program, "list", "--at", str(1 << 63)], stdin=subprocess.PIPE, stdout=subprocess.DEVNULL) as process:
        with open(path, "rb") as given:
            shutil.copyfileobj(given, process.stdin, 1 << 20)
        process.stdin.flush()
        time.sleep(0.5)
        with open(f"/proc/{process.pid}/status", encoding="ascii") as status:
            return next(int(line.split()[1]) << 10 for line in status if line.startswith("VmHWM"))

empty = make("empty", "1", 0, 1, False)
start = least(empty, "list")
for lifespan in (False, True):
    for instances in ("1", "16", "1000", "each"):
        for history in ("1", "10", "all"):
            line = []
            for count in counts:
                path = make("capture", history, count, count if instances == "each" else int(instances), lifespan)
                listed, shown = least(path, "list"), least(path, "show")
                line.append(f"{count}: {(listed - start) / count * 1e6:.2f} us ({listed / shown:.1f} show)")
            print(f"{instances} instances, history {history}{', lifespan' if lifespan else ''}; " + ", ".join(line), flush=True)
nothing = memory(empty)
for instances in ("1", "1000", "each"):
    for count in counts:
        path = make("capture", "all", count, count if instances == "each" else int(instances), True)
        beside = (memory(path) - nothing) / count - SIZE
        print(f"{instances} instances, {count} kept: {beside:.0f} octets a change beside its payload", flush=True)
PYTHON
