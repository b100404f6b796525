#!/usr/bin/env python3
"""inputs.py NAME: writes a small input of the program to standard output, a plan and a capture behind it.

newest      two samples of one key, of which the newer one is kept
refused     a sample that a limit refuses, comes again once an older one has expired, and is asked for in between
closed      a coherent set of two, and a sample behind it that closes it
half        a coherent set of two that is still open, over a persistent topic
rest        the sample that closes that set, and a late reader that asks for all
replay      a sample of a persistent topic, a HEARTBEAT, and a late reader that asks for the replay
"""
import struct
import sys

WRITER = b"\xa1" * 12 + bytes([0, 0, 1, 2])
READER = b"\xb2" * 12
SECOND = 1 << 32
PLAN = """prefix 0102030405060708
topic T {kind} hash {depth} {samples} - - - 0
writer a1a1a1a1a1a1a1a1a1a1a1a100000102 T -
{reader}end
"""
LATE = "reader b2b2b2b2b2b2b2b2b2b2b2b200000107 T persistent\n"


def plan(kind="transient", depth="1", samples="-", reader=""):
    return PLAN.format(kind=kind, depth=depth, samples=samples, reader=reader).encode()


def sequence(number):
    return struct.pack("<iI", number >> 32, number & 0xFFFFFFFF)


def header(prefix):
    return b"RTPS\2\5\0\0" + prefix


def parameter(kind, value):
    return struct.pack("<HH", kind, len(value)) + value


def data(number, key, value, coherent=None, lifespan=None):
    """A message with the DATA of a number."""
    listed = parameter(0x70, bytes([key]) * 16)
    listed += parameter(0x56, sequence(coherent)) if coherent else b""
    listed += parameter(0x2B, struct.pack("<iI", lifespan, 0)) if lifespan else b""
    body = struct.pack("<HHI", 0, 16, 0) + WRITER[12:] + sequence(number) + listed + parameter(1, b"")
    body += b"\0\1\0\0" + struct.pack("<I", value)
    return header(WRITER[:12]) + struct.pack("<BBH", 0x15, 7, len(body)) + body


def heartbeat(first, last):
    body = struct.pack("<I", 0) + WRITER[12:] + sequence(first) + sequence(last) + struct.pack("<I", 1)
    return header(WRITER[:12]) + struct.pack("<BBH", 7, 1, len(body)) + body


def acknack(base, bits, count):
    """A message of the late reader to everybody, which asks for so many numbers from the base on."""
    words = struct.pack("<II", bits, (0xFFFFFFFF << (32 - bits)) & 0xFFFFFFFF) if bits else struct.pack("<I", 0)
    body = bytes([0, 0, 1, 7, 1, 0, 1, 2]) + sequence(base) + words + struct.pack("<I", count)
    to_everybody = struct.pack("<BBH", 0x0E, 1, 12) + bytes(12)
    return header(READER) + to_everybody + struct.pack("<BBH", 6, 1, len(body)) + body


def record(moment, message, port=0):
    return struct.pack("<QHI", moment, port, len(message)) + message


SETS = dict(kind="persistent", depth="10", reader=LATE)
INPUTS = {
    "newest": [plan(), record(5, data(1, 0xAA, 42)), record(6, data(2, 0xAA, 43))],
    "refused": [
        plan(depth="all", samples="2"), record(0, data(1, 0xAA, 1, lifespan=1)), record(0, data(2, 0xAA, 2)),
        record(0, data(3, 0xAA, 3)), record(0, heartbeat(1, 3)), record(SECOND, data(3, 0xAA, 3)),
    ],
    "closed": [
        plan(depth="10"), record(5, data(1, 0xAA, 1, coherent=1)), record(6, data(2, 0xAA, 2, coherent=1)),
        record(7, data(3, 0xAA, 3)),
    ],
    "half": [plan(**SETS), record(5, data(1, 0xAA, 1, coherent=1)), record(6, data(2, 0xAA, 2, coherent=1))],
    "rest": [
        plan(**SETS), record(7, data(3, 0xAA, 3)), record(8, acknack(1, 0, 1), 1), record(9, acknack(1, 4, 2), 1),
        record(10, acknack(5, 0, 3), 1),
    ],
    "replay": [
        plan(kind="persistent", reader=LATE), record(5, data(1, 0xAA, 42)), record(6, heartbeat(1, 1)),
        record(7, acknack(1, 1, 1), 1),
    ],
}

sys.stdout.buffer.write(b"".join(INPUTS[sys.argv[1]]))
