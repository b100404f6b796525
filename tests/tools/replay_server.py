#!/usr/bin/env python3
"""A small server of one replay over UDP, written apart from the program: it answers the ACKNACKs of a late reader.

    replay_server.py CHANGES LOST

prints its port on 127.0.0.1, and then answers each ACKNACK at once with the DATA that it asks for and a HEARTBEAT,
of which every datagram whose count is a multiple of LOST is lost (none for 0). It ends with 0 once the late reader
has all of the replay, and with 1 at an ACKNACK that is none of that reader's next ones, or after 20 seconds.
"""
import socket
import struct
import sys
import time

OWN = bytes.fromhex("010203040506070800000001")
READER = bytes.fromhex("b2b2b2b2b2b2b2b2b2b2b2b200000107")
WRITER = bytes.fromhex("01000102")
ORIGINAL = bytes.fromhex("a1a1a1a1a1a1a1a1a1a1a1a100000102")
IDS = READER[12:] + WRITER
SENTINEL = struct.pack("<HH", 1, 0)


def number(value):
    return struct.pack("<iI", value >> 32, value & 0xFFFFFFFF)


def submessage(kind, flags, body):
    return struct.pack("<BBH", kind, flags, len(body)) + body


def message(*submessages):
    head = b"RTPS\2\5\0\0" + OWN + submessage(0x0E, 1, READER[:12])
    return head + b"".join(submessages)


def data(at, flags, options, payload=b""):
    return submessage(0x15, flags, struct.pack("<HH", 0, 16) + IDS + number(at) + options + SENTINEL + payload)


def change(at):
    """The change with that number: a write of the key aa, with the value 42, at the moment 5."""
    key = struct.pack("<HH", 0x70, 16) + b"\xaa" * 16
    original = struct.pack("<HH", 0x61, 28) + ORIGINAL + number(at) + SENTINEL
    return message(submessage(9, 1, struct.pack("<II", 0, 5)), data(at, 7, key + original, b"\0\1\0\0*\0\0\0"))


def marker(at):
    return message(data(at, 3, struct.pack("<HHiI", 0x56, 8, -1, 0)))


def heartbeat(last, count):
    return message(submessage(7, 1, IDS + number(1) + number(last) + struct.pack("<I", count)))


def acknack(octets):
    """Its flags, base, missing numbers and count; or None where the octets are no ACKNACK of the reader."""
    if octets[:4] != b"RTPS" or octets[8:20] != READER[:12] or octets[20:24] != b"\x0e\1\x0c\0" or octets[36] != 6:
        return None
    if octets[24:36] not in (OWN, bytes(12)) or octets[40:48] != IDS:
        return None
    high, low, bits = struct.unpack("<iII", octets[48:60])
    words = struct.unpack("<%dI" % ((bits + 31) // 32), octets[60:60 + (bits + 31) // 32 * 4])
    base = (high << 32) + low
    missing = [base + i for i in range(bits) if words[i // 32] >> (31 - i % 32) & 1]
    return octets[37], base, missing, struct.unpack("<I", octets[-4:])[0]


def main():
    changes, lost = int(sys.argv[1]), int(sys.argv[2])
    last = changes + 1
    link = socket.socket(socket.AF_INET, socket.SOCK_DGRAM)
    link.bind(("127.0.0.1", 0))
    link.settimeout(1)
    print(link.getsockname()[1], flush=True)
    sent = beats = asked = 0
    end = time.monotonic() + 20
    while time.monotonic() < end:
        try:
            octets, peer = link.recvfrom(65536)
        except socket.timeout:
            continue
        heard = acknack(octets)
        asked += 1
        # Flag 2 says that no answer is wanted, which is so exactly once all is there.
        if heard is None or heard[3] != asked or bool(heard[0] & 2) != (heard[1] > last):
            print("replay_server.py: no ACKNACK that should come:", octets.hex(), file=sys.stderr)
            return 1
        if heard[1] > last:
            return 0
        beats += 1
        answers = [marker(k) if k == last else change(k) for k in heard[2] if k <= last]
        for answer in answers + [heartbeat(last, beats)]:
            sent += 1
            if lost == 0 or sent % lost != 0:
                link.sendto(answer, peer)
    return 1


sys.exit(main())
