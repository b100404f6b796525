#!/usr/bin/env python3
"""Compares `durability show` with a small model of DDSI-RTPS messages on random datagrams.

    show_model.py PROGRAM [RUNS [SEED]]

The model was written from the tables of docs/FORMATS.md, apart from the program. Each run is a capture
of 40 datagrams whose submessages are sound or broken in some field. Prints how often each end came, or
the first line that differs, and then ends with 1.
"""
import random
import struct
import subprocess
import sys
from collections import Counter

OWN = bytes.fromhex("0102030405060708") + bytes(4)
EVERYBODY = bytes(12)
PLAN = b"prefix 0102030405060708\ntopic T transient hash 1 - - - - 0\nend\n"
LEAST_SIZES = {0x2B: 8, 0x56: 8, 0x61: 24, 0x70: 16, 0x71: 4}
TELLING = (0x06, 0x07, 0x08, 0x15)


class Fault(Exception):
    """A submessage breaks at this place with this kind."""


# ---- the model


class Body:
    """The fields of a body, from its front."""

    def __init__(self, octets, order):
        self.octets, self.order, self.place = octets, order, 0

    def at(self):
        """The place of the next field, counted from the submessage's first octet."""
        return 4 + self.place

    def take(self, count):
        if self.place + count > len(self.octets):
            raise Fault(self.at(), "Cut")
        self.place += count
        return self.octets[self.place - count : self.place]

    def number(self, form):
        return struct.unpack(self.order + form, self.take(struct.calcsize(form)))[0]

    def sequence(self):
        high, low = struct.unpack(self.order + "iI", self.take(8))
        return high * 2**32 + low

    def positive(self, most=2**63 - 1):
        """A number from 1 on."""
        place, value = self.at(), self.sequence()
        if not 1 <= value <= most:
            raise Fault(place, "BadNumber")
        return value

    def set(self, is_ack):
        place, base = self.at(), self.sequence()
        if base < 0 or (base == 0 and not is_ack):
            raise Fault(place, "BadSet")
        place_of_bits, bits = self.at(), self.number("I")
        if base == 0 and bits:
            raise Fault(place, "BadSet")
        if bits > 256:
            raise Fault(place_of_bits, "BadSet")
        for _ in range((bits + 31) // 32):
            self.take(4)


def is_bad(name, value, order):
    """Whether the value of a parameter is bad."""
    if len(value) < LEAST_SIZES.get(name, 0):
        return True
    if name == 0x2B:
        return struct.unpack_from(order + "i", value)[0] < 0
    if name in (0x56, 0x61):
        high, low = struct.unpack_from(order + "iI", value, 0 if name == 0x56 else 16)
        number = high * 2**32 + low
        return not (1 <= number <= 2**63 - 2 or (name == 0x56 and number == -(2**32)))
    return False


def read_list(octets, order, base):
    """Goes over a parameter list that begins at that place."""
    place = 0
    while True:
        if place + 4 > len(octets):
            raise Fault(base + place, "ListCut")
        name, length = struct.unpack_from(order + "HH", octets, place)
        if name == 1:
            return
        if length % 4:
            raise Fault(base + place, "ListOddLength")
        if place + 4 + length > len(octets):
            raise Fault(base + place, "ListCut")
        if is_bad(name, octets[place + 4 : place + 4 + length], order):
            raise Fault(base + place, "ListBadValue")
        place += 4 + length


def read_body(name, flags, body):
    """Goes over the fields of a body, and gives the destination that an INFO_DST sets."""
    if name in (0x06, 0x07, 0x08):
        body.take(4)
        body.take(4)
    if name == 0x06:
        body.set(True)
        body.take(4)
    elif name == 0x07:
        first = body.positive()
        place = body.at()
        if body.sequence() < first - 1:
            raise Fault(place, "BadRange")
        body.take(4)
    elif name == 0x08:
        body.positive()
        body.set(False)
    elif name == 0x09 and not flags & 2:
        body.take(4)
        body.take(4)
    elif name == 0x0C:
        for size in (4, 2, 2, 12):
            body.take(size)
    elif name == 0x0E:
        return body.take(12)
    elif name == 0x15:
        read_data(flags, body)
    return None


def read_data(flags, body):
    body.take(2)
    place, offset = body.at(), body.number("H")
    if offset < 16 or 4 + offset > len(body.octets):
        raise Fault(place, "BadOffset")
    body.take(4)
    body.take(4)
    body.positive(2**63 - 2)
    if flags & 2:
        read_list(body.octets[4 + offset :], body.order, 8 + offset)


def read_submessage(octets):
    """Id, length and new destination of the submessage at the front."""
    if len(octets) < 4:
        raise Fault(0, "Cut")
    name, flags = octets[0], octets[1]
    order = "<" if flags & 1 else ">"
    if name == 0x15 and flags & 0x0C == 0x0C:
        raise Fault(1, "BothDataAndKey")
    length = struct.unpack_from(order + "H", octets, 2)[0]
    if length == 0 and name not in (0x01, 0x09):
        length = len(octets) - 4
    if 4 + length > len(octets):
        raise Fault(4, "Cut")
    return name, 4 + length, read_body(name, flags, Body(octets[4 : 4 + length], order))


def heard(datagram):
    """The number of facts of a datagram, and how it ends."""
    if len(datagram) < 20 or datagram[:4] != b"RTPS" or datagram[4] != 2:
        return 0, "badheader"
    place, destination, facts = 20, EVERYBODY, 0
    while place < len(datagram):
        try:
            name, length, new = read_submessage(datagram[place:])
        except Fault as fault:
            at, kind = fault.args
            return facts, f"stopped {place + at} {kind}"
        destination = new or destination
        facts += name in TELLING and destination in (EVERYBODY, OWN)
        place += length
    return facts, "whole"


# ---- random datagrams


def some_sequence(random_, order):
    value = random_.choice([1, 2, 5, 2**40, 2**63 - 2]) if random_.random() < 0.9 else random_.choice([0, -1, -(2**32), 2**63 - 1, -(2**63)])
    return struct.pack(order + "iI", value >> 32, value & 0xFFFFFFFF)


def some_set(random_, order):
    bits = random_.choice([0, 1, 31, 32, 33, 256]) if random_.random() < 0.93 else random_.choice([257, 2**31, 0])
    return some_sequence(random_, order) + struct.pack(order + "I", bits) + random_.randbytes((min(bits, 256) + 31) // 32 * 4)


def some_parameter(random_, order):
    name = random_.choice([0x2B, 0x56, 0x61, 0x70, 0x71, 0, 0x8000, 0x4005, 0xC000, 0x05])
    size = LEAST_SIZES.get(name, random_.choice([0, 4, 8])) if random_.random() < 0.94 else random_.choice([0, 2, 4, 8, 12])
    value = bytearray(random_.randbytes(size))
    if name == 0x2B and size >= 4:
        value[0 if order == ">" else 3] &= random_.choice([0x7F, 0x7F, 0x7F, 0xFF])
    for name_, begin in ((0x56, 0), (0x61, 16)):
        if name == name_ and size >= begin + 8:
            value[begin : begin + 8] = some_sequence(random_, order)
    told = size if random_.random() < 0.97 else random_.choice([1, size + 4, 65532])
    return struct.pack(order + "HH", name, told) + bytes(value)


def some_body(random_, name, flags, order):
    entities = random_.randbytes(8)
    if name == 0x06:
        return entities + some_set(random_, order) + bytes(4)
    if name == 0x07:
        return entities + some_sequence(random_, order) + some_sequence(random_, order) + bytes(4)
    if name == 0x08:
        return entities + some_sequence(random_, order) + some_set(random_, order)
    if name == 0x09:
        return b"" if flags & 2 else entities
    if name == 0x0C:
        return bytes(20)
    if name == 0x0E:
        return random_.choice([EVERYBODY, OWN, b"\7" * 12])
    if name != 0x15:
        return random_.randbytes(random_.randrange(12))
    offset = 16 if random_.random() < 0.85 else random_.choice([0, 15, 17, 20, 24, 200])
    body = bytes(2) + struct.pack(order + "H", offset) + entities + some_sequence(random_, order) + bytes(min(max(0, offset - 16), 8))
    if flags & 2:
        body += b"".join(some_parameter(random_, order) for _ in range(random_.randrange(4)))
        body += struct.pack(order + "HH", 1, random_.choice([0, 3])) if random_.random() < 0.95 else b""
    return body + random_.randbytes(random_.randrange(9))


def some_submessage(random_):
    name = random_.choice([0x01, 0x06, 0x07, 0x08, 0x09, 0x0C, 0x0E, 0x15, 0x15, 0x15, 0x80, 0x16])
    flags = random_.choice([0, 1]) | random_.choice([0, 2, 4, 8, 6, 10, 12, 0x20])
    order = "<" if flags & 1 else ">"
    body = some_body(random_, name, flags, order)
    if random_.random() < 0.05:
        body = body[: random_.randrange(len(body) + 1)]
    if random_.random() < 0.1:
        body += random_.randbytes(random_.randrange(5))
    told = len(body) if random_.random() < 0.95 else random_.choice([0, len(body) + 1, max(0, len(body) - 1)])
    return bytes([name, flags]) + struct.pack(order + "H", told) + body


def some_datagram(random_):
    header = b"RTPS" + bytes([2 if random_.random() < 0.98 else 1, 5, 0, 0]) + bytes(12)
    whole = header + b"".join(some_submessage(random_) for _ in range(random_.randrange(6)))
    return whole if random_.random() < 0.98 else whole[: random_.randrange(len(whole) + 1)]


def main():
    program = sys.argv[1]
    runs = int(sys.argv[2]) if len(sys.argv) > 2 else 100
    seed = int(sys.argv[3]) if len(sys.argv) > 3 else 1
    random_, ends = random.Random(seed), Counter()
    for _ in range(runs):
        records, lines = [], []
        for index in range(1, 41):
            datagram, moment, port = some_datagram(random_), random_.randrange(2**64), random_.randrange(2**16)
            facts, end = heard(datagram)
            ends[" ".join(word for word in end.split() if not word.isdigit())] += 1
            records.append(struct.pack("<QHI", moment, port, len(datagram)) + datagram)
            lines.append(f"{index} {moment} {port} {facts} {end}")
        told = subprocess.run([program, "show"], input=PLAN + b"".join(records), capture_output=True, check=False)
        found = told.stdout.decode("ascii").splitlines()
        if told.returncode or told.stderr or found != lines:
            print(next((f"`{one}` where the model has `{other}`" for one, other in zip(found, lines) if one != other), told.stderr), file=sys.stderr)
            return 1
    print(", ".join(f"{count} {end}" for end, count in ends.most_common()))
    return 0


if __name__ == "__main__":
    sys.exit(main())
