"""Small packets and files for the tests of the tools, and where the rest of the repository is."""
import ipaddress
import os
import struct
import sys

TOP = os.path.dirname(os.path.dirname(os.path.dirname(os.path.abspath(__file__))))
TOOLS = os.path.join(TOP, "tools")
CAPTURES = os.environ.get("CAPTURES", os.path.join(os.path.dirname(TOP), "shared", "captures"))
LOOPBACK = ipaddress.ip_address("127.0.0.1")
SOURCE_6 = ipaddress.ip_address("::1")
TAG, OUTER_TAG = struct.pack(">HH", 0x8100, 5), struct.pack(">HH", 0x88A8, 7)

sys.path.insert(0, TOOLS)


def udp(octets, port=7400):
    return struct.pack(">HHHH", 40000, port, 8 + len(octets), 0) + octets


def ipv4(segment, flags=0, kind=17, extra=b""):
    """A packet of IPv4; `extra` is its options, and `flags` its flags with the place of the fragment."""
    head = struct.pack(">BBHHHBBH", 0x45 + len(extra) // 4, 0, 20 + len(extra) + len(segment), 1, flags, 64, kind, 0)
    return head + LOOPBACK.packed * 2 + extra + segment


def ipv6(segment, kind=17, extension=b""):
    return struct.pack(">IHBB", 6 << 28, len(extension) + len(segment), kind, 64) + SOURCE_6.packed * 2 + extension + segment


def fragment_6(kind, place_and_more):
    """A fragment header of IPv6."""
    return struct.pack(">BBHI", kind, 0, place_and_more, 1)


def ethernet(packet, kind=0x0800, tags=b""):
    return bytes(12) + tags + struct.pack(">H", kind) + packet


def cooked(packet, kind=0x0800, tags=b""):
    """Linux cooked, version 1; a tag stands where the type does."""
    return bytes(14) + tags + struct.pack(">H", kind) + packet


def cooked_2(packet, kind=0x0800):
    return struct.pack(">H", kind) + bytes(18) + packet


def pcap(*packets, link=1, magic=b"\xd4\xc3\xb2\xa1", order="<", half=500000, version=2):
    """A file of packets, each with the seconds of its place and half a second."""
    out = magic + struct.pack(order + "HHiIII", version, 4, 0, 0, 65535, link)
    for second, packet in enumerate(packets, 1):
        out += struct.pack(order + "IIII", second, half, len(packet), len(packet)) + packet
    return out


def record(second, octets, port=7400):
    """The capture record of a datagram that came at that second and a half."""
    return struct.pack("<QHI", (second << 32) + (1 << 31), port, len(octets)) + octets


# ---- pcapng


def block(kind, body, order="<"):
    length = 12 + len(body)
    return struct.pack(order + "II", kind, length) + body + struct.pack(order + "I", length)


def section(order="<", version=1):
    return block(0x0A0D0D0A, struct.pack(order + "IHHq", 0x1A2B3C4D, version, 0, -1), order)


def option(code, value, order="<"):
    return struct.pack(order + "HH", code, len(value)) + value + bytes(-len(value) % 4)


def interface(*options, link=1, order="<"):
    ended = b"".join(options) + option(0, b"", order) if options else b""
    return block(1, struct.pack(order + "HHI", link, 0, 0) + ended, order)


def packet_block(packet, time, number=0, order="<"):
    head = struct.pack(order + "IIIII", number, time >> 32, time & 0xFFFFFFFF, len(packet), len(packet))
    return block(6, head + packet + bytes(-len(packet) % 4), order)
