#!/usr/bin/env python3
"""Makes capture records of the UDP datagrams in a file of tcpdump or Wireshark.

    pcap_to_capture.py [--port N]... [--source ADDRESS]... [--output FILE]
        [--plan FILE | --summary [--plan-to FILE]] PCAP

Reads classic pcap and pcapng over Ethernet, Linux cooked (each with VLAN tags), raw IP and loopback links,
IPv4 and IPv6. A record's moment is the packet's time since the Unix epoch in ticks of 2^-32 s, and its
port is the UDP destination port. With --port only datagrams to one of these ports are taken, with
--source only those from one of these addresses. With --plan that file's octets stand in front, so
that what is written is a whole input. With --summary the participants, writers and readers that
discovery announces in these datagrams are printed in place of records, and a plan that would list them;
with --plan-to that plan is written to a file of its own, too.

Fragments of UDP, packets that were cut off when they were captured, packets of links of other types,
and packets that are no UDP are left out, and counted on standard error. A file that is broken or of
another kind is told with the octet at which it is so, and then nothing is written.

Ends with 0, with 1 where a file is broken or cannot be read or written, and with 2 for other words.
"""
import argparse
import errno
import ipaddress
import os
import struct
import sys
import tempfile
from collections import Counter

from announced import summed_up

LONGEST = 65507
VLAN_TAGS = (0x8100, 0x88A8, 0x9100)
IP_TYPES = (0x0800, 0x86DD)
IP_FAMILIES = (2, 10, 24, 28, 30)
ETHERNET, COOKED, COOKED_2, LOOPBACK, RAW = (1,), (113,), (276,), (0, 108), (101, 12, 14, 228, 229)
LINKS = ETHERNET + COOKED + COOKED_2 + LOOPBACK + RAW


class BadFile(Exception):
    """A file that is broken or of another kind, and the octet at which it is so."""

    def __init__(self, place, what):
        super().__init__(f"octet {place}: {what}")


def field(data, place, form, what):
    """The fields of that form at a place."""
    if place + struct.calcsize(form) > len(data):
        raise BadFile(place, f"the file ends inside {what}")
    return struct.unpack_from(form, data, place)


def ticks(place, seconds, fraction, units):
    """The time that stands at a place, in ticks of 2^-32 s, rounded down."""
    moment = (seconds << 32) + (fraction << 32) // units
    if not 0 <= moment < 1 << 64:
        raise BadFile(place, "the time lies before the Unix epoch, or more than 2^32 seconds after it")
    return moment


# ---- packets of a file: (moment, link type, octets that were captured)


def pcap_packets(data):
    """The packets of a classic pcap file."""
    order, units = {
        b"\xd4\xc3\xb2\xa1": ("<", 10**6),
        b"\xa1\xb2\xc3\xd4": (">", 10**6),
        b"\x4d\x3c\xb2\xa1": ("<", 10**9),
        b"\xa1\xb2\x3c\x4d": (">", 10**9),
    }[data[:4]]
    major, link = field(data, 0, order + "4xH14xI", "the file's header")
    link &= 0xFFFF
    if major != 2:
        raise BadFile(4, f"pcap of version {major} is not read")
    if link not in LINKS:
        raise BadFile(20, f"links of type {link} are not read")
    place = 24
    while place < len(data):
        seconds, fraction, kept = field(data, place, order + "III4x", "a packet's header")
        if place + 16 + kept > len(data):
            raise BadFile(place + 8, "the packet is longer than what is left of the file")
        if fraction >= units:
            raise BadFile(place + 4, "the fraction of a second is no fraction")
        yield ticks(place, seconds, fraction, units), link, data[place + 16 : place + 16 + kept]
        place += 16 + kept


def options(data, place, end, order):
    """The options of a pcapng block, by their codes."""
    found = {}
    while place + 4 <= end:
        code, length = struct.unpack_from(order + "HH", data, place)
        if code == 0:
            break
        if place + 4 + length > end:
            raise BadFile(place, "an option is longer than its block")
        found[code] = data[place + 4 : place + 4 + length]
        place += 4 + (length + 3) // 4 * 4
    return found


def interface(data, place, end, order):
    """Link type, units of a second and offset in seconds of an interface."""
    link = field(data, place, order + "H", "an interface")[0]
    given = options(data, place + 8, end, order)
    resolution = given.get(9, b"\x06")[:1] or b"\x06"
    units = 1 << (resolution[0] & 0x7F) if resolution[0] & 0x80 else 10 ** resolution[0]
    offset = given.get(14, b"")
    return link, units, struct.unpack(order + "q", offset)[0] if len(offset) == 8 else 0


# The least length of a block of the kinds that are read: section, interface and packet.
LEAST = {0x0A0D0D0A: 28, 1: 20, 6: 32}


def pcapng_packets(data):
    """The packets of a pcapng file."""
    place, order, interfaces = 0, "<", []
    while place < len(data):
        front, magic = field(data, place, "4s4x4s", "a block's header")
        if front == b"\x0a\x0d\x0d\x0a":
            if magic not in (b"\x4d\x3c\x2b\x1a", b"\x1a\x2b\x3c\x4d"):
                raise BadFile(place + 8, "the section has no byte order")
            order, interfaces = "<" if magic == b"\x4d\x3c\x2b\x1a" else ">", []
            if field(data, place + 12, order + "H", "a section's header")[0] != 1:
                raise BadFile(place + 12, "pcapng of another version than 1 is not read")
        kind, length = struct.unpack_from(order + "II", data, place)
        end = place + length
        if length < LEAST.get(kind, 12) or length % 4 or end > len(data):
            raise BadFile(place + 4, "the block's length does not fit")
        if field(data, end - 4, order + "I", "a block")[0] != length:
            raise BadFile(end - 4, "the block's two lengths differ")
        if kind == 1:
            interfaces.append(interface(data, place + 8, end - 4, order))
        elif kind == 6:
            number, high, low, kept = field(data, place + 8, order + "IIII4x", "a packet's block")
            if number >= len(interfaces):
                raise BadFile(place + 8, "no interface has that number")
            if place + 28 + kept > end - 4:
                raise BadFile(place + 20, "the packet is longer than its block")
            link, units, offset = interfaces[number]
            time = (high << 32) + low
            yield ticks(place + 12, time // units + offset, time % units, units), link, data[place + 28 : place + 28 + kept]
        elif kind in (2, 3):
            raise BadFile(place, "packet blocks without a time of their own, and obsolete ones, are not read")
        place = end


def packets(data):
    """The packets of a file of either kind."""
    if data[:4] in (b"\xd4\xc3\xb2\xa1", b"\xa1\xb2\xc3\xd4", b"\x4d\x3c\xb2\xa1", b"\xa1\xb2\x3c\x4d"):
        return pcap_packets(data)
    if data[:4] == b"\x0a\x0d\x0d\x0a":
        return pcapng_packets(data)
    raise BadFile(0, "this is neither pcap nor pcapng")


# ---- from a packet to a datagram; each answers None for what is no UDP, or a word for why it is left out


def behind_tags(packet, kind, place):
    """The IP packet at a place, past VLAN tags, where the type that stands at `kind` says that there is one."""
    found = packet[kind : kind + 2]
    while len(found) == 2 and struct.unpack(">H", found)[0] in VLAN_TAGS:
        found, place = packet[place + 2 : place + 4], place + 4
    return packet[place:] if len(found) == 2 and struct.unpack(">H", found)[0] in IP_TYPES else None


def network(link, packet):
    """The IP packet behind a link's header."""
    if link in ETHERNET:
        return behind_tags(packet, 12, 14)
    if link in COOKED:
        return behind_tags(packet, 14, 16)
    if link in COOKED_2:
        return behind_tags(packet, 0, 20)
    if link in LOOPBACK:
        family = min(int.from_bytes(packet[:4], order) for order in ("little", "big"))
        return packet[4:] if family in IP_FAMILIES else None
    return packet


def transport(packet):
    """Source address and UDP datagram of an IP packet, or why there is none."""
    if not packet:
        return None
    if packet[0] >> 4 == 4 and len(packet) >= 20:
        head, whole = (packet[0] & 15) * 4, struct.unpack_from(">H", packet, 2)[0]
        if packet[9] != 17:
            return None
        if struct.unpack_from(">H", packet, 6)[0] & 0x3FFF:
            return "fragments"
        if head < 20 or whole > len(packet):
            return "cut off"
        return ipaddress.ip_address(packet[12:16]), packet[head:whole]
    if packet[0] >> 4 == 6 and len(packet) >= 40:
        return transport_6(packet)
    return None


def transport_6(packet):
    """The same of IPv6, past its extension headers."""
    kind, place, whole = packet[6], 40, 40 + struct.unpack_from(">H", packet, 4)[0]
    if whole > len(packet):
        return "cut off"
    while kind in (0, 43, 44, 60):
        if place + 8 > whole:
            return "cut off"
        if kind == 44 and struct.unpack_from(">H", packet, place + 2)[0] & 0xFFF9:
            return "fragments" if packet[place] == 17 else None
        size = 8 if kind == 44 else 8 + packet[place + 1] * 8
        kind, place = packet[place], place + size
    return (ipaddress.ip_address(packet[8:24]), packet[place:whole]) if kind == 17 else None


def datagram(link, packet):
    """Source, destination port and octets of a packet's datagram, or why it is left out."""
    if link not in LINKS:
        return "of other links"
    inner = network(link, packet)
    found = transport(inner) if inner is not None else None
    if found is None:
        return "other packets"
    if isinstance(found, str):
        return found
    source, segment = found
    if len(segment) < 8:
        return "cut off"
    port, length = struct.unpack_from(">HH", segment, 2)
    if length < 8 or length > len(segment):
        return "cut off"
    return (source, port, segment[8:length]) if length - 8 <= LONGEST else "too long"


def datagrams(data, ports=(), sources=()):
    """Moment, port and octets of each datagram that passes the filters, and how many packets were what."""
    out, counts = [], Counter(datagrams=0)
    for moment, link, packet in packets(data):
        found = datagram(link, packet)
        if isinstance(found, str):
            counts[found] += 1
            continue
        source, port, octets = found
        if (ports and port not in ports) or (sources and source not in sources):
            counts["filtered out"] += 1
            continue
        counts["datagrams"] += 1
        out.append((moment, port, octets))
    return out, counts


def convert(data, ports=(), sources=()):
    """Capture records of the datagrams that pass the filters, and how many packets were what."""
    found, counts = datagrams(data, ports, sources)
    return b"".join(struct.pack("<QHI", moment, port, len(octets)) + octets for moment, port, octets in found), counts


# ---- files and words


def read_plan(path):
    """The octets of a plan, which are to end with its last line, for a capture begins right behind it."""
    with open(path, "rb") as file:
        plan = file.read()
    if not plan.endswith(b"\nend\n"):
        raise BadFile(len(plan), "the plan does not end with the line `end` and one line feed")
    return plan


def write_whole(path, octets):
    """Writes a file so that it is there whole or not at all; what is no plain file is written as it is."""
    if os.path.exists(path) and not os.path.isfile(path):
        with open(path, "wb") as out:
            out.write(octets)
        return
    path = os.path.realpath(path)
    handle, name = tempfile.mkstemp(dir=os.path.dirname(path), prefix=".capture")
    try:
        with os.fdopen(handle, "wb") as out:
            out.write(octets)
        os.chmod(name, mode_of(path))
        os.replace(name, path)
    except BaseException:
        os.unlink(name)
        raise


def mode_of(path):
    """The mode of a file that is there, or that of a new one."""
    if os.path.exists(path):
        return os.stat(path).st_mode & 0o777
    mask = os.umask(0)
    os.umask(mask)
    return 0o666 & ~mask


def port_of(word):
    """A UDP port."""
    if not (word.isascii() and word.isdigit() and int(word) < 1 << 16):
        raise argparse.ArgumentTypeError("a port is from 0 to 65535")
    return int(word)


def arguments():
    parser = argparse.ArgumentParser(description="Makes capture records of the UDP datagrams in a pcap or pcapng file.")
    parser.add_argument("--port", type=port_of, action="append", default=[], help="take datagrams to this port alone (may stand more than once)")
    parser.add_argument("--source", type=ipaddress.ip_address, action="append", default=[], help="take datagrams from this address alone (may stand more than once)")
    parser.add_argument("--output", help="write to this file in place of standard output")
    form = parser.add_mutually_exclusive_group()
    form.add_argument("--plan", help="put this file in front")
    form.add_argument("--summary", action="store_true", help="print what discovery announces, and a plan that would list it")
    parser.add_argument("--plan-to", metavar="FILE", help="with --summary, write the plan to this file, too")
    parser.add_argument("pcap", metavar="PCAP")
    given = parser.parse_args()
    if given.plan_to and not given.summary:
        parser.error("--plan-to is for --summary")
    return given


def made(given):
    """What is to be written, the plan for --plan-to, and how many packets were what."""
    with open(given.pcap, "rb") as file:
        data = file.read()
    if given.summary:
        found, counts = datagrams(data, given.port, given.source)
        text, plan = summed_up(octets for _, _, octets in found)
        return text.encode(), plan.encode(), counts
    octets, counts = convert(data, given.port, given.source)
    return octets, b"", counts


def write_out(path, octets):
    """Writes to the file of that path, or to standard output where none is given; a fault names that one."""
    try:
        if path:
            write_whole(path, octets)
        elif sys.stdout is None:
            raise OSError(errno.EBADF, os.strerror(errno.EBADF))
        else:
            sys.stdout.buffer.write(octets)
            sys.stdout.buffer.flush()
    except OSError as fault:
        raise OSError(fault.errno, fault.strerror, path or "standard output") from None


def say(line):
    """Writes a line to standard error, if that is open."""
    if sys.stderr is not None:
        print(f"pcap_to_capture: {line}", file=sys.stderr)


def main():
    given = arguments()
    path = given.plan
    try:
        plan = read_plan(given.plan) if given.plan else b""
        path = given.pcap
        octets, found_plan, counts = made(given)
        if given.plan_to:
            write_out(given.plan_to, found_plan)
        write_out(given.output, plan + octets)
    except BadFile as fault:
        say(f"{path}: {fault}")
        return 1
    except OSError as fault:
        say(fault)
        close_quietly()
        return 1
    say(", ".join(f"{counts[what]} {what}" for what in sorted(counts)))
    return 0


def close_quietly():
    """Lets nothing more be written to a standard output that failed."""
    if sys.stdout is not None:
        os.dup2(os.open(os.devnull, os.O_WRONLY), sys.stdout.fileno())


if __name__ == "__main__":
    sys.exit(main())
