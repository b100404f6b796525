#!/usr/bin/env python3
"""Finds the inline QoS lists of all DATA submessages in captured RTPS traffic.

    inline_lists.py FOLDER           prints them: capture, byte order, octets of the list, hex of the rest of the body
    inline_lists.py FOLDER --module  prints a Rattle test module that reads each of them

FOLDER has a folder for each capture, with a file `capture.bin`: records of a moment (u64), a port (u16), a
length (u32), little-endian, and that many octets. A list is handed over with whatever follows it in the
submessage's body. Its length is found here by walking its parameters, apart from the reader that is tested.
Only the standard library is used.
"""

import pathlib
import struct
import sys

DATA = 0x15
PAD_AND_TIME = (0x01, 0x09)
SENTINEL = 1


def datagrams(octets):
    at = 0
    while at < len(octets):
        _moment, _port, length = struct.unpack_from("<QHI", octets, at)
        yield octets[at + 14 : at + 14 + length]
        at += 14 + length


def submessages(datagram):
    """The id, the flags and the body of each submessage (DDSI-RTPS 9.4)."""
    if len(datagram) < 20 or datagram[:4] != b"RTPS":
        return
    at = 20
    while at + 4 <= len(datagram):
        kind, flags = datagram[at], datagram[at + 1]
        (length,) = struct.unpack_from("<H" if flags & 1 else ">H", datagram, at + 2)
        if length == 0 and kind not in PAD_AND_TIME:
            length = len(datagram) - at - 4
        yield kind, flags, datagram[at + 4 : at + 4 + length]
        at += 4 + length


def length_of(order, octets):
    """How many octets the list at the front takes with its sentinel."""
    at = 0
    while True:
        name, length = struct.unpack_from(order + "HH", octets, at)
        if name == SENTINEL:
            return at + 4
        at += 4 + length


def lists(folder):
    """Of each capture its name, and its lists: whether little-endian, the length, the octets."""
    for path in sorted(pathlib.Path(folder).glob("*/capture.bin")):
        found = []
        for datagram in datagrams(path.read_bytes()):
            for kind, flags, body in submessages(datagram):
                if kind != DATA or not flags & 2:
                    continue
                order = "<" if flags & 1 else ">"
                (offset,) = struct.unpack_from(order + "H", body, 2)
                octets = body[4 + offset :]
                found.append((bool(flags & 1), length_of(order, octets), octets))
        yield path.parent.name, found


MODULE = """//! Generated: the inline QoS lists of captured traffic.
use super::*;
use std::test::*;

const LISTS: [(&[u8], bool, usize); {count}] = [
{rows}
];

#[test]
fn captured_lists_are_read(rt: HostRuntime) {{
    for (bytes, little, takes) in LISTS {{
        match read_list(bytes, little) {{
            Ok((_, len)) => assert!(rt; len == takes),
            Err(_) => assert!(rt; false),
        }}
    }}
}}
"""


def module(folder):
    rows = {}
    for name, found in lists(folder):
        print(f"{name}: {len(found)} lists", file=sys.stderr)
        for little, takes, octets in found:
            rows[(little, octets)] = takes
    print(f"{len(rows)} different ones are tried", file=sys.stderr)
    lines = []
    for (little, octets), takes in rows.items():
        text = "".join(f"\\x{octet:02x}" for octet in octets)
        lines.append(f'    (b"{text}", {str(little).lower()}, {takes}),')
    return MODULE.format(count=len(rows), rows="\n".join(lines))


def main():
    folder = sys.argv[1]
    if "--module" in sys.argv[2:]:
        print(module(folder), end="")
        return
    for name, found in lists(folder):
        for little, takes, octets in found:
            print(name, "little" if little else "big", takes, octets.hex())


if __name__ == "__main__":
    main()
