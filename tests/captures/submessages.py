#!/usr/bin/env python3
"""Writes a Rattle test module that reads all submessages of captured RTPS traffic.

    submessages.py FOLDER

FOLDER has a folder for each capture, with a file `capture.bin` (see inline_lists.py). Each datagram with a
good header is handed over without its header, and has to be read to its end without a fault. What is no
RTPS message, as the octet by which one implementation learns its addresses, is counted and left out. Only
the standard library is used.
"""

import pathlib
import sys

sys.dont_write_bytecode = True

from inline_lists import datagrams  # noqa: E402

MODULE = """//! Generated: captured messages.
use super::*;
use std::test::*;

/// Whether all submessages are read, of which there are at most 64.
fn is_read(bytes: &[u8]) -> bool {
    let mut rest = bytes;
    for _ in 0..64 {
        if rest.is_empty() {
            return true;
        }
        match read_sub(rest) {
            Ok((_, len)) => rest = rest.split_at(len).1,
            Err(_) => return false,
        }
    }
    rest.is_empty()
}
"""

PART = """
const MESSAGES_{part}: [&[u8]; {count}] = [
{rows}
];

#[test]
fn captured_messages_{part}_are_read(rt: HostRuntime) {{
    for bytes in &MESSAGES_{part} {{
        assert!(rt; is_read(bytes));
    }}
}}
"""

# A constant holds only so many octets.
AT_ONCE = 100


def main():
    rows = {}
    for path in sorted(pathlib.Path(sys.argv[1]).glob("*/capture.bin")):
        good = other = 0
        for datagram in datagrams(path.read_bytes()):
            if len(datagram) < 20 or datagram[:4] != b"RTPS" or datagram[4] != 2:
                other += 1
                continue
            good += 1
            rows[datagram[20:]] = None
        print(f"{path.parent.name}: {good} messages, {other} other datagrams", file=sys.stderr)
    print(f"{len(rows)} different ones are tried", file=sys.stderr)
    lines = []
    for octets in rows:
        text = "".join(f"\\x{octet:02x}" for octet in octets)
        lines.append(f'    b"{text}",')
    print(MODULE, end="")
    for part, first in enumerate(range(0, len(lines), AT_ONCE)):
        some = lines[first : first + AT_ONCE]
        print(PART.format(part=part, count=len(some), rows="\n".join(some)), end="")


if __name__ == "__main__":
    main()
