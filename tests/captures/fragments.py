#!/usr/bin/env python3
"""Writes a Rattle test module that hears captured RTPS traffic with and without the reader that joins fragments.

    fragments.py FOLDER

FOLDER has a folder for each capture, with a file `capture.bin` (see inline_lists.py). Only the standard library is used.
"""

import pathlib
import sys

sys.dont_write_bytecode = True

from inline_lists import datagrams  # noqa: E402

MODULE = """//! Generated: captured messages.
use super::*;
use dur_base::Prefix;
use rtps_message::facts;
use std::alloc::Global;

/// Whether both readers hear as many facts, and the same end.
fn is_same(alloc: Global, joiner: &mut Joiner, bytes: &[u8], own: Prefix) -> bool {
    match facts(alloc, bytes, own) {
        Ok(heard) => match joiner.hear(alloc, bytes, own) {
            Ok(joined) => {
                (heard.facts.len() == joined.facts.len() && heard.end == joined.end)
                    && (joined.asks.len() == 0 && joiner.open() == 0)
            }
            Err(_) => false,
        },
        Err(_) => false,
    }
}
"""

PART = """
const MESSAGES_{part}: [&[u8]; {count}] = [
{rows}
];

#[test]
fn captured_messages_{part}_are_heard(rt: HostRuntime) {{
    let mut joiner = Joiner::new(rt.alloc()).expect(&rt, "memory");
    for bytes in &MESSAGES_{part} {{
        assert!(rt; is_same(rt.alloc(), &mut joiner, bytes, Prefix([0; 12])));
    }}
}}
"""

# A constant holds only so many octets.
AT_ONCE = 100


def main():
    rows = {}
    for path in sorted(pathlib.Path(sys.argv[1]).glob("*/capture.bin")):
        for datagram in datagrams(path.read_bytes()):
            rows[datagram] = None
    print(f"{len(rows)} different messages are tried", file=sys.stderr)
    lines = ['    b"' + "".join(f"\\x{octet:02x}" for octet in octets) + '",' for octets in rows if octets]
    print(MODULE, end="")
    for part, first in enumerate(range(0, len(lines), AT_ONCE)):
        some = lines[first : first + AT_ONCE]
        print(PART.format(part=part, count=len(some), rows="\n".join(some)), end="")


if __name__ == "__main__":
    main()
