#!/usr/bin/env python3
"""Writes capture records as lines of hex, as `capture_from_hex.py` reads them.

    capture_to_hex.py < CAPTURE > LINES

Each record is a line: its moment in ticks of 2^-32 s, its port, and the octets of its datagram as hex, in groups
of four. A capture that ends inside a record, or has one of more than 65,507 octets, is told with the octet at
which that record begins; the lines of the records before it are written.

Ends with 0, with 1 where the capture breaks off or nothing can be read or written, and with 2 where words stand
behind the command.
"""
import os
import struct
import sys

from capture_from_hex import LONGEST, opened, say

HEAD = struct.Struct("<QHI")


class BrokenCapture(Exception):
    """A capture that breaks off."""


def line(moment, port, datagram):
    """The line of a record."""
    return " ".join([str(moment), str(port), datagram.hex(" ", -4)]).rstrip()


def lines(capture):
    """The lines of all records, one after the other."""
    at = 0
    while at < len(capture):
        head = capture[at:at + HEAD.size]
        if len(head) < HEAD.size:
            raise BrokenCapture(f"it ends inside the record at octet {at}")
        moment, port, length = HEAD.unpack(head)
        datagram = capture[at + HEAD.size:at + HEAD.size + length]
        if length > LONGEST:
            raise BrokenCapture(f"the record at octet {at} has more than {LONGEST} octets")
        if len(datagram) < length:
            raise BrokenCapture(f"it ends inside the record at octet {at}")
        yield line(moment, port, datagram)
        at += HEAD.size + length


def main():
    if len(sys.argv) > 1:
        say("usage: capture_to_hex.py < CAPTURE > LINES")
        return 2
    try:
        stdout = opened(sys.stdout, "standard output")
        for text in lines(opened(sys.stdin, "standard input").buffer.read()):
            stdout.write(text + "\n")
        stdout.flush()
    except BrokenCapture as fault:
        sys.stdout.flush()
        say(f"capture_to_hex: {fault}")
        return 1
    except OSError as fault:
        say(f"capture_to_hex: {fault}")
        if sys.stdout is not None:
            os.dup2(os.open(os.devnull, os.O_WRONLY), sys.stdout.fileno())
        return 1
    return 0


if __name__ == "__main__":
    sys.exit(main())
