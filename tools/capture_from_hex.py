#!/usr/bin/env python3
"""Makes capture records of lines of hex.

    capture_from_hex.py < LINES > CAPTURE

Each line is a moment in ticks of 2^-32 s, a port and a datagram as hex, parted by spaces; octets may
be parted by further spaces. Empty lines and lines that begin with `#` are passed over. A line of
another form is told with its number, and then nothing is written.

Ends with 0, with 1 where a line has another form or nothing can be read or written, and with 2 where words
stand behind the command. Of a folder as standard input Python itself says so, and ends with 1.
"""
import errno
import os
import struct
import sys

LONGEST = 65507


class BadLine(Exception):
    """A line that is no record."""


def decimal(word, bits, what):
    """A decimal number of so many bits."""
    if not (word.isascii() and word.isdigit() and len(word) <= 20 and int(word) < 1 << bits):
        raise BadLine(f"{what} is a decimal number from 0 to {(1 << bits) - 1}")
    return int(word)


def record(line):
    """The capture record of one line."""
    words = line.split()
    if len(words) < 2:
        raise BadLine("a moment and a port are to stand before the datagram")
    moment, port = decimal(words[0], 64, "a moment"), decimal(words[1], 16, "a port")
    try:
        datagram = bytes.fromhex("".join(words[2:]))
    except ValueError:
        raise BadLine("the datagram is no hex") from None
    if len(datagram) > LONGEST:
        raise BadLine(f"a datagram has at most {LONGEST} octets")
    return struct.pack("<QHI", moment, port, len(datagram)) + datagram


def capture(lines):
    """The records of all lines."""
    out = []
    for number, line in enumerate(lines, 1):
        text = line.strip()
        if text and not text.startswith("#"):
            try:
                out.append(record(text))
            except BadLine as fault:
                raise BadLine(f"line {number}: {fault}") from None
    return b"".join(out)


def opened(stream, name):
    """A standard stream, which Python leaves out where it was closed before the start."""
    if stream is None:
        raise OSError(errno.EBADF, os.strerror(errno.EBADF), name)
    return stream


def say(line):
    """Writes a line to standard error, if that is open."""
    if sys.stderr is not None:
        print(line, file=sys.stderr)


def main():
    if len(sys.argv) > 1:
        say("usage: capture_from_hex.py < LINES > CAPTURE")
        return 2
    try:
        out = capture(opened(sys.stdin, "standard input"))
        stdout = opened(sys.stdout, "standard output")
        stdout.buffer.write(out)
        stdout.buffer.flush()
    except (BadLine, UnicodeDecodeError) as fault:
        say(f"capture_from_hex: {fault}")
        return 1
    except OSError as fault:
        say(f"capture_from_hex: {fault}")
        if sys.stdout is not None:
            os.dup2(os.open(os.devnull, os.O_WRONLY), sys.stdout.fileno())
        return 1
    return 0


if __name__ == "__main__":
    sys.exit(main())
