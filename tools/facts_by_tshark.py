#!/usr/bin/env python3
"""Counts the facts of each packet of a pcap file by tshark, an independent dissector.

    facts_by_tshark.py PREFIX PCAP

Prints a line for each packet: the number of its DATA, HEARTBEAT, GAP and ACKNACK submessages whose
destination is everybody or the participant PREFIX (24 hex digits). Ends with 3 where tshark is missing.
"""
import shutil
import subprocess
import sys

INFO_DST = "0x0e"
FACTS = ("0x06", "0x07", "0x08", "0x15")
EVERYBODY = "0" * 24


def facts(ids, destinations, own):
    """The facts of one packet: its submessage ids in order, and where its INFO_DST point."""
    count, following, destination = 0, iter(destinations), EVERYBODY
    for name in ids:
        if name == INFO_DST:
            destination = next(following)
        elif name in FACTS and destination in (EVERYBODY, own):
            count += 1
    return count


def main():
    if len(sys.argv) != 3:
        print(__doc__, file=sys.stderr)
        return 2
    own, path = sys.argv[1:]
    if shutil.which("tshark") is None:
        print("facts_by_tshark: tshark is missing", file=sys.stderr)
        return 3
    fields = ["-T", "fields", "-e", "rtps.sm.id", "-e", "rtps.guidPrefix.dst", "-E", "occurrence=a", "-E", "aggregator=,", "-E", "separator=;"]
    told = subprocess.run(["tshark", "-r", path, *fields], capture_output=True, text=True, check=True)
    for line in told.stdout.splitlines():
        ids, destinations = (part.split(",") if part else [] for part in line.split(";"))
        print(facts(ids, destinations, own))
    return 0


if __name__ == "__main__":
    sys.exit(main())
