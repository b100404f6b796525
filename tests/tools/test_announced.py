"""Tests of tools/announced.py: what a summary says."""
import os
import struct
import unittest

from made import CAPTURES
import announced
import pcap_to_capture
from announced import Endpoint

PREFIX = b"\xa1" * 12
PARTICIPANTS, WRITERS, READERS = (bytes.fromhex(name) for name in ("000100c2", "000003c2", "000004c2"))
WRITER, READER = PREFIX + b"\0\0\1\2", PREFIX + b"\0\0\1\7"


def parameter(name, value, order="<"):
    return struct.pack(order + "HH", name, len(value)) + value


def text(value, order="<"):
    octets = value.encode() + b"\0"
    return struct.pack(order + "I", len(octets)) + octets + bytes(-len(octets) % 4)


def announcement(writer, *parameters, order="<", before=b"", inline=b"", form=4):
    """A message of one DATA of a discovery writer, behind other submessages; the form is its payload's flag."""
    little = order == "<"
    payload = (b"\0\3" if little else b"\0\2") + b"\0\0" + b"".join(parameters) + parameter(1, b"", order)
    body = struct.pack(order + "HH", 0, 16) + bytes(4) + writer + struct.pack(order + "II", 0, 1) + inline + payload
    flags = form | little | (2 if inline else 0)
    return b"RTPS\2\5\0\0" + PREFIX + before + struct.pack(order + "BBH", 0x15, flags, len(body)) + body


def of_endpoint(writer, guid, topic, kind, *more, order="<", **parts):
    fields = [parameter(5, text(topic, order), order), parameter(7, text("Type", order), order), parameter(0x1D, struct.pack(order + "I", kind), order)]
    return announcement(writer, *fields, *more, parameter(0x5A, guid, order), order=order, **parts)


def service(*values, order="<"):
    """A DURABILITY_SERVICE: delay in seconds and its fraction, history, depth and three limits."""
    return parameter(0x1E, struct.pack(order + "iIIiiii", *values), order)


class Announced(unittest.TestCase):
    def test_participants_writers_and_readers(self):
        for order in "<>":
            found = [
                announcement(PARTICIPANTS, parameter(0x50, PREFIX + b"\0\0\1\xc1", order), parameter(0x62, text("plant", order), order), order=order),
                of_endpoint(WRITERS, WRITER, "T", 3, order=order),
                of_endpoint(READERS, READER, "T", 2, order=order),
            ]
            participants, writers, readers = announced.announced(found + found)
            self.assertEqual(participants, {PREFIX.hex(): "plant"})
            self.assertEqual(writers, [Endpoint(WRITER.hex(), "T", "Type", "persistent")])
            self.assertEqual(readers, [Endpoint(READER.hex(), "T", "Type", "transient")])

    def test_announcements_behind_other_submessages_and_inline_lists(self):
        before = b"\x0e\1\x0c\0" + PREFIX + b"\x09\3\0\0" + b"\1\1\0\0"
        inline = parameter(0x70, bytes(16)) + parameter(1, b"")
        found = of_endpoint(WRITERS, WRITER, "T", 2, before=before, inline=inline)
        self.assertEqual(announced.announced([found])[1], [Endpoint(WRITER.hex(), "T", "Type", "transient")])

    def test_what_is_cut_off_or_no_announcement_is_passed_over(self):
        whole = of_endpoint(WRITERS, WRITER, "T", 2)
        for end in range(len(whole)):
            announced.announced([whole[:end]])
        other, disposed = of_endpoint(b"\0\0\1\2", WRITER, "T", 2), of_endpoint(WRITERS, WRITER, "T", 2, form=8)
        self.assertEqual(announced.announced([b"", b"no message", whole[:60], other, disposed]), ({}, [], []))

    def test_a_name_with_a_line_feed_is_one_line(self):
        found = of_endpoint(WRITERS, WRITER, "a\nb\x1b[2J", 2)
        self.assertIn(f"writer {WRITER.hex()} topic a\ufffdb\ufffd[2J type Type transient\n", announced.summary([found]))

    def test_settings_are_those_of_durability_service(self):
        cases = [
            ((0, 0, 0, 1, -1, -1, -1), "1 - - - - 0"),
            ((5, 0, 0, 3, 40, 20, 10), "3 40 20 10 - 5"),
            ((5, 1, 1, 1, -1, -1, -1), "all - - - - 6"),
            ((0x7FFFFFFF, 0xFFFFFFFF, 0, 1, -1, -1, -1), "1 - - - - 2147483647"),
            ((-1, 0, 0, 0, 0, -5, 1), "1 - - 1 - 0"),
        ]
        for values, want in cases:
            for order in "<>":
                found = of_endpoint(WRITERS, WRITER, "T", 2, service(*values, order=order), order=order)
                self.assertEqual(announced.announced([found])[1][0].settings, want)
        short = of_endpoint(WRITERS, WRITER, "T", 2, parameter(0x1E, bytes(24)))
        self.assertEqual(announced.announced([short])[1][0].settings, announced.SETTINGS)


class Plans(unittest.TestCase):
    def test_a_plan_that_lists_what_is_announced(self):
        writers = [Endpoint(WRITER.hex(), "T", settings="all - - - - 9", durability="persistent"), Endpoint("aa" * 15 + "03", "a/b", durability="transient")]
        plan, notes = announced.plan_of(writers, [Endpoint(READER.hex(), "T", durability="transient_local")])
        self.assertEqual(plan.splitlines(), [
            "prefix 0000000000000000",
            "topic T persistent hash all - - - - 9",
            "topic a/b transient none 1 - - - - 0",
            f"writer {WRITER.hex()} T -",
            f"writer {'aa' * 15}03 a/b -",
            f"reader {READER.hex()} T transient_local",
            "end",
        ])
        self.assertEqual(len(notes), 1)
        self.assertIn("no key hash", notes[0])

    def test_what_a_plan_cannot_say_is_noted(self):
        keyless = [Endpoint("aa" * 15 + "03", "T", durability="volatile"), Endpoint("ab" * 15 + "03", "T", durability="persistent", settings="2 - - - - 0")]
        plan, notes = announced.plan_of(keyless, [])
        self.assertIn("topic T persistent none 1 - - - - 0\n", plan)
        self.assertEqual(len(notes), 2)
        self.assertIn("persistent and volatile", notes[0])
        self.assertIn("different settings", notes[1])

    def test_a_depth_above_the_limit_of_an_instance(self):
        for settings, want, count in (("10 - - 5 - 0", "5 - - 5 - 0", 1), ("5 9 - 5 - 0", "5 9 - 5 - 0", 0), ("all - - 5 - 0", "all - - 5 - 0", 0)):
            plan, notes = announced.plan_of([Endpoint("aa" * 15 + "03", "T", durability="transient", settings=settings)], [])
            self.assertIn(f"topic T transient none {want}\n", plan)
            self.assertEqual(len(notes), count)
        self.assertIn("a depth of 10 ", announced.plan_of([Endpoint("aa" * 16, "T", settings="10 - - 5 - 0")], [])[1][1])

    def test_more_than_a_plan_can_have(self):
        endpoints = [Endpoint(f"{number:030x}03", f"T{number}", durability="transient") for number in range(1025)]
        plan, notes = announced.plan_of(endpoints, endpoints[:1])
        self.assertEqual(plan.count("topic "), 1024)
        self.assertEqual(plan.count("writer "), 1024)
        self.assertEqual(notes, ["of 1025 topics the first 1024 are in the plan, for it can have no more"])
        endpoints = [Endpoint(f"{number:030x}03", "T", durability="transient") for number in range(4097)]
        plan, notes = announced.plan_of(endpoints, endpoints[:1025])
        self.assertEqual([plan.count(word) for word in ("topic ", "writer ", "reader ")], [1, 4096, 1024])
        self.assertIn(f"writer {4095:030x}03 T -\nreader {0:030x}03 T transient\n", plan)
        self.assertEqual([note.split(" are ")[0] for note in notes], ["of 4097 writers the first 4096", "of 1025 readers the first 1024"])

    def test_a_name_that_no_plan_can_have(self):
        for name in ("a b", "", "x" * 65, "caf\u00e9", "T\n", "rt::T"):
            plan, notes = announced.plan_of([Endpoint("aa" * 16, name)] * 2, [Endpoint("bb" * 16, name)])
            self.assertEqual(plan, "prefix 0000000000000000\nend\n")
            self.assertEqual(len(notes), 1)
            self.assertIn(f"`{name}`", notes[0])

    def test_readers_without_a_writer(self):
        plan, notes = announced.plan_of([], [Endpoint(READER.hex(), "T")])
        self.assertEqual(plan, "prefix 0000000000000000\nend\n")
        self.assertEqual(notes, ["the readers of `T` are left out, for no writer of it is announced"])

    @unittest.skipUnless(os.path.isdir(CAPTURES), "no captures of real traffic")
    def test_real_traffic(self):
        for name in sorted(os.listdir(CAPTURES)):
            folder = os.path.join(CAPTURES, name)
            if os.path.exists(os.path.join(folder, "capture.pcap")):
                with open(os.path.join(folder, "capture.pcap"), "rb") as file:
                    found, _ = pcap_to_capture.datagrams(file.read())
                with open(os.path.join(folder, "plan.txt"), encoding="ascii") as plan:
                    declared = {line.split()[1] for line in plan if line.startswith("writer ")}
                self.assertEqual({writer.guid for writer in announced.announced(octets for _, _, octets in found)[1]}, declared)


if __name__ == "__main__":
    unittest.main()
