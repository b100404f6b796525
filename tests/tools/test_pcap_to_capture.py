"""Tests of tools/pcap_to_capture.py."""
import ipaddress
import os
import struct
import subprocess
import sys
import tempfile
import unittest

from made import (CAPTURES, LOOPBACK, OUTER_TAG, SOURCE_6, TAG, TOOLS, block, cooked, cooked_2, ethernet, fragment_6,
                  interface, ipv4, ipv6, option, packet_block, pcap, record, section, udp)
import pcap_to_capture

PLAN = b"prefix 0000000000000000\nend\n"
BUFFERED = {name: word for name, word in os.environ.items() if name != "PYTHONUNBUFFERED"}
HALF_MICROSECONDS = 3 * 10**6 + 500_000


class Packets(unittest.TestCase):
    def gives(self, file, want, **filters):
        self.assertEqual(pcap_to_capture.convert(file, **filters)[0], want)

    def counts(self, file, **want):
        counts = dict(pcap_to_capture.convert(file)[1])
        self.assertEqual(counts, {"datagrams": 0} | {name.replace("_", " "): count for name, count in want.items()})

    def test_links_that_are_read(self):
        plain = ipv4(udp(b"abc"))
        self.gives(pcap(ethernet(plain)), record(1, b"abc"))
        self.gives(pcap(cooked(plain), link=113), record(1, b"abc"))
        self.gives(pcap(cooked_2(plain), link=276), record(1, b"abc"))
        for link in (12, 14, 101, 228):
            self.gives(pcap(plain, link=link), record(1, b"abc"))
        for family, link in ((b"\2\0\0\0", 0), (b"\0\0\0\2", 0), (b"\0\0\0\2", 108)):
            self.gives(pcap(family + plain, link=link), record(1, b"abc"))

    def test_links_of_ipv6(self):
        plain = ipv6(udp(b"abc"))
        self.gives(pcap(ethernet(plain, 0x86DD)), record(1, b"abc"))
        self.gives(pcap(cooked(plain, 0x86DD), link=113), record(1, b"abc"))
        self.gives(pcap(cooked_2(plain, 0x86DD), link=276), record(1, b"abc"))
        for link in (101, 229):
            self.gives(pcap(plain, link=link), record(1, b"abc"))
        for family in (10, 24, 28, 30):
            self.gives(pcap(struct.pack("<I", family) + plain, link=0), record(1, b"abc"))

    def test_vlan_tags(self):
        plain = ipv4(udp(b"abc"))
        for tags in (TAG, OUTER_TAG + TAG, TAG + TAG, struct.pack(">HH", 0x9100, 1) + TAG):
            self.gives(pcap(ethernet(plain, tags=tags)), record(1, b"abc"))
            self.gives(pcap(cooked(plain, tags=tags), link=113), record(1, b"abc"))
        behind = struct.pack(">HH", 5, 0x0800) + plain
        self.gives(pcap(cooked_2(behind, 0x8100), link=276), record(1, b"abc"))
        self.counts(pcap(ethernet(b"")[:14] + b"", ethernet(b"", 0x8100), ethernet(b"\0\5", 0x8100)), other_packets=3)

    def test_options_and_extensions(self):
        self.gives(pcap(ethernet(ipv4(udp(b"abc"), extra=bytes(8)))), record(1, b"abc"))
        hop = struct.pack(">BB", 17, 1) + bytes(14)
        self.gives(pcap(ethernet(ipv6(udp(b"y"), 0, hop), 0x86DD)), record(1, b"y"))
        chain = bytes([43, 0, *bytes(6)]) + bytes([60, 0, *bytes(6)]) + bytes([17, 0, *bytes(6)])
        self.gives(pcap(ethernet(ipv6(udp(b"y"), 0, chain), 0x86DD)), record(1, b"y"))
        whole = fragment_6(17, 0)
        self.gives(pcap(ethernet(ipv6(udp(b"z"), 44, whole), 0x86DD)), record(1, b"z"))

    def test_what_stands_behind_a_datagram_is_no_part_of_it(self):
        self.gives(pcap(ethernet(ipv4(udp(b"abc")) + bytes(20))), record(1, b"abc"))
        longer = struct.pack(">HHHH", 40000, 7400, 9, 0) + b"abc"
        self.gives(pcap(ethernet(ipv4(longer))), record(1, b"a"))
        self.gives(pcap(ethernet(ipv4(udp(b"")))), record(1, b""))

    def test_fragments_of_udp_are_counted(self):
        first, last = ipv4(udp(b"part"), 0x2000), ipv4(b"rest", 0x0001)
        self.counts(pcap(ethernet(ipv4(udp(b"whole"), 0x4000)), ethernet(first), ethernet(last)), datagrams=1, fragments=2)
        self.counts(pcap(ethernet(ipv4(b"part", 0x2000, kind=6))), other_packets=1)
        parts = [ipv6(udp(b"part"), 44, fragment_6(17, 1)), ipv6(b"rest", 44, fragment_6(17, 8)), ipv6(b"rest", 44, fragment_6(6, 8))]
        self.counts(pcap(*(ethernet(part, 0x86DD) for part in parts)), fragments=2, other_packets=1)

    def test_what_is_cut_off_or_no_udp_is_counted(self):
        self.counts(pcap(ethernet(ipv4(b"tcp", kind=6)), ethernet(ipv6(b"tcp", 6), 0x86DD), ethernet(b"", 0x0806), b"", b"x"), other_packets=5)
        self.counts(pcap(b"\7\0\0\0" + ipv4(udp(b"abc")), b"\2\0", link=0), other_packets=2)
        self.counts(pcap(ipv4(udp(b"abc"))[:19], bytes(40), link=101), other_packets=2)
        short = struct.pack(">HHHH", 40000, 7400, 7, 0), struct.pack(">HHHH", 40000, 7400, 9, 0), bytes(7)
        self.counts(pcap(*(ethernet(ipv4(segment)) for segment in short)), cut_off=3)
        whole = ethernet(ipv4(udp(b"abcdef")))
        cut = pcap(whole[:-3])
        cut = cut[:36] + struct.pack("<I", len(whole)) + cut[40:]
        self.counts(cut, cut_off=1)
        padded = ethernet(ipv4(struct.pack(">HHHH", 40000, 7400, 12, 0) + b"abc") + bytes(15))
        promised = ipv4(udp(b"abc"))
        promised = promised[:2] + struct.pack(">H", len(promised) + 1) + promised[4:]
        promised_6 = ipv6(udp(b"abc"))
        promised_6 = promised_6[:4] + struct.pack(">H", len(promised_6) - 40 + 1) + promised_6[6:]
        self.counts(pcap(padded, ethernet(promised), ethernet(promised_6, 0x86DD)), cut_off=3)
        extension = struct.pack(">BB", 17, 9) + bytes(6)
        self.counts(pcap(ethernet(ipv6(b"", 0, extension), 0x86DD), ethernet(ipv6(udp(b"abc"))[:-1], 0x86DD)), cut_off=2)

    def test_filters(self):
        file = pcap(ethernet(ipv4(udp(b"a", 7400))), ethernet(ipv4(udp(b"b", 7411))), ethernet(ipv6(udp(b"c", 7411)), 0x86DD))
        self.gives(file, record(2, b"b", 7411) + record(3, b"c", 7411), ports=[7411])
        self.gives(file, record(1, b"a") + record(2, b"b", 7411) + record(3, b"c", 7411), ports=[7411, 7400])
        self.gives(file, b"", sources=[ipaddress.ip_address("10.0.0.1")])
        self.gives(file, record(1, b"a") + record(2, b"b", 7411), sources=[LOOPBACK])
        self.gives(file, record(3, b"c", 7411), sources=[SOURCE_6], ports=[7411])
        self.assertEqual(pcap_to_capture.convert(file, [7400])[1], {"datagrams": 1, "filtered out": 2})

    def test_the_longest_datagram(self):
        longest, longer = (pcap(ipv6(udp(bytes(length))), link=229) for length in (65507, 65508))
        self.gives(longest, record(1, bytes(65507)))
        self.counts(longer, too_long=1)


class Files(unittest.TestCase):
    def gives(self, file, want):
        self.assertEqual(pcap_to_capture.convert(file)[0], want)

    def breaks(self, file, place, word=""):
        with self.assertRaises(pcap_to_capture.BadFile) as told:
            pcap_to_capture.convert(file)
        self.assertRegex(str(told.exception), f"^octet {place}: .*{word}")

    def test_byte_orders_and_units_of_pcap(self):
        packet = ethernet(ipv4(udp(b"abc")))
        self.gives(pcap(packet, magic=b"\xa1\xb2\xc3\xd4", order=">"), record(1, b"abc"))
        self.gives(pcap(packet, magic=b"\x4d\x3c\xb2\xa1", half=500_000_000), record(1, b"abc"))
        self.gives(pcap(packet, magic=b"\xa1\xb2\x3c\x4d", order=">", half=500_000_000), record(1, b"abc"))
        self.gives(pcap(packet, link=1 | 0x24000000), record(1, b"abc"))
        self.gives(pcap(), b"")

    def test_pcapng(self):
        packet = ethernet(ipv4(udp(b"ng")))
        for order in "<>":
            head = section(order)
            self.gives(head + interface(order=order) + packet_block(packet, HALF_MICROSECONDS, order=order), record(3, b"ng"))
            nanoseconds = interface(option(2, b"lo", order), option(9, b"\x09", order), order=order)
            self.gives(head + nanoseconds + packet_block(packet, 3_500_000_000, order=order), record(3, b"ng"))
        halves = interface(option(9, b"\x81"), option(14, struct.pack("<q", 2)))
        self.gives(section() + halves + packet_block(packet, 3), record(3, b"ng"))

    def test_pcapng_of_several_sections_and_interfaces(self):
        plain = ipv4(udp(b"ng"))
        first = section() + interface() + interface(link=101) + packet_block(plain, HALF_MICROSECONDS, 1) + block(5, bytes(12))
        second = section(">") + interface(link=113, order=">") + packet_block(cooked(plain), HALF_MICROSECONDS, order=">")
        self.gives(first + second, record(3, b"ng") * 2)
        other = section() + interface(link=127) + packet_block(plain, HALF_MICROSECONDS)
        self.assertEqual(pcap_to_capture.convert(other), (b"", {"datagrams": 0, "of other links": 1}))

    def test_broken_pcap_is_told_by_its_place(self):
        whole = pcap(ethernet(ipv4(udp(b"abc"))))
        self.breaks(whole[:23], 0)
        self.breaks(whole[:4], 0)
        self.breaks(whole[:30], 24)
        self.breaks(whole[:-1], 32)
        self.breaks(whole + whole[:5], len(whole))
        self.breaks(pcap(b"", version=3), 4, "version 3")
        self.breaks(pcap(b"", link=105), 20, "type 105")
        self.breaks(pcap(b"", half=10**6), 28, "fraction")

    def test_other_kinds_are_told(self):
        for file in (b"", b"text", b"RTPS" + bytes(40), b"\x1f\x8b\x08" + bytes(40)):
            self.breaks(file, 0, "neither pcap nor pcapng")

    def test_broken_pcapng_is_told_by_its_place(self):
        head = section() + interface()
        whole = head + packet_block(ethernet(ipv4(udp(b"ng"))), HALF_MICROSECONDS)
        for end in (4, 6, 11):
            self.breaks(whole[:end], 0)
            self.breaks(whole + whole[:end], len(whole))
        self.breaks(whole[:8] + bytes(4) + whole[12:], 8, "byte order")
        self.breaks(whole[:12], 12)
        self.breaks(section(version=2), 12, "version")
        self.breaks(whole[:-1], len(head) + 4)
        self.breaks(whole[:-4] + bytes(4), len(whole) - 4, "two lengths")
        self.breaks(section() + whole[len(head):], len(section()) + 8, "interface")
        self.breaks(section() + block(1, bytes(4)), len(section()) + 4)
        self.breaks(head + block(6, bytes(16)), len(head) + 4)
        self.breaks(head + block(6, bytes(12) + struct.pack("<II", 1, 1)), len(head) + 20)
        self.breaks(head + block(3, bytes(4)), len(head), "without a time")
        self.breaks(section() + block(1, struct.pack("<HHI", 1, 0, 0) + struct.pack("<HH", 9, 8)), len(section()) + 16, "option")
        early = interface(option(14, struct.pack("<q", -5)))
        self.breaks(section() + early + packet_block(b"", HALF_MICROSECONDS), len(section() + early) + 12, "time")

    @unittest.skipUnless(os.path.isdir(CAPTURES), "no captures of real traffic")
    def test_real_traffic(self):
        for name in sorted(os.listdir(CAPTURES)):
            path = os.path.join(CAPTURES, name, "capture.pcap")
            if os.path.exists(path):
                with open(path, "rb") as file, open(path[:-4] + "bin", "rb") as want:
                    self.gives(file.read(), want.read())


class Runs(unittest.TestCase):
    """Whole runs of the tool in a folder of their own."""

    def setUp(self):
        folder = tempfile.TemporaryDirectory()
        self.addCleanup(folder.cleanup)
        self.folder = folder.name
        self.put("in.pcap", pcap(ethernet(ipv4(udp(b"abc"))), ethernet(ipv4(udp(b"d", 7411)))))
        self.put("plan.txt", PLAN)

    def put(self, name, octets):
        with open(os.path.join(self.folder, name), "wb") as file:
            file.write(octets)

    def got(self, name):
        with open(os.path.join(self.folder, name), "rb") as file:
            return file.read()

    def run_tool(self, *words, **streams):
        streams = {"stdout": subprocess.PIPE, "stderr": subprocess.PIPE} | streams
        tool = os.path.join(TOOLS, "pcap_to_capture.py")
        return subprocess.run([sys.executable, tool, *words], cwd=self.folder, check=False, **streams)

    def refuses(self, status, said, *words):
        done = self.run_tool(*words)
        self.assertEqual((done.returncode, done.stdout), (status, b""))
        self.assertIn(said, done.stderr.decode())

    def test_a_whole_input_on_standard_output(self):
        done = self.run_tool("--plan", "plan.txt", "--port", "7411", "in.pcap")
        self.assertEqual((done.returncode, done.stdout), (0, PLAN + record(2, b"d", 7411)))
        self.assertEqual(done.stderr, b"pcap_to_capture: 1 datagrams, 1 filtered out\n")

    def test_an_output_file(self):
        self.put("old", b"old")
        os.chmod(os.path.join(self.folder, "old"), 0o640)
        for name in ("new", "old"):
            done = self.run_tool("--output", name, "--source", "127.0.0.1", "in.pcap")
            self.assertEqual((done.returncode, done.stdout), (0, b""))
            self.assertEqual(self.got(name), record(1, b"abc") + record(2, b"d", 7411))
        mask = os.umask(0)
        os.umask(mask)
        self.assertEqual([os.stat(os.path.join(self.folder, name)).st_mode & 0o777 for name in ("new", "old")], [0o666 & ~mask, 0o640])
        self.assertEqual(sorted(os.listdir(self.folder)), ["in.pcap", "new", "old", "plan.txt"])

    def test_nothing_is_half_written(self):
        self.put("broken.pcap", self.got("in.pcap")[:-1])
        self.put("out", b"old")
        place = len(pcap(ethernet(ipv4(udp(b"abc"))))) + 8
        self.refuses(1, f"broken.pcap: octet {place}: ", "broken.pcap")
        self.refuses(1, f"broken.pcap: octet {place}: ", "--output", "out", "broken.pcap")
        self.refuses(1, "plan.txt: octet 0: ", "--output", "out", "plan.txt")
        self.refuses(1, "No such file or directory: 'missing/out'\n", "--output", "missing/out", "in.pcap")
        self.refuses(1, "Is a directory: '.'\n", "--output", ".", "in.pcap")
        self.assertEqual(self.got("out"), b"old")
        self.assertEqual(sorted(os.listdir(self.folder)), ["broken.pcap", "in.pcap", "out", "plan.txt"])

    def test_no_file_is_left_where_writing_fails(self):
        folder = os.path.join(self.folder, "empty")
        os.mkdir(folder)
        with self.assertRaises(TypeError):
            pcap_to_capture.write_whole(os.path.join(folder, "out"), "no octets")
        self.assertEqual(os.listdir(folder), [])

    def test_a_link_is_followed_and_a_device_is_written_as_it_is(self):
        self.put("target", b"old")
        os.symlink("target", os.path.join(self.folder, "link"))
        self.run_tool("--output", "link", "in.pcap")
        self.assertTrue(os.path.islink(os.path.join(self.folder, "link")))
        self.assertEqual(self.got("target"), record(1, b"abc") + record(2, b"d", 7411))
        os.mkfifo(os.path.join(self.folder, "pipe"))
        with subprocess.Popen(["cat", "pipe"], cwd=self.folder, stdout=subprocess.PIPE) as reader:
            try:
                self.run_tool("--output", "pipe", "in.pcap", timeout=20)
                self.assertEqual(reader.communicate(timeout=20)[0], record(1, b"abc") + record(2, b"d", 7411))
            finally:
                reader.kill()

    def test_a_plan_without_its_last_line(self):
        for plan in (b"", b"prefix 0000000000000000\nend", b"prefix 0000000000000000\r\nend\r\n"):
            self.put("cut.txt", plan)
            self.refuses(1, f"cut.txt: octet {len(plan)}: ", "--plan", "cut.txt", "in.pcap")

    def test_missing_files_and_other_words(self):
        self.refuses(1, "No such file", "missing.pcap")
        self.refuses(1, "No such file", "--plan", "missing.txt", "in.pcap")
        for words in ([], ["--port", "65536", "in.pcap"], ["--port", "-1", "in.pcap"], ["--source", "localhost", "in.pcap"], ["--plan", "plan.txt", "--summary", "in.pcap"]):
            self.refuses(2, "usage: ", *words)

    @unittest.skipUnless(os.path.exists("/dev/full"), "no /dev/full")
    def test_an_output_that_cannot_be_written(self):
        with open("/dev/full", "wb") as full:
            done = self.run_tool("in.pcap", stdout=full, env=BUFFERED)
        self.assertEqual(done.returncode, 1)
        self.assertEqual(done.stderr.count(b"\n"), 1)

    def test_streams_that_are_closed(self):
        tool = os.path.join(TOOLS, "pcap_to_capture.py")
        whole = record(1, b"abc") + record(2, b"d", 7411)
        for redirected, want in ((">&-", (1, b"", b"pcap_to_capture: [Errno 9] Bad file descriptor: 'standard output'\n")), ("2>&-", (0, whole, b""))):
            done = subprocess.run(["sh", "-c", f'exec "$0" "$1" in.pcap {redirected}', sys.executable, tool], cwd=self.folder, capture_output=True, check=False)
            self.assertEqual((done.returncode, done.stdout, done.stderr), want)

    def test_a_summary(self):
        done = self.run_tool("--summary", "in.pcap")
        self.assertEqual(done.returncode, 0)
        self.assertTrue(done.stdout.decode().endswith("\nprefix 0000000000000000\nend\n"))
        self.run_tool("--summary", "--output", "out", "--plan-to", "plan", "in.pcap")
        self.assertEqual(self.got("out"), done.stdout)
        self.assertEqual(self.got("plan"), b"prefix 0000000000000000\nend\n")
        self.assertEqual(self.run_tool("--plan-to", "plan", "in.pcap").returncode, 2)


if __name__ == "__main__":
    unittest.main()
