"""Tests of tools/capture_from_hex.py."""
import os
import struct
import subprocess
import sys
import unittest

from made import TOOLS, TOP
import capture_from_hex

BUFFERED = {name: word for name, word in os.environ.items() if name != "PYTHONUNBUFFERED"}


class FromHex(unittest.TestCase):
    tool = os.path.join(TOOLS, "capture_from_hex.py")

    def run_tool(self, lines, *words, stdout=subprocess.PIPE):
        return subprocess.run([sys.executable, self.tool, *words], input=lines, stdout=stdout, stderr=subprocess.PIPE, env=BUFFERED, check=False)

    def test_records(self):
        lines = ["# a comment\n", "5 7400 52 5450\n", "\n", "  6 0\n", f"{2**64 - 1} 65535 Ff"]
        want = struct.pack("<QHI", 5, 7400, 3) + b"RTP" + struct.pack("<QHI", 6, 0, 0) + struct.pack("<QHI", 2**64 - 1, 65535, 1) + b"\xff"
        self.assertEqual(capture_from_hex.capture(lines), want)

    def test_the_longest_datagram(self):
        self.assertEqual(len(capture_from_hex.capture(["1 1 " + "00" * 65507])), 14 + 65507)
        with self.assertRaises(capture_from_hex.BadLine):
            capture_from_hex.capture(["1 1 " + "00" * 65508])

    def test_bad_lines_are_told_by_number(self):
        lines = ["5", "x 0 00", "5 65536 00", "-1 0 00", "+1 0 00", "1_0 0 00", f"{2**64} 0 00", "9" * 5000 + " 0", "5 0 0", "5 0 zz", "5 0 0x00"]
        for line in lines:
            with self.assertRaises(capture_from_hex.BadLine) as told:
                capture_from_hex.capture(["1 1 00\n", line + "\n"])
            self.assertIn("line 2:", str(told.exception))

    def test_runs(self):
        done = self.run_tool(b"5 7400 52\n")
        self.assertEqual((done.returncode, done.stdout, done.stderr), (0, struct.pack("<QHI", 5, 7400, 1) + b"R", b""))
        bad = self.run_tool(b"5 7400 52\n5 7400 5\n")
        self.assertEqual((bad.returncode, bad.stdout, bad.stderr), (1, b"", b"capture_from_hex: line 2: the datagram is no hex\n"))
        self.assertEqual(self.run_tool(b"", "LINES").returncode, 2)

    def test_streams_that_are_closed_and_a_folder(self):
        for redirected, said in (("<&-", b"'standard input'\n"), (">&-", b"'standard output'\n"), (f"< {TOOLS}", b"is a directory"), ("<&- 2>&-", b"")):
            done = subprocess.run(["sh", "-c", f'exec "$0" "$1" {redirected}', sys.executable, self.tool], input=b"", capture_output=True, check=False)
            self.assertEqual((done.returncode, done.stdout), (1, b""))
            self.assertIn(said, done.stderr)
            self.assertNotIn(b"Traceback", done.stderr)

    @unittest.skipUnless(os.path.exists("/dev/full"), "no /dev/full")
    def test_an_output_that_cannot_be_written(self):
        with open("/dev/full", "wb") as full:
            done = self.run_tool(b"5 7400 52\n", stdout=full)
        self.assertEqual((done.returncode, done.stderr.count(b"\n")), (1, 1))

    def test_the_first_example(self):
        folder = os.path.join(TOP, "examples", "first")
        with open(os.path.join(folder, "capture.hex"), encoding="ascii") as lines, open(os.path.join(folder, "capture.bin"), "rb") as want:
            self.assertEqual(capture_from_hex.capture(lines), want.read())


if __name__ == "__main__":
    unittest.main()
