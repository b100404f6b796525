"""Tests of tools/capture_to_hex.py."""
import os
import struct
import subprocess
import sys
import unittest

from made import TOOLS
import capture_from_hex
import capture_to_hex


class ToHex(unittest.TestCase):
    tool = os.path.join(TOOLS, "capture_to_hex.py")

    def run_tool(self, capture, *words):
        return subprocess.run([sys.executable, self.tool, *words], input=capture, capture_output=True, check=False)

    def test_lines(self):
        capture = struct.pack("<QHI", 5, 7400, 5) + b"RTPS\2" + struct.pack("<QHI", 2**64 - 1, 65535, 0)
        self.assertEqual(list(capture_to_hex.lines(capture)), ["5 7400 52545053 02", f"{2**64 - 1} 65535"])

    def test_what_is_written_is_read_again(self):
        capture = b"".join(struct.pack("<QHI", n, n, n) + bytes(range(n)) for n in range(20))
        self.assertEqual(capture_from_hex.capture(capture_to_hex.lines(capture)), capture)

    def test_a_capture_that_breaks_off(self):
        whole = struct.pack("<QHI", 5, 1, 1) + b"R"
        for rest in (b"\0", struct.pack("<QHI", 6, 1, 2) + b"R"):
            done = self.run_tool(whole + rest)
            self.assertEqual((done.returncode, done.stdout), (1, b"5 1 52\n"))
            self.assertEqual(done.stderr, b"capture_to_hex: it ends inside the record at octet 15\n")
        done = self.run_tool(struct.pack("<QHI", 6, 1, 65508) + bytes(65508))
        self.assertEqual((done.returncode, done.stdout), (1, b""))

    def test_runs(self):
        self.assertEqual(self.run_tool(b"").returncode, 0)
        self.assertEqual(self.run_tool(b"", "CAPTURE").returncode, 2)


if __name__ == "__main__":
    unittest.main()
