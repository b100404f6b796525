"""Tests that docs/layers.svg, the table of docs/ARCHITECTURE.md and crates.txt speak of the same crates."""
import os
import re
import sys
import unittest

from made import TOP

sys.path.insert(0, os.path.join(TOP, "docs"))
import layers


def lines(*names):
    with open(os.path.join(TOP, *names), encoding="utf-8") as file:
        return file.read().splitlines()


class Layers(unittest.TestCase):
    def setUp(self):
        self.drawn = {name: layer for layer, crates in layers.LAYERS for name, _ in crates}

    def test_the_picture_is_the_one_that_is_drawn(self):
        self.assertEqual(lines("docs", "layers.svg"), list(layers.drawing()), "run docs/layers.py")

    def test_each_crate_is_drawn_once(self):
        crates = [line.split(":")[0].split()[0] for line in lines("crates.txt") if line and not line.startswith("#")]
        self.assertEqual(sorted(name for _, found in layers.LAYERS for name, _ in found), sorted(crates))

    def test_the_table_has_the_layers_of_the_picture(self):
        rows = (re.match(r"\| ([a-z ]+) \| `(\w+)` \|", line) for line in lines("docs", "ARCHITECTURE.md"))
        self.assertEqual({row[2]: row[1] for row in rows if row}, self.drawn)


if __name__ == "__main__":
    unittest.main()
