"""A day's file at its bounds, as tools/day_file.py reads it."""

import tempfile
import unittest
from pathlib import Path

from support import Case

import day_file

# The greatest of all: two participants on the last two ports, and the names in a file.
GREATEST = """symbols = "names.txt"
participants = ["A", "Z"]
port = 65534
a = [1, 65534]
b = [65535, 2]
retransmission = 65535
followers = 65535
session = 9223372036854775807
matrix = 2
limit = 16777216
connect_within = 86400
followers_wait = 86400
control = 65535
"""
# The least of all.
LEAST = """symbols = ["."]
participants = ["A"]
port = 1
a = [1]
b = [2]
retransmission = 1
followers = 0
session = 0
matrix = 1
limit = 1
connect_within = 1
followers_wait = 0
control = 1
"""
# As many symbols as a day has, each of eight bytes.
NAMES = [f"{number:08}" for number in range(4_096)]


class Bounds(Case):
    def read(self, text, names="\n".join(NAMES)):
        """The day of a file of this text, with the file of its symbols beside it."""
        with tempfile.TemporaryDirectory() as name:
            folder = Path(name)
            (folder / "names.txt").write_text(names, encoding="ascii")
            (folder / "day.toml").write_text(text, encoding="utf-8")
            return day_file.read(folder / "day.toml")

    def test_the_greatest_values(self):
        """tools/day_file.py: each key takes its greatest value, a file of symbols its greatest number, and a byte order mark is skipped."""
        for mark in ("", "\ufeff"):
            day = self.read(mark + GREATEST)
            self.assertEqual((day.symbols, day.port, day.a, day.b), (NAMES, 65_534, [1, 65_534], [65_535, 2]))
            self.assertEqual((day.retransmission, day.followers, day.session), (65_535, 65_535, 2**63 - 1))
            self.assertEqual((day.limit, day.connect_within, day.followers_wait, day.control), (16_777_216, 86_400, 86_400, 65_535))

    def test_the_least_values(self):
        """FORMATS, "A day's file": each key takes its least value."""
        day = self.read(LEAST)
        self.assertEqual((day.symbols, day.port, day.a, day.b, day.retransmission, day.control), (["."], 1, [1], [2], 1, 1))
        self.assertEqual((day.followers, day.session, day.matrix, day.limit, day.connect_within, day.followers_wait), (0, 0, 1, 1, 1, 0))

    def test_the_end_of_the_file_of_symbols(self):
        """FORMATS, "A day's file": the last line may lack its line feed, and a blank one is a fault also at the end."""
        self.assertEqual(self.read(GREATEST, "AB\nCD").symbols, ["AB", "CD"])
        self.assertEqual(self.read(GREATEST, "AB\nCD\n").symbols, ["AB", "CD"])
        with self.assertRaises(day_file.Fault) as caught:
            self.read(GREATEST, "AB\nCD\n\n")
        self.assertEqual(str(caught.exception), "symbols, line 3: not 1 to 8 of A to Z, 0 to 9 and .")


if __name__ == "__main__":
    unittest.main()
