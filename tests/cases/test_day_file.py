"""A day's file: the program and tools/day_file.py name the same fault of it by the same text."""

import tempfile
from pathlib import Path

from support import SAMPLES, Case, run

import day_file

DAY = """# a day
symbols = ["AB", "CD"]
participants = ["N", "Q"]
port = 9000
a = [9101, 9111]
b = [9102, 9112]
retransmission = 9200
followers = 2
session = 7
matrix = 2
limit = 16777216
connect_within = 86400
followers_wait = 0
control = "day.control"
journal = "day.journal"
journal_sync = false
"""
# A text of the file, what stands in its place, and the fault.
FAULTS = [
    ("session = 7", "sesion = 7", 'unknown key "sesion"'),
    ("a = [9101, 9111]", "Z = 1\ne = 1", 'unknown key "Z"'),
    ("port = 9000\n", "", "port: missing"),
    ('control = "day.control"\n', "[control]\n", "control: a table, not a number or a path"),
    ("port = 9000", 'port = "9000"', "port: a string, not a number"),
    ("port = 9000", "port = 9000.0", "port: a fraction, not a number"),
    ("port = 9000", "port = true", "port: a boolean, not a number"),
    ("port = 9000", "port = 2026-11-29", "port: a date, not a number"),
    ("port = 9000", "port = 12:00:00", "port: a date, not a number"),
    ("port = 9000", "port.first = 9000", "port: a table, not a number"),
    ("port = 9000", "port = 0", "port: not 1 to 65535"),
    ("port = 9000", "port = 65536", "port: not 1 to 65535"),
    ("port = 9000", "port = 65535", "port: the last participant's is past 65535"),
    ("a = [9101, 9111]", "a = 9101", "a: a number, not a list"),
    ("a = [9101, 9111]", "a = []", "a: empty"),
    ("a = [9101, 9111]", 'a = [9101, "9111"]', "a, entry 2: a string, not a number"),
    ("a = [9101, 9111]", "a = [9101, 0]", "a, entry 2: not 1 to 65535"),
    ("b = [9102, 9112]", "b = [9102]", "b: not as many ports as a"),
    ("b = [9102, 9112]", "b = [9102, 9112, 9122]", "b: not as many ports as a"),
    ("b = [9102, 9112]", "b = [9101, 9111]", "a and b: a port stands twice"),
    ("b = [9102, 9112]", "b = [9112, 9101]", "a and b: a port stands twice"),
    ("a = [9101, 9111]", "a = [9101, 9101]", "a and b: a port stands twice"),
    ("b = [9102, 9112]", "b = [9112, 9112]", "a and b: a port stands twice"),
    ("retransmission = 9200", "retransmission = -1", "retransmission: not 1 to 65535"),
    ("followers = 2", "followers = 65536", "followers: not 0 to 65535"),
    ("session = 7", "session = -7", "session: not 0 to 9223372036854775807"),
    ("matrix = 2", "matrix = 3", "matrix: not 1 or 2"),
    ("matrix = 2", "matrix = 0", "matrix: not 1 or 2"),
    ("limit = 16777216", "limit = 16777217", "limit: not 1 to 16777216"),
    ("limit = 16777216", "limit = 0", "limit: not 1 to 16777216"),
    ("connect_within = 86400", "connect_within = 86401", "connect_within: not 1 to 86400"),
    ("connect_within = 86400", "connect_within = 0", "connect_within: not 1 to 86400"),
    ("followers_wait = 0", "followers_wait = 86401", "followers_wait: not 0 to 86400"),
    ("followers_wait = 0", "followers_wait = -1", "followers_wait: not 0 to 86400"),
    ('control = "day.control"', 'control = ""', "control: not 1 to 65535 or a path"),
    ('control = "day.control"', "control = 0", "control: not 1 to 65535 or a path"),
    ('control = "day.control"', "control = [9300]", "control: a list, not a number or a path"),
    ('journal = "day.journal"', 'journal = ""', "journal: not a path"),
    ('journal = "day.journal"', "journal = true", "journal: a boolean, not a path"),
    ("journal_sync = false", "journal_sync = 0", "journal_sync: a number, not a boolean"),
    ('["AB", "CD"]', "7", "symbols: a number, not a list or a file's name"),
    ('["AB", "CD"]', "[]", "symbols: empty"),
    ('["AB", "CD"]', '["AB", 7]', "symbols, entry 2: a number, not a string"),
    ('["AB", "CD"]', '["ab"]', "symbols, entry 1: not 1 to 8 of A to Z, 0 to 9 and ."),
    ('["AB", "CD"]', '["ABCDEFGHI"]', "symbols, entry 1: not 1 to 8 of A to Z, 0 to 9 and ."),
    ('["AB", "CD"]', '["AB", "AB"]', "a symbol or a participant stands twice"),
    ('["N", "Q"]', '["N", "N"]', "a symbol or a participant stands twice"),
    ('["N", "Q"]', '"NQ"', "participants: a string, not a list"),
    ('["N", "Q"]', '["N", "QQ"]', "participants, entry 2: not one letter A to Z"),
    ('["N", "Q"]', "[]", "participants: empty"),
    ('["AB", "CD"]', '"none.txt"', "no symbol or no participant"),
    ('["AB", "CD"]', '"blank.txt"', "symbols, line 2: not 1 to 8 of A to Z, 0 to 9 and ."),
    ('["AB", "CD"]', '"many.txt"', "more than 4096 symbols or 26 participants"),
]
# Files of symbols.
SYMBOLS = {"none.txt": "", "blank.txt": "AB\n\nCD\n", "many.txt": "".join(f"S{n}\n" for n in range(4_097)), "good.txt": "AB\nCD"}


class DayFiles(Case):
    def setUp(self):
        folder = tempfile.TemporaryDirectory()
        self.addCleanup(folder.cleanup)
        self.folder = Path(folder.name)
        for name, text in SYMBOLS.items():
            (self.folder / name).write_text(text)

    def file(self, text):
        """A day's file of this text."""
        path = self.folder / "day.toml"
        path.write_text(text)
        return path

    def changed(self, old, new):
        """A day's file with one text in the place of another."""
        self.assertEqual(DAY.count(old), 1, old)
        return self.file(DAY.replace(old, new))

    def assert_refused(self, words, text):
        """The program refused its arguments, with this text at the end of what it said."""
        end = run(words)
        self.assertEqual((end.status, end.written), (2, b""))
        said = end.said.decode()
        self.assertTrue(said.startswith("tapebox: ") and said.endswith(f"{text}\n"), said)

    def test_the_tools_read_a_day(self):
        """FORMATS, "A day's file": the defaults, and a file of symbols beside the day's own."""
        day = day_file.read(self.file(DAY))
        self.assertEqual((day.symbols, day.participants, day.matrix, day.limit), (["AB", "CD"], ["N", "Q"], 2, 16_777_216))
        self.assertEqual((day.connect_within, day.followers_wait, day.control), (86_400, 0, str(self.folder / "day.control")))
        self.assertEqual((day.journal, day.journal_sync), (str(self.folder / "day.journal"), False))
        self.assertEqual(day_file.read(self.changed('["AB", "CD"]', '"good.txt"')), day)
        self.assertEqual(day_file.read(self.changed('"day.control"', "9300")).control, 9_300)
        sample = day_file.read(SAMPLES / "day.toml")
        self.assertEqual((sample.matrix, sample.limit, sample.a, sample.b), (1, 1_048_576, [9_101], [9_102]))
        self.assertEqual((sample.connect_within, sample.followers_wait, sample.control), (None, None, 9_300))
        self.assertEqual((sample.journal, sample.journal_sync), (None, True))

    def test_the_tools_name_a_fault(self):
        """FORMATS, "A day's file": each fault has its text."""
        for old, new, text in FAULTS:
            with self.subTest(new), self.assertRaises(day_file.Fault) as caught:
                day_file.read(self.changed(old, new))
            self.assertEqual(str(caught.exception), text)

    def test_the_program_names_a_fault(self):
        """FORMATS, "A day's file": so does the program."""
        for old, new, text in FAULTS:
            with self.subTest(new):
                self.assert_refused(["follow", self.changed(old, new)], text)

    def test_the_program_says_where_it_is_no_toml(self):
        """FORMATS, "A day's file": a fault of syntax has a line and a column, which counts characters."""
        path = self.changed("port = 9000", '"é" = 9000')
        for text, place in [(path.read_text() + "limit = 1\n", "line 17, column 1: "), (DAY.replace("= 7", "= = 7"), "line 9, column 11: ")]:
            with self.subTest(place):
                end = run(["follow", self.file(text)])
                self.assertEqual((end.status, end.written), (2, b""))
                self.assertIn(place, end.said.decode())

    def test_the_program_knows_the_followers_places(self):
        """FORMATS, "A day's file": a follower's place is one of those that the file has ports for."""
        for follower in ("3", "65535"):
            self.assert_refused(["follow", "--follower", follower, self.file(DAY)], f"follower {follower}: not 1 to 2")
