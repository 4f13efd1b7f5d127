"""Journals that were cut or changed, as the program and a plain reader find them."""

import os
import random
import tempfile
import time
from pathlib import Path

from plain_journal import Damaged, NoHeader, Torn, read_front
from support import LIMIT, Case, ended, listens, reports, run
from cases.test_operated_day import Day, sent

# How many messages of N there are at each start of the day: each brings a group at least.
STARTS = (3, 20, 41)
CHANGED = 30
# How many bytes follow the mark at a group's end.
END = 36
# How many bytes of zeros a disk left behind.
ZEROS = (1, 2, 38, 4_096)


def changed(whole, groups, drawn):
    """A journal that was cut, changed or filled up with zeros, more often within its last group."""
    front = drawn.choice([groups[0].begins, groups[-1].begins])
    text = whole[: drawn.randrange(front + 1, len(whole))] if drawn.random() < 0.6 else whole
    way = drawn.choice(["cut", "flipped", "zeros", "length", "mark"])
    if way == "zeros":
        return text + bytes(drawn.choice(ZEROS))
    if way == "length":
        return text[:front] + drawn.randrange(1 << 16).to_bytes(2, "big") + text[front + 2 :]
    if way == "mark":
        at = drawn.choice(groups).ends - END - 2
        return whole[:at] + (1 << drawn.randrange(11)).to_bytes(2, "big") + whole[at + 2 :]
    if way == "flipped":
        at = drawn.randrange(front, len(text))
        return text[:at] + bytes([text[at] ^ 1 << drawn.randrange(8)]) + text[at + 1 :]
    return text


class PlainJournal(Case):
    def setUp(self):
        folder = tempfile.TemporaryDirectory()
        self.addCleanup(folder.cleanup)
        os.chmod(folder.name, 0o700)
        self.path = Path(folder.name) / "day.journal"
        self.day = Day(folder.name, journal="day.journal")

    def started(self, text):
        """How a day ended, without a message more, that was started with a journal of these bytes."""
        self.path.write_bytes(text)
        until = time.monotonic() + LIMIT
        with self.day.live() as live:
            while live.poll() is None and not listens(self.day.next_port) and time.monotonic() < until:
                time.sleep(0.01)
            if live.poll() is None:
                run(["end", self.day.path])
            return ended(live)

    def grown(self):
        """A journal of a few starts of the day."""
        for count in STARTS:
            with self.day.live() as live:
                sent(self.day.port, reports("N", count)).close()
                sent(self.day.next_port, reports("Q", count // 2)).close()
                self.assertEqual(ended(live).status, 0)
        return self.path.read_bytes()

    def test_the_same_of_changed_journals(self):
        """FORMATS, "A journal": of journals that were cut or changed, the program and a plain reader find the same to be whole, torn and damaged."""
        whole, drawn = self.grown(), random.Random(1)
        groups = read_front(whole).groups
        self.assertGreaterEqual(len(groups), len(STARTS))
        for at in range(CHANGED):
            text = changed(whole, groups, drawn)
            with self.subTest(at):
                self.assert_found(text, read_front(text), self.started(text))

    def assert_found(self, text, journal, end):
        """A start found what the plain reader did: it cut off what was torn, and left as it is what was damaged."""
        name, held = f"tapebox: journal {self.path}: ", len(journal.entries)
        if isinstance(journal.fault, Damaged):
            self.assertRegex(end.said.decode(), rf"\A{name}entr(y|ies|ies from) {held + 1:,} [^\n]*(is|are) damaged\n\Z")
            self.assertEqual((end.status, self.path.read_bytes()), (7, text))
            return
        cut = f"{name}cut off {len(text) - journal.whole:,} bytes of a group that was not whole\n"
        self.assertEqual((end.status, self.path.read_bytes()), (0, text[: journal.whole]))
        self.assertEqual(end.said.startswith(cut.encode()), isinstance(journal.fault, Torn))
        self.assertIn(f"tapebox: went on at {held:,} (".encode(), end.said) if held else self.assertNotIn(b"went on", end.said)

    def test_what_is_no_header(self):
        """FORMATS, "A journal": bytes that do not begin with a whole header are no journal to the plain reader."""
        for text in (b"", b"tapejrn", b"tapejrnl\x01", b"tapejrnl\x02" + bytes(100), bytes(200)):
            with self.subTest(text), self.assertRaises(NoHeader):
                read_front(text)
