"""A small journal, cut at each byte of its last groups, and with each byte of it changed: what a start finds."""

import contextlib
import dataclasses
import os
import socket
import tempfile
import time
from concurrent.futures import ThreadPoolExecutor
from pathlib import Path
from queue import SimpleQueue

import plain_journal
from journaled_day import went_on_text
from plain_journal import Damaged, NoHeader
from support import LIMIT, Case, connect, ended, message, ports, reports, wait_for
from cases.test_journal import batch_report, kept_in
from cases.test_operated_day import Day

# Set in the environment, it has all bytes tried, and else so many of them, besides those around each field.
ALL_BYTES, STEP = "JOURNAL_BYTES", 7
# How many days run at once. An end rests for a second.
AT_ONCE = 24
# How many bytes have a packet's length, and how many the packet has before its entries.
LENGTH, PACKET_HEADER = 2, 15
FLIPS = (0x01, 0x80)


def ask_end(live, place):
    """Ends a day once its control socket is there, unless it ends by itself before."""
    until = time.monotonic() + LIMIT
    while live.poll() is None and time.monotonic() < until:
        with socket.socket(socket.AF_UNIX) as line, contextlib.suppress(FileNotFoundError, ConnectionRefusedError):
            line.connect(str(place))
            line.sendall(b"end\n")
            line.recv(1)
            return
        time.sleep(0.01)


class Room:
    """A day's file and its journal, in a folder and at ports of their own."""

    def __init__(self, folder, row):
        self.folder = Path(folder)
        self.folder.mkdir(mode=0o700)
        self.journal, self.day = self.folder / "day.journal", Day(self.folder)
        self.day.port, self.day.next_port, a, b, retransmission = row
        keys = {"port": row[0], "a": [a], "b": [b], "retransmission": retransmission, "journal": "day.journal"}
        self.day.path = self.day.write("day.toml", **keys)

    def start(self, text):
        """How a day without a message more ended that was started with a journal of these bytes, what it said of the journal, and what that has."""
        self.journal.write_bytes(text)
        with self.day.live() as live:
            ask_end(live, self.folder / "day.control")
            end = ended(live)
        said = end.said.decode().replace(f"tapebox: journal {self.journal}: ", "").splitlines()
        return end, said, self.journal.read_bytes()


def lengths_of(group, data):
    """Where the lengths of a group's packets stand, and at last the 0 behind them."""
    at = group.begins
    while size := int.from_bytes(data[at : at + LENGTH], "big"):
        yield at
        at += LENGTH + size
    yield at


class JournalBytes(Case):
    """Starts over a journal whose last group has an entry with a summary, and the one before it more packets than one as a rule."""

    @classmethod
    def setUpClass(cls):
        folder = tempfile.TemporaryDirectory()
        cls.addClassCleanup(folder.cleanup)
        count = 5
        row = ports(count * AT_ONCE)
        cls.rooms = SimpleQueue()
        for at in range(AT_ONCE):
            cls.rooms.put(Room(Path(folder.name) / str(at), row[count * at : count * at + count]))
        cls.whole = cls.made()
        cls.journal = plain_journal.read(cls.whole)
        cls.groups = cls.journal.groups
        cls.reports = [batch_report(dataclasses.replace(cls.journal, groups=cls.groups[:count])) for count in range(len(cls.groups) + 1)]

    @classmethod
    def made(cls):
        """The journal of a day: its groups are what its sender gathered of 18 reports that came at once, and then a cancel."""
        room = cls.rooms.get()
        with room.day.live() as live, connect(room.day.port) as one, connect(room.day.next_port) as other:
            one.sendall(reports("N", 18))
            wait_for(live, "its reports in the journal", lambda: kept_in(room.journal) == 18)
            one.sendall(message(kind="cancel", participant="N", number=19, symbol="AB", target=2))
            wait_for(live, "its cancel in the journal", lambda: kept_in(room.journal) == 19)
            one.close()
            other.close()
            ended(live)
        cls.rooms.put(room)
        return room.journal.read_bytes()

    def started(self, texts):
        """What starts with these journals came to."""

        def start(text):
            room = self.rooms.get()
            try:
                return room.start(text)
            finally:
                self.rooms.put(room)

        with ThreadPoolExecutor(AT_ONCE) as days:
            return days.map(start, texts)

    def edges(self):
        """Where a field begins or ends, in order."""
        found = {len(plain_journal.MAGIC), len(plain_journal.MAGIC) + 1, self.groups[0].begins - plain_journal.DIGEST}
        for group in self.groups:
            found |= {group.begins, group.ends, group.ends - plain_journal.DIGEST}
            for at in lengths_of(group, self.whole):
                found |= {at, at + LENGTH, at + LENGTH + PACKET_HEADER}
        return sorted(found)

    def chosen(self, front):
        """The places from this one on that are tried."""
        if os.environ.get(ALL_BYTES):
            return range(front, len(self.whole))
        near = {edge + more for edge in self.edges() for more in (-1, 0, 1)}
        return sorted(near.union(range(front, len(self.whole), STEP)).intersection(range(front, len(self.whole))))

    def front(self, groups):
        """The journal of so many of the first groups."""
        return dataclasses.replace(self.journal, groups=self.groups[:groups], whole=self.groups[groups - 1].ends if groups else self.groups[0].begins)

    def assert_goes_on(self, text, groups, start):
        """A start went on with so many of the first groups and nothing else, and cut off the rest of these bytes."""
        (end, said, left), front = start, self.front(groups)
        cut = len(text) - front.whole
        wanted = [f"cut off {cut:,} bytes of a group that was not whole"] if cut else []
        wanted += [f"tapebox: went on at {went_on_text(front)}"] if groups else []
        self.assertEqual((end.status, [line for line in said if "cut off" in line or "went on" in line]), (0, wanted))
        self.assertEqual(left, self.whole[: front.whole])
        self.assertEqual(end.written, self.reports[groups])

    def test_each_cut(self):
        """FORMATS, "A journal": wherever the last two groups are cut, a start goes on with the whole ones before, and leaves these as they are."""
        cuts = self.chosen(self.groups[-2].begins)
        for cut, start in zip(cuts, self.started(self.whole[:cut] for cut in cuts)):
            with self.subTest(cut):
                self.assert_goes_on(self.whole[:cut], sum(group.ends <= cut for group in self.groups), start)

    def test_each_changed_byte(self):
        """OPERATING, "A day that survives a crash": a byte that was changed is refused, and the journal left as it is."""
        changes = [(at, flip) for at in self.chosen(0) for flip in FLIPS]
        texts = [self.whole[:at] + bytes([self.whole[at] ^ flip]) + self.whole[at + 1 :] for at, flip in changes]
        for (at, flip), text, start in zip(changes, texts, self.started(texts)):
            with self.subTest((at, flip)):
                self.assert_refused(at, text, start)

    def assert_refused(self, at, text, start):
        """The start names what is damaged, as a plain reader has it, and changed nothing."""
        end, said, left = start
        self.assertEqual((end.written, left == text, len(said)), (b"", True, 1))
        if at < self.groups[0].begins:
            magic = len(plain_journal.MAGIC)
            wanted = (2, "no journal") if at < magic else (2, "another version") if at == magic else (7, "its header is damaged")
            self.assertEqual((end.status, said[0]), wanted)
            self.assertRaises(NoHeader, plain_journal.read_front, text)
            return
        held = len(plain_journal.read_front(text).entries)
        self.assertIsInstance(plain_journal.read_front(text).fault, Damaged)
        self.assertEqual(held, sum(len(group.entries) for group in self.groups if group.ends <= at))
        self.assertEqual(end.status, 7)
        self.assertRegex(said[0], rf"\Aentr(y|ies|ies from) {held + 1:,} [^\n]*(is|are) damaged\Z")

