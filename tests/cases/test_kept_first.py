"""A day that keeps a journal: what is done before what, as seen while a call of the system waits."""

import contextlib
import errno
import os
import socket
import struct
import tempfile
import threading
from pathlib import Path

import plain_journal
from preloaded import EVER, Held, failing, noting_syncs
from storm_day import Ears
from support import HOST, Case, Ended, connect, ended, listens, report, reports, run, started, wait_for
from cases.test_journal import batch_report, kept_in
from cases.test_operated_day import SESSION, Day

# All entries are asked for; and the first byte of an answer that has none of them.
REQUEST, BEYOND = struct.pack(">QIH", SESSION, 1, 64), b"\x48"
# Seconds for which an answer is awaited that is not to come.
UNANSWERED = 0.7
# The parts of a start that are synced, in order, and the first call of each.
SYNCED = ("fsync", "fdatasync")


class Journaled(Case):
    def setUp(self):
        folder = tempfile.TemporaryDirectory()
        self.addCleanup(folder.cleanup)
        self.folder = Path(folder.name)
        os.chmod(self.folder, 0o700)
        self.path, self.notes = self.folder / "day.journal", self.folder / "synced"
        self.day = Day(self.folder, journal="day.journal", followers=1)

    def held(self, name, call, *failed):
        """A call that is held, and the environment in which it is held, these calls fail, and syncs are noted."""
        held = Held(self.folder, name, call)
        return held, os.environ | held.environment | noting_syncs(self.notes) | (failing(*failed) if failed else {})

    @contextlib.contextmanager
    def connected(self):
        """The connections of N and Q."""
        with connect(self.day.port) as one, connect(self.day.next_port) as other:
            yield one, other

    def kill(self, live):
        """Kills a `live`."""
        live.kill()
        live.wait()

    def synced(self):
        """What was synced, in order: the call and the file."""
        return [tuple(line.split(" ", 1)) for line in self.notes.read_text().splitlines()] if self.notes.exists() else []


class KeptFirst(Journaled):
    """What is admitted is in the journal, and synced, before anybody gets it."""

    def answered(self, live, held):
        """What a follower was answered that asked for all while a call was held, and how the day ended after that was released."""
        answer = b""
        with contextlib.suppress(TimeoutError, ConnectionError), socket.create_connection((HOST, self.day.retransmission)) as follower:
            follower.settimeout(UNANSWERED)
            follower.sendall(REQUEST)
            answer = follower.recv(1)
        held.release()
        return answer, ended(live)

    @contextlib.contextmanager
    def unheard(self):
        """Nothing comes on lines A and B."""
        ears, is_over = Ears((self.day.a[0], self.day.b[0])), threading.Event()
        yield
        is_over.set()
        ears.hear(is_over)
        self.assertEqual(ears.entries(), [[], []])

    def test_a_new_group(self):
        """OPERATING, "A day that survives a crash": while a group is written or synced, and once that failed, nobody has its entries. Meanwhile the lines
        go on."""
        # Synced are the header, what the day begins with, and then each group.
        for row in (("write_file", 2, EVER, errno.ENOSPC), ("fdatasync", 3, EVER, errno.EIO)):
            self.path.unlink(missing_ok=True)
            held, env = self.held(*row[:2], row)
            with self.subTest(row), self.unheard(), self.day.live(env=env) as live, self.connected() as (one, _):
                one.sendall(report("N", 1))
                held.wait(live)
                one.sendall(b"".join(report("N", number) for number in range(2, 7)))
                self.day.wait_status(live, "N: [^\n]*, 6 admitted")
                answer, end = self.answered(live, held)
                self.assertEqual((answer, end.status, end.written), (BEYOND, 4, b""))

    def test_a_restored_group(self):
        """OPERATING, "A day that survives a crash": nor has anybody what a journal had, before it was synced again."""
        with self.day.live() as live, self.connected() as (one, _):
            one.sendall(reports("N", 16))
            wait_for(live, "its entries in the journal", lambda: kept_in(self.path) == 16)
            self.kill(live)
        held, env = self.held("fdatasync", 1, ("fdatasync", 1, EVER, errno.EIO))
        with self.unheard(), self.day.live(env=env) as live, contextlib.ExitStack() as lines:
            # It may be synced before all have connected.
            wait_for(live, "its sync or its ports", lambda: held.is_waiting() or listens(self.day.port) and listens(self.day.next_port))
            if not held.pipe:
                lines.enter_context(self.connected())
                held.wait(live)
            answer, end = self.answered(live, held)
        self.assertIn(answer, (b"", BEYOND))
        self.assertEqual((end.status, end.written), (4, b""))

    def test_a_second_live_while_a_group_is_half_written(self):
        """OPERATING, "A day that survives a crash": a `live` that is refused the journal leaves it as it is, also while half a group stands in it."""
        held, env = self.held("write_file", 2)
        self.day.path = self.day.write("day.toml", journal="day.journal")
        with self.day.live(env=env) as live:
            with self.connected() as (one, _):
                one.sendall(report("N", 1))
                held.wait(live)
                before = self.path.read_bytes()
                self.assertIsInstance(plain_journal.read_front(before).fault, plain_journal.Torn)
                second = run(["live", self.day.path])
                self.assertEqual(second, Ended(2, b"", f"tapebox: journal {self.path}: held by another program\n".encode()))
                self.assertEqual(self.path.read_bytes(), before)
                held.release()
                one.sendall(report("N", 2))
            over = ended(live)
        journal = plain_journal.read(self.path.read_bytes())
        self.assertEqual((over.status, len(journal.entries), over.written), (0, 2, batch_report(journal)))


class Folders(Journaled):
    """The folder of a journal is synced, and which one that is."""

    def assert_synced(self, path, words, where="/"):
        """A start by these words in this folder syncs the folder of its journal, and then the journal, before it keeps an entry."""
        self.notes.unlink(missing_ok=True)
        number = 1 + (kept_in(path) or 0)
        with started(["live", words], cwd=where, env=os.environ | noting_syncs(self.notes)) as live, self.connected() as (one, _):
            one.sendall(report("N", number))
            wait_for(live, "its entry in the journal", lambda: kept_in(path) == number)
            self.kill(live)
        self.assertEqual(self.synced()[:2], [("fsync", str(path.parent)), ("fdatasync", str(path))])

    def test_which_folder_is_synced(self):
        """OPERATING, "A day that survives a crash": at each start the folder that has the journal is synced, wherever `live` runs."""
        (self.folder / "kept").mkdir()
        for name in ("kept/day.journal", "day.journal"):
            self.day.write("day.toml", journal=name)
            for words, where in ((self.folder / "day.toml", "/"), ("day.toml", self.folder), ("./day.toml", self.folder)):
                with self.subTest(name, words=words):
                    self.assert_synced(self.folder / name, words, where)

    def test_a_live_that_is_killed_at_its_first_syncs(self):
        """OPERATING, "A day that survives a crash": a `live` that was killed before its folder or the header of its journal was synced has both synced by
        the next one."""
        for call in SYNCED:
            self.path.unlink(missing_ok=True)
            self.notes.unlink(missing_ok=True)
            held, env = self.held(call, 1)
            with self.subTest(call):
                with self.day.live(env=env) as live:
                    held.wait(live)
                    self.kill(live)
                    held.release()
                self.assert_synced(self.path, self.day.path)
