"""A day that keeps a journal: what stands in it, and how a day goes on that was cut off."""

import contextlib
import errno
import os
import re
import resource
import signal
import tempfile
import threading
from pathlib import Path

import plain_journal
from preloaded import CALL_FAILED, EVER, failing
from storm_day import Ears
from support import HEADINGS, Case, Ended, connect, ended, listens, report, reports, run, started, wait_for
from cases.test_operated_day import Day, sent

# How many entries of a first run `live` has kept when it is killed, of N's and Q's messages.
FIRST = {"N": 40, "Q": 25}
ALL = {"N": 90, "Q": 60}
# The user and the group that may do what anybody may.
NOBODY = 65_534


def kept_in(path):
    """How many entries the journal of a path has, or None while it ends within a group."""
    with contextlib.suppress(OSError, ValueError):
        return len(plain_journal.read(path.read_bytes()).entries)


def batch_report(journal):
    """The report of a batch of a journal's messages."""
    lines = [f"{entry.message[3:4].decode()} {entry.message.hex()}" for entry in journal.entries]
    written = run(["batch"], "\n".join([" ".join(journal.symbols), " ".join(journal.participants), *lines, ""]).encode()).written
    return written[written.index(HEADINGS.encode()) :]


class Journals(Case):
    def setUp(self):
        folder = tempfile.TemporaryDirectory()
        self.addCleanup(folder.cleanup)
        self.folder = Path(folder.name)
        os.chmod(self.folder, 0o700)
        self.path = self.folder / "day.journal"
        self.day = Day(self.folder, journal="day.journal")

    def bytes(self):
        """What the journal has."""
        return self.path.read_bytes()

    def kept(self):
        """How many entries the journal has, or None while it ends within a group."""
        return kept_in(self.path)

    def ports(self):
        """The participants' ports."""
        return {"N": self.day.port, "Q": self.day.next_port}

    def line(self, what):
        """A line about the journal."""
        return f"tapebox: journal {self.path}: {what}\n".encode()

    def finish(self, live, counts):
        """Sends these messages of each participant, and returns how the day ended."""
        for who, port in self.ports().items():
            sent(port, reports(who, counts[who])).close()
        return ended(live)

    def kill(self, counts=None, **options):
        """A run that is killed once its journal has these messages, and what the journal has then."""
        counts = FIRST if counts is None else counts
        with self.day.live(**options) as live:
            connections = [sent(port, reports(who, counts[who])) for who, port in self.ports().items()]
            wait_for(live, "its entries in the journal", lambda: self.kept() == sum(counts.values()))
            live.send_signal(signal.SIGKILL)
            live.wait()
            for connection in connections:
                connection.close()
        return self.bytes()

    def batch(self):
        """The report of a batch of the journal's messages."""
        return batch_report(plain_journal.read(self.bytes()))

    def assert_refused(self, status, what, **options):
        """The day does not start, says this of its journal alone, and leaves it as it is."""
        before = self.bytes() if self.path.is_file() else None
        self.assertEqual(run(["live", self.day.path], **options), Ended(status, b"", self.line(what)))
        if before is not None:
            self.assertEqual(self.bytes(), before)

    def test_a_day_is_in_its_journal(self):
        """FORMATS, "A journal": the journal of a day has its entries, in order and each once."""
        with self.day.live() as live:
            over = self.finish(live, ALL)
        self.assertEqual(over.status, 0)
        journal = plain_journal.read(self.bytes())
        self.assertEqual((journal.session, journal.matrix, journal.limit), (7, 1, 1_048_576))
        self.assertEqual((journal.symbols, journal.participants), (("AB",), "NQ"))
        self.assertEqual([entry.number for entry in journal.entries], list(range(1, sum(ALL.values()) + 1)))
        for who, count in ALL.items():
            own = [entry.message for entry in journal.entries if entry.message[3:4] == who.encode()]
            self.assertEqual(own, [report(who, number) for number in range(1, count + 1)])

    def test_a_killed_day_goes_on_where_all_is_sent_again(self):
        """OPERATING, "A day that survives a crash": participants may send all again; what was admitted is refused as Stale."""
        front = self.kill()
        with self.day.live() as live:
            over = self.finish(live, ALL)
        self.assertEqual((over.status, over.written), (0, self.batch()))
        self.assertIn(b"tapebox: went on at 65 (N: last number 40; Q: 25)\n", over.said)
        self.assertIn(b"tapebox: N: 40 refused by 35 Stale, the first with number 1\n", over.said)
        self.assertTrue(self.bytes().startswith(front))
        self.assertEqual(len(plain_journal.read(self.bytes()).entries), sum(ALL.values()))

    def test_a_killed_day_goes_on_where_the_rest_is_sent(self):
        """OPERATING, "A day that survives a crash": `status` tells from which number on a participant is to send, before it has connected, and counts on."""
        self.kill()
        with self.day.live() as live:
            self.day.wait_status(live, "(?s)N: not connected, 40 messages, 40 admitted, last number 40.*Q: .*last number 25")
            connections = {who: connect(port) for who, port in self.ports().items()}
            for who, connection in connections.items():
                connection.sendall(b"".join(report(who, number) for number in range(FIRST[who] + 1, ALL[who] + 1)))
            said = [f"{who}: [^\n]*, {count} messages, {count} admitted, last number {count}\n" for who, count in ALL.items()]
            self.day.wait_status(live, f"(?s)tape number {sum(ALL.values())},.*{'.*'.join(said)}")
            for connection in connections.values():
                connection.close()
            over = ended(live)
        self.assertEqual((over.status, over.written), (0, self.batch()))
        self.assertNotIn(b"refused", over.said)

    def test_what_is_said_of_a_day_that_went_on(self):
        """OPERATING, "How a day is operated": messages a second are those since the day went on; what the journal had is counted, whoever connects."""
        self.kill()
        with self.day.live() as live:
            self.day.wait_status(live, "tape number 65, 0 messages a second\n")
            with sent(self.day.port, b"".join(report("N", number) for number in range(41, 91))), sent(self.day.next_port, b""):
                self.day.wait_status(live, "tape number 115, ")
                seconds, rate = map(int, re.match(r"since (\d+) s, tape number 115, (\d+) messages a second\n", self.day.status()).groups())
            self.assertEqual(ended(live).status, 0)
        self.assertEqual(rate, 50 // max(seconds, 1))
        with self.day.live() as live:
            self.day.wait_status(live, "tape number 115, 0 messages a second\n")
            self.assertEqual(run(["end", self.day.path]).status, 0)
            over = ended(live)
        self.assertEqual(over.status, 0)
        for who, count in (("N", 90), ("Q", 25)):
            counts = f"tapebox: {who}: {count} messages, {count} admitted, last number {count}\n"
            self.assertIn(f"{counts}tapebox: {who}: did not connect before the day was ended\n".encode(), over.said)

    def test_a_follower_of_a_day_that_went_on(self):
        """OPERATING, "A day that survives a crash": a follower that starts after a day went on has all of it."""
        self.kill()
        path = self.day.write("followed.toml", journal="day.journal", followers=1)
        with started(["live", path]) as live, started(["follow", path]) as follow:
            over, followed = self.finish(live, ALL), ended(follow)
        self.assertEqual((over.status, followed.status), (0, 0))
        self.assertEqual(followed.written, over.written)

    def test_a_group_that_was_cut_off(self):
        """FORMATS, "A journal": a journal that is cut within its last groups goes on behind the whole ones."""
        self.kill({"N": 3, "Q": 0})
        whole = self.kill({"N": 5, "Q": 2})
        groups = plain_journal.read(whole).groups
        ends = [groups[0].begins, *(group.ends for group in groups)]
        for cut in {at + more for at in ends for more in (-37, -1, 0, 1, 2, 60)}.intersection(range(ends[0], len(whole))):
            end = max(at for at in ends if at <= cut)
            with self.subTest(cut):
                self.path.write_bytes(whole[:cut])
                with self.day.live() as live:
                    wait_for(live, "its ports", lambda: listens(self.day.port))
                    self.assertEqual(self.bytes(), whole[:end])
                    run(["end", self.day.path])
                    said = ended(live).said
                self.assertEqual(self.line(f"cut off {cut - end} bytes of a group that was not whole") in said, cut > end)

    def test_another_day(self):
        """OPERATING, "A day that survives a crash": the journal of another day is refused by its first other term, and left as it is."""
        self.kill()
        changes = [
            ({"session": 8, "matrix": 2}, "another session"),
            ({"matrix": 2, "limit": 99}, "another matrix"),
            ({"limit": 99, "symbols": ["CD"]}, "another limit"),
            ({"symbols": ["AB", "CD"], "participants": ["Q", "N"]}, "other symbols"),
            ({"participants": ["Q", "N"]}, "other participants"),
        ]
        for keys, what in changes:
            with self.subTest(what):
                self.day.path = self.day.write("day.toml", journal="day.journal", **keys)
                self.assert_refused(2, what)

    def test_no_journal(self):
        """OPERATING, "A day that survives a crash": another file, another version, a folder, a pipe or a device is no journal of the day."""
        for text, what in ((b"symbol,who,open\n", "no journal"), (b"tapejrnl\2", "another version")):
            with self.subTest(text):
                self.path.write_bytes(text)
                self.assert_refused(2, what)
        self.path.unlink()
        for make, remove in ((Path.mkdir, Path.rmdir), (os.mkfifo, Path.unlink), (self.link_to("/dev/null"), Path.unlink), (self.link_to("/dev/zero"), Path.unlink)):
            make(self.path)
            with self.subTest(self.path.lstat()):
                self.assert_refused(2, "no journal")
            remove(self.path)

    def link_to(self, target):
        """What makes a path a link to this one."""
        return lambda path: path.symlink_to(target)

    def test_a_damaged_journal(self):
        """OPERATING, "A day that survives a crash": damage is named by its entries, and nothing is overwritten."""
        whole = self.kill()
        self.kill({"N": 60, "Q": 25})
        whole = self.bytes()
        first = plain_journal.read(whole).groups[0]
        for at in (first.begins + 40, first.ends - 1):
            with self.subTest(at):
                self.path.write_bytes(whole[:at] + bytes([whole[at] ^ 1]) + whole[at + 1 :])
                count = len(first.entries)
                self.assert_refused(7, f"entries 1 to {count} are damaged" if count > 1 else "entry 1 is damaged")
        self.path.write_bytes(whole[:30] + bytes([whole[30] ^ 1]) + whole[31:])
        self.assert_refused(7, "its header is damaged")

    def test_what_was_begun_alone(self):
        """OPERATING, "A day that survives a crash": a file without a byte, or with a part of a header, is a new journal."""
        header = plain_journal.read(self.kill()).groups[0].begins
        whole = self.bytes()
        for size in (0, 5, 8, header - 1):
            with self.subTest(size):
                self.path.write_bytes(whole[:size])
                with self.day.live() as live:
                    wait_for(live, "its ports", lambda: listens(self.day.port))
                    self.assertEqual(self.bytes(), whole[:header])
                    run(["end", self.day.path])
                    self.assertNotIn(b"went on", ended(live).said)

    def test_two_days_with_one_journal(self):
        """OPERATING, "A day that survives a crash": a journal is held by one `live`."""
        with self.day.live() as live:
            wait_for(live, "its ports", lambda: listens(self.day.port))
            self.assert_refused(2, "held by another program")
            over = self.finish(live, ALL)
        self.assertEqual(over.status, 0)

    def test_a_journal_by_another_name(self):
        """OPERATING, "A day that survives a crash": nor by two under two names."""
        other = self.folder / "other.journal"
        self.link_to(self.path)(other)
        with self.day.live() as live:
            wait_for(live, "its ports", lambda: listens(self.day.port))
            self.path, self.day.path = other, self.day.write("day.toml", journal=other.name)
            self.assert_refused(2, "held by another program")
            over = self.finish(live, ALL)
        self.assertEqual(over.status, 0)

    def test_no_folder(self):
        """OPERATING, "A day that survives a crash": a journal that can't be opened is a read fault, with its cause."""
        self.day.path = self.day.write("day.toml", journal="none/day.journal")
        self.path = self.folder / "none" / "day.journal"
        self.assert_refused(3, "no such folder")

    def test_no_permission(self):
        """OPERATING, "A day that survives a crash": so is one that may not be written, and one that may not be made in its folder."""
        # What root may do no file's mode says.
        who = {"user": NOBODY, "group": NOBODY, "extra_groups": []} if os.geteuid() == 0 else {}
        self.kill()
        self.path.chmod(0o444)
        self.folder.chmod(0o555)
        self.addCleanup(self.folder.chmod, 0o700)
        self.assert_refused(3, "permission denied", **who)
        self.folder.chmod(0o700)
        self.path, self.day.path = self.folder / "new.journal", self.day.write("day.toml", journal="new.journal")
        self.folder.chmod(0o555)
        self.assert_refused(3, "permission denied", **who)
        self.assertFalse(self.path.exists())

    def test_a_read_that_fails(self):
        """OPERATING, "A day that survives a crash": so is one of which a read fails, and it stays as it is."""
        before = self.kill()
        end = run(["live", self.day.path], env=os.environ | failing(("read_file", 3, EVER, errno.EIO)))
        self.assertEqual(end, Ended(3, b"", CALL_FAILED + self.line("uncategorized error")))
        self.assertEqual(self.bytes(), before)

    def test_a_cut_that_fails(self):
        """OPERATING, "A day that survives a crash": a group that can't be cut off is a write fault."""
        torn = self.kill()[:-1]
        self.path.write_bytes(torn)
        end = run(["live", self.day.path], env=os.environ | failing(("ftruncate", 1, EVER, errno.EIO)))
        self.assertEqual(end, Ended(4, b"", CALL_FAILED + self.line("write fault")))
        self.assertEqual(self.bytes(), torn)

    def limited(self, most):
        """The options of a program whose files have so many bytes at most."""
        return {"preexec_fn": lambda: resource.setrlimit(resource.RLIMIT_FSIZE, (most, most)), "restore_signals": False}

    def test_no_room_for_a_header(self):
        """OPERATING, "A day that survives a crash": a new journal that can't be written or synced is a write fault, with its cause."""
        self.assertEqual(run(["live", self.day.path], **self.limited(10)), Ended(4, b"", self.line("file too large")))
        for call, error, what in (("write_file", errno.ENOSPC, "no space left"), ("fdatasync", errno.EDQUOT, "quota used up"), ("fdatasync", errno.EIO, "write fault")):
            with self.subTest(what):
                self.path.unlink()
                end = run(["live", self.day.path], env=os.environ | failing((call, 1, 1, error)))
                self.assertEqual(end, Ended(4, b"", CALL_FAILED + self.line(what)))

    def test_no_room_in_mid_day(self):
        """OPERATING, "A day that survives a crash": if the journal can't be written, nothing more is read or published, and the day ends with a write fault."""
        with self.day.live(**self.limited(2_000)) as live:
            connections = [sent(port, reports(who, ALL[who])) for who, port in self.ports().items()]
            over = ended(live)
            for connection in connections:
                connection.close()
        self.assertEqual((over.status, over.written), (4, b""))
        self.assertTrue(over.said.endswith(self.line("write fault")), over.said)

    def failed_day(self, row, kept):
        """How a day ended of which this call fails once its journal has so many entries, and its follower, and the numbers that lines A and B carried."""
        path, ears = self.day.write("followed.toml", journal="day.journal", followers=1), Ears((self.day.a[2], self.day.b[2]))
        with started(["live", path], env=os.environ | failing(row)) as live, started(["follow", path]) as follow:
            with connect(self.day.port) as one, connect(self.day.next_port) as other, contextlib.suppress(ConnectionError):
                one.sendall(report("N", 1))
                wait_for(live, "its first entries in the journal", lambda: self.kept() == kept)
                other.sendall(reports("Q", ALL["Q"]))
            end, followed, is_over = ended(live), ended(follow), threading.Event()
        is_over.set()
        ears.hear(is_over)
        return end, followed, [[entry.number for entry in line] for line in ears.entries()]

    def test_what_is_not_kept_is_not_sent(self):
        """OPERATING, "A day that survives a crash": what can't be written or synced nobody gets, the day ends with a write fault and its follower with a
        read fault, and started again it goes on."""
        for row in (("write_file", 3, EVER, errno.ENOSPC), ("fdatasync", 4, EVER, errno.EIO)):
            with self.subTest(row):
                self.path.unlink(missing_ok=True)
                end, followed, heard = self.failed_day(row, 1)
                self.assertEqual((end.status, end.written, followed.status, followed.written), (4, b"", 3, b""))
                self.assertTrue(end.said.endswith(self.line("write fault")) and CALL_FAILED in end.said, end.said)
                self.assertEqual(heard, [[1], [1]])
                with self.day.live() as live:
                    over = self.finish(live, ALL)
                self.assertEqual((over.status, over.written), (0, self.batch()))
                self.assertEqual(len(plain_journal.read(self.bytes()).entries), sum(ALL.values()))

    def test_a_start_that_is_not_synced(self):
        """OPERATING, "A day that survives a crash": what a journal had is synced again before anything is sent."""
        before = self.kill()
        end, followed, heard = self.failed_day(("fdatasync", 1, 1, errno.EIO), sum(FIRST.values()))
        self.assertEqual((end.status, end.written, followed.status, heard), (4, b"", 3, [[], []]))
        self.assertTrue(end.said.endswith(self.line("write fault")), end.said)
        self.assertEqual(self.bytes(), before)

    def test_a_sync_that_fails(self):
        """OPERATING, "A day that survives a crash": what can't be synced is not sent, and the day ends with a write fault."""
        # Synced are the header, before any port is opened, then what the day begins with, and then each group.
        for call in (1, 2, 3):
            with self.subTest(call):
                self.path.unlink(missing_ok=True)
                with self.day.live(env=os.environ | failing(("fdatasync", call, call, errno.EIO))) as live:
                    over = ended(live) if call == 1 else self.finish(live, ALL)
                self.assertEqual((over.status, over.written), (4, b""))
                self.assertIn(CALL_FAILED, over.said)
                self.assertTrue(over.said.endswith(self.line("write fault")), over.said)

    def test_a_cut_that_is_not_synced(self):
        """OPERATING, "A day that survives a crash": a journal whose last group is cut off is synced before the day goes on."""
        self.path.write_bytes(self.kill() + b"\0\x32")
        env = os.environ | failing(("fdatasync", 1, 1, errno.EIO))
        over = run(["live", self.day.path], env=env)
        self.assertEqual((over.status, over.written), (4, b""))
        self.assertEqual(over.said, CALL_FAILED + self.line("write fault"))

    def test_the_folder_of_a_journal(self):
        """OPERATING, "A day that survives a crash": a journal whose folder can't be synced is a write fault before any port is opened, whether it is new
        or goes on; the folder of one that is kept without a sync is not synced."""
        env = os.environ | failing(("fsync", 1, EVER, errno.EIO))
        for _ in range(2):
            self.assertEqual(run(["live", self.day.path], env=env), Ended(4, b"", CALL_FAILED + self.line("write fault")))
            self.assertEqual(self.bytes(), b"")
        before = self.kill()
        self.assertEqual(run(["live", self.day.path], env=env), Ended(4, b"", CALL_FAILED + self.line("write fault")))
        self.assertEqual(self.bytes(), before)
        self.day.path.write_text(self.day.path.read_text() + "journal_sync = false\n")
        with self.day.live(env=env) as live:
            over = self.finish(live, ALL)
        self.assertEqual((over.status, over.said.count(CALL_FAILED)), (0, 0))

    def test_a_journal_that_is_not_synced(self):
        """FORMATS, "A day's file": `journal_sync = false` keeps the journal without a sync."""
        self.day.path = self.day.write("day.toml", journal="day.journal")
        self.day.path.write_text(self.day.path.read_text() + "journal_sync = false\n")
        env = os.environ | failing(("fdatasync", 1, 9, errno.EIO))
        with self.day.live(env=env) as live:
            over = self.finish(live, ALL)
        self.assertEqual(over.status, 0)
        self.assertNotIn(CALL_FAILED, over.said)
        self.assertEqual(len(plain_journal.read(self.bytes()).entries), sum(ALL.values()))
