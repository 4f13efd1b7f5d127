"""Journals through the built `tapebox`, beside the same messages as a table, a running day's report, and journals that are made by FORMATS alone."""

import contextlib
import dataclasses
import os
import resource
import tempfile
import unittest
from pathlib import Path

import journal_maker
import plain_journal
import plain_table
from refused import MOST, run_refused
from support import HEADINGS, OUT_OF_MEMORY, SAMPLES, WRITE_FAULT, Case, Ended, desk, ended, report, reports, run, wait_for
from cases.test_operated_day import Day, sent
from cases.test_tables import SeededDay, report_in

WORDS = ("report", "tape", "explain")
TORN = "tapebox: a group is cut off behind byte {}, and left out\n"
NO_TABLE = (2, b"tapebox: this is a journal, which report, tape, explain and verify take\n")
# Each sample and its matrix.
TABLES = {"corrections.csv": "1", "morning.csv": "1", "matrix-two.csv": "2"}
SEEDED_ROWS = 600
# Bytes of memory that a journal does not fit in.
MEMORY = 16 << 20


def entries_text(count):
    """So many entries."""
    return f"{count} {'entry' if count == 1 else 'entries'}"


class Journals(Case):
    @classmethod
    def setUpClass(cls):
        seeded = SeededDay(7)
        seeded.COUNT = SEEDED_ROWS
        tables = [((SAMPLES / name).read_bytes(), matrix) for name, matrix in TABLES.items()] + [(seeded.table(), "2")]
        admitted = [journal_maker.day_of(table, matrix) for table, matrix in tables]
        # A table lists the names of its own messages, in the order in which they appear.
        cls.days = [journal_maker.day_of(journal_maker.table(day), day.matrix) for day in admitted]
        cls.day = cls.days[1]
        cls.whole = journal_maker.journal(cls.day)

    def assert_said(self, text, word, status, said, *options):
        """A word writes nothing of these bytes, and ends with this status and this line."""
        self.assert_fault(desk(word, *options, given=text), (status, f"tapebox: {said}\n".encode()))

    def assert_found(self, text, status, found):
        """`verify` finds this of these bytes, and says nothing."""
        self.assertEqual(desk("verify", given=text), Ended(status, f"{found}\n".encode(), b""))

    def test_the_same_as_the_table(self):
        """FORMATS, "A journal": each text of a journal is that of the table of its messages, by the journal's matrix, with `--strict` too."""
        for day in self.days:
            journal, table = journal_maker.journal(day), journal_maker.table(day)
            for word in WORDS:
                wanted = desk(word, matrix=day.matrix, given=table)
                self.assertEqual((wanted.status, wanted.said), (0, b""))
                for options in ([], ["--matrix", day.matrix], ["--strict"]):
                    self.assert_writes(desk(word, *options, given=journal), wanted.written)

    def test_a_file(self):
        """FORMATS, "A journal": a journal may be named, as a table may."""
        with self.named(self.whole) as name:
            for word in (*WORDS, "verify"):
                self.assert_writes(desk(word, name), desk(word, given=self.whole).written)

    @contextlib.contextmanager
    def named(self, text):
        """A file of these bytes, by its name."""
        with tempfile.NamedTemporaryFile() as file:
            file.write(text)
            file.flush()
            yield file.name

    def assert_watched(self, text):
        """`watch` of a file of these bytes ends as `tape` does, also as a follower that no journal has; it gives how."""
        with self.named(text) as name:
            tape = desk("tape", name)
            for options in ([], ["--follower", 2], ["--follower=65535"]):
                self.assertEqual(run(["watch", *options, name]), tape)
        return tape

    def test_watch(self):
        """FORMATS, "A journal": `watch` writes the readable tape of a journal, by its matrix, as `tape` does."""
        for day in self.days:
            wanted = desk("tape", matrix=day.matrix, given=journal_maker.table(day))
            self.assert_writes(self.assert_watched(journal_maker.journal(day)), wanted.written)

    def test_watch_of_a_journal_that_is_not_whole(self):
        """FORMATS, "A journal": of one that is cut off, damaged, or has no whole header, `watch` says and writes what `tape` does."""
        group = plain_journal.read(self.whole).groups[1]
        damaged = self.whole[: group.begins + 20] + bytes([self.whole[group.begins + 20] ^ 1]) + self.whole[group.begins + 21 :]
        cases = [(self.whole[: group.ends - 1], 0, True), (damaged, 2, False), (self.whole[:8], 2, False), (self.whole[:8] + b"\2" + self.whole[9:], 2, False)]
        for text, status, writes in cases:
            with self.subTest(len(text)):
                tape = self.assert_watched(text)
                self.assertEqual((tape.status, bool(tape.written), bool(tape.said)), (status, writes, True))

    def test_watch_of_what_is_no_journal(self):
        """OPERATING: what does not begin as a journal, and what is no file, is a day's file to `watch`, as it is to `follow`."""
        with tempfile.TemporaryDirectory() as folder:
            day = Day(folder).path
            texts = [b"", b"t", b"tapejrn", b"tapejrnm = 1\n", b" " + self.whole, day.read_bytes()]
            for text in texts:
                with self.subTest(text[:12]), self.named(text) as name:
                    self.assert_as_followed(name)
            for text in (self.whole, day.read_bytes()):
                with self.subTest(pipe=text[:12]):
                    self.assert_as_followed("/dev/stdin", text)
            for name in (folder, Path(folder) / "none.toml", "-"):
                with self.subTest(name=name):
                    self.assert_as_followed(name)

    def assert_as_followed(self, name, given=b""):
        """`watch` ends as `follow` does at a place that no follower has: by a fault of the day's file."""
        over = run(["watch", "--follower", 9, name], given)
        self.assertEqual(over, run(["follow", "--follower", 9, name], given))
        self.assertIn(over.status, (2, 3))
        self.assertTrue(over.said.startswith(f"tapebox: {name}: ".encode()), over.said)

    def test_the_listing_of_the_header(self):
        """FORMATS, "A journal": a report has the symbols of the header, in its order, also one that never traded."""
        table = journal_maker.table(self.day)
        symbols = ["ZZ", *reversed(self.day.symbols)]
        day = journal_maker.day_of(table, self.day.matrix, symbols, [*reversed(self.day.participants)])
        messages = b"".join(plain_table.batch_line(entry.message) for entry in day.entries)
        batch = run(["batch", day.matrix], f"{' '.join(symbols)}\n{' '.join(day.participants)}\n".encode() + messages)
        self.assert_writes(desk("report", given=journal_maker.journal(day)), report_in(batch.written))

    def test_a_running_day(self):
        """OPERATING, "A day that survives a crash": the report of a day's journal is the one that `live` wrote, byte for byte."""
        with tempfile.TemporaryDirectory() as folder:
            os.chmod(folder, 0o700)
            day, path = Day(folder, journal="day.journal", matrix=2), Path(folder) / "day.journal"
            with day.live() as live:
                connections = [sent(day.port, reports("N", 40) + report("N", 40)), sent(day.next_port, reports("Q", 25))]
                wait_for(live, "its entries in the journal", lambda: desk("verify", path).written.startswith(b"65 "))
                running = desk("report", path)
                for connection in connections:
                    connection.close()
                over = ended(live)
            self.assertEqual(over.status, 0)
            self.assert_writes(running, over.written)
            self.assert_writes(desk("report", path), over.written)
            self.assert_writes(desk("verify", path), b"65 entries, all as recorded\n")
            tape = desk("tape", path)
            self.assert_writes(run(["watch", path]), tape.written)
            self.assert_writes(desk("verify", given=tape.written, matrix=2), b"65 entries, 0 refusals, all as recorded\n")
            messages = [entry.message for entry in plain_journal.read(path.read_bytes()).entries]
            self.assert_writes(desk("tape", given=plain_table.table(messages), matrix=2), tape.written)

    def test_no_entry(self):
        """FORMATS, "A journal": of a journal without an entry, the texts have the names of the columns, and the report each symbol."""
        journal = journal_maker.journal_of([], 1, ["AB", "CD"], ["N"])
        self.assert_writes(desk("report", given=journal), f"{HEADINGS}\nAB,ALL,,,,,,,,,0,0\nCD,ALL,,,,,,,,,0,0\n".encode())
        for word in WORDS[1:]:
            self.assert_writes(desk(word, given=journal), desk(word, given=self.whole).written.splitlines(True)[0])
        self.assert_found(journal, 0, "0 entries, all as recorded")

    def test_verify(self):
        """FORMATS, "A journal": `verify` tells how many entries stand."""
        for day in self.days:
            self.assert_found(journal_maker.journal(day), 0, f"{entries_text(len(day.entries))}, all as recorded")

    def test_a_group_that_is_cut_off(self):
        """FORMATS, "A journal": a last group that is cut off is left out and told, and is no difference."""
        groups = plain_journal.read(self.whole).groups
        for at, cut in [(0, groups[0].ends - 1), (1, groups[1].begins + 1), (2, groups[2].ends - 40), (len(groups) - 1, len(self.whole) - 1)]:
            text, whole = self.whole[:cut], self.whole[: groups[at].begins]
            count = sum(len(group.entries) for group in groups[:at])
            with self.subTest(cut):
                for word in WORDS:
                    written = desk(word, given=whole).written
                    self.assertEqual(desk(word, given=text), Ended(0, written, TORN.format(len(whole)).encode()))
                up_to = f"up to byte {len(whole)}, behind which a group is cut off"
                self.assert_found(text, 0, f"{entries_text(count)}, all as recorded {up_to}")

    def test_damage(self):
        """FORMATS, "A journal": a journal with a damaged group has no text, and `verify` finds it not as it is written."""
        groups = plain_journal.read(self.whole).groups
        first = 1
        for group in groups[:4]:
            for at, told in ((group.begins + 20, True), (group.ends - 1, True), (group.begins, False)):
                text = self.whole[:at] + bytes([self.whole[at] ^ 0x40]) + self.whole[at + 1 :]
                what = f"the group from entry {first} on is damaged" + f", of {entries_text(len(group.entries)).split()[0]} entries by its own end" * told
                with self.subTest(at):
                    for word in WORDS:
                        self.assert_said(text, word, 2, what)
                    self.assert_found(text, 1, what)
            first += len(group.entries)

    def changed(self, at, **fields):
        """The journal of the day with an entry that is another, by its place from 0."""
        entries = [*self.day.entries]
        entries[at] = dataclasses.replace(entries[at], **fields)
        return journal_maker.journal_of(entries, self.day.matrix, self.day.symbols, self.day.participants)

    def test_an_entry_that_is_not_the_tapes(self):
        """FORMATS, "A journal": whole groups whose entries are not those that the tape makes of their messages are a difference."""
        at = next(at for at, entry in enumerate(self.day.entries) if entry.after)
        after = self.day.entries[at].after
        cases = [
            (self.changed(at, after=dataclasses.replace(after, volume=after.volume + 1)), f"entry {at + 1} carries other figures than its messages give"),
            (self.changed(1, message=self.day.entries[0].message), "entry 2 is refused: 35 Stale"),
            (self.changed(2, message=report("Z", 1, self.day.symbols[0])), "entry 3 is refused: 34 UnknownParticipant"),
        ]
        for text, what in cases:
            with self.subTest(what):
                for word in WORDS:
                    self.assert_said(text, word, 2, what)
                self.assert_found(text, 1, what)

    def test_another_matrix(self):
        """FORMATS, "A journal": a matrix that is asked for has to be the journal's own, which is told before damage behind the header."""
        for day in self.days:
            other, whole = "12".replace(day.matrix, ""), journal_maker.journal(day)
            for text in (whole, whole[:-1] + bytes([whole[-1] ^ 1])):
                for word in (*WORDS, "verify"):
                    self.assert_said(text, word, 2, f"the journal goes by matrix {day.matrix}", "--matrix", other)

    def test_no_header(self):
        """FORMATS, "A journal": a journal without a whole header of this version has no day, and nothing is verified."""
        begins = plain_journal.read(self.whole).groups[0].begins
        cases = [
            (self.whole[:8], "the journal ends within its header"),
            (self.whole[: begins - 1], "the journal ends within its header"),
            (self.whole[:8] + b"\2" + self.whole[9:], "the journal is of another version"),
            (self.whole[:30] + bytes([self.whole[30] ^ 1]) + self.whole[31:], "the journal's header is damaged"),
        ]
        for text, what in cases:
            for word in (*WORDS, "verify"):
                with self.subTest(what, word=word):
                    self.assert_said(text, word, 2, what)

    def test_words_that_take_none(self):
        """FORMATS, "A journal": the other words of a table say that they take no journal."""
        for words in (["check"], ["encode"], ["decode"], ["line", "N"]):
            self.assert_fault(desk(*words, given=self.whole), NO_TABLE)

    def test_what_begins_as_a_journal_alone(self):
        """FORMATS, "A journal": what has fewer bytes than a journal begins with, or another one among them, is a table."""
        for text in (b"", b"t", b"tapejrn", b"tapejrnm,participant\n", b" tapejrnl"):
            for word in (*WORDS, "verify"):
                over = desk(word, given=text)
                self.assertEqual((over.status, over.written), (2, b""))
                self.assertNotIn(b"journal", over.said)

    def test_input_that_comes_byte_by_byte(self):
        """FORMATS, "A journal": a journal and a table are told from each other however their first bytes come."""
        table = (SAMPLES / "corrections.csv").read_bytes()
        for text in (self.whole, table):
            with self.subTest(text[:8]):
                reader, writer = os.pipe()
                if not os.fork():
                    os.close(reader)
                    for at in range(12):
                        os.write(writer, text[at : at + 1])
                    os.write(writer, text[12:])
                    os._exit(0)
                os.close(writer)
                with os.fdopen(reader, "rb") as given:
                    over = desk("report", given=given)
                os.wait()
                self.assertEqual(over, desk("report", given=text))

    @unittest.skipUnless(Path("/dev/full").is_char_device(), "no /dev/full")
    def test_a_full_disk(self):
        """OPERATING, "Statuses", 4: an output that is full."""
        for word in (*WORDS, "verify"):
            with open("/dev/full", "wb") as full:
                self.assert_fault(desk(word, given=self.whole, stdout=full), WRITE_FAULT)

    def test_each_request(self):
        """OPERATING, "Statuses", 5: whichever request is refused, a front of a text at most is written, and nothing of a report and of what is found; or it
        was not missed."""
        for word in (*WORDS, "verify"):
            whole, refused = desk(word, given=self.whole), 0
            for request in range(1, MOST):
                was_met, over = run_refused([word], request, given=self.whole)
                if not was_met:
                    break
                if over != whole:
                    refused += 1
                    with self.subTest(word, request=request):
                        self.assertEqual((over.status, over.said), OUT_OF_MEMORY)
                        self.assertTrue((b"" if word in ("report", "verify") else whole.written).startswith(over.written))
            self.assertGreater(refused, 0)

    def test_no_memory(self):
        """OPERATING, "Statuses", 5: memory that runs out. Nothing of a report is written."""
        over = desk("report", given=self.whole + bytes(4 * MEMORY), preexec_fn=lambda: resource.setrlimit(resource.RLIMIT_DATA, (MEMORY, MEMORY)))
        self.assert_fault(over, OUT_OF_MEMORY)
