"""Calls and memory that fail the words of a table, and tables that are long."""

import contextlib
import os
import pty
import re
import subprocess
import tempfile
import time
import unittest
from collections import Counter
from pathlib import Path

import plain_explain
from plain_table import COLUMNS, dollars
from preloaded import CALL_FAILED, failing
from refused import run_refused
from support import LIMIT, OUT_OF_MEMORY, READ_FAULT, SAMPLES, TAPE_COLUMNS, WRITE_FAULT, Case, desk, report_row, report_text, started, table_of, tape_row

WORDS = ("report", "tape", "explain")
# Seconds until the longest table must have been read, on a busy machine.
SOON = 300


class Rising(Case):
    """Tables of one symbol whose prices rise, so that each figure is known."""

    @staticmethod
    def row(at):
        """The canonical row of the report of this number, by its columns."""
        price = dollars(10_000 + at)
        return {"kind": "report", "participant": "N", "number": at, "moment": 0, "symbol": "AB", "target": "", "price": price, "size": 100, "condition": "@___"}

    def table(self, count):
        """So many rows."""
        return table_of([COLUMNS, *([row[name] for name in COLUMNS] for row in map(self.row, range(1, count + 1)))])

    def tape(self, count):
        """The tape of these rows."""
        rows = []
        for row in map(self.row, range(1, count + 1)):
            at, marks = row["number"], {"open": "1.0001", "high": row["price"], "low": "1.0001", "last": row["price"]}
            rows.append(tape_row(tape=at, volume=100 * at, trades=at, **row, **marks))
        return f"{','.join(TAPE_COLUMNS)}\n{''.join(rows)}".encode()

    def explained(self, count):
        """What became of the reports of these rows."""
        sets = {1: "open low"} | {count: "high last"} if count > 1 else {1: "open high low last"}
        rows = []
        for row in map(self.row, range(1, count + 1)):
            at = row["number"]
            row |= {"tape": at, "row": at + 1, "state": "standing", "changed": "", "sets": sets.get(at, ""), "own_sets": sets.get(at, "")}
            rows.append([row.get(column, "yes") for column in plain_explain.COLUMNS])
        return table_of([plain_explain.COLUMNS, *rows])

    @staticmethod
    def report(count):
        """The report of these rows."""
        first, last = (10_001, 1), (10_000 + count, count)
        return report_text(report_row("AB", who, [first, last, first, last], 100 * count, count) for who in ("ALL", "N"))


class Long(Rising):
    """Tables that a batch could not take."""

    def test_more_than_a_batch_takes(self):
        """SCALE, "One tape": a table of more than 16 MB of text, and of more rows than a batch's tape takes."""
        count = 1_100_000
        table = self.table(count)
        self.assertGreater(len(table), 16_777_216)
        self.assert_writes(desk("report", given=table, limit=SOON), self.report(count))
        self.assert_writes(desk("tape", given=table, limit=SOON), self.tape(count))
        self.assert_writes(desk("explain", given=table, limit=SOON), self.explained(count))


class FailingCalls(Rising):
    """Reads and writes that fail, each in its turn."""

    ROWS = 2_000
    # More calls of a kind than such a run makes.
    MOST = 200
    EIO, EINTR, ENOSPC = 5, 4, 28

    def ends(self, word, call, error, table):
        """How a run ended whose call of this number fails, and so on, as long as one fails."""
        for number in range(1, self.MOST):
            ended = desk(word, given=table, env=failing((call, number, number, error)))
            if CALL_FAILED not in ended.said:
                self.assertGreater(number, 1)
                return
            yield ended.status, ended.written, ended.said.replace(CALL_FAILED, b"")
        self.fail(f"{self.MOST} calls and more")

    def test_reads(self):
        """OPERATING, "Statuses", 3: whichever read fails, nothing is written."""
        table = self.table(self.ROWS)
        for word in WORDS:
            for ended in self.ends(word, "read", self.EIO, table):
                self.assertEqual(ended, (READ_FAULT[0], b"", READ_FAULT[1]))

    def test_writes(self):
        """OPERATING, "Statuses", 4: whichever write fails, a front of the text was written."""
        table = self.table(self.ROWS)
        for word, whole in [("report", self.report(self.ROWS)), ("tape", self.tape(self.ROWS)), ("explain", self.explained(self.ROWS))]:
            fronts = set()
            for status, written, said in self.ends(word, "write", self.ENOSPC, table):
                self.assertEqual((status, said), WRITE_FAULT)
                self.assertTrue(whole.startswith(written) and len(written) < len(whole))
                fronts.add(written)
            self.assertIn(b"", fronts)
            self.assertTrue(word == "report" or len(fronts) > 1)

    def test_writes_that_are_interrupted(self):
        """OPERATING, "Statuses", 0: a write that a signal interrupts is made again."""
        for ended in self.ends("tape", "write", self.EINTR, self.table(self.ROWS)):
            self.assertEqual(ended, (0, self.tape(self.ROWS), b""))

    @unittest.skipUnless(Path("/dev/full").is_char_device(), "no /dev/full")
    def test_a_full_disk_and_a_folder(self):
        """OPERATING, "Statuses", 3 and 4: an output that is full, and an input that is a folder."""
        for word in WORDS:
            with open("/dev/full", "wb") as full:
                self.assert_fault(desk(word, given=self.table(1), stdout=full), WRITE_FAULT)
            folder = os.open(SAMPLES, os.O_RDONLY)
            try:
                self.assert_fault(desk(word, given=folder), READ_FAULT)
            finally:
                os.close(folder)


class GoneReaders(Rising):
    """A pipe that nobody reads to its end."""

    # Rows of far more text than a pipe holds.
    ROWS = 20_000

    def texts(self):
        """Each word for a table, as it is asked for, on what it is given."""
        table = self.table(self.ROWS)
        for word in (*WORDS, "check", "encode", "verify"):
            yield [word], table
        yield ["decode"], desk("encode", given=table).written
        yield ["line", "N"], table
        yield ["verify"], desk("tape", given=table).written

    def assert_ends_quietly(self, words, given, first):
        """Asserts the status of a word whose reader is gone after so many lines, and that nothing is said."""
        reader, writer = os.pipe()
        with tempfile.TemporaryFile() as table, open(reader, "rb", buffering=0) as lines:
            table.write(given)
            table.seek(0)
            if first == 0:
                lines.close()
            with started(words, stdin=table, stdout=writer) as running:
                os.close(writer)
                for _ in range(first):
                    self.assertTrue(lines.readline().endswith(b"\n"))
                lines.close()
                self.assertEqual((running.communicate(timeout=SOON)[1], running.returncode), (b"", WRITE_FAULT[0]))

    def test_each_word(self):
        """OPERATING, "Statuses", 4: a word for a table whose output nobody reads any more ends at its next write, with status 4, and says nothing."""
        for words, given in self.texts():
            with self.subTest(words):
                self.assert_ends_quietly(words, given, 0)

    def test_after_a_line(self):
        """The same once the first line was read, as by `head -1`."""
        for word in ("tape", "explain", "encode"):
            with self.subTest(word):
                self.assert_ends_quietly([word], self.table(self.ROWS), 1)


class RefusedMemory(Case):
    """Each request for memory refused in turn."""

    # More rows than are written at once, and a refused one.
    ROWS = 600
    MOST = 10_000

    def test_each_request(self):
        """OPERATING, "Statuses", 5: whichever request is refused, no report is written and a front of another text at most; or it was not missed, but for
        the lines of refused rows."""
        rows = [["N", max(at, 2), f"S{at % 3}", "10.00", 100, "@___"] for at in range(2, self.ROWS)]
        table = table_of([["participant", "number", "symbol", "price", "size", "condition"], rows[0], *rows])
        for word in WORDS:
            whole, ends = desk(word, given=table), Counter()
            self.assertIn(b"1 of %d rows refused: 35 Stale" % len(table.splitlines()[1:]), whole.said)
            for request in range(1, self.MOST):
                was_met, ended = run_refused([word], request, given=table)
                with self.subTest(word, request=request):
                    ends[self.kind_of(word, ended, whole)] += was_met
                if not was_met:
                    break
            self.assertGreater(ends["nothing"], 0, ends)
            self.assertTrue(word == "report" or ends["a front"], ends)
            self.assertGreater(ends["no lines"], 0, ends)

    def refused_requests(self, word, given):
        """How often a word wrote nothing and told want of memory, when each request that is met is refused in turn; else the request was not missed."""
        whole, refused = desk(word, given=given), 0
        for request in range(1, self.MOST):
            was_met, ended = run_refused([word], request, given=given)
            if not was_met:
                break
            if ended != whole:
                refused += 1
                with self.subTest(word, request=request):
                    self.assert_fault(ended, OUT_OF_MEMORY)
        return refused

    def test_each_request_of_what_is_found(self):
        """OPERATING, "Statuses", 5: whichever request of `check` or `verify` is refused, nothing is written; or it was not missed."""
        rows = [["N", at, f"S{at % 3}", "10.00", 100, "@___"] for at in range(1, self.ROWS)]
        head = ["participant", "number", "symbol", "price", "size", "condition"]
        tape = desk("tape", given=table_of([head, *rows])).written
        # No fault, and more faults than are told one by one; a tape as it is recorded, one that differs from its first figures on, and one that is cut.
        for word, given in (
            ("check", table_of([head, *rows])),
            ("check", table_of([head, *([who, 0, *rest] for who, _, *rest in rows)])),
            ("verify", tape),
            ("verify", tape.replace(b",100,1\n", b",100,2\n")),
            ("verify", tape[:-1]),
        ):
            self.assertGreater(self.refused_requests(word, given), 0)

    def kind_of(self, word, ended, whole):
        """How a run ended one of whose requests was refused, beside the whole run."""
        if ended.status == 0:
            self.assertEqual(ended.written, whole.written)
            self.assertIn(ended.said, (b"", whole.said))
            return "whole" if ended.said else "no lines"
        self.assertEqual((ended.status, ended.said), OUT_OF_MEMORY)
        if not ended.written:
            return "nothing"
        self.assertNotEqual(word, "report")
        self.assertTrue(whole.written.startswith(ended.written))
        return "a front"


class Progress(Rising):
    """What a terminal shows of a long table."""

    TOLD = 1_000_000

    def shown(self, word, count, is_named=False):
        """What a terminal shows at standard error of a table that is named or is standard input, and for how many seconds it ran."""
        terminal, errors = pty.openpty()
        with tempfile.NamedTemporaryFile() as table:
            table.write(self.table(count))
            table.seek(0)
            began = time.monotonic()
            words, given = ([word, table.name], subprocess.DEVNULL) if is_named else ([word], table)
            with started(words, stdin=given, stdout=subprocess.DEVNULL, stderr=errors) as running:
                os.close(errors)
                text = b""
                # A terminal that nothing holds open any more fails to be read.
                with contextlib.suppress(OSError):
                    while piece := os.read(terminal, 65_536):
                        text += piece
                os.close(terminal)
                self.assertEqual(running.wait(LIMIT), 0)
        return text, time.monotonic() - began

    def test_a_terminal(self):
        """FORMATS, "A table": from a million rows on a line on a terminal tells how far the program is, rewritten twice a second at most, and is
        taken off at the end."""
        for word in WORDS:
            with self.subTest(word):
                text, seconds = self.shown(word, self.TOLD + 300_000)
                told = [int(rows) for rows in re.findall(rb"\rtapebox: (\d+) lines", text)]
                self.assertGreaterEqual(len(told), 1)
                self.assertLessEqual(len(told), 2 * seconds + 2)
                self.assertGreaterEqual(min(told), self.TOLD)
                self.assertRegex(text, rb"\r +\r\Z")
                self.assertNotIn(b"\n", text)

    def test_a_named_table(self):
        """FORMATS, "A table": of a named table the line also tells the percentage that was read, which rises, and the time that is left."""
        text, _ = self.shown("report", self.TOLD + 300_000, is_named=True)
        told = [(int(lines), int(part)) for lines, part in re.findall(rb"\rtapebox: (\d+) lines read, (\d+) %, \d+ s left", text)]
        self.assertGreaterEqual(len(told), 1)
        self.assertEqual(told, sorted(told))
        for lines, part in told:
            self.assertLessEqual(abs(part - 100 * lines / (self.TOLD + 300_000)), 5)
        self.assertNotIn(b"%", self.shown("report", self.TOLD + 300_000)[0])

    def test_a_shorter_table(self):
        """FORMATS, "A table": below a million rows a terminal is told nothing."""
        self.assertEqual(self.shown("report", self.TOLD - 2)[0], b"")
