"""Recorded tapes through the built `tapebox verify`, beside what `tapebox tape` writes of the messages in them."""

import csv
import os
import unittest
from pathlib import Path

import plain_table
from support import READ_FAULT, SAMPLES, TAPE_COLUMNS, WRITE_FAULT, Case, Ended, desk, table_of
from cases.test_tables import SeededDay

ALL = b"all as recorded"
OTHER_FIELDS = "has other fields than a readable tape's"


def counted(count, one, more):
    """So many of what has these two names."""
    return f"{count} {one if count == 1 else more}, "


def counts(tape):
    """How many entries and refusals the rows of a tape are, as they are told."""
    refused = [bool(row["refused"]) for row in csv.DictReader(tape.decode().splitlines())]
    entries = len(refused) - sum(refused)
    return (counted(entries, "entry", "entries") + counted(sum(refused), "refusal", "refusals")).encode()


def first_difference(lines, tape):
    """What is told of the first line and column in which lines differ from a tape."""
    for number, (stands, wanted) in enumerate(zip(lines.decode("latin-1").split("\n"), tape.decode().split("\n")), 1):
        if stands == wanted:
            continue
        for name, field, other in zip(TAPE_COLUMNS, stands.split(","), wanted.split(",")):
            if field != other:
                return f'line {number}: {name} is "{plain_table.shown(field)}" and should be "{plain_table.shown(other)}"\n'
        return f"line {number} {OTHER_FIELDS}\n"
    number = min(len(lines.splitlines()), len(tape.splitlines())) + 1
    return f"line {number} {OTHER_FIELDS}\n"


class Verify(Case):
    SAMPLE = (SAMPLES / "corrections.csv").read_bytes()

    @staticmethod
    def told(text, matrix="1"):
        """How `verify` should end on a text, by what `tape` writes of the lines that have an end."""
        end = text.rfind(b"\n") + 1
        lines, cut = text[:end], text[end:]
        tape = desk("tape", matrix=matrix, given=lines)
        if tape.status:
            return tape
        if tape.written != lines:
            return Ended(1, first_difference(lines, tape.written).encode(), b"")
        if cut:
            return Ended(1, counts(lines) + ALL + b" before line %d, which is cut off\n" % (lines.count(b"\n") + 1), b"")
        return Ended(0, counts(lines) + ALL + b"\n", b"")

    def assert_told(self, text, matrix="1"):
        """`verify` ends as it should on a text. Returns its status."""
        ended = desk("verify", matrix=matrix, given=text)
        self.assertEqual(ended, self.told(text, matrix))
        return ended.status

    def test_samples_and_a_seeded_day(self):
        """FORMATS, "A readable tape": what `tape` writes is as recorded, by its matrix, and tells how many entries and refusals it has."""
        for table in [*(path.read_bytes() for path in sorted(SAMPLES.glob("*.csv"))), SeededDay(5).table()]:
            for matrix in "12":
                tape = desk("tape", matrix=matrix, given=table).written
                self.assertEqual(desk("verify", matrix=matrix, given=tape), Ended(0, counts(tape) + ALL + b"\n", b""))
        self.assertEqual(desk("verify", given=desk("tape", given=self.SAMPLE).written).written, b"5 entries, 1 refusal, all as recorded\n")

    def test_the_other_matrix(self):
        """FORMATS, "A readable tape": by another matrix than it was written by, a tape differs where the matrices do."""
        tape = desk("tape", matrix=2, given=(SAMPLES / "matrix-two.csv").read_bytes()).written
        self.assertEqual([self.assert_told(tape, matrix) for matrix in "21"], [0, 1])

    def test_each_digit(self):
        """FORMATS, "A readable tape": another digit in a column of the tape's own is found; in a column of the message it is if a number, a refusal or a figure
        of its tape is another."""
        tape = desk("tape", given=self.SAMPLE).written
        head = tape.index(b"\n")
        found = 0
        for at in range(head, len(tape)):
            if not chr(tape[at]).isdigit():
                continue
            text = bytearray(tape)
            text[at] = ord("0") + (tape[at] - ord("0") + 1) % 10
            status = self.assert_told(bytes(text))
            column = TAPE_COLUMNS[tape[tape.rindex(b"\n", 0, at) : at].count(b",")]
            if column in plain_table.ANSWER + plain_table.FIGURES:
                self.assertEqual(status, 1)
            found += status > 0
        self.assertGreater(found, 100)

    def test_each_cut(self):
        """FORMATS, "A readable tape": a tape that is cut at a row's end is as recorded, and one that is cut in a line names it."""
        tape = desk("tape", given=self.SAMPLE).written
        statuses = [self.assert_told(tape[:end]) for end in range(len(tape) + 1)]
        ends = [at + 1 for at, byte in enumerate(tape) if byte == ord("\n")]
        self.assertEqual([end for end, status in enumerate(statuses) if status == 0], ends[1:])
        self.assertEqual({status for status in statuses[ends[1] :]}, {0, 1})

    def test_rows_that_are_no_tapes(self):
        """FORMATS, "A readable tape": entries that are left out, doubled or turned, blank lines, other line ends, quotes, other columns, and a plain table."""
        tape = b"".join(row for row in desk("tape", given=self.SAMPLE).written.splitlines(keepends=True) if b"Stale" not in row)
        self.assertEqual(self.assert_told(tape), 0)
        head, *rows = tape.splitlines(keepends=True)
        fields = list(csv.reader(tape.decode().splitlines()))
        texts = [head + b"".join(rows[:at] + rows[at + 1 :]) for at in range(len(rows) - 1)]
        texts += [head + b"".join(rows[: at + 1] + rows[at:]) for at in range(len(rows))]
        texts += [head + b"".join([*rows[:at], b"\n", *rows[at:]]) for at in range(len(rows) + 1)]
        texts += [head + b"".join(rows[::-1]), tape + b"\n\n", b"\n" + tape, plain_table.MARK + tape, tape.replace(b"\n", b"\r\n")]
        texts += [tape.replace(b"AB", b'"AB"'), table_of([[*row, ""] for row in fields[1:]]), table_of([[*fields[0], "#"], *([*row, ""] for row in fields[1:])])]
        texts += [table_of([row[1:] for row in fields]), table_of([row[::-1] for row in fields]), self.SAMPLE]
        for text in texts:
            with self.subTest(text):
                self.assertIn(self.assert_told(text), (1, 2))

    def test_a_refusal_that_no_table_has(self):
        """FORMATS, "A readable tape": a row that is recorded as refused for a name is a difference, since a table's own tape lists each name."""
        tape = desk("tape", given=self.SAMPLE).written.replace(b",35 Stale,", b",36 UnknownSymbol,")
        self.assertEqual(desk("verify", given=tape), Ended(1, b'line 6: refused is "36 UnknownSymbol" and should be "35 Stale"\n', b""))

    @unittest.skipUnless(Path("/dev/full").is_char_device(), "no /dev/full")
    def test_a_full_disk_and_a_folder(self):
        """OPERATING, "Statuses", 3 and 4: an output that is full, and a tape that is a folder."""
        with open("/dev/full", "wb") as full:
            self.assert_fault(desk("verify", given=desk("tape", given=self.SAMPLE).written, stdout=full), WRITE_FAULT)
        folder = os.open(SAMPLES, os.O_RDONLY)
        try:
            self.assert_fault(desk("verify", given=folder), READ_FAULT)
        finally:
            os.close(folder)

    def test_bad_tapes(self):
        """OPERATING, "Statuses", 2: a recorded tape that is no table is told as any other, on standard error."""
        tape = desk("tape", given=self.SAMPLE).written
        self.assert_fault(desk("verify", given=tape.replace(b",cancel,", b",canceled,")), desk_fault(tape.replace(b",cancel,", b",canceled,")))


def desk_fault(table):
    """The fault of a table, as the plain reader finds it."""
    try:
        plain_table.read(table)
    except plain_table.TableFault as fault:
        return 2, f"tapebox: {fault}\n".encode()
    raise AssertionError("no fault")
