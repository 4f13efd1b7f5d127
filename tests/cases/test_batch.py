"""Batches, as the built program runs them."""

import itertools
import os
import string
import unittest
from pathlib import Path

import stored_outputs
from support import READ_FAULT, SAMPLES, STORED_DAYS, WRITE_FAULT, Case, batch_line, batch_of, report, report_row, report_text, run, transcripts

SYMBOLS = ["AB", *(f"S{at}" for at in range(1, 4_096))]
PARTICIPANTS = string.ascii_uppercase


class Samples(Case):
    def test_stored_outputs(self):
        """tests/stored_outputs.py: what is stored is what the plain programs make of its input."""
        for path, text in stored_outputs.outputs():
            with self.subTest(path.name):
                self.assertEqual(path.read_bytes(), text)

    def test_stored_days(self):
        """FORMATS, "A batch": the stored days have the stored answers and reports."""
        for day in STORED_DAYS:
            with self.subTest(day.name):
                self.assert_writes(run(["batch"], day.read_bytes()), day.with_suffix(".out").read_bytes())

    def test_corrected_day(self):
        """README, "Five minutes: a table": the table's day has the answers and rows that README shows."""
        shown = dict(transcripts("../README.md"))["./run report samples/corrections.csv"]
        self.assert_writes(run(["batch"], batch_of(SAMPLES / "corrections.csv")), f"1\n2\n3\n4\nrefused 35 Stale\n5\n{shown}".encode())


WHOLE = "0026524e000000010000000000000000414220202020202000000000000186a00000006440205a20"
# A batch whose header is refused, and the refusal.
ODD_HEADERS = [
    *((text, "1 Empty") for text in ["", "\nN\n", "AB\n\n", "AB"]),
    *((text, "9 BadHeader") for text in ["ab", "AB \nN\n", " AB\nN\n", "AB  CD\nN\n", " \nN\n", "A\tB\nN\n", "AB\r\nN\n", "ABCDEFGHI\nN\n"]),
    *((text, "9 BadHeader") for text in ["ab\nN\n", "AB\nNQ\n", "AB\nn\n"]),
    (f"AB\n{' '.join(PARTICIPANTS)} A\n", "2 TooMany"),
]
# A line of a batch of AB and N that is refused, and the refusal.
ODD_LINES = [
    *((line, "22 BadLine") for line in ["", "N", "n 00", "N 0", "N  00", "N 00\r", "N \xff\xff", "\xce 00", f"N {WHOLE}{'0' * 63}g"]),
    ("N ", "12 Short"),
    ("N 0041", "11 Oversize"),
    (f"N {WHOLE}{'0' * 64}", "23 ExtraBytes"),
    *((f"{letter} {WHOLE.replace('4e', '51', 1)}", "33 WrongLine") for letter in "NP"),
    (f"P {WHOLE}", "33 WrongLine"),
    (f"Q {WHOLE.replace('4e', '51', 1)}", "34 UnknownParticipant"),
    (f"N {WHOLE.replace('4142', '4344', 1).upper()}", "36 UnknownSymbol"),
]


class Headers(Case):
    def test_odd_headers(self):
        """FORMATS, "Odd inputs": a header of another form is answered by its first fault alone."""
        for text, refusal in ODD_HEADERS:
            with self.subTest(text):
                ended = run(["batch"], text.encode())
                self.assertEqual((ended.status, ended.written, ended.said), (2, f"refused {refusal}\n".encode(), b""))

    def test_odd_lines(self):
        """FORMATS, "Odd inputs": a line of another form is answered by its first fault, and a line feed at the end may be left out."""
        rows = report_text([report_row("AB", "ALL", [None] * 4, 0, 0)])
        for line, refusal in ODD_LINES:
            for end in ["\n", ""] if line else ["\n"]:
                with self.subTest(line, end=end):
                    self.assert_writes(run(["batch"], f"AB\nN\n{line}{end}".encode("latin-1")), f"refused {refusal}\n".encode() + rows)
        for end in (b"\n", b""):
            self.assert_writes(run(["batch"], b"AB\nN" + end), rows)

    def test_repeated_name(self):
        """FORMATS, "A batch": a refused header is the only line, and the status is 2."""
        ended = run(["batch"], b"AB AB\nN\n")
        self.assertEqual((ended.status, ended.written, ended.said), (2, b"refused 3 Repeated\n", b""))

    def test_too_many_names(self):
        """FORMATS, "A batch": too many symbols are refused as such, however many they are."""
        ended = run(["batch"], " ".join(["AB"] * 30_000).encode() + b"\nN\n")
        self.assertEqual((ended.status, ended.written, ended.said), (2, b"refused 2 TooMany\n", b""))


class Lengths(Case):
    BYTES_MOST = 16_777_216

    def test_the_greatest_input(self):
        """FORMATS, "A batch": an input of the greatest length is answered, and one byte more is too large."""
        day = b"AB\nN\n".ljust(self.BYTES_MOST, b"A")
        self.assert_writes(run(["batch"], day), b"refused 22 BadLine\n" + report_text([report_row("AB", "ALL", [None] * 4, 0, 0)]))
        self.assert_fault(run(["batch"], day + b"A"), (2, b"tapebox: input too large\n"))


class Faults(Case):
    @unittest.skipUnless(Path("/dev/full").is_char_device(), "no /dev/full")
    def test_full_output(self):
        """OPERATING, "Statuses": an output that is full is a write fault."""
        with open("/dev/full", "wb") as full:
            ended = run(["batch"], (SAMPLES / "first-day.txt").read_bytes(), stdout=full)
        self.assert_fault(ended, WRITE_FAULT)

    def test_input_that_is_no_file(self):
        """OPERATING, "Statuses": an input that cannot be read is a read fault."""
        folder = os.open(SAMPLES, os.O_RDONLY)
        try:
            self.assert_fault(run(["batch"], folder), READ_FAULT)
        finally:
            os.close(folder)


class WideDay(Case):
    """A report of each of 26 participants in each of 4,096 symbols: the report of the day has 110,592 rows, and places go beyond 65,536. In
    each symbol the participants' prices differ, so the least and the greatest are all that the expected rows need."""

    @staticmethod
    def price(who, at):
        """The price, in ten-thousandths of a dollar, at which a participant reports in the symbol at this index."""
        return 100_000 + 7 * at + (11 * who + at) % 26

    def line(self, who, at):
        """The batch's line of the participant's report in the symbol, its next message."""
        price = f"{self.price(who, at) / 10_000:.4f}"
        return batch_line(report(PARTICIPANTS[who], at + 1, SYMBOLS[at], price))

    @staticmethod
    def row(at, who, trades):
        """The row of so many trades, each its price and its place, in the order of places."""
        marks = (trades[0], max(trades), min(trades), trades[-1])
        return report_row(SYMBOLS[at], who, marks, 100 * len(trades), len(trades))

    def rows(self):
        """The rows of the day."""
        for at in range(len(SYMBOLS)):
            trades = [(self.price(who, at), who * len(SYMBOLS) + at + 1) for who in range(len(PARTICIPANTS))]
            yield self.row(at, "ALL", trades)
            yield from (self.row(at, PARTICIPANTS[who], [trade]) for who, trade in enumerate(trades))

    def test_greatest_listing_and_a_long_line(self):
        """FORMATS, "A batch": a line with 140,000 digits too many is ExtraBytes, and a report of the greatest listing is whole."""
        lines = [self.line(who, at) for who, at in itertools.product(range(len(PARTICIPANTS)), range(len(SYMBOLS)))]
        header = f"{' '.join(SYMBOLS)}\n{' '.join(PARTICIPANTS)}\n".encode()
        day = header + lines[0].rstrip() + 140_000 * b"0" + b"\n" + b"".join(lines)
        wanted = "".join(f"{answer}\n" for answer in ["refused 23 ExtraBytes", *range(1, len(lines) + 1)])
        self.assert_writes(run(["batch"], day), wanted.encode() + report_text(self.rows()))
