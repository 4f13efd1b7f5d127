"""Tables to and from the text of a batch, and a participant's line, by the built `tapebox`."""

import re

import plain_table
from support import HEADINGS, SAMPLES, STORED_DAYS, Case, desk
from cases.test_tables import SeededDay

HEADER_LINES = 2


class Texts(Case):
    # A header, and its fault.
    HEADERS = [
        (b"", "1: 1 Empty"),
        (b"AB AB\nN\n", "1: 3 Repeated"),
        (b"ab\nN\n", "1: 9 BadHeader"),
        (b"AB\nN N\n", "2: 3 Repeated"),
        (b"AB\nNN\n", "2: 9 BadHeader"),
    ]

    def tables(self):
        """Tables by their names: those of the samples, and a seeded one."""
        yield from ((path.name, path.read_bytes()) for path in sorted(SAMPLES.glob("*.csv")))
        yield "seeded", SeededDay(3).table()

    def test_encode(self):
        """FORMATS, "A table": the text of a table has the names in the order of their appearance, and each message's letter and bytes."""
        for name, table in self.tables():
            with self.subTest(name):
                self.assert_writes(desk("encode", given=table), plain_table.batch(plain_table.read(table)))

    def test_decode(self):
        """FORMATS, "A table": the canonical table of a text has each of its messages, with the moments."""
        for name, table in self.tables():
            with self.subTest(name):
                messages = plain_table.read(table)
                self.assert_writes(desk("decode", given=plain_table.batch(messages)), plain_table.table(messages))

    def test_stored_day(self):
        """FORMATS, "A table": the table of a stored day has the report that is stored."""
        day = STORED_DAYS[-1]
        table = desk("decode", given=day.read_bytes())
        self.assertEqual((table.status, table.said), (0, b""))
        stored = day.with_suffix(".out").read_text(encoding="utf-8")
        report = desk("report", given=table.written).written.decode()
        # The listing of the stored day is in another order.
        self.assertEqual(sorted(report.splitlines()), sorted(stored[stored.index(HEADINGS) :].splitlines()))

    def test_line(self):
        """OPERATING: a participant's line has the bytes of its messages alone, and of one that has none nothing."""
        for name, table in self.tables():
            messages = plain_table.read(table)
            for who in "NPQZA":
                with self.subTest(name, who=who):
                    self.assert_writes(desk("line", who, given=table), b"".join(text for text in messages if chr(text[3]) == who))

    def test_bad_tables(self):
        """OPERATING, "Statuses", 2: a bad table has no text and no line, and its fault is told."""
        table = (SAMPLES / "corrections.csv").read_bytes() + b"report,N,4,AB,,10.00,0,@___\n"
        for words in (["encode"], ["line", "Q"]):
            self.assert_fault(desk(*words, given=table), (2, b'tapebox: row 8: size "0" is not 1 to 99999999 in at most 20 digits\n'))

    def test_bad_lines(self):
        """OPERATING, "Statuses", 2: a line that spells no message is told by its number and its refusal, and no table is written."""
        header, lines = (SAMPLES / "first-day.txt").read_bytes().split(b"\n", HEADER_LINES)[:HEADER_LINES], self.lines_of_first_day()
        good, told = [], set()
        for line, answer in lines:
            if not re.match(r"refused (1[1-9]|2[0-3]|33) ", answer):
                good.append(line)
                continue
            text = b"\n".join([*header, *good, line, *good]) + b"\n"
            fault = answer.removeprefix("refused ")
            with self.subTest(fault):
                self.assert_fault(desk("decode", given=text), (2, f"tapebox: line {HEADER_LINES + len(good) + 1}: {fault}\n".encode()))
            told.add(fault.split()[1])
        self.assertGreater(len(told), 10)

    @staticmethod
    def lines_of_first_day():
        """Each line of the stored day, and its answer by the batch."""
        lines = (SAMPLES / "first-day.txt").read_bytes().splitlines()[HEADER_LINES:]
        return list(zip(lines, (SAMPLES / "first-day.out").read_text(encoding="utf-8").splitlines()))

    def test_bad_headers(self):
        """OPERATING, "Statuses", 2: so is a line of names."""
        for text, fault in self.HEADERS:
            with self.subTest(fault):
                self.assert_fault(desk("decode", given=text), (2, f"tapebox: line {fault}\n".encode()))
