"""Tables through the built `tapebox`, beside a plain reader of them and the batch."""

import csv
import gzip
import random
import re
from collections import Counter

import plain_explain
import plain_table
from plain_table import ANSWER, COLUMNS, CONDITIONS, CONDITIONS_TWO, FIGURES, FIRST_ROW, TableFault
from support import HEADINGS, MARKS, SAMPLES, STORED_DAYS, TAPE_COLUMNS, Case, desk, run, table_of

WORDS = ("report", "tape", "explain")


def report_in(written):
    """The report in what a batch wrote."""
    return written[written.index(HEADINGS.encode()) :]

# What helps with a number below its participant's greatest one.
STALE_HINT = "put each participant's rows in the order of their numbers, and keep the day's order otherwise"


def answers_of(written):
    """A batch's answers, as a tape has them: the tape number and the refusal, of which one is empty."""
    answers = written[: written.index(HEADINGS.encode())].decode().splitlines()
    return [["", answer.removeprefix("refused ")] if answer.startswith("refused ") else [answer, ""] for answer in answers]


def stale_text(answers, messages, row):
    """What is said of the first stale row, of this number: its participant's number, and the greatest on the tape before unless that is repeated."""
    named = [(chr(text[3]), int.from_bytes(text[4:8], "big")) for text in messages]
    who, number = named[row - FIRST_ROW]
    greatest = max(other for (at, _), (letter, other) in zip(answers[: row - FIRST_ROW], named) if at and letter == who)
    return f": {who}'s number {number} " + ("again" if number == greatest else f"after {greatest}; {STALE_HINT}")


def refusal_lines(answers, messages):
    """What is said of refused rows: a line for each reason, by its number."""
    firsts, counts = {}, Counter()
    for row, (_, refusal) in enumerate(answers, FIRST_ROW):
        if refusal:
            counts[refusal] += 1
            firsts.setdefault(refusal, row)
    details = {why: stale_text(answers, messages, row) if why == "35 Stale" else "" for why, row in firsts.items()}
    rows = f"{len(answers)} row{'s' * (len(answers) > 1)}"
    lines = [f"tapebox: {counts[why]} of {rows} refused: {why}, first at row {firsts[why]}{details[why]}\n" for why in counts]
    return "".join(sorted(lines, key=lambda line: int(re.search(r"refused: (\d+)", line)[1]))).encode()


def columns_of(row, *names):
    """The fields of a readable tape's row in these columns."""
    return [row[TAPE_COLUMNS.index(name)] for name in names]


class Days(Case):
    def assert_table(self, table, matrix="1"):
        """A table has the report and the answers that the batch gives its messages, as the plain reader reads them, and its reports became what they
        are by its tape. Returns the rows of its tape."""
        messages = plain_table.read(table)
        batch = run(["batch", matrix], plain_table.batch(messages)).written
        answers, said = answers_of(batch), refusal_lines(answers_of(batch), messages)
        ended = desk("report", matrix=matrix, given=table)
        self.assertEqual((ended.status, ended.said), (0, said))
        self.assertEqual(ended.written, report_in(batch))
        ended = desk("tape", matrix=matrix, given=table)
        self.assertEqual((ended.status, ended.said), (0, said))
        head, *rows = csv.reader(ended.written.decode().splitlines())
        self.assertEqual(head, TAPE_COLUMNS)
        wanted = [answer + [str(field) for field in plain_table.row_of(text)] for answer, text in zip(answers, messages)]
        self.assertEqual([columns_of(row, *ANSWER, *COLUMNS) for row in rows], wanted)
        self.assert_last_figures(rows, ended_report=report_in(batch))
        explained = desk("explain", matrix=matrix, given=table)
        self.assertEqual((explained.status, explained.said), (0, said))
        self.assertEqual(list(csv.reader(explained.written.decode().splitlines())), list(plain_explain.explained(ended.written, report_in(batch), matrix)))
        return rows

    def assert_last_figures(self, rows, ended_report):
        """The last row of each symbol has the figures of the report."""
        last = {symbol: columns_of(row, *FIGURES) for row in rows for symbol in columns_of(row, "symbol")}
        for row in csv.DictReader(ended_report.decode().splitlines()):
            if row["who"] == "ALL":
                prices = [plain_table.dollars(int(row[name])) if row[name] else "" for name in MARKS]
                self.assertEqual(last[row["symbol"]], [*prices, row["volume"], row["trades"]])

    def test_stored_days(self):
        """FORMATS, "A table": the stored days as tables."""
        for day in STORED_DAYS:
            with self.subTest(day.name):
                lines = day.read_text(encoding="utf-8").splitlines()[2:]
                texts = [bytes.fromhex(line[2:]) for line in lines if re.fullmatch("[A-Z] ([0-9a-fA-F]{2})+", line)]
                self.assert_table(plain_table.table([text for text in texts if plain_table.is_message(text)]))

    def test_tables_of_the_samples(self):
        """README, "Five minutes: a table": the tables of the samples, by either matrix."""
        for table in sorted(SAMPLES.glob("*.csv")):
            for matrix in "12":
                with self.subTest(table.name, matrix=matrix):
                    self.assert_table(table.read_bytes(), matrix)

    def test_every_kind_of_row_and_refusal(self):
        """RULES, "Refusals by number and name": a seeded table has every kind of row, and each refusal that a table's tape can give."""
        for matrix in "12":
            with self.subTest(matrix):
                rows = self.assert_table(SeededDay(int(matrix)).table(), matrix)
                self.assertEqual({kind for row in rows for kind in columns_of(row, "kind")}, set(plain_table.WORDS.values()))
                refused = {int(told.split()[0]) for row in rows for told in columns_of(row, "refused") if told}
                self.assertEqual(refused, {35, 37, 38, 39, 43} | ({44} if matrix == "1" else set()))


class SeededDay:
    """Rows of a few participants and symbols, many of which a tape refuses."""

    COUNT = 5_000
    HEAD = ["#", "kind", "target", "participant", "number", "moment", "symbol", "size", "#", "price", "condition"]
    PARTICIPANTS = "NQZ"
    SYMBOLS = ["A", "BRK.B", "ABCDEFG8"]

    def __init__(self, seed):
        self.random = random.Random(seed)
        self.numbers = dict.fromkeys(self.PARTICIPANTS, 0)
        self.sent = {who: [] for who in self.PARTICIPANTS}

    def table(self):
        """The table's text, whose columns have an order of their own and remarks among them."""
        return table_of([self.HEAD, *(self.row() for _ in range(self.COUNT))])

    def row(self):
        """The next row."""
        kind = self.random.choice([*plain_table.LETTERS, *["report"] * 4])
        who = self.random.choice(self.PARTICIPANTS)
        letter, number, symbol = plain_table.LETTERS[kind], self.next_number(who), self.random.choice(self.SYMBOLS)
        target = ""
        if letter == "R":
            self.sent[who].append((number, symbol))
        else:
            target, symbol = self.named(who, symbol)
        price, size, condition = self.content() if letter in "RC" else ("", "", "")
        moment = self.random.choice(["", 0, number, 2**64 - 1])
        remark = self.random.choice(["", "a, b", 'said "no"', "\u00e9", "two\nlines"])
        return [remark, kind, target, who, number, moment, symbol, size, remark, price, condition]

    def next_number(self, who):
        """The participant's next number, with gaps, and now and then one that is used."""
        if self.random.random() < 0.05:
            return max(self.numbers[who], 1)
        self.numbers[who] += self.random.choice([1, 1, 3])
        return self.numbers[who]

    def named(self, who, symbol):
        """A report of the participant and its symbol, or now and then none, or another symbol."""
        drawn = self.random.random()
        if drawn < 0.05 or not self.sent[who]:
            return 4_294_967_295, symbol
        target, own = self.random.choice(self.sent[who][-8:])
        return target, symbol if drawn < 0.1 else own

    def content(self):
        """A price, a size and a condition, in one of the ways to write them."""
        price = self.random.choice(["10", "10.5", "010.25", "9.9999", "99999999.9999", "0.0001", "10.00", "10.1000"])
        return price, self.random.choice([1, 100, "007", 99_999_999]), self.random.choice(CONDITIONS + CONDITIONS_TWO)


class Faults(Case):
    """Tables at fault, of which nothing is written."""

    GOOD = {
        "kind": "correct",
        "participant": "N",
        "number": "2",
        "moment": "3",
        "symbol": "AB",
        "target": "1",
        "price": "10.25",
        "size": "100",
        "condition": "@___",
    }
    TEXTS = """X C S R report cancel correct reinstate Report trade N n NN 1 0 00 01 -1 +1 1.0 4294967295 4294967296 18446744073709551615
        18446744073709551616 000000000000000000001 00000000000000000001 A. ab ABCDEFGH ABCDEFGHI 10.00001 10. .5 10..5 1e3 99999999.9999
        100000000 99999999 0.0000 0.0001 1,5 @___ @__I @__J ____ @___@ @ @_ZI 9___ ,, #""".split()
    BLANKS = ["", " ", " 1", "1 ", "@   ", "a\nb", "a\r\nb"]
    ODD = ['say "so"', "back\\slash", "\x1b[31m", "\u00e9\u20ac", "\x00", "x" * 40, "x" * 41, "\x7f" * 90, "9" * 200_000]

    def assert_refused(self, table, words=WORDS):
        """The words tell the fault that the plain reader finds, with status 2, and write nothing."""
        with self.assertRaises(TableFault) as found:
            plain_table.read(table)
        for word in words:
            self.assert_fault(desk(word, given=table), (2, f"tapebox: {found.exception}\n".encode()))

    def is_read(self, table):
        """Whether the plain reader finds no fault."""
        try:
            plain_table.read(table)
        except TableFault:
            return False
        return True

    def test_every_field(self):
        """FORMATS, "A table": a field of each column, in a row of each kind, by each of many texts: what is refused is told by its row, its column, its
        text and the rule, and what is taken is answered."""
        good = [COLUMNS, list(self.GOOD.values())]
        faults = Counter()
        for kind in ("report", "cancel", "correct", "reinstate"):
            empty = {"report": ["target"], "cancel": COLUMNS[6:], "reinstate": COLUMNS[6:]}.get(kind, [])
            row = self.GOOD | {"kind": kind} | dict.fromkeys(empty, "")
            for column in COLUMNS:
                for text in [*self.TEXTS, *self.BLANKS, *self.ODD]:
                    table = table_of([*good, list((row | {column: text}).values())])
                    with self.subTest(kind=kind, column=column, text=text[:50]):
                        if self.is_read(table):
                            self.assertEqual(desk("report", given=table).status, 0)
                        else:
                            # By one word after the other, since there are many.
                            faults[column] += 1
                            self.assert_refused(table, WORDS[faults[column] % 2 :][:1])
        self.assertEqual(set(faults), set(COLUMNS))

    def test_header_rows(self):
        """FORMATS, "A table": a header row with a column that is unknown, stands twice or is missing, or with no row below it."""
        row = list(self.GOOD.values())
        for at, column in enumerate(COLUMNS):
            others, rest = COLUMNS[:at] + COLUMNS[at + 1 :], row[:at] + row[at + 1 :]
            if column not in plain_table.OPTIONAL:
                self.assert_refused(table_of([others, rest]))
            self.assert_refused(table_of([[*COLUMNS, column], [*row, row[at]]]))
            self.assert_refused(table_of([[column.upper(), *others], row]))
        for name in [*plain_table.ANSWER, *plain_table.FIGURES]:
            self.assert_refused(table_of([[name.upper(), *COLUMNS], ["", *row]]))
            self.assert_refused(table_of([[name, *COLUMNS[1:-1]], row]))
        for table in [b"", b"\n\r\n", table_of([COLUMNS]), table_of([["#only", "remarks"], [1, 2]]), table_of([["x" * 60, *COLUMNS], ["", *row]])]:
            self.assert_refused(table)

    def assert_header_fault(self, table, fault):
        """This is the fault of a table's header row, for each word."""
        for word in WORDS:
            self.assert_fault(desk(word, given=table), (2, f"tapebox: header row: {fault}\n".encode()))

    def test_unknown_names(self):
        """FORMATS, "A table": of a name that is unknown it is told how it would be skipped, and that names are in lower case."""
        row = list(self.GOOD.values())
        for name in ("venue", "Price", "kind "):
            fault = f'column "{name}" is unknown; names are in lower case, and #{name} would be skipped'
            self.assert_header_fault(table_of([[*COLUMNS, name], [*row, ""]]), fault)
            self.assertEqual(desk("report", given=table_of([[*COLUMNS, f"#{name}"], [*row, ""]])).status, 0)
        name = "venue" * 9
        fault = f'column "{name[:40]}".. is unknown; names are in lower case, and #{name[:40]} would be skipped'
        self.assert_header_fault(table_of([[*COLUMNS, name], [*row, ""]]), fault)

    def test_other_encodings(self):
        """FORMATS, "A table": of a table that is compressed, or in UTF-16, the fault says so and how it is read."""
        table = table_of([COLUMNS, list(self.GOOD.values())])
        hints = {gzip.compress(table): "the table is compressed: pipe it through gzip -dc"}
        for encoding in ("utf-16", "utf-16-le", "utf-16-be"):
            hints[table.decode().encode(encoding)] = "the table is in UTF-16: pipe it through iconv -f UTF-16 -t UTF-8"
        hints[b"\xfe\xff" + table.decode().encode("utf-16-be")] = "the table is in UTF-16: pipe it through iconv -f UTF-16 -t UTF-8"
        for given, hint in hints.items():
            with self.subTest(given[:4]):
                ended = desk("report", given=given)
                self.assertEqual((ended.status, ended.written), (2, b""))
                self.assertTrue(ended.said.endswith(f"is unknown; {hint}\n".encode()), ended.said)

    def test_quotes_that_are_not_closed(self):
        """FORMATS, "A table": a quote that is not closed takes all that follows as one field, and the fault says so."""
        row = list(self.GOOD.values())
        for column in range(len(COLUMNS)):
            text = table_of([COLUMNS, *[row] * 3]).decode().split("\n")
            fields = text[2].split(",")
            fields[column] = '"' + fields[column]
            text[2] = ",".join(fields)
            table = "\n".join(text).encode()
            self.assert_refused(table)
            self.assertTrue(desk("report", given=table).said.endswith(b"; a quote is not closed, or a field has a line end\n"))
        table = b'"' + table_of([COLUMNS, row])
        self.assert_refused(table)
        self.assertTrue(desk("report", given=table).said.endswith(b"; a quote is not closed, or a name has a comma or a line end\n"))

    def test_fields_that_are_cut(self):
        """FORMATS, "A table": of a field the first forty bytes are told, with two dots behind them if there are more."""
        for size in (39, 40, 41, 60):
            table = table_of([COLUMNS, list((self.GOOD | {"price": "9" * size}).values())])
            self.assert_refused(table)
            shown = "9" * min(size, 40)
            self.assertIn(f'price "{shown}"{".." * (size > 40)} is not'.encode(), desk("report", given=table).said)

    def test_numbers_of_fields(self):
        """FORMATS, "A table": a row with another number of fields than the header row."""
        row = list(self.GOOD.values())
        for fields in (row[:-1], [*row, ""], ["N"], row * 300):
            self.assert_refused(table_of([COLUMNS, row, fields]))

    def test_the_first_of_two(self):
        """FORMATS, "A table": of two bad rows the first is told, and of two bad fields the first column."""
        row = self.GOOD
        worse = list((row | {"size": "0", "number": "0"}).values())
        self.assert_refused(table_of([COLUMNS, list(row.values()), worse, list((row | {"kind": "?"}).values())]))

    def test_too_many_symbols(self):
        """RULES, "Limits": 4,096 symbols are taken, and one more is told."""
        rows = [["N", at, f"S{at}", "10.00", 100, "@___"] for at in range(1, 4_098)]
        head = ["participant", "number", "symbol", "price", "size", "condition"]
        self.assertEqual(desk("report", given=table_of([head, *rows[:-1]])).status, 0)
        for word in WORDS:
            ended = desk(word, given=table_of([head, *rows]))
            self.assert_fault(ended, (2, b"tapebox: the table has more than 4096 symbols\n"))


class Forms(Case):
    """The forms in which tables come."""

    TABLE = (SAMPLES / "corrections.csv").read_bytes()

    def assert_same(self, table):
        """A table has the report and the tape of the one above. Blank rows are none."""
        for word in WORDS:
            self.assertEqual(desk(word, given=table), desk(word, given=self.TABLE))

    def test_a_spreadsheet(self):
        """FORMATS, "A table": a byte order mark, CRLF, quotes, blank lines, and no line end after the last row."""
        rows = [line.split(b",") for line in self.TABLE.splitlines()]
        quoted = [b",".join(b'"' + field + b'"' for field in row) for row in rows]
        self.assert_same(plain_table.MARK + b"\r\n".join(quoted))
        self.assert_same(plain_table.MARK + b"\r\n\r\n".join(quoted) + b"\r\n\r\n")
        self.assert_same(self.TABLE.replace(b"\n", b"\r\n"))
        self.assert_same(b"\n\n" + self.TABLE.replace(b"\n", b"\n\n"))
        self.assert_same(self.TABLE.rstrip(b"\n"))

    def test_other_columns(self):
        """FORMATS, "A table": the columns in another order, with remarks among them, each of which may have one name."""
        head, *rows = [b",".join(line.split(b",")[::-1]) for line in self.TABLE.splitlines()]
        self.assert_same(b"#,%s,#\n" % head + b"".join(b'"a ""b"", c",%s,\xff\n' % row for row in rows))

    def test_a_recorded_tape(self):
        """FORMATS, "A readable tape": the tape of a table, with its columns in any order and some of its own left out, is that table again."""
        for table in [self.TABLE, SeededDay(4).table()]:
            tape = desk("tape", given=table).written
            rows = list(csv.reader(tape.decode().splitlines()))
            turned = table_of([row[::-1] for row in rows])
            others = table_of([columns_of(row, *COLUMNS, "open", "high", "low", "tape", "tape") for row in rows])
            for again in (tape, turned, others):
                for words in [*([word] for word in WORDS), ["encode"], ["line", "Q"]]:
                    self.assertEqual(desk(*words, given=again), desk(*words, given=table))

    def test_columns_left_out(self):
        """FORMATS, "A table": a table of reports without `kind`, `moment` and `target`."""
        bare = b"participant,number,symbol,price,size,condition\nN,1,AB,10.5,100,@___\n"
        whole = b"kind,participant,number,moment,symbol,target,price,size,condition\nreport,N,1,0,AB,,10.50,100,@___\n"
        for word in WORDS:
            self.assertEqual(desk(word, given=bare), desk(word, given=whole))
