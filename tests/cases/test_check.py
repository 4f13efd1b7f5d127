"""`tapebox check` on whole tables at fault, beside a plain reader of them."""

import random
import re
from collections import Counter

import plain_table
from plain_table import COLUMNS, RULES
from support import SAMPLES, Case, desk, table_of

# How many faults are told one by one.
TOLD = 100
HEAD = ["participant", "number", "symbol", "price", "size", "condition"]
GOOD = ["N", 1, "AB", "10.00", 100, "@___"]


def kind_of(fault):
    """The kind of a row's fault, as it is counted."""
    column = re.match(r"row \d+: (\w+) ", fault)[1]
    if fault.endswith("has to be empty in a row of this kind"):
        return f"{column} has to be empty in a row of this kind"
    return f"{column} is not {RULES[column]}" if column in RULES else "another number of fields than the header row has"


def order_of(kind):
    """The place of a kind in what is told: columns, columns that have to be empty, numbers of fields."""
    column = kind.split()[0]
    return (COLUMNS.index(column) if column in COLUMNS else len(COLUMNS), "empty" in kind)


class Checks(Case):
    def assert_told(self, table, *lines):
        """These lines are told of a table at fault, with status 2."""
        ended = desk("check", given=table)
        self.assertEqual((ended.status, ended.said), (2, b""))
        self.assertEqual(ended.written.decode().splitlines(), list(lines))

    def test_tables_without_a_fault(self):
        """FORMATS, "The faults of a table": of a table without a fault a line tells how many rows it has."""
        self.assert_writes(desk("check", given=(SAMPLES / "corrections.csv").read_bytes()), b"6 rows, no fault\n")
        self.assert_writes(desk("check", given=table_of([HEAD, GOOD])), b"1 row, no fault\n")

    def test_every_fault(self):
        """FORMATS, "The faults of a table": of a seeded table the first hundred faults are told as the plain reader finds them, then how many more there
        are of each kind. The first is the one that a report tells."""
        drawn = random.Random(5)
        row = dict(zip(COLUMNS, ["correct", "N", "2", "3", "AB", "1", "10.25", "100", "@___"]))
        rows = []
        for _ in range(3_000):
            kind = drawn.choice(["report", "cancel", "correct", "reinstate"])
            empty = {"report": ["target"], "cancel": COLUMNS[6:], "reinstate": COLUMNS[6:]}.get(kind, [])
            changed = row | {"kind": kind} | dict.fromkeys(empty, "")
            if drawn.random() < 0.6:
                changed[drawn.choice(COLUMNS)] = drawn.choice(["?", "", "0", "1 ", "@_J_", "__Z_", "@ __", "@___@", "say \"so\""])
            rows.append(list(changed.values()) + [""] * (drawn.random() < 0.05))
        table = table_of([COLUMNS, *rows])
        faults = plain_table.faults(table)
        more = Counter(map(kind_of, faults[TOLD:]))
        kinds = sorted((kind for kind in more if "empty" not in kind), key=order_of)
        unused = sorted((kind for kind in more if "empty" in kind), key=order_of)
        counted = [*(kind for kind in kinds if kind.split()[0] in COLUMNS), *unused, *(kind for kind in kinds if kind.split()[0] not in COLUMNS)]
        self.assertGreater(len(counted), 12)
        self.assert_told(table, *faults[:TOLD], *(f"{more[kind]} more: {kind}" for kind in counted))
        self.assert_fault(desk("report", given=table), (2, f"tapebox: {faults[0]}\n".encode()))

    def test_lines_of_the_file(self):
        """FORMATS, "The faults of a table": the line in which a row begins is told if it is not the row's number: behind blank lines and line ends in
        quotes, for each way to end a line."""
        for end in (b"\n", b"\r\n", b"\r"):
            with self.subTest(end):
                lines = [b",".join(name.encode() for name in HEAD), b"N,0,AB,10,1,@___", b"", b"", b'"N', b'Q",2,AB,10,1,@___', b"N,3,AB,10,1,@___", b"N,4"]
                self.assert_told(
                    plain_table.MARK + end.join(lines),
                    'row 2: number "0" is not 1 to 4294967295 in at most 20 digits',
                    f'row 3: participant "N{plain_table.shown(end.decode())}Q" is not A to Z; a quote is not closed, or a field has a line end (line 5)',
                    "row 5: 2 fields, and the header row has 6 (line 8)",
                )
        # A line that is longer than what is read at once, and then a blank one.
        long = table_of([[*HEAD, "#"], [*GOOD, "x" * 100_000]]) + b"\nN,0,AB,10,1,@___,\n"
        self.assert_told(long, 'row 3: number "0" is not 1 to 4294967295 in at most 20 digits (line 4)')

    def test_header_rows(self):
        """FORMATS, "The faults of a table": a fault of the header row is the only one, and one without commas names the separator that stands there."""
        for sign, words in plain_table.SEPARATORS.items():
            table = table_of([HEAD, ["?"] * 6]).replace(b",", sign.encode())
            name = plain_table.quoted(sign.join(HEAD))
            fault = f"header row: column {name} is unknown; names have commas between them, and here stands {words}"
            self.assert_told(table, fault)
            self.assert_fault(desk("report", given=table), (2, f"tapebox: {fault}\n".encode()))
        self.assert_told(table_of([HEAD[:-1], ["?"] * 5]), "header row: column condition is missing")
        self.assert_told(b"", "the table has no row")
        self.assert_told(table_of([HEAD]), "the table has no row")

    def test_codes_of_a_condition(self):
        """FORMATS, "The faults of a table": a condition's fault names the first code that is wrong and its position."""
        rule = RULES["condition"]
        for text, detail in [
            ("_F__", ': "_" is no code of position 1'),
            ("@Z__", ': "Z" is no code of position 2'),
            ("@_JJ", ': "J" is no code of position 3'),
            ("@__O", ': "O" is no code of position 4'),
            ("@ __", ': " " is no code of position 2'),
            ("@_", ""),
        ]:
            self.assert_told(table_of([HEAD, [*GOOD[:-1], text]]), f'row 2: condition "{text}" is not {rule}{detail}')

    def test_too_many_symbols(self):
        """FORMATS, "The faults of a table": behind the rows it is told that the rows that are messages have too many symbols."""
        rows = [["N", at, f"S{at}", "10.00", 100, "@___"] for at in range(1, 4_098)]
        self.assert_told(table_of([HEAD, *rows]), "the table has more than 4096 symbols")
        worse = [["N", 0, "AB", "10.00", 100, "@___"]]
        bad = 'row 2: number "0" is not 1 to 4294967295 in at most 20 digits'
        self.assert_told(table_of([HEAD, *worse, *rows]), bad, "the table has more than 4096 symbols")
        self.assert_told(table_of([HEAD, *worse, *rows[:-1]]), bad)
