"""The built programs next to plain ones of `bench/`."""

import csv
import functools
import os
import random
import re
import shutil
import subprocess
import sys
import tempfile
import unittest
from dataclasses import replace
from pathlib import Path

from plain_table import COLUMNS, CONDITIONS
from support import BENCH, SAMPLES, TAPEBOX, TOOLS, Case
from support import batch_of, desk, report_row, report_text, run, without_places

sys.path.append(str(BENCH))

from tables import peer_commands

# The greatest batch.
BYTES_MOST = 16_777_216


@functools.cache
def plain():
    """The folder of the plain programs, built anew."""
    folder = tempfile.TemporaryDirectory()
    command = ["cargo", "build", "--quiet", "--release", "--offline", "--manifest-path", BENCH / "Cargo.toml", "--target-dir", folder.name]
    subprocess.run(command, check=True)
    return folder, Path(folder.name) / "release"


def plain_run(program, *words, given=b""):
    """How a plain program ended."""
    return run(words, given, program=plain()[1] / program)


class Tables(Case):
    def assert_day(self, matrix, table, answers, rows):
        """A batch over the table by this matrix writes these answers and a report of these rows."""
        wanted = "".join(f"{answer}\n" for answer in answers).encode() + report_text(report_row("AB", *row) for row in rows)
        self.assert_writes(run(["batch", *matrix], batch_of(table)), wanted)

    def test_a_day_by_either_matrix(self):
        """rows/tape.rows, "Matrix Two has odd lots among the prices and two codes more": the table's day by each matrix."""
        table = SAMPLES / "matrix-two.csv"
        first, second, third = (100_000, 1), (101_000, 2), (99_000, 3)
        rows = [("ALL", [second, second, third, second], 250, 3), ("N", [third, first, third, third], 150, 2), ("Q", [second] * 4, 100, 1)]
        self.assert_day(["2"], table, "123", rows)
        self.assert_day(["1"], table, ["1", *["refused 44 NotInMatrix"] * 2], [(who, [None] * 4, 50, 1) for who in ("ALL", "N")])

    def test_a_cancel_is_taken_back(self):
        """README, "Five minutes: a table": with a reinstatement the table's cancelled report stands again in its first place."""
        with tempfile.NamedTemporaryFile(suffix=".csv") as file:
            file.write((SAMPLES / "corrections.csv").read_bytes() + b"reinstate,Q,3,AB,1,,,\n")
            file.flush()
            first, second, third = (99_500, 1), (101_000, 2), (100_500, 3)
            rows = [("ALL", [first, second, first, second], 450, 3), ("N", [first, third, first, first], 250, 2), ("Q", [second] * 4, 200, 1)]
            self.assert_day([], file.name, [*"1234", "refused 35 Stale", *"56"], rows)


@unittest.skipUnless(shutil.which("cargo"), "no cargo")
class PlainPrograms(Case):
    # The refusals of a day of every kind: 11 to 23, 33 to 39, 43 and 44.
    REFUSALS = {*range(11, 24), *range(33, 40), 43, 44}

    def test_days_of_the_greatest_batch(self):
        """SPEED, "A batch beside plain Rust": both programs write the same of a day with every kind of line and refusal under either matrix, of the greatest
        listing, and of cancels, corrections and reinstatements of one busy symbol."""
        for kind, matrix in [("every", []), ("every", ["2"]), ("wide", ["2"]), ("hostile", ["1"])]:
            with self.subTest(f"{kind} {matrix}"):
                day = plain_run("make_day", kind, 1, BYTES_MOST).written
                wanted = plain_run("indexed", "batch", *matrix, given=day)
                self.assertTrue(wanted.written)
                self.assert_writes(run(["batch", *matrix], day), wanted.written)
                if (kind, matrix) == ("every", []):
                    self.assertEqual({int(number) for number in re.findall(rb"(?m)^refused (\d+)", wanted.written)}, self.REFUSALS)

    def test_tables(self):
        """SPEED, "Tables": both programs write the same report and the same tape, with the figures after each row, of tables with every kind of row, of
        400 symbols, of one busy symbol and of the greatest listing."""
        for kind, matrix in [("odd", 1), ("odd", 2), ("busy", 1), ("hostile", 1), ("wide", 2)]:
            table = plain_run("to_table", given=plain_run("make_day", kind, 1, BYTES_MOST // 2).written).written
            for word in ("report", "tape"):
                with self.subTest(f"{word} {kind} {matrix}"):
                    wanted, ended = plain_run("desk", word, matrix, given=table), desk(word, matrix=matrix, given=table)
                    self.assertTrue(wanted.written)
                    self.assert_writes(replace(ended, said=b""), wanted.written)

    def test_reports_by_what_a_desk_would_pick(self):
        """SPEED, "A report beside what a desk would pick": a plain program without a tape, pandas and SQLite, as far as they are here, write the report of
        tables with every kind of row, of 400 symbols and of one busy symbol."""
        for kind in ("every", "busy", "hostile"):
            table = plain_run("to_table", given=plain_run("make_day", kind, 1, BYTES_MOST // 16).written).written
            wanted = desk("report", given=table).written
            self.assertTrue(wanted)
            for name, (program, *words) in ({"least": [plain()[1] / "desk", "least"]} | peer_commands()).items():
                with self.subTest(f"{name} {kind}"):
                    self.assert_writes(run(words, table, program=program), wanted)


class Maker:
    """Makes rows of a day that one tape refuses none of."""

    SYMBOLS = [f"SYM{number}" for number in range(12)]
    PARTICIPANTS = "NPQZ"

    def __init__(self, seed):
        self.random = random.Random(seed)
        self.numbers = dict.fromkeys(self.PARTICIPANTS, 0)
        # The reports that stand, and those that are cancelled: participant, number and symbol of each.
        self.standing = []
        self.cancelled = []

    def row(self):
        """The next row."""
        kind = self.random.choices(["report", "cancel", "correct", "reinstate"], [70, 10, 10, 10])[0]
        named = {"report": [], "reinstate": self.cancelled}.get(kind, self.standing)
        if not named:
            return self.report()
        place = self.random.randrange(len(named))
        participant, target, symbol = named[place]
        if kind != "correct":
            other = self.standing if kind == "reinstate" else self.cancelled
            other.append(named.pop(place))
        content = self.content() if kind == "correct" else ["", "", ""]
        return [kind, participant, self.next_number(participant), symbol, target, *content]

    def report(self):
        """A report, of the first symbols far more often, so that the parts have to be balanced."""
        participant = self.random.choice(self.PARTICIPANTS)
        symbol = self.SYMBOLS[int(len(self.SYMBOLS) * self.random.random() ** 3)]
        number = self.next_number(participant)
        self.standing.append((participant, number, symbol))
        return ["report", participant, number, symbol, "", *self.content()]

    def content(self):
        """A price, a size and a condition."""
        price = 100_000 + 100 * self.random.randrange(40)
        return [f"{price // 10_000}.{price % 10_000:04}", self.random.randrange(1, 1_000), self.random.choice(CONDITIONS)]

    def next_number(self, participant):
        """The participant's next number, with gaps."""
        self.numbers[participant] += self.random.choice([1, 1, 1, 3])
        return self.numbers[participant]


@unittest.skipUnless(shutil.which("parallel"), "no GNU parallel")
class SplitDay(Case):
    ROWS = 6_000

    def test_parts_have_the_figures_of_the_whole(self):
        """SCALE, "A day over several tapes": a seeded day of 12 symbols by 1, 3 and 4 parts has the figures of one tape, places aside."""
        maker = Maker(1)
        columns = [column for column in COLUMNS if column != "moment"]
        with tempfile.NamedTemporaryFile("w", suffix=".csv", newline="") as table:
            csv.writer(table, lineterminator="\n").writerows([columns, *(maker.row() for _ in range(self.ROWS))])
            table.flush()
            whole = run(["batch"], batch_of(table.name)).written
            self.assertNotIn(b"refused", whole)
            for parts in (1, 3, 4):
                with self.subTest(parts):
                    environment = os.environ | {"TAPEBOX": str(TAPEBOX)}
                    split = run([table.name, parts], program=TOOLS / "split_day.py", env=environment)
                    self.assertEqual((split.status, split.said), (0, b""))
                    self.assertTrue(without_places(whole))
                    self.assertEqual(without_places(split.written), without_places(whole))
