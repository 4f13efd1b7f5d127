"""Reports in other tools, as their page shows it."""

import csv
import os
import random
import re
import shutil
import subprocess
import tempfile
import unittest
from dataclasses import astuple, dataclass
from pathlib import Path

import plain_table
from plain_table import CONDITIONS
from plain_tape import Refused, Report, Tape, fold
from support import ROOT, SAMPLES, TAPEBOX, TOOLS, Case, run, table_of, transcripts

# The system's own Python has what the system's packages bring.
OWN_PYTHON = "/usr/bin"
LIMIT = 120


def has_pandas():
    """Whether the system's own Python reads tables."""
    python = shutil.which("python3", path=OWN_PYTHON)
    return bool(python) and subprocess.run([python, "-c", "import pandas"], check=False, capture_output=True).returncode == 0


class PageCase(Case):
    """Commands of the page in a folder of their own."""

    def setUp(self):
        # Before the commands, each of which has less time than a draft takes to compile.
        self.assertTrue(Path(TAPEBOX).exists())

    def new_folder(self, runs):
        """A folder in which this program runs as `./run`."""
        made = tempfile.TemporaryDirectory()
        self.addCleanup(made.cleanup)
        folder = Path(made.name)
        program = folder / "run"
        program.write_text(f'#!/bin/sh\nexec "{runs}" "$@"\n', encoding="utf-8")
        program.chmod(0o755)
        return folder


class Reports(PageCase):
    def setUp(self):
        super().setUp()
        self.folder = self.new_folder(ROOT / "run")
        for folder in (SAMPLES, TOOLS):
            (self.folder / folder.name).symlink_to(folder)

    def assert_page(self, holds):
        """Those commands of the page for which this holds write what it shows, one after the other."""
        environment = os.environ | {"PATH": f"{OWN_PYTHON}:{os.environ['PATH']}"}
        for command, shown in transcripts("REPORTS.md"):
            if holds(command):
                with self.subTest(command):
                    done = subprocess.run(["sh", "-c", command], cwd=self.folder, env=environment, capture_output=True, check=True, timeout=LIMIT)
                    self.assertEqual(re.sub("(?m) +$", "", done.stdout.decode()), shown)

    @unittest.skipUnless(shutil.which("sqlite3"), "no sqlite3")
    def test_sqlite(self):
        """REPORTS: the volume by symbol, what set the high and the last, what a cancel changed, and the picture of a symbol's trades, as the page shows
        them."""
        self.assert_page(lambda command: "pandas" not in command)
        self.assertEqual((self.folder / "morning.svg").read_bytes(), (ROOT / "docs" / "morning.svg").read_bytes())

    @unittest.skipUnless(has_pandas(), "no pandas")
    def test_pandas(self):
        """REPORTS: each participant's shares, as the page shows them."""
        self.assert_page(lambda command: "sqlite3" not in command)


@dataclass
class Answers:
    """What the page's questions are answered, as rows of fields: what sets each high and each last, which cancelled trade had set a high, and why each
    later trade is not the last."""

    high: list
    last: list
    cancelled: list
    later: list


class PlainAnswers:
    """The answers to the page's questions by a plain tape, which is asked before and after each cancel."""

    def __init__(self, table):
        messages = plain_table.read(table)
        self.symbols = list(dict.fromkeys(map(plain_table.symbol_of, messages)))
        self.tape = Tape(self.symbols, list(dict.fromkeys(chr(text[3]) for text in messages)), len(messages), "1")
        # Of each place its report's number; of each report's place its last cancel; and each cancel that took a high away, with the high's place.
        self.numbers, self.cancels, self.taken = {}, {}, []
        for text in messages:
            self.admit(text)

    def admit(self, text):
        """Replays a message, unless it is refused."""
        kind, who, number, _, symbol, target, *_ = plain_table.row_of(text)
        before = self.tape.summary(symbol).high
        try:
            place = self.tape.admit(text)
        except Refused:
            return
        if kind == "report":
            self.numbers[place] = number
        if kind != "cancel":
            return
        self.cancels[self.tape.reports[who, target].place] = place
        after = plain_price(self.tape.summary(symbol).high)
        if after != plain_price(before):
            self.taken.append((symbol, before, place, after))

    def answers(self):
        """All answers after the last message."""
        stand = {report.place for report in self.tape.reports.values() if report.stands}
        cancelled = [
            [symbol, plain_price(mark), mark.who, self.numbers[mark.place], place, after]
            for symbol, mark, place, after in self.taken
            if mark.place not in stand
        ]
        later = [
            [report.symbol, plain_price(report), report.who, self.numbers[report.place], self.why(report)]
            for report in self.tape.reports.values()
            if report.place > getattr(self.tape.summary(report.symbol).last, "place", 0)
        ]
        return Answers(self.setters("high"), self.setters("last"), cancelled, later)

    def setters(self, figure):
        """The report that sets this figure of each symbol that has it."""
        marks = {symbol: getattr(self.tape.summary(symbol), figure) for symbol in self.symbols}
        content = {report.place: [report.size, report.condition.replace(" ", "_")] for report in self.tape.reports.values()}
        return [
            [symbol, plain_price(mark), content[mark.place][0], content[mark.place][1], mark.who, self.numbers[mark.place]]
            for symbol, mark in marks.items()
            if mark
        ]

    def why(self, report):
        """Why a report after the last is not the last: by what it sets alone, and after one of its own participant."""
        if not report.stands:
            return f"cancelled by {self.cancels[report.place]}"
        if fold("1", [report], False).last is None:
            return "its condition never sets a last"
        own = Report(0, report.who, report.symbol, 1, 1, "@___")
        return "another participant has the last" if fold("1", [own, report], False).last.place else "it is not the first"


def plain_price(mark):
    """The price of a figure or a report in dollars, or nothing if there is no figure."""
    return plain_table.dollars(mark.price) if mark else ""


class SeededTable:
    """A table of a few participants and symbols, whose prices rise and fall, with cancels, corrections and reinstatements of each."""

    HEAD = ["kind", "participant", "number", "symbol", "target", "price", "size", "condition"]

    def __init__(self, seed, count):
        self.random, self.sent = random.Random(seed), []
        self.rows = [self.HEAD, *(self.row(at) for at in range(1, count + 1))]

    def row(self, number):
        """The next row, each with a number above all before it."""
        kind = self.random.choice(["report", "report", "cancel", "correct", "reinstate"]) if self.sent else "report"
        content = [f"10.{self.random.randrange(30):02}", self.random.randrange(1, 1_000), self.random.choice(CONDITIONS)]
        if kind == "report":
            who, symbol, target = self.random.choice("NPQ"), self.random.choice(["AB", "CD", "EF"]), ""
            self.sent.append((who, symbol, number))
        else:
            who, symbol, target = self.random.choice(self.sent[-6:])
        return [kind, who, number, symbol, target, *(content if kind in ("report", "correct") else ["", "", ""])]


@unittest.skipUnless(shutil.which("sqlite3"), "no sqlite3")
class Recipes(PageCase):
    """The page's questions of other days."""

    # How the page's query for each question is told from the others, and the columns of it that are compared.
    QUERIES = {
        "high": ("WHERE sets LIKE '%high%'\"", ["symbol", "high", "size", "condition", "participant", "number"]),
        "last": ("WHERE sets LIKE '%last%'\"", ["symbol", "price", "size", "condition", "participant", "number"]),
        "cancelled": ("AS cancelled_by", ["symbol", "high_before", "participant", "number", "cancelled_by", "high"]),
        "later": ("AS why", ["symbol", "price", "participant", "number", "why"]),
    }

    def page_answers(self, table):
        """What the page's commands write of this table in place of the morning, by question."""
        folder = self.new_folder(TAPEBOX)
        (folder / "samples").mkdir()
        (folder / "samples" / "morning.csv").write_bytes(table)
        written = {}
        for command, _ in transcripts("REPORTS.md"):
            if command.startswith(("./run ", "sqlite3 ")) and not re.search(r"\bday[._]", command):
                as_rows = command.replace("sqlite3 -table ", "sqlite3 -header -csv ")
                written[command] = subprocess.run(["sh", "-c", as_rows], cwd=folder, capture_output=True, check=True, timeout=LIMIT).stdout.decode()
        return Answers(*(self.rows_of(written, *self.QUERIES[name]) for name in ("high", "last", "cancelled", "later")))

    def rows_of(self, written, mark, columns):
        """What the one command with this mark wrote, by these columns."""
        (rows,) = (text for command, text in written.items() if mark in command)
        return [[row[column] for column in columns] for row in csv.DictReader(rows.splitlines())]

    def assert_answers(self, rows):
        """The page's commands answer of this table what the plain tape does. Returns the answers."""
        table = table_of(rows)
        answers, plain = self.page_answers(table), PlainAnswers(table).answers()
        for question, got, wanted in zip(self.QUERIES, astuple(answers), astuple(plain)):
            self.assertEqual(sorted(got), sorted([str(field) for field in row] for row in wanted), question)
        return answers

    def test_a_corrected_report_sets_the_high(self):
        """REPORTS: the high is shown with the content that stands, and not the first one."""
        rows = [["report", "N", 1, "AB", "", "10.20", 100, "@___"], ["report", "Q", 1, "AB", "", "10.10", 200, "@F__"]]
        answers = self.assert_answers([SeededTable.HEAD, *rows, ["correct", "Q", 2, "AB", 1, "10.30", 300, "@___"]])
        self.assertEqual(answers.high, [["AB", "10.30", "300", "@___", "Q", "1"]])

    def test_a_high_that_others_had(self):
        """REPORTS: a cancelled trade that took no high away, since another stood at its price or above it, is not shown."""
        rows = [["report", who, 1, "AB", "", price, 100, "@___"] for who, price in zip("NPQ", ["10.20", "10.20", "10.10"])]
        cancels = [["cancel", who, 2, "AB", 1, "", "", ""] for who in "NQP"]
        answers = self.assert_answers([SeededTable.HEAD, *rows, *cancels])
        self.assertEqual(answers.cancelled, [["AB", "10.20", "P", "1", "6", ""]])
        self.assertEqual([row[-1] for row in answers.later], ["cancelled by 4", "cancelled by 6", "cancelled by 5"])

    def test_seeded_days(self):
        """REPORTS: what set each high and each last, which cancelled trade had set a high, and why a later trade is not the last, of seeded days."""
        reasons, taken, without_last = set(), 0, 0
        for seed in range(12):
            with self.subTest(seed=seed):
                answers = self.assert_answers(SeededTable(seed, [6, 20, 60, 200][seed % 4]).rows)
                reasons |= {re.sub(r"\d+", "", row[-1]) for row in answers.later}
                taken += len(answers.cancelled)
                without_last += bool({row[0] for row in answers.later} - {row[0] for row in answers.last})
        wanted = {"cancelled by ", "its condition never sets a last", "it is not the first", "another participant has the last"}
        self.assertEqual(reasons, wanted)
        self.assertGreater(taken, 10)
        self.assertGreater(without_last, 0)


class TapePictures(Case):
    """Pictures of a tape that has a column of what was last."""

    TAPE = "tape,kind,participant,number,symbol,target,price,last\n"
    ROWS = ["1,report,N,1,AB,,10.00,10.00", "refused 36 UnknownSymbol,report,N,2,XY,,9.00,", "2,correct,N,3,AB,1,10.50,10.50", "3,cancel,N,4,AB,1,,"]

    def drawn(self, *rows):
        """How the script ended on a tape of these rows."""
        return run(["--symbol", "AB"], (self.TAPE + "\n".join(rows) + "\n").encode(), program=TOOLS / "plot_day.py")

    def test_line_of_the_last(self):
        """plot_day.py: a trade has its prices, and whether it stands; the line follows what was last, and a row without it is passed over."""
        ended = self.drawn(*self.ROWS)
        self.assertEqual((ended.status, ended.said), (0, b""))
        self.assertIn("<title>N 1: 10.00, 10.50, cancelled</title>", ended.written.decode())
        self.assertEqual(len(re.findall(r'class="follows" d="M[\d. ]+H[\d.]+V[\d.]+"', ended.written.decode())), 1)

    def test_faults(self):
        """plot_day.py: a row that the tape can't have is named by its line."""
        for rows, line in [(["1,cancel,N,1,AB,7,,"], 2), ([self.ROWS[0], "2,report,Q,1,AB,,1.00001,"], 3)]:
            ended = self.drawn(*rows)
            self.assertEqual((ended.status, ended.written), (1, b""))
            self.assertRegex(ended.said.decode(), rf"\Aplot_day\.py: standard input, line {line}: [^\n]+\n\Z")
