"""Pictures of a symbol's trades with what set its figures, by what became of each report."""

import csv
import functools
import re
import tempfile
import xml.etree.ElementTree as tree
from pathlib import Path

from support import ROOT, SAMPLES, TOOLS, Case, run

SCRIPT = TOOLS / "plot_day.py"
FIGURES = ("open", "high", "low", "last")
SVG = {"svg": "http://www.w3.org/2000/svg"}
# A row that only counts for high and low by Matrix 2, and for neither by Matrix One.
ODD_LOT = b"kind,participant,number,symbol,target,price,size,condition\nreport,N,1,AB,,10.00,50,@__I\n"


@functools.cache
def desk(word, table, matrix):
    """What a word writes of a table by a matrix."""
    return run([word, "--matrix", matrix], table).written


def rows_of(text):
    """The rows of a table by their columns."""
    return list(csv.DictReader(text.decode().splitlines()))


def expected(table, matrix, symbol):
    """What should set each figure of a symbol, by the report: the participant and number of the message at its place, and its price."""
    report = next(row for row in rows_of(desk("report", table, matrix)) if (row["symbol"], row["who"]) == (symbol, "ALL"))
    tape = {row["tape"]: f"{row['participant']} {row['number']}" for row in rows_of(desk("tape", table, matrix))}
    return {name: (tape[report[name + "_at"]], int(report[name]) / 10_000) for name in FIGURES if report[name]}


def place_of(circle):
    """Where the middle of a circle is."""
    return float(circle.get("cx")), float(circle.get("cy"))


class Marks(Case):
    def setUp(self):
        folder = tempfile.TemporaryDirectory()
        self.addCleanup(folder.cleanup)
        self.folder = Path(folder.name)
        self.table = (SAMPLES / "morning.csv").read_bytes()

    def drawn(self, tape, explained, symbol="AB"):
        """How the script ended on a tape and what became of its reports."""
        (self.folder / "tape.csv").write_bytes(tape)
        (self.folder / "explain.csv").write_bytes(explained)
        return run(["--symbol", symbol, "--explained", "explain.csv", "tape.csv"], program=SCRIPT, cwd=self.folder)

    def picture(self, table, matrix, symbol):
        """The picture of a symbol's trades in a table, with its marks."""
        ended = self.drawn(desk("tape", table, matrix), desk("explain", table, matrix), symbol)
        self.assertEqual((ended.status, ended.said), (0, b""))
        return tree.fromstring(ended.written)

    def assert_marks(self, table, matrix, symbol):
        """The marks are at the trades that set the symbol's figures by the report, under them, with names clear of all trades and of each other."""
        groups = self.picture(table, matrix, symbol).findall("svg:g", SVG)
        marks = [group for group in groups if group.get("class") == "mark"]
        self.assertEqual(groups[: len(marks)], marks)
        trades = {group.find("svg:title", SVG).text.split(":")[0]: group.find("svg:circle[@class='stands']", SVG) for group in groups[len(marks) :]}
        wanted = expected(table, matrix, symbol)
        told = {}
        for mark in marks:
            name, who, price = re.fullmatch(r"(\w+): (\w \d+), ([\d.]+)", mark.find("svg:title", SVG).text).groups()
            told[name] = who, float(price)
            self.assertEqual(place_of(mark.find("svg:circle", SVG)), place_of(trades[who]))
            self.assertEqual(mark.find("svg:text", SVG).text, f"{name} {price}")
        self.assertEqual(told, wanted)
        names = [mark.find("svg:text", SVG) for mark in marks]
        right = max(float(sign.get("cx")) for sign in trades.values() if sign is not None)
        self.assertTrue(all(float(name.get("x")) > right + 8 for name in names))
        heights = [float(name.get("y")) for name in names]
        self.assertTrue(all(above + 12 <= below for above, below in zip(heights, heights[1:])))
        return set(told)

    def test_marks(self):
        """plot_day.py: with --explained each figure's mark is at the trade that sets it, by both matrices."""
        for sample, symbols in [("morning", ("AB", "CD", "EF")), ("corrections", ("AB",)), ("matrix-two", ("AB",))]:
            for matrix in ("1", "2"):
                for symbol in symbols:
                    with self.subTest(sample, matrix=matrix, symbol=symbol):
                        self.assert_marks((SAMPLES / f"{sample}.csv").read_bytes(), matrix, symbol)

    def test_colours(self):
        """plot_day.py, web/chart.js: a trade that stands is blue in the picture as on the page, and a cancelled one red."""
        drawn = self.drawn(desk("tape", self.table, "1"), desk("explain", self.table, "1")).written.decode()
        page = (ROOT / "web" / "tapebox.css").read_text(encoding="utf-8")
        for name, of, strongest in (("stands", "blue", 2), ("cancelled", "red", 0)):
            for text, style in ((drawn, rf"\.{name} \{{[^}}]*"), (page, f"--{of}: ")):
                channels = bytes.fromhex(re.search(rf"{style}#(\w{{6}})", text)[1])
                self.assertEqual(max(range(3), key=channels.__getitem__), strongest, name)

    def test_without_a_figure(self):
        """plot_day.py: a figure that a symbol lacks has no mark."""
        self.assertEqual(self.assert_marks(self.table, "1", "AB"), {*FIGURES})
        self.assertEqual(self.assert_marks(ODD_LOT, "2", "AB"), {"high", "low"})
        self.assertEqual(self.assert_marks(ODD_LOT, "1", "AB"), set())

    def test_cancelled(self):
        """plot_day.py: a cancelled trade keeps its cross and has no mark."""
        table = self.table + b"cancel,P,12,AB,6,,,\n"
        self.assertEqual(expected(self.table, "1", "AB")["high"], ("P 6", 10.20))
        self.assertEqual(expected(table, "1", "AB")["high"], ("N 8", 10.19))
        self.assert_marks(table, "1", "AB")
        titles = {group.find("svg:title", SVG).text: group for group in self.picture(table, "1", "AB").findall("svg:g", SVG)}
        self.assertIsNotNone(titles["P 6: 10.20, cancelled"].find("svg:path[@class='cancelled']", SVG))

    def test_other_inputs(self):
        """plot_day.py: the tape may come on standard input, and without --explained the picture has no marks."""
        tape, explained = desk("tape", self.table, "1"), desk("explain", self.table, "1")
        ended = self.drawn(tape, explained)
        self.assert_writes(run(["--symbol", "AB", "--explained", "explain.csv"], tape, program=SCRIPT, cwd=self.folder), ended.written)
        self.assert_writes(run(["--symbol", "AB"], tape, program=SCRIPT), (ROOT / "docs" / "morning.svg").read_bytes())

    def test_stored_picture(self):
        """docs/explained.svg: it is what the script draws of the sample."""
        ended = self.drawn(desk("tape", self.table, "1"), desk("explain", self.table, "1"))
        self.assert_writes(ended, (ROOT / "docs" / "explained.svg").read_bytes())

    def assert_says(self, ended, said):
        """It ended with 1, wrote nothing, and said this."""
        self.assertEqual((ended.status, ended.written, ended.said.decode()), (1, b"", f"plot_day.py: {said}\n"))

    def test_faults(self):
        """plot_day.py: a row of --explained that the tape can't have is named by its file and line."""
        tape, explained = desk("tape", self.table, "1"), desk("explain", self.table, "1").decode()
        last = "AB,29,31,Q,8,0,10.18,300,@___,standing,,yes,yes,yes,last,yes,yes,last\n"
        line = explained[: explained.index(last)].count("\n") + 1
        for row, why in [
            ("AB,29,31,Q,8\n", "5 fields, and the header row has 18"),
            (last.replace("\n", ",\n"), "19 fields, and the header row has 18"),
            (last.replace("10.18", "10.18x"), "'10.18x' is no price with at most four decimals"),
            (last.replace("10.18", "10.19"), "the tape has Q 8 with another price than 10.19"),
            (last.replace("AB,29", "AB,30"), "the tape has Q 8 with another tape than 30"),
            (last.replace("standing", "cancelled"), "the tape has Q 8 with another state than cancelled"),
            (last.replace("Q,8", "Q,99"), "Q 99 is not on the tape, or a row before has it"),
            (last.replace("Q,8", "Q,5"), "Q 5 is not on the tape, or a row before has it"),
            (last.replace("yes,last,yes", "yes,lst,yes"), "'lst' is no figure"),
            (last.replace("yes,last,yes", "yes,high last,yes"), "Q 8 can't set the high: P 6 does"),
        ]:
            with self.subTest(row):
                self.assert_says(self.drawn(tape, explained.replace(last, row).encode()), f"explain.csv, line {line}: {why}")
        cancelled = ",36,yes,yes,yes,,yes"
        self.assertEqual(explained.count(cancelled), 1)
        rows = explained.replace(cancelled, ",36,yes,yes,yes,high,yes").replace("yes,high,yes,yes,open high", "yes,,yes,yes,open high")
        self.assert_says(self.drawn(tape, rows.encode()), f"explain.csv, line {line + 1}: P 10 can't set the high: it is cancelled")
        tape += b"37,,report,N,17,0,AB\n"
        line = tape.count(b"\n")
        self.assert_says(self.drawn(tape, explained.encode()), f"tape.csv, line {line}: '' is no price with at most four decimals")

    def test_of_another_tape(self):
        """plot_day.py: what is lacking in --explained, or is of another matrix than the tape, is said."""
        tape, explained = desk("tape", self.table, "1"), desk("explain", self.table, "1").decode()
        without = re.sub("AB,10,12,N,5,[^\n]+\n", "", explained)
        self.assert_says(self.drawn(tape, without.encode()), "explain.csv: no row of N 5, which is on the tape")
        self.assert_says(self.drawn(tape, explained.replace(",sets,", ",set,", 1).encode()), "explain.csv: no column sets")
        said = "explain.csv: the high is none, and on the tape 10.00: by the other matrix?"
        self.assert_says(self.drawn(desk("tape", ODD_LOT, "2"), desk("explain", ODD_LOT, "1")), said)
        said = "explain.csv: the high is 10.00, and on the tape none: by the other matrix?"
        self.assert_says(self.drawn(desk("tape", ODD_LOT, "1"), desk("explain", ODD_LOT, "2")), said)

    def test_words(self):
        """plot_day.py: a symbol without trades and a missing file of --explained are named; --explained needs --symbol."""
        tape, explained = desk("tape", self.table, "1"), desk("explain", self.table, "1")
        self.assert_says(self.drawn(tape, explained, "XY"), "tape.csv: no trade of XY")
        ended = run(["--symbol", "AB", "--explained", "no-such-file"], tape, program=SCRIPT, cwd=self.folder)
        self.assert_says(ended, "no-such-file: No such file or directory")
        ended = run(["--explained", "explain.csv"], tape, program=SCRIPT, cwd=self.folder)
        self.assertEqual((ended.status, ended.written), (2, b""))
        self.assertIn(b"--explained needs --symbol", ended.said)
