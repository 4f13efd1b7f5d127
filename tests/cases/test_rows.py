"""The worked rows of rows/, played over plain rules and over the proved code, by the static library."""

import contextlib
import importlib
import io
import re
import sys
import types
import unittest
from pathlib import Path

import plain_feed
import plain_orders
import play_rows
from drawn_bytes import drawn
from plain_tape import Refused, Summary
from support import ROOT, TESTS, Case, run

FILES = sorted((ROOT / "rows").glob("*.rows"))
LIBRARY = ROOT / "clib" / "libtapebox.so"
# A row with its title, and a step of it with its answer.
ROW = re.compile(r"^row (?P<title>.+)\n(?:(?!row ).*\n)*", re.MULTILINE)
ANSWERED = re.compile(r"^(?P<step>[^#\n]*->)[^#\n]*", re.MULTILINE)
OTHER = " another answer"
# How many small changes of the plain rules are tried here; tests/plant_faults.py tries all.
CHANGES = 60
# Seconds that they may take, also on a machine with other work.
PATIENCE = 300

# Steps that can't be taken at the beginning of a row.
NO_STEPS = [
    "tap AB / N",
    "tape AB / N more",
    "N 1 report AB 10.00 100 @___ -> 1",
    "drain -> 0",
    "read packet",
    "close now",
    "spell hex 0",
    "spell X",
]


class OtherSummaries(plain_feed.Subscriber):
    """A subscriber whose summaries are those of no report."""

    def summary(self, symbol, who=None):
        return Summary(None, None, None, None, 0, 0)


def other_decode(data):
    """A reader of messages that calls no bytes at all too many."""
    if not data:
        raise Refused(11)
    return plain_feed.decode(data)


def other_is_listed(matrix, condition):
    """A matrix with one code more, whose byte is above those of ASCII."""
    return condition == "\xe9___" or plain_feed.is_listed(matrix, condition)


# A tape of one report, which subscribers hold.
HELD = """tape AB / N
N 1 report AB 10.00 100 @___ -> 1
subscriber
A packets 1..1 -> fresh 1
drain -> 1
held -> all 1
"""
# What the player answers if rules answer otherwise, or entries differ: what is otherwise in the plain rules, and the steps.
OTHERS = [
    ({"Subscriber": OtherSummaries}, HELD.replace("all 1", "all 1 with other summaries")),
    ({}, f"{HELD}tape AB / N\nN 1 report AB 10.01 100 @___ -> 1\nheld -> others\n"),
    (
        {},
        f"{HELD}N 2 cancel AB 1 -> 2\nread packet packet 1..2 -> version 1, session 7, entry 1 N 1 report AB 10.00 100 @___, "
        "entry 2 N 2 cancel AB 1 after it volume 0, trades 0\n",
    ),
    ({}, f"{HELD}entry 0 -> none\nentry 1 -> N 1 report AB 10.00 100 @___\nentry 2 -> none\n"),
    ({"decode": other_decode}, "fronts message message N 1 report AB 10.00 100 @___ -> 11 Oversize or 12 Short\n"),
    ({"is_listed": other_is_listed}, "codes 1 1 -> @CNR\xe9\n"),
    ({}, f"{HELD}A beat 1 with 00200000 at 10 -> 54 BadCount / nothing / 54 BadCount / nothing\n"),
]


def play(*words, given="", folder=TESTS):
    """How the player ended."""
    return run(["-B", folder / "play_rows.py", *words], given.encode(), program=sys.executable)


def rows():
    """Each row of all files, with its file; its lines have the numbers that they have there."""
    for file in FILES:
        text = file.read_text(encoding="ascii")
        for row in ROW.finditer(text):
            yield file, row["title"], "\n" * text.count("\n", 0, row.start()) + row[0]


def changed(text):
    """A row's text with each of its answers in turn another one, and the number of that line."""
    for found in ANSWERED.finditer(text):
        yield text.count("\n", 0, found.start()) + 1, text[: found.start()] + found["step"] + OTHER + text[found.end() :]


# Of each kind of drawn bytes how many there are, what reads them, and their faults.
DRAWN = [
    ("packet", 20_000, "decode_packet", {*range(51, 58)}),
    ("message", 20_000, "decode", {*range(11, 22)}),
    ("request", 1_000, "decode_request", {73}),
    ("answer", 2_000, "read_answer", {74, 76}),
]


def outcome(read, data):
    """What is read of bytes, or the number of the refusal and what comes with it."""
    try:
        return "read", read(data)
    except Refused as refusal:
        return "refused", refusal.code, refusal.detail


class Rows(Case):
    """Over plain rules."""

    RULES = "plain_feed"

    def test_all_rows(self):
        """rows/README.md: all answers of all rows are as wanted."""
        ended = play("--over", self.RULES, *FILES)
        answers, count = sum(len(ANSWERED.findall(text)) for _, _, text in rows()), len(list(rows()))
        self.assert_writes(ended, ended.written)
        self.assertEqual(ended.written.decode().splitlines()[-1], f"{answers} answers of {count} rows, 0 differ")
        self.assertIn(f"{answers} answers in {count} rows", (ROOT / "rows" / "README.md").read_text(encoding="utf-8"))

    def test_each_answer_is_compared(self):
        """rows/README.md, "Lines": whichever answer is another one, its line alone is named."""
        rules = importlib.import_module(self.RULES)
        for file, title, text in rows():
            for line, other in changed(text):
                with self.subTest(file=file.name, row=title, line=line), contextlib.redirect_stdout(io.StringIO()) as written:
                    [(_, played)] = play_rows.play("-", other, rules)
                    self.assertEqual((played.differ, re.findall(r"(?m)^-:(\d+): ", written.getvalue())), (1, [str(line)]))

    def test_a_step_that_is_none_is_a_difference(self):
        """rows/README.md, "Lines": a step that can't be taken is a difference too, whether it wants an answer or not."""
        for step in NO_STEPS:
            with self.subTest(step):
                ended = play("--over", self.RULES, "-", given=f"row One\n{step}\n")
                self.assertEqual(ended.status, 1)
                self.assertIn(f"-:2: {step}\n    answered: no answer: ".encode(), ended.written)


@unittest.skipUnless(LIBRARY.exists(), "clib/libtapebox.so was not built (clib/build)")
class RowsOfTheLibrary(Rows):
    """Over the proved code."""

    RULES = "library_feed"

    def test_changes_in_every_order(self):
        """rows/README.md, "Generated rows": six reports are changed in every order, as a plain list of them answers, and each refusal is met."""
        script = plain_orders.script(seed=7, changes=5_000)
        ended = play("--over", self.RULES, "-", given=script)
        self.assert_writes(ended, ended.written)
        self.assertEqual(ended.written.decode().splitlines()[-1], f"{script.count(' -> ')} answers of 2 rows, 0 differ")
        for refusal in plain_orders.REFUSALS:
            with self.subTest(refusal):
                self.assertGreater(script.count(f" -> {refusal}\n"), 50)

    def test_drawn_bytes(self):
        """FORMATS, "Packets", "A message's bytes" and "Requests and answers": the library reads what the plain readers read of bytes that a seed draws, most
        of them with a fault, and each fault of a packet, a message, a request and an answer is among them."""
        library = importlib.import_module(self.RULES)
        for kind, count, reader, faults in DRAWN:
            wanted = []
            for data in drawn(kind, count):
                if kind == "request" and len(data) != plain_feed.REQUEST.size:
                    continue
                read = outcome(getattr(plain_feed, reader), data)
                wanted.append(read)
                if outcome(getattr(library, reader), data) != read:
                    self.fail(f"{kind} {data.hex()}: {outcome(getattr(library, reader), data)}, not {read}")
            with self.subTest(kind):
                self.assertEqual({read[1] for read in wanted if read[0] == "refused"}, faults)


class RowsOfJournals(Case):
    """Over the built program."""

    def test_all_rows(self):
        """FORMATS, "A journal": `verify` finds of each journal of the rows what is wanted."""
        ended = play("--over", "journal_feed", ROOT / "rows" / "journal.rows")
        self.assertEqual((ended.status, ended.written.splitlines()[-1].endswith(b", 0 differ")), (0, True), ended.written.decode())


class RowsOfReports(Case):
    """Over reports of tables, whose tape keeps the day's end alone."""

    # The steps that a table has, or its report tells of.
    STEP = re.compile(r"(?:tape|summary|last|[A-Z] \d[\d.]*) ")
    # What is refused by no table's own tape, which lists the names in the table and is neither closed nor full: the makings of a tape, Closed,
    # Full, UnknownParticipant, UnknownSymbol.
    OTHER = re.compile(r"(?:-> \d|\b3[1246]) [A-Z]")
    LEAST = 15

    def told(self, text):
        """The steps of a text that a table has, or its report tells of. A message that is refused otherwise changes nothing."""
        return [line for line in text.splitlines() if self.STEP.match(line) and not self.OTHER.search(line)]

    def test_rows_of_a_tape(self):
        """rows/README.md: the rows of a tape are played over reports too, as far as these tell."""
        told = [self.told(text) for _, _, text in rows()]
        played = [steps for steps in told if any(step.startswith(("summary", "last")) for step in steps)]
        self.assertGreaterEqual(len(played), self.LEAST)
        self.assert_as_wanted(played)

    def test_changes_in_every_order(self):
        """rows/README.md, "Generated rows": so are these, in which six reports are changed in every order."""
        self.assert_as_wanted([self.told(plain_orders.script(seed=7, changes=100))])

    def assert_as_wanted(self, played):
        ended = play("--over", "report_feed", "-", given="".join(f"{step}\n" for steps in played for step in ["row A tape", *steps]))
        self.assertEqual(ended.status, 0, ended.written.decode())


class Page(Case):
    def test_each_row_is_named_once(self):
        """ROWS, "The suite": it names the rows of each file in their order, and no two rows have one name."""
        page = " ".join((ROOT / "rows" / "ROWS.md").read_text(encoding="utf-8").split())
        names = [title for _, title, _ in rows()]
        self.assertEqual(len(set(names)), len(names))
        for file in FILES:
            with self.subTest(file.name):
                self.assertIn(f"{file.name})**: {'; '.join(title for named, title, _ in rows() if named == file)}.", page)


class Player(Case):
    def test_what_is_otherwise_is_told(self):
        """rows/README.md, "Players": summaries, entries, fronts, codes and ways that differ are told, each by an answer of its own."""
        for names, steps in OTHERS:
            rules = types.SimpleNamespace(**(vars(plain_feed) | names))
            with self.subTest(steps), contextlib.redirect_stdout(io.StringIO()) as written:
                [(_, played)] = play_rows.play("-", f"row One\n{steps}", rules)
                self.assertEqual((played.differ, written.getvalue()), (0, ""))

    def test_bad_arguments(self):
        """tests/play_rows.py: a module or a file that can't be read, or another word, ends it with status 2 before anything is played."""
        for words in (["--over", "no_module", *FILES], [*FILES, "none.rows"], ["--other"]):
            with self.subTest(words):
                ended = play(*words)
                self.assertEqual((ended.status, ended.written), (2, b""))


class Planted(Case):
    def test_planted_faults_are_seen(self):
        """ROWS, "The suite": whatever is planted in the plain rules is seen by a row."""
        ended = run(["-B", TESTS / "plant_faults.py", "--count", CHANGES], program=sys.executable, limit=PATIENCE)
        self.assertEqual((ended.status, ended.said), (0, b""), ended.written.decode())
        self.assertRegex(ended.written.decode(), r"\Alisted: 24; [^\n]+\n84 of [5-9]\d\d faults planted, 0 passed\n\Z")


if __name__ == "__main__":
    unittest.main()
