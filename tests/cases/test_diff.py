"""Two days through `tools/diff.py`, beside a plain dictionary of their rows."""

import csv
import gzip
import io
import os
import random
import tempfile
from decimal import Decimal
from pathlib import Path

from support import SAMPLES, TOOLS, Case, run

SCRIPT = TOOLS / "diff.py"
HEAD = "symbol,participant,number,column,a,b,change\n"
# By kind: what a row is matched by, and what is a place.
KEYS = {"tape": ["symbol", "participant", "number"], "report": ["symbol", "who"], "explain": ["symbol", "participant", "number"]}
PLACES = {"tape": ["tape"], "report": ["open_at", "high_at", "low_at", "last_at"], "explain": ["tape", "row", "changed"]}
SEEDS = 12


def rows_of(text):
    """The rows of a text by their columns."""
    return list(csv.DictReader(io.StringIO(text)))


def by_key(kind, text):
    """The rows by what matches them: a refused message has a key of its own, and each further one of the same number another."""
    found = {}
    for row in rows_of(text):
        key, again = (*(row[name] for name in KEYS[kind]), bool(row.get("refused"))), 0
        while (*key, again) in found:
            again += 1
        found[*key, again] = row
    return found


def change(one, other):
    """By how much a number differs from another."""
    try:
        return f"{Decimal(other) - Decimal(one):+f}"
    except ArithmeticError:
        return ""


def expected(kind, a, b, with_places=False):
    """The differences as rows, in any order."""
    one, other, found = by_key(kind, a), by_key(kind, b), []
    for key in one.keys() | other.keys():
        shown = (*key[: len(KEYS[kind])], "")[:3]
        if key not in one or key not in other:
            found.append((*shown, "only in a" if key in one else "only in b", "", "", ""))
            continue
        for name, before in one[key].items():
            after = other[key][name]
            if before != after and (with_places or name not in PLACES[kind]):
                found.append((*shown, name, before, after, change(before, after)))
    return sorted(found)


def changed(text, seed):
    """A text of which some rows are lost, moved or changed in a field, by a seed."""
    dice = random.Random(seed)
    head, *lines = text.splitlines()
    lines = [line for line in lines if dice.random() > 0.05]
    for _ in range(dice.randrange(6)):
        at, to = dice.randrange(len(lines)), dice.randrange(len(lines))
        lines.insert(to, lines.pop(at))
    for _ in range(dice.randrange(6)):
        at = dice.randrange(len(lines))
        fields = lines[at].split(",")
        place = dice.choice([place for place, field in enumerate(fields) if field.replace(".", "").isdigit()])
        fields[place] = fields[place][:-1] + str(dice.randrange(10))
        lines[at] = ",".join(fields)
    return "\n".join([head, *lines, ""])


class Differences(Case):
    def setUp(self):
        folder = tempfile.TemporaryDirectory()
        self.addCleanup(folder.cleanup)
        self.folder = Path(folder.name)

    def compared(self, a, b, *words):
        """How the script ended on two texts."""
        (self.folder / "a.csv").write_bytes(a if isinstance(a, bytes) else a.encode())
        (self.folder / "b.csv").write_bytes(b if isinstance(b, bytes) else b.encode())
        return run([*words, "a.csv", "b.csv"], program=SCRIPT, cwd=self.folder)

    def text(self, word):
        """What a command writes of the sample morning."""
        return run([word, SAMPLES / "morning.csv"]).written.decode()

    def test_seeded_texts(self):
        """diff.py: what it writes of two texts is what a dictionary of their rows has, with and without places."""
        for word in ("tape", "report", "explain"):
            text = self.text(word)
            for seed in range(SEEDS):
                other = changed(text, seed)
                for places in (False, True):
                    with self.subTest(word=word, seed=seed, places=places):
                        ended = self.compared(text, other, *["--places"] * places)
                        wanted = expected(word, text, other, places)
                        self.assertEqual(ended.written.decode().splitlines(keepends=True)[0], HEAD)
                        self.assertEqual(sorted(map(tuple, csv.reader(io.StringIO(ended.written.decode()[len(HEAD) :])))), wanted)
                        self.assertEqual(ended.status, 1 if wanted else 0)
                        self.assertTrue(ended.said.decode().endswith(f"diff.py: {f'{len(wanted)} in all' if wanted else 'no difference'}\n"))

    def test_another_order(self):
        """diff.py: rows in another order differ by their places alone; a file may be compressed."""
        text = self.text("explain")
        head, *lines = text.splitlines()
        ended = self.compared(text, gzip.compress("\n".join([head, *lines[::-1], ""]).encode()), "--places")
        self.assertEqual((ended.status, ended.written.decode(), ended.said), (0, HEAD, b"diff.py: no difference\n"))

    def test_faults(self):
        """diff.py: a file that can't be compared ends it with 2, and names it."""
        tape, report = self.text("tape"), self.text("report")
        short = tape.splitlines()[0] + "\n1,,report\n"
        for a, b, said in [
            (tape, report, "a.csv is of another kind than b.csv: tape, report"),
            ("", tape, "a.csv: neither a report nor a tape nor an explanation nor a journal"),
            (tape, short, "b.csv: row 2: 3 fields, and the header row has 17"),
            (tape, tape.replace("N", "Q") + "1\n", f"b.csv: row {tape.count(chr(10)) + 1}: 1 fields, and the header row has 17"),
            (tape, b"\xff\xfe", "b.csv: 'utf-8' codec can't decode byte 0xff in position 0: invalid start byte"),
        ]:
            with self.subTest(said):
                ended = self.compared(a, b)
                self.assertEqual((ended.status, ended.written, ended.said.decode()), (2, b"", f"diff.py: {said}\n"))
        ended = run(["a.csv", "none.csv"], program=SCRIPT, cwd=self.folder)
        self.assertEqual((ended.status, ended.said.decode()), (2, "diff.py: none.csv: No such file or directory\n"))
        with open("/dev/full", "wb") as full:
            ended = run(["a.csv", "a.csv"], program=SCRIPT, cwd=self.folder, stdout=full)
        self.assertEqual((ended.status, ended.said.decode()), (2, "diff.py: standard output: No space left on device\n"))

    def test_a_program_at_fault(self):
        """diff.py, 2: for a journal, a program that is missing is named in one line, and so is one that fails without a message, with its status."""
        silent = "a.csv: /bin/false ended with status 1 and no message"
        for program, fault in [("/no/such/program", "/no/such/program: No such file or directory"), ("/bin/false", silent)]:
            with self.subTest(program):
                (self.folder / "a.csv").write_bytes(b"tapejrnl")
                ended = run(["a.csv", "a.csv"], program=SCRIPT, cwd=self.folder, env=os.environ | {"TAPEBOX": program})
                self.assertEqual((ended.status, ended.said.decode()), (2, f"diff.py: {fault}\n"))
