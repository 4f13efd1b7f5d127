"""The program's arguments."""

import os
import re
import subprocess
import tempfile
from pathlib import Path

from support import ROOT, SAMPLES, STORED_DAYS, TAPEBOX, Case, Ended, desk, run

OTHER = [
    [],
    [b"batches"],
    [b"batch\xff"],
    [b"\xff"],
    *map(
        str.split,
        """reports
--help tape
-matrix
batch 3
batch 1 2
batch -
live AB N 0 9001 9002 9003 1 7
live AB N 9000 0 9002 9003 1 7
live AB N 9000 9001 65536 9003 1 7
live AB N 9000 9001, 9002 9003 1 7
live AB N 9000 9001,0 9002 9003 1 7
live AB N 9000 9001 9002,,9004 9003 1 7
live AB N 9000 9001 9002 0 1 7
live ab N 9000 9001 9002 9003 1 7
live ABCDEFGHI N 9000 9001 9002 9003 1 7
live AB n 9000 9001 9002 9003 1 7
live AB N 9000 9001 9002 9003 1 7 3
live AB N 9000 9001 9002 9003 1 7 1 0
live AB N 9000 9001 9002 9003 1 7 1 16777217
follow AB N 0 9002 9003 7
follow AB N 9001 65536 9003 7
follow AB N 9001 9002 0 7
follow AB N 9001 9002 9003 -7
follow AB,AB N 9001 9002 9003 7
follow AB N,1 9001 9002 9003 7
follow AB N 9001 9002 9003 7 2 0
follow AB N 9001 9002 9003 7 1048576
watch AB N 9001 9002 9003 -7""".splitlines(),
    ),
]
# The words of a table, as they are given on one: all take a file's name after these.
MATRIX_WORDS = [["report"], ["tape"], ["explain"]]
TABLE_WORDS = [*MATRIX_WORDS, ["check"], ["encode"], ["line", "N"]]
# Each word with an argument that it does not take, and what is said of that.
WRONG = [
    ("report --matrix 3", "wrong argument '3'; --matrix takes 1 or 2"),
    ("report --matrix", "no value; --matrix takes 1 or 2"),
    ("report --matrix=3", "wrong argument '--matrix=3'; --matrix takes 1 or 2"),
    ("report --matrx 2", "unexpected argument '--matrx'; a similar one is '--matrix'"),
    ("report --matrix 1 --matrix 2", "repeated argument '--matrix'"),
    ("tape --strict=1", "unexpected argument '--strict=1'; a similar one is '--strict'"),
    ("tape --matrix two", "wrong argument 'two'; --matrix takes 1 or 2"),
    ("explain --strickt", "unexpected argument '--strickt'; a similar one is '--strict'"),
    ("report --strict --matrix 2 one.csv two.csv", "unexpected argument 'two.csv'"),
    ("check --strict", "unexpected argument '--strict'"),
    ("check one.csv two.csv", "unexpected argument 'two.csv'"),
    ("verify --strict", "unexpected argument '--strict'"),
    ("encode --matrix 1", "unexpected argument '--matrix'"),
    ("decode -x", "unexpected argument '-x'"),
    ("line", "no PARTICIPANT"),
    ("line n", "wrong argument 'n'; PARTICIPANT is a letter A to Z"),
    ("line NQ", "wrong argument 'NQ'; PARTICIPANT is a letter A to Z"),
    ("line N one.csv two.csv", "unexpected argument 'two.csv'"),
    ("follow --follower 0 day.toml", "wrong argument '0'; --follower takes 1 to 65535"),
    ("watch --follower day.toml", "wrong argument 'day.toml'; --follower takes 1 to 65535"),
    ("live --follower 1 day.toml", "unexpected argument '--follower'"),
    ("live --partial day.toml", "unexpected argument '--partial'"),
    ("watch --partial day.toml", "unexpected argument '--partial'"),
    ("follow --partial=1 day.toml", "unexpected argument '--partial=1'; a similar one is '--partial'"),
    ("follow --partial --follower=2 --partial day.toml", "repeated argument '--partial'"),
    ("status --follower 1 day.toml", "unexpected argument '--follower'"),
    ("status", "no DAY.toml"),
    ("end day.toml next.toml", "unexpected argument 'next.toml'"),
]
ALL_COMMANDS = "the commands are report tape explain check verify encode decode line batch live follow watch status end; tapebox --help describes them"
# Bad arguments, and what helps with them.
HINTS = [
    ("", ALL_COMMANDS),
    ("sort", ALL_COMMANDS),
    ("--help tape", ALL_COMMANDS),
    ("reprot", "a similar command is report; tapebox --help lists all"),
    ("lin N day.csv", "a similar command is line; tapebox --help lists all"),
    ("batch 3", "usage: tapebox batch [1|2]"),
    (
        "live AB N 9000 9001 9002 9003 1",
        "usage: tapebox live DAY.toml | SYMBOLS PARTICIPANTS PORT A B RETRANS SERVES SESSION [MATRIX [LIMIT]]",
    ),
    ("watch AB N", "usage: tapebox watch [--follower N] DAY.toml | JOURNAL | SYMBOLS PARTICIPANTS A B RETRANS SESSION [MATRIX [LIMIT]]"),
]

# What is said of a wrong argument, before the word's form of use.
SAID = [
    ("report --matrx 2", "unexpected argument '--matrx'; a similar one is '--matrix'"),
    ("check --matrix 2", "unexpected argument '--matrix'"),
    ("report --strict --strict", "repeated argument '--strict'"),
    ("report --matrix=3", "wrong argument '--matrix=3'; --matrix takes 1 or 2"),
    ("follow day.toml --follower 0", "wrong argument '0'; --follower takes 1 to 65535"),
    ("tape --matrix", "no value; --matrix takes 1 or 2"),
    ("line n", "wrong argument 'n'; PARTICIPANT is a letter A to Z"),
    ("line", "no PARTICIPANT"),
    ("watch --follower=2", "no DAY.toml"),
]


class Words(Case):
    def test_arguments_that_are_none(self):
        """OPERATING, "Statuses": any other arguments are bad arguments, and nothing is read."""
        day = (SAMPLES / "first-day.txt").read_bytes()
        for words in OTHER:
            with self.subTest(words):
                self.assert_bad_arguments(run(words, day))

    def test_a_hint(self):
        """OPERATING, "Statuses", 2: behind the line about bad arguments stands the use of the word, a word that is spelled alike, or all words."""
        for words, hint in HINTS:
            with self.subTest(words):
                self.assert_bad_arguments(run(words.split()), re.escape(hint.encode()))

    def test_a_batch_by_either_matrix(self):
        """FORMATS, "A batch": without a matrix a batch goes by Matrix One, which lacks the codes of Matrix Two."""
        day = (SAMPLES / "first-day.txt").read_bytes()
        self.assertEqual(run(["batch"], day), run(["batch", "1"], day))
        stopped = b"AB\nN\nN 0026524e000000010000000000000000414220202020202000000000000186a00000006440202032\n"
        self.assertTrue(run(["batch"], stopped).written.startswith(b"refused 44 NotInMatrix\n"))
        self.assertTrue(run(["batch", "2"], stopped).written.startswith(b"1\n"))


class TableWords(Case):
    """The words of a table with a file's name and options."""

    TABLES = [SAMPLES / "corrections.csv", SAMPLES / "matrix-two.csv"]

    def test_a_named_file(self):
        """README, "Five minutes: a table": a word writes the same of a file that is named, of standard input and of standard input by the name -."""
        for table in self.TABLES:
            for words in TABLE_WORDS:
                with self.subTest(words, table=table.name):
                    given = run(words, table.read_bytes())
                    self.assertEqual(run([*words, table]), given)
                    self.assertEqual(run([*words, "-"], table.read_bytes()), given)
        tape = desk("tape", given=self.TABLES[0].read_bytes()).written
        with tempfile.NamedTemporaryFile() as file:
            file.write(tape)
            file.flush()
            self.assertEqual(run(["verify", file.name]), run(["verify"], tape))
        for day in STORED_DAYS[:1]:
            self.assertEqual(run(["decode", day]), run(["decode"], day.read_bytes()))

    def test_options_in_any_order(self):
        """OPERATING: options stand before or after the file's name, in any order, and Matrix One is used if none is named."""
        table = self.TABLES[1]
        for words in MATRIX_WORDS:
            one, two = (desk(*words, given=table.read_bytes(), matrix=matrix) for matrix in "12")
            self.assertNotEqual(one.written, two.written)
            self.assertEqual(run([*words, table]), one)
            for more in ([table, "--matrix", 2], ["--matrix", 2, table], ["--matrix=2", table]):
                with self.subTest(words, more=more):
                    self.assertEqual(run([*words, *more]), two)
            for more in (["--strict", "--matrix", 2, table], [table, "--matrix", 2, "--strict"], ["--matrix", 2, table, "--strict"]):
                with self.subTest(words, more=more):
                    self.assertEqual(run([*words, *more]), two)

    def test_strict(self):
        """README, "Five minutes: a table": with --strict a row that the tape refuses ends a word with 2; the rows are counted and nothing is written."""
        table = self.TABLES[0]
        for words in MATRIX_WORDS:
            with self.subTest(words):
                plain = run([*words, table])
                self.assertEqual((plain.status, plain.said.count(b"\n")), (0, 1))
                self.assert_fault(run([*words, "--strict", table]), (2, plain.said))

    def test_a_wrong_argument(self):
        """OPERATING, "Statuses", 2: an argument that a word does not take is named, with the word's form of use, and nothing is read."""
        forms = {word: run([word, "--help"]).written.decode().splitlines()[0] for word in {words.split()[0] for words, _ in WRONG}}
        for words, named in WRONG:
            with self.subTest(words):
                ended = run(words.split(), (SAMPLES / "corrections.csv").read_bytes())
                lines = f"tapebox: {named}\ntapebox: usage: {forms[words.split()[0]]}\n"
                self.assert_fault(ended, (2, lines.encode()))

    def test_what_is_said_of_a_wrong_argument(self):
        """OPERATING, "Statuses", 2: why an argument is wrong, and a similar one if there is one."""
        for words, text in SAID:
            with self.subTest(words):
                self.assertEqual(run(words.split()).said.decode().splitlines()[0], f"tapebox: {text}")

    def test_a_file_that_cannot_be_opened(self):
        """OPERATING, "Statuses", 3: a file that is not there, or is a folder, is named, with the reason."""
        of_days = [["live"], ["follow"], ["watch"], ["status"], ["end"]]
        for name, why in (("no-such-file.toml", "no such file"), (SAMPLES, "is a directory")):
            for words in [*TABLE_WORDS, ["verify"], ["decode"], *of_days]:
                with self.subTest(words, name=name):
                    self.assertEqual(run([*words, name]), Ended(3, b"", f"tapebox: {name}: {why}\n".encode()))

    def test_a_reader_that_ends(self):
        """OPERATING, "Statuses", 4: a pipe whose reader has ended ends a word with its status."""
        for words in TABLE_WORDS:
            with self.subTest(words):
                reader, writer = os.pipe()
                os.close(reader)
                ended = run([*words, self.TABLES[0]], stdout=writer)
                os.close(writer)
                self.assertEqual(ended.status, 4)


class Help(Case):
    def test_help(self):
        """Asked for help, the program and each word say how they are used, read nothing, and have the same forms as `./run --help`."""
        whole = run(["--help"])
        self.assertEqual(whole, Ended(0, whole.written, b""))
        forms = re.findall(rb"(?m)^ *(tapebox [a-z]+ .*|tapebox [a-z]+)$", whole.written)
        words = sorted({form.split()[1] for form in forms})
        self.assertEqual(words, sorted(b"report tape explain check verify encode decode line batch live follow watch status end".split()))
        for word in words:
            with self.subTest(word):
                ended = run([word, "--help"])
                self.assertEqual((ended.status, ended.said), (0, b""))
                self.assertIn(ended.written.splitlines()[0], whole.written)
        self.assertIn(b"it does not show that no message is missing or changed", run(["verify", "--help"]).written)
        listed = subprocess.run([ROOT / "run", "--help"], stdout=subprocess.PIPE, check=True).stdout
        for form in forms:
            self.assertIn(form + b"\n", listed)

    def test_version(self):
        """`--version` tells the program's own version, the commit and the kit by which it was built."""
        ended = run(["--version"])
        self.assertEqual((ended.status, ended.said), (0, b""))
        built = Path(f"{TAPEBOX}.build").read_text(encoding="utf-8")
        self.assertRegex(ended.written.decode(), r"\Atapebox \d+\.\d+")
        self.assertIn(built.strip(), ended.written.decode())
