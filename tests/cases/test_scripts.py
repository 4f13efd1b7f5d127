"""What each script says of itself, of words that it does not take, and of files at fault."""

import os
import re
import shutil
import tempfile
import unittest

from support import BENCH, DEV, PACKAGING, ROOT, SAMPLES, TAPEBOX, TESTS, TOOLS, Case, report_rows, run

MISSING = "no-such-file"
# What works without words and is not to be run here: it builds, installs, writes a page, measures or runs a day.
WITHOUT_WORDS = {"run", "gate", "build", "set_up", "mark_built.py", "run_cases.py", "definitions.py", "lines.py", "promises.py", "page_parts.py", "lossy_day.sh", "package.sh", "stored_outputs.py"}
WITHOUT_WORDS |= {"picture", "all.py", "journals.py", "latency.py", "live_load.py", "long_day.py", "measure.py", "readers.py", "tables.py"}
READS_INPUT = {"plot_day.py"}
# Scripts that read a table, by the words after its path.
READERS = [
    (TOOLS / "split_day.py", [1, "."]),
    (TOOLS / "split_day.py", [1]),
    (TOOLS / "send_day.py", [9_000]),
    (TESTS / "lossy_day.sh", []),
]


def scripts():
    """Each script of the repository that people run."""
    folders = [ROOT, ROOT / ".ci", BENCH, DEV, PACKAGING, TESTS, TOOLS, ROOT / "clib", ROOT / "web"]
    files = [path for folder in folders for path in sorted(folder.iterdir()) if path.is_file()]
    return [path for path in files if path.read_bytes()[:2] == b"#!"]


class Scripts(Case):
    def ran(self, script, *words, given=b""):
        """How a script ended in an empty folder."""
        with tempfile.TemporaryDirectory() as folder:
            return run(words, given, program=script, cwd=folder, env=os.environ | {"TAPEBOX": str(TAPEBOX)})

    def assert_names(self, ended, fault):
        """It ended with 1, wrote nothing, and said one line: a script's name, and what is at fault first."""
        self.assertEqual((ended.status, ended.written), (1, b""))
        self.assertRegex(ended.said.decode(), rf"\A[a-z_]+\.(py|sh): {fault}[^\n]*\n\Z")

    def test_help(self):
        """Asked for help, each script that can be run says what it does and what its statuses are, and does nothing else."""
        self.assertGreaterEqual(len(scripts()), 12)
        for script in scripts():
            for word in ("--help", "-h"):
                with self.subTest(script.name, word=word):
                    ended = self.ran(script, word)
                    self.assertEqual((ended.status, ended.said), (0, b""))
                    self.assertRegex(ended.written.decode(), r"[Ss]tatuses")
                    self.assertIn(script.name, ended.written.decode())

    def test_listed(self):
        """TOOLS: the page, which README's list has, names each script once, and each module and dissector of tools/."""
        page = (ROOT / "docs" / "TOOLS.md").read_text(encoding="utf-8")
        self.assertIn("(docs/TOOLS.md)", (ROOT / "README.md").read_text(encoding="utf-8"))
        others = [path for path in TOOLS.iterdir() if path.is_file() and path not in scripts()]
        named = re.findall(r"`([\w./]+)`", " ".join(line.split(" | ")[0] for line in page.splitlines() if line.startswith(("| `", "`tools/"))))
        listed = [name for name in named if (ROOT / name).is_file()]
        self.assertEqual(sorted(listed), sorted(str(path.relative_to(ROOT)) for path in [*scripts(), *others]))

    def test_no_words(self):
        """Without the words that it needs a script shows them and ends with 2. One that reads standard input instead says that there is nothing in it."""
        for script in scripts():
            if script.name in WITHOUT_WORDS and script != ROOT / "run":
                continue
            with self.subTest(script.name):
                ended = self.ran(script)
                if script.name in READS_INPUT:
                    self.assert_names(ended, "standard input")
                else:
                    self.assertEqual((ended.status, ended.written), (2, b""))
                    self.assertRegex(ended.said, rb"usage: |tapebox batch")

    def test_words_beyond(self):
        """A word that a script does not take ends it with 2, before it does anything."""
        for script in scripts():
            if script != ROOT / "run":
                with self.subTest(script.name):
                    ended = self.ran(script, *["--bogus"] * 9)
                    self.assertEqual((ended.status, ended.written), (2, b""))

    def test_missing_file(self):
        """A file that is not there ends a script with 1, and is named."""
        for script, more in [*READERS, *((TOOLS / name, []) for name in ("plot_day.py", "day_file.py", "run_day.sh"))]:
            with self.subTest(script.name):
                self.assert_names(self.ran(script, MISSING, *more), MISSING)

    def test_bad_row(self):
        """The first bad row of a table ends a script with 1, and the file and the row are named: the row of the whole table, if a part has it."""
        for row, fault in [("report,N,4,AB,,10.00,0,@___", 'row 8: size "0" is not 1 to 99999999 in at most 20 digits'), ("report,N", "row 8: 2 fields, and the header row has 8")]:
            with tempfile.NamedTemporaryFile("w", suffix=".csv") as table:
                table.write((SAMPLES / "corrections.csv").read_text(encoding="utf-8") + row + "\n")
                table.flush()
                for script, more in READERS:
                    # Only if tapebox is run on the parts is a field at fault.
                    if script.name != "split_day.py" or "fields" in fault or (more == [1] and shutil.which("parallel")):
                        with self.subTest(script.name, row=row):
                            self.assert_names(self.ran(script, table.name, *more), f"{table.name}: {fault}")

    @unittest.skipUnless(shutil.which("parallel"), "no GNU parallel")
    def test_refused_in_several_parts(self):
        """SCALE, "What is kept": the messages that the parts refuse are counted over all parts, and the report is printed."""
        again = "".join(f"report,N,{number},{symbol},,10.00,100,@___\n" for symbol in ("AB", "CD") for number in (5, 5, 5))
        with tempfile.NamedTemporaryFile("w", suffix=".csv") as table:
            table.write("kind,participant,number,symbol,target,price,size,condition\n" + again)
            table.flush()
            ended = self.ran(TOOLS / "split_day.py", table.name, 2)
        self.assertEqual((ended.status, ended.said), (0, b"split_day.py: 4 of 6 messages were refused\n"))
        figures = [(row["symbol"], row["who"], row["trades"]) for row in report_rows(ended.written)]
        self.assertEqual(figures, [(symbol, who, "1") for symbol in ("AB", "CD") for who in ("ALL", "N")])
