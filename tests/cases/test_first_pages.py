"""What README and FAQ show of a run: each command that stands behind a dollar sign writes what stands below it."""

import os
import re
import subprocess

from support import ROOT, SAMPLES, TAPEBOX, TESTS, TOOLS, desk, report_rows, transcripts
from cases.test_reports import LIMIT, PageCase

README = "../README.md"
# What the script of a lossy day says in each run; its counts differ a little from run to run.
LOSSY = ["line A: ", "line B: ", "tapebox: line A: ", "tapebox: line B: ", "tapebox: retransmission: ", "tapebox: entries: ", "live and follow wrote the same report"]


class FirstPages(PageCase):
    def setUp(self):
        super().setUp()
        self.folder = self.new_folder(ROOT / "run")
        for folder in (SAMPLES, TESTS, TOOLS):
            (self.folder / folder.name).symlink_to(folder)

    def ran(self, command):
        """What a command writes to standard output, or to standard error if that goes to a file."""
        environment = os.environ | {"TAPEBOX": str(TAPEBOX)}
        done = subprocess.run(["sh", "-c", command], cwd=self.folder, env=environment, capture_output=True, check=False, timeout=LIMIT)
        written = done.stderr if " > " in command else done.stdout
        return "\n".join(line for line in written.decode().splitlines() if not line.startswith("run: "))

    def test_commands(self):
        """README, "Five minutes: a table", and FAQ: the commands write what the pages show."""
        for page in (README, "FAQ.md"):
            for command, shown in transcripts(page):
                if "lossy" not in command:
                    with self.subTest(page, command=command):
                        self.assertEqual(self.ran(command), shown.rstrip("\n"))

    def test_a_lossy_day(self):
        """README, "Two minutes: a lossy day": a gap and its refill are told as the page shows it, and the report counts what the table's does."""
        [(command, shown)] = [run for run in transcripts(README) if "lossy" in run[0]]
        for written in (shown, self.ran(command)):
            lines = written.splitlines()
            self.assertEqual([line for line in LOSSY if not any(each.startswith(line) for each in lines)], [])
            asked, brought = re.search(r"retransmission: (\d+) requests?, (\d+) packets?", written).groups()
            self.assertGreater(int(asked), 0)
            self.assertGreater(int(brought), 0)
        reports = [(self.folder / "report.csv").read_bytes(), desk("report", given=(SAMPLES / "morning.csv").read_bytes()).written]
        self.assertEqual(*({(row["symbol"], row["who"]): (row["volume"], row["trades"]) for row in report_rows(report)} for report in reports))
