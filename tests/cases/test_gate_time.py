"""`dev/gate_time.py`: what a command took, by crate and kind, and which of it passed its budget."""

import re
import sys
import tempfile
from pathlib import Path

from support import DEV, Case, run

# Something that takes two seconds of a processor, as a check of a crate by its words, and ends with 3.
BUSY = "import sys, time\nwhile time.process_time() < 2: pass\nsys.exit(3)"


class GateTime(Case):
    def ran(self, budget, *command):
        """How a command ended under a budget."""
        with tempfile.NamedTemporaryFile("w", suffix=".txt") as file:
            file.write(budget)
            file.flush()
            return run(["--budget", file.name, "--", *command], program=DEV / "gate_time.py")

    def test_budgets(self):
        """What passes its budget is named, and the status is the command's."""
        ended = self.ran("# a remark\nlower proof 0.01\nlower tests 0.01\nhigher proof 0.01\n", sys.executable, "-c", BUSY, "--crate-name", "lower")
        self.assertEqual((ended.status, ended.said), (3, b""))
        self.assertRegex(ended.written, rb"(?m)^lower +0\.0 +0\.0 +0\.0 +0\.0 +0\.0$")
        self.assertEqual(re.findall(rb"(?m)^gate_time: (\S+ \w+): \S+ processor minutes, over its budget of 0\.0$", ended.written), [b"lower's proof"])

    def test_bad_budget_or_command(self):
        """A file that is no budget, and a command that is not there, end it with 2 before anything runs."""
        for budget, command, fault in [
            ("# a remark\nlower proof\n", "true", ", line 2: not a crate, a kind and minutes: lower proof"),
            ("lower naming 1\n", "true", ", line 1: not a crate, a kind and minutes: lower naming 1"),
            ("", Path("no-such-command"), "error: no-such-command: No such file or directory"),
        ]:
            with self.subTest(budget=budget, command=command):
                ended = self.ran(budget, command)
                self.assertEqual((ended.status, ended.written), (2, b""))
                self.assertTrue(ended.said.decode().endswith(f"{fault}\n"), ended.said)
