"""`dev/lines.py`: the lines of each crate by kind, and the budget of all of them."""

import shutil
import tempfile
from pathlib import Path

from support import ROOT, Case, run

# A file of code: the kind of each line stands beside it.
CODE = """//! Twice a number. comments
#![tactic(auto)] contracts
 blank
ghost use Rattle.std.specs.Prelude.{ imports
    ◌≡◌, imports
}; imports
use std::alloc::Global; imports
 blank
/// Twice a number. comments
pub fn twice(number: u32) -> u64 code
    requires { number ≤ 9 } contracts
    ensures { result contracts
        ≡ number + number } contracts
{ braces
    // It is small. comments
    u64::from(number) * 2 code
} braces
 blank
mod tests { tests
 tests
    use super::twice; tests
} tests
"""
OTHERS = {"src/tests.rt": 2, "src/tests/rows.rt": 3, "specs/Lib.antt": 4, "proofs/twice/Answers.antt": 5, "out/rlib/Built.antt": 6, "must-fail/thrice.edit": 7}
KINDS = ["code", "braces", "imports", "contracts", "comments", "blank", "tests", "specs", "proofs"]


class Lines(Case):
    def setUp(self):
        folder = tempfile.TemporaryDirectory()
        self.addCleanup(folder.cleanup)
        self.root = Path(folder.name)
        self.script = self.root / "dev" / "lines.py"
        self.script.parent.mkdir()
        shutil.copy(ROOT / "dev" / "lines.py", self.script)
        pairs = [line.rpartition(" ")[::2] for line in CODE.splitlines()]
        self.write("src/lib.rt", "".join(f"{line}\n" for line, _ in pairs))
        for name, count in OTHERS.items():
            self.write(name, "line\n" * count)
        self.counts = [sum(kind == of for _, of in pairs) for kind in KINDS]
        for kind, more in (("tests", 5), ("specs", 4), ("proofs", 5)):
            self.counts[KINDS.index(kind)] += more

    def write(self, name, text):
        path = self.root / "crates" / "twice" / name
        path.parent.mkdir(parents=True, exist_ok=True)
        path.write_text(text, encoding="utf-8")

    def test_kinds(self):
        """Each line has one kind; what is built and the edits are not counted."""
        ended = run([], program=self.script)
        head, crate, total = (line.split() for line in ended.written.decode().splitlines())
        self.assertEqual((ended.status, ended.said, head), (0, b"", ["crate", *KINDS, "all"]))
        wanted = [str(count) for count in (*self.counts, sum(self.counts))]
        self.assertEqual((crate, total), (["twice", *wanted], ["all", *wanted]))

    def test_budget(self):
        """As many lines as the budget has are good; one more ends it with 1, and a file that is no budget with 2."""
        budget, total = self.root / "lines.txt", sum(self.counts)
        for text, status, said in [
            (f"{total}\n", 0, ""),
            (f"{total - 1}\n", 1, f"lines.py: {total} lines, over the budget of {total - 1} in {budget}\n"),
            ("few\n", 2, f"{budget}: not one number\n"),
            (None, 2, f"{budget}: No such file or directory\n"),
        ]:
            with self.subTest(text):
                budget.unlink(missing_ok=True)
                if text is not None:
                    budget.write_text(text, encoding="utf-8")
                ended = run(["--budget", budget], program=self.script)
                self.assertEqual(ended.status, status)
                self.assertTrue(ended.said.decode().endswith(said), ended.said)
                self.assertEqual(bool(ended.written), status < 2)
