"""The record of must-fail edits: `dev/edits.py` and the copy that the gate runs in, over a small repository."""

import os
import shutil
import subprocess
import tempfile
import unittest
from pathlib import Path

from support import ROOT, Case

# A crate whose one function has a contract, an edit that breaks it, and one that does not.
SOURCE = """//! The lower of two numbers.
#![tactic(auto)]

ghost use Rattle.std.specs.Prelude.{◌≤◌};

/// The lower of two numbers.
pub fn lower(a: u32, b: u32) -> u32
    ensures { result ≤ a }
{
    if a < b { a } else { b }
}
"""
REFUSED = "file: src/lib.rt\nold: if a < b { a } else { b }\nnew: if a < b { b } else { a.max(b) }\n"
STILL_PROVED = "file: src/lib.rt\nold: if a < b { a } else { b }\nnew: a\n"
# How many commits of the record go by until each crate's edits were tried again.
TURNS = 8


class Edits(Case):
    def setUp(self):
        folder = tempfile.TemporaryDirectory()
        self.addCleanup(folder.cleanup)
        self.root = Path(folder.name) / "small"
        for name in ("dev/edits.py", ".ci/gate_copy.py"):
            (self.root / name).parent.mkdir(parents=True, exist_ok=True)
            shutil.copy(ROOT / name, self.root / name)
        self.write("crates.txt", "lower:\n")
        self.write(".gitignore", "out/\n")
        self.write("crates/lower/src/lib.rt", SOURCE)
        self.write("crates/lower/must-fail/turned.edit", REFUSED)
        self.git("init", "-q")

    def write(self, name, text):
        path = self.root / name
        path.parent.mkdir(parents=True, exist_ok=True)
        path.write_text(text, encoding="utf-8")

    def git(self, *words):
        who = ["-c", "user.name=nobody", "-c", "user.email=nobody@example.org"]
        subprocess.run(["git", *who, *words], cwd=self.root, check=True, capture_output=True)

    def commit(self):
        """Commits all, with a change of the record that records nothing."""
        self.write(".ci/refused.txt", f"{self.recorded()}# once more\n")
        self.git("add", "-A")
        self.git("commit", "-q", "-m", "a commit")

    def try_edits(self, *words):
        """The status of `dev/edits.py`, which tries one edit after the other."""
        environment = os.environ | {"RT_JOBS": "1"}
        return subprocess.run(["dev/edits.py", *words], cwd=self.root, env=environment, capture_output=True, check=False).returncode

    def recorded(self):
        """The text of the record."""
        path = self.root / ".ci" / "refused.txt"
        return path.read_text(encoding="utf-8") if path.exists() else ""

    def forge(self):
        """Records the crate as it is, though nothing was tried."""
        forging = "import sys; sys.path.insert(0, 'dev'); import edits; edits.record(edits.ROOT, edits.checksums(edits.ROOT))"
        subprocess.run(["python3", "-B", "-c", forging], cwd=self.root, check=True)

    def copied(self):
        """A copy for the gate, and the two lines about it."""
        folder = tempfile.TemporaryDirectory()
        self.addCleanup(folder.cleanup)
        names = Path(folder.name) / "names"
        subprocess.run([".ci/gate_copy.py", f"{folder.name}/tree", names], cwd=self.root, check=True)
        return Path(folder.name) / "tree", names.read_text(encoding="utf-8").splitlines()

    def is_tried(self):
        """Whether the gate tries the crate's edits, by the copy and by its lines, which agree."""
        copy, lines = self.copied()
        has_edits = (copy / "crates" / "lower" / "must-fail").is_dir()
        tried, taken = ("lower", "none") if has_edits else ("none", "lower")
        self.assertEqual(lines, [f"ci: edits tried: {tried}", f"ci: edits taken from the record: {taken}"])
        return has_edits

    @unittest.skipUnless(shutil.which("git"), "no git")
    def test_a_run_tries_what_it_has_time_for(self):
        """Of more edits than a run has time for some wait, and the next run begins with others. A comment makes no edit due."""
        names = ["first", "lower", "second"]
        self.write("crates.txt", "".join(f"{name}:\n" for name in names))
        for name in names:
            for place in range(40):
                self.write(f"crates/{name}/must-fail/{place}.edit", REFUSED)
        begun = []
        for _ in names:
            self.commit()
            copy, lines = self.copied()
            tried = [name for name in names if (copy / "crates" / name / "must-fail").is_dir()]
            waiting = [name for name in names if name not in tried]
            self.assertEqual(lines[:2], [f"ci: edits tried: {' '.join(tried)}", f"ci: edits that wait for another run: {' '.join(waiting)}"])
            self.assertEqual(len(tried), 1)
            begun += tried
        self.assertEqual(sorted(begun), names)
        before = self.sums()
        self.write("crates/lower/src/lib.rt", SOURCE.replace("/// The lower of", "/// The lesser of"))
        self.assertEqual(self.sums(), before)
        self.write("crates/lower/src/lib.rt", SOURCE.replace("a < b", "a <= b"))
        self.assertNotEqual(self.sums(), before)

    def sums(self):
        """The checksums of the crates, as text."""
        asking = "import sys; sys.path.insert(0, 'dev'); import edits; print(edits.checksums(edits.ROOT))"
        return subprocess.run(["python3", "-B", "-c", asking], cwd=self.root, capture_output=True, check=True).stdout

    @unittest.skipUnless(shutil.which("git"), "no git")
    def test_what_is_recorded_is_not_tried(self):
        """A crate is recorded once its edits are refused. What changes of it makes them due, and so does its eighth."""
        self.commit()
        self.assertTrue(self.is_tried())
        self.assertEqual(self.try_edits("--changed"), 0)
        self.assertRegex(self.recorded(), r"\Alower [0-9a-f]{64}\n\Z")
        turns = []
        for _ in range(TURNS):
            self.commit()
            turns.append(self.is_tried())
        self.assertEqual(turns.count(True), 1)
        if turns[-1]:
            self.commit()
        for name, text in [
            ("crates/lower/src/lib.rt", SOURCE.replace("a < b", "a <= b")),
            ("crates/lower/src/lib.rt", SOURCE.replace("result ≤ a", "result ≤ b")),
            ("crates/lower/must-fail/turned.edit", STILL_PROVED),
            ("crates/lower/specs/Lib.antt", ""),
            ("crates/lower/proofs/Lib.antt", ""),
            ("crates.txt", "lower: io\n"),
        ]:
            with self.subTest(name):
                path = self.root / name
                before = path.read_text(encoding="utf-8") if path.exists() else None
                self.write(name, text)
                self.assertTrue(self.is_tried())
                path.unlink()
                if before is not None:
                    self.write(name, before)
                self.assertFalse(self.is_tried())

    @unittest.skipUnless(shutil.which("git"), "no git")
    def test_a_short_history(self):
        """A clone of the newest commit alone does not tell whose turn it is, so each edit is tried there."""
        self.forge()
        self.commit()
        self.commit()
        self.assertFalse(self.is_tried())
        short = self.root.parent / "short"
        subprocess.run(["git", "clone", "-q", "--depth", "1", self.root.as_uri(), short], check=True)
        self.root = short
        self.assertTrue(self.is_tried())

    @unittest.skipUnless(shutil.which("git"), "no git")
    def test_a_forged_record_is_found(self):
        """A crate with an edit that is not refused is not recorded. If its line is forged, the prover finds the edit when its eighth is due."""
        self.write("crates/lower/must-fail/still_proved.edit", STILL_PROVED)
        self.assertEqual(self.try_edits("lower"), 1)
        self.assertEqual(self.recorded(), "")
        self.forge()
        found = []
        for _ in range(TURNS):
            self.commit()
            if self.is_tried():
                copy, _ = self.copied()
                found.append(subprocess.run(["rt", "must-fail"], cwd=copy, capture_output=True, text=True, check=False))
        self.assertEqual([done.returncode for done in found], [1])
        self.assertIn("must-fail lower/still_proved.edit: NOT REFUSED", found[0].stdout)
