"""`dev/prove.py`, over a kit that proves nothing: its crates sleep."""

import os
import tempfile
from pathlib import Path

from support import ROOT, Case, Ended, run

# Seconds in which a run must have ended that waits for no crate of SLOW seconds.
SOON = 20
SLOW = 60
# As the kit does, it works in a thread of a pool, for which Python waits at its end.
KIT = """
import time
from concurrent.futures import ThreadPoolExecutor

class Crate:
    def __init__(self, name, seconds, status, deps):
        self.name, self.seconds, self.status, self.deps = name, seconds, status, deps
        self.folder = f"{FOLDER}/{name}"
    def below(self): return [it for dep in self.deps for it in [*dep.below(), dep]]
    def makes_rlib(self): return self.name != "tapebox"
    def is_built(self): return False
    def need(self, batches): return 1
    def build_rlib(self, flags, anew):
        with open(f"{FOLDER}/begun", "a") as begun: print(self.name, *flags, file=begun)
        with ThreadPoolExecutor() as pool: pool.submit(time.sleep, self.seconds).result()
        return self.status
    def check(self, flags): return self.build_rlib(flags, True)

def cores(): return 4
def files_of(folder): return []
def fits(*needs): return len(needs) <= cores()
def guarded(): return []
def lock(crates): return []
def crates_below(folder): return CRATES
"""


class Prove(Case):
    def proved(self, crates, text=KIT):
        """How proving ended, and what was begun by how many processes: the crates are the program and those below it, each by its seconds, its
        status and what it stands on, lowest first."""
        with tempfile.TemporaryDirectory() as folder:
            kit = Path(folder)
            made = [f"{name} = Crate({name!r}, {seconds}, {status}, [{below}])" for name, seconds, status, below in crates]
            listed = ", ".join(name for name, *_ in crates)
            (kit / "rtlib.py").write_text("\n".join([f"FOLDER = {folder!r}", text, *made, f"CRATES = [{listed}]\n"]), encoding="utf-8")
            (kit / "rt").touch(mode=0o755)
            (kit / "begun").touch()
            ended = run(["tapebox"], program=ROOT / "dev" / "prove.py", env={"PATH": f"{folder}:{os.environ['PATH']}"}, limit=SOON)
            return ended, (kit / "begun").read_text(encoding="utf-8").splitlines()

    def test_a_crate_that_is_not_proved(self):
        """README, "How to check the proofs": it says what is left, and ends then, however long the others would take."""
        ended, _ = self.proved([("slow", SLOW, 0, ""), ("wrong", 0.2, 1, ""), ("tapebox", 0, 0, "slow, wrong")])
        self.assertEqual(ended.status, 1)
        self.assertRegex(ended.said, rb"\Arun: wrong is not proved \(status 1\)\nrun: left: [^\n]*slow[^\n]*; the next time it goes on there\n\Z")

    def test_processes(self):
        """README, "How to check the proofs": crates that can be proved at once share the processors, and one alone has all."""
        ended, begun = self.proved([("lower", 1, 0, ""), ("beside", 0.1, 0, ""), ("upper", 0, 0, "lower"), ("tapebox", 0, 0, "upper, beside")])
        self.assertEqual(ended.status, 0, ended.said)
        self.assertEqual(sorted(begun[:2]), ["beside --jobs 2", "lower --jobs 2"])
        self.assertEqual(begun[2:], ["upper --jobs 4", "tapebox --jobs 4"])

    def test_another_kit(self):
        """`prove.py --help`: a kit whose module lacks what it is driven by proves one crate after the other: a line says what it lacks, and nothing is
        begun."""
        for name, lacks in [("fits", "fits"), ("build_rlib", "Crate.build_rlib")]:
            with self.subTest(lacks):
                ended, begun = self.proved([("tapebox", 0, 0, "")], KIT.replace(f"def {name}(", "def other("))
                said = f"run: this kit's rtlib.py has no {lacks}, so one crate is proved after the other\n".encode()
                self.assertEqual((ended, begun), (Ended(0, b"", said), []))
