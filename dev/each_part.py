#!/usr/bin/env python3
"""each_part.py NAME..: tries each part of the shared must-fail edits of these crates by itself, in a copy of the repository.

A shared edit breaks several functions, and is refused once one of them is. Its parts, each of which begins with a line
'# part: NAME', become edits of their own here, so a part that a contract lets through is reported as NOT REFUSED. It is not a
step of the gate: run it when a contract of such a function changes. Each crate is first checked whole, unless `rt check` has left
its work in the repository; after that a part takes 10 to 60 seconds.

Statuses: 0 if each part is refused; 1 if one is not; 2 if the words are others, as a crate that has no must-fail edits.
"""

import argparse
import pathlib
import re
import shutil
import subprocess
import sys
import tempfile

ROOT = pathlib.Path(__file__).resolve().parent.parent


def parts_of(text):
    """The name and the text of each part of a shared edit; none of an edit with one wrong body."""
    return re.findall(r"^# part: (\S+)\n(.*?)(?=^# part: |\Z)", text, re.M | re.S)


def keep_parts(edits):
    """Puts each part of the shared edits in a folder in place of all edits there, and returns how many parts there are."""
    parts = [part for edit in edits.glob("*.edit") for part in parts_of(edit.read_text(encoding="utf-8"))]
    shutil.rmtree(edits)
    edits.mkdir()
    for name, text in parts:
        (edits / f"{name}.edit").write_text(text, encoding="utf-8")
    return len(parts)


def main():
    parser = argparse.ArgumentParser(description=__doc__, formatter_class=argparse.RawDescriptionHelpFormatter)
    parser.add_argument("names", nargs="+", metavar="NAME", help="a crate")
    names = list(dict.fromkeys(parser.parse_args().names))
    for name in names:
        if not (ROOT / "crates" / name / "must-fail").is_dir():
            parser.error(f"{ROOT / 'crates' / name / 'must-fail'}: there are no must-fail edits")
    with tempfile.TemporaryDirectory() as room:
        copy = pathlib.Path(room) / "copy"
        # With what was proved and built here, so that it need not be done again.
        shutil.copytree(ROOT, copy, ignore=shutil.ignore_patterns(".git", "target"))
        for name in names:
            print(f"{name}: {keep_parts(copy / 'crates' / name / 'must-fail')} parts", flush=True)
        return subprocess.run(["rt", "must-fail", *names], cwd=copy, check=False).returncode


if __name__ == "__main__":
    sys.exit(main())
