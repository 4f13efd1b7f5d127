#!/usr/bin/env python3
"""Copies the tree for the gate, and sets the edits apart that need no try: gate_copy.py FOLDER NAMES

A crate's must-fail edits go to .ci/untried/ in the copy, where nothing tries them, if .ci/refused.txt has the crate as it is, but for an eighth of such
crates. Which eighth it is moves on with each commit of the record: so each is tried again within eight of these, and a false record doesn't last.
All are due if git does not tell how many there are. Of what is due a run tries so many edits that it ends in time, at least those of one crate. The others
wait for another run, which begins at another crate; dev/edits.py tries them at any time.
What git ignores is not copied. Lines for a reader go to the file NAMES: the crates whose edits are tried, those whose edits wait, if there are any, and
those that are taken from the record. Statuses: 0; 2 for bad words.
"""

import argparse
import shutil
import subprocess
import sys
from pathlib import Path

ROOT = Path(__file__).resolve().parent.parent
sys.dont_write_bytecode = True
sys.path.insert(0, str(ROOT / "dev"))

import edits

# How many commits of the record go by until every recorded crate's edits were tried again.
TURNS = 8
# How many edits a run tries at most, if they are of more than one crate. Each takes a processor minute or two.
MOST_EDITS = 64


def git(*words):
    """What git says of the tree, or None if it says nothing."""
    done = subprocess.run(["git", "-C", ROOT, *words], capture_output=True, text=True, check=False)
    return done.stdout if done.returncode == 0 else None


def tree_files():
    """The files of the tree that git knows or does not ignore. Without git, all but what is built."""
    listed = git("ls-files", "-z", "--cached", "--others", "--exclude-standard")
    if listed is None:
        paths = [path.relative_to(ROOT) for path in ROOT.rglob("*") if path.is_file()]
        return [path for path in paths if not {"out", "target", "__pycache__", ".git"} & set(path.parts)]
    return [path for path in map(Path, filter(None, listed.split("\0"))) if (ROOT / path).is_file()]


def commits_of_record():
    """How many commits changed the record, or None if git does not tell, as in a clone of the newest commits alone."""
    if git("rev-parse", "--is-shallow-repository") != "false\n":
        return None
    counted = git("rev-list", "--count", "HEAD", "--", str(edits.RECORD))
    return int(counted) if counted else None


def due(commits):
    """The crates whose edits are due, and those that are taken from the record."""
    sums, known = edits.checksums(ROOT), edits.recorded(ROOT)
    turn = {name: (place + commits) % TURNS if commits is not None else 0 for place, name in enumerate(sums)}
    wanted = [name for name in sums if known.get(name) != sums[name] or turn[name] == 0]
    return wanted, [name for name in sums if name not in wanted]


def in_time(wanted, commits):
    """Those of the crates whose edits are due that one run tries. Which it begins with moves on with each commit of the record."""
    first = (commits or 0) % max(len(wanted), 1)
    tried, count = [], 0
    for name in wanted[first:] + wanted[:first]:
        more = len(list((ROOT / "crates" / name / "must-fail").glob("*.edit")))
        if not tried or count + more <= MOST_EDITS:
            tried.append(name)
            count += more
    return [name for name in wanted if name in tried]


def place_in_copy(path, untried):
    """Where a file of the tree goes in the copy: an edit of one of these crates goes where nothing tries it."""
    if path.parts[:1] == ("crates",) and path.parts[2:3] == ("must-fail",) and path.parts[1] in untried:
        return Path(".ci", "untried", path.parts[1], *path.parts[3:])
    return path


def main():
    parser = argparse.ArgumentParser(description=__doc__, formatter_class=argparse.RawDescriptionHelpFormatter)
    parser.add_argument("folder", type=Path, help="an empty folder outside the tree")
    parser.add_argument("names", type=Path, help="the file for the two lines")
    words = parser.parse_args()
    commits = commits_of_record()
    wanted, taken = due(commits)
    tried = in_time(wanted, commits)
    waiting = [name for name in wanted if name not in tried]
    for path in tree_files():
        copy = words.folder / place_in_copy(path, waiting + taken)
        copy.parent.mkdir(parents=True, exist_ok=True)
        shutil.copy2(ROOT / path, copy)
    lines = [f"ci: edits tried: {' '.join(tried) or 'none'}"]
    if waiting:
        lines.append(f"ci: edits that wait for another run: {' '.join(waiting)}")
    lines.append(f"ci: edits taken from the record: {' '.join(taken) or 'none'}")
    words.names.write_text("".join(f"{line}\n" for line in lines), encoding="utf-8")
    return 0


if __name__ == "__main__":
    sys.exit(main())
