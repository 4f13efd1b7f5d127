#!/usr/bin/env python3
"""Runs a command and prints what each crate took below it, by kind, in processor minutes: gate_time.py [--budget FILE] -- COMMAND..

The kinds are a crate's proof, the proof of its tests, its must-fail edits, its programs and tests as they run, and the Python cases. It looks at
/proc once a second, so what a process does after its last look is missed; the line `not seen` has the difference to what the system counted.
What passes its budget is named. FILE has a line for each budget: a crate, a kind, and the processor minutes.

Statuses: the command's; 2 for bad words, a file that is no budget, or a command that can't be run.
"""

import argparse
import collections
import os
import re
import resource
import subprocess
import sys
import time
from pathlib import Path

TICKS = os.sysconf("SC_CLK_TCK")
KINDS = ["proof", "tests", "edits", "programs", "cases"]
# The row of what belongs to no crate.
REST = "(others)"
# The folders that the kit's gate makes for its edits, and for the programs that it runs.
EDIT_FOLDER = "/rt-edit-"
RUN_FOLDER = re.compile(r"/rt-run-[^/]+/bin/(\w+?)(_tests)?$")


def say(text):
    """A line for a reader, on standard output as the gate's own are."""
    print(f"gate_time: {text}", flush=True)


def kind_of(words, folder):
    """The crate and the kind that a process works for, by its words and its folder, and whether its ended children count too. None if for neither."""
    if words and words[-1].endswith("tests/run_cases.py"):
        return REST, "cases", True
    ran = next(filter(None, map(RUN_FOLDER.search, words)), None)
    if ran and words[0].endswith("rattle-test"):
        return ran[1], "programs", True
    if ran and not ran[2] and words[0] == ran[0]:
        return ran[1], "programs", False
    if "--crate-name" not in words:
        return None
    kind = "edits" if EDIT_FOLDER in folder else "tests" if "--test" in words else "proof"
    return words[words.index("--crate-name") + 1], kind, False


def stat_fields(pid):
    """The fields of /proc/PID/stat behind the command's name, or None if the process is gone."""
    try:
        return Path(f"/proc/{pid}/stat").read_text(errors="replace").rpartition(")")[2].split()
    except OSError:
        return None


def look(pid, fields):
    """What a process works for: a key of its own, the crate and the kind, its processor seconds, and whether these have its children's too. None if
    it is gone or works for neither."""
    try:
        words = Path(f"/proc/{pid}/cmdline").read_bytes().decode(errors="replace").rstrip("\0").split("\0")
        found = kind_of(words, os.readlink(f"/proc/{pid}/cwd"))
    except OSError:
        return None
    if not found:
        return None
    crate, kind, with_children = found
    ticks = sum(map(int, fields[11 : 15 if with_children else 13]))
    return (pid, fields[19]), (crate, kind), ticks / TICKS, with_children


def seen_below(top):
    """Each process below one that works for a crate. Those below one that has its children's seconds are not looked at."""
    fields = {pid: found for pid, found in ((pid, stat_fields(pid)) for pid in os.listdir("/proc") if pid.isdigit()) if found}
    children = collections.defaultdict(list)
    for pid, found in fields.items():
        children[found[1]].append(pid)
    left = [str(top)]
    while left:
        pid = left.pop()
        found = look(pid, fields[pid]) if pid in fields else None
        if found:
            yield found[:3]
        if not found or not found[3]:
            left += children[pid]


def watched(command):
    """Runs a command, and returns its status and the processor seconds by crate and kind."""
    seen = {}
    with subprocess.Popen(command) as running:
        while running.poll() is None:
            for key, crate_and_kind, taken in seen_below(running.pid):
                seen[key] = crate_and_kind, taken
            time.sleep(1)
    seconds = collections.Counter()
    for crate_and_kind, taken in seen.values():
        seconds[crate_and_kind] += taken
    return running.returncode, seconds


def print_table(seconds, total, elapsed):
    """A row for each crate, the longest first, and the sums."""
    minutes = {key: taken / 60 for key, taken in seconds.items()}
    crates = sorted({crate for crate, _ in minutes}, key=lambda crate: -sum(minutes.get((crate, kind), 0) for kind in KINDS))
    print(f"{'processor minutes':20}" + "".join(f"{kind:>9}" for kind in KINDS))
    for crate in crates:
        print(f"{crate:20}" + "".join(f"{minutes.get((crate, kind), 0):9.1f}" for kind in KINDS))
    print(f"{'all':20}" + "".join(f"{sum(it for (_, of), it in minutes.items() if of == kind):9.1f}" for kind in KINDS))
    say(f"{total / 60:.1f} processor minutes in {elapsed / 60:.1f} minutes, {(total - sum(seconds.values())) / 60:.1f} of them not seen")


def read_budgets(file):
    """The budgets in processor minutes, by crate and kind. A ValueError names a line that is none."""
    budgets = {}
    for at, line in enumerate(file.read_text(encoding="utf-8").splitlines(), 1):
        words = re.fullmatch(r"(\S+) (\S+) (\d+(?:\.\d+)?)", line)
        if words and words[2] in KINDS:
            budgets[words[1], words[2]] = float(words[3])
        elif line and not line.startswith("#"):
            raise ValueError(f"{file}, line {at}: not a crate, a kind and minutes: {line}")
    return budgets


def over_budget(seconds, budgets):
    """A line for each crate and kind that took more than its budget."""
    passed = [(key, taken / 60) for key, taken in sorted(seconds.items()) if taken / 60 > budgets.get(key, float("inf"))]
    return [f"{crate}'s {kind}: {minutes:.1f} processor minutes, over its budget of {budgets[crate, kind]:.1f}" for (crate, kind), minutes in passed]


def main():
    parser = argparse.ArgumentParser(description=__doc__, formatter_class=argparse.RawDescriptionHelpFormatter)
    parser.add_argument("--budget", type=Path, metavar="FILE", help="the budgets")
    parser.add_argument("command", nargs="+", metavar="COMMAND")
    words = parser.parse_args()
    began = time.monotonic()
    try:
        budgets = read_budgets(words.budget) if words.budget else {}
        status, seconds = watched(words.command)
    except (OSError, ValueError) as fault:
        parser.error(f"{fault.filename}: {fault.strerror}" if isinstance(fault, OSError) else str(fault))
    used = resource.getrusage(resource.RUSAGE_CHILDREN)
    print_table(seconds, used.ru_utime + used.ru_stime, time.monotonic() - began)
    for line in over_budget(seconds, budgets):
        say(line)
    return status if status >= 0 else 128 - status


if __name__ == "__main__":
    sys.exit(main())
