"""What the measuring scripts share: the programs, days made by a seed, runs of programs in turns, and their figures as records.

A record is a flat table of what was measured, with the raw figure of each run, as `--json FILE` writes them and `bench/all.py` keeps them.
"""

import filecmp
import json
import os
import statistics
import subprocess
from pathlib import Path

BENCH = Path(__file__).resolve().parent
ROOT = BENCH.parent
RELEASE = BENCH / "target" / "release"
DAYS = BENCH / "target" / "days"


class Failed(Exception):
    """Programs that don't write the same, or one that fails."""


def build_plain():
    """Builds the plain programs and the maker of days."""
    subprocess.run(["cargo", "build", "--release", "--offline", "--quiet"], cwd=BENCH, check=True)


def located(*names):
    """Where `./run` has these programs: the proved ones if they were built from this tree, else drafts, which it names on standard error."""
    done = subprocess.run([ROOT / "run", "--which", *names], stdout=subprocess.PIPE, text=True, check=True)
    return dict(zip(names, map(Path, done.stdout.split("\n"))))


def add_words(parser):
    """The words that the scripts share."""
    parser.add_argument("--no-build", action="store_true", help="take the plain programs that are there")
    parser.add_argument("--seed", type=int, default=1, help="the days' seed (1)")
    parser.add_argument("--json", type=Path, metavar="FILE", help="writes the raw figures there too")


def measured(words, records):
    """The status of a script, once its records are measured and written where the words say."""
    if not words.no_build:
        build_plain()
    DAYS.mkdir(parents=True, exist_ok=True)
    try:
        taken = list(records(words))
    except Failed as fault:
        print(f"FAILED: {fault}")
        return 1
    if words.json:
        words.json.write_text(json.dumps(taken), encoding="utf-8")
    return 0


def make(day, seed):
    """The file of the day, which may have its bytes behind a colon: made anew each time, since it takes less than a second."""
    path = DAYS / f"{day.replace(':', '-')}.txt"
    with open(path, "wb") as file:
        name, _, size = day.partition(":")
        subprocess.run([RELEASE / "make_day", name, str(seed)] + ([size] if size else []), stdout=file, check=True)
    return path


def run(command, source, target):
    """Runs a command once by `timed`; returns its status, processor seconds, wall-clock seconds and peak kilobytes."""
    with open(source, "rb") as given, open(target, "wb") as written:
        words = [RELEASE / "timed", *map(str, command)]
        done = subprocess.run(words, stdin=given, stdout=written, stderr=subprocess.PIPE, env={}, text=True, check=True)
    status, seconds, wall, kilobytes = done.stderr.split()
    return os.waitstatus_to_exitcode(int(status)), float(seconds), float(wall), int(kilobytes)


def in_turns(name, source, commands, turns):
    """A record of each program's runs over a file, in turns. Failed if one ends badly, or writes other than the first."""
    runs = {program: [] for program in commands}
    first = None
    for program, command in [*commands.items()] * turns:
        written = DAYS / f"{source.stem}.{program}"
        status, *figures = run(command, source, written)
        first = first or written
        if status or (written != first and not filecmp.cmp(first, written, shallow=False)):
            raise Failed(f"{name}: {program} ended with status {status}, and wrote {written}; the first wrote {first}")
        runs[program].append(figures)
    for program, own in runs.items():
        seconds, wall, kilobytes = map(list, zip(*own))
        yield shown({"day": name, "program": program, "seconds": seconds, "wall": wall, "kilobytes": kilobytes})


def told(target):
    """The figures that a program printed, one a line."""
    return {name: float(value) for name, value in (line.split() for line in target.read_text().splitlines())}


def shown(record):
    """The same record, printed: the least and the middle of what has several figures."""
    words = []
    for name, value in record.items():
        if isinstance(value, list):
            words.append(f"{name} {min(value):,.6g} (middle {statistics.median(value):,.6g})")
        else:
            words.append(f"{name} {value:,.6g}" if isinstance(value, (int, float)) else str(value))
    print("   ".join(words), flush=True)
    return record
