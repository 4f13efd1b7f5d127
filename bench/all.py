#!/usr/bin/env python3
"""Measures everything that docs/SPEED.md shows, in one go, and writes its tables: bench/all.py [--quick] [--only PART,..] [--turns N] [--drafts] | --page

Proves and builds the programs if they are not built from this tree, runs each measuring script, and writes the raw figures to docs/speed.json and the
tables from them into docs/SPEED.md and docs/speed.svg, with the commit, the kit, the machine and the date, and what README.md and docs/SCALE.md
show of them. That takes some 20 minutes once the
programs are built, on a machine with no other work; run it by `chrt -r 10` to keep other work away. --quick takes smaller days, one turn and no figure of growth, and
with it or --only the figures and the page go into bench/target/ alone. --drafts takes programs that are not proved, and the page says so. --page
writes the pages and the plot again from the figures that are there.

Statuses: 0 if all was measured; 1 if a part failed, and then nothing is written; 2 if the words are others.
"""

import argparse
import datetime
import json
import os
import re
import subprocess
import sys
import time
from pathlib import Path

import speed_page
from common import BENCH, ROOT, build_plain, located

PAGE = ROOT / "docs" / "SPEED.md"
FIGURES = ROOT / "docs" / "speed.json"
TRIED = BENCH / "target"
PROGRAMS = ["tapebox"]
# What git puts behind the commit of a tree with changes.
CHANGED = "-dirty"
# Of each part its script, its words, and those with --quick.
PARTS = {
    "batch": ("measure.py", "", "--turns 1 one:1000000 busy:1000000 hostile:1000000"),
    "growth": ("measure.py", "--turns 5 growth", ""),
    "counts": ("measure.py", "counts", ""),
    "tables": ("tables.py", "", "--turns 1 one:1000000 busy:1000000"),
    "table_growth": ("tables.py", "growth", ""),
    "peers": ("tables.py", "peers", "--turns 1 peers busy:1000000"),
    "live": ("live_load.py", "--lines 1,4,15,26 --turns 3", "--messages 20000"),
    "late": ("live_load.py", "--late --turns 2", ""),
    "long": ("long_day.py", "", "--messages 100000"),
    "latency": ("latency.py", "", "--turns 1 --seconds 0.2 --lines 4 --rates 1000,10000"),
}
WITHOUT_TURNS = {"counts", "long"}


def said(*command):
    """What a command writes, without the line's end; nothing if it fails."""
    done = subprocess.run(command, cwd=ROOT, capture_output=True, text=True, check=False)
    return done.stdout.strip() if not done.returncode else ""


def machine():
    """What is measured, where and when."""
    memory = int(re.search(r"MemTotal: +(\d+)", Path("/proc/meminfo").read_text(encoding="ascii"))[1])
    model = re.search(r"model name\s*: (.*)", Path("/proc/cpuinfo").read_text(encoding="utf-8"))
    programs = located(*PROGRAMS)
    # The commit that the program was built from, as it says itself.
    commit = said(programs["tapebox"], "--version").split(", ")[1]
    return {
        "commit": commit.removesuffix(CHANGED),
        "is_changed": commit.endswith(CHANGED),
        "kit": said("rt", "version"),
        "date": datetime.datetime.now(datetime.timezone.utc).date().isoformat(),
        "processors": len(os.sched_getaffinity(0)),
        "model": model[1] if model else "an unknown model",
        "gigabytes": round(memory / 2**20),
        "load": os.getloadavg()[0],
        "is_first": os.sched_getscheduler(0) in (os.SCHED_RR, os.SCHED_FIFO),
        "pandas": said("/usr/bin/python3", "-c", "import pandas; print(pandas.__version__)"),
        "SQLite": said("sqlite3", "--version").split(" ")[0],
        "drafts": [name for name, path in programs.items() if path.suffix == ".draft"],
    }


def measure_part(name, words, target):
    """The command of a part, how long it took, and its records; or none if it failed."""
    script, *rest = words
    command = [sys.executable, "-B", str(BENCH / script), "--no-build", "--json", str(target), *rest]
    print(f"all: {name}: bench/{script} {' '.join(rest)}", flush=True)
    began = time.monotonic()
    if subprocess.run(command, cwd=ROOT, check=False).returncode:
        print(f"all: {name} FAILED", flush=True)
        return None
    seconds = round(time.monotonic() - began, 1)
    return {"command": " ".join(["bench/" + script, *rest]), "took": seconds, "records": json.loads(target.read_text(encoding="utf-8"))}


def measure_all(words):
    """All parts that are asked for, with the machine; or none if one failed."""
    figures = {"machine": machine(), "parts": {}}
    if figures["machine"]["drafts"] and not (words.drafts or words.quick):
        sys.exit(f"all: not proved: {', '.join(figures['machine']['drafts'])}; --drafts measures them nevertheless")
    for name in words.only or PARTS:
        script, full, quick = PARTS[name]
        rest = quick if words.quick else full
        if words.quick and not quick:
            continue
        if words.turns and name not in WITHOUT_TURNS:
            rest += f" --turns {words.turns}"
        figures["parts"][name] = measure_part(name, [script, *rest.split()], TRIED / "part.json")
    return figures if all(figures["parts"].values()) else None


def text_of(figures):
    """The figures as JSON, with a line for each record."""
    records = {name: ",\n   ".join(map(json.dumps, part["records"])) for name, part in figures["parts"].items()}
    heads = {name: json.dumps({"command": part["command"], "took": part["took"]})[:-1] for name, part in figures["parts"].items()}
    written = ",\n  ".join(f'"{name}": {heads[name]}, "records": [\n   {records[name]}]}}' for name in records)
    return f'{{"machine": {json.dumps(figures["machine"])},\n "parts": {{\n  {written}}}}}\n'


def parts(text):
    """Names of parts with commas between."""
    names = text.split(",")
    if not set(names) <= set(PARTS):
        raise ValueError(text)
    return names


def arguments():
    parser = argparse.ArgumentParser(description=__doc__, formatter_class=argparse.RawDescriptionHelpFormatter)
    parser.add_argument("--quick", action="store_true", help="smaller days, one turn, drafts if there are no proved programs, and not every part, for a try")
    parser.add_argument("--only", type=parts, metavar="PART,..", help=f"of {', '.join(PARTS)}")
    parser.add_argument("--turns", type=int, metavar="N", help="how often each program runs, in place of each part's own number")
    parser.add_argument("--drafts", action="store_true", help="takes programs that are not proved")
    parser.add_argument("--page", action="store_true", help="measures nothing, and writes the pages and the plot from docs/speed.json")
    words = parser.parse_args()
    words.is_tried = words.quick or words.only
    return words


def main():
    words = arguments()
    folder = TRIED if words.is_tried else PAGE.parent
    page, kept, svg = (folder / name for name in (PAGE.name, FIGURES.name, "speed.svg"))
    if words.page:
        figures = json.loads(kept.read_text(encoding="utf-8"))
    else:
        if not (words.drafts or words.quick):
            if subprocess.run([ROOT / "run", "--prove", *PROGRAMS], check=False).returncode:
                return 1
        build_plain()
        figures = measure_all(words)
        if not figures:
            return 1
        kept.write_text(text_of(figures), encoding="utf-8")
    written = [page]
    page.write_text(speed_page.written(PAGE.read_text(encoding="utf-8"), figures), encoding="utf-8")
    if drawn := speed_page.drawing(figures):
        svg.write_text(drawn, encoding="utf-8")
        written.append(svg)
    if not words.is_tried:
        for other in (ROOT / name for name in speed_page.OTHERS):
            other.write_text(speed_page.written(other.read_text(encoding="utf-8"), figures), encoding="utf-8")
            written.append(other)
    print(f"all: written: {', '.join(str(path.relative_to(ROOT)) for path in [kept, *written])}")
    return 0


if __name__ == "__main__":
    sys.exit(main())
