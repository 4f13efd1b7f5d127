#!/usr/bin/env python3
"""Measures how long a message takes through `tapebox live`: from a participant's line to whoever reads lines A and B.

    bench/latency.py [--rates N,..] [--lines N,..] [--seconds S] [--turns N] [--no-build] [--json FILE]

A plain sender puts its clock into each message's moment and sends so many messages a second over so many lines, and a plain reader of both lines
takes the difference at the first copy of each entry (`latency`). In turns with `forward`, which sends the same packets without a tape. Prints for
each rate and number of lines, in microseconds, the middle of the turns' p50, p90, p99 and p99.9 of either program, how many messages were lost in
all turns, how many a second the sender sent, and then the ratios. Nobody asks for anything again. `tapebox` is
the one of `./run --which`. Needs cargo, Python and Linux, whose /proc/net
tells which ports are bound.

Statuses: 0 if all was measured; 1 if a program fails; 2 if the words are others.
"""

import argparse
import contextlib
import statistics
import string
import subprocess
import sys
from dataclasses import dataclass

from common import DAYS, RELEASE, Failed, add_words, located, measured
from live_load import Day, Programs, wait_bound

# As many symbols as the sender's reports are of.
SYMBOLS = [f"SYM{at}" for at in range(400)]
PERCENTILES = ("p50", "p90", "p99", "p99.9")


@dataclass(frozen=True)
class Load:
    """How many messages are sent, how many a second, and over how many lines."""

    lines: int
    rate: int
    messages: int


def words_of(name, tapebox, day):
    """The command that starts a program, which listens on the participants' ports of a day and sends to its lines."""
    if name == "forward":
        return [RELEASE / "forward", day.ports[0], len(day.ports), day.a, day.b]
    return [tapebox, "live", day.file]


def figures_of(name, tapebox, load):
    """The figures of a run through this program, by their names."""
    day = Day(SYMBOLS, string.ascii_uppercase[: load.lines], followers=0)
    with contextlib.ExitStack() as ending:
        program = Programs(ending).start(DAYS / "latency.report", *words_of(name, tapebox, day))
        wait_bound(program, "tcp", *day.ports)
        words = [day.ports[0], load.lines, day.a, day.b, load.rate, load.messages]
        told = subprocess.run([RELEASE / "latency", *map(str, words)], capture_output=True, text=True, check=False)
        status = program.wait()
    if told.returncode or status:
        raise Failed(f"latency ended with status {told.returncode} and {name} with {status}: {told.stderr}")
    return {line.split()[0]: float(line.split()[1]) for line in told.stdout.splitlines()}


def compare(words, load):
    """Runs the programs in turns, prints a row of each and one of their ratios, and returns the record of each."""
    runs = {"forward": [], "tapebox": []}
    for _ in range(words.turns):
        for name, own in runs.items():
            own.append(figures_of(name, words.tapebox, load))
    middles = {}
    for name, own in runs.items():
        middles[name] = [statistics.median(run[what] for run in own) for what in PERCENTILES]
        lost = sum(run["lost"] for run in own)
        sent = statistics.median(run["sent_per_second"] for run in own)
        told = "".join(f"{micros:11,.0f}" for micros in middles[name])
        print(f"{load.lines:5} {load.rate:9,} {name:8}{told} {lost:9,.0f} {sent:12,.0f}", flush=True)
    ratios = [mine / plain for mine, plain in zip(middles["tapebox"], middles["forward"])]
    print(f"{'':15} {'ratio':8}" + "".join(f"{ratio:11.2f}" for ratio in ratios), flush=True)
    return [{"lines": load.lines, "rate": load.rate, "program": name, "runs": own} for name, own in runs.items()]


def numbers(text):
    """Whole numbers above 0 with commas between."""
    rows = [int(word) for word in text.split(",")]
    if min(rows) < 1:
        raise ValueError(text)
    return rows


def arguments():
    parser = argparse.ArgumentParser(description=__doc__, formatter_class=argparse.RawDescriptionHelpFormatter)
    add_words(parser)
    parser.add_argument("--rates", type=numbers, default=numbers("1000,10000,50000,100000,200000"), help="messages a second")
    parser.add_argument("--lines", type=numbers, default=numbers("1,4,15"), help="participants' lines, 26 at most (1,4,15)")
    parser.add_argument("--seconds", type=float, default=1.5, help="how long a run sends (1.5)")
    parser.add_argument("--turns", type=int, default=3, help="how often each program runs (3)")
    return parser.parse_args()


def records(words):
    """The records of all numbers of lines and rates."""
    words.tapebox = located("tapebox")["tapebox"]
    print(f"{'lines':>5} {'rate':>9} {'program':8}" + "".join(f"{what:>11}" for what in PERCENTILES) + f" {'lost':>9} {'sent/s':>12}")
    for lines in words.lines:
        for rate in words.rates:
            yield from compare(words, Load(lines, rate, max(int(rate * words.seconds), 1)))


if __name__ == "__main__":
    sys.exit(measured(arguments(), records))
