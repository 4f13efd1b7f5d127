#!/usr/bin/env python3
"""Measures `tapebox` beside plain programs, over days made by a seed.

    bench/measure.py [DAY[:BYTES] ..]   the batch (one, busy and hostile if no day is named)
    bench/measure.py growth             the hostile day at 2, 4 and 8 MB
    bench/measure.py counts             instructions and cache misses of a message of the batch, by valgrind

Builds the plain programs, takes the others from `./run --which`, makes the days, runs the programs on each day in turns, and checks that they
write the same. Prints the processor seconds, the wall-clock seconds and the peak memory in kilobytes, of each the least and the middle run. `indexed`
keeps the same tape with each summary at hand by std's ordered maps, `least` keeps no tape. Needs cargo, Python and for counts valgrind.

Statuses: 0 if the programs agree; 1 if they don't, or one fails; 2 if the words are others.
"""

import argparse
import re
import shutil
import subprocess
import sys

from common import RELEASE, Failed, add_words, in_turns, located, make, measured, shown

DAYS_OF_BATCH = ["one", "busy", "hostile"]
# The lengths of the hostile day, in MiB, below that of the batch, by which the growth of its time is seen.
SHORTER = (2, 4, 8)
COUNTED_BYTES = 4_194_304
# A first cache of 32 KB and a last one of 1 MB.
CACHES = ["--cache-sim=yes", "--I1=32768,8,64", "--D1=32768,8,64", "--LL=1048576,16,64"]
COUNTS = {"instructions": r"I +refs", "first_misses": r"D1 +misses", "last_misses": r"LLd misses"}


def messages_of(source):
    """How many message lines a day's file has."""
    return source.read_bytes().count(b"\n") - 2


def batch_commands():
    """The batch by each program."""
    programs = located("tapebox") | {name: RELEASE / name for name in ("indexed", "least")}
    return {name: [path, "batch"] for name, path in programs.items()}


def batch(words):
    """The batch on each day."""
    commands = batch_commands()
    for day in words.days or DAYS_OF_BATCH:
        source = make(day, words.seed)
        for record in in_turns(day, source, commands, words.turns):
            yield record | {"messages": messages_of(source)}


def growth(words):
    """The batch on the hostile day at rising lengths."""
    commands = batch_commands()
    del commands["least"]
    for megabytes in SHORTER:
        source = make(f"hostile:{megabytes * 1_048_576}", words.seed)
        for record in in_turns(f"hostile {megabytes} MB", source, commands, words.turns):
            yield record | {"bytes": source.stat().st_size}


def counts(words):
    """The instructions and cache misses of a message, by valgrind: as many on any machine, whatever else it does."""
    valgrind = shutil.which("valgrind")
    if not valgrind:
        raise Failed("no valgrind")
    program = located("tapebox")["tapebox"]
    for day in DAYS_OF_BATCH:
        source = make(f"{day}:{COUNTED_BYTES}", words.seed)
        with open(source, "rb") as given:
            words_of_it = [valgrind, "--tool=cachegrind", *CACHES, "--cachegrind-out-file=/dev/null", program, "batch"]
            done = subprocess.run(words_of_it, stdin=given, stdout=subprocess.DEVNULL, stderr=subprocess.PIPE, text=True, check=True)
        found = {name: int(re.search(rf"{count}: +([\d,]+)", done.stderr)[1].replace(",", "")) for name, count in COUNTS.items()}
        yield shown({"day": day, "messages": messages_of(source)} | found)


KINDS = {"growth": growth, "counts": counts}


def main():
    parser = argparse.ArgumentParser(description=__doc__, formatter_class=argparse.RawDescriptionHelpFormatter)
    add_words(parser)
    parser.add_argument("--turns", type=int, default=7, help="how often each program runs on each day (7)")
    parser.add_argument("days", nargs="*", metavar="DAY[:BYTES]", help=f"the days of the batch; or {', '.join(KINDS)}")
    words = parser.parse_args()
    return measured(words, KINDS.get(words.days[0] if words.days else "", batch))


if __name__ == "__main__":
    sys.exit(main())
