#!/usr/bin/env python3
"""Runs whole days on loopback in which a seed decides what goes wrong: storm.py [--at-once N] [--journal] [--program FILE] SEED..

A day has one to five participants, whose messages are changes and repeated, refused and cut-off ones too, sent at their own pace; one to three
followers, each of which writes a report (`follow`) or the tape (`watch`), behind a relay that loses, doubles, reorders, garbles and delays
packets; followers that start late, are stopped and continued, or are killed and started again; noise on all ports of A and B; and half-open
connections on the port of the retransmission. One `watch` more reads the lines as they are sent. In some days `live` is killed.

Most days are given by a file. There a participant may never come, or never close its line; followers may be waited for no longer; the day is ended
at any moment, once or twice, and its operator asks how it stands; half lines and bytes that are none flood the control socket, by up to 256
connections at a time; and a `follow` may have --partial.

At its end

- `live` has ended with status 0 and a report, and said of each participant how many messages were admitted; its control socket is gone;
- each follower that ended with status 0 has that report byte for byte, or a tape that is recorded as it should be and has its report's figures;
- each other one ended with a status that it may have, and wrote no report, or the one of the first entries that it said, or the front of a tape. A follower
  that is neither killed nor given up has to end well, and reads as many packets of either line if nothing is lost;
- the tape has, for each participant, the messages that a plain tape admits of what was sent, in their order, or the front of them if the
  day was ended.

With --journal each day keeps a journal. `live` is killed up to three times, at any moment, and started again; each time the participants send all
again, or from the number on that the day's status says, and followers stay or start anew. At its end

- a plain reader of the journal finds each number once and every group whole, and each earlier journal is the front of the later one;
- the report is that of the journal's messages in one batch, byte for byte, and so is that of each follower that ended well;
- whatever a follower wrote, or lines A and B ever carried, is what the journal has under the same number;
- each start said what it cut off and where it went on, as the plain reader has it, and so does the status of each line.

A day that is not so is printed with its seed. What happens when is drawn from the seed, but threads and processes run as the system lets them.

Statuses: 0 if each day is so; 1 if one is not; 2 if the words are others.
"""

import argparse
import subprocess
import sys
import time
from concurrent.futures import ThreadPoolExecutor

import folders  # noqa: F401
from journaled_day import JournaledDay
from storm_day import Day, Taken, Wrong
from support import TAPEBOX


def tried(seed, kind=Day):
    """Whether the day of a seed is as it should be, and a line about it."""
    name = f"{seed} with a journal" if kind is JournaledDay else f"{seed}"
    try:
        day, began = kind(seed), time.monotonic()
        day.check(day.run())
        statuses = "; ".join(f"{it.word} {', '.join(str(one.status) for one in it.ends)}" for it in day.followers)
        return True, f"seed {name}: as it should be in {time.monotonic() - began:.1f} s: {statuses}{day.told()}"
    except Taken:
        return tried(seed, kind)
    except (Wrong, subprocess.TimeoutExpired, TimeoutError) as fault:
        return False, f"seed {name}: {fault}: tests/storm.py {'--journal ' * (kind is JournaledDay)}{seed}"


def tried_with_journal(seed):
    """The same of a day that keeps a journal."""
    return tried(seed, JournaledDay)


def main():
    parser = argparse.ArgumentParser(description=__doc__, formatter_class=argparse.RawDescriptionHelpFormatter)
    parser.add_argument("--at-once", type=int, default=1, metavar="N", help="run so many days at once (1)")
    parser.add_argument("--journal", action="store_true", help="each day keeps a journal, and goes on if `live` is killed")
    parser.add_argument("--program", metavar="FILE", help="the program, in place of the one of ./run")
    parser.add_argument("seeds", nargs="+", type=int, metavar="SEED", help="the seed of a day")
    words, wrong = parser.parse_args(), 0
    if words.program:
        TAPEBOX.path = words.program
    with ThreadPoolExecutor(words.at_once) as days:
        for is_right, line in days.map(tried_with_journal if words.journal else tried, words.seeds):
            wrong += not is_right
            print(line, flush=True)
    return 1 if wrong else 0


if __name__ == "__main__":
    sys.exit(main())
