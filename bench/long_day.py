#!/usr/bin/env python3
"""Measures a long day: long_day.py [--messages N] [--limit N] [--seed N] [--json FILE]

N messages (4,000,000) of 15 participants in 400 symbols go through `tapebox live` to `tapebox follow` over two lines, with room for LIMIT
entries (16,777,216). They are made as they are sent, so this script never holds them all. Of a hundred messages one is a cancel, one a correction and
one a reinstatement. Prints the messages a second over the first and the last tenth and over the day, and the peak memory of both programs, in all
and for each entry; and looks that both reports are equal and count what was sent. `tapebox` is the one of
`./run --which`. Needs Python and Linux.

Statuses: 0 if they are and do; 1 if not, or a program fails; 2 if the words are others.
"""

import argparse
import contextlib
import random
import re
import struct
import sys
import tempfile
import time
from collections import deque
from pathlib import Path

from common import Failed, add_words, located, measured
from live_load import Day, Programs, wait_bound

import plain_table
from send_day import connect
from support import report_rows

PARTICIPANTS = "ABCDEFGHIJKLMNO"
SYMBOLS = [f"SYM{number}" for number in range(400)]
# How many messages a participant sends at once, and how many of its last reports a message may name.
PIECE = 1_000
NAMED = 64
HEAD = struct.Struct(">HcBIQ8s")
TARGET = struct.Struct(">I")
CONTENT = struct.Struct(">QI4s")
CONDITIONS = [condition.replace("_", " ").encode() for condition in plain_table.CONDITIONS]


class Report:
    """A report that later messages may name, as it stands now."""

    def __init__(self, number, symbol, size):
        self.number = number
        self.symbol = symbol
        self.size = size
        self.stands = True


class Participant:
    """Makes a participant's messages, and counts the reports that stand and their shares."""

    def __init__(self, letter, seed):
        self.letter = ord(letter)
        self.random = random.Random(f"{seed} {letter}")
        self.number = 0
        self.last = deque(maxlen=NAMED)
        self.trades = 0
        self.shares = 0

    def message(self):
        """The next message as bytes."""
        self.number += 1
        drawn = self.random.random()
        if drawn < 0.03 and self.last:
            return self.change(self.random.choice(self.last), drawn)
        symbol = SYMBOLS[self.random.randrange(len(SYMBOLS))].ljust(8).encode()
        content, size = self.content()
        self.last.append(Report(self.number, symbol, size))
        self.trades += 1
        self.shares += size
        return self.head(38, b"R", symbol) + content

    def change(self, report, drawn):
        """A correction of a report that stands, a cancel of it, or a reinstatement of one that is cancelled."""
        target = TARGET.pack(report.number)
        if not report.stands:
            report.stands = True
            self.trades += 1
            self.shares += report.size
            return self.head(26, b"S", report.symbol) + target
        self.shares -= report.size
        if drawn < 0.015:
            content, report.size = self.content()
            self.shares += report.size
            return self.head(42, b"C", report.symbol) + target + content
        report.stands = False
        self.trades -= 1
        return self.head(26, b"X", report.symbol) + target

    def head(self, length, kind, symbol):
        return HEAD.pack(length, kind, self.letter, self.number, 0, symbol)

    def content(self):
        """A price, a size and a condition as bytes, and the size."""
        size = 100 * self.random.randrange(1, 20)
        price = 100_000 + 100 * self.random.randrange(400)
        return CONTENT.pack(price, size, CONDITIONS[self.random.randrange(len(CONDITIONS))]), size


def send_day(participants, connections, messages):
    """Sends the day in pieces, one participant after another, and returns the second at which each tenth of it was sent."""
    sent, began, tenths = 0, time.perf_counter(), [0.0]
    while sent < messages:
        for letter, participant in participants.items():
            count = min(PIECE, messages - sent)
            connections[letter].sendall(b"".join(participant.message() for _ in range(count)))
            sent += count
            while len(tenths) <= 10 and sent * 10 >= messages * len(tenths):
                tenths.append(time.perf_counter() - began)
    for connection in connections.values():
        connection.close()
    return tenths


def peak_bytes(program):
    """The peak memory of a program that runs."""
    status = Path(f"/proc/{program.pid}/status").read_text(encoding="ascii")
    return 1024 * int(re.search(r"VmHWM:\s+(\d+)", status)[1])


def wait_all(programs):
    """The peak memory of each program, looked at until all have ended."""
    peaks = {program: 0 for program in programs}
    while any(program.poll() is None for program in programs):
        for program in programs:
            with contextlib.suppress(OSError, TypeError):
                peaks[program] = max(peaks[program], peak_bytes(program))
        time.sleep(0.05)
    return list(peaks.values())


def arguments():
    parser = argparse.ArgumentParser(description=__doc__, formatter_class=argparse.RawDescriptionHelpFormatter)
    add_words(parser)
    parser.add_argument("--messages", type=int, default=4_000_000)
    parser.add_argument("--limit", type=int, default=16_777_216)
    return parser.parse_args()


def records(words):
    """The one record of the day."""
    tapebox = located("tapebox")["tapebox"]
    day = Day(SYMBOLS, PARTICIPANTS, limit=words.limit)
    participants = {letter: Participant(letter, words.seed) for letter in PARTICIPANTS}
    with contextlib.ExitStack() as ending, tempfile.TemporaryDirectory() as folder:
        reports = [Path(folder) / "live", Path(folder) / "follow"]
        programs = Programs(ending)
        live = programs.start(reports[0], tapebox, "live", day.file)
        wait_bound(live, "tcp", day.retransmission)
        follow = programs.start(reports[1], tapebox, "follow", day.file)
        wait_bound(follow, "udp", day.a, day.b)
        began = time.perf_counter()
        tenths = send_day(participants, connect(list(PARTICIPANTS), day.ports[0]), words.messages)
        peaks = wait_all([live, follow])
        seconds = time.perf_counter() - began
        written = [report.read_bytes() for report in reports]
    if live.returncode or follow.returncode:
        raise Failed(f"live ended with status {live.returncode} and follow with {follow.returncode}")
    trades = sum(int(row["trades"]) for row in report_rows(written[0]) if row["who"] == "ALL")
    wanted = sum(participant.trades for participant in participants.values())
    if written[0] != written[1] or trades != wanted:
        raise Failed(f"the reports differ, or count {trades:,} trades and not {wanted:,}")
    tenth = words.messages / 10
    print(f"{words.messages:,} messages in {seconds:.1f} s, {words.messages / seconds:,.0f} a second")
    print(f"sent in the first tenth {tenth / (tenths[1] - tenths[0]):,.0f} a second, in the last {tenth / (tenths[10] - tenths[9]):,.0f}")
    for name, peak in zip(("live", "follow"), peaks):
        print(f"{name}: {peak / 2**20:,.0f} MB at most, {peak / words.messages:.0f} bytes an entry")
    yield {"messages": words.messages, "limit": words.limit, "seconds": seconds, "tenths": tenths, "live_bytes": peaks[0], "follow_bytes": peaks[1]}


if __name__ == "__main__":
    sys.exit(measured(arguments(), records))
