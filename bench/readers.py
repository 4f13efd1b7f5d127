#!/usr/bin/env python3
"""Measures what reads a running day as it comes: readers.py [--messages N] [--turns N] [--seed N] [--no-build] [--json FILE]

N messages (200,000) of 15 participants in 400 symbols go through `tapebox live` to `tapebox watch`, which writes into a file, or into
tools/tape_to_redis.py. That adds the rows to a stream of a server of Redis, which is started here and keeps a file of what it was told. Then the
same rows go from the file into a stream. Prints the entries a second, from the first byte sent or the first row until all are in the file or
the stream. Last, tools/board.py is given the rows of a day of 4,096 symbols, 10,000 a second; prints how late it told a page of a row at most.

`tapebox` is the one of `./run --which`. Redis is left out if there is no redis-server, or no module redis for /usr/bin/python3. Needs cargo,
Python and Linux.

Statuses: 0 if all was read; 1 if a program fails or rows are lacking; 2 if the words are others.
"""

import argparse
import contextlib
import json
import shutil
import subprocess
import sys
import tempfile
import threading
import time
import urllib.request

from common import DAYS, ROOT, Failed, add_words, located, measured, shown
from live_load import HOST, Day, Programs, busy_day, send_all, wait_bound
from tables import OWN_PYTHON, make_table

from free_ports import free_ports

TOOLS = ROOT / "tools"
PARTICIPANTS = 15
SERVER = f"redis-server --bind {HOST} --appendonly yes --save"
STREAM = "tape"
# The rows that the board is given, how many at once, and in how many seconds.
BOARD_DAY, AT_ONCE, PAUSE = "wide", 100, 0.01


def has_redis():
    """Whether the server and the module are there."""
    return shutil.which("redis-server") and not subprocess.run([OWN_PYTHON, "-c", "import redis"], capture_output=True, check=False).returncode


@contextlib.contextmanager
def stream():
    """A server of Redis: the command that adds rows to a stream of it from standard input, and what looks that so many are there."""
    port = free_ports(1)

    def look(entries):
        counted = subprocess.run(["redis-cli", "-h", HOST, "-p", str(port), "xlen", STREAM], capture_output=True, text=True, check=True).stdout
        if int(counted) != entries:
            raise Failed(f"the stream has {counted.strip()} entries, and the day {entries}")

    with contextlib.ExitStack() as ending:
        folder = ending.enter_context(tempfile.TemporaryDirectory())
        wait_bound(Programs(ending).start(DAYS / "readers.redis", *SERVER.split(), "", "--port", port, "--dir", folder), "tcp", port)
        yield [OWN_PYTHON, TOOLS / "tape_to_redis.py", "-", "--stream", STREAM, "--redis", f"redis://{HOST}:{port}/0"], look


def watched(tapebox, day, adding=None):
    """Runs a day with `watch`, into a file or into a command; returns the seconds and the rows' file."""
    _, symbols, own = day
    of, rows = Day(symbols, own), DAYS / "readers.csv"
    with contextlib.ExitStack() as ending:
        programs = Programs(ending)
        live = programs.start(DAYS / "readers.report", tapebox, "live", of.file)
        wait_bound(live, "tcp", of.retransmission)
        file = ending.enter_context(open(rows if adding is None else DAYS / "readers.none", "wb"))
        watch = subprocess.Popen([tapebox, "watch", of.file], stdout=subprocess.PIPE if adding else file, stderr=subprocess.DEVNULL)
        reader = subprocess.Popen(list(map(str, adding)), stdin=watch.stdout) if adding else watch
        programs.started += [watch, reader]
        wait_bound(watch, "udp", of.a, of.b)
        began = send_all(own, of.ports[0])
        ended = reader.wait()
        seconds = time.perf_counter() - began
        if ended or watch.wait() or live.wait():
            raise Failed(f"watch ended with status {watch.returncode}, what read it with {ended}, and live with {live.returncode}")
    return seconds, rows


def entries_of(rows):
    """How many entries a tape's file has."""
    return rows.read_bytes().count(b"\n") - 1


def from_file(rows, adding):
    """The seconds in which a command reads rows from a file."""
    with open(rows, "rb") as given:
        began = time.perf_counter()
        if subprocess.run(list(map(str, adding)), stdin=given, check=False).returncode:
            raise Failed("the rows of a file were not added")
        return time.perf_counter() - began


def feed(target, rows, moments):
    """Gives rows to the board at an even pace, and notes when each was due."""
    head, *lines = rows
    target.write(head)
    began = time.perf_counter()
    for at in range(0, len(lines), AT_ONCE):
        due = began + at // AT_ONCE * PAUSE
        time.sleep(max(due - time.perf_counter(), 0))
        moments.extend([due] * len(lines[at : at + AT_ONCE]))
        target.write(b"".join(lines[at : at + AT_ONCE]))
        target.flush()


def board_late(rows):
    """How many seconds after it was due a page was told of a row, at most."""
    moments, late = [], 0.0
    with subprocess.Popen([sys.executable, TOOLS / "board.py", "-", "0"], stdin=subprocess.PIPE, stdout=subprocess.PIPE) as board:
        try:
            address = board.stdout.readline().split()[1].decode()
            with urllib.request.urlopen(f"{address}events", timeout=60) as updates:
                threading.Thread(target=feed, args=(board.stdin, rows, moments), daemon=True).start()
                known = 0
                for line in filter(lambda line: line.startswith(b"data: "), updates):
                    told = json.loads(line[6:])["tape"]
                    late = max(late, time.perf_counter() - moments[known]) if told > known else late
                    known = told
                    if known == len(rows) - 1:
                        return late
        finally:
            board.terminate()
    raise Failed("the board ended before its rows")


def board_rows(tapebox, seed):
    """The rows of the board's day as `watch` has them."""
    table, _ = make_table(BOARD_DAY, seed)
    written = subprocess.run([tapebox, "tape", table], stdout=subprocess.PIPE, stderr=subprocess.DEVNULL, check=True).stdout
    return [row for row in written.splitlines(keepends=True) if not row.startswith(b",")]


def redis_records(words, day, rows):
    """A record of the running day into a stream, and one of its rows from a file."""
    entries = entries_of(rows)
    for reader in ("redis", "redis, from a file"):
        seconds = []
        for _ in range(words.turns):
            with stream() as (adding, look):
                seconds.append(watched(words.tapebox, day, adding)[0] if reader == "redis" else from_file(rows, adding))
                look(entries)
        yield shown({"reader": reader, "entries": entries, "seconds": seconds})


def records(words):
    """The records of all readers."""
    words.tapebox = located("tapebox")["tapebox"]
    day = busy_day(PARTICIPANTS, words.messages, words.seed)
    runs = [watched(words.tapebox, day) for _ in range(words.turns)]
    rows = runs[0][1]
    yield shown({"reader": "watch", "entries": entries_of(rows), "seconds": [seconds for seconds, _ in runs]})
    if has_redis():
        yield from redis_records(words, day, rows)
    given = board_rows(words.tapebox, words.seed)
    late = [board_late(given) for _ in range(words.turns)]
    yield shown({"reader": "board", "entries": len(given) - 1, "a_second": AT_ONCE / PAUSE, "late": late})


def main():
    parser = argparse.ArgumentParser(description=__doc__, formatter_class=argparse.RawDescriptionHelpFormatter)
    add_words(parser)
    parser.add_argument("--messages", type=int, default=200_000, help="how many messages the day has (200000)")
    parser.add_argument("--turns", type=int, default=3, help="how often each reader runs (3)")
    return measured(parser.parse_args(), records)


if __name__ == "__main__":
    sys.exit(main())
