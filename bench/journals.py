#!/usr/bin/env python3
"""Measures what a journal costs a running day, and how long a day takes to go on with one.

    bench/journals.py [--messages N] [--rates N,..] [--seconds S] [--entries N] [--turns N] [--folder DIR] [--seed N] [--no-build] [--json FILE]

A day with a journal that is synced, one with `journal_sync = false` and one without a journal take turns. First N messages (200,000) of 15 participants
go through `tapebox live` to `tapebox follow` at full speed: prints the seconds from the first byte sent to the end of `follow`, and a journal's bytes
an entry. Then so many messages a second (1,000, 10,000 and 100,000) come over 4 lines for S seconds, as in bench/latency.py: prints p50 and p99 from a line to
lines A and B, in microseconds, how many messages were lost, and how many a second were sent; if that is less than what was asked for, or near to what
a day takes at full speed, the messages waited in a queue. Last a journal of N entries (4,000,000) is made, and a `live` goes on with it:
prints the seconds from its start until it has read the journal, and until a new message is on line A, and its peak memory. The processor seconds of `live`
stand beside each, as a machine with other work makes only the others longer.

How long a sync takes is the disk's: --folder says where the journals are kept. `tapebox` is the one of `./run --which`. Needs cargo, Python and
Linux, whose /proc/net tells which ports are bound.

Statuses: 0 if all was measured; 1 if a program fails or two reports differ; 2 if the words are others.
"""

import argparse
import contextlib
import os
import socket
import string
import subprocess
import sys
import time
from pathlib import Path

from common import DAYS, RELEASE, Failed, add_words, located, measured, shown
from latency import SYMBOLS, Load, numbers
from live_load import HOST, SAID, Day, Programs, bound, busy_day, send_all, wait_bound
from long_day import PARTICIPANTS, Participant, peak_bytes, send_day
from long_day import SYMBOLS as LONG_SYMBOLS

from send_day import connect

# As many participants as the busy day has, as many lines as a pace is tried with, and the greatest limit.
BUSY, LINES, LIMIT_MOST = 15, 4, 16_777_216
# The reports of both programs.
LIVE, FOLLOW = DAYS / "journals.live", DAYS / "journals.follow"
KINDS = {"synced": {"journal_sync": True}, "not synced": {"journal_sync": False}, "none": None}
# Where the kind and the number of a packet stand, and how many seconds one may take.
KIND, NUMBER, ROOM, PATIENCE = slice(1, 2), slice(10, 14), 2_048, 600


def journal_of(words):
    """Where a day's journal is."""
    return words.folder.resolve() / "journals.journal"


def day_of(words, symbols, participants, kind, **keys):
    """A day of these names with a journal of this kind."""
    return Day(symbols, participants, **keys, **({} if KINDS[kind] is None else {"journal": str(journal_of(words))} | KINDS[kind]))


def said():
    """What `live` said."""
    return Path(f"{LIVE}{SAID}").read_text(encoding="utf-8")


def processor_seconds(program):
    """How many processor seconds a program has taken that runs."""
    fields = Path(f"/proc/{program.pid}/stat").read_text(encoding="utf-8").rpartition(")")[2].split()
    return sum(map(int, fields[11:13])) / os.sysconf("SC_CLK_TCK")


def ended_well(live, *others):
    """Refuses programs that did not end well, and returns the processor seconds of `live`."""
    _, status, used = os.wait4(live.pid, 0)
    live.returncode = os.waitstatus_to_exitcode(status)
    statuses = [program.wait() for program in (live, *others)]
    if any(statuses):
        raise Failed(f"statuses {statuses}: {said()}")
    return used.ru_utime + used.ru_stime


def full_speed(words, kind, day):
    """The seconds of a day at full speed, the processor seconds of its `live`, and the bytes of its journal, if it has one."""
    _, symbols, own = day
    of, journal = day_of(words, symbols, own, kind), journal_of(words)
    journal.unlink(missing_ok=True)
    with contextlib.ExitStack() as ending:
        programs = Programs(ending)
        live = programs.start(LIVE, words.tapebox, "live", of.file)
        wait_bound(live, "tcp", of.retransmission)
        follow = programs.start(FOLLOW, words.tapebox, "follow", of.file)
        wait_bound(follow, "udp", of.a, of.b)
        began = send_all(own, of.ports[0])
        follow.wait()
        seconds = time.perf_counter() - began
        taken = ended_well(live, follow)
    if LIVE.read_bytes() != FOLLOW.read_bytes():
        raise Failed(f"{kind}: the reports differ")
    return seconds, taken, journal.stat().st_size if journal.exists() else 0


def at_pace(words, kind, load):
    """The figures of a day whose messages come at an even pace."""
    of = day_of(words, SYMBOLS, string.ascii_uppercase[: load.lines], kind, followers=0)
    journal_of(words).unlink(missing_ok=True)
    with contextlib.ExitStack() as ending:
        live = Programs(ending).start(LIVE, words.tapebox, "live", of.file)
        wait_bound(live, "tcp", *of.ports)
        asked = [RELEASE / "latency", of.ports[0], load.lines, of.a, of.b, load.rate, load.messages]
        told = subprocess.run(list(map(str, asked)), capture_output=True, text=True, check=False)
        taken = ended_well(live)
    if told.returncode:
        raise Failed(f"latency ended with status {told.returncode}: {told.stderr}")
    return {"live_seconds": taken} | {line.split()[0]: float(line.split()[1]) for line in told.stdout.splitlines()}


def make_journal(words, participants):
    """Makes a journal of so many entries."""
    of = day_of(words, LONG_SYMBOLS, PARTICIPANTS, "not synced", followers=0, limit=LIMIT_MOST)
    journal_of(words).unlink(missing_ok=True)
    with contextlib.ExitStack() as ending:
        live = Programs(ending).start(LIVE, words.tapebox, "live", of.file)
        wait_bound(live, "tcp", *of.ports)
        send_day(participants, connect(list(PARTICIPANTS), of.ports[0]), words.entries)
        ended_well(live)
    return journal_of(words).stat().st_size


def wait_sent(receiver, number):
    """Waits for the data packet that begins with this number."""
    while True:
        packet = receiver.recv(ROOM)
        if packet[KIND] == b"D" and int.from_bytes(packet[NUMBER], "big") == number:
            return


def wait_listening(live, port):
    """Waits until the port is bound, without a rest that would be measured."""
    while not bound("tcp", port):
        if live.poll() is not None:
            raise Failed(f"live ended with status {live.returncode}: {said()}")
        time.sleep(0.001)


def goes_on(words, participants):
    """The seconds until a `live` has read a journal, and until it has sent a new message, its processor seconds at either moment, and its peak memory."""
    of = day_of(words, LONG_SYMBOLS, PARTICIPANTS, "synced", followers=0, limit=LIMIT_MOST)
    held = sum(participant.number for participant in participants.values())
    with contextlib.ExitStack() as ending, socket.socket(socket.AF_INET, socket.SOCK_DGRAM) as receiver:
        receiver.bind((HOST, of.a))
        receiver.settimeout(PATIENCE)
        began = time.perf_counter()
        live = Programs(ending).start(LIVE, words.tapebox, "live", of.file)
        # The sockets are opened once the journal is read.
        wait_listening(live, of.ports[-1])
        read, taken = time.perf_counter() - began, processor_seconds(live)
        connections = connect(list(PARTICIPANTS), of.ports[0])
        connections[PARTICIPANTS[0]].sendall(participants[PARTICIPANTS[0]].message())
        wait_sent(receiver, held + 1)
        sent, taken_then, peak = time.perf_counter() - began, processor_seconds(live), peak_bytes(live)
        for connection in connections.values():
            connection.close()
        ended_well(live)
    return read, sent, taken, taken_then, peak


def of_full_speed(words):
    """The records of a day at full speed."""
    day, runs = busy_day(BUSY, words.messages, words.seed), {kind: [] for kind in KINDS}
    messages = sum(map(len, day[2].values()))
    for kind in [*KINDS] * words.turns:
        runs[kind].append(full_speed(words, kind, day))
    for kind, own in runs.items():
        seconds, taken, sizes = map(list, zip(*own))
        rates = [messages / one for one in seconds]
        yield shown(
            {"journal": kind, "messages": messages, "seconds": seconds, "a_second": rates, "live_seconds": taken, "bytes_an_entry": sizes[0] / messages}
        )


def of_paces(words):
    """The records of each pace."""
    for rate in words.rates:
        load, runs = Load(LINES, rate, max(int(rate * words.seconds), 1)), {kind: [] for kind in KINDS}
        for kind in [*KINDS] * words.turns:
            runs[kind].append(at_pace(words, kind, load))
        for kind, own in runs.items():
            figures = {what: [run[what] for run in own] for what in ("p50", "p99", "lost", "sent_per_second", "live_seconds")}
            yield shown({"journal": kind, "rate": rate} | figures)


def of_restarts(words):
    """The record of a journal that goes on."""
    participants = {letter: Participant(letter, words.seed) for letter in PARTICIPANTS}
    size = make_journal(words, participants)
    runs = [goes_on(words, participants) for _ in range(words.turns)]
    names = ("read", "sent", "read_seconds", "sent_seconds", "live_bytes")
    figures = dict(zip(names, map(list, zip(*runs))))
    yield shown({"journal": "goes on", "entries": words.entries, "bytes_an_entry": size / words.entries} | figures)


def records(words):
    """The records of all three parts."""
    words.tapebox = located("tapebox")["tapebox"]
    try:
        for part in (of_full_speed, of_paces, of_restarts):
            yield from part(words)
    finally:
        journal_of(words).unlink(missing_ok=True)


def main():
    parser = argparse.ArgumentParser(description=__doc__, formatter_class=argparse.RawDescriptionHelpFormatter)
    add_words(parser)
    parser.add_argument("--messages", type=int, default=200_000, help="how many messages a day at full speed has (200000)")
    parser.add_argument("--rates", type=numbers, default=numbers("1000,10000,100000"), help="messages a second (1000,10000,100000)")
    parser.add_argument("--seconds", type=float, default=1.5, help="how long a pace is kept (1.5)")
    parser.add_argument("--entries", type=int, default=4_000_000, help="how many entries the journal has that goes on (4000000)")
    parser.add_argument("--turns", type=int, default=3, help="how often each day runs (3)")
    parser.add_argument("--folder", type=Path, default=DAYS, metavar="DIR", help="where the journals are kept (bench/target/days)")
    return measured(parser.parse_args(), records)


if __name__ == "__main__":
    sys.exit(main())
