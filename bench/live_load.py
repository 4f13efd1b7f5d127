#!/usr/bin/env python3
"""Measures `tapebox live` and `tapebox follow` on this machine: a busy day over 15 participants' lines to followers, one unless told otherwise.

    bench/live_load.py [--messages N] [--lines N,..] [--turns N] [--seed N] [--lose P] [--late] [--followers N] [--no-build] [--json FILE]

Both are given by a day's file. The day is that of `make_day busy`, or of `busy4` and so on for another number of lines, without the lines that no participant's line can
bring (an odd digit, a letter that is not listed), up to N messages. It runs straight and through tests/lossy_relay.py with P percent lost on each
line; with --late in place of these through the relay with line B in time, late or dead, each without a loss and with one in a hundred packets of
a line lost. `tapebox` is the one of `./run --which`. Prints for each run the seconds from the first byte sent to the end of `follow`, the messages a second, how many entries the answers
of the retransmission had, and whether both reports are equal; and first how long `tapebox batch` takes over the same messages, and how long
their packets take over two ports without a tape, by `wire`, at several paces. Each run's seconds are also told as a multiple of the
batch's, and of the least of `wire` that lost no entry. Which participant comes first differs from run to run, but volumes and numbers of
trades don't, so these are compared with the batch's.

The follower asks through a small proxy that counts the entries, which makes each ask a little slower. Needs cargo, Python and
Linux, whose /proc/net tells which ports are bound.

Statuses: 0 if all reports are equal; 1 if not, or a program fails; 2 if the words are others.
"""

import argparse
import contextlib
import json
import socket
import subprocess
import sys
import threading
import time
from pathlib import Path

from common import DAYS, RELEASE, ROOT, Failed, add_words, located, make, measured, run, told

TESTS = ROOT / "tests"
sys.path.insert(0, str(TESTS))

import folders  # noqa: F401
from free_ports import free_ports
from send_day import HOST, connect, parse_batch
from support import report_rows

SESSION = 1
# Behind the name of a program's output, that of the file with its standard error.
SAID = ".said"
LIMIT_SECONDS = 600
BINDING_SECONDS = 10
REQUEST_BYTES = 14
# Where a data packet has its number of entries.
COUNT_AT = 14
# The busy day of so many participants.
LINES = {1: "busy1", 2: "busy2", 4: "busy4", 8: "busy8", 15: "busy", 26: "busy26"}
# What the relay does to line B, and what of it is lost besides.
LATE = [
    ("B in time", ["--late", "0"]),
    ("B 20 ms late", ["--late", "0,20"]),
    ("B 200 ms late", ["--late", "0,200"]),
    ("B dead", ["--lose", "0,100"]),
    ("B in time, 1 % lost", ["--lose", "1"]),
    ("B 20 ms late, 1 % lost", ["--late", "0,20", "--lose", "1"]),
    ("B 200 ms late, 1 % lost", ["--late", "0,200", "--lose", "1"]),
    ("B dead, 1 % lost", ["--lose", "1,100"]),
]
# After how many packets `wire` rests, and for how many milliseconds; and without a rest.
PACES = (("16", "1"), ("64", "1"), ("128", "1"), ("256", "1"), ())


def busy_day(participants, messages, seed):
    """The file of the day's batch, its symbols, and the messages of each participant."""
    lines = make(LINES[participants], seed).read_text().splitlines()
    listed = set(lines[1].split())
    sendable = [line for line in lines[2:] if line[0] in listed and len(line) % 2 == 0]
    path = DAYS / "live.txt"
    path.write_text("\n".join([*lines[:2], *sendable[:messages], ""]))
    symbols, participants, parsed = parse_batch(path.read_text())
    own = {letter: [] for letter in participants}
    for letter, message in parsed:
        own[letter].append(message)
    return path, symbols, own


class Retransmission(threading.Thread):
    """Passes requests and answers between a follower and `live`, and counts the entries of the answers."""

    def __init__(self, port, target):
        super().__init__(daemon=True)
        self.listener = socket.create_server((HOST, port))
        self.target = target
        self.entries = 0
        self.requests = 0

    def run(self):
        follower, _ = self.listener.accept()
        live = socket.create_connection((HOST, self.target))
        for connection in (follower, live):
            connection.setsockopt(socket.IPPROTO_TCP, socket.TCP_NODELAY, 1)
        with follower, live, follower.makefile("rb") as requests, live.makefile("rb") as answers:
            while request := requests.read(REQUEST_BYTES):
                live.sendall(request)
                answer = self.answer(answers)
                if not answer:
                    break
                follower.sendall(answer)
                self.requests += 1

    def answer(self, answers):
        """The next answer's bytes, none if `live` has closed."""
        answer = answers.read(1)
        if answer != b"\0":
            return answer
        answer += answers.read(1)
        for _ in range(answer[1]):
            length = answers.read(2)
            packet = answers.read(int.from_bytes(length, "big"))
            self.entries += packet[COUNT_AT]
            answer += length + packet
        return answer


def bound(kind, port):
    """Whether a socket of this kind listens on the port, or receives there."""
    rows = Path(f"/proc/net/{kind}").read_text().splitlines()[1:]
    return any(row.split()[1].endswith(f":{port:04X}") and row.split()[2] == "00000000:0000" for row in rows)


def wait_bound(program, kind, *ports):
    """Waits until the program has bound the ports, or ends with the reason."""
    deadline = time.monotonic() + BINDING_SECONDS
    while not all(bound(kind, port) for port in ports):
        if program.poll() is not None or time.monotonic() > deadline:
            sys.exit(f"{kind} ports {ports} were not bound: {program.args[1]}, status {program.poll()}")
        time.sleep(0.02)


def send_all(own, port):
    """Sends each participant's bytes, all participants at once; answers when the first byte was sent."""
    texts = {letter: b"".join(messages) for letter, messages in own.items()}
    connections = connect(list(own), port)
    threads = [threading.Thread(target=connections[letter].sendall, args=(text,)) for letter, text in texts.items()]
    began = time.perf_counter()
    for thread in threads:
        thread.start()
    for thread in threads:
        thread.join()
    for connection in connections.values():
        connection.close()
    return began


class Programs:
    """The programs that run, ended at the latest with the measure or when the time is over."""

    def __init__(self, ending):
        self.started = []
        self.ending = ending
        timer = threading.Timer(LIMIT_SECONDS, self.end)
        timer.daemon = True
        timer.start()
        ending.callback(self.end)
        ending.callback(timer.cancel)

    def start(self, written, *words):
        """Starts a program that writes this file, and whose standard error goes into one beside it."""
        output, said = (self.ending.enter_context(open(f"{written}{suffix}", "wb")) for suffix in ("", SAID))
        program = subprocess.Popen([str(word) for word in words], stdout=output, stderr=said)
        self.started.append(program)
        return program

    def end(self):
        for program in self.started:
            program.kill()


class Day:
    """The file of a day of these names: its ports are those of the participants, one each of lines A and B and of the retransmission, and some to
    spare."""

    def __init__(self, symbols, participants, spare=0, **keys):
        lines = len(participants)
        port = free_ports(lines + 3 + spare)
        self.ports, (self.a, self.b, self.retransmission, *self.spare) = range(port, port + lines), range(port + lines, port + lines + 3 + spare)
        self.keys = {"symbols": list(symbols), "participants": list(participants), "port": port, "a": [self.a], "b": [self.b]}
        self.keys |= {"retransmission": self.retransmission, "followers": 1, "session": SESSION} | keys
        self.file = self.write("day.toml")

    def write(self, name, **keys):
        """Writes a file of the day in which these keys are others."""
        file = DAYS / name
        file.write_text("".join(f"{key} = {json.dumps(value)}\n" for key, value in (self.keys | keys).items()))
        return file


def live_run(words, symbols, own, options):
    """Runs the day once, through the relay if there are options for it or several followers; answers the seconds, the counted retransmissions
    and the reports' files, or ends with the reason."""
    many = words.followers
    day = Day(symbols, own, spare=3 * many, followers=many)
    asked, lines = day.spare[:many], day.spare[many:]
    reports = [DAYS / f"live.{program}" for program in ("live", *(f"follow{at}" for at in range(many)))]
    is_relayed = options or many > 1
    with contextlib.ExitStack() as ending:
        programs = Programs(ending)
        ways = (day.a, day.b) if is_relayed else lines
        live = programs.start(reports[0], words.tapebox, "live", day.write("live.toml", a=[ways[0]], b=[ways[1]]))
        wait_bound(live, "tcp", day.retransmission)
        if is_relayed:
            relaying = [TESTS / "lossy_relay.py", *options, "--seed", words.seed, *ways, *lines]
            relay = programs.start(DAYS / "live.relay", sys.executable, *relaying)
            wait_bound(relay, "udp", *ways)
        counted = [Retransmission(own_port, day.retransmission) for own_port in asked]
        follows = []
        for at in range(many):
            counted[at].start()
            own_lines = lines[2 * at : 2 * at + 2]
            followed = day.write(f"follow{at}.toml", a=own_lines[:1], b=own_lines[1:], retransmission=asked[at])
            follows.append(programs.start(reports[1 + at], words.tapebox, "follow", followed))
            wait_bound(follows[at], "udp", *own_lines)
        began = send_all(own, day.ports[0])
        followed = [follow.wait() for follow in follows]
        seconds = time.perf_counter() - began
        lived = live.wait()
        if any(followed) or lived:
            sys.exit(f"follow ended with status {followed} and live with {lived} (-9: killed after {LIMIT_SECONDS} seconds): see {DAYS}/*{SAID}")
        if is_relayed:
            relay.terminate()
            relay.wait()
            print((DAYS / "live.relay").read_text(), end="")
    return seconds, counted, reports


def wire_seconds(day):
    """Runs `wire` over the day at each pace; answers the least seconds of a run that lost no entry."""
    least = None
    for pace in PACES:
        status, *_ = run([RELEASE / "wire", *pace], day, DAYS / "live.wire")
        if status:
            sys.exit(f"wire ended with status {status}")
        answer = told(DAYS / "live.wire")
        rest = f"{pace[1]} ms of rest after {pace[0]} packets" if pace else "no rest"
        print(f"wire, {rest}: {answer['seconds']:.3f} s, {answer['entries_per_second']:,.0f} messages a second, {answer['lost']:,.0f} lost")
        if answer["lost"] == 0:
            least = min(least or answer["seconds"], answer["seconds"])
    return least


def figures(report):
    """A report's rows in what no order changes."""
    return [tuple(row[column] for column in ("symbol", "who", "volume", "trades")) for row in report_rows(report)]


def line_counts(text):
    """Numbers of lines with commas between."""
    counts = [int(word) for word in text.split(",")]
    if not all(count in LINES for count in counts):
        raise ValueError(text)
    return counts


def arguments():
    parser = argparse.ArgumentParser(description=__doc__, formatter_class=argparse.RawDescriptionHelpFormatter)
    add_words(parser)
    parser.add_argument("--messages", type=int, default=200_000, help="how many messages the day has (200000)")
    parser.add_argument("--lines", type=line_counts, default=[15], help=f"how many participants there are, of {', '.join(map(str, LINES))} (15)")
    parser.add_argument("--turns", type=int, default=1, help="how often each day runs (1)")
    parser.add_argument("--followers", type=int, default=1, help="how many followers there are, more than one behind the relay (1)")
    parser.add_argument("--lose", default="10", help="the percentage lost on each line (10)")
    parser.add_argument("--late", action="store_true", help="line B late or dead, in place of the other runs")
    return parser.parse_args()


def batch_seconds(words, day):
    """The seconds of `tapebox batch` over the day."""
    status, _, seconds, _ = run([words.tapebox, "batch"], day, DAYS / "live.batch")
    if status:
        raise Failed(f"batch ended with status {status}")
    return seconds


def compared(words, day, symbols, own):
    """A record of each run of a day, beside the batch and `wire`."""
    messages = sum(map(len, own.values()))
    batch, wired = batch_seconds(words, day), wire_seconds(day)
    print(f"{messages:,} messages of {len(own)} participants in {len(symbols)} symbols; batch: {batch:.3f} s, {messages / batch:,.0f} messages a second")
    wanted = figures((DAYS / "live.batch").read_bytes())
    for name, options in LATE if words.late else [("straight", []), (f"{words.lose} % lost on each line", ["--lose", words.lose])]:
        seconds, counted, reports = live_run(words, symbols, own, options)
        live, *follows = (report.read_bytes() for report in reports)
        if any(live != follow for follow in follows) or figures(live) != wanted:
            raise Failed(f"{name}: the reports differ, or the volumes and trades are not the batch's")
        asked = [each.entries for each in counted]
        print(
            f"{name}: {seconds:.3f} s, {messages / seconds:,.0f} messages a second, {' and '.join(map('{:,}'.format, asked))} entries retransmitted;"
            f" {seconds / batch:.2f} times the batch" + (f", {seconds / wired:.2f} times wire" if wired else ""),
            flush=True,
        )
        yield {"lines": len(own), "run": name, "messages": messages, "seconds": seconds, "asked": sum(asked), "batch": batch, "wire": wired}


def records(words):
    """The records of all numbers of lines and turns."""
    words.tapebox = located("tapebox")["tapebox"]
    for lines in words.lines:
        day, symbols, own = busy_day(lines, words.messages, words.seed)
        for _ in range(words.turns):
            yield from compared(words, day, symbols, own)


if __name__ == "__main__":
    sys.exit(measured(arguments(), records))
