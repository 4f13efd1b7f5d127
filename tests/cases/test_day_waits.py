"""A running day of a file: what it does while it waits, for whom it waits, and whom it gives up."""

import contextlib
import os
import re
import resource
import select
import socket
import struct
import tempfile
import time
from concurrent.futures import ThreadPoolExecutor
from pathlib import Path
from queue import SimpleQueue

from plain_feed import cut, decode_packet, told
from plain_tape import Tape
from preloaded import Held, built
from refused import HEAP, MOST, refusing, without_told
from support import HOST, Case, connect, ended, ports, report, reports, run, started, traded, wait_read
from cases.test_operated_day import SESSION, Day, day, sent

# How much of a second of waiting a program may compute, in seconds: it looks for connections and beats, and does not try again and again.
RESTING = 0.05
# Seconds within which what is not to wait comes.
SOON = 15
TICKS = os.sysconf("SC_CLK_TCK")


def worked(program):
    """How many seconds a program computes in a second."""

    def ticks():
        with open(f"/proc/{program.pid}/stat", encoding="ascii") as stat:
            return sum(map(int, stat.read().rpartition(")")[2].split()[11:13]))

    before = ticks()
    time.sleep(1)
    return (ticks() - before) / TICKS


def asking(it):
    """A connection to a day's control socket."""
    client = socket.socket(socket.AF_UNIX, socket.SOCK_STREAM)
    client.connect(str(it.folder / "day.control"))
    return client


class Resting(Case):
    """Who waits does not compute."""

    def test_a_participant_that_is_missing(self):
        """OPERATING, "What `live` does", 2: while a participant is waited for nearly nothing is computed."""
        with day() as it, it.live() as live, connect(it.port):
            it.wait_status(live, "(?s)N: connected.*Q: not connected")
            self.assertLess(worked(live), RESTING)

    def test_connections_that_find_no_file(self):
        """OPERATING, "What `live` does", 7: nor while connections of followers and operators can't be accepted, since all files are open; they are, once
        there are more."""
        with day(followers=2) as it, it.live() as live, connect(it.port), connect(it.next_port):
            it.wait_status(live, "(?s)N: connected.*Q: connected")
            limits = resource.prlimit(live.pid, resource.RLIMIT_NOFILE)
            resource.prlimit(live.pid, resource.RLIMIT_NOFILE, (3, limits[1]))
            # One of each may still be accepted, for which a file was set apart before.
            with connect(it.retransmission), connect(it.retransmission), asking(it), asking(it) as operator:
                self.assertLess(worked(live), RESTING)
                resource.prlimit(live.pid, resource.RLIMIT_NOFILE, limits)
                operator.settimeout(SOON)
                operator.sendall(b"status\n")
                self.assertIn(b"tape number 0,", operator.recv(4_096))
                it.wait_status(live, "follower 2: ")


class Answers(Case):
    """What a follower is answered."""

    # How often it is tried, and seconds in which a second answer comes that waits for nothing.
    TRIES, AT_ONCE = 20, 0.02

    def test_two_requests_at_once(self):
        """OPERATING, "What `live` does", 7: an answer does not wait until the one before has been acknowledged."""
        with day(followers=1) as it, it.live() as live, sent(it.port, reports("N", 3)), sent(it.next_port, b""):
            it.wait_status(live, "tape number 3,")
            with connect(it.retransmission) as follower:
                waited = [self.between(follower) for _ in range(self.TRIES)]
        self.assertLess(min(waited), self.AT_ONCE)

    def between(self, follower):
        """The seconds between the answers to two requests that come at once, to a peer that acknowledges late."""
        follower.setsockopt(socket.IPPROTO_TCP, socket.TCP_QUICKACK, 0)
        follower.sendall(struct.pack(">QIH", SESSION, 1, 1) + struct.pack(">QIH", SESSION, 4, 1))
        size = len(follower.recv(2)) and int.from_bytes(self.taken(follower, 2), "big")
        self.taken(follower, size)
        first = time.monotonic()
        self.assertEqual(self.taken(follower, 1), b"\x48")
        return time.monotonic() - first

    def taken(self, follower, count):
        """The next bytes, so many."""
        data = b""
        while len(data) < count:
            data += follower.recv(count - len(data))
        return data


class Ends(Case):
    """For whom the day waits at its end, and whom it gives up."""

    def test_a_follower_that_starts_after_the_end(self):
        """OPERATING, "What `live` does": the end is repeated until the followers have had it: one that starts four seconds late has the whole day."""
        with day(followers=1) as it, it.live() as live:
            for port, data in ((it.port, reports("N", 9)), (it.next_port, reports("Q", 4))):
                sent(port, data).close()
            it.wait_status(live, "all lines have ended\n")
            time.sleep(4)
            with it.follow() as follow:
                followed, over = ended(follow, SOON), ended(live, SOON)
        self.assertEqual((over.status, followed.status, followed.written), (0, 0, over.written))

    def test_the_report_comes_after_the_first_ends(self):
        """OPERATING, "What `live` does": the first three ends are sent, and then the report is written."""
        with day(followers=1) as it, it.live() as live, socket.socket(socket.AF_INET, socket.SOCK_DGRAM) as line:
            line.bind((HOST, it.a[0]))
            for port, data in ((it.port, reports("N", 4)), (it.next_port, b"")):
                sent(port, data).close()
            self.assertEqual(live.stdout.read(1), b"s")
            packets = []
            with contextlib.suppress(BlockingIOError):
                while True:
                    packets.append(decode_packet(line.recv(2_000, socket.MSG_DONTWAIT)))
            live.kill()
        self.assertGreaterEqual(sum(packet.kind == "E" for packet in packets), 3)

    def test_a_follower_that_is_given_up(self):
        """OPERATING, "How a day is operated": a follower that is waited for no longer is shown as given up, and counted at the end; one that has left before
        is not."""
        with day(followers=2) as it:
            held = Held(it.folder, "shutdown", 1)
            with it.live(env=os.environ | held.environment) as live, sent(it.port, reports("N", 4)), sent(it.next_port, b""):
                connect(it.retransmission).close()
                it.wait_status(live, "follower 1: [^\n]*, ended\n")
                with connect(it.retransmission):
                    it.wait_status(live, "follower 2: [^\n]*, served\n")
                    for _ in range(2):
                        self.assertEqual(run(["end", it.path]).status, 0)
                    held.wait(live)
                    self.assertRegex(it.status(), "follower 1: [^\n]*, ended\nfollower 2: [^\n]*, given up\n")
                    held.release()
                    over = ended(live, SOON)
        self.assertEqual(over.status, 0)
        self.assertIn(b"tapebox: 1 follower was waited for no longer\n", over.said)


class LittleMemory(Case):
    """A day of a file of which one request for memory is refused, and whose follower never comes."""

    LANES = 8

    def setUp(self):
        folder, row = tempfile.TemporaryDirectory(), ports(4 * self.LANES)
        self.addCleanup(folder.cleanup)
        self.lanes = SimpleQueue()
        for at in range(self.LANES):
            self.lanes.put(self.lane(Path(folder.name) / str(at), *row[4 * at : 4 * at + 4]))

    def lane(self, folder, port, a, b, retransmission):
        """A day of N at these ports."""
        folder.mkdir()
        it = Day(folder)
        keys = {"port": port, "a": [a], "b": [b], "retransmission": retransmission, "participants": ["N"]}
        it.port, it.path = port, it.write("day.toml", **keys, followers=1, followers_wait=0, control=None)
        return it

    def end_of(self, request):
        """How the day ended whose request of this number was refused, and whether it was met."""
        it = self.lanes.get()
        try:
            with it.live(env=os.environ | refusing(request)) as live:
                with contextlib.suppress(OSError), self.connection(live, it.port) as participant:
                    participant.sendall(reports("N", 40))
                return without_told(ended(live, SOON))
        finally:
            self.lanes.put(it)

    def connection(self, live, port):
        """The participant's connection. An OSError if the day ended before it listened."""
        while live.poll() is None:
            with contextlib.suppress(ConnectionRefusedError):
                return socket.create_connection((HOST, port))
            time.sleep(0.01)
        raise OSError

    def test_each_request(self):
        """OPERATING, "Statuses", 5: whichever request is refused, the day ends, and has its whole report or none. It does so if a line ends for want of
        memory."""
        built(HEAP)
        lines, is_met = 0, True
        with ThreadPoolExecutor(self.LANES) as pool:
            for first in range(1, MOST, self.LANES):
                for at, (is_met, end) in enumerate(pool.map(self.end_of, range(first, first + self.LANES)), first):
                    with self.subTest(at):
                        self.assertIn(end.status, (0, 3, 5, 6) if is_met else (0,))
                        self.assertEqual(traded(end.written, who="N"), (40, 4_000) if end.status == 0 else None)
                    lines += bool(end.status == 5 and re.search(rb"N: ([1-9]|[123]\d) messages", end.said))
                if not is_met:
                    break
        self.assertGreater(lines, 0)


class HeldUp(Case):
    """A follower that is held up by whoever reads its rows."""

    # How many datagrams it keeps meanwhile, how many are sent before it is seen that they were read, and how many more come than it keeps.
    KEPT, AT_ONCE, MORE = 1_024, 64, 60

    def test_what_comes_meanwhile(self):
        """OPERATING, "The running tape in a pipe": nothing of a line is lost while a row waits to be written, and nothing is asked for."""
        tape = Tape(["AB"], ["N", "Q"], 100, "1")
        for number in range(1, self.MORE + 3):
            tape.admit(report("N", number))
        first, *others = [cut(tape, 2, SESSION, number, number)[0] for number in range(1, self.MORE + 3)]
        with day(followers=1) as it, socket.create_server((HOST, it.retransmission)) as server, socket.socket(socket.AF_INET, socket.SOCK_DGRAM) as feed:
            # The first row is written with the names of the columns.
            held = Held(it.folder, "write", 1)
            with started(["watch", it.path], env=os.environ | held.environment) as watch, server.accept()[0] as follower:
                it.wait_followed(watch)
                feed.sendto(first, (HOST, it.a[0]))
                held.wait(watch)
                for at in range(self.KEPT):
                    feed.sendto(first, (HOST, it.b[0]))
                    if at % self.AT_ONCE == 0:
                        wait_read(watch, it.b[0])
                wait_read(watch, it.b[0])
                for packet in others:
                    feed.sendto(packet, (HOST, it.b[0]))
                # Whoever would drop them has read them by then.
                time.sleep(0.5)
                held.release()
                rows = self.written(watch, follower, len(tape.entries))
                for port in (it.a[0], it.b[0]):
                    feed.sendto(told("end", 2, SESSION, len(tape.entries)), (HOST, port))
                end = ended(watch, SOON)
                self.assertEqual((end.status, follower.recv(100)), (0, b""))
        self.assertEqual([row.split(b",")[0] for row in rows.splitlines()[1:]], [b"%d" % entry.number for entry in tape.entries])
        self.assertIn(b"tapebox: retransmission: 0 requests, ", end.said)

    def written(self, watch, follower, count):
        """The names of the columns and so many rows, while nothing is asked for."""
        rows = b""
        while rows.count(b"\n") <= count:
            self.assertEqual(select.select([watch.stdout, follower], [], [], SOON)[0], [watch.stdout])
            rows += os.read(watch.stdout.fileno(), 65_536)
        return rows
