"""Followers of a running day, as the built program runs them."""

import contextlib
import errno
import os
import re
import signal
import socket
import statistics
import struct
import subprocess
import sys
import tempfile
import threading
import time
from concurrent.futures import ThreadPoolExecutor
from pathlib import Path

import plain_feed
from preloaded import CALL_FAILED, failing
from support import DISAGREES, HOST, LIMIT, READ_FAULT, SAMPLES, TAPEBOX, WRITE_FAULT, Case, Ended
from support import connect, ended, message, ports, report, report_row, report_rows, reports, run, started, tried, wait_bound, wait_connected, wait_for, wait_read

SESSION = 7
LOSSY_DAY = Path(__file__).resolve().parent.parent / "lossy_day.sh"
LOSSY_RELAY = LOSSY_DAY.with_name("lossy_relay.py")
# The spelling of a request: its session, the first number asked for, and how many.
REQUEST = struct.Struct(">QIH")


def packet(kind, number, *messages):
    """A packet of version 1, by the number in its header and the messages of its entries."""
    entries = b"".join(struct.pack(">I", number + at) + message for at, message in enumerate(messages))
    return struct.pack(">BcQIB", 1, kind, SESSION, number, len(messages)) + entries


def entries(first, last, price="10.00"):
    """A packet of these entries, each a report of N under its own number."""
    return packet(b"D", first, *(report("N", number, price=price) for number in range(first, last + 1)))


def longest_packet():
    """A packet of sixteen reports, and the longest one there is, with a correction of each of them by what it says."""
    tape = plain_feed.Tape(["AB"], ["N"], 32, "1")
    for number in range(1, 17):
        tape.admit(report("N", number))
    for number in range(1, 17):
        correction = {"participant": "N", "number": 16 + number, "symbol": "AB", "target": number}
        tape.admit(message(kind="correct", price="10.00", size=100, condition="@___", **correction))
    return plain_feed.cut(tape, 2, SESSION, 1, 32)


def answer_of(*packets):
    """An answer of the retransmission that has these packets."""
    return struct.pack(">BB", 0, len(packets)) + b"".join(struct.pack(">H", len(each)) + each for each in packets)


def row_of(count):
    """The consolidated row of so many reports at 10.00."""
    first = (100_000, 1)
    return report_row("AB", "ALL", [first, first, first, (100_000, count)], 100 * count, count)


class Follower:
    """A follower whose lines and retransmission are the case's own: its process, its connection once it has come, and what sends by each
    line."""

    def __init__(self, follow, server, sender, lines):
        self.follow = follow
        self.server = server
        self.connection = None
        self.accept()
        self.ports = lines
        self.by_a, self.by_b = (lambda packet, port=port: sender.sendto(packet, (HOST, port)) for port in lines)

    def accept(self):
        """Takes the follower's next connection in place of the one before."""
        if self.connection:
            self.connection.close()
        self.connection, _ = self.server.accept()
        self.connection.settimeout(LIMIT)

    def request(self):
        """The first number and the count of the next request; none if the follower closes."""
        taken = b""
        while len(taken) < REQUEST.size and (more := self.connection.recv(REQUEST.size - len(taken))):
            taken += more
        return REQUEST.unpack(taken)[1:] if taken else None


@contextlib.contextmanager
def follower(**options):
    """A follower with a connection to the case's own retransmission."""
    a, b, retransmission = ports(3)
    with socket.create_server((HOST, retransmission)) as server, socket.socket(socket.AF_INET, socket.SOCK_DGRAM) as sender:
        server.settimeout(LIMIT)
        with started(["follow", "AB", "N", a, b, retransmission, SESSION], **options) as follow:
            peer = Follower(follow, server, sender, (a, b))
            try:
                yield peer
            finally:
                peer.connection.close()


class Answers(Case):
    """A beat announces four entries that never came, so the follower asks for them."""

    BEAT = bytes.fromhex("0148 0000000000000007 00000004 00")
    # One packet of 59 bytes, which has entry 2 alone.
    SECOND = bytes.fromhex("01 003b 0144 0000000000000007 00000002 01 00000002") + report("N", 1)

    def follow(self, answer):
        """How a follower that is answered so ends."""
        with follower() as peer:
            peer.by_a(self.BEAT)
            self.assertEqual(peer.request(), (1, 4))
            peer.connection.sendall(answer)
            with contextlib.suppress(OSError):
                # It may have ended by then.
                peer.connection.shutdown(socket.SHUT_WR)
            return ended(peer.follow)

    def test_answers_that_are_none(self):
        """OPERATING, "Statuses", 3 and 7: a follower that is refused, or answered by bytes that are no answer or lack the first entry asked for,
        disagrees; if the connection ends instead, a read has failed."""
        for answer, fault in [(b"\x48", DISAGREES), (b"\x05", DISAGREES), (self.SECOND, DISAGREES), (b"", READ_FAULT)]:
            with self.subTest(answer.hex()):
                self.assert_fault(self.follow(answer), fault)

    def test_a_request_that_is_not_written(self):
        """OPERATING, "Statuses", 4: a follower whose connection was reset can't write its request."""
        with follower() as peer:
            peer.connection.setsockopt(socket.SOL_SOCKET, socket.SO_LINGER, struct.pack("ii", 1, 0))
            peer.connection.close()
            peer.by_a(self.BEAT)
            self.assert_fault(ended(peer.follow), WRITE_FAULT)

    def test_a_connection_that_is_lost(self):
        """OPERATING: a follower whose connection ends after an answer opens another, and asks there for what is missing. If that one ends
        before an answer, a read has failed, or a write."""
        for answers, ends in [(True, [(0, b"")]), (False, [READ_FAULT, WRITE_FAULT])]:
            with self.subTest(answers), follower() as peer:
                peer.by_a(self.BEAT)
                self.assertEqual(peer.request(), (1, 4))
                peer.connection.sendall(answer_of(entries(1, 1)))
                self.assertEqual(peer.request(), (2, 3))
                peer.accept()
                self.assertEqual(peer.request(), (2, 3))
                if answers:
                    peer.connection.sendall(answer_of(entries(2, 4)))
                    peer.by_a(packet(b"E", 4))
                else:
                    peer.connection.close()
                end = ended(peer.follow)
                self.assertIn((end.status, end.said), ends)

    def test_port_that_is_taken(self):
        """OPERATING, "Statuses", 3: a line's port that is taken is a read fault."""
        a, b, retransmission = ports(3)
        with socket.socket(socket.AF_INET, socket.SOCK_DGRAM) as holder:
            holder.bind((HOST, b))
            self.assert_fault(run(["follow", "AB", "N", a, b, retransmission, SESSION]), READ_FAULT)


class Packets(Case):
    """Followers of packets that fail to be read, or are refused."""

    def test_a_read_that_fails(self):
        """OPERATING, "Statuses", 3: a line that can't be read is a read fault."""
        with follower(env=failing(("recvfrom", 1, 1, errno.EIO))) as peer:
            end = ended(peer.follow)
        self.assertEqual(end, Ended(READ_FAULT[0], b"", CALL_FAILED + READ_FAULT[1]))

    def test_a_read_that_is_interrupted(self):
        """PROMISES, "What is only tested": a read that is interrupted is made again."""
        with follower(env=failing(("recvfrom", 1, 10, errno.EINTR))) as peer:
            peer.by_a(entries(1, 2))
            peer.by_b(packet(b"E", 2))
            end = ended(peer.follow)
        self.assertEqual((end.status, end.said), (0, 10 * CALL_FAILED))
        self.assertIn(row_of(2), report_rows(end.written))

    def test_packets_that_are_refused(self):
        """RULES, "A subscriber": another entry under a number that waits, one past the end, and another end change nothing: the follower drops
        them. Entry 2 is missing until all of them were read."""
        with follower() as peer:
            for sent in (entries(1, 1), entries(3, 3), entries(3, 3, "99.00"), packet(b"E", 4), entries(5, 5), packet(b"E", 5), entries(4, 4), b""):
                peer.by_a(sent)
            self.assertEqual(peer.request(), (2, 1))
            wait_read(peer.follow, peer.ports[0])
            peer.connection.sendall(answer_of(entries(2, 2)))
            end = ended(peer.follow)
        self.assertEqual((end.status, end.said), (0, b""))
        self.assertIn(row_of(4), report_rows(end.written))

    def test_a_byte_beyond_the_longest_packet(self):
        """FORMATS, "Packets": the longest packet and a byte more are no packet. The follower drops them and asks for the entries, which come by the
        same packet alone."""
        first, longest = longest_packet()
        self.assertEqual(len(longest), plain_feed.LONGEST_PACKET)
        with follower() as peer:
            for sent in (first, longest + b"\0", packet(b"E", 32)):
                peer.by_a(sent)
            self.assertEqual(peer.request(), (17, 16))
            peer.connection.sendall(answer_of(longest))
            end = ended(peer.follow)
        self.assertEqual((end.status, end.said), (0, b""))
        self.assertIn(row_of(16), report_rows(end.written))

    def test_all_is_held_while_a_request_waits(self):
        """OPERATING: a follower that holds all and knows the end closes its connection and ends, though its request was not
        answered."""
        with follower() as peer:
            peer.by_a(entries(1, 1))
            peer.by_a(packet(b"E", 3))
            self.assertEqual(peer.request(), (2, 2))
            peer.by_b(entries(2, 3))
            self.assertIsNone(peer.request())
            end = ended(peer.follow)
        self.assertEqual((end.status, end.said), (0, b""))
        self.assertIn(row_of(3), report_rows(end.written))


class LateLines(Case):
    """A follower of packets of one report each, which asks on a connection of the case's own."""

    REPORTS = 200
    # How many gaps are looked at, and how many entries a packet of version 1 has at most.
    GAPS = 40
    ENTRIES_MOST = 8
    # How many numbers above those that are held leave no time to wait for a line.
    AHEAD = 600
    # Seconds: less than the turns for which a line is waited for, and more than a request takes.
    AT_ONCE = 0.004

    @staticmethod
    def answer(peer):
        """Answers each request by the first entry asked for, until the follower closes: the numbers that were asked for."""
        asked = []
        while request := peer.request():
            asked.append(request[0])
            peer.connection.sendall(answer_of(entries(asked[-1], asked[-1])))
        return asked

    def asked(self, count, send):
        """What a follower asks for of a day of so many reports, when this function sends the packets by the two lines given."""
        with follower() as peer, ThreadPoolExecutor() as pool:
            asked = pool.submit(self.answer, peer)
            send(peer.by_a, peer.by_b)
            ended_well = ended(peer.follow)
            self.assertEqual((ended_well.status, ended_well.said), (0, b""))
            self.assertIn(row_of(count), report_rows(ended_well.written))
            return asked.result()

    @tried(5)
    def test_a_line_that_brings_the_rest_later(self):
        """OPERATING: what line A lost and B brings a millisecond later is not asked for, unless the machine is held up."""

        def send(line_a, line_b):
            for number in range(1, self.REPORTS, 2):
                line_a(entries(number, number))
                time.sleep(0.001)
                for late in range(max(number - 1, 1), number + 1):
                    line_b(entries(late, late))
            for line in (line_a, line_b):
                line(entries(self.REPORTS, self.REPORTS))
                line(packet(b"E", self.REPORTS))

        self.assertLess(len(self.asked(self.REPORTS, send)), self.REPORTS // 4)

    def test_a_line_that_brings_nothing_more(self):
        """OPERATING: a line that brings nothing more is not waited for without end."""

        def send(line_a, line_b):
            for line in (line_a, line_b):
                line(entries(1, 1))
            for number in (3, 5):
                line_a(entries(number, number))
            line_a(packet(b"E", 5))

        self.assertEqual(self.asked(5, send), [2, 4])


    @tried(5)
    def test_a_line_that_stays_late(self):
        """OPERATING: a line that was waited for in vain is not waited for again, whatever it brings, before it has come to the number that
        was asked for: but for the first gap the request comes at once."""
        seconds = []
        with follower() as peer:
            for line in (peer.by_a, peer.by_b):
                line(entries(1, 1))
            for number in range(2, 2 * self.GAPS + 1, 2):
                began = time.monotonic()
                peer.by_b(entries(1, 1))
                peer.by_a(entries(number + 1, number + 1))
                self.assertEqual(peer.request(), (number, 1))
                seconds.append(time.monotonic() - began)
                peer.connection.sendall(answer_of(entries(number, number)))
            peer.by_a(packet(b"E", number + 1))
            end = ended(peer.follow)
        self.assertEqual((end.status, end.said), (0, b""))
        self.assertIn(row_of(number + 1), report_rows(end.written))
        self.assertLess(statistics.median(seconds), self.AT_ONCE)

    def bring(self, peer, last):
        """Answers requests until the follower holds so many entries, and returns when the first of them came."""
        first = None
        held = 0
        while held < last:
            number, count = peer.request()
            first = first or time.monotonic()
            held = number + count - 1
            starts = range(number, held + 1, self.ENTRIES_MOST)
            peer.connection.sendall(answer_of(*(entries(start, min(start + self.ENTRIES_MOST - 1, held)) for start in starts)))
        return first

    @tried(5)
    def test_a_gap_that_fills_the_window(self):
        """OPERATING: a line is not waited for, though it was in time, once more than half of the window is announced."""
        seconds = []
        with follower() as peer:
            for number in range(1, self.GAPS // 4 * self.AHEAD, self.AHEAD + 1):
                for line in (peer.by_a, peer.by_b):
                    line(entries(number, number))
                for port in peer.ports:
                    wait_read(peer.follow, port)
                began = time.monotonic()
                peer.by_a(packet(b"H", number + self.AHEAD))
                seconds.append(self.bring(peer, number + self.AHEAD) - began)
            peer.by_a(packet(b"E", number + self.AHEAD))
            end = ended(peer.follow)
        self.assertEqual((end.status, end.said), (0, b""))
        self.assertIn(row_of(number + self.AHEAD), report_rows(end.written))
        self.assertLess(statistics.median(seconds), self.AT_ONCE)


class Counting(threading.Thread):
    """Passes a follower's requests on, and the answers back, and counts the entries that are asked for."""

    def __init__(self, port, target):
        super().__init__(daemon=True)
        self.listener = socket.create_server((HOST, port))
        self.target = target
        self.asked = 0

    @staticmethod
    def pass_back(live, follow):
        """Passes the answers back."""
        with contextlib.suppress(OSError):
            while answer := live.recv(1 << 16):
                follow.sendall(answer)

    def run(self):
        with self.listener:
            follow, _ = self.listener.accept()
        with follow, connect(self.target) as live:
            for connection in (follow, live):
                connection.setsockopt(socket.IPPROTO_TCP, socket.TCP_NODELAY, 1)
            back = threading.Thread(target=self.pass_back, args=[live, follow], daemon=True)
            back.start()
            with contextlib.suppress(OSError), follow.makefile("rb") as requests:
                while request := requests.read(REQUEST.size):
                    self.asked += REQUEST.unpack(request)[2]
                    live.sendall(request)
            with contextlib.suppress(OSError):
                live.shutdown(socket.SHUT_WR)
            back.join()


class Cutting(Counting):
    """Does so for two connections, and cuts the first one at its second request, which is asked after an answer."""

    def run(self):
        with self.listener:
            for most in (1, None):
                follow, _ = self.listener.accept()
                with follow, connect(self.target) as live:
                    self.pass_on(follow, live, most)

    def pass_on(self, follow, live, most):
        """Passes so many requests on, and their answers back, or all."""
        back = threading.Thread(target=self.pass_back, args=[live, follow], daemon=True)
        back.start()
        with contextlib.suppress(OSError), follow.makefile("rb") as requests:
            passed = 0
            while (request := requests.read(REQUEST.size)) and passed != most:
                passed += 1
                self.asked += REQUEST.unpack(request)[2]
                live.sendall(request)
        with contextlib.suppress(OSError):
            live.shutdown(socket.SHUT_RDWR)
        back.join()


class Tails(Case):
    def test_what_was_lost_last(self):
        """OPERATING: what both lines lost last is asked for once a beat tells of it, while the day goes on."""
        line, a, b, retransmission, counted = ports(5)
        counting = Counting(counted, retransmission)
        counting.start()
        failed = failing(("sendto", 1, 2, errno.ENOBUFS))
        with started(["live", "AB", "N", line, a, b, retransmission, 1, SESSION], env=failed) as live, connect(line) as participant:
            with started(["follow", "AB", "N", a, b, counted, SESSION]) as follow:
                wait_bound(follow, a, b)
                participant.sendall(report("N", 1))
                wait_for(follow, "a request", lambda: counting.asked == 1)
                participant.close()
                ends = [ended(live), ended(follow)]
        self.assertEqual([(end.status, end.said) for end in ends], [(0, 2 * CALL_FAILED), (0, b"")])
        self.assertIn(row_of(1), report_rows(ends[1].written))


class LateDays(Case):
    """Days at full speed through the relay, whose line B is late, or dead."""

    REPORTS = 12_000
    # So many times as much as of a dead line may be asked for of a late one, and a quarter of the day: what a busy machine's sockets lose.
    TIMES = 3
    MORE = REPORTS // 4

    @contextlib.contextmanager
    def relay(self, ways, *options):
        """The relay between the two lines' ports and the follower's."""
        with started([LOSSY_RELAY, *options, *ways], program=sys.executable) as relay:
            wait_bound(relay, *ways[:2])
            yield

    def asked(self, *options):
        """How many entries are asked for of such a day, whose reports are equal."""
        line, *ways, retransmission, counted = ports(7)
        counting = Counting(counted, retransmission)
        counting.start()
        with started(["live", "AB", "N", line, *ways[:2], retransmission, 1, SESSION]) as live, connect(line) as participant:
            with self.relay(ways, *options), started(["follow", "AB", "N", *ways[2:], counted, SESSION]) as follow:
                wait_bound(follow, *ways[2:])
                participant.sendall(reports("N", self.REPORTS))
                participant.close()
                ends = [ended(live), ended(follow)]
        self.assertEqual([(end.status, end.said) for end in ends], [(0, b"")] * 2)
        self.assertEqual(ends[0].written, ends[1].written)
        self.assertIn(f",{100 * self.REPORTS},{self.REPORTS}\n".encode(), ends[1].written)
        counting.join()
        return counting.asked

    @tried(5)
    def test_a_late_line_costs_no_more_than_a_dead_one(self):
        """OPERATING: a line that is late by 20 or 200 milliseconds costs not much more than one that is dead, and the reports are
        equal."""
        dead = self.asked("--lose", "0,100")
        for late in ("0,20", "0,200"):
            asked = self.asked("--late", late)
            self.assertLess(asked, self.TIMES * dead + self.MORE, (late, dead))


class Relay(threading.Thread):
    """Passes a line's packets on to a port of each follower, but for every tenth data packet, until all ends have come."""

    LOST = 10
    ENDS = 3
    BUFFER_BYTES = 1 << 22

    def __init__(self, port, targets):
        super().__init__(daemon=True)
        self.targets = [(HOST, target) for target in targets]
        self.line = socket.socket(socket.AF_INET, socket.SOCK_DGRAM)
        self.line.setsockopt(socket.SOL_SOCKET, socket.SO_RCVBUF, self.BUFFER_BYTES)
        self.line.bind((HOST, port))

    def run(self):
        data = ends = 0
        with self.line:
            while ends < self.ENDS:
                packet = self.line.recv(2048)
                is_end = packet[1:2] == b"E"
                ends += is_end
                data += not is_end
                if is_end or data % self.LOST:
                    for target in self.targets:
                        self.line.sendto(packet, target)


class HeldUp(Case):
    """Followers that are held up during a day of 8,000 reports: their sockets hold only a part of it."""

    REPORTS = 8_000
    # What the losses of each of three followers are drawn from.
    SEEDS = (1, 2, 3)

    def assert_equal_reports(self, *programs):
        """All end well, with equal reports of the whole day."""
        ends = [ended(program) for program in programs]
        self.assertEqual({(end.status, end.said) for end in ends}, {(0, b"")})
        self.assertEqual(len({end.written for end in ends}), 1)
        self.assert_traded(ends[0].written, self.REPORTS)

    def assert_outlives_a_stop(self, seconds):
        """A follower that a signal stops for so long, before the first report, ends with the whole day's report."""
        line, a, b, retransmission = ports(4)
        with started(["live", "AB", "N", line, a, b, retransmission, 1, SESSION]) as live, connect(line) as participant:
            with started(["follow", "AB", "N", a, b, retransmission, SESSION]) as follow:
                wait_bound(follow, a, b)
                wait_connected(follow, retransmission, 1)
                follow.send_signal(signal.SIGSTOP)
                participant.sendall(reports("N", self.REPORTS))
                participant.close()
                time.sleep(seconds)
                follow.send_signal(signal.SIGCONT)
                self.assert_equal_reports(live, follow)

    def test_stopped_for_a_while(self):
        """OPERATING, "What you see": a follower that a signal stops for 400 milliseconds before the first
        report loses what its sockets can't hold, and gets it again, and one of the ends."""
        self.assert_outlives_a_stop(seconds=0.4)

    def test_stopped_beyond_the_third_end(self):
        """OPERATING, "What you see": a follower that is stopped for five seconds, in which the three ends went, gets
        a later one."""
        self.assert_outlives_a_stop(seconds=5)

    def test_started_after_the_third_end(self):
        """OPERATING, "What you see": a follower that starts after the three ends gets a later one, and asks for all."""
        line, a, b, retransmission = ports(4)
        with started(["live", "AB", "N", line, a, b, retransmission, 1, SESSION]) as live, connect(line) as participant:
            participant.sendall(reports("N", self.REPORTS))
            participant.close()
            time.sleep(2.5)
            with started(["follow", "AB", "N", a, b, retransmission, SESSION]) as follow:
                self.assert_equal_reports(live, follow)

    def test_served_at_once(self):
        """OPERATING: two followers with gaps are served at once, beside a third connection that asks for nothing and stays open until both have
        ended."""
        line, a, b, retransmission, *own = ports(8)
        relays = [Relay(a, own[::2]), Relay(b, own[1::2])]
        with started(["live", "AB", "N", line, a, b, retransmission, 3, SESSION]) as live, connect(line) as participant:
            with connect(retransmission) as idle, started(["follow", "AB", "N", *own[:2], retransmission, SESSION]) as first:
                wait_connected(first, retransmission, 2)
                with started(["follow", "AB", "N", *own[2:], retransmission, SESSION]) as second:
                    wait_connected(second, retransmission, 3)
                    for relay in relays:
                        relay.start()
                    participant.sendall(reports("N", self.REPORTS))
                    participant.close()
                    for follow in (first, second):
                        follow.wait(timeout=LIMIT)
                    self.assertIsNone(live.poll(), "the day ended while a connection was open")
                    idle.close()
                    self.assert_equal_reports(live, first, second)

    def test_several_ports(self):
        """OPERATING: each packet of a line goes to each of its five ports, the first and the last among them."""
        line, retransmission, *row = ports(12)
        ways = [row[at : at + 2] for at in range(0, len(row), 2)]
        a, b = (",".join(str(way[which]) for way in ways) for which in (0, 1))
        with started(["live", "AB", "N", line, a, b, retransmission, 2, SESSION]) as live, connect(line) as participant:
            with contextlib.ExitStack() as stack:
                follows = [stack.enter_context(started(["follow", "AB", "N", *way, retransmission, SESSION])) for way in (ways[0], ways[-1])]
                for follow, way in zip(follows, (ways[0], ways[-1])):
                    wait_bound(follow, *way)
                wait_connected(follows[-1], retransmission, 2)
                participant.sendall(reports("N", self.REPORTS))
                participant.close()
                self.assert_equal_reports(live, *follows)

    def test_a_connection_that_is_cut(self):
        """OPERATING: a follower whose connection is cut after an answer goes on by another one, which takes a turn of its own."""
        line, a, b, retransmission, cut, *own = ports(7)
        relays = [Relay(port, [target]) for port, target in zip((a, b), own)]
        cutting = Cutting(cut, retransmission)
        cutting.start()
        with started(["live", "AB", "N", line, a, b, retransmission, 2, SESSION]) as live, connect(line) as participant:
            with started(["follow", "AB", "N", *own, cut, SESSION]) as follow:
                wait_bound(follow, *own)
                for relay in relays:
                    relay.start()
                for number in range(1, self.REPORTS + 1):
                    participant.sendall(report("N", number))
                participant.close()
                self.assert_equal_reports(live, follow)
        cutting.join(timeout=LIMIT)
        self.assertFalse(cutting.is_alive(), "no second connection came")

    def test_three_behind_losses(self):
        """OPERATING: three followers on ports of their own, of which each loses a tenth of the packets of either line, end as the day does."""
        line, retransmission, *row = ports(2 + 4 * len(self.SEEDS))
        ways = [row[at : at + 4] for at in range(0, len(row), 4)]
        a, b = (",".join(str(way[which]) for way in ways) for which in (0, 1))
        with contextlib.ExitStack() as stack:
            live = stack.enter_context(started(["live", "AB", "N", line, a, b, retransmission, len(ways), SESSION]))
            participant = stack.enter_context(connect(line))
            relays, follows = [], []
            for seed, way in zip(self.SEEDS, ways):
                relays.append(stack.enter_context(started([LOSSY_RELAY, "--lose", "10", "--seed", seed, *way], program=sys.executable)))
                follows.append(stack.enter_context(started(["follow", "AB", "N", *way[2:], retransmission, SESSION])))
                wait_bound(relays[-1], *way[:2])
                wait_bound(follows[-1], *way[2:])
            wait_connected(live, retransmission, len(ways))
            for number in range(1, self.REPORTS + 1):
                participant.sendall(report("N", number))
            participant.close()
            self.assert_equal_reports(live, *follows)
            for relay in relays:
                relay.terminate()
                lost = re.findall(rb"(\d+) lost", ended(relay).written)
                self.assertEqual((len(lost), lost.count(b"0")), (2, 0))


class Gone(Case):
    """Followers whose day is gone, or only quiet."""

    REPORTS = 200
    # Seconds in which nothing is sent: more than a follower whose connection was closed waits.
    QUIET = 4

    @contextlib.contextmanager
    def day(self, serves):
        """A day of one participant that sent its reports and goes on, and its follower."""
        line, a, b, retransmission = ports(4)
        with started(["live", "AB", "N", line, a, b, retransmission, serves, SESSION]) as live, connect(line) as participant:
            with started(["follow", "AB", "N", a, b, retransmission, SESSION]) as follow:
                wait_bound(follow, a, b)
                wait_connected(follow, retransmission, 1)
                participant.sendall(reports("N", self.REPORTS))
                yield live, follow, participant

    def test_killed(self):
        """OPERATING, "What you see": if a signal ends `live` in mid-day, a follower that is not asking ends too."""
        for serves in (0, 1):
            with self.subTest(serves), self.day(serves) as (live, follow, _):
                time.sleep(0.5)
                live.kill()
                self.assert_fault(ended(follow, 2 * self.QUIET), READ_FAULT)

    def test_quiet(self):
        """OPERATING: a day that is only quiet is waited for, whether the follower's connection was accepted yet or not."""
        with contextlib.ExitStack() as stack:
            days = [stack.enter_context(self.day(serves)) for serves in (0, 1)]
            time.sleep(self.QUIET)
            for live, follow, participant in days:
                self.assertIsNone(follow.poll())
                participant.close()
                ends = [ended(live), ended(follow)]
                self.assertEqual([(end.status, end.said) for end in ends], [(0, b"")] * 2)
                self.assertEqual(ends[0].written, ends[1].written)

    def test_closed_while_lines_go_on(self):
        """OPERATING: a follower whose connection is closed takes what its lines still bring, and ends well at the end."""
        with follower() as peer:
            peer.connection.close()
            for number in range(1, 2 * self.QUIET + 1):
                peer.by_a(entries(number, number))
                time.sleep(0.5)
            peer.by_b(packet(b"E", 2 * self.QUIET))
            self.assertEqual(ended(peer.follow).status, 0)


class LossyDays(Case):
    """The table's day over sockets, through a relay that loses, doubles, reorders and garbles packets."""

    def assert_day(self, *table, trades=2, volume=250, **options):
        """The script ends well, and prints the report of the table's day, with so many trades and this volume."""
        environment = os.environ | {"TAPEBOX": str(TAPEBOX)} | options
        done = subprocess.run([LOSSY_DAY, *table], env=environment, capture_output=True, timeout=2 * LIMIT, check=False)
        self.assertEqual(done.returncode, 0, done.stderr)
        self.assert_traded(done.stdout, trades, volume)

    def test_lossy_lines(self):
        """README, "Two minutes: a lossy day": both reports are equal if packets of both lines are lost, and if all of line A or B is."""
        for lose in ("30", "100,10", "0,100"):
            with self.subTest(lose):
                self.assert_day(LOSE=lose)

    def test_a_reinstatement(self):
        """RULES, "A day": a report that is reinstated stands again on both tapes."""
        with tempfile.NamedTemporaryFile(suffix=".csv") as table:
            table.write((SAMPLES / "corrections.csv").read_bytes() + b"reinstate,Q,3,AB,1,,,\n")
            table.flush()
            self.assert_day(table.name, trades=3, volume=450, LOSE="30")

    def test_nobody_follows(self):
        """OPERATING: with SERVES 0 no retransmission is awaited."""
        self.assert_day(FOLLOWED="0")
