"""Running days, as the built program runs them."""

import contextlib
import errno
import selectors
import socket
import string
import struct
import tempfile
import threading
import time
import unittest
from pathlib import Path

from preloaded import CALL_FAILED, EVER, failing, preloading
from support import DISAGREES, HOST, LIMIT, READ_FAULT, SAMPLES, WRITE_FAULT, Case
from support import connect, ended, free_ports, is_refused, message, ports, report, report_rows, reports, run, started, tried, wait_bound

# Asks Linux for the time at which each packet was taken, by the same number that its answer has.
SO_TIMESTAMPNS = 35
HEADER = struct.Struct(">BcQIB")


class Listeners(Case):
    """Cases that hear both lines of a day of one participant."""

    SESSION = 4_294_967_303

    @staticmethod
    def open_line(port):
        """A socket bound to the port, which tells when each packet was taken."""
        line = socket.socket(socket.AF_INET, socket.SOCK_DGRAM)
        line.setsockopt(socket.SOL_SOCKET, SO_TIMESTAMPNS, 1)
        line.setsockopt(socket.SOL_SOCKET, socket.SO_RCVBUF, 1 << 22)
        line.bind((HOST, port))
        line.setblocking(False)
        return line

    @staticmethod
    def take(line, packets):
        """Takes what a line has, each packet with its time."""
        while True:
            try:
                packet, told, _, _ = line.recvmsg(2048, 64)
            except BlockingIOError:
                return
            seconds, parts = struct.unpack("qq", told[0][2])
            packets.append((seconds + parts / 1e9, packet))

    def receive(self, lines, packets, day, is_enough=lambda packets: False):
        """Adds the packets of each line, until these are enough or the day has ended, which it does by the limit."""
        until = time.monotonic() + LIMIT
        with selectors.DefaultSelector() as waiting:
            for at, line in enumerate(lines):
                waiting.register(line, selectors.EVENT_READ, at)
            while day.poll() is None and not is_enough(packets):
                self.assertLess(time.monotonic(), until, "the day did not end")
                for key, _ in waiting.select(0.05):
                    self.take(key.fileobj, packets[key.data])
        for line, taken in zip(lines, packets):
            self.take(line, taken)
        return packets

    @contextlib.contextmanager
    def day(self, serves):
        """A day of one participant that serves so many connections, and ends with status 0: its process, its participant's connection, the port of its
        retransmission, and what hears its lines until they brought so many packets of a kind each, or until it has ended."""
        port = free_ports(4)
        packets = [[], []]
        with self.open_line(port + 1) as a, self.open_line(port + 2) as b:
            with started(["live", "AB", "N", port, port + 1, port + 2, port + 3, serves, self.SESSION]) as day, connect(port) as participant:

                def hear(kind=None, count=0):
                    return self.receive([a, b], packets, day, lambda packets: self.has_all(packets, kind, count))

                yield day, participant, port + 3, hear
                self.assertEqual(ended(day).status, 0)

    @staticmethod
    def has_all(packets, kind, count):
        """Whether each line brought so many packets of a kind, if one is named."""
        return kind is not None and all(sum(packet[1:2] == kind for _, packet in taken) >= count for taken in packets)


class SentPackets(Listeners):
    """One participant sends its reports at once, and nobody follows."""

    REPORTS = 4_000
    # More entries than two bytes count.
    MANY = 66_000
    ENTRIES_MOST = 8
    # How many packets the sender sends in a millisecond at first, and at least and at most.
    PACE_FIRST = 64
    PACE_LEAST = 16
    PACE_MOST = 64
    # Seconds: a little less than a turn of the sender's clock, since a clock may be set back meanwhile.
    TURN = 0.0009
    PAUSES = [0.24, 0.74]
    # The part of all spans in which a busy machine may keep a subscriber from asking. At the greatest pace half of them are too short.
    NOT_ASKED = 0.25
    # Seconds for which a subscriber asks: longer than all data takes, and shorter than the day waits for it.
    ASKING = 3
    UNPUBLISHED = bytes([72])

    def look_at_data(self, taken, entries):
        """Each entry comes once, in order, in packets of at most eight and at least one of eight, and never more than the greatest pace."""
        last, counts = 0, set()
        for _, packet in taken:
            version, kind, session, first, count = HEADER.unpack_from(packet)
            self.assertEqual((version, kind, session, first), (2, b"D", self.SESSION, last + 1))
            self.assertTrue(1 <= count <= self.ENTRIES_MOST, count)
            last += count
            counts.add(count)
        self.assertEqual(last, entries)
        self.assertIn(self.ENTRIES_MOST, counts)
        self.look_at_pace(taken, self.PACE_MOST)

    def look_at_pace(self, taken, pace, quicker=0):
        """No turn has more packets than this, but for such a part of all spans. A span as long as a turn may meet two of them."""
        times = [time for time, _ in taken]
        spans = [after - before for before, after in zip(times, times[2 * pace :])]
        self.assertLessEqual(sum(span < self.TURN for span in spans), quicker * len(spans))

    def look_at_ends(self, taken, entries):
        """The end comes three times, with the day's length, and a pause before the second and the third."""
        self.assertEqual([packet for _, packet in taken], 3 * [HEADER.pack(2, b"E", self.SESSION, entries, 0)])
        times = [time for time, _ in taken]
        for pause, before, after in zip(self.PAUSES, times, times[1:]):
            self.assertGreaterEqual(after - before, pause)

    def hear(self, count, serves=0, subscribe=lambda port, day: None):
        """The packets of each line of a day of so many reports. A subscriber may do something before the reports are sent."""
        with self.day(serves) as (day, participant, retransmission, hear):
            subscribe(retransmission, day)
            participant.sendall(reports("N", count))
            participant.close()
            return hear()

    @tried(5)
    def test_each_entry_once_and_three_ends(self):
        """OPERATING: what is sent on lines A and B, and when the ends come. There is no beat while entries are sent, and none after."""
        a, b = self.hear(self.REPORTS)
        self.assertEqual([packet for _, packet in a], [packet for _, packet in b])
        for taken in (a, b):
            self.look_at_data(taken[:-3], self.REPORTS)
            self.look_at_ends(taken[-3:], self.REPORTS)

    def keep_asking(self, port, day):
        """A subscriber that asks, before the first report and until the day has no connection more, for what is not published."""
        def ask(subscriber):
            with contextlib.suppress(OSError), subscriber:
                while day.poll() is None and time.monotonic() < until:
                    subscriber.sendall(struct.pack(">QIH", self.SESSION, self.MANY, 1))
                    subscriber.recv(1)
        until = time.monotonic() + self.ASKING
        subscriber = connect(port)
        threading.Thread(target=ask, args=[subscriber], daemon=True).start()

    @tried(5)
    def test_the_pace_of_who_asks(self):
        """OPERATING: while a subscriber asks, the sender sends the least number of packets in each turn but the first ones. A busy
        machine may keep the subscriber from asking in a turn, so a few may have more, and one of five days has to show it."""
        for taken in self.hear(self.REPORTS, 1, self.keep_asking):
            data = [(time, packet) for time, packet in taken if packet[1:2] == b"D"]
            self.look_at_data(data, self.REPORTS)
            self.look_at_pace(data[: 2 * self.PACE_FIRST], self.PACE_FIRST // 2, self.NOT_ASKED)
            self.look_at_pace(data[2 * self.PACE_FIRST :], self.PACE_LEAST, self.NOT_ASKED)

    def ask_once(self, port, day):
        """A subscriber that asks once, before the first report, and goes."""
        with connect(port) as subscriber:
            subscriber.sendall(struct.pack(">QIH", self.SESSION, 1, 1))
            self.assertEqual(subscriber.recv(1), self.UNPUBLISHED)

    @tried(5)
    def test_the_pace_after_a_request(self):
        """OPERATING: after a request that came before the first packet the first turn has half as many."""
        for taken in self.hear(self.REPORTS, 1, self.ask_once):
            self.look_at_data(taken[:-3], self.REPORTS)
            first, after = taken[0][0], taken[self.PACE_FIRST // 2][0]
            self.assertGreaterEqual(after - first, self.TURN)

    def test_three_ends_of_a_long_day(self):
        """OPERATING: a long day ends no other way. Of its entries some may be lost here."""
        for taken in self.hear(self.MANY):
            self.look_at_ends(taken[-3:], self.MANY)


class QuietDays(Listeners):
    """Days of one report, in which nothing is sent for a while, and which wait for a subscriber after their end."""

    # Seconds after which the beats of a quiet day come, each since what was sent before it, a little less than the program waits.
    BEATS = [0.019, 0.19, 0.9, 0.9]
    # How many ends are sent though nobody is awaited, and the seconds between those after them, a little less than the program waits.
    ENDS = 3
    LATER_END = 0.99

    @tried(5)
    def test_beats(self):
        """OPERATING: while nothing is sent, beats tell the last number, on both lines; there is none before the first entry."""
        with self.day(0) as (_, participant, _, hear):
            time.sleep(0.5)
            participant.sendall(report("N", 1))
            hear(b"H", len(self.BEATS))
            participant.close()
            packets = hear()
        for taken in packets:
            kinds = [packet[1:2] for _, packet in taken]
            beats = len(kinds) - 1 - self.ENDS
            self.assertEqual(kinds, [b"D", *beats * [b"H"], *self.ENDS * [b"E"]])
            for (before, _), (after, packet), pause in zip(taken, taken[1:], self.BEATS):
                self.assertGreaterEqual(after - before, pause)
                self.assertEqual(packet, HEADER.pack(2, b"H", self.SESSION, 1, 0))

    @tried(5)
    def test_ends_while_a_subscriber_is_awaited(self):
        """OPERATING: the end is sent each second until all connections have ended, also while one has yet to come."""
        with self.day(1) as (_, participant, retransmission, hear):
            participant.sendall(report("N", 1))
            participant.close()
            hear(b"E", self.ENDS + 2)
            with connect(retransmission):
                hear(b"E", self.ENDS + 3)
            packets = hear()
        for taken in packets:
            ends = [at for at, packet in taken if packet[1:2] == b"E"]
            self.assertGreaterEqual(len(ends), self.ENDS + 3)
            for before, after in zip(ends[self.ENDS - 1 :], ends[self.ENDS :]):
                self.assertGreaterEqual(after - before, self.LATER_END)


class Peers(Case):
    SESSION = 7
    OTHER_SESSION = bytes([71])

    def send_lines(self, port):
        """The lines of N, Q and P, of which two end too early."""
        n = connect(port)
        self.assertTrue(is_refused(port), "a second connection is neither refused nor reset")
        q, p = connect(port + 1), connect(port + 2)
        with n, q, p:
            n.sendall(report("N", 1) + b"\0\0")
            self.assertEqual(n.recv(1), b"")
            q.sendall(report("Q", 1) + report("Q", 2)[:7])
            q.close()
            p.sendall(reports("P", 2))

    def ask(self, port):
        """The two connections for lost packets."""
        with connect(port) as cut:
            cut.sendall(b"\0\0\0")
        with connect(port) as reset:
            reset.sendall(struct.pack(">QIH", self.SESSION + 1, 1, 1))
            self.assertEqual(reset.recv(1), self.OTHER_SESSION)
            reset.setsockopt(socket.SOL_SOCKET, socket.SO_LINGER, struct.pack("ii", 1, 0))

    def test_peers_that_misbehave(self):
        """OPERATING, "What you see": N connects twice, and its line ends in a frame of length 0; Q's ends inside a
        frame; of the connections for lost packets one ends inside a request, and one asks under another session and is reset. Each
        ends alone."""
        port = free_ports(6)
        with started(["live", "AB", "N,Q,P", port, port + 3, port + 4, port + 5, 2, self.SESSION]) as day:
            self.send_lines(port)
            self.ask(port + 5)
            end = ended(day)
        self.assertEqual((end.status, end.said), (0, b""))
        self.assert_traded(end.written, 4)

    def test_a_stray_connection(self):
        """OPERATING, "What you see": the first connection to a participant's port is that participant's, whoever it is: if it
        ends without a message, the day has none of the participant."""
        port = free_ports(5)
        with started(["live", "AB", "N,Q", port, port + 2, port + 3, port + 4, 0, self.SESSION]) as day:
            connect(port).close()
            self.assertTrue(is_refused(port))
            with connect(port + 1) as q:
                q.sendall(report("Q", 1))
            end = ended(day)
        self.assertEqual((end.status, end.said), (0, b""))
        self.assertEqual([(row["who"], row["last"], row["trades"]) for row in report_rows(end.written)], [("ALL", "100000", "1"), ("Q", "100000", "1")])


class ManyRequests(Case):
    SESSION = 7
    REQUESTS_MOST = 65_536
    # A request for the first entry, and its answer while that is not published.
    REQUEST = struct.pack(">QIH", SESSION, 1, 1)
    UNPUBLISHED = b"\x48"

    def test_more_than_one_serving_answers(self):
        """OPERATING: a connection is answered however often it asks."""
        line, a, b, retransmission = ports(4)
        count = 2 * self.REQUESTS_MOST + 1
        with started(["live", "AB", "N", line, a, b, retransmission, 1, self.SESSION]) as day, connect(line) as participant:
            with connect(retransmission) as subscriber:
                asking = threading.Thread(target=subscriber.sendall, args=[count * self.REQUEST])
                asking.start()
                answers = b""
                while len(answers) < count and (more := subscriber.recv(1 << 16)):
                    answers += more
                asking.join()
                self.assertEqual(answers, count * self.UNPUBLISHED)
            participant.sendall(report("N", 1))
            participant.close()
            end = ended(day)
        self.assertEqual((end.status, end.said), (0, b""))
        self.assert_traded(end.written, 1)


class LongDay(Case):
    REPORTS = 70_000
    SYMBOLS = ["AB", *(f"S{at}" for at in range(1, 4_096))]
    PARTICIPANTS = string.ascii_uppercase

    def both(self, written, port):
        """Runs the day and its follower, with their reports in the files, and returns their statuses."""
        names = [",".join(self.SYMBOLS), ",".join(self.PARTICIPANTS)]
        a, b, retransmission = range(port + len(self.PARTICIPANTS), port + len(self.PARTICIPANTS) + 3)
        with started(["live", *names, port, a, b, retransmission, 1, 7], stdout=written[0]) as live:
            connections = [connect(port + at) for at in range(len(self.PARTICIPANTS))]
            with started(["follow", *names, a, b, retransmission, 7], stdout=written[1]) as follow:
                wait_bound(follow, a, b)
                connections[0].sendall(reports(self.PARTICIPANTS[0], self.REPORTS))
                for connection in connections:
                    connection.close()
                return [program.wait(timeout=LIMIT) for program in (live, follow)]

    def test_greatest_listing_and_more_entries_than_two_bytes_count(self):
        """README, "A running day": a day of the greatest listing and its follower have equal reports, which count each report."""
        with tempfile.TemporaryFile() as lived, tempfile.TemporaryFile() as followed:
            statuses = self.both([lived, followed], free_ports(len(self.PARTICIPANTS) + 3))
            lived.seek(0)
            followed.seek(0)
            text, other = lived.read(), followed.read()
        self.assertEqual(statuses, [0, 0])
        self.assertTrue(text == other, "the reports differ")
        self.assertEqual(len(report_rows(text)), len(self.SYMBOLS) + 1)
        self.assert_traded(text, self.REPORTS)


class Terms(Case):
    def test_the_matrix_and_the_limit_that_are_named(self):
        """OPERATING: a day by Matrix Two takes its codes, what comes after LIMIT entries is refused, and the follower of the day
        holds all of it."""
        line, a, b, retransmission = ports(4)
        stopped = [message(kind="report", participant="N", number=number, symbol="AB", price="10.00", size=100, condition="@__2") for number in (1, 2)]
        with started(["live", "AB", "N", line, a, b, retransmission, 1, 7, 2, 1]) as live, connect(line) as participant:
            with started(["follow", "AB", "N", a, b, retransmission, 7, 2, 1]) as follow:
                wait_bound(follow, a, b)
                participant.sendall(b"".join(stopped))
                participant.close()
                ends = [ended(live), ended(follow)]
        self.assertEqual(ends[0], ends[1])
        self.assertEqual((ends[0].status, ends[0].said), (0, b""))
        self.assert_traded(ends[0].written, 1)

    def test_a_follower_by_another_matrix(self):
        """OPERATING, "Statuses", 7: a follower by Matrix One disagrees with a day that has a code of Matrix Two, and the day goes on without it."""
        line, a, b, retransmission = ports(4)
        stopped = message(kind="report", participant="N", number=1, symbol="AB", price="10.00", size=100, condition="@__2")
        with started(["live", "AB", "N", line, a, b, retransmission, 1, 7, 2]) as live, connect(line) as participant:
            with started(["follow", "AB", "N", a, b, retransmission, 7]) as follow:
                wait_bound(follow, a, b)
                participant.sendall(stopped)
                self.assert_fault(ended(follow), DISAGREES)
                participant.close()
                end = ended(live)
        self.assertEqual(end.status, 0)
        self.assert_traded(end.written, 1)


class Names(Case):
    SYMBOLS = [f"S{at}" for at in range(4_097)]
    LETTERS = [*string.ascii_uppercase, "A"]

    def test_too_many(self):
        """OPERATING, "Statuses", 2: more symbols than a listing takes, or more participants, are bad arguments of a running day and its follower."""
        for symbols, participants in [(self.SYMBOLS, ["N"]), (["AB"], self.LETTERS)]:
            names = [",".join(symbols), ",".join(participants)]
            first, *row = ports(4)
            for words in (["live", *names, first, *row, 0, 1], ["follow", *names, *row, 1]):
                with self.subTest((words[0], len(symbols), len(participants))):
                    self.assert_bad_arguments(run(words), b"usage: tapebox %s [^\n]+" % words[0].encode())


class Served(Case):
    # One packet of version 2 under session 7, which has entry 1 alone.
    ANSWER = bytes.fromhex("00 01 003b 0244 0000000000000007 00000001 01 00000001") + report("N", 1)

    def test_a_published_entry(self):
        """OPERATING: what is published is served in version 2, while the day goes on."""
        line, a, b, retransmission = ports(4)
        with started(["live", "AB", "N", line, a, b, retransmission, 1, 7]) as live:
            with connect(line) as participant, connect(retransmission) as subscriber:
                participant.sendall(report("N", 1))
                answer = b""
                # 72, until the entry is published.
                while answer in (b"", b"\x48"):
                    subscriber.sendall(struct.pack(">QIH", 7, 1, 1))
                    answer = subscriber.recv(1)
                while len(answer) < len(self.ANSWER):
                    answer += subscriber.recv(len(self.ANSWER) - len(answer))
                self.assertEqual(answer, self.ANSWER)
            self.assertEqual(ended(live).status, 0)


class Workers(Case):
    THREAD = b"a thread was started\n"
    SYMBOLS = "ABCDEFGH"

    @staticmethod
    def day(symbols, environment):
        """How a day of one report of the first of these symbols ends."""
        line, a, b, retransmission = ports(4)
        with started(["live", ",".join(symbols), "N", line, a, b, retransmission, 0, 1], env=environment) as day:
            with connect(line) as participant:
                participant.sendall(report("N", 1, symbol=symbols[0]))
            return ended(day)

    def threads(self, symbols):
        """How many threads a day of these symbols starts."""
        end = self.day(symbols, preloading("started_threads.c"))
        self.assertEqual((end.status, end.said.replace(self.THREAD, b"")), (0, b""))
        return end.said.count(self.THREAD)

    def test_the_workers_of_the_report(self):
        """OPERATING: four workers make the report, three of them in threads of their own. One symbol has one worker. If a thread
        can't be started for the report, the first of which is only tried, the day is reported all the same."""
        own = self.threads("A")
        self.assertEqual(self.threads(self.SYMBOLS) - own, 3)
        whole = self.day(self.SYMBOLS, None)
        self.assert_traded(whole.written, 1, symbol="A")
        for first in range(own, own + 4):
            end = self.day(self.SYMBOLS, failing(("pthread_create", first, EVER, errno.EAGAIN)))
            with self.subTest(first):
                self.assertEqual((end.status, end.written), (0, whole.written))
                self.assertIn(CALL_FAILED, end.said)

    def test_a_batch(self):
        """PROMISES, "What is only tested": the one worker of a batch's report starts no thread."""
        day = (SAMPLES / "first-day.txt").read_bytes()
        self.assert_writes(run(["batch"], day, env=preloading("started_threads.c")), (SAMPLES / "first-day.out").read_bytes())


class FailedSends(Case):
    REPORTS = 100

    def test_packets_that_are_not_sent(self):
        """OPERATING: a packet that can't be sent is a lost packet: the first one is by both lines, and a later one by one."""
        line, a, b, retransmission = ports(4)
        failed = failing(("sendto", 1, 2, errno.ENOBUFS), ("sendto", 5, 5, errno.EPERM))
        with started(["live", "AB", "N", line, a, b, retransmission, 1, 7], env=failed) as live, connect(line) as participant:
            with started(["follow", "AB", "N", a, b, retransmission, 7]) as follow:
                wait_bound(follow, a, b)
                participant.sendall(reports("N", self.REPORTS))
                participant.close()
                ends = [ended(live), ended(follow)]
        self.assertEqual([end.status for end in ends], [0, 0])
        self.assertEqual([end.said for end in ends], [3 * CALL_FAILED, b""])
        self.assertEqual(ends[0].written, ends[1].written)
        self.assert_traded(ends[0].written, self.REPORTS)


class Sockets(Case):
    def words(self, port):
        """A day's arguments, on ports from this one on."""
        return ["live", "AB", "N", port, port + 1, port + 2, port + 3, 0, 1]

    def test_the_last_port(self):
        """OPERATING: a participant's port may be the last of all."""
        first = 65_535
        a, b, retransmission = ports(3)
        with started(["live", "AB", "N", first, a, b, retransmission, 0, 1]) as day:
            connect(first).close()
            self.assertEqual(ended(day).status, 0)

    def test_ports_that_are_taken(self):
        """OPERATING, "Statuses", 3: a participant's or the retransmission's port that is taken is a read fault."""
        port = free_ports(4)
        for taken in (port, port + 3):
            with self.subTest(taken - port), socket.create_server((HOST, taken)):
                self.assert_fault(run(self.words(port)), READ_FAULT)

    @unittest.skipUnless(Path("/dev/full").is_char_device(), "no /dev/full")
    def test_full_output(self):
        """OPERATING, "Statuses", 4: a report that finds no room is a write fault."""
        port = free_ports(4)
        with open("/dev/full", "wb") as full, started(self.words(port), stdout=full) as day:
            connect(port).close()
            self.assert_fault(ended(day), WRITE_FAULT)
