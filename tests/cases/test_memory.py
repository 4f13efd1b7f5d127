"""What is written and said when memory, threads or files run out."""

import contextlib
import errno
import resource
import socket
import struct
import unittest
from collections import Counter
from concurrent.futures import ThreadPoolExecutor
from dataclasses import replace
from pathlib import Path

from preloaded import CALL_FAILED, EVER, failing
from refused import end_of_batch
from support import HOST, NO_WORKER, READ_FAULT
from support import Case, batch_line, connect, ended, is_refused, listens, ports, report, run, started, wait_bound, wait_connected, wait_for

REPORTS = 200_000
MEGABYTES = range(16, 65, 4)


class LittleMemory(Case):
    def test_a_long_day_with_ever_more_memory(self):
        """OPERATING, "Statuses", 5: of a batch that runs out of memory the answers up to a refusal 40 are written, or all, and no report."""
        day = b"AB CD\nN Q\n" + b"".join(batch_line(report("N", number)) for number in range(1, REPORTS + 1))
        whole = run(["batch"], day).written
        answers = b"".join(whole.splitlines(keepends=True)[:REPORTS])
        ends = Counter()
        for megabytes in MEGABYTES:
            with self.subTest(f"{megabytes} MB"):
                limit = (megabytes << 20, megabytes << 20)
                done = run(["batch"], day, preexec_fn=lambda limit=limit: resource.setrlimit(resource.RLIMIT_AS, limit))
                ends[end_of_batch(self, done, whole, answers)] += 1
        self.assertGreater(ends["a refusal 40 at the end"], 0, ends)
        self.assertGreater(ends["done"], 0, ends)


def limit_files(files):
    """Limits the files of the process that is to become the program."""
    resource.setrlimit(resource.RLIMIT_NOFILE, (files, files))


def ended_by_itself(running):
    """How a program ended, without what was said of the calls that failed."""
    end = ended(running)
    return replace(end, said=end.said.replace(CALL_FAILED, b""))


def live(row, participants, serves):
    """The arguments of a day on these ports: the participants', the two lines' and the retransmission's."""
    return ["live", "AB", ",".join(participants), row[0], *row[len(participants) : len(participants) + 3], serves, 7]


class FewFiles(Case):
    """Running days for which no connection is opened."""

    SESSION = 7
    FEW = 3
    MANY = 1_024
    # Seconds in which a connection that can be accepted is.
    PATIENCE = 0.5
    # The entry that is asked for, and the first byte of its answer.
    REQUEST = struct.pack(">QIH", SESSION, 1, 1)
    ANSWERED = b"\0"

    def test_a_lines_connection(self):
        """OPERATING, "Statuses", 3: the standard streams, two listeners, one of them by two handles, and a socket to send by are seven files, and a line
        is an eighth."""
        with started(live(ports(4), "N", 1), preexec_fn=lambda: limit_files(7)) as day:
            self.assert_fault(ended(day), READ_FAULT)

    def test_a_subscribers_connection(self):
        """OPERATING: a subscriber that can't be accepted while all files are open waits, and is served once there are more."""
        line, _, _, retransmission = row = ports(4)
        with started(live(row, "N", 2)) as day, connect(line) as participant:
            self.assertTrue(is_refused(line))
            resource.prlimit(day.pid, resource.RLIMIT_NOFILE, (self.FEW, self.MANY))
            participant.sendall(report("N", 1))
            participant.close()
            # One that was awaited before may still be accepted.
            connect(retransmission).close()
            with connect(retransmission) as subscriber:
                subscriber.settimeout(self.PATIENCE)
                subscriber.sendall(self.REQUEST)
                with self.assertRaises(socket.timeout):
                    subscriber.recv(1)
                resource.prlimit(day.pid, resource.RLIMIT_NOFILE, (self.MANY, self.MANY))
                subscriber.settimeout(None)
                self.assertEqual(subscriber.recv(1), self.ANSWERED)
            end = ended(day)
        self.assertEqual((end.status, end.said), (0, b""))
        self.assert_traded(end.written, 1)


class Connections(Case):
    """Running days for which the system does not accept a connection."""

    # Each of the errors that may be gone at the next call. A call that was interrupted is made again at once.
    FOR_NOW = [errno.ECONNABORTED, errno.EMFILE, errno.ENFILE, errno.ENOBUFS, errno.ENOMEM, errno.EINTR]

    def test_one_that_fails_for_now(self):
        """OPERATING: a subscriber's connection that can't be accepted for now is tried again, and counts no turn."""
        line, a, b, retransmission = row = ports(4)
        failed = failing(*(("accept4", call, call, error) for call, error in enumerate(self.FOR_NOW, 2)))
        with started(live(row, "N", 1), env=failed) as day, connect(line) as participant:
            with started(["follow", "AB", "N", a, b, retransmission, 7]) as follow:
                wait_bound(follow, a, b)
                participant.sendall(report("N", 1))
                participant.close()
                ends = [ended(day), ended(follow)]
        self.assertEqual(ends[0].said, len(self.FOR_NOW) * CALL_FAILED)
        self.assertEqual([(end.status, end.written) for end in ends], [(0, ends[1].written)] * 2)
        self.assert_traded(ends[0].written, 1)

    def end_without_listener(self, **output):
        """How a day of one report ends whose listener of the retransmission is gone."""
        row = ports(4)
        with started(live(row, "N", 1), env=failing(("accept4", 2, EVER, errno.EBADF)), **output) as day:
            with connect(row[0]) as participant:
                participant.sendall(report("N", 1))
            return ended_by_itself(day)

    def test_a_listener_that_is_gone(self):
        """OPERATING, "Statuses", 3: a listener that is gone is a read fault, and no report is written."""
        self.assert_fault(self.end_without_listener(), READ_FAULT)

    @unittest.skipUnless(Path("/dev/full").is_char_device(), "no /dev/full")
    def test_the_lesser_of_two_faults(self):
        """OPERATING: of two faults, a listener and the output, the one of the lesser status is told."""
        with open("/dev/full", "wb") as full:
            self.assert_fault(self.end_without_listener(stdout=full), READ_FAULT)


class FewThreads(Case):
    """Programs for which no thread is started, or none after some."""

    # More threads than a day of one line starts.
    MOST = 8

    @staticmethod
    def lacking(first, last=EVER):
        """The environment of a program that is refused these threads."""
        return failing(("pthread_create", first, last, errno.EAGAIN))

    def test_follow(self):
        """OPERATING, "Statuses", 6: a follower that lacks the thread of a line ends as one whose worker was not started."""
        for first in (1, 2):
            a, b, retransmission = ports(3)
            with self.subTest(first), socket.create_server((HOST, retransmission)):
                words = ["follow", "AB", "N", a, b, retransmission, 7]
                with started(words, env=self.lacking(first)) as follow:
                    self.assert_fault(ended_by_itself(follow), NO_WORKER)

    @staticmethod
    def end_of_day(row, participants, refused):
        """How a day on these ports ends whose participants send a report each and nobody follows. A line may be closed before."""
        with started(live(row, participants, 0), env=refused) as day:
            lines = [connect(port) for port in row[: len(participants)]]
            for who, line in zip(participants, lines):
                with line, contextlib.suppress(ConnectionError):
                    line.sendall(report(who, 1))
            return ended_by_itself(day)

    def test_live_without_a_thread(self):
        """OPERATING, "Statuses", 6: so does a day without a thread, and one of two lines that has too few for its lines."""
        self.assert_fault(self.end_of_day(ports(4), "N", self.lacking(1)), NO_WORKER)
        self.assert_fault(self.end_of_day(ports(5), "NQ", self.lacking(2)), NO_WORKER)

    def test_live_with_ever_more_threads(self):
        """OPERATING, "Statuses", 6: with each thread more a day ends as one whose worker was not started, or writes its whole report."""
        every = ports(4 * self.MOST)
        with ThreadPoolExecutor(self.MOST) as pool:
            *ends, whole = pool.map(lambda at: self.end_of_day(every[4 * at : 4 * at + 4], "N", self.lacking(at + 1)), range(self.MOST))
        self.assertEqual((whole.status, whole.said), (0, b""))
        self.assert_traded(whole.written, 1)
        for first, end in enumerate(ends, 1):
            with self.subTest(first):
                if end != whole:
                    self.assert_fault(end, NO_WORKER)

    def ends_with_follower(self, row, first):
        """How a day of two lines ends that lacks the threads from this one on, and how its follower does."""
        *lines, a, b, retransmission = row
        with started(live(row, "NQ", 1), env=self.lacking(first)) as day:
            wait_for(day, "a listener", lambda: listens(retransmission))
            with started(["follow", "AB", "N,Q", a, b, retransmission, 7]) as follow:
                wait_connected(follow, retransmission, 1)
                for line in [connect(port) for port in lines]:
                    line.close()
                return ended_by_itself(day), ended(follow)

    def test_the_follower_of_lines_without_threads(self):
        """OPERATING: if the lines were not started the follower gets no end, and ends with status 3; if they were, both write the
        same report."""
        kinds = Counter()
        every = ports(5 * self.MOST)
        with ThreadPoolExecutor(self.MOST) as pool:
            ends = pool.map(lambda at: self.ends_with_follower(every[5 * at : 5 * at + 5], at + 1), range(self.MOST))
        for first, (day, follow) in enumerate(ends, 1):
            with self.subTest(first):
                if day.status == 0:
                    self.assertEqual(day, follow)
                else:
                    self.assert_fault(day, NO_WORKER)
                    self.assert_fault(follow, READ_FAULT)
                kinds[day.status] += 1
        self.assertGreater(min(kinds[NO_WORKER[0]], kinds[0]), 1, kinds)
