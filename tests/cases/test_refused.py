"""Each request for memory refused in turn: of the tests that are made for it, and of the built program."""

import contextlib
import re
import select
import socket
import struct
import subprocess
import time
from collections import Counter
from concurrent.futures import ThreadPoolExecutor
from dataclasses import dataclass
from typing import Optional

from preloaded import built
from refused import HEAP, Sweeps, end_of_batch, refusing, run_refused, without_told
from support import BAD_ARGUMENTS, CRATES, HOST, NO_WORKER, OUT_OF_MEMORY, READ_FAULT, WRITE_FAULT, Case, Ended
from support import batch_line, ended, listens, ports, report, reports, run, started, traded, wait_bound

# How many of a program's requests are refused in turn at most.
MOST = 1_000
# Seconds until a program with a refused request must have ended. On a quiet machine the last of a row of days takes less than five.
SOON = 30


class Calls(Sweeps):
    def test_calls(self):
        """PROMISES, "What is only tested": what stands after each request of a call of the tape, the crates below it, packets, subscribers, the report, a
        batch, shared tapes and lines is refused, and that lines give back each seat; ROWS, "Drain without memory"."""
        printed = Counter()
        for crate in ("test_tables", "test_subscribers", "test_lines"):
            printed.update(self.sweep_all(CRATES / crate / "out" / f"{crate}_tests"))
        kinds = [f"a {kind} again" for kind in ("report", "correction", "cancel", "reinstatement")]
        self.assert_printed(printed, *kinds, "added again", "replaced again", "one answer 40 in a run", "1 drained, and then 2")
        self.assert_printed(printed, "answers up to a refusal 40, and then all", "all answers and no report, and then all")
        self.assert_printed(printed, "indexes: staged again", "indexes: swapped again", "indexes: replaced again", "replayed: a report again")
        self.assert_printed(printed, "admitted again", "published again", "found again", "opened again", "told of 0, and then of all")
        self.assert_printed(printed, "not started: Memory", "not started: Worker")
        for pattern in (r"told of [1-9]\d*, and then of all$", r"a line again after \d+$"):
            with self.subTest(pattern):
                self.assertTrue(any(re.search(pattern, text) for text in printed), sorted(printed))


class Arguments(Case):
    # A port, a port of a list, a session behind lists of ports, a matrix and a limit that are none.
    BAD = [
        "live AB N,Q 0 9101 9102 9200 1 7",
        "live AB N,Q 9000 9101,9111 9102,0 9200 1 7",
        "live AB N,Q 9000 9101,9111 9102,9112 9200 1 x",
        "follow AB N,Q 9101 9102 9200 7 3",
        "follow AB N,Q 9101 9102 9200 7 1 0",
    ]

    @classmethod
    def setUpClass(cls):
        built(HEAP)

    def requests_of(self, words):
        """How many requests for memory bad arguments make: each is refused in turn, and then the status is another. Those for the hint only leave that out."""
        missed = 0
        for request in range(1, MOST + 1):
            was_met, end = run_refused(words, request, limit=SOON)
            if not was_met:
                self.assert_bad_arguments(end)
                return missed
            if end != Ended(2, b"", BAD_ARGUMENTS):
                self.assertEqual((end.status, end.said), OUT_OF_MEMORY)
                missed += 1
        return self.fail(f"{MOST} requests and more")

    def test_bad_arguments(self):
        """OPERATING, "Statuses": arguments of which one is bad take memory for themselves alone, as an unknown command does, and none for the names."""
        for text in self.BAD:
            with self.subTest(text):
                word, *rest = text.split()
                self.assertEqual(self.requests_of([word, *rest]), self.requests_of([word.upper(), *rest]))


class Batch(Case):
    REPORTS = 40

    def test_each_request(self):
        """OPERATING, "Statuses", 5: whichever request of a batch is refused, the answers up to a refusal 40 are written, or all, or nothing, and no
        report; or it was not missed."""
        day = b"AB CD\nN Q\n" + reports_of_n(self.REPORTS)
        whole = run(["batch"], day).written
        answers = b"".join(whole.splitlines(keepends=True)[: self.REPORTS])
        ends = Counter()
        for request in range(1, MOST + 1):
            with self.subTest(request):
                was_met, end = run_refused(["batch"], request, given=day, limit=SOON)
                ends[end_of_batch(self, end, whole, answers)] += was_met
            if not was_met:
                break
        for kind in ("nothing", "a refusal 40 at the end", "all answers"):
            self.assertGreater(ends[kind], 0, ends)


class Texts(Case):
    """A table to the text of a batch and back, and a participant's line. The first and the last are written in two pieces, the first of 512 messages."""

    REPORTS = 600

    def sweep(self, words, given):
        """How often nothing and how often a part was written, as each request that is met is refused in turn."""
        whole = run(words, given)
        self.assertEqual((whole.status, whole.said), (0, b""))
        ends = Counter()
        for request in range(1, MOST + 1):
            with self.subTest(words, request=request):
                was_met, end = run_refused(words, request, given=given, limit=SOON)
                if not was_met:
                    break
                # A request may be made again in smaller pieces.
                if end != whole:
                    self.assertEqual((end.status, end.said), OUT_OF_MEMORY)
                    self.assertEqual(whole.written[: len(end.written)], end.written)
                    self.assertLess(len(end.written), len(whole.written))
                    ends["a part" if end.written else "nothing"] += 1
        return ends

    def test_each_request(self):
        """OPERATING, "Statuses", 5: whichever request of `encode`, `decode` or `line` is refused, it is told as want of memory, and what was written is a
        part from the front, or nothing. A table is made whole before its first byte is written."""
        text = b"AB\nN\n" + reports_of_n(self.REPORTS)
        table = run(["decode"], text).written
        # A line has no head, and its second piece fits into the memory of the first.
        for words, given, kinds in (
            (["encode"], table, ("nothing", "a part")),
            (["decode"], text, ("nothing",)),
            (["line", "N"], table, ("nothing",)),
        ):
            ends = self.sweep(words, given)
            self.assertEqual(sorted(ends), sorted(kinds), (words, ends))


def reports_of_n(count):
    """A batch's lines of so many reports of N."""
    return b"".join(batch_line(report("N", number)) for number in range(1, count + 1))


@dataclass(frozen=True)
class DayEnds:
    """Whether the request was met, how `live` ended, whether there was a follower then and how it ended, if it did, and how many lines were closed
    before they had ended; none if a line did not come to be."""

    was_met: bool
    live: Ended
    is_followed: bool = False
    follow: Optional[Ended] = None
    closed: Optional[int] = 0


class RunningDays(Case):
    """Days of N and Q with a follower, which is a `watch` if it is refused as "tape". One request of one of the two programs is refused. Several days
    run at once, each on ports of its own."""

    LANES = 32
    PORTS = 5
    REPORTS = 20
    # The trades and the shares of both participants in the whole day.
    WHOLE = 40, 4_000
    # The session, the matrix and the limit.
    TERMS = [7, 1, 100]
    # Seconds in which a line that takes all that was sent is not closed.
    OPEN = 0.6
    # How often a day is played again, alone, if a busy machine may have kept it from what is wanted.
    AGAIN = 3

    @classmethod
    def setUpClass(cls):
        # Once, before the lanes.
        built(HEAP)

    @staticmethod
    def comes_to_listen(day, port):
        """Whether the day has come to listen at the port; it may have ended before."""
        while day.poll() is None:
            if listens(port):
                return True
            time.sleep(0.02)
        return False

    @staticmethod
    def is_bound(follow, lines):
        """Whether the follower has bound its lines' ports; it may have ended before."""
        try:
            wait_bound(follow, *lines)
        except TimeoutError:
            return False
        return True

    def send(self, row):
        """Sends the reports of N and Q, and returns how many of the two lines were closed though more might have come; `None` if one failed."""
        with contextlib.ExitStack() as stack, contextlib.suppress(ConnectionError):
            lines = [stack.enter_context(socket.create_connection((HOST, port), timeout=SOON)) for port in row]
            for who, line in zip("NQ", lines):
                line.sendall(reports(who, self.REPORTS))
            if select.select(lines, [], [], self.OPEN)[0]:
                # The other one, too, if no line was started.
                time.sleep(self.OPEN)
            return len(select.select(lines, [], [], 0)[0])
        return None

    @staticmethod
    def end_of(program, limit):
        """How the program ended, if it did by then."""
        try:
            return ended(program, limit)
        except subprocess.TimeoutExpired:
            return None

    def day(self, row, refused, request):
        """A day on these ports, with one request of `live` or of its follower refused."""
        *lines, a, b, retransmission = row
        of_live, of_follow = (refusing(request), None) if refused == "live" else (None, refusing(request))
        words = ["live", "AB", "N,Q", lines[0], a, b, retransmission, 1, *self.TERMS]
        with started(words, env=of_live) as live:
            if not self.comes_to_listen(live, retransmission):
                return DayEnds(*without_told(ended(live, SOON)))
            words = ["watch" if refused == "tape" else "follow", "AB", "N,Q", a, b, retransmission, *self.TERMS]
            with started(words, env=of_follow) as follow:
                self.is_bound(follow, (a, b))
                closed = self.send(lines)
                if refused == "live":
                    return DayEnds(*without_told(ended(live, SOON)), True, self.end_of(follow, SOON), closed)
                was_met, followed = without_told(ended(follow, SOON))
                with contextlib.suppress(ConnectionError):
                    # It may have ended before it connected, which the day awaits.
                    socket.create_connection((HOST, retransmission), timeout=SOON).close()
                return DayEnds(was_met, ended(live, SOON), True, followed, closed)

    def days(self, refused):
        """Each request of one of the programs with the day in which it was refused, up to the first one that was not met."""
        with ThreadPoolExecutor(self.LANES) as pool:
            for first in range(1, MOST + 1, self.LANES):
                every = ports(self.PORTS * self.LANES)
                rows = [every[at : at + self.PORTS] for at in range(0, len(every), self.PORTS)]
                requests = range(first, first + self.LANES)
                days = list(pool.map(lambda row, request: self.day(row, refused, request), rows, requests))
                yield from zip(requests, days)
                if not all(day.was_met for day in days):
                    return

    def kind_of(self, end_of, day, refused, request):
        """What became of the day, by what tells it. One that ended otherwise than is wanted is played again, alone: beside others a line may be seen
        to be closed too late."""
        for _ in range(self.AGAIN):
            with contextlib.suppress(AssertionError):
                return end_of(day)
            day = self.day(ports(self.PORTS), refused, request)
        return end_of(day)

    def kinds(self, end_of, refused):
        """How often each of this came, when each request of the program that is met is refused in turn."""
        kinds = Counter()
        for request, day in self.days(refused):
            with self.subTest(request):
                kinds[self.kind_of(end_of, day, refused, request)] += day.was_met
        return kinds

    def is_whole(self, report):
        """Whether the report is that of the whole day."""
        return traded(report) == self.WHOLE

    def assert_lacks(self, end):
        """The program ended for want of memory, or of a thread, for which there was none."""
        self.assertEqual(end.written, b"")
        self.assertIn((end.status, end.said), (OUT_OF_MEMORY, NO_WORKER))

    def assert_given_up(self, day):
        """A follower whose day met a fault got no end, and ends as one whose connection was closed; or the fault came after the end, and it
        reports the whole day. It does not wait."""
        follow = day.follow
        if not day.is_followed:
            return
        self.assertIsNotNone(follow, "the follower did not end")
        if follow.status == 0:
            self.assertEqual((day.closed, follow.said, self.is_whole(follow.written)), (0, b"", True))
        else:
            self.assertIn((follow.status, follow.said), (READ_FAULT, WRITE_FAULT))
            self.assertEqual(follow.written, b"")

    def end_of_live(self, day):
        """What became of a day whose `live` was refused a request."""
        if day.live.status == 0:
            self.assertEqual((day.live, day.closed), (day.follow, 0))
            self.assertEqual((day.live.said, self.is_whole(day.live.written)), (b"", True))
            return "done"
        self.assert_lacks(day.live)
        self.assert_given_up(day)
        if day.closed == 1:
            self.assert_fault(day.live, OUT_OF_MEMORY)
            return "a line ended at 40"
        if day.closed == 0 and (not day.follow or day.follow.status):
            self.assert_fault(day.live, OUT_OF_MEMORY)
            return "the sender stopped"
        if day.closed == 2 and day.live.status == NO_WORKER[0]:
            return "no line for want of a thread"
        return "another fault"

    def test_live(self):
        """OPERATING, "Statuses", 5 and 6: a `live` that is refused a request ends soon, by a stated status and text, and writes no report then; so it
        does if a line ends at 40, and if the sender stops. OPERATING: the follower gets no end then, ends, and writes no
        report."""
        ends = self.kinds(self.end_of_live, "live")
        for kind in ("done", "a line ended at 40", "the sender stopped"):
            self.assertGreater(ends[kind], 0, ends)
        # A thread is tried when the lines have come, and once more when they are run. Each try asks for its work's memory, and the C library for
        # the thread's own unless it can use an ended thread's again: twice at most. Other want of memory is told as such.
        self.assertLessEqual(ends["no line for want of a thread"], 4, ends)

    def end_of_follower(self, day):
        """What became of a day whose follower was refused a request. The day itself has missed nothing."""
        self.assertEqual((day.live.status, day.live.said, self.is_whole(day.live.written), day.closed), (0, b"", True, 0))
        if day.follow.status == 0:
            self.assertEqual(day.follow, day.live)
            return "done"
        self.assert_lacks(day.follow)
        return "a fault"

    def test_follow(self):
        """OPERATING, "Statuses", 5 and 6: a follower that is refused a request ends soon, by a stated status and text, and writes no report then."""
        ends = self.kinds(self.end_of_follower, "follow")
        self.assertGreater(ends["a fault"], 0, ends)

    def end_of_tape(self, day):
        """What became of a day whose tape was written as it came by a follower that was refused a request. The day itself has missed nothing."""
        self.assertEqual((day.live.status, day.live.said, self.is_whole(day.live.written), day.closed), (0, b"", True, 0))
        rows = day.follow.written.splitlines()[1:]
        self.assertEqual([row.split(b",")[0] for row in rows], [b"%d" % number for number in range(1, len(rows) + 1)])
        if day.follow.status == 0:
            self.assertEqual((len(rows), day.follow.said), (2 * self.REPORTS, b""))
            return "done"
        self.assertIn((day.follow.status, day.follow.said), [OUT_OF_MEMORY, NO_WORKER])
        return "a part" if rows else "no row"

    def test_followed_tape(self):
        """OPERATING, "The running tape in a pipe": `tapebox watch` that is refused a request ends soon, by a stated status and text, and what it wrote is
        a part of the tape from its front."""
        ends = self.kinds(self.end_of_tape, "tape")
        for kind in ("a part", "no row"):
            self.assertGreater(ends[kind], 0, ends)


class Serving(Case):
    """Days of N with a subscriber that asks. One request of `live` is refused. Several days run at once, each on ports of its own."""

    LANES = 32
    PORTS = 4
    REPORTS = 20
    SESSION = 7
    UNPUBLISHED = b"\x48"
    ANSWERED = b"\0"
    # How often the subscriber asks for what has not been published at most, and the seconds between.
    TRIES = 1_000
    REST = 0.01

    def first_byte(self, subscriber):
        """The first byte of the answer for all entries, once some are published; none if the connection is closed."""
        for _ in range(self.TRIES):
            subscriber.sendall(struct.pack(">QIH", self.SESSION, 1, self.REPORTS))
            first = subscriber.recv(1)
            if first != self.UNPUBLISHED:
                break
            time.sleep(self.REST)
        return first

    def ask(self, line, retransmission):
        """Sends the reports, and returns the answer's first byte; `None` if the day ends first."""
        with contextlib.suppress(OSError):
            with socket.create_connection((HOST, line), timeout=SOON) as participant:
                subscriber = socket.create_connection((HOST, retransmission), timeout=SOON)
                participant.sendall(reports("N", self.REPORTS))
            with subscriber:
                return self.first_byte(subscriber)
        return None

    def ask_next(self, retransmission):
        """What another subscriber is answered first, for which no request is refused any more; `None` if the day has ended."""
        with contextlib.suppress(OSError):
            with socket.create_connection((HOST, retransmission), timeout=SOON) as subscriber:
                return self.first_byte(subscriber)
        return None

    def day(self, row, request):
        """Whether this request of the day was met, how the day ended, and what each of two subscribers was answered first."""
        line, a, b, retransmission = row
        with started(["live", "AB", "N", line, a, b, retransmission, 2, self.SESSION], env=refusing(request)) as live:
            answers = None, None
            if RunningDays.comes_to_listen(live, retransmission):
                answers = self.ask(line, retransmission), self.ask_next(retransmission)
            return *without_told(ended(live, SOON)), answers

    def test_each_request(self):
        """OPERATING, "Statuses", 5: a day of which memory runs out for an answer closes the subscriber's connection, serves the next, and ends so; one
        whose sender stops closes the connection, serves nobody any more, and ends so."""
        built(HEAP)
        unanswered = 0
        with ThreadPoolExecutor(self.LANES) as pool:
            for first in range(1, MOST + 1, self.LANES):
                every = ports(self.PORTS * self.LANES)
                rows = [every[at : at + self.PORTS] for at in range(0, len(every), self.PORTS)]
                days = list(pool.map(self.day, rows, range(first, first + self.LANES)))
                for _, end, (first_answer, next_answer) in days:
                    if first_answer == b"":
                        # If the sender stopped, nobody else is served.
                        unanswered += next_answer is not None
                        self.assertIn(next_answer, (self.ANSWERED, None))
                        self.assert_fault(end, OUT_OF_MEMORY)
                if not all(was_met for was_met, _, _ in days):
                    break
        self.assertGreater(unanswered, 0)
