"""A day that is given by a file and operated: who is missing, how it is ended, and what is said of it."""

import contextlib
import errno
import os
import re
import socket
import struct
import tempfile
import threading
import time
import unittest
from pathlib import Path

from preloaded import CALL_FAILED, EVER, failing
from support import DISAGREES, HOST, READ_FAULT, WRITE_FAULT, Case
from support import connect, ended, ports, report, reports, run, started, traded, wait_bound, wait_for, wait_read

SESSION = 7
# A report of a symbol that the day does not have.
UNLISTED = "ZZ"
# Seconds for which nobody connects.
ALONE = 2


class Day:
    """A day's file in a folder that only its owner can enter, with its ports."""

    def __init__(self, folder, **keys):
        self.folder = Path(folder)
        self.port, self.next_port, *lines, self.retransmission = ports(9)
        self.a, self.b = lines[:3], lines[3:]
        self.path = self.write("day.toml", **keys)

    def write(self, name, **keys):
        """A day's file of these keys besides those that each has; a key without a value is left out."""
        values = {
            "symbols": ["AB"],
            "participants": ["N", "Q"],
            "port": self.port,
            "a": list(self.a),
            "b": list(self.b),
            "retransmission": self.retransmission,
            "followers": 0,
            "session": SESSION,
            "connect_within": 30,
            "control": "day.control",
        } | keys
        path = self.folder / name
        path.write_text("".join(f"{key} = {value!r}\n".replace("'", '"') for key, value in values.items() if value is not None))
        return path

    def live(self, **options):
        """`live` of the day."""
        return started(["live", self.path], **options)

    def follow(self, *options, follower=1, **streams):
        """`follow` of the day at a follower's place."""
        return started(["follow", "--follower", follower, *options, self.path], **streams)

    def wait_followed(self, follow, follower=1):
        """Waits until a follower has its lines."""
        wait_bound(follow, self.a[follower - 1], self.b[follower - 1])

    def wait_heard(self, follow):
        """Waits until a follower has read what came on its lines so far."""
        time.sleep(0.5)
        for port in (self.a[0], self.b[0]):
            wait_read(follow, port)

    def status(self):
        """What `status` writes, once there is a control socket."""
        asked = run(["status", self.path])
        return asked.written.decode() if asked.status == 0 else ""

    def wait_status(self, live, pattern):
        """Waits until the status says this."""
        wait_for(live, pattern, lambda: re.search(pattern, self.status()))


@contextlib.contextmanager
def day(**keys):
    """A day's file."""
    with tempfile.TemporaryDirectory() as folder:
        os.chmod(folder, 0o700)
        yield Day(folder, **keys)


def sent(port, data):
    """Everything is sent on a connection of its own, which stays open."""
    connection = connect(port)
    connection.sendall(data)
    return connection


class Ends(Case):
    """How a day is ended."""

    def test_end_in_mid_day(self):
        """OPERATING: `end` ends the day as if each line had ended: what was read is admitted, and its followers have the whole of it."""
        with day(followers=1, followers_wait=30) as it, it.live() as live, it.follow() as follow:
            it.wait_followed(follow)
            with sent(it.port, reports("N", 50)), sent(it.next_port, reports("Q", 30) + report("Q", 31)[:5]):
                it.wait_status(live, "tape number 80,")
                self.assertEqual(run(["end", it.path]).written, b"ending\n")
                over = ended(live)
            followed = ended(follow)
        self.assertEqual((over.status, followed.status), (0, 0))
        self.assertEqual(followed.written, over.written)
        self.assertIn(b"tapebox: N: 50 messages, 50 admitted, last number 50\ntapebox: N: the day was ended while the line was open\n", over.said)
        self.assertIn(b"tapebox: Q: 30 messages, 30 admitted, last number 30\ntapebox: Q: the day was ended within a message\n", over.said)
        self.assertEqual(traded(over.written, who="Q"), (30, 3_000))

    def test_end_under_load(self):
        """OPERATING: `end` under load has a report of what was admitted, and of nothing else."""
        with day() as it, it.live() as live:
            connections = [connect(it.port), connect(it.next_port)]

            def send_on(connection, who):
                with contextlib.suppress(OSError):
                    for first in range(1, 10**6, 100):
                        connection.sendall(b"".join(report(who, number) for number in range(first, first + 100)))

            senders = [threading.Thread(target=send_on, args=pair) for pair in zip(connections, "NQ")]
            for sender in senders:
                sender.start()
            it.wait_status(live, r"tape number \d{3,},")
            self.assertEqual(run(["end", it.path]).status, 0)
            over = ended(live)
            for sender, connection in zip(senders, connections):
                connection.close()
                sender.join()
        self.assertEqual(over.status, 0)
        admitted = [int(count) for count in re.findall(rb"[NQ]: \d+ messages, (\d+) admitted", over.said)]
        self.assert_traded(over.written, sum(admitted))

    def test_a_second_end(self):
        """OPERATING: a second `end` has the day wait for its followers no longer."""
        with day(followers=1) as it, it.live() as live:
            with sent(it.port, reports("N", 3)), sent(it.next_port, b""):
                it.wait_status(live, "tape number 3,")
                self.assertEqual(run(["end", it.path]).written, b"ending\n")
                it.wait_status(live, "the day was ended\nall lines have ended\n")
                self.assertIsNone(live.poll())
                self.assertEqual(run(["end", it.path]).written, b"ending without waiting for followers\n")
                over = ended(live)
        self.assertEqual(over.status, 0)
        self.assert_traded(over.written, 3)

    def test_an_end_before_all_have_connected(self):
        """OPERATING: `end` before all participants have connected ends the day with those that did."""
        with day() as it, it.live() as live, sent(it.port, reports("N", 2)):
            it.wait_status(live, "Q: not connected")
            self.assertEqual(run(["end", it.path]).status, 0)
            over = ended(live)
        self.assertEqual(over.status, 0)
        self.assertIn(b"tapebox: Q: did not connect before the day was ended\n", over.said)

    def test_the_report_comes_before_the_last_follower_has_gone(self):
        """OPERATING: the report is written once the lines have ended and the end was sent, whoever still asks."""
        with day(followers=1) as it, it.live() as live:
            with connect(it.retransmission):
                for port, data in [(it.port, reports("N", 4)), (it.next_port, b"")]:
                    sent(port, data).close()
                os.set_blocking(live.stdout.fileno(), False)
                written = bytearray()
                wait_for(live, "the report", lambda: written.extend(live.stdout.read() or b"") or traded(written, who="N") == (4, 400))
                self.assertIsNone(live.poll())
                run(["end", it.path])
            self.assertEqual(ended(live).status, 0)

    def test_followers_wait(self):
        """FORMATS, `followers_wait`: so many seconds after the end no follower is waited for."""
        with day(followers=1, followers_wait=1) as it, it.live() as live:
            for port, data in [(it.port, reports("N", 4)), (it.next_port, b"")]:
                sent(port, data).close()
            over = ended(live)
        self.assertEqual(over.status, 0)
        self.assert_traded(over.written, 4)


class Missing(Case):
    """Who is missing, and what can't be opened."""

    # Errors of `accept4` that may be gone at the next call.
    FOR_NOW = (errno.ECONNABORTED, errno.EMFILE, errno.ENFILE, errno.ENOBUFS, errno.ENOMEM)

    def assert_traded(self, written, trades):
        """It is a report in which N's only symbol has so many trades."""
        self.assertEqual(traded(written), (trades, 100 * trades))

    def test_connections_that_are_not_accepted_for_now(self):
        """OPERATING, "What `live` does", 2: a participant's connection that can't be accepted for now is tried again, and so is an operator's."""
        for error in self.FOR_NOW:
            failed = failing(("accept4", 1, 40, error))
            with self.subTest(errno.errorcode[error]), day() as it, it.live(env=os.environ | failed) as live:
                it.wait_status(live, "Q: not connected")
                for port, data in [(it.port, reports("N", 3)), (it.next_port, b"")]:
                    sent(port, data).close()
                over = ended(live)
                self.assertEqual((over.status, over.said.count(CALL_FAILED)), (0, 40))
                self.assert_traded(over.written, 3)

    def test_a_participant_s_listener_that_is_gone(self):
        """OPERATING, "Statuses", 3: a participant's connection that can't be accepted at all is a read fault, though more seconds are left."""
        with day(control=None) as it:
            over = run(["live", it.path], env=os.environ | failing(("accept4", 1, EVER, errno.EBADF)))
        self.assertEqual((over.status, over.written), (READ_FAULT[0], b""))

    def test_no_thread_for_the_control_socket(self):
        """OPERATING, "How a day is operated": if no thread can be started for the control socket, the day runs without it."""
        with day() as it, it.live(env=os.environ | failing(("pthread_create", 1, 1, errno.EAGAIN))) as live:
            for port, data in [(it.port, reports("N", 3)), (it.next_port, b"")]:
                sent(port, data).close()
            over = ended(live)
        self.assertEqual(over.status, 0)
        self.assertIn(CALL_FAILED, over.said)
        self.assert_traded(over.written, 3)

    def test_a_day_that_does_not_answer(self):
        """OPERATING: an answer that does not come whole, within ten seconds or before the connection ends, is told, and nothing is written."""
        for answer, is_closed in ((b"", False), (b"since 1 s\n", False), (b"since 1 s\n", True)):
            with self.subTest(answer, closed=is_closed), day() as it, socket.socket(socket.AF_UNIX, socket.SOCK_STREAM) as server:
                server.bind(str(it.folder / "day.control"))
                server.listen()
                server.settimeout(10)
                with started(["status", it.path]) as asked, server.accept()[0] as peer:
                    self.assertEqual(peer.recv(100), b"status\n")
                    peer.sendall(answer)
                    if is_closed:
                        peer.shutdown(socket.SHUT_WR)
                    over = ended(asked, 20)
                self.assertEqual((over.status, over.written), (READ_FAULT[0], b""))
                self.assertEqual(over.said.decode(), f"tapebox: control {it.folder}/day.control: answer cut off\n")

    def test_an_answer_of_the_greatest_length(self):
        """OPERATING: an answer of up to 1,048,576 bytes with its empty line is written, and a longer one is cut off."""
        for length, wanted in ((1_048_576, 0), (1_048_577, READ_FAULT[0])):
            answer = b"a" * (length - 2) + b"\n\n"
            with self.subTest(length), day() as it, socket.socket(socket.AF_UNIX, socket.SOCK_STREAM) as server:
                server.bind(str(it.folder / "day.control"))
                server.listen()
                server.settimeout(10)
                with started(["status", it.path]) as asked, server.accept()[0] as peer:
                    self.assertEqual(peer.recv(100), b"status\n")
                    with contextlib.suppress(OSError):
                        peer.sendall(answer)
                    over = ended(asked, 20)
                self.assertEqual((over.status, over.written), (wanted, answer[:-1] if wanted == 0 else b""))

    def test_a_participant_that_never_connects(self):
        """FORMATS, `connect_within`: a participant that does not connect in time is given up and named."""
        with day(connect_within=1) as it, it.live() as live:
            sent(it.port, reports("N", 2)).close()
            over = ended(live)
        self.assertEqual(over.status, 0)
        self.assertIn(b"tapebox: Q: did not connect within 1 seconds\n", over.said)

    def test_whoever_connects_last(self):
        """OPERATING, "What `live` does": no line is read until all participants have connected, whichever is the last."""
        for who, first, last in (("N", "next_port", "port"), ("Q", "port", "next_port")):
            with self.subTest(who), day() as it, it.live() as live:
                with sent(getattr(it, first), b""):
                    it.wait_status(live, ": connected ")
                    sent(getattr(it, last), reports(who, 3)).close()
                over = ended(live)
                self.assertEqual((over.status, traded(over.written, who=who)), (0, (3, 300)))

    def test_a_status_names_who_is_missing(self):
        """OPERATING: `status` names the participants that are not there, and which were."""
        with day() as it, it.live() as live, sent(it.port, reports("N", 2)):
            it.wait_status(live, "N: connected")
            said = it.status()
        self.assertIn("the end waits for the lines of N Q\n", said)
        self.assertIn("Q: not connected\n", said)
        self.assertNotIn("follower", said)

    def test_a_second_connection_of_a_participant(self):
        """OPERATING: a participant's port takes one connection, also while others are waited for."""
        with day() as it, it.live() as live, sent(it.port, reports("N", 2)):
            it.wait_status(live, "(?s)N: connected.*Q: not connected")
            with self.assertRaises(ConnectionRefusedError):
                socket.create_connection((HOST, it.port)).close()
            self.assertEqual(run(["end", it.path]).status, 0)
            self.assertEqual(ended(live).status, 0)

    def test_a_status_says_how_many_followers_are_missing(self):
        """OPERATING: `status` says for how many of the followers the end waits, and how many of these have not connected."""
        with day(followers=3) as it, it.live() as live, it.follow() as follow:
            it.wait_followed(follow)
            with sent(it.port, reports("N", 5)), sent(it.next_port, b""):
                it.wait_status(live, "follower 1: ")
                said = it.status()
            self.assertEqual(ended(follow).status, 0)
            it.wait_status(live, r"follower 1: .*, ended\n")
            left = it.status()
            self.assertEqual(run(["end", it.path]).written, b"ending\n")
            self.assertEqual(run(["end", it.path]).written, b"ending without waiting for followers\n")
            self.assertEqual(ended(live).status, 0)
        self.assertIn("the end waits for the lines of N Q\nthe end waits for 3 of 3 followers: 2 not connected, 1 served\nN: ", said)
        self.assertIn("all lines have ended\nthe end waits for 2 of 3 followers: 2 not connected, 0 served\nN: ", left)

    def test_each_line_of_a_status_and_an_account(self):
        """OPERATING, "How a day is operated": a status has these lines and no others, and the account at the end has these."""
        no_message = bytearray(report("N", 4))
        no_message[2] = ord("Z")
        data = reports("N", 2) + report("N", 3, UNLISTED) + bytes(no_message)
        refused = ["N: 1 refused by 13 BadKind\n", "N: 1 refused by 36 UnknownSymbol, the first with number 3\n"]
        with day(followers=1) as it, it.live() as live:
            with sent(it.port, data):
                sent(it.next_port, b"").close()
                connect(it.retransmission).close()
                it.wait_status(live, "(?s)N: [^\n]*, 4 messages, .*Q: ended.*follower 1: .*, ended\n")
                status = it.status()
            over = ended(live)
        self.assertEqual(over.status, 0)
        ago, counts = r"since \d+ s, ", r"4 messages, 2 admitted, last number 2\n"
        lines = [
            f"{ago}tape number 2, \\d+ messages a second\n",
            "the end waits for the lines of N\nall followers have ended\n",
            f"N: connected {ago}{counts}",
            *refused,
            f"Q: ended, connected {ago}0 messages, 0 admitted, last number 0\n",
            f"follower 1: {ago}asked 0 times, answered 0 times, 0 bytes, ended\n",
        ]
        self.assertRegex(status, rf"\A{''.join(lines)}\Z")
        account = ["N: 4 messages, 2 admitted, last number 2\n", *refused, "Q: 0 messages, 0 admitted, last number 0\n"]
        self.assertEqual(over.said.decode(), "".join(f"tapebox: {line}" for line in account))

    def test_a_status_says_since_when(self):
        """OPERATING, "How a day is operated": a status says for how many seconds the day runs, and after how many participants and followers connected."""
        began = time.monotonic()
        with day(followers=1) as it, it.live() as live:
            it.wait_status(live, "tape number 0,")
            time.sleep(ALONE)
            with sent(it.port, b""), sent(it.next_port, b""), connect(it.retransmission):
                it.wait_status(live, "(?m)^follower 1: ")
                status = it.status()
                most = time.monotonic() - began
            self.assertEqual(ended(live).status, 0)
        for begins in ("", "N: connected ", "Q: connected ", "follower 1: "):
            with self.subTest(begins):
                seconds = re.search(rf"(?m)^{begins}since (\d+) s, ", status)
                self.assertTrue(seconds, status)
                self.assertTrue(ALONE <= int(seconds[1]) <= most, status)

    def test_a_status_counts_what_a_follower_asks_for(self):
        """OPERATING: `status` says how often a follower has asked and was answered, and how many bytes it was given."""
        request = struct.pack(">QIH", SESSION, 1, 8)
        with day(followers=1) as it, it.live() as live, connect(it.retransmission) as follower:
            with sent(it.port, reports("N", 3)), sent(it.next_port, b""):
                it.wait_status(live, "tape number 3,")
                follower.sendall(request + request[:5])
                it.wait_status(live, "answered 1 times")
                given = len(follower.recv(65_536))
                self.assertRegex(it.status(), rf"follower 1: since \d+ s, asked 1 times, answered 1 times, {given} bytes, served\n")
                follower.sendall(request[5:])
                it.wait_status(live, f"asked 2 times, answered 2 times, {2 * given} bytes, served")
                for _ in range(2):
                    self.assertEqual(run(["end", it.path]).status, 0)
                self.assertEqual(ended(live).status, 0)

    def test_a_port_that_is_taken(self):
        """OPERATING, "Statuses", 3: a port that is taken is named, with what it is for."""
        for port, text in [("port", "port {} (N)"), ("next_port", "port {} (Q)"), ("retransmission", "retransmission {}")]:
            with self.subTest(port), day() as it, socket.create_server((HOST, getattr(it, port))):
                over = run(["live", it.path])
                self.assertEqual((over.status, over.written), (READ_FAULT[0], b""))
                self.assertEqual(over.said.decode(), f"tapebox: {text.format(getattr(it, port))}: address in use\n")
                self.assertFalse((it.folder / "day.control").exists())

    def test_a_line_s_port_that_is_taken(self):
        """OPERATING, "Statuses", 3: so is a follower's, of `follow` and of `watch`."""
        for word in ("follow", "watch"):
            for line in "ab":
                with self.subTest(word, line=line), day() as it, socket.socket(socket.AF_INET, socket.SOCK_DGRAM) as taken:
                    port = getattr(it, line)[0]
                    taken.bind((HOST, port))
                    over = run([word, it.path])
                    self.assertEqual((over.status, over.written), (READ_FAULT[0], b""))
                    self.assertEqual(over.said.decode(), f"tapebox: line {line.upper()} {port}: address in use\n")

    def test_nobody_at_the_control_socket(self):
        """OPERATING: `status` and `end` name the control socket if no day is there."""
        for word in ("status", "end"):
            with self.subTest(word), day() as it:
                asked = run([word, it.path])
                self.assertEqual((asked.status, asked.written), (READ_FAULT[0], b""))
                self.assertRegex(asked.said.decode(), rf"\Atapebox: control {re.escape(str(it.folder))}/day.control: [^\n]+\n\Z")

    def test_nobody_at_a_control_port(self):
        """OPERATING: a port is named as one."""
        port = ports(1)[0]
        for word in ("status", "end"):
            with self.subTest(word), day(control=port) as it:
                asked = run([word, it.path])
                self.assertEqual((asked.status, asked.written), (READ_FAULT[0], b""))
                self.assertEqual(asked.said.decode(), f"tapebox: control port {port}: connection refused\n")

    def test_a_day_without_a_control_socket(self):
        """FORMATS: a file without `control` has none to ask, which is told as a missing key."""
        with day(control=None) as it:
            asked = run(["status", it.path])
        self.assertEqual(asked.status, 2)
        self.assertEqual(asked.said.decode(), f"tapebox: {it.path}: control: missing\n")

    def test_a_control_port(self):
        """FORMATS, `control`: the control socket may be a port."""
        with day() as it:
            it.path = it.write("day.toml", control=ports(1)[0])
            with it.live() as live:
                it.wait_status(live, "tape number 0,")
                run(["end", it.path])
                self.assertEqual(ended(live).status, 0)


class Said(Case):
    """What is said of a day at its end."""

    def test_unlisted_symbols(self):
        """OPERATING: messages that were refused are told by number and name, with the first one's number, in the status and at the end."""
        data = b"".join(report("N", number, UNLISTED if number in (2, 3, 5) else "AB") for number in range(1, 7))
        with day() as it, it.live() as live:
            with sent(it.port, data), sent(it.next_port, b""):
                it.wait_status(live, r"N: [^\n]*, 6 messages, 3 admitted, last number 6\nN: 3 refused by \d+ \w+, the first with number 2\n")
            over = ended(live)
        self.assertEqual(over.status, 0)
        self.assertIn(b"tapebox: N: 6 messages, 3 admitted, last number 6\n", over.said)
        self.assertRegex(over.said, rb"(?m)^tapebox: N: 3 refused by \d+ \w+, the first with number 2$")

    def test_a_line_that_is_cut_off(self):
        """OPERATING: a line that did not end cleanly is told, with how it ended."""
        with day() as it, it.live() as live:
            with sent(it.port, reports("N", 2) + b"\xff\xff"), sent(it.next_port, b""):
                it.wait_status(live, "N: ended")
            over = ended(live)
        self.assertEqual(over.status, 0)
        self.assertIn(b"tapebox: N: 2 messages, 2 admitted, last number 2\ntapebox: N: the line ended at a length that no message has\n", over.said)

    def test_a_line_that_is_reset(self):
        """OPERATING: so is one whose participant resets it, and one that ends within a message."""
        with day() as it, it.live() as live:
            with sent(it.port, reports("N", 2)) as participant, sent(it.next_port, reports("Q", 1) + report("Q", 2)[:5]):
                it.wait_status(live, "tape number 3,")
                participant.setsockopt(socket.SOL_SOCKET, socket.SO_LINGER, struct.pack("ii", 1, 0))
            over = ended(live)
        self.assertEqual(over.status, 0)
        self.assertIn(b"tapebox: N: 2 messages, 2 admitted, last number 2\ntapebox: N: the line ended at a read that failed\n", over.said)
        self.assertIn(b"tapebox: Q: 1 messages, 1 admitted, last number 1\ntapebox: Q: the line ended within a message\n", over.said)

    def test_participants_that_are_swapped(self):
        """OPERATING: messages that came by another participant's line are refused, and told."""
        with day() as it, it.live() as live:
            for port, bytes_of in [(it.port, reports("Q", 5)), (it.next_port, reports("N", 4))]:
                sent(port, bytes_of).close()
            over = ended(live)
        self.assertEqual(over.status, 0)
        for who, count in [("N", 5), ("Q", 4)]:
            self.assertIn(f"tapebox: {who}: {count} messages, 0 admitted, last number 0\n".encode(), over.said)
            self.assertIn(f"tapebox: {who}: {count} refused by 33 WrongLine, the first with number 1\n".encode(), over.said)


@contextlib.contextmanager
def closed_pipe():
    """A pipe to be written to, which nobody reads."""
    read, write = os.pipe()
    os.close(read)
    try:
        yield write
    finally:
        os.close(write)


class Unwritten(Case):
    """Reports that can't be written."""

    def run_both(self, output):
        """How `live` and `follow` end that write to this output."""
        with day(followers=1) as it, it.live(stdout=output) as live, it.follow(stdout=output) as follow:
            it.wait_followed(follow)
            for port, data in [(it.port, reports("N", 9)), (it.next_port, reports("Q", 4))]:
                sent(port, data).close()
            return ended(live), ended(follow)

    def test_a_report_that_nobody_reads(self):
        """OPERATING, "Statuses", 4: of a report that nobody reads any more nothing is said."""
        with closed_pipe() as output:
            over, followed = self.run_both(output)
        for end, last in [(over, b"last number 4\n"), (followed, b" by retransmission\n")]:
            self.assertEqual(end.status, WRITE_FAULT[0])
            self.assertTrue(end.said.endswith(last), end.said)

    @unittest.skipUnless(Path("/dev/full").is_char_device(), "no /dev/full")
    def test_a_report_that_finds_no_room(self):
        """OPERATING, "Statuses", 4: what can't be written is named, and why."""
        with open("/dev/full", "wb") as output:
            for end in self.run_both(output):
                self.assertEqual(end.status, WRITE_FAULT[0])
                self.assertTrue(end.said.endswith(b"\ntapebox: standard output: no space left\n"), end.said)


class Followers(Case):
    """Followers of an operated day."""

    def test_a_follower_that_starts_first(self):
        """FORMATS, `connect_within`: a follower waits for a `live` that is not up yet."""
        with day(followers=1, connect_within=30) as it, it.follow() as follow:
            it.wait_followed(follow)
            time.sleep(0.5)
            with it.live() as live:
                for port, data in [(it.port, reports("N", 9)), (it.next_port, reports("Q", 4))]:
                    sent(port, data).close()
                over, followed = ended(live), ended(follow)
        self.assertEqual((over.status, followed.status), (0, 0))
        self.assertEqual(followed.written, over.written)

    def test_what_was_held_is_reported(self):
        """OPERATING, `--partial`: a follower whose day has no end reports what it holds, says up to which number, and keeps its status."""
        with day(followers=1, connect_within=2) as it, it.live() as live, it.follow("--partial") as follow:
            it.wait_followed(follow)
            with sent(it.port, reports("N", 20)), sent(it.next_port, b""):
                it.wait_status(live, "tape number 20,")
                time.sleep(0.5)
                live.kill()
                followed = ended(follow)
        self.assertEqual(followed.status, READ_FAULT[0])
        self.assert_traded(followed.written, 20)
        self.assertIn(b"tapebox: the report is of the first 20 entries\n", followed.said)

    def test_a_wrong_session(self):
        """OPERATING: a session that is heard and was not asked for is named."""
        with day(followers=1, followers_wait=1, connect_within=2) as it, it.live() as live:
            other = it.write("other.toml", session=9, connect_within=2)
            with started(["follow", other]) as follow:
                it.wait_followed(follow)
                for port, data in [(it.port, reports("N", 5)), (it.next_port, b"")]:
                    sent(port, data).close()
                self.assertEqual(ended(live).status, 0)
                followed = ended(follow)
        self.assertNotEqual(followed.status, 0)
        self.assertIn(b"tapebox: session 7 is heard, and session 9 was asked for\n", followed.said)

    def test_a_stray_live(self):
        """OPERATING: a second `live` of the same session is named, and its figures are found out by the day's own."""
        with day(followers=1, followers_wait=5) as it, it.live() as live, it.follow() as follow:
            it.wait_followed(follow)
            free = ports(3)
            stray = it.write("stray.toml", port=free[0], retransmission=free[2], control=None, followers_wait=0)
            with started(["live", stray]), sent(free[1], b""):
                with sent(free[0], b"".join(report("N", number, price="99.00") for number in range(1, 6))):
                    it.wait_heard(follow)
                    for port, data in [(it.port, reports("N", 5)), (it.next_port, b"")]:
                        sent(port, data).close()
                    followed = ended(follow)
            self.assertEqual(ended(live).status, 0)
        self.assertEqual((followed.status, followed.written), (DISAGREES[0], b""))
        self.assertIn(b"tapebox: two senders of session 7: ", followed.said)

    def test_three_followers(self):
        """OPERATING: several followers are served at once, and hold the same."""
        with day(followers=3, followers_wait=30) as it, it.live() as live, contextlib.ExitStack() as followed:
            follows = [followed.enter_context(it.follow(follower=place)) for place in (1, 2, 3)]
            for place, follow in enumerate(follows, 1):
                it.wait_followed(follow, place)
            for port, data in [(it.port, reports("N", 300)), (it.next_port, reports("Q", 200))]:
                sent(port, data).close()
            over, others = ended(live), [ended(follow) for follow in follows]
        self.assertEqual([end.status for end in (over, *others)], [0, 0, 0, 0])
        for end in others:
            self.assertEqual(end.written, over.written)


class Floods(Case):
    """What the control socket can do to a day: nothing."""

    def test_half_lines(self):
        """OPERATING: 256 connections that send half a line each end no day, and an operator is answered beside them."""
        with day() as it, it.live() as live:
            it.wait_status(live, "tape number 0,")
            with contextlib.ExitStack() as open_ones:
                for _ in range(256):
                    client = open_ones.enter_context(socket.socket(socket.AF_UNIX, socket.SOCK_STREAM))
                    client.connect(str(it.folder / "day.control"))
                    with contextlib.suppress(OSError):
                        client.sendall(b"stat")
                with sent(it.port, reports("N", 10)), sent(it.next_port, reports("Q", 10)):
                    it.wait_status(live, "tape number 20,")
                    self.assertEqual(run(["end", it.path]).written, b"ending\n")
            over = ended(live)
        self.assertEqual(over.status, 0)
        self.assertEqual(traded(over.written, who="Q"), (10, 1_000))

    def asking(self, it):
        """A connection to a day's control socket."""
        client = socket.socket(socket.AF_UNIX, socket.SOCK_STREAM)
        client.settimeout(15)
        client.connect(str(it.folder / "day.control"))
        return client

    def test_a_silent_connection(self):
        """FORMATS: a connection ends after ten seconds without a byte, and others are answered meanwhile."""
        with day() as it, it.live() as live:
            it.wait_status(live, "tape number 0,")
            with self.asking(it) as client:
                began = time.monotonic()
                client.sendall(b"stat")
                it.wait_status(live, r"\Asince [1-9]\d* s, tape number 0,")
                self.assertEqual(client.recv(100), b"")
                self.assertGreater(time.monotonic() - began, 8)

    def test_answers_that_nobody_takes(self):
        """FORMATS: a connection ends if it takes nothing of an answer for a second."""
        with day() as it, it.live() as live:
            it.wait_status(live, "tape number 0,")
            with self.asking(it) as client:
                client.sendall(b"status\n" * 5_000)
                time.sleep(2)
                got = bytearray()
                with contextlib.suppress(ConnectionResetError):
                    while piece := client.recv(65_536):
                        got += piece
            self.assertIn(b"tape number 0,", got)
            self.assertLess(got.count(b"\n\n"), 5_000)

    def test_a_bad_line(self):
        """FORMATS: a line that is no command is answered, and changes nothing; a longer one than 64 bytes is answered too, and ends its connection."""
        unknown = b"unknown command; status or end\n\n"
        with day() as it, it.live() as live:
            it.wait_status(live, "tape number 0,")
            for lines, answers in (
                (b"finish\nEnd\nend \n\nend\r\n", 5),
                (b"finish\nen", 1),
                (b"0" * 64 + b"\nfinish\n", 2),
                (b"0" * 65 + b"\nend\n", 1),
                (b"0" * 1_000, 1),
            ):
                with self.subTest(lines), self.asking(it) as client:
                    client.sendall(lines)
                    client.shutdown(socket.SHUT_WR)
                    self.assertEqual(b"".join(iter(lambda: client.recv(1_000), b"")), unknown * answers)
            self.assertIsNone(live.poll())
            run(["end", it.path])
            self.assertEqual(ended(live).status, 0)

    def test_connections_that_ended(self):
        """FORMATS: connections that have ended are not among those of which the oldest is ended."""
        with day() as it, it.live() as live:
            it.wait_status(live, "tape number 0,")
            with self.asking(it) as client:
                client.sendall(b"stat")
                for _ in range(40):
                    self.assertEqual(run(["status", it.path]).status, 0)
                client.sendall(b"us\n")
                self.assertIn(b"tape number 0,", client.recv(1_000))
            run(["end", it.path])
            self.assertEqual(ended(live).status, 0)


class Places(Case):
    """What is where the control socket is to be."""

    def assert_refused(self, it, why):
        """`live` names the control socket, and why it cannot be opened."""
        over = run(["live", it.path])
        self.assertEqual((over.status, over.written), (READ_FAULT[0], b""))
        self.assertEqual(over.said.decode(), f"tapebox: control {it.folder}/day.control: {why}\n")

    def test_a_socket_that_nobody_answers_at(self):
        """FORMATS: the socket of a day that is gone is made again, and is removed at the end."""
        with day() as it:
            with socket.socket(socket.AF_UNIX, socket.SOCK_STREAM) as gone:
                gone.bind(str(it.folder / "day.control"))
            with it.live() as live:
                it.wait_status(live, "tape number 0,")
                run(["end", it.path])
                self.assertEqual(ended(live).status, 0)
            self.assertFalse((it.folder / "day.control").exists())

    def test_a_folder_that_is_not_there(self):
        """FORMATS: a folder that is not there is made, and its owner alone can enter it."""
        with day() as it:
            it.path = it.write("day.toml", control="made/day.control")
            with it.live() as live:
                it.wait_status(live, "tape number 0,")
                self.assertEqual((it.folder / "made").stat().st_mode & 0o777, 0o700)
                run(["end", it.path])
                self.assertEqual(ended(live).status, 0)

    def test_a_socket_of_another_day(self):
        """FORMATS: a day that runs keeps its control socket."""
        with day() as it, day() as other, it.live() as live:
            it.wait_status(live, "tape number 0,")
            other.path = other.write("day.toml", control=str(it.folder / "day.control"))
            over = run(["live", other.path])
            self.assertEqual((over.status, over.said.decode()), (READ_FAULT[0], f"tapebox: control {it.folder}/day.control: address in use\n"))
            run(["end", it.path])
            self.assertEqual(ended(live).status, 0)

    def test_a_file_that_is_no_socket(self):
        """FORMATS: any other file is left as it is."""
        with day() as it:
            (it.folder / "day.control").write_bytes(b"a file")
            self.assert_refused(it, "a file that is no socket stands there")
            self.assertEqual((it.folder / "day.control").read_bytes(), b"a file")

    def test_a_folder_that_others_enter(self):
        """FORMATS: in a folder that others than its owner can enter nothing is made."""
        with day() as it:
            it.folder.chmod(0o710)
            self.assert_refused(it, "others than its owner can enter its folder")
            self.assertFalse((it.folder / "day.control").exists())
