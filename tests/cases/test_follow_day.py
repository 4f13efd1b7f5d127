"""Followers of a day that is given by a file, whose lines and retransmission are the case's own."""

import contextlib
import socket
import struct
import tempfile
import time
from pathlib import Path

from support import DISAGREES, HOST, LIMIT, READ_FAULT, WRITE_FAULT, Case, ended, ports, report_rows, started, wait_read
from cases.test_follow import SESSION, Follower, answer_of, entries, packet, row_of

DAY = """\
symbols = ["AB"]
participants = ["N"]
port = {first}
a = [{a}]
b = [{b}]
retransmission = {retransmission}
session = {session}
followers = 1
connect_within = {within}
"""
# The answer to a request for a number that there is not.
BEYOND = b"\x48"


@contextlib.contextmanager
def day(*options, within=20, listens=True):
    """A follower by a day's file, with a connection to the case's own retransmission once it listens."""
    first, a, b, retransmission = ports(4)
    with tempfile.TemporaryDirectory() as folder, socket.socket(socket.AF_INET, socket.SOCK_DGRAM) as sender:
        file = Path(folder, "day.toml")
        file.write_text(DAY.format(first=first, a=a, b=b, retransmission=retransmission, session=SESSION, within=within))
        with contextlib.ExitStack() as open_ones:
            server = open_ones.enter_context(socket.create_server((HOST, retransmission))) if listens else None
            follow = open_ones.enter_context(started(["follow", *options, file]))
            if not listens:
                time.sleep(1)
                server = open_ones.enter_context(socket.create_server((HOST, retransmission)))
            server.settimeout(LIMIT)
            peer = Follower(follow, server, sender, (a, b))
            open_ones.callback(lambda: peer.connection.close())
            yield peer


class Conflicts(Case):
    """Packets of the session that tell otherwise of a number."""

    def test_a_forged_entry_that_came_first(self):
        """OPERATING: if another entry came first, the true one has the retransmission asked, and the number is named."""
        with day() as peer:
            peer.by_a(entries(1, 1, "99.00"))
            peer.by_a(entries(1, 1))
            self.assertEqual(peer.request(), (1, 1))
            peer.connection.sendall(answer_of(entries(1, 1)))
            end = ended(peer.follow)
        self.assertEqual((end.status, end.written), (DISAGREES[0], b""))
        self.assertIn(b"tapebox: two senders of session 7: number 1 was told of in two ways\n", end.said)
        self.assertIn(b"tapebox: number 1 is not what the retransmission has\n", end.said)

    def test_a_stray_packet(self):
        """OPERATING: a stray packet is dropped once the retransmission has what is held, and the day ends well, but names it."""
        with day() as peer:
            peer.by_a(entries(1, 2))
            peer.by_a(entries(2, 2, "99.00"))
            self.assertEqual(peer.request(), (2, 1))
            peer.by_a(packet(b"E", 2))
            wait_read(peer.follow, peer.ports[0])
            peer.connection.sendall(answer_of(entries(2, 2)))
            end = ended(peer.follow)
        self.assertEqual(end.status, 0)
        self.assertIn(row_of(2), report_rows(end.written))
        self.assertIn(b"tapebox: two senders of session 7: number 2 was told of in two ways\n", end.said)
        self.assertIn(b"tapebox: line A: 3 packets, 1 dropped: 1 with another entry\n", end.said)

    def test_stray_packets_far_apart(self):
        """OPERATING, "What `follow` does": each number of which a stray packet tells otherwise is asked for, also if the answer takes several packets."""
        for price, status in [("10.00", 0), ("99.00", DISAGREES[0])]:
            with self.subTest(price), day() as peer:
                for first in (1, 9, 17, 26):
                    peer.by_a(entries(first, first + 7))
                self.assertEqual(peer.request(), (25, 1))
                for number in (2, 23):
                    peer.by_b(entries(number, number, "99.00"))
                wait_read(peer.follow, peer.ports[1])
                # What is read by now is taken too.
                time.sleep(0.3)
                peer.connection.sendall(answer_of(entries(25, 25)))
                self.assertEqual(peer.request(), (2, 22))
                peer.by_a(packet(b"E", 33))
                wait_read(peer.follow, peer.ports[0])
                peer.connection.sendall(answer_of(entries(2, 8), entries(9, 16), entries(17, 23, price)))
                self.assertEqual(ended(peer.follow).status, status)

    def test_an_end_that_is_not_the_day_s(self):
        """OPERATING: a packet past the known end has the retransmission asked for the number above it."""
        for answer, status in [(BEYOND, 0), (answer_of(entries(3, 3)), DISAGREES[0])]:
            with self.subTest(answer.hex()), day() as peer:
                peer.by_a(entries(1, 1))
                peer.by_a(packet(b"E", 2))
                self.assertEqual(peer.request(), (2, 1))
                peer.by_a(packet(b"H", 3))
                wait_read(peer.follow, peer.ports[0])
                peer.connection.sendall(answer_of(entries(2, 2)))
                self.assertEqual(peer.request(), (3, 1))
                peer.connection.sendall(answer)
                end = ended(peer.follow)
                self.assertEqual(end.status, status)
                self.assertIn(b"tapebox: line A: 3 packets, 1 dropped: 1 past the end\n", end.said)

    def test_a_flood_of_stray_packets(self):
        """OPERATING: gaps are asked for first, each number is settled once, and the day ends though strays go on."""
        with day() as peer:
            peer.by_a(entries(1, 8))
            wait_read(peer.follow, peer.ports[0])
            for _ in range(2000):
                peer.by_b(entries(1, 8, "99.00"))
            self.assertEqual(peer.request(), (1, 1))
            peer.connection.sendall(answer_of(entries(1, 1)))
            peer.by_a(packet(b"E", 9))
            self.assertEqual(peer.request(), (9, 1))
            for _ in range(2000):
                peer.by_b(entries(1, 8, "99.00"))
            peer.connection.sendall(answer_of(entries(9, 9)))
            end = ended(peer.follow)
        self.assertEqual(end.status, 0)
        self.assertIn(row_of(9), report_rows(end.written))


class Accounts(Case):
    """What is said of a day."""

    def test_another_session(self):
        """OPERATING: a session that is heard and was not asked for is named."""
        with day("--partial") as peer:
            other = bytearray(entries(1, 1))
            other[9] = 9
            peer.by_a(bytes(other))
            peer.by_a(b"noise")
            peer.by_a(entries(1, 1))
            peer.by_a(packet(b"H", 2))
            self.assertEqual(peer.request(), (2, 1))
            peer.connection.sendall(BEYOND)
            end = ended(peer.follow)
        self.assertEqual(end.status, DISAGREES[0])
        self.assertIn(row_of(1), report_rows(end.written))
        account = [
            "line A: 4 packets, 2 dropped: 1 no packet, 1 of another session\n",
            "line B: 0 packets\n",
            "retransmission: 1 request, 0 packets\n",
            "entries: 1 by line A, 0 by line B, 0 by retransmission\n",
            "session 9 is heard, and session 7 was asked for\n",
            "number 2 is not what the retransmission has\n",
            "the report is of the first 1 entry\n",
            "tape disagrees\n",
        ]
        self.assertEqual(end.said.decode(), "".join(f"tapebox: {line}" for line in account))


class Connections(Case):
    """A retransmission that is not up yet, or goes and comes again."""

    def test_a_retransmission_that_comes_later(self):
        """OPERATING: a follower tries to connect for `connect_within` seconds, at the start and after a connection is lost."""
        with day(listens=False) as peer:
            peer.by_a(entries(1, 1))
            port = peer.server.getsockname()[1]
            peer.connection.close()
            peer.server.close()
            time.sleep(2)
            with socket.create_server((HOST, port)) as again:
                again.settimeout(LIMIT)
                peer.server = again
                peer.accept()
                peer.by_a(packet(b"E", 2))
                self.assertEqual(peer.request(), (2, 1))
                peer.connection.sendall(answer_of(entries(2, 2)))
                end = ended(peer.follow)
        self.assertEqual(end.status, 0)
        self.assertIn(row_of(2), report_rows(end.written))

    def test_a_request_that_is_not_written(self):
        """OPERATING, "Statuses", 4: a request that can't be written, after which there is no other connection, is a write fault, and of no output."""
        with day(within=1) as peer:
            peer.server.close()
            peer.connection.setsockopt(socket.SOL_SOCKET, socket.SO_LINGER, struct.pack("ii", 1, 0))
            peer.connection.close()
            peer.by_a(packet(b"H", 2))
            end = ended(peer.follow)
        self.assertEqual((end.status, end.written), (WRITE_FAULT[0], b""))
        self.assertTrue(end.said.endswith(b" by retransmission\ntapebox: write fault\n"), end.said)

    def test_a_retransmission_that_never_comes(self):
        """OPERATING, "Statuses", 3: after that time the retransmission is named."""
        first, a, b, retransmission = ports(4)
        with tempfile.TemporaryDirectory() as folder:
            file = Path(folder, "day.toml")
            file.write_text(DAY.format(first=first, a=a, b=b, retransmission=retransmission, session=SESSION, within=1))
            began = time.monotonic()
            with started(["follow", file]) as follow:
                end = ended(follow)
        self.assertGreaterEqual(time.monotonic() - began, 0.9)
        self.assertEqual((end.status, end.written), (READ_FAULT[0], b""))
        self.assertIn(f"tapebox: retransmission {retransmission}: connection refused\n".encode(), end.said)
