"""A `live` that goes away and comes again while a day is followed."""

import time

from support import DISAGREES, READ_FAULT, Case, ended, report, report_rows, wait_connected, wait_read
from cases.test_follow import answer_of, entries, packet, row_of
from cases.test_follow_day import day as own_day
from cases.test_operated_day import day, sent


class Comebacks(Case):
    """A `live` that is killed and started again, on the same ports."""

    def followed(self, days):
        """How a follower ended to which one `live` after the other sent these messages of N. Each but the last is killed once the follower has
        all of them, or as soon as it is connected if there are none."""
        with day(followers=1, participants=["N"]) as it, it.follow() as follow:
            for messages in days[:-1]:
                with it.live() as live:
                    wait_connected(live, it.retransmission, 1)
                    with sent(it.port, b"".join(messages)):
                        if messages:
                            it.wait_status(live, f"tape number {len(messages)},")
                            it.wait_heard(follow)
                        live.kill()
            with it.live() as live:
                sent(it.port, b"".join(days[-1])).close()
                return ended(follow)

    def test_a_live_that_dies_again_at_once(self):
        """OPERATING: a follower awaits a `live` that went away, also if it goes again within a second, and has the whole day."""
        whole = [report("N", number) for number in range(1, 31)]
        followed = self.followed([whole[:20], [], [], whole])
        self.assertEqual(followed.status, 0)
        self.assert_traded(followed.written, 30)

    def test_a_live_that_comes_again_with_other_messages(self):
        """OPERATING: what a follower holds is not contradicted by a `live` that comes again: one that has other messages disagrees."""
        others = [report("N", number, price="99.00") for number in range(1, 31)]
        followed = self.followed([[report("N", number) for number in range(1, 21)], others])
        self.assertEqual((followed.status, followed.written), (DISAGREES[0], b""))


class Tries(Case):
    """For how long a connection is tried."""

    def test_connections_that_answer_nothing(self):
        """OPERATING: a connection that is lost before it answered is opened again, while its seconds last."""
        with own_day() as peer:
            peer.by_a(entries(1, 1))
            peer.by_a(packet(b"E", 2))
            for _ in range(3):
                self.assertEqual(peer.request(), (2, 1))
                peer.accept()
            peer.connection.sendall(answer_of(entries(2, 2)))
            end = ended(peer.follow)
        self.assertEqual(end.status, 0)
        self.assertIn(row_of(2), report_rows(end.written))

    def test_the_seconds_end(self):
        """OPERATING: a connection that was lost is tried for `connect_within` seconds, and not for twice as long."""
        with own_day(within=4) as peer:
            peer.by_a(entries(1, 1))
            wait_read(peer.follow, peer.ports[0])
            peer.server.close()
            peer.connection.close()
            began = time.monotonic()
            end = ended(peer.follow)
            took = time.monotonic() - began
        self.assertEqual((end.status, end.written), (READ_FAULT[0], b""))
        self.assertGreaterEqual(took, 4)
        self.assertLess(took, 8)
