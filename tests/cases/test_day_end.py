"""The end of a day of a file: its report comes before its followers have gone, and they are waited for as long as the file says."""

import contextlib
import socket
import tempfile
import time
from pathlib import Path

from support import LIMIT, Case, connect, ended, ports, reports, run, started

DAY = """symbols = ["AB"]
participants = ["N"]
port = {}
a = [{}]
b = [{}]
retransmission = {}
followers = {}
session = 7
{}"""
# A request of session 7 for eight entries from the first.
REQUEST = bytes.fromhex("0000000000000007" "00000001" "0008")


class DayEnds(Case):
    @contextlib.contextmanager
    def day(self, followers, more=""):
        """A day of one participant that sent three reports and closed: the program, the port of its retransmission, and the file that it
        writes its report to."""
        with tempfile.TemporaryDirectory() as folder:
            line, a, b, retransmission = ports(4)
            file, written = Path(folder) / "day.toml", Path(folder) / "report.csv"
            file.write_text(DAY.format(line, a, b, retransmission, followers, more))
            with written.open("wb") as output, started(["live", file], stdout=output) as live, connect(line) as participant:
                participant.sendall(reports("N", 3))
                participant.shutdown(socket.SHUT_WR)
                yield live, retransmission, written

    def wait_written(self, live, written):
        """Waits until the report is written, while the day still runs."""
        until = time.monotonic() + LIMIT
        wanted = self.report_of_three()
        while written.read_bytes() != wanted:
            self.assertIsNone(live.poll(), "the day ended first")
            self.assertLess(time.monotonic(), until, "no report")
            time.sleep(0.02)

    def test_report_is_written_while_a_follower_is_served(self):
        """The report stands whole while a connection is open, which is served on, and the day ends with it."""
        with self.day(1) as (live, retransmission, written), connect(retransmission) as follower:
            self.wait_written(live, written)
            follower.sendall(REQUEST)
            self.assertEqual(follower.recv(2), b"\0\1")
            self.assertIsNone(live.poll())
            follower.close()
            self.assertEqual(ended(live).status, 0)
            self.assertEqual(written.read_bytes(), self.report_of_three())

    def test_followers_are_waited_for_as_long_as_the_file_says(self):
        """A connection that stays open, and one that never comes, are given up some seconds after the end, with status 0 and an account."""
        with self.day(2, "followers_wait = 2\n") as (live, retransmission, written), connect(retransmission) as follower:
            self.wait_written(live, written)
            since = time.monotonic()
            follower.sendall(REQUEST)
            self.assertEqual(follower.recv(2), b"\0\1")
            end = ended(live)
            self.assertEqual(end.status, 0)
            self.assertIn(b"tapebox: 1 follower was waited for no longer\n", end.said)
            self.assertLess(time.monotonic() - since, 8)
            self.assertGreater(time.monotonic() - since, 1)

    def test_two_followers_that_are_waited_for_no_longer(self):
        """Two connections that stay open are given up, and counted."""
        with self.day(2, "followers_wait = 1\n") as (live, retransmission, _), connect(retransmission), connect(retransmission):
            end = ended(live)
        self.assertEqual(end.status, 0)
        account = b"tapebox: N: 3 messages, 3 admitted, last number 3\ntapebox: 2 followers were waited for no longer\n"
        self.assertEqual(end.said, account)

    def test_no_wait_ends_the_day_with_its_report(self):
        """Without seconds to wait the day ends once its report is written, though a follower is awaited."""
        with self.day(1, "followers_wait = 0\n") as (live, _, written):
            self.assertEqual(ended(live).status, 0)
            self.assertEqual(written.read_bytes(), self.report_of_three())

    def test_words_in_a_row_write_the_report_at_last(self):
        """Words in a row wait for their followers first, and say nothing."""
        line, a, b, retransmission = ports(4)
        with started(["live", "AB", "N", line, a, b, retransmission, 1, 7]) as live, connect(line) as participant:
            with connect(retransmission):
                participant.sendall(reports("N", 3))
                participant.shutdown(socket.SHUT_WR)
                time.sleep(3)
                self.assertIsNone(live.poll())
            self.assert_writes(ended(live), self.report_of_three())

    @staticmethod
    def report_of_three():
        """The report of the three."""
        rows = "".join(f"report,N,{number},AB,,10.00,100,@___\n" for number in (1, 2, 3))
        table = "kind,participant,number,symbol,target,price,size,condition\n" + rows
        return run(["report"], table.encode()).written
