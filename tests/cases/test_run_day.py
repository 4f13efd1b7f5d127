"""tools/run_day.sh, by which a signal ends a day with its report: over a program that stands for `tapebox`, and with the real one."""

import contextlib
import os
import signal
import tempfile
import time
from pathlib import Path

from support import LIMIT, TAPEBOX, TOOLS, Case, Ended, connect, ended, ports, reports, run, started

RUN_DAY = TOOLS / "run_day.sh"
# Stands for the program. Its `live` says who it is, and ends once so many calls of `end` have been noted beside the day's file; its `end` fails
# as often as it is told to before it is heard.
STAND_IN = """#!/bin/sh
cd "$(dirname "$2")" || exit 9
case $1 in
    live)
        echo up > up
        while [ "$(cat heard 2> /dev/null | wc -l)" -lt "$(cat calls)" ]; do sleep 0.02; done
        sleep 0.1
        echo the report
        echo "tapebox: as told" >&2
        exit "$(cat status)"
        ;;
    end)
        [ ! -e deaf ] || { rm deaf; echo "tapebox: control: connection refused" >&2; exit 3; }
        echo heard >> heard
        ;;
esac
"""
DAY = """symbols = ["AB"]
participants = ["N", "Q"]
port = {line}
a = [{a}]
b = [{b}]
retransmission = {retransmission}
followers = 1
session = 7
control = {control}
"""


class RunDay(Case):
    def setUp(self):
        folder = tempfile.TemporaryDirectory()
        self.addCleanup(folder.cleanup)
        self.folder = Path(folder.name)
        self.day, self.report = self.folder / "day.toml", self.folder / "report.csv"
        self.day.write_text("control = 9300\n")
        program = self.folder / "tapebox"
        program.write_text(STAND_IN)
        program.chmod(0o755)
        self.stand_in = os.environ | {"TAPEBOX": str(program)}

    def told(self, calls, status=0):
        """What the program that stands for `tapebox` does: it ends with this status after so many calls."""
        for name, text in [("calls", calls), ("status", status), ("heard", "")]:
            (self.folder / name).write_text(f"{text}\n" if text != "" else "")
        (self.folder / "up").unlink(missing_ok=True)

    @contextlib.contextmanager
    def running(self, *words):
        """The script over that program, once it has started `live`."""
        with started([*words, self.day], program=RUN_DAY, env=self.stand_in, start_new_session=True) as script:
            self.wait(lambda: (self.folder / "up").exists())
            yield script

    def wait(self, holds):
        """Waits until this holds."""
        until = time.monotonic() + LIMIT
        while not holds():
            self.assertLess(time.monotonic(), until)
            time.sleep(0.01)

    def heard(self):
        """How many calls of `end` were heard."""
        return (self.folder / "heard").read_text().count("heard")

    def test_a_signal_ends_the_day(self):
        """run_day.sh: each of the three signals, to it or to its whole group, ends the day with its report and live's status."""
        for number in (signal.SIGTERM, signal.SIGHUP, signal.SIGINT):
            for send in (os.kill, os.killpg):
                with self.subTest(number, send=send.__name__):
                    self.told(calls=1)
                    with self.running() as script:
                        send(script.pid, number)
                        self.assertEqual(ended(script), Ended(0, b"the report\n", b"tapebox: as told\n"))
                    self.assertEqual(self.heard(), 1)

    def test_a_second_signal(self):
        """run_day.sh: a second signal calls `end` again, and live's status is the script's."""
        self.told(calls=2, status=7)
        with self.running("--report", self.report) as script:
            script.terminate()
            self.wait(lambda: self.heard() == 1)
            self.assertIsNone(script.poll())
            script.send_signal(signal.SIGHUP)
            self.assertEqual(ended(script), Ended(7, b"", b"tapebox: as told\n"))
        self.assertFalse(self.report.exists())

    def test_a_report_in_its_place(self):
        """run_day.sh --report: a day that ends by itself, or by a call that is not heard at first, has its whole report in the file."""
        self.told(calls=0)
        self.assertEqual(run([f"--report={self.report}", self.day], program=RUN_DAY, env=self.stand_in), Ended(0, b"", b"tapebox: as told\n"))
        self.assertEqual(self.report.read_bytes(), b"the report\n")
        self.report.unlink()
        self.told(calls=1)
        (self.folder / "deaf").touch()
        with self.running("--report", self.report) as script:
            script.terminate()
            self.assertEqual(ended(script), Ended(0, b"", b"tapebox: as told\n"))
        self.assertEqual(self.report.read_bytes(), b"the report\n")
        self.assertEqual(list(self.folder.glob("*.part")), [])

    def test_a_day_that_is_not_started(self):
        """run_day.sh, 1: a file that can't be read, or has no control socket, and a report that can't be written are named."""
        self.told(calls=0)
        bare = self.folder / "bare.toml"
        bare.write_text("session = 7\n")
        nowhere = self.folder / "none" / "report.csv"
        for words, fault in [
            ([self.folder / "none.toml"], "none.toml: it can't be read"),
            ([bare], "bare.toml: it names no control socket, and a signal could not end the day"),
            (["--report", nowhere, self.day], "none/report.csv: it can't be written"),
        ]:
            with self.subTest(fault):
                self.assertEqual(run(words, program=RUN_DAY, env=self.stand_in), Ended(1, b"", f"run_day.sh: {self.folder}/{fault}\n".encode()))
        self.assertFalse((self.folder / "up").exists())

    def test_a_stopped_day_has_its_report(self):
        """OPERATING: a day of which one participant never closes and a follower never comes has its report after two signals, of all that was read."""
        line, _, retransmission, a, b, control = ports(6)
        self.day.write_text(DAY.format(line=line, retransmission=retransmission, a=a, b=b, control=control))
        with started(["--report", self.report, self.day], program=RUN_DAY, env=os.environ | {"TAPEBOX": str(TAPEBOX)}) as script:
            with connect(line) as n, connect(line + 1):
                n.sendall(reports("N", 100))
                self.wait(lambda: b"100" in run(["status", self.day]).written)
                script.terminate()
                time.sleep(0.5)
                script.terminate()
                end = ended(script)
        self.assertEqual((end.status, end.written), (0, b""))
        self.assert_traded(self.report.read_bytes(), 100)
