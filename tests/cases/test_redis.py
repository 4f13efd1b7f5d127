"""tools/tape_to_redis.py and tools/tape_from_redis.py, over a server of Redis that the case starts."""

import contextlib
import csv
import os
import shutil
import signal
import subprocess
import tempfile
import time
import unittest
from pathlib import Path

from cases import test_tables
from support import HOST, LIMIT, TAPEBOX, TOOLS, Case, connect, desk, ended, message, ports, report, run, started, table_of, wait_bound

PYTHON = "/usr/bin/python3"
TO, FROM = TOOLS / "tape_to_redis.py", TOOLS / "tape_from_redis.py"


def has_redis():
    """Whether the server and the module are there."""
    return shutil.which("redis-server") and subprocess.run([PYTHON, "-c", "import redis"], capture_output=True, check=False).returncode == 0


@unittest.skipUnless(has_redis(), "no redis-server, or no module redis")
class Redis(Case):
    def setUp(self):
        folder = tempfile.TemporaryDirectory()
        self.addCleanup(folder.cleanup)
        self.folder = folder.name
        (self.port,) = ports(1)
        self.url = f"redis://{HOST}:{self.port}/0"
        self.serve()
        self.addCleanup(lambda: self.stop(signal.SIGKILL))
        day = test_tables.SeededDay(7)
        rows = [day.HEAD, *(day.row() for _ in range(3000))]
        # A followed tape has no row of a refused message.
        tape = desk("tape", given=table_of(rows)).written.splitlines(keepends=True)
        self.tape = b"".join(row for row in tape if not row.startswith(b","))

    def serve(self):
        """Starts the server over the folder's file, each write of which is synced."""
        words = f"redis-server --port {self.port} --bind {HOST} --dir {self.folder} --appendonly yes --appendfsync always --save".split()
        self.server = subprocess.Popen([*words, ""], stdout=subprocess.DEVNULL, stderr=subprocess.DEVNULL)
        with connect(self.port):
            pass

    def stop(self, number):
        """Ends the server by a signal."""
        self.server.send_signal(number)
        self.server.wait(LIMIT)

    def add(self, **options):
        """A run that adds rows which come on standard input."""
        return started([TO, "-", "--stream", "tape", "--redis", self.url], program=PYTHON, stdin=subprocess.PIPE, **options)

    def write(self, adding, rows):
        """Writes rows to a run that adds them, and leaves its input open."""
        adding.stdin.write(b"".join(rows))
        adding.stdin.flush()

    def reader(self, *words):
        """A run that prints the stream's rows."""
        return started([FROM, "tape", "--redis", self.url, *words], program=PYTHON)

    def held(self):
        """The stream's rows, by a new reader, once the day is over."""
        done = run([FROM, "tape", "--redis", self.url], program=PYTHON)
        self.assertEqual((done.status, done.said), (0, b""))
        return done.written

    def length(self):
        """How many entries the stream has; 0 while the server is loading."""
        words = ["redis-cli", "-p", str(self.port), "XLEN", "tape"]
        said = subprocess.run(words, capture_output=True, text=True, check=False).stdout.strip()
        return int(said) if said.isdecimal() else 0

    def test_three_readers_at_once(self):
        """tape_from_redis.py: three readers at once each print the rows of the tape; two of one group share them."""
        with contextlib.ExitStack() as stack:
            alone = [stack.enter_context(self.reader(*words)) for words in [(), (), ("--group", "desk")]]
            shared = [stack.enter_context(self.reader("--group", "pair", "--reader", name)) for name in "ab"]
            adding = stack.enter_context(self.add())
            self.assertEqual(adding.communicate(self.tape, LIMIT)[1], b"")
            self.assertEqual(adding.returncode, 0)
            for reader in alone:
                done = ended(reader)
                self.assertEqual((done.status, done.written, done.said), (0, self.tape, b""))
            parts = [ended(reader).written.splitlines()[1:] for reader in shared]
            self.assertEqual(sorted(parts[0] + parts[1]), sorted(self.tape.splitlines()[1:]))

    def test_killed_and_started_again(self):
        """tape_to_redis.py: killed in mid-day and started again, it loses and doubles nothing; and so does a server that is killed."""
        rows = self.tape.splitlines(keepends=True)
        third = len(rows) // 3
        with self.add() as adding:
            self.write(adding, rows[: third + 1])
            self.wait("the first rows", lambda: self.length() == third)
            adding.kill()
        with self.add() as adding:
            self.write(adding, rows[: 2 * third + 1])
            self.wait("further rows", lambda: self.length() == 2 * third)
            self.stop(signal.SIGKILL)
            self.write(adding, rows[2 * third + 1 : -5])
            time.sleep(0.5)
            self.serve()
            self.assertEqual(adding.communicate(b"".join(rows[-5:]), LIMIT)[1], b"")
            self.assertEqual(adding.returncode, 0)
        self.assertEqual(self.held(), self.tape)

    def test_entries_that_the_server_lost(self):
        """tape_to_redis.py: entries that the server had acknowledged and lost are added again."""
        rows = self.tape.splitlines(keepends=True)
        half = len(rows) // 2
        with self.add() as adding:
            self.write(adding, rows[: half + 1])
            self.wait("the first rows", lambda: self.length() == half)
            self.stop(signal.SIGKILL)
            files = [file for file in Path(self.folder).rglob("*.aof") if ".incr." in file.name]
            os.truncate(files[-1], files[-1].stat().st_size // 2)
            self.serve()
            self.assertLess(self.length(), half)
            self.assertEqual(adding.communicate(b"".join(rows[half + 1 :]), LIMIT)[1], b"")
            self.assertEqual(adding.returncode, 0)
        self.assertEqual(self.held(), self.tape)

    def test_another_day(self):
        """tape_to_redis.py: a stream that has another row under its last number is refused."""
        rows = self.tape.splitlines(keepends=True)
        with self.add() as adding:
            adding.communicate(b"".join(rows[:10]), LIMIT)
        rows[9] = rows[9].replace(b"\n", b"0\n")
        with self.add() as adding:
            _, said = adding.communicate(b"".join(rows), LIMIT)
            self.assertEqual(adding.returncode, 1)
            self.assertEqual(said, b"tape_to_redis.py: tape has another row under 9: it is of another day\n")

    def test_a_running_day(self):
        """tape_to_redis.py: a running day goes from its file into the stream of its session, as it comes."""
        line, a, b, retransmission = ports(4)
        day = Path(self.folder, "day.toml")
        keys = f'symbols = ["AB"]\nparticipants = ["N"]\nport = {line}\na = [{a}]\nb = [{b}]\n'
        day.write_text(f"{keys}retransmission = {retransmission}\nfollowers = 1\nsession = 7\n", encoding="utf-8")
        environment = {"TAPEBOX": str(TAPEBOX), "PATH": "/usr/bin:/bin"}
        with started(["live", day]) as live, connect(line) as participant:
            with started([TO, day, "--redis", self.url], program=PYTHON, env=environment) as adding:
                wait_bound(adding, a, b)
                participant.sendall(report("N", 1) + message(kind="cancel", participant="N", number=2, symbol="AB", target=1))
                participant.close()
                self.assert_accounts(ended(adding))
                self.assertEqual(live.wait(LIMIT), 0)
        done = run([FROM, "tapebox:7", "--redis", self.url], program=PYTHON)
        self.assertEqual([row["kind"] for row in csv.DictReader(done.written.decode().splitlines())], ["report", "cancel"])

    def wait(self, what, holds):
        """Waits until this holds."""
        until = time.monotonic() + LIMIT
        while not holds():
            if time.monotonic() > until:
                raise TimeoutError(f"{what} never came")
            time.sleep(0.05)
