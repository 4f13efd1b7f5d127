"""What the cases share: the built programs and how they ended, ports, the peers of a running day, and messages' bytes."""

import contextlib
import csv
import functools
import io
import os
import re
import socket
import subprocess
import time
import unittest
from dataclasses import dataclass
from pathlib import Path

import plain_table

ROOT = Path(__file__).resolve().parents[2]
SAMPLES = ROOT / "samples"
TESTS = ROOT / "tests"
TOOLS = ROOT / "tools"
DEV = ROOT / "dev"
PACKAGING = ROOT / "packaging"
# The days whose output is stored beside them, as `.out`.
STORED_DAYS = [SAMPLES / "first-day.txt", TESTS / "days" / "stored-day.txt"]
BENCH = ROOT / "bench"
CRATES = ROOT / "crates"
HOST = "127.0.0.1"
# Seconds until a program must have ended, unless a case says otherwise.
LIMIT = 60
HEADINGS = "symbol,who,open,open_at,high,high_at,low,low_at,last,last_at,volume,trades"
MARKS = ["open", "high", "low", "last"]
TAPE_COLUMNS = [*plain_table.ANSWER, *plain_table.COLUMNS, *plain_table.FIGURES]

from free_ports import free_ports
from plain_table import batch_line

# Seconds until a connection that is not awaited must have been reset.
PATIENCE = 5
# The states of a connection, and of a socket that awaits connections, in Linux's table.
ESTABLISHED = "01"
LISTENING = "0A"


class Program(os.PathLike):
    """A program of the crates. It is looked for when it is first called, and if it is not proved its draft is compiled then."""

    all = []

    def __init__(self, name):
        self.name = name
        self.all.append(self)

    @functools.cached_property
    def path(self):
        """Where it is, which the cases take for its name."""
        return located([self.name])[0]

    @property
    def is_draft(self):
        """Whether it is a draft, since no proved program was built from exactly this tree."""
        return self.path.endswith(".draft")

    def __fspath__(self):
        return self.path

    __str__ = __fspath__


def located(names):
    """Where `./run` finds these programs. It says on standard error which are drafts, and why there is none."""
    done = subprocess.run([ROOT / "run", "--which", *names], stdout=subprocess.PIPE, text=True, check=False)
    if done.returncode:
        raise RuntimeError(f"./run has no program, and ended with {done.returncode}")
    return done.stdout.splitlines()


def locate_all():
    """Looks for all programs at once, so that drafts are compiled side by side, and returns the names of the drafts."""
    for program, path in zip(Program.all, located([program.name for program in Program.all])):
        program.path = path
    return [program.name for program in Program.all if program.is_draft]


TAPEBOX = Program("tapebox")


@dataclass(frozen=True)
class Ended:
    """How a program ended: its status, and what it wrote and said."""

    status: int
    written: bytes
    said: bytes


BAD_ARGUMENTS = b"tapebox: bad arguments\n"
READ_FAULT = (3, b"tapebox: read fault\n")
WRITE_FAULT = (4, b"tapebox: write fault\n")
OUT_OF_MEMORY = (5, b"tapebox: out of memory\n")
NO_WORKER = (6, b"tapebox: worker not started\n")
DISAGREES = (7, b"tapebox: tape disagrees\n")


class Case(unittest.TestCase):
    """A case about the built programs."""

    def assert_fault(self, ended, fault):
        """The program ended by a fault, its status and its text, and wrote nothing."""
        self.assertEqual(ended, Ended(fault[0], b"", fault[1]))

    def assert_bad_arguments(self, ended, hint=rb"[^\n]+"):
        """The program ended since its arguments are bad, wrote nothing, and said so with this hint in a line behind."""
        self.assertEqual((ended.status, ended.written), (2, b""))
        self.assertRegex(ended.said, rb"\A" + BAD_ARGUMENTS + rb"tapebox: " + hint + rb"\n\Z")

    def assert_traded(self, written, trades, volume=None, symbol="AB"):
        """A report has so many trades of a symbol, and so many shares, or a hundred a trade."""
        self.assertEqual(traded(written, symbol), (trades, 100 * trades if volume is None else volume))

    def assert_accounts(self, ended, written=None):
        """A peer of a file's day ended well, said its account alone, a line each, and wrote this if it is given."""
        self.assertEqual(ended.status, 0)
        self.assertRegex(ended.said, rb"\A(?:tapebox: [^\n]+\n)*\Z")
        self.assertEqual(ended.written, ended.written if written is None else written)

    def assert_writes(self, ended, written):
        """The program ended well, wrote this and said nothing."""
        self.assertEqual((ended.status, ended.said), (0, b""))
        if ended.written != written:
            pairs = enumerate(zip(ended.written.split(b"\n"), written.split(b"\n")), 1)
            self.fail(next((f"line {at}: {got}, not {wanted}" for at, (got, wanted) in pairs if got != wanted), "another length"))


def tried(times):
    """A case that is tried so many times at most: a busy machine may keep programs from what is wanted of them."""

    def trying(case):
        @functools.wraps(case)
        def try_all(self):
            for _ in range(times - 1):
                with contextlib.suppress(AssertionError):
                    return case(self)
            return case(self)

        return try_all

    return trying


def run(words, given=b"", program=TAPEBOX, limit=LIMIT, **options):
    """Runs a program on what it is given: bytes, or an open file."""
    need(program)
    source = {"input": given} if isinstance(given, bytes) else {"stdin": given}
    options.setdefault("stdout", subprocess.PIPE)
    done = subprocess.run([program, *map(str_or_bytes, words)], stderr=subprocess.PIPE, timeout=limit, check=False, **source, **options)
    return Ended(done.returncode, done.stdout or b"", done.stderr)


def need(program):
    """Skips the case if the program is missing that only a gate or `rt test` builds, and the cases run over drafts."""
    path = Path(program)
    if CRATES in path.parents and not path.exists() and TAPEBOX.is_draft:
        raise unittest.SkipTest(f"no {path.name}: it is built with its proofs alone, by the gate or `rt test`")


def desk(*words, given=b"", matrix=None, **options):
    """How a word of `tapebox` ended on a table, by a matrix if one is named."""
    return run([*words, *([] if matrix is None else ["--matrix", matrix])], given, **options)


def table_of(rows):
    """Rows of fields as a table's text."""
    file = io.StringIO(newline="")
    csv.writer(file, lineterminator="\n").writerows(rows)
    return file.getvalue().encode()


def str_or_bytes(word):
    """An argument as the system takes it."""
    return word if isinstance(word, (bytes, str)) else str(word)


@contextlib.contextmanager
def started(words, program=TAPEBOX, **options):
    """A program that runs beside the case, and is killed if it still runs after it."""
    need(program)
    for stream in ("stdout", "stderr"):
        options.setdefault(stream, subprocess.PIPE)
    running = subprocess.Popen([program, *map(str_or_bytes, words)], **options)
    try:
        yield running
    finally:
        running.kill()
        running.communicate()


def ended(running, limit=LIMIT):
    """How a started program ended."""
    written, said = running.communicate(timeout=limit)
    return Ended(running.returncode, written or b"", said)


def ports(count):
    """So many ports in a row that are free."""
    first = free_ports(count)
    return range(first, first + count)


def connect(port):
    """A connection to the port, once the program listens there."""
    until = time.monotonic() + LIMIT
    while True:
        try:
            return socket.create_connection((HOST, port), timeout=LIMIT)
        except ConnectionRefusedError:
            if time.monotonic() > until:
                raise
            time.sleep(0.02)


def wait_for(program, what, holds):
    """Waits until this holds, while the program runs."""
    until = time.monotonic() + LIMIT
    while not holds():
        if program.poll() is not None or time.monotonic() > until:
            raise TimeoutError(f"{what} never came: the program has status {program.poll()}")
        time.sleep(0.02)


def addresses(protocol):
    """The row of each socket in Linux's table."""
    return [row.split() for row in Path(f"/proc/net/{protocol}").read_text(encoding="ascii").splitlines()[1:]]


def wait_bound(program, *ports):
    """Waits until the program receives packets on the ports."""
    ends = [f":{port:04X}" for port in ports]
    wait_for(program, f"a socket on each of {ports}", lambda: all(any(row[1].endswith(end) for row in addresses("udp")) for end in ends))


def listens(port):
    """Whether a socket awaits connections at the port."""
    end = f":{port:04X}"
    return any(row[1].endswith(end) and row[3] == LISTENING for row in addresses("tcp"))


def wait_read(program, port):
    """Waits until the program has read each packet that came to the port."""
    end = f":{port:04X}"
    wait_for(program, f"an empty queue at {port}", lambda: all(row[4].endswith(":00000000") for row in addresses("udp") if row[1].endswith(end)))


def wait_connected(program, port, count):
    """Waits until there are so many connections to the port, those that have yet to be accepted among them."""
    end = f":{port:04X}"
    wait_for(
        program,
        f"connection {count} to {port}",
        lambda: sum(row[2].endswith(end) and row[3] == ESTABLISHED for row in addresses("tcp")) == count,
    )


def is_refused(port):
    """Whether further connections to the port are refused. One that comes just before its listener is closed is reset instead."""
    until = time.monotonic() + LIMIT
    while time.monotonic() < until:
        try:
            with socket.create_connection((HOST, port), timeout=PATIENCE) as second:
                second.recv(1)
        except ConnectionRefusedError:
            return True
        except ConnectionResetError:
            continue
        except socket.timeout:
            return False
    return False


def message(**row):
    """The bytes of a message, by the columns of a table. Those that are not named are empty."""
    return plain_table.message(dict.fromkeys(plain_table.COLUMNS, "") | {column: str(value) for column, value in row.items()})


def report(who, number, symbol="AB", price="10.00"):
    """A report of 100 shares as bytes."""
    return message(kind="report", participant=who, number=number, symbol=symbol, price=price, size=100, condition="@___")


def report_rows(written):
    """The rows of a report by their columns. A batch's answers may stand before it; if there is no report there are none."""
    lines = written.decode().splitlines()
    return [*csv.DictReader(lines[lines.index(HEADINGS) :])] if HEADINGS in lines else []


def report_row(symbol, who, marks, volume, trades):
    """A row of a report by its columns. The marks are open, high, low and last, each a price and its place, or none."""
    figures = {column: value for name, mark in zip(MARKS, marks) for column, value in zip((name, f"{name}_at"), mark or ("", ""))}
    row = {"symbol": symbol, "who": who, "volume": volume, "trades": trades} | figures
    return {column: str(row[column]) for column in HEADINGS.split(",")}


def report_text(rows):
    """The text of a report that has these rows."""
    return table_of([HEADINGS.split(","), *(row.values() for row in rows)])


def tape_row(**row):
    """A row of a readable tape as its text has it. Columns that are not named are empty."""
    return ",".join(str(row.get(column, "")) for column in TAPE_COLUMNS) + "\n"


def without_places(written):
    """The rows of a report without the places, which are the order in which messages came."""
    return [{column: value for column, value in row.items() if not column.endswith("_at")} for row in report_rows(written)]


def traded(written, symbol="AB", who="ALL"):
    """How many trades and shares a report has in the row of a symbol, of all or of a participant, or None without such a row."""
    found = [row for row in report_rows(written) if (row["symbol"], row["who"]) == (symbol, who)]
    return (int(found[0]["trades"]), int(found[0]["volume"])) if len(found) == 1 else None


def reports(who, count):
    """So many reports, by rising number."""
    return b"".join(report(who, number) for number in range(1, count + 1))


def batch_of(table):
    """A batch's input, by a table's file."""
    return plain_table.batch(plain_table.read(Path(table).read_bytes()))


def transcripts(page):
    """The commands that a page of docs/ shows after a dollar sign, each with what it shows below, without blanks at the end of a line."""
    shown = re.findall(r"(?m)^    \$ (.*)\n((?:    (?!\$ ).*\n)*)", (ROOT / "docs" / page).read_text(encoding="utf-8"))
    return [(command, re.sub("(?m)^    ", "", written)) for command, written in shown]
