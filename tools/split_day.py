#!/usr/bin/env python3
"""A day over several tapes: split_day.py TABLE.csv N [FOLDER]

Splits the table by its symbols into N parts, runs `tapebox report` on each side by side by GNU parallel, and prints one report: the rows of
all, in the order in which the symbols and the participants appear in the table. So a table may have more rows or symbols than one tape
holds. If one tape over the whole table would refuse no message, that is its report but for the places of the marks, which are numbers of
each symbol's own tape. How many messages were refused stands on standard error, unless none was.

The parts are balanced by their rows: each symbol goes to the part that has the fewest so far, the symbols with the most rows first. A part
has the table's columns but its remarks, and first the column `#row`: the number of the row in the table, whose header row is the first. The
table is read twice and never held. Its fields are read by `tapebox`, of each part. With FOLDER nothing is run: the parts are written there,
part-1.csv to part-N.csv.

    TAPEBOX   the program (the proved one or its draft, as ./run has it, or else the installed one)
    MATRIX    the matrix, 1 or 2 (1)
    PARALLEL  options of parallel, as "--sshlogin HOST1,HOST2" for several machines; docs/SCALE.md says what each needs
    PARALLEL_SSH  how they are called (ssh, which asks for no password and gives a host up that is silent for 15 seconds)

Statuses: 0 if the report is printed, or the parts are written; 1 if anything fails, which names the row of the table or the machine, and then
no report is printed; 2 if the words are others.
"""

import argparse
import collections
import contextlib
import csv
import os
import re
import shutil
import signal
import subprocess
import sys
import tempfile
from pathlib import Path

# Nothing is written beside an installed tool.
sys.dont_write_bytecode = True

from program import RUN, program

# The number of the row below the header row.
FIRST_ROW = 2
SSH = "ssh -o BatchMode=yes -o ConnectTimeout=10 -o ServerAliveInterval=5 -o ServerAliveCountMax=3"
# What tapebox says of a table at fault, and of messages that its tape refused.
FAULT = re.compile(r"tapebox: (?:row (?P<row>\d+)(?P<why>:.*)|(?P<whole>(?:header row|the table) .*))")
REFUSED = re.compile(r"tapebox: (\d+) of \d+ rows? refused: ")
# No field is too long to be passed on.
csv.field_size_limit(sys.maxsize)


class Fault(Exception):
    """Says why there is no report."""


class BadTable(Fault):
    """Says what is wrong with a table."""


class Table:
    """A table: which of its columns are kept, and those of its names."""

    def __init__(self, path):
        self.path = path
        names = next(self.records(), [])
        for name in ("symbol", "participant"):
            if name not in names:
                raise BadTable(f"header row: column {name} is missing" if names else "the table has no row")
        self.width = len(names)
        self.kept = [at for at, name in enumerate(names) if not name.startswith("#")]
        self.head = ["#row", *(names[at] for at in self.kept)]
        self.symbol, self.participant = names.index("symbol"), names.index("participant")

    def records(self):
        """The table's records, without blank lines."""
        return records(self.path, "utf-8-sig")

    def rows(self):
        """Each row with its number."""
        rows = self.records()
        next(rows)
        for number, fields in enumerate(rows, FIRST_ROW):
            if len(fields) != self.width:
                raise BadTable(f"row {number}: {len(fields)} fields, and the header row has {self.width}")
            yield number, fields

    def names(self):
        """How many rows each symbol has, and the participants, in the order of their appearance."""
        symbols, participants = collections.Counter(), {}
        for _, fields in self.rows():
            symbols[fields[self.symbol]] += 1
            participants[fields[self.participant]] = None
        return symbols, participants


class Part:
    """A part of a table: its file, and beside it what the program wrote and said of it."""

    def __init__(self, folder, number):
        self.table = folder / f"part-{number}.csv"
        self.written = folder / f"part-{number}.out"
        self.said = folder / f"part-{number}.out.err"

    def lines(self):
        """The lines that were said of it."""
        return self.said.read_text(encoding="utf-8", errors="replace").splitlines() if self.said.exists() else []

    def fault(self):
        """What was said of its table, by the row of the whole table, or nothing."""
        found = next(filter(None, map(FAULT.match, self.lines())), None)
        if found and found["row"]:
            fields = next(row for number, row in enumerate(records(self.table), 1) if number == int(found["row"]))
            return f"row {fields[0]}{found['why']}"
        return found["whole"] if found else ""

    def refused(self):
        """How many of its messages were refused."""
        return sum(int(found[1]) for found in map(REFUSED.match, self.lines()) if found)

    def rows(self):
        """The rows of its report, by symbol and participant, below the header."""
        with open(self.written, encoding="utf-8", errors="surrogateescape") as file:
            next(file, "")
            return {tuple(row.split(",", 2)[:2]): row for row in file}


def records(path, encoding="utf-8"):
    """The records of a file, without blank lines."""
    with open(path, newline="", encoding=encoding, errors="surrogateescape") as file:
        yield from filter(None, csv.reader(file))


def part_of_each(symbols, parts):
    """The part of each symbol, from 0, by how many rows each symbol has."""
    loads = [0] * parts
    part_of = {}
    for symbol, rows in symbols.most_common():
        part = loads.index(min(loads))
        part_of[symbol] = part
        loads[part] += rows
    return part_of


def write_parts(table, part_of, parts):
    """Writes each row into the file of its symbol's part."""
    with contextlib.ExitStack() as files:
        opened = [files.enter_context(open(part.table, "w", newline="", encoding="utf-8", errors="surrogateescape")) for part in parts]
        writers = [csv.writer(file, lineterminator="\n") for file in opened]
        for writer in writers:
            writer.writerow(table.head)
        for number, fields in table.rows():
            writers[part_of[fields[table.symbol]]].writerow([number, *(fields[at] for at in table.kept)])


def split(path, parts):
    """Splits the table of a file into parts, and returns its symbols and participants."""
    table = Table(path)
    symbols, participants = table.names()
    if len(symbols) < len(parts):
        raise BadTable(f"{len(symbols)} symbols are too few for {len(parts)} parts")
    write_parts(table, part_of_each(symbols, len(parts)), parts)
    return symbols, participants


def found():
    """The program that reports a part: not ./run, which would look for it at each."""
    if program() != str(RUN):
        return program()
    done = subprocess.run([RUN, "--which", "tapebox"], stdout=subprocess.PIPE, text=True, check=False)
    if done.returncode:
        raise Fault("there is no tapebox")
    return done.stdout.rstrip("\n")


def run_parts(command, parts, folder):
    """Runs a command on each part, and raises a fault for the first that fails."""
    jobs = folder / "jobs"
    words = ["parallel", "--halt", "now,fail=1", "--joblog", jobs, "--transferfile", "{}", "--cleanup", "--results", "{.}.out", f"{command} < {{}}", ":::"]
    environment = {"PARALLEL_SSH": SSH} | os.environ
    how = {"stdin": subprocess.DEVNULL, "stdout": subprocess.DEVNULL, "stderr": subprocess.PIPE, "env": environment}
    with subprocess.Popen([*words, *(part.table for part in parts)], **how) as running:
        try:
            said = running.communicate()[1]
        except KeyboardInterrupt:
            end(running)
            raise
    if running.returncode:
        raise failure(parts, jobs, said.decode(errors="replace"))


def end(running):
    """Ends parallel, which waits for its jobs at the first signal, and ends them at the next."""
    while running.poll() is None:
        running.terminate()
        with contextlib.suppress(subprocess.TimeoutExpired):
            running.wait(timeout=0.5)


def failure(parts, jobs, said):
    """Why the first part failed, by the rows of parallel's log, or what parallel said if none of them did."""
    rows = csv.DictReader(jobs.open(encoding="utf-8"), delimiter="\t", quoting=csv.QUOTE_NONE) if jobs.exists() else []
    ended = next((row for row in rows if (row["Exitval"], row["Signal"]) != ("0", "0")), None)
    if ended is None:
        return Fault("parallel failed" + "".join(f": {line}" for line in said.splitlines()[:1]))
    part = parts[int(ended["Seq"]) - 1]
    if part.fault():
        return BadTable(part.fault())
    host = "this machine" if ended["Host"] == ":" else ended["Host"]
    why = "".join(f": {line}" for line in part.lines()[:1])
    return Fault(f"a part failed on {host}, status {ended['Exitval']}{why}")


def print_report(symbols, participants, parts):
    """Prints the rows of all parts, in the order of these names."""
    rows = {}
    for part in parts:
        rows |= part.rows()
    with open(parts[0].written, encoding="utf-8", errors="surrogateescape") as file:
        sys.stdout.write(next(file, ""))
    sys.stdout.writelines(rows[symbol, who] for symbol in symbols for who in ["ALL", *participants] if (symbol, who) in rows)


def report(path, count):
    """Prints the report of a table's file, by so many parts."""
    with tempfile.TemporaryDirectory() as folder:
        parts = [Part(Path(folder), number) for number in range(1, count + 1)]
        symbols, participants = split(path, parts)
        if not shutil.which("parallel"):
            raise Fault("there is no GNU parallel")
        run_parts(f'"{found()}" report --matrix {os.environ.get("MATRIX", "1")}', parts, Path(folder))
        refused = sum(part.refused() for part in parts)
        if refused:
            print(f"split_day.py: {refused} of {symbols.total()} messages were refused", file=sys.stderr)
        print_report(symbols, participants, parts)


def arguments():
    parser = argparse.ArgumentParser(description=__doc__, formatter_class=argparse.RawDescriptionHelpFormatter)
    parser.add_argument("table", metavar="TABLE.csv")
    parser.add_argument("parts", type=int, metavar="N", help="how many parts")
    parser.add_argument("folder", nargs="?", type=Path, metavar="FOLDER", help="a folder that is there, for the parts alone")
    words = parser.parse_args()
    if words.parts < 1:
        parser.error("there is at least one part")
    return words


def main():
    words = arguments()
    for ends in (signal.SIGHUP, signal.SIGTERM):
        signal.signal(ends, signal.default_int_handler)
    try:
        if words.folder:
            split(words.table, [Part(words.folder, number) for number in range(1, words.parts + 1)])
        else:
            report(words.table, words.parts)
    except (BadTable, csv.Error) as fault:
        sys.exit(f"split_day.py: {words.table}: {fault}")
    except Fault as fault:
        sys.exit(f"split_day.py: {fault}")
    except OSError as fault:
        sys.exit(f"split_day.py: {fault.filename}: {fault.strerror}")
    except KeyboardInterrupt:
        sys.exit(1)


if __name__ == "__main__":
    main()
