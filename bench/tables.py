#!/usr/bin/env python3
"""Measures `tapebox` on tables beside programs that write the same.

    bench/tables.py [DAY[:BYTES] ..]         the report and the readable tape, beside `desk` and its `least`, and the explanation by itself
    bench/tables.py peers [DAY[:BYTES] ..]   the report beside `desk`, `least`, pandas and SQLite, as far as they are there
    bench/tables.py growth                   the report of tables with more rows, columns and symbols: whether a row takes longer there

`desk` is a plain program with std alone, whose tape is that of `indexed`; its `least` keeps no tape and makes the report by one fold at the end. What
pandas and SQLite run is in bench/peers/. Builds the plain programs, takes `tapebox` from `./run --which`, makes the tables by a seed, runs the
programs on each in turns, and checks that they write the same. Prints the processor seconds, the wall-clock seconds and the peak memory in kilobytes, of
each the least and the middle run.

Statuses: 0 if the programs agree; 1 if they don't, or one fails; 2 if the words are others.
"""

import argparse
import os
import shutil
import subprocess
import sys

from common import BENCH, DAYS, RELEASE, add_words, in_turns, located, make, measured

TABLES = ["one", "busy", "hostile", "busy:82800000"]
# Its tape and its explanation would take minutes a turn.
REPORT_TABLE = "busy:331200000"
PEERS_TABLES = ["busy", "busy:82800000"]
# A table and a longer one, with so many columns of remarks, or with more symbols. A row's time is compared, or a byte's.
GROWTHS = [("busy:4194304", 0), ("busy", 0), ("busy:1048576", 10), ("busy:1048576", 1_000), ("busy26", 0), ("wide", 0)]
# The system's own Python has what the system's packages bring.
OWN_PYTHON = "/usr/bin/python3"


def make_table(day, seed, remarks=0):
    """The file of a day as a table with so many columns of remarks, and how many rows it has."""
    source = make(day, seed)
    path = DAYS / f"{source.stem}.csv"
    with open(source, "rb") as given, open(path, "wb") as file:
        subprocess.run([RELEASE / "to_table"], stdin=given, stdout=file, check=True)
    source.unlink()
    if remarks:
        add_remarks(path, remarks)
    with open(path, "rb") as file:
        return path, sum(1 for _ in file) - 1


def add_remarks(path, count):
    """Adds so many columns of remarks to a table."""
    head, *lines = path.read_bytes().splitlines()
    names, fields = b"".join(b",#%d" % number for number in range(count)), b",a remark" * count
    path.write_bytes(head + names + b"\n" + b"".join(line + fields + b"\n" for line in lines))


def own_commands(word):
    """What writes the word's text of a table: `tapebox`, and the plain programs that write the same."""
    plain = {"report": {"desk": "report", "least": "least"}, "tape": {"desk": "tape"}}.get(word, {})
    commands = {program: [path, word] for program, path in located("tapebox").items()}
    return commands | {name: [RELEASE / "desk", of] for name, of in plain.items()}


def peer_commands():
    """The peers that are here, by the command that writes a report."""
    commands = {}
    if os.path.exists(OWN_PYTHON) and not subprocess.run([OWN_PYTHON, "-c", "import pandas"], check=False, capture_output=True).returncode:
        commands["pandas"] = [OWN_PYTHON, BENCH / "peers" / "report_pandas.py"]
    sqlite = shutil.which("sqlite3")
    if sqlite:
        commands["SQLite"] = [sqlite, ":memory:", f".read '{BENCH / 'peers' / 'report_sqlite.sql'}'"]
    for name in {"pandas", "SQLite"} - {*commands}:
        print(f"{name} is not here")
    return commands


def on_table(words, day, commands_of, remarks=0):
    """The records of the commands by each word over a day's table."""
    table, rows = make_table(day, words.seed, remarks)
    size = table.stat().st_size
    for word, commands in commands_of.items():
        for record in in_turns(day, table, commands, words.turns):
            yield record | {"word": word, "rows": rows, "bytes": size, "remarks": remarks}
    table.unlink()


def tables(words):
    """Each word on each day."""
    commands_of = {word: own_commands(word) for word in ("report", "tape", "explain")}
    for day in words.what or TABLES:
        yield from on_table(words, day, commands_of)
    if not words.what:
        yield from on_table(words, REPORT_TABLE, {"report": commands_of["report"]})


def peers(words):
    """The report by all that write it, on each day."""
    commands_of = {"report": own_commands("report") | peer_commands()}
    for day in words.what[1:] or PEERS_TABLES:
        yield from on_table(words, day, commands_of)


def growth(words):
    """The report of the pairs of tables."""
    commands_of = {"report": own_commands("report")}
    for day, remarks in GROWTHS:
        yield from on_table(words, day, commands_of, remarks)


def main():
    parser = argparse.ArgumentParser(description=__doc__, formatter_class=argparse.RawDescriptionHelpFormatter)
    add_words(parser)
    parser.add_argument("--turns", type=int, default=3, help="how often each program runs on each table (3)")
    parser.add_argument("what", nargs="*", metavar="DAY[:BYTES]", help="the days; or peers, which may have days after it, or growth")
    words = parser.parse_args()
    return measured(words, {"peers": peers, "growth": growth}.get(words.what[0] if words.what else "", tables))


if __name__ == "__main__":
    sys.exit(main())
