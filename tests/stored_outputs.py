#!/usr/bin/env python3
"""Makes the stored outputs anew by plain programs, and says what changed: stored_outputs.py [--check]

Each is made of its input beside it or of a sample, and none by tapebox: answers and reports of batches, and the pictures of REPORTS, by the plain
tape (tests/plain/plain_tape.py) and tools/plot_day.py; and the tables beside the captures, by tshark, if that is there. What example_day writes has no plain
twin, and what pages show of commands is compared by their cases: neither is made here. With --check nothing is written.

Statuses: 0 if all are as they were; 1 if one is not, which is written anew, or if a plain program fails; 2 if the words are others.
"""

import argparse
import collections
import itertools
import re
import shutil
import subprocess
import sys
import tempfile

import folders  # noqa: F401
import plain_explain
import plain_table
from plain_tape import Refused, Tape, decode, fold
from support import CRATES, MARKS, ROOT, SAMPLES, STORED_DAYS, TAPE_COLUMNS, TESTS, TOOLS, report_row, report_text, table_of

MATRIX, TAPE_MOST = "1", 1_048_576
LINE = re.compile(r"([A-Z]) ((?:[0-9A-Fa-f]{2})*)")


def marks_of(summary):
    """The marks of a summary, by the order of the columns."""
    return [getattr(summary, name) for name in MARKS]


def row_of(symbol, who, summary):
    """The row of a summary in a report."""
    marks = [(mark.price, mark.place) if mark else None for mark in marks_of(summary)]
    return report_row(symbol, who, marks, summary.volume, summary.trades)


def report_of(tape):
    """The report of a tape: a row for each symbol, and for each participant with trades in it."""
    standing = collections.defaultdict(list)
    for report in tape.reports.values():
        if report.stands:
            standing[report.symbol].append(report)
    rows = []
    for symbol in tape.symbols:
        for who in ("ALL", *tape.participants):
            shown = [report for report in standing[symbol] if who in ("ALL", report.who)]
            if shown or who == "ALL":
                rows.append(row_of(symbol, who, fold(tape.matrix, shown, who != "ALL")))
    return report_text(rows)


def answer(tape, line):
    """The answer to a message line of a batch."""
    try:
        found = LINE.fullmatch(line)
        if not found:
            raise Refused(22)
        message = bytes.fromhex(found[2])
        row, length = decode(message)
        if length < len(message):
            raise Refused(23)
        if row["participant"] != found[1]:
            raise Refused(33)
        return str(tape.admit(message))
    except Refused as refusal:
        return f"refused {refusal}"


def batch(text):
    """The answers and the report of a batch, whose names are good."""
    symbols, participants, *lines = text.decode("latin-1").removesuffix("\n").split("\n")
    tape = Tape(symbols.split(), participants.split(), TAPE_MOST, MATRIX)
    answers = "".join(f"{answer(tape, line)}\n" for line in lines)
    return answers.encode() + report_of(tape)


def texts(table):
    """The report, the readable tape and the explanation of a table."""
    messages = plain_table.read(table)
    symbols = dict.fromkeys(map(plain_table.symbol_of, messages))
    tape, rows = Tape(list(symbols), list(dict.fromkeys(chr(text[3]) for text in messages)), TAPE_MOST, MATRIX), [TAPE_COLUMNS]
    for text in messages:
        row = plain_table.row_of(text)
        answered = answer(tape, plain_table.batch_line(text).decode().rstrip("\n"))
        summary = tape.summary(plain_table.symbol_of(text))
        figures = [plain_table.dollars(mark.price) if mark else "" for mark in marks_of(summary)]
        told = [answered, ""] if answered.isdecimal() else ["", answered.removeprefix("refused ")]
        rows.append([*told, *row, *figures, summary.volume, summary.trades])
    report, readable = report_of(tape), table_of(rows)
    return report, readable, table_of(plain_explain.explained(readable, report, MATRIX))


def called(*words, given=b""):
    """What a plain program writes."""
    done = subprocess.run([str(word) for word in words], input=given, stdout=subprocess.PIPE, check=False)
    if done.returncode:
        sys.exit(f"stored_outputs.py: {words[0]} ended with status {done.returncode}")
    return done.stdout


def pictures():
    """The pictures of REPORTS."""
    _, tape, explained = texts((SAMPLES / "morning.csv").read_bytes())
    words = [TOOLS / "plot_day.py", "--symbol", "AB"]
    yield ROOT / "docs" / "morning.svg", called(*words, given=tape)
    with tempfile.NamedTemporaryFile(suffix=".csv") as file:
        file.write(explained)
        file.flush()
        yield ROOT / "docs" / "explained.svg", called(*words, "--explained", file.name, given=tape)


def outputs():
    """Each stored output of a program or a tool, with what it is made anew to."""
    for day in STORED_DAYS:
        yield day.with_suffix(".out"), batch(day.read_bytes())
    crate = CRATES / "tapebox"
    yield crate / "stdout", batch((crate / "stdin").read_bytes())
    yield from pictures()


def tables():
    """The tables beside the captures, with what they are made anew to."""
    if shutil.which("tshark"):
        from cases import test_dissector

        for table in sorted((TESTS / "captures").glob("*.txt")):
            yield table, "".join("|".join(row) + "\n" for row in test_dissector.fields(table.with_suffix(".pcap"), *test_dissector.COLUMNS)).encode()


def difference(old, new):
    """Where two texts first differ."""
    rows = zip([*old.splitlines(), None], [*new.splitlines(), None])
    at, (was, is_now) = next((at, pair) for at, pair in enumerate(rows, 1) if pair[0] != pair[1])
    shown = [text.decode("utf-8", "replace")[:100] if text is not None else "no line" for text in (was, is_now)]
    return f"line {at} was {shown[0]!r}, and is {shown[1]!r}"


def main():
    parser = argparse.ArgumentParser(description=__doc__, formatter_class=argparse.RawDescriptionHelpFormatter)
    parser.add_argument("--check", action="store_true", help="write nothing")
    is_check, changed = parser.parse_args().check, 0
    for path, text in itertools.chain(outputs(), tables()):
        old = path.read_bytes() if path.exists() else b""
        if old == text:
            continue
        changed += 1
        print(f"{path.relative_to(ROOT)}: {difference(old, text)}")
        if not is_check:
            path.write_bytes(text)
    print(f"{changed or 'none'} changed")
    return 1 if changed else 0


if __name__ == "__main__":
    sys.exit(main())
