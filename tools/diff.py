#!/usr/bin/env python3
"""Compares two days: diff.py [--places] A B

A and B are two reports, two readable tapes, two explanations, or journals (as their tapes), plain or compressed by gzip. Rows are matched by
symbol, participant and message number, in a report by symbol and participant, and never by their order. Tape numbers and the row numbers of a
table are places: they are compared with --places alone. So two days of the same messages in another order differ only where a figure does.

Standard output has a CSV row for each difference, by the columns symbol, participant, number, column, a, b and change. Of a row that only one
file has the column is `only in a` or `only in b`. `change` is b less a where both are numbers. Standard error counts the differences by column.

A refused message has no tape number, so the first refused row of a message is compared with the first, the second with the second.

Statuses: 0 if nothing differs; 1 if something does; 2 if a file can't be read, or is none of these, or both are not of one kind, or the
arguments are others, or standard output fails. For status 2 nothing is written on standard output, unless that fails itself.
"""

import argparse
import collections
import csv
import gc
import gzip
import itertools
import operator
import shutil
import subprocess
import sys
import tempfile
import zlib
from decimal import Decimal, InvalidOperation
from typing import NamedTuple

from program import program

COLUMNS = ["symbol", "participant", "number", "column", "a", "b", "change"]
GZIP, JOURNAL = b"\x1f\x8b", b"tapejrnl"
# No field has this byte.
BETWEEN = "\x1f"


class Kind(NamedTuple):
    """A kind of text: its name, the columns that it is known by, those that a row is matched by, and those that are places."""

    name: str
    known_by: tuple
    key: tuple
    places: tuple


KINDS = [
    Kind("report", ("who", "open_at"), ("symbol", "who"), ("open_at", "high_at", "low_at", "last_at")),
    Kind("tape", ("tape", "refused", "kind"), ("symbol", "participant", "number"), ("tape",)),
    Kind("explanation", ("state", "sets"), ("symbol", "participant", "number"), ("tape", "row", "changed")),
]


class Fault(Exception):
    """Says which file is wrong, and how."""


def journal_tape(path):
    """The tape of a journal, as the program writes it."""
    command = program()
    try:
        done = subprocess.run([command, "tape", path], capture_output=True, text=True, check=False)
    except OSError as fault:
        raise Fault(f"{command}: {fault.strerror}") from None
    if done.returncode:
        why = done.stderr.strip().removeprefix("tapebox: ")
        raise Fault(f"{path}: {why or f'{command} ended with status {done.returncode} and no message'}")
    return done.stdout


def open_text(path):
    """The lines of a file, of a journal those of its tape."""
    with open(path, "rb") as file:
        front = file.read(len(JOURNAL))
    if front == JOURNAL:
        return iter(journal_tape(path).splitlines())
    return (gzip.open if front.startswith(GZIP) else open)(path, "rt", encoding="utf-8", newline="")


class Text:
    """A file: its kind, and its rows by what matches them and what is compared."""

    def __init__(self, path):
        self.path, self.line = path, 1
        try:
            self.rows = csv.reader(open_text(path))
            self.head = next(self.rows, [])
        except (OSError, EOFError, zlib.error, UnicodeDecodeError, csv.Error) as fault:
            raise Fault(f"{path}: {getattr(fault, 'strerror', None) or fault}") from None
        self.kind = next((kind for kind in KINDS if all(name in self.head for name in kind.known_by)), None)
        if not self.kind:
            raise Fault(f"{path}: neither a report nor a tape nor an explanation nor a journal")

    def picked(self, names):
        """What gives the fields of these columns, as a tuple."""
        at = [self.head.index(name) for name in names]
        return operator.itemgetter(*at) if len(at) > 1 else lambda row: tuple(row[place] for place in at)

    def read(self, names):
        """Each row: its key, and the fields of these columns joined."""
        key, compared, width = self.picked(self.kind.key), self.picked(names), len(self.head)
        refused = self.head.index("refused") if self.kind.name == "tape" else None
        try:
            for row in self.rows:
                self.line += 1
                if len(row) != width:
                    raise Fault(f"{self.path}: row {self.line}: {len(row)} fields, and the header row has {width}")
                # A refused message and the one that was admitted under its number are two.
                mark = BETWEEN if refused is not None and row[refused] else ""
                yield BETWEEN.join(key(row)) + mark, BETWEEN.join(compared(row))
        except (OSError, EOFError, zlib.error, UnicodeDecodeError, csv.Error) as fault:
            raise Fault(f"{self.path}: row {self.line + 1}: {getattr(fault, 'strerror', None) or fault}") from None


def change(one, other):
    """By how much a number differs from another, signed; nothing if one of them is no number."""
    try:
        return f"{Decimal(other) - Decimal(one):+f}"
    except InvalidOperation:
        return ""


def pairs(one, other, names):
    """Each row of two texts with its match, by key: what the first has, and what the second has, or None. Rows wait for their match, so if both
    texts have one order none is held."""
    waiting = {}, {}

    def matched(side, key, fields):
        """The row that waits for this one, or None: then this one waits."""
        found = waiting[1 - side].get(key)
        if not found:
            waiting[side].setdefault(key, []).append(fields)
            return None
        if len(found) == 1:
            del waiting[1 - side][key]
        return found.pop(0)

    for first, second in itertools.zip_longest(one.read(names), other.read(names)):
        if first == second and not waiting[0] and not waiting[1]:
            continue
        if first:
            found = matched(0, *first)
            if found is not None:
                yield first[0], first[1], found
        if second:
            found = matched(1, *second)
            if found is not None:
                yield second[0], found, second[1]
    for key, held in waiting[0].items():
        yield from ((key, fields, None) for fields in held)
    for key, held in waiting[1].items():
        yield from ((key, None, fields) for fields in held)


def compare(one, other, names, writer):
    """Writes each difference, and returns how many there are by column."""
    counts = collections.Counter()
    for key, a, b in pairs(one, other, names):
        if a == b:
            continue
        shown = (key.split(BETWEEN) + [""])[:3]
        if a is None or b is None:
            where = "only in a" if b is None else "only in b"
            counts[where] += 1
            writer.writerow([*shown, where, "", "", ""])
            continue
        for name, before, after in zip(names, a.split(BETWEEN), b.split(BETWEEN)):
            if before != after:
                counts[name] += 1
                writer.writerow([*shown, name, before, after, change(before, after)])
    return counts


def compared_columns(one, other, with_places):
    """The columns that are compared, in the order of the first text. A column that only one of them has is named."""
    if one.kind != other.kind:
        raise Fault(f"{one.path} is of another kind than {other.path}: {one.kind.name}, {other.kind.name}")
    for text, rest in ((one, other), (other, one)):
        lacking = [name for name in text.head if name not in rest.head]
        if lacking:
            print(f"diff.py: not compared, since only {text.path} has them: {', '.join(lacking)}", file=sys.stderr)
    left_out = (*one.kind.key, *(() if with_places else one.kind.places))
    return [name for name in one.head if name in other.head and name not in left_out]


def main():
    parser = argparse.ArgumentParser(description=__doc__, formatter_class=argparse.RawDescriptionHelpFormatter)
    parser.add_argument("--places", action="store_true", help="compare tape numbers and row numbers too")
    parser.add_argument("a")
    parser.add_argument("b")
    words = parser.parse_args()
    # Rows that wait are many and make no cycles, which a collection would look for again and again.
    gc.disable()
    try:
        one, other = Text(words.a), Text(words.b)
        names = compared_columns(one, other, words.places)
        with tempfile.TemporaryFile("w+", encoding="utf-8", newline="") as held:
            writer = csv.writer(held, lineterminator="\n")
            writer.writerow(COLUMNS)
            counts = compare(one, other, names, writer)
            held.seek(0)
            shutil.copyfileobj(held, sys.stdout)
        sys.stdout.flush()
    except Fault as fault:
        print(f"diff.py: {fault}", file=sys.stderr)
        return 2
    except BrokenPipeError:
        sys.stderr.close()
        return 2
    except OSError as fault:
        print(f"diff.py: standard output: {fault.strerror}", file=sys.stderr)
        sys.stdout = None
        return 2
    for name, count in counts.items():
        print(f"diff.py: {name}: {count} difference{'s' * (count > 1)}", file=sys.stderr)
    print(f"diff.py: {'no difference' if not counts else f'{counts.total()} in all'}", file=sys.stderr)
    return 1 if counts else 0


if __name__ == "__main__":
    sys.exit(main())
