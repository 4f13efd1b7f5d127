#!/usr/bin/env python3
"""A vendor's files as a table: import.py [--strict] [--keys KEYS.csv] MAPPING.toml FILE.. > day.csv

MAPPING says what each column of the files becomes; docs/IMPORT.md has its keys, and samples/mappings has four. The files are one day in their
order, plain or compressed by gzip or zstd, and each is read twice if the mapping knows cancels or corrections.

Each row becomes a report, a cancel or a correction, or is left out and counted by the reason. The table's columns `#file` (if there are several)
and `#row` say where a message stands; KEYS has that for each message by participant and number, with the vendor's own id. Standard error says
how many rows of each kind came and how many messages of each kind were written, what was left out, and what to run next.

Statuses: 0 if the table is written; 2 for a bad mapping or file, which is named with the row, the column, the text and the rule, for other
arguments, and with --strict if a row was left out; 1 if a file can't be read or written. Only status 0 writes on standard output.
"""

import argparse
import collections
import contextlib
import csv
import datetime
import gzip
import io
import operator
import re
import shutil
import subprocess
import sys
import tempfile
import tomllib
import zlib
import zoneinfo
from typing import NamedTuple

COLUMNS = ["#row", "kind", "participant", "number", "moment", "symbol", "target", "price", "size", "condition"]
KEY_COLUMNS = ["participant", "number", "file", "row", "id"]
GZIP, ZSTD = b"\x1f\x8b", b"\x28\xb5\x2f\xfd"
KINDS = ("report", "cancel", "correct")
NAMES = {"report": ("report", "reports"), "cancel": ("cancel", "cancels"), "correct": ("correction", "corrections")}
# The codes of each position of a sale condition, by either matrix; `_` for a blank.
CODES = ("@CNR", "_FO56479", "_LZTU", "_ABDSXY1HIVWPGMQ23")
SYMBOL = re.compile("[A-Z0-9.]{1,8}")
PRICE = re.compile(r"([0-9]{0,20})(?:\.([0-9]*))?")
TIME = re.compile(r"(?:([0-9]{4})-([0-9]{2})-([0-9]{2})[T ])?([0-9]{2}):?([0-9]{2}):?([0-9]{2})(Z|[+-][0-9]{2}:?[0-9]{2})?")
SIZE_MOST = 99_999_999
DIGITS = "0123456789"
SECOND, DAY = 10**9, 86_400 * 10**9
UNITS = {"seconds": SECOND, "milliseconds": 10**6, "microseconds": 1_000, "nanoseconds": 1}
# How long an offset from UTC holds at least.
QUARTER = 900 * SECOND
# How much of a bad field is shown.
SHOWN = 40
# The types of the values in a mapping, in words.
COLUMN, TYPES = (str, int), {str: "a text", bool: "true or false", int: "a number", list: "a list", dict: "a table", (str, int): "a column"}
# The keys of each part of a mapping, with the types of their values.
PARTS = {
    "file": {"separator": str, "quotes": bool, "header": bool, "end": str},
    "symbol": {"column": COLUMN, "constant": str, "values": dict, "join": str},
    "participant": {"column": COLUMN, "constant": str, "values": dict},
    "kind": {"column": COLUMN, "report": list, "cancel": list, "correct": list, "changed_later": list, "cancelled_later": list, "latest_in_report": bool},
    "id": {"columns": list},
    "target": {"columns": list},
    "number": {"column": COLUMN},
    "moment": {"column": COLUMN, "unit": str, "zone": str},
    "price": {"column": COLUMN, "decimals": int},
    "size": {"column": COLUMN},
    "condition": {"column": COLUMN, "constant": str, "form": str, "separator": str, "codes": dict, "blanks": str, "leave_out_unknown": bool},
    "leave_out": None,
}


class Fault(Exception):
    """Says what is wrong with the mapping or a file."""


class LeftOut(Exception):
    """Says why a row is left out."""


def shown(text):
    """A field as a fault shows it."""
    return f'"{text[:SHOWN]}"' + ".." * (len(text) > SHOWN)


class Known(dict):
    """What a field becomes, each text read once."""

    def __init__(self, read):
        super().__init__()
        self.read = read

    def __missing__(self, text):
        self[text] = self.read(text)
        return self[text]


class Mapping:
    """A mapping, by its parts. A missing part is empty."""

    def __init__(self, path):
        try:
            with open(path, "rb") as file:
                self.parts = tomllib.load(file)
        except OSError as fault:
            raise Fault(f"{path}: {fault.strerror}") from None
        except tomllib.TOMLDecodeError as fault:
            raise Fault(f"{path}: {fault}") from None
        for part, keys in self.parts.items():
            if part not in PARTS or not isinstance(keys, dict):
                raise Fault(f"{path}: {part} is no part of a mapping")
            types = PARTS[part] or dict.fromkeys(keys, list)
            for key, value in keys.items():
                if key not in types:
                    raise Fault(f"{path}: {part}: {key} is no key of it")
                if not isinstance(value, types[key]) or (isinstance(value, bool) and types[key] is not bool):
                    raise Fault(f"{path}: {part}: {key} is not {TYPES[types[key]]}")
                within = value.values() if types[key] is dict else value if types[key] is list else ()
                if not all(isinstance(one, str if types[key] is dict else COLUMN) for one in within):
                    raise Fault(f"{path}: {part}: {key} has a value that is no text")
        for part, keys in [("symbol", ["column", "constant"]), ("participant", ["column", "constant"]), ("price", ["column"]), ("size", ["column"])]:
            if not any(key in self.part(part) for key in keys):
                raise Fault(f"{path}: {part}: {' or '.join(keys)} is missing")
        if len(self.part("file").get("separator", ",")) != 1:
            raise Fault(f"{path}: file: separator is not one character")
        kinds = self.part("kind")
        self.has_changes = any(kinds.get(kind) for kind in KINDS[1:])
        if self.has_changes and not self.part("id"):
            raise Fault(f"{path}: id: columns is missing, and cancels and corrections need it")

    def part(self, name):
        """The keys of a part."""
        return self.parts.get(name, {})


def symbol_reader(part):
    """What reads a symbol."""
    values, join = part.get("values", {}), part.get("join")

    def read(text):
        name = values.get(text, text)
        name = join.join(name.split()) if join is not None else name.strip()
        return name if SYMBOL.fullmatch(name) else LeftOut("the symbol is not 1 to 8 of A to Z, 0 to 9 and .")

    return read


def participant_reader(part):
    """What reads a participant."""
    values = part.get("values")

    def read(text):
        letter = text.strip() if values is None else values.get(text.strip(), "")
        if re.fullmatch("[A-Z]", letter):
            return letter
        return LeftOut(f"participant {shown(text)} is " + ("not A to Z" if values is None else "not in the mapping"))

    return read


def price_reader(part):
    """What reads a price: dollars, or integers of so many decimals."""
    decimals = part.get("decimals", 0)

    def read(text):
        found = PRICE.fullmatch(text.strip())
        if not found or not (found[1] or found[2]) or (decimals and found[2]):
            raise Fault(f"{shown(text)} is not " + ("a whole number" if decimals else "a price in dollars"))
        whole, part_of_one = found[1], found[2] or ""
        if decimals:
            whole = whole.rjust(decimals + 1, "0")
            whole, part_of_one = whole[:-decimals], whole[-decimals:]
        whole, part_of_one = whole.lstrip("0") or "0", part_of_one.rstrip("0")
        if (whole == "0" and not part_of_one) or len(whole) > 8 or len(part_of_one) > 4:
            return LeftOut("the price is not 0.0001 to 99999999.9999 with at most four decimals")
        return f"{whole}.{part_of_one.ljust(4 if len(part_of_one) > 2 else 2, '0')}"

    return read


def read_size(text):
    """A size in shares."""
    if not re.fullmatch("[0-9]{1,20}", text.strip()):
        raise Fault(f"{shown(text)} is not a number of shares")
    return str(int(text)) if 1 <= int(text) <= SIZE_MOST else LeftOut(f"the size is not 1 to {SIZE_MOST}")


def condition_reader(part):
    """What reads a sale condition: a sign for each position, or codes of the vendor's own between separators."""
    blanks, codes, strict = part.get("blanks", "@___"), part.get("codes", {}), part.get("leave_out_unknown", True)
    if len(blanks) != len(CODES) or any(sign not in CODES[place] for place, sign in enumerate(blanks)):
        raise Fault(f"condition: blanks: {shown(blanks)} is not four codes")
    for place_and_code in codes.values():
        if place_and_code and (len(place_and_code) != 2 or place_and_code[0] not in "1234" or place_and_code[1] not in CODES[int(place_and_code[0]) - 1]):
            raise Fault(f"condition: codes: {shown(place_and_code)} is not a position and a code of it")

    def put(found, place, code):
        if found[place] not in (blanks[place], code):
            raise LeftOut(f"two codes in position {place + 1}")
        found[place] = code

    def positions(text):
        found = list(blanks)
        for place, sign in enumerate(text.ljust(len(CODES))):
            name = f"{place + 1}{sign}"
            if place >= len(CODES):
                raise Fault(f"{shown(text)} is not up to four codes")
            if name in codes:
                found[place] = codes[name][1:] or blanks[place]
            elif sign in CODES[place] and sign != "_":
                found[place] = sign
            elif sign != " " and strict:
                raise LeftOut(f"code {sign!a} in position {place + 1} is in no matrix")
        return "".join(found)

    def listed(text):
        found = list(blanks)
        for name in filter(None, re.split(rf"[{re.escape(part.get('separator', ','))}\s]+", text)):
            if name in codes:
                if codes[name]:
                    put(found, int(codes[name][0]) - 1, codes[name][1])
            elif strict:
                raise LeftOut(f"condition {shown(name)} is not in the mapping")
        return "".join(found)

    read = {"positions": positions, "codes": listed}.get(part.get("form", "positions"))
    if not read:
        raise Fault('condition: form is not "positions" or "codes"')

    def read_or_leave_out(text):
        try:
            return read(text)
        except LeftOut as why:
            return why

    return read_or_leave_out


def moment_reader(part):
    """What reads a time: nanoseconds since midnight, or for a time with a date and without a zone since 1970."""
    try:
        zone = zoneinfo.ZoneInfo(part["zone"]) if "zone" in part else None
    except (zoneinfo.ZoneInfoNotFoundError, ValueError, OSError):
        raise Fault(f"moment: zone {shown(part['zone'])} is not known") from None
    unit = UNITS.get(part.get("unit", "nanoseconds"))
    if not unit:
        raise Fault(f"moment: unit is not one of {', '.join(UNITS)}")

    def midnight(quarter):
        there = datetime.datetime.fromtimestamp(quarter * QUARTER // SECOND, zone)
        return quarter * QUARTER - ((there.hour * 60 + there.minute) * 60 + there.second) * SECOND

    midnights = Known(midnight)
    dates = Known(lambda date: (datetime.date(*date) - datetime.date(1970, 1, 1)).days * DAY)

    def of_epoch(moment):
        return moment - midnights[moment // QUARTER] if zone else moment

    def second(text):
        found = TIME.fullmatch(text)
        if not found or found[4] > "23" or found[5] > "59" or found[6] > "59":
            return Fault("is not a time")
        time = ((int(found[4]) * 60 + int(found[5])) * 60 + int(found[6])) * SECOND
        if not found[1] or (zone and not found[7]):
            return time
        try:
            time += dates[int(found[1]), int(found[2]), int(found[3])]
        except ValueError:
            return Fault("is not a date")
        if found[7] and found[7] != "Z":
            hours, minutes = int(found[7][1:3]), int(found[7][-2:])
            time -= (hours * 60 + minutes) * 60 * SECOND * (-1 if found[7][0] == "-" else 1)
        return of_epoch(time)

    seconds = Known(second)

    def read(text):
        if text.isascii() and text.isdigit():
            if "unit" in part:
                return of_epoch(int(text) * unit)
            front, behind, dot = text[:6], text[6:], ""
        else:
            front, dot, behind = text.strip().partition(".")
        offset = behind.lstrip(DIGITS)
        decimals = behind[: len(behind) - len(offset)]
        moment = seconds[front + offset]
        if type(moment) is Fault or len(decimals) > 9 or (dot and not decimals):
            raise Fault(f"{shown(text)} {moment if type(moment) is Fault else 'is not a time'}")
        return moment + int(decimals.ljust(9, "0"))

    return read


class Places(NamedTuple):
    """Where the columns are that a mapping names, or None for a part without one."""

    symbol: int
    participant: int
    kind: int
    number: int
    moment: int
    price: int
    size: int
    condition: int
    id: list
    target: list


class Row(NamedTuple):
    """A row that is a message, if nothing of it is to be left out: why then is empty."""

    number: int
    kind: str
    value: str
    participant: str
    symbol: str
    moment: int
    key: tuple
    target: tuple
    vendor_number: str
    content: tuple
    why: str


class File:
    """A file of a vendor's, by a mapping."""

    def __init__(self, path, mapping):
        self.path, self.mapping = path, mapping
        part = mapping.part("file")
        self.separator, self.quotes, self.has_header, self.end = part.get("separator", ","), part.get("quotes", True), part.get("header", True), part.get("end")

    @contextlib.contextmanager
    def text(self):
        """The file's text. A compressed file that is damaged or cut off is a fault at its end."""
        with open(self.path, "rb") as file:
            front = file.read(len(ZSTD))
        if front == ZSTD:
            with subprocess.Popen(["zstd", "-dcq", self.path], stdout=subprocess.PIPE, stderr=subprocess.PIPE) as unpacked:
                text = io.TextIOWrapper(unpacked.stdout, encoding="utf-8-sig", newline="")
                yield text
                collections.deque(text, maxlen=0)
                said = unpacked.stderr.read()
            if unpacked.returncode:
                raise Fault(f"{self.path}: {said.decode(errors='replace').strip() or 'zstd failed'}")
            return
        with (gzip.open if front.startswith(GZIP) else open)(self.path, "rt", encoding="utf-8-sig", newline="") as text:
            yield text

    def records(self):
        """The fields of each row that is not blank, with the number of the row."""
        number = 0
        try:
            with self.text() as text:
                quoting = csv.QUOTE_MINIMAL if self.quotes else csv.QUOTE_NONE
                records = csv.reader(text, delimiter=self.separator, quoting=quoting, strict=True)
                for number, fields in enumerate(filter(None, records), 1):
                    if self.end is not None and fields[0] == self.end:
                        return
                    yield number, fields
        except FileNotFoundError as fault:
            raise Fault(f"{fault.filename}: {fault.strerror}") from None
        except (OSError, EOFError, zlib.error) as fault:
            raise Fault(f"{self.path}: {getattr(fault, 'strerror', None) or fault}") from None
        except (UnicodeDecodeError, csv.Error) as fault:
            raise Fault(f"{self.path}: row {number + 1}: {fault}") from None

    def columns(self):
        """The header row's names by their places, or numbers from 1 if there is none; and the rows."""
        records = self.records()
        number, first = next(records, (0, []))
        if self.has_header:
            return {name.strip(): place for place, name in enumerate(first)}, len(first), records
        names = {str(place + 1): place for place in range(len(first))}
        return names, len(first), iter([(number, first), *records]) if first else records


class Reader:
    """What reads rows as messages by a mapping."""

    def __init__(self, mapping):
        self.mapping = mapping
        self.symbols, self.participants = Known(symbol_reader(mapping.part("symbol"))), Known(participant_reader(mapping.part("participant")))
        self.prices, self.sizes = Known(price_reader(mapping.part("price"))), Known(read_size)
        self.conditions, self.moment = Known(condition_reader(mapping.part("condition"))), moment_reader(mapping.part("moment"))
        kinds = mapping.part("kind")
        self.kinds = {str(value): kind for kind in KINDS for value in kinds.get(kind, [])}
        self.constants = {name: mapping.part(name).get("constant", "") for name in ("symbol", "participant", "condition")}

    def rows(self, file, changes_alone=False):
        """Each row of a file, or each that changes a trade."""
        names, width, records = file.columns()
        part = self.mapping.part
        one = lambda name: self.place(file, names, part(name).get("column"))
        several = lambda name: [self.place(file, names, column) for column in part(name).get("columns", [])]
        at = Places(*map(one, Places._fields[:-2]), several("id"), several("target") or several("id"))
        left_out = [(self.place(file, names, column), column, set(map(str, values))) for column, values in part("leave_out").items()]
        for number, fields in records:
            if len(fields) != width:
                raise Fault(f"{file.path}: row {number}: {len(fields)} field{'s' * (len(fields) > 1)}, and the first row has {width}")
            if changes_alone and self.kinds.get(fields[at.kind], "report") == "report":
                continue
            yield self.row(file, number, fields, at, left_out)

    def place(self, file, names, column):
        """Where a column is, or None if the mapping names none."""
        if column is None:
            return None
        if str(column) not in names:
            raise Fault(f"{file.path}: the column {column} of the mapping is missing")
        return names[str(column)]

    def row(self, file, number, fields, at, left_out):
        """A row by its fields."""
        for place, column, values in left_out:
            if fields[place] in values:
                return Row(number, "", "", "", "", 0, (), (), "", (), f"{column} is {shown(fields[place])}")
        value = fields[at.kind] if at.kind is not None else ""
        kind = self.kinds.get(value, "") if at.kind is not None else "report"
        if not kind:
            return Row(number, "", value, "", "", 0, (), (), "", (), f"kind {shown(value)} is not in the mapping")
        part = "symbol"
        try:
            symbol = self.symbols[fields[at.symbol] if at.symbol is not None else self.constants[part]]
            part = "participant"
            participant = self.participants[fields[at.participant] if at.participant is not None else self.constants[part]]
            part = "moment"
            moment = self.moment(fields[at.moment]) if at.moment is not None else 0
            content = ()
            if kind != "cancel":
                part = "price"
                price = self.prices[fields[at.price]]
                part = "size"
                size = self.sizes[fields[at.size]]
                part = "condition"
                content = price, size, self.conditions[fields[at.condition] if at.condition is not None else self.constants[part]]
        except Fault as fault:
            raise Fault(f"{file.path}: row {number}: column {self.mapping.part(part).get('column')}: {fault}") from None
        why = ""
        for said in (symbol, participant, *content):
            if type(said) is not str:
                why = str(said)
                break
        key = target = ()
        if at.id:
            # A trade without a text in the last of the columns has no id.
            key = tuple([fields[place].strip() for place in at.id]) if fields[at.id[-1]].strip() else ()
            target = key
            if kind != "report":
                target = tuple([fields[place].strip() for place in at.target]) if fields[at.target[-1]].strip() else ()
        return Row(number, kind, value, participant, symbol, moment, key, target, fields[at.number].strip() if at.number is not None else "", content, why)


class Trade:
    """A trade that later rows change: what they say of it one after the other, and whether one cancels it. Once its report was reached, its number,
    0 if that is left out; and how many of its corrections were reached."""

    def __init__(self):
        self.contents, self.is_cancelled, self.number, self.reached, self.has_ended, self.why = [], False, None, 0, False, ""


class Table:
    """A table that is written row by row, and what is counted of it."""

    def __init__(self, mapping, file, keys, shows_file):
        kinds = mapping.part("kind")
        self.mapping, self.shows_file = mapping, shows_file
        self.changed_later = set(kinds["changed_later"]) if "changed_later" in kinds else None
        self.cancelled_later, self.latest_in_report = set(kinds.get("cancelled_later", [])), kinds.get("latest_in_report", False)
        self.takes_numbers = "number" in mapping.parts
        self.trades, self.numbers = {}, collections.Counter()
        self.came, self.written, self.left_out = collections.Counter(), collections.Counter(), {}
        self.out, self.keys = csv.writer(file, lineterminator="\n"), keys and csv.writer(keys, lineterminator="\n")
        self.out.writerow(["#file"] * shows_file + COLUMNS)
        if keys:
            self.keys.writerow(KEY_COLUMNS)

    def look(self, row):
        """Notes a change before its report is reached."""
        if row.kind in KINDS[1:] and row.target:
            trade = self.trades.setdefault(row.target, Trade())
            if not trade.is_cancelled:
                trade.is_cancelled = row.kind == "cancel"
                if row.kind == "correct":
                    trade.contents.append(row.content)
                    trade.why = trade.why or row.why

    def put(self, path, row):
        """Writes the message of a row, or counts why it is left out."""
        self.came[row.kind] += 1
        try:
            if row.why and row.kind in ("", "report"):
                raise LeftOut(row.why)
            (self.report if row.kind == "report" else self.change)(path, row)
        except LeftOut as why:
            if row.kind == "report" and row.key in self.trades and self.can_change(row):
                self.trades[row.key].number = 0
            count, first = self.left_out.get(str(why), (0, (path, row.number)))
            self.left_out[str(why)] = count + 1, first

    def can_change(self, row):
        """Whether later rows may change a report, by its kind."""
        return self.changed_later is None or row.value in self.changed_later

    def report(self, path, row):
        """Writes a report."""
        trade = self.trades.get(row.key) if row.key and self.can_change(row) else None
        if trade and trade.number is not None:
            column = self.mapping.part("id")["columns"][-1]
            raise Fault(f"{path}: row {row.number}: column {column}: {shown(' '.join(row.key))} is the id of a report above it, and later rows change it")
        if row.value in self.cancelled_later and not (trade and trade.is_cancelled):
            raise LeftOut("it says that it was cancelled, and no row below cancels it")
        content = row.content
        if trade:
            if trade.why:
                raise LeftOut(trade.why)
            trade.contents = [*trade.contents, content] if self.latest_in_report else [content, *trade.contents]
            content = trade.contents[0]
        number = self.write(path, row, "", content)
        if trade:
            trade.number = number

    def change(self, path, row):
        """Writes a correction or a cancel."""
        trade = self.trades.get(row.target)
        if trade is None or trade.number is None:
            raise LeftOut("no report above it is its trade")
        if not trade.number or trade.has_ended:
            raise LeftOut(f"its trade was {'cancelled' if trade.number else 'left out'}")
        if row.why:
            raise LeftOut(row.why)
        if row.kind == "cancel":
            trade.has_ended = True
            self.write(path, row, trade.number, ("", "", ""))
        else:
            trade.reached += 1
            self.write(path, row, trade.number, trade.contents[trade.reached])

    def write(self, path, row, target, content):
        """Writes a row of the table, and returns its number."""
        who = row.participant
        if self.takes_numbers:
            if not re.fullmatch("[0-9]{1,10}", row.vendor_number) or not self.numbers[who] < int(row.vendor_number) < 2**32:
                column = self.mapping.part("number")["column"]
                raise Fault(f"{path}: row {row.number}: column {column}: {shown(row.vendor_number)} is not above {self.numbers[who]}, the last of {who}")
            self.numbers[who] = int(row.vendor_number)
        else:
            self.numbers[who] += 1
        number = self.numbers[who]
        fields = row.number, row.kind, who, number, row.moment, row.symbol, target, *content
        self.out.writerow((path, *fields) if self.shows_file else fields)
        self.written[row.kind] += 1
        if self.keys:
            self.keys.writerow([who, number, path, row.number, " ".join(row.key)])
        return number

    def say(self, table):
        """Says on standard error what came and what was written."""
        counted = lambda counts: ", ".join(f"{counts[kind]} {NAMES[kind][counts[kind] != 1]}" for kind in KINDS)
        lines = [f"{self.came.total()} rows in: {counted(self.came)}", f"{self.written.total()} messages out: {counted(self.written)}"]
        for why, (count, (path, row)) in self.left_out.items():
            lines.append(f"{count} row{'s' * (count > 1)} left out: {why}, first at {f'{path}, ' * self.shows_file}row {row}")
        if table:
            lines.append("next: tapebox check TABLE, then tapebox report TABLE")
        for line in lines:
            print(f"import.py: {line}", file=sys.stderr)


def fill(table, reader, files):
    """Reads the files, and writes the table."""
    if table.mapping.has_changes:
        for file in files:
            for row in reader.rows(file, changes_alone=True):
                table.look(row)
    for file in files:
        for row in reader.rows(file):
            table.put(file.path, row)


def main():
    parser = argparse.ArgumentParser(description=__doc__, formatter_class=argparse.RawDescriptionHelpFormatter)
    parser.add_argument("--strict", action="store_true", help="write nothing and end with 2 if a row is left out")
    parser.add_argument("--keys", metavar="KEYS.csv", help="write where each message stands, and the vendor's id")
    parser.add_argument("mapping")
    parser.add_argument("file", nargs="+")
    words = parser.parse_args()
    try:
        mapping = Mapping(words.mapping)
        reader, files = Reader(mapping), [File(path, mapping) for path in words.file]
        with tempfile.TemporaryFile("w+", encoding="ascii", newline="") as held, tempfile.TemporaryFile("w+", encoding="utf-8", newline="") as keys:
            table = Table(mapping, held, words.keys and keys, len(files) > 1)
            fill(table, reader, files)
            is_whole = not (words.strict and table.left_out)
            table.say(is_whole)
            if not is_whole:
                return 2
            if words.keys:
                keys.seek(0)
                with open(words.keys, "w", encoding="utf-8", newline="") as file:
                    shutil.copyfileobj(keys, file)
            held.seek(0)
            shutil.copyfileobj(held, sys.stdout)
            sys.stdout.flush()
    except Fault as fault:
        print(f"import.py: {fault}", file=sys.stderr)
        return 2
    except OSError as fault:
        print(f"import.py: {fault.filename or 'standard output'}: {fault.strerror}", file=sys.stderr)
        return 1
    return 0


if __name__ == "__main__":
    sys.exit(main())
