#!/usr/bin/env python3
"""A day's file, as `tapebox live DAY.toml` reads it: docs/FORMATS.md, "A day's file".

    day_file.py DAY.toml        prints the words by which tshark and Wireshark know the day's ports

As a module:

    day = day_file.read("samples/day.toml")     # a Day, or a Fault with the program's own text

The file of the symbols is read too. A fault of syntax has a line and a column here as well, but other words, since tomllib says what is
wrong. tomllib reads TOML 1.0, and a number beyond 64 bits, which is a fault of syntax for the program, is out of range here.

Statuses: 0 if the words were printed; 1 if the file can't be read, or at its first fault; 2 if the words are others.
"""

import argparse
import dataclasses
import errno
import os
import sys
import tomllib
from pathlib import Path

SYMBOL_BYTES = frozenset("ABCDEFGHIJKLMNOPQRSTUVWXYZ0123456789.")
LETTERS = frozenset("ABCDEFGHIJKLMNOPQRSTUVWXYZ")
SYMBOLS_MOST = 4_096
PARTICIPANTS_MOST = 26
PORTS = 65_536
# The numbers of a key, and how they are told.
RANGES = {
    "followers": (0, 65_535),
    "session": (0, 2**63 - 1),
    "matrix": (1, 2),
    "limit": (1, 16_777_216),
    "connect_within": (1, 86_400),
    "followers_wait": (0, 86_400),
}
PORT = (1, 65_535)
SYMBOL_TEXT = "1 to 8 of A to Z, 0 to 9 and ."
LETTER_TEXT = "one letter A to Z"
CONTROL_TEXT = "1 to 65535 or a path"
JOURNAL_TEXT = "a path"


class Fault(Exception):
    """Why a text is no day's file."""


@dataclasses.dataclass(frozen=True)
class Day:
    """What a day's file says, in the order of its keys. `symbols` are names, also if they stand in a file of their own, `control` is a
    port, or a path from the current folder, and so is `journal`."""

    symbols: list[str]
    participants: list[str]
    port: int
    a: list[int]
    b: list[int]
    retransmission: int
    followers: int
    session: int
    matrix: int = 1
    limit: int = 1_048_576
    connect_within: int | None = None
    followers_wait: int | None = None
    control: int | str | None = None
    journal: str | None = None
    journal_sync: bool = True

    def preferences(self):
        """The ports, as the preferences of tools/tapebox.lua have them."""
        return {
            "tapebox.feed.a_ports": ",".join(map(str, self.a)),
            "tapebox.feed.b_ports": ",".join(map(str, self.b)),
            "tapebox.retransmission.ports": str(self.retransmission),
            "tapebox.line.ports": f"{self.port}-{self.port + len(self.participants) - 1}",
        }


KEYS = [field.name for field in dataclasses.fields(Day)]
REQUIRED = {field.name for field in dataclasses.fields(Day) if field.default is dataclasses.MISSING}


def kind(value):
    """The kind of a value, with an article."""
    # A bool is an int too, so it comes first.
    kinds = {bool: "a boolean", str: "a string", int: "a number", float: "a fraction", list: "a list", dict: "a table"}
    return next((name for of, name in kinds.items() if isinstance(value, of)), "a date")


def of_kind(place, value, wanted):
    """The value, if it is of the wanted kind."""
    if kind(value) != wanted:
        raise Fault(f"{place}: {kind(value)}, not {wanted}")
    return value


def number(key, place, value):
    """A number within the range of a key."""
    least, most = RANGES.get(key, PORT)
    if not least <= of_kind(place, value, "a number") <= most:
        raise Fault(f"{place}: not {'1 or 2' if key == 'matrix' else f'{least} to {most}'}")
    return value


def symbol(place, name):
    """A symbol's name."""
    if not (1 <= len(name) <= 8 and SYMBOL_BYTES.issuperset(name)):
        raise Fault(f"{place}: not {SYMBOL_TEXT}")
    return name


def letter(place, name):
    """A participant's letter."""
    if not (len(name) == 1 and name in LETTERS):
        raise Fault(f"{place}: not {LETTER_TEXT}")
    return name


def entries(key, value, entry):
    """The list at a key, which has one entry or more."""
    if not of_kind(key, value, "a list"):
        raise Fault(f"{key}: empty")
    return [entry(f"{key}, entry {place}", item) for place, item in enumerate(value, 1)]


def listed_symbols(value):
    """The symbols at their key, or the name of their file."""
    if isinstance(value, str):
        return value
    if not isinstance(value, list):
        raise Fault(f"symbols: {kind(value)}, not a list or a file's name")
    return entries("symbols", value, lambda place, item: symbol(place, of_kind(place, item, "a string")))


def control(value):
    """Where the control socket is: a port, or a path."""
    if kind(value) not in ("a string", "a number"):
        raise Fault(f"control: {kind(value)}, not a number or a path")
    if value == "" or isinstance(value, int) and not PORT[0] <= value <= PORT[1]:
        raise Fault(f"control: not {CONTROL_TEXT}")
    return value


def journal(value):
    """The path of the journal."""
    if kind(value) != "a string":
        raise Fault(f"journal: {kind(value)}, not {JOURNAL_TEXT}")
    if not value:
        raise Fault(f"journal: not {JOURNAL_TEXT}")
    return value


def value_of(key, value):
    """The value at a key of a day."""
    if key == "control":
        return control(value)
    if key == "journal":
        return journal(value)
    if key == "journal_sync":
        return of_kind(key, value, "a boolean")
    if key == "symbols":
        return listed_symbols(value)
    if key == "participants":
        return entries(key, value, lambda place, item: letter(place, of_kind(place, item, "a string")))
    if key in ("a", "b"):
        return entries(key, value, lambda place, item: number(key, place, item))
    return number(key, key, value)


def table_of(text):
    """The table of a text."""
    try:
        table = tomllib.loads(text.decode().removeprefix("\ufeff"))
    except (UnicodeDecodeError, tomllib.TOMLDecodeError) as fault:
        raise Fault(str(fault)) from None
    for key in sorted(table, key=str.encode):
        if key not in KEYS:
            raise Fault(f'unknown key "{key}"')
    return table


def values_of(table):
    """The values of a table of known keys, by their keys."""
    values = {}
    for key in KEYS:
        if key in table:
            values[key] = value_of(key, table[key])
        elif key in REQUIRED:
            raise Fault(f"{key}: missing")
    if len(values["b"]) != len(values["a"]):
        raise Fault("b: not as many ports as a")
    if len({*values["a"], *values["b"]}) < len(values["a"] + values["b"]):
        raise Fault("a and b: a port stands twice")
    if values["port"] + len(values["participants"]) > PORTS:
        raise Fault("port: the last participant's is past 65535")
    return values


def file_symbols(text):
    """The symbols of a file, one a line. The last line may lack its line feed."""
    lines = text.decode("latin-1").removesuffix("\n").split("\n") if text else []
    return [symbol(f"symbols, line {place}", line) for place, line in enumerate(lines, 1)]


def judge_names(symbols, participants):
    """Judges that these make a listing."""
    if not symbols or not participants:
        raise Fault("no symbol or no participant")
    if len(symbols) > SYMBOLS_MOST or len(participants) > PARTICIPANTS_MOST:
        raise Fault(f"more than {SYMBOLS_MOST} symbols or {PARTICIPANTS_MOST} participants")
    if len(set(symbols)) < len(symbols) or len(set(participants)) < len(participants):
        raise Fault("a symbol or a participant stands twice")


def symbols_text(path):
    """The bytes of a file of symbols. No file has a name with a zero byte."""
    try:
        return path.read_bytes()
    except ValueError:
        raise FileNotFoundError(errno.ENOENT, os.strerror(errno.ENOENT), str(path)) from None


def read(path):
    """The day of a file, or a Fault. A file that can't be read is an OSError, the symbols' file too."""
    path = Path(path)
    values = values_of(table_of(path.read_bytes()))
    if isinstance(values["symbols"], str):
        values["symbols"] = file_symbols(symbols_text(path.parent / values["symbols"]))
    judge_names(values["symbols"], values["participants"])
    for key in ("control", "journal"):
        if isinstance(values.get(key), str):
            values[key] = str(path.parent / values[key])
    return Day(**values)


def read_or_exit(path):
    """The day of a file. A program that takes one ends at its first fault, and says which."""
    name = Path(sys.argv[0]).name
    try:
        return read(path)
    except Fault as fault:
        sys.exit(f"{name}: {path}: {fault}")
    except OSError as fault:
        sys.exit(f"{name}: {fault.filename}: {fault.strerror}")


def main():
    parser = argparse.ArgumentParser(description=__doc__, formatter_class=argparse.RawDescriptionHelpFormatter)
    parser.add_argument("day", metavar="DAY.toml")
    preferences = read_or_exit(parser.parse_args().day).preferences()
    print(*(f"-o {name}:{ports}" for name, ports in preferences.items()))


if __name__ == "__main__":
    main()
