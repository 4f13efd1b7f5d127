"""Tables of messages (docs/FORMATS.md, "A table"), and entries as rows."""

import csv
import os
import re
from collections.abc import Iterator
from dataclasses import dataclass
from decimal import Decimal

from .records import Entry, Message
from .refusals import Refused

KINDS = {"R": "report", "X": "cancel", "C": "correct", "S": "reinstate"}
LETTERS = {word: letter for letter, word in KINDS.items()} | {letter: letter for letter in KINDS}
# The columns of a table, with what stands for one that is missing.
DEFAULTS = {"kind": "report", "moment": "0", "target": ""}
FIELDS = ("kind", "participant", "number", "moment", "symbol", "target", "price", "size", "condition")
# The columns of a frame of entries: prices are `Decimal`. The last six are the summary that the entry carries; a report carries none.
COLUMNS = ("tape", *FIELDS, "open", "high", "low", "last", "volume", "trades")
# The columns of whole numbers, and those of them that need 64 bits without a sign.
WHOLE, WIDE = ("tape", "number", "target", "size", "trades"), ("moment", "volume")
# The columns that are empty in a row of a kind with a content.
EMPTY: dict[str, tuple[str, ...]] = {"R": ("target",), "C": ()}
# Each column whose field is at fault when a message is refused for it.
AT_FAULT = {13: "kind", 15: "participant", 16: "number", 17: "symbol", 18: "target", 19: "price", 20: "size", 21: "condition"}
# The row of the columns' names counts as the first.
FIRST_ROW = 2


class BadTable(ValueError):
    """A file is no table of messages. `row` is the row at fault, counted with the header row as the first, and `column` its column or None."""

    def __init__(self, row: int, column: str | None, why: str) -> None:
        self.row, self.column = row, column
        super().__init__(f"row {row}: {why}")


@dataclass(frozen=True)
class RefusedRow:
    """A row of a table whose message the tape refused. Its header row counts as the first."""

    row: int
    message: Message
    refusal: Refused


def whole(fields: dict[str, str], column: str) -> int:
    """A field of digits, 0 if it is empty."""
    if not re.fullmatch("[0-9]{0,20}", fields[column]):
        raise ValueError(column)
    return int(fields[column] or 0)


def price_of(fields: dict[str, str]) -> Decimal | None:
    """The price, None if it is empty."""
    if not re.fullmatch(r"([0-9]{1,20}(\.[0-9]{1,4})?)?", fields["price"]):
        raise ValueError("price")
    return Decimal(fields["price"]) if fields["price"] else None


def check_empty(fields: dict[str, str], kind: str) -> None:
    """Raises the name of a column that has to be empty in a row of this kind and is not."""
    for column in EMPTY.get(kind, ("price", "size", "condition")):
        if fields[column]:
            raise ValueError(column)


def message_of(fields: dict[str, str]) -> Message:
    """The message of a row's fields. A ValueError names a column whose field has not its form."""
    kind = LETTERS.get(fields["kind"])
    if kind is None:
        raise ValueError("kind")
    numbers = {column: whole(fields, column) for column in ("number", "target", "size", "moment")}
    message = Message(kind, fields["participant"], symbol=fields["symbol"], price=price_of(fields), condition=fields["condition"], **numbers)
    check_empty(fields, kind)
    # A blank is written as `_`, and no moment is above what its bytes can have.
    if " " in message.condition or message.moment >= 1 << 64:
        raise ValueError("condition" if " " in message.condition else "moment")
    return message


def checked_names(names: list[str]) -> list[str]:
    """The names of a header row, if a table can have them."""
    known = [name for name in names if not name.startswith("#")]
    for name in known:
        if name not in FIELDS or known.count(name) > 1:
            raise BadTable(1, name, f"column {name!r} is unknown or stands twice")
    for name in FIELDS:
        if name not in known and name not in DEFAULTS:
            raise BadTable(1, name, f"column {name} is missing")
    return names


def messages_of(records: Iterator[list[str]]) -> Iterator[tuple[Message, bytes]]:
    """The messages of a table's records, each with its bytes."""
    head = next(records, None)
    if head is None:
        return
    names = checked_names(head)
    for row, record in enumerate(records, FIRST_ROW):
        if len(record) != len(names):
            raise BadTable(row, None, f"{len(record)} fields, and the header row has {len(names)}")
        fields = DEFAULTS | dict(zip(names, record))
        try:
            message = message_of(fields)
            yield message, message.encode()
        except (ValueError, Refused) as fault:
            column = AT_FAULT.get(fault.code, "kind") if isinstance(fault, Refused) else str(fault)
            raise BadTable(row, column, f"{column} {fields[column][:40]!r} can't stand here") from fault


def read_table(path: str | os.PathLike[str]) -> list[tuple[Message, bytes]]:
    """The messages of a table's file, each with its bytes. It is a `BadTable` also if it has no row."""
    with open(path, newline="", encoding="utf-8-sig", errors="replace") as file:
        try:
            messages = list(messages_of(record for record in csv.reader(file) if record))
        except csv.Error as fault:
            raise BadTable(1, None, str(fault)) from fault
    if not messages:
        raise BadTable(FIRST_ROW, None, "the table has no row")
    return messages


def row_of(entry: Entry) -> tuple[object, ...]:
    """An entry as a row of `COLUMNS`."""
    message, after = entry.decode(), entry.after
    content = (message.price, message.size, message.condition) if message.price is not None else (None, None, None)
    fields = (KINDS[message.kind], message.participant, message.number, message.moment, message.symbol, message.target or None, *content)
    if after is None:
        return (entry.number, *fields, *[None] * 6)
    marks = (mark and mark.price for mark in (after.open, after.high, after.low, after.last))
    return (entry.number, *fields, *marks, after.volume, after.trades)
