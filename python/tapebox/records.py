"""Messages, entries and summaries, with prices in dollars as `Decimal`."""

import ctypes
import functools
import struct
from collections.abc import Iterable, Iterator
from dataclasses import dataclass
from decimal import Context, Decimal, Inexact, InvalidOperation
from typing import NamedTuple

from . import _library
from ._library import PACKED, Buffer, bytes_of, checked, library, released
from .refusals import Refused

# What a price in the library's numbers is divided by, and a context in which no price is rounded, whatever the caller's does.
PER_DOLLAR = 10_000
EXACT = Context(prec=64, traps=[Inexact])
# An entry's row: its number, whether it carries a summary, and its message; and a summary.
ENTRY = struct.Struct("=II80xI44s")
SUMMARY = struct.Struct("=" + 4 * "QII" + "QQ")
# The parts of a message's bytes that its kinds have, after their length.
REPORT, CORRECTION, OTHER = struct.Struct(">HcBIQ8sQI4s"), struct.Struct(">HcBIQ8sIQI4s"), struct.Struct(">HcBIQ8sI")
# What many prices have in common is computed once.
PRICES_KEPT, NAMES_KEPT = 1 << 16, 1 << 13
# How many bytes the shortest message has: a cancel or a reinstatement.
SHORTEST_MESSAGE = 28


@dataclass(frozen=True)
class Mark:
    """A report that a summary names: its price in dollars, its place, which is the tape number of its admission, and its participant."""

    price: Decimal
    place: int
    who: str


@dataclass(frozen=True)
class Summary:
    """The figures of a symbol, or of a participant in it. A mark is None if no report that stands sets it."""

    open: Mark | None
    high: Mark | None
    low: Mark | None
    last: Mark | None
    volume: int
    trades: int


@dataclass(frozen=True)
class Totals:
    """What a participant has sent: the shares of its reports as first reported, how many messages of every kind, and its greatest number."""

    shares: int
    messages: int
    last: int


@dataclass(frozen=True)
class Message:
    """A message of a participant. Kind is `R`, `X`, `C` or `S`; price is in dollars; a blank of the condition is `_`."""

    kind: str
    participant: str
    number: int
    symbol: str
    target: int = 0
    price: Decimal | str | int | None = None
    size: int = 0
    condition: str = ""
    moment: int = 0

    def encode(self) -> bytes:
        """Its bytes. `Refused` has the number of the first field that is out of its range: 13, or 15 to 21."""
        symbol, condition = self.symbol.encode(), self.condition.replace("_", " ").encode()
        try:
            # What no field can take is given the refusal that the field has.
            if not 0 < len(symbol) <= 8 or symbol[-1] == 32:
                raise Refused(17)
            if len(condition) not in (0, 4):
                raise Refused(21)
            numbers = self.moment, ten_thousandths(self.price), self.number, self.target, self.size
            fields = PACKED.pack(*numbers, ord(self.kind), ord(self.participant), condition, symbol.ljust(8))
        except (struct.error, TypeError) as error:
            raise Refused(self._out_of_range()) from error
        row = _library.Message()
        checked(library.tapebox_encode(_library.Fields.from_buffer_copy(fields), row))
        return ctypes.string_at(row.bytes, row.len)

    def _out_of_range(self) -> int:
        """The refusal of the first field that no bytes can have."""
        for code, is_good in (
            (13, len(self.kind) == 1 and ord(self.kind) < 256),
            (15, len(self.participant) == 1 and ord(self.participant) < 256),
            (16, 0 <= self.number < 1 << 32),
            (18, 0 <= self.target < 1 << 32),
            (19, 0 <= ten_thousandths(self.price) < 1 << 64),
            (20, 0 <= self.size < 1 << 32),
        ):
            if not is_good:
                return code
        raise ValueError(f"a moment of {self.moment}")

    @staticmethod
    def decode(text: Buffer) -> "Message":
        """The message that all the bytes are. `Refused` has 11 to 21, or 23 if bytes follow the message."""
        fields, given = _library.Fields(), bytes_of(text)
        checked(library.tapebox_decode(given, len(given), fields))
        kind = chr(fields.kind)
        has_content = kind in "RC"
        return Message(
            kind,
            chr(fields.participant),
            fields.number,
            bytes(fields.symbol).decode().rstrip(),
            fields.target,
            dollars(fields.price) if has_content else None,
            fields.size,
            bytes(fields.condition).decode().replace(" ", "_") if has_content else "",
            fields.moment,
        )


class Entry(NamedTuple):
    """An entry of a tape: its number, its message's bytes, and the summary that it carries, as every kind but a report does."""

    number: int
    message: bytes
    after: Summary | None

    def decode(self) -> Message:
        """Its message."""
        return Message.decode(self.message)


@functools.lru_cache(PRICES_KEPT)
def dollars(price: int) -> Decimal:
    """A price of the library in dollars: with two decimals if it is whole cents, else with four."""
    text = f"{price // PER_DOLLAR}.{price % PER_DOLLAR:04}"
    return Decimal(text.removesuffix("00") if price % 100 == 0 else text)


@functools.lru_cache(PRICES_KEPT, typed=True)
def ten_thousandths(price: Decimal | str | int | None) -> int:
    """A price in dollars as the library has it. `Refused` has 19 if no number of the library is that price. A `float` is a TypeError: it is seldom the
    price that it is written as."""
    if isinstance(price, float):
        raise TypeError(f"a price is a Decimal, and not the float {price}")
    try:
        scaled = EXACT.multiply(Decimal(price or 0), PER_DOLLAR)
        if not scaled.is_finite() or scaled != int(scaled):
            raise Refused(19)
    except (Inexact, InvalidOperation) as fault:
        raise Refused(19) from fault
    return int(scaled)


def mark_of(row: _library.Mark) -> Mark | None:
    """A mark of a row."""
    return Mark(dollars(row.price), row.place, chr(row.who)) if row.place else None


def summary_of(row: _library.Figures) -> Summary:
    """The summary of a row."""
    return Summary(mark_of(row.opening), mark_of(row.high), mark_of(row.low), mark_of(row.last), row.volume, row.trades)


def entry_of(row: _library.EntryRow) -> Entry:
    """The entry of a row."""
    answer = row.answer
    return Entry(answer.number, ctypes.string_at(row.message, row.len), summary_of(answer.after) if answer.carries else None)


def entries_of(rows: memoryview) -> Iterator[Entry]:
    """The entries of rows."""
    place = 0
    for number, carries, length, message in ENTRY.iter_unpack(rows):
        yield Entry(number, message[:length], packed_summary(rows, place) if carries else None)
        place += ENTRY.size


def packed_mark(price: int, place: int, who: int) -> Mark | None:
    """A mark of a row's numbers."""
    return Mark(dollars(price), place, chr(who)) if place else None


def packed_summary(rows: memoryview, place: int) -> Summary:
    """The summary of an entry's row that begins there."""
    row = SUMMARY.unpack_from(rows, place + 8)
    return Summary(packed_mark(*row[:3]), packed_mark(*row[3:6]), packed_mark(*row[6:9]), packed_mark(*row[9:12]), *row[12:])


def encode_many(messages: Iterable[Message]) -> bytes:
    """The bytes of messages, one after another. `Refused` has the number of the first fault, and `taken`, how many bytes those before it have."""
    texts: list[bytes] = []
    for message in messages:
        try:
            texts.append(packed_message(message))
        except (struct.error, TypeError, ValueError, Refused) as fault:
            count_of(b"".join(texts))
            code = fault.code if isinstance(fault, Refused) else message._out_of_range()
            raise Refused(code, taken=sum(map(len, texts))) from fault
    text = b"".join(texts)
    count_of(text)
    return text


@functools.lru_cache(NAMES_KEPT)
def padded(symbol: str) -> bytes:
    """A symbol's eight bytes."""
    name = symbol.encode()
    if not 0 < len(name) <= 8 or name[-1] == 32:
        raise Refused(17)
    return name.ljust(8)


@functools.lru_cache(NAMES_KEPT)
def codes_of(condition: str) -> bytes:
    """A sale condition's four bytes."""
    codes = condition.replace("_", " ").encode()
    if len(codes) != 4:
        raise Refused(21)
    return codes


def packed_message(message: Message) -> bytes:
    """The bytes of a message's fields, each in its own size, whatever its range."""
    kind = message.kind
    if kind == "R":
        return REPORT.pack(38, b"R", ord(message.participant), message.number, message.moment, padded(message.symbol), ten_thousandths(message.price),
                           message.size, codes_of(message.condition))
    head = kind.encode(), ord(message.participant), message.number, message.moment, padded(message.symbol)
    if kind == "C":
        return CORRECTION.pack(42, *head, message.target, ten_thousandths(message.price), message.size, codes_of(message.condition))
    if kind in ("X", "S"):
        return OTHER.pack(26, *head, message.target)
    raise Refused(13)


@functools.lru_cache(NAMES_KEPT)
def name_of(padded_name: bytes) -> str:
    """The name of a symbol's eight bytes."""
    return padded_name.decode().rstrip()


@functools.lru_cache(NAMES_KEPT)
def condition_of(codes: bytes) -> str:
    """A sale condition, with `_` for a blank."""
    return codes.decode().replace(" ", "_")


def made(kind: bytes, who: int, number: int, moment: int, symbol: bytes, target: int, price: Decimal | None, size: int, condition: str) -> Message:
    """A message of its parts, without the cost of a frozen object's `__init__`."""
    message = Message.__new__(Message)
    message.__dict__.update(
        kind=kind.decode(), participant=chr(who), number=number, symbol=name_of(symbol), target=target, price=price, size=size, condition=condition,
        moment=moment,
    )
    return message


def decode_many(text: Buffer) -> list[Message]:
    """The messages that stand one after another in the bytes. `Refused` has 11 to 21, and `taken`, how many bytes those before it have."""
    given, at, messages = bytes(text), 0, []
    count_of(given)
    while at < len(given):
        kind = given[at + 2]
        if kind == 82:
            _, letter, who, number, moment, symbol, price, size, codes = REPORT.unpack_from(given, at)
            messages.append(made(letter, who, number, moment, symbol, 0, dollars(price), size, condition_of(codes)))
            at += REPORT.size
        elif kind == 67:
            _, letter, who, number, moment, symbol, target, price, size, codes = CORRECTION.unpack_from(given, at)
            messages.append(made(letter, who, number, moment, symbol, target, dollars(price), size, condition_of(codes)))
            at += CORRECTION.size
        else:
            _, letter, who, number, moment, symbol, target = OTHER.unpack_from(given, at)
            messages.append(made(letter, who, number, moment, symbol, target, None, 0, ""))
            at += OTHER.size
    return messages


def count_of(text: bytes) -> int:
    """How many messages the bytes are. `Refused` has 11 to 21 if what follows them is none, and `taken`, how many bytes they have."""
    tape, room, row = _library.Handle(), len(text) // SHORTEST_MESSAGE + 1, _library.Many()
    # A tape that is closed reads each message and admits none.
    checked(library.tapebox_open(tape, b"A", 1, b"N", 1, 1, 1))
    try:
        checked(library.tapebox_close(tape))
        code = released.tapebox_admit_many(tape, text, len(text), (ctypes.c_uint32 * room)(), room, row)
    finally:
        library.tapebox_free(tape)
    if code:
        raise Refused(code, taken=row.taken)
    return row.answered
