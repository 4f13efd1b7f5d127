"""The proved tape and its feed, by the calls of the static library, as a player of rows takes them: the names are those of `plain_feed`."""

import dataclasses
import functools
import os
import sys
from collections.abc import Sequence

import plain_table
from journal_feed import journal, verify  # noqa: F401
from plain_feed import Packet
from plain_tape import Entry, Mark, Refused, Summary
from support import ROOT

sys.path.insert(0, os.fspath(ROOT / "python"))

import tapebox  # noqa: E402

EXTRA_BYTES, REFUSED = 23, 77


def refusing(call):
    """The call, whose refusals are those of this suite."""

    @functools.wraps(call)
    def called(*arguments, **named):
        try:
            return call(*arguments, **named)
        except tapebox.Refused as refusal:
            raise Refused(refusal.code, refusal.drained or refusal.conflict) from None

    return called


def ten_thousandths(price):
    """A price in dollars, in ten-thousandths of a dollar."""
    return int(price * 10_000)


def mark_of(mark):
    """A mark, or none."""
    return mark and Mark(ten_thousandths(mark.price), mark.place, mark.who)


def summary_of(summary):
    """A summary, or none."""
    return summary and Summary(*map(mark_of, (summary.open, summary.high, summary.low, summary.last)), summary.volume, summary.trades)


def entry_of(entry):
    """An entry."""
    return Entry(entry.number, entry.message, summary_of(entry.after))


@refusing
def encode(row):
    """The bytes of a row of a table. Refused: 13, 15 to 21."""
    fields = {field.name: row[field.name] for field in dataclasses.fields(tapebox.Message)}
    fields |= {"kind": plain_table.LETTERS[row["kind"]], "target": row["target"] or 0, "size": row["size"] or 0, "moment": row["moment"] or 0}
    return tapebox.Message(**fields).encode()


def decode(data):
    """The message at the front of bytes: its row, by the columns of a table, and how many bytes it has. Refused: 11 to 21."""
    try:
        message, length = tapebox.Message.decode(data), len(data)
    except tapebox.Refused as refusal:
        if refusal.code != EXTRA_BYTES:
            raise Refused(refusal.code) from None
        # The call takes no bytes behind a message: then these are those that the length announces.
        return decode(data[: 2 + int.from_bytes(data[:2], "big")])
    row = {column: getattr(message, column) or "" for column in plain_table.COLUMNS}
    row |= {"kind": plain_table.WORDS[message.kind], "moment": message.moment}
    if message.price is not None:
        row["price"] = plain_table.dollars(ten_thousandths(message.price))
    return row, length


@refusing
def cells(matrix, condition):
    """The cells of a condition by a matrix. Refused: 21, 44."""
    return tapebox.cells(int(matrix), condition)


def is_listed(matrix, condition):
    """Whether a matrix has a condition."""
    try:
        return bool(cells(matrix, condition))
    except Refused:
        return False


class Entries(Sequence):
    """The entries of a tape or a subscriber, each read when it is asked for."""

    def __init__(self, held):
        self.held = held

    def __len__(self):
        return len(self.held)

    def __getitem__(self, at):
        if not 0 <= at < len(self.held):
            raise IndexError(at)
        return entry_of(self.held.entry(at + 1))


class Held:
    """What a tape and a subscriber share."""

    def __init__(self, held):
        self.held, self.entries = held, Entries(held)

    @property
    def symbols(self):
        """The listed symbols."""
        return self.held.symbols

    @property
    def participants(self):
        """The listed participants."""
        return self.held.participants

    @refusing
    def summary(self, symbol, who=None):
        """A summary of a symbol, of all or of a participant. Refused: 36, 34."""
        return summary_of(self.held.summary(symbol, who))

    def totals(self, who):
        """How many messages a participant has on the tape, the shares of its reports, and its greatest number."""
        totals = self.held.totals(who)
        return totals.messages, totals.shares, totals.last


class Tape(Held):
    """The tape of a day. Refused: 5, 9, 1 to 3."""

    @refusing
    def __init__(self, symbols, participants, limit, matrix):
        super().__init__(tapebox.Tape(symbols, participants, int(matrix), limit))
        self.limit, self.matrix = limit, matrix

    @refusing
    def admit(self, message):
        """The tape number of a message's bytes. Refused: 11 to 21, 23, 31 to 39, 43, 44."""
        return self.held.admit(message)

    def close(self):
        """Ends the day."""
        self.held.close()


class Subscriber(Held):
    """A subscriber with a tape of its own. Refused as a tape."""

    @refusing
    def __init__(self, symbols, participants, limit, matrix, session):
        super().__init__(tapebox.Subscriber(symbols, participants, session, int(matrix), limit))

    @refusing
    def deliver(self, line, data):
        """How many entries of a packet are fresh, repeated and beyond the window. Refused: 64, 51 to 57, 61 to 63."""
        return dataclasses.astuple(self.held.deliver(line, data))

    @refusing
    def drain(self):
        """How many entries were replayed. Refused, with how many were before: 64, 42 and those of the tape."""
        return self.held.drain()

    def missing(self):
        """The first number that is missing and how many are, or none."""
        request = self.held.missing()
        return request and decode_request(request)[1:]

    @property
    def announced(self):
        """The last number that was announced."""
        return self.held.announced

    @property
    def ended(self):
        """The known end, or none."""
        return self.held.ended

    @property
    def has_gap(self):
        """Whether more is announced than is held."""
        return self.held.has_gap

    @property
    def brought(self):
        """The entries that each line was the first to bring."""
        return self.held.brought


@refusing
def told(what, version, session, number):
    """The bytes of a `beat` or an `end` that tells a number. Refused: 54."""
    return getattr(tapebox, what)(session, number, version)


@refusing
def decode_packet(data):
    """The packet that the bytes are. Refused: 51 to 57."""
    packet = tapebox.Packet.decode(data)
    return Packet(packet.version, packet.kind, packet.session, packet.number, tuple(map(entry_of, packet.entries)))


@refusing
def cut(tape, version, session, first, last):
    """The bytes of the packets with a tape's entries from one number to another, each with as many as it can have. Refused: 105."""
    packets = []
    while first <= last:
        packets.append(tape.held.packet(first, session=session, last=last, version=version))
        first = decode_packet(packets[-1]).last + 1
    return packets


@refusing
def decode_request(data):
    """The session, the first number and the count of a request. Refused: 73."""
    return dataclasses.astuple(tapebox.Request.decode(data))


@refusing
def answer(tape, request, session, version):
    """The bytes that answer a request's bytes over a tape."""
    return tape.held.answer(request, session=session, version=version)


def read_answer(data):
    """The packets of an answer, or the number of the refusal that it is; and how many bytes are left. Refused: 74, 76 with how many are left."""
    try:
        packets, length = tapebox.read_answer(data)
    except tapebox.Refused as refusal:
        left = len(data) - refusal.taken
        if refusal.code != REFUSED:
            raise Refused(refusal.code, left) from None
        return refusal.refusal, left
    return packets, len(data) - length
