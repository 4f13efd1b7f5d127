"""A plain feed of a tape: packets and requests as bytes, and a subscriber with a window, by the pages of docs/ alone."""

import struct
from dataclasses import dataclass

from plain_tape import PARTICIPANTS_MOST, PRICE_MOST, Entry, Mark, Refused, Summary, Tape, cells, decode, encode, is_listed

# What a player of rows takes of these rules, besides what is below.
__all__ = ["Tape", "cells", "decode", "encode", "is_listed"]

# The most entries of a packet and its greatest number, by its version.
MOST = {1: (8, 1_048_576), 2: (16, 16_777_216)}
HEADER, MARK, SUMS, REQUEST = struct.Struct(">BcQIB"), struct.Struct(">QIc"), struct.Struct(">QI"), struct.Struct(">QIH")
SUMMARY_SIZE = 1 + 4 * MARK.size + SUMS.size
REACH, LONGEST_SPAN, PACKETS_MOST, LONGEST_PACKET = 1_024, 64, 8, 1_823
LETTERS = bytes(range(ord("A"), ord("A") + PARTICIPANTS_MOST))


@dataclass(frozen=True)
class Packet:
    """A packet: kind `D`, `H` or `E`, and the number in its header."""

    version: int
    kind: str
    session: int
    number: int
    entries: tuple = ()

    @property
    def last(self):
        """The number that it announces."""
        return self.entries[-1].number if self.entries else self.number


def put_summary(summary):
    """The bytes of a summary."""
    marks = [summary.open, summary.high, summary.low, summary.last]
    present = sum(1 << bit for bit, mark in enumerate(marks) if mark)
    shown = [MARK.pack(mark.price, mark.place, mark.who.encode()) if mark else bytes(MARK.size) for mark in marks]
    return bytes([present]) + b"".join(shown) + SUMS.pack(summary.volume, summary.trades)


def put_entry(entry):
    """The bytes of an entry."""
    return entry.number.to_bytes(4, "big") + entry.message + (put_summary(entry.after) if entry.after else b"")


def encode_packet(packet):
    """The bytes of a packet."""
    header = HEADER.pack(packet.version, packet.kind.encode(), packet.session, packet.number, len(packet.entries))
    return header + b"".join(map(put_entry, packet.entries))


def read_mark(data, number_most):
    """A mark that is present. Refused: 55."""
    price, place, who = MARK.unpack(data)
    if not (1 <= price <= PRICE_MOST and 1 <= place <= number_most and who in LETTERS):
        raise Refused(55)
    return Mark(price, place, who.decode())


def read_summary(data, number_most):
    """A summary, and the bytes after it. Refused: 51, 55."""
    if len(data) < SUMMARY_SIZE:
        raise Refused(51)
    present, marks = data[0], []
    for bit in range(4):
        mark = data[1 + bit * MARK.size :][: MARK.size]
        is_there = present >> bit & 1
        if present > 15 or not is_there and any(mark):
            raise Refused(55)
        marks.append(read_mark(mark, number_most) if is_there else None)
    return Summary(*marks, *SUMS.unpack(data[SUMMARY_SIZE - SUMS.size : SUMMARY_SIZE])), data[SUMMARY_SIZE:]


def read_entry(data, number_most):
    """The entry at the front of bytes, and the bytes after it. Refused: 51, 55."""
    number = int.from_bytes(data[:4], "big")
    if len(data) < 4:
        raise Refused(51)
    if not 1 <= number <= number_most:
        raise Refused(55)
    try:
        row, length = decode(data[4:])
    except Refused as fault:
        raise Refused(51 if fault.code == 12 else 55) from None
    message, rest, after = data[4 : 4 + length], data[4 + length :], None
    if row["kind"] != "report":
        after, rest = read_summary(rest, number_most)
    return Entry(number, message, after), rest


def decode_packet(data):
    """The packet that the bytes are. Refused: 51 to 57."""
    if len(data) < HEADER.size:
        raise Refused(51)
    version, kind, session, number, count = HEADER.unpack(data[: HEADER.size])
    if version not in MOST:
        raise Refused(52)
    if kind not in (b"D", b"H", b"E"):
        raise Refused(53)
    entries_most, number_most = MOST[version]
    if not (1 <= count <= entries_most if kind == b"D" else count == 0 and number <= number_most):
        raise Refused(54)
    entries, rest = [], data[HEADER.size :]
    for wanted in range(number, number + count):
        entry, rest = read_entry(rest, number_most)
        if entry.number != wanted:
            raise Refused(56)
        entries.append(entry)
    if rest:
        raise Refused(57)
    return Packet(version, kind.decode(), session, number, tuple(entries))


def told(what, version, session, number):
    """The bytes of a `beat` or an `end` that tells a number. Refused: 54."""
    if number > MOST[version][1]:
        raise Refused(54)
    return encode_packet(Packet(version, {"beat": "H", "end": "E"}[what], session, number))


def cut(tape, version, session, first, last):
    """The bytes of the packets with a tape's entries from one number to another, each with as many as it can have."""
    most, _ = MOST[version]
    pieces = [tape.entries[at : min(at + most, last)] for at in range(first - 1, last, most)]
    return [encode_packet(Packet(version, "D", session, piece[0].number, tuple(piece))) for piece in pieces]


def journal(tape, sizes):
    """The bytes of a tape's journal: so many entries in each group, and as many as the last size says in all further ones."""
    import journal_maker

    return journal_maker.journal_of(list(tape.entries), tape.matrix, tape.symbols, tape.participants, sizes)


def verify(data):
    """What is found of a journal's bytes, or why they are none."""
    import plain_journal

    try:
        return plain_journal.verdict(data)
    except plain_journal.NoHeader as fault:
        return str(fault)


def decode_request(data):
    """The session, the first number and the count of a request. Refused: 73."""
    if len(data) != REQUEST.size:
        raise ValueError(f"a request has {REQUEST.size} bytes")
    session, first, count = REQUEST.unpack(data)
    if not 1 <= count <= LONGEST_SPAN:
        raise Refused(73)
    return session, first, count


def answer(tape, request, session, version):
    """The bytes that answer a request's bytes over a tape."""
    try:
        asked, first, count = decode_request(request)
    except Refused as fault:
        return bytes([fault.code])
    end = min(len(tape.entries), MOST[version][1])
    if asked != session:
        return bytes([71])
    if not 1 <= first <= end:
        return bytes([72])
    packets = cut(tape, version, session, first, min(first + count - 1, end))
    return bytes([0, len(packets)]) + b"".join(len(packet).to_bytes(2, "big") + packet for packet in packets)


def taken(data, count):
    """So many bytes from the front of others, and those after them. Refused: 74."""
    if len(data) < count:
        raise Refused(74)
    return data[:count], data[count:]


def sized(size, most, rest):
    """The number that bytes spell, from 1 to the most. Refused: 76, with how many bytes are left."""
    value = int.from_bytes(size, "big")
    if not 1 <= value <= most:
        raise Refused(76, len(rest))
    return value


def read_answer(data):
    """The packets of an answer, or the number of the refusal that it is; and how many bytes are left. Refused: 74, 76 with how many are left."""
    first, rest = taken(data, 1)
    if first[0] in (71, 72, 73):
        return first[0], len(rest)
    if first[0]:
        raise Refused(76, len(rest))
    count, rest = taken(rest, 1)
    packets = []
    for _ in range(sized(count, PACKETS_MOST, rest)):
        length, rest = taken(rest, 2)
        packet, rest = taken(rest, sized(length, LONGEST_PACKET, rest))
        packets.append(packet)
    return packets, len(rest)


class Subscriber:
    """A window, and a tape of its own. Refused as a tape."""

    def __init__(self, symbols, participants, limit, matrix, session):
        self.tape, self.session, self.has_failed = Tape(symbols, participants, limit, matrix), session, False
        # What has come and is not drained, by number; the last number that was announced; and the known end.
        self.waiting, self.announced, self.ended = {}, 0, None
        self.brought = dict.fromkeys("ABR", 0)

    @property
    def entries(self):
        """The entries that were drained."""
        return self.tape.entries

    def summary(self, symbol, who=None):
        """The summary over them of a symbol, of all or of a participant. Refused: 36, 34."""
        return self.tape.summary(symbol, who)

    @property
    def has_gap(self):
        """Whether more is announced than is held."""
        return self.announced > len(self.entries)

    def known(self, number):
        """The entry that has come under a number."""
        return self.entries[number - 1] if number <= len(self.entries) else self.waiting.get(number)

    def check(self, packet):
        """Refused: 61 to 63, and after 62 the number of the conflict."""
        if packet.session != self.session:
            raise Refused(61)
        for entry in packet.entries:
            if self.known(entry.number) not in (None, entry):
                raise Refused(62, entry.number)
        is_end = packet.kind == "E"
        if self.ended is not None and (packet.last > self.ended or is_end and packet.last != self.ended):
            raise Refused(63)
        if is_end and packet.last < self.announced:
            raise Refused(63)

    def deliver(self, line, data):
        """How many entries of a packet are fresh, repeated and beyond the window. Refused: 64, 51 to 57, 61 to 63; then nothing is changed."""
        if self.has_failed:
            raise Refused(64)
        packet = decode_packet(data)
        self.check(packet)
        beyond = [entry for entry in packet.entries if entry.number > len(self.entries) + REACH]
        fresh = [entry for entry in packet.entries if entry not in beyond and self.known(entry.number) is None]
        self.waiting |= {entry.number: entry for entry in fresh}
        self.announced = max(self.announced, packet.last)
        self.ended = packet.last if packet.kind == "E" else self.ended
        self.brought[line] += len(fresh)
        return len(fresh), len(packet.entries) - len(fresh) - len(beyond), len(beyond)

    def drain(self):
        """How many entries were replayed. Refused: 64, 42 and those of the tape, with how many were replayed before."""
        drained = 0
        if self.has_failed:
            raise Refused(64)
        while entry := self.waiting.get(len(self.entries) + 1):
            try:
                self.tape.admit(entry.message)
            except Refused as refusal:
                raise Refused(refusal.code, drained) from None
            drained += 1
            del self.waiting[entry.number]
            self.has_failed = self.entries[-1] != entry
            if self.has_failed:
                raise Refused(42, drained)
        return drained

    def missing(self):
        """The first number that is missing and how many are, or none."""
        numbers = range(len(self.entries) + 1, self.announced + 1)
        first = next((number for number in numbers if number not in self.waiting), None)
        if first is None:
            return None
        behind = next((number for number in range(first, self.announced + 1) if number in self.waiting), self.announced + 1)
        return first, min(behind - first, LONGEST_SPAN)
