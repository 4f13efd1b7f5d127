"""Packets, requests and answers: what a tape is sent by."""

import ctypes
import struct
from dataclasses import dataclass

from . import _library
from ._library import LONGEST_PACKET, Buffer, bytes_of, checked, great, library, session_of, small
from .records import Entry, entry_of
from .refusals import Refused

REQUEST = struct.Struct(">QIH")


@dataclass(frozen=True)
class Packet:
    """A packet. Kind is `D` (entries), `H` (a beat) or `E` (an end); `number` is that of its first entry, or the one that it tells."""

    version: int
    session: int
    kind: str
    number: int
    entries: tuple[Entry, ...]

    @staticmethod
    def decode(text: Buffer) -> "Packet":
        """The packet that all the bytes are. `Refused` has 51 to 57."""
        given, entries = bytes_of(text), []
        fields, row = _library.PacketFields(), _library.EntryRow()
        checked(library.tapebox_read_packet(given, len(given), fields))
        for place in range(fields.count):
            checked(library.tapebox_packet_entry(given, len(given), place, row))
            entries.append(entry_of(row))
        return Packet(fields.version, fields.session, chr(fields.kind), fields.number, tuple(entries))


@dataclass(frozen=True)
class Request:
    """A request of `count` entries, 1 to 64, from the number `first` on."""

    session: int
    first: int
    count: int

    def encode(self) -> bytes:
        """Its bytes, whatever its count."""
        return REQUEST.pack(self.session, self.first, self.count)

    @staticmethod
    def decode(text: Buffer) -> "Request":
        """The request that all the bytes are. `Refused` has 107 or 73."""
        fields, given = _library.RequestFields(), bytes_of(text)
        checked(library.tapebox_read_request(given, len(given), fields))
        return Request(fields.session, fields.from_, fields.count)


def beat(session: int, last: int, version: int = 2) -> bytes:
    """The bytes of a beat: the tape has at least `last` entries. `Refused` has 52 or 54."""
    row = _library.Packet()
    checked(library.tapebox_beat(small(version), session_of(session), great(last), row))
    return ctypes.string_at(row.bytes, row.len)


def end(session: int, count: int, version: int = 2) -> bytes:
    """The bytes of an end: the tape is closed, and has `count` entries. `Refused` has 52 or 54."""
    row = _library.Packet()
    checked(library.tapebox_end(small(version), session_of(session), great(count), row))
    return ctypes.string_at(row.bytes, row.len)


def read_answer(text: Buffer) -> tuple[list[bytes], int]:
    """The packets of the answer at the front of the bytes, and how many bytes it has.

    `Refused` has the code 74 if the answer goes on after the bytes, 76 if it is none, and 77 if the request was refused, which
    its `refusal` says why.
    """
    given = bytes_of(text)
    reply, row, length, packets = _library.Reply(), ctypes.create_string_buffer(LONGEST_PACKET), ctypes.c_size_t(), []
    code = library.tapebox_read_answer(given, len(given), reply)
    if code:
        raise Refused(code, taken=reply.taken, refusal=reply.refusal)
    for place in range(reply.packets):
        checked(library.tapebox_answer_packet(given, len(given), place, row, len(row), length))
        packets.append(row.raw[: length.value])
    return packets, reply.taken


def cells(matrix: int, condition: str) -> str:
    """The five cells of a sale condition by a matrix, with `_` for a blank: high and low, last, own high and low, own last, volume."""
    row, text = _library.Cells(), condition.replace("_", " ").encode()
    checked(library.tapebox_cells(small(matrix), text, len(text), row))
    return bytes(row).decode()
