"""The calls of the C library by ctypes, and the rows that cross, laid out as clib/tapebox.h declares them."""

import array
import ctypes as c
import mmap
import os
import struct
from pathlib import Path
from typing import Any, TypeAlias

from .refusals import Refused

# How many bytes the longest packet and the longest answer to a request have.
LONGEST_PACKET = 1823
LONGEST_ANSWER = 7370
# What a call takes bytes from.
Buffer: TypeAlias = "bytes | bytearray | memoryview | array.array[Any] | mmap.mmap"
# The greatest number that a field has.
NUMBER_MOST = (1 << 32) - 1


class Mark(c.Structure):
    _fields_ = [("price", c.c_uint64), ("place", c.c_uint32), ("who", c.c_uint32)]


class Figures(c.Structure):
    _fields_ = [(name, Mark) for name in ("opening", "high", "low", "last")] + [("volume", c.c_uint64), ("trades", c.c_uint64)]


class Answer(c.Structure):
    _fields_ = [("number", c.c_uint32), ("carries", c.c_uint32), ("after", Figures)]


class EntryRow(c.Structure):
    _fields_ = [("answer", Answer), ("len", c.c_uint32), ("message", c.c_uint8 * 44)]


class Fields(c.Structure):
    _fields_ = [("moment", c.c_uint64), ("price", c.c_uint64), ("number", c.c_uint32), ("target", c.c_uint32), ("size", c.c_uint32),
                ("kind", c.c_uint8), ("participant", c.c_uint8), ("condition", c.c_uint8 * 4), ("symbol", c.c_uint8 * 8)]


# The same as `Fields`, packed at once.
PACKED = struct.Struct("=QQIIIBB4s8s6x")


class Message(c.Structure):
    _fields_ = [("len", c.c_uint32), ("bytes", c.c_uint8 * 44)]


class Taken(c.Structure):
    _fields_ = [(name, c.c_uint32) for name in ("fresh", "repeated", "beyond", "conflict")]


class Request(c.Structure):
    _fields_ = [("count", c.c_uint32), ("bytes", c.c_uint8 * 14)]


class News(c.Structure):
    _fields_ = [(name, c.c_uint32) for name in ("held", "announced", "is_ended", "ended", "brought_a", "brought_b", "brought_r")]


class Packet(c.Structure):
    _fields_ = [("len", c.c_uint32), ("bytes", c.c_uint8 * LONGEST_PACKET)]


class PacketFields(c.Structure):
    _fields_ = [("session", c.c_uint64), ("number", c.c_uint32), ("count", c.c_uint32), ("version", c.c_uint8), ("kind", c.c_uint8)]


class RequestFields(c.Structure):
    _fields_ = [("session", c.c_uint64), ("from_", c.c_uint32), ("count", c.c_uint32)]


class Reply(c.Structure):
    _fields_ = [("packets", c.c_size_t), ("taken", c.c_size_t), ("refusal", c.c_uint32)]


class Many(c.Structure):
    _fields_ = [("answered", c.c_size_t), ("taken", c.c_size_t)]


class Totals(c.Structure):
    _fields_ = [("shares", c.c_uint64), ("messages", c.c_uint32), ("last", c.c_uint32)]


class Name(c.Structure):
    _fields_ = [("bytes", c.c_uint8 * 8)]


class Cells(c.Structure):
    _fields_ = [(name, c.c_uint8) for name in ("high_low", "last", "own_high_low", "own_last", "volume")]


class Handle(c.Structure):
    _fields_ = [("state", c.c_uint8), ("inside", c.c_void_p)]


# The layouts of tapebox.h. A library of another layout would write past a row.
for _type, _size in ((Mark, 16), (Handle, 16), (Figures, 80), (Answer, 88), (EntryRow, 136), (Fields, 48), (Message, 48), (Taken, 16),
                     (Request, 20), (News, 28), (Packet, 1828), (PacketFields, 24), (RequestFields, 16), (Reply, 24), (Many, 16), (Totals, 16),
                     (Name, 8), (Cells, 5)):
    assert c.sizeof(_type) == _size, _type
assert PACKED.size == c.sizeof(Fields)
del _type, _size


def library_path() -> str:
    """Where the library is: $TAPEBOX_LIBRARY, else beside this file, as in a wheel, else where clib/build leaves it in the repository."""
    named = os.environ.get("TAPEBOX_LIBRARY")
    beside, built = Path(__file__).with_name("libtapebox.so"), Path(__file__).resolve().parents[2] / "clib" / "libtapebox.so"
    found = named or next((os.fspath(path) for path in (beside, built) if path.exists()), None)
    if found is None:
        raise ImportError(f"there is no {built}, which clib/build makes, and $TAPEBOX_LIBRARY names no other")
    return found


# The version of the calls below: TAPEBOX_VERSION of clib/tapebox.h.
VERSION = 100
# Short calls keep the interpreter's lock, since to let go of it costs as much as they do. `released` has the same calls and lets go of it: for those
# whose time grows with what they are given. Of one handle no two run at once (`Owned._use`).
library, released = c.PyDLL(library_path()), c.CDLL(library_path())
if not hasattr(library, "tapebox_version") or not VERSION <= library.tapebox_version() < VERSION - VERSION % 100 + 100:
    raise ImportError(f"{library_path()} is of another version than {VERSION // 100}.{VERSION % 100} of this package: clib/build makes it anew")
# What a call returns that returns no number of a refusal.
RESULTS = {"text_length": c.c_size_t, "text_copy": c.c_size_t}
_handle, _text = c.POINTER(Handle), [c.c_char_p, c.c_size_t]
for _name, _arguments in {
    "open": [_handle, *_text, *_text, c.c_uint32, c.c_uint32],
    "admit": [_handle, *_text, c.POINTER(Answer)],
    "admit_many": [_handle, *_text, c.POINTER(c.c_uint32), c.c_size_t, c.POINTER(Many)],
    "close": [_handle],
    "summary": [_handle, *_text, c.POINTER(Figures)],
    "summary_of": [_handle, *_text, c.c_uint8, c.POINTER(Figures)],
    "count": [_handle],
    "entry": [_handle, c.c_uint32, c.POINTER(EntryRow)],
    "totals": [_handle, c.c_uint8, c.POINTER(Totals)],
    "symbol": [_handle, c.c_uint32, c.POINTER(Name)],
    "participant": [_handle, c.c_uint32, c.POINTER(c.c_uint8)],
    "cut": [_handle, c.c_uint32, c.c_uint64, c.c_uint32, c.c_uint32, c.POINTER(Packet)],
    "serve": [_handle, c.c_uint32, c.c_uint64, *_text, c.c_char_p, c.c_size_t, c.POINTER(c.c_size_t)],
    "free": [_handle],
    "subscribe": [_handle, *_text, *_text, c.c_uint32, c.c_uint32, c.c_uint64],
    "deliver": [_handle, c.c_uint32, *_text, c.POINTER(Taken)],
    "drain": [_handle, c.POINTER(c.c_uint32)],
    "missing": [_handle, c.POINTER(Request)],
    "news_of": [_handle, c.POINTER(News)],
    "read_table": [_handle, *_text],
    "report": [_handle, c.c_uint32],
    "tape": [_handle, c.c_uint32],
    "explain": [_handle, c.c_uint32],
    "text_length": [_handle],
    "text_copy": [_handle, c.c_size_t, c.c_char_p, c.c_size_t],
    "encode": [c.POINTER(Fields), c.POINTER(Message)],
    "decode": [*_text, c.POINTER(Fields)],
    "beat": [c.c_uint32, c.c_uint64, c.c_uint32, c.POINTER(Packet)],
    "end": [c.c_uint32, c.c_uint64, c.c_uint32, c.POINTER(Packet)],
    "read_packet": [*_text, c.POINTER(PacketFields)],
    "packet_entry": [*_text, c.c_uint32, c.POINTER(EntryRow)],
    "read_request": [*_text, c.POINTER(RequestFields)],
    "read_answer": [*_text, c.POINTER(Reply)],
    "answer_packet": [*_text, c.c_uint32, c.c_char_p, c.c_size_t, c.POINTER(c.c_size_t)],
    "cells": [c.c_uint32, *_text, c.POINTER(Cells)],
}.items():
    for _of in (library, released):
        _call = getattr(_of, f"tapebox_{_name}")
        _call.argtypes, _call.restype = _arguments, RESULTS.get(_name, c.c_uint32)
# The same as `tapebox_entry`, with a row by its address.
entry_at = library["tapebox_entry"]
entry_at.argtypes, entry_at.restype = [_handle, c.c_uint32, c.c_void_p], c.c_uint32


def bytes_of(text: Buffer) -> "bytes | c.Array[c.c_char]":
    """The bytes of a buffer for a call: where they lie, or if they can't be written to, as `bytes`."""
    if isinstance(text, bytes):
        return text
    view = memoryview(text).cast("B")
    return (c.c_char * len(view)).from_buffer(view) if view and not view.readonly else view.tobytes()


def checked(code: int) -> None:
    """Raises the refusal of this number, if it is not 0."""
    if code:
        raise Refused(code)


def small(number: int) -> int:
    """The number, or 0, which every call refuses, if no field can have it."""
    return number if 0 <= number < 1 << 32 else 0


def great(number: int) -> int:
    """The number, or the greatest of its field, which no packet can tell, if no field can have it."""
    return number if 0 <= number < 1 << 32 else NUMBER_MOST


def session_of(number: int) -> int:
    """The number of a session. One that 64 bits can't hold is a ValueError."""
    if not 0 <= number < 1 << 64:
        raise ValueError(f"a session of {number}")
    return number


def letter_of(participant: str) -> int:
    """The byte of a participant's letter, or 0, which no participant has."""
    return ord(participant) if len(participant) == 1 and ord(participant) < 256 else 0
