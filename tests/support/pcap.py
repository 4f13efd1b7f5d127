"""Captures that are made for a case."""

import struct
from pathlib import Path

CLIENT = 40_000
# Of packets that begin with their IP header.
LINK_TYPE = 101
PUSH, FIN = 0x18, 0x11


def in_ip(protocol, text):
    """What IP version 4 carries between two ports of one machine."""
    host = bytes([127, 0, 0, 1])
    return struct.pack(">BBHHHBBH4s4s", 0x45, 0, 20 + len(text), 0, 0, 64, protocol, 0, host, host) + text


def in_ip_six(protocol, text):
    """The same by version 6."""
    host = bytes(15) + b"\1"
    return struct.pack(">IHBB16s16s", 0x6000_0000, len(text), protocol, 64, host, host) + text


def datagram(port, text, carried=in_ip):
    """A UDP datagram to a port."""
    return carried(17, struct.pack(">HHHH", CLIENT, port, 8 + len(text), 0) + text)


def segments(source, port, pieces, last=True):
    """TCP segments of a direction's bytes, and the one that ends it."""
    at = 1
    for text, flags in [*((piece, PUSH) for piece in pieces), *([(b"", FIN)] if last else [])]:
        yield in_ip(6, struct.pack(">HHIIBBHHH", source, port, at, 1, 0x50, flags, 65_535, 0, 0) + text)
        at += len(text)


def write_capture(path, frames, kept=None):
    """Writes a capture of these frames, of each of which it has so many bytes at most."""
    with Path(path).open("wb") as file:
        file.write(struct.pack("<IHHiIII", 0xA1B2C3D4, 2, 4, 0, 0, 65_535, LINK_TYPE))
        for at, frame in enumerate(frames):
            file.write(struct.pack("<IIII", at, 0, len(frame[:kept]), len(frame)) + frame[:kept])
