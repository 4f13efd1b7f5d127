#!/usr/bin/env python3
"""Follows a running day with no library and writes each entry as a row once it is held: plain_receiver.py A B RETRANS SESSION

It is written from docs/FORMATS.md alone, and believes what it is sent. Only a tape checks an entry, and the figures that are passed over here.
"""

import csv
import select
import socket
import struct
import sys

HOST = "127.0.0.1"
COLUMNS = ["tape", "kind", "participant", "number", "moment", "symbol", "target", "price", "size", "condition"]
# Of a packet: version, kind, session, number and count. Of a request: session, first number and count.
HEADER, REQUEST = struct.Struct(">BcQIB"), struct.Struct(">QIH")
# Of a message: length, kind, participant, number, moment and symbol; and the content of a report or a correction.
FIELDS, CONTENT = struct.Struct(">HccIQ8s"), struct.Struct(">QI4s")
LENGTHS = {b"R": 38, b"X": 26, b"C": 42, b"S": 26}
WORDS = {b"R": "report", b"X": "cancel", b"C": "correct", b"S": "reinstate"}
LONGEST_PACKET, LONGEST_SPAN, SUMMARY = 1823, 64, 65
# How long a turn waits for packets, in seconds. What is missing for two turns is asked for: the other line may bring it.
TURN = 0.02


def dollars(price):
    """A price in ten-thousandths of a dollar: with two decimals if it is whole cents, else with four."""
    text = f"{price // 10_000}.{price % 10_000:04}"
    return text.removesuffix("00") if price % 100 == 0 else text


def entry_at(packet, at):
    """The entry at a place of a packet, as a row, and where it ends. Other bytes raise struct.error or ValueError."""
    (tape,) = struct.unpack_from(">I", packet, at)
    length, kind, who, number, moment, symbol = FIELDS.unpack_from(packet, at + 4)
    if LENGTHS.get(kind) != length:
        raise ValueError("a message of another length")
    row, at = [tape, WORDS[kind], who.decode(), number, moment, symbol.decode().rstrip()], at + 4 + FIELDS.size
    target = b"" if kind == b"R" else packet[at : at + 4]
    row, at = [*row, int.from_bytes(target, "big") or ""], at + len(target)
    if kind in b"XS":
        return [*row, "", "", ""], at + SUMMARY
    price, size, condition = CONTENT.unpack_from(packet, at)
    return [*row, dollars(price), size, condition.decode().replace(" ", "_")], at + CONTENT.size + (SUMMARY if kind == b"C" else 0)


def entries(packet, count):
    """The rows of a packet's entries."""
    rows, at = [], HEADER.size
    for _ in range(count):
        row, at = entry_at(packet, at)
        rows.append(row)
    if at != len(packet):
        raise ValueError("the packet has another length")
    return rows


class Feed:
    """What came of a session: the entries that wait for one before them, how many are held and announced, and how many the day has."""

    def __init__(self, session):
        self.session, self.waiting, self.held, self.announced, self.ended = session, {}, 0, 0, None

    def take(self, packet):
        """Takes a packet, or drops bytes that are none of the session's."""
        try:
            version, kind, session, number, count = HEADER.unpack_from(packet)
            if version not in (1, 2) or kind not in (b"D", b"H", b"E") or session != self.session:
                return
            rows = entries(packet, count)
        except (struct.error, ValueError):
            return
        self.waiting |= {row[0]: row for row in rows if row[0] > self.held and row[0] not in self.waiting}
        self.announced = max(self.announced, number, *(row[0] for row in rows))
        if kind == b"E":
            self.ended = number

    def ready(self):
        """The entries that come next, in their order."""
        while row := self.waiting.pop(self.held + 1, None):
            self.held += 1
            yield row

    def missing(self):
        """The bytes of a request for the first entries that are missing, or None."""
        most = min(self.announced - self.held, LONGEST_SPAN)
        count = next((at for at in range(most) if self.held + 1 + at in self.waiting), most)
        return REQUEST.pack(self.session, self.held + 1, count) if count > 0 else None


def answer(connection, request):
    """The packets that answer a request."""
    connection.write(request)
    connection.flush()
    if (first := connection.read(1)) != b"\0":
        sys.exit(f"plain_receiver.py: the request was answered by {first.hex() or 'nothing'}")
    for _ in range(connection.read(1)[0]):
        yield connection.read(int.from_bytes(connection.read(2), "big"))


def main(a, b, retransmission, session):
    lines, feed, waited = [socket.socket(socket.AF_INET, socket.SOCK_DGRAM) for _ in "AB"], Feed(session), None
    lines[0].bind((HOST, a))
    lines[1].bind((HOST, b))
    connection = socket.create_connection((HOST, retransmission)).makefile("rwb")
    rows = csv.writer(sys.stdout, lineterminator="\n")
    rows.writerow(COLUMNS)
    while feed.ended is None or feed.held < feed.ended:
        for line in select.select(lines, [], [], TURN)[0]:
            feed.take(line.recv(LONGEST_PACKET + 1))
        rows.writerows(feed.ready())
        if (request := feed.missing()) and request == waited:
            for packet in answer(connection, request):
                feed.take(packet)
            rows.writerows(feed.ready())
        waited = request
        sys.stdout.flush()


main(*map(int, sys.argv[1:]))
