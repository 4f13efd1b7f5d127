"""A receiver of a feed, and the sockets that a running day is followed on."""

import ctypes
import select
import socket
from collections.abc import Iterable, Iterator
from dataclasses import dataclass

from . import _library
from ._library import LONGEST_PACKET, Buffer, bytes_of, checked, library, released, session_of
from .feeds import read_answer
from .held import Held
from .records import Entry
from .refusals import Refused
from .tapes import LIMIT

HOST = "127.0.0.1"
LINES = {"A": 0, "B": 1, "R": 2}
# How long a turn waits for packets, in seconds. What is missing for two turns is asked for, since the other line may bring it.
TURN = 0.02
READ_FAULT = 74
# The refusals of a packet's bytes. The others are of the call: no line, no subscriber, or one that failed.
OF_A_PACKET = range(51, 64)


@dataclass(frozen=True)
class Taken:
    """What became of a packet's entries: how many were new, were known, and were too far ahead to be kept."""

    fresh: int
    repeated: int
    beyond: int


class Subscriber(Held):
    """A receiver of a session of a tape, with a tape of its own."""

    def __init__(self, symbols: Iterable[str], participants: Iterable[str], session: int, matrix: int = 1, limit: int = LIMIT) -> None:
        super().__init__(library.tapebox_subscribe, symbols, participants, matrix, limit, session_of(session))

    def deliver(self, line: str, packet: Buffer) -> Taken:
        """Takes a packet that came by line `A`, `B` or `R`, the retransmission. `Refused` has 51 to 57 or 61 to 64."""
        row, text = _library.Taken(), bytes_of(packet)
        code = self._call(library.tapebox_deliver, LINES.get(line, 3), text, len(text), row)
        if code:
            raise Refused(code, conflict=row.conflict)
        return Taken(row.fresh, row.repeated, row.beyond)

    def drain(self) -> int:
        """Replays what is ready, and gives how many entries that were. `Refused` has 31 to 44 if an entry is not that of an honest
        tape, and after it 64."""
        drained = ctypes.c_uint32()
        code = self._call(released.tapebox_drain, drained)
        if code:
            raise Refused(code, drained=drained.value)
        return drained.value

    def missing(self) -> bytes | None:
        """The bytes of a request for the first numbers that are missing, or None."""
        row = _library.Request()
        checked(self._call(library.tapebox_missing, row))
        return bytes(row.bytes) if row.count else None

    def _news(self) -> _library.News:
        row = _library.News()
        checked(self._call(library.tapebox_news_of, row))
        return row

    @property
    def brought(self) -> dict[str, int]:
        """How many entries each line, `A`, `B` and `R`, was the first to bring."""
        news = self._news()
        return {"A": news.brought_a, "B": news.brought_b, "R": news.brought_r}

    @property
    def has_gap(self) -> bool:
        """Whether more was announced than is held."""
        news = self._news()
        return news.held < news.announced

    @property
    def announced(self) -> int:
        """The greatest number that was announced."""
        return self._news().announced

    @property
    def ended(self) -> int | None:
        """How many entries the whole tape has, once its end is known."""
        news = self._news()
        return news.ended if news.is_ended else None

    def take(self, line: str, packet: Buffer) -> None:
        """Takes a packet of a line, and drops it if it is refused by 51 to 63: bytes that are none of the session's change nothing. `Refused`
        has 64 after a drain that stopped, 106 for a line that is none, and 102 once it was freed."""
        try:
            self.deliver(line, packet)
        except Refused as refusal:
            if refusal.code not in OF_A_PACKET:
                raise

    def follow(self, a: int, b: int, retransmission: int, host: str = HOST) -> Iterator[Entry]:
        """The entries of a running day as they come: by the UDP ports of the lines A and B, and from the TCP port of the retransmission for
        what is missing. It ends once the day's end is known and all is held. An OSError is that of a socket."""
        with open_line(a, host) as line_a, open_line(b, host) as line_b, socket.create_connection((host, retransmission)) as connection:
            lines, given, waited = {line_a: "A", line_b: "B"}, len(self), None
            while self.ended != len(self):
                for ready in select.select(lines, [], [], TURN)[0]:
                    self.take(lines[ready], ready.recv(LONGEST_PACKET + 1))
                self.drain()
                if (request := self.missing()) and request == waited:
                    for packet in ask(connection, request):
                        self.take("R", packet)
                    self.drain()
                waited = request
                yield from map(self.entry, range(given + 1, len(self) + 1))
                given = len(self)


def open_line(port: int, host: str = HOST) -> socket.socket:
    """A socket that receives a line's packets."""
    line = socket.socket(socket.AF_INET, socket.SOCK_DGRAM)
    try:
        line.bind((host, port))
    except OSError:
        line.close()
        raise
    return line


def ask(connection: socket.socket, request: bytes) -> list[bytes]:
    """The packets that a retransmission's connection answers to a request's bytes. `Refused` has 76 or 77; a ConnectionError says that the
    connection ended first."""
    connection.sendall(request)
    answer = b""
    while more := connection.recv(1 << 16):
        answer += more
        try:
            return read_answer(answer)[0]
        except Refused as refusal:
            if refusal.code != READ_FAULT:
                raise
    raise ConnectionError("the connection ended within an answer")
