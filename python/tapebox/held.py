"""What a tape and a subscriber share: both hold a tape that is read in the same way."""

import ctypes
from collections.abc import Callable, Iterable, Iterator
from typing import TYPE_CHECKING

from . import _library
from ._library import LONGEST_ANSWER, NUMBER_MOST, Buffer, bytes_of, checked, letter_of, library, session_of, small
from ._owned import Owned
from .records import ENTRY, Entry, Summary, Totals, entries_of, entry_of, summary_of
from .refusals import Refused

if TYPE_CHECKING:
    import pandas

# How many entries an iterator reads at once.
AT_ONCE = 256
# No line of names, and refused by 9.
NO_NAMES = b" "


def line_of(names: Iterable[str]) -> bytes:
    """The names with spaces between them. `NO_NAMES` if one is empty or has a space, so that it is refused and not taken for two."""
    listed = list(names)
    return NO_NAMES if any(not name or " " in name for name in listed) else " ".join(listed).encode()


class Held(Owned):
    """A tape, or a subscriber's own. It is freed by `free`, by the end of a `with`, or with the object. `len` is how many entries it has,
    and its iterator gives them in order, also those that come while it runs."""

    KIND = "a tape"

    def __init__(
        self, opener: Callable[..., int], symbols: Iterable[str], participants: Iterable[str], matrix: int, limit: int, *rest: int
    ) -> None:
        self._begin()
        first, second = line_of(symbols), line_of(participants)
        checked(self._call(opener, first, len(first), second, len(second), small(matrix), small(limit), *rest))

    def __len__(self) -> int:
        return self._call(library.tapebox_count)

    def __iter__(self) -> Iterator[Entry]:
        number, rows = 1, (_library.EntryRow * AT_ONCE)()
        while count := self._read(number, rows):
            yield from entries_of(memoryview(rows).cast("B")[: count * ENTRY.size])
            number += count

    def _read(self, number: int, rows: "ctypes.Array[_library.EntryRow]") -> int:
        """Reads the entries from a number on into rows, and returns how many there are."""
        with self._alone():
            count = max(min(library.tapebox_count(self._handle) - number + 1, len(rows)), 0)
            entry, at = _library.entry_at, ctypes.addressof(rows)
            for each in range(number, number + count):
                if code := entry(self._handle, each, at):
                    raise Refused(code)
                at += ENTRY.size
            return count

    def summary(self, symbol: str, participant: str | None = None) -> Summary:
        """The figures of a symbol, or of a participant in it. `Refused` has 36 or 34 if the one or the other is not listed."""
        row, name = _library.Figures(), symbol.encode()
        if participant is None:
            checked(self._call(library.tapebox_summary, name, len(name), row))
        else:
            checked(self._call(library.tapebox_summary_of, name, len(name), letter_of(participant), row))
        return summary_of(row)

    def summaries(self) -> Iterator[tuple[str, str | None, Summary]]:
        """The rows of the report: each symbol with None and its figures, and after it each participant that has trades in it, and its own."""
        participants = self.participants
        for symbol in self.symbols:
            yield symbol, None, self.summary(symbol)
            for who in participants:
                own = self.summary(symbol, who)
                if own.trades:
                    yield symbol, who, own

    def entry(self, number: int) -> Entry:
        """The entry of a tape number, from 1. `Refused` has 105 if there is none."""
        row = _library.EntryRow()
        checked(self._call(library.tapebox_entry, small(number), row))
        return entry_of(row)

    def to_frame(self) -> "pandas.DataFrame":
        """The entries as a frame of pandas, a row each, with the columns of `tables.COLUMNS`. Columns of numbers are of the nullable
        types Int64 and UInt64, and prices are `Decimal`. It needs pandas, as nothing else here does."""
        import pandas

        from .tables import COLUMNS, WHOLE, WIDE, row_of

        frame = pandas.DataFrame.from_records([row_of(entry) for entry in self], columns=list(COLUMNS))
        return frame.astype(dict.fromkeys(WHOLE, "Int64") | dict.fromkeys(WIDE, "UInt64"))

    def totals(self, participant: str) -> Totals:
        """What a participant has sent, zeros for one that is not listed. `Refused` has 34 if it is no letter."""
        row = _library.Totals()
        checked(self._call(library.tapebox_totals, letter_of(participant), row))
        return Totals(row.shares, row.messages, row.last)

    @property
    def symbols(self) -> list[str]:
        """The symbols of the listing, in their order."""
        names: list[str] = []
        row = _library.Name()
        while not (code := self._call(library.tapebox_symbol, len(names), row)):
            names.append(bytes(row.bytes).decode().rstrip())
        if code != 36:
            raise Refused(code)
        return names

    @property
    def participants(self) -> list[str]:
        """The letters of the listing's participants, in their order."""
        letters: list[str] = []
        letter = ctypes.c_uint8()
        while not (code := self._call(library.tapebox_participant, len(letters), letter)):
            letters.append(chr(letter.value))
        if code != 34:
            raise Refused(code)
        return letters

    def packet(self, first: int, *, session: int, last: int = NUMBER_MOST, version: int = 2) -> bytes:
        """The bytes of the packet of the entries from `first` on: as many as the version takes, but none above `last`."""
        row = _library.Packet()
        checked(self._call(library.tapebox_cut, small(version), session_of(session), small(first), small(last), row))
        return ctypes.string_at(row.bytes, row.len)

    def answer(self, request: Buffer, *, session: int, version: int = 2) -> bytes:
        """The bytes that answer a request's bytes, over what is on the tape. A request that can't be served is answered by one byte."""
        asked = bytes_of(request)
        row, length = ctypes.create_string_buffer(LONGEST_ANSWER), ctypes.c_size_t()
        checked(self._call(library.tapebox_serve, small(version), session_of(session), asked, len(asked), row, len(row), length))
        return row.raw[: length.value]
