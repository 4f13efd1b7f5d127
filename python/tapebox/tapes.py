"""A tape of a day."""

import ctypes
import os
from collections.abc import Iterable, Sequence
from decimal import Decimal

from . import _library
from ._library import Buffer, bytes_of, checked, library, released
from .held import Held
from .records import SHORTEST_MESSAGE, Message, Summary, summary_of
from .refusals import Refused
from .tables import RefusedRow, read_table

# The most entries of a tape, unless another limit is given, and of any tape.
LIMIT = 1_048_576
LIMIT_MOST = 16_777_216


class Tape(Held):
    """A tape of a day: `Tape(["AB"], "NQ")`, for at most `limit` entries, by matrix 1 or 2. `refused` are the rows of the table that it was
    read from which it refused."""

    def __init__(self, symbols: Iterable[str], participants: Iterable[str], matrix: int = 1, limit: int = LIMIT) -> None:
        super().__init__(library.tapebox_open, symbols, participants, matrix, limit)
        self._answer = _library.Answer()
        self.refused: list[RefusedRow] = []

    @classmethod
    def from_csv(cls, path: str | os.PathLike[str], matrix: int = 1, limit: int = LIMIT_MOST) -> "Tape":
        """The tape of a table's messages, with its names in the order of their appearance, as `tapebox report` makes it.

        What the table has to be is in docs/FORMATS.md. A message that the tape refuses changes nothing, and is kept in `refused`.
        `BadTable` names the first row that is no message.
        """
        messages = read_table(path)
        tape = cls(dict.fromkeys(row.symbol for row, _ in messages), dict.fromkeys(row.participant for row, _ in messages), matrix, limit)
        for number, (message, text) in enumerate(messages, 2):
            try:
                tape.admit(text)
            except Refused as refusal:
                if refusal.code == 40:
                    raise MemoryError("a tape's memory ran out") from refusal
                tape.refused.append(RefusedRow(number, message, refusal))
        return tape

    def admit(self, message: Buffer) -> int:
        """Admits the message that the bytes are, and gives its tape number. `Refused` has 11 to 23 of the bytes, and 31 to 44 of the tape."""
        text = bytes_of(message)
        with self._alone():
            code = library.tapebox_admit(self._handle, text, len(text), self._answer)
            number = self._answer.number
        if code:
            raise Refused(code)
        return number

    def admit_many(self, messages: Buffer) -> Sequence[int]:
        """Admits the messages that stand one after another in the bytes, and gives for each 0 if it was admitted, else the number of its refusal,
        as a view of numbers. Those that are admitted have the next tape numbers in their order. At bytes that begin with no message, and if
        a part of a message is left, `Refused` has 11 to 21, and `taken`, how many bytes were answered before."""
        # One more than the messages that fit, so that the bytes after the last of them are looked at too.
        text = bytes_of(messages)
        room = len(text) // SHORTEST_MESSAGE + 1
        numbers, row = (ctypes.c_uint32 * room)(), _library.Many()
        code = self._call(released.tapebox_admit_many, text, len(text), numbers, room, row)
        if code:
            raise Refused(code, taken=row.taken)
        return memoryview(numbers).cast("B").cast("I")[: row.answered]

    @property
    def carried(self) -> Summary | None:
        """The summary that the last admitted entry carries, if its kind does."""
        return summary_of(self._answer.after) if self._answer.carries else None

    def report(self, participant: str, number: int, symbol: str, price: Decimal | str | int, size: int, condition: str, moment: int = 0) -> int:
        """Admits a report."""
        return self.admit(Message("R", participant, number, symbol, 0, price, size, condition, moment).encode())

    def cancel(self, participant: str, number: int, symbol: str, target: int, moment: int = 0) -> int:
        """Admits a cancel of the participant's report of the number `target`."""
        return self.admit(Message("X", participant, number, symbol, target, moment=moment).encode())

    def correct(
        self, participant: str, number: int, symbol: str, target: int, price: Decimal | str | int, size: int, condition: str, moment: int = 0
    ) -> int:
        """Admits a correction of the participant's report of the number `target`."""
        return self.admit(Message("C", participant, number, symbol, target, price, size, condition, moment).encode())

    def reinstate(self, participant: str, number: int, symbol: str, target: int, moment: int = 0) -> int:
        """Admits a reinstatement of the participant's cancelled report of the number `target`."""
        return self.admit(Message("S", participant, number, symbol, target, moment=moment).encode())

    def close(self) -> None:
        """Closes the day: the tape admits nothing more, and can still be read."""
        checked(self._call(library.tapebox_close))
