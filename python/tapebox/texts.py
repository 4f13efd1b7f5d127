"""The texts of a table (docs/FORMATS.md): its report, its readable tape, and what became of each of its reports.

    import tapebox
    print(tapebox.report(open("day.csv", "rb").read()))

A table that is asked for more than one is read once as a `Table`:

    with tapebox.Table(table) as day:
        day.report(), day.explain(matrix=2)
"""

import ctypes
from collections.abc import Callable

from ._library import Buffer, bytes_of, library, released, small
from ._owned import Owned
from .refusals import Refused


class Table(Owned):
    """A table that was read of its bytes. It is freed by `free`, by the end of a `with`, or with the object.

    `Refused` has 111 for bytes that are no table, and `why` then says what is wrong, as `row 3: size "0" is not 1 to 99999999 in at most 20
    digits`. It has 109 if memory runs out, as in each call.
    """

    KIND = "a table"

    def __init__(self, table: Buffer) -> None:
        self._begin()
        text = bytes_of(table)
        self._checked(released.tapebox_read_table(self._handle, text, len(text)))

    def report(self, matrix: int = 1) -> str:
        """The report, as `tapebox report` writes it. `Refused` has 104 for a matrix that is neither 1 nor 2, and 111 for too many symbols."""
        return self._made(released.tapebox_report, matrix)

    def tape(self, matrix: int = 1) -> str:
        """The readable tape, as `tapebox tape` writes it. Refused as `report`."""
        return self._made(released.tapebox_tape, matrix)

    def explain(self, matrix: int = 1) -> str:
        """What became of each report and which figures it sets, as `tapebox explain` writes it. Refused as `report`."""
        return self._made(released.tapebox_explain, matrix)

    def _made(self, call: Callable[..., int], matrix: int) -> str:
        with self._alone():
            return self._checked(call(self._handle, small(matrix)))

    def _checked(self, code: int) -> str:
        """The text that the handle holds, unless the call was refused."""
        length = library.tapebox_text_length(self._handle)
        row = ctypes.create_string_buffer(max(length, 1))
        library.tapebox_text_copy(self._handle, 0, row, length)
        text = row.raw[:length].decode()
        if code:
            raise Refused(code, why=text if code == 111 else "")
        return text


def report(table: Buffer, matrix: int = 1) -> str:
    """The report of a table's bytes. Refused as `Table` and `Table.report`."""
    with Table(table) as read:
        return read.report(matrix)


def tape(table: Buffer, matrix: int = 1) -> str:
    """The readable tape of a table's bytes. Refused as `report`."""
    with Table(table) as read:
        return read.tape(matrix)


def explain(table: Buffer, matrix: int = 1) -> str:
    """What became of each report of a table's bytes, and which figures it sets. Refused as `report`."""
    with Table(table) as read:
        return read.explain(matrix)
