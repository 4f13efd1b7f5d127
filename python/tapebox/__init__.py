"""A proved trade tape, its sender, its subscriber and the texts of a table in this process.

    with tapebox.Tape.from_csv("samples/morning.csv") as tape:
        print(tape.summary("AB").last.price)

The calls are those of the C library (clib/tapebox.h), which is proved; nothing is proved of this package. If a call is refused it raises
`Refused`, which has the refusal's number and name (docs/RULES.md). The library is found by $TAPEBOX_LIBRARY, else beside this file, else
where clib/build leaves it in the repository.
"""

from ._library import LONGEST_ANSWER, LONGEST_PACKET
from .feeds import Packet, Request, beat, cells, end, read_answer
from .held import Held
from .records import Entry, Mark, Message, Summary, Totals, decode_many, encode_many
from .refusals import NAMES, Refused
from .subscriber import Subscriber, Taken, ask, open_line
from .tables import BadTable, RefusedRow
from .tapes import Tape
from .texts import Table, explain, report, tape

__version__ = "1.0"
__all__ = [
    "LONGEST_ANSWER",
    "LONGEST_PACKET",
    "NAMES",
    "BadTable",
    "Entry",
    "Held",
    "Mark",
    "Message",
    "Packet",
    "Refused",
    "RefusedRow",
    "Request",
    "Subscriber",
    "Summary",
    "Table",
    "Taken",
    "Tape",
    "Totals",
    "ask",
    "beat",
    "cells",
    "decode_many",
    "encode_many",
    "end",
    "explain",
    "open_line",
    "read_answer",
    "report",
    "tape",
]
