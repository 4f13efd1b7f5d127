"""A tape of which the day's report alone tells, as a player of rows takes it: each answer is that of `tapebox report` over the messages so far."""

import csv
import re

import plain_table
from plain_tape import Mark, Refused, Summary, decode, encode  # noqa: F401
from support import desk

# A line of standard error: how many rows were refused, and by which number.
REFUSED = re.compile(r"tapebox: (\d+) of \d+ rows? refused: (\d+) ")
MARKS = ("open", "high", "low", "last")
# Who a report's row is of that is no participant's.
ALL = "ALL"


def mark_of(row, name):
    """A mark of a report's row, whose participant the report does not tell; or none."""
    return Mark(int(row[name]), int(row[f"{name}_at"]), "") if row[name] else None


def summary_of(row):
    """The summary that a report's row has."""
    return Summary(*(mark_of(row, name) for name in MARKS), int(row["volume"]), int(row["trades"]))


class Tape:
    """The tape of a table's messages."""

    def __init__(self, symbols, participants, _limit, matrix):
        self.symbols, self.participants, self.matrix = symbols, participants, matrix
        self.messages, self.admitted, self.refused, self.rows = [], [], {}, {}

    def report(self):
        """Reports the messages so far: the rows, and how many were refused by each number."""
        ended = desk("report", matrix=self.matrix, given=plain_table.table(self.messages))
        rows = csv.DictReader(ended.written.decode().splitlines())
        self.rows = {(row["symbol"], row["who"]): summary_of(row) for row in rows}
        self.refused = {int(code): int(count) for count, code in REFUSED.findall(ended.said.decode())}

    def admit(self, message):
        """The tape number of a message. Refused: what the report counts then, and did not before."""
        before = self.refused
        self.messages.append(message)
        self.report()
        for code, count in self.refused.items():
            if count > before.get(code, 0):
                raise Refused(code)
        self.admitted.append(message)
        return len(self.admitted)

    def sender(self, mark):
        """A mark with its participant: that of the report at its place."""
        return mark and Mark(mark.price, mark.place, decode(self.admitted[mark.place - 1])[0]["participant"])

    def summary(self, symbol, who=None):
        """The summary of a symbol, of all or of a participant. Refused: 36, 34."""
        if symbol not in self.symbols:
            raise Refused(36)
        if who is not None and who not in self.participants:
            raise Refused(34)
        found = self.rows.get((symbol, who or ALL), Summary(None, None, None, None, 0, 0))
        return Summary(*(self.sender(getattr(found, name)) for name in MARKS), found.volume, found.trades)
