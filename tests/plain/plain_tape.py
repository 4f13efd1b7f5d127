"""A plain tape, as a second opinion beside the proved one: a list of entries, and figures that are folded over it by the pages of docs/ alone."""

import functools
import re
from dataclasses import dataclass
from pathlib import Path

import plain_table
from plain_explain import cells_of

RULES = Path(__file__).resolve().parents[2] / "docs" / "RULES.md"
# The name of each refusal, by its number.
NAMES = {int(code): name for code, name in re.findall(r"\b(\d+) ([A-Z]\w+)", RULES.read_text(encoding="utf-8").split("\n## Refusals by number and name\n")[1])}
LENGTHS = {"R": 38, "X": 26, "S": 26, "C": 42}
LONGEST_BODY, PRICE_MOST, SIZE_MOST, TAPE_MOST, SYMBOLS_MOST, PARTICIPANTS_MOST = 64, 999_999_999_999, 99_999_999, 16_777_216, 4_096, 26


class Refused(Exception):
    """Why something is refused, by its number, and the number that comes with it, if one does."""

    def __init__(self, code, detail=0):
        super().__init__(f"{code} {NAMES[code]}")
        self.code, self.detail = code, detail


@dataclass(frozen=True)
class Mark:
    """A report that a summary names: its price in ten-thousandths of a dollar, its place and its participant."""

    price: int
    place: int
    who: str


@dataclass(frozen=True)
class Summary:
    """The figures of a symbol, or of a participant in it."""

    open: Mark | None
    high: Mark | None
    low: Mark | None
    last: Mark | None
    volume: int
    trades: int


@dataclass(frozen=True)
class Entry:
    """An entry of a tape: its number, its message's bytes, and the summary that it carries, if its kind does."""

    number: int
    message: bytes
    after: Summary | None


@dataclass
class Report:
    """A report with what it says now."""

    place: int
    who: str
    symbol: str
    price: int
    size: int
    condition: str
    stands: bool = True


def number_at(data, at, size):
    """The number in so many bytes from a place on."""
    return int.from_bytes(data[at : at + size], "big")


def content_checks(content):
    """The checks of a price, a size and a condition, each with its refusal."""
    yield 19, 1 <= number_at(content, 0, 8) <= PRICE_MOST
    yield 20, 1 <= number_at(content, 8, 4) <= SIZE_MOST
    yield 21, all(code in codes.replace("_", " ") for code, codes in zip(content[12:].decode("latin-1"), plain_table.POSITIONS))


def checks(body):
    """The checks of a message's bytes without their length, in their order, each with its refusal. Each presumes those before it."""
    kind = chr(body[0])
    yield 13, kind in LENGTHS
    yield 14, len(body) == LENGTHS.get(kind)
    yield 15, b"A" <= body[1:2] <= b"Z"
    yield 16, number_at(body, 2, 4) > 0
    yield 17, re.fullmatch(rb"[A-Z0-9.]{1,8} *", body[14:22])
    if kind != "R":
        yield 18, number_at(body, 22, 4) > 0
    if kind in "RC":
        yield from content_checks(body[-16:])


def decode(data):
    """The message at the front of bytes: its row, by the columns of a table, and how many bytes it has. Refused: 11 to 21."""
    length = number_at(data, 0, 2)
    if len(data) >= 2 and not 1 <= length <= LONGEST_BODY:
        raise Refused(11)
    if len(data) < max(2, 2 + length):
        raise Refused(12)
    for code, is_good in checks(data[2 : 2 + length]):
        if not is_good:
            raise Refused(code)
    return dict(zip(plain_table.COLUMNS, plain_table.row_of(data[: 2 + length]))), 2 + length


def encode(row):
    """The bytes of a row of a table."""
    return plain_table.message({column: str(field) for column, field in row.items()})


@functools.cache
def listed_cells(matrix, condition):
    """The cells of a condition by a matrix; or none, if the matrix does not have it."""
    try:
        return "" if condition[0] == "_" else "".join(cells_of(matrix, condition))
    except KeyError:
        return ""


def is_listed(matrix, condition):
    """Whether a matrix has a condition."""
    return bool(listed_cells(matrix, condition))


def cells(matrix, condition):
    """The cells of a condition by a matrix. Refused: 21 if neither matrix has it, 44."""
    if not any(is_listed(one, condition) for one in "12"):
        raise Refused(21)
    if not is_listed(matrix, condition):
        raise Refused(44)
    return listed_cells(matrix, condition)


def fold(matrix, reports, own):
    """The summary of reports that stand, by rising place: by a participant's own cells, or by the consolidated ones."""
    first = high = low = last = None
    volume = 0
    for report in reports:
        mark, of = Mark(report.price, report.place, report.who), listed_cells(matrix, report.condition)
        high_low, rule = of[2:4] if own else of[:2]
        if rule == "Y" or rule in "SF" and last is None or rule == "S" and last.who == report.who:
            first, last = first or mark, mark
        if high_low == "Y":
            high = mark if high is None or mark.price > high.price else high
            low = mark if low is None or mark.price < low.price else low
        volume += report.size * (of[4] == "Y")
    return Summary(first, high, low, last, volume, len(reports))


class Tape:
    """The tape of a day. Refused: 5, and 1 to 3 for its names."""

    def __init__(self, symbols, participants, limit, matrix):
        listed = [(symbols, SYMBOLS_MOST), (participants, PARTICIPANTS_MOST)]
        for code, is_bad in [
            (5, not 1 <= limit <= TAPE_MOST),
            (1, not symbols or not participants),
            (2, any(len(names) > most for names, most in listed)),
            (3, any(len(set(names)) < len(names) for names, _ in listed)),
        ]:
            if is_bad:
                raise Refused(code)
        self.symbols, self.participants, self.limit, self.matrix, self.closed = symbols, participants, limit, matrix, False
        self.entries = []
        # By participant and number.
        self.reports = {}
        # Of each participant how many messages it has on the tape, the shares of its reports, and its greatest number.
        self.sent = dict.fromkeys(participants, (0, 0, 0))

    def close(self):
        """Ends the day."""
        self.closed = True

    def summary(self, symbol, who=None):
        """The summary of a symbol, of all or of a participant. Refused: 36, 34."""
        if symbol not in self.symbols:
            raise Refused(36)
        if who is not None and who not in self.sent:
            raise Refused(34)
        shown = [report for report in self.reports.values() if report.stands and report.symbol == symbol and who in (None, report.who)]
        return fold(self.matrix, shown, who is not None)

    def totals(self, who):
        """How many messages a participant has on the tape, the shares of its reports, and its greatest number."""
        return self.sent.get(who, (0, 0, 0))

    def admit(self, message):
        """The tape number of the message that the bytes are. Refused: those of its bytes, 23, and a tape's and a target's."""
        row, length = decode(message)
        for code, is_bad in [
            (23, length < len(message)),
            (31, self.closed),
            (32, len(self.entries) >= self.limit),
            (34, row["participant"] not in self.sent),
            (35, row["number"] <= self.totals(row["participant"])[2]),
            (36, row["symbol"] not in self.symbols),
            (44, row["condition"] and not is_listed(self.matrix, row["condition"])),
        ]:
            if is_bad:
                raise Refused(code)
        self.change(row)
        messages, shares, _ = self.totals(row["participant"])
        shares += row["size"] if row["kind"] == "report" else 0
        self.sent[row["participant"]] = messages + 1, shares, row["number"]
        after = None if row["kind"] == "report" else self.summary(row["symbol"])
        self.entries.append(Entry(len(self.entries) + 1, message, after))
        return len(self.entries)

    def change(self, row):
        """Makes the change of a message. Refused: those of its target, and then nothing is changed."""
        who, kind, symbol = row["participant"], row["kind"], row["symbol"]
        content = (plain_table.ten_thousandths(row), row["size"], row["condition"]) if row["condition"] else None
        if kind == "report":
            self.reports[who, row["number"]] = Report(len(self.entries) + 1, who, symbol, *content)
            return
        report = self.reports.get((who, row["target"]))
        if report is None:
            raise Refused(37)
        if report.symbol != symbol:
            raise Refused(38)
        if report.stands == (kind == "reinstate"):
            raise Refused(43 if report.stands else 39)
        report.stands = kind != "cancel"
        if content:
            report.price, report.size, report.condition = content
