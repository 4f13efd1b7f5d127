"""A plain reader of desks' tables, as a second opinion beside tapebox's: the bytes of their messages, or the first fault in its words."""

import csv
import io
import re

COLUMNS = ["kind", "participant", "number", "moment", "symbol", "target", "price", "size", "condition"]
# The columns that a readable tape has besides.
ANSWER, FIGURES = ["tape", "refused"], ["open", "high", "low", "last", "volume", "trades"]
OPTIONAL = {"kind", "moment", "target"}
WORDS = {"R": "report", "X": "cancel", "C": "correct", "S": "reinstate"}
LETTERS = {word: letter for letter, word in WORDS.items()} | {letter: letter for letter in WORDS}
RULES = {
    "kind": "report, cancel, correct or reinstate, or R, X, C or S",
    "participant": "A to Z",
    "number": "1 to 4294967295 in at most 20 digits",
    "moment": "0 to 18446744073709551615 in at most 20 digits",
    "symbol": "1 to 8 of A to Z, 0 to 9 and .",
    "target": "1 to 4294967295 in at most 20 digits",
    "price": "0.0001 to 99999999.9999 with at most 20 digits and four decimals",
    "size": "1 to 99999999 in at most 20 digits",
    "condition": "the four codes of a sale condition, with _ for a blank",
}
# The codes of each position of a condition, by either matrix, and those of the last position that Matrix Two alone has.
POSITIONS = ["@CNR", "_FO56479", "_LZTU", "_ABDSXY1HIVWPGMQ23"]
TWO_ALONE = "23"
NEUTRAL = "@___"
# The number of the row below the header row, and how many bytes of a field a fault shows and keeps.
FIRST_ROW = 2
SHOWN, KEPT = 40, 41
MARK = b"\xef\xbb\xbf"
# Separators that other tables have, in words.
SEPARATORS = {";": "a semicolon", "\t": "a tab", "|": "a vertical bar"}

csv.field_size_limit(1 << 30)


def condition_of(position, code):
    """The condition with this code, and with what restricts nothing in the other positions."""
    return NEUTRAL[: position - 1] + code + NEUTRAL[position:]


# Conditions that days are drawn from: one of each code, which is the neutral one four times, and several codes in one. Then those of Matrix Two alone.
SINGLE = [condition_of(position, code) for position, codes in enumerate(POSITIONS, 1) for code in codes]
CONDITIONS_TWO = [condition for condition in SINGLE if condition[-1] in TWO_ALONE]
CONDITIONS = [condition for condition in SINGLE if condition not in CONDITIONS_TWO] + ["@FTI"]


class TableFault(Exception):
    """Why a text is no table."""


def shown(text):
    """The front of a field as a fault shows it."""
    return "".join(sign if " " <= sign <= "~" and sign not in '"\\' else f"\\x{ord(sign):02x}" for sign in text[:SHOWN])


def quoted(text):
    """A field in quotation marks, with two dots behind them if it is cut."""
    return f'"{shown(text)}"' + (".." if len(text) > SHOWN else "")


def open_quote(text):
    """What is said of a field with a line end, of which a fault keeps one byte more than it shows."""
    return "; a quote is not closed, or a field has a line end" if re.search("[\n\r]", text) else ""


def wrong_code(text):
    """Which of a condition's four codes is wrong, and its position."""
    wrong = [(code, at) for at, (code, known) in enumerate(zip(text, POSITIONS), 1) if code not in known] if len(text) == len(POSITIONS) else []
    return "".join(f': "{shown(code)}" is no code of position {at}' for code, at in wrong[:1])


def bad(row, column):
    """The fault of a field that is none of its column's values."""
    detail = wrong_code(row[column]) if column == "condition" else ""
    return TableFault(f"{column} {quoted(row[column])} is not {RULES[column]}{detail}{open_quote(row[column][:KEPT])}")


def checked(row, column, pattern):
    """A field that has this form."""
    if not re.fullmatch(pattern, row[column]):
        raise bad(row, column)
    return row[column]


def whole(row, column, least, most):
    """A number between two others."""
    number = int(checked(row, column, "[0-9]{1,20}"))
    if not least <= number <= most:
        raise bad(row, column)
    return number


def ten_thousandths(row):
    """The price, exactly."""
    dollars, _, decimals = checked(row, "price", r"[0-9]{1,20}(\.[0-9]{1,4})?").partition(".")
    price = int(dollars + decimals.ljust(4, "0"))
    if not 1 <= price <= 999_999_999_999:
        raise bad(row, "price")
    return price


def content(row):
    """The price, the size and the condition as bytes."""
    price, size = ten_thousandths(row), whole(row, "size", 1, 99_999_999)
    codes = row["condition"]
    if len(codes) != len(POSITIONS) or not all(code in codes_here for code, codes_here in zip(codes, POSITIONS)):
        raise bad(row, "condition")
    return price.to_bytes(8, "big") + size.to_bytes(4, "big") + codes.replace("_", " ").encode()


def without(row, *columns):
    """No bytes, of fields that have to be empty."""
    for column in columns:
        if row[column]:
            raise TableFault(f"{column} {quoted(row[column])} has to be empty in a row of this kind{open_quote(row[column][:KEPT])}")
    return b""


def message(row):
    """The bytes of a row's message. The row has a field for each column but those that may be missing."""
    row = {"kind": "report", "moment": "", "target": ""} | row
    kind = LETTERS.get(row["kind"])
    if kind is None:
        raise bad(row, "kind")
    participant = checked(row, "participant", "[A-Z]")
    number = whole(row, "number", 1, 4_294_967_295)
    moment = whole(row, "moment", 0, 2**64 - 1) if row["moment"] else 0
    symbol = checked(row, "symbol", "[A-Z0-9.]{1,8}").ljust(8)
    body = (kind + participant).encode() + number.to_bytes(4, "big") + moment.to_bytes(8, "big") + symbol.encode()
    body += without(row, "target") if kind == "R" else whole(row, "target", 1, 4_294_967_295).to_bytes(4, "big")
    body += without(row, "price", "size", "condition") if kind in "XS" else content(row)
    return len(body).to_bytes(2, "big") + body


def hint(name):
    """What the front of a name that is no column's suggests."""
    if name.startswith("\x1f\x8b"):
        return "; the table is compressed: pipe it through gzip -dc"
    if name.startswith(("\xff\xfe", "\xfe\xff")) or len(name) > 1 and "\0" in name[:2]:
        return "; the table is in UTF-16: pipe it through iconv -f UTF-16 -t UTF-8"
    if re.search("[,\n\r]", name):
        return "; a quote is not closed, or a name has a comma or a line end"
    found = [SEPARATORS[sign] for sign in name if sign in SEPARATORS]
    return f"; names have commas between them, and here stands {found[0]}" if found else f"; names are in lower case, and #{shown(name)} would be skipped"


def check_names(names):
    """Ends at the first fault of a header row."""
    for at, name in enumerate(names):
        if name.startswith("#") or name in ANSWER + FIGURES:
            continue
        if name not in COLUMNS:
            raise TableFault(f"header row: column {quoted(name)} is unknown{hint(name[:KEPT])}")
        if name in names[:at]:
            raise TableFault(f"header row: column {name} stands twice")
    for name in COLUMNS:
        if name not in names and name not in OPTIONAL:
            raise TableFault(f"header row: column {name} is missing")


def message_of(names, fields):
    """The bytes of the message of a row's fields, under the names of a header row."""
    if len(fields) != len(names):
        raise TableFault(f"{len(fields)} fields, and the header row has {len(names)}{open_quote(fields[-1])}")
    return message(dict(zip(names, fields)))


def records_of(text):
    """The records of a table's text, which is given as bytes. A blank line is none."""
    return [fields for fields in csv.reader(io.StringIO(text.removeprefix(MARK).decode("latin-1"), newline="")) if fields]


def faults(text):
    """Every fault of a table's text."""
    records = records_of(text)
    try:
        check_names(records[0] if records else COLUMNS)
    except TableFault as fault:
        return [str(fault)]
    found = [] if records[1:] else ["the table has no row"]
    for number, fields in enumerate(records[1:], FIRST_ROW):
        try:
            message_of(records[0], fields)
        except TableFault as fault:
            found.append(f"row {number}: {fault}")
    return found


def read(text):
    """The bytes of each message of a table, whose text is given as bytes."""
    records = records_of(text)
    if records:
        check_names(records[0])
    if len(records) < FIRST_ROW:
        raise TableFault("the table has no row")
    messages = []
    for number, fields in enumerate(records[1:], FIRST_ROW):
        try:
            messages.append(message_of(records[0], fields))
        except TableFault as fault:
            raise TableFault(f"row {number}: {fault}") from None
    return messages


def symbol_of(text):
    """The symbol of a message's bytes."""
    return text[16:24].rstrip(b" ").decode()


def batch_line(text):
    """A batch's line of a message's bytes."""
    return f"{chr(text[3])} {text.hex()}\n".encode()


def batch(messages):
    """The batch's input that lists the names of messages in the order of their appearance, as bytes."""
    symbols = dict.fromkeys(map(symbol_of, messages))
    participants = dict.fromkeys(chr(text[3]) for text in messages)
    return f"{' '.join(symbols)}\n{' '.join(participants)}\n".encode() + b"".join(map(batch_line, messages))


def dollars(price):
    """A price in dollars: with two decimals if it is whole cents, else with four."""
    text = f"{price // 10_000}.{price % 10_000:04}"
    return text.removesuffix("00") if price % 100 == 0 else text


def row_of(text):
    """The fields of the canonical row of a message's bytes."""
    kind, rest, target, traded = chr(text[2]), text[24:], "", ["", "", ""]
    if kind != "R":
        target, rest = int.from_bytes(rest[:4], "big"), rest[4:]
    if rest:
        price, size = int.from_bytes(rest[:8], "big"), int.from_bytes(rest[8:12], "big")
        traded = [dollars(price), size, rest[12:].decode().replace(" ", "_")]
    number, moment = int.from_bytes(text[4:8], "big"), int.from_bytes(text[8:16], "big")
    return [WORDS[kind], chr(text[3]), number, moment, symbol_of(text), target, *traded]


def is_message(text):
    """Whether bytes spell a message, and nothing more."""
    try:
        return message(dict(zip(COLUMNS, map(str, row_of(text))))) == text
    except (IndexError, KeyError, TableFault, ValueError):
        return False


def table(messages):
    """The canonical table of messages, as bytes."""
    file = io.StringIO(newline="")
    csv.writer(file, lineterminator="\n").writerows([COLUMNS, *map(row_of, messages)])
    return file.getvalue().encode()
