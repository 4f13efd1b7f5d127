"""Seeded changes of the same six reports, in every order, as rows to be played: what a plain tape answers stands beside each step."""

import random

import plain_table
from plain_tape import Refused, Tape, encode
from play_rows import message_text, summary_text

REPORTS = [
    ("N", 1, 100_003, 100, "@___"),
    ("P", 1, 100_001, 200, "@_L_"),
    ("Q", 1, 100_005, 300, "@_Z_"),
    ("N", 2, 100_001, 400, "@_L_"),
    ("P", 2, 100_005, 500, "@___"),
    ("Q", 2, 100_002, 600, "@__M"),
]
PARTICIPANTS = "NPQ"
# The price, the size and the condition of a message that has none.
NOTHING = ("", "", "")
# What a report may be corrected to.
CONDITIONS = plain_table.CONDITIONS + plain_table.CONDITIONS_TWO
# The refusals that the changes meet.
REFUSALS = ["35 Stale", "36 UnknownSymbol", "37 NoSuchReport", "38 OtherSymbol", "39 Cancelled", "43 Standing", "44 NotInMatrix"]


def row_of(kind, who, number, symbol, target, content):
    """A message as a row of a table."""
    price, *rest = content
    fields = [kind, who, number, 0, symbol, target, price and plain_table.dollars(price), *rest]
    return dict(zip(plain_table.COLUMNS, fields))


def answer(tape, row):
    """What the plain tape answers to a message."""
    try:
        return tape.admit(encode(row))
    except Refused as refusal:
        return refusal


def change(dice, tape):
    """The message of the next change. The third number of a participant is no report's."""
    who = dice.choice(PARTICIPANTS)
    number = tape.totals(who)[2] + dice.randrange(4)
    symbol = {0: "EF", 1: "CD"}.get(dice.randrange(16), "AB")
    kind, target = dice.choice(["cancel", "reinstate", "correct"]), dice.randint(1, 3)
    content = (100_000 + dice.randrange(8), dice.randint(1, 900), dice.choice(CONDITIONS)) if kind == "correct" else NOTHING
    return row_of(kind, who, number, symbol, target, content)


def asked(tape):
    """What is asked after each change, with the answers."""
    yield f"summary AB -> {summary_text(tape.summary('AB'))}"
    for who in PARTICIPANTS:
        yield f"summary AB {who} -> {summary_text(tape.summary('AB', who))}"
        yield f"totals {who} -> messages {{}}, shares {{}}, last {{}}".format(*tape.totals(who))


def steps(matrix, seed, changes):
    """The steps of a row by a matrix: the reports, and so many changes, after each of which all is asked."""
    dice, tape = random.Random(seed), Tape(["AB", "CD"], list(PARTICIPANTS), 100_000, matrix)
    yield f"row Every order by Matrix {matrix}"
    yield f"tape AB CD / {' '.join(PARTICIPANTS)} limit 100000 matrix {matrix}"
    for who, number, *content in REPORTS:
        row = row_of("report", who, number, "AB", "", content)
        yield f"{message_text(row)} -> {answer(tape, row)}"
    for _ in range(changes):
        row, before = change(dice, tape), len(tape.entries)
        yield f"{message_text(row)} -> {answer(tape, row)}"
        if len(tape.entries) > before:
            yield f"entry {len(tape.entries)} -> {message_text(row)} after it {summary_text(tape.entries[-1].after)}"
        yield from asked(tape)


def script(seed, changes):
    """A row by each matrix."""
    return "".join(f"{step}\n" for matrix in "12" for step in steps(matrix, seed, changes))
