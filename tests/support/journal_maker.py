"""Makes a day's journal of messages, by docs/FORMATS.md alone."""

import hashlib

import plain_table
from plain_journal import DIGEST, MAGIC, VERSION, Journal, group_text
from plain_tape import Refused, Tape

SESSION, LIMIT = 7, 1_048_576
# How many entries the groups have, one after another; the last size is that of all further groups.
SIZES = (1, 2, 16, 17, 40)


def header_text(matrix, symbols, participants):
    """The bytes of a journal's header."""
    names = len(symbols).to_bytes(2, "big") + b"".join(symbol.encode().ljust(8) for symbol in symbols)
    letters = bytes([len(participants)]) + "".join(participants).encode()
    text = MAGIC + bytes([VERSION]) + SESSION.to_bytes(8, "big") + bytes([int(matrix)]) + LIMIT.to_bytes(4, "big") + names + letters
    return text + hashlib.sha256(text).digest()


def journal_of(entries, matrix, symbols, participants, sizes=SIZES):
    """The bytes of the journal of entries, whatever they are, in groups of these sizes."""
    text, sizes = header_text(matrix, symbols, participants), list(sizes)
    while entries:
        size = sizes.pop(0) if len(sizes) > 1 else sizes[0]
        # The digest that a group follows is at the end of what stands before it.
        before = Journal(SESSION, int(matrix), LIMIT, symbols, participants, len(text), text[-DIGEST:])
        text += group_text(before, entries[:size])
        entries = entries[size:]
    return text


def day_of(table, matrix, symbols=None, participants=None):
    """The tape of a table's messages, without those that it refuses, and the names that it lists: those that appear, unless others are given."""
    messages = plain_table.read(table)
    symbols = symbols or [*dict.fromkeys(map(plain_table.symbol_of, messages))]
    participants = participants or [*dict.fromkeys(chr(text[3]) for text in messages)]
    tape = Tape(symbols, participants, LIMIT, str(matrix))
    for text in messages:
        try:
            tape.admit(text)
        except Refused:
            continue
    return tape


def journal(tape, sizes=SIZES):
    """The bytes of the journal of a tape."""
    return journal_of(tape.entries, tape.matrix, tape.symbols, tape.participants, sizes)


def table(tape):
    """The table of a tape's messages."""
    return plain_table.table([entry.message for entry in tape.entries])
