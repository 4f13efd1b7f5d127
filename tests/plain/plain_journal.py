"""A plain reader of a day's journal, by docs/FORMATS.md alone, and what a write leaves that was cut off."""

import hashlib
from dataclasses import dataclass, field

from plain_feed import LONGEST_PACKET, Packet, decode_packet, encode_packet
from plain_tape import Refused, Tape

MAGIC, VERSION, DIGEST = b"tapejrnl", 1, 32
# The version of a journal's packets, and how many entries each but the last of a group has.
PACKETS, MOST = 2, 16
# The refusal of bytes that a packet stands at the front of.
TRAILING = 57


class NoHeader(ValueError):
    """Says why bytes do not begin with a journal's header."""


class Torn(ValueError):
    """The bytes end before a group does."""


class Damaged(ValueError):
    """The bytes are no group of the journal, and do not end before one does."""


class Cursor:
    """Bytes that are read from a place on."""

    def __init__(self, data, at=0):
        self.data, self.at = data, at

    def take(self, count, short=Torn):
        """The next bytes, so many."""
        text = self.data[self.at : self.at + count]
        if len(text) < count:
            raise short("the journal ends within its header" if short is NoHeader else f"cut off at {len(self.data)}")
        self.at += count
        return text

    def number(self, size, short=Torn):
        """The number in so many bytes."""
        return int.from_bytes(self.take(size, short), "big")


@dataclass(frozen=True)
class Group:
    """A group: where its bytes begin and end, and its entries."""

    begins: int
    ends: int
    entries: tuple


@dataclass
class Journal:
    """A journal: what its header says, its groups up to the first that is not whole, where these end, their digest, and why they do."""

    session: int
    matrix: int
    limit: int
    symbols: tuple
    participants: str
    whole: int
    digest: bytes
    groups: list = field(default_factory=list)
    fault: ValueError | None = None

    @property
    def entries(self):
        """The entries of all groups."""
        return [entry for group in self.groups for entry in group.entries]

    def lasts(self):
        """Of each participant with an entry, in the header's order, how many it has and the number of its last message."""
        numbers = {who: [] for who in self.participants}
        for entry in self.entries:
            numbers[chr(entry.message[3])].append(int.from_bytes(entry.message[4:8], "big"))
        return {who: (len(own), own[-1]) for who, own in numbers.items() if own}


def read_header(data):
    """The journal that begins so, without its groups. NoHeader says why it does not."""
    cursor = Cursor(data)
    if cursor.take(len(MAGIC), NoHeader) != MAGIC:
        raise NoHeader("no journal")
    if cursor.number(1, NoHeader) != VERSION:
        raise NoHeader("the journal is of another version")
    session, matrix, limit = (cursor.number(size, NoHeader) for size in (8, 1, 4))
    symbols = [cursor.take(8, NoHeader) for _ in range(cursor.number(2, NoHeader))]
    participants = cursor.take(cursor.number(1, NoHeader), NoHeader)
    digest = hashlib.sha256(data[: cursor.at]).digest()
    if cursor.take(DIGEST, NoHeader) != digest:
        raise NoHeader("the journal's header is damaged")
    # Names are names only if the digest is right.
    return Journal(session, matrix, limit, tuple(name.decode().rstrip() for name in symbols), participants.decode(), cursor.at, digest)


def begins_with_packet(text):
    """Whether a packet stands at the front of bytes."""
    try:
        decode_packet(text)
    except Refused as refusal:
        return refusal.code == TRAILING
    return True


def packet_front(session, first):
    """How the packet begins of which this entry is the first."""
    return PACKETS.to_bytes(1, "big") + b"D" + session.to_bytes(8, "big") + first.to_bytes(4, "big")


def take_packet(cursor, size, front):
    """The bytes of the packet of this size that begins so. Torn if they are cut off; Damaged if no packet has that size, or a shorter or another one stands there."""
    left = cursor.data[cursor.at : cursor.at + size]
    if size > LONGEST_PACKET or len(left) < size and (begins_with_packet(left) or left[: len(front)] != front[: len(left)]):
        raise Damaged(f"a length of {size} before {cursor.at}")
    return cursor.take(size)


def entries_of(text, session, first):
    """The entries of a packet, of which this number is the first. Damaged."""
    try:
        packet = decode_packet(text)
    except Refused as refusal:
        raise Damaged(str(refusal)) from None
    if (packet.version, packet.kind, packet.session, packet.number) != (PACKETS, "D", session, first):
        raise Damaged(f"another packet than that of {first}")
    return packet.entries


def read_group(data, begins, before, session, first):
    """The group at a place, of which this entry is the first, and its digest, which follows the one before. Torn, Damaged."""
    cursor, entries = Cursor(data, begins), []
    while size := cursor.number(2):
        text = take_packet(cursor, size, packet_front(session, first + len(entries)))
        if len(entries) % MOST:
            raise Damaged(f"a packet that is not full before {cursor.at}")
        entries += entries_of(text, session, first + len(entries))
    count, ends = cursor.number(4), cursor.at
    digest = cursor.take(DIGEST)
    if digest != hashlib.sha256(before + data[begins:ends]).digest() or not 0 < count == len(entries):
        raise Damaged(f"another end before {cursor.at}")
    return Group(begins, cursor.at, tuple(entries)), digest


def read_front(data):
    """The journal of these bytes, up to the first group that is not whole. NoHeader."""
    journal, first = read_header(data), 1
    try:
        while journal.whole < len(data):
            group, journal.digest = read_group(data, journal.whole, journal.digest, journal.session, first)
            journal.groups.append(group)
            journal.whole, first = group.ends, first + len(group.entries)
    except (Torn, Damaged) as fault:
        journal.fault = fault
    return journal


def read(data):
    """The journal of these bytes. A ValueError if they are none, or end within a group."""
    journal = read_front(data)
    if journal.fault:
        raise journal.fault
    return journal


def group_text(journal, entries):
    """The bytes of the group of these entries, which follow those of a journal."""
    pieces = [entries[at : at + MOST] for at in range(0, len(entries), MOST)]
    packets = [encode_packet(Packet(PACKETS, "D", journal.session, piece[0].number, tuple(piece))) for piece in pieces]
    text = b"".join(len(packet).to_bytes(2, "big") + packet for packet in packets) + bytes(2) + len(entries).to_bytes(4, "big")
    return text + hashlib.sha256(journal.digest + text).digest()


def damage_text(journal, data):
    """What is said of a damaged group: its first entry, and how many it has by its own end, if the lengths of its packets lead to it."""
    cursor, said = Cursor(data, journal.whole), f"the group from entry {len(journal.entries) + 1} on is damaged"
    try:
        while size := cursor.number(2):
            cursor.take(size)
        return f"{said}, of {cursor.number(4)} entries by its own end"
    except Torn:
        return said


def verdict(data):
    """What `verify` finds of a journal's bytes. NoHeader."""
    journal = read_front(data)
    tape = Tape(list(journal.symbols), list(journal.participants), journal.limit, str(journal.matrix))
    for entry in journal.entries:
        try:
            tape.admit(entry.message)
        except Refused as refusal:
            return f"entry {entry.number} is refused: {refusal}"
        if tape.entries[-1] != entry:
            return f"entry {entry.number} carries other figures than its messages give"
    if isinstance(journal.fault, Damaged):
        return damage_text(journal, data)
    count = len(journal.entries)
    found = f"{count} {'entry' if count == 1 else 'entries'}, all as recorded"
    return f"{found} up to byte {journal.whole}, behind which a group is cut off" if journal.fault else found
