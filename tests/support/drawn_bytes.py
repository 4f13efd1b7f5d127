"""Bytes that a seed draws: packets, messages, requests and answers, of which three in four are cut, lengthened or written over."""

import random
import string

from plain_feed import HEADER, LETTERS, LONGEST_PACKET, LONGEST_SPAN, MARK, MOST, PACKETS_MOST, REQUEST, SUMS
from plain_table import POSITIONS
from plain_tape import PRICE_MOST, SIZE_MOST

NAME_BYTES = (string.ascii_uppercase + string.digits + ".").encode()
WORD_MOST, LONG_MOST = 2**32 - 1, 2**64 - 1
# Bytes that mean something somewhere.
BYTES = bytes([0, 1, 2, 3, 8, 9, 15, 16, 17, 26, 38, 42, 64, 65, 71, 72, 73, 74, 127, 128, 255]) + b" @AZ[RXCSDHE"


class Maker:
    """Draws bytes, the same of a seed each time."""

    def __init__(self, seed):
        self.random = random.Random(seed)

    def drawn(self, kind):
        """Bytes of a kind, `packet`, `message`, `request` or `answer`, changed or not."""
        return self.changed(getattr(self, kind)())

    def number(self, least, most):
        """A number of this range, an end of it in half of the cases, and now and then the one above it."""
        drawn = self.random.randrange(4_000)
        if drawn < 2_000:
            return most + 1 if drawn == 0 else least if drawn < 1_000 else most
        return self.random.randint(least, most)

    def packet(self):
        """A packet, of entries in three cases of four."""
        version, kind = self.random.choice([1, 2]), self.random.choice("DDDDDDHE").encode()
        entries_most, number_most = MOST[version]
        session = self.random.getrandbits(64)
        if kind != b"D":
            return HEADER.pack(version, kind, session, self.number(0, number_most), 0)
        count = self.random.choice([entries_most + 1, entries_most, self.random.randint(1, entries_most), *(self.random.randint(1, 3) for _ in range(13))])
        above = number_most + 1 - count
        first = self.random.choice([above + 1, *[above] * 4, *(self.number(1, above - 1) for _ in range(27))])
        return HEADER.pack(version, kind, session, first, count) + b"".join(self.entry(number, number_most) for number in range(first, first + count))

    def entry(self, number, number_most):
        """An entry of a packet."""
        message = self.message()
        return number.to_bytes(4, "big") + message + (b"" if message[2:3] == b"R" else self.summary(number_most))

    def summary(self, number_most):
        """A summary, now and then with a bit that is no mark's."""
        present = self.random.randrange(16)
        marks = [MARK.pack(self.number(1, PRICE_MOST), self.number(1, number_most), self.letter()) if present >> bit & 1 else bytes(MARK.size) for bit in range(4)]
        other = self.random.choice([16, 32, 64, 128]) if self.random.random() < 0.01 else 0
        return bytes([present | other]) + b"".join(marks) + SUMS.pack(self.random.getrandbits(64), self.random.getrandbits(32))

    def letter(self):
        """A participant."""
        return bytes([self.random.choice(LETTERS)])

    def message(self):
        """A message: a report in half of the cases."""
        kind = self.random.choice("RRRXCS")
        symbol = bytes(self.random.choices(NAME_BYTES, k=self.random.randint(1, 8))).ljust(8)
        body = kind.encode() + self.letter() + self.word() + self.random.randbytes(8) + symbol
        if kind != "R":
            body += self.word()
        if kind in "RC":
            condition = "".join(map(self.random.choice, POSITIONS)).replace("_", " ").encode()
            body += self.number(1, PRICE_MOST).to_bytes(8, "big") + self.number(1, SIZE_MOST).to_bytes(4, "big") + condition
        return len(body).to_bytes(2, "big") + body

    def word(self):
        """The bytes of a number from 1, or of 0 now and then."""
        return (self.number(1, WORD_MOST) & WORD_MOST).to_bytes(4, "big")

    def request(self):
        """A request."""
        return REQUEST.pack(self.random.getrandbits(64), self.random.getrandbits(32), self.number(1, LONGEST_SPAN))

    def answer(self):
        """A refusal, a byte that is none, or one to eight packets, of any bytes, after their lengths."""
        drawn = self.random.randrange(16)
        if drawn < 3:
            return self.random.choice([bytes([71]), bytes([72]), bytes([73])]) if drawn else self.random.randbytes(1)
        packets = [self.random.randbytes(self.length()) for _ in range(self.random.randint(1, PACKETS_MOST))]
        return bytes([0, len(packets)]) + b"".join(len(packet).to_bytes(2, "big") + packet for packet in packets)

    def length(self):
        """How many bytes a packet of an answer has: few, or about as many as it may have."""
        return self.random.choice([0, LONGEST_PACKET - 1, LONGEST_PACKET, LONGEST_PACKET + 1]) if self.random.random() < 1 / 64 else self.random.randint(1, 40)

    def changed(self, data):
        """The bytes as they are, cut, lengthened, or with one to three of them written over."""
        drawn, at = self.random.randrange(16), self.place(data)
        if drawn < 4:
            return data
        if drawn == 4:
            return data[:at]
        if drawn == 5:
            return data[:at] + data[at + 1 :]
        if drawn == 6:
            return data[:at] + self.random.randbytes(1) + data[at:]
        if drawn == 7:
            return data + bytes(self.random.choices(BYTES, k=self.random.randint(1, 3)))
        for at in {self.place(data) for _ in range(self.random.randint(1, 3))}:
            data = data[:at] + bytes([self.byte(data[at])]) + data[at + 1 :]
        return data

    def place(self, data):
        """The place of one of the bytes, one of the first sixteen in half of the cases."""
        return self.random.randrange(min(len(data), 16) if self.random.random() < 0.5 else len(data))

    def byte(self, old):
        """A byte in place of this one: one that means something, one with a bit changed, the next, the one before, or any."""
        others = [self.random.choice(BYTES), old ^ 1 << self.random.randrange(8), (old + 1) % 256, (old - 1) % 256, self.random.randrange(256)]
        return self.random.choice(others)


def drawn(kind, count, seed=1):
    """So many bytes of a kind. Empty ones are left out."""
    maker = Maker(seed)
    return [data for data in (maker.drawn(kind) for _ in range(count)) if data]
