#!/usr/bin/env python3
"""Stands between `tapebox live` and `tapebox follow` and makes the two lines lossy.

    lossy_relay.py [--lose P] [--double P] [--reorder P] [--garble P] [--late MS] [--seed N] IN_A IN_B OUT_A OUT_B [OUT_A OUT_B ..]

It takes the UDP packets that come to ports IN_A and IN_B of 127.0.0.1 and sends them on to OUT_A and OUT_B, and to each further pair of ports
what the first pair gets. Each P is a percentage from 0 to 100, or one for each line: `--lose 100,10` loses all of line A and a tenth of line B. Of
the packets that are not lost, the doubled ones are sent twice, and the reordered ones are held back until three later ones of their line went on,
or a fiftieth of a second passed. Before a garbled one, lost or not, goes a datagram of its own that is no packet of the day, but nothing on a line
that loses all. Each packet of a line that is late, as line B with `--late 0,20`, goes on so many milliseconds later. What becomes of a line's
packets is drawn from the seed, the line and their order alone.

End packets are neither held back nor doubled, and go on unless all of their line is lost: a follower that misses every end waits forever, so both
lines together can't lose everything. Runs until it is told to end (SIGTERM or SIGINT), and then prints what became of each
line's packets.

Statuses: 0 if it is told to end; 1 if a port can't be had; 2 if the words are others.
"""

import argparse
import collections
import contextlib
import itertools
import random
import selectors
import signal
import socket
import sys
import time

HOST = "127.0.0.1"
# A packet is at most 1,823 bytes; the kind stands after the version.
ROOM = 2048
KIND = slice(1, 2)
# Where the last byte of the session stands.
SESSION_END = 9
END = b"E"
# How long a reordered packet is held back: so many later packets, or so many seconds.
HOLD_PACKETS = 3
HOLD_SECONDS = 0.02
# How many packets of a line are taken in before the other line has its turn.
BURST = 64
BUFFER_BYTES = 32 << 20
# Linux's option for a buffer above the system's limit, which the superuser has; the module socket does not name it.
SO_RCVBUFFORCE = 33


def enlarge(receiver):
    """Gives the socket as large a buffer as the system allows."""
    for option in (socket.SO_RCVBUF, SO_RCVBUFFORCE):
        with contextlib.suppress(OSError):
            receiver.setsockopt(socket.SOL_SOCKET, option, BUFFER_BYTES)


class Held:
    """A packet that is held back, and how often it is to be sent."""

    def __init__(self, packet, times):
        self.packet = packet
        self.times = times
        self.later = HOLD_PACKETS
        self.until = time.monotonic() + HOLD_SECONDS


class Line:
    """One of the two lines: its sockets, its parts, and what became of its packets."""

    def __init__(self, name, port, targets, parts, late, seed):
        self.name = name
        self.targets = [(HOST, target) for target in targets]
        self.lose, self.double, self.reorder, self.garble = parts
        self.late_seconds = late / 1000
        # The packets that are late, each with the time at which it goes on, by rising time.
        self.late = collections.deque()
        self.random = random.Random(f"{seed} {name}")
        self.garbling = random.Random(f"{seed} {name} garbled")
        self.held = collections.deque()
        self.counts = collections.Counter()
        self.sender = socket.socket(socket.AF_INET, socket.SOCK_DGRAM)
        self.receiver = socket.socket(socket.AF_INET, socket.SOCK_DGRAM)
        enlarge(self.receiver)
        self.receiver.bind((HOST, port))
        self.receiver.setblocking(False)

    def receive(self):
        """Takes in what has come, up to a burst."""
        for _ in range(BURST):
            try:
                packet = self.receiver.recv(ROOM)
            except BlockingIOError:
                return
            self.take(packet)

    def take(self, packet):
        """Decides on a packet: it is lost, held back, or sent on."""
        self.counts["came"] += 1
        if self.lose < 100 and 100 * self.garbling.random() < self.garble:
            self.send_garbage(packet)
        if packet[KIND] == END and self.lose < 100:
            return self.send(packet, 1)
        # Three draws for every packet, so that no decision changes what becomes of the packets after it.
        lost, doubled, reordered = (
            100 * self.random.random() < part for part in (self.lose, self.double, self.reorder)
        )
        if lost:
            self.counts["lost"] += 1
            return
        self.counts["doubled"] += doubled
        self.counts["reordered"] += reordered
        if reordered:
            self.held.append(Held(packet, 1 + doubled))
        else:
            self.send(packet, 1 + doubled)
            self.count_later()

    def send(self, packet, times):
        """Sends a packet on, or lets it wait if the line is late."""
        if self.late_seconds:
            self.late.extend(times * [(time.monotonic() + self.late_seconds, packet)])
        else:
            self.send_now(packet, times)

    def send_now(self, packet, times):
        for _ in range(times):
            for target in self.targets:
                self.sender.sendto(packet, target)

    def send_garbage(self, packet):
        """Sends a datagram that is no packet of the day: an empty one, the packet cut short, with a byte more or under another
        session, or bytes at random."""
        self.counts["garbled"] += 1
        other_session = bytes(byte ^ (at == SESSION_END) for at, byte in enumerate(packet))
        noise = self.garbling.randbytes(64)
        garbage = self.garbling.choice([b"", packet[:-1], packet + b"\0", other_session, noise])
        self.send(garbage, 1)

    def count_later(self):
        """Counts a packet that went on for those that are held back, and lets go the ones that waited for it."""
        for held in self.held:
            held.later -= 1
        while self.held and self.held[0].later <= 0:
            self.release()

    def release_old(self, now):
        """Lets go what was held back for long enough, and what is late by now."""
        while self.held and self.held[0].until <= now:
            self.release()
        while self.late and self.late[0][0] <= now:
            self.send_now(self.late.popleft()[1], 1)

    def times(self):
        """When the next packet that is held back goes on, and the next that is late, if there are any."""
        return [held.until for held in itertools.islice(self.held, 1)] + [until for until, _ in itertools.islice(self.late, 1)]

    def release(self):
        first = self.held.popleft()
        self.send(first.packet, first.times)

    def told(self):
        counts = ", ".join(f"{self.counts[what]} {what}" for what in ("lost", "doubled", "reordered", "garbled"))
        return f"line {self.name}: {self.counts['came']} packets came, {counts}"


def relay(lines):
    """Passes packets on until the process is told to end."""
    selector = selectors.DefaultSelector()
    for line in lines:
        selector.register(line.receiver, selectors.EVENT_READ, line)
    while True:
        times = [until for line in lines for until in line.times()]
        wait = max(min(times) - time.monotonic(), 0) if times else None
        for key, _ in selector.select(wait):
            key.data.receive()
        now = time.monotonic()
        for line in lines:
            line.release_old(now)


def percentages(text):
    """One percentage for both lines, or one for each."""
    parts = [float(part) for part in text.split(",")]
    if len(parts) > 2 or not all(0 <= part <= 100 for part in parts):
        raise ValueError(text)
    return parts[0], parts[-1]


def milliseconds(text):
    """The same of milliseconds."""
    parts = [float(part) for part in text.split(",")]
    if len(parts) > 2 or min(parts) < 0:
        raise ValueError(text)
    return parts[0], parts[-1]


def port(text):
    if not text.isdecimal() or not 1 <= int(text) <= 65_535:
        raise ValueError(text)
    return int(text)


def arguments():
    parser = argparse.ArgumentParser(description=__doc__, formatter_class=argparse.RawDescriptionHelpFormatter)
    for part in ("lose", "double", "reorder", "garble"):
        parser.add_argument(f"--{part}", type=percentages, default=(0, 0), metavar="P[,P]", help="percentage, or of A and B (0)")
    parser.add_argument("--late", type=milliseconds, default=(0, 0), metavar="MS[,MS]", help="milliseconds, or of A and B (0)")
    parser.add_argument("--seed", type=int, default=1, metavar="N", help="seed of the random choices (1)")
    for name in ("IN_A", "IN_B"):
        parser.add_argument(name.lower(), type=port, metavar=name)
    parser.add_argument("out", type=port, nargs="+", metavar="OUT_A OUT_B")
    words = parser.parse_args()
    if len(words.out) % 2:
        parser.error("a port of line A has one of line B")
    if min(words.lose) == 100:
        parser.error("if both lines lose everything no follower can end")
    return words


def main():
    words = arguments()
    signal.signal(signal.SIGTERM, lambda *_: sys.exit(0))
    signal.signal(signal.SIGINT, lambda *_: sys.exit(0))
    parts = list(zip(words.lose, words.double, words.reorder, words.garble))
    try:
        lines = [
            Line("A", words.in_a, words.out[::2], parts[0], words.late[0], words.seed),
            Line("B", words.in_b, words.out[1::2], parts[1], words.late[1], words.seed),
        ]
    except OSError as fault:
        sys.exit(f"lossy_relay.py: {fault}")
    try:
        relay(lines)
    finally:
        print(*(line.told() for line in lines), sep="\n", flush=True)


if __name__ == "__main__":
    main()
