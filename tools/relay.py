#!/usr/bin/env python3
"""Passes a line of `tapebox live` on to other machines, or to more followers of one.

    relay.py [HOST:]PORT HOST:PORT [HOST:PORT ..]

Each UDP datagram that comes to PORT of HOST, or of 127.0.0.1 without a HOST, goes on to each HOST:PORT that follows, with its bytes as they
are and in the order in which it came. A line needs a relay of its own, so a day has one for A and another for B. Hosts are names or
addresses of IP version 4, and are looked up once.

Nothing is asked for again and nothing is remembered. What comes is kept until it has gone on, so the relay itself loses nothing unless
it is held up for so long that the system's buffer for its port is full. It looks at no datagram, so it passes on what strangers send too:
keep them off the port. Runs until it is told to end (SIGTERM or SIGINT). Then it passes on what has come, and prints how many datagrams did,
how many found no room, if Linux tells, and how many were sent to each target and how many the system did not take.

Statuses: 0 if it is told to end; 1 if the port can't be had, or a host is not known; 2 if the words are others.
"""

import argparse
import collections
import contextlib
import os
import select
import signal
import socket
import sys
from pathlib import Path

HOST = "127.0.0.1"
# The longest datagram of IP version 4.
ROOM = 65_535
# How many datagrams are taken in before some go on, and how many go on before more are taken in.
TAKEN_AT_ONCE, SENT_AT_ONCE = 256, 16
BUFFER_BYTES = 32 << 20
# Linux's option for a buffer above the system's limit, which the superuser has; the module socket does not name it.
SO_RCVBUFFORCE = 33
# Where a row of Linux's table has the socket's number, and how many datagrams found no room.
NUMBER, LOST = 9, 12


class Target:
    """Where datagrams go, and how many did or did not."""

    def __init__(self, word, address):
        self.word, self.address = word, address
        self.sent = self.failed = 0

    def send(self, sender, datagram):
        """Sends a datagram there. One that the system doesn't send keeps no other from its way."""
        try:
            sender.sendto(datagram, self.address)
            self.sent += 1
        except OSError:
            self.failed += 1


class Relay:
    """The port, and what came there and has to go on."""

    def __init__(self, address):
        self.receiver = socket.socket(socket.AF_INET, socket.SOCK_DGRAM)
        for option in (socket.SO_RCVBUF, SO_RCVBUFFORCE):
            with contextlib.suppress(OSError):
                self.receiver.setsockopt(socket.SOL_SOCKET, option, BUFFER_BYTES)
        self.receiver.bind(address)
        self.receiver.setblocking(False)
        self.sender = socket.socket(socket.AF_INET, socket.SOCK_DGRAM)
        self.waiting = collections.deque()
        self.came = 0

    def take(self):
        """Takes in what has come, up to a burst, and tells whether that was all."""
        for _ in range(TAKEN_AT_ONCE):
            try:
                self.waiting.append(self.receiver.recv(ROOM))
            except BlockingIOError:
                return True
            self.came += 1
        return False

    def send(self, targets, most):
        """Sends so many of the datagrams that wait, or all of them, to each target."""
        for _ in range(min(most, len(self.waiting))):
            datagram = self.waiting.popleft()
            for target in targets:
                target.send(self.sender, datagram)

    def run(self, targets, told_to_end):
        """Passes datagrams on until this descriptor can be read, and then those that have come."""
        while told_to_end not in select.select([self.receiver, told_to_end], [], [], 0 if self.waiting else None)[0]:
            self.take()
            self.send(targets, SENT_AT_ONCE)
        while not self.take():
            self.send(targets, SENT_AT_ONCE)
        self.send(targets, len(self.waiting))

    def lost(self):
        """How many datagrams found no room, if Linux tells."""
        number = str(os.fstat(self.receiver.fileno()).st_ino)
        with contextlib.suppress(OSError):
            rows = (row.split() for row in Path("/proc/net/udp").read_text(encoding="ascii").splitlines())
            return next((f", {row[LOST]} found no room" for row in rows if number in row[NUMBER : NUMBER + 1]), "")
        return ""


def signals():
    """A descriptor that can be read once the process is told to end."""
    read, write = os.pipe()
    os.set_blocking(write, False)
    signal.set_wakeup_fd(write)
    for number in (signal.SIGTERM, signal.SIGINT):
        signal.signal(number, lambda *_: None)
    return read


def fail(word, fault):
    """Ends with what is at fault."""
    sys.exit(f"relay.py: {word}: {getattr(fault, 'strerror', None) or fault}")


def found(place):
    """The address of a host and a port."""
    host, port = place
    try:
        return socket.gethostbyname(host), port
    except (OSError, UnicodeError) as fault:
        fail(f"host {host}", fault)


def place(text):
    """A host and a port, which have a colon between them."""
    host, _, port = text.rpartition(":")
    if not host or not (port.isascii() and port.isdecimal()) or not 1 <= int(port) <= 65_535:
        raise argparse.ArgumentTypeError(f"{text} is not HOST:PORT with a port of 1 to 65535")
    return host, int(port)


def own_place(text):
    """The same, or the port alone."""
    return place(text if ":" in text else f"{HOST}:{text}")


def main():
    parser = argparse.ArgumentParser(description=__doc__, formatter_class=argparse.RawDescriptionHelpFormatter)
    parser.add_argument("own", type=own_place, metavar="PORT", help=f"where the line comes, after its host unless that is {HOST}")
    parser.add_argument("targets", type=place, nargs="+", metavar="HOST:PORT", help="where it goes")
    words = parser.parse_args()
    own = found(words.own)
    targets = [Target(f"{host}:{port}", found((host, port))) for host, port in words.targets]
    if own in [target.address for target in targets]:
        parser.error("a relay can't pass on to itself")
    told_to_end = signals()
    try:
        relay = Relay(own)
    except OSError as fault:
        fail(f"port {own[1]} of {own[0]}", fault)
    relay.run(targets, told_to_end)
    print(f"port {own[1]}: {relay.came} came{relay.lost()}")
    for target in targets:
        print(f"{target.word}: {target.sent} sent, {target.failed} not sent")


if __name__ == "__main__":
    main()
