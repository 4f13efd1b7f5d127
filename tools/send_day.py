#!/usr/bin/env python3
"""Sends a day's table to a running `tapebox live`, each participant's messages over a TCP connection of its own.

    send_day.py [--pause SECONDS] TABLE.csv DAY.toml
    send_day.py [--pause SECONDS] TABLE.csv PORT [PARTICIPANTS]
    send_day.py --names TABLE.csv

`tapebox encode` reads the table. DAY.toml is the day's file that `live` has, or PORT and PARTICIPANTS are those of `live`: the participant
at position i of the list, from 0, is sent to port PORT + i of 127.0.0.1. With a PORT and without PARTICIPANTS they are the table's own, in
the order of their appearance, which `--names` prints after the symbols, each list on a line of its own and with commas between the names. A
listed participant without a row is connected too and sends nothing, since `live` waits for each.

Messages leave in the order of the rows, but participants' lines run at once: without a pause after each message the tape may
have another order between participants. Connecting is tried for ten seconds. After the last row the lines end, and it waits until
`live` has closed them, for ten seconds at most: whether a message was admitted is not told by a line.

    TAPEBOX   the program (the one that ./run finds, or else the installed one)

Statuses: 0 if all was sent, or printed; 1 if the table can't be read, at its first bad row, or the day's file, at its first fault, or if the
program is missing or fails, and then nothing is sent, or if nothing listens; 2 if the words are others; 3 if a line was closed at the other end before all of its messages
were sent and read: the participant is named then with the row and the number of its first message that wasn't sent, and how many were.
docs/OPERATING.md, "A participant whose line is over", says what that means.
"""

import argparse
import collections
import contextlib
import socket
import subprocess
import sys
import time

# Nothing is written beside an installed tool.
sys.dont_write_bytecode = True

import day_file
from program import program

HOST = "127.0.0.1"
CONNECTING_SECONDS = 10
# How long the other ends are waited for after the last row.
CLOSING_SECONDS = 10
# The number of the row of the first message, as tapebox counts rows: the header row is the first.
FIRST_ROW = 2
# Where a message has its number: after its length, its kind and its participant.
NUMBER = slice(4, 8)
# The status of a line that was closed at the other end too soon.
CLOSED = 3


def parse_batch(text):
    """The symbols, the participants, and the messages by their lines' letters, of a batch input."""
    symbols, participants, *lines = text.split("\n")
    messages = [(line[0], bytes.fromhex(line[2:])) for line in lines if line]
    return symbols.split(), participants.split(), messages


def read_day(path):
    """The same of a table."""
    try:
        table = open(path, "rb")
    except OSError as fault:
        sys.exit(f"send_day.py: {path}: {fault.strerror}")
    command = program()
    try:
        with table:
            done = subprocess.run([command, "encode"], stdin=table, capture_output=True, check=False)
    except OSError as fault:
        sys.exit(f"send_day.py: {command}: {fault.strerror}")
    if done.returncode or not done.stdout:
        lines = done.stderr.decode(errors="replace").strip().splitlines() or [f"{command} ended with status {done.returncode} and no message"]
        sys.exit(f"send_day.py: {path}: {lines[-1].removeprefix('tapebox: ')}")
    return parse_batch(done.stdout.decode())


def dial(port, deadline):
    """A connection to the port, tried until the deadline."""
    while True:
        try:
            connection = socket.create_connection((HOST, port))
            # A connection to a free port of the same machine may be given that port as its own, and so reach itself.
            if connection.getsockname() != connection.getpeername():
                connection.setsockopt(socket.IPPROTO_TCP, socket.TCP_NODELAY, 1)
                return connection
            connection.close()
        except ConnectionRefusedError:
            pass
        if time.monotonic() > deadline:
            sys.exit(f"send_day.py: nothing listens on port {port}")
        time.sleep(0.05)


def connect(participants, port):
    """A connection for each participant, by its letter."""
    deadline = time.monotonic() + CONNECTING_SECONDS
    return {letter: dial(port + position, deadline) for position, letter in enumerate(participants)}


def has_closed(connection):
    """Whether the other end has closed the connection, which sends nothing else."""
    try:
        return connection.recv(1, socket.MSG_PEEK | socket.MSG_DONTWAIT) == b""
    except BlockingIOError:
        return False
    except OSError:
        return True


def sent(connection, message):
    """Whether a message was sent, which it is not once the other end has closed the connection."""
    if has_closed(connection):
        return False
    try:
        connection.sendall(message)
    except OSError:
        return False
    return True


def was_read(connection, deadline):
    """Whether the other end read all of a line that has ended, as far as the deadline lets it be seen: else it has closed the line before."""
    connection.settimeout(max(deadline - time.monotonic(), 0.001))
    try:
        while connection.recv(4096):
            pass
    except socket.timeout:
        return True
    except OSError:
        return False
    # Set if something was sent after the other end had closed.
    return connection.getsockopt(socket.SOL_SOCKET, socket.SO_ERROR) == 0


def end_lines(connections):
    """Ends all lines, and returns the letters of those that were closed at the other end before all was read."""
    for connection in connections.values():
        with contextlib.suppress(OSError):
            connection.shutdown(socket.SHUT_WR)
    deadline = time.monotonic() + CLOSING_SECONDS
    return [letter for letter, connection in connections.items() if not was_read(connection, deadline)]


def send(path, messages, connections, pause):
    """Sends each message of a table on its participant's connection, and then ends all lines."""
    counts, totals = collections.Counter(), collections.Counter(letter for letter, _ in messages)

    def fail(letter, place, when):
        print(
            f"send_day.py: {path}{place}: participant {letter}'s line was closed at the other end{when}; messages sent: {counts[letter]} of {totals[letter]}",
            file=sys.stderr,
        )
        sys.exit(CLOSED)

    for row, (letter, message) in enumerate(messages, FIRST_ROW):
        if not sent(connections[letter], message):
            fail(letter, f", row {row}", f" before message {int.from_bytes(message[NUMBER], 'big')}")
        counts[letter] += 1
        time.sleep(pause)
    for letter in end_lines(connections):
        fail(letter, "", " before all was read")


def listed(word):
    """The letters of PARTICIPANTS."""
    participants = word.split(",")
    if len(set(participants)) != len(participants) or not all(len(letter) == 1 for letter in participants):
        sys.exit(f"send_day.py: {word!r} is no list of different letters with commas between them")
    return participants


def judge_rows(path, messages, participants):
    """Judges that the participant of each row of the table is among these."""
    for row, (letter, _) in enumerate(messages, FIRST_ROW):
        if letter not in participants:
            sys.exit(f"send_day.py: {path}, row {row}: participant {letter!r} is not among {','.join(participants)}")


def arguments():
    parser = argparse.ArgumentParser(description=__doc__, formatter_class=argparse.RawDescriptionHelpFormatter)
    parser.add_argument("--names", action="store_true", help="print the table's symbols and participants, and send nothing")
    parser.add_argument("--pause", type=float, default=0, metavar="SECONDS", help="rest so long after each message (0)")
    parser.add_argument("table", metavar="TABLE.csv")
    parser.add_argument("day", nargs="?", metavar="DAY.toml|PORT", help="the day's file, or the first participant's port")
    parser.add_argument("participants", nargs="?", metavar="PARTICIPANTS", help="their letters as live has them")
    words = parser.parse_args()
    if words.names == (words.day is not None):
        parser.error("give either --names, or DAY.toml or PORT")
    if words.participants is not None and not words.day.isdecimal():
        parser.error("a day's file has the participants itself")
    if words.pause < 0:
        parser.error("a pause must not be negative")
    return words, parser


def main():
    words, parser = arguments()
    symbols, participants, messages = read_day(words.table)
    if words.names:
        print(",".join(symbols), ",".join(participants), sep="\n")
        return
    if words.day.isdecimal():
        port = int(words.day)
        participants = listed(words.participants) if words.participants is not None else participants
        if not 1 <= port <= 65_536 - len(participants):
            parser.error(f"there are no {len(participants)} ports from {port} on")
    else:
        day = day_file.read_or_exit(words.day)
        participants, port = day.participants, day.port
    judge_rows(words.table, messages, participants)
    send(words.table, messages, connect(participants, port), words.pause)


if __name__ == "__main__":
    main()
