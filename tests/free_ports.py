#!/usr/bin/env python3
"""Prints the first of COUNT ports in a row that are free on 127.0.0.1 for TCP and for UDP: free_ports.py COUNT

They are looked for at random, below the ports that Linux gives to outgoing connections. Nothing keeps them free afterwards.

Statuses: 0 if it is printed; 1 if there are none; 2 if the words are others.
"""

import argparse
import random
import socket
import sys

LEAST, MOST = 10_000, 32_000
TRIES = 1_000


def is_free(port):
    """Whether the port can be bound for TCP and for UDP."""
    for kind in (socket.SOCK_STREAM, socket.SOCK_DGRAM):
        with socket.socket(socket.AF_INET, kind) as probe:
            try:
                probe.bind(("127.0.0.1", port))
            except OSError:
                return False
    return True


def free_ports(count):
    """The first of so many free ports in a row."""
    for _ in range(TRIES):
        first = random.randint(LEAST, MOST - count)
        if all(is_free(port) for port in range(first, first + count)):
            return first
    sys.exit(f"free_ports.py: no {count} ports in a row are free")


def main():
    parser = argparse.ArgumentParser(description=__doc__, formatter_class=argparse.RawDescriptionHelpFormatter)
    parser.add_argument("count", type=int, metavar="COUNT")
    count = parser.parse_args().count
    if not 1 <= count <= MOST - LEAST:
        parser.error(f"COUNT is 1 to {MOST - LEAST}")
    print(free_ports(count))


if __name__ == "__main__":
    main()
