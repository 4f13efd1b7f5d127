#!/usr/bin/env python3
"""Prints the rows of a running tape from a stream of Redis, on any machine: tape_from_redis.py STREAM [--group GROUP [--reader NAME]]

Writes the columns' names and then each entry's row, as `tapebox watch` writes them, flushed whenever no further entry is there. Without --group
it begins with the first entry. With it the server keeps how far the group is: readers of a group share the entries, each of which goes to one
of them, and a group of its own gets all. An entry is acknowledged once its row was written, so a reader that is killed and started again under
the same name loses none, and may write its last rows again. It ends once the day is over and it has no entry left to read.

Needs the module `redis` (Debian's python3-redis, for /usr/bin/python3).

Statuses: 0 if the day is over; 1 if the server can't be reached for a minute; 4 if a row can't be written; 2 if the words are others.
"""

import argparse
import os
import sys
import time

try:
    import redis
except ImportError:
    redis = None

HEAD = b"tape,refused,kind,participant,number,moment,symbol,target,price,size,condition,open,high,low,last,volume,trades\n"
URL = "redis://127.0.0.1:6379/0"
# How many entries are read at once, and for how many milliseconds new ones are waited for before the day's end is looked for.
READ_AT_ONCE, WAIT = 1000, 500
PATIENCE, TRY_PAUSE = 60, 0.2


class Reader:
    """A reader of a stream, alone or in a group."""

    def __init__(self, words):
        self.server = redis.Redis.from_url(words.redis, socket_connect_timeout=5)
        self.stream, self.group, self.name = words.stream, words.group, words.reader
        # The last id that was read. A reader of a group begins with what it was given earlier and has not acknowledged.
        self.last = b"0"
        self.is_new = not self.group

    def prepare(self):
        """Makes the group, if it is not there."""
        if not self.group:
            return
        try:
            self.server.xgroup_create(self.stream, self.group, id="0", mkstream=True)
        except redis.ResponseError as fault:
            if not str(fault).startswith("BUSYGROUP"):
                raise

    def read(self):
        """The next entries, or none if none came for a while."""
        if not self.group:
            answer = self.server.xread({self.stream: self.last}, count=READ_AT_ONCE, block=WAIT)
        else:
            at = ">" if self.is_new else self.last
            answer = self.server.xreadgroup(self.group, self.name, {self.stream: at}, count=READ_AT_ONCE, block=WAIT)
        entries = answer[0][1] if answer else []
        if entries:
            self.last = entries[-1][0]
        elif not self.is_new:
            # All that was given earlier was read again.
            self.is_new = True
            return self.read()
        return entries

    def acknowledge(self, entries):
        """Lets the server know that the rows were written."""
        if self.group and entries:
            self.server.xack(self.stream, self.group, *(name for name, _ in entries))

    def is_over(self):
        """Whether the day is over and nothing is left to read."""
        end = self.server.get(f"{self.stream}:end")
        if end is None:
            return False
        last = self.last
        if self.group:
            groups = self.server.xinfo_groups(self.stream)
            last = next((it["last-delivered-id"] for it in groups if it["name"] == self.group.encode()), b"0")
        return int(last.split(b"-")[0]) >= int(end)


def write(rows):
    """Writes rows to standard output at once, and ends the script if that fails."""
    try:
        sys.stdout.buffer.write(rows)
        sys.stdout.buffer.flush()
    except OSError as fault:
        print(f"tape_from_redis.py: a write failed: {fault.strerror}", file=sys.stderr)
        os._exit(4)


def print_rows(reader):
    """Prints rows until the day is over. The server may be away for a while."""
    until = time.monotonic() + PATIENCE
    while True:
        try:
            reader.prepare()
            entries = reader.read()
            write(b"".join(fields[b"row"] + b"\n" for _, fields in entries))
            reader.acknowledge(entries)
            if not entries and reader.is_over():
                return
            until = time.monotonic() + PATIENCE
        except (redis.ConnectionError, redis.TimeoutError, redis.BusyLoadingError) as fault:
            if time.monotonic() > until:
                sys.exit(f"tape_from_redis.py: the server can't be reached: {fault}")
            time.sleep(TRY_PAUSE)


def main():
    parser = argparse.ArgumentParser(description=__doc__, formatter_class=argparse.RawDescriptionHelpFormatter)
    parser.add_argument("stream", metavar="STREAM", help="the stream, as tapebox:7")
    parser.add_argument("--group", metavar="GROUP", help="share the entries with the readers of this group")
    parser.add_argument("--reader", default="reader", metavar="NAME", help="this reader's name in its group (reader)")
    parser.add_argument("--redis", default=URL, metavar="URL", help=f"the server ({URL})")
    words = parser.parse_args()
    if redis is None:
        sys.exit("tape_from_redis.py: no module redis: Debian's python3-redis has it, for /usr/bin/python3")
    reader = Reader(words)
    write(HEAD)
    try:
        print_rows(reader)
    except redis.RedisError as fault:
        sys.exit(f"tape_from_redis.py: {fault}")


if __name__ == "__main__":
    main()
