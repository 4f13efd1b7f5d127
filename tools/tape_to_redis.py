#!/usr/bin/env python3
"""Adds each entry of a running day to a stream of Redis: tape_to_redis.py DAY.toml [--stream NAME], or tapebox watch .. | tape_to_redis.py - --stream NAME

Runs `tapebox watch` on the day's file, or reads the rows that it writes from standard input. The entry with tape number N gets the id N-0 and
one field, `row`, which is its row of the readable tape. So Redis itself refuses a number that it has, or that comes after a later one. The
stream is `tapebox:SESSION` unless it is named. When the day is over, the key `STREAM:end` holds how many entries it has.

It may be started again at any time, with the same words: it goes on after the stream's last id, so nothing is lost or doubled. If the server
goes away, it is waited for. If the server then lacks entries that it had acknowledged, as one that was killed may do unless it syncs each
write, they are added again: rows are kept for a minute. A stream that has another row under its last number is of another day and is refused.

Needs the module `redis` (Debian's python3-redis, for /usr/bin/python3).

    TAPEBOX  the program (the one that ./run finds, or else the installed one)

Statuses: 0 if the day is over and all is in the stream; 1 if the server can't be reached in time, or the stream is of another day, or rows
are lacking; 3 to 7 as `watch`, if it ended so; 2 if the words are others.
"""

import argparse
import collections
import itertools
import subprocess
import sys
import time
import tomllib

try:
    import redis
except ImportError:
    redis = None

# Nothing is written beside an installed tool.
sys.dont_write_bytecode = True

from program import program

HEAD = "tape,refused,kind,participant,number,moment,symbol,target,price,size,condition,open,high,low,last,volume,trades"
URL = "redis://127.0.0.1:6379/0"
# How many rows are added by one command, and how many bytes are read at once at most.
ROWS_AT_ONCE, READ_AT_ONCE = 500, 1 << 16
# Seconds for which the server is waited for, between two tries, and for which rows are kept that it has acknowledged.
PATIENCE, TRY_PAUSE, KEPT_SECONDS = 60, 0.2, 60


class Fault(Exception):
    """Says why the stream can't go on."""


def number_of(row):
    """The tape number of a row."""
    return int(row[: row.index(b",")])


def rows_of(file):
    """The rows of a readable tape as they come, as lists of those that came at once. Those that the tape refused are passed over."""
    rest, is_begun = b"", False
    while part := file.read1(READ_AT_ONCE):
        *lines, rest = (rest + part).split(b"\n")
        if lines and not is_begun:
            if lines.pop(0) != HEAD.encode():
                raise Fault("the first row does not have the columns of a readable tape")
            is_begun = True
        rows = [line for line in lines if line[:1] != b","]
        for at in range(0, len(rows), ROWS_AT_ONCE):
            yield rows[at : at + ROWS_AT_ONCE]


# Adds rows, each after its id, if the stream's last id is the first argument; else it gives that id and adds nothing.
ADD_BEHIND = """
local newest = redis.call('XREVRANGE', KEYS[1], '+', '-', 'COUNT', 1)
local last = newest[1] and newest[1][1] or '0-0'
if last ~= ARGV[1] then return last end
for at = 2, #ARGV, 2 do redis.call('XADD', KEYS[1], ARGV[at], 'row', ARGV[at + 1]) end
return ''
"""


class Stream:
    """A stream of Redis, the rows that it has acknowledged and may yet lose, and those that wait for it."""

    def __init__(self, url, name):
        self.server = redis.Redis.from_url(url, socket_connect_timeout=5, socket_timeout=PATIENCE)
        self.add_behind = self.server.register_script(ADD_BEHIND)
        self.name = name
        # Rows by rising numbers, with these; the kept ones also with the time at which the server had them.
        self.kept, self.waiting = collections.deque(), collections.deque()
        self.last, self.row = self.patiently(self.newest)
        self.is_sure = True

    def patiently(self, what):
        """What this gives, once the server can be reached."""
        until = time.monotonic() + PATIENCE
        while True:
            try:
                return what()
            except (redis.ConnectionError, redis.TimeoutError, redis.BusyLoadingError) as fault:
                # What was sent may have been added or not.
                self.is_sure = False
                if time.monotonic() > until:
                    raise Fault(f"the server can't be reached: {fault}") from None
                time.sleep(TRY_PAUSE)

    def newest(self):
        """The last number of the stream and its row; 0 and none if it is empty."""
        newest = self.server.xrevrange(self.name, count=1)
        return (int(newest[0][0].split(b"-")[0]), newest[0][1][b"row"]) if newest else (0, b"")

    def look(self):
        """Looks up where the stream is, and has the rows wait that it lacks."""
        self.last, self.row = self.newest()
        while self.kept and self.kept[-1][0] > self.last:
            self.waiting.appendleft(self.kept.pop()[:2])
        while self.waiting and self.waiting[0][0] <= self.last:
            self.kept.append((*self.waiting.popleft(), time.monotonic()))
        if self.waiting and self.waiting[0][0] != self.last + 1:
            raise Fault(f"the server lost entries from {self.last + 1} on, which are kept no longer: start this again")
        self.is_sure = True

    def add(self):
        """Adds the rows that wait, each right behind the one before it."""
        if not self.is_sure:
            self.look()
        while self.waiting:
            some = list(itertools.islice(self.waiting, ROWS_AT_ONCE))
            words = [word for number, row in some for word in (b"%d-0" % number, row)]
            if self.add_behind(keys=[self.name], args=[b"%d-0" % self.last, *words]):
                self.look()
                continue
            now = time.monotonic()
            for _ in some:
                self.kept.append((*self.waiting.popleft(), now))
            self.last, self.row = some[-1]

    def take(self, rows):
        """Adds rows that are new to the stream, and passes over those that it has."""
        numbered = [(number_of(row), row) for row in rows]
        if numbered[0][0] <= self.last:
            if any(number == self.last and row != self.row for number, row in numbered):
                raise Fault(f"{self.name} has another row under {self.last}: it is of another day")
            numbered = [it for it in numbered if it[0] > self.last]
        self.waiting.extend(numbered)
        self.patiently(self.add)
        oldest = time.monotonic() - KEPT_SECONDS
        while self.kept and self.kept[0][2] < oldest:
            self.kept.popleft()

    def end(self):
        """Notes that the day is over, once the server has all."""

        def note():
            self.look()
            self.add()
            self.server.set(f"{self.name}:end", self.last)

        self.patiently(note)


def started(words):
    """The running `watch`, or None if the rows come on standard input."""
    if words.day == "-":
        return None
    command = [program(), "watch", *(["--follower", str(words.follower)] if words.follower != 1 else []), words.day]
    try:
        return subprocess.Popen(command, stdout=subprocess.PIPE)
    except OSError as fault:
        raise Fault(f"{command[0]}: {fault.strerror}") from None


def stream_name(words):
    """The stream's name."""
    if words.stream:
        return words.stream
    try:
        with open(words.day, "rb") as file:
            return f"tapebox:{tomllib.load(file)['session']}"
    except (OSError, tomllib.TOMLDecodeError, KeyError) as fault:
        raise Fault(f"{words.day}: {getattr(fault, 'strerror', None) or fault}") from None


def follow(words):
    """Adds the day to the stream, and returns the status."""
    stream = Stream(words.redis, stream_name(words))
    watch = started(words)
    try:
        for rows in rows_of(watch.stdout if watch else sys.stdin.buffer):
            if rows:
                stream.take(rows)
    except BaseException:
        if watch:
            watch.terminate()
        raise
    status = watch.wait() if watch else 0
    if status == 0:
        stream.end()
    return status


def main():
    parser = argparse.ArgumentParser(description=__doc__, formatter_class=argparse.RawDescriptionHelpFormatter)
    parser.add_argument("day", metavar="DAY.toml", help="the day's file, or - for rows on standard input")
    parser.add_argument("--stream", metavar="NAME", help="the stream (tapebox:SESSION)")
    parser.add_argument("--redis", default=URL, metavar="URL", help=f"the server ({URL})")
    parser.add_argument("--follower", type=int, default=1, metavar="N", help="the place among the day's followers (1)")
    words = parser.parse_args()
    if words.day == "-" and not words.stream:
        parser.error("rows on standard input need --stream")
    if redis is None:
        sys.exit("tape_to_redis.py: no module redis: Debian's python3-redis has it, for /usr/bin/python3")
    try:
        return follow(words)
    except (Fault, redis.RedisError) as fault:
        sys.exit(f"tape_to_redis.py: {fault}")


if __name__ == "__main__":
    sys.exit(main())
