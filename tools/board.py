#!/usr/bin/env python3
"""Shows a running day in a browser: board.py [--follower N] DAY.toml [PORT], or tapebox watch .. | board.py - [PORT]

Runs `tapebox watch` on the day's file, or reads the rows that it writes from standard input, and serves one page on PORT of 127.0.0.1 (8080;
with 0 a free one). The page has a row for each symbol with its last, the change since its open, its high, low, volume and trades, and how long
ago its last trade came; the newest trades, of which those that were cancelled are struck and those that were corrected are marked; the tape
number and the entries a second; and a symbol's prices, once it is clicked. A page gets at most ten updates a second, each with the symbols
that changed. What it shows is as `watch` wrote it; only the change, the rate and the time since a trade are worked out here.

The board keeps some 200 bytes for each report, and shows the newest 20,000 of a symbol. When the rows end it says how, and goes on serving
until it is told to end (SIGTERM or SIGINT). It answers only requests that name 127.0.0.1 or localhost as their host.

    TAPEBOX  the program (the one that ./run finds, or else the installed one)

Statuses: 0 if it is told to end; 1 if the port can't be had, the program can't be started or ends without a row, or the rows are not those of a
readable tape; 2 if the words are others.
"""

import argparse
import collections
import csv
import json
import os
import signal
import subprocess
import sys
import threading
import time
from array import array
from http.server import BaseHTTPRequestHandler, ThreadingHTTPServer
from pathlib import Path

# Nothing is written beside an installed tool.
sys.dont_write_bytecode = True

from program import program

HOST = "127.0.0.1"
PORT = 8080
WEB = Path(__file__).resolve().parent.parent / "web"
COLUMNS = "tape,refused,kind,participant,number,moment,symbol,target,price,size,condition,open,high,low,last,volume,trades".split(",")
TAPE, REFUSED, KIND, WHO, NUMBER, SYMBOL, TARGET, PRICE, SIZE, CONDITION, FIGURES = 0, 1, 2, 3, 4, 6, 7, 8, 9, 10, 11
LAST = FIGURES + 3
# What became of a report.
STANDS, CANCELLED, CORRECTED = range(3)
# How many of the newest trades a page shows, and of how many trades and lasts a symbol's prices are drawn.
NEWEST, DRAWN = 40, 20_000
# Seconds between two updates of a page, and until one without changes is sent to see whether the page is still there.
PAUSE, SILENCE = 0.1, 1.0
# How many seconds the rate is taken over.
RATE_SECONDS = 3
FILES = {
    "/": ("board.html", "text/html; charset=utf-8"),
    "/tapebox.css": ("tapebox.css", "text/css; charset=utf-8"),
    **{f"/{name}": (name, "text/javascript; charset=utf-8") for name in ("table.js", "chart.js", "board.js")},
}
POLICY = "default-src 'none'; script-src 'self'; style-src 'self'; style-src-attr 'unsafe-inline'; connect-src 'self'; base-uri 'none'; form-action 'none'"


class NoTape(Exception):
    """Says why rows are not those of a readable tape."""


def ten_thousandths(text):
    """A price in dollars as ten-thousandths."""
    dollars, _, decimals = text.partition(".")
    return int(dollars + decimals.ljust(4, "0"))


class Symbol:
    """A symbol: its figures as they were written last, when its last trade came, its reports, and its last after each of its entries."""

    def __init__(self):
        self.figures = []
        self.seen = 0.0
        self.reports = array("I")
        self.numbers, self.lasts = array("I"), array("q")


class Reports:
    """All reports of the day by their position: what each says now, and what became of it."""

    def __init__(self):
        self.numbers, self.prices, self.sizes = array("I"), array("q"), array("I")
        self.states, self.changes = array("B"), array("I")
        self.names, self.conditions = [], []
        self.positions = collections.defaultdict(dict)

    def add(self, row):
        """Adds the report of a row, and returns its position."""
        at = len(self.numbers)
        self.positions[row[WHO]][int(row[NUMBER])] = at
        self.numbers.append(int(row[TAPE]))
        self.states.append(STANDS)
        self.changes.append(0)
        self.prices.append(ten_thousandths(row[PRICE]))
        self.sizes.append(int(row[SIZE]))
        self.conditions.append(sys.intern(row[CONDITION]))
        self.names.append((sys.intern(row[WHO]), sys.intern(row[SYMBOL]), row[NUMBER]))
        return at

    def change(self, row):
        """Lets the cancel, correction or reinstatement of a row change the report that it names, and returns its position."""
        at = self.positions[row[WHO]][int(row[TARGET])]
        self.changes[at] = int(row[TAPE])
        self.states[at] = CANCELLED if row[KIND] == "cancel" else CORRECTED
        if row[KIND] == "correct":
            self.prices[at], self.sizes[at] = ten_thousandths(row[PRICE]), int(row[SIZE])
            self.conditions[at] = sys.intern(row[CONDITION])
        return at

    def told(self, at):
        """A report as a page is told of it."""
        who, symbol, number = self.names[at]
        fields = [self.numbers[at], who, number, symbol, self.prices[at], self.sizes[at], self.conditions[at]]
        return [*fields, self.states[at], self.changes[at]]


class Board:
    """What is shown of the day, behind a lock."""

    def __init__(self):
        self.lock = threading.Lock()
        self.reports = Reports()
        # By name; of two the one that changed later stands later.
        self.symbols = collections.OrderedDict()
        self.newest = collections.deque(maxlen=NEWEST)
        # How often a symbol changed, and when each of them did last, by that count.
        self.changes, self.changed_at = 0, {}
        self.tape = 0
        self.counts = collections.Counter()
        self.end = ""

    def take(self, row, now):
        """Takes an entry's row."""
        symbol = self.symbols.get(row[SYMBOL])
        if symbol is None:
            symbol = self.symbols[row[SYMBOL]] = Symbol()
        if row[KIND] == "report":
            at = self.reports.add(row)
            symbol.reports.append(at)
            symbol.seen = now
            self.newest.append(at)
        else:
            self.reports.change(row)
        symbol.figures = row[FIGURES:]
        symbol.numbers.append(int(row[TAPE]))
        symbol.lasts.append(ten_thousandths(row[LAST]) if row[LAST] else 0)
        self.changes += 1
        self.changed_at[row[SYMBOL]] = self.changes
        self.symbols.move_to_end(row[SYMBOL])
        self.tape = int(row[TAPE])
        self.counts[int(now)] += 1

    def rate(self, now):
        """How many entries a second came in the last whole seconds."""
        second = int(now)
        for old in [it for it in self.counts if it < second - RATE_SECONDS]:
            del self.counts[old]
        return sum(count for at, count in self.counts.items() if at < second) / RATE_SECONDS

    def update(self, known):
        """What a page that knows of so many changes has to be told, as a text, and how many it knows then."""
        now = time.time()
        with self.lock:
            symbols = {}
            for name, symbol in reversed(self.symbols.items()):
                if self.changed_at[name] <= known:
                    break
                symbols[name] = [*symbol.figures, round(now - symbol.seen, 1) if symbol.seen else None]
            told = {"tape": self.tape, "rate": round(self.rate(now)), "end": self.end, "symbols": symbols}
            if self.changes > known:
                told["trades"] = [self.reports.told(at) for at in reversed(self.newest)]
            return json.dumps(told, separators=(",", ":")), self.changes

    def prices(self, name):
        """The newest reports of a symbol, and the last after each of its newest entries, as a text; None for no such symbol."""
        with self.lock:
            symbol = self.symbols.get(name)
            if symbol is None:
                return None
            trades = [self.reports.told(at) for at in symbol.reports[-DRAWN:]]
            first = trades[0][0] if trades else 0
            lasts = [[at, last] for at, last in zip(symbol.numbers[-DRAWN:], symbol.lasts[-DRAWN:]) if at >= first]
        return json.dumps({"trades": trades, "lasts": lasts}, separators=(",", ":"))

    def read(self, lines):
        """Takes the rows of a readable tape as they come. Those that the tape refused are passed over."""
        rows = csv.reader(lines)
        head = next(rows, None)
        if head is None:
            return
        if head != COLUMNS:
            raise NoTape("the first row does not have the columns of a readable tape")
        for row in rows:
            try:
                if not row[REFUSED]:
                    with self.lock:
                        self.take(row, time.time())
            except (IndexError, KeyError, ValueError):
                raise NoTape(f"line {rows.line_num} is no row of a followed tape") from None


class Page(BaseHTTPRequestHandler):
    """Answers a browser: the page and its parts, its updates, and a symbol's prices."""

    protocol_version = "HTTP/1.1"

    def log_message(self, *_):
        """Says nothing."""

    def parse_request(self):
        """Refuses what another page asks for under a name of its own."""
        if not super().parse_request():
            return False
        if self.headers.get("Host", "").rpartition(":")[0] in (HOST, "localhost"):
            return True
        self.send_error(403)
        return False

    def answer(self, body, kind):
        """Answers with a body of this kind."""
        self.send_response(200)
        self.send_header("Content-Type", kind)
        self.send_header("Content-Length", str(len(body)))
        self.send_header("Content-Security-Policy", POLICY)
        self.send_header("Cache-Control", "no-store")
        self.end_headers()
        self.wfile.write(body)

    def do_GET(self):
        """Answers what is asked for."""
        if self.path == "/events":
            return self.send_updates()
        if self.path in FILES:
            name, kind = FILES[self.path]
            return self.answer((WEB / name).read_bytes(), kind)
        prices = self.server.board.prices(self.path.removeprefix("/symbol/")) if self.path.startswith("/symbol/") else None
        if prices is None:
            return self.send_error(404)
        return self.answer(prices.encode(), "application/json")

    def send_updates(self):
        """Sends updates until the page is gone, each once something changed, and one a second all the same."""
        self.send_response(200)
        self.send_header("Content-Type", "text/event-stream")
        self.send_header("Cache-Control", "no-store")
        self.end_headers()
        self.close_connection = True
        known, sent = -1, 0.0
        while True:
            if self.server.board.changes != known or time.monotonic() - sent >= SILENCE:
                text, known = self.server.board.update(max(known, 0))
                sent = time.monotonic()
                try:
                    self.wfile.write(f"data: {text}\n\n".encode())
                    self.wfile.flush()
                except OSError:
                    return
            time.sleep(PAUSE)


class Server(ThreadingHTTPServer):
    """Serves the page from a board, with a thread for each connection."""

    daemon_threads = True

    def __init__(self, port, board):
        super().__init__((HOST, port), Page)
        self.board = board


def fail(text):
    """Says what is wrong, and ends the script."""
    sys.exit(f"board.py: {text}")


def started(words):
    """The running `watch`, or None if the rows come on standard input."""
    if words.day == "-":
        return None
    command = [program(), "watch", *(["--follower", str(words.follower)] if words.follower != 1 else []), words.day]
    try:
        return subprocess.Popen(command, stdout=subprocess.PIPE, text=True, encoding="ascii", errors="replace")
    except OSError as fault:
        return fail(f"{command[0]}: {fault.strerror}")


def how_it_ended(board, watch):
    """How the rows ended, for the page. A day of which no row came is none that is shown."""
    status = watch.wait() if watch else 0
    if status and not board.tape:
        raise NoTape(f"no row came, and watch ended with status {status}")
    return "the day is over" if status == 0 else f"watch ended with status {status}: the day may go on"


def follow(board, watch):
    """Reads the rows to their end, and ends the script if they are not those of a tape."""
    try:
        board.read(watch.stdout if watch else sys.stdin)
        board.end = how_it_ended(board, watch)
    except NoTape as fault:
        print(f"board.py: {fault}", file=sys.stderr)
        if watch:
            watch.terminate()
        os._exit(1)


def main():
    parser = argparse.ArgumentParser(description=__doc__, formatter_class=argparse.RawDescriptionHelpFormatter)
    parser.add_argument("day", metavar="DAY.toml", help="the day's file, or - for rows on standard input")
    parser.add_argument("port", nargs="?", type=int, default=PORT, metavar="PORT", help=f"where the page is ({PORT})")
    parser.add_argument("--follower", type=int, default=1, metavar="N", help="the place among the day's followers (1)")
    words = parser.parse_args()
    if not 0 <= words.port <= 65_535:
        parser.error(f"{words.port} is no port")
    board = Board()
    try:
        server = Server(words.port, board)
    except OSError as fault:
        fail(f"port {words.port}: {fault.strerror}")
    watch = started(words)
    signal.signal(signal.SIGTERM, signal.default_int_handler)
    threading.Thread(target=follow, args=(board, watch), daemon=True).start()
    print(f"board: http://{HOST}:{server.server_address[1]}/", flush=True)
    try:
        server.serve_forever()
    except KeyboardInterrupt:
        pass
    finally:
        if watch:
            watch.terminate()
    return 0


if __name__ == "__main__":
    sys.exit(main())
