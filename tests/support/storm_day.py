"""A whole day on loopback in which a seed decides what goes wrong, and what has to be so at its end."""

import contextlib
import json
import random
import re
import select
import signal
import socket
import subprocess
import sys
import tempfile
import threading
import time
from dataclasses import dataclass, field
from pathlib import Path

import plain_table
from lossy_relay import KIND, ROOM, enlarge
from plain_feed import decode_packet
from plain_table import CONDITIONS
from plain_tape import Refused, Tape
from support import HOST, LIMIT, Ended, addresses, desk, ended, listens, message, ports, report_rows, run, started, wait_bound

RELAY = Path(__file__).resolve().parents[1] / "lossy_relay.py"
SYMBOLS = ["AB", "BRK.B", "C", "DD", "EFGH", "ZZZ9"]
SESSION, LIMIT_OF_TAPE = 7, 100_000
DATA = b"D"
# Seconds until a day must have ended.
DAY_SECONDS = 120
# What is said to a control socket that is no command, or not a whole one.
NONSENSE = [b"", b"sta", b"en", b"status", b"end", b"END\n", b"status now\n", b"\n\n\n", b"\x00\xff\n", b"x" * 100_000]
# How a follower may end: well, since its `live` is gone or serves it no longer, and that as a write that failed.
WELL, LEFT, UNWRITTEN = 0, 3, 4
# What a follower says that found nobody on the port of the retransmission.
UNREACHED = b": connection refused\n"
PARTIAL = re.compile(rb"(?m)^tapebox: the report is of the first (\d+) entr(?:y|ies)$")
ADMITTED = re.compile(rb"(?m)^tapebox: ([A-Z]): \d+ messages, (\d+) admitted")


class Wrong(Exception):
    """Says what of a day is not as it should be."""


class Taken(Exception):
    """Another program of this machine took a port first."""


class Ports:
    """The ports of the days that run at once."""

    def __init__(self):
        self.lock, self.taken = threading.Lock(), []

    @contextlib.contextmanager
    def of_day(self, count):
        """So many ports in a row that no other day has."""
        with self.lock:
            while True:
                row = ports(count)
                if not any(set(row) & set(other) for other in self.taken):
                    break
            self.taken.append(row)
        try:
            yield row
        finally:
            with self.lock:
                self.taken.remove(row)


PORTS = Ports()


@dataclass
class Plan:
    """What a seed decides of a day's messages."""

    random: random.Random
    participants: list = field(default_factory=list)
    sent: dict = field(default_factory=dict)
    tails: dict = field(default_factory=dict)

    @staticmethod
    def of(seed):
        """The day of a seed."""
        drawn = random.Random(seed)
        plan = Plan(drawn, list("NPQVZ"[: drawn.randint(1, 5)]))
        most = drawn.choice([20, 300, 2000])
        for who in plan.participants:
            plan.sent[who] = [plan.message(who, number) for number in range(1, drawn.randint(1, most) + 1)]
            # A line may end within a message, or with bytes that are none.
            plan.tails[who] = drawn.choice([b"", b"", b"", b"\x00\x26R", b"\xff\xff"])
        return plan

    def message(self, who, number):
        """A participant's next message, which a tape may refuse."""
        drawn = self.random
        kind = drawn.choice(["report"] * 6 + ["cancel", "correct", "reinstate"])
        number = max(number - (drawn.random() < 0.03), 1)
        row = {"kind": kind, "participant": who, "number": number, "symbol": drawn.choice(SYMBOLS + ["NOT"] * (drawn.random() < 0.1))}
        if kind != "report":
            row["target"] = drawn.randint(1, number)
        if kind in ("report", "correct"):
            row |= {"price": f"{drawn.randint(1, 40)}.{drawn.randint(0, 99):02}", "size": drawn.randint(1, 500), "condition": drawn.choice(CONDITIONS)}
        return message(**row)


@dataclass
class Operation:
    """What a seed decides of a day that a file gives: what its file says more, and what its operator and strangers do."""

    connect_within: int | None
    followers_wait: int | None
    ended_after: float | None
    is_ended_twice: bool
    # Whether the last participant never comes.
    is_absent: bool
    # Whether the control socket is a path, and not a port.
    is_path: bool
    flood: int

    @staticmethod
    def of(drawn):
        """The operation of a day."""
        within, ended_after = drawn.choice([None, 1, 2, 5]), drawn.choice([None, 0.0, drawn.random(), 3 * drawn.random()])
        is_absent = drawn.random() < 0.2 and (ended_after is not None or within in (1, 2))
        return Operation(within, drawn.choice([None, None, 0, 2]), ended_after, drawn.random() < 0.4, is_absent, drawn.random() < 0.7, drawn.choice([0, 0, 20, 256]))


def admitted(plan, who, matrix):
    """The messages of a participant that a tape admits: what a tape refuses depends on its own messages alone."""
    tape, taken = Tape(SYMBOLS, [who], LIMIT_OF_TAPE, matrix), []
    for each in plan.sent[who]:
        with contextlib.suppress(Refused):
            tape.admit(each)
            taken.append(each)
    return taken


def figures_of(report):
    """The rows of a report that have a trade, by their symbols and whom they are of: a table's report has the symbols in another order."""
    return {(row["symbol"], row["who"]): row for row in report_rows(report) if row["trades"] != "0"}


def messages_of_rows(rows):
    """The messages of the rows of a readable tape, below the names of its columns."""
    return [message(**dict(zip(plain_table.COLUMNS, row.decode().split(",")[2:11]))) for row in rows.splitlines()[1:]]


def send_pieces(line, text, drawn, pace, is_held):
    """Sends what a participant's line has, in pieces of a pace's sizes with one of its pauses. One that is held stays open until `live` has closed it."""
    sizes, pauses = pace
    pause = drawn.choice(pauses)
    while text:
        size = drawn.choice(sizes)
        line.sendall(text[:size])
        text = text[size:]
        time.sleep(pause if size > 40 else 0)
    if is_held:
        line.recv(1)


def make_noise(targets, drawn, is_over):
    """Sends datagrams that are no packet of the day to the ports of A and B."""
    with socket.socket(socket.AF_INET, socket.SOCK_DGRAM) as sender:
        while not is_over.wait(drawn.choice([0.01, 0.1, 0.3])):
            text = drawn.choice([b"", drawn.randbytes(40), b"\x02H" + drawn.randbytes(13), b"\x02E" + drawn.randbytes(13)])
            sender.sendto(text, (HOST, drawn.choice(targets)))


def flood(place, count, drawn, is_over):
    """Keeps so many connections to a control socket, which say what is no command; one after the other is closed and opened again."""
    with contextlib.ExitStack() as stack:
        held = []
        while not is_over.wait(0.001 if len(held) < count else 0.05):
            if len(held) == count:
                held.pop(drawn.randrange(count)).close()
            line = stack.enter_context(socket.socket(socket.AF_UNIX if isinstance(place, str) else socket.AF_INET))
            line.settimeout(0.2)
            with contextlib.suppress(OSError):
                line.connect(place)
                line.send(drawn.choice(NONSENSE))
            held.append(line)


class Follower:
    """A follower, which may be stopped, killed and started again. Each start takes one connection of those that `live` serves."""

    def __init__(self, word, words, drawn, awaits=None):
        # What it waits for before it starts, if for anything.
        self.word, self.words, self.awaits = word, words, awaits
        self.late = drawn.choice([0, 0, 0.2, 1.0])
        self.starts = drawn.choice([1, 1, 1, 2])
        self.stops = drawn.choice([0, 0, 1, 3])
        self.random = random.Random(drawn.random())
        self.ends = []

    def run(self):
        """Runs it to its end, and to as many starts before as it has."""
        if self.awaits:
            self.awaits.wait(LIMIT)
        time.sleep(self.late)
        for start in range(self.starts):
            self.run_once(start + 1 < self.starts)

    def run_once(self, is_killed):
        """Runs it to its end, or until it is killed."""
        with started([self.word, *self.words]) as running:
            taken = threading.Thread(target=self.disturb, args=(running, is_killed))
            taken.start()
            try:
                self.ends.append(ended(running, DAY_SECONDS))
            except subprocess.TimeoutExpired:
                self.ends.append(Ended(None, b"", b""))
            taken.join()

    def disturb(self, running, is_killed):
        """Stops and continues it a few times, and kills it if it is to be started again."""
        for _ in range(self.stops):
            time.sleep(self.random.random() * 0.5)
            if running.poll() is None:
                running.send_signal(signal.SIGSTOP)
                time.sleep(self.random.random() * 0.4)
                running.send_signal(signal.SIGCONT)
        if is_killed:
            time.sleep(self.random.random())
            running.kill()

    def is_partial(self):
        """Whether it writes the report of what it holds."""
        return "--partial" in self.words

    def undisturbed(self):
        """The same, and nothing happens to it."""
        self.late, self.starts, self.stops = 0, 1, 0
        return self


class Ears:
    """Whoever hears lines A and B as they are sent, and keeps their data packets."""

    def __init__(self, pair):
        self.ports, self.heard, self.sockets = pair, ([], []), [socket.socket(socket.AF_INET, socket.SOCK_DGRAM) for _ in pair]
        for port, ear in zip(pair, self.sockets):
            enlarge(ear)
            try:
                ear.bind((HOST, port))
            except OSError as fault:
                raise Taken from fault

    def hear(self, is_over):
        """Reads both lines until the day is over, and what is left then."""
        is_last = False
        while not is_last:
            is_last = is_over.is_set()
            for ear in select.select(self.sockets, [], [], 0 if is_last else 0.1)[0]:
                self.drain(self.sockets.index(ear))
        self.lost = sum(int(row[-1]) for row in addresses("udp") if int(row[1].partition(":")[2], 16) in self.ports)
        for ear in self.sockets:
            ear.close()

    def drain(self, line):
        """Reads what a line has brought by now."""
        with contextlib.suppress(BlockingIOError):
            while text := self.sockets[line].recv(ROOM, socket.MSG_DONTWAIT):
                if text[KIND] == DATA:
                    self.heard[line].append(text)

    def entries(self):
        """The entries of each line, in the order in which they were sent."""
        return [[entry for packet in packets for entry in decode_packet(packet).entries] for packets in self.heard]


class Day:
    """A day of a seed, as it runs."""

    # How `status` and `end` may end, and how many bytes participants send at once, with a pause in seconds after a longer piece.
    asked, pace = (WELL, LEFT), ([1, 7, 40, 1000, 100_000], [0, 0, 0.001, 0.01])

    def __init__(self, seed):
        self.seed, self.plan = seed, Plan.of(seed)
        drawn = self.plan.random
        self.matrix = str(drawn.randint(1, 2))
        self.operation = Operation.of(drawn) if drawn.random() < 0.75 else None
        self.killed_after = 2 * drawn.random() if drawn.random() < 0.1 else None
        self.half_open = drawn.choice([0, 0, 1, 3])
        # Of each follower its word and what is drawn for it.
        self.drawn = [(drawn.choice(["follow", "watch"]), random.Random(drawn.random())) for _ in range(drawn.randint(1, 3))]
        parts = ["lose", "double", "reorder", "garble"]
        self.relay_words = [word for part in parts for word in (f"--{part}", f"{drawn.choice([0, 5, 30])},{drawn.choice([0, 5, 30, 60])}")]
        self.relay_words += ["--late", f"0,{drawn.choice([0, 0, 5, 40])}", "--seed", seed % 1000]
        self.heard = {"status": [], "end": []}
        self.was_ended, self.is_listening, self.is_over = False, threading.Event(), threading.Event()
        # A follower that tries to connect once has to find `live`.
        self.awaited = None if self.operation and self.operation.connect_within else self.is_listening

    def run(self):
        """Runs the day, and returns how `live` ended."""
        with PORTS.of_day(len(self.plan.participants) + 8 + 2 * len(self.drawn)) as row, tempfile.TemporaryDirectory() as folder:
            self.folder = Path(folder)
            self.line, rest = row[0], row[len(self.plan.participants) :]
            # The control socket, the retransmission, the ways of A and B to the relay, those of the watch beside it and of the ears, and the followers'.
            self.control, self.retransmission, self.sent, self.beside, heard, pairs = rest[0], rest[1], rest[2:4], rest[4:6], rest[6:8], rest[8:]
            self.ears = Ears(heard)
            self.pairs = [pairs[at : at + 2] for at in range(0, len(pairs), 2)]
            words = self.words_of_file() if self.operation else self.words_in_a_row()
            return self.play(words, [port for pair in self.pairs for port in pair])

    def words_in_a_row(self):
        """What `live` and its followers are given if there is no file."""
        names = [",".join(SYMBOLS), ",".join(self.plan.participants)]
        terms = [self.retransmission, SESSION, self.matrix, LIMIT_OF_TAPE]
        self.followers = [self.follower(word, [*names, *pair, *terms], drawn) for (word, drawn), pair in zip(self.drawn, self.pairs)]
        self.followers.append(self.follower("watch", [*names, *self.beside, *terms], random.Random(0)).undisturbed())
        ways = [",".join(map(str, ways)) for ways in zip(self.sent, self.beside, self.ears.ports)]
        return ["live", *names, self.line, *ways, self.retransmission, self.serves(), SESSION, self.matrix, LIMIT_OF_TAPE]

    def follower(self, word, words, drawn):
        """A follower of the day."""
        return Follower(word, words, drawn, self.awaited)

    def serves(self):
        """How many connections `live` serves."""
        return self.half_open + sum(it.starts for it in self.followers)

    def words_of_file(self):
        """What they are given if a file has the day: `live` has the relay's ports, and its followers have their own."""
        self.followers = []
        for place, (word, drawn) in enumerate(self.drawn, 2):
            more = ["--partial"] if word == "follow" and drawn.random() < 0.6 else []
            self.followers.append(self.follower(word, ["--follower", place, *more, self.folder / "follow.toml"], drawn))
        self.followers.append(self.follower("watch", [self.folder / "follow.toml"], random.Random(0)).undisturbed())
        self.write_file("live.toml", [self.beside, self.sent, self.ears.ports])
        self.write_file("follow.toml", [self.beside, *self.pairs])
        return ["live", self.folder / "live.toml"]

    def keys_of(self, pairs):
        """What the day's file says for these pairs of ports of A and B."""
        operation = self.operation
        keys = {"symbols": SYMBOLS, "participants": self.plan.participants, "port": self.line}
        keys |= {"a": [pair[0] for pair in pairs], "b": [pair[1] for pair in pairs], "retransmission": self.retransmission, "followers": self.serves()}
        keys |= {"session": SESSION, "matrix": int(self.matrix), "limit": LIMIT_OF_TAPE, "control": "operator/control" if operation.is_path else self.control}
        return keys | {key: value for key in ("connect_within", "followers_wait") if (value := getattr(operation, key)) is not None}

    def write_file(self, name, pairs):
        """Writes the day's file for these pairs of ports of A and B."""
        (self.folder / "operator").mkdir(mode=0o700, exist_ok=True)
        (self.folder / name).write_text("".join(f"{key} = {json.dumps(value)}\n" for key, value in self.keys_of(pairs).items()))

    def told(self):
        """What there is to tell of a day besides."""
        return ""

    def play(self, words, targets):
        """Plays the day, and returns how `live` ended."""
        drawn = self.plan.random
        with contextlib.ExitStack() as stack:
            live = stack.enter_context(started(words))
            self.start_relay(stack, targets)
            tasks = [threading.Thread(target=self.send, args=(live, at, random.Random(drawn.random()))) for at in range(len(self.plan.participants))]
            tasks += [threading.Thread(target=follower.run) for follower in self.followers]
            others = [*self.operators(targets), *self.enders(live)]
            for task in [*tasks, *others]:
                task.start()
            self.wait_listening(live)
            idle = self.open_idle(stack)
            for task in tasks:
                task.join()
            for connection in idle:
                connection.close()
            self.use_up(live)
            end = ended(live, DAY_SECONDS)
            self.is_over.set()
            for task in others:
                task.join()
        self.is_control_left = (self.folder / "operator" / "control").exists()
        return end

    def start_relay(self, stack, targets):
        """Starts what lies between `live` and its followers."""
        relay = stack.enter_context(started([RELAY, *self.relay_words, *self.sent, *targets], program=sys.executable))
        wait_bound(relay, *self.sent)

    def enders(self, live):
        """Whoever kills `live`, or ends the day."""
        if self.killed_after is not None:
            yield threading.Thread(target=lambda: self.is_over.wait(self.killed_after) or live.kill())
        if self.operation and self.operation.ended_after is not None:
            yield threading.Thread(target=self.end_day)

    def operators(self, targets):
        """Whoever hears or looks at a running day, or disturbs it."""
        drawn, is_over = self.plan.random, self.is_over
        yield threading.Thread(target=self.ears.hear, args=(is_over,))
        yield threading.Thread(target=make_noise, args=(targets, random.Random(drawn.random()), is_over))
        if self.operation:
            place = str(self.folder / "operator" / "control") if self.operation.is_path else (HOST, self.control)
            yield threading.Thread(target=self.ask_status, args=(random.Random(drawn.random()),))
            if self.operation.flood:
                yield threading.Thread(target=flood, args=(place, self.operation.flood, random.Random(drawn.random()), is_over))

    def ask(self, word):
        """How an operator's word ended: what it wrote, or nothing if it failed."""
        end = run([word, self.folder / "live.toml"])
        self.heard[word].append(end)
        return end.written if end.status == WELL else None

    def ask_status(self, drawn):
        """Asks how the day stands, now and then."""
        while not self.is_over.wait(drawn.choice([0.1, 0.5, 1])):
            self.ask("status")

    def end_day(self):
        """Ends the day, once or twice, once somebody hears it."""
        self.is_over.wait(self.operation.ended_after)
        for _ in range(1 + self.operation.is_ended_twice):
            while not self.is_over.is_set() and self.ask("end") is None:
                self.is_over.wait(0.05)
            # A day may be over by itself before.
            self.was_ended |= not self.is_over.is_set()
            self.is_over.wait(0.3)

    def open_idle(self, stack):
        """Connections to the retransmission that say nothing, as far as it can be reached."""
        opened = []
        with contextlib.suppress(OSError):
            for _ in range(self.half_open):
                opened.append(stack.enter_context(socket.create_connection((HOST, self.retransmission), timeout=LIMIT)))
        return opened

    def send(self, live, at, drawn):
        """Sends a participant's line, once `live` listens. A line that `live` has ended is not sent to its end."""
        who, until = self.plan.participants[at], time.monotonic() + LIMIT
        if self.operation and self.operation.is_absent and who == self.plan.participants[-1]:
            return
        while live.poll() is None:
            try:
                with socket.create_connection((HOST, self.line + at), timeout=LIMIT) as line:
                    text = b"".join(self.messages_of(live, who, drawn)) + self.plan.tails[who]
                    send_pieces(line, text, drawn, self.pace, drawn.random() < 0.5 and self.is_to_end())
                return
            except ConnectionRefusedError:
                # A day that was ended takes no line any more.
                if time.monotonic() > until or self.was_ended:
                    return
                time.sleep(0.02)
            except OSError:
                return

    def messages_of(self, _live, who, _drawn):
        """The messages that a participant sends."""
        return self.plan.sent[who]

    def is_to_end(self):
        """Whether somebody will end the day."""
        return self.operation is not None and self.operation.ended_after is not None or self.killed_after is not None

    def wait_listening(self, live):
        """Waits until `live` listens on the port of the retransmission, or has ended."""
        until = time.monotonic() + LIMIT
        while live.poll() is None and time.monotonic() < until and not listens(self.retransmission):
            time.sleep(0.02)
        self.is_listening.set()

    def use_up(self, live):
        """Takes the connections that `live` still waits for, as of a follower that was killed before it connected."""
        until = time.monotonic() + DAY_SECONDS
        while live.poll() is None and time.monotonic() < until:
            with contextlib.suppress(OSError), socket.create_connection((HOST, self.retransmission), timeout=1):
                pass
            time.sleep(0.02)

    def is_given_up(self):
        """Whether followers may find that `live` is gone, or has given them up."""
        return self.killed_after is not None or self.was_ended or self.operation is not None and self.operation.followers_wait is not None

    def check(self, end):
        """Refuses a day that is not as it should be."""
        self.check_live(end)
        tapes = [one.written for follower in self.followers if follower.word == "watch" for one in follower.ends]
        whole = max(tapes, key=len, default=b"")
        # A last row may be cut short.
        for tape in tapes:
            if not whole.startswith(tape):
                raise Wrong("a follower wrote rows that are not the front of another's tape")
        rows = whole[: whole.rfind(b"\n") + 1]
        for follower in self.followers:
            for number, one in enumerate(follower.ends, 1):
                self.check_follower(follower, number, one, end, rows)
        is_whole = any(one.status == WELL for follower in self.followers if follower.word == "watch" for one in follower.ends)
        self.check_tape(rows, end, is_whole)
        if end.status == WELL and not self.ears.lost:
            self.check_lines(messages_of_rows(rows), is_whole)

    def check_lines(self, messages, is_whole):
        """Refuses lines that did not both carry each entry of the tape once, in its order."""
        a, b = self.ears.entries()
        if self.ears.heard[0] != self.ears.heard[1] or [entry.number for entry in a] != [*range(1, len(a) + 1)]:
            raise Wrong(f"lines A and B did not carry each entry once: {len(a)} and {len(b)} entries, of {len(messages)}")
        if is_whole and [entry.message for entry in a] != messages:
            raise Wrong("lines A and B carried another tape than a follower wrote")

    def check_live(self, end):
        """Refuses how `live` ended, and what its operator heard."""
        if self.killed_after is not None and end.status == -signal.SIGKILL:
            return
        if b": address in use\n" in end.said:
            raise Taken
        if end.status != WELL or not re.fullmatch(rb"(?:tapebox: [^\n]+\n)*" if self.operation else b"", end.said):
            raise Wrong(f"live ended with {end.status} and said {end.said!r}")
        if not report_rows(end.written):
            raise Wrong("live wrote no report")
        if self.operation and (self.operation.is_path and self.is_control_left):
            raise Wrong("the control socket's path is left")
        for word, begins in (("status", b"since "), ("end", b"ending")):
            for one in self.heard[word]:
                if one.status not in self.asked or one.status == WELL and not one.written.startswith(begins):
                    raise Wrong(f"{word} ended with {one.status}, wrote {one.written!r} and said {one.said!r}")

    def check_follower(self, follower, number, one, end, rows):
        """Refuses how a follower ended."""
        is_left = self.is_given_up() or not follower.awaits and one.said.endswith(UNREACHED)
        allowed = {WELL} | ({-signal.SIGKILL} if number < follower.starts else set()) | ({LEFT, UNWRITTEN} if is_left else set())
        name = f"{follower.word}, start {number},"
        if one.status not in allowed:
            raise Wrong(f"{name} never ended" if one.status is None else f"{name} ended with {one.status} and said {one.said!r}")
        if follower.word == "watch":
            return
        told = PARTIAL.search(one.said)
        if one.status == WELL:
            if told or end.status == WELL and one.written != end.written:
                raise Wrong(f"{name} has another report than live")
        elif not told:
            if one.written:
                raise Wrong(f"{name} failed and wrote a report")
        elif not follower.is_partial():
            raise Wrong(f"{name} has a report of a part that nobody asked for")
        elif int(told[1]) < rows.count(b"\n") and figures_of(one.written) != figures_of(self.report_of(rows, int(told[1]))):
            raise Wrong(f"{name} has another report than that of the first {told[1].decode()} entries")

    def report_of(self, rows, count):
        """The report of the first rows of a tape."""
        front = b"".join(rows.splitlines(keepends=True)[: count + 1])
        return desk("report", given=front, matrix=self.matrix).written if count else b""

    def check_tape(self, rows, end, is_whole):
        """Refuses a tape that is not that of what was sent, or whose figures are not the report's."""
        if rows.count(b"\n") < 2:
            if is_whole and end.status == WELL and figures_of(end.written):
                raise Wrong("the report has trades, and the tape has none")
            return
        verdict = desk("verify", given=rows, matrix=self.matrix)
        if verdict.status != WELL:
            raise Wrong(f"verify ended with {verdict.status}: {verdict.written or verdict.said!r}")
        on_tape = {who: [] for who in self.plan.participants}
        for text in messages_of_rows(rows):
            on_tape[chr(text[3])].append(text)
        is_all = is_whole and end.status == WELL
        for who, messages in on_tape.items():
            wanted = admitted(self.plan, who, self.matrix)
            is_cut = not is_all or self.was_ended or self.operation and self.operation.is_absent
            if messages != (wanted[: len(messages)] if is_cut else wanted):
                raise Wrong(f"the tape does not have the messages of {who} that it should")
        if is_all:
            self.check_report(on_tape, end, rows)

    def check_report(self, on_tape, end, rows):
        """Refuses a report that is not the whole tape's, and counts that are not."""
        if figures_of(end.written) != figures_of(desk("report", given=rows, matrix=self.matrix).written):
            raise Wrong("the report is not that of the tape")
        self.check_counts(on_tape, end)

    def check_counts(self, on_tape, end):
        """Refuses counts of admitted messages that are not the tape's."""
        if self.operation:
            told = {who.decode(): int(count) for who, count in ADMITTED.findall(end.said)}
            if told != {who: len(messages) for who, messages in on_tape.items() if who in told or messages}:
                raise Wrong(f"live said that {told} were admitted, and not what is on the tape")

