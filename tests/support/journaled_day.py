"""A whole day of a file that keeps a journal: its `live` is killed at any moment, and started again on the same file."""

import contextlib
import random
import re
import signal
import threading
import time
from dataclasses import dataclass

from plain_journal import Damaged, NoHeader, group_text, read_front
from plain_table import batch_line
from plain_tape import Entry
from storm_day import (
    ADMITTED,
    DAY_SECONDS,
    LEFT,
    PARTIAL,
    SESSION,
    SYMBOLS,
    UNREACHED,
    UNWRITTEN,
    WELL,
    Day,
    Follower,
    Operation,
    Wrong,
    admitted,
    messages_of_rows,
)
from support import Ended, desk, ended, report, run, started

JOURNAL = "day.journal"
CUT = re.compile(rb"(?m)^tapebox: journal [^\n]*: cut off ([\d,]+) bytes? of a group that was not whole$")
WENT_ON = re.compile(rb"(?m)^tapebox: went on at ([^\n]*)$")
# About how many bytes of a journal a message that is sent takes, and after how many seconds at most `live` is killed.
MESSAGE_BYTES, KILLED_WITHIN = 32, 1.5
# How often a follower is started at most.
STARTS_MOST = 40
# How long a participant that comes is waited for: longer than a `live` that is killed runs, also on a busy machine. One that gives a participant
# up ends the day without it, and after that the next one goes on with more than a follower had.
CONNECT_WITHIN = 15
KILLED = -signal.SIGKILL


@dataclass(frozen=True)
class Kill:
    """When a `live` is killed: so many seconds after its start, or once its journal has this share of the bytes that it still lacks."""

    seconds: float
    share: float

    @staticmethod
    def of(drawn):
        """A kill at any moment, more often within the day than after it."""
        by_size = drawn.random() < 0.75
        seconds = KILLED_WITHIN if by_size else KILLED_WITHIN * drawn.choice([0.1, 0.5, 1]) * drawn.random()
        return Kill(seconds, drawn.random() if by_size else 2)


@dataclass(frozen=True)
class Start:
    """A start of `live`: the journal's bytes before it, what a plain reader finds in them, if they have a whole header, and how it ended."""

    text: bytes
    past: object
    end: Ended

    def said(self):
        """What it has to say of its journal."""
        if self.past is None:
            return [], []
        left = len(self.text) - self.past.whole
        return [f"{left:,}".encode()] if left else [], [went_on_text(self.past).encode()] if self.past.entries else []


class Returning(Follower):
    """A follower that is started again until it has ended well or the day is over: if it is killed, and if its `live` was."""

    def __init__(self, word, words, drawn, day):
        super().__init__(word, words, drawn)
        self.day = day

    def run(self):
        """Runs it, as long as what ends it is no fault of its own."""
        time.sleep(self.late)
        while not self.day.is_over.is_set() and len(self.ends) < STARTS_MOST:
            if self.day.awaited and not self.day.awaited.wait(0.05):
                continue
            self.run_once(len(self.ends) + 1 < self.starts)
            if self.ends[-1].status not in (KILLED, LEFT, UNWRITTEN):
                return


class JournaledDay(Day):
    """A day of a seed that keeps a journal, as it runs."""

    # The `live` that `status` and `end` ask may be killed at any moment. Lines take a while, so that it is within the day.
    asked, pace = (WELL, LEFT, UNWRITTEN), ([1, 7, 40, 200, 1000], [0, 0.001, 0.003])

    def __init__(self, seed):
        super().__init__(seed)
        drawn = self.random = random.Random(f"journal {seed}")
        self.operation = self.operation or Operation.of(drawn)
        operation = self.operation
        operation.is_absent = operation.is_absent and drawn.random() < 0.3
        operation.connect_within = 2 if operation.is_absent else drawn.choice([None, CONNECT_WITHIN])
        operation.ended_after = drawn.choice([None, 2 * drawn.random()])
        operation.followers_wait = drawn.choice([None, None, None, 2])
        self.killed_after, self.syncs = None, drawn.random() < 0.7
        self.awaited = None if operation.connect_within else self.is_listening
        self.kills = [Kill.of(drawn) for _ in range(drawn.choice([0, 1, 1, 2, 2, 3]))]
        # Whether this start's `live` is to be killed, what its journal had, and what of all starts was wrong.
        self.is_doomed, self.past, self.starts, self.wrongs = False, None, [], []

    def follower(self, word, words, drawn):
        return Returning(word, words, drawn, self)

    def keys_of(self, pairs):
        return super().keys_of(pairs) | {"journal": JOURNAL, "journal_sync": self.syncs}

    def serves(self):
        """More connections than come: a follower takes one of each `live`, and one for each start."""
        return self.half_open + 2 * sum(it.starts for it in self.followers) + 6

    def journal_text(self):
        """The journal's bytes at this moment."""
        with contextlib.suppress(FileNotFoundError):
            return (self.folder / JOURNAL).read_bytes()
        return b""

    def journal_size(self):
        """How many bytes it has."""
        with contextlib.suppress(FileNotFoundError):
            return (self.folder / JOURNAL).stat().st_size
        return 0

    def play(self, words, targets):
        with contextlib.ExitStack() as stack:
            self.start_relay(stack, targets)
            others = [*self.operators(targets), *(threading.Thread(target=self.end_day) for _ in range(self.operation.ended_after is not None))]
            self.following = [threading.Thread(target=follower.run) for follower in self.followers]
            for task in [*others, *self.following]:
                task.start()
            end = self.run_all(words)
            self.is_over.set()
            for task in [*others, *self.following]:
                task.join()
        self.is_control_left, self.text = (self.folder / "operator" / "control").exists(), self.journal_text()
        return end

    def run_all(self, words):
        """Starts `live` again after each kill, and returns how the last one ended."""
        for kill in [*self.kills, None]:
            end = self.run_live(words, kill)
            if end.status != KILLED:
                break
        return end

    def run_live(self, words, kill):
        """Runs one `live` to its end or until it is killed, while the participants send."""
        if self.starts and self.random.random() < 0.4:
            self.tear()
        text, self.is_doomed = self.journal_text(), kill is not None
        self.past = journal_of(text)
        with started(words) as live, contextlib.ExitStack() as stack:
            tasks = [threading.Thread(target=self.send, args=(live, at, random.Random(self.plan.random.random()))) for at in range(len(self.plan.participants))]
            tasks += [threading.Thread(target=self.kill, args=(live, kill, len(text)))] if kill else []
            tasks += [threading.Thread(target=self.end_again, args=(live,))] if self.was_ended else []
            for task in tasks:
                task.start()
            self.wait_listening(live)
            self.open_idle(stack)
            if not kill:
                self.wait_followed(live)
                stack.close()
                self.use_up(live)
            end = ended(live, DAY_SECONDS)
            self.is_listening.clear()
            for task in tasks:
                task.join()
        self.starts.append(Start(text, self.past, end))
        return end

    def tear(self):
        """Leaves the front of a group at the journal's end, as a write that was cut off."""
        journal = journal_of(self.journal_text())
        if journal and not journal.fault:
            held = len(journal.entries)
            entries = [Entry(number, report(self.plan.participants[0], 1), None) for number in range(held + 1, held + 1 + self.random.randint(1, 40))]
            text = group_text(journal, entries)
            with open(self.folder / JOURNAL, "ab") as file:
                file.write(text[: self.random.randrange(1, len(text))])

    def kill(self, live, kill, before):
        """Kills a `live` at its moment, unless it has ended."""
        until, messages = time.monotonic() + kill.seconds, sum(map(len, self.plan.sent.values()))
        size = before + kill.share * max(MESSAGE_BYTES * messages - before, MESSAGE_BYTES)
        while live.poll() is None and time.monotonic() < until and self.journal_size() < size:
            time.sleep(0.001)
        live.kill()

    def wait_followed(self, live):
        """Waits until the followers have ended, or `live` has."""
        until = time.monotonic() + DAY_SECONDS
        while live.poll() is None and time.monotonic() < until and any(task.is_alive() for task in self.following):
            time.sleep(0.02)

    def send(self, live, at, drawn):
        """Sends a participant's line from the front, or behind what the journal has. Nobody sends to a day that was ended before it was killed."""
        if not self.was_ended:
            super().send(live, at, drawn)

    def messages_of(self, live, who, drawn):
        messages = self.plan.sent[who]
        if drawn.random() < 0.5:
            return messages
        last = self.last_number(live, who)
        return [message for message in messages if number_of(message) > last]

    def last_number(self, live, who):
        """The number behind which a participant goes on, by the status of its line. It has to be the journal's."""
        found = None
        while not found:
            if live.poll() is not None:
                raise ConnectionResetError
            time.sleep(0.01)
            found = re.search(rb"(?m)^%c: (?:ended, )?connected since \d+ s, \d+ messages, (\d+) admitted, last number (\d+)$" % ord(who), self.ask("status") or b"")
        told, wanted = (int(found[1]), int(found[2])), (self.past.lasts() if self.past else {}).get(who, (0, 0))
        if told != wanted:
            self.wrongs.append(f"status told {who} that it goes on behind {told}, and the journal has {wanted}")
        return told[1]

    def is_to_end(self):
        return self.is_doomed or self.operation.ended_after is not None

    def ask_end(self):
        """Whether the day has heard that it is to end. One that may have heard it counts as ended."""
        end = run(["end", self.folder / "live.toml"])
        self.heard["end"].append(end)
        # A day may be over by itself before.
        self.was_ended |= not self.is_over.is_set() and (end.status == WELL or not end.said.endswith(UNREACHED))
        return end.status == WELL

    def end_day(self):
        self.is_over.wait(self.operation.ended_after)
        for _ in range(1 + self.operation.is_ended_twice):
            while not self.is_over.is_set() and not self.ask_end():
                self.is_over.wait(0.05)
            self.is_over.wait(0.3)

    def end_again(self, live):
        """Ends a day that was ended before its `live` was killed: nothing more is read."""
        while live.poll() is None and not self.ask_end():
            time.sleep(0.02)

    def told(self):
        kills = sum(start.end.status == KILLED for start in self.starts)
        torn = sum(start.past is not None and start.past.fault is not None for start in self.starts)
        return f"; live killed {kills} times, {torn} torn, {len(journal_of(self.text).entries)} entries"

    def check(self, end):
        if self.wrongs:
            raise Wrong(self.wrongs[0])
        if len(self.starts) > 1 and b": address in use\n" in end.said:
            raise Wrong(f"live was not started again and said {end.said!r}")
        self.check_live(end)
        journal = journal_of(self.text)
        self.check_journal(journal)
        messages = [entry.message for entry in journal.entries]
        self.check_sent(messages, end)
        self.check_heard(journal.entries)
        if end.written != self.report_of_journal(messages):
            raise Wrong("the report is not that of the journal's messages in one batch")
        for follower in self.followers:
            self.check_ends(follower, messages, end)

    def check_journal(self, journal):
        """Refuses a journal with a number that is not its next one, or a part that is no group, or that is not the front of the next start's."""
        if journal is None or journal.fault or [entry.number for entry in journal.entries] != [*range(1, len(journal.entries) + 1)]:
            raise Wrong(f"the journal is none, or {journal and journal.fault}")
        if (journal.session, journal.matrix, list(journal.symbols), list(journal.participants)) != (SESSION, int(self.matrix), SYMBOLS, self.plan.participants):
            raise Wrong("the journal is that of another day")
        for start, after in zip(self.starts, [start.text for start in self.starts[1:]] + [self.text]):
            if start.past and (isinstance(start.past.fault, Damaged) or not after.startswith(start.text[: start.past.whole])):
                raise Wrong("what the journal had is not in it any more")
            self.check_start(start)

    def check_start(self, start):
        """Refuses what a start said of its journal. One that was killed may have said nothing yet."""
        told, wanted = (CUT.findall(start.end.said), WENT_ON.findall(start.end.said)), start.said()
        if start.end.status == KILLED:
            wanted = tuple(lines if seen else [] for lines, seen in zip(wanted, told))
        if told != wanted:
            raise Wrong(f"live said of its journal {told}, and a plain reader finds {wanted}")

    def check_sent(self, messages, end):
        """Refuses a tape that does not have, for each participant, what a plain tape admits of what it sent, and counts that are not the tape's."""
        on_tape = {who: [each for each in messages if each[3] == ord(who)] for who in self.plan.participants}
        for who, own in on_tape.items():
            wanted = admitted(self.plan, who, self.matrix)
            is_cut = self.was_ended or self.operation.is_absent
            if own != (wanted[: len(own)] if is_cut else wanted):
                raise Wrong(f"the journal does not have the messages of {who} that it should: {len(own)} of {len(wanted)}")
        told = {who.decode(): int(count) for who, count in ADMITTED.findall(end.said)}
        if any(len(on_tape[who]) != count for who, count in told.items()):
            raise Wrong(f"live said that {told} were admitted, and not what is in the journal")

    def check_heard(self, entries):
        """Refuses lines that carried a number twice, or another entry under it than the journal has, or that lacked what the last `live` published."""
        held = len(self.past.entries) if self.past else 0
        for name, heard in zip("AB", self.ears.entries()):
            numbers = [entry.number for entry in heard]
            if numbers != sorted(set(numbers)):
                raise Wrong(f"line {name} carried a number twice")
            if any(entry.number > len(entries) or entry != entries[entry.number - 1] for entry in heard):
                raise Wrong(f"line {name} carried another entry than the journal has")
            if not self.ears.lost and numbers[len(numbers) - (len(entries) - held) :] != [*range(held + 1, len(entries) + 1)]:
                raise Wrong(f"line {name} lacked what was published after number {held}")

    def report_of_journal(self, messages):
        """The report of these messages in one batch, which admits each of them."""
        names = f"{' '.join(SYMBOLS)}\n{' '.join(self.plan.participants)}\n"
        written = run(["batch", self.matrix], names.encode() + b"".join(map(batch_line, messages))).written
        answers, rest = written.split(b"\n")[: len(messages)], written.split(b"\n", len(messages))[-1]
        if answers != [str(number).encode() for number in range(1, len(messages) + 1)]:
            raise Wrong("a batch refuses a message of the journal")
        return rest

    def check_ends(self, follower, messages, end):
        """Refuses how a follower ended at each of its starts, and what it wrote."""
        for number, one in enumerate(follower.ends, 1):
            name, is_last = f"{follower.word}, start {number},", number == len(follower.ends)
            allowed = {WELL, LEFT, UNWRITTEN, KILLED} if not is_last or self.is_given_up() else {WELL}
            if one.status not in allowed:
                raise Wrong(f"{name} never ended" if one.status is None else f"{name} ended with {one.status} and said {one.said!r}")
            if follower.word == "watch":
                self.check_rows(name, one, messages)
            else:
                self.check_report_of(name, one, messages, end)

    def check_rows(self, name, one, messages):
        """Refuses rows that are not the front of the journal's tape, or not all of it if the follower ended well."""
        rows = one.written[: one.written.rfind(b"\n") + 1]
        numbers = [int(row.partition(b",")[0]) for row in rows.splitlines()[1:]]
        if numbers != [*range(1, len(numbers) + 1)] or messages_of_rows(rows) != messages[: len(numbers)]:
            raise Wrong(f"{name} has rows that are not the front of the journal's tape")
        if one.status == WELL and len(numbers) != len(messages):
            raise Wrong(f"{name} ended well and has {len(numbers)} rows of {len(messages)}")
        if one.status == WELL and numbers and (verdict := desk("verify", given=rows, matrix=self.matrix)).status != WELL:
            raise Wrong(f"verify ended with {verdict.status}: {verdict.written or verdict.said!r}")

    def check_report_of(self, name, one, messages, end):
        """Refuses a report that is not `live`'s, or not that of the first entries that are told."""
        told = PARTIAL.search(one.said)
        if one.status == WELL:
            if told or one.written != end.written:
                raise Wrong(f"{name} has another report than live")
        elif one.written and (not told or one.written != self.report_of_journal(messages[: int(told[1])])):
            raise Wrong(f"{name} has another report than that of the journal's first entries")


def journal_of(text):
    """What a plain reader finds in a journal's bytes, or nothing if they do not have a whole header."""
    try:
        return read_front(text)
    except NoHeader:
        return None


def went_on_text(journal):
    """Where a day goes on with the entries of a journal, of which there are some, as it says that."""
    lasts = [f"{who}: {'' if at else 'last number '}{last:,}" for at, (who, (_, last)) in enumerate(journal.lasts().items())]
    return f"{len(journal.entries):,} ({'; '.join(lasts)})"


def number_of(message):
    """The participant's number of a message."""
    return int.from_bytes(message[4:8], "big")
