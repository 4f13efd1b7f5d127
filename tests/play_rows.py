#!/usr/bin/env python3
"""play_rows.py [--over MODULE] FILE..: plays worked rows (rows/README.md), and names each answer that differs. The file - is standard input.

    tests/play_rows.py rows/*.rows                          over plain rules in Python
    tests/play_rows.py --over library_feed rows/*.rows      over the proved code, by the static library (clib/build)

Statuses: 0 if all answers are as wanted; 1 if one differs; 2 for bad arguments, or if the module or a file can't be read.
"""

import argparse
import importlib
import itertools
import struct
import sys
from dataclasses import dataclass
from pathlib import Path

import folders  # noqa: F401
import plain_table
from plain_tape import Refused

LIMIT, SESSION = 1_048_576, 7
# The versions of what line A brings, and of what the others do.
WAYS = [(1, 1), (2, 2), (1, 2), (2, 1)]
COUNTS = ("fresh", "repeated", "beyond")
# The steps that a word names, besides those that a subscriber takes.
STEPS = "tape close last summary totals entry listing bytes spell length read fronts verify serve fetch cells codes conditions subscriber".split()
PLAIN = "plain_feed"


class NoStep(Exception):
    """A step that can't be taken."""


@dataclass
class Played:
    """How much was played."""

    answers: int = 0
    differ: int = 0


class Words:
    """The words of a step, which are taken one by one."""

    def __init__(self, words):
        self.words = list(words)

    def peek(self):
        """The next word, or an empty one."""
        return self.words[0] if self.words else ""

    def next(self):
        """Takes the next word."""
        if not self.words:
            raise NoStep("a word is missing")
        return self.words.pop(0)

    def takes(self, word):
        """Takes the next word if it is this one."""
        return self.peek() == word and bool(self.words.pop(0))

    def number(self):
        """Takes a number."""
        word = self.next()
        if not (word.isascii() and word.isdigit()):
            raise NoStep(f"{word} is no number")
        return int(word)

    def named(self, word, other):
        """Takes the number after this word; or another one if the word is not the next."""
        return self.number() if self.takes(word) else other

    def range(self):
        """Takes the two ends of a range."""
        first, _, last = self.next().partition("..")
        ends = Words([first, last or first])
        return ends.number(), ends.number()

    def matrix(self, other):
        """Takes a matrix; or another one if none is named."""
        return self.one_of("12") if self.takes("matrix") else other

    def one_of(self, known):
        """Takes one of these words."""
        word = self.next()
        if word not in tuple(known):
            raise NoStep(f"{word} is none of {' '.join(known)}")
        return word

    def version(self):
        """Takes a version."""
        return int(self.one_of("12"))


def row_of(who, number, words):
    """The row of a table that the words of a message write from its kind on."""
    kind = words.next()
    row = dict.fromkeys(plain_table.COLUMNS, "") | {"kind": kind, "participant": who, "number": number, "symbol": words.next()}
    if kind != "report":
        row["target"] = words.number()
    if kind in ("report", "correct"):
        row |= {"price": words.next(), "size": words.number(), "condition": words.next()}
    return row | {"moment": words.named("moment", 0)}


def span(first, last):
    """A range."""
    return str(first) if first == last else f"{first}..{last}"


def counted(counts):
    """The counts that are not 0."""
    return ", ".join(f"{name} {count}" for name, count in counts.items() if count) or "nothing"


def message_text(row):
    """A message."""
    words = [row[column] for column in ("participant", "number", "kind", "symbol", "target", "price", "size", "condition")]
    moment = ["moment", row["moment"]] if row["moment"] else []
    return " ".join(str(word) for word in words + moment if word != "")


def mark_text(mark):
    """A mark."""
    return f"{mark.who} {plain_table.dollars(mark.price)} at {mark.place}"


def summary_text(summary):
    """A summary."""
    marks = [f"{name} {mark_text(mark)}" for name in ("open", "high", "low", "last") if (mark := getattr(summary, name))]
    return ", ".join([*marks, f"volume {summary.volume}", f"trades {summary.trades}"])


def asked_summary(held, words):
    """The summary of the symbol, and of the participant, that words name."""
    try:
        return summary_text(held.summary(words.next(), words.next() if words.peek() else None))
    except Refused:
        return "not listed"


class Receiver:
    """A subscriber with the versions of what its lines bring."""

    def __init__(self, subscriber, way):
        self.subscriber, self.versions = subscriber, dict(zip("ABR", (way[0], way[1], way[1])))

    def delivered(self, line, packets):
        """The counts of packets that a line brings, up to the first that is refused."""
        try:
            taken = [self.subscriber.deliver(line, packet) for packet in packets]
        except Refused as refusal:
            return f"{refusal} at {refusal.detail}" if refusal.detail else str(refusal)
        return counted(dict(zip(COUNTS, map(sum, zip(*taken)))))

    def drained(self):
        """How many were drained, and why no more were."""
        try:
            return str(self.subscriber.drain())
        except Refused as refusal:
            return f"{refusal.detail}, then {refusal}"

    def missing(self):
        """What is missing."""
        missing = self.subscriber.missing()
        return span(missing[0], sum(missing) - 1) if missing else "nothing"

    def held(self, tape):
        """How many entries of a tape are held, and whether with all its summaries."""
        held, entries = list(self.subscriber.entries), list(tape.entries)
        if held != entries[: len(held)]:
            return "others"
        if len(held) < len(entries):
            return f"{len(held)} of {len(entries)}"
        whose = itertools.product(tape.symbols, (None, *tape.participants))
        is_same = all(self.subscriber.summary(*one) == tape.summary(*one) for one in whose)
        return f"all {len(held)}{'' if is_same else ' with other summaries'}"

    def shown(self, word):
        """What is asked by one word."""
        subscriber = self.subscriber
        match word:
            case "gap":
                return "open" if subscriber.has_gap else "closed"
            case "announced":
                return str(subscriber.announced)
            case "ended":
                return "not yet" if subscriber.ended is None else str(subscriber.ended)
            case "brought":
                return counted(subscriber.brought)
        raise NoStep("no step")


class Stage:
    """What a row has made so far, over the rules that are played."""

    def __init__(self, rules):
        self.rules = rules
        self.named, self.receivers, self.session = {}, [], SESSION
        self.made = None

    @property
    def tape(self):
        """The row's tape."""
        if self.made is None:
            raise NoStep("there is no tape")
        return self.made

    # Steps of a tape.

    def take_tape(self, words):
        """Makes an empty tape."""
        names = [[], []]
        while words.peek() and not words.takes("/"):
            names[0].append(words.next())
        while len(words.peek()) == 1:
            names[1].append(words.next())
        self.made = self.rules.Tape(*names, words.named("limit", LIMIT), words.matrix("1"))
        return ""

    def take_message(self, who, words):
        """Admits a message under each number of a range."""
        first, last = words.range()
        row = row_of(who, first, words)
        step, admitted = int(words.takes("rising")), []
        for number in range(first, last + 1):
            rise = {"price": plain_table.dollars(plain_table.ten_thousandths(row) + step * (number - first))} if step else {}
            try:
                admitted.append(self.tape.admit(self.rules.encode(row | rise | {"number": number})))
            except Refused as refusal:
                before = [span(admitted[0], admitted[-1])] if admitted else []
                return ", then ".join([*before, str(refusal)])
        return span(admitted[0], admitted[-1])

    def take_close(self, _words):
        """Closes the tape."""
        self.tape.close()
        return ""

    def take_last(self, words):
        """The mark of a symbol's last."""
        last = self.tape.summary(words.next()).last
        return mark_text(last) if last else "none"

    def take_summary(self, words):
        """A summary over the tape."""
        return asked_summary(self.tape, words)

    def take_totals(self, words):
        """What a participant has on the tape."""
        return "messages {}, shares {}, last {}".format(*self.tape.totals(words.next()))

    def entry_text(self, entry):
        """An entry."""
        after = f" after it {summary_text(entry.after)}" if entry.after else ""
        return message_text(self.rules.decode(entry.message)[0]) + after

    def take_entry(self, words):
        """An entry of the tape."""
        number, entries = words.number(), self.tape.entries
        return self.entry_text(entries[number - 1]) if 1 <= number <= len(entries) else "none"

    def take_listing(self, _words):
        """The tape's names."""
        return " ".join([*self.tape.symbols, "/", *self.tape.participants])

    # Bytes.

    def begun(self, words, version):
        """The bytes that the next words begin."""
        base = words.next()
        match base:
            case "hex":
                return bytes.fromhex(words.next())
            case "message":
                return self.rules.encode(row_of(words.next(), words.number(), words))
            case "request":
                return b"".join(words.number().to_bytes(size, "big") for size in (8, 4, 2))
            case "journal":
                sizes = [words.number()]
                while words.peek().isdigit():
                    sizes.append(words.number())
                return self.rules.journal(self.tape, sizes)
            case "packet" | "beat" | "end":
                first, last = words.range()
                session, version = words.named("session", self.session), words.version() if words.takes("version") else version
                return self.packet(base, version, session, first, last)
        if base not in self.named:
            raise NoStep(f"no bytes are named {base}")
        return self.named[base]

    def packet(self, base, version, session, first, last):
        """The bytes of a packet."""
        if base != "packet":
            return self.rules.told(base, version, session, first)
        packets = self.packets(version, session, first, last)
        if len(packets) != 1:
            raise NoStep("no packet has these entries")
        return packets[0]

    def packets(self, version, session, first, last):
        """The bytes of the packets with these entries of the tape."""
        if not 1 <= first <= last <= len(self.tape.entries):
            raise NoStep("the tape has no such entries")
        return self.rules.cut(self.tape, version, session, first, last)

    def bytes_of(self, words, version=1):
        """The bytes that all words write."""
        data = self.begun(words, version)
        while words.peek() in ("with", "first", "then"):
            match words.next():
                case "with":
                    other = bytes.fromhex(words.next())
                    at = words.number() if words.takes("at") else len(data)
                    if at + len(other) > len(data):
                        raise NoStep("there are no such bytes")
                    data = data[:at] + other + data[at + len(other) :]
                case "first":
                    data = data[: words.number()]
                case _:
                    data += self.begun(words, version)
        return data

    def take_bytes(self, words):
        """Gives bytes a name."""
        name = words.next()
        self.named[name] = self.bytes_of(words) if words.peek() else b""
        return ""

    def take_digits(self, words):
        """Adds digits to the bytes that were named last."""
        if not self.named:
            raise NoStep("no bytes are named")
        name = next(reversed(self.named))
        self.named[name] += bytes.fromhex("".join(words.words))
        words.words.clear()
        return ""

    def spelled(self, data):
        """The first name of bytes, or their digits."""
        return next((name for name, known in self.named.items() if known == data), data.hex())

    def take_spell(self, words):
        """What bytes are."""
        return self.spelled(self.bytes_of(words))

    def take_length(self, words):
        """How many bytes there are."""
        return str(len(self.bytes_of(words)))

    def take_verify(self, words):
        """What is found of a journal's bytes."""
        return self.rules.verify(self.bytes_of(words))

    # What bytes are read as.

    def read_message(self, data):
        """The message at the front of bytes."""
        row, length = self.rules.decode(data)
        return message_text(row), len(data) - length

    def read_packet(self, data):
        """The packet that the bytes are."""
        packet = self.rules.decode_packet(data)
        told = {"D": [], "H": [f"beat {packet.number}"], "E": [f"end {packet.number}"]}[packet.kind]
        entries = [f"entry {entry.number} {self.entry_text(entry)}" for entry in packet.entries]
        return ", ".join([f"version {packet.version}, session {packet.session}", *told, *entries]), 0

    def read_request(self, data):
        """The request that the bytes are."""
        return "session {}, from {}, count {}".format(*self.rules.decode_request(data)), 0

    def read_answer(self, data):
        """What asking reads of bytes."""
        try:
            read, left = self.rules.read_answer(data)
        except Refused as fault:
            return str(fault), fault.detail
        if isinstance(read, int):
            return f"{Refused(77)} {Refused(read)}", left
        return " ".join(["packets", *map(self.spelled, read)]), left

    def read(self, kind, data):
        """What bytes are read as, or their fault."""
        try:
            text, left = getattr(self, f"read_{kind}")(data)
        except Refused as fault:
            return str(fault)
        return f"{text}, {left} left" if left else text

    def take_read(self, words):
        """What bytes are read as."""
        return self.read(words.one_of(("message", "packet", "request", "answer")), self.bytes_of(words))

    def take_fronts(self, words):
        """What each front of bytes is read as, if it is the same of all."""
        kind, data = words.one_of(("message", "packet", "answer")), self.bytes_of(words)
        answers = {self.read(kind, data[:length]) for length in range(len(data))}
        return answers.pop() if len(answers) == 1 else " or ".join(sorted(answers))

    # Retransmission, and the matrices.

    def take_serve(self, words):
        """How many requests are answered, how that ends, and the answers."""
        version, data = words.version(), self.bytes_of(words)
        whole, rest = divmod(len(data), 14)
        answers = b"".join(self.rules.answer(self.tape, data[at : at + 14], self.session, version) for at in range(0, 14 * whole, 14))
        return f"answered {whole}, {'truncated' if rest else 'clean'} {self.spelled(answers)}"

    def take_fetch(self, words):
        """The entries of each packet that answers a request."""
        version = words.version()
        request = b"".join(words.number().to_bytes(size, "big") for size in (8, 4, 2))
        read, _ = self.rules.read_answer(self.rules.answer(self.tape, request, self.session, version))
        if isinstance(read, int):
            return f"{Refused(77)} {Refused(read)}"
        packets = map(self.rules.decode_packet, read)
        return " ".join(span(packet.number, packet.last) for packet in packets)

    def take_cells(self, words):
        """The cells of a condition."""
        matrix, condition = words.one_of("12"), words.next()
        return self.rules.cells(matrix, condition)

    def codes(self, matrix, position):
        """The codes of a position by rising bytes."""
        codes = [chr(byte).replace(" ", "_") for byte in range(256) if byte != ord("_")]
        return [code for code in codes if self.rules.is_listed(matrix, "@___"[:position] + code + "@___"[position + 1 :])]

    def take_codes(self, words):
        """The codes of a position, a blank as `_`."""
        return "".join(self.codes(words.one_of("12"), int(words.one_of("1234")) - 1))

    def take_conditions(self, words):
        """How many conditions a matrix has."""
        matrix = words.one_of("12")
        conditions = itertools.product(*(self.codes(matrix, position) for position in range(4)))
        return str(sum(self.rules.is_listed(matrix, "".join(condition)) for condition in conditions))

    # Steps of a subscriber.

    def take_subscriber(self, words):
        """Makes subscribers that hold nothing, one for each way."""
        tape, self.session = self.tape, words.named("session", SESSION)
        terms = words.named("limit", tape.limit), words.matrix(tape.matrix)
        self.receivers = [Receiver(self.rules.Subscriber(tape.symbols, tape.participants, *terms, self.session), way) for way in WAYS]
        return ""

    def received(self, receiver, word, words):
        """What a subscriber answers."""
        version = receiver.versions.get(word)
        match word:
            case "A" | "B" | "R" if words.takes("packets"):
                return receiver.delivered(word, self.packets(version, self.session, *words.range()))
            case "A" | "B" | "R":
                return receiver.delivered(word, [self.bytes_of(words, version)])
            case "ask":
                return self.asked(receiver)
            case "drain":
                return receiver.drained()
            case "missing":
                return receiver.missing()
            case "held":
                return receiver.held(self.tape)
            case "shows":
                return asked_summary(receiver.subscriber, words)
        return receiver.shown(word)

    def asked(self, receiver):
        """What becomes of the packets that answer a request for what is missing."""
        missing = receiver.subscriber.missing()
        if missing is None:
            return "nothing is missing"
        request = b"".join(number.to_bytes(size, "big") for number, size in zip((self.session, *missing), (8, 4, 2)))
        packets, _ = self.rules.read_answer(self.rules.answer(self.tape, request, self.session, receiver.versions["R"]))
        return str(Refused(77)) if isinstance(packets, int) else receiver.delivered("R", packets)

    def take_received(self, word, words):
        """What all subscribers answer, if it is the same; or all answers."""
        if not self.receivers:
            raise NoStep("there is no subscriber")
        answers, rest = [], words
        for receiver in self.receivers:
            rest = Words(words.words)
            answers.append(self.received(receiver, word, rest))
        words.words = rest.words
        return answers[0] if len(set(answers)) == 1 else " / ".join(answers)

    def take(self, words):
        """Takes a step, and answers."""
        word = words.next()
        if word == "|":
            return self.take_digits(words)
        if len(word) == 1 and words.peek()[:1].isdigit():
            return self.take_message(word, words)
        named = getattr(self, f"take_{word}", None) if word in STEPS else None
        return named(words) if named else self.take_received(word, words)


def answer(stage, step):
    """What is answered to a step."""
    words = Words(step.split())
    try:
        told = stage.take(words)
    except Refused as refusal:
        return str(refusal)
    except (NoStep, AttributeError, ValueError, OverflowError, struct.error, plain_table.TableFault) as fault:
        return f"no answer: {fault}"
    return "no answer: a word is too many" if words.words else told


def play(name, text, rules):
    """Plays the rows of a text: how much each was, in turn."""
    stage, played, title = Stage(rules), Played(), "before the first row"
    for at, line in enumerate(text.splitlines(), 1):
        said = line.split("#")[0].strip()
        if said.startswith("row "):
            if played != Played():
                yield title, played
            stage, played, title = Stage(rules), Played(), said.removeprefix("row ").strip()
            continue
        step, _, wanted = said.partition("->")
        if not step.strip():
            continue
        told = answer(stage, step)
        played.answers += bool(wanted)
        if told.split() != wanted.split():
            played.differ += 1
            print(f"{name}:{at}: {said}\n    answered: {told}")
    if played != Played():
        yield title, played


def main():
    parser = argparse.ArgumentParser(description=__doc__, formatter_class=argparse.RawDescriptionHelpFormatter)
    parser.add_argument("--over", metavar="MODULE", default=PLAIN, help="a module with the names of plain_feed")
    parser.add_argument("file", nargs="+", help="a file of rows, or -")
    words = parser.parse_args()
    try:
        rules = importlib.import_module(words.over)
        texts = [(file, sys.stdin.read() if file == "-" else Path(file).read_text(encoding="ascii")) for file in words.file]
    except (ImportError, OSError, UnicodeError) as fault:
        parser.error(str(fault))
    rows = []
    for name, text in texts:
        for title, played in play(name, text, rules):
            print(f"{title}: {played.answers} answers, {played.differ} differ")
            rows.append(played)
    differ = sum(played.differ for played in rows)
    print(f"{sum(played.answers for played in rows)} answers of {len(rows)} rows, {differ} differ")
    return 1 if differ else 0


if __name__ == "__main__":
    sys.exit(main())
