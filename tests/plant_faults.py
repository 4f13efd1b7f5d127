#!/usr/bin/env python3
"""Plants faults in the plain rules and plays the worked rows over each: plant_faults.py --all | --count N [--seed N]

A fault is one of those below, which writers of receivers made or might make, or one small change of the code of tests/plain/plain_tape.py or
plain_feed.py: another comparison, a number one more or one less, a condition that always or never holds, `and` for `or`, a sum for a difference.
Each must make some row differ. Those that can make no row differ stand below with the reason.

With --count the faults below are tried and so many of the small changes, drawn by the seed. Prints how many were planted, by their kind. Statuses: 0 if
each was seen; 1 if one passed, which is named; 2 for bad arguments.
"""

import argparse
import ast
import contextlib
import copy
import functools
import io
import random
import signal
import sys
import types
from collections import Counter
from collections.abc import Callable
from pathlib import Path
from typing import NamedTuple

import folders
import play_rows

PLAIN = folders.TESTS / "plain"
FILES = sorted((folders.ROOT / "rows").glob("*.rows"))
# How long the rows may take over a fault, in seconds. A loop without an end is seen too.
LIMIT = 20
# By file, faults that are more than one small change: what stands there, and what is planted.
LISTED = {
    "plain_tape.py": [
        # A correction keeps its old condition.
        ("report.price, report.size, report.condition = content", "report.price, report.size, _ = content"),
        # A participant's totals follow corrected sizes, or drop cancelled reports.
        ('shares += row["size"] if row["kind"] == "report" else 0', 'shares += row["size"] or 0'),
        ('shares += row["size"] if row["kind"] == "report" else 0', 'shares -= self.reports[row["participant"], row["target"]].size if row["kind"] == "cancel" else -(row["size"] if row["kind"] == "report" else 0)'),
        # Cancelled or Standing before OtherSymbol.
        (
            "        if report.symbol != symbol:\n            raise Refused(38)\n        if report.stands == (kind == \"reinstate\"):\n            raise Refused(43 if report.stands else 39)\n",
            "        if report.stands == (kind == \"reinstate\"):\n            raise Refused(43 if report.stands else 39)\n        if report.symbol != symbol:\n            raise Refused(38)\n",
        ),
        # UnknownParticipant before Full.
        (
            '            (32, len(self.entries) >= self.limit),\n            (34, row["participant"] not in self.sent),\n',
            '            (34, row["participant"] not in self.sent),\n            (32, len(self.entries) >= self.limit),\n',
        ),
    ],
    "plain_feed.py": [
        # No conflict among drained entries, or one that ignores carried figures.
        ("return self.entries[number - 1] if number <= len(self.entries) else self.waiting.get(number)", "return self.waiting.get(number)"),
        (
            "if self.known(entry.number) not in (None, entry):",
            "if self.known(entry.number) is not None and self.known(entry.number).message != entry.message:",
        ),
        # A beat above a known end is taken.
        ("(packet.last > self.ended or is_end", '(packet.kind == "D" and packet.last > self.ended or is_end'),
        # An end announces nothing.
        ("self.announced = max(self.announced, packet.last)", 'self.announced = max(self.announced, packet.last if packet.kind != "E" else 0)'),
        # A request runs over an entry that is there.
        ("return first, min(behind - first, LONGEST_SPAN)", "return first, min(self.announced + 1 - first, LONGEST_SPAN)"),
        # A window that counts from 0.
        ("entry.number > len(self.entries) + REACH", "entry.number > REACH"),
        # A mark's participant is unchecked.
        (" and who in LETTERS", ""),
        # A packet's number, its session, or a summary's trades and volume are signed.
        ('struct.Struct(">BcQIB")', 'struct.Struct(">BcQiB")'),
        ('struct.Struct(">BcQIB")', 'struct.Struct(">BcqIB")'),
        ('struct.Struct(">QI")', 'struct.Struct(">Qi")'),
        ('struct.Struct(">QI")', 'struct.Struct(">qI")'),
        ('struct.Struct(">QIH")', 'struct.Struct(">qIH")'),
        # NotInOrder before the message's fault.
        (
            "        entry, rest = read_entry(rest, number_most)\n        if entry.number != wanted:\n            raise Refused(56)\n",
            '        if len(rest) >= 4 and int.from_bytes(rest[:4], "big") != wanted:\n            raise Refused(56)\n        entry, rest = read_entry(rest, number_most)\n',
        ),
    ],
    "plain_journal.py": [
        # A header's digest, or a group's, is unchecked; a group's is not that of what stands before it too.
        ("if cursor.take(DIGEST, NoHeader) != digest:", "if not cursor.take(DIGEST, NoHeader):"),
        ("if digest != hashlib.sha256(before + data[begins:ends]).digest() or not 0 < count == len(entries):", "if not 0 < count == len(entries):"),
        ("hashlib.sha256(before + data[begins:ends]).digest() or", "hashlib.sha256(data[begins:ends]).digest() or"),
        # What stands of a packet that is cut off may be anything; a cut is damage.
        ("left[: len(front)] != front[: len(left)]", "False"),
        ("except (Torn, Damaged) as fault:\n        journal.fault = fault", "except (Torn, Damaged) as fault:\n        journal.fault = Damaged(str(fault))"),
        # The figures that a journal carries are believed.
        ("if tape.entries[-1] != entry:", "if tape.entries[-1].message != entry.message:"),
    ],
}
# Of these files each small change is planted too.
CHANGED = ("plain_tape.py", "plain_feed.py")
# Small changes that no row can see, by how their line begins up to the part that is changed, and why.
UNSEEN = {
    "LONGEST_BODY, PRICE_MOST, SIZE_MOST, TAPE_MOST, SYMBOLS_MOST, PARTICIPANTS_MOST = 64, 999_999_999_999, 99_999_999, 16_777_216, |4_096": "a row names each symbol",
    "@dataclass(frozen=|True)": "nothing writes to these",
    "if len(data) < max(|2, ": "a length is 1 at least, or the input is shorter than one",
    'return |"" if condition[0] == "_"': "no matrix has a blank there",
    "raise Refused(|36)": "a row has `not listed` for each refusal of a summary",
    "raise Refused(|34)": "a row has `not listed` for each refusal of a summary",
    "(|23, length < len(message))": "a row admits whole messages",
    "if first[|0] in (71, 72, 73)": "one byte was read",
    "return first[|0], len(rest)": "one byte was read",
    "if first[|0]:": "one byte was read",
    "if |self.ended is not None and (packet.last > self.ended or is_end": "an end announces, so another end below it is below what was announced",
    "behind = next((number for number in range(first, self.announced + |1)": "nothing waits above what was announced",
}
SWAPPED = {ast.Lt: ast.LtE, ast.LtE: ast.Lt, ast.Gt: ast.GtE, ast.GtE: ast.Gt, ast.Eq: ast.NotEq, ast.NotEq: ast.Eq, ast.In: ast.NotIn, ast.NotIn: ast.In, ast.Is: ast.IsNot, ast.IsNot: ast.Is}


# The kind of a fault that is listed, and that of a small change by the part of the code that it changes.
LISTED_KIND = "listed"
KINDS = {
    ast.Compare: "another comparison",
    ast.Constant: "another number",
    ast.BoolOp: "and, or",
    ast.BinOp: "sum, difference",
    ast.IfExp: "always or never",
    ast.UnaryOp: "without not",
}


class Fault(NamedTuple):
    """A fault: its file, where it is, its kind, what is planted, and what makes the text with it."""

    file: str
    line: int
    kind: str
    what: str
    text: Callable[[], str]


def changes_of(node):
    """What a part of the code can be changed to, one small change each."""
    if isinstance(node, ast.Compare):
        for at, operator in enumerate(node.ops):
            if type(operator) in SWAPPED:
                changed = copy.deepcopy(node)
                changed.ops[at] = SWAPPED[type(operator)]()
                yield changed
    elif isinstance(node, ast.Constant) and type(node.value) is int:
        yield ast.Constant(node.value + 1)
        yield ast.Constant(node.value - 1)
    elif isinstance(node, ast.Constant) and type(node.value) is bool:
        yield ast.Constant(not node.value)
    elif isinstance(node, ast.BoolOp):
        yield ast.BoolOp(ast.Or() if isinstance(node.op, ast.And) else ast.And(), node.values)
        for at in range(len(node.values)):
            yield ast.BoolOp(node.op, node.values[:at] + node.values[at + 1 :]) if len(node.values) > 2 else node.values[1 - at]
    elif isinstance(node, ast.BinOp) and isinstance(node.op, (ast.Add, ast.Sub)):
        yield ast.BinOp(node.left, ast.Sub() if isinstance(node.op, ast.Add) else ast.Add(), node.right)
    elif isinstance(node, ast.IfExp):
        yield node.body
        yield node.orelse
    elif isinstance(node, ast.UnaryOp) and isinstance(node.op, ast.Not):
        yield node.operand


class Replace(ast.NodeTransformer):
    """Puts another part in the place of one, by the number of its turn."""

    def __init__(self, turn, other):
        self.turn, self.other, self.at = turn, other, -1

    def visit(self, node):
        self.at += 1
        if self.at == self.turn:
            return self.other
        return self.generic_visit(node)


def planted(text, turn, other):
    """A text with another part in the place of the one of this turn."""
    return ast.unparse(ast.fix_missing_locations(Replace(turn, other).visit(ast.parse(text))))


def drawn_from(file, text):
    """Each small change of a text, without its docstrings and the texts of its faults."""
    tree = ast.parse(text)
    turn = -1

    def walk(node):
        nonlocal turn
        turn += 1
        found = [(turn, node, changed) for changed in changes_of(node)]
        for child in ast.iter_child_nodes(node):
            found += walk(child)
        return found

    lines = text.splitlines()
    for at, node, changed in walk(tree):
        changed = ast.copy_location(ast.fix_missing_locations(changed), node)
        where = lines[node.lineno - 1].encode()
        marked = where[: node.col_offset] + b"|" + where[node.col_offset :]
        what = f"{marked.decode().strip()}: {ast.unparse(node)} => {ast.unparse(changed)}"
        yield Fault(file, node.lineno, KINDS[type(node)], what, functools.partial(planted, text, at, changed))


def faults():
    """All of them."""
    for file, listed in LISTED.items():
        text = (PLAIN / file).read_text(encoding="utf-8")
        for old, new in listed:
            if text.count(old) != 1:
                sys.exit(f"plant_faults.py: {file} has this {text.count(old)} times: {old}")
            yield Fault(file, text.count("\n", 0, text.index(old)) + 1, LISTED_KIND, f"{old} => {new}", functools.partial(text.replace, old, new))
        if file in CHANGED:
            yield from (fault for fault in drawn_from(file, text) if not fault.what.startswith(tuple(UNSEEN)))


def module(name, text, path):
    """A module of a text, which others import by its name from now on."""
    made = types.ModuleType(name)
    made.__file__ = str(path)
    sys.modules[name] = made
    exec(compile(text, path, "exec"), vars(made))
    return made


def is_seen(fault, texts):
    """Whether a row differs over the rules with a fault, or these can't be loaded."""
    kept = {name: sys.modules[name] for name in (Path(file).stem for file in LISTED)}
    signal.signal(signal.SIGALRM, lambda *_: (_ for _ in ()).throw(TimeoutError()))
    signal.alarm(LIMIT)
    try:
        for name in kept:
            path = PLAIN / f"{name}.py"
            made = module(name, fault.text() if fault.file == path.name else path.read_text(encoding="utf-8"), path)
            if name == "plain_tape":
                play_rows.Refused = made.Refused
        with contextlib.redirect_stdout(io.StringIO()):
            return any(played.differ for file, text in texts for _, played in play_rows.play(file, text, sys.modules[play_rows.PLAIN]))
    except Exception:
        return True
    finally:
        signal.alarm(0)
        sys.modules.update(kept)
        play_rows.Refused = kept["plain_tape"].Refused


def main():
    parser = argparse.ArgumentParser(description=__doc__, formatter_class=argparse.RawDescriptionHelpFormatter)
    parser.add_argument("--seed", type=int, default=0)
    many = parser.add_mutually_exclusive_group(required=True)
    many.add_argument("--all", action="store_true")
    many.add_argument("--count", type=int)
    words = parser.parse_args()
    import plain_feed  # noqa: F401
    import plain_journal  # noqa: F401

    texts = [(file.name, file.read_text(encoding="ascii")) for file in FILES]
    known = sorted(faults(), key=lambda fault: fault.kind != LISTED_KIND)
    listed = sum(map(len, LISTED.values()))
    tried = known if words.count is None else known[:listed] + random.Random(words.seed).sample(known[listed:], min(words.count, len(known) - listed))
    passed = [fault for fault in tried if not is_seen(fault, texts)]
    for fault in passed:
        print(f"{fault.file}:{fault.line}: {fault.what}: no row differs")
    print("; ".join(f"{kind}: {count}" for kind, count in Counter(fault.kind for fault in tried).items()))
    print(f"{len(tried)} of {len(known)} faults planted, {len(passed)} passed")
    return 1 if passed else 0


if __name__ == "__main__":
    sys.exit(main())
