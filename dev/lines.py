#!/usr/bin/env python3
"""Prints how many lines each crate has, by kind: lines.py [--budget FILE]

The kinds of the lines of src/ are code, lines of braces and brackets alone, imports, contracts (clauses, ghost items and tactics), comments of both
kinds, blank lines, and all lines of tests. Those of specs/ and proofs/ are counted whole. What is built (out/) and must-fail edits are not counted.
FILE has one number, the most lines that all crates may have together.

Statuses: 0; 1 if there are more lines than the budget; 2 for bad words, or a file that is no budget.
"""

import argparse
import re
import sys
from pathlib import Path

ROOT = Path(__file__).resolve().parent.parent
KINDS = ["code", "braces", "imports", "contracts", "comments", "blank", "tests", "specs", "proofs"]
BRACES = re.compile(r"[][{}();,]+")
IMPORT = re.compile(r"(?:pub(?:\([a-z]+\))? |ghost )*use ")
CONTRACT = re.compile(r"(?:ensures|requires|ghost|decreases)\b|#!?\[tactic\(")
INLINE_TESTS = "mod tests {"


def lines_of_item(lines, at, closes):
    """How many lines an item has that begins at one of the lines: up to the first at whose end it is closed."""
    text = ""
    for count, line in enumerate(lines[at:], 1):
        text += line
        if closes(text):
            return count
    return len(lines) - at


def is_balanced(text):
    """Whether as many brackets are closed as are opened."""
    return all(text.count(opened) == text.count(closed) for opened, closed in ("()", "[]", "{}"))


def lines_by_kind(text):
    """Each line's kind, for a file of code that is no test."""
    lines, at = text.splitlines(), 0
    while at < len(lines):
        line, count, kind = lines[at].strip(), 1, "code"
        if not line:
            kind = "blank"
        elif line.startswith("//"):
            kind = "comments"
        elif BRACES.fullmatch(line):
            kind = "braces"
        elif line == INLINE_TESTS:
            kind, count = "tests", lines_of_item(lines, at, is_balanced)
        elif IMPORT.match(line):
            kind, count = "imports", lines_of_item(lines, at, lambda item: item.rstrip().endswith(";"))
        elif CONTRACT.match(line):
            kind, count = "contracts", lines_of_item(lines, at, is_balanced)
        yield from [kind] * count
        at += count


def counts_of(crate):
    """How many lines of each kind a crate has."""
    counts = dict.fromkeys(KINDS, 0)
    for path in sorted((crate / "src").rglob("*.rt")):
        text = path.read_text(encoding="utf-8")
        if any(part.removesuffix(".rt") == "tests" for part in path.relative_to(crate / "src").parts):
            counts["tests"] += len(text.splitlines())
        else:
            for kind in lines_by_kind(text):
                counts[kind] += 1
    for folder in ("specs", "proofs"):
        counts[folder] = sum(len(path.read_text(encoding="utf-8").splitlines()) for path in (crate / folder).rglob("*.antt"))
    return counts


def budget_of(path):
    """The number in a file."""
    text = path.read_text(encoding="utf-8").strip()
    if not re.fullmatch("[0-9]+", text):
        raise ValueError(f"{path}: not one number")
    return int(text)


def main():
    parser = argparse.ArgumentParser(description=__doc__, formatter_class=argparse.RawDescriptionHelpFormatter)
    parser.add_argument("--budget", type=Path, metavar="FILE", help="ends with 1 if there are more lines than the number in this file")
    words = parser.parse_args()
    try:
        most = words.budget and budget_of(words.budget)
    except (OSError, ValueError) as fault:
        parser.error(f"{fault.filename}: {fault.strerror}" if isinstance(fault, OSError) else str(fault))
    found = {folder.parent.name: counts_of(folder.parent) for folder in sorted((ROOT / "crates").glob("*/src"))}
    found["all"] = {kind: sum(counts[kind] for counts in found.values()) for kind in KINDS}
    width = max(map(len, found))
    print(f"{'crate':{width}}", *(f"{name:>9}" for name in [*KINDS, "all"]))
    for name, counts in found.items():
        print(f"{name:{width}}", *(f"{count:9}" for count in [*counts.values(), sum(counts.values())]))
    total = sum(found["all"].values())
    if most is not None and total > most:
        print(f"lines.py: {total} lines, over the budget of {most} in {words.budget}", file=sys.stderr)
        return 1
    return 0


if __name__ == "__main__":
    sys.exit(main())
