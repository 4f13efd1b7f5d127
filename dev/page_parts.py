#!/usr/bin/env python3
"""page_parts.py: writes the parts of pages that come from the tree: the counts in docs/TESTED.md, and the lines to which docs/MESSAGE.md links.

Run it if tests/cases/test_pages.py says so, as after a function moved or a test was added. Everything is read from the files as they stand; nothing
is proved or run.

Statuses: 0 if both are written; 1 if a page has no marks, or links to a function that is not in the file; 2 if there are words.
"""

import argparse
import re
import sys
from pathlib import Path

sys.path.insert(0, str(Path(__file__).resolve().parent.parent / "tests"))

import plant_faults
import promises

ROOT = Path(__file__).resolve().parent.parent
CRATES = ROOT / "crates"
TESTED, MESSAGE = ROOT / "docs" / "TESTED.md", ROOT / "docs" / "MESSAGE.md"
MARKED = re.compile(r"(<!-- counted -->\n).*?(<!-- end -->)", re.DOTALL)
# A link to a line of code: the function's name, or a clause's, and the file.
LINE_LINK = re.compile(r"\[`([\w:]+)`\]\((\.\./crates/[\w/]+\.rt)#L\d+\)")


def texts(folder, pattern):
    """The text of each file of a folder that has this name."""
    return [path.read_text(encoding="utf-8") for path in sorted(folder.glob(pattern))]


def code():
    """The text of each file of the crates' code, tests left out."""
    files = sorted(CRATES.glob("*/src/**/*.rt"))
    return [path.read_text(encoding="utf-8") for path in files if not any(part.startswith("tests") for part in path.parts)]


def found(pattern, of):
    """How often a pattern is found in texts."""
    return sum(len(re.findall(pattern, text, re.MULTILINE)) for text in of)


def bodies(edit):
    """How many wrong bodies an edit has: its named parts, or itself."""
    return len(re.findall(r"^# part:", edit, re.MULTILINE)) or 1


def range_of(file, name):
    """How many numbers a range has that a file names so."""
    first, last = re.search(rf"^{name} = range\((\d+), (\d+)\)", (ROOT / file).read_text(encoding="utf-8"), re.MULTILINE).groups()
    return int(last) - int(first)


def proofs():
    """What is counted of the proofs, how many, and where it is."""
    sources = code()
    # The gate's copy of the tree sets those apart that it does not try.
    edits = texts(CRATES, "*/must-fail/*.edit") + texts(ROOT / ".ci", "untried/*/*.edit")
    calls = [call for crate in promises.crates() for call in promises.calls_of(CRATES / crate)]
    return [
        ("crates", len(list(CRATES.glob("*/src"))), "`crates/`"),
        ("functions of the code, each proved safe", found(r"^ *(?:pub(?:\(\w+\))? )?(?:const )?fn \w+", sources), "`crates/*/src/`"),
        ("clauses of these functions", found(r"^ *ensures\b", sources), "the same"),
        ("public calls, and their clauses", (len(calls), sum(clause.kind == "ensures" for call in calls for clause in call.clauses)), "`dev/promises.py`"),
        (
            "files of definitions and lemmas, and of proofs",
            (len(list(CRATES.glob("*/specs/**/*.antt"))), len(list(CRATES.glob("*/proofs/**/*.antt")))),
            "`crates/*/specs/`, `crates/*/proofs/`",
        ),
        ("edits that the prover must refuse, and wrong bodies in them", (len(edits), sum(map(bodies, edits))), "`crates/*/must-fail/`"),
    ]


def tests():
    """The same of the tests."""
    worked = texts(ROOT / "rows", "*.rows")
    fuzzed = re.search(r"NAMES\[CALLS\] = \{(.*?)\};", (ROOT / "clib" / "fuzz" / "calls.c").read_text(encoding="utf-8"), re.DOTALL)[1]
    failing = (ROOT / "tests" / "preload" / "failing_calls.c").read_text(encoding="utf-8")
    plain = texts(ROOT / "bench", "tests/*.rs") + texts(ROOT / "bench", "src/**/*.rs")
    return [
        ("worked rows, and their answers", (found(r"^row ", worked), found(r"^[^#\n]*->", worked)), "[`rows/`](../rows/README.md)"),
        ("faults planted in the plain rules, each seen by a row", len(list(plant_faults.faults())), "`tests/plant_faults.py`"),
        ("tests in the crates", found(r"^ *#\[test\]", texts(CRATES, "*/src/**/*.rt")), "`crates/*/src/`"),
        ("tests of the plain programs", found(r"^ *#\[test\]", plain), "`bench/`"),
        ("cases of the built programs, the pages and the scripts", found(r"^    def test_", texts(ROOT / "tests" / "cases", "test_*.py")), "`tests/cases/`"),
        ("cases of the Python package", found(r"^    def test_", texts(ROOT / "python", "test_*.py")), "`python/`"),
        (
            "whole days in which a seed decides what goes wrong, without and with a journal",
            (range_of("tests/cases/test_storm.py", "SEEDS"), range_of("tests/cases/test_storm.py", "JOURNAL_SEEDS")),
            "`tests/storm.py`",
        ),
        ("calls of the system that are made to fail", found(r"^(?:int|ssize_t) \w+\([^;]*\) \{$", [failing]), "`tests/preload/failing_calls.c`"),
        ("calls of the C library under libFuzzer", found(r'"\w+"', [fuzzed]), "`clib/fuzz/`"),
    ]


def counted(page):
    """TESTED with the counts between its marks."""
    shown = lambda count: " and ".join(f"{each:,}" for each in count) if isinstance(count, tuple) else f"{count:,}"
    lines = [f"| {what} | {shown(count)} | {where} |\n" for what, count, where in proofs() + tests()]
    return MARKED.sub(lambda mark: f"{mark[1]}\n| What | How many | Where |\n|---|---|---|\n{''.join(lines)}\n{mark[2]}", page)


def line_of(file, name):
    """The line of a file in which a function, a method of a type or a clause of this name begins; none if there is no such."""
    owner, _, last = name.rpartition("::")
    block = None
    for at, line in enumerate(file.read_text(encoding="utf-8").splitlines(), start=1):
        head = promises.BLOCK.match(line)
        if head:
            block = promises.type_of(head[2])
        elif line == "}":
            block = None
        if re.match(rf"^ *(?:pub(?:\([a-z]+\))? )?fn {last}\b", line) and owner in ("", block):
            return at
        if not owner and re.match(rf"^ *ensures {last} \{{", line):
            return at
    return None


def linked(page):
    """MESSAGE with the lines in which each linked function begins. Raises `LookupError` if a file has none of that name."""

    def anew(link):
        at = line_of((MESSAGE.parent / link[2]).resolve(), link[1])
        if at is None:
            raise LookupError(f"{link[2].removeprefix('../')}: no {link[1]}")
        return f"[`{link[1]}`]({link[2]}#L{at})"

    return LINE_LINK.sub(anew, page)


def main():
    argparse.ArgumentParser(description=__doc__, formatter_class=argparse.RawDescriptionHelpFormatter).parse_args()
    tested, message = (path.read_text(encoding="utf-8") for path in (TESTED, MESSAGE))
    if not MARKED.search(tested):
        sys.exit(f"page_parts.py: {TESTED.relative_to(ROOT)}: no marks")
    try:
        message = linked(message)
    except LookupError as fault:
        sys.exit(f"page_parts.py: {fault.args[0]}")
    TESTED.write_text(counted(tested), encoding="utf-8")
    MESSAGE.write_text(message, encoding="utf-8")


if __name__ == "__main__":
    main()
