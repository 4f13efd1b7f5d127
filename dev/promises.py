#!/usr/bin/env python3
"""promises.py: prints of each public call of the crates what it is for and what is proved of it, as both stand in the code: promises.py [CRATE..]

Below each crate's name come its calls by file, each with the line that it begins in, its words, what it requires, and its clauses: the name of
each, and what it says. What a clause cites is a definition; definitions.py prints those. Without words it prints all crates with public calls, in
the order of crates.txt.

Statuses: 0 if it is printed; 1 if a crate has no public call; 2 if there is no such crate.
"""

import argparse
import re
from dataclasses import dataclass, field
from pathlib import Path

ROOT = Path(__file__).resolve().parent.parent
CRATES = ROOT / "crates"

EXPORT = re.compile(r"^pub use ([^;]+);", re.MULTILINE)
MODULE = re.compile(r"^pub mod (\w+);", re.MULTILINE)
# What a root file gives out that stands in it.
OWN = re.compile(r"^pub (?:struct|enum|trait|fn) (\w+)", re.MULTILINE)
# A block's head at the left edge, and the type that it is of: the last name before its generics.
BLOCK = re.compile(r"^(?:pub )?(impl|trait)\b(?:<[^{]*?>)? ?([^{]*)")
CALL = re.compile(r"^( *)(pub )?(?:const )?fn (\w+)")
CLAUSE = re.compile(r"^\s*(requires|ensures)\s*(\w*)\s*\{")


@dataclass
class Clause:
    """What a call requires or ensures."""

    kind: str
    name: str
    says: str


@dataclass
class Call:
    """A public call: where it is, its words, and its clauses."""

    name: str
    file: Path
    line: int
    words: str
    clauses: list[Clause] = field(default_factory=list)


def text_of(path):
    """The text of a file."""
    return path.read_text(encoding="utf-8")


def root_of(crate):
    """The root file of a library or a program."""
    return next((root for root in (crate / "src" / "lib.rt", crate / "src" / "main.rt") if root.exists()), None)


def exported(crate):
    """The names that a crate gives out, and its public modules."""
    root = text_of(root_of(crate))
    names = {name.split(" as ")[-1].strip() for use in EXPORT.findall(root) for name in re.sub(r".*\{|\}|.*::(?=\w+$)", "", use.replace("\n", " ")).split(",")}
    return names | {*OWN.findall(root)}, set(MODULE.findall(root))


def balanced(lines, at, start):
    """The text within the brace that begins in a line, and the line in which it ends."""
    depth, inside = 0, []
    while at < len(lines):
        for sign in lines[at][start:]:
            depth += (sign == "{") - (sign == "}")
            if depth == 0 and sign == "}":
                return " ".join("".join(inside)[1:].split()), at
            inside.append(sign)
        inside.append(" ")
        at, start = at + 1, 0
    return " ".join("".join(inside)[1:].split()), at


def words_above(lines, at):
    """The comment of documentation right above a line, attributes aside."""
    words = []
    while at and (lines[at - 1].lstrip().startswith(("///", "#[", "//"))):
        at -= 1
        if lines[at].lstrip().startswith("///"):
            words.insert(0, lines[at].strip().removeprefix("///").strip())
    return " ".join(" ".join(words).split())


def clauses_below(lines, at):
    """The clauses of a call, from the line after its first one on: up to its body, or to the end of its declaration."""
    found = []
    while at < len(lines) and not re.match(r"^ *\{\}?$|.*;$", lines[at]):
        clause = CLAUSE.match(lines[at])
        if clause:
            says, at = balanced(lines, at, clause.end() - 1)
            found.append(Clause(clause[1], clause[2], says))
        at += 1
    return found


def type_of(head):
    """The type of a block by its head, and whether it is one of a trait."""
    head = re.split(r"\bwhere\b", head)[0]
    own = head.split(" for ")[-1]
    return re.split(r"[<\s:]", own.strip())[0].split("::")[-1]


def calls_of(crate):
    """The public calls of a crate by file."""
    names, modules = exported(crate)
    for file in sorted((crate / "src").rglob("*.rt")):
        inside = file.relative_to(crate / "src").with_suffix("").parts
        if any(part.startswith("tests") for part in inside):
            continue
        lines, block = text_of(file).splitlines(), None
        for at, line in enumerate(lines):
            head = BLOCK.match(line)
            if head:
                block = (head[1], type_of(head[2]), " for " in head[2])
            elif line == "}":
                block = None
            call = CALL.match(line)
            if not call:
                continue
            prefix = f"{inside[0]}::" if inside[0] in modules else ""
            if block is None:
                is_public = call[2] and not call[1] and (prefix or call[3] in names)
                name = prefix + call[3]
            else:
                kind, owner, is_of_trait = block
                is_public = owner in names and (call[2] or (kind == "trait" and len(call[1]) == 4)) and not is_of_trait
                name = f"{owner}::{call[3]}"
            if is_public:
                yield Call(name, file, at + 1, words_above(lines, at), clauses_below(lines, at + 1))


def lines_of(crate):
    """What is printed of a crate."""
    for call in calls_of(crate):
        yield f"\n### `{call.name}`\n\n`{call.file.relative_to(CRATES)}`, line {call.line}. {call.words}\n".replace(". \n", ".\n")
        for clause in call.clauses:
            name = " ".join(filter(None, [clause.kind if clause.kind == "requires" else "", clause.name])) or "unnamed"
            yield f"- **{name}**: `{clause.says}`"


def crates():
    """All crates, in the order of crates.txt."""
    listed = re.findall(r"^(\w+)[^:#]*:", text_of(ROOT / "crates.txt"), re.MULTILINE)
    return [name for name in listed if root_of(CRATES / name)]


def main():
    parser = argparse.ArgumentParser(description=__doc__, formatter_class=argparse.RawDescriptionHelpFormatter)
    parser.add_argument("crates", metavar="CRATE", nargs="*")
    words = parser.parse_args()
    unknown = [name for name in words.crates if not root_of(CRATES / name)]
    if unknown:
        parser.error(f"no crate: {', '.join(unknown)}")
    status = 0
    for name in words.crates or crates():
        lines = list(lines_of(CRATES / name))
        if lines:
            print(f"\n## {name}", *lines, sep="\n")
        elif words.crates:
            status = 1
    return status


if __name__ == "__main__":
    raise SystemExit(main())
