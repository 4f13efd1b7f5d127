#!/usr/bin/env python3
"""definitions.py: prints the definitions that the proofs are about, with the comment over each: definitions.py [CRATE..]

Each crate's public definitions are listed by file; lemmas are left out. Without words all crates that have some are printed, in the order of
crates.txt. The order within a crate is that of its specs/Lib.antt, and of the files. Files are named from crates/.

Statuses: 0 if they are printed; 1 if a crate has none; 2 if there is no such crate.
"""

import argparse
import re
import textwrap
from pathlib import Path

ROOT = Path(__file__).resolve().parent.parent
CRATES = ROOT / "crates"
WIDTH = 150

# A comment and what it is over, which is a definition if a name is found.
COMMENTED = re.compile(r"((?:^--.*\n)+)(?:(?:abbrev |unfoldable )?pub (?:record |data )?(\S+))?", re.MULTILINE)


def names_in(path, line):
    """The name on each line of a file that has this form."""
    return re.findall(line, path.read_text(encoding="utf-8"), re.MULTILINE) if path.exists() else []


def sentence(comment):
    """The words of a comment, on one line."""
    return " ".join(line.removeprefix("--").strip() for line in comment.splitlines())


def filled(text, indent=""):
    """A text in lines of the page's width, and further lines indented."""
    return textwrap.fill(text, WIDTH, subsequent_indent=indent, break_long_words=False, break_on_hyphens=False) + "\n"


def lines_of(path):
    """What the page says of a file: what it is about, and each definition."""
    (about, _), *commented = COMMENTED.findall(path.read_text(encoding="utf-8"))
    yield "\n" + filled(f"**`{path.relative_to(CRATES)}`**: {sentence(about)}") + "\n"
    yield from (filled(f"- `{name}`: {sentence(comment)}", "  ") for comment, name in commented if name)


def lines_of_crate(crate):
    """What is printed of a crate; nothing if it has no definition."""
    specs = CRATES / crate / "specs"
    files = [specs / f"{name}.antt" for name in names_in(specs / "Lib.antt", r"^pub mod (\w+)$") if name != "Lemmas"]
    return [f"\n## {crate}\n", *(line for file in files for line in lines_of(file))] if files else []


def crates():
    """All crates, in the order of crates.txt."""
    return names_in(ROOT / "crates.txt", r"^(\w+)[^:#]*:")


def main():
    parser = argparse.ArgumentParser(description=__doc__, formatter_class=argparse.RawDescriptionHelpFormatter)
    parser.add_argument("crates", metavar="CRATE", nargs="*")
    words = parser.parse_args()
    unknown = [name for name in words.crates if not (CRATES / name).is_dir()]
    if unknown:
        parser.error(f"no crate: {', '.join(unknown)}")
    status = 0
    for name in words.crates or crates():
        lines = lines_of_crate(name)
        print("".join(lines), end="")
        status = status or int(bool(words.crates and not lines))
    return status


if __name__ == "__main__":
    raise SystemExit(main())
