#!/usr/bin/env python3
"""Tries must-fail edits, and records the crates whose edits the prover refused, one and all: edits.py NAME.. | --changed | --all

An edit is tried on the functions that it changes, then on their modules, and on its whole crate if the prover proves these or can't check them
by themselves. The libraries below are proved first if they are not. Several edits are tried at a time, as processors and memory allow (RT_JOBS=N: so many).

The record is .ci/refused.txt, a line for each crate: its name, and a checksum of its files, its line of crates.txt and the logic of the kit.
Lines that are comments don't count. The gate need not try the edits of a crate whose line is right. Nothing but this script writes it.

Statuses: 0 if the prover refused each edit; 1 if it did not, and then those crates are not recorded; 2 for bad words, or a kit whose rt can't be
driven so.
"""

import argparse
import hashlib
import importlib.machinery
import importlib.util
import os
import re
import shutil
import subprocess
import sys
import threading
from pathlib import Path

ROOT = Path(__file__).resolve().parent.parent
RECORD = Path(".ci", "refused.txt")
# What a crate's checksum covers. Other files can't change what the prover says of its edits.
PARTS = ["src", "specs", "proofs", "must-fail"]
# What is used of the kit's command, which is a module in Python.
NAMES = ["checked", "edits_of", "in_lanes", "must_fail", "need", "read_edit", "rtlib", "unread"]
FUNCTION = re.compile(r"( *)(?:pub(?:\([a-z ]+\))? )?(?:const )?(?:unsafe )?(?:extern \"C\" )?fn (\w+)")
# Of a trait's methods the prover's paths have the trait's name too, so that only their own names are used.
OWNER = re.compile(r"impl(?:<[^{]*?>)? (\w+)(?:<[^{]*>)?(?! for )\b[^{]*?\{?$")


def say(text):
    """A line of progress."""
    print(f"edits: {text}", file=sys.stderr, flush=True)


def kit_module():
    """The kit's command `rt` as a module, or None if there is none or it lacks a name that is used here."""
    path = os.path.realpath(shutil.which("rt") or "rt")
    if not os.path.isfile(path):
        return None
    sys.dont_write_bytecode = True
    loader = importlib.machinery.SourceFileLoader("kit_rt", path)
    module = importlib.util.module_from_spec(importlib.util.spec_from_loader("kit_rt", loader))
    loader.exec_module(module)
    return module if all(hasattr(module, name) for name in NAMES) else None


def logic():
    """The word of `rt version` that names the logic, by which a proof is judged; two kits that share it judge alike."""
    told = subprocess.run(["rt", "version"], capture_output=True, text=True, stdin=subprocess.DEVNULL, check=True).stdout
    return told.partition("logic ")[2].strip() or told.strip()


def crate_lines(root):
    """The line of each crate in crates.txt, by its name."""
    lines = (root / "crates.txt").read_text(encoding="utf-8").splitlines()
    return {re.match(r"\w+", line)[0]: line for line in lines if re.match(r"\w", line)}


def has_edits(root, name):
    """Whether a crate has must-fail edits."""
    return any((root / "crates" / name / "must-fail").glob("*.edit"))


def judged(path):
    """What of a file can change what the prover says: all but the lines that are comments."""
    content = path.read_bytes()
    mark = {".rt": b"//", ".antt": b"--"}.get(path.suffix)
    return b"".join(line for line in content.splitlines(keepends=True) if mark is None or not line.lstrip().startswith(mark))


def checksum(root, name, line, kit_logic):
    """The checksum of a crate: what the prover says of its edits can change only if this does, or a contract below."""
    folder = root / "crates" / name
    total = hashlib.sha256(f"{kit_logic}\n{line}\n".encode())
    for path in sorted(path for part in PARTS for path in (folder / part).rglob("*") if path.is_file()):
        content = judged(path)
        total.update(f"{path.relative_to(folder).as_posix()} {len(content)}\n".encode())
        total.update(content)
    return total.hexdigest()


def checksums(root):
    """The checksum of each crate that has edits, by its name in the order of crates.txt."""
    kit_logic = logic()
    return {name: checksum(root, name, line, kit_logic) for name, line in crate_lines(root).items() if has_edits(root, name)}


def recorded(root):
    """The recorded checksums, by crate. A line that is not a name and a checksum records nothing."""
    path = root / RECORD
    lines = path.read_text(encoding="utf-8").splitlines() if path.exists() else []
    return dict(match.groups() for match in (re.fullmatch(r"(\w+) ([0-9a-f]{64})", line) for line in lines) if match)


def record(root, refused):
    """Puts down the checksums of crates whose edits were refused, and drops the lines of crates that are gone."""
    lines = recorded(root) | refused
    kept = [f"{name} {lines[name]}\n" for name in crate_lines(root) if name in lines and has_edits(root, name)]
    (root / RECORD).write_text("".join(kept), encoding="utf-8")


def module_of(path):
    """The path of the module that a source file is, or None for the crate's root and for what is no source."""
    inside = re.fullmatch(r"src/(.+)\.rt", path)
    return inside[1].replace("/", "::") if inside and inside[1] not in ("lib", "main") else None


def function_around(lines, at):
    """The end of the path of the function around a line, as `Type::name` or `name`, or None if there is none."""
    start = next((above for above in range(at, -1, -1) if FUNCTION.match(lines[above])), None)
    if start is None:
        return None
    indent, name = FUNCTION.match(lines[start]).groups()
    if f"{indent}}}" in lines[start:at]:
        return None
    if not indent:
        return name
    owner = next((OWNER.match(line) for line in reversed(lines[:start]) if line.startswith("impl")), None)
    return f"{owner[1]}::{name}" if owner else name


def changed_functions(crate, texts):
    """The functions that an edit changes, or None if it changes something else. An edit's texts are single lines."""
    found = set()
    for path, text in texts.items():
        before = Path(crate.folder, path).read_text(encoding="utf-8").split("\n")
        pairs = enumerate(zip(before, text.split("\n")))
        found |= {function_around(before, at) for at, (old, new) in pairs if old != new}
    return None if None in found else sorted(found)


def is_refused_in(kit, crate, texts, names):
    """Whether the prover, asked about some functions or modules alone, reads the edited text and does not prove them all."""
    told = kit.checked(crate, texts, ["--jobs", "1", *[word for name in names for word in ("--only", name)]], None)
    lines = told.stdout.rstrip("\n").split("\n")
    judged = re.match(r"only=(\d+) proved=(\d+)", lines[-1])
    return bool(judged) and told.returncode == 1 and int(judged[2]) < int(judged[1]) and not any(kit.unread(line, texts) for line in lines)


def is_refused_in_part(kit, crate, texts):
    """Whether the prover refuses the functions that an edit changes, or else the modules in which it changes something."""
    functions, modules = changed_functions(crate, texts), [module_of(path) for path in texts]
    # One function that is refused is enough, and is found sooner by itself.
    if any(is_refused_in(kit, crate, texts, [name]) for name in functions or []):
        return True
    return all(modules) and is_refused_in(kit, crate, texts, modules)


def came_to_a_refusal(kit):
    """What a kit says of an edit that is refused: True, or in a later one a word for why."""
    return [True, *(getattr(kit, name) for name in ("REFUSED", "AT_LIMIT") if hasattr(kit, name))]


def is_refused(kit, crate, edit):
    """Whether the prover refuses a crate with an edit. What it says of one that it does not refuse is printed."""
    texts, why = kit.read_edit(edit, crate.folder)
    if not why and is_refused_in_part(kit, crate, texts):
        return True
    came_to, told = kit.must_fail(crate, edit, ["--jobs", "1"])
    well = came_to in came_to_a_refusal(kit)
    if not well:
        say(told)
    return well


class Trying:
    """The edits of several crates, tried side by side once the libraries below are proved."""

    def __init__(self, kit, crates, sums):
        self.kit = kit
        self.crates = crates
        self.sums = sums
        self.left = {crate.name: len(self.edits(crate)) for crate in crates}
        self.not_refused = set()
        # Guards the three above, the record, and the order of lines.
        self.lock = threading.Lock()

    def edits(self, crate):
        """The files of a crate's edits."""
        return self.kit.edits_of(crate)[0]

    def build(self, given, jobs, crate):
        """Proves a library from nothing, as the gate does, unless it is built from the same files."""
        if not all(given[below.name] for below in crate.below()):
            return False
        os.makedirs(f"{crate.folder}/out", exist_ok=True)
        return crate.is_built() or not crate.build_rlib(["--jobs", str(jobs)], anew=True)

    def try_one(self, given, crate, edit):
        """Tries an edit, and records its crate once all of the crate's edits were refused."""
        has_libraries = all(given[below.name] for below in crate.below())
        well = has_libraries and is_refused(self.kit, crate, edit)
        with self.lock:
            self.left[crate.name] -= 1
            if not well:
                self.not_refused.add(crate.name)
                say(f"{crate.name}/{os.path.basename(edit)}: {'not refused' if has_libraries else 'a library below is not proved'}")
            elif not self.left[crate.name] and crate.name not in self.not_refused:
                self.put_down(crate)
        return well

    def put_down(self, crate):
        """Records a crate, unless its files are no longer those that were tried."""
        if checksums(ROOT).get(crate.name) != self.sums[crate.name]:
            self.not_refused.add(crate.name)
            say(f"{crate.name}: files changed meanwhile: try its edits again")
            return
        record(ROOT, {crate.name: self.sums[crate.name]})
        say(f"{crate.name}: all {len(self.edits(crate))} refused")

    def tasks(self):
        """The kit's tasks: what each waits for, how long it is in lines, the memory that it needs, and the call."""
        tasks = {}
        below = {library for crate in self.crates for library in crate.below()}
        for library in sorted(below, key=lambda it: len(it.below())):
            waits, lines = [it.name for it in library.below()], library.count(rb"\n")
            tasks[library.name] = (waits, lines, self.kit.need(library), lambda given, jobs, it=library: self.build(given, jobs, it))
        for crate in self.crates:
            waits, lines = [it.name for it in crate.below()], crate.count(rb"\n")
            for edit in self.edits(crate):
                call = lambda given, jobs, it=crate, file=edit: self.try_one(given, it, file)
                tasks[edit, "edits"] = (waits, lines, self.kit.need(crate), call)
        return tasks

    def try_all(self):
        """Tries all, and returns whether each was refused."""
        self.kit.in_lanes(self.tasks())
        return not self.not_refused


def chosen(words, sums):
    """The names of the crates that the words ask for."""
    if words.all:
        return list(sums)
    if words.changed:
        known = recorded(ROOT)
        return [name for name in sums if known.get(name) != sums[name]]
    return words.names


def main():
    parser = argparse.ArgumentParser(description=__doc__, formatter_class=argparse.RawDescriptionHelpFormatter)
    parser.add_argument("names", nargs="*", metavar="NAME", help="a crate that has edits")
    parser.add_argument("--changed", action="store_true", help="the crates that are not recorded as they are now")
    parser.add_argument("--all", action="store_true", help="all crates that have edits")
    words = parser.parse_args()
    if bool(words.names) + words.changed + words.all != 1:
        parser.error("one of NAME.., --changed and --all is wanted")
    kit = kit_module()
    if not kit:
        parser.error("this kit's rt can't be driven so: rt must-fail NAME.. tries edits, and records nothing")
    sums = checksums(ROOT)
    names = chosen(words, sums)
    if set(names) - set(sums):
        parser.error(f"no crate with edits: {' '.join(sorted(set(names) - set(sums)))}")
    kit.rtlib.guarded()
    crates = kit.rtlib.crates_below(str(ROOT))
    wanted = [crate for crate in crates if crate.name in names]
    # Nobody else works in these crates as long as this is open.
    held = kit.rtlib.lock([crate for crate in crates if any(crate in [*it.below(), it] for it in wanted)])
    well = Trying(kit, wanted, sums).try_all()
    for folder in held:
        os.close(folder)
    return 0 if well else 1


if __name__ == "__main__":
    sys.exit(main())
