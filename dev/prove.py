#!/usr/bin/env python3
"""Proves programs and what they stand on, several crates at a time: prove.py PROGRAM..

A crate is proved once all below it are, and of those that can be begun the one with the longest chain of others above it comes first. A
line on standard error tells of each that is proved, and one a minute what is being proved. What is proved is kept, crate by crate:
stopped by Ctrl-C, by a signal to end, or by a crate that is not proved, it says what is left, and goes on there the next time. It drives
the module that the `rt` of the kit is made of. If a kit's rt is made otherwise it says so and does nothing: `rt run` then proves one
crate after the other.

Statuses: 0 if all are proved, or left to `rt run`; 1 if a crate is not proved; 2 if a word names no program of the repository.
"""

import argparse
import importlib.util
import io
import math
import os
import queue
import shutil
import signal
import sys
import threading
import time
from pathlib import Path

ROOT = Path(__file__).resolve().parent.parent
# What is used of the kit's module, and of a crate of it.
NAMES = ["Crate", "cores", "crates_below", "files_of", "fits", "guarded", "lock"]
CALLS = ["below", "build_rlib", "check", "is_built", "makes_rlib", "need"]
# How far the processes of other crates stand behind those of the crate that leads.
NICENESS = 10
# A line is written after so many seconds in which no crate was proved.
SILENCE = 60


def say(text):
    """A line of progress."""
    print(f"run: {text}", file=sys.stderr, flush=True)


def kit_module(names, calls):
    """The module beside the command `rt`. A LookupError says which of these names it, or a crate of it, lacks."""
    command = shutil.which("rt")
    if not command:
        raise LookupError("the Rattle kit's command rt is not on the path")
    path = Path(os.path.realpath(command)).with_name("rtlib.py")
    if not path.exists():
        raise LookupError("this kit's rt has no module rtlib.py beside it")
    spec = importlib.util.spec_from_file_location("rtlib", path)
    module = importlib.util.module_from_spec(spec)
    sys.dont_write_bytecode = True
    spec.loader.exec_module(module)
    lacking = [name for name in names if not hasattr(module, name)]
    lacking += [f"Crate.{name}" for name in calls if not hasattr(getattr(module, "Crate", None), name)]
    if lacking:
        raise LookupError(f"this kit's rtlib.py has no {', '.join(lacking)}")
    return module


def lines_of(kit, crate):
    """How many lines of code, definitions and proofs a crate has."""
    return sum(Path(file).read_bytes().count(b"\n") for file in kit.files_of(crate.folder))


def longest_chains(kit, crates):
    """By crate, the lines of the longest chain of crates that stand on one another, with it at the bottom."""
    chains = {}
    # Each crate comes after those below it.
    for crate in reversed(crates):
        chains[crate] = lines_of(kit, crate) + max((chains[other] for other in crates if crate in other.deps), default=0)
    return chains


class Proving:
    """Crates that are proved side by side."""

    def __init__(self, kit, crates):
        self.kit = kit
        self.chains = longest_chains(kit, crates)
        self.done = [crate for crate in crates if crate.makes_rlib() and crate.is_built()]
        self.left = [crate for crate in sorted(crates, key=self.chains.get, reverse=True) if crate not in self.done]
        # By crate that is being proved, by how many processes.
        self.running = {}
        self.ended = queue.SimpleQueue()
        # Two thirds of what the kit names as likely at most for a check in batches, which is more than any crate was seen to take.
        self.memory = {crate: 2 * crate.need(batches=True) // 3 for crate in self.left}
        self.began = time.monotonic()

    def has_room_for(self, crate, first):
        """Whether there are a processor and memory for a crate beside those that begin first and those that run, which have taken a part of theirs
        already."""
        taken = [self.memory[other] for other in first] + [self.memory[other] // 2 for other in self.running]
        return not taken or self.kit.fits(self.memory[crate], *taken)

    def to_begin(self):
        """The crates that can be begun now, beside one another and those that run."""
        first = []
        for crate in self.left:
            if all(below in self.done for below in crate.below()) and self.has_room_for(crate, first):
                first.append(crate)
        return first

    def begin(self):
        """Begins the crates that can be begun. Each process of a crate loads the crates below for itself: two cost a third more processor time than
        one, and four nearly twice as much. So a crate has as many as there are processors that no other crate waits for."""
        crates = self.to_begin()
        for at, crate in enumerate(crates):
            leads = crate is max([*self.left, *self.running], key=self.chains.get)
            idle = self.kit.cores() - sum(self.running.values())
            jobs = max(math.ceil(idle / (len(crates) - at)), 1)
            self.left.remove(crate)
            self.running[crate] = jobs
            crate.out = io.StringIO()
            threading.Thread(target=self.prove, args=(crate, leads, jobs), daemon=True).start()

    def prove(self, crate, leads, jobs):
        """Proves a crate by so many processes, and puts down how that ended. The crate that leads goes before the others."""
        if not leads:
            # Linux keeps this for each thread, and hands it on to the commands that the thread starts.
            os.setpriority(os.PRIO_PROCESS, 0, NICENESS)
        try:
            os.makedirs(f"{crate.folder}/out", exist_ok=True)
            flags = ["--jobs", str(jobs)]
            # To keep work, the kit checks one layer of calls after the other and loads all modules anew for each, so a library is proved as the
            # gate proves it, with nothing kept. A program is checked over kept work, from which it is built next.
            status = crate.build_rlib(flags, anew=True) if crate.makes_rlib() else crate.check(flags)
        except (Exception, SystemExit) as fault:
            # However it ends, the other thread waits to be told.
            print(f"{type(fault).__name__}: {fault}", file=crate.out)
            status = 2
        self.ended.put((crate, status))

    def prove_all(self):
        """Proves all, and returns whether it did: the first crate that is not proved is the last, and what was said of it is printed."""
        if self.done:
            self.say_how_far("proved already")
        while self.left or self.running:
            self.begin()
            try:
                crate, status = self.ended.get(timeout=SILENCE)
            except queue.Empty:
                self.say_how_far(f"at {', '.join(crate.name for crate in self.running)}")
                continue
            del self.running[crate]
            if status:
                self.left.append(crate)
                print(crate.out.getvalue(), end="", file=sys.stderr)
                say(f"{crate.name} is not proved (status {status})")
                return False
            self.done.append(crate)
            self.say_how_far(f"{crate.name} proved")
        return True

    def say_how_far(self, what):
        """A line of how many crates are proved, and in how many minutes of this run."""
        count = len(self.done) + len(self.left) + len(self.running)
        minutes = (time.monotonic() - self.began) / 60
        say(f"{len(self.done)} of {count} crates, {minutes:.1f} minutes: {what}")

    def say_left(self):
        """Says what is not proved, in the order in which it would have been."""
        left = sorted([*self.running, *self.left], key=self.chains.get, reverse=True)
        say(f"left: {', '.join(crate.name for crate in left)}; the next time it goes on there")


def main():
    parser = argparse.ArgumentParser(description=__doc__, formatter_class=argparse.RawDescriptionHelpFormatter)
    parser.add_argument("programs", nargs="+", metavar="PROGRAM", help="a program's crate, as tapebox")
    words = parser.parse_args()
    try:
        kit = kit_module(NAMES, CALLS)
    except LookupError as fault:
        say(f"{fault}, so one crate is proved after the other")
        return 0
    # What the commands are put in, which end when this ends, is made before there are threads.
    kit.guarded()
    crates = kit.crates_below(str(ROOT / "crates"))
    programs = [crate for crate in crates if crate.name in words.programs and not crate.makes_rlib()]
    if len(programs) != len(set(words.programs)):
        parser.error(f"{ROOT / 'crates.txt'} has no such program: {' '.join(words.programs)}")
    needed = [crate for crate in crates if any(crate in [*program.below(), program] for program in programs)]
    # Nobody else works in these crates as long as this is open.
    held = kit.lock(needed)
    proving = Proving(kit, needed)
    signal.signal(signal.SIGTERM, signal.default_int_handler)
    try:
        is_proved = proving.prove_all()
    except KeyboardInterrupt:
        proving.say_left()
        # Ended by the signal, so that a script that called this ends too.
        signal.signal(signal.SIGINT, signal.SIG_DFL)
        os.kill(os.getpid(), signal.SIGINT)
    if not is_proved:
        proving.say_left()
        # At once, and the other crates' commands with it: Python would wait for the threads in which the kit runs them.
        os._exit(1)
    for folder in held:
        os.close(folder)
    return 0


if __name__ == "__main__":
    sys.exit(main())
