"""C libraries that stand before a program's own."""

import errno
import functools
import os
import subprocess
import tempfile
import threading
from pathlib import Path

from support import wait_for

# Held while a library is built, so that cases in several threads wait for one.
BUILDING = threading.Lock()


def built(name):
    """The library of a source beside this file, built once by the toolchain's own compiler, and the folder that is removed at the end."""
    with BUILDING:
        return build(name)


@functools.cache
def build(name):
    page = subprocess.run(["rt", "doc"], capture_output=True, text=True, check=True).stdout.strip()
    source = Path(__file__).resolve().parents[1] / "preload" / name
    folder = tempfile.TemporaryDirectory()
    library = Path(folder.name) / f"{source.stem}.so"
    compiler = Path(page).parent / "toolchain" / "bin" / "clang"
    subprocess.run([compiler, "-O2", "-shared", "-fPIC", "-nostdlib", "-fuse-ld=lld", "-o", library, source], check=True)
    return folder, library


def preloading(name):
    """The environment of a program that runs with the library."""
    return {"LD_PRELOAD": str(built(name)[1])}


# The library of calls that fail or wait.
CALLS = "failing_calls.c"
# What is said of each call that fails.
CALL_FAILED = b"a call failed\n"
# More calls than any program makes.
EVER = 1 << 40


def failing(*rows):
    """The environment of a program of which calls fail: rows of a call's name, the first and the last call of it that fails, from 1, and the
    error."""
    return preloading(CALLS) | {"FAILING": ",".join(":".join(map(str, row)) for row in rows)}


def noting_syncs(path):
    """The environment of a program whose syncs are noted in a file."""
    return preloading(CALLS) | {"SYNCED": str(path)}


class Held:
    """The call of a name and a number, from 1, of a program that runs with its environment: it waits until it is released."""

    def __init__(self, folder, name, call):
        self.path = Path(folder) / f"{name}-{call}"
        self.path.unlink(missing_ok=True)
        os.mkfifo(self.path)
        self.pipe = None
        self.environment = preloading(CALLS) | {"HELD": f"{name}:{call}:{self.path}"}

    def wait(self, program):
        """Waits until the call waits."""
        wait_for(program, f"the call of {self.path.name}", self.is_waiting)

    def is_waiting(self):
        """Whether the call waits. If so, it goes on once the pipe is closed."""
        try:
            self.pipe = os.open(self.path, os.O_WRONLY | os.O_NONBLOCK)
        except OSError as fault:
            if fault.errno != errno.ENXIO:
                raise
            return False
        return True

    def release(self):
        """Lets the call go on."""
        os.close(self.pipe)
