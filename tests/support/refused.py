"""Programs of which one request for memory is refused."""

import os
from collections import Counter
from concurrent.futures import ThreadPoolExecutor
from dataclasses import dataclass, replace

from preloaded import built, preloading
from support import OUT_OF_MEMORY, Case, run

# The heap of which one request is refused.
HEAP = "one_refusal.c"
TOLD = b"a request was refused\n"
# More requests than any test makes.
MOST = 10_000
# The status of a test whose own result is an error: memory was refused that only prepares a call. An assertion ends it with another one.
ENDED_BY_ERROR = 101
# The line of an answer out of memory.
REFUSED = b"refused 40 OutOfMemory\n"


def refusing(request):
    """The environment of a program whose request of this number is refused."""
    return preloading(HEAP) | {"REFUSED_REQUEST": str(request)}


def without_told(ended):
    """Whether a request was refused, and how the program ended by its own words."""
    return TOLD in ended.said, replace(ended, said=ended.said.replace(TOLD, b"", 1))


def run_refused(words, request, **options):
    """Runs a program with one request refused: whether it was met, and how the program ended."""
    return without_told(run(words, env=refusing(request), **options))


def tests_of(program):
    """The names of the tests that a program has."""
    listed = run(["--list"], program=program).written.decode()
    return [line.removesuffix(": test") for line in listed.splitlines() if line.endswith(": test")]


@dataclass
class Sweep:
    """What came of a test, each of whose requests was refused in turn: how many there are, after how many of them the test went on, what it
    printed then, and with which request refused it failed."""

    requests: int = 0
    went_on: int = 0
    printed: Counter = None
    failed: str = ""


def sweep(program, test):
    """Refuses a test's first request, then its second, and so on until a run meets no refusal."""
    found = Sweep(printed=Counter())
    for request in range(1, MOST):
        was_met, ended = run_refused([test], request, program=program)
        if ended.status != 0 and not (was_met and ended.status == ENDED_BY_ERROR):
            found.failed = f"request {request}, status {ended.status}: {ended.written.decode()}{ended.said.decode(errors='replace')}"
            return found
        if not was_met:
            return found
        found.requests += 1
        if ended.status == 0:
            found.went_on += 1
            found.printed.update(ended.written.decode().splitlines())
    found.failed = f"{MOST} requests and more"
    return found


class Sweeps(Case):
    """A case about the tests of a crate, as the gate built them."""

    @classmethod
    def setUpClass(cls):
        # Once, before the tests run beside each other.
        built(HEAP)

    def sweep_all(self, program):
        """What the tests of refused memory printed, each in its runs with one request refused. Each of them goes on after one of its requests at least."""
        tests = [test for test in tests_of(program) if "::refused::" in test]
        self.assertTrue(tests)
        printed = Counter()
        with ThreadPoolExecutor(os.cpu_count()) as pool:
            for test, found in zip(tests, pool.map(lambda test: sweep(program, test), tests)):
                with self.subTest(test):
                    self.assertEqual(found.failed, "")
                    self.assertGreater(found.went_on, 0, f"{found.requests} requests")
                printed.update(found.printed)
        return printed

    def assert_printed(self, printed, *lines):
        """Each of these lines was printed, after whatever precedes it."""
        for line in lines:
            with self.subTest(line):
                self.assertTrue(any(text.endswith(line) for text in printed), sorted(printed))


def end_of_batch(case, ended, whole, answers):
    """What a batch that ended so has written: everything, nothing, the answers up to a refusal 40 that is the last of them, or all answers
    and no report."""
    if ended.status == 0:
        case.assert_writes(ended, whole)
        return "done"
    case.assertEqual((ended.status, ended.said), OUT_OF_MEMORY)
    if ended.written in (b"", answers):
        return "all answers" if ended.written else "nothing"
    front = ended.written.removesuffix(REFUSED)
    case.assertTrue(front != ended.written and whole.startswith(front) and len(front) < len(answers), ended.written[-40:])
    case.assertTrue(front.endswith(b"\n") or not front, ended.written[-40:])
    return "a refusal 40 at the end"
