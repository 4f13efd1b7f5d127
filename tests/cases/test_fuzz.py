"""The calls of the static library under libFuzzer, from a corpus of the samples, of the worked rows and of inputs that were found before.

FUZZ_SECONDS=3600 runs it for an hour, FUZZ_KEEP=1 then renews clib/fuzz/corpus.txt, and FUZZED_LIBRARY names a library that dev/draft.py --fuzzed has made.
"""

import os
import re
import shutil
import subprocess
import tempfile
import unittest
from pathlib import Path

import plain_table
from support import CRATES, ROOT, SAMPLES, Case, run

HARNESS = ROOT / "clib" / "fuzz" / "calls.c"
KEPT = HARNESS.with_name("corpus.txt")
CALLS = ROOT / "clib" / "calls.c"
CLANG = os.environ.get("CLANG", "clang")
SECONDS = int(os.environ.get("FUZZ_SECONDS", "30"))
# How often each call is made at least, however busy the machine is.
CALLS_LEAST = 20
# How many edges of the code are reached at least by the corpus alone.
EDGES_LEAST = 1500
# The bytes that have calls made are the places of their names in the harness, and these after them.
MORE = ["send_all"]
NUMBER = re.compile(rb"calls: (\w+) (\d+)")


def names():
    """The calls by the bytes that have them made."""
    text = HARNESS.read_text(encoding="utf-8")
    return re.findall(r'"(\w+)"', re.search(r"NAMES\[CALLS\] = \{(.*?)\};", text, re.DOTALL)[1]) + MORE


def call(name, *arguments, other=False):
    """A call of an input: numbers of one byte, and bytes after how many they are. Another handle's has 128 more."""
    spelled = [bytes([each]) if isinstance(each, int) else len(each).to_bytes(2, "big") + each for each in arguments]
    return bytes([names().index(name) + 128 * other]) + b"".join(spelled)


def inputs_of_samples():
    """Each sample as a tape that is sent to a subscriber, and read."""
    for table in sorted(SAMPLES.glob("*.csv")):
        messages = plain_table.read(table.read_bytes())
        symbols, participants, *_ = plain_table.batch(messages).splitlines()
        steps = [b"\1", call("open", 1, symbols, participants, 200), call("subscribe", 1, symbols, participants, 200, 7, other=True)]
        half = len(messages) // 2
        steps += [call("admit", 0, message) for message in messages[:half]] + [call("admit_many", 200, b"".join(messages[half:]))]
        steps += [call(name, 1) for name in ("entry", "totals", "symbol", "participant", "count")]
        steps += [call("summary", 0, b"AB"), call("summary_of", ord("N"), b"AB")]
        for version in (1, 2):
            steps += [call("send_all", version, 7), call("drain", 0, other=True), call("missing", 0, other=True), call("news_of", 0, other=True)]
        request = bytes.fromhex("0000000000000007000000010040")
        yield b"".join([*steps, call("serve", 2, request, 255), call("close", 0)])


def inputs_of_tables():
    """Each sample as a table whose texts are made, and read by pieces; and as one with a fault."""
    for table in sorted(SAMPLES.glob("*.csv")):
        given = table.read_bytes()[:4000]
        given = given[: given.rindex(b"\n") + 1]
        for text in (given, given.replace(b",100,", b",0,", 1)):
            steps = [b"\1", call("read_table", 0, text), call("text_length", 0), call("text_copy", 0, 255)]
            steps += [call(name, matrix) + call("text_copy", 3, 200) for name in ("report", "tape", "explain") for matrix in (1, 2, 3)]
            yield b"".join([*steps, call("count", 0), call("free", 0), call("read_table", 0, text[:100])])


def inputs_of_rows():
    """The bytes of the rows and of the page of formats, given to each call that reads bytes."""
    for file in [*sorted((ROOT / "rows").glob("*.rows")), ROOT / "docs" / "FORMATS.md"]:
        for digits in sorted(set(re.findall(r"\b[0-9a-f]{2,}(?: [0-9a-f]{2,})*\b", file.read_text(encoding="utf-8")))):
            digits = digits.replace(" ", "")
            if len(digits) % 2 == 0 and len(digits) > 16:
                data = bytes.fromhex(digits)
                steps = [call(name, 0, 0, data) for name in ("decode", "read_packet", "packet_entry", "read_request", "read_answer")]
                yield b"".join([b"\0", *steps, call("admit", 0, data), call("deliver", 0, data, other=True), call("drain", 0, other=True)])


def inputs_kept():
    """The inputs that were found before."""
    return map(bytes.fromhex, KEPT.read_text(encoding="utf-8").split())


@unittest.skipUnless(shutil.which(CLANG), "there is no clang")
@unittest.skipUnless(shutil.which("rt"), "there is no kit")
class Fuzzed(Case):
    def library(self):
        """The library with coverage and AddressSanitizer in its own code."""
        if named := os.environ.get("FUZZED_LIBRARY"):
            return Path(named)
        made = run(["--fuzzed", "tapebox_c"], program=ROOT / "dev" / "draft.py", limit=1_800)
        if made.status == 2:
            self.skipTest(made.said.decode())
        self.assertEqual(made.status, 0, made.said.decode())
        return CRATES / "tapebox_c" / "out" / "libtapebox_c.a.fuzzed"

    def built(self, folder):
        """The harness under AddressSanitizer; the case is skipped if clang has no runtime for it."""
        kit = Path(shutil.which("rt")).resolve().parent.parent
        flags = ["-std=c11", "-g", "-O1", "-Wall", "-Wextra", "-Werror", "-fsanitize=fuzzer,address,undefined"]
        probe = folder / "probe.c"
        probe.write_text("int LLVMFuzzerTestOneInput(const unsigned char *data, unsigned long size) { return !data && size; }\n", encoding="utf-8")
        if subprocess.run([CLANG, *flags, "-o", folder / "probe", probe], capture_output=True, check=False).returncode:
            self.skipTest("this clang has no libFuzzer or AddressSanitizer (Debian's libclang-rt-dev)")
        # As clib/build does.
        names = sorted(set(re.findall(r"\btapebox_inner_(\w+)\(", CALLS.read_text(encoding="utf-8"))))
        renamed = [f"--redefine-sym=tapebox_{name}=tapebox_inner_{name}" for name in names]
        done = run([*renamed, self.library(), folder / "inner.a"], program=shutil.which("objcopy"))
        self.assertEqual((done.status, done.said), (0, b""))
        done = run([*flags, "-o", folder / "calls", HARNESS, CALLS, folder / "inner.a", kit / "c" / "liblibc_c.a"], program=shutil.which(CLANG))
        self.assertEqual((done.status, done.said), (0, b""))
        return folder / "calls"

    def keep(self, program, folder, corpus):
        """Puts the short inputs that reach all that the corpus reaches into corpus.txt, if that is asked for."""
        if "FUZZ_KEEP" in os.environ:
            least = folder / "least"
            least.mkdir()
            run(["-set_cover_merge=1", "-max_len=64", least, corpus], program=program, limit=900, cwd=folder)
            texts = sorted({file.read_bytes().hex() for file in least.iterdir()} - {""})
            KEPT.write_text("".join(f"{text}\n" for text in texts), encoding="utf-8")

    def test_calls(self):
        """clib/fuzz/calls.c: whatever bytes choose the calls and their arguments, neither a call nor the code inside it reads or writes outside what it
        has, nothing leaks, and each call answers a number of the page of refusals."""
        with tempfile.TemporaryDirectory() as name:
            folder = Path(name)
            corpus = folder / "corpus"
            corpus.mkdir()
            for at, given in enumerate([*inputs_of_samples(), *inputs_of_tables(), *inputs_of_rows(), *inputs_kept()]):
                (corpus / str(at)).write_bytes(given)
            program = self.built(folder)
            reached = re.findall(rb"DONE +cov: (\d+)", run(["-runs=0", "-max_len=4096", corpus], program=program, limit=300, cwd=folder).said)
            # The harness alone has some hundred edges.
            self.assertGreater(int(reached[0]), EDGES_LEAST)
            words = [f"-max_total_time={SECONDS}", "-max_len=4096", "-timeout=60", "-verbosity=0", f"-artifact_prefix={folder}/", corpus]
            ended = run(words, program=program, limit=2 * SECONDS + 120, cwd=folder)
            self.keep(program, folder, corpus)
        self.assertEqual(ended.status, 0, ended.said.decode(errors="replace"))
        made = {call.decode(): int(count) for call, count in NUMBER.findall(ended.said)}
        if SECONDS > 60:
            print(ended.said.decode(errors="replace"))
        self.assertEqual(set(made), {*names(), "all"} - set(MORE))
        self.assertGreater(min(made.values()), CALLS_LEAST)
