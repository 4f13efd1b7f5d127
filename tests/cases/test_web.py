"""The page in a real browser beside the built program, what it may ask the network for, and the heap beside its module."""

import os
import random
import re
import shutil
import socket
import subprocess
import sys
import tempfile
import unittest
from pathlib import Path

from cases import test_tables
from browser import PAGE, Browser, PageCase
from plain_reasons import Reasons
from support import HOST, LIMIT, ROOT, SAMPLES, Case, desk, run, table_of, tried

WEB = ROOT / "web"
# The library that the module is compiled from, for this machine.
LIBRARY = ROOT / "crates" / "tapebox_c" / "out" / "libtapebox_c.a"
NAMES = ("report", "tape", "explain")
# What the page lists with its reasons: of each report its tape number and the words.
LISTS = """[...document.querySelectorAll('#reasons section')].slice(0, 3).map((list) =>
    [...list.querySelectorAll('tr')].map((line) => [line.querySelector('button').textContent.slice(1), line.lastChild.textContent]))"""
# Measures from here on the longest time, in milliseconds, in which the page does not get to what else it has to do.
SILENCE = """globalThis.silence = 0;
    globalThis.looked = performance.now();
    setInterval(() => { const now = performance.now(); silence = Math.max(silence, now - looked); looked = now; }, 10);
    0"""
# How many reports a list has at most.
LISTED = 12


class OneSymbol(test_tables.SeededDay):
    """Rows of one symbol."""

    SYMBOLS = ["AB"]


class Page(PageCase):
    def assert_texts(self, table, matrix):
        """What is saved of a table are the bytes that the program writes."""
        self.browser.give(table, matrix)
        self.assertTrue(self.browser.value("document.getElementById('fault').hidden"))
        for name in NAMES:
            with self.subTest(table.name, matrix=matrix, text=name):
                ended = desk(name, matrix=matrix, given=table.read_bytes())
                self.assertEqual(ended.status, 0)
                self.assertTrue(ended.written)
                self.assertEqual(self.browser.save(name), ended.written)

    def assert_fault(self, table, matrix):
        """A table's fault is shown in the program's words, with its row, of which this is the text; and nothing else is."""
        self.browser.give(table, matrix)
        ended = desk("report", matrix=matrix, given=table.read_bytes())
        self.assertEqual((ended.status, ended.written), (2, b""))
        shown = self.browser.value("document.getElementById('fault-text').textContent")
        # The program's name stands before it.
        self.assertEqual(f"{shown}\n", ended.said.decode().partition(": ")[2])
        self.assertTrue(self.browser.value("document.getElementById('day').hidden"))
        return self.browser.value("document.querySelector('#fault-lines .bad').textContent")

    def test_samples(self):
        """web/README: the three texts of the samples, as a person saves them, are the program's bytes."""
        for name, matrix in [("corrections", 1), ("morning", 1), ("matrix-two", 2)]:
            self.assert_texts(SAMPLES / f"{name}.csv", matrix)

    def test_the_sample_of_the_page(self):
        """web/README: the page's own sample is samples/morning.csv."""
        self.try_sample()
        for name in NAMES:
            self.assertEqual(self.browser.save(name), desk(name, given=(SAMPLES / "morning.csv").read_bytes()).written)

    @tried(3)
    def test_a_long_table(self):
        """web/README: of 200,000 rows of one symbol the texts are whole, and the page is silent for less than half a second at a time."""
        day = OneSymbol(41)
        table = self.written("long.csv", [day.HEAD, *(day.row() for _ in range(200_000))])
        self.browser.value(SILENCE)
        self.assert_texts(table, 1)
        for name in ("tape", "explain", "report"):
            self.browser.click(f"#tab-{name}")
            self.browser.value("new Promise((done) => setTimeout(done, 300))")
        self.assertLess(self.browser.value("silence"), 500)

    def test_seeded_tables(self):
        """web/README: seeded tables by either matrix, one in four of them with a fault, whose row is shown."""
        for seed in range(40):
            drawn, day = random.Random(seed), test_tables.SeededDay(seed)
            rows = [day.HEAD, *(day.row() for _ in range(drawn.randrange(1, 400)))]
            bad = drawn.randrange(1, len(rows))
            if seed % 4:
                self.assert_texts(self.written(f"seeded-{seed}.csv", rows), 1 + seed % 2)
                continue
            rows[bad][day.HEAD.index("number")] = "0"
            with self.subTest(seed):
                shown = self.assert_fault(self.written(f"bad-{seed}.csv", rows), 1 + seed // 4 % 2)
                self.assertEqual(shown, f"{bad + 1}  {table_of([rows[bad]]).decode()}")

    def test_faults(self):
        """web/README: the row of a fault is shown when blank rows stand before it, and the header row when that is at fault."""
        head = b"kind,participant,number,symbol,target,price,size,condition\n"
        good = b"report,N,1,AB,,10.00,100,@___\n"
        worse = good.replace(b"AB", b"ab")
        self.assertEqual(self.assert_fault(self.written("blank.csv", head + b"\n" + good + b"\n\r\n" + worse), 1), f"3  {worse.decode()}")
        self.assertEqual(self.assert_fault(self.written("head.csv", b"kinds" + head[4:] + good), 2), f"1  {b'kinds'.decode()}{head[4:].decode()}")

    def assert_reasons(self, table):
        """Each reason of a table's reports, consolidated and of each participant, is the one of RULES."""
        self.browser.give(table, 1)
        self.browser.click("#tab-explain")
        reasons = Reasons(*(desk(name, given=table.read_bytes()).written for name in ("explain", "tape")))
        for symbol, letter in sorted({(row["symbol"], letter) for row in reasons.rows for letter in (None, row["participant"])}, key=str):
            who = ord(letter) if letter else 0
            self.browser.value(f"setSymbol(state.symbols.indexOf('{symbol}')), state.who = {who}, showTab()")
            lists = [[list(it) for it in items[:LISTED]] for items in reasons.lists(symbol, letter)]
            with self.subTest(table.name, symbol=symbol, participant=letter):
                self.assertEqual(self.browser.value(LISTS), lists)
        for refusal, (number, words) in reasons.refusals().items():
            self.browser.value(f"setSymbol(-1), state.who = 0, goToRow({number - 2})")
            with self.subTest(table.name, refusal=refusal):
                self.assertEqual(self.browser.value("document.querySelector('#detail p:nth-of-type(2)').textContent"), words)
        self.refused |= set(reasons.refusals())
        return {reason for symbol in {row["symbol"] for row in reasons.rows} for items in reasons.lists(symbol) for _, reason in items}

    def test_reasons(self):
        """RULES, "Why a message is refused", "Why a report sets no figure": the page has these reasons, in these words; each but `32 Full` came up."""
        self.refused = set()
        said = self.assert_reasons(SAMPLES / "morning.csv")
        for seed in range(10, 16):
            day = test_tables.SeededDay(seed)
            said |= self.assert_reasons(self.written(f"reasons-{seed}.csv", [day.HEAD, *(day.row() for _ in range(12 + 5 * seed))]))
        for part in ("cancelled by", "never makes it", "if there is none", "own participant", "does not count"):
            self.assertTrue(any(part in reason for reason in said), part)
        self.assertLessEqual({"35 Stale", "37 NoSuchReport", "38 OtherSymbol", "39 Cancelled", "43 Standing", "44 NotInMatrix"}, self.refused)

    def test_a_table_that_is_too_large(self):
        """web/README: a table with more rows than there is memory for is not read, and the page says how much it needs."""
        # So many units of 2 to the 30th power as are memory for 17 rows.
        self.browser.value(f"Object.defineProperty(Navigator.prototype, 'deviceMemory', {{ get: () => {17 * 1200 / 2**29} }}), 0")
        self.browser.give(SAMPLES / "morning.csv", 1)
        shown = self.browser.value("[document.getElementById('fault').innerText, document.getElementById('day').hidden, state.report]")
        self.assertIn("morning.csv is too large for this page", shown[0])
        self.assertRegex(shown[0], r"\b37 rows need .* GB of memory.* takes 17 rows at most here")
        self.assertEqual(shown[1:], [True, None])
        # A file that is larger than that is not read at all.
        self.browser.value("take({ name: 'huge.csv', size: 3e9 })")
        self.assertRegex(self.browser.value("document.getElementById('fault').innerText"), r"huge.csv is too large for this page\s+It has 3.0 GB. ")
        self.browser.open(PAGE)
        self.assert_texts(SAMPLES / "morning.csv", 1)

    def test_memory_runs_out(self):
        """web/README: if the browser has no more memory for a table, the page says so, and the next table is made."""
        # Fewer pages than 100,000 rows need.
        little = Browser("--js-flags=--wasm-max-mem-pages=300")
        self.addCleanup(little.close)
        little.open(PAGE)
        rows = (["", "report", "", "N", number, 0, "AB", 1, "", 1, "@___"] for number in range(1, 100_001))
        little.give(self.written("large.csv", [test_tables.SeededDay.HEAD, *rows]), 1)
        shown = little.value("[document.getElementById('fault').innerText, document.getElementById('day').hidden]")
        self.assertIn("large.csv needs more memory than the browser has", shown[0])
        self.assertTrue(shown[1])
        little.give(SAMPLES / "morning.csv", 1)
        self.assertEqual(little.value("[state.tape.count, document.getElementById('fault').hidden].join()"), "37,true")

    def test_an_old_browser(self):
        """web/README: if the browser does not take the module, the page names the browsers that do."""
        # Of no browser is this a module.
        self.browser.value("worker.postMessage({ bytes: new Uint8Array(4) })")
        self.browser.wait("a word on it", lambda: self.browser.value("state.broken"))
        self.assertRegex(self.browser.value("document.getElementById('busy').innerText"), r"\AThis browser does not run 64-bit WebAssembly \(Chrome 133")
        self.browser.value("state.broken = ''")

    def test_no_request_leaves(self):
        """web/README: the page asks the network for nothing, and may not: a request from it, or from its worker, is refused."""
        self.browser.give(SAMPLES / "morning.csv", 1)
        for name in ("tape", "explain", "report"):
            self.browser.click(f"#tab-{name}")
        asked = [it["request"]["url"] for it in self.browser.told("Network.requestWillBeSent")]
        self.assertEqual([url for url in asked if url != PAGE.as_uri() and not url.startswith("blob:")], [])
        self.assertIn(PAGE.as_uri(), asked)
        with socket.create_server((HOST, 0)) as server:
            server.setblocking(False)
            url = f"{HOST}:{server.getsockname()[1]}"
            for session in [None, *self.browser.workers()]:
                # One that is let through would wait for an answer.
                asking = f"fetch('http://{url}/', {{ signal: AbortSignal.timeout(2000) }}).then(() => 'came', ({{ name }}) => name)"
                self.assertEqual(self.browser.value(asking, session), "TypeError")
            self.browser.value(f"new Image().src = 'http://{url}/'; navigator.sendBeacon('http://{url}/', 'x'); 0")
            self.browser.value(f"try {{ new WebSocket('ws://{url}/') }} catch (_) {{}}; new Promise((done) => setTimeout(done, 300))")
            with self.assertRaises(BlockingIOError):
                server.accept()
        self.assertEqual(len(self.browser.workers()), 1)


class Build(Case):
    def test_without_the_kit(self):
        """web/build: if the kit lacks what it takes it says so, ends with 3 and makes nothing."""
        with tempfile.TemporaryDirectory() as folder:
            Path(folder, "python3").symlink_to(sys.executable)
            before = PAGE.exists() and PAGE.stat().st_mtime_ns
            ended = run([], program=WEB / "build", env=os.environ | {"PATH": folder})
        self.assertEqual((ended.status, ended.written), (3, b""))
        self.assertRegex(ended.said, rb"\Abuild: no page: the Rattle kit's command rt is not on the path\n\Z")
        self.assertEqual(PAGE.exists() and PAGE.stat().st_mtime_ns, before)


@unittest.skipUnless(shutil.which("cc"), "no C compiler")
class Heap(Case):
    WORDS = "-std=c11 -O1 -g -Wall -Wextra -Werror -Wno-attributes -Wno-unused-parameter -fsanitize=address,undefined -fno-sanitize-recover=all".split()

    def built(self, name, *more):
        """A program of web/, with these archives."""
        folder = tempfile.TemporaryDirectory()
        self.addCleanup(folder.cleanup)
        program = Path(folder.name, name)
        subprocess.run(["cc", *self.WORDS, "-o", program, WEB / f"{name}.c", *more], check=True)
        return program

    def said(self, program, *words):
        """What a program says that ends well."""
        done = subprocess.run([program, *map(str, words)], capture_output=True, text=True, timeout=LIMIT, check=False)
        self.assertEqual((done.returncode, done.stderr), (0, ""))
        return done.stdout

    def test_random_requests(self):
        """web/heap.c: blocks are aligned, apart and keep their bytes under random requests, as AddressSanitizer sees too."""
        program = self.built("heap_test")
        for seed in range(1, 5):
            with self.subTest(seed):
                self.assertRegex(self.said(program, seed, 20_000), r"\A\d+ pages of 65536, [1-9]\d* requests refused\n\Z")

    @unittest.skipUnless(LIBRARY.exists(), f"no {LIBRARY.name}, which web/build makes")
    def test_each_request_is_refused(self):
        """web/heap.c, under the page's calls: with each request of memory refused in turn a call makes its text or says that memory ran out."""
        program = self.built("refusals_test", LIBRARY)
        for name, matrix in [("corrections", 1), ("morning", 1), ("matrix-two", 2)]:
            with self.subTest(name):
                said = self.said(program, SAMPLES / f"{name}.csv", matrix)
                self.assertEqual(re.sub(r"\b[1-9]\d*\b", "N", said), "".join(f"{call}: N requests, N of them needed\n" for call in NAMES))


if __name__ == "__main__":
    unittest.main()
