"""tools/board.py: a running day in a real browser."""

import contextlib
import http.client
import re
import shutil
import subprocess
import sys
import tempfile
import unittest
from pathlib import Path

from browser import Browser
from support import HOST, LIMIT, MARKS, TAPE_COLUMNS, TAPEBOX, TOOLS, Case, connect, message, ports, report, run, started, tape_row, wait_bound

SCRIPT = TOOLS / "board.py"
HEAD = f"{','.join(TAPE_COLUMNS)}\n"
REPORT = {"price": "10.00", "size": 100, "condition": "@___"} | dict.fromkeys(MARKS, "10.00")
NOTHING = {"volume": 0, "trades": 0}
ROWS = tape_row(tape=1, kind="report", participant="N", number=1, moment=0, symbol="AB", volume=100, trades=1, **REPORT)
ROWS += tape_row(tape=2, kind="cancel", participant="N", number=2, moment=0, symbol="AB", target=1, **NOTHING)
# A cancel of another participant's report, which no tape has.
FOREIGN = tape_row(tape=3, kind="cancel", participant="Q", number=1, moment=0, symbol="AB", target=1, **NOTHING)


@contextlib.contextmanager
def board(*words, **options):
    """A board that serves its page, and where."""
    with started([SCRIPT, *words, 0], program=sys.executable, text=True, **options) as running:
        line = running.stdout.readline()
        try:
            yield running, re.fullmatch(r"board: (http://127\.0\.0\.1:([0-9]+)/)\n", line)
        finally:
            # It ends the `watch` that it runs, which a board that is killed would leave.
            running.terminate()
            with contextlib.suppress(subprocess.TimeoutExpired):
                running.wait(LIMIT)


def asked(port, path, host=HOST):
    """The status and the body of what the board answers."""
    with contextlib.closing(http.client.HTTPConnection(HOST, port, timeout=10)) as connection:
        connection.request("GET", path, headers={"Host": f"{host}:{port}"})
        answer = connection.getresponse()
        return answer.status, answer.read()


class Words(Case):
    def test_rows_on_standard_input(self):
        """board.py: rows that `watch` wrote may come on standard input; a symbol's prices are those of its rows."""
        with board("-", stdin=subprocess.PIPE) as (running, told):
            running.stdin.write(HEAD + ROWS)
            running.stdin.flush()
            port = int(told[2])
            status, body = asked(port, "/symbol/AB")
            while status == 404:
                status, body = asked(port, "/symbol/AB")
            self.assertEqual((status, body), (200, b'{"trades":[[1,"N","1","AB",100000,100,"@___",1,2]],"lasts":[[1,100000],[2,0]]}'))
            self.assertEqual(asked(port, "/symbol/CD")[0], 404)
            self.assertEqual(asked(port, "/../README.md")[0], 404)
            self.assertEqual(asked(port, "/", "tapes.example")[0], 403)
            running.terminate()
            self.assertEqual(running.wait(10), 0)

    def test_no_tape(self):
        """board.py: rows of another table, or a row that no followed tape has, end it with status 1."""
        for rows, why in [
            ("symbol,who\nAB,ALL\n", "the first row does not have the columns of a readable tape"),
            (HEAD + ROWS + FOREIGN, "line 4 is no row of a followed tape"),
        ]:
            with board("-", stdin=subprocess.PIPE) as (running, _):
                _, said = running.communicate(rows, timeout=20)
                self.assertEqual((running.returncode, said), (1, f"board.py: {why}\n"))

    def test_a_port_that_is_taken(self):
        """board.py: a port that is taken is named, with status 1."""
        with board("-", stdin=subprocess.PIPE) as (_, told):
            ended = run([SCRIPT, "-", told[2]], program=sys.executable)
            self.assertEqual((ended.status, ended.said.decode()), (1, f"board.py: port {told[2]}: Address already in use\n"))


@unittest.skipUnless(shutil.which("chromium"), "no chromium")
class Page(Case):
    def setUp(self):
        folder = tempfile.TemporaryDirectory()
        self.addCleanup(folder.cleanup)
        self.day = Path(folder.name, "day.toml")
        self.port, a, b, retransmission = ports(4)
        self.lines = (a, b)
        keys = f'symbols = ["AB", "CD"]\nparticipants = ["N"]\nport = {self.port}\na = [{a}]\nb = [{b}]\n'
        self.day.write_text(f"{keys}retransmission = {retransmission}\nfollowers = 1\nsession = 7\n", encoding="utf-8")

    def test_a_cancel_gives_the_last_back(self):
        """board.py: each trade shows on the page as it comes, and a cancel strikes its trade and gives the last before it back."""
        browser = Browser()
        self.addCleanup(browser.close)
        environment = {"TAPEBOX": str(TAPEBOX), "PATH": "/usr/bin:/bin"}
        with started(["live", self.day]) as live, connect(self.port) as participant, board(self.day, env=environment) as (running, told):
            wait_bound(running, *self.lines)
            browser.go(told[1])

            def shows(what, expression, wanted):
                browser.wait(what, lambda: browser.value(expression) == wanted)

            row = "[...document.querySelectorAll('#symbols .body .row')].map((row) => [...row.children].slice(0, 3).map((it) => it.textContent).join(' ')).join()"
            participant.sendall(report("N", 1, price="10.00"))
            shows("the first trade", row, "AB 10.00 0.00")
            participant.sendall(report("N", 2, price="10.25"))
            shows("the second trade", row, "AB 10.25 +0.25")
            self.assertFalse(browser.value("document.getElementById('hint').hidden"))
            browser.click("#symbols .body .row")
            shows("the prices of the symbol", "document.getElementById('prices-title').textContent", "AB: its newest 2 trades")
            self.assertTrue(browser.value("document.getElementById('hint').hidden"))
            participant.sendall(message(kind="cancel", participant="N", number=3, symbol="AB", target=2))
            shows("the cancel", row, "AB 10.00 0.00")
            shows("the struck trade", "document.querySelector('#trades .struck').textContent", "10.25")
            participant.sendall(message(kind="correct", participant="N", number=4, symbol="AB", target=1, price="9.50", size=100, condition="@___"))
            shows("the correction", row, "AB 9.50 0.00")
            shows("the marked trade", "document.querySelector('#trades .dotted').textContent", "9.50")
            participant.close()
            keys = "[...document.querySelectorAll('.newest .keys span')].map((it) => `${it.className}: ${it.textContent}`).join()"
            self.assertEqual(browser.value(keys), "struck: cancelled,dotted: corrected or reinstated")
            self.assertEqual(live.wait(60), 0)
            shows("the end", "document.getElementById('busy').textContent", "the day is over")
            self.assertEqual([it["exceptionDetails"]["text"] for it in browser.told("Runtime.exceptionThrown")], [])
