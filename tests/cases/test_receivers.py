"""The receivers of a running day in clib/examples: over the Python package, and with no library."""

import contextlib
import csv
import io
import os
import signal
import sys
import unittest

import plain_table
from support import LIMIT, ROOT, TESTS, Case, connect, desk, ended, ports, started, wait_bound, wait_connected

EXAMPLES = ROOT / "clib" / "examples"
LIBRARY = ROOT / "clib" / "libtapebox.so"
HEAD = "kind,participant,number,moment,symbol,target,price,size,condition\n"
# The columns of a readable tape that the receivers write.
COLUMNS = ["tape", *plain_table.COLUMNS]


def table(count):
    """A day of one participant: reports of two symbols, and of each five a cancel, a reinstatement and a correction."""
    rows, number = [], 0
    for at in range(count):
        number += 1
        rows.append(f"report,N,{number},{at},{'AB' if at % 3 else 'C.1'},,{10 + at % 7}.{at % 100:02},100,@___\n")
        if at % 5 == 4:
            symbol, target = rows[-1].split(",")[4], number
            for kind, content in (("cancel", ",,"), ("reinstate", ",,"), ("correct", "9.9999,7,@_Z_")):
                number += 1
                rows.append(f"{kind},N,{number},,{symbol},{target},{content}\n")
    return (HEAD + "".join(rows)).encode()


class Receivers(Case):
    def written(self, receivers, given, *relay):
        """What each receiver writes of a day with this table's messages, by lines on which a relay loses packets."""
        with contextlib.ExitStack() as stack:
            line, a, b, retransmission, *lines = ports(4 + 2 * len(receivers))
            live = stack.enter_context(started(["live", "AB,C.1", "N", line, a, b, retransmission, len(receivers), 7]))
            lossy = stack.enter_context(started([*relay, a, b, *lines], program=TESTS / "lossy_relay.py"))
            following = []
            for at, (script, names) in enumerate(receivers):
                words = ["-B", EXAMPLES / script, *names, *lines[2 * at : 2 * at + 2], retransmission, 7]
                following.append(stack.enter_context(started(words, program=sys.executable, env=os.environ | {"TAPEBOX_LIBRARY": str(LIBRARY)})))
                wait_bound(following[-1], *lines[2 * at : 2 * at + 2])
            wait_bound(lossy, a, b)
            with connect(line) as participant:
                wait_connected(live, retransmission, len(receivers))
                participant.sendall(desk("line", "N", given=given).written)
            ends = [ended(each) for each in following]
            self.assertEqual(ended(live, LIMIT).status, 0)
            lossy.send_signal(signal.SIGTERM)
            return ends

    def assert_followed(self, receivers, given, *relay):
        """Each receiver writes the columns of the table's readable tape up to the condition."""
        tape = csv.DictReader(io.StringIO(desk("tape", given=given).written.decode()))
        wanted = [COLUMNS, *([row[name] for name in COLUMNS] for row in tape if not row["refused"])]
        for (script, _), end in zip(receivers, self.written(receivers, given, *relay)):
            with self.subTest(script):
                self.assertEqual((end.status, end.said), (0, b""))
                self.assertEqual(list(csv.reader(io.StringIO(end.written.decode()))), wanted)

    def test_with_no_library(self):
        """clib/examples/plain_receiver.py: by lines that lose a third of the packets, and bring bytes that are none, it writes the whole tape."""
        self.assert_followed([("plain_receiver.py", [])], table(400), "--lose", 30, "--reorder", 10, "--garble", 10)

    def test_the_length_of_the_plain_receiver(self):
        """clib/examples/plain_receiver.py: it has 120 lines at most, and imports nothing but what Python has."""
        text = (EXAMPLES / "plain_receiver.py").read_text(encoding="utf-8")
        self.assertLessEqual(len(text.splitlines()), 120)
        imported = {line.split()[1] for line in text.splitlines() if line.startswith(("import ", "from "))}
        self.assertLessEqual(imported, set(sys.stdlib_module_names))

    @unittest.skipUnless(LIBRARY.exists(), "clib/libtapebox.so was not built (clib/build)")
    def test_beside_one_another(self):
        """clib/examples/receiver.py: a receiver over the library writes the same as one that uses none."""
        receivers = [("receiver.py", ["AB,C.1", "N"]), ("plain_receiver.py", [])]
        self.assert_followed(receivers, table(400), "--lose", 30, "--double", 10, "--garble", 10)
