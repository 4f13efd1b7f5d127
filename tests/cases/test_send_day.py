"""tools/send_day.py, as it ends when a line is closed at the other end."""

import contextlib
import os
import socket
import struct
import tempfile

from support import HOST, LIMIT, TAPEBOX, TOOLS, Case, Ended, ended, ports, report, run, started, table_of

import send_day

COLUMNS = ["participant", "number", "symbol", "price", "size", "condition"]
# The rows of N and Q in turn: three messages of each.
ROWS = [[who, number, "AB", "10.00", 100, "@___"] for number in (1, 2, 3) for who in "NQ"]
LENGTH = len(report("N", 1))
# A day's file of both, for a first port.
DAY = """symbols = ["AB"]
participants = ["N", "Q"]
port = {port}
a = [1]
b = [2]
retransmission = 3
followers = 0
session = 7
"""
RESET = struct.pack("ii", 1, 0)


def read(connection, count):
    """So many messages of a line."""
    taken = b""
    while len(taken) < count * LENGTH and (more := connection.recv(count * LENGTH - len(taken))):
        taken += more
    return taken


class Closed(Case):
    @contextlib.contextmanager
    def sending(self, *options, of_day=False):
        """The script, which sends the rows to the case's own two lines: their connections, how it ended, and the table's path. It has them in words
        or from a day's file."""
        first, second = ports(2)
        with tempfile.NamedTemporaryFile(suffix=".csv") as table, tempfile.NamedTemporaryFile("w", suffix=".toml") as day, contextlib.ExitStack() as stack:
            day.write(DAY.format(port=first))
            day.flush()
            table.write(table_of([COLUMNS, *ROWS]))
            table.flush()
            servers = [stack.enter_context(socket.create_server((HOST, port))) for port in (first, second)]
            words = [*options, table.name, *([day.name] if of_day else [first, "N,Q"])]
            script = stack.enter_context(started(words, program=TOOLS / "send_day.py", env=os.environ | {"TAPEBOX": str(TAPEBOX)}))
            lines = []
            for server in servers:
                server.settimeout(LIMIT)
                lines.append(stack.enter_context(server.accept()[0]))
                lines[-1].settimeout(LIMIT)
            yield lines, lambda: ended(script), table.name

    def assert_fails(self, end, fault, status=3):
        """It ended with this status, and one line says why."""
        self.assertEqual(end, Ended(status, b"", f"send_day.py: {fault}\n".encode()))

    def test_all_is_read(self):
        """send_day.py, 0: each line is read to its end, and closed then; or it has no rows left and is closed before."""
        for of_day in (False, True):
            with self.subTest(of_day=of_day), self.sending(of_day=of_day) as ((n, q), end, _):
                self.assertEqual(read(n, 4) + read(q, 4), b"".join(report(who, number) for who in "NQ" for number in (1, 2, 3)))
                n.close()
                q.close()
                self.assertEqual(end(), Ended(0, b"", b""))

    def test_a_days_file_at_fault(self):
        """send_day.py, 1: a day's file is judged as `live` judges it, and has the participant of each row."""
        faults = [("[1]", "[]", "{day}: a: empty"), ('"Q"', '"P"', "{table}, row 3: participant 'Q' is not among N,P")]
        with tempfile.NamedTemporaryFile(suffix=".csv") as table, tempfile.NamedTemporaryFile("w", suffix=".toml") as day:
            table.write(table_of([COLUMNS, *ROWS]))
            table.flush()
            for old, new, fault in faults:
                with self.subTest(new):
                    day.seek(0)
                    day.truncate()
                    day.write(DAY.format(port=9_000).replace(old, new))
                    day.flush()
                    end = run([table.name, day.name], program=TOOLS / "send_day.py", env=os.environ | {"TAPEBOX": str(TAPEBOX)})
                    self.assert_fails(end, fault.format(day=day.name, table=table.name), status=1)

    def test_a_program_at_fault(self):
        """send_day.py, 1: a program that is missing is named in one line, and so is one that fails without a message, with its status."""
        with tempfile.NamedTemporaryFile(suffix=".csv") as table:
            table.write(table_of([COLUMNS, *ROWS]))
            table.flush()
            faults = [
                ("/no/such/program", "/no/such/program: No such file or directory"),
                ("/bin/false", f"{table.name}: /bin/false ended with status 1 and no message"),
                ("/bin/true", f"{table.name}: /bin/true ended with status 0 and no message"),
            ]
            for program, fault in faults:
                with self.subTest(program):
                    end = run(["--names", table.name], program=TOOLS / "send_day.py", env=os.environ | {"TAPEBOX": program})
                    self.assert_fails(end, fault, status=1)

    def test_closed_between_two_messages(self):
        """send_day.py, 3: a line that is closed, or reset, after some of its messages is named with the first one not sent, before any more are."""
        for how in ("closed", "reset"):
            with self.subTest(how), self.sending("--pause", "0.3") as ((n, q), end, table):
                read(q, 2)
                if how == "reset":
                    q.setsockopt(socket.SOL_SOCKET, socket.SO_LINGER, RESET)
                q.close()
                self.assert_fails(end(), f"{table}, row 7: participant Q's line was closed at the other end before message 3; messages sent: 2 of 3")

    def test_closed_before_all_was_read(self):
        """send_day.py, 3: so is a line whose messages were all sent, and which is closed with some of them unread."""
        with self.sending() as ((n, q), end, table):
            read(q, 4)
            q.close()
            read(n, 2)
            # The last message has come, and is not read.
            n.recv(LENGTH, socket.MSG_PEEK | socket.MSG_WAITALL)
            n.close()
            self.assert_fails(end(), f"{table}: participant N's line was closed at the other end before all was read; messages sent: 3 of 3")

    def test_closed_while_the_last_was_sent(self):
        """send_day.py, 3: what leaves just as a line is closed, all of which was read before, was not read."""
        for more, unread in [(b"", []), (report("N", 2), ["N"])]:
            with self.subTest(unread), socket.create_server((HOST, 0)) as server, socket.create_connection(server.getsockname()) as line:
                line.sendall(report("N", 1))
                with server.accept()[0] as peer:
                    read(peer, 1)
                self.assertEqual(line.recv(1), b"")
                line.sendall(more)
                self.assertEqual(send_day.end_lines({"N": line}), unread)

    def test_a_day_that_is_gone(self):
        """send_day.py, 3: so is a line of a `live` that is killed."""
        line, a, b, retransmission = ports(4)
        rows = [["N", number, "AB", "10.00", 100, "@___"] for number in range(1, 1_001)]
        with tempfile.NamedTemporaryFile(suffix=".csv") as table, started(["live", "AB", "N", line, a, b, retransmission, 0, 7]) as live:
            table.write(table_of([COLUMNS, *rows]))
            table.flush()
            with started(["--pause", "0.01", table.name, line], program=TOOLS / "send_day.py", env=os.environ | {"TAPEBOX": str(TAPEBOX)}) as script:
                with socket.socket(socket.AF_INET, socket.SOCK_DGRAM) as heard:
                    heard.settimeout(LIMIT)
                    heard.bind((HOST, a))
                    heard.recv(1)
                live.kill()
                end = ended(script)
        self.assertEqual((end.status, end.written), (3, b""))
        self.assertRegex(end.said.decode(), rf"\Asend_day\.py: {table.name}, row \d+: participant N's line was closed at the other end before message \d+; messages sent: \d+ of 1000\n\Z")
