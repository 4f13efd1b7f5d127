"""The sockets of a running day's programs, as the kernel's tables have them."""

import contextlib
import json
import os
import re
import socket
import sys
import tempfile
from pathlib import Path

from support import HOST, Case, addresses, connect, ended, listens, ports, report, started, wait_bound, wait_connected, wait_for

SESSION = 7
PROTOCOLS = ("tcp", "tcp6", "udp", "udp6")
# The address of the host in these tables, and what stands there for no peer.
HERE = f"{int.from_bytes(socket.inet_aton(HOST), sys.byteorder):08X}"
NOBODY = "00000000"
# Where a row has the number by which a process has the socket, and where one of a UNIX socket does, before its path.
NUMBER, UNIX_NUMBER = 9, 6


def numbers(process):
    """The number of each socket that a process has open."""
    found = set()
    for entry in Path(f"/proc/{process}/fd").iterdir():
        # It may be closed by now.
        with contextlib.suppress(FileNotFoundError):
            found |= set(re.findall(r"\Asocket:\[(\d+)\]\Z", os.readlink(entry)))
    return found


def sockets(process):
    """Of each socket that a process has open all the while, by its number: its protocol, its address and its peer's. Those that are in no table have none."""
    own = numbers(process)
    rows = {row[NUMBER]: (protocol, *row[1:3]) for protocol in PROTOCOLS for row in addresses(protocol)}
    return {number: rows.get(number) for number in own & numbers(process)}


def numbers_at(path):
    """The number of each socket in the kernel's table of UNIX sockets that has this path."""
    rows = [row.split() for row in Path("/proc/net/unix").read_text(encoding="utf-8").splitlines()[1:]]
    return {row[UNIX_NUMBER] for row in rows if row[UNIX_NUMBER + 1 :] == [str(path)]}


def is_here(found):
    """Whether a socket is on the host, and so is its peer, if it has one."""
    if found is None:
        return False
    _, own, peer = found
    return own.startswith(f"{HERE}:") and peer.partition(":")[0] in (HERE, NOBODY)


def port_of(address):
    """The port of an address in the tables."""
    return int(address.partition(":")[2], 16)


class Sockets(Case):
    def assert_here(self, program, wanted):
        """All sockets of a program are on 127.0.0.1. These are among them, each by its protocol and its port, or its peer's, which is below zero."""
        found = sockets(program.pid)
        self.assertEqual([row for row in found.values() if not is_here(row)], [])
        own = {(protocol, port_of(address)) for protocol, address, _ in found.values()}
        self.assertLessEqual(wanted, own | {(protocol, -port_of(peer)) for protocol, _, peer in found.values()})

    def assert_day_here(self, row, words, control=()):
        """All sockets are on 127.0.0.1 of a day of N and Q on this row of ports: those of `live` before the participants come and while it runs, and those
        of its followers, by the words of the three programs. It may have a control port."""
        line, other_line, a, b, other_a, other_b, retransmission = row
        listeners = {("tcp", port) for port in (line, other_line, retransmission, *control)}
        with contextlib.ExitStack() as stack:
            live = stack.enter_context(started(words[0]))
            wait_for(live, "its listeners", lambda: all(listens(port) for _, port in listeners))
            self.assert_here(live, listeners)
            participants = [stack.enter_context(connect(port)) for port in (line, other_line)]
            follow, watch = (stack.enter_context(started(of_follower)) for of_follower in words[1:])
            wait_bound(follow, a, b)
            wait_bound(watch, other_a, other_b)
            wait_connected(live, retransmission, 2)
            participants[0].sendall(report("N", 1))
            # The names of the columns, and the entry that has gone the whole way.
            for _ in range(2):
                self.assertTrue(watch.stdout.readline())
            self.assert_here(live, listeners)
            self.assertIn("udp", {protocol for protocol, _, _ in sockets(live.pid).values()})
            self.assert_here(follow, {("udp", a), ("udp", b), ("tcp", -retransmission)})
            self.assert_here(watch, {("udp", other_a), ("udp", other_b), ("tcp", -retransmission)})
            for participant in participants:
                participant.close()
            self.assertEqual([ended(program).status for program in (live, follow, watch)], [0, 0, 0])

    @contextlib.contextmanager
    def file_of_a_day(self, row, control):
        """The path of a day's file of this row of ports, with a control socket, in a folder that only its owner can enter."""
        line, _, a, b, other_a, other_b, retransmission = row
        keys = {"symbols": ["AB"], "participants": ["N", "Q"], "port": line, "a": [a, other_a], "b": [b, other_b], "retransmission": retransmission}
        keys |= {"followers": 2, "session": SESSION, "control": control}
        with tempfile.TemporaryDirectory() as folder:
            path = Path(folder, "day.toml")
            path.write_text("".join(f"{key} = {json.dumps(value)}\n" for key, value in keys.items()), encoding="utf-8")
            yield path

    def test_a_running_day(self):
        """README: all sockets of a running day are on 127.0.0.1."""
        line, other_line, a, b, other_a, other_b, retransmission = row = ports(7)
        live = ["live", "AB", "N,Q", line, f"{a},{other_a}", f"{b},{other_b}", retransmission, 2, SESSION]
        follow = ["follow", "AB", "N,Q", a, b, retransmission, SESSION]
        watch = ["watch", "AB", "N,Q", other_a, other_b, retransmission, SESSION]
        self.assert_day_here(row, [live, follow, watch])

    def test_a_day_of_a_file(self):
        """OPERATING: so are all of a day that its file gives; FORMATS, "A control socket": its control port too."""
        *row, control = ports(8)
        with self.file_of_a_day(row, control) as path:
            self.assert_day_here(row, [["live", path], ["follow", path], ["watch", "--follower", 2, path]], [control])

    def test_a_control_socket_of_a_path(self):
        """FORMATS, "A control socket": the one of a path is in that path's folder, and is no port."""
        row = ports(7)
        with self.file_of_a_day(row, "day.control") as path, started(["live", path]) as live:
            wait_for(live, "its listeners", lambda: all(listens(port) for port in (*row[:2], row[-1])))
            found = sockets(live.pid)
            self.assertEqual({number for number, place in found.items() if place is None}, numbers_at(path.parent / "day.control"))
            self.assertEqual([place for place in found.values() if place and not is_here(place)], [])

    def test_other_sockets_are_seen(self):
        """A socket that listens on every address, is bound to it, speaks version 6, or is in no table of the four, is not taken for one of the host."""
        with contextlib.ExitStack() as stack:
            opened = [stack.enter_context(socket.create_server(("", 0))), stack.enter_context(socket.socket(socket.AF_UNIX))]
            families = [socket.AF_INET, *([socket.AF_INET6] if socket.has_dualstack_ipv6() else [])]
            for family in families:
                opened.append(stack.enter_context(socket.socket(family, socket.SOCK_DGRAM)))
                opened[-1].bind(("", 0))
            if socket.AF_INET6 in families:
                opened.append(stack.enter_context(socket.create_server(("::1", 0), family=socket.AF_INET6)))
            here = stack.enter_context(socket.create_server((HOST, 0)))
            found = sockets(os.getpid())
            for one in opened:
                with self.subTest(one):
                    self.assertFalse(is_here(found[str(os.fstat(one.fileno()).st_ino)]))
            self.assertTrue(is_here(found[str(os.fstat(here.fileno()).st_ino)]))
