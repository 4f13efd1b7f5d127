"""tools/relay.py, which passes a line on, and days behind it."""

import contextlib
import random
import re
import signal
import socket

from support import HOST, LIMIT, TOOLS, Case, connect, ended, ports, reports, run, started, wait_bound, wait_connected

RELAY = TOOLS / "relay.py"
SESSION = 7
# Another address of the machine itself.
OTHER_HOST = "127.0.0.2"


class Relay(Case):
    @contextlib.contextmanager
    def relay(self, port, *targets, host=HOST, told=True):
        """A relay of a line, which ends well and says nothing once it is told to, here or by the case; and what it wrote then."""
        written = []
        with started([f"{host}:{port}", *targets], program=RELAY) as relay:
            wait_bound(relay, port)
            yield relay, written
            if told:
                relay.terminate()
            end = ended(relay)
            self.assertEqual((end.status, end.said), (0, b""))
            written.append(end.written.decode())

    @contextlib.contextmanager
    def listeners(self, *places):
        """A socket at each of these places, which is a port of the host."""
        with contextlib.ExitStack() as stack:
            opened = [stack.enter_context(socket.socket(socket.AF_INET, socket.SOCK_DGRAM)) for _ in places]
            for listener, port in zip(opened, places):
                listener.settimeout(LIMIT)
                listener.bind((HOST, port))
            yield opened

    def test_each_datagram_goes_to_each_target(self):
        """relay.py: bytes of any kind and length go on whole and in their order, and it tells at its end how many did."""
        dice = random.Random(1)
        port, *row = ports(4)
        texts = [dice.randbytes(length) for length in (0, 1, 15, 919, 1_823, 1_824, 65_507)] + [dice.randbytes(dice.randrange(1_824)) for _ in range(2_000)]
        with self.listeners(*row) as heard, socket.socket(socket.AF_INET, socket.SOCK_DGRAM) as sender:
            with self.relay(port, *(f"localhost:{target}" for target in row)) as (_, written):
                for text in texts:
                    sender.sendto(text, (HOST, port))
                    self.assertEqual([one.recv(65_535) for one in heard], [text] * len(row))
        told = "".join(f"localhost:{target}: {len(texts)} sent, 0 not sent\n" for target in row)
        self.assertEqual(written, [f"port {port}: {len(texts)} came, 0 found no room\n{told}"])

    def test_held_up(self):
        """relay.py: what comes while it is stopped, or just before it is told to end, goes on, as far as the system's buffer has room."""
        port, target = ports(2)
        texts = [bytes([at]) for at in range(100)]
        for end in ([], [signal.SIGTERM], [signal.SIGINT]):
            with self.subTest(end), self.listeners(target) as [heard], socket.socket(socket.AF_INET, socket.SOCK_DGRAM) as sender:
                with self.relay(port, f"{HOST}:{target}", told=not end) as (relay, _):
                    relay.send_signal(signal.SIGSTOP)
                    for text in texts:
                        sender.sendto(text, (HOST, port))
                    for number in (*end, signal.SIGCONT):
                        relay.send_signal(number)
                    self.assertEqual([heard.recv(2) for _ in texts], texts)

    def test_a_target_that_is_not_reached(self):
        """relay.py: a target at which nobody listens, or to which the system sends nothing, keeps no other from its datagrams, and is told of."""
        port, nobody, target = ports(3)
        # Nothing is sent to an address of all, unless that is asked for.
        everybody = f"255.255.255.255:{target}"
        with self.listeners(target) as [heard], socket.socket(socket.AF_INET, socket.SOCK_DGRAM) as sender:
            with self.relay(port, f"{HOST}:{nobody}", everybody, f"{HOST}:{target}") as (_, written):
                for text in (b"one", b"two", b"three"):
                    sender.sendto(text, (HOST, port))
                    self.assertEqual(heard.recv(9), text)
        self.assertEqual(written[0].splitlines()[1:], [f"{HOST}:{nobody}: 3 sent, 0 not sent", f"{everybody}: 0 sent, 3 not sent", f"{HOST}:{target}: 3 sent, 0 not sent"])

    def test_a_day_on_another_machine(self):
        """OPERATING: a relay for each line passes a day on to a second one on the other machine, whose two followers have the day's report."""
        line, a, b, retransmission, *row = ports(10)
        far, (first, second) = row[:2], (row[2:4], row[4:6])
        with contextlib.ExitStack() as stack:
            relays = []
            for at, own in enumerate((a, b)):
                relays.append(stack.enter_context(self.relay(own, f"{OTHER_HOST}:{far[at]}")))
                relays.append(stack.enter_context(self.relay(far[at], *(f"{HOST}:{each[at]}" for each in (first, second)), host=OTHER_HOST)))
            live = stack.enter_context(started(["live", "AB", "N", line, a, b, retransmission, 2, SESSION]))
            participant = stack.enter_context(connect(line))
            follows = [stack.enter_context(started(["follow", "AB", "N", *each, retransmission, SESSION])) for each in (first, second)]
            for follow, each in zip(follows, (first, second)):
                wait_bound(follow, *each)
            wait_connected(live, retransmission, 2)
            participant.sendall(reports("N", 8_000))
            participant.close()
            ends = [ended(program) for program in (live, *follows)]
        self.assertEqual({(end.status, end.said) for end in ends}, {(0, b"")})
        self.assertEqual({end.written for end in ends}, {ends[0].written})
        self.assert_traded(ends[0].written, 8_000)
        counts = [[int(number) for number in re.findall(r"(\d+) (?:came|found|sent|not)", written)] for _, [written] in relays]
        for came, _, *sent in counts:
            self.assertGreater(came, 0)
            self.assertEqual(sent, [came, 0] * (len(sent) // 2))

    def test_faults(self):
        """relay.py, 1: a port that is taken is named, and so is a host that is not known; 2: so is a port that is none, and nothing goes to itself."""
        port, target = ports(2)
        is_none = "is not HOST:PORT with a port of 1 to 65535"
        with self.listeners(port):
            for words, status, said in [
                ([port, f"{HOST}:{target}"], 1, f"relay.py: port {port} of {HOST}: Address already in use"),
                ([target, f"{HOST}:{port}", "a..b:1"], 1, "relay.py: host a..b: "),
                ([target, f"{HOST}:65536"], 2, f"relay.py: error: argument HOST:PORT: {HOST}:65536 {is_none}"),
                ([0, f"{HOST}:{target}"], 2, f"relay.py: error: argument PORT: {HOST}:0 {is_none}"),
                ([target, target], 2, f"relay.py: error: argument HOST:PORT: {target} {is_none}"),
                ([target, f"localhost:{target}"], 2, "relay.py: error: a relay can't pass on to itself"),
            ]:
                with self.subTest(words):
                    end = run(words, program=RELAY)
                    self.assertEqual((end.status, end.written), (status, b""))
                    *_, last = end.said.decode().splitlines()
                    self.assertTrue(last.startswith(said), last)
