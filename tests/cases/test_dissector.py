"""The Wireshark dissector, over captures that are kept and others that are made here. None is taken, so no rights are needed."""

import os
import random
import re
import shutil
import subprocess
import tempfile
import unittest
from pathlib import Path

import pcap
import plain_feed
from drawn_bytes import drawn
from plain_feed import Packet, encode_packet
from plain_tape import Entry, Mark, Refused, Summary
from support import ROOT, Case, message, report, transcripts

SCRIPT = ROOT / "tools" / "tapebox.lua"
CAPTURES = Path(__file__).resolve().parent.parent / "captures"
A, B, LINE, RETRANSMISSION = 22_010, 22_011, 22_000, 22_012
# A relay's ports among them.
PORTS = ["feed.a_ports:22010,22020", "feed.b_ports:22011,22021", "retransmission.ports:22012", "line.ports:22000-22001"]
COLUMNS = ["frame.number", "_ws.col.Info", "tapebox.number", "tapebox.price", "tapebox.summary.high", "tapebox.refusal", "_ws.expert.message"]
PROTOCOLS = "tapebox.feed || tapebox.retransmission || tapebox.line"
# Seconds that a run of tshark may take.
LIMIT = 120
# How many packets and messages are drawn, and how many answers.
DRAWN, ANSWERS = 2_800, 140
UNJOINED = ["-o", "tcp.desegment_tcp_streams:FALSE"]
# The day of the packets that are made here.
SESSION = 7
REPORT = report("N", 1)
CANCEL = message(kind="cancel", participant="N", number=2, symbol="AB", target=1, price="", size="", condition="")
CORRECT = message(kind="correct", participant="N", number=3, symbol="AB", target=1, price="9.94", size=150, condition="@___")
LOW, HIGH = Mark(99_500, 1, "N"), Mark(100_500, 3, "N")
SUMMARY, NO_SUMMARY = Summary(LOW, HIGH, LOW, LOW, 250, 2), Summary(None, None, None, None, 0, 0)


def unconfigured(home):
    """An environment without preferences of whoever runs this."""
    return os.environ | {"HOME": str(home), "WIRESHARK_CONFIG_DIR": str(home), "XDG_CONFIG_HOME": str(home), "LC_ALL": "C.UTF-8"}


def tshark(capture, *words, ports=PORTS):
    """What tshark writes of a capture by the dissector."""
    with tempfile.TemporaryDirectory() as home:
        options = [word for port in ports for word in ("-o", f"tapebox.{port}")]
        command = ["tshark", "-X", f"lua_script:{SCRIPT}", *options, "-r", capture, *words]
        return subprocess.run(command, capture_output=True, check=True, timeout=LIMIT, env=unconfigured(home), text=True).stdout


def fields(capture, *names, only=PROTOCOLS, options=(), **ports):
    """A row of the fields of each frame that the filter takes."""
    words = [word for name in names for word in ("-e", name)]
    table = tshark(capture, *options, "-Y", only, "-T", "fields", "-E", "separator=|", *words, **ports)
    return [row.split("|") for row in table.splitlines()]


def values(rows):
    """All values of the one field of some rows."""
    return [value for (row,) in rows for value in row.split(",") if value]


def entry(number, text=REPORT, after=None):
    """A tape entry."""
    return Entry(number, text, after)


def packet(number, *entries, version=2, kind="D", session=SESSION):
    """The bytes of a packet."""
    return encode_packet(Packet(version, kind, session, number, entries))


def put(text, at, *new):
    """The bytes with others from a place on."""
    return text[:at] + bytes(new) + text[at + len(new) :]


def counted(text, count):
    """A packet whose header has another count."""
    return put(text, plain_feed.HEADER.size - 1, count)


def entry_five(text, after=None):
    """A packet of entry 5 alone."""
    return packet(5, entry(5, text, after))


def summary_five(at, *new):
    """The packet of a correction with other bytes in its summary."""
    return put(entry_five(CORRECT, SUMMARY), plain_feed.HEADER.size + 4 + len(CORRECT) + at, *new)


GOOD = packet(1, entry(1))
# Packets, each after the number of its refusal, or 0.
PACKETS = [
    (0, GOOD),
    (0, packet(2, entry(2), entry(3, CANCEL, NO_SUMMARY), version=1)),
    (0, packet(4, entry(4, CORRECT, SUMMARY))),
    (0, packet(4, kind="H", version=1)),
    (51, GOOD[:14]),
    (51, packet(5, entry(5))[:18]),
    (51, packet(5, entry(5))[:-1]),
    (51, entry_five(CORRECT, SUMMARY)[:-1]),
    (51, counted(packet(5, entry(5)), 2)),
    (52, put(GOOD, 0, 3)),
    (53, put(GOOD, 1, ord("X"))),
    (54, packet(5)),
    (54, packet(5, *(entry(number) for number in range(5, 14)), version=1)),
    (54, counted(packet(4, kind="H"), 1)),
    (54, packet(16_777_217, kind="E")),
    (54, packet(1_048_577, kind="E", version=1)),
    (55, packet(5, entry(0))),
    (55, packet(16_777_217, entry(16_777_217))),
    # A message's kind, length, participant, number, symbol, target, price, size and condition.
    (55, entry_five(put(REPORT, 2, ord("Q")))),
    (55, entry_five(put(REPORT, 1, 65))),
    (55, entry_five(put(REPORT, 3, ord("n")))),
    (55, entry_five(put(REPORT, 4, 0, 0, 0, 0))),
    (55, entry_five(put(REPORT, 16, ord("a")))),
    (55, entry_five(put(CANCEL, 24, 0, 0, 0, 0), NO_SUMMARY)),
    (55, entry_five(put(REPORT, 24, 255))),
    (55, entry_five(put(REPORT, 32, 255))),
    (55, entry_five(put(REPORT, 39, ord("J")))),
    (55, entry_five(put(REPORT, 36, 0, 7, 255, 10))),
    # A summary's presence byte, a participant in it, and a mark that is to be absent.
    (55, summary_five(0, 0x1F)),
    (55, summary_five(26, ord("%"))),
    (55, summary_five(0, 0x07)),
    (56, packet(5, entry(5), entry(7))),
    (56, packet(6, entry(5))),
    (57, GOOD + b"\0"),
    (57, packet(4, kind="E") + b"rest"),
    (0, packet(9, entry(9), session=2**64 - 1)),
    (0, packet(8, entry(8, put(REPORT, 24, 0, 0, 0, 0xE8, 0xD4, 0xA5, 0x0F, 0xFF)))),
    (0, packet(8, kind="E")),
]


def refusal_of(read, data):
    """The number of the refusal of bytes by a plain reader, or 0."""
    try:
        read(data)
    except Refused as refusal:
        return refusal.code
    return 0


def in_pieces(text, seed):
    """Bytes as segments of odd lengths."""
    drawn, at = random.Random(seed), 0
    while at < len(text):
        length = drawn.choice([1, 1, 2, 3, 19, 40, 97])
        yield text[at : at + length]
        at += length


@unittest.skipUnless(shutil.which("tshark"), "no tshark")
class Dissector(Case):
    def setUp(self):
        folder = tempfile.TemporaryDirectory()
        self.addCleanup(folder.cleanup)
        self.path = Path(folder.name) / "made.pcap"

    def capture(self, frames, **options):
        """The path of a capture of some frames."""
        pcap.write_capture(self.path, frames, **options)
        return self.path

    def test_kept_captures(self):
        """WIRESHARK: a day, one that a relay made lossy, a packet of each fault, connections in odd pieces, and a day that nobody followed are shown
        as the tables beside the captures have them."""
        for table in sorted(CAPTURES.glob("*.txt")):
            with self.subTest(table.name):
                shown = "".join("|".join(row) + "\n" for row in fields(table.with_suffix(".pcap"), *COLUMNS))
                self.assertEqual(shown, table.read_text(encoding="utf-8"))

    def test_page(self):
        """WIRESHARK: what its commands write is as it shows."""
        for command, shown in transcripts("WIRESHARK.md"):
            with self.subTest(command):
                done = subprocess.run(["sh", "-c", command], cwd=ROOT, env=unconfigured(self.path.parent), capture_output=True, check=True, timeout=LIMIT)
                self.assertEqual(re.sub("(?m) +$", "", done.stdout.decode()), shown)

    def test_each_fault(self):
        """FORMATS, "Packets": a packet of each fault is refused by its number and has its expert info, and every other packet has neither."""
        names = dict(zip(range(51, 58), "Short BadVersion BadKind BadCount BadEntry NotInOrder Trailing".split()))
        path = self.capture(pcap.datagram(A, text) for _, text in PACKETS)
        self.assertEqual([row[0] for row in fields(path, "tapebox.refusal")], [str(fault or "") for fault, _ in PACKETS])
        for fault, name in names.items():
            frames = [row[0] for row in fields(path, "frame.number", only=f"tapebox.packet.{name.lower()}")]
            self.assertEqual(frames, [str(at) for at, (number, _) in enumerate(PACKETS, 1) if number == fault])

    def test_order(self):
        """WIRESHARK: a packet that is not its port's next has a note, in two passes as in one; sessions and ports are apart, a late packet sets
        nothing back, and the first of a port tells of no gap."""

        def data(number, **header):
            return packet(number, entry(number), **header)

        beat, end = (packet(8, kind=kind) for kind in "HE")
        late, gap, first = "Late or repeated: the next on this port is {}", "Gap: {} not seen on this port", "Begins within a day: {} not seen on this port"
        day = [
            (A, data(4), first.format("1..3")),
            (A, data(5), ""),
            (B, data(1), ""),
            (A, data(8, session=9), first.format("1..7")),
            (A, data(7), gap.format("6")),
            (A, data(6), late.format(8)),
            (A, data(9)[:-1], "12 Short,51 Short: message, 12 Short"),
            (A, beat, gap.format("8")),
            (A, end, ""),
            (A, end, ""),
            (B, end, gap.format("2..8")),
        ]
        path = self.capture(pcap.datagram(port, text) for port, text, _ in day)
        for passes in ([], ["-2"]):
            table = tshark(path, *passes, "-T", "fields", "-e", "_ws.expert.message")
            self.assertEqual(table.splitlines(), [note for _, _, note in day])

    def test_prices(self):
        """WIRESHARK: in the tree a price has four decimals, in the line of a packet no needless zeros, and as a field it is a number of dollars."""
        path = self.capture([pcap.datagram(A, packet(1, entry(1, CORRECT, SUMMARY)))])
        tree = tshark(path, "-O", "tapebox.feed")
        self.assertEqual([line.strip() for line in tree.splitlines() if "Price" in line or "High:" in line], ["Price: 9.9400", "High: 10.0500 at 3 by N"])
        self.assertEqual(fields(path, "tapebox.price", only="tapebox.price == 9.94 && tapebox.summary.high > 10.049"), [["9.94"]])

    def test_ports(self):
        """WIRESHARK: without preferences the ports are the README's, with them theirs alone, and Decode As adds one; IP of either version carries them."""
        path = self.capture([pcap.datagram(9101, GOOD), pcap.datagram(9102, GOOD, pcap.in_ip_six), pcap.datagram(9103, GOOD)])
        name = "tapebox.feed.line"
        self.assertEqual(fields(path, name, ports=[]), [["A"], ["B"]])
        self.assertEqual(fields(path, name, ports=["feed.a_ports:9102-9103", "feed.b_ports:"]), [["A"], ["A"]])
        decoded = tshark(path, "-d", "udp.port==9103,tapebox.feed", "-T", "fields", "-e", name, ports=[])
        self.assertEqual(decoded.split("\n"), ["A", "B", "port 9103", ""])

    def test_empty_datagram(self):
        """WIRESHARK: an empty datagram is told, without a refusal."""
        path = self.capture([pcap.datagram(A, b""), pcap.datagram(9_999, b"")])
        self.assertEqual(fields(path, "frame.number", "tapebox.refusal", only="tapebox.feed.empty"), [["1", ""]])

    def test_where_no_unit_begins(self):
        """WIRESHARK: after bytes that tell of no end, and after bytes that the capture lacks, no more of the direction is read, and one that ends
        within a unit has a note; the other direction is read on."""
        oversize = [REPORT + b"\0\x41" + REPORT, REPORT]
        one = bytes([0, 1]) + len(GOOD).to_bytes(2, "big") + GOOD
        bad_answer = [one + b"\5", one]
        frames = [
            *pcap.segments(1, LINE, oversize),
            *pcap.segments(2, LINE, [REPORT, REPORT[:20]]),
            *pcap.segments(3, RETRANSMISSION, [plain_feed.REQUEST.pack(SESSION, 1, 1)]),
            *pcap.segments(RETRANSMISSION, 3, bad_answer),
        ]
        rows = [
            ["1", "1", "11", "11 Oversize"],
            ["2", "", "", "Passed over: no unit begins after 11 Oversize in frame 1"],
            ["4", "1", "", ""],
            ["6", "", "", "Ends within a unit: 20 bytes of it came"],
            ["7", "", "", ""],
            ["9", "1", "76", "76 BadAnswer"],
            ["10", "", "", "Passed over: no unit begins after 76 BadAnswer in frame 9"],
        ]
        names = ["frame.number", "tapebox.message.number", "tapebox.refusal", "_ws.expert.message"]
        for passes in ([], ["-2"]):
            told = fields(self.capture(frames), *names, options=passes)
            self.assertEqual([[*row[:3], row[3].split(",")[-1]] for row in told], rows)
        cut = self.capture(pcap.segments(4, LINE, [REPORT + REPORT, REPORT]), kept=20 + 20 + 60)
        self.assertEqual(
            fields(cut, "tapebox.message.number", "tapebox.refusal", "_ws.col.Info")[:2],
            [["1", "", "line N AB 10.00 x 100 @___, [cut off]"], ["", "", "line [passed over after the bytes that the capture lacks of frame 1]"]],
        )

    def test_drawn_packets(self):
        """FORMATS, "Packets": the same refusal or none as by the plain reader, of packets that a seed draws, most of them with a fault."""
        packets = drawn("packet", DRAWN)
        wanted = [str(refusal_of(plain_feed.decode_packet, text) or "") for text in packets]
        told = [row[0] for row in fields(self.capture(pcap.datagram(A, text) for text in packets), "tapebox.refusal")]
        # Not by assertEqual, whose difference of long lists takes minutes.
        other = [(text.hex(), row, want) for text, row, want in zip(packets, told, wanted) if row != want]
        self.assertEqual((len(told), other[:3]), (len(wanted), []))
        self.assertEqual(set(wanted), {"", *map(str, range(51, 58))})

    def test_drawn_messages(self):
        """FORMATS, "A message's bytes": the same messages and refusals as by the plain reader, of one connection in odd pieces, joined by Wireshark or not, in two
        passes as in one."""
        refused, units = [], []
        for text in drawn("message", DRAWN):
            number = refusal_of(plain_feed.decode, text)
            # After these no unit begins.
            if number not in (11, 12):
                units.append(text[: 2 + int.from_bytes(text[:2], "big")])
                refused += [str(number)] * (number > 0)
        self.assertEqual(set(refused), set(map(str, range(13, 22))))
        path = self.capture(pcap.segments(1, LINE, in_pieces(b"".join(units), 1)))
        for options in ([], ["-2"], UNJOINED, ["-2", *UNJOINED]):
            with self.subTest(options):
                rows = fields(path, "tapebox.length", "tapebox.refusal", options=options)
                self.assertEqual(len(values([row[:1] for row in rows])), len(units))
                self.assertTrue(values([row[1:] for row in rows]) == refused)

    def test_drawn_answers(self):
        """FORMATS, "Requests and answers": the same end as by the plain reader of answers that a seed draws, each on a connection of its own."""
        answers = []
        for text in drawn("answer", ANSWERS):
            try:
                _, left = plain_feed.read_answer(text)
                number = text[0]
            except Refused as refusal:
                number, left = refusal.code, refusal.detail
            # What is left of the bytes is of no answer.
            answers.append((text[: len(text) - left], number))
        frames = [segment for at, (text, _) in enumerate(answers) for segment in pcap.segments(RETRANSMISSION, pcap.CLIENT + at, [text])]
        rows = fields(self.capture(frames), "tcp.dstport", "tapebox.answer", "tapebox.refusal", "tapebox.ended")
        for at, (text, number) in enumerate(answers):
            mine = [row[1:] for row in rows if row[0] == str(pcap.CLIENT + at)]
            refusals = [int(refusal) for row in mine for refusal in row[1].split(",") if refusal]
            with self.subTest(text.hex()[:20], number=number):
                self.assertEqual(any(row[2] for row in mine), number == 74)
                self.assertEqual(76 in refusals, number == 76)
                self.assertEqual([refusal for refusal in refusals if 71 <= refusal <= 73], [number] if 71 <= number <= 73 else [])
