"""Cases of the Python package, after clib/build: python3 -B python/test_tapebox.py"""

import contextlib
import copy
import ctypes
import decimal
import os
import random
import signal
import struct
import sys
import tempfile
import threading
import unittest
import unittest.mock
from collections.abc import Iterator
from dataclasses import replace
from decimal import Decimal

HERE = os.path.dirname(os.path.abspath(__file__))
sys.path.insert(0, HERE)
import tapebox
from tapebox import _library
from tapebox import Mark, Message, Packet, Refused, Request, Subscriber, Summary, Table, Tape, Totals
from tapebox.tables import COLUMNS

SAMPLES = os.path.join(HERE, "..", "samples")
REPORT = bytes.fromhex("0026524e0000000100000000000000004142202020202020" "00000000000186a00000006440205a20")
CANCEL = bytes.fromhex("001a584e0000000200000000000000004142202020202020" "00000001")
REINSTATEMENT = bytes.fromhex("001a534e0000000500000000000000004142202020202020" "00000001")


def figures_text(summary: Summary) -> bytes:
    """The bytes of a summary in an entry."""
    marks = [summary.open, summary.high, summary.low, summary.last]
    text = bytes([sum(1 << k for k, mark in enumerate(marks) if mark)])
    for mark in marks:
        text += struct.pack(">QIB", int(mark.price * 10_000), mark.place, ord(mark.who)) if mark else bytes(13)
    return text + struct.pack(">QI", summary.volume, summary.trades)


def packet(session: int, entries: list, version: int = 2) -> bytes:
    """A data packet, as FORMATS has its bytes."""
    text = struct.pack(">BBQIB", version, ord("D"), session, entries[0].number, len(entries))
    return text + b"".join(struct.pack(">I", e.number) + e.message + (figures_text(e.after) if e.after else b"") for e in entries)


def telling(kind: str, session: int, number: int, version: int = 2) -> bytes:
    """A beat or an end, as FORMATS has its bytes."""
    return struct.pack(">BBQIB", version, ord(kind), session, number, 0)


def answered(packets: list) -> bytes:
    """An answer with these packets, as FORMATS has its bytes."""
    return bytes([0, len(packets)]) + b"".join(struct.pack(">H", len(text)) + text for text in packets)


def morning() -> Tape:
    return Tape.from_csv(os.path.join(SAMPLES, "morning.csv"))


class Cases(unittest.TestCase):
    def refused(self, code: int, call, *arguments) -> None:
        with self.assertRaises(Refused) as told:
            call(*arguments)
        self.assertEqual(told.exception.code, code)

    def test_texts(self) -> None:
        """A table's texts are those of its tape, whichever is asked for first, and a table is read once for all."""
        with open(os.path.join(SAMPLES, "corrections.csv"), "rb") as file:
            table = file.read()
        texts = {"report": tapebox.report(table), "tape": tapebox.tape(table), "explain": tapebox.explain(table, 1)}
        self.assertIn("AB,N,99500,1,100500,3,99500,1,99500,1,250,2", texts["report"].splitlines())
        self.assertEqual([text.count("\n") for text in texts.values()], [3, 7, 4])
        with Table(table) as read:
            for name in ("explain", "report", "tape", "explain"):
                self.assertEqual(getattr(read, name)(), texts[name])
                self.refused(104, getattr(read, name), 3)
            self.assertEqual(read.report(2), tapebox.report(table, 2))
        self.refused(110, read.report)

    def test_no_table(self) -> None:
        """Bytes that are no table are refused, and what is wrong is told."""
        head = b"kind,participant,number,symbol,target,price,size,condition\n"
        fault = 'row 2: size "0" is not 1 to 99999999 in at most 20 digits'
        for text, why in {head: "the table has no row", head + b"report,N,1,AB,,1.00,0,@___\n": fault}.items():
            with self.assertRaises(Refused) as told:
                tapebox.tape(text)
            self.assertEqual((told.exception.code, told.exception.why), (111, why))
        self.refused(111, Table, b"")
        self.refused(111, Table, b"\xff\x00" * 100)
        names = "".join(f"report,N,{at + 1},{chr(65 + at // 676)}{chr(65 + at // 26 % 26)}{chr(65 + at % 26)},,1.00,1,@___\n" for at in range(4097))
        with Table(head + names.encode()) as read, self.assertRaises(Refused) as told:
            read.report()
        self.assertEqual((told.exception.code, told.exception.why), (111, "the table has more than 4096 symbols"))

    def test_a_day(self) -> None:
        with Tape(["AB"], "NQ") as tape:
            self.assertEqual(tape.report("N", 1, "AB", "10.00", 100, "@___"), 1)
            self.assertEqual(tape.report("Q", 1, "AB", "10.10", 200, "@___"), 2)
            self.assertEqual(tape.report("N", 2, "AB", "10.05", 100, "@_Z_"), 3)
            self.assertIsNone(tape.carried)
            self.assertEqual(tape.cancel("Q", 2, "AB", 1), 4)
            self.assertEqual(tape.carried.last, Mark(Decimal("10.00"), 1, "N"))
            self.refused(35, tape.report, "N", 2, "AB", "10.20", 500, "@___")
            self.assertEqual(tape.correct("N", 3, "AB", 1, "9.95", 150, "@___"), 5)
            mark = Mark(Decimal("9.95"), 1, "N")
            whole = Summary(mark, Mark(Decimal("10.05"), 3, "N"), mark, mark, 250, 2)
            self.assertEqual(tape.summary("AB"), whole)
            self.assertEqual(tape.summary("AB", "N"), whole)
            self.assertEqual(tape.summary("AB", "Q"), Summary(None, None, None, None, 0, 0))
            self.assertEqual(tape.reinstate("Q", 3, "AB", 1), 6)
            self.assertEqual(len(tape), 6)
            self.assertEqual([e.after is not None for e in tape], [False] * 3 + [True] * 3)
            tape.close()
            self.refused(31, tape.report, "N", 9, "AB", "10.20", 500, "@___")
            self.assertEqual(tape.entry(5).after, whole)

    def test_many(self) -> None:
        entries = [Message.decode(e.message).encode() for e in morning()]
        again = [entries[0], *entries, entries[0]]
        with Tape(["AB", "CD", "EF"], "NQP") as tape:
            self.assertEqual(list(tape.admit_many(b"".join(again))), [0, 35, *[0] * (len(entries) - 1), 35])
            self.assertEqual([entry.message for entry in tape], entries)
            self.assertEqual(len(tape.admit_many(b"")), 0)
            with self.assertRaises(Refused) as refusal:
                tape.admit_many(entries[0] + entries[1] + b"\0\1?" + entries[2])
            self.assertEqual((refusal.exception.code, refusal.exception.taken), (13, len(entries[0]) + len(entries[1])))
            self.refused(12, tape.admit_many, entries[0][:-1])
            self.assertEqual(list(tape), list(morning()))
            tape.close()
            self.assertEqual(list(tape.admit_many(entries[0])), [31])
        self.refused(101, tape.admit_many, b"".join(again))
        self.refused(101, Tape.admit_many, Subscriber(["AB"], "NQ", 7), entries[0])

    def test_many_with_a_rest(self) -> None:
        """Bytes after the last message are refused by what is wrong with them, however short they are."""
        for text, rest, code in ((REPORT, REPORT[:10], 12), (CANCEL, CANCEL[:5], 12), (CANCEL, CANCEL[:1], 12), (REPORT, b"zz", 11), (CANCEL, b"\0\1?", 13)):
            with self.subTest(rest), Tape(["AB"], "NQ") as tape, self.assertRaises(Refused) as refusal:
                tape.admit_many(text + rest)
            self.assertEqual((refusal.exception.code, refusal.exception.taken), (code, len(text)))

    def test_many_with_little_room(self) -> None:
        tape, text = Tape(["AB"], "NQ"), REPORT + CANCEL + REINSTATEMENT
        numbers, row = (ctypes.c_uint32 * 3)(7, 7, 7), _library.Many()
        call = lambda room: _library.library.tapebox_admit_many(tape._handle, text, len(text), numbers, room, row)
        self.assertEqual((call(2), list(numbers), row.answered, row.taken, len(tape)), (108, [0, 0, 7], 2, len(REPORT + CANCEL), 2))
        self.assertEqual((call(0), row.answered, row.taken), (108, 0, 0))
        self.assertEqual((call(3), list(numbers), row.answered, row.taken), (0, [35, 35, 0], 3, len(text)))

    def test_many_messages(self) -> None:
        """Many messages are encoded and decoded as each of them is, and the first fault of many is refused with how far it came."""
        messages = [Message.decode(entry.message) for entry in morning()]
        text = b"".join(message.encode() for message in messages)
        self.assertEqual((tapebox.encode_many(messages), tapebox.decode_many(text), tapebox.decode_many(bytearray(text))), (text, messages, messages))
        self.assertEqual((tapebox.encode_many([]), tapebox.decode_many(b"")), (b"", []))
        good = messages[0]
        for code, message in (
            (13, replace(good, kind="Z")), (15, replace(good, participant="n")), (15, replace(good, participant="NN")), (16, replace(good, number=0)),
            (16, replace(good, number=-1)), (17, replace(good, symbol="ab")), (17, replace(good, symbol="A" * 9)), (19, replace(good, price=Decimal("0.00001"))),
            (19, replace(good, price=Decimal(0))), (20, replace(good, size=1 << 40)), (21, replace(good, condition="@")),
            (18, Message("X", "N", 1, "AB", 0)), (18, Message("X", "N", 1, "AB", 1 << 33)),
        ):
            with self.subTest(message):
                self.refused(code, message.encode)
                with self.assertRaises(Refused) as told:
                    tapebox.encode_many([good, message, good])
                self.assertEqual((told.exception.code, told.exception.taken), (code, len(good.encode())))

        def broken() -> Iterator[Message]:
            yield good
            raise ValueError("the caller's own")

        with self.assertRaisesRegex(ValueError, "the caller's own"):
            tapebox.encode_many(broken())
        for cut in range(1, 40):
            with self.assertRaises(Refused) as told:
                tapebox.decode_many(text[:-cut] if cut < 28 else text[:28] + text[28 + cut :])

    def test_buffers(self) -> None:
        """Bytes may lie in any buffer. They are read where they lie if they can be written to."""
        row = bytearray(b"?" + REPORT + b"?")
        part = memoryview(row)[1:-1]
        for text in (REPORT, bytearray(REPORT), memoryview(REPORT), part):
            with self.subTest(type(text)), Tape(["AB"], "NQ") as tape:
                self.assertEqual((tape.admit(text), list(tape.admit_many(text)), Message.decode(text)), (1, [35], Message.decode(REPORT)))
                sent = tape.packet(1, session=7)
                with Subscriber(["AB"], "NQ", 7) as subscriber:
                    subscriber.deliver("A", memoryview(bytearray(sent)))
                    self.assertEqual((subscriber.drain(), subscriber.entry(1)), (1, tape.entry(1)))
        self.refused(12, Message.decode, bytearray())
        # Nothing is kept of the buffer.
        part.release()
        row.clear()
        self.assertRaises(TypeError, Message.decode, "text")

    def test_prices_that_are_floats(self) -> None:
        with Tape(["AB"], "NQ") as tape:
            self.assertRaises(TypeError, tape.report, "N", 1, "AB", 10.05, 100, "@___")
            self.assertRaises(TypeError, tapebox.encode_many, [Message("R", "N", 1, "AB", 0, 10.05, 100, "@___")])
            self.refused(19, tape.report, "N", 1, "AB", "ten", 100, "@___")
            self.assertEqual([tape.report("N", n, "AB", price, 100, "@___") for n, price in enumerate((Decimal("10.05"), "10.05", 10), 1)], [1, 2, 3])

    def test_a_busy_handle(self) -> None:
        """A call of a handle that another thread's call is using is refused by 112, and changes nothing; calls of other handles go on meanwhile."""
        tape, other = morning(), morning()
        many, went_on, busy = tapebox.encode_many(Message("R", "N", n, "AB", 0, Decimal(1), 1, "@___") for n in range(100, 200_000)), 0, 0
        thread = threading.Thread(target=tape.admit_many, args=(many,))
        before = len(tape)
        thread.start()
        while thread.is_alive():
            went_on += len(other) == before
            try:
                len(tape)
            except Refused as refusal:
                busy += refusal.code == 112
        thread.join()
        self.assertEqual(len(tape), before + 199_900)
        self.assertGreater(min(busy, went_on), 1)
        with tape._alone():
            for call in (tape.admit, tape.admit_many):
                self.refused(112, call, REPORT)
            for call in (tape.__len__, tape.close, tape.free, lambda: next(iter(tape))):
                self.refused(112, call)
        self.assertEqual(len(tape), before + 199_900)

    def test_a_signal_in_a_call(self) -> None:
        """An exception that a signal's handler raises leaves no object busy."""

        def stop(*_: object) -> None:
            raise InterruptedError

        before = signal.signal(signal.SIGALRM, stop)
        self.addCleanup(signal.signal, signal.SIGALRM, before)
        tape = morning()
        for turn in range(1, 401):
            with contextlib.suppress(InterruptedError):
                signal.setitimer(signal.ITIMER_REAL, turn / 1_000_000)
                while True:
                    len(tape)
        self.assertEqual(len(tape), len(list(tape)))

    def test_tables(self) -> None:
        head = "participant,number,symbol,target,price,size,condition,#desk\n"
        rows = "N,1,AB,,10.00,100,@___,x\n"
        with tempfile.TemporaryDirectory() as name:
            path = os.path.join(name, "table.csv")
            for text, row, column in (
                ("", 2, None), (head, 2, None), (head.replace("size", "shares"), 1, "shares"), (head.replace("size", "price"), 1, "price"),
                (head.replace("size,", ""), 1, "size"), (head + rows.replace("10.00", "10.00001"), 2, "price"), (head + rows.replace("N", "n"), 2, "participant"),
                (head + rows + rows.replace(",,", ",1,"), 3, "target"), (head + rows.replace(",100", ""), 2, None),
                (head + rows.replace("@___", "@  _"), 2, "condition"), (head + rows.replace("1,AB", "+1,AB"), 2, "number"),
                (head + rows.replace("10.00", ""), 2, "price"), (head + rows.replace("AB", "ab"), 2, "symbol"),
            ):
                with open(path, "w", encoding="utf-8") as file:
                    file.write(text)
                with self.subTest(text), self.assertRaises(tapebox.BadTable) as told:
                    Tape.from_csv(path)
                self.assertEqual((told.exception.row, told.exception.column), (row, column))
            with open(path, "w", encoding="utf-8") as file:
                file.write("\ufeff" + head + "\n" + rows + rows)
            with Tape.from_csv(path) as tape:
                self.assertEqual((len(tape), [(row.row, row.refusal.code) for row in tape.refused]), (1, [(3, 35)]))

    def test_frames(self) -> None:
        frame = unittest.mock.Mock()
        with unittest.mock.patch.dict(sys.modules, {"pandas": frame}):
            made = morning().to_frame()
        self.assertIs(made, frame.DataFrame.from_records.return_value.astype.return_value)
        [rows], named = frame.DataFrame.from_records.call_args
        self.assertEqual(named, {"columns": list(COLUMNS)})
        self.assertEqual(rows[6][:7] + rows[6][10:], (7, "cancel", "N", 4, 0, "AB", 2, *map(Decimal, ("10.00", "10.10", "10.00", "10.10")), 300, 2))
        with unittest.mock.patch.dict(sys.modules, {"pandas": None}):
            self.assertRaises(ImportError, morning().to_frame)

    def test_prices_are_exact(self) -> None:
        with decimal.localcontext(decimal.Context(prec=3)):
            message = Message("R", "N", 1, "AB", 0, Decimal("12345678.9012"), 100, "@___")
            self.assertEqual(Message.decode(message.encode()), message)
            for price in ("NaN", "Infinity", "1.00001", "-1"):
                self.refused(19, Message("R", "N", 1, "AB", 0, Decimal(price), 100, "@___").encode)

    def test_vectors(self) -> None:
        report = Message("R", "N", 1, "AB", 0, Decimal(10), 100, "@_Z_")
        for text, message in (
            (REPORT, report),
            (CANCEL, Message("X", "N", 2, "AB", 1)),
            (REINSTATEMENT, Message("S", "N", 5, "AB", 1)),
        ):
            self.assertEqual(message.encode(), text)
            self.assertEqual(Message.decode(text), message)
        self.refused(23, Message.decode, REPORT + b"\0")
        self.refused(12, Message.decode, REPORT[:-1])
        self.refused(12, Message.decode, b"")
        self.refused(11, Message.decode, b"\0\0")
        self.refused(13, Message.decode, b"\0\1?")
        for code, field in ((13, {"kind": "Q"}), (15, {"participant": "n"}), (16, {"number": 0}), (16, {"number": 1 << 32}),
                            (15, {"participant": "NQ"}), (17, {"symbol": "ab"}), (17, {"symbol": ""}),
                            (19, {"price": Decimal("0.00001")}), (19, {"price": Decimal(100_000_000)}), (20, {"size": 0}),
                            (21, {"condition": "@__?"}), (21, {"condition": "@"})):
            self.refused(code, Message(**{**report.__dict__, **field}).encode)
        self.refused(18, Message("X", "N", 2, "AB", 0).encode)

    def test_openings(self) -> None:
        self.refused(104, Tape, ["AB"], "NQ", 3)
        self.refused(5, Tape, ["AB"], "NQ", 1, 0)
        self.refused(5, Tape, ["AB"], "NQ", 1, 16_777_217)
        self.refused(9, Tape, ["ab"], "NQ")
        self.refused(1, Tape, [], "NQ")
        self.refused(2, Tape, [f"S{k}" for k in range(4097)], "NQ")
        self.refused(3, Tape, ["AB", "AB"], "NQ")
        self.refused(104, Subscriber, ["AB"], "NQ", 7, 0)
        self.assertEqual(len(Tape(["AB"], "NQ", 2, 16_777_216)), 0)

    def test_numbers_that_no_field_has(self) -> None:
        """A number that is too large or negative is refused, and never taken for another."""
        for number in (1 << 32, (1 << 32) + 2, -1, -(1 << 32) + 2):
            self.refused(104, Tape, ["AB"], "NQ", number)
            self.refused(5, Tape, ["AB"], "NQ", 1, number)
            self.refused(104, Subscriber, ["AB"], "NQ", 7, number)
            self.refused(5, Subscriber, ["AB"], "NQ", 7, 1, number)
            for call in (tapebox.beat, tapebox.end):
                for version in (1, 2):
                    self.refused(54, call, 7, number, version)
                self.refused(52, call, 7, number, 3)
        tape, asked = morning(), Request(7, 1, 1).encode()
        calls = (lambda session: Subscriber(["AB"], "NQ", session), lambda session: tapebox.beat(session, 1), lambda session: tapebox.end(session, 1),
                 lambda session: tape.packet(1, session=session), lambda session: tape.answer(asked, session=session))
        for call in calls:
            for session in (-1, 1 << 64, (1 << 64) + 7):
                self.assertRaises(ValueError, call, session)
            call((1 << 64) - 1)
        self.assertEqual(Packet.decode(tapebox.beat((1 << 64) - 1, 1)).session, (1 << 64) - 1)

    def test_names_that_are_no_names(self) -> None:
        """A name with a space, or none at all, is refused and not taken for two."""
        for names in (["A B"], ["AB", "C D"], [" AB"], ["AB "], [""], ["AB", ""], ["", ""], ["AB\nCD"]):
            with self.subTest(names):
                self.refused(9, Tape, names, "NQ")
                self.refused(9, Subscriber, names, "NQ", 7)
        for letters in (["N Q"], "N Q", [""], ["NQ"]):
            self.refused(9, Tape, ["AB"], letters)
        # What comes before the names is still refused before them.
        self.refused(104, Tape, ["A B"], "NQ", 3)
        self.refused(5, Tape, ["A B"], "NQ", 1, 0)
        self.refused(1, Tape, ["AB"], "")

    def test_taking(self) -> None:
        """A packet that is refused is dropped, and a call that is wrong is not."""
        good = packet(7, list(morning())[:1])
        subscriber = Subscriber(["AB", "CD", "EF"], "NQP", 7)
        for bad in (b"", good[:-1], good + b"\0", telling("H", 8, 1), telling("H", 7, 1, 3)):
            subscriber.take("A", bad)
        self.assertEqual(subscriber.announced, 0)
        subscriber.take("A", good)
        self.assertEqual((subscriber.drain(), subscriber.brought), (1, {"A": 1, "B": 0, "R": 0}))
        self.refused(106, subscriber.take, "Z", good)
        subscriber.free()
        self.refused(102, subscriber.take, "A", good)

    def test_handles(self) -> None:
        tape = Tape(["AB"], "NQ")
        self.refused(36, tape.summary, "CD")
        self.refused(36, tape.summary, "CD", "N")
        self.refused(34, tape.summary, "AB", "X")
        self.refused(34, tape.summary, "AB", "?")
        self.refused(105, tape.entry, 0)
        self.refused(105, tape.entry, 1)
        self.refused(102, Subscriber.drain, tape)
        self.refused(102, Subscriber.missing, tape)
        self.refused(102, Subscriber.deliver, tape, "A", b"")
        self.refused(103, lambda: _library.checked(_library.library.tapebox_open(tape._handle, b"AB", 2, b"N", 1, 1, 9)))
        self.assertRaises(TypeError, copy.copy, tape)
        tape.free()
        tape.free()
        self.assertEqual(len(tape), 0)
        self.refused(101, tape.admit, REPORT)
        self.refused(101, tape.close)
        self.refused(101, tape.summary, "AB")
        self.refused(101, tape.entry, 1)
        subscriber = Subscriber(["AB"], "NQ", 7)
        subscriber._answer = _library.Answer()
        self.refused(101, Tape.admit, subscriber, REPORT)
        self.refused(101, Tape.close, subscriber)
        self.refused(106, subscriber.deliver, "C", b"")
        self.refused(51, subscriber.deliver, "A", b"")

    def test_packets(self) -> None:
        tape = morning()
        entries = list(tape)
        self.assertGreater(len(entries), 16)
        for version, most in ((1, 8), (2, 16)):
            for first in range(1, len(entries) + 1):
                self.assertEqual(tape.packet(first, session=7, version=version), packet(7, entries[first - 1 : first - 1 + most], version))
                self.assertEqual(tape.packet(first, session=7, last=first, version=version), packet(7, entries[first - 1 : first], version))
            for last in (2, len(entries), len(entries) + 1, (1 << 32) - 1):
                self.assertEqual(tape.packet(2, session=9, last=last, version=version), packet(9, entries[1 : min(last, 1 + most)], version))
            for first in (0, len(entries) + 1, (1 << 32) - 1):
                self.refused(105, lambda first=first: tape.packet(first, session=7, version=version))
            self.refused(105, lambda: tape.packet(3, session=7, last=2, version=version))
        for version in (0, 3, 257):
            self.refused(52, lambda version=version: tape.packet(1, session=7, version=version))
            self.refused(52, tapebox.beat, 7, 1, version)
        for kind, call in (("H", tapebox.beat), ("E", tapebox.end)):
            for version, most in ((1, 1_048_576), (2, 16_777_216)):
                for number in (0, 4, most):
                    self.assertEqual(call(7, number, version), telling(kind, 7, number, version))
                self.refused(54, call, 7, most + 1, version)
        tape.free()
        self.refused(101, lambda: tape.packet(1, session=7))

    def test_packets_that_are_read(self) -> None:
        entries = list(morning())
        for version, most in ((1, 8), (2, 16)):
            text = packet(7, entries[2 : 2 + most], version)
            self.assertEqual(Packet.decode(text), Packet(version, 7, "D", 3, tuple(entries[2 : 2 + most])))
            for length in range(len(text)):
                self.refused(51, Packet.decode, text[:length])
            self.refused(57, Packet.decode, text + b"\0")
        for kind in "HE":
            self.assertEqual(Packet.decode(telling(kind, 8, 5)), Packet(2, 8, kind, 5, ()))
        self.refused(52, Packet.decode, telling("H", 7, 1, 3))
        self.refused(53, Packet.decode, telling("X", 7, 1))
        self.refused(54, Packet.decode, telling("D", 7, 1))
        self.refused(55, Packet.decode, packet(7, entries[:1]).replace(b"N", b"n"))
        self.refused(56, Packet.decode, packet(7, [entries[0], entries[2]]))
        self.refused(105, lambda: _library.checked(_library.library.tapebox_packet_entry(telling("H", 7, 1), 15, 0, _library.EntryRow())))

    def test_requests(self) -> None:
        tape = morning()
        entries = list(tape)
        for version, most in ((1, 8), (2, 16)):
            for first, count in ((1, 1), (1, 64), (2, 17), (len(entries), 1), (len(entries), 64)):
                asked = Request(7, first, count)
                self.assertEqual(Request.decode(asked.encode()), asked)
                wanted = entries[first - 1 : first - 1 + count]
                packets = [packet(7, wanted[k : k + most], version) for k in range(0, len(wanted), most)]
                answer = tape.answer(asked.encode(), session=7, version=version)
                self.assertEqual(answer, answered(packets))
                self.assertEqual(tapebox.read_answer(answer + b"more"), (packets, len(answer)))
                for length in range(len(answer)):
                    with self.assertRaises(Refused) as short:
                        tapebox.read_answer(answer[:length])
                    self.assertEqual((short.exception.code, short.exception.taken), (74, length))
        beyond = len(entries) + 1
        for refusal, asked in ((71, Request(8, 1, 1)), (72, Request(7, 0, 1)), (72, Request(7, beyond, 1)), (73, Request(7, 1, 0)),
                               (73, Request(8, 0, 65))):
            answer = tape.answer(asked.encode(), session=7)
            self.assertEqual(answer, bytes([refusal]))
            with self.assertRaises(Refused) as told_why:
                tapebox.read_answer(answer + b"more")
            self.assertEqual((told_why.exception.code, told_why.exception.refusal, told_why.exception.taken), (77, refusal, 1))
        self.refused(73, Request.decode, Request(7, 1, 65).encode())
        for text, taken in ((b"\1\1", 1), (b"\0\0\1", 2), (b"\0\x09\1", 2), (b"\0\1\0\0\1", 4), (b"\0\1\x07\x20\1", 4)):
            with self.assertRaises(Refused) as bad:
                tapebox.read_answer(text)
            self.assertEqual((bad.exception.code, bad.exception.refusal, bad.exception.taken), (76, 0, taken))
        for length in (0, 13, 15):
            self.refused(107, Request.decode, bytes(length))
            self.refused(107, lambda length=length: tape.answer(bytes(length), session=7))
        self.refused(52, lambda: tape.answer(Request(7, 1, 1).encode(), session=7, version=3))
        tape.free()
        self.refused(101, lambda: tape.answer(Request(7, 1, 1).encode(), session=7))

    def test_rows_that_are_too_short(self) -> None:
        tape = morning()
        asked = Request(7, 1, 64).encode()
        answer = tape.answer(asked, session=7)
        packets, _ = tapebox.read_answer(answer)
        room, length = ctypes.create_string_buffer(b"x" * len(answer)), ctypes.c_size_t(5)
        serve = lambda size: _library.library.tapebox_serve(tape._handle, 2, 7, asked, len(asked), room, size, length)
        give = lambda size: _library.library.tapebox_answer_packet(answer, len(answer), 1, room, size, length)
        for call, text in ((serve, answer), (give, packets[1])):
            room.raw, length.value = b"x" * len(room), 5
            self.assertEqual((call(len(text) - 1), room.raw, length.value), (108, b"x" * len(room), 5))
            self.assertEqual((call(len(text)), room.raw, length.value), (0, text + b"x" * (len(room) - len(text)), len(text)))
        place = len(packets)
        self.assertEqual(_library.library.tapebox_answer_packet(answer, len(answer), place, room, len(room), length), 105)

    def test_names(self) -> None:
        tape = morning()
        self.assertEqual((tape.symbols, tape.participants), (["AB", "CD", "EF"], ["N", "Q", "P"]))
        for who in "NQPX":
            sent = [Message.decode(e.message) for e in tape]
            sent = [message for message in sent if message.participant == who]
            wanted = Totals(sum(m.size for m in sent if m.kind == "R"), len(sent), max((m.number for m in sent), default=0))
            self.assertEqual(tape.totals(who), wanted)
        self.refused(34, tape.totals, "n")
        tape.free()
        self.refused(101, tape.totals, "N")
        self.refused(101, lambda: tape.symbols)
        self.refused(101, lambda: tape.participants)

    def test_cells(self) -> None:
        for matrix, condition, wanted in ((1, "@___", "YYYYY"), (1, "@_Z_", "YFYFY"), (1, "@_L_", "YSYSY"), (1, "@__I", "NNNNY"),
                                          (2, "@__I", "YNYNY"), (1, "@4__", "YFYFY"),
                                          (1, "@__M", "NNYYN"), (1, "@__Q", "NNYNN"), (1, "C___", "NNNNY")):
            self.assertEqual(tapebox.cells(matrix, condition), wanted)
        self.refused(44, tapebox.cells, 1, "@__2")
        self.assertEqual(tapebox.cells(2, "@__2"), "YSYSY")
        for condition in ("", "@__", "@____", "@__?", "____"):
            self.refused(21, tapebox.cells, 2, condition)
        for matrix in (0, 3):
            self.refused(104, tapebox.cells, matrix, "@___")

    def test_a_lossy_feed(self) -> None:
        tape = morning()
        entries = list(tape)
        for seed in range(20):
            chance = random.Random(seed)
            version = 1 + seed % 2
            with Subscriber(["AB", "CD", "EF"], "NQP", 7) as subscriber:
                packets = [tape.packet(k, session=7, last=k + 2, version=version) for k in range(1, len(entries) + 1, 3)]
                lines = [(line, text) for line in "AB" for text in packets if chance.random() < 0.6]
                chance.shuffle(lines)
                fresh = dict.fromkeys("ABR", 0)
                for line, text in lines:
                    fresh[line] += subscriber.deliver(line, text).fresh
                    subscriber.drain()
                subscriber.deliver("A", tapebox.end(7, len(entries)))
                self.assertEqual(subscriber.has_gap, len(subscriber) < len(entries))
                while request := subscriber.missing():
                    self.assertEqual(Request.decode(request).first, len(subscriber) + 1)
                    for text in tapebox.read_answer(tape.answer(request, session=7, version=version))[0]:
                        fresh["R"] += subscriber.deliver("R", text).fresh
                    subscriber.drain()
                self.assertEqual((len(subscriber), subscriber.announced, subscriber.ended), (len(entries),) * 3)
                self.assertEqual((subscriber.brought, subscriber.has_gap), (fresh, False))
                self.assertEqual(list(subscriber), entries)
                for symbol in ("AB", "CD", "EF"):
                    for who in (None, "N", "Q", "P"):
                        self.assertEqual(subscriber.summary(symbol, who), tape.summary(symbol, who))
                # What follows a tape sends it on.
                self.assertEqual(subscriber.packet(1, session=9), tape.packet(1, session=9))
                self.refused(61, subscriber.deliver, "A", telling("H", 8, 1))
                self.refused(63, subscriber.deliver, "A", telling("H", 7, len(entries) + 1))

    def test_a_conflict(self) -> None:
        entries = list(morning())
        other = tapebox.Entry(2, Message("R", "N", 99, "AB", 0, Decimal(1), 1, "@___").encode(), None)
        with Subscriber(["AB", "CD", "EF"], "NQP", 7) as subscriber:
            subscriber.deliver("A", packet(7, entries[:3]))
            with self.assertRaises(Refused) as refusal:
                subscriber.deliver("B", packet(7, [entries[0], other]))
            self.assertEqual((refusal.exception.code, refusal.exception.conflict), (62, 2))
            with self.assertRaises(Refused) as refusal:
                subscriber.deliver("B", packet(8, entries[:1]))
            self.assertEqual((refusal.exception.code, refusal.exception.conflict), (61, 0))

    def test_a_false_feed(self) -> None:
        entries = list(morning())
        k = next(k for k, e in enumerate(entries) if e.after)
        false = tapebox.Entry(entries[k].number, entries[k].message, Summary(None, None, None, None, 0, 0))
        with Subscriber(["AB", "CD", "EF"], "NQP", 7) as subscriber:
            subscriber.deliver("A", packet(7, entries[:k] + [false]) if k < 16 else b"")
            with self.assertRaises(Refused) as told:
                subscriber.drain()
            self.assertEqual((told.exception.code, told.exception.drained), (42, k + 1))
            self.refused(64, subscriber.drain)
            self.refused(64, subscriber.deliver, "A", telling("H", 7, 1))
            self.refused(64, subscriber.take, "A", telling("H", 7, 1))
            self.assertEqual(len(subscriber), k + 1)


if __name__ == "__main__":
    unittest.main()
