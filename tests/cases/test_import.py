"""Vendors' files through `tools/import.py`: the tables that they become, and the reports of these beside a plain tape's."""

import gzip
import os
import random
import re
import shutil
import subprocess
import tempfile
import unittest
from collections import Counter
from itertools import product
from pathlib import Path

import plain_explain
import plain_table
import plain_tape
import stored_outputs
from support import MARKS, ROOT, SAMPLES, TAPEBOX, TOOLS, Case, desk, report_rows, run, transcripts
from cases.test_reports import OWN_PYTHON, has_pandas

SCRIPT = TOOLS / "import.py"
MAPPINGS = SAMPLES / "mappings"
TAQ = (MAPPINGS / "taq.toml").read_text(encoding="utf-8")
COLUMNS = ["#row", *plain_table.COLUMNS]
# The columns of a file, with the fields of a row that names none.
FIELDS = {
    "Time": "093000000000000",
    "Exchange": "N",
    "Symbol": "AB",
    "Sale Condition": "@",
    "Trade Volume": "100",
    "Trade Price": "10.00",
    "Trade Stop Stock Indicator": "",
    "Trade Correction Indicator": "00",
    "Sequence Number": "1",
    "Trade Id": "1",
    "Source of Trade": "C",
    "Trade Reporting Facility": "",
    "Participant Timestamp": "093000000000000",
    "Trade Reporting Facility TRF Timestamp": "",
    "Trade Through Exempt Indicator": "0",
}
SHORT = {
    "time": "Time",
    "who": "Exchange",
    "symbol": "Symbol",
    "codes": "Sale Condition",
    "size": "Trade Volume",
    "price": "Trade Price",
    "indicator": "Trade Correction Indicator",
    "sequence": "Sequence Number",
    "id": "Trade Id",
    "facility": "Trade Reporting Facility",
}
# The moment of a row's usual time.
OPENING = 34_200_000_000_000
# Each correction's row has the trade as it was corrected.
CHANGES_LAST = TAQ.replace("latest_in_report = true", "latest_in_report = false")
# Seconds that a command of the page may take.
LIMIT = 120
MISSING = "no report above it is its trade"


def taq(*rows, names=tuple(FIELDS)):
    """A file of rows, each by what it has that is not usual."""
    lines = [names]
    for row in rows:
        fields = FIELDS | {SHORT[name]: str(field) for name, field in row.items()}
        lines.append([fields[name] for name in names])
    return "".join("|".join(line) + "\n" for line in lines).encode()


def converted(text, *words, mapping=TAQ):
    """How the script ended on a file by a mapping."""
    with tempfile.TemporaryDirectory() as folder:
        (Path(folder) / "taq.txt").write_bytes(text)
        (Path(folder) / "taq.toml").write_text(mapping, encoding="utf-8")
        return run([*words, "taq.toml", "taq.txt"], program=SCRIPT, cwd=folder)


def said_of(ended):
    """What standard error says of rows that are left out, behind the two counts and before the next command."""
    lines = ended.said.splitlines(keepends=True)
    return b"".join(line for line in lines if b" left out: " in line)


def lines(text):
    """A table's rows by lists of their fields, without the header row."""
    return [line.split(",") for line in text.decode().splitlines()[1:]]


def left_out(count, why, row):
    """What is said of rows that are left out."""
    return f"import.py: {count} row{'s' * (count > 1)} left out: {why}, first at row {row}\n".encode()


def plain_report(table):
    """The report of a table, as the plain tape has it."""
    messages = plain_table.read(table)
    symbols = list(dict.fromkeys(map(plain_table.symbol_of, messages)))
    participants = list(dict.fromkeys(chr(message[3]) for message in messages))
    tape = plain_tape.Tape(symbols, participants, len(messages), "1")
    for message in messages:
        tape.admit(message)
    return stored_outputs.report_of(tape)


class Imports(Case):
    def assert_table(self, text, wanted, said=b"", mapping=TAQ):
        """A file becomes these rows, and their report is that of the plain tape, which refuses none of them."""
        ended = converted(text, mapping=mapping)
        self.assertEqual((ended.status, said_of(ended)), (0, said))
        self.assertEqual(ended.written.splitlines()[0].decode(), ",".join(COLUMNS))
        self.assertEqual(lines(ended.written), [row.split(",") for row in wanted])
        if wanted:
            self.assert_writes(desk("report", given=ended.written), plain_report(ended.written))
        return ended.written

    def assert_bad(self, text, fault, mapping=TAQ):
        """A file or a mapping is at fault, and nothing is written."""
        self.assert_fault(converted(text, mapping=mapping), (2, f"import.py: {fault}\n".encode()))

    def all_figures(self, table):
        """The consolidated figures of the first symbol: open, high, low, last, volume and trades."""
        row = report_rows(desk("report", given=table).written)[0]
        return [row[name] for name in (*MARKS, "volume", "trades")]


class Trades(Imports):
    """Rows that nothing changes."""

    def test_numbers_and_moments(self):
        """IMPORT, "What each column becomes": each exchange has numbers of its own in the order of the rows, over all symbols; a moment is nanoseconds."""
        text = taq(
            {"who": "N", "time": "000000"},
            {"who": "Q", "time": "0930005"},
            {"who": "N", "time": "235959999999999", "symbol": "CD"},
        )
        wanted = [
            "2,report,N,1,0,AB,,10.00,100,@___",
            f"3,report,Q,1,{OPENING + 500_000_000},AB,,10.00,100,@___",
            "4,report,N,2,86399999999999,CD,,10.00,100,@___",
        ]
        self.assert_table(text, wanted)

    def test_conditions(self):
        """IMPORT: spaces are blanks, and a blank first code is `@`, also if the spaces at the end are cut off."""
        texts = {"": "@___", " ": "@___", "    ": "@___", "@": "@___", " F": "@F__", "  ZI": "@_ZI", "@F I": "@F_I", "C   ": "C___", " 4T ": "@4T_"}
        wanted = [f"{at},report,N,{at - 1},{OPENING},AB,,10.00,100,{codes}" for at, codes in enumerate(texts.values(), 2)]
        self.assert_table(taq(*({"codes": codes} for codes in texts)), wanted)

    def test_each_code_of_the_matrices(self):
        """RULES, "The sale condition matrices": each code of either matrix is taken in its position, and every other sign is named and its row left out."""
        known = sorted({place for matrix in plain_explain.matrix_rows() for place in matrix})
        rows = [{"codes": " " * (position - 1) + code} for position, code in known]
        shown = [("@___"[: position - 1] + code).ljust(4, "_") for position, code in known]
        wanted = [f"{at},report,N,{at - 1},{OPENING},AB,,10.00,100,{codes}" for at, codes in enumerate(shown, 2)]
        self.assertEqual(lines(converted(taq(*rows)).written), [row.split(",") for row in wanted])
        others = [(position, chr(sign)) for position in range(1, 5) for sign in range(33, 127) if chr(sign) != "|" and (position, chr(sign)) not in known]
        ended = converted(taq(*({"codes": " " * (position - 1) + sign} for position, sign in others)))
        said = b"".join(left_out(1, f"code {sign!a} in position {position} is in no matrix", at) for at, (position, sign) in enumerate(others, 2))
        self.assertEqual((ended.status, said_of(ended), lines(ended.written)), (0, said, []))

    def test_a_code_that_is_taken_as_another(self):
        """IMPORT: a row with a code that no matrix has is left out, or has the code that the mapping names."""
        text = taq({"codes": "@  K"}, {"codes": "@  I"}, {"codes": "  IK"}, {"codes": "@  K"})
        kept = [f"3,report,N,1,{OPENING},AB,,10.00,100,@__I"]
        known, unknown = "code 'K' in position 4", "code 'I' in position 3"
        self.assert_table(text, kept, said=left_out(2, f"{known} is in no matrix", 2) + left_out(1, f"{unknown} is in no matrix", 4))
        taken = [f"{at},report,N,{at - 1},{OPENING},AB,,10.00,100,{codes}" for at, codes in enumerate(["@__X", "@__I", "@__X", "@__X"], 2)]
        self.assert_table(text, taken, mapping=TAQ + 'codes = { 4K = "4X", 3I = "" }\n')

    def test_symbols(self):
        """IMPORT: a suffix stands after a point; a symbol that no tape has leaves its rows out."""
        texts = ["BRK B", "ABCDE PR", "ABCDEFGH", "A  WS ", "ABCDE PRA", "abC", "A-B", "ABCDEFGHI"]
        wanted = [f"{at},report,N,{at - 1},{OPENING},{name},,10.00,100,@___" for at, name in enumerate(["BRK.B", "ABCDE.PR", "ABCDEFGH", "A.WS"], 2)]
        self.assert_table(taq(*({"symbol": text} for text in texts)), wanted, said=left_out(4, "the symbol is not 1 to 8 of A to Z, 0 to 9 and .", 6))

    def test_prices_and_sizes(self):
        """IMPORT: prices and sizes are taken in a table's range, and a price without the zeros at its end; other rows are left out."""
        prices = {"10": "10.00", "010.5": "10.50", ".25": "0.25", "7.": "7.00", "1.123400": "1.1234", "0.0001": "0.0001", "99999999.9999": "99999999.9999"}
        bad = ["0", "0.0000", "1.00001", "100000000", ".00001"]
        wanted = [f"{at},report,N,{at - 1},{OPENING},AB,,{price},100,@___" for at, price in enumerate(prices.values(), 2)]
        said = left_out(5, "the price is not 0.0001 to 99999999.9999 with at most four decimals", len(prices) + 2)
        self.assert_table(taq(*({"price": price} for price in [*prices, *bad])), wanted, said=said)
        wanted = [f"{at},report,N,{at - 1},{OPENING},AB,,10.00,{size},@___" for at, size in [(2, 1), (3, 99_999_999), (4, 7)]]
        self.assert_table(taq(*({"size": size} for size in [1, 99_999_999, "007", 0, 100_000_000])), wanted, said=left_out(2, "the size is not 1 to 99999999", 5))


class Changes(Imports):
    """Rows that change others."""

    def test_a_cancel_and_an_error(self):
        """IMPORT: trades with 08 and 07 are reported, and cancelled where the rows with 10 and 11 stand."""
        text = taq(
            {"indicator": "08", "id": 4, "price": "11"},
            {"indicator": "00", "id": 5},
            {"indicator": "10", "id": 4, "price": "11"},
            {"indicator": "07", "id": 6, "price": "9"},
            {"indicator": "11", "id": 6, "price": "9"},
        )
        wanted = [
            f"2,report,N,1,{OPENING},AB,,11.00,100,@___",
            f"3,report,N,2,{OPENING},AB,,10.00,100,@___",
            f"4,cancel,N,3,{OPENING},AB,1,,,",
            f"5,report,N,4,{OPENING},AB,,9.00,100,@___",
            f"6,cancel,N,5,{OPENING},AB,4,,,",
        ]
        table = self.assert_table(text, wanted)
        self.assertEqual(self.all_figures(table), ["100000", "100000", "100000", "100000", "100", "1"])

    def test_a_correction(self):
        """IMPORT: the row with 01 has the trade as it was corrected and the one with 12 what stood before; or, if asked for, the other way round."""
        text = taq({"indicator": "01", "price": "10.50", "size": 300}, {"id": 2, "price": "10.20"}, {"indicator": "12", "price": "1.05", "size": 200, "codes": " F"})
        first, corrected = "10.50,300,@___", "1.05,200,@F__"
        for mapping, (before, after) in [(TAQ, (corrected, first)), (CHANGES_LAST, (first, corrected))]:
            wanted = [
                f"2,report,N,1,{OPENING},AB,,{before}",
                f"3,report,N,2,{OPENING},AB,,10.20,100,@___",
                f"4,correct,N,3,{OPENING},AB,1,{after}",
            ]
            table = self.assert_table(text, wanted, mapping=mapping)
            figures = ["10500", "102000", "10500", "102000", "300", "2"] if mapping == CHANGES_LAST else ["105000", "105000", "102000", "102000", "400", "2"]
            self.assertEqual(self.all_figures(table), figures)

    def test_a_chain(self):
        """IMPORT: each of a trade's corrections has what the next one replaces, and its own row what was said last; a cancel may end the chain."""
        chain = [{"indicator": "12", "price": "10"}, {"indicator": "12", "price": "20"}]
        rows = [
            f"2,report,N,1,{OPENING},AB,,10.00,100,@___",
            f"3,correct,N,2,{OPENING},AB,1,20.00,100,@___",
            f"4,correct,N,3,{OPENING},AB,1,30.00,100,@___",
        ]
        table = self.assert_table(taq({"indicator": "01", "price": "30"}, *chain), rows)
        self.assertEqual(self.all_figures(table), ["300000"] * 4 + ["100", "1"])
        ended = [*rows, f"5,cancel,N,4,{OPENING},AB,1,,,"]
        table = self.assert_table(taq({"indicator": "08", "price": "30"}, *chain, {"indicator": "10"}), ended)
        self.assertEqual(self.all_figures(table), [""] * 4 + ["0", "0"])
        late = {"indicator": "12", "price": "40"}
        self.assert_table(taq({"indicator": "08", "price": "30"}, *chain, {"indicator": "10"}, late), ended, said=left_out(1, "its trade was cancelled", 6))

    def test_trades_of_one_id(self):
        """IMPORT: a trade is that of its exchange, its symbol, its reporting facility and its id."""
        ones = [{"who": "D", "facility": "N"}, {"who": "D", "facility": "Q"}, {"who": "N"}, {"who": "N", "symbol": "CD"}]
        text = taq(*(one | {"indicator": "08"} for one in ones), *(one | {"indicator": "10"} for one in ones[::-1]))
        names = [("D", 1, "AB"), ("D", 2, "AB"), ("N", 1, "AB"), ("N", 2, "CD")]
        numbers = {"D": [4, 3], "N": [4, 3]}
        wanted = [f"{at},report,{who},{number},{OPENING},{symbol},,10.00,100,@___" for at, (who, number, symbol) in enumerate(names, 2)]
        wanted += [f"{at},cancel,{who},{numbers[who].pop()},{OPENING},{symbol},{number},,," for at, (who, number, symbol) in enumerate(names[::-1], 6)]
        self.assert_table(text, wanted)

    def test_changes_of_no_trade(self):
        """IMPORT: a change is left out whose trade is not above it, has another indicator or id or none, or was cancelled before."""
        text = taq(
            {"indicator": "10", "id": 4},
            {"indicator": "08", "id": 4},
            {"indicator": "00", "id": 5},
            {"indicator": "12", "id": 5},
            {"indicator": "10", "id": 4},
            {"indicator": "10", "id": 4},
            {"indicator": "01", "id": ""},
            {"indicator": "12", "id": ""},
        )
        wanted = [
            f"3,report,N,1,{OPENING},AB,,10.00,100,@___",
            f"4,report,N,2,{OPENING},AB,,10.00,100,@___",
            f"6,cancel,N,3,{OPENING},AB,1,,,",
            f"8,report,N,4,{OPENING},AB,,10.00,100,@___",
        ]
        self.assert_table(text, wanted, said=left_out(3, MISSING, 2) + left_out(1, "its trade was cancelled", 7))

    def test_a_cancelled_trade_without_its_cancel(self):
        """IMPORT: a trade with 07 or 08 of which no cancel comes is left out, so that the day ends without it."""
        text = taq({"indicator": "07"}, {"indicator": "08", "id": 2}, {"indicator": "08", "id": ""}, {"indicator": "12", "id": 2}, {"id": 3})
        said = left_out(3, "it says that it was cancelled, and no row below cancels it", 2) + left_out(1, "its trade was left out", 5)
        self.assert_table(text, [f"6,report,N,1,{OPENING},AB,,10.00,100,@___"], said=said)

    def test_changes_of_what_is_left_out(self):
        """IMPORT: a trade is left out with its changes if a tape can't have it, as it was first or as it was corrected."""
        for bad, why in [({"codes": "@  K"}, "code 'K' in position 4 is in no matrix"), ({"size": 0}, "the size is not 1 to 99999999")]:
            chain = [{"indicator": "01"}, {"indicator": "12"}]
            for at in (0, 1):
                rows = [{"indicator": indicator} | (bad if at == place else {}) for place, indicator in enumerate(("01", "12"))]
                with self.subTest(why, at=at):
                    said = left_out(1, why, 2) + left_out(1, "its trade was left out", 3)
                    self.assert_table(taq(*rows, {"id": 2}), [f"4,report,N,1,{OPENING},AB,,10.00,100,@___"], said=said)

    def test_seeded_days(self):
        """IMPORT: days of known messages, written as such files in either way, become these messages again."""
        for seed, corrected_in in product(range(10), ("01", "12")):
            with self.subTest(seed=seed, corrected_in=corrected_in):
                day = SeededDay(seed, corrected_in)
                self.assert_table(taq(*day.rows), day.wanted, mapping=TAQ if corrected_in == "01" else CHANGES_LAST)


class SeededDay:
    """A day of known messages: the rows of its file, by the row that has a trade as it was corrected, and those of its table."""

    COUNT = 80
    PRICES = {"10": "10.00", "10.25": "10.25", "9.9999": "9.9999"}
    CONDITIONS = {"": "@___", "@ TI": "@_TI", "  Z": "@_Z_", " F": "@F__"}

    def __init__(self, seed, corrected_in):
        self.random, self.corrected_in = random.Random(seed), corrected_in
        self.rows, self.wanted, self.standing = [], [], []
        # Of each exchange and symbol how many trades it has, and of each exchange its last number.
        self.ids, self.numbers = Counter(), Counter()
        for _ in range(self.COUNT):
            if self.standing and self.random.random() < 0.5:
                self.change(self.random.choice(self.standing))
            else:
                self.report()

    def content(self):
        """What is said of a trade."""
        return {"price": self.random.choice([*self.PRICES]), "size": self.random.randint(1, 500), "codes": self.random.choice([*self.CONDITIONS])}

    def put(self, trade, indicator, kind, content):
        """Adds a row to the file and to the table, and returns its number."""
        who, symbol, target = trade["who"], trade["symbol"].replace(" ", "."), trade.get("number", "")
        self.numbers[who] += 1
        told = f"{self.PRICES[content['price']]},{content['size']},{self.CONDITIONS[content['codes']]}" if kind != "cancel" else ",,"
        self.wanted.append(f"{len(self.rows) + 2},{kind},{who},{self.numbers[who]},{OPENING},{symbol},{target},{told}")
        row = {name: trade[name] for name in ("who", "symbol", "id")} | {"indicator": indicator} | content
        self.rows.append(row)
        trade["said"] += [(row, content)] * (kind != "cancel")
        return self.numbers[who]

    def report(self):
        """A trade."""
        trade = {"who": self.random.choice("NQD"), "symbol": self.random.choice(["AB", "BRK B"]), "said": []}
        self.ids[trade["who"], trade["symbol"]] += 1
        trade["id"] = self.ids[trade["who"], trade["symbol"]]
        trade["number"] = self.put(trade, "00", "report", self.content())
        self.standing.append(trade)

    def change(self, trade):
        """A cancel or a correction of a trade."""
        own = trade["said"][0][0]
        if self.random.random() < 0.4:
            marked, indicator = self.random.choice([("08", "10"), ("07", "11")])
            self.put(trade, indicator, "cancel", self.content())
            own["indicator"] = marked
            self.standing.remove(trade)
            return
        self.put(trade, "12", "correct", self.content())
        own["indicator"] = "01"
        if self.corrected_in == "01":
            # Each row but the trade's own has what the one before said.
            contents = [content for _, content in trade["said"]]
            for (row, _), content in zip(trade["said"], [contents[-1], *contents]):
                row |= content


class Files(Imports):
    """The forms in which files come, and files at fault."""

    ROWS = [{"indicator": "01", "price": "11"}, {"id": 2, "codes": " F I"}, {"indicator": "12", "price": "12"}]
    WANTED = [
        f"2,report,N,1,{OPENING},AB,,12.00,100,@___",
        f"3,report,N,2,{OPENING},AB,,10.00,100,@F_I",
        f"4,correct,N,3,{OPENING},AB,1,11.00,100,@___",
    ]
    WIDTH = len(FIELDS)

    def test_forms(self):
        """IMPORT: a file is plain or compressed, with or without a byte order mark, with either end of a line, its columns in any order, and a last row."""
        text, end = taq(*self.ROWS), f"END|20240102|3{'|' * (self.WIDTH - 3)}\n".encode()
        for form in [
            text,
            b"\xef\xbb\xbf" + text,
            gzip.compress(text),
            subprocess.run(["zstd", "-q"], input=text, capture_output=True, check=True).stdout if shutil.which("zstd") else text,
            text.replace(b"\n", b"\r\n"),
            text.rstrip(b"\n"),
            text + end,
            taq(*self.ROWS, names=[*FIELDS][::-1]),
        ]:
            self.assert_table(form, self.WANTED)

    def test_several_files(self):
        """IMPORT: several files are one day in their order, and the keys say where each message stands."""
        with tempfile.TemporaryDirectory() as folder:
            (Path(folder) / "a.txt").write_bytes(taq({"indicator": "08", "id": 4}, {"id": 5, "who": "Q"}))
            (Path(folder) / "b.txt").write_bytes(taq({"indicator": "10", "id": 4}, {"id": 9, "size": 0}))
            ended = run(["--keys", "keys.csv", MAPPINGS / "taq.toml", "a.txt", "b.txt"], program=SCRIPT, cwd=folder)
            keys = (Path(folder) / "keys.csv").read_text(encoding="utf-8")
        rows = [
            f"a.txt,2,report,N,1,{OPENING},AB,,10.00,100,@___",
            f"a.txt,3,report,Q,1,{OPENING},AB,,10.00,100,@___",
            f"b.txt,2,cancel,N,2,{OPENING},AB,1,,,",
        ]
        self.assertEqual(ended.written.decode(), "\n".join([",".join(["#file", *COLUMNS]), *rows, ""]))
        self.assertEqual(keys, "participant,number,file,row,id\nN,1,a.txt,2,N AB  4\nQ,1,a.txt,3,Q AB  5\nN,2,b.txt,2,N AB  4\n")
        said = [
            "import.py: 4 rows in: 3 reports, 1 cancel, 0 corrections",
            "import.py: 3 messages out: 2 reports, 1 cancel, 0 corrections",
            "import.py: 1 row left out: the size is not 1 to 99999999, first at b.txt, row 3",
            "import.py: next: tapebox check TABLE, then tapebox report TABLE",
        ]
        self.assertEqual((ended.status, ended.said.decode().splitlines()), (0, said))

    def test_strict(self):
        """IMPORT: with --strict nothing is written if a row is left out, and the status is 2."""
        ended = converted(taq(*self.ROWS, {"id": 9, "size": 0}), "--strict")
        self.assertEqual((ended.status, ended.written, said_of(ended)), (2, b"", left_out(1, "the size is not 1 to 99999999", 5)))
        self.assertEqual(converted(taq(*self.ROWS), "--strict").status, 0)

    def test_bad_rows(self):
        """IMPORT: the first bad row is named with its column, its text and the rule, and nothing is written."""
        rules = {
            "time": ("a time", ["", "9", "240000", "096000", "093060", "0930000000000000", "noon"]),
            "codes": ("up to four codes", ["@ TI ", "     "]),
            "size": ("a number of shares", ["", "-1", "1.0", "1e3"]),
            "price": ("a price in dollars", ["", "-1", ".", "1.2.3", "1e3", "1" * 41]),
        }
        for name, (rule, texts) in rules.items():
            for text in texts:
                with self.subTest(name, text=text):
                    shown = f'"{text[:40]}"' + ".." * (len(text) > 40)
                    self.assert_bad(taq(*self.ROWS, {name: text, "id": 9}, {name: "?"}), f"taq.txt: row 5: column {SHORT[name]}: {shown} is not {rule}")
        self.assert_bad(taq(*self.ROWS) + b"a|b\n", f"taq.txt: row 5: 2 fields, and the first row has {self.WIDTH}")
        self.assert_bad(taq(names=[*FIELDS][1:]), "taq.txt: the column Time of the mapping is missing")
        self.assert_bad(taq({"indicator": "08"}, {"indicator": "10"}, {"indicator": "01"}), "taq.txt: row 4: column Trade Id: \"N AB  1\" is the id of a report above it, and later rows change it")
        self.assert_bad(gzip.compress(taq(*self.ROWS))[:-12], "taq.txt: Compressed file ended before the end-of-stream marker was reached")
        if shutil.which("zstd"):
            packed = subprocess.run(["zstd", "-q"], input=taq(*self.ROWS * 20_000), capture_output=True, check=True).stdout
            ended = converted(packed[:-100])
            self.assertEqual((ended.status, ended.written), (2, b""))
            self.assertIn(b"taq.txt", ended.said)

    def test_bad_mappings(self):
        """IMPORT: a mapping with an unknown part or key, or without one that is needed, is named."""
        for mapping, fault in [
            (TAQ + "[prices]\n", "taq.toml: prices is no part of a mapping"),
            (TAQ.replace("[size]\n", '[size]\nscale = "1"\n'), "taq.toml: size: scale is no key of it"),
            (TAQ.replace('[size]\ncolumn = "Trade Volume"\n', ""), "taq.toml: size: column is missing"),
            (TAQ.replace("[id]", "[leave_out]"), "taq.toml: id: columns is missing, and cancels and corrections need it"),
            (TAQ + 'codes = { 4K = "4?" }\n', 'condition: codes: "4?" is not a position and a code of it'),
            (TAQ.replace('join = "."', "join = 1"), "taq.toml: symbol: join is not a text"),
            (TAQ.replace('separator = "|"', 'separator = "||"'), "taq.toml: file: separator is not one character"),
            (TAQ.replace("[moment]\n", '[moment]\nzone = "Nowhere/Here"\n'), 'moment: zone "Nowhere/Here" is not known'),
            (TAQ.replace("[moment]\n", '[moment]\nunit = "days"\n'), "moment: unit is not one of seconds, milliseconds, microseconds, nanoseconds"),
        ]:
            with self.subTest(fault):
                self.assert_bad(taq(*self.ROWS), fault, mapping)

    def test_full_output(self):
        """import.py: a write that fails ends it with 1."""
        with tempfile.NamedTemporaryFile() as file, open("/dev/full", "wb") as full:
            file.write(taq(*self.ROWS))
            file.flush()
            ended = run([MAPPINGS / "taq.toml", file.name], program=SCRIPT, stdout=full)
        self.assertEqual((ended.status, ended.said.splitlines()[-1]), (1, b"import.py: standard output: No space left on device"))


class Vendors(Imports):
    """The other mappings over the small files beside them."""

    TABLES = {
        "plain": ["2,report,N,1,1704205800000125000,AB,,10.00,100,@___", "3,report,Q,1,1704205800500000000,AB,,10.10,200,@___", "5,report,P,1,1704205803000000000,CD,,48.1250,50,@___"],
        "polygon": [
            "2,report,N,1,34200000000000,AB,,10.00,1000,@F__",
            "3,report,P,1,34201249900000,AB,,10.25,40,@F_I",
            "4,report,Q,1,34202000000000,AB,,10.10,200,@___",
            "5,report,N,2,34202400000000,AB,,10.05,100,@_Z_",
            "6,cancel,Q,2,34209000000000,AB,1,,,",
        ],
        "databento": ["2,report,Q,1,34200000000000,AB,,10.00,100,@___", "3,report,Q,2,34201000000000,AB,,10.1025,5,@___", "5,report,N,1,34203000000000,AB,,10.05,300,@___"],
    }
    LEFT_OUT = {
        "plain": left_out(1, 'participant "DARK" is not in the mapping', 4),
        "polygon": left_out(1, 'condition "53" is not in the mapping', 7),
        "databento": left_out(1, 'action is "C"', 4),
    }

    def test_samples(self):
        """IMPORT: each mapping makes these rows of the file beside it."""
        self.assertEqual({path.stem for path in MAPPINGS.glob("*.toml")}, {"taq", *self.TABLES})
        for name, rows in self.TABLES.items():
            with self.subTest(name):
                mapping = (MAPPINGS / f"{name}.toml").read_text(encoding="utf-8")
                self.assert_table((MAPPINGS / f"{name}.csv").read_bytes(), rows, self.LEFT_OUT[name], mapping)

    def test_numbers_of_the_vendor(self):
        """IMPORT: a vendor's numbers are taken if the mapping names their column, and a number that doesn't rise is a fault."""
        mapping = '[symbol]\nconstant = "AB"\n[participant]\ncolumn = "who"\n[number]\ncolumn = "seq"\n[price]\ncolumn = "price"\n[size]\ncolumn = "size"\n'
        text = b"who,seq,price,size\nN,5,1,1\nQ,2,1,1\nN,9,1,1\n"
        rows = ["2,report,N,5,0,AB,,1.00,1,@___", "3,report,Q,2,0,AB,,1.00,1,@___", "4,report,N,9,0,AB,,1.00,1,@___"]
        self.assert_table(text, rows, mapping=mapping)
        self.assert_bad(text + b"N,9,1,1\n", 'taq.txt: row 5: column seq: "9" is not above 9, the last of N', mapping)


class Page(Case):
    """What the page shows."""

    def setUp(self):
        # Before the commands, each of which has less time than a draft takes to compile.
        self.assertTrue(Path(TAPEBOX).exists())
        folder = tempfile.TemporaryDirectory()
        self.addCleanup(folder.cleanup)
        self.folder = Path(folder.name)
        for name in ("samples", "tools"):
            (self.folder / name).symlink_to(ROOT / name)
        program = self.folder / "run"
        program.write_text(f'#!/bin/sh\nexec "{ROOT}/run" "$@"\n', encoding="utf-8")
        program.chmod(0o755)

    @unittest.skipUnless(has_pandas() and shutil.which("sqlite3"), "no pandas or no sqlite3")
    def test_commands(self):
        """IMPORT: the commands say and write what the page shows, but for what `./run` says of a draft."""
        shown = transcripts("IMPORT.md")
        self.assertGreater(len(shown), 2)
        environment = os.environ | {"PATH": f"{OWN_PYTHON}:{os.environ['PATH']}"}
        for command, wanted in shown:
            with self.subTest(command):
                done = subprocess.run(["sh", "-c", command], cwd=self.folder, env=environment, stdout=subprocess.PIPE, stderr=subprocess.STDOUT, check=True, timeout=LIMIT)
                self.assertEqual(re.sub("(?m)^run: .*\n", "", done.stdout.decode()), wanted)

    def test_figures(self):
        """IMPORT: the page's report is that of the plain tape."""
        table = run([MAPPINGS / "taq.toml", SAMPLES / "taq.txt"], program=SCRIPT).written
        shown = next(written for command, written in transcripts("IMPORT.md") if "run report" in command)
        self.assertEqual(plain_report(table).decode(), shown)
