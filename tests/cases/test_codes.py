"""The codes of the sale conditions: whatever lists them has those of RULES with the same cells, and days are made of codes that exist."""

import csv
import importlib
import math
import re

import plain_explain
import plain_table
import plain_tape
from support import BENCH, CRATES, DEV, ROOT, TESTS, TOOLS, Case, desk, table_of

DEFINITIONS = CRATES / "sale_matrix" / "specs" / "Matrix.antt"
# The matrices by their names in code.
MATRICES = {"One": "1", "Two": "2"}
ORDINALS = ["first", "second", "third", "fourth"]
# A blank restricts nothing, and is allowed after the first position.
BLANKS = [(position, "_", "YYYYY") for position in (2, 3, 4)]
# A row of RULES: its position, its codes, their meaning and their cells.
PRINTED = re.compile(r"\| ([1-4]) \| (`.`(?:, `.`)*) \| [^|]+((?: \| [NFSY]){5}) \|")
# The rows of a position in the definitions, and one of them.
DEFINED = re.compile(r"(?m)^(\w+)_rows(?: (One|Two))? =\n((?:    .+\n)+)")
DEFINED_ROW = re.compile(r'    \(codes "(.+)", codes "([NFSY]{5})"\) ∷(?: \[\])?')
# In bench: cells by their name, a position's rows by theirs, one of these rows, and the positions of a matrix.
BENCH_CELLS = re.compile(r"const (\w+): Cells = Cells::new\(\[([^]]+)\], \[([^]]+)\], (\w+)\);")
BENCH_ROWS = re.compile(r"const (\w+): &\[Row\] = &\[(.*?)\];", re.DOTALL)
BENCH_ROW = re.compile(r'\(b"(.+?)", (\w+)\)')
BENCH_MATRIX = re.compile(r"static OF_(ONE|TWO): ByCode = by_code\(\[(.*?)\]\);")
# A row of a peer in SQL: its position, its codes and their cells, of which N is 0 and Y is 3.
PEER_ROW = re.compile(r"\(([1-4]), '(.+?)'((?:, [0-3]){5})\)")
PEER_LETTERS = str.maketrans("0123", "NFSY")
# A code of the dissector with its meaning.
DISSECTED = re.compile(r'(?:\["(.)"\]|\b(\w)) = "[^"]+"')
LETTERS = {"Always": "Y", "SameMarket": "S", "FirstOnly": "F", "Never": "N", "true": "Y", "false": "N"}
# The columns of an explanation, in the order of RULES, and their words.
COLUMNS = ["high_low", "last", "own_high_low", "own_last", "volume"]
WORDS = {"no": "N", "if first": "F", "same market": "S", "yes": "Y"}
# A list of conditions from which a day is drawn, in Python, Rust, Rattle or C.
MADE = re.compile(r"(?i)\b(conditions\w*)(?:(?:: [^=\n]+)? = \[|\[\] = \{)(.*?)[\]}]", re.DOTALL)
QUOTED = re.compile('"([^"\n]*)"')
# The files that have such a list: all others draw from those of plain_table.
MAKERS = {"make_day.rs", "batches.rs", "calls.c", "seeds.rt"}


def text_of(path):
    """The text of a file."""
    return path.read_text(encoding="utf-8")


def all_of(pattern, text):
    """All matches of a pattern in a list, which must have nothing else between its commas."""
    if rest := re.sub(r"[\s,]", "", pattern.sub("", text)):
        raise ValueError(f"not read: {rest}")
    return pattern.findall(text)


def by_code(rows):
    """The cells of each code, by its position and itself, from rows of a position, its codes and their cells."""
    pairs = [((position, code), cells) for position, codes, cells in rows for code in codes.replace(" ", "_")]
    if len(dict(pairs)) < len(pairs):
        raise ValueError(f"a code stands twice: {pairs}")
    return dict(pairs)


def printed(table):
    """The rows of a table of RULES."""
    rows = [PRINTED.fullmatch(line).groups() for line in table.splitlines() if line.startswith("| ") and not line.startswith("| Position")]
    return [(int(position), "".join(re.findall("`(.)`", codes)), re.sub(r"\W", "", cells)) for position, codes, cells in rows]


def of_rules():
    """The matrices as RULES prints them: the second has what differs."""
    part = text_of(plain_explain.RULES).split("\n## The sale condition matrices\n")[1].split("\n## ")[0]
    _, first, second = re.split(r"(?m)^(?=\| Position )", part)
    return {"1": by_code([*BLANKS, *printed(first)]), "2": by_code([*BLANKS, *printed(first)]) | by_code(printed(second))}


def of_definitions():
    """The matrices as the contracts have them."""
    found = [
        (of, (ORDINALS.index(ordinal) + 1, *DEFINED_ROW.fullmatch(line).groups()))
        for ordinal, of, lines in DEFINED.findall(text_of(DEFINITIONS))
        for line in lines.splitlines()
    ]
    return {matrix: by_code(row for of, row in found if of in ("", name)) for name, matrix in MATRICES.items()}


def of_plain_tape():
    """The matrices as the plain tape has them."""
    places = [(position, code) for position, codes in enumerate(plain_table.POSITIONS, 1) for code in codes]
    found = {matrix: {place: plain_tape.listed_cells(matrix, plain_table.condition_of(*place)) for place in places} for matrix in MATRICES.values()}
    return {matrix: {place: cells for place, cells in of.items() if cells} for matrix, of in found.items()}


def pair(text):
    """The letters of an array of two, in which one may stand for both."""
    return [LETTERS[name] for name in (text.split("; 2")[0].split(", ") * 2)[:2]]


def of_bench():
    """The matrices of bench."""
    text = text_of(BENCH / "src" / "matrix.rs")
    cells = {}
    for name, high_low, last, volume in BENCH_CELLS.findall(text):
        own, all_last = pair(high_low), pair(last)
        cells[name] = own[0] + all_last[0] + own[1] + all_last[1] + LETTERS[volume]
    rows = {name: all_of(BENCH_ROW, listed) for name, listed in BENCH_ROWS.findall(text)}
    return {
        MATRICES[name.title()]: by_code((position, codes, cells[of]) for position, row in enumerate(names.split(", "), 1) for codes, of in rows[row])
        for name, names in BENCH_MATRIX.findall(text)
    }


def of_peer():
    """Matrix One as SQLite's report has it, without blanks."""
    listed = re.search(r"(?s)INSERT INTO code VALUES\n(.*?);", text_of(BENCH / "peers" / "report_sqlite.sql")).group(1)
    return by_code((int(position), codes, re.sub(r"\W", "", cells).translate(PEER_LETTERS)) for position, codes, cells in all_of(PEER_ROW, listed))


def of_dissector():
    """The codes of each position that the dissector has a meaning for."""
    listed = re.search(r"(?ms)^local CODES = \{\n(.*?)^\}", text_of(TOOLS / "tapebox.lua")).group(1)
    return ["".join(map("".join, all_of(DISSECTED, codes))) for codes in re.findall(r"\{(.*?)\}", listed, re.DOTALL)]


def of_rows():
    """The cells that the worked rows have for each condition of one code."""
    steps = re.findall(r"(?m)^cells ([12]) (\S{4}) +-> ([NFSY]{5})$", text_of(ROOT / "rows" / "matrix.rows"))
    return {(matrix, condition): cells for matrix, condition, cells in steps}


def explained(matrix, conditions):
    """The cells that an explanation has for a report of each of these conditions, unless a tape by the matrix refuses it."""
    rows = [["N", number, "AB", "10.00", 100, condition] for number, condition in enumerate(conditions, 1)]
    written = desk("explain", matrix=matrix, given=table_of([["participant", "number", "symbol", "price", "size", "condition"], *rows])).written
    told = csv.DictReader(written.decode().splitlines())
    return [(row["condition"], "".join(WORDS[row[column]] for column in COLUMNS)) for row in told]


def made():
    """The lists of conditions that days are made of: for each its file's and its own name, and its conditions."""
    files = [path for folder in (TESTS, TESTS / "plain", TESTS / "support", TESTS / "cases", BENCH, TOOLS, DEV) for path in sorted(folder.glob("*.py"))] + sorted(BENCH.glob("src/**/*.rs"))
    files += [*sorted(BENCH.glob("tests/*.rs")), *sorted((ROOT / "clib" / "fuzz").glob("*.c")), *sorted(CRATES.glob("*/src/**/*.rt"))]
    for path in files:
        for name, listed in MADE.findall(text_of(path)):
            if (conditions := QUOTED.findall(listed)) and " for " not in listed:
                yield path.name, name, [condition.replace(" ", "_") for condition in conditions]


def codes_in(conditions):
    """The codes of conditions, each with its position."""
    return {place for condition in conditions for place in enumerate(condition, 1)}


class Codes(Case):
    def setUp(self):
        self.rules = of_rules()
        self.positions = [{code for at, code in self.rules["2"] if at == position} for position in (1, 2, 3, 4)]

    def assert_positions(self, listed):
        """The codes of each position, each once, are those of the second matrix, which has all of the first."""
        self.assertEqual([sorted(codes) for codes in listed], [sorted(codes) for codes in self.positions])

    def test_how_many(self):
        """RULES, "The sale condition matrices": how many codes and conditions there are, and that the matrices differ in the fourth position alone."""
        first, second = (of.items() for of in self.rules.values())
        self.assertEqual({position for (position, _), _ in first ^ second}, {4})
        self.assertLessEqual(self.rules["1"].keys(), self.rules["2"].keys())
        choices = [[sum(at == position for at, _ in of) for position in (1, 2, 3, 4)] for of in self.rules.values()]
        one, two = map(math.prod, choices)
        told = "there are {}, {}, {} and {} choices: {:,} conditions, of which {:,} are of Matrix One".format(*choices[1], two, one)
        self.assertIn(told, " ".join(text_of(plain_explain.RULES).split()))

    def test_definitions(self):
        """sale_matrix, "What a contract sees": the printed tables are those of RULES."""
        self.assertEqual(of_definitions(), self.rules)

    def test_program(self):
        """RULES: each code of a matrix has its cells in the program, and one that is only the other's is refused."""
        for matrix, of in self.rules.items():
            with self.subTest(matrix):
                wanted = [(plain_table.condition_of(*place), of[place]) for place in self.rules["2"] if place in of]
                self.assertEqual(explained(matrix, [plain_table.condition_of(*place) for place in self.rules["2"]]), wanted)

    def test_plain_tape(self):
        """RULES: the plain reader of tables has its codes, and the plain tape their cells."""
        self.assert_positions(plain_table.POSITIONS)
        self.assertEqual(of_plain_tape(), self.rules)

    def test_drawn_conditions(self):
        """tests/, bench/: seeded days are drawn from all codes of their matrix, and of no other."""
        [one, two] = [[of for file, _, of in made() if file == "make_day.rs"][at] for at in (0, 1)]
        for first, more in [(plain_table.CONDITIONS, plain_table.CONDITIONS_TWO), (one, two)]:
            self.assertEqual(codes_in(first), self.rules["1"].keys())
            self.assertEqual(codes_in(first + more), self.rules["2"].keys())
            for condition in more:
                self.assertFalse(codes_in([condition]) <= self.rules["1"].keys(), f"{condition} is of Matrix One too")

    def test_import(self):
        """IMPORT: the reader of a vendor's file has the codes of each position."""
        self.assert_positions(importlib.import_module("import").CODES)

    def test_dissector(self):
        """WIRESHARK: the dissector has a meaning for each code but the blank."""
        self.assert_positions([codes + "_" * (position > 0) for position, codes in enumerate(of_dissector())])

    def test_rows(self):
        """rows/README.md: `matrix.rows` has the cells of each code by either matrix."""
        rows = of_rows()
        for matrix, of in self.rules.items():
            for place, cells in of.items():
                with self.subTest(matrix=matrix, place=place):
                    self.assertEqual(rows.get((matrix, plain_table.condition_of(*place))), cells)

    def test_bench(self):
        """bench/: the plain matrices are those of RULES, and so is that of the report in SQL, which has no blanks."""
        self.assertEqual(of_bench(), self.rules)
        self.assertEqual(of_peer(), {place: cells for place, cells in self.rules["1"].items() if place[1] != "_"})

    def test_makers_of_days(self):
        """tests/, bench/, clib/, crates/: no more lists of conditions are kept than there have to be, of codes that exist, and a bad code is none."""
        for file, name, conditions in (lists := list(made())):
            for condition in conditions:
                with self.subTest(file=file, list=name, condition=condition):
                    self.assertEqual(len(condition), len(self.positions))
                    self.assertLessEqual(codes_in([condition]), self.rules["2"].keys())
        self.assertEqual({file for file, _, _ in lists}, MAKERS)
        [bad] = re.findall(r"Fault::BadCondition => body\[34\] = b'(.)'", text_of(BENCH / "src" / "bin" / "make_day.rs"))
        self.assertNotIn(bad, self.positions[0])
