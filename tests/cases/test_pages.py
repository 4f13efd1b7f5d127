"""The pages: what they quote and name of the code, their links, the form of the promises, the numbers, and what scripts print and write for them."""

import collections
import functools
import json
import re
import subprocess
import sys
import textwrap
import unittest

from support import BENCH, HEADINGS, ROOT, TAPE_COLUMNS, TOOLS

sys.path.append(str(BENCH))

import definitions
import page_parts
import plain_explain
import promises
import speed_page

CRATES = ROOT / "crates"
PAGES = [ROOT / "README.md", *sorted(ROOT.glob("docs/*.md")), *sorted(ROOT.glob("rows/*.md")), *sorted(ROOT.glob("crates/*/README.md"))]

FENCED = re.compile(r"^```(\w*)\n(.*?)^```$", re.MULTILINE | re.DOTALL)
# The line right before a quotation, which names its file.
SOURCE = re.compile(r"From `([\w./]+)`:\n\n\Z")
# Between two pieces of a quotation, which may be anywhere in the file.
LEFT_OUT = "\n// ..\n"
IMPORT = re.compile(r"^(?:ghost )?use [^;]*;\n", re.MULTILINE)
LINK = re.compile(r"\]\(([^)\s]+)\)")
COMMIT = re.compile(r"\bcommit `([0-9a-f]{7,40})`")
FILE = re.compile(r"`([\w./-]+\.(?:antt|csv|md|py|rt|sh|txt))`")
HEADING = re.compile(r"^#+ (.+)$", re.MULTILINE)
# A row of a table, by its cells; the line under a table's head has no word.
ROW = re.compile(r"^\| (.+) \|$", re.MULTILINE)
# One of the ten points, and how many words it has at most.
SENTENCE = re.compile(r"^\d+\. (.+(?:\n   .+)*)", re.MULTILINE)
WORDS_MOST = 60
CODE = re.compile(r"`([^`]*)`")
# The first line of a report or of a readable tape, and a row of either, wherever they are written.
FIRST_LINES = {"symbol,who": HEADINGS, "tape,refused": ",".join(TAPE_COLUMNS)}
FIRST_LINE = re.compile(rf"\b({'|'.join(FIRST_LINES)})(?:,\w+)+")
TEXT_ROWS = [
    (HEADINGS, re.compile(r"(?<![\w,.])[A-Z][A-Z0-9.]*,(?:ALL|[A-Z])(?:,\d*){6,}(?![\w.])")),
    (FIRST_LINES["tape,refused"], re.compile(r"(?<![\w,.])\d*,(?:\d\d \w+)?,(?:report|cancel|correct|reinstate),[\w,.@]+")),
]
# A line of code that a page links to.
LINE = re.compile(r"L(\d+)")
# A limit with its value, in code or in definitions, and a refusal's number by its name, in definitions, which the program's status is not.
LIMIT = re.compile(r"^(?:pub(?:\(crate\))? )?(?:const )?(\w+)(?:: \w+)? = ([\d_]+);?$", re.MULTILINE)
NUMBER = re.compile(r"^(?!status_)\w+_code \(?([\w.]+)(?: \w+\))? = (\d+)$", re.MULTILINE)
NAME = re.compile(r"[A-Za-z_]\w*")
# A constant of the code, with the sum or the product that it is.
CONSTANT = re.compile(r"^ *(?:pub(?:\(crate\))? )?const (\w+): \w+ = ([\w +*/]+);$", re.MULTILINE)
# Numbers that pages print when they speak of a limit: the words around each, and the name of its constant.
PRINTED = {
    "docs/FORMATS.md": [
        "and it is 0 or above {LONGEST_BODY} |", "so each entry up to {NUMBER_MOST_ONE} can be sent in either version", "session 7, {TAPE_MOST} entries so far",
        "for none or for more than {LONGEST_SPAN};", "no packets or more than {PACKETS_MOST}, or a length of 0 or above {LONGEST_PACKET}.",
        "| limit | 1 to {TAPE_MOST} |", "| number of symbols | 1 to {SYMBOLS_MOST} |", "| number of participants | 1 to {PARTICIPANTS_MOST} |",
        "Each has {ENTRIES_MOST} entries, and the last what is left", "length above {LONGEST_PACKET}, one that runs past the end", "The tape's limit is {BATCH_TAPE_MOST}.",
        "at most {SYMBOLS_MOST} symbols. A table may have more than {TAPE_MOST} rows", "A number has at most {DIGITS_MOST} digits", "{LINE_MOST} bytes, which a line feed ends",
        "if one more than {CONNECTIONS_MOST} are open",
    ],
    "docs/RULES.md": [
        "It has a window of {REACH} numbers", "above the base and at most {REACH} above it", "and are at most {LONGEST_SPAN}.", "a sum of at most {TAPE_MOST} sizes",
    ],
    "docs/OPERATING.md": [
        "published, up to {PUBLISHED_AT_ONCE} at a time", "of at most {PACE_MOST} packets a millisecond", "halves, down to {PACE_LEAST},", "takes, {LIMIT_LEFT_OUT} if it is left out",
        "Up to {KEPT_MOST} datagrams are kept", "it waits {TURNS_MOST} milliseconds at most", "Entries more than {REACH} above those", "has more than {INPUT_MOST} bytes",
    ],
    "docs/SCALE.md": [
        "| entries of a tape | {TAPE_MOST} |", "version 1 goes to {NUMBER_MOST_ONE} |", "| a batch | {INPUT_MOST} bytes", "and {BATCH_TAPE_MOST} entries |",
        "| {SYMBOLS_MOST} and {PARTICIPANTS_MOST} |", "a part may have {TAPE_MOST} messages", "of which it may have {TAPE_MOST}.",
    ],
    "docs/FAQ.md": ["asks the retransmission for up to {LONGEST_SPAN} entries"],
    "README.md": ["Up to {TAPE_MOST} messages of {SYMBOLS_MOST} symbols and {PARTICIPANTS_MOST} participants", "takes {TAPE_MOST} entries, {SYMBOLS_MOST} symbols and {PARTICIPANTS_MOST} participants"],
    "crates/live_feed/README.md": [
        "starts at {PACE_FIRST} packets", "| {PACE_STEP} more, up to the ceiling |", "| half, and {PACE_LEAST} at least |", "at first, and at most | {PACE_MOST} |", "a calm of {CALM_LEAST} rests",
        "and {CEILING_LEAST} at least |", "after each {CALM_RESTS} rests in a row",
    ],
    "crates/feed_follower/README.md": ["- {TURNS_MOST} turns of a millisecond at most", "fewer than {AHEAD_MOST} numbers"],
}


def git(*words):
    """The status of git, and what it writes."""
    done = subprocess.run(["git", "-C", ROOT, *words], stdout=subprocess.PIPE, stderr=subprocess.DEVNULL, text=True, check=False)
    return done.returncode, done.stdout


@functools.cache
def text_of(path):
    """The text of a file."""
    return path.read_text(encoding="utf-8")


def quotations(page):
    """Each Rust block of a page, with what the page has before it."""
    text = text_of(page)
    return [(block.group(2), text[: block.start()]) for block in FENCED.finditer(text) if block.group(1) == "rust"]


def pieces(block):
    """What has to be in the file as it is quoted: each import by itself, and the rest by piece."""
    rest = IMPORT.sub("", block)
    return [*IMPORT.findall(block), *(piece.strip("\n") + "\n" for piece in rest.split(LEFT_OUT))]


def stands(piece, text):
    """Whether a text has the piece, with the same indentation before each of its lines."""
    return any("\n" + textwrap.indent(piece, " " * columns) in "\n" + text for columns in (0, 4, 8))


def is_called(crate):
    """Whether a crate is a library that has something public."""
    root = crate / "src" / "lib.rt"
    return root.exists() and re.search(r"^pub ", text_of(root), re.MULTILINE) is not None


def plain(page):
    """A page's text without its code."""
    return FENCED.sub("", text_of(page))


def anchors(page):
    """The names under which a page's headings are linked."""
    return {re.sub(r"[^\w\- ]", "", heading.lower()).replace(" ", "-") for heading in HEADING.findall(plain(page))}


def code():
    """The text of each file of the crates' code, tests left out."""
    return [text_of(path) for path in sorted(CRATES.glob("*/src/**/*.rt")) if "tests" not in path.parts]


def specs():
    """The text of each file of the crates' definitions."""
    return [text_of(path) for path in sorted(CRATES.glob("*/specs/**/*.antt"))]


@functools.cache
def constants():
    """The constants of the code whose values are numbers, sums or products, each with the texts that it has somewhere."""
    found = {}
    for name, value in (pair for text in code() for pair in CONSTANT.findall(text)):
        found.setdefault(name, set()).add(value)
    return found


def value_of(name):
    """The value of a constant, which is one wherever the name stands."""
    (text,) = constants()[name]
    total = 0
    for term in re.sub(r" as \w+", "", text).split("+"):
        value = 1
        for sign, part in re.findall(r"([*/]?) *(\w+)", term):
            number = int(part.replace("_", "")) if part[0].isdigit() else value_of(part)
            value = value // number if sign == "/" else value * number
        total += value
    return total


def rows_under(heading):
    """The cells of each row of the table under a heading of RULES."""
    part = text_of(ROOT / "docs" / "RULES.md").split(f"\n## {heading}\n")[1].split("\n## ")[0]
    return [row.split(" | ") for row in ROW.findall(part)]


def written_texts():
    """The files that show a report or a readable tape, or find one by its first line: pages, examples, scripts, code and its tests."""
    # What is built of the examples stands beside them, under names without an ending.
    examples = sorted(path for path in (ROOT / "clib" / "examples").iterdir() if path.suffix)
    yield from [*PAGES, ROOT / "python" / "README.md", *sorted(TOOLS.glob("*.py")), *examples]
    yield from [*sorted(CRATES.glob("*/src/**/*.rt")), *sorted(BENCH.glob("src/**/*.rs")), *sorted(BENCH.glob("tests/*.rs"))]


class Pages(unittest.TestCase):
    def test_quotations_are_exact(self):
        """crates/*/README.md: each Rust block is in the file that the line before it names, as it is quoted."""
        for page in PAGES:
            for block, before in quotations(page):
                source = SOURCE.search(before)
                self.assertIsNotNone(source, f"{page.parent.name}: a block whose file is not named: {block.splitlines()[0]}")
                text = text_of(CRATES / source.group(1))
                for piece in pieces(block):
                    with self.subTest(page=page.parent.name, file=source.group(1), piece=piece.splitlines()[0]):
                        self.assertTrue(stands(piece, text))

    def test_each_library_has_a_caller(self):
        """crates/*/README.md: the first page of each library shows a caller."""
        for crate in filter(is_called, sorted(CRATES.iterdir())):
            with self.subTest(crate.name):
                self.assertTrue(quotations(crate / "README.md"))

    def test_links_lead_somewhere(self):
        """Each link of a page to a file or a heading of the repository leads there."""
        for page in PAGES:
            for link in LINK.findall(plain(page)):
                if link.startswith(("http://", "https://")):
                    continue
                name, _, anchor = link.partition("#")
                target = (page.parent / name).resolve() if name else page
                with self.subTest(page=str(page.relative_to(ROOT)), link=link):
                    self.assertTrue(target.exists())
                    line = LINE.fullmatch(anchor)
                    if line and target.suffix == ".rt":
                        self.assertLessEqual(int(line[1]), len(text_of(target).splitlines()))
                    else:
                        self.assertTrue(not anchor or anchor in anchors(target))

    def test_files_that_pages_name_exist(self):
        """Each file that a page names is there: next to the page, in the crate's code, or from crates/ or another folder on."""
        folders = [CRATES, ROOT, *(ROOT / name for name in ("bench", "dev", "docs", "packaging", "samples", "tests", "tools"))]
        for page in PAGES:
            for name in set(FILE.findall(plain(page))):
                with self.subTest(page=str(page.relative_to(ROOT)), name=name):
                    self.assertTrue(any((folder / name).exists() for folder in [page.parent, page.parent / "src", *folders]))

    def test_first_lines_and_rows(self):
        """FORMATS, "The report's text" and "A readable tape": whatever writes out a first line has all columns, and a row has a field for each."""
        found = collections.Counter()
        for path in written_texts():
            for line in FIRST_LINE.finditer(text_of(path)):
                found[line[1]] += 1
                with self.subTest(file=str(path.relative_to(ROOT)), line=line[0]):
                    self.assertEqual(line[0], FIRST_LINES[line[1]])
            for columns, rows in TEXT_ROWS:
                for row in rows.findall(text_of(path)):
                    found[columns] += 1
                    with self.subTest(file=str(path.relative_to(ROOT)), row=row):
                        self.assertEqual(row.count(","), columns.count(","))
        self.assertEqual(found.keys(), {*FIRST_LINES, *FIRST_LINES.values()})

    def test_columns_of_the_page(self):
        """web/worker.js: the numbers of columns by which the page cuts its texts are those of the report, the readable tape and the explanation."""
        told = dict(re.findall(r"\b([A-Z]+)_COLUMNS = (\d+)", text_of(ROOT / "web" / "worker.js")))
        columns = {"REPORT": HEADINGS.split(","), "TAPE": TAPE_COLUMNS, "EXPLAIN": plain_explain.COLUMNS}
        self.assertEqual(told, {name: str(len(names)) for name, names in columns.items()})

    def test_files_of_the_page(self):
        """web/README, "Files": the table names each file of web/, what is built there left out."""
        page = text_of(ROOT / "web" / "README.md").split("\n## Files\n")[1].split("\n## ")[0]
        named = [name for row in ROW.findall(page) for name in CODE.findall(row.split(" | ")[0])]
        files = [path.name for path in (ROOT / "web").iterdir() if path.is_file() and path.suffix != ".wasm" and path.name not in ("README.md", "tapebox.html")]
        self.assertEqual(sorted(named), sorted(files))

    def test_one_name(self):
        """web/: the page for tables and the board of a running day have one name."""
        names = {re.search(r"<title>(\w+): .*<h1>(\w+)</h1>", text_of(ROOT / "web" / name), re.DOTALL).groups() for name in ("index.html", "board.html")}
        self.assertEqual(names, {("Tapebox", "Tapebox")})

    def test_ten_points(self):
        """docs/PROMISES.md, "In short": there are ten points, each in few words, with a link to what keeps it."""
        part = text_of(ROOT / "docs" / "PROMISES.md").split("\n## In short\n")[1].split("\n## ")[0]
        sentences = SENTENCE.findall(part)
        self.assertEqual(len(sentences), 10)
        for sentence in sentences:
            with self.subTest(sentence):
                self.assertLessEqual(len(re.sub(r"\]\([^)]*\)", "", sentence).split()), WORDS_MOST)
                self.assertRegex(sentence, LINK)

    def test_libraries_of_the_kit(self):
        """docs/PROMISES.md, "What is trusted": the libraries of the kit are those that crates.txt names."""
        lines = [line.split(":") for line in text_of(ROOT / "crates.txt").splitlines() if not line.startswith("#")]
        used = {name for _, names in lines for name in names.split()} - {of.split()[0] for of, _ in lines}
        named = re.search(r"the statements of the kit's libraries in use: std,([^.]*)\.", text_of(ROOT / "docs" / "PROMISES.md"))[1]
        self.assertEqual(CODE.findall(named), sorted(used))

    def test_each_public_call_is_printed(self):
        """docs/PROMISES.md, "Call by call": the script prints each crate's public calls, with what each is for, and a clause of most."""
        self.assertEqual([name for name in promises.crates() if is_called(CRATES / name) and not list(promises.calls_of(CRATES / name))], [])
        calls = [call for name in promises.crates() for call in promises.calls_of(CRATES / name)]
        for call in calls:
            with self.subTest(f"{call.file}:{call.line}"):
                self.assertTrue(call.words)
                self.assertTrue(all(clause.says for clause in call.clauses))
        self.assertGreater(sum(bool(call.clauses) for call in calls), 0.9 * len(calls))

    def test_each_definition_is_printed(self):
        """docs/PROMISES.md, "Call by call": the script prints each crate's public definitions, with a comment over each."""
        for crate in definitions.crates():
            files = [path for path in sorted((CRATES / crate / "specs").glob("*.antt")) if path.stem not in ("Lib", "Lemmas")]
            printed = "".join(definitions.lines_of_crate(crate))
            for path in files:
                with self.subTest(path.relative_to(CRATES)):
                    self.assertIn(f"**`{path.relative_to(CRATES)}`**", printed)

    def test_parts_from_the_tree(self):
        """docs/TESTED.md and docs/MESSAGE.md: the counts, and the lines that are linked, are those of the tree; run dev/page_parts.py if this fails."""
        for page, written in [(page_parts.TESTED, page_parts.counted), (page_parts.MESSAGE, page_parts.linked)]:
            with self.subTest(page.name):
                self.assertEqual(text_of(page).splitlines(), written(text_of(page)).splitlines())

    def test_clauses_of_a_message(self):
        """docs/MESSAGE.md: each clause that a step names is one of the functions that it links to."""
        for row in ROW.findall(text_of(page_parts.MESSAGE)):
            links = re.findall(r"\]\(\.\./crates/([\w/]+\.rt)#L(\d+)\)", row)
            if links:
                known = set()
                for file, line in links:
                    known |= {clause.name for clause in promises.clauses_below(text_of(CRATES / file).splitlines(), int(line))}
                named = re.findall(r"`(\w+)`(?=[:,])", row.split(" | ")[-1])
                with self.subTest(row[:60]):
                    self.assertTrue(named)
                    self.assertLessEqual(set(named), known)

    def test_printed_numbers_are_those_of_the_code(self):
        """If a page prints a limit's number, it is the value of the constant in the code."""
        for page, phrases in PRINTED.items():
            text = " ".join(text_of(ROOT / page).split())
            for phrase in phrases:
                with self.subTest(page=page, phrase=phrase):
                    self.assertIn(re.sub(r"\{(\w+)\}", lambda name: f"{value_of(name[1]):,}", phrase), text)

    def test_limits_are_those_of_the_code(self):
        """docs/RULES.md, "Limits": a limit has the value that its constant has in the code and in the definitions."""
        values = [pair for text in [*code(), *specs()] for pair in LIMIT.findall(text)]
        for _what, _least, most, name in rows_under("Limits")[1:]:
            named = NAME.search(name).group()
            with self.subTest(named):
                for value in {int(value) for known, value in values if known == named}:
                    self.assertEqual(f"{value:,}", most)

    def test_refusals_are_those_of_the_definitions(self):
        """docs/RULES.md, "Refusals by number and name": each number that a definition gives has its name there."""
        listed = {(number, name) for row in rows_under("Refusals by number and name") for number, name in re.findall(r"(\d+) (\w+)", row[1])}
        for name, number in (pair for text in specs() for pair in NUMBER.findall(text)):
            with self.subTest(name=name, number=number):
                self.assertTrue(any(number == known and name.endswith(shown) for known, shown in listed))

    @unittest.skipUnless((ROOT / "docs" / "speed.json").exists(), "bench/all.py has not measured yet")
    def test_speeds_are_those_that_were_measured(self):
        """docs/SPEED.md: what is between its marks is what bench/all.py wrote of the figures in docs/speed.json; run it with --page if this fails."""
        page, figures = text_of(ROOT / "docs" / "SPEED.md"), json.loads(text_of(ROOT / "docs" / "speed.json"))
        self.assertEqual(page.splitlines(), speed_page.written(page, figures).splitlines())
        marked = {mark[2] for mark in speed_page.MARKED.finditer(page)}
        self.assertEqual(marked, {*speed_page.WRITERS, *speed_page.TABLES})
        self.assertNotRegex(page, r"-->\s*<!-- end -->", "a mark without a figure")
        needed = {part for _, *parts in speed_page.TABLES.values() for part in parts}
        self.assertLessEqual(needed, figures["parts"].keys())

    @unittest.skipUnless((ROOT / "docs" / "speed.json").exists(), "bench/all.py has not measured yet")
    def test_the_plot_has_these_speeds(self):
        """docs/SPEED.md: docs/speed.svg is drawn of the figures in docs/speed.json, and ends at the times of the table above it; run bench/all.py --page if this
        fails."""
        figures = json.loads(text_of(ROOT / "docs" / "speed.json"))
        drawn = text_of(ROOT / "docs" / "speed.svg")
        self.assertEqual(drawn, speed_page.drawing(figures))
        ends = {record["program"]: min(record["seconds"]) for record in figures["parts"]["batch"]["records"] if record["day"] == "hostile"}
        for program in ("tapebox", "indexed"):
            self.assertIn(f">{program} {ends[program]:.2f} s<", drawn)

    def test_missed_aims_are_marked(self):
        """docs/SPEED.md: a figure that misses the aim that the page states is marked, and no other."""
        page = " ".join(text_of(ROOT / "docs" / "SPEED.md").split())
        self.assertIn("The aims for time are {one} on `one`, {busy} on `busy` and {hostile} on `hostile`".format(**speed_page.BATCH_AIMS), page)
        self.assertIn(f"where the aim is a ratio of at most {speed_page.LEAST_AIM} ", page)
        for aim, told in zip(speed_page.LIVE_AIMS.values(), ("{:,} messages a second without the relay", "{:,} through the relay with losses")):
            self.assertIn(told.format(aim), page)
        self.assertEqual(speed_page.with_aim(["0.46", "0.1"], 0.45), ["0.46, misses the aim", "0.1"])
        self.assertEqual(speed_page.with_aim(["0.45"], 0.45), ["0.45"])
        for speed, told in ((199_999, "200,000, misses the aim"), (200_000, "200,000")):
            record = {"lines": 15, "run": "10 % lost on each line", "messages": speed, "seconds": 1, "asked": 0, "batch": 1, "wire": 1}
            self.assertIn(f" {told} |", speed_page.live({"live": [record]})[-1])

    @unittest.skipUnless((ROOT / ".git").exists() and git("rev-parse", "--is-shallow-repository") == (0, "false\n"), "git does not have all commits")
    def test_commits_that_pages_name(self):
        """Each commit that a page names is in the repository."""
        for page in PAGES:
            for commit in COMMIT.findall(text_of(page)):
                with self.subTest(page=str(page.relative_to(ROOT)), commit=commit):
                    self.assertEqual(git("cat-file", "-e", f"{commit}^{{commit}}"), (0, ""))

    @unittest.skipUnless((ROOT / "docs" / "speed.json").exists(), "bench/all.py has not measured yet")
    def test_other_pages_have_these_speeds(self):
        """README, "Three figures", and docs/SCALE.md: what is between their marks comes of the same figures; run bench/all.py --page if this fails."""
        figures = json.loads(text_of(ROOT / "docs" / "speed.json"))
        for name, writers in speed_page.OTHERS.items():
            page = text_of(ROOT / name)
            with self.subTest(name):
                self.assertEqual(page.splitlines(), speed_page.written(page, figures).splitlines())
                self.assertEqual({mark[2] for mark in speed_page.MARKED.finditer(page)}, {*writers})


if __name__ == "__main__":
    unittest.main()
