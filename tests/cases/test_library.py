"""The static library for other languages: what it exports, its layouts, its examples, and the cases of its Python package."""

import ctypes
import math
import os
import re
import shlex
import shutil
import subprocess
import sys
import tempfile
import unittest
import unittest.mock
from pathlib import Path

from refused import MOST, run_refused
from support import CRATES, ROOT, SAMPLES, Case, desk, run

CLIB = ROOT / "clib"
PYTHON = ROOT / "python"
# The proved library, or else its draft.
BUILT = CRATES / "tapebox_c" / "out" / "libtapebox_c.a"
# The one that `clib/build link` takes.
ARCHIVE = max((BUILT, BUILT.with_suffix(".a.draft")), key=lambda file: file.stat().st_mtime if file.exists() else 0)
HEADER = CLIB / "tapebox.h"
COMPILER = os.environ.get("CC", "cc")
TABLES = sorted(SAMPLES.glob("*.csv"))
# The header's structs by the names that the Python package has for them, and its fields if they have another name.
STRUCTS = {
    "Mark": "mark",
    "Figures": "figures",
    "Answer": "answer",
    "EntryRow": "entry_row",
    "Fields": "fields",
    "Message": "message",
    "Taken": "taken",
    "Request": "request",
    "News": "news",
    "Packet": "packet",
    "PacketFields": "packet_fields",
    "RequestFields": "request_fields",
    "Reply": "reply",
    "Many": "many",
    "Totals": "totals_row",
    "Name": "name",
    "Cells": "cells_row",
    "Handle": "handle",
}
RENAMED = {"from_": "from", "is_open": "state"}
# The crate's structs that the package names otherwise than without `Row`.
OF_THE_CRATE = {"SummaryRow": "Figures", "EntryRow": "EntryRow"}
# What crosses to C of the crate's types: a handle's two parts lie as its pointer does, and an allocator has no bytes.
TYPES = {"u8": ctypes.c_uint8, "u32": ctypes.c_uint32, "u64": ctypes.c_uint64, "usize": ctypes.c_size_t, "bool": ctypes.c_bool}
TYPES |= {"*mut u8": ctypes.c_void_p, "Inside": ctypes.c_void_p}
PRINTS_LAYOUT = """#include "{header}"
#include <stdio.h>

int main(void) {{
{lines}    return 0;
}}
"""

# Reads the table on standard input three times, the third after what was held is freed, and prints the first call's number, what is held in
# words then, and the numbers of the other two. Nothing else in it takes memory.
READS_REFUSED = """#include "{header}"
#include <stdio.h>

int main(void) {{
    static uint8_t table[4096], words[4096];
    setvbuf(stdin, NULL, _IONBF, 0);
    setvbuf(stdout, NULL, _IONBF, 0);
    tapebox_handle handle = TAPEBOX_HANDLE;
    size_t len = fread(table, 1, sizeof table, stdin);
    unsigned first = tapebox_read_table(&handle, table, len);
    size_t count = tapebox_text_copy(&handle, 0, words, sizeof words);
    unsigned again = tapebox_read_table(&handle, table, len);
    tapebox_free(&handle);
    unsigned freed = tapebox_read_table(&handle, table, len);
    tapebox_free(&handle);
    printf("%u,%.*s,%u,%u", first, (int)count, words, again, freed);
    return 0;
}}
"""


# Over clib/examples/tapebox.hpp: prints the report of the table on standard input, sends a tape to a subscriber, and names two refusals.
USES_CPP = r"""#include "{header}"
#include <iostream>
#include <iterator>

int main() {{
    const std::string given((std::istreambuf_iterator<char>(std::cin)), {{}});
    std::cout << tapebox::table(given).report();
    tapebox::tape tape("AB", "N");
    tapebox::subscriber line("AB", "N", 7), other("AB", "N", 7);
    const char report[] = "\0\x26RN\0\0\0\1\0\0\0\0\0\0\0\0AB      \0\0\0\0\0\1\x86\xa0\0\0\0\x64@ Z ";
    tape.admit(std::string_view(report, sizeof report - 1));
    line = std::move(other);
    line.deliver(0, tape.packet(7, 1));
    std::cout << line.drain() << ' ' << line.size() << ' ' << line.news().held << ' ' << line.missing().has_value() << ' ' << line.entry(1).len << '\n';
    tape.close();
    for (const std::string_view bytes : {{std::string_view(report, sizeof report - 1), std::string_view()}}) {{
        try {{
            tape.admit(bytes);
        }} catch (const tapebox::refused &refusal) {{
            std::cout << refusal.what() << '\n';
        }}
    }}
    try {{
        tapebox::table read("kind");
    }} catch (const tapebox::refused &refusal) {{
        std::cout << (refusal.code == TAPEBOX_BAD_TABLE) << '\n';
    }}
    return 0;
}}
"""


def package():
    """The Python package over the library that was linked here."""
    if str(PYTHON) not in sys.path:
        sys.path.insert(0, str(PYTHON))
    # Other cases start programs of their own over the library that stands in clib/.
    with unittest.mock.patch.dict(os.environ, {"TAPEBOX_LIBRARY": str(Linked.library)}):
        import tapebox

    return tapebox


def others():
    """The further compilers of C that are there."""
    return [name for name in ("gcc", "clang") if shutil.which(name) and name != COMPILER]


def compiled(folder, source, *flags, compiler=COMPILER):
    """A program of this C text, or none if it does not compile."""
    (folder / "source.c").write_text(source, encoding="utf-8")
    words = [*shlex.split(compiler), "-std=c11", "-Wall", "-Wextra", "-Werror", "-o", folder / "compiled", folder / "source.c", *flags]
    done = subprocess.run(words, stdout=subprocess.DEVNULL, stderr=subprocess.DEVNULL, check=False)
    return None if done.returncode else folder / "compiled"


def fields_of(structure):
    """A structure's fields, as it is defined: name, offset and length in bytes."""
    return [(RENAMED.get(name, name), getattr(structure, name).offset, getattr(structure, name).size) for name, _ in structure._fields_]


def length_of(text):
    """A length of an array in the crate: a number, a constant of the sources, or a sum of products of these."""
    if re.fullmatch("[0-9_]+", text):
        return int(text)
    if not text.isidentifier():
        return sum(math.prod(map(length_of, term.split(" * "))) for term in text.split(" + "))
    files = CRATES.glob("*/src/*.rt")
    [value] = {value for file in files for value in re.findall(rf"\bconst {text}: usize = ([^;]+);", file.read_text(encoding="utf-8"))}
    return length_of(value)


def crate_structures():
    """The structs of the crate that C sees, laid out by C's rules, each by its fields as they are declared."""
    structures = {}
    for file in ("rows", "handle"):
        text = (CRATES / "tapebox_c" / "src" / f"{file}.rt").read_text(encoding="utf-8")
        for name, body in re.findall(r"#\[repr\(C\)\]\n(?:#\[derive[^\n]*\n)?pub struct (\w+) \{\n(.*?)\n\}", text, re.DOTALL):
            fields = []
            for field, kind in re.findall(r"^    (?:pub )?(\w+): ([^,{]+),$", body, re.MULTILINE):
                array = re.fullmatch(r"\[u8; (\w+)\]", kind)
                fields.append((field, ctypes.c_uint8 * length_of(array[1]) if array else TYPES.get(kind) or structures[kind]))
            structures[name] = type(name, (ctypes.Structure,), {"_fields_": fields})
    return structures


@unittest.skipUnless(shutil.which(shlex.split(COMPILER)[0]), "there is no C compiler")
@unittest.skipUnless(ARCHIVE.exists(), "crates/tapebox_c was not built (clib/build)")
class Linked(Case):
    """Cases over what is linked of the static library as it was built."""

    @classmethod
    def setUpClass(cls):
        folder = tempfile.TemporaryDirectory()
        cls.addClassCleanup(folder.cleanup)
        cls.folder = Path(folder.name)
        cls.link(cls.folder)
        Linked.library, Linked.archive = cls.folder / "libtapebox.so", cls.folder / "libtapebox.a"

    @staticmethod
    def link(folder, compiler=COMPILER, flags=""):
        """Links the shared library and the examples, with no warning."""
        done = run(["link", folder], program=CLIB / "build", env=os.environ | {"CC": compiler, "CFLAGS": f"-Werror {flags}"})
        if done.status:
            raise AssertionError(done.said.decode())

    def assert_reports(self, folder, *examples):
        """These examples print the report of each sample that the program prints, and say nothing but which rows are refused."""
        for table in TABLES:
            given = table.read_bytes()
            wanted, batch = desk("report", given=given), desk("encode", given=given).written
            self.assertEqual(wanted.status, 0)
            refused = sum(map(int, re.findall(rb": (\d+) of \d+ rows? refused", wanted.said)))
            for example in examples:
                with self.subTest(table.name, example=example):
                    got = run([], batch, program=folder / "examples" / example)
                    self.assertEqual((got.status, got.written), (0, wanted.written))
                    self.assertRegex(got.said, rb"\A(refused \d+\n){%d}\Z" % refused)


class Examples(Linked):
    def test_reports_in_c(self):
        """clib/examples: a tape in C has the report of each sample, and so has a subscriber to which C sends it on two lines that lose packets, by
        gcc and by clang, with no warning."""
        self.assert_reports(self.folder, "report", "feed")
        for compiler in others():
            with self.subTest(compiler), tempfile.TemporaryDirectory() as name:
                self.link(Path(name), compiler=compiler)
                self.assert_reports(Path(name), "report", "feed")

    def test_reports_in_cpp(self):
        """clib/examples: so has a tape in C++17, by tapebox.hpp, which a program with a subscriber and a table uses too."""
        compilers = [name for name in ("g++", "clang++") if shutil.which(name)]
        if not compilers:
            self.skipTest("there is no C++ compiler")
        for compiler in compilers:
            with self.subTest(compiler):
                words = ["-std=c++17", "-O1", "-Wall", "-Wextra", "-Werror", "-o", self.folder / "examples" / "cpp", CLIB / "examples" / "report.cpp"]
                done = run([*words, self.archive], program=compiler)
                self.assertEqual((done.status, done.said), (0, b""))
                self.assert_reports(self.folder, "cpp")
                (self.folder / "uses.cpp").write_text(USES_CPP.format(header=CLIB / "examples" / "tapebox.hpp"), encoding="utf-8")
                words = ["-std=c++17", "-O1", "-Wall", "-Wextra", "-Werror", "-o", self.folder / "uses", self.folder / "uses.cpp", self.archive]
                done = run(words, program=compiler)
                self.assertEqual((done.status, done.said), (0, b""))
                table = TABLES[0].read_bytes()
                wanted = desk("report", given=table).written + b"1 1 1 0 40\n31 Closed\n12 Short\n1\n"
                self.assert_writes(run([], table, program=self.folder / "uses"), wanted)

    @unittest.skipUnless(shutil.which("rustc"), "there is no rustc")
    def test_reports_in_rust(self):
        """clib/examples: so has a tape in Rust."""
        words = ["--edition", "2024", "-O", "-D", "warnings", "-o", self.folder / "examples" / "rust", CLIB / "examples" / "report.rs"]
        done = run([*words, "-L", self.folder], program="rustc")
        self.assertEqual((done.status, done.said), (0, b""))
        self.assert_reports(self.folder, "rust")

    def test_reports_in_python(self):
        """clib/examples: so has a tape in Python."""
        for table in TABLES:
            with self.subTest(table.name):
                options = {"program": sys.executable, "env": os.environ | {"TAPEBOX_LIBRARY": str(self.library)}}
                got = run(["-B", CLIB / "examples" / "report.py", table], **options)
                self.assertEqual((got.status, got.written), (0, desk("report", given=table.read_bytes()).written))

    def assert_texts(self, folder):
        """The example of texts writes what the program does of each sample, by each matrix, and names a table's fault."""
        for table in TABLES:
            given = table.read_bytes()
            for word in ("report", "tape", "explain"):
                for matrix in ("1", "2"):
                    with self.subTest(table.name, word=word, matrix=matrix):
                        wanted = desk(word, given=given, matrix=matrix)
                        got = run([word, matrix], given, program=folder / "examples" / "texts")
                        self.assertEqual((got.status, got.written, got.said), (0, wanted.written, b""))
        fault = run(["tape"], TABLES[0].read_bytes().replace(b",100,", b",0,", 1), program=folder / "examples" / "texts")
        self.assertEqual((fault.status, fault.written), (2, b""))
        self.assertRegex(fault.said, rb'\Arow \d+: size "0" is not 1 to 99999999 in at most 20 digits\n\Z')

    def test_texts_in_c(self):
        """clib/examples/texts.c: a table's texts of the library are those of the program."""
        self.assert_texts(self.folder)

    def test_examples_under_a_sanitizer(self):
        """clib/tapebox.h: what the examples keep is freed at their end, and nothing outside it is read or written."""
        flag = "-fsanitize=address,undefined"
        for compiler in [COMPILER, *others()]:
            with self.subTest(compiler), tempfile.TemporaryDirectory() as name:
                folder = Path(name)
                if not compiled(folder, "int main(void) { return 0; }\n", flag, compiler=compiler):
                    self.skipTest(f"{compiler} has no sanitizers")
                # The shared library is not linked so: clang leaves the sanitizer's own calls undefined in one.
                (folder / "examples").mkdir()
                program, *words = shlex.split(compiler)
                for example in ("report", "feed", "texts"):
                    more = ["-std=c11", "-O2", "-Wall", "-Wextra", "-Werror", flag, "-o", folder / "examples" / example]
                    done = run([*words, *more, CLIB / "examples" / f"{example}.c", self.archive], program=program)
                    self.assertEqual((done.status, done.said), (0, b""))
                self.assert_reports(folder, "report", "feed")
                self.assert_texts(folder)
                self.assert_leak_is_seen(folder, flag, compiler)

    def assert_leak_is_seen(self, folder, flag, compiler):
        """What is not freed is seen."""
        lost = (CLIB / "examples" / "report.c").read_text(encoding="utf-8").replace("tapebox_free(&tape);", "tape.inside = NULL;")
        self.assertNotIn("tapebox_free", lost)
        (folder / "day.h").write_text((CLIB / "examples" / "day.h").read_text(encoding="utf-8").replace("../tapebox.h", str(HEADER)), encoding="utf-8")
        leaks = compiled(folder, lost, flag, self.archive, compiler=compiler)
        self.assertTrue(leaks)
        ended = run([], b"AB\nN\n", program=leaks)
        self.assertNotEqual(ended.status, 0)
        self.assertIn(b"detected memory leaks", ended.said)


class Interface(Linked):
    def test_layouts(self):
        """clib/tapebox.h, python/tapebox: each struct has the same fields at the same places in both."""
        rows = vars(package()._library)
        structures = {name: rows[name] for name in STRUCTS}
        everything = {name for name, value in rows.items() if isinstance(value, type) and issubclass(value, ctypes.Structure)}
        self.assertEqual(everything, set(STRUCTS))
        self.assertEqual(set(re.findall(r"^\} tapebox_(\w+);", HEADER.read_text(encoding="utf-8"), re.M)), set(STRUCTS.values()))
        lines, wanted = "", []
        for name, struct in STRUCTS.items():
            lines += f'    printf("{struct} %zu\\n", sizeof(tapebox_{struct}));\n'
            wanted.append(f"{struct} {ctypes.sizeof(structures[name])}")
            for field, offset, size in fields_of(structures[name]):
                of = f"tapebox_{struct}, {field}"
                lines += f'    printf("{struct} {field} %zu %zu\\n", offsetof({of}), sizeof((({"tapebox_" + struct} *)0)->{field}));\n'
                wanted.append(f"{struct} {field} {offset} {size}")
        with tempfile.TemporaryDirectory() as name:
            program = compiled(Path(name), PRINTS_LAYOUT.format(header=HEADER, lines=lines))
            self.assertTrue(program)
            self.assertEqual(run([], program=program).written.decode().splitlines(), wanted)

    def test_layouts_of_the_crate(self):
        """clib/tapebox.h: each struct has the fields, at the places and of the lengths, that the crate's own definition gives it, which is one by C's
        rules (`repr(C)`)."""
        rows = vars(package()._library)
        for name, structure in crate_structures().items():
            with self.subTest(name):
                known = rows[OF_THE_CRATE.get(name, name.removesuffix("Row"))]
                self.assertEqual((ctypes.sizeof(structure), fields_of(structure)), (ctypes.sizeof(known), fields_of(known)))
        self.assertEqual({OF_THE_CRATE.get(name, name.removesuffix("Row")) for name in crate_structures()}, set(STRUCTS))

    def test_limits(self):
        """clib/tapebox.h, python/tapebox: both have the same limits and numbers of refusals, and RULES has the names."""
        header = HEADER.read_text(encoding="utf-8")
        for name in ("LONGEST_PACKET", "LONGEST_ANSWER"):
            self.assertEqual(re.findall(rf"^#define TAPEBOX_{name} (\d+)$", header, re.M), [str(getattr(package(), name))])
        rows = re.findall(r'^    ROW\((\d+), (\w+), "(\w+)"\)', header, re.M)
        self.assertEqual({int(number): name for number, _, name in rows}, package().NAMES)
        for number, constant, name in rows:
            self.assertEqual(constant.removesuffix(f"_{number}").title().replace("_", ""), name)
        lines = "".join(f'    printf("%d %s\\n", TAPEBOX_{constant}, tapebox_refusal_name({number}));\n' for number, constant, _ in rows)
        lines += '    printf("%s %s\\n", tapebox_refusal_name(0), tapebox_refusal_name(10));\n'
        with tempfile.TemporaryDirectory() as name:
            program = compiled(Path(name), PRINTS_LAYOUT.format(header=HEADER, lines=lines))
            self.assertTrue(program)
            self.assertEqual(run([], program=program).written.decode().splitlines(), [*(f"{number} {name}" for number, _, name in rows), "Admitted ?"])
        rules = (ROOT / "docs" / "RULES.md").read_text(encoding="utf-8")
        for number, name in package().NAMES.items():
            self.assertRegex(rules, rf"\b{number} {name}\b")

    def test_calls(self):
        """clib/tapebox.h, python/tapebox: both have each call that the crate exports, and no other."""
        exported = set()
        for source in (CRATES / "tapebox_c" / "src").glob("*.rt"):
            exported |= set(re.findall(r'pub extern "C" fn (\w+)', source.read_text(encoding="utf-8")))
        self.assertEqual(set(re.findall(r"\b(tapebox_\w+)\(", HEADER.read_text(encoding="utf-8"))) - {"tapebox_refusal_name", "tapebox_version"}, exported)
        python = (PYTHON / "tapebox" / "_library.py").read_text(encoding="utf-8")
        self.assertEqual({f"tapebox_{name}" for name in re.findall(r'^    "(\w+)": \[', python, re.M)}, exported)
        library = ctypes.CDLL(str(self.library))
        for name in exported:
            self.assertTrue(getattr(library, name))

    def test_a_table_without_memory(self):
        """clib/tapebox.h: whichever request of `tapebox_read_table` is refused, it returns 109, and the handle holds the words "out of memory" and has
        to be freed before it reads again, or it holds nothing, and reads again at once."""
        good = TABLES[0].read_bytes()
        with tempfile.TemporaryDirectory() as name:
            program = compiled(Path(name), READS_REFUSED.format(header=HEADER), self.archive)
            self.assertTrue(program)
            for table, code in ((good, "0"), (good.replace(b",100,", b",0,", 1), "111")):
                ends = set()
                for request in range(1, MOST):
                    was_met, ended = run_refused([], request, given=table, program=program)
                    self.assertEqual((ended.status, ended.said), (0, b""))
                    first, words, again, freed = ended.written.decode().split(",")
                    if not was_met:
                        break
                    ends.add((first, words, again, freed))
                with self.subTest(code):
                    self.assertEqual((first, again, freed), (code, "103", code))
                    # The last is a refusal of the third reading.
                    self.assertEqual(ends, {("109", "out of memory", "103", code), ("109", "", code, code), (code, words, "103", "109")})

    def test_the_header_in_cpp(self):
        """clib/tapebox.h: it is C++ too."""
        compiler = shutil.which(os.environ.get("CXX", "c++"))
        if not compiler:
            self.skipTest("there is no C++ compiler")
        ended = run(["-std=c++17", "-Wall", "-Wextra", "-Werror", "-fsyntax-only", "-include", HEADER, "-x", "c++", os.devnull], program=compiler)
        self.assertEqual((ended.status, ended.said), (0, b""))


    def test_the_version(self):
        """clib/tapebox.h: header, both libraries and the Python package have one version, which is in the shared library's name."""
        header = HEADER.read_text(encoding="utf-8")
        [version] = map(int, re.findall(r"^#define TAPEBOX_VERSION (\d+)$", header, re.M))
        self.assertEqual((package()._library.VERSION, package().__version__), (version, f"{version // 100}.{version % 100}"))
        self.assertIn(f'\nversion = "{package().__version__}"\n', (PYTHON / "pyproject.toml").read_text(encoding="utf-8"))
        line = '    printf("%u\\n", tapebox_version());\n'
        with tempfile.TemporaryDirectory() as name:
            program = compiled(Path(name), PRINTS_LAYOUT.format(header=HEADER, lines=line), self.archive)
            self.assert_writes(run([], program=program), f"{version}\n".encode())
            other = Path(name) / "other.so"
            for source in ("unsigned tapebox_version(void) { return 99; }", "unsigned tapebox_version(void) { return 200; }", "int other;"):
                self.assertTrue(compiled(Path(name), source, "-shared", "-fPIC"))
                os.replace(Path(name) / "compiled", other)
                ended = run(["-B", "-c", "import tapebox"], program=sys.executable, env=os.environ | {"TAPEBOX_LIBRARY": str(other), "PYTHONPATH": str(PYTHON)})
                self.assertRegex(ended.said, rb"ImportError: \S+ is of another version than 1\.0 of this package")
        if shutil.which("readelf"):
            self.assertIn(f"[libtapebox.so.{version // 100}]".encode(), run(["-d", self.library], program="readelf").written)


class Misuse(Linked):
    """What no caller in C has to keep, since clib/calls.c stands before each call."""

    def assert_prints(self, name, wanted, *flags):
        """A program of tests/calls over the library, under a sanitizer if there is one, prints this."""
        source = (ROOT / "tests" / "calls" / f"{name}.c").read_text(encoding="utf-8").replace("../../clib/tapebox.h", str(HEADER))
        sanitizer = "-fsanitize=address,undefined"
        with tempfile.TemporaryDirectory() as folder:
            more = [sanitizer] if compiled(Path(folder), "int main(void) { return 0; }\n", sanitizer) else []
            program = compiled(Path(folder), source, "-Wcast-qual", *more, *flags, self.archive)
            self.assertTrue(program)
            self.assert_writes(run([], program=program), wanted)

    def test_null_pointers(self):
        """clib/tapebox.h: a null handle or row, and null for bytes of a length that is not 0, is refused by 113 and changes nothing; null with a length of
        0 is as bytes of that length."""
        self.assert_prints("nulls", b"113 calls\n")

    def test_a_handle_of_two_threads(self):
        """clib/tapebox.h: while one thread's call uses a handle, another's is refused by 112 or answers of the tape as it was before or after, and nothing
        of the tape is lost; so it is with two that only read at once."""
        self.assert_prints("shared", b"1 100000 100000\n", "-pthread")

    def test_two_that_write(self):
        """clib/tapebox.h: two threads that admit to one handle lose nothing, and a sanitizer of threads finds no race in clib/calls.c."""
        self.assert_prints("writers", b"40000 40000 40000\n", "-pthread")
        sanitizer = "-fsanitize=thread"
        with tempfile.TemporaryDirectory() as name:
            folder = Path(name)
            tried = compiled(folder, "int main(void) { return 0; }\n", sanitizer)
            if not tried or run([], program=tried).status:
                self.skipTest("there is no sanitizer of threads")
            self.link(folder, flags=sanitizer)
            source = (ROOT / "tests" / "calls" / "writers.c").read_text(encoding="utf-8").replace("../../clib/tapebox.h", str(HEADER))
            program = compiled(folder, source, "-pthread", sanitizer, folder / "libtapebox.a")
            self.assertTrue(program)
            self.assert_writes(run([], program=program), b"40000 40000 40000\n")

    def test_a_busy_handle(self):
        """clib/tapebox.h: each call of a handle that another is using is refused by 112, before all else but 113, and leaves the handle as it is."""
        self.assert_prints("busy", b"26 calls\n")

    def test_a_constant_handle(self):
        """clib/tapebox.h: the calls that only read take a const handle, in C and in C++, and one that is a constant holds nothing."""
        # The numbers of the 13 calls, by hand: without a tape, and of one that has no entry.
        wanted = "101 101 0 101 101 101 101 101 101 102 102 0 0\n36 36 0 105 0 0 0 105 108 102 102 0 0\n".encode()
        self.assert_prints("constant", wanted)
        compiler = shutil.which(os.environ.get("CXX", "c++"))
        if not compiler:
            self.skipTest("there is no C++ compiler")
        words = ["-x", "c++", "-std=c++17", "-Wall", "-Wextra", "-Wcast-qual", "-Werror", "-o", self.folder / "constant", ROOT / "tests" / "calls" / "constant.c"]
        ended = run([*words, "-x", "none", self.archive], program=compiler)
        self.assertEqual((ended.status, ended.said), (0, b""))
        self.assert_writes(run([], program=self.folder / "constant"), wanted)


class Package(Linked):
    def test_cases_of_the_package(self):
        """python/test_tapebox.py: the cases of the Python package."""
        options = {"program": sys.executable, "env": os.environ | {"TAPEBOX_LIBRARY": str(self.library)}}
        ended = run(["-B", PYTHON / "test_tapebox.py"], **options)
        self.assertEqual(ended.status, 0, ended.said.decode())
        self.assertRegex(ended.said, rb"Ran \d\d tests in .*\n\nOK\n")

    def test_the_types(self):
        """python/README.md: mypy finds no fault in the package's type hints."""
        mypy = shutil.which("mypy")
        if not mypy:
            self.skipTest("there is no mypy")
        with tempfile.TemporaryDirectory() as name:
            words = ["--strict", "--no-warn-return-any", "--ignore-missing-imports", "--python-version", "3.11", "--cache-dir", name, "-p", "tapebox"]
            ended = run(words, program=mypy, cwd=PYTHON)
        self.assertEqual(ended.status, 0, ended.written.decode())

    def test_a_frame(self):
        """python/README.md: `to_frame` has the entries as a frame of pandas."""
        pythons = [name for name in (sys.executable, "/usr/bin/python3") if not run(["-c", "import pandas, typing; typing.Self"], program=name).status]
        if not pythons:
            self.skipTest("there is no pandas")
        code = """import tapebox
frame = tapebox.Tape.from_csv('samples/morning.csv').to_frame()
print(frame.groupby('kind')['tape'].count().to_dict(), *[frame[name].dtype for name in ('tape', 'moment', 'target', 'size', 'volume', 'trades')])
"""
        options = {"program": pythons[0], "cwd": ROOT, "env": os.environ | {"TAPEBOX_LIBRARY": str(self.library), "PYTHONPATH": str(PYTHON)}}
        self.assert_writes(run(["-B", "-c", code], **options), b"{'cancel': 8, 'correct': 5, 'reinstate': 2, 'report': 21} Int64 UInt64 Int64 Int64 UInt64 Int64\n")

    def test_the_wheel(self):
        """python/README.md: the wheel holds the library, which needs the C library alone, and its files are those of its record; if it is
        installed, and nothing else of the repository is, what the page shows is written."""
        with tempfile.TemporaryDirectory() as name:
            environment = os.environ | {"TAPEBOX_LIBRARY": str(self.library), "PYTHONPATH": ""}
            words = ["-m", "pip", "install", "--no-index", "--no-deps", "--no-compile", "--quiet", "--disable-pip-version-check", "--target", name, PYTHON]
            if run(["-m", "pip", "--version"], program=sys.executable).status:
                self.skipTest("there is no pip")
            ended = run(words, program=sys.executable, env=environment)
            self.assertEqual(ended.status, 0, ended.said.decode())
            self.assertTrue(Path(name, "tapebox", "py.typed").exists())
            self.assertEqual(Path(name, "tapebox", "libtapebox.so").read_bytes(), self.library.read_bytes())
            [tags] = Path(name).glob("*.dist-info/WHEEL")
            self.assertRegex(tags.read_text(encoding="utf-8"), r"(?m)^Tag: py3-none-manylinux_2_\d+_\w+$")
            page = (PYTHON / "README.md").read_text(encoding="utf-8")
            shown = re.findall(r"```python\n(.*?)```\n\n((?:    [^\n]*\n)+)", page, re.DOTALL)
            self.assertEqual(len(shown), 3)
            for code, written in shown:
                # The page's later code has the first one's import.
                code = code if code.startswith("import") else f"import tapebox\n{code}"
                options = {"program": sys.executable, "cwd": ROOT, "env": environment | {"PYTHONPATH": name, "TAPEBOX_LIBRARY": ""}}
                with self.subTest(code):
                    self.assert_writes(run(["-B", "-c", code], **options), re.sub("(?m)^    ", "", written).encode())


class Builds(Case):
    def test_words(self):
        """clib/build says what it does, and takes no other words."""
        ended = run(["-h"], program=CLIB / "build")
        self.assertEqual((ended.status, ended.said), (0, b""))
        self.assertIn(b"Statuses", ended.written)
        for words in (["--all"], ["link", "a", "b"], ["a", "b"], ["--draft", "a", "b"]):
            with self.subTest(words):
                ended = run(words, program=CLIB / "build")
                self.assertEqual((ended.status, ended.written), (2, b""))
