"""packaging/package.sh: the package of the program at hand, installed into a root of its own, used there and removed."""

import os
import re
import shlex
import shutil
import subprocess
import tempfile
import unittest
from pathlib import Path

from support import PACKAGING, ROOT, SAMPLES, TAPEBOX, Case, Ended, connect, ended, ports, report, run, started, traded, wait_bound, wait_for

import board

# The package's own folders, which stay empty of it once it is removed.
OWN = ["etc/tapebox", "lib/systemd", "usr/bin", "usr/lib", "usr/share"]


def called(*words, **options):
    """What a command writes. Its fault is the case's."""
    done = subprocess.run([str(word) for word in words], capture_output=True, text=True, check=False, **options)
    if done.returncode:
        raise AssertionError(f"{words}: status {done.returncode}: {done.stdout}{done.stderr}")
    return done.stdout


def command(unit, key, folder):
    """A command of a unit for the day `day`, with the program at hand, and a folder in the place of the system's."""
    (line,) = re.findall(rf"(?m)^{key}=-?(.*)$", (ROOT / "packaging" / unit).read_text())
    for written, meant in [("/usr/bin/tapebox", TAPEBOX), ("/etc/tapebox", folder), ("%S", folder), ("%i", "day"), ("$$", "$")]:
        line = line.replace(written, str(meant))
    return shlex.split(line)


@unittest.skipUnless(shutil.which("dpkg-deb"), "no dpkg-deb")
class Package(Case):
    @classmethod
    def setUpClass(cls):
        folder = tempfile.TemporaryDirectory()
        cls.addClassCleanup(folder.cleanup)
        cls.folder = Path(folder.name)
        cls.words = ["--unproved", TAPEBOX] if TAPEBOX.is_draft else []
        cls.package = cls.folder / called(PACKAGING / "package.sh", *cls.words, cls.folder).strip()
        cls.version = re.match(r"tapebox ([\d.]+)", run(["--version"]).written.decode()).group(1)
        cls.root = cls.folder / "root"
        called("dpkg-deb", "-x", cls.package, cls.root)

    def installed(self, path):
        """A file of the package where it was laid out."""
        return self.root / path

    def test_the_version(self):
        """CHANGELOG: the package, the program, its manual page and the Python package have one version, and one that is not proved says so."""
        version = called("dpkg-deb", "-f", self.package, "Version").strip()
        self.assertEqual(version, self.version + ("~unproved" if TAPEBOX.is_draft else ""))
        self.assertEqual(self.package.name, f"tapebox_{version}_amd64.deb")
        self.assertTrue((ROOT / "CHANGELOG.md").read_text().partition("\n## ")[2].startswith(f"{self.version} ("))
        self.assertIn(f'\nversion = "{self.version}"\n', (ROOT / "python" / "pyproject.toml").read_text())
        log = called("gzip", "-dc", self.installed("usr/share/doc/tapebox/changelog.gz"))
        self.assertTrue(log.startswith(f"tapebox ({version}) "))

    def test_installed_and_removed(self):
        """packaging/package.sh: dpkg installs it into a root of its own, where a sample has its report and the tools find the program, and removes all of it."""
        if os.geteuid():
            self.skipTest("only root installs")
        root = self.folder / "other root"
        (root / "var/lib/dpkg/updates").mkdir(parents=True)
        (root / "var/lib/dpkg/info").mkdir()
        (root / "var/lib/dpkg/status").touch()
        dpkg = ["dpkg", f"--root={root}", "--force-depends"]
        called(*dpkg, "--install", self.package)
        program = root / "usr/bin/tapebox"
        sample = root / "usr/share/doc/tapebox/examples/corrections.csv"
        self.assertEqual(run(["report", sample], program=program), run(["report", SAMPLES / "corrections.csv"]))
        self.assertEqual(run(["--version"], program=program), run(["--version"]))
        self.assertEqual((root / "usr/lib/tapebox/tapebox").read_bytes(), Path(TAPEBOX).read_bytes())
        path = {key: value for key, value in os.environ.items() if key != "TAPEBOX"} | {"PATH": f"{program.parent}:{os.environ['PATH']}"}
        tools = root / "usr/share/tapebox/tools"
        named = run(["--names", sample], program=tools / "send_day.py", env=path)
        self.assertEqual(named, Ended(0, b"AB\nN,Q\n", b""))
        for tool in tools.iterdir():
            if tool.suffix in (".py", ".sh") and tool.name != "program.py":
                with self.subTest(tool.name):
                    self.assertEqual(run(["--help"], program=tool, env=path).status, 0)
        called(*dpkg, "--purge", "tapebox")
        self.assertEqual([left for own in OWN for left in (root / own).rglob("*") if not left.is_dir()], [])

    def test_the_library(self):
        """packaging/package.sh: in a root of its own the package's library links the examples by its file for pkg-config, static and shared, and they run
        there."""
        if not self.installed("usr/include/tapebox.h").exists():
            self.skipTest("the library was not built from the program's tree (clib/build)")
        for command in ("cc", "pkg-config"):
            if not shutil.which(command):
                self.skipTest(f"there is no {command}")
        libraries, examples = self.installed("usr/lib/x86_64-linux-gnu"), self.installed("usr/share/tapebox/clib")
        environment = os.environ | {"PKG_CONFIG_LIBDIR": str(libraries / "pkgconfig"), "PKG_CONFIG_SYSROOT_DIR": str(self.root)}
        flags = called("pkg-config", "--cflags", "--libs", "tapebox", env=environment | {"PKG_CONFIG_ALLOW_SYSTEM_CFLAGS": "1", "PKG_CONFIG_ALLOW_SYSTEM_LIBS": "1"}).split()
        self.assertEqual(called("pkg-config", "--modversion", "tapebox", env=environment).strip(), self.version)
        batch, wanted = run(["encode", SAMPLES / "morning.csv"]).written, run(["report", SAMPLES / "morning.csv"]).written
        for name, more in (("shared", flags), ("static", [*flags[:1], libraries / "libtapebox.a"])):
            with self.subTest(name):
                called("cc", "-std=c11", "-o", self.folder / name, examples / "report.c", *more)
                got = run([], batch, program=self.folder / name, env=os.environ | {"LD_LIBRARY_PATH": str(libraries)})
                self.assertEqual((got.status, got.written), (0, wanted))
        self.assertIn("libtapebox.so.1", called("ldd", self.folder / "shared", env=os.environ | {"LD_LIBRARY_PATH": str(libraries)}))
        self.assertNotIn("libtapebox", called("ldd", self.folder / "static"))

    def test_the_same_tree_gives_the_same_bytes(self):
        """packaging/package.sh: built again, the package has the same bytes."""
        again = self.folder / "again"
        again.mkdir()
        made = called(PACKAGING / "package.sh", *self.words, again).strip()
        self.assertEqual(Path(made).read_bytes(), self.package.read_bytes())

    def test_what_the_board_serves(self):
        """tools/board.py finds in the package what it serves."""
        for name, _ in board.FILES.values():
            self.assertTrue(self.installed(f"usr/share/tapebox/web/{name}").exists(), name)

    @unittest.skipUnless(shutil.which("lintian"), "no lintian")
    def test_lintian(self):
        """packaging/package.sh: lintian names no error."""
        self.assertNotRegex(called("lintian", "--allow-root", "--fail-on", "none", self.package), "(?m)^E: ")

    @unittest.skipUnless(shutil.which("man"), "no man")
    def test_the_manual_page(self):
        """packaging/package.sh: the manual page has each word as `--help` tells it and each status, and is set without a warning."""
        page = self.installed("usr/share/man/man1/tapebox.1.gz")
        done = subprocess.run(["man", "--warnings", "-l", page], capture_output=True, text=True, check=True, env=os.environ | {"MANWIDTH": "200", "LC_ALL": "C.UTF-8"})
        self.assertEqual(done.stderr, "")
        shown = " ".join(done.stdout.replace("\N{HYPHEN}\n", "").split())
        for word in re.findall(r"(?m)^tapebox ([a-z]+)(?: .*)?$", run(["--help"]).written.decode()):
            for line in run([word, "--help"]).written.decode().splitlines():
                with self.subTest(line):
                    self.assertIn(" ".join(line.removeprefix("tapebox ").split()), shown)
        for status in range(8):
            self.assertRegex(done.stdout, rf"(?m)^ +{status}  ")

    def test_completion(self):
        """packaging/package.sh: bash completes the program's words, the options of a word, and what an option takes."""
        script = self.installed("usr/share/bash-completion/completions/tapebox")
        words = re.findall(r"(?m)^tapebox ([a-z]+)(?: .*)?$", run(["--help"]).written.decode())
        for typed, wanted in [
            (["tapebox", ""], [*words, "--help", "--version"]),
            (["tapebox", "ver"], ["verify"]),
            (["tapebox", "report", "--"], ["--matrix", "--strict", "--help"]),
            (["tapebox", "report", "--matrix", ""], ["1", "2"]),
            (["tapebox", "report", "x"], []),
        ]:
            with self.subTest(typed):
                line = f'. "{script}"; COMP_WORDS=({" ".join(map(repr, typed))}); COMP_CWORD={len(typed) - 1}; _tapebox; printf "%s\\n" "${{COMPREPLY[@]}}"'
                self.assertEqual(called("bash", "-c", line).split(), wanted)

    @unittest.skipUnless(shutil.which("systemd-analyze"), "no systemd-analyze")
    def test_the_units(self):
        """packaging: systemd takes each unit's keys as they are. Of commands that this machine lacks nothing is said here."""
        for unit in sorted((ROOT / "packaging").glob("*.service")):
            with self.subTest(unit.name):
                done = subprocess.run(["systemd-analyze", "verify", unit], capture_output=True, text=True, check=False)
                lines = [line for line in done.stderr.splitlines() if "is not executable" not in line and "Command 'man " not in line]
                self.assertEqual(lines, [])

    def test_a_day_by_the_units(self):
        """packaging: by its units' commands a day hears no signal, is followed, and is ended by the word that stops it, with report and tape in their files."""
        with tempfile.TemporaryDirectory() as name:
            line, a, b, retransmission = ports(4)
            files = [Path(name, unit, "day.csv") for unit in ("tapebox-live", "tapebox-watch")]
            for file in files:
                file.parent.mkdir()
            keys = f'symbols = ["AB"]\nparticipants = ["N"]\nport = {line}\na = [{a}]\nb = [{b}]\nretransmission = {retransmission}\n'
            Path(name, "day.toml").write_text(f'{keys}followers = 1\nsession = 7\ncontrol = "control"\nconnect_within = 30\n')
            (live, *words), (watch, *rest) = (command(f"{file.parent.name}@.service", "ExecStart", name) for file in files)
            end, *last = command("tapebox-live@.service", "ExecStop", name)
            with started(words, program=live) as living, started(rest, program=watch) as watching, connect(line) as participant:
                wait_bound(watching, a, b)
                participant.sendall(report("N", 1))
                living.terminate()
                wait_for(watching, "a row", lambda: b"\n1," in files[1].read_bytes())
                self.assertEqual(run(last, program=end).status, 0)
                for running in (living, watching):
                    self.assert_accounts(ended(running), b"")
            self.assertEqual(traded(files[0].read_bytes(), "AB"), (1, 100))
            self.assertTrue(files[1].read_bytes().splitlines()[1].startswith(b"1,,report,N,1,"))

    def test_without_a_proved_program(self):
        """packaging/package.sh, 1: a program that is not there, or a folder, is named; 2: other words."""
        for words, status, said in [
            (["--unproved", "/no/such/program"], 1, b"package.sh: /no/such/program: no program\n"),
            ([*self.words, "/no/such/folder"], 1, b"package.sh: /no/such/folder: no folder\n"),
            (["--unproved"], 2, b"usage: package.sh [--unproved FILE] [FOLDER]\n"),
        ]:
            with self.subTest(words):
                self.assertEqual(run(words, program=PACKAGING / "package.sh"), Ended(status, b"", said))
