"""One file for a day, which `live`, `follow`, `watch` and `tools/send_day.py` take."""

import os
import re
import tempfile
from contextlib import ExitStack
from pathlib import Path

from support import LIMIT, ROOT, SAMPLES, TAPEBOX, TOOLS, Case, desk, ended, listens, ports, report_rows, run, started, wait_bound, wait_for, without_places

CORRECTIONS = SAMPLES / "corrections.csv"


class DayFile(Case):
    def setUp(self):
        folder = tempfile.TemporaryDirectory()
        self.addCleanup(folder.cleanup)
        self.folder = Path(folder.name)

    def day(self, followers=1, symbols='["AB"]', participants='["N", "Q"]', more=""):
        """A day's file on free ports, and the ports of A and of B."""
        line, _, retransmission, *row = ports(3 + 2 * followers)
        a, b = row[:followers], row[followers:]
        path = self.folder / "day.toml"
        path.write_text(
            f"symbols = {symbols}\nparticipants = {participants}\nport = {line}\na = {a}\nb = {b}\n"
            f"retransmission = {retransmission}\nfollowers = {followers}\nsession = 7\n{more}",
            encoding="utf-8",
        )
        return path, retransmission, list(zip(a, b))

    def play(self, day, retransmission, followers, table=CORRECTIONS):
        """How a day ends: `live`, and its followers, each by its words and the ports that it binds."""
        with ExitStack() as stack:
            live = stack.enter_context(started(["live", day]))
            wait_for(live, "its listener", lambda: listens(retransmission))
            following = []
            for words, bound in followers:
                following.append(stack.enter_context(started([*words, day])))
                wait_bound(following[-1], *bound)
            sent = run([table, day], program=TOOLS / "send_day.py", env=os.environ | {"TAPEBOX": str(TAPEBOX)})
            self.assertEqual((sent.status, sent.said), (0, b""))
            return [ended(program, LIMIT) for program in (live, *following)]

    def test_the_day_of_the_page(self):
        """README, "A running day": by the sample's names both print the report that stands there, but for the places, which is the batch's too."""
        page = (ROOT / "README.md").read_text(encoding="utf-8").split("## A running day\n")[1].split("\n## ")[0]
        commands = re.findall(r"(?m)^    (\./run \w+ .*|tools/.*)$", page)
        peers = ["./run live samples/day.toml", "./run follow samples/day.toml", f"tools/send_day.py samples/{CORRECTIONS.name} samples/day.toml"]
        self.assertEqual(commands, peers)
        shown = "".join(re.findall(r"(?m)^    ((?:symbol|AB),.*\n)", page))
        day, retransmission, [bound] = self.day()
        live, follow = self.play(day, retransmission, [(["follow"], bound)])
        self.assert_accounts(live)
        self.assert_accounts(follow, live.written)
        batch = desk("report", given=CORRECTIONS.read_bytes()).written
        self.assertEqual([without_places(text) for text in (shown.encode(), live.written)], [without_places(batch)] * 2)

    def test_the_sample(self):
        """README, "A running day": the sample differs from the day of these cases in its ports alone, and has a control socket."""
        own = re.sub(r"\d{4,}", "PORT", self.day(more="control = 9300\n")[0].read_text(encoding="utf-8"))
        lines = [line.split("#")[0].rstrip() for line in (SAMPLES / "day.toml").read_text(encoding="utf-8").splitlines()]
        sample = "".join(f"{line}\n" for line in lines if line)
        self.assertEqual(re.sub(r"\d{4,}", "PORT", sample), own)

    def test_two_followers_and_a_watch(self):
        """OPERATING, "A day's file": `--follower N` takes the N-th ports; each follower has the report of `live`, and `watch` the rows of its tape."""
        day, retransmission, bound = self.day(3)
        words = [["follow"], ["follow", "--follower", 2], ["watch", "--follower", 3]]
        live, first, second, watch = self.play(day, retransmission, list(zip(words, bound)))
        for follow in (live, first, second):
            self.assert_accounts(follow, live.written)
        self.assert_accounts(watch)
        self.assertEqual(desk("report", given=watch.written).written, live.written)
        self.assertEqual(run(["verify"], watch.written).status, 0)

    def test_symbols_in_a_file(self):
        """OPERATING, "A day's file": the symbols may stand in a file beside the day's, one a line; matrix and limit are those of the file."""
        (self.folder / "symbols.txt").write_text("AB\nCD\n", encoding="ascii")
        day, retransmission, [bound] = self.day(symbols='"symbols.txt"', more="matrix = 2\nlimit = 2\n")
        live, watch = self.play(day, retransmission, [(["watch"], bound)])
        self.assertEqual([live.status, watch.status], [0, 0])
        self.assertEqual(watch.written.count(b"\n"), 3)
        self.assertEqual([row["symbol"] for row in report_rows(live.written)].count("CD"), 1)

    def test_files_that_name_no_day(self):
        """OPERATING, "Statuses", 2 and 3: a file that names no day, or is not there, ends each peer at once, as does a follower that it has no ports for."""
        path, _, _ = self.day()
        good = path.read_text(encoding="utf-8")
        for text, named in [(good + "speed = 1\n", "speed"), (good + "=\n", "line 9, column 1")]:
            path.write_text(text, encoding="utf-8")
            for word in ("live", "follow", "watch"):
                with self.subTest(word, named=named):
                    self.assert_names(run([word, path]), named)
        path.write_text(good, encoding="utf-8")
        for word in ("follow", "watch"):
            self.assert_names(run([word, "--follower", 2, path]), "follower 2: not 1 to 1")
        for word in ("live", "follow", "watch"):
            self.assert_names(run([word, self.folder / "none.toml"]), "none.toml: ", 3)
        path.write_text(good.replace('["AB"]', '"none.txt"'), encoding="utf-8")
        self.assert_names(run(["live", path]), "none.txt: ", 3)

    def assert_names(self, end, named, status=2):
        """It ended with this status, wrote nothing, and named this in a line."""
        self.assertEqual((end.status, end.written), (status, b""))
        self.assertRegex(end.said.decode(), rf"\Atapebox: [^\n]*{named}[^\n]*\n\Z")
