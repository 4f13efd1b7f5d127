"""The page as someone uses it: each control, by the mouse or by the keyboard alone, what is read aloud, colours and widths."""

import unittest

from browser import PAGE, PageCase
from support import SAMPLES, TESTS

VIEWS = ("report", "tape", "explain")
# Numbers all that the Tab key should reach in what is seen, and tells how many they are. Of a group of choices it reaches one.
NUMBERED = """[...document.querySelectorAll('a[href], button, input, select, [tabindex]')].filter((it) => it.tabIndex >= 0 && it.checkVisibility()
    && !(it.type === 'radio' && !it.checked)).map((it, at) => { it.dataset.numbered = at; }).length"""
# The rows of a table that are in sight.
ROWS = "[...document.querySelectorAll('#{}-rows .body .row')].map((row) => [...row.children].map((cell) => cell.innerText.trim()))"
# The roles that parts of each view have.
ROLES = {"banner", "main", "contentinfo", "tablist", "tab", "tabpanel", "search", "status", "grid", "row", "columnheader", "gridcell"}
# Widths in pixels: a telephone, a screen of 1,200 pixels at 200 %, and one at 100 %.
WIDTHS = (400, 600, 1200)


class Use(PageCase):
    def setUp(self):
        self.browser.call("Emulation.clearDeviceMetricsOverride")
        self.browser.call("Emulation.setEmulatedMedia", media="", features=[])
        super().setUp()

    def rows(self, view):
        """What the rows of a view have in their cells."""
        return self.browser.value(ROWS.format(view))

    def test_one_click(self):
        """web/README: a click shows the sample, with a sentence on each of the three views."""
        self.try_sample()
        for view in VIEWS:
            self.browser.click(f"#tab-{view}")
            sentence = self.browser.value(f"document.querySelector('#{view} .lead').innerText")
            self.assertRegex(sentence, r"\A[A-Z][^.]{60,240}\.\Z")
            self.assertGreater(len(self.rows(view)), 5)

    def test_sorting(self):
        """web/README: a click on a heading of the report sorts its rows, another one the other way, a third one not at all; those without a price are last."""
        self.try_sample()
        before = self.rows("report")
        for column, heading in enumerate(before[0]):
            places = [self.browser.value(f"document.querySelectorAll('#report .sorter')[{column}].click()") or self.rows("report") for _ in range(3)]
            with self.subTest(column=column, heading=heading):
                value = (lambda row: row[column].replace("all", "")) if column < 2 else (lambda row: float(row[column].split("#")[0].replace(",", "")))
                named = [[value(row) for row in rows if row[column] != "–"] for rows in places[:2]]
                self.assertEqual(named[0], sorted(named[0]))
                self.assertEqual(named[1], sorted(named[1], reverse=True))
                for rows in places[:2]:
                    self.assertEqual({row[column] for row in rows[len(named[0]) :]} - {"–"}, set())
                    self.assertNotIn("", [row[0] for row in rows])
                self.assertEqual(places[2], before)
        self.browser.value("document.querySelectorAll('#report .sorter')[6].click()")
        sorts = self.browser.value("[...document.querySelectorAll('#report .head > *')].map((it) => it.ariaSort)")
        self.assertEqual(sorts, ["none"] * 6 + ["ascending", "none"])

    def test_search(self):
        """web/README: a message is found by its participant and number, by its number alone, again and again, or by its tape number."""
        self.try_sample()
        for asked, told, row in [
            ("n 9", "Message N 9 is in row 18.", 18),
            ("3", "Message 3 is in row 7.", 7),
            ("3", "Message 3 is in row 10.", 10),
            ("#16", "Message #16 is in row 18.", 18),
            ("P 77", "There is no message P 77.", 18),
            ("x y", "A message is a letter and a number, as N 3, or a tape number, as #12.", 18),
        ]:
            with self.subTest(asked):
                self.browser.value(f"document.getElementById('message').value = {asked!r}, document.getElementById('message').focus()")
                self.browser.press("Enter")
                self.assertEqual(self.browser.value("document.getElementById('told').textContent"), told)
                self.assertTrue(self.browser.value("document.getElementById('detail').innerText").startswith(f"×\nRow {row}:"))
                self.assertEqual(self.browser.value("document.querySelector('#tape-rows .chosen').firstChild.textContent"), str(row))

    def test_links(self):
        """web/README: the address says what is shown, and a page that is opened by it shows that again."""
        link = "#sample&matrix=2&view=tape&symbol=AB&figures=N&row=18"
        self.browser.open(PAGE, link)
        self.browser.wait("the end of the sample", self.is_made)
        shown = "[state.matrix, state.tab, state.symbols[state.symbol], state.who, location.hash].join()"
        self.assertEqual(self.browser.value(shown), f"2,tape,AB,78,{link}")
        self.assertIn("Row 18: tape number 16", self.browser.value("document.getElementById('detail').innerText"))
        # What the sample does not have is not asked for.
        self.browser.value("location.hash = '#sample&matrix=2&view=explain&symbol=ZZ&figures=Z&row=99'; new Promise((done) => setTimeout(done, 100))")
        self.assertEqual(self.browser.value(shown), "2,explain,,0,#sample&matrix=2&view=explain")
        self.browser.open(PAGE, "#view=explain&symbol=CD")
        self.browser.give(SAMPLES / "morning.csv", 1)
        self.assertEqual(self.browser.value(shown), "1,explain,CD,0,#view=explain&symbol=CD")
        self.browser.give(SAMPLES / "corrections.csv", 1)
        self.assertEqual(self.browser.value(shown), "1,explain,,0,#view=explain")

    def test_copies(self):
        """web/README: the rows that are asked for are copied with tabs between the fields of the text."""
        self.browser.call("Browser.grantPermissions", permissions=["clipboardReadWrite", "clipboardSanitizedWrite"])
        self.browser.call("Emulation.setFocusEmulationEnabled", enabled=True)
        self.try_sample()
        for view, symbol, own in [("report", "", 0), ("tape", "CD", 6), ("explain", "AB", 0)]:
            with self.subTest(view):
                self.browser.click(f"#tab-{view}")
                self.browser.value(f"setSymbol(state.symbols.indexOf({symbol!r})), showTab()")
                text = self.browser.value(f"decoder.decode(state['{view}'].text)").splitlines()
                rows = [row.split(",") for row in text]
                wanted = [row for row in rows if row is rows[0] or not symbol or row[own] == symbol]
                self.browser.point("#copy")
                told = f"{len(wanted) - 1} rows copied, with tabs between fields."
                self.browser.wait("the copy", lambda told=told: self.browser.value("document.getElementById('told').textContent") == told)
                copied = self.browser.value("navigator.clipboard.readText()")
                self.assertEqual([row.split("\t") for row in copied.splitlines()], wanted)

    def test_print(self):
        """web/README: all rows that are asked for are printed, in light colours, and no control."""
        self.try_sample()
        self.browser.click("#tab-tape")
        count = "document.body.dataset.printed = document.querySelectorAll('#printed tbody tr').length"
        self.browser.value(f"addEventListener('beforeprint', () => {{ {count}; }})")
        self.assertTrue(self.browser.call("Page.printToPDF")["data"])
        self.assertEqual(self.browser.value("[document.body.dataset.printed, document.getElementById('printed').children.length].join()"), "37,0")
        self.look("dark", 1200, "print")
        self.browser.value("dispatchEvent(new Event('beforeprint'))")
        seen = "[...document.querySelectorAll('button, input, .table, #printed table')].filter((it) => it.checkVisibility()).map((it) => it.tagName)"
        self.assertEqual(self.browser.value(seen), ["TABLE"])
        self.assertEqual(self.browser.value("getComputedStyle(document.body).color"), "rgb(31, 38, 48)")

    def look(self, scheme, width, media="screen"):
        """Has the page shown in a scheme of colours, so many pixels wide."""
        self.browser.call("Emulation.setDeviceMetricsOverride", width=width, height=900, deviceScaleFactor=1, mobile=False)
        # A colour that is on its way to another one is none to be compared.
        features = [{"name": "prefers-color-scheme", "value": scheme}, {"name": "prefers-reduced-motion", "value": "reduce"}]
        self.browser.call("Emulation.setEmulatedMedia", media=media, features=features)

    def assert_readable(self, what):
        """Nothing in sight lacks contrast, and the page is no wider than the window."""
        for scheme in ("light", "dark"):
            for width in WIDTHS:
                with self.subTest(what, scheme=scheme, width=width):
                    self.look(scheme, width)
                    self.assertEqual(self.browser.value((TESTS / "support" / "contrast.js").read_text(encoding="utf-8")), [])
                    self.assertLessEqual(self.browser.value("document.documentElement.scrollWidth - innerWidth"), 0)

    def test_colours_and_widths(self):
        """web/README: light and dark, on a telephone and at 200 %, each text has a contrast of 4.5 and nothing is cut off."""
        self.browser.value("document.getElementById('drop').firstElementChild.style.color = '#888'")
        self.assertEqual(len(self.browser.value((TESTS / "support" / "contrast.js").read_text(encoding="utf-8"))), 1, "a text that lacks contrast is seen")
        self.browser.value("document.getElementById('drop').firstElementChild.style.color = ''")
        self.assert_readable("no table")
        self.browser.give(self.written("bad.csv", (SAMPLES / "morning.csv").read_bytes() + b"report,N,0,AB,,1,1,@___\n"), 1)
        self.assert_readable("a fault")
        self.try_sample()
        for view in VIEWS:
            self.browser.click(f"#tab-{view}")
            # Of the rows one is chosen, and of the tape one that was refused is in sight.
            self.browser.value(f"tables['{view}'].choose(9)")
            self.assert_readable(view)

    def test_what_is_read_aloud(self):
        """web/README: the browser names each control, and has the role of each part."""
        self.try_sample()
        for view in VIEWS:
            self.browser.click(f"#tab-{view}")
            self.browser.value(f"tables['{view}'].choose(0)")
            roles, unnamed = set(), []
            for node in self.browser.call("Accessibility.getFullAXTree")["nodes"]:
                role, name = node.get("role", {}).get("value"), node.get("name", {}).get("value")
                if node.get("ignored"):
                    continue
                roles.add(role)
                if not name and any(it["name"] == "focusable" and it["value"]["value"] for it in node.get("properties", [])):
                    unnamed.append(role)
            with self.subTest(view):
                self.assertEqual(unnamed, [])
                self.assertLessEqual(ROLES, roles)
            chosen = f"document.getElementById(document.querySelector('#{view} .table').getAttribute('aria-activedescendant')).ariaSelected"
            self.assertEqual(self.browser.value(chosen), "true")

    def test_the_tab_key(self):
        """web/README: the keyboard reaches each control and each table, and leaves each."""
        for view in (None, *VIEWS):
            if view == VIEWS[0]:
                self.try_sample()
            if view:
                self.browser.click(f"#tab-{view}")
                self.browser.value(f"tables['{view}'].choose(0)")
            self.browser.value("document.activeElement.blur()")
            count, reached = self.browser.value(NUMBERED), set()
            for _ in range(2 * count + 4):
                self.browser.press("Tab")
                reached.add(self.browser.value("Number(document.activeElement.dataset.numbered ?? -1)"))
            with self.subTest(view):
                self.assertGreater(count, 2)
                self.assertEqual(sorted(reached - {-1}), list(range(count)))

    def test_keys(self):
        """web/README: by keys alone a sample is opened, a view is chosen, and one goes from a figure to why it is so, and to the tape."""
        self.browser.value("document.getElementById('try').focus()")
        self.browser.press("Enter")
        self.browser.wait("the end of the sample", self.is_made)
        self.browser.value("document.getElementById('tab-report').focus()")
        self.browser.press("ArrowRight")
        self.assertEqual(self.browser.value("[state.tab, document.activeElement.id].join()"), "tape,tab-tape")
        self.browser.value("document.querySelector('#tape-rows .table').focus()")
        self.browser.press("ArrowDown")
        self.assertIn("Row 2: tape number 1", self.browser.value("document.getElementById('detail').innerText"))
        self.browser.press("End")
        self.assertIn("Row 38: tape number 36", self.browser.value("document.getElementById('detail').innerText"))
        self.browser.click("#tab-report")
        self.browser.value("document.querySelector('#report-rows .table').focus()")
        for key in ("ArrowDown", "ArrowDown", "Enter"):
            self.browser.press(key)
        shown = self.browser.value("[state.tab, document.getElementById('explain-title').textContent].join()")
        self.assertEqual(shown, "explain,AB: N’s own figures, and what set them")
        self.browser.value("document.querySelector('#explain-rows .table').focus()")
        for key in ("ArrowDown", "ArrowDown", "Enter"):
            self.browser.press(key)
        self.assertEqual(self.browser.value("[state.tab, state.row, document.activeElement.ariaLabel].join()"), "tape,3,The readable tape")


if __name__ == "__main__":
    unittest.main()
