"""Why messages are refused and reports set no figure, as docs/RULES.md says it, from the columns of an explanation and of its readable tape alone."""

import csv
import io
import re

from support import ROOT

FIGURES = ("open", "high", "low", "last")
# The sections of RULES with reasons, and a row of their tables.
SECTIONS = ["Why a message is refused", "Why a report sets no figure"]
REASON = re.compile(r"^\| `([^`]+)` \|(?:.+\|)? ([^|]+) \|$", re.MULTILINE)
OF_LAST = {"no": "never last", "if first": "last if first", "same market": "last of its market"}
OF_CHANGE = {"cancel": "cancelled", "correct": "corrected", "reinstate": "reinstated"}


def rows_of(text):
    """A text's rows by the names of its columns."""
    return list(csv.DictReader(io.StringIO(text.decode())))


class Reasons:
    """The reasons of a table's reports."""

    def __init__(self, explanation, tape):
        rules = (ROOT / "docs" / "RULES.md").read_text(encoding="utf-8")
        self.words = dict(row for section in SECTIONS for row in REASON.findall(rules.split(f"\n## {section}\n")[1].split("\n## ")[0]))
        self.rows = rows_of(explanation)
        self.kinds = {row["tape"]: row["kind"] for row in rows_of(tape) if row["tape"]}
        self.refused = [(number, row["refused"]) for number, row in enumerate(rows_of(tape), 2) if row["refused"]]

    def refusals(self):
        """Each refusal with the first of its rows in the table, and what is said of it."""
        first = {refusal: number for number, refusal in reversed(self.refused)}
        return {refusal: (number, f"The tape refuses it: {refusal}, as {self.words[refusal]}. It changes nothing.") for refusal, number in first.items()}

    def change(self, row):
        """By what a report was changed."""
        return self.words[OF_CHANGE[self.kinds[row["changed"]]]].format(changed=f"#{row['changed']}")

    def of_last(self, row, own, holder):
        """Why a report is not the last or the open."""
        if row["state"] == "cancelled":
            return self.change(row)
        return self.words[OF_LAST[row[f"{own}last"]]].format(condition=row["condition"], holder=holder and holder["participant"])

    def of_range(self, row, own):
        """Why a report is neither the high nor the low."""
        if row["state"] == "cancelled":
            return self.change(row)
        assert row[f"{own}high_low"] == "no"
        return self.words["no high or low"].format(condition=row["condition"])

    def lists(self, symbol, participant=None):
        """For the last, the high and the low, and the open, each report that is asked for a reason: its tape number and the reason."""
        own = "own_" if participant else ""
        rows = [row for row in self.rows if row["symbol"] == symbol and participant in (None, row["participant"])]
        opens, high, low, last = (next((row for row in rows if figure in row[f"{own}sets"].split()), None) for figure in FIGURES)
        after = [row for row in reversed(rows) if not last or int(row["tape"]) > int(last["tape"])]
        beyond = [row for row in rows if not high or not float(low["price"]) <= float(row["price"]) <= float(high["price"])]
        before = [row for row in rows if not opens or int(row["tape"]) < int(opens["tape"])]
        return [
            [(row["tape"], self.of_last(row, own, last)) for row in after],
            [(row["tape"], self.of_range(row, own)) for row in beyond],
            [(row["tape"], self.of_last(row, own, None)) for row in before],
        ]
