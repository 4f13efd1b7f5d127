"""What became of a tape's reports, as a second opinion beside tapebox's: by the readable tape, the report, and the matrices of RULES."""

import csv
import functools
import re
from pathlib import Path

from plain_table import FIRST_ROW

COLUMNS = "symbol,tape,row,participant,number,moment,price,size,condition,state,changed,high_low,last,volume,sets,own_high_low,own_last,own_sets".split(",")
RULES = Path(__file__).resolve().parents[2] / "docs" / "RULES.md"
FIGURES = ("open", "high", "low", "last")
# The letters of the cells by rank.
RANKS = "NFSY"
COUNTS = {"N": "no", "Y": "yes"}
LAST = {"N": "no", "F": "if first", "S": "same market", "Y": "yes"}


@functools.cache
def matrix_rows():
    """The tables of the two matrices: the cells of each code by its position. The second has what differs."""
    part = RULES.read_text(encoding="utf-8").split("\n## The sale condition matrices\n")[1].split("\n## ")[0]
    tables = []
    for table in re.split(r"^\| Position .*$", part, flags=re.MULTILINE)[1:]:
        cells = {}
        for line in re.findall(r"^\| (\d .*) \|$", table, re.MULTILINE):
            position, codes, _, *columns = line.split(" | ")
            cells |= {(int(position), code): columns for code in re.findall(r"`(.)`", codes)}
        tables.append(cells)
    return tables


def cells_of(matrix, condition):
    """The cells of a condition by a matrix: in each column the least of its codes."""
    first, second = matrix_rows()
    rows = first if matrix == "1" else first | second
    codes = [rows[position, code] for position, code in enumerate(condition, 1) if code != "_"]
    return [min(column, key=RANKS.index) for column in zip(*codes)]


def places_of(report):
    """The places of the figures of each symbol and of each participant in it."""
    rows = csv.DictReader(report.decode().splitlines())
    return {(row["symbol"], row["who"]): [row[name + "_at"] for name in FIGURES] for row in rows}


def explained(tape, report, matrix):
    """The rows that tell of the reports of a readable tape whose report this is."""
    reports, places = {}, places_of(report)
    for at, row in enumerate(csv.DictReader(tape.decode().splitlines()), FIRST_ROW):
        if row["refused"]:
            continue
        if row["kind"] == "report":
            reports[row["participant"], row["number"]] = row | {"row": str(at), "state": "standing", "changed": ""}
            continue
        named = reports[row["participant"], row["target"]]
        named["changed"] = row["tape"]
        if row["kind"] == "correct":
            named |= {name: row[name] for name in ("price", "size", "condition")}
        else:
            named["state"] = {"cancel": "cancelled", "reinstate": "standing"}[row["kind"]]
    yield COLUMNS
    for told in reports.values():
        high_low, last, own_high_low, own_last, volume = cells_of(matrix, told["condition"])
        sets, own_sets = (
            " ".join(name for name, place in zip(FIGURES, places.get((told["symbol"], who), ())) if place == told["tape"])
            for who in ("ALL", told["participant"])
        )
        told |= {"high_low": COUNTS[high_low], "volume": COUNTS[volume], "own_high_low": COUNTS[own_high_low]}
        told |= {"last": LAST[last], "own_last": LAST[own_last], "sets": sets, "own_sets": own_sets}
        yield [told[name] for name in COLUMNS]
