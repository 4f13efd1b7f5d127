#!/usr/bin/python3
"""A table's report under Matrix One by pandas: report_pandas.py < TABLE.csv

pandas reads the table and makes the figures. Which messages are admitted is found in one pass in plain Python, since it depends on each message before.
It presumes a table as `to_table` writes it, and checks no field. The system's own Python has Debian's pandas.
"""

import sys
from pathlib import Path

import pandas

sys.path.insert(0, str(Path(__file__).resolve().parents[2] / "tests" / "plain"))
from plain_explain import cells_of

COLUMNS = ["kind", "participant", "number", "symbol", "target", "price", "size", "condition"]
MARKS = ["open", "high", "low", "last"]
# The columns of a condition's cells, as RULES has them.
CELLS = ["high_low", "last", "own_high_low", "own_last", "counts"]


def read():
    """The messages, with prices in ten-thousandths of a dollar."""
    table = pandas.read_csv(sys.stdin.buffer, usecols=COLUMNS, keep_default_na=False, na_values={"target": "", "price": "", "size": ""})
    table[["target", "size"]] = table[["target", "size"]].fillna(0).astype("int64")
    table["price"] = (table["price"].fillna(0) * 10_000).round().astype("int64")
    return table


def cells_table(conditions):
    """The cells of each condition that Matrix One has."""
    cells = {}
    for condition in conditions:
        try:
            cells[condition] = cells_of("1", condition)
        except KeyError:
            continue
    return pandas.DataFrame.from_dict(cells, orient="index", columns=CELLS)


def standing(table, listed):
    """The place of each report that stands, with the row of its latest content."""
    last, reports, length = {}, {}, 0
    names = ["kind", "participant", "number", "symbol", "target", "condition"]
    for row, (kind, who, number, symbol, target, condition) in enumerate(zip(*(table[name].tolist() for name in names))):
        if number <= last.get(who, 0) or kind in ("report", "correct") and condition not in listed:
            continue
        if kind == "report":
            reports[who, number] = [length + 1, row, True, symbol]
        else:
            report = reports.get((who, target))
            if not report or report[3] != symbol or report[2] == (kind == "reinstate"):
                continue
            report[2] = kind != "cancel"
            if kind == "correct":
                report[1] = row
        last[who] = number
        length += 1
    return {place: row for place, row, stands, _ in reports.values() if stands}


def last_places(trades, keys, rule):
    """The places of the trades that set the open and the last: rules other than always count only after no other's or the same participant's."""
    may = trades[trades[rule] != "N"]
    opens = may.groupby(keys)["place"].min()
    always = may[may[rule] == "Y"].groupby(keys)["place"].max()
    base = always.reindex(opens.index).fillna(opens).astype("int64").rename("base")
    own = may[may[rule] == "S"].join(base, on=keys)
    own = own[(own["place"] > own["base"]) & (own["participant"] == trades["participant"].reindex(own["base"]).to_numpy())]
    later = own.groupby(keys)["place"].max()
    return opens, later.reindex(base.index).fillna(base).astype("int64")


def figures(trades, keys, high_low, rule):
    """The figures of each group of trades, which are by rising place."""
    priced = trades[trades[high_low] == "Y"].groupby(keys)["price"]
    opens, lasts = last_places(trades, keys, rule)
    groups = trades.groupby(keys)
    found = pandas.DataFrame({"trades": groups.size()})
    # Among equal prices the first place is taken.
    places = dict(zip(MARKS, [opens, priced.idxmax(), priced.idxmin(), lasts]))
    for name, place in places.items():
        found[name] = place.map(trades["price"]).astype("Int64")
        found[name + "_at"] = place.astype("Int64")
    counted = trades[trades["counts"] == "Y"].groupby(keys)["size"].sum()
    found["volume"] = counted.reindex(found.index).fillna(0).astype("int64")
    return found.reset_index()


def main():
    table = read()
    cells = cells_table(table["condition"].unique()[table["condition"].unique() != ""])
    places = standing(table, set(cells.index))
    trades = table.iloc[list(places.values())].assign(place=list(places)).set_index("place", drop=False).sort_index()
    trades.index.name = None
    trades = trades.join(cells, on="condition")
    symbols, letters = table["symbol"].unique(), table["participant"].unique()
    whole = figures(trades, ["symbol"], "high_low", "last").set_index("symbol").reindex(symbols).reset_index().assign(who="ALL")
    whole[["volume", "trades"]] = whole[["volume", "trades"]].fillna(0).astype("int64")
    report = pandas.concat([whole, figures(trades, ["symbol", "participant"], "own_high_low", "own_last").rename(columns={"participant": "who"})])
    order = {name: at for at, name in enumerate(symbols)}, {name: at for at, name in enumerate(["ALL", *letters])}
    report = report.assign(first=report["symbol"].map(order[0]), second=report["who"].map(order[1])).sort_values(["first", "second"])
    columns = ["symbol", "who", *(part for name in MARKS for part in (name, name + "_at")), "volume", "trades"]
    report[columns].to_csv(sys.stdout, index=False, lineterminator="\n")


if __name__ == "__main__":
    main()
