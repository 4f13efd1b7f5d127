#!/usr/bin/env python3
"""Draws a day as a picture: plot_day.py [REPORT] > day.svg, or plot_day.py --symbol SYMBOL [--explained FILE] [TAPE] > symbol.svg

REPORT is what `tapebox` writes, with or without the answers of a batch before the report; without it standard input is read. Each
symbol has a panel with a row for its consolidated figures and one for each participant: a bar from the low to the high, a ring at the
open, a dot at the last, and the volume as a bar of its own. The first line counts the answers, refused ones by their names.

TAPE is what `tapebox tape` writes, or another table whose column `tape` has each row's tape number, and anything else if the row was
refused. The picture has the symbol's trades by tape number and price: a dot for each that stands, a cross for one that was cancelled, and
for one that was corrected a ring at each price that it had, with a line to the last one. If the table has a column `last`, a line
follows it.

FILE is what `tapebox explain` writes of the same table by the same matrix. The trades that set the symbol's open, high, low and last have
a ring each, and a line to the figure's name and price at the right.

Statuses: 0 if the picture was written; 1 if a file can't be read or has no report, or no row of the symbol, or has a bad row, or FILE is
not of this tape, and then nothing is written; 2 if the words are others.
"""

import argparse
import collections
import csv
import re
import sys
from dataclasses import dataclass, field
from html import escape

HEADINGS = "symbol,who,open,open_at,high,high_at,low,low_at,last,last_at,volume,trades"
WIDTH = 760
EDGE, LEFT, RIGHT = 12, 92, 24
# Where prices and volumes are drawn.
PRICES = (LEFT, 450)
VOLUMES = (560, WIDTH - RIGHT)
ROW, HEAD, FOOT = 26, 34, 14
# How many kinds of refusal are named.
NAMES_MOST = 4
TOP = 66
# How high the picture of a tape is.
TAPE_HEIGHT = 380
FIGURES = ("open", "high", "low", "last")
# What the figures' names and prices take at the right of a tape, and how far one is below another at least.
NAMES_RIGHT, NAME_HEIGHT = 132, 15
STYLE = """
    text { font: 13px system-ui, sans-serif; fill: #333a44; }
    .title { font-size: 15px; font-weight: 600; }
    .small { font-size: 11px; fill: #5d6672; }
    .grid { stroke: #8b94a1; stroke-opacity: .35; }
    .range { stroke-width: 6; stroke-linecap: round; stroke: #1a66c2; stroke-opacity: .35; }
    .all.range { stroke-opacity: .6; }
    .open { fill: none; stroke: #1a66c2; stroke-width: 2; }
    .last { fill: #b4540a; }
    .volume { fill: #8b94a1; fill-opacity: .55; }
    .all.volume { fill-opacity: .9; }
    @media (prefers-color-scheme: dark) {
      text { fill: #d5dae1; }
      .small { fill: #9aa3af; }
      .range { stroke: #6db1ff; }
      .open { stroke: #6db1ff; }
      .last { fill: #f0a35e; }
    }
"""
TAPE_STYLE = """    .stands { fill: #1a66c2; }
    .cancelled { fill: none; stroke: #c0392b; stroke-width: 2; }
    .former { fill: none; stroke: #b4540a; stroke-width: 1.5; }
    .moved { stroke: #b4540a; stroke-opacity: .6; }
    .follows { fill: none; stroke: #8b94a1; }
    @media (prefers-color-scheme: dark) {
      .stands { fill: #6db1ff; }
      .cancelled { stroke: #ff8a7a; }
      .former, .moved { stroke: #f0a35e; }
    }
"""
MARK_STYLE = """    .mark circle { fill: none; stroke: #333a44; stroke-width: 1.5; }
    .mark path { fill: none; stroke: #333a44; stroke-opacity: .6; stroke-dasharray: 2 3; }
    @media (prefers-color-scheme: dark) {
      .mark circle, .mark path { stroke: #d5dae1; }
    }
"""


class BadRow(Exception):
    """Says what a row can't have."""


def ten_thousandths(text):
    """A price in dollars as ten-thousandths."""
    if not re.fullmatch(r"[0-9]+(\.[0-9]{1,4})?", text):
        raise BadRow(f"{text!r} is no price with at most four decimals")
    dollars, _, decimals = text.partition(".")
    return int(dollars + decimals.ljust(4, "0"))


def fail(path, why):
    """Says what is wrong with the file, or standard input, and ends the script."""
    sys.exit(f"plot_day.py: {path or 'standard input'}{why}")


def read_lines(path):
    """The lines of a file, or without a path of standard input."""
    try:
        with open(path or 0, encoding="utf-8", errors="replace") as file:
            return file.read().splitlines()
    except OSError as fault:
        return fail(path, f": {fault.strerror}")


def read(path):
    """The answers and the rows of what the program wrote."""
    lines = read_lines(path)
    if HEADINGS not in lines:
        fail(path, ": there is no report in it")
    at = lines.index(HEADINGS)
    return lines[:at], list(csv.DictReader(lines[at:]))


def count(answers):
    """The first line of the picture: how many messages were answered, and how."""
    refused = collections.Counter(answer.split()[2] for answer in answers if answer.startswith("refused"))
    told = [f"{len(answers) - refused.total():,} admitted"]
    told += [f"{times:,} {name}" for name, times in refused.most_common(NAMES_MOST)]
    others = sum(times for _, times in refused.most_common()[NAMES_MOST:])
    told += [f"{others:,} refused otherwise"] if others else []
    return f"{len(answers):,} messages: " + ", ".join(told) if answers else ""


def dollars(price):
    """A price of ten-thousandths as dollars, with at least two decimals."""
    text = f"{price / 10_000:,.4f}"
    return text[:-2] + text[-2:].rstrip("0")


def scale(least, most, ends):
    """The function from a value between two others to its place between two ends, in the middle if the two are one."""
    start, stop = ends
    if least == most:
        return lambda value: (start + stop) / 2
    return lambda value: start + (value - least) / (most - least) * (stop - start)


def draw_row(row, y, place, length):
    """A row of a panel: the range with its open and its last, and the volume."""
    kind = "all " if row["who"] == "ALL" else ""
    yield f'<text x="{LEFT - 12}" y="{y + 4}" text-anchor="end">{escape(row["who"])}</text>'
    if row["low"]:
        low, high = (place(int(row[figure])) for figure in ("low", "high"))
        yield f'<line class="{kind}range" x1="{low:.1f}" y1="{y}" x2="{high + 0.1:.1f}" y2="{y}"/>'
    if row["open"]:
        yield f'<circle class="open" cx="{place(int(row["open"])):.1f}" cy="{y}" r="6"/>'
        yield f'<circle class="last" cx="{place(int(row["last"])):.1f}" cy="{y}" r="3.5"/>'
    wide = length(int(row["volume"]))
    yield f'<rect class="{kind}volume" x="{VOLUMES[0]}" y="{y - 7}" width="{wide:.1f}" height="14"/>'
    trades = f'{int(row["volume"]):,} in {int(row["trades"]):,}'
    yield f'<text class="small" x="{VOLUMES[0] - 8}" y="{y + 4}" text-anchor="end">{trades}</text>'


def draw_panel(symbol, rows, top):
    """A symbol's panel, and where it ends."""
    prices = [int(row[figure]) for row in rows for figure in ("open", "high", "low", "last") if row[figure]]
    least, most = (min(prices), max(prices)) if prices else (0, 0)
    place = scale(least, most, PRICES)
    greatest = max(int(row["volume"]) for row in rows)
    length = (lambda volume: volume / greatest * (VOLUMES[1] - VOLUMES[0])) if greatest else (lambda volume: 0)
    bottom = top + HEAD + ROW * len(rows)
    lines = [f'<text class="title" x="{EDGE}" y="{top + 16}">{escape(symbol)}</text>']
    for price in sorted({least, most} if prices else []):
        lines.append(f'<line class="grid" x1="{place(price):.1f}" y1="{top + HEAD - 8}" x2="{place(price):.1f}" y2="{bottom - 8}"/>')
        lines.append(f'<text class="small" x="{place(price):.1f}" y="{top + 16}" text-anchor="middle">{dollars(price)}</text>')
    for at, row in enumerate(rows):
        lines += draw_row(row, top + HEAD + ROW * at + 6, place, length)
    return lines, bottom + FOOT


def legend():
    """What the signs of a row mean."""
    y = 44
    return [
        f'<line class="range" x1="{LEFT}" y1="{y - 4}" x2="{LEFT + 24}" y2="{y - 4}"/><text class="small" x="{LEFT + 34}" y="{y}">low to high</text>',
        f'<circle class="open" cx="{LEFT + 118}" cy="{y - 4}" r="6"/><text class="small" x="{LEFT + 130}" y="{y}">open</text>',
        f'<circle class="last" cx="{LEFT + 174}" cy="{y - 4}" r="3.5"/><text class="small" x="{LEFT + 184}" y="{y}">last</text>',
        f'<text class="small" x="{VOLUMES[0] - 8}" y="{y}" text-anchor="end">shares in trades</text>',
    ]


def draw(answers, rows):
    """The picture as text."""
    symbols = collections.defaultdict(list)
    for row in rows:
        symbols[row["symbol"]].append(row)
    lines, y = [f'<text x="{EDGE}" y="22">{escape(count(answers))}</text>', *legend()], TOP
    for symbol, figures in symbols.items():
        panel, y = draw_panel(symbol, figures, y)
        lines += panel
    return picture("The report of a day", lines, y)


def picture(title, lines, height, style=STYLE):
    """A whole picture of these lines."""
    size = f'viewBox="0 0 {WIDTH} {height}" width="{WIDTH}" height="{height}"'
    head = f'<svg xmlns="http://www.w3.org/2000/svg" {size} role="img">\n  <title>{title}</title>\n  <style>{style}  </style>\n  '
    return head + "\n  ".join(lines) + "\n</svg>\n"


@dataclass
class Trade:
    """A report: its tape number, whose it is, the prices that it had, and whether it stands."""

    at: int
    who: str
    prices: list = field(default_factory=list)
    stands: bool = True


def read_table(path, columns, lacking=None):
    """The rows of a table that has these columns. A field that a row lacks is given as `lacking`."""
    rows = csv.DictReader(read_lines(path), restval=lacking)
    missing = columns - {*(rows.fieldnames or [])}
    if missing:
        fail(path, f": no column {', '.join(sorted(missing))}")
    return rows


def read_tape(path, symbol):
    """The trades of a symbol, what was last after each row, by tape number, and those figures after its last row that the table has."""
    rows = read_table(path, {"tape", "kind", "participant", "number", "symbol", "target", "price"}, "")
    trades, lasts, figures = {}, [], {}
    for row in rows:
        if row["symbol"] != symbol or not row["tape"].isdecimal():
            continue
        try:
            follow(trades, row)
            lasts += [(int(row["tape"]), ten_thousandths(row["last"]))] if row.get("last") else []
        except (BadRow, KeyError) as fault:
            fail(path, f", line {rows.line_num}: {fault if isinstance(fault, BadRow) else 'no such report before it'}")
        figures = {name: row[name] for name in FIGURES if name in row}
    if not trades:
        fail(path, f": no trade of {symbol}")
    return list(trades.values()), lasts, figures


def follow(trades, row):
    """Lets an admitted row change the trades, by their participants and numbers."""
    if row["kind"] == "report":
        trades[row["participant"], row["number"]] = Trade(int(row["tape"]), f"{row['participant']} {row['number']}", [ten_thousandths(row["price"])])
        return
    trade = trades[row["participant"], row["target"]]
    trade.stands = row["kind"] != "cancel"
    trade.prices += [ten_thousandths(row["price"])] if row["kind"] == "correct" else []


def read_explained(path, symbol, trades, figures):
    """The trade that sets each figure of a symbol, by what became of the reports of the tape that has these trades and figures."""
    rows = read_table(path, {"symbol", "tape", "participant", "number", "price", "state", "sets"})
    untold, setters = {trade.who: trade for trade in trades}, {}
    for row in rows:
        if row["symbol"] != symbol:
            continue
        try:
            check_whole(row, rows.fieldnames)
            trade = untold.pop(f"{row['participant']} {row['number']}", None)
            check_same(row, trade)
            set_figures(setters, row["sets"].split(), trade)
        except BadRow as fault:
            fail(path, f", line {rows.line_num}: {fault}")
    for who in untold:
        fail(path, f": no row of {who}, which is on the tape")
    check_figures(path, setters, figures)
    return setters


def check_whole(row, columns):
    """Refuses a row with fewer fields than columns, or more."""
    fields = sum(row[name] is not None for name in columns) + len(row.get(None, ()))
    if fields != len(columns):
        raise BadRow(f"{fields} fields, and the header row has {len(columns)}")


def check_same(row, trade):
    """Refuses a row that tells of another report than the tape has."""
    if trade is None:
        raise BadRow(f"{row['participant']} {row['number']} is not on the tape, or a row before has it")
    state = "standing" if trade.stands else "cancelled"
    same = {"tape": row["tape"] == str(trade.at), "price": ten_thousandths(row["price"]) == trade.prices[-1], "state": row["state"] == state}
    for name in same:
        if not same[name]:
            raise BadRow(f"the tape has {trade.who} with another {name} than {row[name]}")


def set_figures(setters, names, trade):
    """Lets a trade set these figures, each of which no other trade may set."""
    for name in names:
        if name not in FIGURES:
            raise BadRow(f"{name!r} is no figure")
        if not trade.stands or name in setters:
            raise BadRow(f"{trade.who} can't set the {name}: {'it is cancelled' if not trade.stands else f'{setters[name].who} does'}")
        setters[name] = trade


def is_price(text, price):
    """Whether a text is this price, or is empty if there is none."""
    try:
        return ten_thousandths(text) == price
    except BadRow:
        return text == "" and price is None


def check_figures(path, setters, figures):
    """Ends the script if a figure on the tape is another than that of the trade that is said to set it, as by another matrix."""
    for name, text in figures.items():
        price = setters[name].prices[-1] if name in setters else None
        if not is_price(text, price):
            fail(path, f": the {name} is {dollars(price) if name in setters else 'none'}, and on the tape {text or 'none'}: by the other matrix?")


def beside(heights):
    """Where names stand, from the highest, each beside its price or as near as the others leave room."""
    below = 0
    for at, height in enumerate(heights):
        lowest = TAPE_HEIGHT - 40 - NAME_HEIGHT * (len(heights) - 1 - at)
        below = max(min(height, lowest), below + NAME_HEIGHT)
        yield below


def draw_marks(setters, across, place):
    """A ring at the trade that sets each figure, and a line to the figure's name and price at the right."""
    names = sorted((name for name in FIGURES if name in setters), key=lambda name: -setters[name].prices[-1])
    end = WIDTH - NAMES_RIGHT + 12
    for name, at in zip(names, beside([place(setters[name].prices[-1]) for name in names])):
        trade = setters[name]
        x, y, price = across(trade.at), place(trade.prices[-1]), dollars(trade.prices[-1])
        yield f'<g class="mark"><title>{name}: {escape(trade.who)}, {price}</title><circle cx="{x:.1f}" cy="{y:.1f}" r="8"/>'
        yield f'<path d="M{x + 8:.1f} {y:.1f}H{end}L{end + 6} {at:.1f}"/>'
        yield f'<text class="small" x="{end + 10}" y="{at + 4:.1f}">{name} {price}</text></g>'


def draw_trade(trade, x, place):
    """A trade's signs, and its words for who points at it."""
    former, latest = trade.prices[:-1], place(trade.prices[-1])
    yield f"<g><title>{escape(trade.who)}: {', '.join(map(dollars, trade.prices))}{'' if trade.stands else ', cancelled'}</title>"
    for price in former:
        yield f'<line class="moved" x1="{x:.1f}" y1="{place(price):.1f}" x2="{x:.1f}" y2="{latest:.1f}"/>'
        yield f'<circle class="former" cx="{x:.1f}" cy="{place(price):.1f}" r="3.5"/>'
    if trade.stands:
        yield f'<circle class="stands" cx="{x:.1f}" cy="{latest:.1f}" r="3.5"/>'
    else:
        yield f'<path class="cancelled" d="M{x - 4:.1f} {latest - 4:.1f}l8 8m0 -8l-8 8"/>'
    yield "</g>"


def tape_legend(symbol, trades, has_lasts):
    """The first lines: how many trades there are of each kind, and what the signs mean."""
    stand, corrected = sum(trade.stands for trade in trades), sum(len(trade.prices) > 1 for trade in trades)
    words = f"{symbol}: {len(trades):,} trades, {stand:,} stand, {len(trades) - stand:,} cancelled, {corrected:,} corrected"
    return [
        f'<text x="{EDGE}" y="22">{escape(words)}</text>',
        '<circle class="stands" cx="96" cy="40" r="3.5"/><text class="small" x="106" y="44">stands</text>',
        '<path class="cancelled" d="M172 36l8 8m0 -8l-8 8"/><text class="small" x="186" y="44">cancelled</text>',
        '<line class="moved" x1="266" y1="34" x2="266" y2="46"/><circle class="former" cx="266" cy="34" r="3.5"/>'
        '<text class="small" x="276" y="44">price before a correction</text>',
    ] + ['<line class="follows" x1="440" y1="40" x2="464" y2="40"/><text class="small" x="474" y="44">last</text>'] * has_lasts


def draw_tape(symbol, trades, lasts, setters=None):
    """The picture of a symbol's trades as text, with marks at those that set its figures if they are known."""
    right = WIDTH - (RIGHT if setters is None else NAMES_RIGHT)
    prices = [price for trade in trades for price in trade.prices]
    ends = [trade.at for trade in trades] + [at for at, _ in lasts]
    across, place = scale(min(ends), max(ends), (LEFT, right)), scale(min(prices), max(prices), (TAPE_HEIGHT - 40, TOP + 10))
    lines = tape_legend(symbol, trades, bool(lasts))
    for price in sorted({min(prices), (min(prices) + max(prices)) // 2, max(prices)}):
        lines.append(f'<line class="grid" x1="{LEFT - 8}" y1="{place(price):.1f}" x2="{right}" y2="{place(price):.1f}"/>')
        lines.append(f'<text class="small" x="{LEFT - 14}" y="{place(price) + 4:.1f}" text-anchor="end">{dollars(price)}</text>')
    for at in sorted({min(ends), max(ends)}):
        lines.append(f'<text class="small" x="{across(at):.1f}" y="{TAPE_HEIGHT - 12}" text-anchor="middle">tape {at:,}</text>')
    steps = "".join(f"H{across(at):.1f}V{place(price):.1f}" for at, price in lasts[1:])
    lines += [f'<path class="follows" d="M{across(lasts[0][0]):.1f} {place(lasts[0][1]):.1f}{steps}"/>'] if lasts else []
    # Below the trades, so that no price is covered.
    lines += draw_marks(setters or {}, across, place)
    for trade in trades:
        lines += draw_trade(trade, across(trade.at), place)
    return picture(f"The trades of {escape(symbol)}", lines, TAPE_HEIGHT, STYLE + TAPE_STYLE + (MARK_STYLE if setters is not None else ""))


def main():
    parser = argparse.ArgumentParser(description=__doc__, formatter_class=argparse.RawDescriptionHelpFormatter)
    parser.add_argument("--symbol", metavar="SYMBOL", help="draw the trades of this symbol on a tape")
    parser.add_argument("file", nargs="?", metavar="REPORT|TAPE")
    parser.add_argument("--explained", metavar="FILE", help="mark the trades that set its open, high, low and last, by what tapebox explain wrote")
    words = parser.parse_args()
    if words.explained is not None and not words.symbol:
        parser.error("--explained needs --symbol")
    if words.symbol:
        trades, lasts, figures = read_tape(words.file, words.symbol)
        setters = read_explained(words.explained, words.symbol, trades, figures) if words.explained is not None else None
        sys.stdout.write(draw_tape(words.symbol, trades, lasts, setters))
    else:
        sys.stdout.write(draw(*read(words.file)))


if __name__ == "__main__":
    main()
