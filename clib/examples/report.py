#!/usr/bin/env python3
"""Reads a table of messages and prints the report of the tape that they leave: report.py samples/corrections.csv"""

import sys
from pathlib import Path

sys.path.insert(0, str(Path(__file__).resolve().parents[2] / "python"))
import tapebox

with tapebox.Tape.from_csv(sys.argv[1]) as tape:
    for row in tape.refused:
        print(f"row {row.row}: refused {row.refusal}", file=sys.stderr)
    print("symbol,who,open,open_at,high,high_at,low,low_at,last,last_at,volume,trades")
    for symbol, who, figures in tape.summaries():
        marks = [figures.open, figures.high, figures.low, figures.last]
        fields = [field for mark in marks for field in ((int(mark.price * 10_000), mark.place) if mark else ("", ""))]
        print(symbol, who or "ALL", *fields, figures.volume, figures.trades, sep=",")
