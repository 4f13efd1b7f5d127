#!/usr/bin/env python3
"""Follows a running day and writes each entry as a row once it is held: receiver.py SYMBOLS PARTICIPANTS A B RETRANS SESSION

The words are those of `tapebox follow`. The library keeps the tape: it checks each entry and the figures that it carries, and can be asked for
any summary as the day goes on.
"""

import csv
import sys
from pathlib import Path

sys.path.insert(0, str(Path(__file__).resolve().parents[2] / "python"))
import tapebox
from tapebox.tables import COLUMNS, row_of

symbols, participants, *ports, session = sys.argv[1:]
with tapebox.Subscriber(symbols.split(","), participants.split(","), int(session)) as tape:
    rows = csv.writer(sys.stdout, lineterminator="\n")
    rows.writerow(COLUMNS[:10])
    for entry in tape.follow(*map(int, ports)):
        rows.writerow(row_of(entry)[:10])
        sys.stdout.flush()
