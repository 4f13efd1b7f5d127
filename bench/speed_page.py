"""The tables of docs/SPEED.md, from the figures that bench/all.py measured, and what README.md and docs/SCALE.md take from them.

A page has each between two marks, `<!-- measured: NAME -->` and `<!-- end -->`. What stands there is written anew, and the rest is left as it is.
"""

import re
import statistics

import plot

MARKED = re.compile(r"(<!-- measured: (\w+) -->\n).*?(<!-- end -->)", re.DOTALL)
MEGABYTE = 1_000_000
# The bytes of the greatest batch, which its days have.
LONGEST = 16_777_216
# What is aimed at: the time of a batch to that of `indexed` by day, the time of a report to that of `least`, and the messages a second of 15 lines by run.
BATCH_AIMS = {"one": 0.45, "busy": 0.5, "hostile": 0.65}
LEAST_AIM = 1
LIVE_AIMS = {"straight": 300_000, "10 % lost on each line": 200_000}
MISSED = ", misses the aim"


def table(head, rows):
    """Lines of a table."""
    return [line(head), "|" + "---|" * len(head), *map(line, rows)]


def line(cells):
    """A line of a table."""
    return f"| {' | '.join(map(str, cells))} |"


def rounded(value, digits=3):
    """A number with so many digits that count, and commas."""
    value = float(f"{value:.{digits}g}")
    return f"{value:,.0f}" if value >= 10 ** (digits - 1) else f"{value:.{digits}g}"


def ratio(value):
    """A ratio with two decimals."""
    return f"{value:.2f}"


def span(values, form=rounded):
    """The least and the most of some values, once if they are written alike."""
    least, most = form(min(values)), form(max(values))
    return least if least == most else f"{least} to {most}"


def megabytes(kilobytes):
    """The peak memory of runs in MB."""
    return f"{min(kilobytes) * 1024 / MEGABYTE:,.0f} MB"


def by(records, *names):
    """The records by some of their fields."""
    found = {}
    for record in records:
        found.setdefault(tuple(record[name] for name in names), []).append(record)
    return found


def programs_of(records, *names):
    """Of each of some fields the records by their programs."""
    return {key: {record["program"]: record for record in own} for key, own in by(records, *names).items()}


def of_pair(mine, other):
    """The ratios of the least and of the middle processor seconds, the peaks of memory, and their ratio."""
    least = min(mine["seconds"]) / min(other["seconds"])
    middle = statistics.median(mine["seconds"]) / statistics.median(other["seconds"])
    memory = min(mine["kilobytes"]) / min(other["kilobytes"])
    return [ratio(least), ratio(middle), f"{megabytes(mine['kilobytes'])} to {megabytes(other['kilobytes'])}", ratio(memory)]


def with_aim(pair, aim):
    """The cells of a pair of programs, of which the first ratio is marked if it is above its aim."""
    least, *rest = pair
    return [least + MISSED * (aim is not None and float(least) > aim), *rest]


def machine(figures):
    """The heading: what was measured, where and when."""
    of = figures["machine"]
    changed = ", with changes that are not committed" if of["is_changed"] else ""
    drafts = f" The programs were drafts, which are not proved: {', '.join(of['drafts'])}." if of["drafts"] else " The programs were proved ones."
    kept = ", which the scheduler's real-time class kept away" if of["is_first"] else ""
    return [
        f"Measured by `bench/all.py` on {of['date']} at commit `{of['commit']}`{changed}, with `{of['kit']}`, on a machine with {of['processors']} processors"
        f" ({of['model']}) and {of['gigabytes']} GB of memory. At its start {of['load']:.1f} processors had other work{kept}.{drafts}"
    ]


def batch(parts):
    rows = []
    for (day,), of in programs_of(parts["batch"], "day").items():
        speeds = [rounded(of[name]["messages"] / min(of[name]["seconds"])) for name in ("tapebox", "indexed", "least")]
        rows.append([f"`{day}`", *speeds, *with_aim(of_pair(of["tapebox"], of["indexed"]), BATCH_AIMS.get(day))])
    head = ["Day", "`tapebox`, messages a second", "`indexed`", "`least`", "Time to `indexed`, least runs", "Middle runs", "Peak memory", "Ratio"]
    return table(head, rows)


def seconds_by_length(parts):
    """The least processor seconds of a hostile day by each program, over its bytes. The longest is the batch's own."""
    found = {}
    for record in [*parts["growth"], *(record | {"bytes": LONGEST} for record in parts["batch"] if record["day"] == "hostile")]:
        found.setdefault(record["program"], {})[record["bytes"]] = min(record["seconds"])
    return {program: found[program] for program in ("tapebox", "indexed")}


def growth(parts):
    times = {}
    for program, seconds in seconds_by_length(parts).items():
        (shortest, least), (longest, most) = min(seconds.items()), max(seconds.items())
        times[program] = ratio(most / longest / (least / shortest))
    return [f"A message of the hostile day at 16 MB takes {times['tapebox']} times as long as one at 2 MB, and with `indexed` {times['indexed']} times."]


def drawing(figures):
    """The plot of a batch's time over its length, or none if that was not measured."""
    parts = {name: part["records"] for name, part in figures["parts"].items()}
    return plot.drawing(seconds_by_length(parts)) if {"growth", "batch"} <= parts.keys() else None


def counts(parts):
    names = {"instructions": "instructions", "first_misses": "misses of the first cache", "last_misses": "misses of the last cache"}
    own = parts["counts"]
    rows = [[title, *(rounded(record[name] / record["messages"], 4 if name == "instructions" else 3) for record in own)] for name, title in names.items()]
    return table(["A message", *(f"`{record['day']}`" for record in own)], rows)


def day_name(day):
    """A day without its bytes."""
    return f"`{day.partition(':')[0]}`"


def tables(parts):
    rows = []
    for (day, count, word), of in programs_of(parts["tables"], "day", "rows", "word").items():
        mine, other = of["tapebox"], of.get("desk")
        speeds = [rounded(count / min(record["seconds"])) if record else "" for record in (mine, other)]
        pair = of_pair(mine, other)[:3] if other else ["", "", megabytes(mine["kilobytes"])]
        rows.append([f"{day_name(day)}, {count:,} rows", f"`{word}`", *speeds, *pair, f"{min(mine['kilobytes']) * 1024 / count:,.0f}"])
    head = ["Table", "Command", "`tapebox`, rows a second", "`desk`", "Time, least runs", "Middle runs", "Peak memory", "Bytes a row"]
    return table(head, rows)


def least(parts):
    rows = []
    for (day, count, word), of in programs_of(parts["tables"], "day", "rows", "word").items():
        if word == "report":
            rows.append([f"{day_name(day)}, {count:,} rows", *with_aim(of_pair(of["tapebox"], of["least"]), LEAST_AIM)])
    return table(["Table", "Time to `least`, least runs", "Middle runs", "Peak memory", "Ratio"], rows)


def table_growth(parts):
    own = by(parts["table_growth"], "program")[("tapebox",)]
    seconds = [min(record["seconds"]) for record in own]
    rows, bytes_of = [record["rows"] for record in own], [record["bytes"] for record in own]
    more = [seconds[at + 1] / rows[at + 1] / (seconds[at] / rows[at]) for at in (0, 4)]
    column = seconds[3] / bytes_of[3] / (seconds[2] / bytes_of[2])
    return [
        f"A row of a report takes {ratio(more[0])} times as long in a table of {rows[1]:,} rows as in one of {rows[0]:,}, and {ratio(more[1])} times as long with"
        f" 4,096 symbols as with 400; a byte {ratio(column)} times as long with 1,000 columns of remarks as with 10."
    ]


def peers(parts):
    rows = []
    for (day, count), of in programs_of(parts["peers"], "day", "rows").items():
        for program, record in of.items():
            name = f"`{program}`" if program in ("tapebox", "desk", "least") else program
            seconds = min(record["seconds"])
            to_mine = ratio(seconds / min(of["tapebox"]["seconds"]))
            rows.append([f"{day_name(day)}, {count:,} rows", name, f"{seconds:.2f}", rounded(count / seconds), to_mine, megabytes(record["kilobytes"])])
    return table(["Table", "Program", "Processor seconds", "Rows a second", "To `tapebox`", "Peak memory"], rows)


def versions(figures):
    of = figures["machine"]
    return [f"Versions: pandas {of['pandas'] or 'was not there'}, SQLite {of['SQLite'] or 'was not there'}."]


def runs_of(records):
    """A row for each number of lines and kind of run."""
    rows = []
    for (count, name), own in by(records, "lines", "run").items():
        speeds = [record["messages"] / record["seconds"] for record in own]
        is_missed = count == 15 and max(speeds) < LIVE_AIMS.get(name, 0)
        asked = span([record["asked"] for record in own], "{:,.0f}".format)
        to_batch = span([record["seconds"] / record["batch"] for record in own], "{:.1f}".format)
        wired = [record["seconds"] / record["wire"] for record in own if record["wire"]]
        rows.append([count, name, span(speeds) + MISSED * is_missed, asked, to_batch, span(wired, "{:.1f}".format) if wired else ""])
    return table(["Lines", "Run", "Messages a second", "Entries asked for again", "To the batch's time", "To `wire`'s"], rows)


def live(parts):
    return runs_of(parts["live"])


def late(parts):
    return runs_of(parts["late"])


def long_day(parts):
    (own,) = parts["long"]
    tenth, tenths = own["messages"] / 10, own["tenths"]
    rows = [
        ["the lines, in the first tenth", rounded(tenth / (tenths[1] - tenths[0])) + " messages a second"],
        ["the lines, in the last tenth", rounded(tenth / (tenths[10] - tenths[9])) + " messages a second"],
        ["to the follower's end", rounded(own["messages"] / own["seconds"]) + " messages a second"],
        ["`live`, peak memory", f"{own['live_bytes'] / own['messages']:,.0f} bytes an entry"],
        ["`follow`, peak memory", f"{own['follow_bytes'] / own['messages']:,.0f} bytes an entry"],
    ]
    return table([f"A day of {own['messages']:,} messages", "Figure"], rows)


def latency(parts):
    rows = []
    for (count, rate), of in programs_of(parts["latency"], "lines", "rate").items():
        cells = []
        for percentile in ("p50", "p99"):
            middles = [statistics.median(run[percentile] for run in of[program]["runs"]) for program in ("forward", "tapebox")]
            cells += [f"{middle:,.0f}" for middle in middles] + [ratio(middles[1] / middles[0])]
        lost = sum(run["lost"] for run in of["tapebox"]["runs"])
        rows.append([count, f"{rate:,}", *cells, f"{lost:,.0f}"])
    head = ["Lines", "Messages a second", "`forward`, p50", "`live`, p50", "Ratio", "`forward`, p99", "`live`, p99", "Ratio", "Lost by `live`'s reader"]
    return table(head, rows)


def bytes_each(record, count):
    """The peak memory of a run by what it read."""
    return min(record["kilobytes"]) * 1024 / count


def quick_look(figures):
    """The three figures of README: a report, how long a message takes beside a plain forwarder, and memory."""
    parts = {name: part["records"] for name, part in figures["parts"].items()}
    of_machine = figures["machine"]
    report = max((record for record in parts["peers"] if record["program"] == "tapebox"), key=lambda record: record["rows"])
    runs = programs_of(parts["latency"], "lines", "rate")
    count, rate = min(runs, key=lambda of: (abs(of[0] - 4), abs(of[1] - 10_000)))
    times = {
        name: [f"{statistics.median(run[percentile] for run in record['runs']):,.0f}" for percentile in ("p50", "p99")] for name, record in runs[(count, rate)].items()
    }
    (own,) = parts["long"]
    speed = rounded(report["rows"] / min(report["seconds"]))
    rows = [
        [f"the report of a table of {report['rows']:,} rows", f"{speed} rows a second, on one processor"],
        [
            f"a message from its participant's line to lines A and B, at {rate:,} a second over {count} lines",
            f"p50 {times['tapebox'][0]} and p99 {times['tapebox'][1]} microseconds; a plain forwarder without a tape takes {times['forward'][0]} and"
            f" {times['forward'][1]}",
        ],
        [
            "memory",
            f"{bytes_each(report, report['rows']):,.0f} bytes a row for that report; in a running day {own['live_bytes'] / own['messages']:,.0f} bytes an entry"
            f" for `live` and {own['follow_bytes'] / own['messages']:,.0f} for `follow`",
        ],
    ]
    at = f"Measured on {of_machine['date']} at commit `{of_machine['commit']}`, on {of_machine['processors']} processors ({of_machine['model']})"
    drafts = ", with programs that are not proved" if of_machine["drafts"] else ""
    return [*table(["What", "Figure"], rows), "", f"{at}{drafts}."]


def one_tape(figures):
    """What one tape takes, for SCALE."""
    parts = {name: part["records"] for name, part in figures["parts"].items()}
    batches = [record for record in parts["batch"] if record["program"] == "tapebox"]
    runs = {name: [record["messages"] / record["seconds"] for record in own] for (name,), own in by(parts["live"], "run").items()}
    (own,) = parts["long"]
    rows = [
        ["messages a second, batch, on one processor", span([record["messages"] / min(record["seconds"]) for record in batches]), "how much of the indexes a message strikes"],
        *(
            [f"messages a second to a follower, a day of 200,000, {'no packet lost' if name == 'straight' else name}", span(of), "sockets, and the sender's rests"]
            for name, of in runs.items()
        ),
        [f"messages a second to a follower, a day of {own['messages']:,}", rounded(own["messages"] / own["seconds"]), "the same"],
        ["bytes of memory a message, batch", span([bytes_each(record, record["messages"]) for record in batches], "{:,.0f}".format), "entries, books, the register, answers"],
        ["bytes of memory an entry, `live`", f"{own['live_bytes'] / own['messages']:,.0f}", "the same but for the answers, cells, and what seats were told"],
        ["bytes of memory an entry, `follow`", f"{own['follow_bytes'] / own['messages']:,.0f}", "a tape of its own"],
    ]
    return table(["What", "Measured", "What sets it"], rows)


def market_day(figures):
    """A day of 100 million messages over eight tapes, computed of the figures above."""
    parts = {name: part["records"] for name, part in figures["parts"].items()}
    batches = [record for record in parts["batch"] if record["program"] == "tapebox"]
    (own,) = parts["long"]
    each, tapes = 12_500_000, 8
    speed, memory = min(record["messages"] / min(record["seconds"]) for record in batches), max(bytes_each(record, record["messages"]) for record in batches)
    to_follower = own["messages"] / own["seconds"]
    gigabytes = lambda bytes_of: f"{bytes_of * each / 1e9:.1f}"
    all_of = lambda bytes_of: f"{bytes_of * each * tapes / 1e9:.0f}"
    live, follow = own["live_bytes"] / own["messages"], own["follow_bytes"] / own["messages"]
    rows = [
        [
            "time",
            f"{each / speed:.0f} s on eight processors",
            f"{each / to_follower:.0f} s to each follower, if all came at once; over six and a half hours it is {each / 23_400:.0f} messages a second on each tape",
        ],
        [
            "memory",
            f"{gigabytes(memory)} GB a tape, {all_of(memory)} GB in all",
            f"{gigabytes(live)} GB for `live` and {gigabytes(follow)} GB for each follower; {all_of(live)} and {all_of(follow)} GB in all",
        ],
    ]
    return table(["", "Batch", "Running day"], rows)


# What stands between the marks, by name; the first two are of the machine.
WRITERS = {"machine": machine, "versions": versions}
# The same of the pages that take figures from there.
OTHERS = {"README.md": {"quick": quick_look}, "docs/SCALE.md": {"tape": one_tape, "market": market_day}}
# The tables, each with the parts that it is made of.
TABLES = {
    "batch": (batch, "batch"), "growth": (growth, "growth", "batch"), "counts": (counts, "counts"), "tables": (tables, "tables"), "least": (least, "tables"),
    "table_growth": (table_growth, "table_growth"), "peers": (peers, "peers"), "live": (live, "live"), "late": (late, "late"), "long": (long_day, "long"),
    "latency": (latency, "latency"),
}


def written(page, figures):
    """The page with each table that was measured; others stay as they are."""
    parts = {name: part["records"] for name, part in figures["parts"].items()}

    writers = {**WRITERS, **{name: writer for own in OTHERS.values() for name, writer in own.items()}}

    def anew(mark):
        name = mark[2]
        if name in writers:
            lines_of = writers[name](figures)
        else:
            writer, *needed = TABLES[name]
            if not parts.keys() >= {*needed}:
                return mark[0]
            lines_of = writer(parts)
        return mark[1] + "\n" + "".join(text + "\n" for text in lines_of) + "\n" + mark[3]

    return MARKED.sub(anew, page)
