"""The rows of a picture, and the bars and marks in them."""

from collections import namedtuple

from timeline_parts.traces import DELIVERIES, TICKS_OF_A_MILLISECOND

# The lines that end the bar of a line.
AFTER_A_HANDLER = (*DELIVERIES, "run", "load", "result", "end")
ENDS = {"load": ("result", "end"), "run": ("run", "end"), "line": AFTER_A_HANDLER, "alarm": AFTER_A_HANDLER}

# The row of a line: its place among the rows, and its name with the line's number or without.
ROWS = {"line": (0, "line {}"), "alarm": (1, "alarms"), "load": (2, "modules"), "run": (3, "thread {}"),
        "due": (3, "thread {}"), "stub": (4, "stub stores"), "service": (5, "unlisted services")}
THREADS = ROWS["run"][0]

# What is drawn, what the legend says of it, and its colour, which all eyes tell from the others.
LEGEND = {"handler": "handler", "module": "module starts", "unended": "module never returns", "ran": "thread runs",
          "began": "thread runs at first", "due": "delay over", "stub": "store into a live stub",
          "refused": "module refused", "unlisted": "service not listed"}
COLOURS = {"handler": "#d55e00", "module": "#00805e", "unended": "#00805e", "ran": "#0072b2", "began": "#0072b2",
           "due": "#f0e442", "stub": "#cc79a7", "refused": "#a0003c", "unlisted": "#a0003c"}
FADING = ("handler", "unended", "began")

# What is not drawn, but told of a thread: another one was taken to run.
AWAY = "away"

# The paths of the marks, from a mark's middle; all else is a bar.
CROSS = "m-5-5l10 10m0-10l-10 10"
MARKS = {"due": "m0-6l5 6-5 6-5-6z", "stub": "m-6-5h12l-6 10z", "refused": CROSS, "unlisted": CROSS}

# A bar or a mark: its row, what it is, the places in the trace of its first and last line, its title and its label.
Item = namedtuple("Item", "row kind first last title label")


def kind_of(lines, place, last):
    """What is drawn of a line whose bar ends at the line `last`."""
    line, end = lines[place], lines[last]
    if line.kind == "run":
        to_its_end = last > place and end.kind in ENDS["run"] and end.words != "end quiet"
        delivered = any(between.kind in DELIVERIES for between in lines[place + 1:last])
        return "ran" if to_its_end and not delivered else "began"
    if line.kind == "load":
        return "refused" if line.numbers[1] else "module" if end.kind == "result" else "unended"
    return {"due": "due", "stub": "stub", "service": "unlisted"}.get(line.kind, "handler")


def item_of(lines, place):
    """What is drawn of a line."""
    line, (order, name) = lines[place], ROWS[lines[place].kind]
    ends = (n for n in range(place + 1, len(lines)) if lines[n].kind in ENDS.get(line.kind, ()))
    last = next(ends, len(lines) - 1)
    kind = kind_of(lines, place, last)
    row = order, int(line.numbers[0]) if "{}" in name else 0, name.format(*line.numbers)
    if kind in MARKS:
        return Item(row, kind, place, place, line.title, line.numbers[1] if line.kind == "load" else "")
    ticks = lines[last].tick - line.tick
    length = f"{ticks:,} ticks, {ticks / TICKS_OF_A_MILLISECOND:,.4f} ms"
    title = "\n".join([LEGEND[kind], line.title, lines[last].title, length])
    return Item(row, kind, place, last, title, line.numbers[0] if line.kind == "load" else "")


def items_of(lines):
    """All that is drawn of a trace."""
    return [item_of(lines, n) for n, line in enumerate(lines) if line.kind in ROWS]


def name_of(row):
    """What a row is called."""
    return "thread 1, loader" if row[2] == "thread 1" else row[2]


def absences(lines, items):
    """Of each thread that ran, from where to where another one was taken to run."""
    left = {}
    for item in items:
        if item.kind in ("ran", "began"):
            since = left.get(item.row, item.first)
            if since < item.first:
                yield Item(item.row, AWAY, since, item.first, "", "")
            left[item.row] = item.last
    for row, since in left.items():
        if lines[since].kind == "run" and since + 1 < len(lines):
            yield Item(row, AWAY, since, len(lines) - 1, "", "")
