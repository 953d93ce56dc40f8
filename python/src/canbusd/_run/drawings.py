"""Draws the events of a record as plain text of at most 120 columns: the error counters, and arbitration bit by bit."""

import bisect
from collections.abc import Iterator, Sequence

from canbusd._run.run_parts import OFF, PASSIVE, WARNING
from canbusd._run.steps import Step, WireFrame
from canbusd.record import Record

# The width of a drawing in columns. A line also contains labels on both sides, and has 120 columns in total.
MOST_COLUMNS = 96
HEIGHT = 16
LIMITS = [(OFF, "bus off"), (PASSIVE, "error passive"), (WARNING, "error warning")]


def counters(record: Record, first: int, last: int) -> Iterator[str]:
    """Draws both error counters of each interface from attempt `first` to attempt `last`, and yields the lines."""
    run, steps = record.replay, record.replay.steps
    begin, end = bisect.bisect_left(steps.attempts, first), bisect.bisect_right(steps.attempts, last)
    rows = [steps.counts_after(begin - 1) if 0 < begin < end else ((0, 0),) * len(run.ifaces)]
    rows += map(steps.counts_after, range(begin, end))
    each = -(-len(rows) // MOST_COLUMNS)
    shared = f"; a column is the highest of {each}" if each > 1 else ""
    for number, name in enumerate(record.names):
        columns = [
            (max(row[number][0] for row in rows[k : k + each]), max(row[number][1] for row in rows[k : k + each]))
            for k in range(0, len(rows), each)
        ]
        yield f"{name}: transmit count #, receive count o, over {len(rows) - 1} steps{shared}"
        highest = max(max(column) for column in columns)
        scale = next(scale for scale in (1, 2, 4, 8, 16, 32) if highest // scale <= HEIGHT)
        for floor in range(highest // scale * scale, -1, -scale):
            yield row_of(columns, floor, scale)
        yield "     +" + "-" * len(columns)


def row_of(columns: list[tuple[int, int]], floor: int, scale: int) -> str:
    """Returns one row of a drawing, with the counts above `floor` and with the limit if it is in this row."""
    least = max(floor, 1)
    cells = "".join("#" if transmit >= least else "o" if receive >= least else " " for transmit, receive in columns)
    limit = next((f"  {text}" for limit, text in LIMITS if floor <= limit < floor + scale), "")
    return f"{floor:4} |{cells}{limit}".rstrip()


def arbitration(record: Record, first: int, last: int) -> Iterator[str]:
    """Draws the bits of each attempt in which several interfaces competed, and yields the lines."""
    names, steps = record.names, record.replay.steps
    for place, attempt in enumerate(steps.attempts):
        if first <= attempt <= last and len(steps.met(place)) > 1:
            step = steps[place]
            yield f"attempt {step.attempt}: {names[step.iface]} wins with {step.text}, {step.kind}"
            yield from contenders_of(step, names)


def contenders_of(step: Step, names: Sequence[str]) -> Iterator[str]:
    """Yields the bits of each competing interface, up to the bit at which it lost arbitration."""
    width = max(map(len, names))
    best: WireFrame = dict(step.contenders)[step.iface]
    for number, frame in step.contenders:
        lost = next((k for k, (one, other) in enumerate(zip(frame.bits, best.bits)) if one != other), None)
        if number == step.iface:
            shown = frame.bits
        elif lost is None:
            shown = frame.bits + "  equal bits: the lower number wins"
        else:
            shown = frame.bits[: lost + 1] + "<- loses here"
        yield f"  {names[number]:{width}} {shown}"
