"""The time on the wire for the page of a run: additional columns for its rows, if the bus has bit rates."""

import itertools
import operator
from array import array
from collections.abc import Callable, Iterable, Sequence
from typing import TYPE_CHECKING, Any

from canbusd._process.rates import Rates
from canbusd._run.slots import Slot, slots_of
from canbusd._run.steps import DONE, DOWN, RESTART
from canbusd.record import timed
from canbusd.replay import Replay

if TYPE_CHECKING:
    from canbusd._page.report import Timeline

Column = list[Any]


def wire_of(
    run: Replay, timeline: "Timeline", rates: Rates, column: Callable[[str, Iterable[float]], Column]
) -> dict[str, Any]:
    """Returns the bit rates, and columns with a number for each row of the time line. `column` creates the columns."""
    run = timed(run, rates)
    slots, steps = slots_of(run), run.steps
    over = max((slot.over for slot in slots), default=0)
    begins = begins_of(run, timeline, slots, over)
    start, end = (begins[0], max(begins[-1], over)) if begins else (0, 0)
    return {
        "bitrate": rates.bitrate,
        "dbitrate": rates.dbitrate,
        # The time in nanoseconds since the start of the previous row. These numbers are smaller than times since the
        # first row.
        "begin": [*column("d", map(operator.sub, begins, itertools.chain([start], begins))), "rising"],
        "end": end - start,
        # How many bits of the frame are sent at each bit rate, and how long the frame and the attempt take, in
        # nanoseconds.
        "nominal": column("H", timeline.rows(steps.nominal_bits)),
        "fast": column("H", timeline.rows(steps.fast_bits)),
        "frame": column("I", timeline.rows(steps.frame_nanos)),
        "busy": column("I", timeline.rows(steps.busy_nanos)),
        "since": column("I", timeline.rows(since_of(run, timeline.places))),
    }


def begins_of(run: Replay, timeline: "Timeline", slots: Sequence[Slot], over: int) -> list[int]:
    """Returns when each row begins. These times never decrease. Idle attempts begin at the same time as the step after
    them.

    Idle attempts after the last step begin when all attempts have ended.
    """
    by_step = array("q", (1000 * micros for micros in run.steps.moments))
    for slot in slots:
        by_step[slot.step] = slot.begin
    return list(itertools.accumulate(timeline.shown(by_step, over), max))


def since_of(run: Replay, places: Sequence[int]) -> "array[int]":
    """Returns, for each attempt, how many rows ago its frame first took part in arbitration."""
    steps, since = run.steps, array("I")
    firsts: dict[int, int] = {}
    for step, (place, kind, iface, off) in enumerate(zip(places, steps.kinds, steps.ifaces, steps.off)):
        if kind >= RESTART:
            if kind == DOWN:
                firsts.pop(iface, None)
            since.append(0)
            continue
        for one in steps.met(step):
            firsts.setdefault(one, place)
        since.append(place - firsts[iface])
        if kind == DONE or off:
            del firsts[iface]
    return since
