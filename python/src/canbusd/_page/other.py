"""The data of another run on the page of a run: its attempts, their positions among the attempts of this run, and the
differences."""

from collections.abc import Callable, Iterable
from typing import Any, Optional

from canbusd._process.rates import Rates
from canbusd._run.comparison import Comparison, outcome_of, places
from canbusd._run.slots import slots_of
from canbusd._run.steps import DOWN, KINDS, RESTART, numbers_in
from canbusd._session.protocol import STATES
from canbusd.record import timed
from canbusd.replay import Replay

Column = list[Any]


def other_of(
    comparison: Comparison, rates: Optional[Rates], column: Callable[[str, Iterable[float]], Column]
) -> dict[str, Any]:
    """Returns the names, the strings and the attempts of the other run, and the differences. `column` creates the
    columns."""
    _, names = comparison.names
    attempts, partners = comparison.other, comparison.partners
    texts: dict[str, int] = {}
    lines = [texts.setdefault(f"{one.winner} {one.frame} {outcome_of(one)}", len(texts)) for one in attempts]
    spans = spans_of(comparison.records[1].replay, rates)
    start = spans[0][0] if spans else 0
    return {
        "title": comparison.title,
        "names": list(names),
        "texts": list(texts),
        "kind": column("B", (KINDS.index(one.outcome) for one in attempts)),
        "iface": column("B", (names.index(one.winner) for one in attempts)),
        "line": column("I", lines),
        # `partner` is 1 plus the index of the matching attempt in this run, or 0 if there is none. `place` is the
        # position among the attempts of this run: just after the partners of all earlier attempts.
        "partner": column("I", (partners.get(number, -1) + 1 for number in range(len(attempts)))),
        "place": column("I", places(partners, len(attempts))),
        # Times in seconds. `since` is the start relative to the first attempt of the other run, and `took` is the
        # duration. Without bit rates the start is the timestamp.
        "since": column("d", ((begin - start) / 1e9 for begin, _ in spans)),
        "took": column("d", ((over - begin) / 1e9 for begin, over in spans)),
        "away": away_of(comparison.records[1].replay, spans, start),
        "differences": [[one.kind, one.attempt, one.other, one.words] for one in comparison.differences],
    }


def spans_of(run: Replay, rates: Optional[Rates]) -> list[tuple[int, int]]:
    """Returns the start and end of each attempt, in nanoseconds. Without bit rates, both are the attempt's timestamp."""
    if rates is not None:
        return [(slot.begin, slot.over) for slot in slots_of(timed(run, rates))]
    steps = run.steps
    return [(1000 * moment, 1000 * moment) for moment, kind in zip(steps.moments, steps.kinds) if kind < RESTART]


def away_of(run: Replay, spans: list[tuple[int, int]], start: int) -> list[list[float]]:
    """Returns the outages. Each contains the interface, its state, and the attempt and the time in seconds at the start
    and at the end."""
    steps, attempt = run.steps, 0
    found: list[list[float]] = []
    since: dict[int, tuple[int, int, float]] = {}
    for kind, iface, off, moment in zip(steps.kinds, steps.ifaces, steps.off, steps.moments):
        seconds = (1000 * moment - start) / 1e9
        if kind >= RESTART:
            if iface in since:
                found.append([iface, *since.pop(iface), attempt, seconds])
            if kind == DOWN:
                since[iface] = STATES.index("down"), attempt, seconds
            continue
        for one in numbers_in(off):
            since[one] = STATES.index("off"), attempt + 1, (spans[attempt][1] - start) / 1e9
        attempt += 1
    last = (spans[-1][1] - start) / 1e9 if spans else 0.0
    return found + [[iface, *began, attempt, last] for iface, began in since.items()]
