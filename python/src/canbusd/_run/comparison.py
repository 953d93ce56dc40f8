"""Compares two runs and finds the differences between their frames.

Frames of both runs are matched by sender, identifier and order, and all attempts to send a frame count as one frame.
Interfaces are compared by name if both runs name all their interfaces, otherwise by number.
"""

import collections
import functools
import itertools
from collections.abc import Iterable, Iterator, Sequence
from typing import Literal, NamedTuple, Optional

from canbusd._run.alignment import Pair, Sent, pairs_of
from canbusd._run.steps import DOWN, RESTART, numbers_in
from canbusd._text import times
from canbusd.record import Attempt, Record, attempts_of, is_named, number_named

Kind = Literal["only here", "only there", "other data", "other outcome", "later", "earlier", "restarts", "downs"]
#: The tolerance in seconds for the times of a frame. Times are relative to the first frame of each run.
TOLERANCE = 0.01
# The maximum number of differences that `lines` lists.
MOST_LISTED = 1000
SIGNS = {"only here": "-", "only there": "+"}


class Difference(NamedTuple):
    """A difference between the two runs."""

    kind: Kind
    #: The attempt in the first run. If only the second run contains the frame, this is the attempt before which the
    #: frame would be.
    attempt: int
    #: The attempt in the second run. If only the first run contains the frame, this is the attempt before which the
    #: frame would be.
    other: int
    words: str

    def line(self) -> str:
        """Returns the difference as one line: the attempts of both runs, the kind and a description."""
        here = "" if self.kind == "only there" else f"{self.attempt:,}"
        there = "" if self.kind == "only here" else f"{self.other:,}"
        return f"{SIGNS.get(self.kind, '!')} {here:>9} {there:>9}  {self.kind}: {self.words}"


def names_of_both(one: Record, other: Record) -> tuple[Sequence[str], Sequence[str]]:
    """Returns the names that are used to compare and to show the interfaces of two runs.

    If all interfaces have names, each run uses its own names. Otherwise both runs use the same name for an interface,
    taken from the run that names it. If the runs have different names for an interface, both use numbers.
    """
    if all(map(is_named, [*one.names, *other.names])):
        return one.names, other.names
    pairs = itertools.zip_longest(one.names, other.names, fillvalue="")
    known = [set(filter(is_named, pair)) for pair in pairs]
    names = [next(iter(found), number_named(number)) for number, found in enumerate(known)]
    if any(len(found) > 1 for found in known) or len(set(names)) < len(names):
        names = [number_named(number) for number in range(len(known))]
    return names[: len(one.names)], names[: len(other.names)]


class Comparison:
    """Two runs, with the interface names that are used to compare them. `title` is the title of the second run on a
    page."""

    def __init__(self, one: Record, other: Record, title: str = "", tolerance: float = TOLERANCE) -> None:
        self.records, self.title, self.tolerance = (one, other), title, tolerance
        self.names = names_of_both(one, other)
        made = [attempts_of(record.replay, names) for record, names in zip(self.records, self.names)]
        #: The attempts of both runs that had a frame. Their indices start at 0.
        self.one, self.other = ([attempt for attempt in run if attempt.outcome != "idle"] for run in made)
        self._restarted = [collections.Counter(name for attempt in run for name in attempt.restarted) for run in made]
        self._downed = [downs_of(record, names) for record, names in zip(self.records, self.names)]
        self._rows = list(pairs_of(self.one, self.other))

    def reversed(self, title: str) -> "Comparison":
        """Returns the comparison with the two runs swapped. The pairs of frames stay the same. `title` is the new
        title."""
        turned = object.__new__(Comparison)
        turned.records, turned.names = self.records[::-1], self.names[::-1]
        turned.title, turned.tolerance = title, self.tolerance
        turned.one, turned.other = self.other, self.one
        turned._restarted, turned._downed = self._restarted[::-1], self._downed[::-1]
        turned._rows = [[Pair(other, one) for one, other in row] for row in self._rows]
        return turned

    @functools.cached_property
    def partners(self) -> dict[int, int]:
        """Maps attempts of the second run to the matching attempts of the first run. The attempts to send a frame are
        matched from the last one backwards."""
        found: dict[int, int] = {}
        for pair in itertools.chain(*self._rows):
            if pair.one is not None and pair.other is not None:
                found.update(zip(reversed(pair.other.attempts), reversed(pair.one.attempts)))
        return found

    @functools.cached_property
    def differences(self) -> list[Difference]:
        """All differences between the runs, in order."""
        # If only one run contains a frame, these are its positions in the other run.
        here, there = places(self.partners, len(self.other)), places(reversed_pairs(self.partners), len(self.one))
        found = [one for row in self._rows for one in self._in_row(row, here, there)]
        more = [
            *self._counted("restarts", "was restarted", self._restarted),
            *self._counted("downs", "went down", self._downed),
        ]
        return sorted([*found, *more], key=lambda one: (one.attempt, one.other))

    def _in_row(self, row: Sequence[Pair], here: Sequence[int], there: Sequence[int]) -> Iterator[Difference]:
        shown_late = 0.0
        for one, other in row:
            if other is None and one is not None:
                words = f"{told(self.one, one)}: {outcomes(self.one, one)}"
                yield Difference("only here", one.first, there[one.first], words)
            elif one is None and other is not None:
                words = f"{told(self.other, other)}: {outcomes(self.other, other)}"
                yield Difference("only there", here[other.first], other.first, words)
            elif one is not None and other is not None:
                late = self._late(one, other)
                is_moved = abs(late) > self.tolerance and abs(late - shown_late) > self.tolerance
                shown_late = late if is_moved else shown_late if abs(late) > self.tolerance else 0.0
                yield from self._of_pair(one, other, late if is_moved else 0.0)

    def _of_pair(self, one: Sent, other: Sent, late: float) -> Iterator[Difference]:
        if not late and [key_of(self.one[k]) for k in one.attempts] == [key_of(self.other[k]) for k in other.attempts]:
            return
        texts = told(self.one, one), told(self.other, other)
        ends = outcomes(self.one, one), outcomes(self.other, other)
        kinds: list[tuple[Kind, str]] = []
        if texts[0] != texts[1]:
            kinds.append(("other data", f"{texts[0]} against {texts[1]}"))
        if ends[0] != ends[1]:
            kinds.append(("other outcome", f"{ends[0]} against {ends[1]}"))
        else:
            # If a node missed a frame during its outage, this is not a separate difference.
            gone = self._away[0][one.first] | self._away[1][other.first]
            takers = accepted(self.one, one, gone), accepted(self.other, other, gone)
            if takers[0] != takers[1]:
                kinds.append(("other outcome", f"accepted by {named(takers[0])} against {named(takers[1])}"))
        if late:
            kind: Kind = "later" if late > 0 else "earlier"
            kinds.append((kind, f"{kind} by {abs(late) * 1000:,.3f} ms"))
        if kinds:
            about = "" if kinds[0][0] == "other data" else f"{texts[0]}: "
            yield Difference(kinds[0][0], one.first, other.first, about + "; ".join(words for _, words in kinds))

    def _counted(self, kind: Kind, did: str, counts: "Sequence[collections.Counter[str]]") -> Iterator[Difference]:
        """Yields a difference for each interface for which the number of these events differs between the runs."""
        for name in sorted(set(counts[0]) | set(counts[1])):
            if counts[0][name] != counts[1][name]:
                words = f"{name} {did} {times(counts[0][name], 'time')} against {counts[1][name]}"
                yield Difference(kind, max(len(self.one) - 1, 0), max(len(self.other) - 1, 0), words)

    def _late(self, one: Sent, other: Sent) -> float:
        moments = self.one[one.attempts[-1]].timestamp, self.other[other.attempts[-1]].timestamp
        return moments[1] - moments[0] - self._shift

    @functools.cached_property
    def _shift(self) -> float:
        """The delay of the second run: the time difference at the first frame that both runs contain."""
        pairs = (pair for row in self._rows for pair in row)
        both = [(one, other) for one, other in pairs if one is not None and other is not None]
        if not both:
            return 0.0
        one, other = min(both, key=lambda pair: pair[0].first)
        return self.other[other.attempts[-1]].timestamp - self.one[one.attempts[-1]].timestamp

    @functools.cached_property
    def _away(self) -> "list[list[frozenset[str]]]":
        return [away(record, names) for record, names in zip(self.records, self.names)]

    @property
    def reordered(self) -> Optional[int]:
        """The first attempt that comes later in the second run than an attempt that follows it in the first run. None
        if both runs have the same order."""
        last = -1
        for other in sorted(self.partners):
            if self.partners[other] < last:
                return self.partners[other]
            last = self.partners[other]
        return None

    def heading(self) -> str:
        """Returns a summary of the differences on one line."""
        if self.differences:
            first = self.differences[0]
            many = times(len(self.differences), "difference")
            return f"{many}, {'in' if len(self.differences) == 1 else 'first in'} attempt {first.attempt:,}: {first.kind}: {first.words}"
        if self.reordered is not None:
            return f"The same frames in another order, first at attempt {self.reordered:,}"
        return f"No difference in {times(len(self.one), 'attempt')}"

    def lines(self) -> list[str]:
        """Returns the heading and the differences as lines. A line starts with `-` if only the first run contains the
        frame, `+` if only the second run contains it, and `!` if both contain it."""
        more = len(self.differences) - MOST_LISTED
        lines = [one.line() for one in self.differences[:MOST_LISTED]]
        return [self.heading(), *lines, *([f"and {times(more, 'difference')} more"] if more > 0 else [])]


def places(partners: dict[int, int], count: int) -> list[int]:
    """Returns an index in the other run for each attempt of a run: the highest partner of the attempts so far, plus 1
    if the attempt itself has no partner."""
    last, found = -1, []
    for attempt in range(count):
        last = max(last, partners.get(attempt, -1))
        found.append(last + (attempt not in partners))
    return found


def reversed_pairs(partners: dict[int, int]) -> dict[int, int]:
    """Returns the inverse map, from attempts of the first run to attempts of the second."""
    return {one: other for other, one in partners.items()}


def key_of(attempt: Attempt) -> tuple[object, ...]:
    """Returns the properties of an attempt that are compared. Sets of interfaces are listed in bus order, so equal sets
    may have different keys."""
    return attempt.frame, attempt.outcome, attempt.fault, attempt.accepted, attempt.off


def told(run: Sequence[Attempt], sent: Sent) -> str:
    """Returns a frame with its sender, such as `can0 123#11`."""
    attempt = run[sent.first]
    return f"{attempt.winner} {attempt.frame}"


def outcomes(run: Sequence[Attempt], sent: Sent) -> str:
    """Returns the outcomes of all attempts to send a frame, such as `destroyed (global bit), then done`."""
    found = []
    for outcome, same in itertools.groupby(outcome_of(run[place]) for place in sent.attempts):
        many = len(list(same))
        found.append(outcome if many == 1 else f"{many} times {outcome}")
    return ", then ".join(found)


def outcome_of(attempt: Attempt) -> str:
    """Returns the outcome of an attempt, its fault, and the interfaces that went bus off."""
    fault = "" if attempt.fault in ("good", attempt.outcome) else f" ({attempt.fault})"
    return attempt.outcome + fault + (f", {' and '.join(sorted(attempt.off))} bus off" if attempt.off else "")


def accepted(run: Sequence[Attempt], sent: Sent, gone: "frozenset[str]") -> list[set[str]]:
    """Returns the receivers of a frame in each attempt, without the interfaces in `gone`."""
    return [set(run[place].accepted) - gone for place in sent.attempts]


def downs_of(record: Record, names: Sequence[str]) -> "collections.Counter[str]":
    """Counts how often each interface of a run went down."""
    steps = record.replay.steps
    return collections.Counter(names[steps.ifaces[place]] for place in steps.places_of(DOWN))


def away(record: Record, names: Sequence[str]) -> "list[frozenset[str]]":
    """Returns, for each attempt of a run, the interfaces that were bus off or down during the attempt."""
    steps, gone = record.replay.steps, frozenset[str]()
    found = []
    for kind, iface, off in zip(steps.kinds, steps.ifaces, steps.off):
        if kind == RESTART:
            gone -= {names[iface]}
            continue
        if kind == DOWN:
            gone |= {names[iface]}
            continue
        found.append(gone)
        gone = gone.union(names[number] for number in numbers_in(off)) if off else gone
    return found


def named(takers: Iterable[set[str]]) -> str:
    """Lists the receivers of a frame in words."""
    return ", then ".join(" and ".join(sorted(one)) or "nobody" for one in takers)
