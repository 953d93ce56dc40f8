"""Writes the lines that report a sweep."""

import re
import time
from collections import Counter, defaultdict
from collections.abc import Callable, Sequence
from typing import NamedTuple, Optional, Protocol

from canbusd._sweep.places import Place
from canbusd._sweep.tests import Test
from canbusd._text import times

#: If a kind has more groups than this, they are combined by sender. The second number is how many different failures
#: are shown for a group.
MOST_GROUPS, MOST_FAILURES = 8, 2
#: The time in seconds between two progress lines, on a terminal and elsewhere.
OFTEN, RARELY = 0.2, 30.0


class Terminal(Protocol):
    """The output for the report of a sweep, such as pytest's reporter."""

    isatty: bool

    def ensure_newline(self) -> None:
        """Ends the line."""

    def section(self, title: str) -> None:
        """Writes the title of a section."""

    def write_line(self, line: str, **markup: bool) -> None:
        """Writes a line."""

    def rewrite(self, line: str, **markup: bool) -> None:
        """Replaces the last line of the output."""


class Report(NamedTuple):
    """The result of a test without a fault, or of a group with failed placements."""

    test: Test
    group: str
    outcome: str
    text: str


class Telling:
    """Writes the progress and the results of a sweep."""

    def __init__(self, terminal: Terminal, page: str, report: Callable[[Report], None]) -> None:
        """Prepares the output. `page` is the path of the page, or the empty string if there is none. `report` is called
        with each failure and each success."""
        self._terminal, self._page, self._report = terminal, page, report
        self._began = self._last = time.monotonic()
        #: The number of failures that no marker lists as known.
        self.failures = 0
        self._reports: list[Report] = []

    def begin(self, count: int) -> None:
        """Writes that the sweep begins, with the number of tests."""
        self._terminal.ensure_newline()
        self._terminal.write_line(f"canbusd sweep: {count} test{'' if count == 1 else 's'} without a fault first")

    def progress(self, tests: Sequence[Test]) -> None:
        """Writes the progress of the sweep at regular intervals."""
        now = time.monotonic()
        is_terminal = self._terminal.isatty
        if now - self._last < (OFTEN if is_terminal else RARELY):
            return
        self._last = now
        places = [place for test in tests for place in test.places]
        done = [place for place in places if place.result is not None]
        failed = sum(place.has_failed for place in done)
        line = (
            f"{len(done)} placements done, {failed} failed, {len(places) - len(done)} left, {now - self._began:.0f} s"
        )
        if is_terminal:
            self._terminal.rewrite(line, erase=True)
        else:
            self._terminal.write_line(line)

    def end(
        self,
        tests: Sequence[Test],
        took: float,
        not_begun: int,
        limit: Optional[float],
        differences: Sequence[str],
    ) -> None:
        """Writes the results of the sweep."""
        self._terminal.ensure_newline()
        self._terminal.section("canbusd sweep")
        for test in tests:
            self._tell_test(test)
        for text in differences:
            self.failures += 1
            self._terminal.write_line(f"not the same records again: {text}", red=True)
        places = [place for test in tests for place in test.places]
        run = sum(place.result is not None for place in places)
        rest = f", {not_begun} not begun ({limit:.0f} s)" if not_begun and limit is not None else ""
        left = len(places) - run - not_begun
        rest += f", {left} like those that were run" if left > 0 else ""
        speed = f"{run / max(took, 0.001):.1f} a second"
        self._terminal.write_line(f"{len(places)} placements, {run} run{rest}; {took:.1f} s, {speed}")
        if self._page:
            self._terminal.write_line(self._page)
        for report in self._reports:
            self._report(report)

    def _tell_test(self, test: Test) -> None:
        """Writes the results of a test."""
        base = test.base
        if base is not None and base.outcome != "passed":
            words = f"{test.name}: {base.outcome} without a fault"
            self._terminal.write_line(
                f"{words}: {base.message}" if base.message else words, red=base.outcome == "failed"
            )
            self._reports.append(Report(test, "", base.outcome, base.long))
            return
        run = [place for place in test.places if place.result is not None]
        bad = [place for place in run if place.has_failed]
        if len(test.places) == 1 and test.places[0].kind == "given":
            self._tell_given(test, test.places[0])
            return
        line = line_of_test(test.name, len(test.attempts), len(test.places), len(run), len(bad))
        self._terminal.write_line(line, red=bool(bad), green=not bad)
        self._reports.append(Report(test, "", "passed", ""))
        for group, places in groups_of(run).items():
            if any(place.has_failed for place in places):
                self._tell_group(test, group, places)
            elif group.startswith("missed "):
                self._terminal.write_line(f"  not noticed: {group}, {times(len(places), 'placement')}")
            elif group in test.known:
                self._terminal.write_line(f"  {group}: known to fail, and none of {len(places)} does now", yellow=True)

    def _tell_given(self, test: Test, place: Place) -> None:
        """Writes the result of a single placement that the command line describes."""
        result = place.result
        assert result is not None
        self._reports.append(Report(test, "", result.outcome, result.long))
        page = f"; page: {place.page}" if place.page else ""
        self._terminal.write_line(f"{test.name}: {result.outcome}; its records are {result.records}{page}")
        if result.outcome == "failed":
            self.failures += 1

    def _tell_group(self, test: Test, group: str, places: Sequence[Place]) -> None:
        """Writes the failures of a group."""
        bad = [place for place in places if place.has_failed]
        is_known = group in test.known
        first = bad[0]
        lines = [line_of_group(group, len(bad), len(places), is_known)]
        lines += [f"    {count} x {text[:150]}" for text, count in failures_of(bad)]
        again = "" if first.is_confirmed else " (another failure when it was carried out again)"
        lines += [f"    first: {first}{again}", f"    repeat: {test.task.repeat(first)}"]
        rule = first.as_rule()
        lines += [f"    {test.task.kept_as(rule)}"] if rule else []
        for line in lines:
            self._terminal.write_line(line, red=not is_known, yellow=is_known)
        if not is_known:
            self.failures += 1
            long = first.result.long if first.result else ""
            self._reports.append(Report(test, group, "failed", "\n".join([*lines, "", long])))


def line_of_test(name: str, attempts: int, placements: int, run: int, failed: int) -> str:
    """Returns the line for a test that passed without a fault."""
    return f"{name}: {times(attempts, 'attempt')}, {times(placements, 'placement')}, {run} run, {failed} failed"


def line_of_group(group: str, failed: int, placements: int, is_known: bool) -> str:
    """Returns the line for a group with failed placements."""
    return f"  {group}: {failed} of {placements} placements fail{', as is known' if is_known else ''}"


def groups_of(places: Sequence[Place]) -> dict[str, list[Place]]:
    """Maps each group to its placements. If a kind has many groups, they are combined by sender."""
    by_kind: dict[str, set[str]] = defaultdict(set)
    for place in places:
        by_kind[place.kind].add(place.group)
    found: dict[str, list[Place]] = defaultdict(list)
    for place in places:
        group = place.group
        if len(by_kind[place.kind]) > MOST_GROUPS and place.attempts:
            senders = " and ".join(one.sender for one in place.attempts)
            group = f"{place.kind} any frame from {senders}"
        found[group].append(place)
    return found


def failures_of(places: Sequence[Place]) -> list[tuple[str, int]]:
    """Returns the most frequent failures of placements, each with its count. Failures that differ only in numbers count
    as the same failure."""
    first: dict[str, str] = {}
    count: Counter[str] = Counter()
    for place in places:
        text = place.result.message if place.result else ""
        shape = re.sub(r"\w*[0-9]\w*", "N", text)
        first.setdefault(shape, text)
        count[shape] += 1
    return [(first[shape], number) for shape, number in count.most_common(MOST_FAILURES)]
