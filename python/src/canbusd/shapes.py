"""Shapes are values over time, such as ramps, sines, noise and tables. They are used for the signals of a rest bus and
for expectations.

    rest["Engine"].play("EngineSpeed", shapes.ramp(800, 3000, seconds=2))
    server.expect_signal("ShownSpeed", shape=shapes.ramp(800, 3000, seconds=2), tolerance=50, within=5)

The time of a shape is the time of the bus since the call. If a minimum or a maximum is not given, the shape uses the
signal's limit in the database.
"""

import bisect
import csv as csv_files
import math
import os
import random
from collections.abc import Iterable, Mapping, Sequence
from dataclasses import dataclass, replace
from decimal import Decimal
from functools import cached_property
from numbers import Real
from typing import TYPE_CHECKING, Optional, TypeVar, Union

from canbusd._calls import explained, no_such

if TYPE_CHECKING:
    from canbusd._database.formats import SignalFormat, Value

S = TypeVar("S", bound="Between")


class Shape:
    """The base class of shapes, which define values over time. Use the functions of this module to create shapes."""

    #: Whether the values depend only on the time. Expectations support only such shapes.
    is_of_time = True
    #: The duration of the shape in seconds. For a wave, this is one period.
    seconds: float

    def of(self, signal: "SignalFormat") -> "Shape":
        """Returns the shape for this signal, with the signal's limits in place of ends that were not given. Raises
        ValueError if the signal has no limits."""
        return self

    @property
    def ends(self) -> "Sequence[Value]":
        """Some values of the shape, including its minimum and its maximum."""
        raise NotImplementedError

    def at(self, seconds: float, number: int) -> "Value":
        """Returns the value at this time in seconds. `number` is the index of the frame since the start of the shape."""
        raise NotImplementedError

    def span(self, first: float, last: float) -> tuple[float, float]:
        """Returns the minimum and the maximum value between two times in seconds."""
        inner = [moment for moment in self._turns(first, last) if first < moment < last]
        values = [self.at(moment, 0) for moment in (first, *inner, last)]
        numbers = [float(value) for value in values]
        return min(numbers), max(numbers)

    def _turns(self, first: float, last: float) -> Iterable[float]:
        """Returns the times at which the shape changes direction or jumps. Between these times, it only rises, only
        falls, or is constant."""
        return ()


@dataclass(frozen=True)
class Between(Shape):
    """The base class of shapes that are defined by two values, called ends."""

    start: Optional[float]
    end: Optional[float]
    seconds: float

    def of(self: S, signal: "SignalFormat") -> S:
        """Returns the shape for this signal, with the signal's limits in place of ends that were not given."""
        ends = {"start": (self.start, signal.least), "end": (self.end, signal.most)}
        for own, limit in ends.values():
            if own is None and not Decimal(limit).is_finite():
                raise ValueError(
                    f"{signal.name} has no limits in the database: give {type(self).__name__.lower()} both ends"
                )
        return replace(self, **{name: float(limit) if own is None else own for name, (own, limit) in ends.items()})

    @property
    def ends(self) -> Sequence[float]:
        assert self.start is not None and self.end is not None
        return self.start, self.end

    def _part(self, part: float) -> float:
        """Returns the value at a fraction of the way from the start to the end."""
        first, last = self.ends
        return first + (last - first) * part


class Ramp(Between):
    """A ramp. After its duration, the value stays at the end value."""

    def at(self, seconds: float, number: int) -> float:
        return self._part(min(max(seconds / self.seconds, 0.0), 1.0))

    def _turns(self, first: float, last: float) -> Iterable[float]:
        return 0.0, self.seconds


class Sine(Between):
    """A sine wave that starts in the middle and rises first."""

    def at(self, seconds: float, number: int) -> float:
        return self._part(0.5 + 0.5 * math.sin(2 * math.pi * max(seconds, 0.0) / self.seconds))

    def _turns(self, first: float, last: float) -> Iterable[float]:
        quarter = self.seconds / 4
        return (turn * quarter for turn in range(int(first // quarter), int(last // quarter) + 2) if turn % 2)


@dataclass(frozen=True)
class Square(Between):
    """A square wave that begins with its start value."""

    duty: float = 0.5

    def at(self, seconds: float, number: int) -> float:
        return self.ends[0 if max(seconds, 0.0) % self.seconds < self.duty * self.seconds else 1]

    def _turns(self, first: float, last: float) -> Iterable[float]:
        # The times at which the wave jumps, and the times just before them.
        for period in range(int(first // self.seconds), int(last // self.seconds) + 1):
            for jump in (period * self.seconds, (period + self.duty) * self.seconds):
                yield from (jump - 1e-9, jump)


@dataclass(frozen=True)
class Noise(Between):
    """Noise. Each frame has a new random value. The same seed produces the same values."""

    seed: int = 0
    is_of_time = False

    def at(self, seconds: float, number: int) -> float:
        return self._part(random.Random(f"{self.seed} {number}").random())


@dataclass(frozen=True)
class Toggle(Shape):
    """A shape that repeats a list of values. Each frame has the next value, or each value lasts an equal part of the
    period."""

    values: "Sequence[Value]"
    seconds: float

    @property
    def is_of_time(self) -> bool:  # type: ignore[override]
        return self.seconds > 0

    @property
    def ends(self) -> "Sequence[Value]":
        return self.values

    def at(self, seconds: float, number: int) -> "Value":
        place = int(max(seconds, 0.0) * len(self.values) / self.seconds + 1e-9) if self.seconds else number
        return self.values[place % len(self.values)]

    def _turns(self, first: float, last: float) -> Iterable[float]:
        part = self.seconds / len(self.values)
        for number in range(int(first // part), int(last // part) + 2):
            yield from (number * part - 2e-9, number * part)


@dataclass(frozen=True)
class Table(Shape):
    """A table of values. Each value applies from its time until the time of the next value."""

    rows: "Sequence[tuple[float, Value]]"

    @property
    def seconds(self) -> float:  # type: ignore[override]
        return self.rows[-1][0]

    @cached_property
    def _moments(self) -> list[float]:
        return [moment for moment, _ in self.rows]

    @property
    def ends(self) -> "Sequence[Value]":
        return [value for _, value in self.rows]

    def at(self, seconds: float, number: int) -> "Value":
        return self.rows[max(bisect.bisect_right(self._moments, seconds + 1e-9) - 1, 0)][1]

    def _turns(self, first: float, last: float) -> Iterable[float]:
        for moment in self._moments[
            bisect.bisect_left(self._moments, first) : bisect.bisect_right(self._moments, last)
        ]:
            yield from (moment - 2e-9, moment)


@explained()
def ramp(start: Optional[float] = None, end: Optional[float] = None, *, seconds: float = 1.0) -> Ramp:
    """Returns a ramp from `start` to `end` that lasts `seconds` seconds. After that, the value stays at `end`."""
    return Ramp(*_ends(start, end), _seconds("seconds", seconds))


@explained()
def sine(low: Optional[float] = None, high: Optional[float] = None, *, period: float = 1.0) -> Sine:
    """Returns a sine wave between `low` and `high` that starts in the middle and rises first."""
    return Sine(*_ends(low, high), _seconds("period", period))


@explained()
def square(
    low: Optional[float] = None, high: Optional[float] = None, *, period: float = 1.0, duty: float = 0.5
) -> Square:
    """Returns a square wave that is `low` for the fraction `duty` of each period, and `high` for the rest."""
    if not isinstance(duty, Real) or not 0 < float(duty) < 1:
        raise ValueError(f"duty is the part of a period that is low, above 0 and below 1, not {duty!r}")
    return Square(*_ends(low, high), _seconds("period", period), duty)


@explained()
def noise(low: Optional[float] = None, high: Optional[float] = None, *, seed: int = 0) -> Noise:
    """Returns noise between `low` and `high`. Each frame has a new value. The same seed produces the same values."""
    return Noise(*_ends(low, high), 1.0, seed)


@explained()
def toggle(*values: "Value", period: Optional[float] = None) -> Toggle:
    """Returns a shape that repeats these values in order, by default 0 and 1. Each frame has the next value. With a
    `period` in seconds, all values are repeated in every period instead."""
    return Toggle(values or (0, 1), 0.0 if period is None else _seconds("period", period))


@explained()
def table(rows: "Iterable[tuple[float, Value]]") -> Table:
    """Returns a table of values. Each row is a time in seconds and a value: ``[(0.0, 800), (1.5, 3000)]``."""
    known = "pairs of seconds and values, such as [(0.0, 800), (1.5, 3000)]"
    found = list(rows) if isinstance(rows, Iterable) and not isinstance(rows, (str, Mapping)) else []
    for row in found:
        if not isinstance(row, (tuple, list)) or len(row) != 2 or not isinstance(row[0], Real) or row[0] < 0:
            raise ValueError(f"a table has {known}, not {row!r}")
    if not found:
        raise ValueError(f"a table has {known}, not {rows!r}")
    return Table(sorted(((float(moment), value) for moment, value in found), key=lambda row: row[0]))


@explained()
def csv(
    path: "Union[str, os.PathLike[str]]", column: str, *, time: Optional[str] = None, delimiter: str = ","
) -> Table:
    """Returns a table with the values in a column of a CSV file. The first line of the file contains the names of the
    columns.

    The times in seconds are in the column `time`, by default the first column. They are relative to the first row.
    Raises ValueError with the line number if the file is malformed.
    """
    with open(path, newline="", encoding="utf-8-sig") as file:
        reader = csv_files.reader(file, delimiter=delimiter)
        heading = [name.strip() for name in next(reader, [])]
        for name in [column, *([] if time is None else [time])]:
            if name not in heading:
                raise ValueError(f"{os.fspath(path)}: {no_such('column', name, heading)}")
        places = heading.index(time) if time is not None else 0, heading.index(column)
        rows = []
        for row in filter(None, reader):
            try:
                rows.append((float(row[places[0]]), _value(row[places[1]])))
            except (ValueError, IndexError):
                where = f"{os.fspath(path)}:{reader.line_num}"
                raise ValueError(f"{where}: no number of seconds and value: {delimiter.join(row)}") from None
    if not rows:
        raise ValueError(f"{os.fspath(path)}: no row below its heading")
    return table([(moment - rows[0][0], value) for moment, value in rows])


def _value(text: str) -> "Value":
    """Parses a number. Any other string is returned unchanged, as the name of a number."""
    stripped = text.strip()
    try:
        return int(stripped)
    except ValueError:
        pass
    try:
        return float(stripped)
    except ValueError:
        if not stripped:
            raise
        return stripped


def _ends(start: Optional[float], end: Optional[float]) -> tuple[Optional[float], Optional[float]]:
    for one in (start, end):
        if one is not None and (not isinstance(one, Real) or not math.isfinite(one)):
            raise ValueError(f"the ends of a shape are numbers, or left out for the limits of the signal, not {one!r}")
    return start, end


def _seconds(name: str, seconds: object) -> float:
    if not isinstance(seconds, Real) or not 0 < float(seconds) < math.inf:
        raise ValueError(f"{name} is a number of seconds above 0, not {seconds!r}")
    return float(seconds)
