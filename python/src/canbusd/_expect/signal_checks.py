"""Checks for a signal over time: whether the signal follows a shape, or stays between two values."""

from collections.abc import Sequence
from decimal import Decimal
from typing import NamedTuple, Optional

from canbusd._database.formats import SignalFormat, Value
from canbusd._expect.received_frames import Seen
from canbusd._text import seconds_words
from canbusd.shapes import Shape


class Sample(NamedTuple):
    """A value of a signal, and the time in seconds at which its frame was on the bus."""

    moment: float
    value: Value
    #: The value as a number. For a name, this is the number that the name stands for; None for an unknown name.
    number: Optional[Decimal]
    seen: Seen


class Follower:
    """Checks whether successive values of a signal follow a shape.

    The shape may begin at any value, or at any time between two values, and each value may be late. So a value must be
    within the tolerance of the range of values that the shape may have at that time.
    """

    def __init__(self, shape: Shape, tolerance: float, late: float, before: Optional[float] = None) -> None:
        self._shape, self._tolerance, self._late = shape, tolerance, late
        # The time of the value before the first one; None if it is not known.
        self._before = before
        self._samples: list[Sample] = []
        # The indexes of the values at which the shape may have begun.
        self._begun: list[int] = []
        #: The failed start after which the signal followed the shape longest: the index of the value at which the shape
        #: began, and the index of the first value that did not follow it.
        self._best: Optional[tuple[int, int]] = None

    def add(self, sample: Sample) -> Optional[list[Sample]]:
        """Adds the next value. Returns the values that follow the shape once the shape is complete; otherwise None."""
        place = len(self._samples)
        self._samples.append(sample)
        still = []
        for begun in [*self._begun, place]:
            if self._fits(begun, place):
                still.append(begun)
            elif self._best is None or place - begun > self._best[1] - self._best[0]:
                self._best = begun, place
        self._begun = still
        first = self._samples[still[0]] if still else sample
        if still and sample.moment - first.moment >= self._shape.seconds - 1e-6:
            return self._samples[still[0] :]
        return None

    def _span(self, begun: int, place: int) -> tuple[float, float]:
        """Returns the minimum and maximum that the shape can have at the value with index `place`, if the shape began
        at the value with index `begun` or since the previous value."""
        since = self._samples[place].moment - self._samples[begun].moment
        before = self._samples[begun - 1].moment if begun else self._before
        gap = 0.0 if before is None else self._samples[begun].moment - before
        return self._shape.span(since - self._late, since + gap + self._late)

    def _fits(self, begun: int, place: int) -> bool:
        least, most = self._span(begun, place)
        number = self._samples[place].number
        return number is not None and least - self._tolerance <= float(number) <= most + self._tolerance

    def failure(self) -> str:
        """Returns an error message that says how far the signal followed the shape."""
        if not self._samples:
            return "it did not come"
        if self._begun:
            done = self._samples[-1].moment - self._samples[self._begun[0]].moment
            return f"it was followed for {seconds_words(round(done, 6))}, and then no more came"
        assert self._best is not None
        begun, place = self._best
        done = self._samples[place].moment - self._samples[begun].moment
        least, most = self._span(begun, place)
        wanted = f"{least:g}" if least == most else f"{least:g} to {most:g}"
        after = f"was followed for {seconds_words(round(done, 6))}, and then" if place > begun else "never began: last"
        return f"it {after} was {self._samples[place].value} in place of {wanted}"


def limits_of(formats: Sequence[SignalFormat], between: Optional[Sequence[float]]) -> tuple[Decimal, Decimal]:
    """Returns the minimum and maximum between which a signal must stay: the given values, or by default the limits in
    the database."""
    if between is not None:
        return Decimal(str(between[0])), Decimal(str(between[1]))
    return max(one.least for one in formats), min(one.most for one in formats)


def number_of(value: Value, formats: Sequence[SignalFormat]) -> Optional[Decimal]:
    """Returns a value as a number. A name is converted to the number that it stands for, or to None if it is unknown."""
    if not isinstance(value, str):
        return Decimal(str(value))
    for one in formats:
        for raw, name in one.choices.items():
            if name == value:
                return raw * one.factor + one.offset
    return None


def is_between(value: Value, formats: Sequence[SignalFormat], least: Decimal, most: Decimal) -> bool:
    """Returns whether a value is within this range. A name is compared as the number that it stands for."""
    number = number_of(value, formats)
    return number is not None and least <= number <= most
