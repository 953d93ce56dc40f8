"""Checks for received frames: their timing, their order, and whether values change. Times are in microseconds."""

from collections.abc import Callable, Iterable, Sequence
from typing import NamedTuple, Optional

from canbusd._expect.frame_matcher import Wanted
from canbusd._expect.received_frames import Seen


class Gap(NamedTuple):
    """The time between two successive frames of a cyclic message. `number` is the index of the second frame."""

    number: int
    begin: int
    end: int

    @property
    def length(self) -> int:
        """The length of the gap in microseconds."""
        return self.end - self.begin


def gaps_of(moments: Sequence[int]) -> list[Gap]:
    """Returns the gaps between successive times. The first gap has the number 1."""
    return [Gap(number, *pair) for number, pair in enumerate(zip(moments, moments[1:]), 1)]


def wrong_gaps(gaps: Iterable[Gap], period: int, tolerance: int) -> list[Gap]:
    """Returns the gaps whose length differs from the period by more than the tolerance."""
    return [gap for gap in gaps if abs(gap.length - period) > tolerance]


def gap_words(gap: Gap, period: int) -> str:
    """Returns a description of a wrong gap: `gap 3: 0.152000 s, 0.052000 too long, from (..) to (..)`."""
    wrong = gap.length - period
    kind = "long" if wrong > 0 else "short"
    return f"gap {gap.number}: {seconds(gap.length)} s, {seconds(abs(wrong))} too {kind}, {span(gap.begin, gap.end)}"


def span(begin: int, end: int) -> str:
    """Returns a string with a start and an end time, formatted like the timestamps of a log."""
    return f"from ({begin / 1e6:017.6f}) to ({end / 1e6:017.6f})"


def seconds(micros: int) -> str:
    """Formats a number of microseconds as seconds."""
    return f"{micros // 1_000_000}.{micros % 1_000_000:06}"


class Followed(NamedTuple):
    """The frames that were found for an expected sequence."""

    #: The frames for the first steps of the sequence, up to the first step that was not found.
    found: list[Seen]
    #: The first frame between the steps that is not allowed there; None if there is none.
    intruder: Optional[Seen] = None


def follow(frames: Iterable[Seen], steps: Sequence[Wanted], between: Optional[Sequence[Wanted]]) -> Followed:
    """Finds a frame for each step in order. Stops at the first frame that is not allowed between the steps.

    Before the first step, any frame is allowed. After the first step, only frames that match `between` are allowed, or
    all frames if `between` is None. Error message frames are always allowed.
    """
    found: list[Seen] = []
    for seen in frames:
        if len(found) == len(steps):
            break
        if steps[len(found)].matches(seen.frame):
            found.append(seen)
        elif found and between is not None and not seen.frame.is_error_frame:
            if not any(one.matches(seen.frame) for one in between):
                return Followed(found, seen)
    return Followed(found)


class Change(NamedTuple):
    """A change of values: the old values, the new values, and the frame with the new values."""

    before: object
    after: object
    seen: Seen


def first_change(
    before: Optional[object], frames: Iterable[Seen], content: Callable[[Seen], Optional[object]]
) -> Optional[Change]:
    """Returns the first change of values in these frames. `before` are the values of an earlier frame; None if there is
    none."""
    for seen in frames:
        now = content(seen)
        if now is not None and before is not None and now != before:
            return Change(before, now, seen)
        before = before if now is None else now
    return None


def may_change(before: Optional[object], content: Callable[[Seen], Optional[object]]) -> Callable[[Seen], bool]:
    """Returns a function that is called with each frame in turn. It returns true if the frame may be a change, because
    its value differs from the first value."""
    first = [] if before is None else [before]

    def may_be(seen: Seen) -> bool:
        now = content(seen)
        if now is None or first:
            return now is not None and now != first[0]
        first.append(now)
        return False

    return may_be
