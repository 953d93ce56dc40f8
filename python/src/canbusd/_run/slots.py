"""Computes when the attempts of a run occupy the wire, on a bus with bit rates, and the resulting bus load.

The timestamp of an attempt is the end of its frame, rounded down to microseconds, so the true end is up to 999
nanoseconds later. For each attempt in turn, this module uses the earliest possible end. So rounding errors do not add
up, and attempts overlap only if they overlap for all possible ends.
"""

from collections.abc import Iterable, Sequence
from typing import NamedTuple

from canbusd._run.steps import RESTART, moment_of
from canbusd.replay import Replay

# The frame of an attempt ends at most this many nanoseconds after the attempt's timestamp.
MOST_LATER = 999
# The largest possible timestamp in microseconds. The clock of a bus stops at this time.
LAST_MOMENT = 9999999999999999


class Slot(NamedTuple):
    """The time during which an attempt occupies the wire, in nanoseconds."""

    #: The index of the attempt's step in the replay.
    step: int
    #: The time at which the frame starts.
    begin: int
    #: The time when the next attempt may begin.
    over: int
    #: The minimum overlap with the previous attempt.
    overlap: int


class Load(NamedTuple):
    """How long the wire is busy, and the whole time from the start of the first attempt to the end of the last one, in
    nanoseconds."""

    busy: int
    whole: int

    @property
    def share(self) -> float:
        """The fraction of the time during which the wire is busy. It exceeds 1 if attempts overlap."""
        return self.busy / self.whole if self.whole else 0.0


def slots_of(run: Replay) -> list[Slot]:
    """Returns the slots of the attempts with a frame. The run must have been read with the bit rates of its bus."""
    slots: list[Slot] = []
    over, steps = 0, run.steps
    for place, (kind, moment, frame, busy) in enumerate(
        zip(steps.kinds, steps.moments, steps.frame_nanos, steps.busy_nanos)
    ):
        if kind >= RESTART:
            continue
        begin = moment * 1000 - frame
        free = over if slots and moment != LAST_MOMENT else begin
        overlap = max(free - (begin + MOST_LATER), 0)
        begin = begin if overlap else max(begin, free)
        over = begin + busy
        slots.append(Slot(place, begin, over, overlap))
    return slots


def load_of(slots: Sequence[Slot]) -> Load:
    """Returns the bus load caused by these attempts."""
    if not slots:
        return Load(0, 0)
    whole = max(slot.over for slot in slots) - min(slot.begin for slot in slots)
    return Load(sum(slot.over - slot.begin for slot in slots), whole)


def overlaps_of(run: Replay, slots: Iterable[Slot]) -> list[str]:
    """Returns a line for each attempt that begins before the end of the previous attempt."""
    lines = []
    for slot in slots:
        if slot.overlap:
            attempt, moment = run.steps.attempts[slot.step], moment_of(run.steps.moments[slot.step])
            early = f"{slot.overlap / 1000:,.3f} microseconds before attempt {attempt - 1} is over"
            lines.append(f"attempt {attempt} at {moment} begins {early}")
    return lines


def load_words(load: Load) -> str:
    """Describes the bus load in words."""
    if not load.whole:
        return "load 0 %: no frame was tried"
    return (
        f"load {100 * load.share:.1f} %: the wire was busy for {load.busy / 1e9:.6f} of {load.whole / 1e9:.6f} seconds"
    )
