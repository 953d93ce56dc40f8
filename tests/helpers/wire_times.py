"""The times of frames on a bus with bit rates, independent of the program: lengths of attempts, the order of frames,
and worst response times by analysis. The bits of a frame come from wire_model.py. The end of a failed attempt is
defined by this project (crates/can_wire/specs/AttemptBits.antt). Times are in nanoseconds. They are exact, except that
the end of each attempt is rounded up.
"""

from __future__ import annotations

import dataclasses
import enum
import fractions
import math
from collections.abc import Callable, Iterable, Iterator, Sequence

from wire_model import FD_LENGTHS, Frame, Sender, arbitration_bits, bit_counts, data_bits, number_bits

SECOND = 10**9
INTERMISSION = 3
# The number of bits in CRC delimiter, ACK slot, ACK delimiter and end of frame.
FRAME_END = 10
ERROR_DELIMITER = 8
#: The number of bits in an attempt without a frame.
IDLE = 11


class Ending(enum.Enum):
    """How an attempt ends. After a fault, the error flag follows either the data or the CRC."""

    DONE = enum.auto()
    LAST_BIT = enum.auto()
    NO_ACK = enum.auto()
    AFTER_DATA = enum.auto()
    AFTER_CRC = enum.auto()


# The endings of attempts that destroy no frame, by their outcome in records.
ENDINGS = {"done": Ending.DONE, "lastbit": Ending.LAST_BIT, "noack": Ending.NO_ACK}


def ending_of(kind: str, verdict: str) -> Ending:
    """Returns how an attempt with this outcome and this verdict ends. After bit errors and stuff errors the error flag
    follows the data."""
    early = Ending.AFTER_DATA if verdict.startswith(("global-bit", "local-stuff")) else Ending.AFTER_CRC
    return ENDINGS.get(kind, early)


@dataclasses.dataclass(frozen=True)
class Rates:
    """The bit rates of a bus. FD frames with BRS switch to the second bit rate, if the bus has one."""

    nominal: int
    fast: int | None = None

    def nanos(self, bits: tuple[int, int]) -> int:
        """Returns the duration of bits at the nominal and at the data bit rate, rounded up."""
        nominal, fast = bits
        return math.ceil(
            fractions.Fraction(nominal * SECOND, self.nominal)
            + fractions.Fraction(fast * SECOND, self.fast or self.nominal)
        )

    def frame_nanos(self, frame: Frame) -> int:
        """Returns the duration of a frame from start of frame to end of frame."""
        return self.nanos(bit_counts(frame))

    def attempt_nanos(self, frame: Frame, ending: Ending = Ending.DONE) -> int:
        """Returns the time from start of frame until the next frame may begin."""
        return self.nanos(attempt_bits(frame, ending))

    def idle_nanos(self) -> int:
        return self.nanos((IDLE, 0))


def bits_to_data_end(frame: Frame) -> tuple[int, int]:
    """Returns how many bits are sent from start of frame to the last data bit, at each bit rate."""
    sender = Sender()
    length = len(frame.data) if frame.requests is None else frame.requests
    if frame.is_fd:
        sender.send([0, *arbitration_bits(frame), 1, 0, int(frame.brs)])
        code = number_bits(FD_LENGTHS.index(length), 4)
        sender.send([int(frame.esi), *code, *data_bits(frame)], frame.brs)
    else:
        reserved = [0, 0] if frame.extended else [0]
        sender.send([0, *arbitration_bits(frame), *reserved, *number_bits(length, 4), *data_bits(frame)])
    return len(sender.bits) - sender.fast, sender.fast


def attempt_bits(frame: Frame, ending: Ending) -> tuple[int, int]:
    """Returns how many bits an attempt takes with its intermission, at each bit rate."""
    nominal, fast = bit_counts(frame)
    if ending is Ending.DONE:
        return nominal + INTERMISSION, fast
    if ending is Ending.LAST_BIT:
        return nominal + 7 + ERROR_DELIMITER + INTERMISSION, fast
    if ending is Ending.NO_ACK:
        return nominal - FRAME_END + 2 + 6 + ERROR_DELIMITER + INTERMISSION, fast
    if ending is Ending.AFTER_CRC:
        return nominal - FRAME_END + 3 + 12 + ERROR_DELIMITER + INTERMISSION, fast
    nominal, fast = bits_to_data_end(frame)
    return nominal + 12 + ERROR_DELIMITER + INTERMISSION, fast


# ---- the simulation of a bus


@dataclasses.dataclass(frozen=True)
class Release:
    """A frame that a node queues at `time`, which is `late` after the due time. A node sends its frames in the order in
    which they were queued."""

    time: int
    node: int
    frame: Frame
    late: int = 0


@dataclasses.dataclass(frozen=True)
class Sent:
    """A sent frame, with its start, its end of frame, and the time from which the next frame may begin."""

    release: Release
    begin: int
    end: int
    free: int

    @property
    def response(self) -> int:
        """Returns the response time, from the due time until the bus is free again."""
        return self.free - self.release.time + self.release.late


def simulated(releases: Iterable[Release], rates: Rates) -> Iterator[Sent]:
    """Yields the frames that a bus sends. Whenever a frame may start, the first frames of the queues compete, and the
    one with the lowest bits wins."""
    coming = sorted(releases, key=lambda release: release.time)
    queues: dict[int, list[Release]] = {}
    now = 0
    while coming or queues:
        if not queues:
            now = max(now, coming[0].time)
        while coming and coming[0].time <= now:
            release = coming.pop(0)
            queues.setdefault(release.node, []).append(release)
        node = min(queues, key=lambda node: (arbitration_bits(queues[node][0].frame), node))
        release = queues[node].pop(0)
        if not queues[node]:
            del queues[node]
        free = now + rates.attempt_nanos(release.frame)
        yield Sent(release, now, now + rates.frame_nanos(release.frame), free)
        now = free


# ---- the analysis of response times


@dataclasses.dataclass(frozen=True)
class Message:
    """The message of one node, with its frame, its period, and the longest delay before it is queued."""

    frame: Frame
    period: int
    jitter: int = 0

    def releases(self, node: int, offset: int, until: int, lateness: Sequence[int] = (0,)) -> Iterator[Release]:
        """Yields the releases of the message before `until`. The delays are taken in turn from `lateness`."""
        for number, due in enumerate(range(offset, until, self.period)):
            late = lateness[number % len(lateness)]
            yield Release(due + late, node, self.frame, late)


def up(time: int, period: int) -> int:
    return -(-time // period)


def worst_response(messages: Sequence[Message], place: int, rates: Rates) -> int:
    """Returns the worst response time of the message at this index. The messages are in order of falling priority
    (Davis, Burns, Bril and Lukkien, "Controller Area Network (CAN) schedulability analysis: Refuted, revisited and
    revised", Real-Time Systems 35, 2007).
    """
    lengths = [rates.attempt_nanos(message.frame) for message in messages]
    bit = rates.nanos((1, 0))
    blocking = max(lengths[place + 1 :], default=0)

    def load(window: int, count: int) -> int:
        return sum(
            up(window + message.jitter, message.period) * length
            for message, length in zip(messages[:count], lengths[:count])
        )

    def settled(start: int, step: Callable[[int], int]) -> int:
        while (more := step(start)) != start:
            start = more
        return start

    message, length = messages[place], lengths[place]
    busy = settled(length, lambda window: blocking + load(window, place + 1))
    worst = 0
    for instance in range(up(busy + message.jitter, message.period)):
        before = blocking + instance * length
        wait = settled(before, lambda window: before + load(window + bit, place))
        worst = max(worst, message.jitter + wait - instance * message.period + length)
    return worst


def use(messages: Sequence[Message], rates: Rates) -> fractions.Fraction:
    """Returns the share of the bus time that these messages occupy."""
    return sum(
        (fractions.Fraction(rates.attempt_nanos(message.frame), message.period) for message in messages),
        fractions.Fraction(0),
    )
