"""The frames that wake a sleeping node up. They are selected in the same way as by a transceiver with selective
wake-up."""

from collections.abc import Iterable, Iterator, Sequence
from typing import Any, Optional, Union

from canbusd._expect.frame_matcher import LEAST_EXTENDED, MOST_IDENTIFIER, check_identifier, identifier
from canbusd.frames import EXTENDED, REMOTE, Frame
from canbusd.signals import Database

#: What wakes a node up: an identifier, the name of a message, a range of identifiers, or a list of these.
WakeOn = Union[int, str, range, Sequence[Union[int, str, range]]]
KNOWN = "wake_on is an identifier, the name of a message, a range, such as range(0x500, 0x540), or a list of these"


class WakeUp:
    """The frames that wake a node up: classical data frames with one of these identifiers. Identifiers above 7FF have
    29 bits."""

    def __init__(self, wake_on: WakeOn, database: Optional[Database]) -> None:
        given = [wake_on] if isinstance(wake_on, (int, str, range)) else wake_on
        if not isinstance(given, Iterable):
            raise ValueError(f"{KNOWN}, not {wake_on!r}")
        self._spans = [span for one in given for span in spans_of(one, database)]
        if not self._spans:
            raise ValueError(f"{KNOWN}; {wake_on!r} has none")

    def matches(self, frame: Frame) -> bool:
        """Returns whether a frame wakes the node up. Selective wake-up works only with classical data frames."""
        is_classical = not (frame.is_fd or frame.is_remote_frame or frame.is_error_frame)
        return is_classical and any(
            frame.is_extended_id == is_extended and frame.arbitration_id in span for span, is_extended in self._spans
        )

    @property
    def filters(self) -> list[dict[str, Any]]:
        """Filters that pass these frames."""
        return [
            {"can_id": first | EXTENDED * is_extended, "can_mask": mask | EXTENDED | REMOTE}
            for span, is_extended in self._spans
            for first, mask in masks_of(span)
        ]


def spans_of(one: Union[int, str, range], database: Optional[Database]) -> Iterator[tuple[range, bool]]:
    """Yields ranges of the identifiers that an argument stands for, and whether they have 29 bits. Raises ValueError
    for a wrong argument."""
    if not isinstance(one, range):
        number, is_extended = identifier(one, database)
        check_identifier(number, is_extended, is_extended, is_error=False)
        assert number is not None and is_extended is not None
        yield range(number, number + 1), is_extended
    elif one.step != 1 or one.start < 0 or one.stop - 1 > MOST_IDENTIFIER:
        raise ValueError(f"a range has each identifier from its first on, from 0 to 1FFFFFFF, not {one!r}")
    else:
        halves = range(one.start, min(one.stop, LEAST_EXTENDED)), range(max(one.start, LEAST_EXTENDED), one.stop)
        yield from ((half, is_extended) for half, is_extended in zip(halves, (False, True)) if half)


def masks_of(span: range) -> Iterator[tuple[int, int]]:
    """Yields identifiers and masks that match exactly the numbers in a range. There are as few pairs as possible."""
    first = span.start
    while first < span.stop:
        # The size of the largest block of numbers that begins with `first` and shares its upper bits.
        size = first & -first or MOST_IDENTIFIER + 1
        while first + size > span.stop:
            size //= 2
        yield first, MOST_IDENTIFIER & ~(size - 1)
        first += size
