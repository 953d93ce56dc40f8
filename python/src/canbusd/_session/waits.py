"""Waits that end on time to the microsecond if nothing else delays them. This matters in virtual time."""

import math
import select
import time
from collections.abc import Sequence
from typing import Optional

# The maximum timeout in seconds for a system call. The limits of all these calls are higher.
LONGEST_WAIT = 3600.0
# select accepts only file descriptors below this number (FD_SETSIZE).
MOST_SELECTED = 1024


def seconds_until(deadline: float) -> float:
    """Returns the seconds until a time of `time.monotonic`: at most an hour, and 0 if the time has passed.

    System calls round their timeout up, so the result is slightly below a whole number of microseconds. Rounding errors
    in the difference between the two times are ignored.
    """
    left = min(deadline - time.monotonic(), LONGEST_WAIT)
    return max(0.0, math.ceil(left * 1e6 - 0.01) * 1e-6 - 5e-10)


def wait_for_ready(numbers: Sequence[int], events: int, seconds: Optional[float]) -> bool:
    """Waits up to `seconds` until one of these file descriptors is readable, or writable if `events` includes POLLOUT.
    Returns whether one of them is ready.

    If select can't be used, poll rounds the timeout to milliseconds.
    """
    if max(numbers, default=0) < MOST_SELECTED:
        readable, writable, _ = select.select(numbers, numbers if events & select.POLLOUT else (), (), seconds)
        return bool(readable or writable)
    poll = select.poll()
    for number in numbers:
        poll.register(number, events)
    return bool(poll.poll(None if seconds is None else seconds * 1000))
