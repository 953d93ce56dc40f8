"""A schedule of calls with due times in microseconds, and phases that keep cyclic calls apart."""

import heapq
import math
from collections.abc import Callable, Iterator, Sequence
from typing import Optional

MICROS = 1_000_000
#: Times in microseconds: the length of a slot, in which about two frames fit at 500 kbit/s, and the period for which
#: phases are compared.
SLOT, LONGEST = 500, 2 * MICROS
#: The golden ratio. The fractional parts of its first n multiples are evenly spread between 0 and 1, for any n.
GOLDEN = (math.sqrt(5) - 1) / 2
#: The maximum number of phases that are compared for each message.
TRIES = 128


class Schedule:
    """Calls sorted by due time. Calls that are due at the same time are sorted by `order`, and then by the time when
    they were added."""

    def __init__(self) -> None:
        self._heap: list[tuple[int, int, int, Callable[[int], None]]] = []
        self._added = 0

    def add(self, due: int, order: int, call: Callable[[int], None]) -> None:
        """Adds a call. The call gets its due time as the argument."""
        heapq.heappush(self._heap, (due, order, self._added, call))
        self._added += 1

    def first(self) -> Optional[int]:
        """Returns the due time of the next call, or None if there is no call."""
        return self._heap[0][0] if self._heap else None

    def take(self, now: int) -> Iterator[tuple[int, Callable[[int], None]]]:
        """Yields the calls that are due by `now`, each with its due time. These calls may add further calls."""
        while self._heap and self._heap[0][0] <= now:
            due, _, _, call = heapq.heappop(self._heap)
            yield due, call


def micros(seconds: float) -> int:
    """Converts seconds to microseconds."""
    return round(seconds * MICROS)


def phases(cycles: Sequence[int]) -> list[int]:
    """Returns the first due time for each cycle time. The times are chosen so that few frames are due at the same time.

    The shortest cycle times are placed first. For each cycle time, this function tries several times within the first
    cycle, and chooses the one with the fewest frames of other messages near it.
    """
    if not cycles:
        return []
    due_in = [0] * max(1, min(math.lcm(*cycles), LONGEST) // SLOT)
    found = [0] * len(cycles)
    for place in sorted(range(len(cycles)), key=lambda place: cycles[place]):
        slots = max(1, cycles[place] // SLOT)
        tries = [int(number * GOLDEN % 1 * slots) for number in range(1, 1 + min(2 * slots, TRIES))]
        best = min(tries, key=lambda slot: (max(due_in[slot::slots], default=0), sum(due_in[slot::slots])))
        for slot in range(best, len(due_in), slots):
            due_in[slot] += 1
        found[place] = min(best * SLOT, cycles[place] - 1)
    return found
