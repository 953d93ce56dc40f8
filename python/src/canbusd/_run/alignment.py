"""Finds the frames that two runs have in common.

In each run, the frames of one sender with the same identifier form a row. Myers's algorithm (An O(ND) Difference
Algorithm, 1986) finds the frames with the same data in both rows. The frames between them are paired in order.
"""

from collections.abc import Iterator, Sequence
from typing import NamedTuple, Optional

from canbusd.record import Attempt

#: The maximum number of edits for which the search continues. Rows that differ by more edits are paired in order.
MOST_EDITS = 400
Place = Optional[int]


class Sent(NamedTuple):
    """A frame of a run, given by the indices of its attempts in the list of the run's attempts."""

    attempts: list[int]

    @property
    def first(self) -> int:
        """The index of the frame's first attempt."""
        return self.attempts[0]


class Pair(NamedTuple):
    """A frame of the first run and the matching frame of the second run. One of the two is None if only one run
    contains the frame."""

    one: Optional[Sent]
    other: Optional[Sent]


def pairs_of(one: Sequence[Attempt], other: Sequence[Attempt]) -> Iterator[list[Pair]]:
    """Yields, for each sender and identifier, the pairs of frames in order."""
    left, right = rows_of(one), rows_of(other)
    for key in {**left, **right}:
        rows = left.get(key, []), right.get(key, [])
        texts = [[run[sent.first].frame for sent in row] for run, row in zip((one, other), rows)]
        yield [Pair(None if k is None else rows[0][k], None if n is None else rows[1][n]) for k, n in aligned(*texts)]


def rows_of(attempts: Sequence[Attempt]) -> dict[tuple[str, str], list[Sent]]:
    """Groups the frames of a run by sender and identifier."""
    rows: dict[tuple[str, str], list[Sent]] = {}
    last: dict[str, tuple[int, Sent]] = {}
    for place, attempt in enumerate(attempts):
        number, sent = last.get(attempt.winner, (-1, None))
        if sent is not None and number == attempt.number:
            sent.attempts.append(place)
            continue
        sent = Sent([place])
        last[attempt.winner] = attempt.number, sent
        rows.setdefault((attempt.winner, attempt.frame.split("#")[0]), []).append(sent)
    return rows


def aligned(one: Sequence[str], other: Sequence[str]) -> list[tuple[Place, Place]]:
    """Returns pairs of indices in the two rows. None means that the frame is missing from that row."""
    most = min(len(one), len(other))
    begin = next((k for k in range(most) if one[k] != other[k]), most)
    end = next((k for k in range(most - begin) if one[-1 - k] != other[-1 - k]), most - begin)
    middle = common(one[begin : len(one) - end], other[begin : len(other) - end])
    found: list[tuple[Place, Place]] = [(k, k) for k in range(begin)]
    last = begin, begin
    for pair in [*middle, (len(one) - end - begin, len(other) - end - begin)]:
        here = begin + pair[0], begin + pair[1]
        found += between(last, here)
        if here[0] < len(one) - end:
            found.append(here)
        last = here[0] + 1, here[1] + 1
    return found + [(len(one) - k, len(other) - k) for k in range(end, 0, -1)]


def between(first: tuple[int, int], end: tuple[int, int]) -> Iterator[tuple[Place, Place]]:
    """Yields index pairs for the frames between two matched frames, in order."""
    left, right = range(first[0], end[0]), range(first[1], end[1])
    paired = min(len(left), len(right))
    yield from zip(left, right)
    yield from ((place, None) for place in left[paired:])
    yield from ((None, place) for place in right[paired:])


def common(one: Sequence[str], other: Sequence[str]) -> list[tuple[int, int]]:
    """Returns the index pairs of a longest common subsequence, or an empty list if the rows differ by more than
    MOST_EDITS edits."""
    # `ends` maps each diagonal to the index in the first row that has been reached. `before` contains a copy of `ends`
    # for each number of edits.
    ends, before = {1: 0}, []
    for edits in range(min(len(one) + len(other), MOST_EDITS) + 1):
        before.append(dict(ends))
        for diagonal in range(-edits, edits + 1, 2):
            is_down = diagonal == -edits or diagonal != edits and ends[diagonal - 1] < ends[diagonal + 1]
            x = ends[diagonal + 1] if is_down else ends[diagonal - 1] + 1
            while x < len(one) and x - diagonal < len(other) and one[x] == other[x - diagonal]:
                x += 1
            ends[diagonal] = x
            if x >= len(one) and x - diagonal >= len(other):
                return walked_back(before, len(one), len(other))
    return []


def walked_back(before: Sequence[dict[int, int]], x: int, y: int) -> list[tuple[int, int]]:
    """Traces the index pairs back from the end of both rows, and returns them in order."""
    pairs = []
    for edits in range(len(before) - 1, -1, -1):
        ends, diagonal = before[edits], x - y
        is_down = diagonal == -edits or diagonal != edits and ends[diagonal - 1] < ends[diagonal + 1]
        last = diagonal + 1 if is_down else diagonal - 1
        while x > ends[last] and y > ends[last] - last:
            x, y = x - 1, y - 1
            pairs.append((x, y))
        x, y = ends[last], ends[last] - last
    return pairs[::-1]
