"""Parses the effects of steps in event lines. Many steps share the same effects."""

import functools
from array import array
from collections.abc import Iterable, Iterator, Sequence
from typing import Any, NamedTuple, Optional

from canbusd._run.steps import DONE, KIND_NUMBERS, RESTART

#: The maximum number of cached effects. Each takes a few hundred bytes, and runs with many failures have many different
#: effects.
MOST_KEPT = 4096


class Parts(NamedTuple):
    """Effects that only a few steps have."""

    #: The changed error counts: the slice of the column for an interface's two counts, and the two new counts.
    counts: list[tuple[slice, "array[int]"]]
    #: The number of frames that were removed from a transmit queue because the interface went bus off or down.
    lost: int
    #: The error message frames, each with its index among the items of the step.
    errors: Sequence[tuple[int, str]]
    #: The sockets whose queues were full, each with the number of items dropped there. These are the last items of the
    #: step.
    dropped: list[tuple[int, int]]


class Outcome(NamedTuple):
    """The outcome of a step, parsed from the part of its line after the frame."""

    #: The kind of the step.
    kind: int
    #: The set of interfaces that accepted the frame and the set that went bus off, as bytes for the columns. Bit i
    #: stands for interface i.
    accepted: bytes
    off: bytes
    #: How many frames leave the sender's transmit queue.
    left: int
    #: How many items were handed to sockets, and the sockets in order, as bytes for a column.
    handed: int
    sockets: bytes
    #: The time on the wire, if the line reports it.
    wire: Optional[tuple[int, ...]]
    parts: Optional[Parts]


class Outcomes(dict[str, Outcome]):
    """Maps strings, such as `done 0002 0000; put 1`, to outcomes."""

    def __init__(self, sockets: Sequence[int]) -> None:
        """Starts with an empty cache. `sockets` lists the interface of each socket."""
        super().__init__()
        self._sockets = sockets

    def __missing__(self, text: str) -> Outcome:
        if len(self) >= MOST_KEPT:
            self.clear()
        found = self[text] = self._read(text)
        return found

    def _read(self, text: str) -> Outcome:
        result, *parts = text.split("; ")
        kind, accepted, off = result_of(result)
        lost, wire = 0, None
        if parts and parts[0].startswith("only "):
            parts = [*self._parts_of(parts[1:], int(parts[0][-4:], 16), kind == RESTART)]
        counts: list[tuple[slice, "array[int]"]] = []
        errors: Sequence[tuple[int, str]] = ()
        dropped: list[tuple[int, int]] = []
        sockets = b""
        for part in parts:
            name, found = part_of(part)
            if name == "counts":
                counts.append(found)
            elif name == "put":
                sockets, errors = found
            elif name == "dropped":
                dropped = found
                sockets += b"".join(column_of((socket,)) * count for socket, count in dropped)
            elif name == "wire":
                wire = found
            else:
                lost = found[1]
        rare = Parts(counts, lost, errors, dropped) if counts or lost or errors or dropped else None
        handed = len(sockets) // array("I").itemsize
        return Outcome(kind, accepted, off, (kind == DONE) + lost, handed, sockets, wire, rare)

    def _parts_of(self, parts: Iterable[str], members: int, is_restart: bool) -> Iterator[str]:
        """Yields the parts that apply to a set of interfaces, in which bit i stands for interface i. A restart takes no
        time on the wire."""
        for part in parts:
            name, *words = part.split(" ")
            if name in ("put", "dropped"):
                words = [word for word in words if members >> self._sockets[int(word.partition(":")[0])] & 1]
            elif name == "wire":
                words = [] if is_restart else words
            elif not members >> int(words[0]) & 1:
                words = []
            if words:
                yield " ".join([name, *words])


@functools.lru_cache(maxsize=4096)
def result_of(text: str) -> tuple[int, bytes, bytes]:
    """Returns the kind of a step, the interfaces that accepted its frame, and the interfaces that went bus off."""
    kind, accepted, off = text.split(" ")
    accepting, going = (array("H", [int(members, 16)]).tobytes() for members in (accepted, off))
    return KIND_NUMBERS[kind], accepting, going


@functools.lru_cache(maxsize=65536)
def part_of(part: str) -> tuple[str, Any]:
    """Returns the name and the content of a part of an outcome. The result is cached because many steps have equal
    parts."""
    name, *words = part.split(" ")
    if name == "put":
        return name, put_of(words)
    if name == "dropped":
        return name, [(int(socket), int(count)) for socket, _, count in map(halves, words)]
    numbers = tuple(map(int, words))
    if name == "counts":
        place = 2 * numbers[0]
        return name, (slice(place, place + 2), array("H", numbers[1:]))
    return name, numbers


def put_of(words: Iterable[str]) -> tuple[bytes, Sequence[tuple[int, str]]]:
    """Returns the sockets that got items, as bytes for a column, and the error message frames with their indices among
    these items."""
    found = [*map(halves, words)]
    errors = [(place, error) for place, (_, _, error) in enumerate(found) if error]
    return column_of(int(socket) for socket, _, _ in found), errors


def column_of(sockets: Iterable[int]) -> bytes:
    """Returns socket numbers as bytes for a column."""
    return array("I", sockets).tobytes()


def halves(word: str) -> tuple[str, str, str]:
    """Splits a word at its colon."""
    return word.partition(":")
