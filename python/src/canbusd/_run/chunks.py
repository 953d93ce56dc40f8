"""Converts some lines of a run's events to columns.

The earlier lines are not needed, so any process can do this. Entries, steps and items are counted from the first of
these lines. `Replay` adds the columns of all lines to the run, with everything that depends on earlier lines.
"""

import itertools
import operator
from array import array
from collections import Counter, deque
from collections.abc import Iterable, Iterator, Sequence
from dataclasses import dataclass, field
from typing import NamedTuple, Optional

from canbusd._run.columns import Waiting
from canbusd._run.event_lines import OTHER, RECEIVE, SEND, STEP, WORDS, Lines, receivers_of, senders_of
from canbusd._run.event_parts import Outcomes, Parts
from canbusd._run.run_parts import WAITING_BITS, Bus
from canbusd._run.steps import DONE, DOWN, RESTART, Places

#: Maps the numbers of interfaces, as strings in the lines, to integers.
IFACES = {str(number): number for number in range(16)}


class Loss(NamedTuple):
    """Frames that were removed from a transmit queue because the interface went bus off or down."""

    step: int
    frames: int
    #: How many frames left the queue in earlier steps of these lines. None for bus off, when the first lost frame is
    #: the frame of the step.
    gone: Optional[int]


class Drop(NamedTuple):
    """Items that were dropped because the queue of a socket was full."""

    step: int
    #: The index of the first dropped item among all items.
    item: int
    socket: int
    items: int
    #: Whether the dropped items are known not to be error message frames.
    is_frame: bool


def column(code: str) -> "array[int]":
    """Returns a dataclass field for a column of numbers. The column is empty by default."""
    made: "array[int]" = field(default_factory=lambda: array(code))
    return made


@dataclass
class Chunk:
    """The contents of some lines as columns. Most columns have one number for each step."""

    #: The number of entries in these lines.
    entry_count: int
    #: The lines of infrequent kinds, each with the number of steps before the line and the index of its entry.
    others: list[tuple[str, int, int]]
    #: The lines of accepted sends without the final LF, and the interface of each send.
    sends: str
    senders: bytes
    #: For each socket, a column with an entry for each item that was taken from it: how many steps preceded this.
    taken: "dict[int, array[int]]"
    kinds: "array[int]" = column("B")
    ifaces: "array[int]" = column("B")
    entries: "array[int]" = column("I")
    moments: "array[int]" = column("Q")
    numbers: "array[int]" = column("I")
    #: Indices into the lists of strings: `frames` into `texts`, which includes error message frames, and `verdicts`
    #: into `verdict_texts`.
    frames: "array[int]" = column("I")
    verdicts: "array[int]" = column("I")
    texts: list[str] = field(default_factory=list)
    verdict_texts: list[str] = field(default_factory=list)
    accepted: "array[int]" = column("H")
    off: "array[int]" = column("H")
    #: For each step, the increase in the number of waiting frames at each interface since the first line, as packed by
    #: `Waiting`.
    waiting: bytes = b""
    #: The increase from before the first line to after the last line, for all interfaces combined in one number.
    waiting_more: int = 0
    #: Four columns with the times on the wire. The list is empty if no line contains such a time.
    wires: "list[array[int]]" = field(default_factory=list)
    #: The two error counts of each interface after each step, or 0 before the first step that reports them. The column
    #: is empty if no step reports any error counts.
    counts: "array[int]" = column("H")
    #: Maps the index of an interface's two counts to the first step that reports these counts.
    counted_from: dict[int, int] = field(default_factory=dict)
    #: The steps that changed error counts.
    changed: "array[int]" = column("I")
    #: The steps in which an interface was restarted or went down.
    breaks: list[int] = field(default_factory=list)
    #: The steps with a local fault, each with the set of interfaces that see the fault.
    local: list[tuple[int, int]] = field(default_factory=list)
    lost: list[Loss] = field(default_factory=list)
    #: The socket and the step of each item that was handed to a socket, and how many items each socket was handed.
    item_sockets: bytes = b""
    item_steps: "array[int]" = column("I")
    handed: dict[int, int] = field(default_factory=dict)
    #: The items that are error message frames, and the indices of these frames in `texts`.
    errors: "array[int]" = column("I")
    error_texts: "array[int]" = column("I")
    dropped: list[Drop] = field(default_factory=list)


class Reader:
    """Reads event lines of a run on a bus."""

    def __init__(self, bus: Bus) -> None:
        self._count, self._may_restart = bus.ifaces, bus.auto_restart > 0
        # The interface of each socket that was opened so far.
        self._sockets: list[int] = []
        self._outcomes = Outcomes(self._sockets)
        # One integer combines the counts of waiting frames at all interfaces. This list contains the increment of this
        # integer for one frame at each interface.
        self._units = [1 << WAITING_BITS * iface for iface in range(bus.ifaces)]
        self._waiting = Waiting(bus.ifaces)

    def read(self, text: str, sockets: Sequence[int]) -> Chunk:
        """Reads complete lines, given without the final LF, and returns their contents. `sockets` lists the interfaces
        of the sockets that were opened before these lines."""
        lines = Lines(text, self._may_restart)
        others = [*zip(lines.of(OTHER), lines.steps_before(OTHER), lines.entries_of(OTHER))] if lines.has_others else []
        self._sockets[:] = [*sockets, *opened_in(line for line, _, _ in others)]
        sends = lines.of(SEND)
        senders = bytes(map(self._sockets.__getitem__, senders_of(sends, len(self._sockets))))
        count = lines.entries[-1] + 1 - lines.entries[0]
        found = Chunk(count, others, "\n".join(sends), senders, taken_in(lines, len(self._sockets)))
        self._read_steps(lines, found)
        return found

    def _read_steps(self, lines: Lines, found: Chunk) -> None:
        """Reads the steps: attempts, restarts, and interfaces that go down."""
        units = [*map(self._units.__getitem__, found.senders)]
        words = lines.words
        if not words:
            found.waiting_more = sum(units)
            return
        moments, verdicts, senders, numbers, frames, ends = (words[place :: WORDS + 1] for place in (1, 2, 5, 6, 7, 8))
        kinds, accepted, off, left, handed, sockets, wires, parts = zip(*map(self._outcomes.__getitem__, ends))
        found.kinds, found.ifaces = array("B", bytes(kinds)), array("B", bytes(map(IFACES.__getitem__, senders)))
        found.accepted, found.off = array("H", b"".join(accepted)), array("H", b"".join(off))
        found.entries.fromlist([*lines.entries_of(STEP)])
        found.moments.fromlist([*map(int, " ".join(moments).replace(".", "").split(" "))])
        found.numbers.fromlist([*map(int, numbers)])
        leaving = map(operator.mul, left, map([-unit for unit in self._units].__getitem__, found.ifaces))
        *waiting, found.waiting_more = lines.in_queues(units, leaving)
        found.waiting = self._waiting.packed(waiting)
        if any(wires):
            columns = zip(*(wire or (0, 0, 0, 0) for wire in wires))
            found.wires = [array(code, column) for code, column in zip("IIHH", columns)]
        self._read_items(found, sockets, handed)
        self._read_verdicts(found, verdicts)
        self._read_parts(found, frames, parts, left, handed)

    @staticmethod
    def _read_items(found: Chunk, sockets: Sequence[bytes], handed: Sequence[int]) -> None:
        """Reads the items that were handed to sockets."""
        found.item_sockets = b"".join(sockets)
        steps: Iterator[Iterable[int]] = map(itertools.repeat, itertools.count(), handed)
        found.item_steps.fromlist([*itertools.chain.from_iterable(steps)])
        for members, count in Counter(sockets).items():
            for number in array("I", members):
                found.handed[number] = found.handed.get(number, 0) + count

    @staticmethod
    def _read_verdicts(found: Chunk, verdicts: Sequence[str]) -> None:
        places: Places[str] = Places()
        found.verdicts.fromlist(places.places_of(verdicts))
        found.verdict_texts = places.all
        local = {place: int(text[-4:], 16) for place, text in enumerate(places.all) if ":" in text}
        if local:
            found.local = [(step, local[place]) for step, place in enumerate(found.verdicts) if place in local]
        if RESTART in found.kinds or DOWN in found.kinds:
            found.breaks = [step for step, kind in enumerate(found.kinds) if kind >= RESTART]

    def _read_parts(
        self,
        found: Chunk,
        frames: Sequence[str],
        parts: Sequence[Optional[Parts]],
        left: Sequence[int],
        handed: Sequence[int],
    ) -> None:
        """Reads the frames and the rare effects of steps. The index of an error message frame in `texts` comes after
        the index of its step's frame."""
        places, first = Places[str](), 0
        counts, seen = array("H", [0]) * (2 * self._count), [array("H", [0]) * (2 * self._count)]
        items = [*itertools.accumulate(handed, initial=0)] if any(parts) else []
        for step, part in itertools.compress(enumerate(parts), parts):
            assert part is not None
            if part.counts:
                for both, values in part.counts:
                    counts[both] = values
                    found.counted_from.setdefault(both.start, step)
                found.changed.append(step)
                seen.append(counts[:])
            if part.lost:
                found.lost.append(Loss(step, part.lost, gone_before(found, left, step)))
            if part.errors:
                found.frames.fromlist(places.places_of(frames[first : step + 1]))
                first = step + 1
                found.errors.extend(items[step] + place for place, _ in part.errors)
                found.error_texts.extend(places.places_of(text for _, text in part.errors))
            if part.dropped:
                # A step that changed no error count has no error message frame either.
                is_frame = found.kinds[step] == DONE and not part.counts and is_good(found, step)
                found.dropped += drops_of(part, step, items[step + 1], is_frame)
        found.frames.fromlist(places.places_of(frames[first:]))
        found.texts = places.all
        if found.changed:
            lengths = map(operator.sub, [*found.changed, len(frames)], [0, *found.changed])
            found.counts = array("H", b"".join(map(operator.mul, map(array.tobytes, seen), lengths)))


def is_good(found: Chunk, step: int) -> bool:
    """Returns whether a step had no fault."""
    return found.verdict_texts[found.verdicts[step]] == "good"


def drops_of(part: Parts, step: int, end: int, is_frame: bool) -> Iterable[Drop]:
    """Yields the dropped items of a step. They are the items just before index `end`."""
    place = end - sum(count for _, count in part.dropped)
    for socket, count in part.dropped:
        yield Drop(step, place, socket, count, is_frame)
        place += count


def gone_before(found: Chunk, left: Sequence[int], step: int) -> Optional[int]:
    """Returns how many frames left the queue of an interface in earlier steps, if the interface goes down in this step.
    Returns None for other steps."""
    if found.kinds[step] != DOWN:
        return None
    return sum(count for iface, count in zip(found.ifaces[:step], left) if iface == found.ifaces[step])


def opened_in(lines: Iterable[str]) -> Iterable[int]:
    """Yields the interface of each socket that is opened in these lines."""
    for line in lines:
        if line.startswith("open "):
            iface, _, _, reply = line.split(" ")[1:5]
            if reply == "socket":
                yield int(iface)


def taken_in(lines: Lines, sockets: int) -> "dict[int, array[int]]":
    """For each socket, returns a column with an entry for each item that was taken from it: how many steps preceded
    this. `sockets` is the number of sockets."""
    # The last column collects the receives that returned no item. It is not returned.
    columns = [array("I") for _ in range(sockets + 1)]
    takers = map(columns.__getitem__, receivers_of(lines.of(RECEIVE), sockets))
    # This line appends a number to a column for each receive. A deque with a maximum length of 0 is the fastest way to
    # consume an iterator.
    deque(map(array.append, takers, lines.steps_before(RECEIVE)), maxlen=0)
    return {socket: column for socket, column in enumerate(columns[:-1]) if column}
