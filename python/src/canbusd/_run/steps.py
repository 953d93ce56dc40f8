"""The steps of a run and the items of its sockets, in columns of numbers, because a run may have a million of each."""

import bisect
import functools
import itertools
from array import array
from collections import Counter, defaultdict
from collections.abc import Iterable, Iterator, Sequence
from dataclasses import dataclass
from typing import TYPE_CHECKING, Optional, TypeVar, Union, overload

from canbusd._run.columns import later
from canbusd._run.run_parts import Interface, Socket
from canbusd._words import OUTCOMES
from canbusd.frames import EXTENDED, REMOTE, is_fd

if TYPE_CHECKING:
    from canbusd._run.chunks import Chunk

#: The kinds of steps, in the order of their codes in columns and on pages. Kinds before `restart` are attempts, and
#: `idle` occurs only on pages.
KINDS = (*OUTCOMES, "restart", "down", "idle")
DONE, LASTBIT, DESTROYED, NOACK, RESTART, DOWN, IDLE = range(7)
#: The outcomes of items, in the order of their codes. A `waiting` item was still in its queue at the end of the run,
#: and an `unread` item was in the queue when its socket was closed.
FATES = ("taken", "waiting", "unread", "dropped")
TAKEN, WAITING, UNREAD, DROPPED = range(4)

KIND_NUMBERS = {kind: number for number, kind in enumerate(KINDS)}

T = TypeVar("T")
#: The transmit and receive error counts of an interface.
Counts = tuple[int, int]


class Places(defaultdict[T, int]):
    """Maps values to indices. A new value gets the next index."""

    def __init__(self, *values: T) -> None:
        super().__init__(itertools.count(len(values)).__next__, zip(values, range(len(values))))
        self._all: list[T] = []

    @property
    def all(self) -> list[T]:
        """The values in the order of their indices."""
        fresh = itertools.islice(reversed(self), len(self) - len(self._all))
        self._all += [*fresh][::-1]
        return self._all

    def places_of(self, values: Iterable[T]) -> list[int]:
        """Returns the indices of these values."""
        return [*map(self.__getitem__, values)]


class WireFrame:
    """A data, remote or FD frame as it is written in the record, with the fields that arbitration and filters use."""

    __slots__ = ("text", "word", "bits", "is_fd")

    def __init__(self, text: str) -> None:
        identifier, payload = text.split("#", 1)
        remote = payload.startswith("R")
        self.text = text
        self.is_fd = is_fd(text)
        self.word = int(identifier, 16) | (EXTENDED if len(identifier) == 8 else 0) | (REMOTE if remote else 0)
        self.bits = arbitration_bits(identifier, "1" if remote else "0")


@functools.lru_cache(maxsize=4096)
def arbitration_bits(identifier: str, rtr: str) -> str:
    """Returns the bits that arbitration compares (Bosch CAN 2.0). Blanks separate the fields at the same positions in
    all frames.

    An FD frame has the same bits as a data frame.
    """
    number = int(identifier, 16)
    if len(identifier) == 3:
        return f"{number:011b} {rtr}0"
    bits = f"{number:029b}"
    return f"{bits[:11]} 11 {bits[11:]} {rtr}"


@dataclass
class Step:
    """An attempt with a frame, a restart, or an interface that goes down. Interfaces are given by their numbers.

    An attempt that restarts interfaces is followed by a step for each of them, with the same entry.
    """

    __slots__ = (
        "kind",
        "entry",
        "moment",
        "iface",
        "attempt",
        "number",
        "text",
        "verdict",
        "accepted",
        "off",
        "hit",
        "contenders",
        "counts",
        "waiting",
        "idle",
    )
    #: The kind of the step: done, lastbit, destroyed, noack, restart or down.
    kind: str
    entry: int
    moment: str
    #: The interface that won, was restarted or went down.
    iface: int
    #: The number of the attempt. For a step that is not an attempt, this is the number of the next attempt.
    attempt: int
    number: int
    text: str
    verdict: str
    accepted: Sequence[int]
    off: Sequence[int]
    hit: Sequence[int]
    #: The interfaces that take part in arbitration, each with its frame.
    contenders: list[tuple[int, WireFrame]]
    #: The transmit and receive error counts of each interface after the step.
    counts: Sequence[Counts]
    #: The number of waiting frames at each interface before the step.
    waiting: Sequence[int]
    #: The number of idle attempts since the previous step. An attempt that restarts interfaces is counted at the first
    #: restart.
    idle: int


class Steps(Sequence[Step]):
    """The steps of a run as columns. Most columns have one number for each step, and Step objects are created on
    demand."""

    def __init__(self, texts: Places[str], ifaces: Sequence[Interface]) -> None:
        # The strings of frames and verdicts. The columns refer to them by index.
        self.texts = texts
        self.verdict_texts: Places[str] = Places()
        self._all_ifaces = ifaces
        self.kinds, self.ifaces, self.entries = array("B"), array("B"), array("I")
        #: The timestamps in microseconds.
        self.moments = array("Q")
        self.attempts, self.numbers, self.idle = array("I"), array("I"), array("I")
        self.frames, self.verdicts = array("I"), array("I")
        #: For each step, the values of all interfaces one after another: the number of waiting frames before the step,
        #: and both error counts after it.
        self.waiting, self.counts = array("H"), array("H")
        #: The steps that changed error counts.
        self.changed = array("I")
        #: Sets of interfaces: bit i stands for interface i.
        self.accepted, self.off, self.hit = array("H"), array("H"), array("H")
        #: Maps a step to the frames that were removed from a transmit queue because the interface went bus off or down.
        #: Each frame is given with its number.
        self.lost: dict[int, list[tuple[int, str]]] = {}
        #: The set of interfaces that are down after each step.
        self.down = array("H")
        #: `frame_nanos` is how long the frame takes on the wire, and `busy_nanos` is the time until the next attempt
        #: may begin, both in nanoseconds. `nominal_bits` and `fast_bits` are how many of the frame's bits are sent at
        #: the nominal bit rate and at the data bit rate. All are 0 if the event line lacks them.
        self.frame_nanos, self.busy_nanos = array("I"), array("I")
        self.nominal_bits, self.fast_bits = array("H"), array("H")
        #: The number of attempts.
        self.tried = 0
        # For each interface, the steps in which it tried to send or lost a frame. `_sorted` is the number of steps
        # already in these lists.
        self._tries: "list[array[int]]" = []
        self._sorted = 0

    def __len__(self) -> int:
        return len(self.kinds)

    def extend(self, chunk: "Chunk", first_entry: int, waiting: "array[int]") -> None:
        """Adds the steps of a chunk. `first_entry` is the index of the chunk's first entry, and `waiting` contains the
        number of waiting frames before each step."""
        first = len(self)
        self.kinds += chunk.kinds
        self.ifaces += chunk.ifaces
        self.accepted += chunk.accepted
        self.off += chunk.off
        self.entries += later(chunk.entries, first_entry)
        self.moments += chunk.moments
        self.attempts.extend(self._numbered(chunk.kinds))
        self.numbers += chunk.numbers
        verdicts = self.verdict_texts.places_of(chunk.verdict_texts)
        self.verdicts.extend(map(verdicts.__getitem__, chunk.verdicts))
        self.waiting += waiting
        self._count(chunk, first)
        self._go_on(self.down, len(self))
        wires = (self.frame_nanos, self.busy_nanos, self.nominal_bits, self.fast_bits)
        for column, found in zip(wires, chunk.wires):
            column.extend(found)
        for column in wires:
            self.note(column)

    def set_down(self, place: int, members: int) -> None:
        """Sets which interfaces are down starting with a step, before that step is added. Calls must be in the order of
        steps."""
        self._go_on(self.down, place)
        self.down.append(members)

    def _numbered(self, kinds: "array[int]") -> Iterable[int]:
        """Returns the attempt number of each of these steps. A step that is not an attempt has the number of the next
        attempt."""
        first = self.tried
        self.tried += len(kinds) - kinds.count(RESTART) - kinds.count(DOWN)
        if self.tried - first == len(kinds):
            return range(first, self.tried)
        return itertools.accumulate(map(RESTART.__gt__, kinds[:-1]), initial=first)

    def note(self, column: "array[int]", numbers: Iterable[tuple[int, int]] = ()) -> None:
        """Extends a column with zeros to the number of steps, and then stores these numbers at the given steps."""
        column.frombytes(bytes(column.itemsize * (len(self) - len(column))))
        for step, number in numbers:
            column[step] = number

    @staticmethod
    def _go_on(column: "array[int]", length: int) -> None:
        """Extends a column to this length by repeating the last number."""
        column.extend((column[-1:] or array(column.typecode, [0])) * (length - len(column)))

    def _count(self, chunk: "Chunk", first: int) -> None:
        """Adds the error counts of a chunk to the column of counts."""
        wide, many = 2 * len(self._all_ifaces), len(self) - first
        before = self.counts[-wide:] or array("H", [0]) * wide
        counts = chunk.counts or before * many
        for place in range(wide) if chunk.counts else ():
            said = chunk.counted_from.get(place & ~1, many)
            counts[place : wide * said : wide] = before[place : place + 1] * said
        self.counts += counts
        self.changed += later(chunk.changed, first)

    @overload
    def __getitem__(self, place: int) -> Step:
        ...

    @overload
    def __getitem__(self, place: slice) -> list[Step]:
        ...

    def __getitem__(self, place: Union[int, slice]) -> Union[Step, list[Step]]:
        chosen = range(len(self))[place]
        return self._step(chosen) if isinstance(chosen, int) else list(map(self._step, chosen))

    def _step(self, place: int) -> Step:
        return Step(
            KINDS[self.kinds[place]],
            self.entries[place],
            moment_of(self.moments[place]),
            self.ifaces[place],
            self.attempts[place],
            self.numbers[place],
            self.text(place),
            self.verdict(place),
            numbers_in(self.accepted[place]),
            numbers_in(self.off[place]),
            numbers_in(self.hit[place]),
            self.contenders(place),
            self.counts_after(place),
            self.waiting_before(place),
            self.idle[place],
        )

    def place_of(self, attempt: Optional[int]) -> Optional[int]:
        """Returns the index of the step that is this attempt, or None if no step is this attempt."""
        if attempt is None:
            return None
        # A step that is not an attempt has the number of the next attempt.
        place = bisect.bisect_right(self.attempts, attempt) - 1
        return place if place >= 0 and self.attempts[place] == attempt and self.kinds[place] < RESTART else None

    def places_of(self, kind: int, first: int = 0) -> list[int]:
        """Returns the indices of the steps of this kind, starting at index `first`."""
        if not self.count_of(kind):
            return []
        return [place for place in range(first, len(self)) if self.kinds[place] == kind]

    def count_of(self, kind: int) -> int:
        """Returns the number of steps of this kind."""
        return self.kinds.tobytes().count(kind)

    def text(self, place: int) -> str:
        """Returns the frame of a step, or the empty string if the step is not an attempt."""
        return self.texts.all[self.frames[place]]

    def verdict(self, place: int) -> str:
        """Returns the verdict of a step, or the empty string if the step is not an attempt."""
        return self.verdict_texts.all[self.verdicts[place]]

    def counts_row(self, place: int) -> "array[int]":
        """Returns the error counts after a step, two for each interface."""
        wide = 2 * len(self._all_ifaces)
        return self.counts[wide * place : wide * (place + 1)]

    def counts_before(self, place: int) -> "array[int]":
        """Returns the error counts before a step, two for each interface."""
        return self.counts_row(place - 1) if place else array("H", [0, 0]) * len(self._all_ifaces)

    def counts_after(self, place: int) -> tuple[Counts, ...]:
        """Returns the error counts of each interface after a step."""
        row = self.counts_row(place)
        return tuple(zip(row[::2], row[1::2]))

    def waiting_before(self, place: int) -> tuple[int, ...]:
        """Returns the number of waiting frames at each interface before a step."""
        wide = len(self._all_ifaces)
        return tuple(self.waiting[wide * place : wide * (place + 1)])

    def met(self, place: int) -> list[int]:
        """Returns the interfaces that take part in a step: every interface with a waiting frame."""
        if self.kinds[place] >= RESTART:
            return []
        return [iface for iface, count in enumerate(self.waiting_before(place)) if count]

    def contenders(self, place: int) -> list[tuple[int, WireFrame]]:
        """Returns the interfaces that take part in a step, each with its frame."""
        return [(iface, WireFrame(self._next(iface, place))) for iface in self.met(place)]

    def _next(self, iface: int, place: int) -> str:
        """Returns the first frame that an interface tries to send or loses in this step or later. If there is none,
        returns the first frame that waits at the end of the run."""
        if self.ifaces[place] == iface:
            return self.text(place)
        self._sort_tries()
        tries = self._tries[iface]
        later = bisect.bisect_left(tries, place)
        if later == len(tries):
            return self._all_ifaces[iface].waiting[0]
        return self.text(tries[later]) if self.kinds[tries[later]] < RESTART else self.lost[tries[later]][0][1]

    def _sort_tries(self) -> None:
        """Adds the steps since the last call to the lists of the steps in which an interface tried to send or lost a
        frame."""
        self._tries = self._tries or [array("I") for _ in self._all_ifaces]
        for place in range(self._sorted, len(self)):
            if self.kinds[place] < RESTART or place in self.lost:
                self._tries[self.ifaces[place]].append(place)
        self._sorted = len(self)


class Items:
    """The items that sockets received from their interfaces, in order, as columns."""

    def __init__(self, sockets: Sequence[Socket]) -> None:
        #: The socket number of each item, and the step in which the socket got the item.
        self.sockets, self.steps = array("I"), array("I")
        #: The index of an error message frame among the strings of frames; 0 if the item is the frame of the step.
        self.errors = array("I")
        self._all_sockets = sockets
        # The start and the end of each range of dropped items. Ranges are stored because a million items may be
        # dropped.
        self._dropped = array("I")

    def __len__(self) -> int:
        return len(self.sockets)

    def extend(self, chunk: "Chunk", first_step: int) -> None:
        """Adds the items of a chunk. `first_step` is the index of the chunk's first step."""
        for number, count in chunk.handed.items():
            self._all_sockets[number].handed += count
        self.sockets.frombytes(chunk.item_sockets)
        self.steps += later(chunk.item_steps, first_step)
        self.errors.frombytes(bytes(self.errors.itemsize * (len(self.sockets) - len(self.errors))))

    def drop(self, first: int, count: int) -> None:
        """Marks `count` items as dropped, starting at index `first`."""
        self._dropped.extend((first, first + count))

    def drops(self) -> Iterator[range]:
        """Yields the index ranges of the dropped items."""
        return map(range, self._dropped[::2], self._dropped[1::2])

    def fates(self) -> "array[int]":
        """Returns the outcome of each item."""
        fates, queues = array("B", [TAKEN]) * len(self), self._queues()
        for places in self.drops():
            fates[places.start : places.stop] = array("B", [DROPPED]) * len(places)
        # The items that were not taken are the last ones in a socket's queue.
        left = Counter({socket.number: socket.queued - socket.taken for socket in self._all_sockets})
        place, many = len(self), sum(left.values())
        while many:
            place -= 1
            number = queues[place]
            if left[number]:
                fates[place] = WAITING if self._all_sockets[number].closed_after is None else UNREAD
                left[number] -= 1
                many -= 1
        return fates

    def ends(self, most: Optional[int] = None) -> "array[int]":
        """Returns, for each item or for the first `most` items, the number of steps before it was taken or before its
        socket was closed. The number is 0 if neither happened."""
        # A socket returns its items in the order in which it received them.
        ends = [*map(ends_at, self._all_sockets), itertools.repeat(0)]
        found: Iterator[int] = map(next, map(ends.__getitem__, self._queues()[:most]), itertools.repeat(0))
        return array("I", found)

    def _queues(self) -> "array[int]":
        """Returns the number of the socket whose queue held each item. For a dropped item, returns the number of
        sockets, which is no socket's number."""
        queues, none = array("I", self.sockets), array("I", [len(self._all_sockets)])
        for places in self.drops():
            queues[places.start : places.stop] = none * len(places)
        return queues


def ends_at(socket: Socket) -> Iterator[int]:
    """Yields the number of steps before each item leaves the socket's queue. The iterator is endless."""
    last = 0 if socket.closed_after is None else socket.closed_after + 1
    return itertools.chain(socket.taken_after, itertools.repeat(last))


def moment_of(micros: int) -> str:
    """Formats a time in the same way as a record does."""
    return f"{micros // 1000000}.{micros % 1000000:06}"


@functools.lru_cache(maxsize=1024)
def numbers_in(members: int) -> tuple[int, ...]:
    """Returns the numbers of the interfaces in a set."""
    return tuple(number for number in range(16) if members >> number & 1)
