"""The frames and states that a server's own sessions received. Each frame is stored once, in the order on its bus.

Sessions on several interfaces of a bus receive the same frame at different times. To store it once, this module
identifies a frame by its timestamp, its content and its number at its sender. It sorts the frames by timestamp, so that
their order does not depend on which session was read first.
"""

from bisect import bisect_left, bisect_right
from collections import deque
from collections.abc import Iterable, Iterator, Sequence
from itertools import islice
from typing import NamedTuple, Optional

from canbusd._session.protocol import ErrorCounters, State
from canbusd.frames import Frame, frame_of_message

# The maximum number of stored frames for each bus, and of stored states for each interface.
MOST_KEPT, MOST_STATES = 200_000, 20_000
# The maximum number of frames that are shown in an error message.
MOST_SHOWN = 10
# The classes of error message frames, and the bits of data byte 1 for class 004 (linux/can/error.h).
CONTROLLER, BUS_OFF, RESTARTED = 0x004, 0x040, 0x100
PASSIVE_BITS, WARNING_BITS = 0x30, 0x0C
# An interface is bus off if its transmit error count is at least OFF. The error message frame for bus off does not
# contain error counters.
OFF = 256


class Seen:
    """A frame or an error message frame on a bus, and the interfaces that received it."""

    __slots__ = ("moment", "number", "key", "words", "channels", "_frame")

    def __init__(self, moment: int, number: str, key: tuple[object, ...], words: list[str]) -> None:
        #: The timestamp of the frame in microseconds.
        self.moment = moment
        #: The number of the frame at its sender; the empty string if the number is not known.
        self.number = number
        self.key, self.words = key, words
        #: The interfaces that received the frame. The value is true if the interface also sent it.
        self.channels: dict[str, bool] = {}
        self._frame: Optional[Frame] = None

    @property
    def frame(self) -> Frame:
        """The frame as a Frame object."""
        if self._frame is None:
            self._frame = frame_of_message(Frame, *self.words)
        return self._frame

    def channel(self, names: Sequence[str]) -> str:
        """Returns the first of these interfaces that received the frame from another interface. Returns the sender if
        there is none."""
        seen = [name for name in names if name in self.channels]
        return next((name for name in seen if not self.channels[name]), seen[0])


def without_copies(frames: Iterable[Seen]) -> Iterator[Seen]:
    """Yields frames without the second copies that receivers get after a fault in the last bit of the end of frame.

    A second copy is the next frame of its sender, and has the same number as the first copy. So there is no other frame
    with the same identifier and data between the two copies.
    """
    numbers: dict[tuple[str, ...], str] = {}
    for seen in frames:
        text = f"{seen.moment // 1_000_000}.{seen.moment % 1_000_000:06}"
        content = tuple(word for word in seen.words if word != text)
        if not seen.number or numbers.get(content) != seen.number:
            yield seen
        numbers[content] = seen.number


class StateSeen(NamedTuple):
    """A state of an interface, and its error counters when it entered the state."""

    #: The time in microseconds at which the interface entered the state; None for the state in which the interface was
    #: when it was first observed.
    moment: Optional[int]
    counters: ErrorCounters


def micros(moment: str) -> int:
    """Returns the timestamp in a message, such as `1.000002`, in microseconds."""
    return int(moment.replace(".", ""))


def state_in(words: Sequence[str]) -> Optional[ErrorCounters]:
    """Returns the state that an error message frame reports; None if it reports no state. `words` are the words of its
    protocol message."""
    if words[0] != "error" or len(words) < 4:
        return None
    number, data = int(words[1], 16), bytes.fromhex(words[3]).ljust(8, b"\0")
    if number & BUS_OFF:
        return ErrorCounters("off", OFF, 0)
    if number & RESTARTED:
        return ErrorCounters("active", 0, 0)
    if number & CONTROLLER:
        state: State = "passive" if data[1] & PASSIVE_BITS else "warning" if data[1] & WARNING_BITS else "active"
        return ErrorCounters(state, data[6], data[7])
    return None


class SeenBus:
    """The frames that were received on a bus, oldest first."""

    def __init__(self, names: Sequence[str]) -> None:
        self.names = tuple(names)
        self.frames: list[Seen] = []
        self._moments: list[int] = []
        #: How many frames were deleted before the first frame in the list.
        self.forgotten = 0
        # The last message that each session received, and how many times in succession it had received this message
        # before.
        self._last: dict[str, tuple[tuple[object, ...], int]] = {}

    def add(self, name: str, moment: int, words: list[str], number: str, is_own: bool) -> Optional[Seen]:
        """Adds a message that a session on this interface received. Returns the frame if no other session has received
        it before."""
        owner = name if words[0] == "error" else ""
        key = moment, owner, number, *words
        last, times = self._last.get(name, (None, 0))
        # `times` distinguishes equal frames that the session received in the same microsecond.
        times = times + 1 if last == key else 0
        self._last[name] = key, times
        seen = self._known((*key, times), moment)
        is_new = seen is None
        if seen is None:
            seen = self._insert(Seen(moment, number, (*key, times), words))
        seen.channels[name] = is_own
        return seen if is_new else None

    def place(self, after: int) -> int:
        """Converts the number of a frame, counted from 0, to its index in `frames`. Returns 0 if the frame was deleted."""
        return max(0, after - self.forgotten)

    def _known(self, key: tuple[object, ...], moment: int) -> Optional[Seen]:
        for place in range(bisect_left(self._moments, moment), len(self.frames)):
            if self.frames[place].moment != moment:
                return None
            if self.frames[place].key == key:
                return self.frames[place]
        return None

    def _insert(self, seen: Seen) -> Seen:
        place = bisect_right(self._moments, seen.moment)
        self.frames.insert(place, seen)
        self._moments.insert(place, seen.moment)
        if len(self.frames) > MOST_KEPT:
            # Many frames are deleted at once, because every deletion moves all other frames in the list.
            some = MOST_KEPT // 10
            del self.frames[:some], self._moments[:some]
            self.forgotten += some
        return seen


class Received:
    """The frames that arrived on the buses of a server, and which of them were taken by expectations.

    `observed` are the interfaces whose frames are checked. The other interfaces receive only error message frames,
    which report their states.
    """

    def __init__(self, buses: Sequence[Sequence[str]], observed: Sequence[str]) -> None:
        self.observed = tuple(observed)
        self.buses = [SeenBus(names) for names in buses]
        self._bus_of = {name: bus for bus in self.buses for name in bus.names}
        #: The last frames in the order in which they arrived, and how many frames have arrived in total.
        self.arrivals: deque[Seen] = deque(maxlen=MOST_KEPT)
        self.arrived = 0
        #: The states of each interface, oldest first.
        self.states: dict[str, list[StateSeen]] = {}
        # The position of the first frame that was not taken: by interface, and by bus for calls without an interface.
        self._untaken: dict[str, int] = {}
        self._untaken_of_bus = [0 for _ in self.buses]
        # The index of the last expected state of each interface.
        self._expected: dict[str, int] = {}

    # Methods that add frames and states.

    def add(self, name: str, text: str) -> None:
        """Adds a protocol message that delivers a frame to a session on this interface, such as `< frame 123 1.000002
        11 other 17`."""
        words = text.split()[1:]
        number, is_own = "", False
        if words[-2] in ("same", "other"):
            is_own, number = words[-2] == "same", words[-1]
            del words[-2:]
        moment = micros(words[3] if words[0] == "fdframex" else words[2])
        counters = state_in(words)
        if counters is not None:
            self._note(name, StateSeen(moment, counters))
        if name in self.observed or counters is not None:
            seen = self._bus_of[name].add(name, moment, words, number, is_own)
            if seen is not None:
                self.arrivals.append(seen)
                self.arrived += 1

    def begin(self, name: str, counters: ErrorCounters) -> None:
        """Adds the initial state of an interface, before the states that error message frames have already reported."""
        self.states.setdefault(name, []).insert(0, StateSeen(None, counters))

    def note_down(self, name: str, counters: ErrorCounters) -> None:
        """Adds the state `down` of an interface, unless its last state is `down`."""
        if self.states[name][-1].counters.state != counters.state:
            self._note(name, StateSeen(None, counters))

    def _note(self, name: str, state: StateSeen) -> None:
        states = self.states.setdefault(name, [])
        states.append(state)
        if len(states) > MOST_STATES:
            some = MOST_STATES // 10
            del states[:some]
            self._expected[name] = max(0, self._expected.get(name, 0) - some)

    def arrived_since(self, number: int) -> Iterator[Seen]:
        """Yields the frames that arrived after the first `number` frames."""
        return islice(self.arrivals, max(0, len(self.arrivals) - (self.arrived - number)), None)

    # Expected frames.

    def channels(self, channel: Optional[str]) -> Sequence[str]:
        """Returns the observed interfaces that an expectation checks: only `channel` if it is given, otherwise all.
        Raises ValueError if no interface is observed, or if `channel` is not observed."""
        if not self.observed:
            raise ValueError("no interface of the server is observed: it was given observe=()")
        if channel is not None and channel not in self.observed:
            raise ValueError(f"channel is one of the observed, {', '.join(self.observed)}, not {channel!r}")
        return self.observed if channel is None else (channel,)

    def untaken(self, channel: Optional[str] = None) -> Iterator[Seen]:
        """Yields the frames that have not been taken yet, ordered by timestamp; with `channel`, only the frames that
        this interface received."""
        names = self.channels(channel)
        found: list[Seen] = []
        for number, bus in self._buses_of(channel):
            frames = bus.frames[bus.place(self._first(number, channel)) :]
            found += [seen for seen in frames if any(name in seen.channels for name in names)]
        # The frames of each bus are already in order. The frames of several buses must be sorted.
        return iter(sorted(found, key=lambda seen: seen.moment) if len(self.buses) > 1 else found)

    def taken(self, channel: Optional[str] = None) -> Iterator[Seen]:
        """Yields the frames that have been taken, latest first; with `channel`, only the frames that this interface
        received."""
        names = self.channels(channel)
        found: list[Seen] = []
        for number, bus in self._buses_of(channel):
            frames = bus.frames[: bus.place(self._first(number, channel))]
            found += [seen for seen in frames if any(name in seen.channels for name in names)]
        return iter(sorted(found, key=lambda seen: -seen.moment) if len(self.buses) > 1 else found[::-1])

    def _buses_of(self, channel: Optional[str]) -> list[tuple[int, SeenBus]]:
        """Returns the bus of this interface with its index. Without `channel`, returns all buses with their indexes."""
        return [(number, bus) for number, bus in enumerate(self.buses) if channel is None or channel in bus.names]

    def _first(self, number: int, channel: Optional[str]) -> int:
        """Returns the position of the first frame on a bus that has not been taken; with `channel`, at this interface."""
        return self._untaken_of_bus[number] if channel is None else self._untaken.get(channel, 0)

    def take(self, seen: Seen, channel: Optional[str] = None) -> None:
        """Takes a frame and all earlier frames on its bus; with `channel`, the earlier frames at this interface."""
        for number, bus in enumerate(self.buses):
            if not any(name in bus.names for name in seen.channels):
                continue
            place = bus.forgotten + bus.frames.index(seen, bisect_left(bus._moments, seen.moment)) + 1
            self._untaken_of_bus[number] = max(self._untaken_of_bus[number], place)
            for name in bus.names if channel is None else (channel,):
                self._untaken[name] = max(self._untaken.get(name, 0), place)

    def take_all(self) -> None:
        """Takes all frames that have arrived, and all states before the last state of each interface."""
        for number, bus in enumerate(self.buses):
            self._untaken_of_bus[number] = bus.forgotten + len(bus.frames)
            for name in bus.names:
                self._untaken[name] = self._untaken_of_bus[number]
        for name, states in self.states.items():
            self._expected[name] = len(states) - 1

    def missed(self, channel: Optional[str]) -> int:
        """Returns how many frames were deleted before they could be taken."""
        return sum(max(0, bus.forgotten - self._first(number, channel)) for number, bus in self._buses_of(channel))

    def last(self) -> list[Seen]:
        """Returns the last frames that were received, ordered by timestamp."""
        return sorted((seen for bus in self.buses for seen in bus.frames[-MOST_SHOWN:]), key=lambda seen: seen.moment)[
            -MOST_SHOWN:
        ]

    def names_of(self, seen: Seen) -> Sequence[str]:
        """Returns the interfaces of the bus on which a frame was received."""
        return self._bus_of[next(iter(seen.channels))].names

    # Expected states.

    def expected_state(self, name: str, state: str) -> Optional[StateSeen]:
        """Returns the first time that an interface entered this state after the last expected state. Otherwise returns
        the current state if the interface is in this state, or None if it is not. The next search begins there."""
        states = self.states[name]
        last = len(states) - 1
        for place in [*range(self._expected.get(name, 0) + 1, last), last]:
            seen: StateSeen = states[place]
            if seen.counters.state == state:
                self._expected[name] = place
                return seen
        return None

    def later_state(self, name: str, state: str) -> bool:
        """Returns whether an interface entered this state after the last expected state."""
        return any(seen.counters.state == state for seen in self.states[name][self._expected.get(name, 0) + 1 :])

    def states_since(self, name: str) -> list[str]:
        """Returns the states of an interface since the last expected state; only the last ones if there are many.
        Returns an empty list if the state has not changed."""
        was = [seen.counters.state for seen in self.states[name][self._expected.get(name, 0) :]]
        shown = [".."] * (len(was) > MOST_SHOWN) + was[-MOST_SHOWN:]
        return shown if len(was) > 1 else []
