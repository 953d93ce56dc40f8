"""The sessions that receive frames and states from a server for the expectations of a test."""

import contextlib
import threading
import time
from collections import deque
from collections.abc import Callable, Iterable, Iterator, Sequence
from itertools import groupby, islice
from typing import Optional, Protocol, TypeVar, Union

from canbusd._expect.frame_matcher import Wanted
from canbusd._expect.received_frames import MOST_KEPT, MOST_SHOWN, Received, Seen, StateSeen, state_in, without_copies
from canbusd._session.injection import TIMEOUT
from canbusd._session.observing_session import ObservingSession, Reader, wait_for_input
from canbusd._session.protocol import ErrorCounters, Stats, in_words
from canbusd._session.raw_session import fault
from canbusd._session.waits import seconds_until
from canbusd._text import seconds_words, times
from canbusd.frames import Frame, described_line
from canbusd.signals import Database

T = TypeVar("T")

# If `observe` is None and a server has at most this many interfaces, all of them are observed. If it has more, only the
# first interface of each bus is observed, because every observed interface adds an entry to the record for each frame.
MOST_OBSERVED = 8
# If a server has at most this many interfaces, a session is opened on each of them at the start, at least to receive
# its states. A server supports 64 sessions.
MOST_WITH_STATES = 16
# While no expectation is waiting, a session stores up to MOST_UNREAD_FRAMES unprocessed frames. If there are more, the
# reader processes FRAMES_AT_ONCE of them, and then pauses so that other threads can run, such as the thread of a rest
# bus.
MOST_UNREAD_FRAMES, FRAMES_AT_ONCE, PAUSE_SECONDS = 20_000, 16, 0.0001

#: How many earlier frames are searched to find out whether an expected frame has already arrived.
MOST_TAKEN = 10_000
IN_ORDER = (
    "expectations look after the frame that the last one returned: expect frames in their order, or by expect_sequence"
)


def decoded_words(frame: Frame, database: Optional[Database], signals: Sequence[str]) -> str:
    """Returns the name of a frame's message and the values of these signals, as a string; the empty string if the
    database does not contain the frame."""
    decoded = None if database is None else database.decode(frame)
    if decoded is None:
        return ""
    asked = ", ".join(str(signal) for signal in decoded.signals if signal.name in signals)
    return f"  {decoded.message}{': ' if asked or decoded.fault else ''}{decoded.fault or asked}"


def observed_by_default(buses: Sequence[Sequence[str]]) -> list[str]:
    """Returns the interfaces that are observed by default."""
    names = [name for bus in buses for name in bus]
    return names if len(names) <= MOST_OBSERVED else [bus[0] for bus in buses]


def observed_of(
    observe: Union[str, Sequence[str], None], buses: Sequence[Sequence[str]], check: Callable[[str], object]
) -> list[str]:
    """Returns the interfaces in the argument `observe`; by default those that `observed_by_default` returns. The
    function `check` raises ValueError for an unknown interface."""
    if observe is None:
        return observed_by_default(buses)
    if not isinstance(observe, Iterable):
        raise ValueError(f"observe is the names of interfaces, such as 'can0,can1', or (), not {observe!r}")
    named = observe.split(",") if isinstance(observe, str) and observe else observe
    for name in named:
        check(name)
    return list(dict.fromkeys(named))


class Watching(Protocol):
    """A session on an interface of a server or a bench that receives the frames and states of the interface."""

    channel: str
    first: ErrorCounters

    def error_counters(self) -> ErrorCounters:
        """Returns the state of the interface and its error counters."""

    def stats(self) -> Stats:
        """Returns the counts of the session and its interface."""

    def rules_left(self) -> int:
        """Returns how many fault rules of the bus are not used up."""

    def end_rules(self) -> None:
        """Ends all fault rules of the bus."""

    def down(self) -> None:
        """Takes the interface off the bus."""

    def up(self) -> None:
        """Brings the interface up."""

    def hand_on(self, add: Callable[[str, str], None]) -> None:
        """Passes the received messages to the function `add`."""

    def close(self) -> None:
        """Ends the session."""


class Observer:
    """The sessions that observe a server, one on each interface. If no interface is observed, a session is opened only
    when a test queries the state of its interface.

    A call that waits for an expectation reads the sessions, and checks all received messages. Between such calls, a
    thread reads the sessions, so that no message is dropped while the test does something else.
    """

    #: The kind of the observed object, `server` or `bench`, for error messages.
    owner = "server"

    def __init__(
        self,
        address: str,
        buses: Sequence[Sequence[str]],
        observed: Sequence[str],
        full: Callable[[Optional[str]], str] = lambda channel: "",
    ) -> None:
        self._address = address
        # A function that returns an error message if the record of a bus is full, otherwise the empty string.
        self._full = full
        self.received = Received(buses, observed)
        self._sessions: dict[str, Watching] = {}
        # How many frames the socket on each observed interface had dropped at the last expectation.
        self._dropped: dict[str, int] = {}
        self._lock = threading.RLock()
        #: The timestamp up to which all expectations ignore frames. It is set by `forget`.
        self._forgotten = -1
        # How many threads wait for frames and read the sessions themselves.
        self._waiting = 0
        self._reader: Optional[Reader] = None
        names = [name for bus in buses for name in bus]
        self._all = names
        if observed:
            # If there are many interfaces, sessions are opened only on the observed ones at the start.
            for name in names if len(names) <= MOST_WITH_STATES else observed:
                self.session(name)
            self._begin_reading()

    def _begin_reading(self) -> None:
        """Starts a thread that reads messages while no expectation is waiting."""
        self._reader = Reader(self._live(), self._read_along)

    def _open(self, name: str) -> Watching:
        """Opens a session on an interface."""
        return ObservingSession(self._address, name, name in self.received.observed)

    def _live(self) -> list[ObservingSession]:
        """Returns the sessions on a server's interfaces; see ObservingSession."""
        return [session for session in self._sessions.values() if isinstance(session, ObservingSession)]

    def session(self, name: str) -> Watching:
        """Returns the session on an interface, and opens it if necessary."""
        with self._lock:
            found = self._sessions.get(name)
            if found is None:
                if name not in self._all:
                    given = name if isinstance(name, str) else repr(name)
                    known = f"no such interface; the {self.owner} has {', '.join(self._all)}"
                    raise fault("CanInitializationError", f"{given}: {known}")
                found = self._sessions[name] = self._open(name)
                self.received.begin(name, found.first)
            return found

    def settle(self) -> None:
        """Processes all messages that the interfaces have received so far."""
        with self._lock:
            sessions = self._live()
        deadline = time.monotonic() + TIMEOUT
        for session in sessions:
            queued = session.stats().queued
            while True:
                self._gather()
                left = seconds_until(deadline)
                if session.taken >= queued:
                    break
                if left == 0:
                    late = f"{session.channel}: frames did not come within {seconds_words(TIMEOUT)}"
                    raise fault("CanTimeoutError", ": ".join(filter(None, [late, self._full(session.channel)])))
                wait_for_input([session], left)

    def wait(self, look: Callable[[], Optional[T]], may_be: Callable[[Seen], bool], within: float) -> Optional[T]:
        """Calls `look` until it finds a result in the received messages, and returns the result. Returns None after
        `within` seconds.

        `look` is called immediately, after each new frame for which `may_be` returns true, and at the end.
        """
        deadline = time.monotonic() + within
        with self._waits():
            while True:
                self.settle()
                with self._lock:
                    found, arrived = look(), self.received.arrived
                if found is not None or seconds_until(deadline) == 0:
                    return found
                self._await(may_be, arrived, deadline)

    def _await(self, may_be: Callable[[Seen], bool], arrived: int, deadline: float) -> None:
        """Waits until a new frame arrives for which `may_be` returns true. `arrived` is how many frames had arrived
        before."""
        while True:
            with self._lock:
                if any(may_be(seen) for seen in self.received.arrived_since(arrived)):
                    return
                arrived = self.received.arrived
            left = seconds_until(deadline)
            if left == 0:
                return
            wait_for_input(self._live(), left)
            self._gather()

    def find(self, matches: Callable[[Frame], bool], channel: Optional[str], within: float) -> Optional[Seen]:
        """Takes the first matching frame after the last taken frame. Waits up to `within` seconds for such a frame."""
        self.received.channels(channel)

        def look() -> Optional[Seen]:
            return next((seen for seen in self.received.untaken(channel) if matches(seen.frame)), None)

        found = self.wait(look, lambda seen: matches(seen.frame), within)
        if found is not None:
            self.take(found, channel)
        return found

    def take(self, seen: Seen, channel: Optional[str]) -> None:
        """Takes a frame and all frames before it. The next search begins after this frame."""
        with self._lock:
            self.received.take(seen, channel)
        self._note_dropped()

    def collect(
        self, matches: Callable[[Frame], bool], channel: Optional[str], count: int, within: float
    ) -> list[Seen]:
        """Returns the first `count` matching frames that have not been taken yet, without second copies of a frame.
        Returns fewer frames if not enough arrive within `within` seconds."""
        self.received.channels(channel)
        left = count

        def found() -> list[Seen]:
            wanted = (seen for seen in self.received.untaken(channel) if matches(seen.frame))
            return list(islice(without_copies(wanted), count))

        def look() -> Optional[list[Seen]]:
            nonlocal left
            frames = found()
            left = count - len(frames)
            return None if left else frames

        def may_be(seen: Seen) -> bool:
            nonlocal left
            left -= matches(seen.frame)
            return left <= 0

        frames = self.wait(look, may_be, within)
        with self._lock:
            return found() if frames is None else frames

    def untaken(self, channel: Optional[str]) -> list[Seen]:
        """Returns the frames that have not been taken yet."""
        with self._lock:
            return list(self.received.untaken(channel))

    def contents(self, wanted: Wanted, channel: Optional[str]) -> list[object]:
        """Returns the contents of the frames since the last expectation, without successive repetitions. `wanted`
        defines which part of a frame is its content."""
        said = (wanted.content(seen.frame) for seen in self.untaken(channel))
        return [content for content, _ in groupby(content for content in said if content is not None)]

    def last_content(self, wanted: Wanted, channel: Optional[str]) -> Optional[object]:
        """Returns the last content among the frames up to the last expectation. `wanted` defines which part of a frame
        is its content."""
        self.settle()
        with self._lock:
            said = (wanted.content(seen.frame) for seen in self.received.taken(channel))
            return next((content for content in said if content is not None), None)

    def last_taken(self, matches: Callable[[Frame], bool], channel: Optional[str]) -> Optional[Seen]:
        """Returns the last matching frame that arrived up to the last expectation."""
        self.settle()
        with self._lock:
            return next((seen for seen in self.received.taken(channel) if matches(seen.frame)), None)

    def is_forgotten(self, seen: Seen) -> bool:
        """Returns whether a frame was received before the last call of `forget`."""
        return seen.moment <= self._forgotten

    def said_instead(self, wanted: Wanted, channel: Optional[str]) -> str:
        """Returns the part of an error message that lists the contents received instead of the expected content; the
        empty string if there are none."""
        contents = [str(content) for content in self.contents(wanted, channel)]
        if not contents or not wanted.has_content:
            return ""
        return f": it was {', '.join(['..'] * (len(contents) > MOST_SHOWN) + contents[-MOST_SHOWN:])}"

    def hint(self, wanted: Wanted, channel: Optional[str]) -> str:
        """Returns a hint if a frame with the expected identifier value was received, but with the other identifier
        length; otherwise the empty string."""
        hints = (wanted.hint(seen.frame) for seen in self.untaken(channel))
        return next((f"\n{hint}" for hint in hints if hint), "")

    def came_before(self, wanted: Wanted, channel: Optional[str]) -> str:
        """Returns the part of an error message that says that the expected frame arrived before the last expectation;
        the empty string if it did not."""
        with self._lock:
            taken = islice(self.received.taken(channel), MOST_TAKEN)
            before = next((seen for seen in taken if wanted.matches(seen.frame)), None)
        if before is None:
            return ""
        return f"\nit came earlier: {self.line(before, channel)}\n{IN_ORDER}"

    def find_state(self, name: str, state: str, within: float) -> Optional[StateSeen]:
        """Returns the first time that an interface entered a state after the last expected state. Waits up to `within`
        seconds for the state. Returns None if the interface did not enter it."""
        self.session(name)

        def may_be(seen: Seen) -> bool:
            counters = state_in(seen.words)
            return name in seen.channels and counters is not None and counters.state == state

        return self.wait(lambda: self.came_into(name, state, is_settled=True), may_be, within)

    def came_into(self, name: str, state: str, is_settled: bool = False) -> Optional[StateSeen]:
        """Returns the first time that an interface entered a state after the last expected state; None if it did not."""
        if not is_settled:
            self.settle()
        counters = self.session(name).error_counters()
        with self._lock:
            # No error message frame reports that the interface is down.
            if counters.state == "down":
                self.received.note_down(name, counters)
            return self.received.expected_state(name, state)

    def skip_to_state(self, name: str, state: str) -> Optional[StateSeen]:
        """Returns the last time that an interface entered this state after the last expected state; None if it did not.
        The next expected state must follow it."""
        self.settle()
        with self._lock:
            found = None
            while self.received.later_state(name, state):
                found = self.received.expected_state(name, state)
            return found

    def states_since(self, name: str) -> list[str]:
        """Returns the states of an interface since the last expected state, including that state."""
        with self._lock:
            return self.received.states_since(name)

    def forget(self) -> None:
        """Makes later expectations ignore all messages that have been received so far."""
        self.settle()
        with self._lock:
            self.received.take_all()
            self._forgotten = max((seen.moment for seen in self.received.last()), default=self._forgotten)
        self._note_dropped()

    def missed(self, channel: Optional[str]) -> str:
        """Returns the part of an error message that says how many frames were lost since the last expectation; the
        empty string if none were lost."""
        texts = []
        for name in self.received.channels(channel):
            dropped = self._sessions[name].stats().dropped - self._dropped.get(name, 0)
            if dropped:
                texts.append(f"{times(dropped, 'frame was', 'frames were')} dropped at {name} (rxqueue)")
        with self._lock:
            forgotten = self.received.missed(channel)
        if forgotten:
            texts.append(f"of more than {MOST_KEPT} since the last expectation the first {forgotten} were forgotten")
        texts += filter(None, [self._full(channel)])
        return f": {', and '.join(texts)}" if texts else ""

    def _note_dropped(self) -> None:
        """Makes the next expectation ignore the frames that have been dropped so far."""
        for name in self.received.observed:
            self._dropped[name] = self._sessions[name].stats().dropped

    def shown(self, database: Optional[Database] = None, signals: Sequence[str] = ()) -> str:
        """Returns the last received frames as lines of a log, and the states of the interfaces, for an error message.

        If a database is given, each line also contains the name of the frame's message and the values of these signals.
        """
        observed = self.received.observed
        if not observed:
            return ""
        with self._lock:
            last = self.received.last()
        lines = [f"{self.line(seen)}{decoded_words(seen.frame, database, signals)}" for seen in last]
        who = "were seen" if len(observed) == len(self._all) else f"{' and '.join(observed)} saw"
        heading = f"the last frames that {who}, each with its receiver:" if lines else "no frame was seen"
        shown = ["", heading, *(f"  {line}" for line in lines)]
        for name in observed:
            dropped = self._sessions[name].stats().dropped
            if dropped:
                shown.append(
                    f"{times(dropped, 'frame was', 'frames were')} dropped at {name}: they came too fast for `rxqueue`"
                )
        return "\n".join([*shown, *self._states()])

    def channel(self, seen: Seen) -> str:
        """Returns the first interface that received a frame from another interface. Returns the frame's sender if there
        is none."""
        return seen.channel(self.received.names_of(seen))

    def line(self, seen: Seen, channel: Optional[str] = None) -> str:
        """Returns the log line of a frame as received by `channel`; by default, as received by the first interface."""
        return described_line(channel or self.channel(seen), seen.frame)

    def close(self) -> None:
        """Ends the sessions."""
        if self._reader is not None:
            self._reader.end()
        for session in self._sessions.values():
            session.close()

    def _states(self) -> Iterator[str]:
        """Yields a description of the state and the counts of each interface that has had errors, or has queued or lost
        frames."""
        for name in self._all:
            try:
                session = self.session(name)
            except Exception:  # Without a place for a further session there is nothing to report.
                continue
            counters, stats = session.error_counters(), session.stats()
            if counters != ("active", 0, 0) or stats.waiting or stats.lost:
                counts = f"sent {stats.sent}, done {stats.done}, waiting {stats.waiting}, lost {stats.lost}"
                yield f"{in_words(name, counters)}: {counts}"

    @contextlib.contextmanager
    def _waits(self) -> Iterator[None]:
        """A context manager for waiting: the calling thread reads the sessions itself, and the reader thread pauses."""
        with self._lock:
            self._waiting += 1
        try:
            yield
        finally:
            with self._lock:
                self._waiting -= 1

    def _gather(self) -> None:
        """Processes the received messages."""
        with self._lock:
            for session in self._sessions.values():
                session.hand_on(self.received.add)

    def _read_along(self) -> None:
        """Reads received messages into the sessions, unless a thread waits for an expectation. The messages are
        processed when a thread waits, or when there are many."""
        with self._lock:
            if self._waiting:
                return
            for session in self._live():
                session.read()
        while self._hand_some_on():
            time.sleep(PAUSE_SECONDS)

    def _hand_some_on(self) -> bool:
        """Processes some of the oldest frames of each session that has too many unprocessed frames. Returns whether
        there was such a session."""
        with self._lock:
            full = [session for session in self._live() if session.unread > MOST_UNREAD_FRAMES]
            for session in full:
                session.hand_on_read(self.received.add, min(FRAMES_AT_ONCE, session.unread - MOST_UNREAD_FRAMES))
            return bool(full)
