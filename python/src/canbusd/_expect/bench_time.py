"""The time of a bench. It advances while a test waits: the bench makes attempts, and rest buses send the frames that
are due."""

import contextlib
import threading
from collections.abc import Callable, Sequence
from typing import TYPE_CHECKING, Optional, Protocol, TypeVar, Union

from canbusd._expect.bench_observer import BenchObserver
from canbusd._expect.expectations import Expectations
from canbusd._expect.observer import observed_of
from canbusd._process.rates import Rates
from canbusd._session.arguments import check_within
from canbusd._session.bench_session import Session
from canbusd.faults import Script
from canbusd.record import Attempt
from canbusd.steps import step

if TYPE_CHECKING:
    from canbusd._session.protocol import Filters

T = TypeVar("T")
MICROS = 1_000_000
#: After an attempt, a queued frame begins within this many bit times. Every frame is longer, so only one frame can
#: begin.
SOON = 30
#: If a bench without a bit rate has made this many attempts at the same time, it is assumed that frames will always be
#: queued.
MOST_AT_ONCE = 100_000


class Due(Protocol):
    """A sender of frames that are due at certain times. All times are in microseconds."""

    def first_due(self) -> Optional[int]:
        """Returns the time at which the next frame is due; None if no frame is due."""

    def put_due(self, moment: int) -> None:
        """Sends the frames that are due at this time."""


class PassesTime(Expectations):
    """The expectations of a bench, and the sessions that they use. The methods are the same as for a server."""

    names: tuple[str, ...]
    _rates: Optional[Rates]
    _moment: str
    _turn: threading.RLock
    _sessions: int

    def __init__(self, observe: Union[str, Sequence[str], None]) -> None:
        self._observed = observed_of(observe, [self.names], lambda name: self._named(name, "observe"))
        self._observer: Optional[BenchObserver] = None
        #: How many of the sessions belong to the package itself, if these were opened before all others.
        self._own_sessions = 0
        # The senders of frames that are due at certain times, and the time in microseconds that waiting calls have
        # reached.
        self._due: list[Due] = []
        self._reached = 0

    def open(self, channel: str, can_filters: "Optional[Filters]" = None, *, fd: bool = False) -> Session:
        """Opens a session."""
        raise NotImplementedError

    def attempt(self) -> Optional[Attempt]:
        """Makes an attempt."""
        raise NotImplementedError

    def run(self, *, until: float) -> list[Attempt]:
        """Makes the attempts that begin before the time `until`."""
        raise NotImplementedError

    @property
    def now(self) -> float:
        """The current time in seconds: the time of the last attempt, or the time that a waiting call has reached if
        that is later."""
        return self._now / MICROS

    @property
    def _now(self) -> int:
        return max(self._reached, round(float(self._moment) * MICROS))

    def pass_time(self, look: Callable[[], Optional[T]], seconds: Optional[float]) -> Optional[T]:
        """Advances the time until `look` returns a result, and returns the result. Returns None after `seconds`
        seconds. If `seconds` is None, returns None when no more frames can be sent."""
        if seconds is not None:
            check_within(seconds, "timeout")
        with self._turn:
            return self._passed(look, seconds)

    def _passed(self, look: Callable[[], Optional[T]], seconds: Optional[float]) -> Optional[T]:
        end = None if seconds is None else self._now + round(seconds * MICROS)
        count, before = 0, self._now
        while True:
            found = look()
            if found is not None and found is not False:
                return found
            if not self._step(end):
                return None
            count, before = (count + 1, before) if self._now == before else (0, self._now)
            if count > MOST_AT_ONCE:
                raise RuntimeError(f"frames still wait after {MOST_AT_ONCE} attempts at one moment")

    def _step(self, end: Optional[int]) -> bool:
        """Makes the next attempt, or advances to the time at which the next frames are due, but not beyond `end`.
        Returns whether it did either."""
        moments = [(moment, one) for one in self._due for moment in [one.first_due()] if moment is not None]
        first = min((moment for moment, _ in moments), default=None)
        if first is not None and first <= self._now and (end is None or first < end):
            for moment, one in moments:
                if moment <= self._now:
                    one.put_due(self._now)
            return True
        limit = end if first is None else first if end is None else min(first, end)
        if self._was_tried(limit):
            return True
        if limit is None or limit <= self._now:
            return False
        self._go_to(limit)
        return True

    def _was_tried(self, limit: Optional[int]) -> bool:
        """Makes the attempt that begins now, if a frame is queued. Returns whether an attempt was made."""
        if self._rates is None:
            return self._attempt_now() is not None
        soon = self._now + -(-SOON * MICROS // self._rates.bitrate)
        attempts = self._run_to(soon if limit is None else min(soon, limit))
        return bool(attempts)

    def _attempt_now(self) -> Optional[Attempt]:
        """Makes an attempt at the current time. The bench has no bit rate."""
        raise NotImplementedError

    def _go_to(self, moment: int) -> None:
        if self._rates is None:
            self._reached = moment
        else:
            self._run_to(moment)

    def _run_to(self, moment: int) -> list[Attempt]:
        """Makes the attempts that begin before this time."""
        if moment <= self._now and moment <= self._reached:
            return []
        attempts = self.run(until=moment / MICROS)
        last = [round(attempt.timestamp * MICROS) for attempt in attempts]
        self._reached = max([self._reached, moment, *last])
        return attempts

    def wait(self, seconds: float) -> None:
        """Lets this much time pass on the bus, in seconds. In the meantime, the bench makes attempts, and rest buses
        send the frames that are due."""
        check_within(seconds, "seconds")
        self.pass_time(lambda: None, seconds)

    def _wait(self, predicate: Callable[[], T], timeout: float) -> Optional[T]:
        return self.pass_time(lambda: predicate() or None, timeout)

    def _observing(self) -> BenchObserver:
        """Returns the observer with the bench's own sessions, which are opened at the first call."""
        if self._observer is None:
            is_first = self._sessions == 1
            self._observer = BenchObserver(self, self.names, self._observed)
            self._own_sessions = len(self._observed) if is_first else 0
        return self._observer

    def step(self, title: str) -> "contextlib.AbstractContextManager[None]":
        """Marks a step of the test in the test's report, with the time of the bench."""
        return step(title, now=lambda: self.now)

    def expect_from_now(self) -> None:
        if self._observer is not None:
            super().expect_from_now()

    def inject(self, faults: Script, interface: Optional[str] = None) -> None:
        """Adds fault rules to the bus."""
        raise NotImplementedError

    def rules_left(self, interface: Optional[str] = None) -> int:
        """Returns how many fault rules of the bus are not used up. Rules without a limit are included."""
        return self._observing().session(self._named(interface)).rules_left()

    def end_rules(self, interface: Optional[str] = None) -> None:
        """Ends all fault rules of the bus. Script lines for numbered attempts still apply."""
        self._observing().session(self._named(interface)).end_rules()

    def _named(self, interface: Optional[str], what: str = "interface") -> str:
        """Returns this interface, or the first interface if it is None. Raises ValueError if the bus has no such
        interface."""
        if interface is not None and interface not in self.names:
            raise ValueError(f"{what} is an interface of the bench, one of {', '.join(self.names)}, not {interface!r}")
        return interface or self.names[0]
