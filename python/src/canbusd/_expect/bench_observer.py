"""The observer of a bench, which has a session on each interface. While a test waits, the time of the bench advances.
"""

from collections.abc import Callable, Sequence
from typing import Optional, Protocol, TypeVar

from canbusd._expect.observer import Observer, Watching
from canbusd._expect.received_frames import Seen
from canbusd._session.bench_session import Session
from canbusd._session.protocol import ErrorCounters, Stats

T = TypeVar("T")


class Waits(Protocol):
    """The methods of a bench that its observer calls."""

    def open(self, channel: str, *, fd: bool = False) -> Session:
        """Opens a session."""

    def pass_time(self, look: Callable[[], Optional[T]], seconds: float) -> Optional[T]:
        """Advances the time of the bench until `look` returns a result."""


class Watch:
    """A session on a bench that receives all frames of its interface."""

    def __init__(self, session: Session) -> None:
        self._session, self.channel = session, session.channel
        session.call("origin 1")
        #: The state and the error counters of the interface at the time when the session was opened.
        self.first = session.status()

    def error_counters(self) -> ErrorCounters:
        """Returns the state of the interface and its error counters."""
        return self._session.status()

    def stats(self) -> Stats:
        """Returns the counts of the session and its interface."""
        return self._session.stats()

    def rules_left(self) -> int:
        """Returns how many fault rules of the bus are not used up."""
        return self._session.rules_left()

    def end_rules(self) -> None:
        """Ends all fault rules of the bus."""
        self._session.end_rules()

    def down(self) -> None:
        """Takes the interface off the bus."""
        self._session.down(self._moment())

    def up(self) -> None:
        """Brings the interface up."""
        self._session.up(self._moment())

    def _moment(self) -> Optional[float]:
        """Returns the current time of a bench without a bit rate. Returns None for a bench with a bit rate, because
        such a bench sets its own time."""
        bench = self._session._bench
        return bench.now if bench._rates is None else None

    def hand_on(self, add: Callable[[str, str], None]) -> None:
        """Passes the received frames to the function `add`, as protocol messages."""
        for message in self._session.handed_over():
            add(self.channel, f"< {message}")

    def close(self) -> None:
        """Does nothing. The bench ends its own sessions."""


class BenchObserver(Observer):
    """An observer whose sessions are on a bench. While a test waits, the time of the bench advances."""

    owner = "bench"

    def __init__(self, bench: Waits, names: Sequence[str], observed: Sequence[str]) -> None:
        self._bench = bench
        super().__init__("", [names], observed)

    def _open(self, name: str) -> Watching:
        return Watch(self._bench.open(name, fd=True))

    def _begin_reading(self) -> None:
        """Does not start a thread, because a bench delivers frames only when a session requests them."""

    def settle(self) -> None:
        self._gather()

    def wait(self, look: Callable[[], Optional[T]], may_be: Callable[[Seen], bool], within: float) -> Optional[T]:
        def found() -> Optional[T]:
            self.settle()
            return look()

        return self._bench.pass_time(found, within)
