"""Expectations for a running server: the states of its interfaces, and the frames that they receive.

    with Server("ecu,tester") as server:
        ...
        server.expect(id=0x123, within=1.0)
        server.expect_state("ecu", "off")

An expectation only checks messages that sessions have received since the last expectation; it does not poll.
`Server.attempts` returns all attempts, including failed ones with the reason of the failure.
"""

import contextlib
import time
from collections.abc import Callable, Mapping, Sequence
from typing import TYPE_CHECKING, Any, Optional, TypeVar, Union

from canbusd._calls import explained
from canbusd._expect.frame_matcher import Wanted, identifier
from canbusd._expect.supervision import Supervision
from canbusd._session.arguments import check_within
from canbusd._session.connection import LONGEST_POLL, POLL
from canbusd._session.protocol import STATES, ErrorCounters, State, Stats, in_words
from canbusd._session.waits import seconds_until
from canbusd._text import seconds_words
from canbusd.faults import Faults, Script
from canbusd.frames import Frame, frame_to_send
from canbusd.signals import Value
from canbusd.steps import step

if TYPE_CHECKING:
    from can.message import Message

    from canbusd._expect.observer import Observer, Watching

#: An interface is bus off if its transmit error count is at least OFF. Each destroyed frame adds DESTROYED to the
#: count.
OFF, DESTROYED = 256, 8

T = TypeVar("T")


def wait_for(predicate: Callable[[], T], timeout: float) -> Optional[T]:
    """Calls the predicate until its result is true, and returns the result. Returns None after `timeout` seconds."""
    if not callable(predicate):
        raise ValueError(f"predicate is a function that is called until it is true, as lambda: .., not {predicate!r}")
    check_within(timeout, "timeout")
    deadline, pause = time.monotonic() + timeout, POLL
    while True:
        found = predicate()
        if found:
            return found
        left = seconds_until(deadline)
        if left == 0:
            return None
        time.sleep(min(pause, left))
        pause = min(2 * pause, LONGEST_POLL)


class Expectations(Supervision):
    """The base class for the expectations of a Server or a Bench."""

    def _observing(self) -> "Observer":
        """Returns the observer."""
        raise NotImplementedError

    def inject(self, faults: Script, interface: Optional[str] = None) -> None:
        """Adds fault rules to the bus of an interface."""
        raise NotImplementedError

    def _shown(self, signals: Sequence[str] = ()) -> str:
        """Returns the last frames that the test received, as the end of an error message."""
        return self._observing().shown(self.database, signals)

    def _wait(self, predicate: Callable[[], T], timeout: float) -> Optional[T]:
        """Calls the predicate until its result is true, and returns the result. Returns None after `timeout` seconds."""
        return wait_for(predicate, timeout)

    def step(self, title: str) -> "contextlib.AbstractContextManager[None]":
        """Marks a step of the test in the test's report: ``with server.step("the ECU wakes"): ..``."""
        return step(title)

    @explained("values are a dict, such as frame('EngineData', {'EngineSpeed': 800})")
    def frame(
        self,
        id: Union[int, str],
        data: Union[bytes, Mapping[str, Value]] = b"",
        *,
        is_extended_id: Optional[bool] = None,
        is_fd: bool = False,
    ) -> Frame:
        """Returns a frame to send. The arguments are an identifier and data bytes, or the name of a message in the
        database and its signal values. An identifier above 7FF is a 29-bit identifier; `is_extended_id` overrides this.
        """
        if isinstance(id, str):
            message, _ = identifier(id, self.database)
            assert message is not None and self.database is not None
            if not isinstance(data, Mapping) and data != b"":
                raise ValueError(
                    f"a message by its name has values, as frame({id!r}, {{'EngineSpeed': 800}}), not {data!r}"
                )
            return self.database.encode(id, data if isinstance(data, Mapping) else {})
        if isinstance(data, Mapping):
            raise ValueError(f"values are of a message by its name, as frame('EngineData', {dict(data)!r}), not {id!r}")
        return frame_to_send(id, data, is_extended_id=is_extended_id, is_fd=is_fd)

    @explained()
    def error_counters(self, name: str) -> ErrorCounters:
        """Returns the state of an interface and its error counters. The server must be running."""
        return self._observing().session(name).error_counters()

    @explained()
    def state(self, name: str) -> State:
        """Returns the state of an interface: `active`, `warning`, `passive`, `off` or `down`. The server must be
        running."""
        return self.error_counters(name).state

    @explained()
    def down(self, name: str) -> None:
        """Takes an interface off the bus, like `ip link set can0 down`. The frames in its transmit queue are lost.

        Until `up` is called, the interface sends, accepts and acknowledges nothing, and attempts to send fail with
        `interface down`. Its sockets stay open. If the interface is already down, nothing changes. The next
        `expect_state` ignores earlier states.
        """
        observer = self._observing()
        observer.session(name).down()
        # No error message frame reports that the interface is down.
        observer.came_into(name, "down")

    @explained()
    def up(self, name: str) -> None:
        """Brings an interface up, or restarts it after bus off. Both error counters are then 0. It is not an error if
        the interface is already up."""
        self._observing().session(name).up()

    @explained()
    def bus_off(self, name: str, timeout: float = 5.0) -> ErrorCounters:
        """Forces an interface into bus off, whatever other interfaces send. Returns when the interface is bus off.

        This call injects a rule that destroys the next attempts of the interface, 32 if it had no errors before. So the
        interface must send frames. Raises AssertionError if the interface is not bus off after `timeout` seconds. In
        this case the rule is ended, unless the bus has other rules, which would end too. The error says if the rule was
        kept, or if the interface sent nothing.
        """
        __tracebackhide__ = True
        check_within(timeout, "timeout")
        observer = self._observing()
        drive = Drive(observer.session(name), name, self.inject)
        try:
            counters = self._wait(drive.off, timeout)
            if counters is None:
                raise AssertionError(f"{drive.failure(timeout)}{self._shown()}")
            # An interface that restarts automatically may already be active again.
            was = observer.skip_to_state(name, "off")
            return was.counters if was is not None and counters.state != "off" else counters
        finally:
            drive.end_rule()

    @explained()
    def wait_for(self, predicate: Callable[[], T], timeout: float = 1.0) -> T:
        """Calls the predicate until its result is true, and returns the result. Raises TimeoutError after `timeout`
        seconds."""
        __tracebackhide__ = True
        found = self._wait(predicate, timeout)
        if found is None:
            raise TimeoutError(f"the condition was not true within {seconds_words(timeout)}{self._shown()}")
        return found

    @explained()
    def wait(self, seconds: float) -> None:
        """Lets `seconds` seconds pass on the bus."""
        check_within(seconds, "seconds")
        time.sleep(seconds)

    def expect_from_now(self) -> None:
        """Makes later expectations ignore all earlier frames and states. The pytest plugin calls this at the start of
        each test."""
        self._observing().forget()

    @explained()
    def expect(
        self,
        id: Union[int, str, None] = None,
        data: Optional[bytes] = None,
        *,
        signal: Optional[str] = None,
        above: Optional[float] = None,
        below: Optional[float] = None,
        equals: Optional[Value] = None,
        between: Optional[Sequence[float]] = None,
        within: float = 1.0,
        channel: Optional[str] = None,
        is_extended_id: Optional[bool] = None,
        is_error_frame: bool = False,
    ) -> "Message":
        """Returns the first frame with this identifier and data. The frame may have been received since the last
        expectation, or may arrive within `within` seconds.

        `id` may be the name of a message in the server's database. `signal` is the name of a signal, `EngineSpeed` or
        `Engine.EngineSpeed`. The frame must contain this signal, and its value must meet the limits `above`, `below`,
        `equals` and `between` (a range). All frames after the frame of the last expectation are checked; with a
        `channel`, only the frames that this interface received. A frame that several interfaces received counts once.
        An identifier above 7FF is a 29-bit identifier; `is_extended_id` overrides this. Raises AssertionError if no
        such frame arrives in time; the error lists the last received frames.
        """
        __tracebackhide__ = True
        wanted = self._wanted(
            id, data, signal=signal, above=above, below=below, equals=equals, between=between,
            is_extended_id=is_extended_id, is_error_frame=is_error_frame, within=within, channel=channel,
        )  # fmt: skip
        observer = self._observing()
        found = observer.find(wanted.matches, channel, within)
        if found is None:
            was = observer.said_instead(wanted, channel)
            text = f"no {wanted} within {seconds_words(within)}{was}{observer.missed(channel)}"
            hint = observer.hint(wanted, channel) or observer.came_before(wanted, channel)
            raise AssertionError(f"{text}{hint}{self._shown(wanted.signals)}")
        return found.frame.message(channel or observer.channel(found))

    @explained()
    def expect_no_frame(
        self,
        id: Union[int, str, None] = None,
        data: Optional[bytes] = None,
        *,
        signal: Optional[str] = None,
        above: Optional[float] = None,
        below: Optional[float] = None,
        equals: Optional[Value] = None,
        between: Optional[Sequence[float]] = None,
        within: float = 1.0,
        channel: Optional[str] = None,
        is_extended_id: Optional[bool] = None,
        is_error_frame: bool = False,
    ) -> None:
        """Fails if such a frame was received since the last expectation, or arrives within `within` seconds.

        Also fails if frames were lost since the last expectation, because a lost frame may be such a frame.
        """
        __tracebackhide__ = True
        wanted = self._wanted(
            id, data, signal=signal, above=above, below=below, equals=equals, between=between,
            is_extended_id=is_extended_id, is_error_frame=is_error_frame, within=within, channel=channel,
        )  # fmt: skip
        observer = self._observing()
        found = observer.find(wanted.matches, channel, within)
        if found is not None:
            shown = self._shown(wanted.signals)
            raise AssertionError(f"{wanted} was not expected: {observer.line(found, channel)}{shown}")
        missed = observer.missed(channel)
        if missed:
            raise AssertionError(f"whether there was no {wanted} is not known{missed}{self._shown(wanted.signals)}")

    def _wanted(self, id: Union[int, str, None], data: Optional[bytes], *, within: float, **more: Any) -> Wanted:
        check_within(within)
        return Wanted(id, data, database=self.database, **more)

    @explained()
    def expect_state(self, name: str, state: State, *, within: float = 1.0) -> ErrorCounters:
        """Waits until an interface is in this state. Returns immediately if it was in this state at any time since the
        last expected state.

        The states come from the error message frames that the interface received. These frames do not report `down`, so
        for this state the call polls, and the interface must still be down. Raises AssertionError if the interface does
        not reach the state within `within` seconds; the error lists its states. Returns the current error counters if
        the interface is still in this state, else the counters when it entered the state. In the latter case, the
        receive error counter at bus off is unknown and returned as 0.
        """
        __tracebackhide__ = True
        if state not in STATES:
            raise ValueError(f"state is one of {', '.join(STATES)}, not {state!r}")
        check_within(within)
        observer = self._observing()
        if state == "down":
            found = self._wait(lambda: observer.came_into(name, state), within)
        else:
            found = observer.find_state(name, state, within)
        now = self.error_counters(name)
        if found is None:
            was = observer.states_since(name)
            since = f": it was {', then '.join(was)}" if was else ""
            text = f"{in_words(name, now)}, and was not {state} within {seconds_words(within)}{since}"
            raise AssertionError(f"{text}{self._shown()}")
        return now if now.state == state else found.counters


class Drive:
    """Destroys the frames of an interface until it is bus off, and no frames after that."""

    def __init__(self, bus: "Watching", name: str, inject: Callable[[Faults, str], None]) -> None:
        self._bus, self._name, self._inject = bus, name, inject
        self._counters, self._stats = bus.error_counters(), bus.stats()
        # At the last injection of a rule: how many other rules there were, and how many frames the interface had sent.
        # None before the first injection.
        self._injected: Optional[tuple[int, int]] = None

    def off(self) -> Optional[ErrorCounters]:
        """Returns the error counters of the interface if it is bus off, or was bus off and has restarted automatically;
        otherwise None."""
        left = self._bus.rules_left()
        counters, stats = self._bus.error_counters(), self._bus.stats()
        if counters.state == "off":
            return counters
        if stats.lost > self._stats.lost and counters.state != "down":
            # The interface went bus off after `counters` were read.
            return self._bus.error_counters()
        if self._injected is None or (left <= self._injected[0] and stats.done > self._injected[1]):
            # Injects the first rule. Injects another rule if frames that were not destroyed have lowered the error
            # count.
            missing = -(-(OFF - counters.tec) // DESTROYED)
            self._inject(Faults().next(missing, sender=self._name).destroyed(), self._name)
            self._injected = left, stats.done
        return None

    def failure(self, timeout: float) -> str:
        """Returns an error message that says why the interface is not bus off after `timeout` seconds."""
        counters, stats = self._bus.error_counters(), self._bus.stats()
        now, left = in_words(self._name, counters), self._bus.rules_left()
        is_kept = left and not self._is_only(left)
        others = "; end_rules() ends what is left of its rule, with the bus's others" if is_kept else ""
        return f"{now}, and did not go bus off within {seconds_words(timeout)}: {self._reason(counters, stats)}{others}"

    def end_rule(self) -> None:
        """Ends the injected rule if it is the only rule of the bus, because the rules of a bus can only be ended
        together."""
        if self._is_only(self._bus.rules_left()):
            self._bus.end_rules()

    def _is_only(self, left: int) -> bool:
        """Returns whether the injected rule is the only rule of the bus. `left` is how many rules the bus has."""
        return left == 1 and self._injected is not None and self._injected[0] == 0

    def _reason(self, counters: ErrorCounters, stats: Stats) -> str:
        if counters.state == "down":
            return f"it sends nothing while it is down; up({self._name!r}) brings it up"
        if counters.tec > self._counters.tec:
            return "fewer frames of it were tried than that takes"
        if stats.done > self._stats.done:
            return "its frames went through, by an earlier rule or a line of the script"
        return "its frames wait, and none was tried" if stats.waiting else "it sent nothing in that time"
