"""The rest bus: it simulates all nodes of a database except those under test. Each node sends its messages at their
cycle times.

    with server.rest_bus("car.dbc", without=["ECU"], nodes={"Engine": "can0", "Gateway": "can1"}) as rest:
        rest["Engine"]["EngineSpeed"] = 3000
        rest.stop("Gateway")

The rest bus of a server sends from its own thread. The rest bus of a bench sends during `run`.
"""

import contextlib
import functools
import os
import threading
from collections.abc import Callable, Iterable, Iterator, Mapping, Sequence
from numbers import Real
from types import TracebackType
from typing import NamedTuple, Optional, TypeVar, Union

from canbusd._calls import NamesWhatThereIs, close_at_exit, explained
from canbusd._database.formats import DatabaseError, MessageFormat, Value
from canbusd._restbus.nodes import has, is_sendable, phases_of, sender
from canbusd._restbus.schedule import MICROS, Schedule, micros
from canbusd._protected import profile_of
from canbusd._session.protocol import PASSING as PASSING
from canbusd.e2e import Profile, Protection
from canbusd.frames import Frame
from canbusd.shapes import Shape
from canbusd.signals import Database, frame_of

Self = TypeVar("Self", bound="RestBus")

# The order of calls that are due at the same time: signal values are set before frames are sent.
VALUES, FRAMES = -1, 0


class Counts(NamedTuple):
    """How many frames of one or more messages were accepted, refused and skipped."""

    #: Frames that the server or bench accepted into a transmit queue.
    accepted: int = 0
    #: Frames that the server or bench refused because the queue was full, or the interface was bus off or down.
    refused: int = 0
    #: Frames that were skipped because this process was at least one cycle late.
    skipped: int = 0

    def plus(self, other: "Counts") -> "Counts":
        """Returns the sums of these counts and other counts."""
        return Counts(*(one + its for one, its in zip(self, other)))


class Outgoing:
    """A message that is about to be sent. It is passed to the function that was set with `on_send`. Changes apply only
    to the next frame."""

    def __init__(self, message: MessageFormat, values: Mapping[str, Value], count: int) -> None:
        self._message, self._values = message, dict(values)
        self._data: Optional[bytes] = None
        #: The name of the message.
        self.name = message.name
        #: How many frames of this message were sent before, without refused frames.
        self.count = count

    def __getitem__(self, signal: str) -> Value:
        return self._values.get(signal, self._message.signal(signal).start)

    def __setitem__(self, signal: str, value: Value) -> None:
        self._message.signal(signal).raw_of(value)
        self._values[signal] = value
        self._data = None

    @property
    def data(self) -> bytes:
        """The current bytes of the message. If they are set, they override all signals until a signal is set again."""
        return self._message.encode(self._values, is_strict=False) if self._data is None else self._data

    @data.setter
    def data(self, data: bytes) -> None:
        self._data = bytes(data)


def checked_row(row: object) -> tuple[int, Value]:
    """Returns a row of a table as a time in microseconds and a value. Raises ValueError if the row is not a pair of
    seconds and a value."""
    if not isinstance(row, (tuple, list)) or len(row) != 2 or not isinstance(row[0], Real) or row[0] < 0:
        raise ValueError(f"a table has pairs of seconds and values, such as [(0.0, 800), (1.5, 3000)], not {row!r}")
    return micros(float(row[0])), row[1]


def checked_rows(table: object) -> list[tuple[int, Value]]:
    """Returns the rows of a table, sorted by time."""
    rows = list(table) if isinstance(table, Iterable) and not isinstance(table, (str, Mapping)) else [table]
    return sorted(map(checked_row, rows), key=lambda row: row[0])


class Playing:
    """The shape that a signal follows, and the time in microseconds at which it began."""

    def __init__(self, shape: Shape, since: int) -> None:
        self._shape, self._since, self._number = shape, since, -1

    def value(self, moment: int) -> Value:
        """Returns the value for the next frame, which is sent at time `moment`."""
        self._number += 1
        return self._shape.at((moment - self._since) / MICROS, self._number)


class RestMessage(NamesWhatThereIs):
    """A message that a rest bus sends."""

    # Without slots, a mistake such as `message.EngineSpeed = 800` would create a new attribute.
    __slots__ = (
        "_accepted", "_cycle", "_frame", "_function", "_phase", "_protection", "_refused", "_rest", "_run", "_shapes",
        "_skipped", "_tables", "_tick", "_values", "format", "interface", "is_running",
    )  # fmt: skip
    _INSTEAD = {"*": "a signal is message['EngineSpeed'], and what the file says is in message.format"}

    def __init__(self, rest: "RestBus", message: MessageFormat, interface: str, phase: int) -> None:
        self._rest, self._phase = rest, phase
        self._cycle = micros(message.cycle_time) if message.is_cyclic else 0
        self._values: dict[str, Value] = {}
        self._frame = frame_of(message, message.encode({}))
        self._function: Optional[Callable[[Outgoing], None]] = None
        self._protection: Optional[Protection] = None
        self._tick: Callable[[int], None] = functools.partial(self._send_due, 0)
        # `_run` is incremented by `stop`, so that calls scheduled before are ignored. `_tables` has the number of each
        # signal's current table.
        self._run, self._tables = 0, dict[str, int]()
        # The shapes that signals follow, with the time at which each began, by signal name.
        self._shapes: dict[str, Playing] = {}
        self._accepted = self._refused = self._skipped = 0
        #: The format of the message in the database.
        self.format = message
        #: The interface that sends the message.
        self.interface = interface
        #: Whether the message is being sent at its cycle time.
        self.is_running = False

    @property
    def counts(self) -> Counts:
        """How many frames of this message were accepted, refused and skipped."""
        return Counts(self._accepted, self._refused, self._skipped)

    def __getitem__(self, signal: str) -> Value:
        return self._values.get(signal, self.format.signal(signal).start)

    def __setitem__(self, signal: str, value: Value) -> None:
        self.set({signal: value})

    @explained("values are a dict, such as {'EngineSpeed': 800}")
    def set(self, values: Mapping[str, Value]) -> None:
        """Sets signal values, which apply from the next frame. Raises DatabaseError if a value is invalid; in this
        case, no signal is set."""
        if not isinstance(values, Mapping):
            raise ValueError(f"values are a dict of signals, such as {{'EngineSpeed': 800}}, not {values!r}")
        with self._rest.changing():
            wanted = {**self._values, **values}
            self._frame = frame_of(self.format, self.format.encode(wanted, is_strict=False))
            self._values = wanted
            for signal in values:
                self._shapes.pop(signal, None)

    def play(self, signal: str, table: Union[Shape, Iterable[tuple[float, Value]]]) -> None:
        """Makes a signal follow a shape of canbusd.shapes or a table, starting now. A table contains times in seconds
        from now and values. Each value applies from its time until the time of the next value. The shape or table that
        the signal followed before is ended.
        """
        if isinstance(table, Shape):
            self._play_shape(signal, table)
            return
        rows = checked_rows(table)
        for _, value in rows:
            self._check(signal, value)
        with self._rest.changing() as schedule:
            run = self._tables[signal] = self._tables.get(signal, 0) + 1
            self._shapes.pop(signal, None)
            now = self._rest.now()
            for moment, value in rows:
                schedule.add(now + moment, VALUES, functools.partial(self._turn_to, signal, run, value))

    def _play_shape(self, signal: str, given: Shape) -> None:
        shape = given.of(self.format.signal(signal))
        for value in shape.ends:
            self._check(signal, value)
        with self._rest.changing():
            # The new number makes the signal's earlier table ineffective.
            self._tables[signal] = self._tables.get(signal, 0) + 1
            self._shapes[signal] = Playing(shape, self._rest.now())

    def on_send(self, function: Optional[Callable[[Outgoing], None]]) -> None:
        """Sets a function that is called before each frame, for example to set counters and checksums."""
        if function is not None and not callable(function):
            raise ValueError(f"a function is called before each frame, or None ends that, not {function!r}")
        with self._rest.changing():
            self._function = function

    def protect(self, profile: Optional[Profile] = None) -> Protection:
        """Adds the counter and the checksum of a canbusd.e2e profile to each frame, after the function set with
        `on_send` was called. By default, the profile is defined by the attributes of the message in the database."""
        protection = Protection(profile_of(profile, self.format))
        with self._rest.changing():
            self._protection = protection
        return protection

    def send(self, values: Optional[Mapping[str, Value]] = None) -> None:
        """Sets these values, and sends one frame immediately. The values remain set. Raises an error if the bus refuses
        the frame."""
        with self._rest.changing():
            if values:
                self.set(values)
            self._rest.send_now(self, self._next(self._rest.now()))

    def start(self) -> None:
        """Starts sending the message at its cycle time, with an initial delay of its phase. Does nothing if the message
        has no cycle time or is already being sent."""
        with self._rest.changing() as schedule:
            if self._cycle and not self.is_running:
                self.is_running = True
                call = self._tick = functools.partial(self._send_due, self._run)
                schedule.add(self._rest.now() + self._phase, self.format.identifier, call)

    def stop(self) -> None:
        """Stops sending the message at its cycle time. Frames that are already in a transmit queue are still sent."""
        with self._rest.changing():
            self.is_running = False
            self._run += 1

    def count(self, answer: str) -> None:
        """Counts a frame. `answer` is the empty string if the frame was accepted, otherwise the reason why it was
        refused."""
        if answer:
            self._refused += 1
        else:
            self._accepted += 1

    def _check(self, signal: str, value: Value) -> None:
        """Raises DatabaseError if the signal can't have this value."""
        self.format.encode({**self._values, signal: value}, is_strict=False)

    def _turn_to(self, signal: str, run: int, value: Value, _: int) -> None:
        if self._tables[signal] == run:
            self.set({signal: value})

    def _send_due(self, run: int, due: int) -> None:
        """Sends the frame that is due, and schedules the next frame one cycle later."""
        if run != self._run:
            return
        missed = max(0, self._rest.now() - due) // self._cycle
        self._skipped += missed
        self._rest.repeat(due + (missed + 1) * self._cycle, self.format.identifier, self._tick)
        self._rest.collect(self, self._next(due + missed * self._cycle))

    def _next(self, moment: int) -> Frame:
        """Returns the next frame, which is sent at time `moment`."""
        if self._shapes:
            self._values = {**self._values, **{name: one.value(moment) for name, one in self._shapes.items()}}
            self._frame = frame_of(self.format, self.format.encode(self._values, is_strict=False))
        frame = self._frame
        if self._function is not None:
            outgoing = Outgoing(self.format, self._values, self._accepted)
            self._function(outgoing)
            frame = frame_of(self.format, outgoing.data)
        if self._protection is not None:
            frame = frame_of(self.format, self._protection.applied(frame.data[: self.format.size]))
        return frame


class RestNode(NamesWhatThereIs):
    """A node that a rest bus simulates. If several messages have a signal with the same name, write the signal as
    `EngineData.Counter`."""

    __slots__ = ("messages", "name")
    _INSTEAD = {"*": "a signal is node['EngineSpeed']"}

    def __init__(self, name: str, messages: Sequence[RestMessage]) -> None:
        self.name, self.messages = name, messages

    def __getitem__(self, signal: str) -> Value:
        message, name = self._find(signal)
        return message[name]

    def __setitem__(self, signal: str, value: Value) -> None:
        message, name = self._find(signal)
        message[name] = value

    def play(self, signal: str, table: Union[Shape, Iterable[tuple[float, Value]]]) -> None:
        """Makes a signal follow a shape of canbusd.shapes, such as ``shapes.ramp(800, 3000, seconds=2)``, or a table,
        starting now. A table contains times in seconds from now and values. Each value applies from its time until the
        time of the next value."""
        message, name = self._find(signal)
        message.play(name, table)

    def start(self) -> None:
        """Starts sending the node's messages at their cycle times."""
        for message in self.messages:
            message.start()

    def stop(self) -> None:
        """Stops sending the node's messages at their cycle times."""
        for message in self.messages:
            message.stop()

    def _find(self, signal: str) -> tuple[RestMessage, str]:
        """Returns the node's message that contains this signal, and the name of the signal without the name of the
        message."""
        title, _, name = signal.rpartition(".")
        found = [
            message for message in self.messages if title in ("", message.format.name) and has(message.format, name)
        ]
        if len(found) == 1:
            return found[0], name
        names = [f"{message.format.name}.{one.name}" for message in self.messages for one in message.format.signals]
        if found:
            which = " or ".join(f"{message.format.name}.{name}" for message in found)
            raise DatabaseError(f"{self.name} sends {name} in several messages: {which}", signal=name)
        raise DatabaseError(f"{self.name} sends no {signal}; it sends {', '.join(names) or 'nothing'}", signal=name)


class RestBus(NamesWhatThereIs):
    """The base class of rest buses. It contains the nodes and messages by name, the signal values, and the schedule of
    calls."""

    _INSTEAD = {
        **dict.fromkeys(("set", "get"), "a signal is rest['Engine']['EngineSpeed']"),
        "run": "that of a server sends in its with block by itself, only that of a bench has run",
        "*": "a node is rest['Engine'], a message rest.message('EngineData')",
    }

    def __init__(self, database: Database, interfaces: Mapping[str, str]) -> None:
        self._lock = threading.RLock()
        self._is_closed = False
        self._schedule = Schedule()
        self._collected: list[tuple[RestMessage, Frame]] = []
        self._by_name: dict[str, RestMessage] = {}
        senders = [message for message in database.messages if sender(message) in interfaces and is_sendable(message)]
        for message, phase in zip(senders, phases_of(senders)):
            self._by_name[message.name] = RestMessage(self, message, interfaces[sender(message)], phase)
        self._nodes = {name: RestNode(name, self._of(name)) for name in interfaces}
        self._database = database

    @property
    def nodes(self) -> list[RestNode]:
        """The nodes that the rest bus simulates."""
        return list(self._nodes.values())

    @property
    def messages(self) -> list[RestMessage]:
        """The messages that these nodes send."""
        return list(self._by_name.values())

    def __getitem__(self, node: str) -> RestNode:
        if node not in self._nodes:
            raise DatabaseError(f"no node {node} in the rest bus; there are {', '.join(self._nodes) or 'none'}")
        return self._nodes[node]

    def message(self, name: str) -> RestMessage:
        """Returns the message with this name; raises DatabaseError if no node of the rest bus sends it."""
        if name not in self._by_name:
            known = ", ".join(self._by_name) or "none"
            raise DatabaseError(f"no message {name} in the rest bus; there are {known}", message=name)
        return self._by_name[name]

    def on_send(self, message: str, function: Optional[Callable[[Outgoing], None]]) -> None:
        """Sets a function that is called before each frame of a message: `def f(message): message["Counter"] =
        message.count % 16`.

        The function runs in the thread that sends, usually the rest bus's own thread. It should return quickly.
        """
        self.message(message).on_send(function)

    @explained()
    def protect(self, message: str, profile: Optional[Profile] = None) -> Protection:
        """Adds the counter and the checksum of an end-to-end profile to each frame of a message:
        ``rest.protect("EngineData", e2e.Profile1(data_id=0x123))``. By default, the profile is defined by the
        attributes of the message in the database. Call `inject` of the returned Protection to send wrong counters and
        checksums."""
        return self.message(message).protect(profile)

    @explained("values are a dict, such as {'EngineSpeed': 800}")
    def send(self, message: str, values: Optional[Mapping[str, Value]] = None) -> None:
        """Sets these values, and sends one frame of a message immediately, as an event would. The values remain set."""
        self.message(message).send(values)

    def start(self, name: Optional[str] = None) -> None:
        """Starts the node with this name, or the message with this name if there is no such node. By default, starts
        all nodes."""
        for one in self._named(name):
            one.start()

    def stop(self, name: Optional[str] = None) -> None:
        """Stops the node with this name, or the message with this name if there is no such node. By default, stops all
        nodes. Signals keep their values, and `send` still works."""
        for one in self._named(name):
            one.stop()

    def _silence(self, interface: str) -> list[RestMessage]:
        """Stops the messages that an interface sends. Returns those that were being sent at their cycle times, or an
        empty list if the rest bus has ended."""
        with self._lock:
            ceased = [one for one in self.messages if one.interface == interface and one.is_running]
            if self._is_closed:
                return []
            for one in ceased:
                one.stop()
            return ceased

    def _resume(self, messages: Sequence[RestMessage]) -> None:
        """Starts these messages, unless the rest bus has ended."""
        with self._lock:
            for one in () if self._is_closed else messages:
                one.start()

    def counts(self, message: Optional[str] = None) -> Counts:
        """Returns how many frames were accepted, refused and skipped, for one message or for all messages together."""
        chosen = self.messages if message is None else [self.message(message)]
        return functools.reduce(Counts.plus, (one.counts for one in chosen), Counts())

    def replay(self, path: Union[str, "os.PathLike[str]"]) -> float:
        """Sends the frames of a log that belong to messages of the rest bus, with the same timing as in the log.

        Each frame is sent on the interface of its sender. These messages are no longer sent at their cycle times.
        Returns the duration in seconds. Raises ValueError if the log contains no frame of these messages.
        """
        from canbusd._run.logs import read_entries

        rows: list[tuple[int, RestMessage, Frame]] = []
        for _, frame in read_entries(path):
            known = self._database.message_of(frame)
            message = self._by_name.get(known.name) if known else None
            if message is not None:
                rows.append((micros(frame.timestamp), message, frame))
        if not rows:
            raise ValueError(f"{os.fspath(path)}: no frame of it is one of the rest bus")
        start = min(moment for moment, _, _ in rows)
        with self.changing() as schedule:
            now = self.now()
            for moment, message, frame in rows:
                message.stop()
                call = functools.partial(self._repeat, message, frame)
                schedule.add(now + moment - start, message.format.identifier, call)
        return max(moment - start for moment, _, _ in rows) / MICROS

    def close(self) -> None:
        """Ends the rest bus. It sends no more frames."""
        raise NotImplementedError

    def __enter__(self: Self) -> Self:
        self.start()
        return self

    def __exit__(
        self, kind: Optional[type[BaseException]], fault: Optional[BaseException], _: Optional[TracebackType]
    ) -> None:
        close_at_exit(self.close, kind)

    def check(self) -> None:
        """Raises the error that ended the rest bus, if there was one, such as an exception from a function that was set
        with `on_send`."""

    # Methods that the messages call.

    def now(self) -> int:
        """Returns the current time in microseconds."""
        raise NotImplementedError

    @contextlib.contextmanager
    def changing(self) -> Iterator[Schedule]:
        """A context manager for changes to what is sent. It yields the schedule. Raises ValueError if the rest bus has
        ended."""
        with self._lock:
            self.check()
            if self._is_closed:
                raise ValueError("the rest bus has ended")
            yield self._schedule
            self._changed()

    def send_now(self, message: RestMessage, frame: Frame) -> None:
        """Sends a frame outside its cycle. Raises an error if the bus refuses the frame."""
        raise NotImplementedError

    def repeat(self, due: int, order: int, call: Callable[[int], None]) -> None:
        """Schedules the next call of the function that is running. The scheduling thread is awake, so it does not have
        to be woken."""
        self._schedule.add(due, order, call)

    def collect(self, message: RestMessage, frame: Frame) -> None:
        """Collects a frame that is due, so that all frames with the same due time are sent together."""
        self._collected.append((message, frame))

    def _changed(self) -> None:
        """Called after a change of the schedule, because a call may now be due earlier than before."""

    def _due(self, now: int) -> list[tuple[RestMessage, Frame]]:
        """Makes the calls that are due, and returns the frames that they have collected."""
        for due, call in self._schedule.take(now):
            call(due)
        collected, self._collected = self._collected, []
        return collected

    def _repeat(self, message: RestMessage, frame: Frame, _: int) -> None:
        self.collect(message, frame)

    def _of(self, node: str) -> list[RestMessage]:
        return [message for message in self._by_name.values() if sender(message.format) == node]

    def _named(self, name: Optional[str]) -> Sequence[Union[RestNode, RestMessage]]:
        if name is None:
            return self.nodes
        return [self._nodes[name] if name in self._nodes else self.message(name)]
