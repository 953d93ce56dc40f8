"""The actions of the live page: it sends frames, adds and ends fault rules, and takes interfaces down and up.

Each action returns a line of Python that does the same. A cyclic frame is sent only while the page that requested it is
open.
"""

import contextlib
import json
import re
import secrets
import threading
import time
from collections.abc import Callable, Iterator, Sequence
from typing import Any, Optional

import canbusd._python_can  # noqa: F401  it says what is missing, so it comes first

from can.exceptions import CanError

from canbusd._session.protocol import NO_FRAMES
from canbusd.bus import CanbusdBus
from canbusd.frames import Frame, command_of
from canbusd.rules import parse_rule
from canbusd.signals import Database

#: The maximum number of cyclic frames at a time, and the shortest and the longest period in seconds.
MOST_CYCLES, LEAST_PERIOD, MOST_PERIOD = 64, 0.001, 3600.0
# Matches a signal value that is also a valid number literal in Python.
NUMBER = re.compile(r"-?(?:0|[1-9][0-9]*)(?:\.[0-9]+)?")

Json = dict[str, Any]


class Cycle:
    """A frame that is sent periodically until it is stopped."""

    def __init__(self, bus: CanbusdBus, frame: Frame, period: float, text: str) -> None:
        self.bus, self.period, self.text = bus, period, text
        #: The reason why the last send was refused, or the empty string if it succeeded.
        self.fault = ""
        self._frame, self._has_ended = frame, threading.Event()
        self._thread = threading.Thread(target=self._run, name="canbusd cycle", daemon=True)
        self._thread.start()

    def stop(self) -> None:
        """Stops sending. After this call returns, the frame is not sent again."""
        self._has_ended.set()
        self._thread.join()

    def _run(self) -> None:
        due = time.monotonic()
        while not self._has_ended.wait(max(0.0, due - time.monotonic())):
            try:
                self.bus.send(self._frame)
                self.fault = ""
            except CanError as fault:
                self.fault = words_of(fault)
            # After a delay, the frames that were missed are skipped.
            due = max(due + self.period, time.monotonic())


class Acts:
    """The actions that pages may request for these interfaces of a server."""

    def __init__(self, names: Sequence[str], address: Optional[str], database: Optional[Database] = None) -> None:
        self._names, self._address, self._database = names, address, database
        self._lock = threading.Lock()
        # The sessions that were opened so far, by the name of their interface.
        self._buses: dict[str, CanbusdBus] = {}
        # For each open page, its cyclic frames by their numbers.
        self._cycles: dict[str, dict[int, Cycle]] = {}
        self._number = 0
        #: Maps the name that a page uses for an action to the action.
        self.by_name: dict[str, Callable[[Json], str]] = {
            "send": self._send,
            "cycle": self._cycle,
            "stop": self._stop,
            "rule": self._rule,
            "end": self._end,
            "down": self._down,
            "up": self._up,
            "restart": self._restart,
        }

    def do(self, name: str, asked: Json) -> Json:
        """Performs this action. Returns a line of Python that does the same, or the reason why the action was refused."""
        try:
            return {"python": self.by_name[name](asked)}
        except (CanError, ValueError) as fault:
            return {"fault": words_of(fault)}

    @contextlib.contextmanager
    def page(self) -> Iterator[Callable[[], Json]]:
        """Registers an open page, and yields a function that returns the page's identifier and cyclic frames. On exit,
        the page's cyclic frames are stopped."""
        page = secrets.token_urlsafe(8)
        with self._lock:
            self._cycles[page] = {}
        try:
            yield lambda: {"page": page, "cycles": self._shown(page)}
        finally:
            with self._lock:
                cycles = self._cycles.pop(page)
            for cycle in cycles.values():
                cycle.stop()

    def _shown(self, page: str) -> list[list[Any]]:
        """Returns the number, the interface, the frame, the period in seconds and the reason for a refusal of each
        cyclic frame of a page."""
        with self._lock:
            cycles = list(self._cycles[page].items())
        return [[number, one.bus.channel, one.text, one.period, one.fault] for number, one in cycles]

    def messages(self) -> list[list[Any]]:
        """Returns the messages in the database files: the name, the cycle time in seconds, and the signals. Each signal
        has a name, a unit, a start value and the names of its values."""
        found = self._database.messages if self._database is not None else []
        return [
            [one.name, one.cycle_time, [[of.name, of.unit, of.start, [*of.choices.values()]] for of in one.signals]]
            for one in found
        ]

    def _send(self, asked: Json) -> str:
        frame, words = self._frame(asked)
        bus = self._bus(asked)
        bus.send(frame)
        return on_bus(f"bus.send({words})", bus, frame.is_fd)

    def _cycle(self, asked: Json) -> str:
        frame, words = self._frame(asked)
        bus, period, page = self._bus(asked), period_of(asked), text_of(asked, "page")
        with self._lock:
            if page not in self._cycles:
                raise ValueError("the page has lost its connection, with which cyclic frames end")
            if sum(map(len, self._cycles.values())) >= MOST_CYCLES:
                raise ValueError(f"{MOST_CYCLES} frames are sent cyclically already")
            self._number += 1
            text = f"{asked['message']} {frame}" if "message" in asked else f"{frame}"
            self._cycles[page][self._number] = Cycle(bus, frame, period, text)
        return on_bus(f"task = bus.send_periodic({words}, {period:g})", bus, frame.is_fd)

    def _stop(self, asked: Json) -> str:
        page, number = text_of(asked, "page"), asked.get("cycle")
        with self._lock:
            cycle = self._cycles.get(page, {}).pop(number, None) if isinstance(number, int) else None
        if cycle is None:
            raise ValueError("it has ended already")
        cycle.stop()
        return "task.stop()"

    def _rule(self, asked: Json) -> str:
        rule, bus = parse_rule(text_of(asked, "rule").strip()), self._bus(asked)
        # The line feed marks this argument as a script and not as a path.
        bus.inject(f"{rule}\n")
        return f"server.inject({quoted(str(rule))}, {quoted(bus.channel)})"

    def _end(self, asked: Json) -> str:
        bus = self._bus(asked)
        bus.end_rules()
        return f"server.end_rules({quoted(bus.channel)})"

    def _down(self, asked: Json) -> str:
        bus = self._bus(asked)
        bus.down()
        return f"server.down({quoted(bus.channel)})"

    def _up(self, asked: Json) -> str:
        bus = self._bus(asked)
        bus.up()
        return f"server.up({quoted(bus.channel)})"

    def _restart(self, asked: Json) -> str:
        bus = self._bus(asked)
        bus.restart()
        return on_bus("bus.restart()", bus)

    def _bus(self, asked: Json) -> CanbusdBus:
        """Returns a session on the requested interface."""
        name = text_of(asked, "node")
        if name not in self._names:
            raise ValueError(f"node is one of {', '.join(self._names)}, not {name!r}")
        with self._lock:
            if name not in self._buses:
                self._buses[name] = CanbusdBus(name, NO_FRAMES, address=self._address, fd=True, error_frames=False)
            return self._buses[name]

    def _frame(self, asked: Json) -> tuple[Frame, str]:
        """Returns the requested frame, which is given as a string or by signal values, and the Python expression for
        it."""
        if "message" not in asked:
            frame = Frame.parse(text_of(asked, "frame"))
            # This call raises an error if no interface can send the frame.
            command_of(frame)
            return frame, message_words(frame)
        name, values = text_of(asked, "message"), asked.get("signals")
        if self._database is None:
            raise ValueError("the names of signals need --dbc FILE")
        if not isinstance(values, dict) or not all(isinstance(value, str) for value in values.values()):
            raise ValueError("signals are an object of texts")
        given = ", ".join(f"{quoted(one)}: {value_words(value)}" for one, value in values.items())
        return self._database.encode(name, values), f"database.encode({quoted(name)}, {{{given}}})"


def text_of(asked: Json, name: str) -> str:
    """Returns the string with this name in a request."""
    found = asked.get(name)
    if not isinstance(found, str):
        raise ValueError(f"{name} is a text, not {found!r}")
    return found


def period_of(asked: Json) -> float:
    """Returns the requested period in seconds."""
    found = asked.get("period")
    if not isinstance(found, (int, float)) or not LEAST_PERIOD <= found <= MOST_PERIOD:
        raise ValueError(f"a period is from {1000 * LEAST_PERIOD:g} to {1000 * MOST_PERIOD:g} ms")
    return found


def words_of(fault: Exception) -> str:
    """Returns the message of an exception without the error code that python-can appends."""
    return str(fault).partition(" [Error Code ")[0]


def quoted(text: str) -> str:
    """Returns a Python literal for this string."""
    return json.dumps(text, ensure_ascii=False)


def value_words(text: str) -> str:
    """Returns the value of a signal as a Python literal: a number, or the name of a value."""
    return text if NUMBER.fullmatch(text) else quoted(text)


def on_bus(line: str, bus: CanbusdBus, is_fd: bool = False) -> str:
    """Returns a line of Python, followed by a comment that defines `bus`."""
    return f"{line}  # bus = server.bus({quoted(bus.channel)}{', fd=True' if is_fd else ''})"


def message_words(frame: Frame) -> str:
    """Returns the Python expression that creates this frame as a python-can message."""
    words = [f"arbitration_id=0x{frame.arbitration_id:X}"]
    words += [f'data=bytes.fromhex("{frame.data.hex(" ").upper()}")'] if frame.data else []
    words += [f"dlc={frame.dlc}"] if frame.is_remote_frame else []
    words += [] if frame.is_extended_id else ["is_extended_id=False"]
    flags = ("is_remote_frame", "is_fd", "bitrate_switch", "error_state_indicator")
    words += [f"{name}=True" for name in flags if getattr(frame, name)]
    return f"can.Message({', '.join(words)})"
