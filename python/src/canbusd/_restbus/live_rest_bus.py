"""The rest bus of a server. One thread sends all frames that are due."""

import logging
import threading
import time
from collections.abc import Callable, Mapping
from typing import Optional

from can.exceptions import CanError

from canbusd._restbus.punctuality import PUNCTUALITY
from canbusd._restbus.schedule import MICROS
from canbusd._session.protocol import NO_FRAMES, PASSING
from canbusd._session.raw_session import refusal
from canbusd.bus import CanbusdBus
from canbusd.frames import Frame, command_of
from canbusd.rest_bus import RestBus, RestMessage
from canbusd.signals import Database
from canbusd.virtual import is_virtual

LOG = logging.getLogger("can.canbusd")
#: How many seconds callbacks of on_send may take to return after the rest bus was closed.
END = 10.0


class LiveRestBus(RestBus):
    """A rest bus that sends its frames to a server.

    `opened` opens a python-can bus on an interface. `is_over` returns whether the test has ended the server. If it has,
    a lost connection is not an error.
    """

    def __init__(
        self,
        database: Database,
        interfaces: Mapping[str, str],
        opened: Callable[..., CanbusdBus],
        is_over: Callable[[], bool] = lambda: False,
    ) -> None:
        super().__init__(database, interfaces)
        self._news = threading.Condition(self._lock)
        self._is_over = is_over
        self._fault: Optional[BaseException] = None
        self._silent: set[str] = set()
        # Frames are never late in virtual time.
        self._needs_punctuality = not is_virtual()
        self._is_punctual = False
        has_fd = any(message.format.is_fd for message in self.messages)
        self._buses: dict[str, CanbusdBus] = {}
        try:
            for name in dict.fromkeys(interfaces.values()):
                self._buses[name] = opened(name, can_filters=NO_FRAMES, error_frames=False, fd=has_fd)
        except BaseException:
            self._shut()
            raise
        self._thread = threading.Thread(target=self._work, name="canbusd rest bus", daemon=True)

    def start(self, name: Optional[str] = None) -> None:
        """Starts a node or a message. If no name is given, starts all nodes."""
        with self._lock:
            super().start(name)
            if not self._thread.ident:
                if self._needs_punctuality:
                    PUNCTUALITY.begin()
                    self._is_punctual = True
                self._thread.start()

    def close(self) -> None:
        """Ends the thread and the sessions. If an exception has ended the thread, raises this exception."""
        with self._news:
            self._is_closed = True
            self._news.notify()
            was_punctual, self._is_punctual = self._is_punctual, False
        if was_punctual:
            PUNCTUALITY.end()
        if self._thread.is_alive() and self._thread is not threading.current_thread():
            self._thread.join(END)
        self._shut()
        fault, self._fault = self._fault, None
        if fault is not None and not (isinstance(fault, CanError) and self._is_over()):
            raise fault

    def check(self) -> None:
        if self._fault is not None:
            raise self._fault

    def now(self) -> int:
        return time.monotonic_ns() // 1000

    def send_now(self, message: RestMessage, frame: Frame) -> None:
        answer = self._buses[message.interface]._session.answer(command_of(frame))
        message.count(answer)
        if answer:
            raise refusal(answer)

    def _changed(self) -> None:
        self._news.notify()

    def _work(self) -> None:
        try:
            with self._news:
                while not self._is_closed:
                    first, now = self._schedule.first(), self.now()
                    if first is None or first > now:
                        self._news.wait(None if first is None else (first - now) / MICROS)
                    else:
                        self._put(self._due(now))
        except BaseException as fault:
            self._fault = fault

    def _put(self, frames: list[tuple[RestMessage, Frame]]) -> None:
        """Sends these frames. All frames from an interface are sent in one write."""
        for name, bus in self._buses.items():
            its = [(message, frame) for message, frame in frames if message.interface == name]
            if its:
                for (message, _), answer in zip(its, bus._session.answers([command_of(frame) for _, frame in its])):
                    self._note(message, answer)

    def _note(self, message: RestMessage, answer: str) -> None:
        """Counts a frame as sent or refused. If several frames of a message in a row are refused, only the first
        refusal is logged."""
        if answer and answer not in PASSING:
            raise refusal(answer)
        message.count(answer)
        name = message.format.name
        if answer and name not in self._silent:
            LOG.warning("rest bus: %s is not sent by %s: %s", name, message.interface, answer)
        (self._silent.add if answer else self._silent.discard)(name)

    def _shut(self) -> None:
        for bus in self._buses.values():
            bus.shutdown()
