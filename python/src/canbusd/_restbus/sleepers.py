"""The nodes of a bench or a server that sleep until a frame wakes them up."""

import logging
import threading
from collections.abc import Callable, Sequence
from typing import NamedTuple, Optional

from canbusd._restbus.wake_up import WakeUp
from canbusd._session.address import reason_of
from canbusd._session.connection import SessionRefused
from canbusd._session.injection import TIMEOUT
from canbusd._session.protocol import NO_FRAMES, filter_message
from canbusd._session.raw_session import RawSession, fault
from canbusd.frames import Frame, frame_of
from canbusd.record import Attempt

LOG = logging.getLogger("can.canbusd")
#: Wakes a node up. The argument is a function that brings up the interface with a given name.
Wake = Callable[[Callable[[str], None]], None]


class Sleeper(NamedTuple):
    """A sleeping node. The function `wake` wakes it up."""

    wake_up: WakeUp
    wake: Wake
    #: How many frames the session on each interface had received when the node fell asleep.
    before: dict[str, int]


class Sleepers:
    """The sleeping nodes of a bench. The bench passes each attempt to `note`.

    A thread holds `lock` while a node falls asleep or wakes up.
    """

    def __init__(self, lock: "threading.RLock", up: Callable[[str], None]) -> None:
        self.lock, self._up = lock, up
        # The sleeping nodes, by the names of their interfaces.
        self._asleep: dict[str, Sleeper] = {}

    def __len__(self) -> int:
        return len(self._asleep)

    def add(self, name: str, wake_up: WakeUp, wake: Wake) -> None:
        """Adds a sleeping node. Its interface is already down."""
        self._asleep[name] = Sleeper(wake_up, wake, {})

    def remove(self, name: str) -> None:
        """Removes the node with this interface if it is asleep."""
        self._asleep.pop(name, None)

    def are_woken_by(self, attempt: Attempt) -> bool:
        """Returns whether the frame of this attempt wakes a node up. The frame must have been received completely by
        some node."""
        is_whole = attempt.outcome == "done" or bool(attempt.accepted)
        return is_whole and any(one.wake_up.matches(Frame.parse(attempt.frame)) for one in self._asleep.values())

    def note(self, attempt: Attempt) -> None:
        """Wakes up the nodes that the frame of this attempt wakes."""
        if self.are_woken_by(attempt):
            self._wake_by(Frame.parse(attempt.frame))

    def _wake_by(self, frame: Frame, channel: str = "", number: int = 0) -> None:
        """Wakes up the nodes that this frame wakes. `number` is how many frames the session on the interface `channel`
        received before this frame."""
        for name, sleeper in list(self._asleep.items()):
            if number >= sleeper.before.get(channel, 0) and sleeper.wake_up.matches(frame):
                self.remove(name)
                sleeper.wake(self._up)


class Watch(RawSession):
    """A session on an interface that receives the frames that wake nodes up."""

    def __init__(self, address: str, name: str) -> None:
        #: How many frames were taken from this session.
        self.taken = 0
        try:
            super().__init__(address, name, [str(filter_message(NO_FRAMES))], TIMEOUT)
        except (OSError, SessionRefused) as reason:
            text = f"{name}: no session to see what wakes a node: {reason_of(reason)}"
            raise fault("CanInitializationError", text) from None


class LiveSleepers(Sleepers):
    """The sleeping nodes of a server. While a node sleeps, sessions on all interfaces of its bus receive the frames
    that wake it up. All interfaces are needed, because any of them may be down."""

    def __init__(self, address: str, buses: Sequence[Sequence[str]]) -> None:
        # These sessions are separate from the server object's own sessions, because another thread may be waiting for
        # frames at the latter.
        super().__init__(threading.RLock(), lambda name: self._watches[name].up())
        self._address, self._buses = address, buses
        self._watches: dict[str, Watch] = {}

    def add(self, name: str, wake_up: WakeUp, wake: Wake) -> None:
        names = next(names for names in self._buses if name in names)
        for one in names:
            if one not in self._watches:
                self._watches[one] = watch = Watch(self._address, one)
                threading.Thread(target=self._read, args=(watch,), name="canbusd wake-up", daemon=True).start()
        super().add(name, wake_up, wake)
        self._filter()
        # Frames that were sent earlier may still be on their way to this process.
        before = {one: self._watches[one].stats().queued for one in names}
        self._asleep[name] = Sleeper(wake_up, wake, before)

    def remove(self, name: str) -> None:
        was_there = name in self._asleep
        super().remove(name)
        if was_there:
            self._filter()

    def close(self) -> None:
        """Ends the sessions."""
        with self.lock:
            self._asleep.clear()
        for watch in self._watches.values():
            watch.close()

    def _filter(self) -> None:
        """Sets filters so that the sessions receive only the frames that wake a node up. If the filters do not fit into
        one message, the sessions receive all frames, and this process alone selects them."""
        filters = [one for sleeper in self._asleep.values() for one in sleeper.wake_up.filters] or NO_FRAMES
        message = filter_message(filters) or filter_message(None)
        for watch in self._watches.values():
            watch.answer(str(message))

    def _read(self, watch: Watch) -> None:
        """Handles the frames that a session receives, until the session ends."""
        while (frame := next_frame(watch)) is not None:
            with self.lock:
                number, watch.taken = watch.taken, watch.taken + 1
                try:
                    self._wake_by(frame, watch.channel, number)
                except Exception as reason:
                    # This happens if the server was killed, or if the record is full.
                    LOG.warning("a node was not woken by %s: %s", frame, reason)


def next_frame(watch: Watch) -> Optional[Frame]:
    """Waits for the next frame of a session and returns it, or None if the session ends."""
    try:
        text = watch.frame(None)
    except Exception:
        return None
    return None if text is None else frame_of(text.lstrip("< "))
