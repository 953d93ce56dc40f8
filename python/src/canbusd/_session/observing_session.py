"""A session that a server object opens to observe an interface, and a thread that reads several such sessions."""

import os
import select
import threading
from collections import deque
from collections.abc import Callable, Sequence

from canbusd._session.address import reason_of
from canbusd._session.connection import SessionRefused
from canbusd._session.injection import TIMEOUT, Refused
from canbusd._session.protocol import counters_of, options
from canbusd._session.raw_session import RawSession, fault, with_cure
from canbusd._session.waits import wait_for_ready
from canbusd.virtual import is_virtual

# While no thread waits, messages accumulate for this many seconds, so that one read returns many of them. A Unix socket
# holds about 4,000 frames. In this time, a bus of 1 Mbit/s in virtual time, or a server without a pace in real time,
# sends half of that.
NAP = 0.1 if is_virtual() else 0.02
# If a read returns at least this many frames, there may be more.
MANY = 256
# The maximum time in seconds for which a waiting thread sleeps before it checks for input that another thread has read.
LONGEST_NAP = 0.05


class ObservingSession(RawSession):
    """A session on an interface that receives all frames, or only error message frames."""

    _queries = ("status",)

    def __init__(self, address: str, name: str, has_frames: bool) -> None:
        #: How many frames were taken from this session.
        self.taken = 0
        # The messages that were read but not yet passed to `add`.
        self._texts: deque[str] = deque()
        words = [] if has_frames else ["filter 0"]
        try:
            super().__init__(address, name, [*words, *options(fd=True), "origin 1"], TIMEOUT)
        except (OSError, SessionRefused) as reason:
            raise fault("CanInitializationError", f"{name}: no session to observe it: {reason_of(reason)}") from None
        #: The state of the interface and its error counts at the start of the session.
        self.first = self._parsed(self._queried[0], counters_of)

    @property
    def unread(self) -> int:
        """The number of frames that were read but not yet passed to `add`."""
        return len(self._texts)

    def read(self) -> None:
        """Reads the available messages without waiting."""
        while self.take_frames(self._texts) >= MANY:
            pass

    def hand_on(self, add: Callable[[str, str], None]) -> None:
        """Passes all available messages to `add` without waiting, including those that arrived before the end of the
        session."""
        try:
            self.read()
        except Exception:
            if not self._texts:
                raise
        self.hand_on_read(add, self.unread)

    def hand_on_read(self, add: Callable[[str, str], None], count: int) -> None:
        """Passes the oldest `count` of the messages that were read to `add`."""
        for _ in range(count):
            add(self.channel, self._texts[0])
            self._texts.popleft()
            self.taken += 1

    def fileno(self) -> int:
        """Returns the file descriptor that becomes readable when a message arrives."""
        return self._connection.socket_fileno()

    def _refusal(self, text: str) -> Exception:
        return Refused(with_cure(text))

    def _failed(self, kind: str, text: str) -> Exception:
        return fault(kind, f"{self.channel}: {with_cure(text)}")


def wait_for_input(sessions: Sequence[ObservingSession], seconds: float) -> None:
    """Waits for `seconds`, or until a message arrives at one of these sessions. The wait is limited to LONGEST_NAP,
    because another thread may read the message."""
    wait_for_ready([session.fileno() for session in sessions], select.POLLIN, min(seconds, LONGEST_NAP))


class Reader:
    """A thread that calls `read` when messages arrive at these sessions, at most once every `NAP` seconds."""

    def __init__(self, sessions: Sequence[ObservingSession], read: Callable[[], None]) -> None:
        self._has_ended = False
        self._end_reader, self._end_writer = os.pipe()
        poll = select.poll()
        for number in (self._end_reader, *(session.fileno() for session in sessions)):
            poll.register(number, select.POLLIN)
        self._thread = threading.Thread(target=self._run, args=(poll, read), name="canbusd observer", daemon=True)
        self._thread.start()

    def _run(self, poll: "select.poll", read: Callable[[], None]) -> None:
        while True:
            poll.poll()
            if wait_for_ready([self._end_reader], select.POLLIN, NAP):
                return
            try:
                read()
            except Exception:  # The connection has ended; the next expectation will find this out.
                return

    def end(self) -> None:
        """Ends the thread."""
        if not self._has_ended:
            self._has_ended = True
            os.write(self._end_writer, b"!")
            self._thread.join()
            os.close(self._end_reader)
            os.close(self._end_writer)
