"""A session with a raw socket on an interface of a server: sending, receiving, and the state of the interface.

The python-can interface and a server object's own sessions build on this module. It does not need python-can, but uses
its exceptions if it is installed.
"""

import errno
import time
from collections import deque
from collections.abc import Sequence
from typing import Optional

from canbusd._placement import DELAY, AtSockets
from canbusd._session.connection import LONGEST_POLL, POLL, Connection, NoAnswer, SessionRefused
from canbusd._session.injection import InjectsFaults, no_interface
from canbusd._session.protocol import NO_DOWN, ErrorCounters, Load, Stats, counters_of, load_of, refusal_in, stats_of
from canbusd._session.waits import seconds_until
from canbusd._text import times
from canbusd._words import (
    BUS_OFF,
    INTERFACE_DOWN,
    NO_BUFFERS,
    NO_SUCH_INTERFACE,
    NOT_BUS_OFF,
    RECORD_FULL,
    UNKNOWN_COMMAND,
)

# The errno values that Linux's own CAN sockets report.
ERROR_CODES = {NO_BUFFERS: errno.ENOBUFS, BUS_OFF: errno.ENETDOWN, INTERFACE_DOWN: errno.ENETDOWN}
# Hints for the user, for the refusals that have a short hint.
CURES = {
    NO_BUFFERS: ": the transmit queue is full; send(msg, timeout=1) waits for room, and a server's txqueue= makes more",
    BUS_OFF: ": restart() brings the interface back, as the server's auto_restart= does",
    INTERFACE_DOWN: ": up() brings the interface up",
    RECORD_FULL: ": start the server again with a higher limit= (--limit), or with record='live' (--record live)",
}


def fault(kind: str, text: str, code: Optional[int] = None) -> Exception:
    """Returns a python-can exception of this kind, or a RuntimeError if python-can is not installed."""
    try:
        from can import exceptions
    except ImportError:
        return RuntimeError(text)
    found: Exception = getattr(exceptions, kind)(text, code)
    return found


def refusal(text: str, after: str = "") -> Exception:
    """Returns the exception for a refusal by the server. Its `error_code` is the errno that Linux's own CAN sockets
    report."""
    return fault("CanOperationError", f"{text}{after}{CURES.get(text, '')}", ERROR_CODES.get(text))


def stayed_full(after: str = "") -> Exception:
    """Returns the exception for a transmit queue that stayed full until the timeout."""
    return fault("CanTimeoutError", f"{NO_BUFFERS}{after}: the transmit queue stayed full", errno.ENOBUFS)


def with_cure(text: str) -> str:
    """Adds a hint to an error message if it ends with the refusal for a full record."""
    return f"{text}{CURES[RECORD_FULL]}" if text.endswith(RECORD_FULL) else text


class RawSession(InjectsFaults):
    """A session in raw mode. `messages` set the options of its socket.

    Unless `notes_own` is None, the server answers each send with the number of the frame. If `notes_own` is true, these
    numbers are recorded for `is_own`. An older server does not send these numbers. Raises OSError if there is no
    server, and SessionRefused if the server refuses the session, the interface or an option.
    """

    # These questions are sent together with the first messages of the session, so that nothing happens in between.
    _queries: Sequence[str] = ()

    def __init__(
        self, address: str, channel: str, messages: Sequence[str], timeout: float, notes_own: Optional[bool] = None
    ) -> None:
        #: The name of the interface.
        self.channel = channel
        #: A fault that a sweep injects at this session's socket.
        self.planted: Optional[AtSockets] = None
        self._timeout = timeout
        self._connection = Connection(address, timeout)
        try:
            opening = [f"open {channel}", "rawmode", *messages]
            answers = self._connection.ask([*opening, *self._queries])
            refused = next(filter(None, map(refusal_in, answers[: len(opening)])), "")
            if refused == NO_SUCH_INTERFACE:
                refused = no_interface(self._connection)
            if refused:
                raise SessionRefused(f"{refused}{CURES.get(refused, '')}")
            self._queried = answers[len(opening) :]
            if notes_own is not None:
                self._connection.ask_acks(notes_own)
            if notes_own:
                self._connection.ask(["origin 1"])
        except BaseException:
            self._connection.close()
            raise

    def is_own(self, number: int) -> bool:
        """Returns whether the frame with this number at the interface was sent by this session."""
        return self._connection.is_own(number)

    def answers(self, messages: Sequence[str]) -> list[str]:
        """Sends these messages at once, and returns the reply to each: the empty string for `ok`, the reason for a
        refusal, or an answer."""
        planted = self.planted
        place = next((place for place, one in enumerate(messages) if planted.is_sent(one)), None) if planted else None
        if place is not None:
            self.planted = None
            others = [*messages[:place], *messages[place + 1 :]]
            answers = self.answers(others) if others else []
            return [*answers[:place], NO_BUFFERS, *answers[place:]]
        try:
            return [refusal_in(answer) for answer in self._connection.ask(messages)]
        except NoAnswer as reason:
            raise self._failed("CanTimeoutError", str(reason)) from None
        except ConnectionError as reason:
            raise self._failed("CanOperationError", str(reason)) from None

    def answer(self, message: str) -> str:
        """Sends one message and returns its reply, as `answers` does."""
        return self.answers([message])[0]

    def frame(self, timeout: Optional[float]) -> Optional[str]:
        """Returns the next message with a frame, without the characters before its `<`. Returns None if no frame
        arrives within `timeout` seconds."""
        try:
            began = time.monotonic()
            found = self._connection.frame(timeout)
            if self.planted is not None and found is not None and self.planted.is_received(found):
                is_lost, self.planted = self.planted.kind == "missed", None
                if is_lost:
                    return self.frame(None if timeout is None else max(0.0, timeout - (time.monotonic() - began)))
                time.sleep(DELAY)
            return found
        except ConnectionError as reason:
            raise self._failed("CanOperationError", str(reason)) from None

    def take_frames(self, to: deque[str]) -> int:
        """Reads the socket once without waiting, appends the frames to `to`, and returns how many frames were appended."""
        try:
            return self._connection.take_frames(to)
        except ConnectionError as reason:
            raise self._failed("CanOperationError", str(reason)) from None

    def frames_at_hand(self) -> int:
        """Returns the number of frames that were read but not taken yet."""
        return self._connection.frames_at_hand()

    def fileno(self) -> int:
        """Returns a file descriptor that is readable when `frame` would return or raise at once."""
        try:
            return self._connection.fileno()
        except ConnectionError as reason:
            raise self._failed("CanOperationError", str(reason)) from None

    def send(self, command: str, timeout: Optional[float] = None) -> None:
        """Sends this command, which puts a frame into the transmit queue. If the queue is full, waits up to `timeout`
        seconds until it has room."""
        answer = self.answer(command)
        if answer == NO_BUFFERS and timeout is not None and timeout > 0:
            deadline = time.monotonic() + timeout
            stats: Optional[Stats] = None
            is_late = False
            while answer == NO_BUFFERS and not is_late:
                stats, is_late = self._departure(stats, deadline)
                answer = self.answer(command)
            if answer == NO_BUFFERS:
                raise stayed_full()
        if answer:
            raise refusal(answer)

    def send_many(self, commands: Sequence[str], most: int, timeout: Optional[float] = None) -> None:
        """Puts frames into the transmit queue in order. At most `most` of them wait there at a time, or as many as the
        queue has room for.

        Without a timeout, the call fails if no frame is accepted for as long as the timeout of the session.
        """
        rest = [*commands]
        total, window = len(rest), most
        stats = self.stats()
        deadline = time.monotonic() + (self._timeout if timeout is None else timeout)
        while rest:
            room, is_late = window - stats.waiting, False
            if room < 1:
                stats, is_late = self._departure(stats, deadline)
                room = max(1, window - stats.waiting)
            answers = self.answers([*rest[:room], "stats"])
            stats = self._parsed(answers.pop(), stats_of)
            refused = [command for command, answer in zip(rest, answers) if answer]
            rest[: len(answers)] = refused
            reason = next((answer for answer in answers if answer not in ("", NO_BUFFERS)), None)
            after = f" after {total - len(rest)} of {times(total, 'message')}"
            if reason is not None:
                raise refusal(reason, after)
            if refused and is_late:
                raise stayed_full(after)
            if len(refused) < len(answers) and timeout is None:
                deadline = time.monotonic() + self._timeout
            window = max(1, stats.waiting) if refused else min(most, window + 1)

    def restart(self, is_needed: bool = True) -> None:
        """Brings the interface back from bus off. If the interface is not bus off, raises an exception unless
        `is_needed` is false."""
        answer = self.answer("restart")
        if answer and (is_needed or answer != NOT_BUS_OFF):
            state = f", but {self.error_counters().state}" if answer == NOT_BUS_OFF else ""
            raise refusal(f"{self.channel}: {answer}{state}")

    def down(self) -> None:
        """Takes the interface off the bus. If it is already down, it stays down."""
        answer = self.answer("down")
        if answer:
            raise refusal(f"{self.channel}: {NO_DOWN if answer == UNKNOWN_COMMAND else answer}")

    def up(self) -> None:
        """Brings the interface up. If it is already up, it stays up."""
        self.restart(is_needed=False)

    def error_counters(self) -> ErrorCounters:
        """Returns the state of the interface and its error counts."""
        return self._parsed(self.answer("status"), counters_of)

    def stats(self) -> Stats:
        """Returns the counts of this socket and of its interface."""
        return self._parsed(self.answer("stats"), stats_of)

    def load(self) -> Load:
        """Returns the bus load and the bit rates. Without bit rates the result is `Load(0, 0, 0, 0)`."""
        return self._parsed(self.answer("load"), load_of)

    def close(self) -> None:
        """Ends the session, and all calls that wait for a frame or an answer. A second call does nothing."""
        self._connection.close()

    def _answer(self, message: str) -> str:
        return self.answer(message)

    def _refusal(self, text: str) -> Exception:
        return refusal(text)

    def _failed(self, kind: str, text: str) -> Exception:
        """Returns a python-can exception of this kind."""
        return fault(kind, with_cure(text))

    def _departure(self, before: Optional[Stats], deadline: float) -> tuple[Stats, bool]:
        """Waits until a frame leaves the transmit queue after the counts in `before`, or until the deadline. Returns
        the new counts, and whether the deadline has passed.

        The counts don't show whether the bus can still send, so the caller tries a last send, which reports a full
        record. This function requests only counts, because a refused send would add an entry to the record.
        """
        pause = POLL
        while True:
            now, left = self.stats(), seconds_until(deadline)
            if left == 0 or before is None or now.done + now.lost != before.done + before.lost:
                return now, left == 0
            time.sleep(min(pause, left))
            pause = min(2 * pause, LONGEST_POLL)
