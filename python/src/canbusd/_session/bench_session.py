"""A session on a bench: a client of its bus with a raw socket."""

import re
from collections import deque
from dataclasses import replace
from types import TracebackType
from typing import TYPE_CHECKING, Optional, Union

from canbusd._calls import NamesWhatThereIs, explained
from canbusd._session.arguments import check_within
from canbusd._session.injection import InjectsFaults, Refused
from canbusd._session.protocol import (
    NO_DOWN,
    PASSING,
    ErrorCounters,
    Filters,
    Load,
    Stats,
    counters_of,
    filter_message,
    load_of,
    stats_of,
)
from canbusd._words import LONGEST_MESSAGE, NO_BUFFERS, NOT_BUS_OFF, UNKNOWN_COMMAND
from canbusd.frames import (
    Frame,
    MessageLike,
    command_of,
    frame_like,
    frame_of,
    frame_to_send,
    identifier_word,
    without_origin,
)

if TYPE_CHECKING:
    from canbusd.bench import Bench

#: Matches strings that `call` does not accept.
NOT_ONE = re.compile(r"[<>\n]|^\s*close\b")
CLOSED = re.compile(r"[0-9]+ < closed ([0-9]+) ([0-9]+) >")


class PeriodicSend:
    """A frame that a session sends periodically."""

    def __init__(self, session: "Session", frame: Frame, period: float, duration: Optional[float]) -> None:
        self._session, self._frame, self._period = session, frame, round(period * 1e6)
        self._next: Optional[int] = session._bench._now
        self._end = None if duration is None else session._bench._now + round(duration * 1e6)

    def modify_data(self, message: MessageLike) -> None:
        """Replaces the frame without changing the schedule. The new frame must have the same identifier."""
        frame = frame_like(message)
        if identifier_word(frame) != identifier_word(self._frame):
            raise ValueError(f"a periodic frame keeps its identifier: {self._frame} can't become {frame}")
        self._frame = frame

    def start(self) -> None:
        """Starts the task again if it has ended."""
        if self._next is None:
            self._next = self._session._bench._now

    def stop(self) -> None:
        """Ends the task."""
        self._next = None

    def first_due(self) -> Optional[int]:
        """Returns the time in microseconds at which the next frame is due, or None if the task has ended."""
        return self._next

    def put_due(self, moment: int) -> None:
        """Sends the frame once for each due time up to `moment`."""
        while self._next is not None and self._next <= moment:
            if self._session._closed or (self._end is not None and self._next >= self._end):
                self.stop()
                return
            try:
                self._session._put(self._frame)
            except Refused as fault:
                if str(fault) not in PASSING:
                    raise
            self._next += self._period


class Session(InjectsFaults, NamesWhatThereIs):
    """A client of the bus with a raw socket on one interface. `Bench.open` creates it."""

    def __init__(self, bench: "Bench", number: int, channel: str) -> None:
        self._bench, self._number = bench, number
        self._closed = False
        # The indices of this session's frames among the frames sent at its interface.
        self._own: set[int] = set()
        # The frames that were read from the socket but not yet returned to the caller.
        self._received: deque[Frame] = deque()
        #: The name of the session's interface.
        self.channel = channel

    _INSTEAD = {
        **dict.fromkeys(("expect", "expect_no_frame", "expect_state", "bus_off", "wait_for"), "the Bench has it"),
        "state": "error_counters().state",
    }

    @explained()
    def send(
        self,
        frame: Union[int, MessageLike],
        data: bytes = b"",
        *,
        is_extended_id: Optional[bool] = None,
        is_remote_frame: bool = False,
        is_fd: bool = False,
        bitrate_switch: bool = False,
        error_state_indicator: bool = False,
        dlc: int = 0,
        timeout: Optional[float] = None,
    ) -> None:
        """Puts a frame into the transmit queue of the interface, or raises Refused.

        `frame` is a Frame, a python-can message, or an identifier. An identifier up to 7FF has 11 bits unless
        `is_extended_id` says otherwise. `dlc` is the length that a remote frame requests. With a `timeout`, the call
        lets up to this many seconds pass on the bus until a full queue has room.
        """
        if isinstance(frame, int):
            sent = frame_to_send(
                frame,
                data,
                is_extended_id=is_extended_id,
                is_remote_frame=is_remote_frame,
                is_fd=is_fd,
                dlc=dlc,
                bitrate_switch=bitrate_switch,
                error_state_indicator=error_state_indicator,
            )
        elif isinstance(frame, str):
            raise ValueError(
                f"frame is an identifier, a message or a Frame, such as Frame.parse('123#11'), not {frame!r}"
            )
        else:
            sent = frame_like(frame)
        if not timeout or not self._bench.pass_time(lambda: self._was_accepted(sent), timeout):
            self._put(sent)

    def _put(self, frame: Frame) -> None:
        """Puts a frame into the transmit queue."""
        bench, command = self._bench, command_of(frame)
        accepted = bench._sent[self.channel]
        with bench._turn:
            accepted.append(frame)
            try:
                bench._ask(f"feed {self._live()} < {command} >< echo >")
            except Refused:
                accepted.pop()
                raise
            self._own.add(len(accepted) - 1)

    def _was_accepted(self, frame: Frame) -> bool:
        """Puts a frame into the transmit queue if there is room. Returns whether there was room."""
        try:
            self._put(frame)
            return True
        except Refused as fault:
            if str(fault) != NO_BUFFERS:
                raise
            return False

    def receive(self) -> list[Frame]:
        """Returns the frames that the socket has received, oldest first. Error message frames are included if the
        session requested them."""
        self._gather()
        frames = list(self._received)
        self._received.clear()
        return frames

    def recv(self, timeout: Optional[float] = None) -> Optional[Frame]:
        """Returns the next frame. The call lets time pass on the bus until a frame arrives.

        Returns None if no frame arrives within `timeout` seconds or, without a timeout, if no further frame can arrive.
        """

        def first() -> Optional[Frame]:
            self._gather()
            return self._received.popleft() if self._received else None

        return first() or self._bench.pass_time(first, timeout)

    def send_periodic(self, msgs: MessageLike, period: float, duration: Optional[float] = None) -> "PeriodicSend":
        """Sends a frame every `period` seconds of bus time, starting now.

        The task ends after `duration` seconds, or when the caller calls `stop()` of the returned task. A full queue,
        bus off, or an interface that is down does not end the task.
        """
        check_within(period, "period")
        if not period > 0:
            raise ValueError(f"period is a number of seconds above 0, not {period!r}")
        task = PeriodicSend(self, frame_like(msgs), period, duration)
        self._bench._due.append(task)
        return task

    def handed_over(self) -> list[str]:
        """Returns the items that the socket has received, as protocol messages."""
        number = self._live()
        return self._bench._ask(f"drain {number}\nfeed {number} < echo >")

    def _gather(self) -> None:
        """Reads the items that the socket has received, so that `receive` and `recv` can return them."""
        for message in self.handed_over():
            frame = self._frame(message)
            if frame is not None:
                self._received.append(frame)

    def error_counters(self) -> ErrorCounters:
        """Returns the state of the interface and its error counts, like `status`."""
        return self.status()

    def status(self) -> ErrorCounters:
        """Returns the state of the interface and its error counts."""
        return self._parsed(self._answer("status"), counters_of)

    def stats(self) -> Stats:
        """Returns the counts of the socket and of its interface."""
        return self._parsed(self._answer("stats"), stats_of)

    def load(self) -> Load:
        """Returns the bus load in the last whole second before the bench's current time, and in the whole run."""
        return self._parsed(self._answer("load"), load_of)

    def set_filters(self, filters: Optional[Filters] = None) -> None:
        """Sets the filters of the socket, in python-can's form. Without filters the socket receives all frames."""
        message = filter_message(filters)
        if message is None:
            raise ValueError("filters are more than fit into one message of 1,024 bytes")
        self.call(message)

    def restart(self, at: Union[str, float, None] = None) -> None:
        """Brings the interface back from bus off, at time `at` if it is given."""
        number = self._live()
        try:
            self._bench._ask(f"feed {number} < restart >< echo >", at)
        except Refused as fault:
            raise Refused(f"{self.channel}: {fault}, but {self.status().state}") from None

    def down(self, at: Union[str, float, None] = None) -> None:
        """Takes the interface off the bus, at time `at` if it is given. The frames in its transmit queue are lost.

        Until `up` is called, the interface sends, accepts and acknowledges nothing, and a send is refused as `interface
        down`. It is no error if the interface is already down.
        """
        try:
            self._bench._ask(f"feed {self._live()} < down >< echo >", at)
        except Refused as fault:
            raise Refused(f"{self.channel}: {NO_DOWN if str(fault) == UNKNOWN_COMMAND else fault}") from None

    def up(self, at: Union[str, float, None] = None) -> None:
        """Brings the interface up, or back from bus off, at time `at` if it is given. Both error counts become 0. It is
        no error if the interface is already up."""
        try:
            self._bench._ask(f"feed {self._live()} < restart >< echo >", at)
        except Refused as fault:
            if str(fault) != NOT_BUS_OFF:
                raise

    def call(self, message: str) -> list[str]:
        """Sends a protocol message, such as `recvown 1`, and returns its answers. Raises Refused if the message is
        refused."""
        if NOT_ONE.search(message):
            raise ValueError(f"message is one message without < and >, and not close: {message!r}")
        text = f" {message} "
        if len(text.encode()) > LONGEST_MESSAGE:
            # If a message fits into a line of the bench but is too long for a session, the session refuses it with
            # these words.
            raise Refused("message too long")
        with self._bench._turn:
            answers = self._bench._ask(f"feed {self._live()} <{text}>< echo >")
            self._bench._follow(message)
        return answers

    def shutdown(self) -> None:
        """Closes the socket if it is open and the bench still runs."""
        if not self._closed and not self._bench._is_over:
            self.close()

    def __enter__(self) -> "Session":
        return self

    def __exit__(
        self, kind: Optional[type[BaseException]], fault: Optional[BaseException], _: Optional[TracebackType]
    ) -> None:
        self.shutdown()

    def close(self) -> tuple[int, int]:
        """Closes the socket, and returns the number of unread frames and the number of dropped frames."""
        line = self._bench._line_after(f"feed {self._live()} < close >")
        counts = CLOSED.fullmatch(line)
        if not counts:
            raise Refused(line.partition("< error ")[2].rstrip(" >") or line)
        self._closed = True
        return int(counts[1]), int(counts[2])

    def _frame(self, message: str) -> Optional[Frame]:
        """Returns the frame in a message from the socket, or None if the message is an answer."""
        frame = frame_of(message)
        if frame is not None and " same " in message and without_origin(message)[1] in self._own:
            return replace(frame, is_rx=False)
        return frame

    def _answer(self, message: str) -> str:
        answer = self.call(message)[0]
        return "" if answer == "ok" else answer

    def _refused(self, message: str) -> str:
        try:
            return self._answer(message)
        except Refused as fault:
            return str(fault)

    def _live(self) -> int:
        if self._closed:
            raise ValueError(f"the session on {self.channel} is closed")
        return self._number
