"""An ISO-TP end in this process that follows ISO 15765-2, with segment faults.

A thread reads received frames and answers first frames. `send` waits for flow controls, and waits after each frame
until the frame was on the bus. To detect this, the session receives its own frames.
"""

import errno
import threading
import time
from collections import deque
from collections.abc import Callable, Iterator
from typing import TYPE_CHECKING, Optional, Union

from canbusd._isotp.end import ERRORS, LONGEST_TRANSFER, OUTAGES, IsoTp, IsoTpError, check
from canbusd._isotp.options import Options
from canbusd._isotp.segments import (
    CONSECUTIVE,
    FIRST,
    FLOW_CONTROL,
    GO_ON,
    OVERFLOW,
    SINGLE,
    WAIT,
    Received,
    Segment,
    SegmentFault,
    distance,
    filled,
    flow_control,
    read_segment,
    segments_of,
    with_fault,
)
from canbusd._session.waits import seconds_until
from canbusd._words import INTERFACE_DOWN
from canbusd.frames import Frame

if TYPE_CHECKING:
    from can.message import Message

    from canbusd.bus import CanbusdBus

#: Time limits in seconds: N_As for a frame to reach the bus, N_Bs for a flow control, and N_Cr for a consecutive frame.
LONGEST_FRAME, LONGEST_CONTROL, LONGEST_GAP = 1.0, 1.0, 1.0


class Incoming:
    """A message of which some frames have not been received yet."""

    def __init__(self, size: int, data: bytes) -> None:
        self.size, self.data = size, bytearray(data)
        #: The number of data bytes in each consecutive frame except the last. It is one more than in the first frame.
        self.longest = len(data) + 1
        #: The expected sequence number of the next consecutive frame, and how many frames remain before the next flow
        #: control.
        self.number, self.left = 1, 0
        #: The deadline for the next frame, in the time of `time.monotonic`.
        self.deadline = time.monotonic() + LONGEST_GAP


class Faults:
    """The faults that will be injected into the next segments."""

    def __init__(self) -> None:
        self._left: list[tuple[SegmentFault, int]] = []

    def add(self, fault: SegmentFault) -> None:
        """Adds a fault, which is injected into `count` messages."""
        self._left.append((fault, fault.count))

    def take(self, name: str) -> Optional[SegmentFault]:
        """Returns the fault for this segment that was added first; None if there is none. Each call decrements the
        remaining count of the fault."""
        for place, (fault, count) in enumerate(self._left):
            if fault.segment == name:
                self._left[place : place + 1] = [(fault, count - 1)] if count > 1 else []
                return fault
        return None


class PythonIsoTp(IsoTp):
    """An ISO-TP end that uses a python-can bus. `opened` is a function that opens the bus on this interface."""

    library = "canbusd"

    def __init__(self, opened: "Callable[..., CanbusdBus]", channel: str, options: Options) -> None:
        self._channel, self._options = channel, options
        self._addresses = [bytes([one]) for one in options.addresses or ()] or [b"", b""]
        received = {options.tx, options.rx, *([] if options.functional is None else [options.functional])}
        filters = [{"can_id": one, "can_mask": 0x1FFFFFFF, "extended": one > 0x7FF} for one in sorted(received)]
        self._bus = opened(channel, can_filters=filters, error_frames=False, fd=options.fd, receive_own_messages=True)
        self._sending, self._news, self._faults = threading.Lock(), threading.Condition(), Faults()
        #: The received messages, each with a flag that is true for a functional request, and the errnos of failed
        #: receptions.
        self._received: deque[Union[tuple[bytes, bool], int]] = deque()
        self._controls: deque[Received] = deque()
        # How many frames were sent to the bus, and how many of them the bus has transmitted.
        self._given = self._carried = 0
        self._incoming: Optional[Incoming] = None
        # The delayed flow controls, with the times at which they are due.
        self._late: list[tuple[float, Segment]] = []
        # The exception that ended the thread, or None.
        self._end: Optional[BaseException] = None
        self._thread = threading.Thread(target=self._read, name="canbusd ISO-TP", daemon=True)
        self._thread.start()

    def inject(self, fault: SegmentFault) -> None:
        if not isinstance(fault, SegmentFault):
            raise ValueError(f"fault is one of a segment, as uds.fault('first frame', 'lost') returns, not {fault!r}")
        with self._news:
            self._faults.add(fault)

    def send(self, data: bytes, timeout: float = LONGEST_TRANSFER, *, functional: bool = False) -> None:
        planned = list(segments_of(check(data), self._options.tx_dl, self._addresses[0]))
        identifier = self._options.functional if functional else self._options.tx
        if identifier is None:
            raise ValueError("functional=True needs the identifier of requests to all: isotp(.., functional=0x7DF)")
        if functional and len(planned) > 1:
            raise ValueError(f"a request to all is one single frame, and {len(data)} bytes are more")
        deadline = time.monotonic() + timeout
        with self._sending:
            with self._news:
                self._controls.clear()
            block, gap = 1, 0.0
            for segment in planned:
                if segment.name.startswith(CONSECUTIVE):
                    block -= 1
                    if block == 0:
                        block, gap = self._await_control(deadline)
                    else:
                        time.sleep(gap)
                for one in self._with_faults(segment):
                    time.sleep(one.delay)
                    self._await_carried(self._give(one, identifier), deadline)

    def recv(self, timeout: Optional[float] = None) -> Optional[bytes]:
        found = self.recv_request(timeout)
        return None if found is None else found[0]

    def recv_request(self, timeout: Optional[float] = None) -> Optional[tuple[bytes, bool]]:
        """Returns the next message, like `recv`, and whether it is a functional request."""
        with self._news:
            self._news.wait_for(lambda: self._received or self._end, timeout)
            if self._received:
                found = self._received.popleft()
                if isinstance(found, int):
                    raise IsoTpError(ERRORS[found], found)
                return found
            if self._end is not None:
                raise IsoTpError(f"this end was closed: {self._end}") from None
            return None

    @property
    def is_over(self) -> bool:
        """Whether this end was closed, or the server has ended."""
        return self._end is not None

    @property
    def is_receiving(self) -> bool:
        """Whether some frames of a message have been received, but not all."""
        return self._incoming is not None

    def close(self) -> None:
        self._bus.shutdown()
        self._thread.join()

    # Methods that send.

    def _with_faults(self, segment: Segment) -> Iterator[Segment]:
        """Yields the segments that are sent instead of a segment because of a fault; without a fault, the segment
        itself."""
        with self._news:
            fault = self._faults.take(segment.name)
        if fault is None:
            yield segment
        else:
            yield from with_fault(segment, fault.kind, fault.delay)

    def _give(self, segment: Segment, identifier: int) -> int:
        """Sends a segment on the bus, and returns the number of its frame."""
        data = filled(segment.data, self._options.padding)
        frame = Frame(identifier, data, identifier > 0x7FF, is_fd=self._options.fd)
        # The lock ensures that frames are counted in the order in which they are sent.
        with self._news:
            try:
                self._bus.send(frame.message(), LONGEST_FRAME)
            except Exception as fault:
                raise self._error(fault) from None
            self._given += 1
            return self._given

    def _error(self, fault: BaseException) -> IsoTpError:
        """Converts an exception of the bus to the error of a transfer."""
        code = getattr(fault, "error_code", None)
        if code == errno.ENETDOWN:
            is_down = str(fault).startswith(INTERFACE_DOWN)
            return IsoTpError(f"{self._channel} is {'down' if is_down else 'bus off'}", code)
        return IsoTpError(f"this end was closed: {fault}" if code is None else f"{fault}", code)

    def _await_carried(self, number: int, deadline: float) -> None:
        """Waits until the bus has transmitted the frame with this number."""
        with self._news:
            is_over = min(deadline, time.monotonic() + LONGEST_FRAME)
            self._news.wait_for(lambda: self._carried >= number or self._end, seconds_until(is_over))
            if self._carried >= number:
                return
            # A frame that was lost at bus off or when the interface went down is never transmitted, so later calls must
            # not wait for it.
            self._carried = self._given
            end = self._end
        if end is not None:
            raise self._error(end)
        outage = OUTAGES.get(self._bus.error_counters().state)
        if outage:
            raise IsoTpError(f"{self._channel} is {outage}", errno.ENETDOWN)
        raise IsoTpError(ERRORS[errno.ECOMM], errno.ECOMM)

    def _await_control(self, deadline: float) -> tuple[int, float]:
        """Waits for a flow control. Returns the number of frames in the next block (0 for all), and the minimum time
        between frames in seconds."""
        while True:
            with self._news:
                is_over = min(deadline, time.monotonic() + LONGEST_CONTROL)
                self._news.wait_for(lambda: self._controls or self._end, seconds_until(is_over))
                control = self._controls.popleft() if self._controls else None
            if control is None:
                raise self._error(self._end) if self._end else IsoTpError(ERRORS[errno.ECOMM], errno.ECOMM)
            if len(control.data) < 2 or control.number > OVERFLOW:
                raise IsoTpError(ERRORS[errno.EBADMSG], errno.EBADMSG)
            if control.number == OVERFLOW:
                raise IsoTpError(ERRORS[errno.EMSGSIZE], errno.EMSGSIZE)
            if control.number == GO_ON:
                return control.data[0], distance(control.data[1])

    # Methods that receive frames. They are called by the thread.

    def _read(self) -> None:
        try:
            while True:
                message = self._bus.recv(self._seconds_left())
                with self._news:
                    if message is not None and message.is_rx:
                        self._take(message)
                    elif message is not None:
                        self._carried = min(self._carried + 1, self._given)
                    self._do_what_is_due()
                    self._news.notify_all()
        except Exception as fault:
            with self._news:
                self._end = fault
                self._news.notify_all()

    def _seconds_left(self) -> Optional[float]:
        """Returns the number of seconds until the next deadline or delayed frame; None if there is none."""
        deadlines = [moment for moment, _ in self._late]
        deadlines += [self._incoming.deadline] if self._incoming else []
        return seconds_until(min(deadlines)) if deadlines else None

    def _do_what_is_due(self) -> None:
        now = time.monotonic()
        due = [one for one in self._late if one[0] <= now]
        for one in due:
            self._late.remove(one)
            self._reply(one[1])
        if self._incoming is not None and self._incoming.deadline <= now:
            self._fail(errno.ETIMEDOUT)

    def _fail(self, number: int) -> None:
        """Discards the incomplete message. The next `recv` raises an error with this errno."""
        self._incoming = None
        self._received.append(number)

    def _take(self, message: "Message") -> None:
        """Processes a frame from another node."""
        is_functional = message.arbitration_id == self._options.functional
        data, address = bytes(message.data), self._addresses[1]
        if not (is_functional or message.arbitration_id == self._options.rx) or data[: len(address)] != address:
            return
        try:
            segment = read_segment(data, len(address))
        except ValueError:
            # Frames that are not valid segments are ignored, as by a CAN_ISOTP socket.
            return
        if segment.name == SINGLE:
            self._received.append((segment.data, is_functional))
            self._incoming = self._incoming if is_functional else None
        elif is_functional:
            return
        elif segment.name == FLOW_CONTROL:
            self._controls.append(segment)
        elif segment.name == FIRST and segment.number == 0:
            # The length field is in the following bytes because the length is above 4,095, so the message is too long.
            self._reply(self._control(OVERFLOW))
        elif segment.name == FIRST:
            self._incoming = Incoming(segment.number, segment.data)
            self._send_control(self._incoming)
        elif self._incoming is not None:
            self._take_consecutive(self._incoming, segment)

    def _take_consecutive(self, incoming: Incoming, segment: Received) -> None:
        wanted = min(incoming.longest, incoming.size - len(incoming.data))
        if segment.number != incoming.number % 16:
            self._fail(errno.EILSEQ)
        elif len(segment.data) < wanted:
            self._fail(errno.EBADMSG)
        else:
            incoming.data += segment.data[:wanted]
            incoming.number += 1
            incoming.left -= 1
            incoming.deadline = time.monotonic() + LONGEST_GAP
            if len(incoming.data) == incoming.size:
                self._incoming = None
                self._received.append((bytes(incoming.data), False))
            elif incoming.left == 0:
                self._send_control(incoming)

    def _send_control(self, incoming: Incoming) -> None:
        """Answers a first frame, or the last frame of a block, with a flow control."""
        fault = self._faults.take(FLOW_CONTROL)
        incoming.left = self._options.block_size
        go_on = self._control(GO_ON)
        if fault is None:
            planned = [go_on]
        elif fault.kind in ("wait", "overflow"):
            late = Segment(FLOW_CONTROL, go_on.data, fault.delay)
            planned = [self._control(WAIT), late] if fault.kind == "wait" else [self._control(OVERFLOW)]
        else:
            planned = list(with_fault(go_on, fault.kind, fault.delay))
        for one in planned:
            if one.delay:
                self._late.append((time.monotonic() + one.delay, one))
            else:
                self._reply(one)
        incoming.deadline = time.monotonic() + LONGEST_GAP + max((one.delay for one in planned), default=0.0)
        if fault is not None and fault.kind == "overflow":
            self._incoming = None

    def _reply(self, segment: Segment) -> None:
        """Sends a flow control. If the bus refuses it, for example at bus off, reception of the incomplete message
        fails and the thread continues."""
        try:
            self._give(segment, self._options.tx)
        except IsoTpError as fault:
            self._fail(errno.ENETDOWN if fault.errno == errno.ENETDOWN else errno.ECOMM)

    def _control(self, status: int) -> Segment:
        return flow_control(status, self._options.block_size, self._options.stmin, self._addresses[0])
