"""The interface `canbusd` of python-can.

    with can.Bus(interface="canbusd", channel="can0", address="127.0.0.1:29536") as bus:
        bus.send(can.Message(arbitration_id=0x123, data=[1, 2], is_extended_id=False))
"""

import contextlib
import functools
import logging
import threading
import time
from collections.abc import Iterable, Iterator, Mapping, Sequence
from math import isfinite
from typing import TYPE_CHECKING, Any, Optional, TypeVar, Union, cast, overload

import canbusd._python_can  # noqa: F401  it says what is missing, so it comes first

import can
from can.broadcastmanager import CyclicSendTaskABC
from can.bus import BusABC, BusState
from can.exceptions import CanInitializationError, CanOperationError
from can.message import Message

from canbusd._calls import NamesWhatThereIs, explained
from canbusd import _placement as placement
from canbusd._session.address import reason_of, server_address
from canbusd._session.arguments import bit_rates, interface_name, mask_or_truth, one_data_rate, seconds, truth
from canbusd._session.connection import Connection, SessionRefused
from canbusd._session.injection import InjectsFaults
from canbusd._session.protocol import (
    ErrorCounters,
    Filters,
    Load,
    Stats,
    filter_message,
    filter_words,
    interfaces_of,
    load_of,
    options,
)
from canbusd._session.raw_session import ERROR_CODES, RawSession, refusal
from canbusd.frames import (
    Frame,
    command_of,
    data_bytes,
    frame_of_message,
    frame_to_send,
    identifier_word,
    passes_filters,
    without_origin,
)

if TYPE_CHECKING:
    from can.typechecking import AutoDetectedConfig

    from canbusd.local import LocalBus

Self = TypeVar("Self", bound="CanbusdBus")

LOG = logging.getLogger("can.canbusd")
# The logger to which python-can itself writes for each bus.
BUS_LOG = logging.getLogger("can.bus")
BUS_STATES = {
    "active": BusState.ACTIVE,
    "warning": BusState.ACTIVE,
    "passive": BusState.PASSIVE,
    "off": BusState.ERROR,
    "down": BusState.ERROR,
}
# Arguments that python-can and its tools pass to all interfaces.
OF_PYTHON_CAN = {"single_handle", "timing", "ignore_config", "config_context", "poll_interval"}
# How many seconds to wait for a reply from a server that may not exist.
DETECTION = 1.0


def interfaces(address: Optional[str] = None, timeout: float = 5.0) -> list[str]:
    """Returns the names of all interfaces of the server at this address, in the order of the server. The default
    address is the same as for CanbusdBus."""
    found = server_address(address)
    try:
        connection = Connection(found, timeout)
        try:
            [answer] = connection.ask(["interfaces"])
        finally:
            connection.close()
    except (OSError, SessionRefused) as fault:
        raise CanInitializationError(f"canbusd: the server at {found}: {reason_of(fault)}") from None
    names = interfaces_of(answer)
    if names is None:
        raise CanInitializationError(f"canbusd: the server at {found} is older, and can't say which interfaces it has")
    return names


def as_message(given: Any) -> Any:
    """Returns a python-can message for a Frame, and a list of messages for a list. Any other object is returned
    unchanged."""
    if isinstance(given, (list, tuple)):
        return [as_message(one) for one in given]
    return given.message() if isinstance(given, Frame) else given


class Periodic:
    """The bus that a periodic task sends to. If the transmit queue is full, or the interface is bus off or down, the
    task continues, as with SocketCAN. This class logs the problem once; python-can would log every failed send with a
    traceback."""

    def __init__(self, bus: "CanbusdBus") -> None:
        self._bus, self._is_refused = bus, False

    def send(self, msg: Message, timeout: Optional[float] = None) -> None:
        """Sends a message. If the server refuses the message, only a warning is logged."""
        try:
            self._bus.send(msg, timeout)
            self._is_refused = False
        except CanOperationError as fault:
            if self._bus._is_shutdown:
                # The task was stopped after it last checked for this.
                return
            if fault.error_code not in ERROR_CODES.values():
                raise
            if not self._is_refused:
                LOG.warning("%s: a periodic message is not sent: %s", self._bus.channel, fault)
            self._is_refused = True


class CanbusdBus(InjectsFaults, NamesWhatThereIs, BusABC):
    """A raw socket on an interface of a canbusd server.

    :param channel: the name of the interface, such as ``can0``
    :param can_filters: see :meth:`can.BusABC.set_filters`; the server applies the filters if they fit into one message
    :param address: ``HOST:PORT``, ``[V6]:PORT``, or a Unix path that begins with ``/`` or ``.``; by default
        ``$CANBUSD_ADDRESS``, else ``127.0.0.1:29536``
    :param fd: send and receive CAN FD frames too
    :param receive_own_messages: also receive the messages that this bus sends, with ``is_rx`` false
    :param local_loopback: deliver the messages that this bus sends to other sockets on the same interface
    :param error_frames: receive error message frames; true, false or a mask of error classes
    :param join_filters: receive only messages that match all filters, instead of at least one
    :param timeout: how many seconds the server may take to reply
    :param bitrate: the expected nominal bit rate; a warning is logged if the server has a different rate or none
    :param data_bitrate: the expected bit rate for the data of FD frames with ``bitrate_switch``; a warning is logged
        if the server has a different rate or none
    :param dbitrate: the same as ``data_bitrate``
    :param kwargs: arguments that python-can passes to all interfaces; they have no effect here

    A bus may be used by several threads at once. All arguments may be strings, as in can.conf.
    """

    _INSTEAD = {
        **dict.fromkeys(("receive", "read"), "recv(timeout=1)"),
        **dict.fromkeys(("status", "counters", "tec", "rec"), "error_counters() has the state and the counts"),
        **dict.fromkeys(("expect", "expect_no_frame", "expect_state", "bus_off", "wait_for"), "the Server has it"),
    }

    def __new__(cls, *args: Any, local: Optional["LocalBus"] = None, **kwargs: Any) -> Any:
        """Returns a bus that is connected to a server. With `local`, returns a `LocalCanbusdBus`, which uses a bus
        inside this process."""
        if local is None:
            return super().__new__(cls)
        from canbusd.local_can import LocalCanbusdBus

        return LocalCanbusdBus(*args, local=local, **kwargs)

    @explained()
    def __init__(
        self,
        channel: str,
        can_filters: Optional[Filters] = None,
        *,
        address: Optional[str] = None,
        fd: Union[bool, str] = False,
        receive_own_messages: Union[bool, str] = False,
        local_loopback: Union[bool, str] = True,
        error_frames: Union[bool, int, str] = True,
        join_filters: Union[bool, str] = False,
        timeout: Union[float, str] = 5.0,
        bitrate: Union[int, str, None] = None,
        data_bitrate: Union[int, str, None] = None,
        dbitrate: Union[int, str, None] = None,
        **kwargs: Any,
    ) -> None:
        # Since version 4.3, python-can warns about a bus that was not shut down, even if its constructor failed.
        self._is_shutdown = True
        self.channel = interface_name(channel)
        if "host" in kwargs or "port" in kwargs:
            raise ValueError("host and port are not taken; give address='HOST:PORT'")
        for name in kwargs.keys() - OF_PYTHON_CAN:
            LOG.warning("%s: %s is no argument of this interface, and is left out", self.channel, name)
        self.address = server_address(address)
        self._fd = truth("fd", fd)
        self._join = truth("join_filters", join_filters)
        self._timeout = seconds("timeout", timeout)
        self._receives_own = truth("receive_own_messages", receive_own_messages)
        rates = bit_rates(bitrate=bitrate, data_bitrate=one_data_rate(data_bitrate, dbitrate))
        messages = options(
            fd=self._fd,
            receive_own_messages=self._receives_own,
            local_loopback=truth("local_loopback", local_loopback),
            error_frames=mask_or_truth("error_frames", error_frames),
            join_filters=self._join,
        )
        #: The maximum number of frames that `send_many` keeps in the transmit queue, if the queue has room for them.
        self.window = 10
        self.channel_info = f"canbusd: channel '{self.channel}' of the server at {self.address}"
        self._prepare()
        self._session = self._open(messages)
        with self._closed_on_a_fault():
            super().__init__(channel=self.channel, can_filters=can_filters)  # type: ignore[arg-type]
            self._compare(rates)
        self._is_shutdown = False

    @contextlib.contextmanager
    def _closed_on_a_fault(self) -> Iterator[None]:
        """Closes the connection if the `with` block raises an exception."""
        try:
            yield
        except CanOperationError as fault:
            self._session.close()
            raise CanInitializationError(f"{self.channel_info}: {fault}") from None
        except BaseException:
            self._session.close()
            raise

    def _prepare(self) -> None:
        """Sets the attributes that do not depend on the connection."""
        # python-can 4.3 and later have this attribute.
        protocols = getattr(can, "CanProtocol", None)
        if protocols is not None:
            self._can_protocol = protocols.CAN_FD if self._fd else protocols.CAN_20
        self._make = functools.partial(Message, channel=self.channel)
        self._pairs: list[tuple[int, int]] = []
        self._filters_here = False
        self._unfiltered = 0
        self._lock_send_periodic = threading.Lock()

    def _compare(self, rates: Mapping[str, int]) -> None:
        """Warns if the server's bit rates differ from these. The server is queried only if there are bit rates to
        compare."""
        load = load_of(self._session.answer("load")) if rates else None
        if load is None:
            # An older server does not report bit rates.
            return
        for name, rate in rates.items():
            own = getattr(load, name)
            if own != rate:
                said = f"that of the server is {own}" if own else "the server has none, and frames take no time"
                LOG.warning("%s: %s %s is left out: %s", self.channel, name, rate, said)

    def __enter__(self: Self) -> Self:
        # In python-can 4.1, this method has no type annotation.
        return self

    @overload
    def send(self, msg: Union[Message, Frame], timeout: Optional[float] = None) -> None:
        ...

    @overload
    def send(
        self,
        msg: int,
        data: bytes = b"",
        *,
        timeout: Optional[float] = None,
        is_extended_id: Optional[bool] = None,
        is_fd: bool = False,
    ) -> None:
        ...

    # The second argument is `data` in one overload, and `timeout` in the other.
    @explained()  # type: ignore[misc]
    def send(
        self,
        msg: Union[Message, Frame, int],
        data: Union[bytes, float, None] = None,
        timeout: Optional[float] = None,
        *,
        is_extended_id: Optional[bool] = None,
        is_fd: bool = False,
    ) -> None:
        """Puts a message into the transmit queue of the interface.

        When the call returns, the server has accepted the message. The message is sent as soon as it wins arbitration.
        As with a bench, the message may also be a Frame, or an identifier followed by data: ``send(0x123, b"\\x01")``.
        An identifier above 7FF is a 29-bit identifier.

        :param timeout: how many seconds to wait for room in a full transmit queue; without it, a full queue is an error
        :raises ~can.exceptions.CanOperationError: if the server refuses the message; the ``error_code`` is ``ENOBUFS``
            for ``no buffers``, and ``ENETDOWN`` for ``bus off`` and ``interface down``
        :raises ~can.exceptions.CanTimeoutError: if the queue was full until the timeout, or the server did not reply
        :raises ValueError: if this bus can't send the message
        """
        if isinstance(msg, int):
            given = b"" if data is None else data_bytes(data)
            msg = frame_to_send(msg, given, is_extended_id=is_extended_id, is_fd=is_fd)
        elif data is not None:
            # If the first argument is a message, the second is the timeout.
            if isinstance(data, bool) or not isinstance(data, (int, float)):
                raise ValueError(f"timeout is a number of seconds, and data is of an identifier: {data!r}")
            timeout = data
        self._session.send(self._command(msg), timeout)

    def send_many(self, msgs: Iterable[Message], timeout: Optional[float] = None) -> None:
        """Sends messages in order. Each write to the server contains as many messages as fit into the transmit queue.

        All messages are read from `msgs` before the first is sent. If messages only become available over time, call
        :meth:`send` for each message. When this method returns, the server has accepted all messages. At most
        :attr:`window` of them are in the transmit queue at the same time. The queue may still be full, because other
        sockets use the same interface or the queue is shorter. Refused messages are then sent again, after the accepted
        messages of the same write.

        :param timeout: how many seconds all messages together may take; without it, the call continues as long as the
            server accepts at least one message within the timeout of the bus
        :raises: the same errors as :meth:`send`; the text says how many messages were accepted
        """
        if not isinstance(msgs, Iterable):
            raise ValueError(f"msgs are several can.Message, as a list, not {msgs!r}")
        self._session.send_many([self._command(msg) for msg in msgs], self.window, timeout)

    def set_filters(self, filters: Optional[Filters] = None) -> None:
        """Receives only messages that match one of these filters, by the rules of linux/can.h. Without filters, all
        messages are received.

        If ``extended`` of a filter is true, the filter matches only frames with 29-bit identifiers; if it is false,
        only frames with 11-bit identifiers. Remote frames are filtered like data frames. Bit 29 of ``can_id`` inverts a
        filter. Error message frames are not filtered.
        """
        super().set_filters(filters)  # type: ignore[arg-type]

    @property
    def state(self) -> BusState:
        """The state of the interface: ACTIVE (even at error warning), PASSIVE, or ERROR if it is bus off or down.

        Setting ACTIVE restarts the interface after bus off, or brings it up if it is down. No other state can be set.
        """
        return BUS_STATES[self.error_counters().state]

    @state.setter
    def state(self, new_state: BusState) -> None:
        if new_state is not BusState.ACTIVE:
            raise NotImplementedError(
                f"{new_state} can't be set: there is no listen-only mode; down() takes it off the bus"
            )
        self._session.restart(is_needed=False)

    def restart(self) -> None:
        """Restarts the interface after bus off, or brings it up if it is down. Raises CanOperationError in any other
        state."""
        self._session.restart()

    def down(self) -> None:
        """Takes the interface off the bus, like `ip link set can0 down`. The frames in its transmit queue are lost.

        Until `up` is called, the interface sends, accepts and acknowledges nothing, and attempts to send fail with
        `interface down`. Its sockets stay open. If the interface is already down, nothing changes.
        """
        self._session.down()

    def up(self) -> None:
        """Brings the interface up, or restarts it after bus off. Both error counters are then 0. It is not an error if
        the interface is already up."""
        self._session.up()

    def error_counters(self) -> ErrorCounters:
        """Returns the state of the interface and its error counters."""
        return self._session.error_counters()

    def stats(self) -> Stats:
        """Returns the counts of this socket and its interface."""
        return self._session.stats()

    def load(self) -> Load:
        """Returns the bus load and the bit rates; `Load(0, 0, 0, 0)` if the bus has no bit rates."""
        return self._session.load()

    def fileno(self) -> int:
        """Returns a file descriptor that is readable when `recv` would return a message or raise an error immediately.

        Programs must not read from the descriptor. It is also readable if this process has already read the next frame
        from the server.
        """
        return self._session.fileno()

    def flush_tx_buffer(self) -> None:
        """Always raises NotImplementedError: the frames in the transmit queue of an interface can't be removed."""
        raise NotImplementedError("frames in the transmit queue of an interface can't be taken back")

    def shutdown(self) -> None:
        """Ends the session. A `recv` or `send` that is waiting in another thread raises CanOperationError. This method
        may be called again."""
        super().shutdown()
        self._is_shutdown = True
        self._session.close()

    @staticmethod
    def _detect_available_configs() -> "list[AutoDetectedConfig]":
        """Returns the interfaces of the default server, for `can.detect_available_configs`."""
        try:
            return [{"interface": "canbusd", "channel": name} for name in interfaces(timeout=DETECTION)]
        except (CanInitializationError, ValueError):
            return []

    def recv(self, timeout: Optional[float] = None) -> Optional[Message]:
        """Returns the next message; None if no message arrives within `timeout` seconds.

        This method uses the monotonic clock. python-can's own method computes the remaining time with `time.time`,
        which has a resolution of a quarter of a microsecond.
        """
        message, _ = self._recv_internal(timeout)
        if message is not None:
            BUS_LOG.log(self.RECV_LOGGING_LEVEL, "Received: %s", message)
        return message

    def _recv_internal(self, timeout: Optional[float]) -> tuple[Optional[Message], bool]:
        deadline = None if timeout is None else time.monotonic() + timeout
        while True:
            message = self._next(timeout)
            if message is None or self._passes(message):
                return message, True
            if deadline is not None:
                timeout = max(0.0, deadline - time.monotonic())

    def send_periodic(self, msgs: Any, *args: Any, **kwargs: Any) -> CyclicSendTaskABC:
        """Sends a message periodically, as defined by python-can. The message may also be a Frame, here and in the
        task's `modify_data`."""
        task: Any = super().send_periodic(as_message(msgs), *args, **kwargs)
        modify = getattr(task, "modify_data", None)
        if modify is not None:
            task.modify_data = lambda messages: modify(as_message(messages))
        return cast(CyclicSendTaskABC, task)

    def _send_periodic_internal(self, *args: Any, **kwargs: Any) -> CyclicSendTaskABC:
        # The task's thread holds this lock while it sends. So the thread can't send before the task has its Periodic
        # bus.
        with self._lock_send_periodic:
            task = super()._send_periodic_internal(*args, **kwargs)
            cast(Any, task).bus = Periodic(self)
        return task

    def _apply_filters(self, filters: Any) -> None:
        message = filter_message(filters)
        self._pairs = [filter_words(one) for one in filters or ()]
        # Filters that do not fit into one message to the server are applied by this process.
        self._filters_here = message is None
        answer = self._session.answer(message or str(filter_message(None)))
        if answer:
            raise refusal(answer)
        self._unfiltered = self._session.frames_at_hand() if self._pairs else 0

    def _next(self, timeout: Optional[float]) -> Optional[Message]:
        text = self._session.frame(timeout)
        try:
            message = None if text is None else self._message(text)
        except (TypeError, ValueError):
            message = None
        if text is not None and (message is None or not isfinite(message.timestamp)):
            raise CanOperationError(f"no message of canbusd: {text} >")
        return message

    def _message(self, text: str) -> Message:
        """Returns the message in a line from the server. If the bus receives its own messages, `is_rx` is false for
        those."""
        if not self._receives_own:
            return frame_of_message(self._make, *text.split()[1:])
        text, number = without_origin(text)
        message = frame_of_message(self._make, *text.split()[1:])
        message.is_rx = number is None or not self._is_own(number)
        return message

    def _is_own(self, number: int) -> bool:
        """Returns whether this bus sent the frame with this number at the interface."""
        return self._session.is_own(number)

    def _passes(self, message: Message) -> bool:
        """Returns whether a message passes the filters. A message that the server has already filtered passes without a
        check."""
        if not self._filters_here:
            if not self._unfiltered:
                return True
            self._unfiltered -= 1
        if message.is_error_frame:
            return True
        return passes_filters(identifier_word(message), self._pairs, self._join)

    def _command(self, msg: Union[Message, Frame]) -> str:
        """Returns the protocol command that sends this message. Raises ValueError if the message can't be sent."""
        if not isinstance(msg, (Message, Frame)):
            raise ValueError(f"msg is a can.Message, such as can.Message(arbitration_id=0x123, data=[1]), not {msg!r}")
        if msg.is_fd and not self._fd:
            raise ValueError("an FD frame needs a bus with fd=True")
        return command_of(msg)

    def _open(self, messages: Sequence[str]) -> RawSession:
        try:
            session = RawSession(self.address, self.channel, messages, self._timeout, self._receives_own)
            session.planted = placement.at_sockets_of(self.channel)
            return session
        except (OSError, SessionRefused) as fault:
            raise CanInitializationError(f"{self.channel_info}: {reason_of(fault)}") from None

    def _answer(self, message: str) -> str:
        return self._session.answer(message)

    def _refusal(self, text: str) -> Exception:
        return refusal(text)
