"""A bus inside this process, simulated by libcanbusd without a server, sockets, threads or clocks.

    bus = LocalBus("can0,can1")
    ecu, tester = bus.open("can0"), bus.open("can1")
    ecu.send(0x123, b"\\x11\\x22")
    bus.attempt()
    assert tester.receive() == Frame(0x123, b"\\x11\\x22")

Frames are transmitted during `attempt` and `run`. With `attempts="sent"`, they are transmitted during the call that
sends them. With python-can: `can.Bus(interface="canbusd", channel="can0", local=bus)`. Several threads may use one bus:
each call is completed before the next call begins. This module does not need python-can.
"""

import ctypes
import struct
import threading
import weakref
from collections.abc import Sequence
from types import TracebackType
from typing import Literal, Optional, TypeVar, Union

from canbusd._calls import NamesWhatThereIs, explained
from canbusd._library import library as lib
from canbusd._library.library import LibraryNotFound as LibraryNotFound, library, text_of
from canbusd._process.program_run import Ack, bus_of, option_words, rates_by_bus
from canbusd._process.rates import BitRate
from canbusd._session.arguments import mask_or_truth
from canbusd._session.injection import Refused as Refused
from canbusd._session.protocol import ALL_CLASSES, ErrorCounters, Filters, Load, State, Stats, filter_words
from canbusd.faults import Script, rules_of
from canbusd.frames import (
    ERROR,
    EXTENDED,
    REMOTE,
    Frame,
    data_bytes,
    flag_number,
    flags_of,
    frame_to_send,
    identifier_word,
    with_fields,
)
from canbusd.record import Outcome

Self = TypeVar("Self", bound="LocalBus")

STATES: tuple[State, ...] = ("active", "warning", "passive", "off", "down")
OUTCOMES: tuple[Outcome, ...] = ("idle", "done", "lastbit", "destroyed", "noack")
ERR_FILTER, LOOPBACK, RECV_OWN, FD_FRAMES, JOIN = 2, 3, 4, 5, 6
FDF = 4
BAD_RUN = 23
# The offsets of the outcome and of the timestamp in struct canbusd_tried.
OUTCOME_AT, MOMENT_AT = 72, 88
MOMENT = struct.Struct("=Q")
# The maximum number of entries in the cache of frame heads.
MOST_HEADS = 4096
put_frame, item_in, tried_in = lib.FRAME.pack_into, lib.ITEM.unpack, lib.TRIED.unpack


class HeadsOfFrames(dict[bytes, tuple[dict[str, object], int]]):
    """A cache for the fields of frames and their data lengths. The key is the head of a frame's struct. Computing the
    fields takes longer than a call of the library."""

    def __missing__(self, head: bytes) -> tuple[dict[str, object], int]:
        word, length, flags = lib.HEAD.unpack(head)
        is_remote = bool(word & REMOTE)
        fields = {
            "arbitration_id": word & 0x1FFFFFFF,
            "data": b"",
            "is_extended_id": word >= EXTENDED,
            "is_remote_frame": is_remote,
            "is_error_frame": bool(word & ERROR),
            "is_fd": flags >= FDF,
            "dlc": length,
            "timestamp": 0.0,
            "is_rx": True,
            **flags_of(flags),
        }
        if len(self) >= MOST_HEADS:
            self.clear()
        found = self[head] = fields, 0 if is_remote else length
        return found


HEADS = HeadsOfFrames()


def frame_of(head: bytes, data: bytes, micros: int) -> Frame:
    """Returns the frame in a struct of the library, without checking its fields."""
    fields, length = HEADS[head]
    fields = fields.copy()
    fields["data"] = data[:length]
    fields["timestamp"] = micros / 1e6
    return with_fields(fields)


class Tried:
    """The outcome of an attempt to send a frame."""

    __slots__ = ("_names", "_struct")

    def __init__(self, names: Sequence[str], tried: bytes) -> None:
        # The struct is decoded only when one of the properties is read.
        self._names, self._struct = names, tried

    @property
    def frame(self) -> Frame:
        """The frame."""
        head, data, _, _, _, micros, *_ = tried_in(self._struct)
        return frame_of(head, data, micros)

    @property
    def winner(self) -> str:
        """The interface that won arbitration."""
        return self._names[self._field(3)]

    @property
    def number(self) -> int:
        """The number of the frame at the interface that won arbitration."""
        return self._field(4)

    @property
    def outcome(self) -> Outcome:
        """`done` if the frame was sent and received. Otherwise, how the attempt failed: `lastbit`, `destroyed` or
        `noack`."""
        return OUTCOMES[self._field(2)]

    @property
    def accepted(self) -> tuple[str, ...]:
        """The interfaces that accepted the frame."""
        return self._named(6)

    @property
    def off(self) -> tuple[str, ...]:
        """The interfaces that went bus off in this attempt."""
        return self._named(7)

    @property
    def restarted(self) -> tuple[str, ...]:
        """The interfaces that were restarted automatically after this attempt."""
        return self._named(8)

    def _field(self, place: int) -> int:
        number: int = tried_in(self._struct)[place]
        return number

    def _named(self, place: int) -> tuple[str, ...]:
        bits = self._field(place)
        return tuple(name for iface, name in enumerate(self._names) if bits >> iface & 1)

    def __eq__(self, other: object) -> bool:
        return isinstance(other, Tried) and (self._names, self._struct) == (other._names, other._struct)

    def __hash__(self) -> int:
        return hash(self._struct)

    def __repr__(self) -> str:
        said = f"frame={self.frame}, winner={self.winner}, number={self.number}, outcome={self.outcome}"
        return f"Tried({said}, accepted={self.accepted}, off={self.off}, restarted={self.restarted})"


class LocalSocket(NamesWhatThereIs):
    """A raw socket on an interface of a local bus, created by `LocalBus.open`."""

    _INSTEAD = {
        **dict.fromkeys(("recv", "read"), "receive() returns the oldest frame, or None"),
        **dict.fromkeys(("status", "counters"), "the bus has it: bus.status('can0')"),
    }

    def __init__(self, bus: "LocalBus", number: int, channel: str) -> None:
        self._bus, self._number = bus, number
        #: The name of the socket's interface.
        self.channel = channel
        # The arguments of the library calls for each frame, as reusable ctypes objects.
        self._given = ctypes.c_uint32(number)
        self._sent = ctypes.create_string_buffer(lib.FRAME.size)
        self._room = ctypes.create_string_buffer(lib.ITEM.size)

    @explained()
    def send(
        self,
        frame: Union[Frame, int],
        data: bytes = b"",
        *,
        is_extended_id: Optional[bool] = None,
        is_fd: bool = False,
    ) -> None:
        """Puts a frame into the transmit queue of the interface. The argument is a Frame, or an identifier followed by
        data.

        :raises Refused: `no buffers`, `bus off`, `interface down`, `fd frames off` or `record full`
        """
        if isinstance(frame, Frame):
            length, data, word = frame.dlc, frame.data, identifier_word(frame)
            flags = FDF + flag_number(frame) if frame.is_fd else 0
            word |= ERROR * frame.is_error_frame
        elif is_extended_id is None and not is_fd and data.__class__ is bytes and frame.__class__ is int and frame >= 0:
            # For the most common kind of frame, the fields are checked by the library.
            length, word, flags = len(data), frame if frame < 0x800 else frame | EXTENDED, 0
            if length > 8 or frame >= EXTENDED >> 2:
                frame_to_send(frame, data)
        else:
            self.send(frame_to_send(frame, data_bytes(data), is_extended_id=is_extended_id, is_fd=is_fd))
            return
        bus = self._bus
        with bus._turn:
            put_frame(self._sent, 0, word, length, flags, data)
            code = bus._send(bus._handle, self._given, self._sent, None)
            if code:
                raise bus._refused(code)
            if bus._settles:
                bus._settle()

    def receive(self) -> Optional[Frame]:
        """Returns the oldest frame or error message frame in the receive queue; None if the queue is empty."""
        bus = self._bus
        with bus._turn:
            code = bus._receive(bus._handle, self._given, self._room)
            if code:
                if code == lib.NOTHING:
                    return None
                raise bus._refused(code)
            head, data, micros = item_in(self._room)
        return frame_of(head, data, micros)

    def wait(self, timeout: Optional[float] = None) -> Optional[Frame]:
        """Returns the oldest frame in the receive queue. If the queue is empty, waits until another thread sends a
        frame. Returns None after `timeout` seconds."""
        bus = self._bus
        with bus._news:
            found: list[Frame] = []

            def has_come() -> bool:
                frame = self.receive()
                if frame is not None:
                    found.append(frame)
                return frame is not None

            bus._waiting += 1
            try:
                bus._news.wait_for(has_come, timeout)
            finally:
                bus._waiting -= 1
        return found[0] if found else None

    def set_filters(self, filters: Optional[Filters] = None) -> None:
        """Receives only frames that match one of these filters, by the rules of linux/can.h. None removes the filters."""
        pairs = [(0, 0)] if filters is None else [filter_words(one) for one in filters]
        packed = b"".join(lib.FILTER.pack(*pair) for pair in pairs)
        self._bus._call("set_filters", self._number, packed or None, len(pairs))

    def set_option(self, option: int, value: int) -> None:
        """Sets a socket option, given by its number in linux/can/raw.h."""
        self._bus._call("set_option", self._number, option, value)

    def stats(self) -> Stats:
        """Returns the counts of this socket and its interface."""
        counts = lib.STATS.unpack(self._bus._read("get_stats", self._number, lib.STATS.size))
        return Stats(*counts, *self._bus._status(self.channel)[3:])

    def close(self) -> None:
        """Closes the socket. Frames that were sent through it remain in the transmit queue."""
        self._bus._call("close", self._number, None)


class LocalBus(NamesWhatThereIs):
    """A bus with these interfaces, given as `"can0,can1"` or a list. The options are the same as for a Bench.

    With `attempts="sent"`, each call that sends a frame also makes attempts until no frame is queued. On a bus with bit
    rates, these attempts last as long as their bits, and `moment` advances.
    """

    _INSTEAD = {
        "bus": "open('can0') returns a socket",
        **dict.fromkeys(("send", "receive", "recv"), "a socket sends and receives: open('can0').send(0x123)"),
        "up": "restart('can0') brings it up",
        "stats": "a socket has it: open('can0').stats()",
        "stop": "close()",
    }

    @explained()
    def __init__(
        self,
        names: Union[str, Sequence[str]],
        *,
        faults: Optional[Script] = None,
        ack: Ack = "always",
        report: bool = False,
        auto_restart: int = 0,
        txqueue: int = 10,
        limit: int = 1_000_000,
        bitrate: Optional[BitRate] = None,
        data_bitrate: Optional[BitRate] = None,
        dbitrate: Optional[BitRate] = None,
        attempts: Literal["called", "sent"] = "called",
    ) -> None:
        if attempts not in ("called", "sent"):
            raise ValueError(f"attempts is 'called' or 'sent', not {attempts!r}")
        option_words(ack, report, auto_restart=auto_restart, txqueue=txqueue, limit=limit)
        #: The names of the interfaces.
        self.names, faults = bus_of(names, faults)
        rates = rates_by_bus({self.names[0]: self.names}, bitrate, data_bitrate, dbitrate)[self.names[0]]
        #: The current time of the bus in microseconds, at which attempts are made. On a bus with bit rates, attempts
        #: advance this time.
        self.moment = 0
        self._is_timed = rates is not None
        self._settles = attempts == "sent"
        self._turn = threading.RLock()
        self._news = threading.Condition(self._turn)
        # The number of threads that are waiting for a frame.
        self._waiting = 0
        config = lib.config_of(len(self.names), ack, report, auto_restart, txqueue, limit, rates)
        # The library's pointer to the bus; NULL after the bus is closed.
        self._handle = ctypes.c_void_p()
        functions = library()
        code = functions.canbusd_new(",".join(self.names).encode(), config, ctypes.addressof(self._handle))
        if code:
            raise Refused(text_of(code))
        self._end = weakref.finalize(self, functions.canbusd_free, self._handle.value)
        self._send, self._receive, self._attempt = lib.quick("send"), lib.quick("receive"), lib.quick("attempt")
        # The arguments of the library calls for each attempt, as reusable ctypes objects.
        self._at, self._tried = ctypes.c_uint64(), ctypes.create_string_buffer(lib.TRIED.size)
        if faults is not None:
            self.inject(faults)

    def __enter__(self: Self) -> Self:
        return self

    def __exit__(
        self, kind: Optional[type[BaseException]], fault: Optional[BaseException], trace: Optional[TracebackType]
    ) -> None:
        self.close()

    def close(self) -> None:
        """Frees the bus. Later calls on the bus or its sockets raise Refused."""
        with self._turn:
            self._handle.value = None
            self._end()

    @explained()
    def open(
        self,
        channel: str,
        can_filters: Optional[Filters] = None,
        *,
        fd: bool = False,
        receive_own_messages: bool = False,
        local_loopback: bool = True,
        error_frames: Union[bool, int] = True,
        join_filters: bool = False,
        rxqueue: int = 256,
    ) -> LocalSocket:
        """Opens a raw socket on this interface. Its receive queue has room for `rxqueue` frames. The other options are
        the same as for CanbusdBus."""
        number = ctypes.c_uint32()
        with self._turn:
            self._call("open", self._iface(channel), rxqueue, ctypes.addressof(number))
            socket = LocalSocket(self, number.value, channel)
            mask = mask_or_truth("error_frames", error_frames)
            socket.set_option(ERR_FILTER, ALL_CLASSES * mask if isinstance(mask, bool) else mask)
            for option, value in ((FD_FRAMES, fd), (RECV_OWN, receive_own_messages), (JOIN, join_filters)):
                if value:
                    socket.set_option(option, 1)
            if not local_loopback:
                socket.set_option(LOOPBACK, 0)
            if can_filters is not None:
                socket.set_filters(can_filters)
        return socket

    def attempt(self) -> Optional[Tried]:
        """Makes the next attempt at the time `moment`. Returns its outcome; None if no interface has a frame to send."""
        with self._turn:
            self._attempt_once()
            tried = self._tried.raw
        return Tried(self.names, tried) if tried[OUTCOME_AT] else None

    def run(self, seconds: Optional[float] = None) -> int:
        """Makes all attempts that are due, and returns how many there were.

        On a bus with bit rates, makes the attempts that begin within `seconds`, and advances `moment` by `seconds`.
        Without `seconds`, or on a bus without bit rates, makes attempts until no interface has a frame to send.
        """
        with self._turn:
            if seconds is None or not self._is_timed:
                return self._settle()
            made = ctypes.c_uint64()
            self.moment += round(seconds * 1e6)
            code = library().canbusd_run(self._handle, self.moment, ctypes.addressof(made))
            # BAD_RUN means that the bus stays busy for longer than `seconds`, so that no attempt can begin.
            if code not in (lib.OK, BAD_RUN):
                raise self._refused(code)
            self._news.notify_all()
            return made.value

    def inject(self, rules: Script) -> None:
        """Adds fault rules after the existing rules."""
        for rule in rules_of(rules):
            self._call("inject", str(rule).encode())

    def end_rules(self) -> None:
        """Ends all rules."""
        self._call("end_rules")

    def status(self, channel: str) -> ErrorCounters:
        """Returns the state of an interface and its error counters."""
        state, tec, rec, *_ = self._status(channel)
        return ErrorCounters(STATES[state], tec, rec)

    def restart(self, channel: str) -> None:
        """Restarts an interface after bus off, or brings it up if it is down."""
        self._call("restart", self._iface(channel), self.moment)

    def down(self, channel: str) -> None:
        """Takes an interface off the bus. The frames in its transmit queue are lost."""
        self._call("down", self._iface(channel), self.moment)

    def load(self) -> Load:
        """Returns the bus load and the bit rates; `Load(0, 0, 0, 0)` if the bus has no bit rates."""
        permille, rate, fast, _, micros = lib.LOAD.unpack(self._read("get_load", self.moment, lib.LOAD.size))
        return Load(permille, micros, rate, fast)

    def record(self) -> bytes:
        """Returns the record of the bus as bytes, which `canbusd audit` and `read_record` can read."""
        with self._turn:
            length = ctypes.c_size_t()
            self._call("record", None, 0, ctypes.addressof(length))
            text = ctypes.create_string_buffer(max(length.value, 1))
            self._call("record", text, length.value, ctypes.addressof(length))
            return text.raw[: length.value]

    def _attempt_once(self) -> None:
        """Makes one attempt at the current time of the bus."""
        self._at.value = self.moment
        code = self._attempt(self._handle, self._at, self._tried)
        if code:
            raise self._refused(code)
        if self._is_timed:
            self.moment = max(self.moment, *MOMENT.unpack_from(self._tried, MOMENT_AT))
        if self._waiting:
            self._news.notify_all()

    def _settle(self) -> int:
        """Makes attempts until no interface has a frame to send. Returns the number of attempts."""
        made = 0
        while True:
            self._attempt_once()
            if self._tried[OUTCOME_AT] == b"\0":
                return made
            made += 1

    def _iface(self, channel: str) -> int:
        """Returns the index of an interface."""
        if channel not in self.names:
            raise Refused(f"no such interface {channel!r}; the bus has {', '.join(self.names)}")
        return self.names.index(channel)

    def _status(self, channel: str) -> tuple[int, ...]:
        """Returns the fields of an interface's status struct, without its unused field."""
        state, tec, rec, _, *counts = lib.STATUS.unpack(self._read("get_status", self._iface(channel), lib.STATUS.size))
        return (state, tec, rec, *counts)

    def _read(self, name: str, of: int, size: int) -> bytes:
        """Calls a library function that fills a buffer, and returns the content of the buffer."""
        room = ctypes.create_string_buffer(size)
        self._call(name, of, ctypes.addressof(room))
        return room.raw

    def _call(self, name: str, *arguments: object) -> None:
        """Calls a library function. Raises Refused with the reason if the library refuses the call."""
        with self._turn:
            code = getattr(library(), f"canbusd_{name}")(self._handle, *arguments)
        if code:
            raise self._refused(code)

    def _refused(self, code: int) -> Refused:
        """Returns the exception for an error code of the library."""
        return Refused(text_of(code) if self._handle else "the bus is closed")
