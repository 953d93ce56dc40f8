"""The segments of an ISO-TP message (ISO 15765-2), their names, and their possible faults."""

from collections.abc import Iterator, Sequence
from dataclasses import dataclass, replace
from typing import Literal, NamedTuple, Optional, get_args

from canbusd._calls import meant
from canbusd._words import FD_LENGTHS

Kind = Literal["lost", "twice", "late", "short", "wrong number", "wait", "overflow"]
KINDS: tuple[Kind, ...] = get_args(Kind)
SINGLE, FIRST, CONSECUTIVE, FLOW_CONTROL = "single frame", "first frame", "consecutive frame", "flow control"
#: The kinds of segments, by the upper four bits of a segment's first byte.
CODES = {0: SINGLE, 1: FIRST, 2: CONSECUTIVE, 3: FLOW_CONTROL}
#: The status values of a flow control: continue, wait, and message too long.
GO_ON, WAIT, OVERFLOW = range(3)
#: The byte that pads frames if no padding is given. It causes no stuff bits.
FILLER = 0xCC
#: Faults that are possible for only one kind of segment.
ONLY_FOR: dict[str, str] = {"wrong number": CONSECUTIVE, "wait": FLOW_CONTROL, "overflow": FLOW_CONTROL}


@dataclass(frozen=True)
class SegmentFault:
    """A fault of a segment. It is injected into the next messages that have this segment. Use uds.fault to create one."""

    segment: str
    kind: Kind
    #: How many messages the fault is injected into.
    count: int = 1
    #: The delay of a late segment in seconds.
    delay: float = 1.5


def fault(segment: str, kind: Kind, *, count: int = 1, delay: float = 1.5) -> SegmentFault:
    """Returns a fault for a segment, such as ``fault("consecutive frame 3", "lost")``. Pass it to `inject` of an ISO-TP
    end, an Ecu or a Client.

    A segment is a `single frame`, `first frame`, `consecutive frame N` with N starting at 1, or `flow control`. It can
    be `lost`, sent `twice`, `late` by `delay` seconds, or too `short` by one byte. A consecutive frame can also have
    the `wrong number`. A flow control can also be `wait`, followed by a normal flow control after the delay, or
    `overflow`. The fault is injected into the next `count` messages that have this segment.
    """
    name, _, number = str(segment).partition(f"{CONSECUTIVE} ")
    if segment not in (SINGLE, FIRST, FLOW_CONTROL) and not (not name and number.isdecimal() and int(number) > 0):
        known = f"'{SINGLE}', '{FIRST}', '{CONSECUTIVE} N' with N from 1, or '{FLOW_CONTROL}'"
        raise ValueError(f"segment is {known}, not {segment!r}")
    if kind not in KINDS:
        raise ValueError(f"kind is one of {', '.join(KINDS)}, not {kind!r}{meant(str(kind), KINDS)}")
    if not segment.startswith(ONLY_FOR.get(kind, "")):
        raise ValueError(f"a {segment} can't be {kind!r}: only a {ONLY_FOR[kind]} can")
    if isinstance(count, bool) or not isinstance(count, int) or count < 1:
        raise ValueError(f"count is a number of messages, 1 or more, not {count!r}")
    if not isinstance(delay, (int, float)) or not delay >= 0:
        raise ValueError(f"delay is a number of seconds, 0 or more, not {delay!r}")
    return SegmentFault(segment, kind, count, delay)


@dataclass(frozen=True)
class Segment:
    """A segment of a message: its name, and its bytes without padding."""

    name: str
    data: bytes
    #: How many seconds to wait before this segment is sent.
    delay: float = 0.0


class Received(NamedTuple):
    """A segment in a received frame: its kind, the value in its first byte or the length of the message, and the data
    bytes."""

    name: str
    number: int
    data: bytes


def segments_of(data: bytes, tx_dl: int, address: bytes) -> Iterator[Segment]:
    """Yields the segments of a message. Each segment has at most `tx_dl` bytes, and begins with the address byte if
    there is one."""
    head = len(address)
    if len(data) <= 7 - head:
        yield Segment(SINGLE, address + bytes([len(data)]) + data)
    elif len(data) <= tx_dl - 2 - head and tx_dl > 8:
        yield Segment(SINGLE, address + bytes([0, len(data)]) + data)
    else:
        end = tx_dl - 2 - head
        yield Segment(FIRST, address + (0x1000 | len(data)).to_bytes(2, "big") + data[:end])
        size = tx_dl - 1 - head
        for number, start in enumerate(range(end, len(data), size), 1):
            content = bytes([0x20 | number % 16]) + data[start : start + size]
            yield Segment(f"{CONSECUTIVE} {number}", address + content)


def flow_control(status: int, block_size: int, stmin: int, address: bytes) -> Segment:
    """Returns a flow control segment."""
    return Segment(FLOW_CONTROL, address + bytes([0x30 | status, block_size, stmin]))


def read_segment(data: bytes, head: int) -> Received:
    """Returns the segment in a frame after `head` address bytes. Raises ValueError if the frame contains no segment."""
    content = data[head:]
    name = CODES.get(content[0] >> 4) if content else None
    if name is None:
        raise ValueError(f"no segment: {data.hex(' ')}")
    number, rest = content[0] & 15, content[1:]
    if name == SINGLE and number == 0 and rest:
        # In an FD frame, the length of a longer single frame is in a separate byte.
        number, rest = rest[0], rest[1:]
    if name == SINGLE:
        if not 0 < number <= len(rest):
            raise ValueError(f"a single frame of a wrong length: {data.hex(' ')}")
        rest = rest[:number]
    if name == FIRST and rest:
        number, rest = number << 8 | rest[0], rest[1:]
    return Received(name, number, rest)


def filled(data: bytes, padding: Optional[int]) -> bytes:
    """Returns the data of a frame, padded to at least 8 bytes if `padding` is given, and to a valid length for FD
    frames."""
    size = next(length for length in FD_LENGTHS if length >= len(data))
    if padding is not None:
        size = max(size, 8)
    return data.ljust(size, bytes([FILLER if padding is None else padding]))


def with_fault(segment: Segment, kind: Kind, delay: float) -> Sequence[Segment]:
    """Returns the segments that are sent instead of a segment because of a fault."""
    if kind == "lost":
        return []
    if kind == "twice":
        return [segment, segment]
    if kind == "short":
        return [replace(segment, data=segment.data[:-1])]
    if kind == "late":
        return [replace(segment, delay=delay)]
    assert kind == "wrong number", kind
    return [replace(segment, data=_renumbered(segment.data))]


def _renumbered(data: bytes) -> bytes:
    """Returns the bytes of a consecutive frame whose sequence number is one too high."""
    place = 0 if data[0] >> 4 == 2 else 1
    return data[:place] + bytes([0x20 | (data[place] + 1) % 16]) + data[place + 1 :]


def distance(stmin: int) -> float:
    """Returns the minimum time between two consecutive frames in seconds. `stmin` is the byte in the flow control.

    For a reserved value, returns the longest possible time, as the standard requires.
    """
    if 0xF1 <= stmin <= 0xF9:
        return (stmin - 0xF0) / 10_000
    return min(stmin, 0x7F) / 1000
