"""The protocol of a session: its options, its filters and its answers. The bench and the server use the same protocol.

The functions for frames, `command_of` and `frame_of`, are in canbusd.frames. This module does not need python-can.
"""

from collections.abc import Iterable, Mapping, Sequence
from typing import Any, Literal, NamedTuple, Optional, Union

from canbusd._words import BUS_OFF, INTERFACE_DOWN, LONGEST_MESSAGE, NO_BUFFERS
from canbusd.frames import EXTENDED, INVERTED

# The length of the longest answer, which contains the names of 256 interfaces.
LONGEST_ANSWER = 4120
ALL_CLASSES = 0x1FFFFFFF
# The states of an interface: first the states that depend on its error counts, from best to worst, and then `down`.
State = Literal["active", "warning", "passive", "off", "down"]
STATES: tuple[State, ...] = ("active", "warning", "passive", "off", "down")
# Filters that pass no frame: an inverted filter that matches every frame.
NO_FRAMES = [{"can_id": INVERTED, "can_mask": 0}]

# Refusals that do not end a cyclic message: a full transmit queue, or an interface that is off the bus.
PASSING = (NO_BUFFERS, BUS_OFF, INTERFACE_DOWN)
# The message that users see instead of UNKNOWN_COMMAND, which an older program returns for a message that it does not
# support.
NO_DOWN = "the program is older, and has no interfaces that go down"

Filters = Sequence[Mapping[str, Any]]
A_FILTER = "{'can_id': 0x123, 'can_mask': 0x7FF}"


class ErrorCounters(NamedTuple):
    """The state of an interface, and its error counts."""

    #: One of `active`, `warning`, `passive` and `off`, or `down` for an interface that was taken off the bus.
    state: State
    #: The transmit error count.
    tec: int
    #: The receive error count.
    rec: int


def in_words(name: str, counters: ErrorCounters) -> str:
    """Returns the state of an interface in words: `ecu is off (transmit count 256, receive count 0)`."""
    return f"{name} is {counters.state} (transmit count {counters.tec}, receive count {counters.rec})"


class Stats(NamedTuple):
    """The counts of a socket and of its interface."""

    #: For the socket: the number of frames and error message frames that entered its receive queue.
    queued: int
    #: For the socket: the number of items that were dropped because the queue was full.
    dropped: int
    #: For the socket: the number of items that the client received.
    taken: int
    #: For the interface: the number of frames accepted for sending, with `sent = done + waiting + lost`.
    sent: int
    #: For the interface: the number of frames sent on the bus.
    done: int
    #: For the interface: the number of frames that wait in the transmit queue.
    waiting: int
    #: For the interface: the number of frames lost because it went bus off or down.
    lost: int
    #: For the interface: the number of frames refused because the transmit queue was full.
    refused: int


class Load(NamedTuple):
    """The load and the bit rates of a bus. All values are 0 if the bus has no bit rate."""

    #: The bus load in the last whole second, in thousandths: 1000 is a full bus.
    permille: int
    #: How long the wire has been busy since the server started, in microseconds.
    micros: int
    #: The nominal bit rate, in bit/s.
    bitrate: int
    #: The bit rate for the data of FD frames with a bit rate switch. If the server has no such rate, this is the
    #: nominal bit rate.
    data_bitrate: int


def refusal_in(answer: str) -> str:
    """Returns the reason in a refusal, the empty string for `ok`, or any other answer unchanged."""
    return "" if answer == "ok" else answer.removeprefix("error ")


def numbers(words: Sequence[str], count: int) -> Optional[list[int]]:
    """Returns the values of these words if they are `count` decimal numbers. Otherwise returns None."""
    is_right = len(words) == count and all(word.isascii() and word.isdigit() for word in words)
    return [int(word) for word in words] if is_right else None


def numbers_after(first: str, answer: str, count: int) -> Optional[list[int]]:
    """Returns the numbers that follow the first word of an answer. Returns None if the word or the count of numbers
    differs."""
    words = answer.split()
    return numbers(words[1:], count) if words[:1] == [first] else None


def counters_of(answer: str) -> Optional[ErrorCounters]:
    """Returns the counters in an answer such as `status passive 128 0`, or None for any other message."""
    words = answer.split()
    counts = numbers(words[2:], 2)
    state = next((state for state in STATES if words[1:2] == [state]), None)
    if counts is None or words[0] != "status" or state is None:
        return None
    return ErrorCounters(state, *counts)


def stats_of(answer: str) -> Optional[Stats]:
    """Returns the counts in an answer such as `stats 1 0 1 0 0 0 0 0`, or None for any other message."""
    counts = numbers_after("stats", answer, 8)
    return None if counts is None else Stats(*counts)


def load_of(answer: str) -> Optional[Load]:
    """Returns the load in an answer such as `load 432 1080000 500000 2000000`, or None for any other message."""
    counts = numbers_after("load", answer, 4)
    return None if counts is None else Load(*counts)


def rules_left_of(answer: str) -> Optional[int]:
    """Returns the number of remaining fault rules in an answer such as `faults 3`, or None for any other message."""
    counts = numbers_after("faults", answer, 1)
    return None if counts is None else counts[0]


def interfaces_of(answer: str) -> Optional[list[str]]:
    """Returns the names in an answer such as `interfaces can0 can1`, or None for any other message."""
    words = answer.split()
    return words[1:] if words[:1] == ["interfaces"] else None


def options(
    *,
    fd: bool = False,
    receive_own_messages: bool = False,
    local_loopback: bool = True,
    error_frames: Union[bool, int] = True,
    join_filters: bool = False,
) -> list[str]:
    """Returns the messages that set these options of a new session.

    `error_frames` says whether the session receives error message frames, or is the mask of their error classes. 0 and
    1 are truth values.
    """
    if error_frames == 1:
        error_frames = ALL_CLASSES
    if not isinstance(error_frames, int) or not 0 <= error_frames <= 0xFFFFFFFF:
        raise ValueError(f"error_frames is a truth value or a mask of 32 bits, not {error_frames!r}")
    messages = ["errdata 1"]
    messages += [f"errmask {error_frames:X}"] if error_frames else []
    messages += ["fdframes 1"] if fd else []
    messages += ["recvown 1"] if receive_own_messages else []
    messages += ["loopback 0"] if not local_loopback else []
    messages += ["join 1"] if join_filters else []
    return messages


def filter_words(one: Mapping[str, Any]) -> tuple[int, int]:
    """Returns the identifier and the mask of a python-can filter, with the flags of linux/can.h.

    If the filter has `extended`, only frames whose identifiers have that length pass. Data frames and remote frames are
    treated alike.
    """
    if not isinstance(one, Mapping):
        raise ValueError(f"a filter is a dict with can_id and can_mask, not {one!r}")
    if "can_id" not in one or "can_mask" not in one:
        raise ValueError(f"a filter has can_id and can_mask, as {A_FILTER}, not {dict(one)!r}")
    identifier, mask = one["can_id"], one["can_mask"]
    for name, word in (("can_id", identifier), ("can_mask", mask)):
        if not isinstance(word, int) or not 0 <= word <= 0xFFFFFFFF:
            raise ValueError(f"{name} of a filter is a number of 32 bits, not {word!r}")
    assert isinstance(identifier, int) and isinstance(mask, int)
    if "extended" in one:
        mask |= EXTENDED
        identifier = identifier | EXTENDED if one["extended"] else identifier & ~EXTENDED
    # As in candump, bit 29 of the mask is not used.
    return identifier, mask & ~INVERTED


def filter_message(filters: Optional[Filters]) -> Optional[str]:
    """Returns the message that sets these filters, or None if the filters don't fit into one message. Without filters
    all frames pass."""
    if filters is not None and (isinstance(filters, (str, Mapping)) or not isinstance(filters, Iterable)):
        raise ValueError(f"filters are a list of dicts, such as [{A_FILTER}], not {filters!r}")
    pairs = [filter_words(one) for one in filters] if filters else [(0, 0)]
    words = " ".join(f"{identifier:X} {mask:X}" for identifier, mask in pairs)
    message = f"filter {len(pairs)} {words}"
    return message if len(message) + 2 <= LONGEST_MESSAGE else None
