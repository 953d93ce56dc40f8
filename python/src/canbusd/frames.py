"""Frames: their fields, their format in candump logs, and the meaning of error message frames in words."""

import functools
import re
from collections.abc import Callable, Iterable, Sequence
from dataclasses import dataclass, field
from typing import TYPE_CHECKING, Optional, Protocol, TypeVar, Union

from canbusd._calls import NamesWhatThereIs
from canbusd._text import shown
from canbusd._words import BRS, DATA_BYTES, DATA_LENGTHS, ESI, FD_BYTES, FD_LENGTHS, REMOTE_BYTES, REMOTE_LENGTHS

if TYPE_CHECKING:
    from can.message import Message

EXTENDED, REMOTE, ERROR = 0x80000000, 0x40000000, 0x20000000
# The bit of a filter's identifier word that inverts the filter; ERROR is the same bit of a frame.
INVERTED = 0x20000000
# The meanings of the error message frame classes (linux/can/error.h) that canbusd generates.
CLASSES = [(0x040, "bus off"), (0x100, "restarted"), (0x080, "bus error"), (0x020, "no acknowledgement")]
# The error states in data byte 1 of an error message frame with class 004.
STATE_BITS = [(0x40, "error active"), (0x0C, "error warning"), (0x30, "error passive")]
# The kinds of bus errors in data byte 2, and the positions of bus errors in data byte 3.
FAULTS = [(0x01, "bit error"), (0x02, "form error"), (0x04, "stuff error")]
SENDING = 0x80
PLACES = {
    0x08: "CRC sequence",
    0x0A: "data section",
    0x19: "ACK slot",
    0x1A: "end of frame",
    0x1B: "ACK delimiter",
}
# Matches an error message frame as it is written in a record.
ERROR_FRAME = "[23][0-9A-F]{7}#[0-9A-F]{16}"

# The format of cansend: an FD frame has a second # and a digit with its flags.
SPELLING = re.compile("([0-9A-Fa-f]+)#(?:#([0-9A-Fa-f]))?([0-9A-Fa-fRr.]*)")
# MESSAGE matches a protocol message that delivers a frame or an error message frame to a session. HANDED_OVER lists its
# possible first words. For an FD frame with flags, the flags follow the first word. On request, the message also says
# whether the same interface sent the frame, and the number of the frame at that interface. In replies, no timestamp
# follows `error`.
HANDED_OVER = ("frame", "fdframe", "remote", "error")
MESSAGE = re.compile(
    "(frame|fdframe|fdframex [0-3]|remote|error) ([0-9A-F]+) ([0-9]+[.][0-9]{6})(?: +([0-9A-F]*))?"
    "(?: +(?:same|other) [0-9]+)?"
)


Made = TypeVar("Made")
NEW, SET = object.__new__, object.__setattr__


class BadFrame(ValueError):
    """A string or a set of fields is not a valid frame. The message says why."""


def data_bytes(data: object) -> bytes:
    """Returns the payload of a frame as bytes. Raises BadFrame for a string or an int, which would not be converted to
    the intended bytes."""
    if isinstance(data, str) and re.fullmatch("(?:[0-9A-Fa-f]{2} ?)+", data):
        raise BadFrame(f"data is bytes, such as bytes.fromhex({data!r}), not {data!r}")
    if isinstance(data, (str, int)) or not isinstance(data, Iterable):
        raise BadFrame(f"data is bytes, such as b'\\x01\\x02', or a list of numbers, not {data!r}")
    try:
        return bytes(data)
    except (TypeError, ValueError):
        raise BadFrame(f"data is bytes, or numbers from 0 to 255, not {data!r}") from None


@dataclass(frozen=True)
class Frame(NamesWhatThereIs):
    """A sent or received frame, with the attribute names of python-can's `Message`.

    `str()` returns candump's format, `123#1122`, which `Frame.parse` reads. Unlike a `Message`, a frame has an 11-bit
    identifier by default. Comparisons ignore the timestamp and `is_rx`.
    """

    arbitration_id: int
    data: bytes = b""
    is_extended_id: bool = False
    is_remote_frame: bool = False
    is_error_frame: bool = False
    is_fd: bool = False
    #: The number of data bytes; for a remote frame, the number of requested bytes.
    dlc: int = 0
    timestamp: float = field(default=0.0, compare=False)
    #: False if the frame was sent by the same session that received it.
    is_rx: bool = field(default=True, compare=False)
    #: For an FD frame: whether the data phase uses the data bit rate.
    bitrate_switch: bool = False
    #: For an FD frame: whether the sender signals that it is error passive.
    error_state_indicator: bool = False

    _INSTEAD = {
        **dict.fromkeys(("id", "identifier", "can_id"), "arbitration_id"),
        **dict.fromkeys(("extended", "is_extended"), "is_extended_id"),
        "length": "dlc",
    }

    def __post_init__(self) -> None:
        if self.data.__class__ is not bytes:
            object.__setattr__(self, "data", data_bytes(self.data))
        if not self.is_remote_frame:
            object.__setattr__(self, "dlc", len(self.data))
        check_frame(self)

    @classmethod
    def parse(cls, text: str, timestamp: float = 0.0) -> "Frame":
        """Returns the frame for a string in cansend's format: `123#11.22`, `00000123#R4`, `123##11122`.

        In the flags digit of an FD frame, the value 1 is the bit rate switch and 2 is the error state indicator. Other
        bits are ignored, such as 4, which candump adds to mark FD frames.
        """
        try:
            return cls._parsed(text, timestamp)
        except BadFrame as fault:
            raise BadFrame(f"{shown(str(text)) or 'an empty text'}: {fault}") from None

    @classmethod
    def _parsed(cls, text: str, timestamp: float) -> "Frame":
        words = SPELLING.fullmatch(text) if isinstance(text, str) else None
        if not words:
            raise BadFrame("no frame such as 123#1122, 00000123#R4 or 123##01122")
        digits, flags, payload = words[1], words[2], words[3].upper().replace(".", "")
        number = int(digits, 16)
        is_error = len(digits) == 8 and number >> 29 == 1
        if len(digits) not in (3, 8) or (number > (0x7FF if len(digits) == 3 else 0x1FFFFFFF) and not is_error):
            raise BadFrame("an identifier has 11 bits in 3 digits, as 123, or 29 bits in 8, as 00000123")
        is_extended = len(digits) == 8 and not is_error
        if payload.startswith("R") and flags is None:
            if not re.fullmatch("R[0-8]?", payload):
                raise BadFrame("a remote frame asks for 0 to 8 bytes, as R4 does")
            dlc = int(payload[1:] or "0")
            return cls(number, b"", is_extended, is_remote_frame=True, dlc=dlc, timestamp=timestamp)
        if not re.fullmatch("(?:[0-9A-F]{2})*", payload):
            raise BadFrame("the bytes of data are not pairs of digits, as in 123#01")
        return cls(
            number & 0x1FFFFFFF,
            bytes.fromhex(payload),
            is_extended_id=is_extended,
            is_error_frame=is_error,
            is_fd=flags is not None,
            timestamp=timestamp,
            **flags_of(int(flags or "0", 16)),
        )

    def __str__(self) -> str:
        if self.is_error_frame:
            return f"{self.arbitration_id | ERROR:08X}#{self.data.hex().upper()}"
        digits = f"{self.arbitration_id:08X}" if self.is_extended_id else f"{self.arbitration_id:03X}"
        if self.is_remote_frame:
            return f"{digits}#R{self.dlc or ''}"
        return f"{digits}#{f'#{flag_number(self)}' if self.is_fd else ''}{self.data.hex().upper()}"

    @property
    def meaning(self) -> str:
        """The meaning of an error message frame in words; the empty string for any other frame."""
        return meaning(str(self))

    def message(self, channel: Optional[str] = None) -> "Message":
        """Returns this frame as a python-can message."""
        from can.message import Message

        return Message(channel=channel, **vars(self))


def frame_to_send(id: object, data: bytes = b"", *, is_extended_id: Optional[bool] = None, **more: object) -> Frame:
    """Returns a frame with this identifier and data. An identifier above 7FF is a 29-bit identifier; `is_extended_id`
    overrides this."""
    if isinstance(id, bool) or not isinstance(id, int):
        raise BadFrame(f"an identifier is a number, such as 0x123, not {id!r}")
    extended = id > 0x7FF if is_extended_id is None else is_extended_id
    return Frame(id, data, extended, **more)  # type: ignore[arg-type]


def log_line(name: str, frame: Frame) -> str:
    """Returns a log line in the format of `candump -L`: `(0000000001.000000) can0 123#1122`."""
    return f"({frame.timestamp:017.6f}) {name} {frame}"


def described_line(name: str, frame: Frame) -> str:
    """Returns a log line. If the frame is an error message frame, its meaning in words is appended."""
    return f"{log_line(name, frame)}  {frame.meaning}".rstrip()


class MessageLike(Protocol):
    """The attributes that Frame and python-can's Message have in common."""

    @property
    def arbitration_id(self) -> int:
        ...

    @property
    def data(self) -> Union[bytes, bytearray]:
        ...

    @property
    def is_extended_id(self) -> bool:
        ...

    @property
    def is_remote_frame(self) -> bool:
        ...

    @property
    def is_error_frame(self) -> bool:
        ...

    @property
    def is_fd(self) -> bool:
        ...

    @property
    def dlc(self) -> int:
        ...

    @property
    def timestamp(self) -> float:
        ...

    @property
    def is_rx(self) -> bool:
        ...

    @property
    def bitrate_switch(self) -> bool:
        ...

    @property
    def error_state_indicator(self) -> bool:
        ...


def flags_of(number: int) -> dict[str, bool]:
    """Returns the FD flags in an integer, as a dict by field name."""
    return {"bitrate_switch": bool(number & BRS), "error_state_indicator": bool(number & ESI)}


def flag_number(message: MessageLike) -> int:
    """Returns the FD flags of a frame as an integer."""
    return BRS * message.bitrate_switch + ESI * message.error_state_indicator


def frame_like(message: MessageLike) -> Frame:
    """Returns a Frame with the fields of a python-can message."""
    if isinstance(message, Frame):
        return message
    return Frame(
        message.arbitration_id,
        bytes(message.data),
        message.is_extended_id,
        message.is_remote_frame,
        message.is_error_frame,
        message.is_fd,
        message.dlc,
        message.timestamp,
        message.is_rx,
        message.bitrate_switch,
        message.error_state_indicator,
    )


def check_frame(message: MessageLike) -> None:
    """Raises BadFrame if these fields are not the fields of a valid frame."""
    most = 0x1FFFFFFF if message.is_extended_id or message.is_error_frame else 0x7FF
    if not isinstance(message.arbitration_id, int):
        raise BadFrame(f"arbitration_id is a number, such as 0x123, not {message.arbitration_id!r}")
    if not 0 <= message.arbitration_id <= most:
        cure = "; is_extended_id=True has 29 bits" if 0x7FF < message.arbitration_id <= 0x1FFFFFFF else ""
        raise BadFrame(f"arbitration_id {message.arbitration_id:#x} is not in 0 to {most:X}{cure}")
    if not message.is_fd and (message.bitrate_switch or message.error_state_indicator):
        raise BadFrame("bitrate_switch and error_state_indicator are flags of FD frames")
    length = len(message.data)
    if message.is_remote_frame:
        if length or message.is_fd or message.dlc not in REMOTE_LENGTHS:
            raise BadFrame(f"a remote frame has no data, is no FD frame, and has a dlc of {REMOTE_BYTES}")
    elif length not in (FD_LENGTHS if message.is_fd else DATA_LENGTHS):
        raise BadFrame(f"data has {length} bytes, not {FD_BYTES if message.is_fd else DATA_BYTES}")
    elif message.dlc != length:
        raise BadFrame(f"dlc {message.dlc} is not the length of data, which has {length} bytes")


def command_of(message: MessageLike) -> str:
    """Returns the command by which a session sends a frame or a python-can message, without `<` and `>`."""
    if message.__class__ is not Frame:
        check_frame(message)
    if message.is_error_frame:
        raise BadFrame("an error message frame, which nobody sends")
    digits = f"{message.arbitration_id:08X}" if message.is_extended_id else f"{message.arbitration_id:03X}"
    if message.is_remote_frame:
        return f"sendrtr {digits} {message.dlc}"
    flags = flag_number(message) if message.is_fd else 0
    verb = f"sendfdx {flags}" if flags else "sendfd" if message.is_fd else "send"
    words = f"{verb} {digits} {message.dlc}"
    return f"{words} {message.data.hex(' ').upper()}" if message.dlc else words


def frame_of_message(make: Callable[..., Made], kind: str, *words: str) -> Made:
    """Calls `make` with the fields of a frame, and returns the result. The words are those of a protocol message that
    delivers the frame."""
    if kind == "fdframex":
        flags, *words_of_frame = words
        return made(make, "fdframe", *words_of_frame, flags=int(flags))
    return made(make, kind, *words)


def made(make: Callable[..., Made], kind: str, digits: str, moment: str, payload: str = "", *, flags: int = 0) -> Made:
    """Calls `make` with the fields of a frame and these flags, and returns the result."""
    is_remote, is_error = kind == "remote", kind == "error"
    data = b"" if is_remote else bytes.fromhex(payload)
    return make(
        timestamp=float(moment),
        arbitration_id=int(digits, 16),
        is_extended_id=len(digits) == 8 and not is_error,
        is_remote_frame=is_remote,
        is_error_frame=is_error,
        dlc=int(payload) if is_remote else len(data),
        data=data,
        is_fd=kind == "fdframe",
        **flags_of(flags),
    )


def without_origin(message: str) -> tuple[str, Optional[int]]:
    """Removes ` same 17` or ` other 17` from a message that delivers a frame. Returns the message, and the number after
    `same`, which means that the same interface sent the frame. Without `same`, the number is None."""
    message, _, number = message.partition(" same ")
    return message.partition(" other ")[0], int(number) if number else None


@functools.lru_cache(maxsize=4096)
def fields_of(kind: str, digits: str) -> dict[str, object]:
    """Returns the fields of a frame that depend only on the first words of its protocol message."""
    return vars(frame_of_message(Frame, *kind.split(" "), digits, "0.0", "0" if kind == "remote" else ""))


def with_fields(fields: dict[str, object]) -> Frame:
    """Returns a frame with these fields, without checking them. Calling the constructor of the frozen dataclass would
    be slower."""
    frame = NEW(Frame)
    SET(frame, "__dict__", fields)
    return frame


def frame_of(message: str) -> Optional[Frame]:
    """Returns the frame in a protocol message to a session. The message is given without `<` and `>`. Returns None if
    the message is a reply."""
    words = MESSAGE.fullmatch(message.strip())
    if not words:
        return None
    kind, digits, moment, payload = words.groups("")
    fields = fields_of(kind, digits).copy()
    if kind == "remote":
        fields["dlc"] = int(payload)
    else:
        fields["data"] = data = bytes.fromhex(payload)
        fields["dlc"] = len(data)
    fields["timestamp"] = float(moment)
    frame = with_fields(fields)
    check_frame(frame)
    return frame


def is_fd(text: str) -> bool:
    """Returns whether this string is an FD frame in candump's format."""
    return "##" in text


def is_error(text: str) -> bool:
    """Returns whether this string is an error message frame in candump's format."""
    return text[0] in "23" and text.find("#") == 8


def meaning(text: str) -> str:
    """Returns the meaning of an error message frame in words; the empty string for any other frame."""
    if not is_error(text):
        return ""
    number, data = int(text[:8], 16), bytes.fromhex(text[9:]).ljust(8, b"\0")
    words = [name for bit, name in CLASSES if number & bit]
    if number & 0x080:
        words += fault_words(data)
    if number & 0x004:
        words += [name for bits, name in STATE_BITS if data[1] & bits]
    if number & 0x200:
        words.append(f"transmit count {data[6]}, receive count {data[7]}")
    return ", ".join(words)


def fault_words(data: bytes) -> list[str]:
    """Returns the kind and the position of a bus error in words."""
    words = [name for bit, name in FAULTS if data[2] & bit]
    if data[2] & SENDING:
        words.append("while sending")
    if data[3] in PLACES:
        words.append(f"in the {PLACES[data[3]]}")
    return [" ".join(words)] if words else []


def identifier_word(frame: MessageLike) -> int:
    """Returns the word of a frame that filters compare: the identifier, and one bit each for extended and remote
    frames."""
    return frame.arbitration_id | EXTENDED * frame.is_extended_id | REMOTE * frame.is_remote_frame


def passes_filters(word: int, filters: Sequence[tuple[int, int]], join: bool) -> bool:
    """Returns whether an identifier word passes these filters. Each filter is a pair of identifier word and mask
    (linux/can/raw.h). The word must match at least one filter, or all filters if `join` is true. Without filters, no
    word passes.
    """
    matches = [((word ^ identifier) & mask == 0) != bool(identifier & INVERTED) for identifier, mask in filters]
    return bool(matches) and (all(matches) if join else any(matches))
