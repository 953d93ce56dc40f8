"""End-to-end protection: the AUTOSAR profiles 1, 2, 5, 11 and 22, the CRC-8 of SAE J1850, and counters in signals.

    rest.protect("EngineData", e2e.Profile1(data_id=0x123))
    server.expect_protected("BrakeData", e2e.Profile5(data_id=0x1234), count=20)

A profile defines the positions of the counter and the checksum in a message, and how the checksum is computed (AUTOSAR
PRS_E2EProtocol and SWS_CRCLibrary). A Protection adds both to sent frames, and can inject faults. A Checker checks
received frames.
"""

from collections.abc import Callable, Sequence
from dataclasses import dataclass
from typing import TYPE_CHECKING, ClassVar, Literal, Optional, get_args

from canbusd._crc import J1850, crc8 as crc8, crc8_h2f as crc8_h2f, crc8_of, crc16 as crc16
from canbusd._calls import NamesWhatThereIs, meant
from canbusd._text import times
from canbusd.frames import data_bytes

if TYPE_CHECKING:
    from canbusd._database.formats import MessageFormat, SignalFormat

#: The results of a check, in AUTOSAR's terms, and the results that are considered good.
Status = Literal["initial", "ok", "some lost", "repeated", "wrong sequence", "wrong crc"]
GOOD = ("initial", "ok", "some lost")
#: The faults that a Protection can inject.
Fault = Literal["wrong crc", "repeated", "some lost"]
FAULTS: tuple[Fault, ...] = get_args(Fault)
Mode = Literal["both", "alternating", "low", "nibble"]
MODES: tuple[Mode, ...] = get_args(Mode)


class Profile:
    """The base class of profiles. A profile defines the positions of the counter and the checksum, and which bytes they
    protect."""

    #: The number of values of the counter, and its value in the first sent frame.
    modulo: int
    first: ClassVar[int] = 0
    #: The minimum length of a message in bytes.
    least: int
    #: The largest step of the counter from one frame to the next that is accepted. A step above 1 means that frames
    #: were lost.
    max_delta: int

    def of(self, message: "MessageFormat") -> "Profile":
        """Returns the profile for this message in a database. Raises ValueError if the message is too short for the
        profile."""
        if message.size < self.least:
            raise ValueError(f"{self} needs {times(self.least, 'byte')}, and {message.name} has {message.size}")
        return self

    def protect(self, data: bytes, counter: int) -> bytes:
        """Returns the bytes of a message with the counter and the checksum set."""
        content = bytearray(data_bytes(data))
        self._check(content)
        self._set_counter(content, counter % self.modulo)
        self._set_crc(content, self._crc(content))
        return bytes(content)

    def is_right(self, data: bytes) -> bool:
        """Returns whether the checksum of a message is correct."""
        content = bytearray(data_bytes(data))
        return len(content) >= self.least and content == self._with_crc(content)

    def counter(self, data: bytes) -> int:
        """Returns the counter of a message."""
        raise NotImplementedError

    def _check(self, content: bytearray) -> None:
        if len(content) < self.least:
            raise ValueError(f"{self} needs {times(self.least, 'byte')}, not {len(content)}")

    def _with_crc(self, content: bytearray) -> bytearray:
        right = bytearray(content)
        self._set_crc(right, self._crc(right))
        return right

    def _set_counter(self, content: bytearray, counter: int) -> None:
        raise NotImplementedError

    def _set_crc(self, content: bytearray, crc: int) -> None:
        raise NotImplementedError

    def _crc(self, content: bytearray) -> int:
        """Returns the checksum of a message whose counter is already set."""
        raise NotImplementedError


def _nibble(content: bytearray, place: int, value: int) -> None:
    """Sets the four bits of the content that start at bit `place`."""
    shift = place % 8
    content[place // 8] = content[place // 8] & ~(15 << shift) & 0xFF | value << shift


def _check_id(data_id: object) -> None:
    if isinstance(data_id, bool) or not isinstance(data_id, int) or not 0 <= data_id <= 0xFFFF:
        raise ValueError(f"data_id is a number from 0 to 0xFFFF, not {data_id!r}")


def _check_place(name: str, place: object, unit: int) -> int:
    if isinstance(place, bool) or not isinstance(place, int) or place < 0 or place % unit:
        raise ValueError(f"{name} is a place in bits, a multiple of {unit}, not {place!r}")
    return place


def _check_delta(max_delta: object, modulo: int) -> None:
    if isinstance(max_delta, bool) or not isinstance(max_delta, int) or not 1 <= max_delta < modulo:
        raise ValueError(f"max_delta is from 1 to {modulo - 1}, not {max_delta!r}")


@dataclass(frozen=True)
class Profile1(Profile):
    """Profile 1: a CRC-8 with the polynomial of SAE J1850, and a counter from 0 to 14. Offsets are in bits.

    The `mode` selects which bytes of the data ID are part of the CRC: `both` bytes (1A), `alternating` between the low
    and the high byte (1B), only the `low` byte, or `nibble` (1C). With `nibble`, the message itself contains four bits
    of the high byte.
    """

    data_id: int
    mode: Mode = "both"
    crc_offset: int = 0
    counter_offset: int = 8
    nibble_offset: int = 12
    max_delta: int = 1
    modulo = 15
    modes: ClassVar[Sequence[str]] = MODES

    def __post_init__(self) -> None:
        _check_id(self.data_id)
        if self.mode not in self.modes:
            raise ValueError(
                f"mode is one of {', '.join(self.modes)}, not {self.mode!r}{meant(str(self.mode), self.modes)}"
            )
        _check_place("crc_offset", self.crc_offset, 8)
        _check_place("counter_offset", self.counter_offset, 4)
        _check_place("nibble_offset", self.nibble_offset, 4)
        _check_delta(self.max_delta, self.modulo)

    @property
    def least(self) -> int:  # type: ignore[override]
        places = [self.crc_offset, self.counter_offset, self.nibble_offset if self.mode == "nibble" else 0]
        return max(places) // 8 + 1

    def counter(self, data: bytes) -> int:
        return data[self.counter_offset // 8] >> self.counter_offset % 8 & 15

    def _set_counter(self, content: bytearray, counter: int) -> None:
        _nibble(content, self.counter_offset, counter)
        if self.mode == "nibble":
            _nibble(content, self.nibble_offset, self.data_id >> 8 & 15)

    def _set_crc(self, content: bytearray, crc: int) -> None:
        content[self.crc_offset // 8] = crc

    def _crc(self, content: bytearray) -> int:
        low, high = self.data_id & 0xFF, self.data_id >> 8
        first = {
            "both": [low, high],
            "alternating": [high if self.counter(content) % 2 else low],
            "low": [low],
            "nibble": [low, 0],
        }[self.mode]
        place = self.crc_offset // 8
        # Unlike the CRC-8 of SAE J1850, this CRC has the initial value 0 and is not inverted.
        return crc8_of(J1850, bytes(first) + content[:place] + content[place + 1 :], 0)


@dataclass(frozen=True)
class Profile11(Profile1):
    """Profile 11: like profile 1, with the modes `both` (11A) and `nibble` (11C)."""

    modes: ClassVar[Sequence[str]] = ("both", "nibble")


@dataclass(frozen=True)
class Profile2(Profile):
    """Profile 2: a CRC-8 with the polynomial 2F, and a counter from 0 to 15. The counter selects one of 16 data IDs of
    one byte each."""

    data_ids: Sequence[int]
    offset: int = 0
    max_delta: int = 1
    modulo = 16
    first: ClassVar[int] = 1

    def __post_init__(self) -> None:
        ids = data_bytes(self.data_ids)
        if len(ids) != 16:
            raise ValueError(f"data_ids are 16 bytes, one for each value of the counter, not {len(ids)}")
        object.__setattr__(self, "data_ids", tuple(ids))
        _check_place("offset", self.offset, 8)
        _check_delta(self.max_delta, self.modulo)

    @property
    def least(self) -> int:  # type: ignore[override]
        return self.offset // 8 + 2

    def counter(self, data: bytes) -> int:
        return data[self.offset // 8 + 1] & 15

    def _set_counter(self, content: bytearray, counter: int) -> None:
        _nibble(content, self.offset + 8, counter)

    def _set_crc(self, content: bytearray, crc: int) -> None:
        content[self.offset // 8] = crc

    def _crc(self, content: bytearray) -> int:
        place = self.offset // 8
        return crc8_h2f(content[:place] + content[place + 1 :] + bytes([self.data_ids[self.counter(content)]]))


@dataclass(frozen=True)
class Profile22(Profile2):
    """Profile 22: the same layout and checksum as profile 2."""


@dataclass(frozen=True)
class Profile5(Profile):
    """Profile 5: a CRC-16 with the low byte first, followed by a counter from 0 to 255. The offset is in bits."""

    data_id: int
    offset: int = 0
    max_delta: int = 1
    modulo = 256

    def __post_init__(self) -> None:
        _check_id(self.data_id)
        _check_place("offset", self.offset, 8)
        _check_delta(self.max_delta, self.modulo)

    @property
    def least(self) -> int:  # type: ignore[override]
        return self.offset // 8 + 3

    def counter(self, data: bytes) -> int:
        return data[self.offset // 8 + 2]

    def _set_counter(self, content: bytearray, counter: int) -> None:
        content[self.offset // 8 + 2] = counter

    def _set_crc(self, content: bytearray, crc: int) -> None:
        place = self.offset // 8
        content[place : place + 2] = crc.to_bytes(2, "little")

    def _crc(self, content: bytearray) -> int:
        place = self.offset // 8
        return crc16(content[:place] + content[place + 2 :] + self.data_id.to_bytes(2, "little"))


class Signals(Profile):
    """A profile whose counter and checksum are signals of a message in a database: ``Signals("Alive",
    crc="Checksum")``.

    The counter starts at 0 and has `modulo` values, by default all values that fit into its signal. The checksum must
    consist of whole bytes. `function` computes the checksum from all other bytes of the message; the default is the
    CRC-8 of SAE J1850.
    """

    def __init__(
        self,
        counter: str,
        crc: Optional[str] = None,
        *,
        modulo: Optional[int] = None,
        function: Callable[[bytes], int] = crc8,
        max_delta: int = 1,
    ) -> None:
        self._names, self._modulo, self._function = (counter, crc), modulo, function
        self.max_delta = max_delta
        self._counter: "Optional[SignalFormat]" = None
        self._checksum: "Optional[SignalFormat]" = None

    def of(self, message: "MessageFormat") -> "Signals":
        bound = Signals(self._names[0], self._names[1], function=self._function, max_delta=self.max_delta)
        bound._counter = message.signal(self._names[0])
        bound.modulo = 1 << len(bound._counter.bits) if self._modulo is None else self._modulo
        if not 1 < bound.modulo <= 1 << len(bound._counter.bits):
            raise ValueError(
                f"modulo is from 2 to {1 << len(bound._counter.bits)}, as {self._names[0]} has bits for, not {self._modulo!r}"
            )
        _check_delta(self.max_delta, bound.modulo)
        if self._names[1] is not None:
            bound._checksum = message.signal(self._names[1])
            if len(bound._bytes()) * 8 != len(bound._checksum.bits):
                raise ValueError(f"{message.name}.{self._names[1]} is no checksum: it does not have whole bytes")
        bound.least = message.size
        return bound

    def counter(self, data: bytes) -> int:
        return sum((data[bit // 8] >> bit % 8 & 1) << place for place, bit in enumerate(self._bound().bits))

    def _bound(self) -> "SignalFormat":
        if self._counter is None:
            raise ValueError(
                f"{self} is of a message: give it to protect or expect_protected, or call of(database.message(..))"
            )
        return self._counter

    def _bytes(self) -> list[int]:
        """Returns the positions of the checksum's bytes in the message."""
        return sorted({bit // 8 for bit in self._checksum.bits}) if self._checksum else []

    def _check(self, content: bytearray) -> None:
        self._bound()
        super()._check(content)

    def _set_counter(self, content: bytearray, counter: int) -> None:
        _place(content, self._bound(), counter)

    def _set_crc(self, content: bytearray, crc: int) -> None:
        if self._checksum is not None:
            _place(content, self._checksum, crc)

    def _crc(self, content: bytearray) -> int:
        own = self._bytes()
        return self._function(bytes(byte for place, byte in enumerate(content) if place not in own)) if own else 0

    def __repr__(self) -> str:
        return f"Signals({', '.join(repr(name) for name in self._names if name is not None)})"


def _place(content: bytearray, signal: "SignalFormat", number: int) -> None:
    """Writes an integer to the bits of a signal."""
    for place, bit in enumerate(signal.bits):
        content[bit // 8] = content[bit // 8] & ~(1 << bit % 8) & 0xFF | (number >> place & 1) << bit % 8


class Protection(NamesWhatThereIs):
    """The protection of a sent message, which counts the message's frames. `RestBus.protect` returns it."""

    _INSTEAD = {"fault": "inject('wrong crc', count=3)"}

    def __init__(self, profile: Profile) -> None:
        #: The profile.
        self.profile = profile
        self._next = profile.first
        self._faults: list[Fault] = []

    def inject(self, fault: Fault, count: int = 1) -> None:
        """Injects a fault into the next `count` frames: a `wrong crc`, a `repeated` counter value, or `some lost`,
        which skips a counter value."""
        if fault not in FAULTS:
            raise ValueError(f"fault is one of {', '.join(FAULTS)}, not {fault!r}{meant(str(fault), FAULTS)}")
        if isinstance(count, bool) or not isinstance(count, int) or count < 1:
            raise ValueError(f"count is a number of frames, 1 or more, not {count!r}")
        self._faults += [fault] * count

    def applied(self, data: bytes) -> bytes:
        """Returns the bytes of the next frame, with its counter and checksum set and the next injected fault applied."""
        fault = self._faults.pop(0) if self._faults else None
        self._next += {"repeated": -1, "some lost": 1}.get(fault or "", 0)
        content = self.profile.protect(data, self._next)
        self._next = (self._next + 1) % self.profile.modulo
        if fault == "wrong crc":
            spoiled = bytearray(content)
            self.profile._set_crc(spoiled, self.profile._crc(spoiled) ^ 1)
            content = bytes(spoiled)
        return content


class Checker:
    """Checks the received frames of one message, one after another."""

    def __init__(self, profile: Profile) -> None:
        #: The profile.
        self.profile = profile
        self._last: Optional[int] = None

    def check(self, data: bytes) -> Status:
        """Returns the result for the next frame. `initial` is the result for the first frame. `some lost` means that
        the counter advanced by more than 1, but by at most the profile's `max_delta`."""
        if not self.profile.is_right(data):
            return "wrong crc"
        counter, last = self.profile.counter(data), self._last
        if counter >= self.profile.modulo:
            return "wrong sequence"
        self._last = counter
        if last is None:
            return "initial"
        delta = (counter - last) % self.profile.modulo
        if delta <= 1:
            return "ok" if delta else "repeated"
        return "some lost" if delta <= self.profile.max_delta else "wrong sequence"
