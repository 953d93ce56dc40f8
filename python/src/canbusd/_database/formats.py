"""The messages and signals of a database file, in the same format for all libraries.

A library reads the file and decodes frames to raw numbers. Everything else is done in this module, so that the results
do not depend on the library: it computes values, encodes messages, selects the signals of multiplexed messages and
checks the file. Besides, canmatrix takes 100 us to encode a message, which is too slow for a rest bus.
"""

import struct
from collections.abc import Callable, Iterator, Mapping, Sequence
from dataclasses import dataclass, field
from decimal import Decimal, InvalidOperation
from functools import cached_property
from typing import NamedTuple, Optional, Union

from canbusd._database.dbc_lines import is_dbc, line_of

#: The value of a signal: a number, or the name of a number.
Value = Union[int, float, str]
#: The raw value of a signal, as it is sent on the bus.
Raw = Union[int, float]
#: Parts of the names of send types, in lower case. A send type whose name contains one of EVENTS is triggered by an
#: event and not cyclic, unless the name also contains one of PERIODS.
EVENTS = ("event", "spontan", "trigger", "change", "write", "ifactive")
PERIODS = ("cycl", "period")
#: Numbers of at least this size are converted to float, even if they are whole.
MOST_WHOLE = Decimal(10) ** 28
#: The `struct` format of a float, by its size in bits.
FLOATS = {16: "<e", 32: "<f", 64: "<d"}


class DatabaseError(ValueError):
    """A file can't be read, or does not contain the given message or signal. The attributes name the file, the message
    and the signal, if they are known."""

    def __init__(self, text: str, path: str = "", message: str = "", signal: str = "") -> None:
        super().__init__(text)
        self.path, self.message, self.signal = path, message, signal


class Signal(NamedTuple):
    """A decoded signal of a frame."""

    name: str
    #: The number after applying factor and offset, or the name of the number if the file defines one.
    value: Value
    unit: str

    def __str__(self) -> str:
        return f"{self.name}={self.value} {self.unit}".rstrip()


@dataclass(frozen=True)
class SignalFormat:
    """The format of a signal in a message, as defined in the file."""

    name: str
    unit: str = ""
    #: The names of the nodes that receive the signal.
    receivers: tuple[str, ...] = ()
    #: The value is the raw value times `factor`, plus `offset`.
    factor: Decimal = Decimal(1)
    offset: Decimal = Decimal(0)
    #: The minimum and the maximum of the value; None if the file defines no limits.
    minimum: Optional[Decimal] = None
    maximum: Optional[Decimal] = None
    #: The names that the file defines for raw values.
    choices: Mapping[int, str] = field(default_factory=dict)
    #: The initial raw value, before it is limited to the valid range.
    raw_start: Decimal = Decimal(0)
    is_signed: bool = False
    is_float: bool = False
    #: The bit positions of the signal in the frame, lowest bit first. Position 0 is the lowest bit of byte 0, and
    #: position 8 is the lowest bit of byte 1.
    bits: tuple[int, ...] = ()
    #: Whether the signal is a multiplexer, whose raw value selects other signals.
    is_multiplexer: bool = False
    #: The name of the multiplexer that selects this signal, and the ranges of its raw values that do so. Each range is
    #: a pair of a first and a last value.
    multiplexer: str = ""
    multiplexer_values: tuple[tuple[int, int], ...] = ()

    @property
    def start(self) -> Value:
        """The initial value of the signal."""
        return self.value(self.raw)

    @cached_property
    def raw(self) -> Raw:
        """The initial raw value, within the signal's limits."""
        return self.number(min(max(self.raw_start * self.factor + self.offset, self.least), self.most))

    @cached_property
    def least(self) -> Decimal:
        """The minimum value of the signal."""
        return self._limit(self.minimum, Decimal("-Infinity"), min)

    @cached_property
    def most(self) -> Decimal:
        """The maximum value of the signal."""
        return self._limit(self.maximum, Decimal("Infinity"), max)

    def _limit(self, given: Optional[Decimal], none: Decimal, choose: "Callable[..., Decimal]") -> Decimal:
        if given is not None:
            return given
        if self.is_float:
            return none
        return choose(raw * self.factor + self.offset for raw in self._raw_limits())

    def _raw_limits(self) -> tuple[int, int]:
        """Returns the smallest and the largest raw value that fit into the signal's bits."""
        size = len(self.bits)
        return (-(1 << size - 1), (1 << size - 1) - 1) if self.is_signed else (0, (1 << size) - 1)

    def value(self, raw: Raw) -> Value:
        """Returns the value for a raw value, or its name if it has one."""
        if raw in self.choices:
            return self.choices[int(raw)]
        if self.is_float and raw - raw:
            return raw
        return plain(Decimal(str(raw)) * self.factor + self.offset)

    def raw_of(self, value: Value) -> Raw:
        """Returns the raw value for a value, a value as a string, or a name. Raises DatabaseError if there is no such
        raw value."""
        for number_of_name, name in self.choices.items():
            if name == value:
                return number_of_name
        number = self._read(value)
        if not self.least <= number <= self.most:
            raise self._fault(f"is from {plain(self.least)} to {plain(self.most)}, not {value}")
        raw = self.number(number)
        if not self.is_float and not self._raw_limits()[0] <= raw <= self._raw_limits()[1]:
            raise self._fault(f"has {len(self.bits)} bits, too few for {value}")
        return raw

    def number(self, value: Decimal) -> Raw:
        """Returns the raw value for a value."""
        raw = (value - self.offset) / self.factor
        return float(raw) if self.is_float else int(raw.to_integral_value())

    def placed(self, raw: Raw) -> int:
        """Returns the bits of a frame that this raw value sets, as an integer whose lowest byte is byte 0 of the frame."""
        size = len(self.bits)
        number = int.from_bytes(struct.pack(FLOATS[size], raw), "little") if self.is_float else int(raw)
        return sum(1 << bit for place, bit in enumerate(self.bits) if number >> place & 1)

    def _read(self, value: Value) -> Decimal:
        try:
            is_hex = isinstance(value, str) and value[:2] in ("0x", "0X")
            read = Decimal(int(str(value), 16) if is_hex else str(value))
        except (ValueError, InvalidOperation):
            read = Decimal("NaN")
        if not read.is_finite():
            known = f", or one of {', '.join(self.choices.values())}" if self.choices else ""
            raise self._fault(f"is a number{known}, not {value!r}")
        return read

    def _fault(self, text: str) -> DatabaseError:
        return DatabaseError(f"{self.name} {text}", signal=self.name)

    def __str__(self) -> str:
        values = ", ".join(f"{raw}={name}" for raw, name in self.choices.items())
        limits = f"{shown(self.least)} to {shown(self.most)}"
        there = ",".join(f"{first}" if first == last else f"{first}-{last}" for first, last in self.multiplexer_values)
        return "; ".join(
            part
            for part in [
                f"{self.name}: {values or limits} {self.unit}".rstrip(),
                f"starts as {self.start}",
                f"for {', '.join(self.receivers)}" if self.receivers else "",
                "multiplexer" if self.is_multiplexer else "",
                f"with {self.multiplexer}={there}" if self.multiplexer else "",
            ]
            if part
        )


@dataclass(frozen=True)
class MessageFormat:
    """The format of a message, as defined in the file. `str()` shows it on one line."""

    name: str
    identifier: int
    is_extended: bool
    #: The length of the message in bytes.
    size: int
    signals: tuple[SignalFormat, ...]
    #: The library's function that decodes the raw values of the signals in a frame.
    unpack: Callable[[bytes], Mapping[str, Raw]] = field(repr=False, compare=False)
    is_fd: bool = False
    #: The names of the nodes that send the message, beginning with the main sender.
    senders: tuple[str, ...] = ()
    #: The cycle time in seconds; 0 if the file does not define one.
    cycle_time: float = 0.0
    #: The delay in seconds between the start and the first frame; 0 if the file does not define one.
    start_delay: float = 0.0
    #: The send type of the message, as named in the file.
    send_type: str = ""
    #: The attributes of the message in a DBC file: their values as strings, by name.
    attributes: Mapping[str, str] = field(default_factory=dict, repr=False, compare=False)
    #: The path of the database file.
    path: str = field(default="", compare=False)

    def place(self, signal: str = "") -> str:
        """Returns the path of the message's file. For a DBC file, it is followed by the line of the message or the
        signal."""
        line = line_of(self.path, self.identifier, self.name, signal) if is_dbc(self.path) else 0
        return f"{self.path}:{line}" if line else self.path

    @property
    def is_cyclic(self) -> bool:
        """Whether the message is sent at its cycle time: it has a cycle time, and its send type does not name an event."""
        kind = self.send_type.lower()
        is_event = any(word in kind for word in EVENTS) and not any(word in kind for word in PERIODS)
        return self.cycle_time > 0 and not is_event

    def signal(self, name: str) -> SignalFormat:
        """Returns the signal with this name. Raises DatabaseError if the message has no such signal."""
        for signal in self.signals:
            if signal.name == name:
                return signal
        known = ", ".join(signal.name for signal in self.signals) or "none"
        raise DatabaseError(f"no signal {self.name}.{name}; there are {known}", self.path, self.name, name)

    def decode(self, data: bytes) -> Iterator[Signal]:
        """Yields the decoded signals of a frame that is as long as the message. Multiplexed signals that are not
        present in the frame are skipped."""
        raw = self.unpack(data)
        for signal in self.present(raw):
            if signal.name in raw:
                yield Signal(signal.name, signal.value(raw[signal.name]), signal.unit)

    def encode(self, values: Mapping[str, Value], is_strict: bool = True) -> bytes:
        """Returns the bytes of the message with these values. All other signals have their initial values.

        If `is_strict` is true, each signal in `values` must be selected by its multiplexers.
        """
        try:
            raw = {signal.name: signal.raw for signal in self.signals}
            raw.update((name, self.signal(name).raw_of(value)) for name, value in values.items())
        except DatabaseError as fault:
            text = str(fault) if fault.message else f"{self.name}.{fault}"
            raise DatabaseError(text, self.path, self.name, fault.signal) from None
        there = [signal.name for signal in self.present(raw)]
        for name in values:
            if is_strict and name not in there:
                text = f"{self.name}.{name} is not there with this multiplexer"
                raise DatabaseError(text, self.path, self.name, name)
        self._check_bits(there)
        try:
            bits = sum(signal.placed(raw[signal.name]) for signal in self.signals if signal.name in there)
            return bits.to_bytes(self.size, "little")
        except OverflowError as fault:
            # The float is too large for its size in bits.
            raise DatabaseError(f"{self.place()}: message {self.name}: {fault}", self.path, self.name) from None

    def present(self, raw: Mapping[str, Raw]) -> list[SignalFormat]:
        """Returns the signals that are present if the multiplexers have these raw values."""
        if not self._is_multiplexed:
            return list(self.signals)
        by_name = {signal.name: signal for signal in self.signals}

        def is_there(signal: SignalFormat, depth: int = 0) -> bool:
            above = by_name.get(signal.multiplexer)
            if above is None:
                return True
            number = raw.get(above.name)
            if number is None or depth > len(by_name):
                return False
            return is_there(above, depth + 1) and any(
                first <= number <= last for first, last in signal.multiplexer_values
            )

        return [signal for signal in self.signals if is_there(signal)]

    @cached_property
    def _is_multiplexed(self) -> bool:
        return any(signal.multiplexer for signal in self.signals)

    @cached_property
    def _has_common_bits(self) -> bool:
        bits = [bit for signal in self.signals for bit in signal.bits]
        return len(bits) > len(set(bits))

    def check(self) -> None:
        """Raises DatabaseError if the definition of this message in the file is contradictory. The error names the
        file, the message and the signal."""
        seen: set[str] = set()
        for signal in self.signals:
            past = [bit for bit in signal.bits if not 0 <= bit < self.size * 8]
            if signal.name in seen:
                raise self._fault(signal, "is there twice")
            if not signal.bits or past:
                fault = f"has bits past the {self.size} bytes of its message" if past else "has no bits"
                raise self._fault(signal, fault)
            if signal.is_float and len(signal.bits) not in FLOATS:
                raise self._fault(signal, f"is a float of {len(signal.bits)} bits")
            if not all(number.is_finite() for number in (signal.factor, signal.offset, signal.raw_start)):
                raise self._fault(signal, "has a factor, an offset or a start value that is no number")
            if not signal.factor:
                raise self._fault(signal, "has the factor 0, so its value can't be chosen")
            if signal.multiplexer and signal.multiplexer not in {one.name for one in self.signals}:
                raise self._fault(signal, f"needs {signal.multiplexer}, which is no signal of its message")
            seen.add(signal.name)

    def _check_bits(self, there: Sequence[str]) -> None:
        """Raises DatabaseError if two of these signals share a bit, because the bit can't have both values."""
        owners: dict[int, str] = {}
        for signal in self.signals if self._has_common_bits else ():
            if signal.name in there:
                other = next((owners[bit] for bit in signal.bits if bit in owners), None)
                if other is not None:
                    raise self._fault(signal, f"has bits that {other} has too, so the message can't be encoded")
                owners.update(dict.fromkeys(signal.bits, signal.name))

    def _fault(self, signal: SignalFormat, text: str) -> DatabaseError:
        said = f"{self.place(signal.name)}: message {self.name}: signal {signal.name} {text}"
        return DatabaseError(said, self.path, self.name, signal.name)

    def __str__(self) -> str:
        digits = f"{self.identifier:08X}" if self.is_extended else f"{self.identifier:03X}"
        how = [
            f"from {', '.join(self.senders)}" if self.senders else "from nobody",
            f"every {self.cycle_time * 1000:g} ms" if self.cycle_time else "",
            f"after {self.start_delay * 1000:g} ms" if self.start_delay else "",
            self.send_type,
        ]
        return f"{self.name} {digits} [{self.size}] {', '.join(filter(None, how))}"


def bits_of(start: int, size: int, is_little_endian: bool) -> tuple[int, ...]:
    """Returns the bit positions of a signal, lowest bit first. `start` is the position of the lowest bit of a
    little-endian signal, or of the highest bit of a big-endian signal."""
    if is_little_endian:
        return tuple(range(start, start + size))
    highest = start // 8 * 8 + 7 - start % 8
    return tuple(place // 8 * 8 + 7 - place % 8 for place in reversed(range(highest, highest + size)))


def limits(least: object, most: object) -> tuple[Optional[Decimal], Optional[Decimal]]:
    """Returns the minimum and maximum of a signal; None for both if the file has [0|0], which means that there are no
    limits."""
    first, last = (None if limit is None else Decimal(str(limit)) for limit in (least, most))
    return (None, None) if first is not None and last is not None and first >= last else (first, last)


def named(nodes: Optional[Sequence[object]]) -> tuple[str, ...]:
    """Returns the names of nodes, without Vector__XXX, which stands for no node in a DBC file."""
    names = [str(node).strip() for node in nodes or ()]
    return tuple(name for name in dict.fromkeys(names) if name and name != "Vector__XXX")


def plain(value: Union[int, float, Decimal]) -> Union[int, float]:
    """Returns a number as an int if it is whole, and as a float otherwise."""
    if isinstance(value, Decimal):
        return int(value) if abs(value) < MOST_WHOLE and value == value.to_integral_value() else float(value)
    return int(value) if value == value // 1 else float(value)


def shown(value: Decimal) -> str:
    """Returns a limit as a string. A float signal without limits has infinite limits."""
    return f"{plain(value)}" if value.is_finite() else f"{value}"
