"""The frame that a test expects, given by its fields, the name of its message or a signal; and a description of the
frame in words."""

import difflib
import functools
import re
from collections.abc import Mapping, Sequence
from typing import Any, Optional, Union

from canbusd._database.formats import MessageFormat, SignalFormat
from canbusd._calls import no_such
from canbusd._expect.signal_limits import CONDITIONS, check_conditions, limit_words
from canbusd._text import times
from canbusd._words import FD_LENGTHS
from canbusd.frames import Frame, data_bytes
from canbusd.signals import Database, DatabaseError, Value

#: The arguments that can describe a frame in a step of a sequence.
OF_STEP = ("id", "data", "signal", "above", "below", "equals", "between", "is_extended_id", "is_error_frame")
#: An expected frame in a sequence: an identifier, the name of a message, or a dict with arguments of `expect`.
Step = Union[int, str, Mapping[str, Any]]

# Identifiers below this value have 11 bits by default.
LEAST_EXTENDED = 0x800
MOST_IDENTIFIER = 0x1FFFFFFF
NO_DATABASE = "names of messages and signals need a database: give the server database='car.dbc', or a rest bus"
# The maximum number of names that are suggested for an unknown signal.
MOST_NAMED = 12


class Wanted:
    """An expected frame. `matches` checks a frame, and `str()` describes the expected frame in words: `frame 123 with
    data 11 22`.

    An argument that is None matches anything. `id` is an identifier or the name of a message. An identifier above 7FF
    is a 29-bit identifier; `is_extended_id` overrides this. A `signal` is given as `EngineSpeed`, or as
    `Engine.EngineSpeed` with the name of its message. Its value must meet each given limit: `above`, `below`, `equals`
    and `between` (a range). `channel` only appears in the description. Raises ValueError if no frame can match.
    """

    def __init__(
        self,
        id: Union[int, str, None] = None,
        data: Optional[bytes] = None,
        *,
        is_extended_id: Optional[bool] = None,
        is_error_frame: bool = False,
        signal: Optional[str] = None,
        above: Optional[float] = None,
        below: Optional[float] = None,
        equals: Optional[Value] = None,
        between: Optional[Sequence[float]] = None,
        database: Optional[Database] = None,
        channel: Optional[str] = None,
    ) -> None:
        self._name = id if isinstance(id, str) else ""
        self._is_error, self._channel, self._asked_extended = is_error_frame, channel, is_extended_id
        self._id, is_extended = identifier(id, database)
        check_identifier(self._id, is_extended if self._name else None, is_extended_id, is_error_frame)
        # For an error message frame, `id` is an error class, not an 11-bit or 29-bit identifier.
        has_bits = not is_error_frame or bool(self._name)
        self._is_extended = is_extended if is_extended_id is None and has_bits else is_extended_id
        self._data = None if data is None else checked_data(data)
        self._signal = None if signal is None else SignalOf(signal, database, self._id, self._is_extended)
        conditions = {"above": above, "below": below, "equals": equals, "between": between}
        self._conditions = {name: value for name, value in conditions.items() if value is not None}
        if self._signal is not None:
            check_conditions(self._signal.name, self._signal.formats, self._conditions)
        elif self._conditions:
            raise ValueError(f"{next(iter(self._conditions))} is of a signal: give signal='EngineSpeed' too")

    def matches(self, frame: Frame) -> bool:
        """Returns whether a frame matches all arguments."""
        if not self.is_of(frame) or (self._data is not None and frame.data != self._data):
            return False
        if self._signal is None:
            return True
        value = self._signal.value(frame)
        return value is not None and all(CONDITIONS[name](value, limit) for name, limit in self._conditions.items())

    def is_of(self, frame: Frame) -> bool:
        """Returns whether a frame has the expected identifier. The data of the frame is not checked."""
        return self._is_same_number(frame) and (self._is_extended is None or frame.is_extended_id == self._is_extended)

    def _is_same_number(self, frame: Frame) -> bool:
        return frame.is_error_frame == self._is_error and (self._id is None or frame.arbitration_id == self._id)

    @property
    def signals(self) -> tuple[str, ...]:
        """The names of the expected signals, without the names of their messages."""
        return () if self._signal is None else (self._signal.own_name,)

    @property
    def has_content(self) -> bool:
        """Whether the content of frames matters, because a signal is expected, or an identifier with certain data."""
        return self._signal is not None or (self._id is not None and self._data is not None)

    def content(self, frame: Frame) -> Optional[object]:
        """Returns the part of a frame that is compared: the value of the signal if a signal is expected, otherwise the
        data. Returns None if the frame is not the expected frame."""
        if not self.is_of(frame):
            return None
        if self._signal is not None:
            return self._signal.value(frame)
        return f"#R{frame.dlc}" if frame.is_remote_frame else frame.data.hex(" ").upper() or "no byte"

    def hint(self, frame: Frame) -> str:
        """Returns a hint if a frame has the expected identifier value, but as a 29-bit instead of an 11-bit identifier
        or vice versa. Otherwise returns the empty string."""
        if self._id is None or self.is_of(frame) or not self._is_same_number(frame):
            return ""
        digits, bits = (f"{self._id:08X}", 29) if frame.is_extended_id else (f"{self._id:03X}", 11)
        # If the message is given by name, the database defines whether its identifier has 11 or 29 bits.
        expected = "" if self._name else f", or expect is_extended_id={frame.is_extended_id}"
        return f"{digits} with {bits} bits came: give can.Message is_extended_id={not frame.is_extended_id}{expected}"

    def __str__(self) -> str:
        at = "" if self._channel is None else f"at {self._channel}"
        if self._signal is not None:
            said = " and ".join(f"{name} {limit_words(limit)}" for name, limit in self._conditions.items())
            where = "" if self._id is None else f"in {self._frame()}"
            return " ".join(filter(None, ["signal", self._signal.name, said, where, at]))
        return " ".join(filter(None, [self._frame(), at]))

    def _frame(self) -> str:
        more = [] if self._asked_extended is None else [f"{29 if self._asked_extended else 11} bits"]
        more += [] if self._data is None else [f"data {self._data.hex(' ').upper() or 'of no byte'}"]
        kind = "error message frame" if self._is_error else "frame"
        return f"{kind}{self._digits()}{' with ' if more else ''}{' and '.join(more)}"

    def _digits(self) -> str:
        if self._name or self._id is None:
            return f" {self._name}" if self._name else ""
        return f" {self._id:08X}" if self._is_extended or self._id >= LEAST_EXTENDED else f" {self._id:03X}"


def checked_data(data: object) -> bytes:
    """Returns the expected data of a frame as bytes. Raises ValueError if a frame can't have this data."""
    found = data_bytes(data)
    if len(found) not in FD_LENGTHS:
        raise ValueError(
            f"data has {times(len(found), 'byte')}, and no frame has as many: 0 to 8, or FD lengths up to 64"
        )
    return found


def identifier(id: Union[int, str, None], database: Optional[Database]) -> tuple[Optional[int], Optional[bool]]:
    """Returns an identifier, and whether it has 29 bits. `id` is an identifier or the name of a message; None returns
    None for both. Raises ValueError for any other value."""
    if id is None:
        return None, None
    if isinstance(id, str):
        digits = digits_in(id)
        if digits and (database is None or all(one.name != id for one in database.messages)):
            raise ValueError(f"id is a number, 0x{digits}, or the name of a message, not {id!r}")
        if database is None:
            raise ValueError(f"id is a number, such as 0x123, not {id!r}; {NO_DATABASE}")
        message = database.message(id)
        return message.identifier, message.is_extended
    if isinstance(id, bool) or not isinstance(id, int):
        raise ValueError(f"id is a number, such as 0x123, or the name of a message, not {id!r}")
    return id, id >= LEAST_EXTENDED


def check_identifier(id: Optional[int], has: Optional[bool], is_extended_id: Optional[bool], is_error: bool) -> None:
    """Raises ValueError if a frame can't have this identifier. `has` says whether the identifier of the named message
    has 29 bits."""
    if id is None:
        return
    if not 0 <= id <= MOST_IDENTIFIER:
        raise ValueError(f"id is an identifier of 11 or 29 bits, from 0 to 1FFFFFFF, not {id:#x}")
    if is_extended_id is False and id >= LEAST_EXTENDED and not is_error:
        raise ValueError(f"id {id:X} has 29 bits: above 7FF there is none with is_extended_id=False")
    if has is not None and is_extended_id not in (None, has):
        raise ValueError(f"is_extended_id={is_extended_id}: the database has {29 if has else 11} bits for this message")


def digits_in(text: str) -> str:
    """Returns the hexadecimal digits of a string that looks like an identifier, such as 101 or 0x101; the empty string
    for any other string."""
    found = re.fullmatch("(?:0[xX])?([0-9A-Fa-f]+)", text)
    return found[1] if found else ""


class SignalOf:
    """A signal in a database, given as `EngineSpeed` or `Engine.EngineSpeed`. If an identifier is given, only messages
    with this identifier are considered."""

    def __init__(
        self, name: str, database: Optional[Database], id: Optional[int] = None, is_extended: Optional[bool] = None
    ) -> None:
        if not isinstance(name, str):
            raise ValueError(f"signal is a name, such as 'EngineSpeed' or 'EngineData.EngineSpeed', not {name!r}")
        if database is None:
            raise ValueError(f"signal {name!r}: {NO_DATABASE}")
        self.name = name
        self._message, _, self.own_name = name.rpartition(".")
        messages = [database.message(self._message)] if self._message else database.messages
        found = [one for one in messages if id is None or (one.identifier, one.is_extended) == (id, is_extended)]
        if not found:
            where = f"message {self._message}" if self._message else "any message"
            raise DatabaseError(f"{id:X} is not the identifier of {where} of the database", signal=name)
        #: The formats of the signal, one for each message in the database that contains the signal.
        self.formats = formats_of(self.own_name, found, is_bare=not self._message and id is None)
        self._id = found[0].identifier if self._message else None
        # The results are cached, because cyclic messages often repeat their data and the decoding libraries are slow.
        self._decoded = functools.lru_cache(maxsize=4096)(database.decode)

    def value(self, frame: Frame) -> Optional[Value]:
        """Returns the value of the signal in a frame; None if the frame does not contain the signal."""
        if self._id is not None and frame.arbitration_id != self._id:
            return None
        decoded = self._decoded(frame)
        if decoded is None or (self._message and decoded.message != self._message):
            return None
        return next((signal.value for signal in decoded.signals if signal.name == self.own_name), None)


def formats_of(name: str, messages: Sequence[MessageFormat], is_bare: bool) -> list[SignalFormat]:
    """Returns the formats of a signal in these messages. Raises DatabaseError with a list of the existing signals,
    similar names first.

    `is_bare` is true if neither the name nor an identifier selects a message.
    """
    if not is_bare:
        return [message.signal(name) for message in messages]
    found = [signal for message in messages for signal in message.signals if signal.name == name]
    if not found:
        names = list(dict.fromkeys(signal.name for message in messages for signal in message.signals))
        near = difflib.get_close_matches(name, names, n=MOST_NAMED)
        named = [*near, *(one for one in names if one not in near)]
        more = f" and {len(named) - MOST_NAMED} more" if len(named) > MOST_NAMED else ""
        known = ", ".join(named[:MOST_NAMED]) or "none"
        raise DatabaseError(f"no signal {name}; there are {known}{more}", signal=name)
    return found


def wanted_of(step: Step, database: Optional[Database]) -> Wanted:
    """Returns the expected frame for a step of a sequence."""
    if isinstance(step, (list, tuple)):
        given = ", ".join(map(repr, step))
        raise ValueError(f"steps are given one by one, as expect_sequence({given}), not as {step!r}")
    if isinstance(step, Mapping):
        unknown = next((name for name in step if name not in OF_STEP), None)
        if unknown is not None:
            raise ValueError(f"a step has {no_such('argument', str(unknown), OF_STEP)}: {dict(step)!r}")
        arguments: dict[str, Any] = {"database": database, **step}
        return Wanted(**arguments)
    return Wanted(step, database=database)
