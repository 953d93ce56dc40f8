"""Messages and signals by name, as defined in a DBC, ARXML, KCD or SYM file.

    database = load_database("car.dbc")
    print(database)                # each message: its sender, cycle time and signals
    print(database.decode(frame))  # Engine: speed=120.5 km/h, gear=Drive
    bus.send(database.encode("Engine", {"speed": 120.5, "gear": "Drive"}).message())

The file is read by cantools or canmatrix, whichever is installed.
"""

import importlib
import logging
import os
from collections.abc import Callable, Iterable, Iterator, Mapping
from typing import Any, NamedTuple, Optional, Union

from canbusd._calls import NamesWhatThereIs, explained
from canbusd._database.dbc_lines import LineFault, check_numbers, is_dbc, refused_line
from canbusd._database.formats import DatabaseError as DatabaseError
from canbusd._database.formats import MessageFormat, Signal, Value as Value
from canbusd._text import times
from canbusd._words import FD_LENGTHS
from canbusd.frames import BadFrame, Frame, MessageLike

HOW_TO_GET = "pip install cantools, or apt-get install python3-canmatrix"
#: A function of a library that reads a file and yields its messages.
Reader = Callable[[str], Iterator[MessageFormat]]
#: The maximum number of multiplexer values that cantools may list.
MOST_VALUES = 65_536
#: The libraries that read files, in the order in which they are tried, and for each the module here that calls it.
READERS = {"cantools": "canbusd._database.from_cantools", "canmatrix": "canbusd._database.from_canmatrix"}


class Decoded(NamedTuple):
    """A frame decoded with a database. `str()` shows the message and its signals on one line."""

    #: The name of the message.
    message: str
    signals: tuple[Signal, ...]
    #: The reason why there are no signals: the frame is shorter than the message, or could not be decoded.
    fault: str = ""

    def value(self, name: str) -> Value:
        """Returns the value of the signal with this name; raises DatabaseError if the frame has no such signal."""
        for signal in self.signals:
            if signal.name == name:
                return signal.value
        raise DatabaseError(f"no signal {name} in {self}", message=self.message, signal=name)

    def __str__(self) -> str:
        return f"{self.message}: {self.fault or ', '.join(map(str, self.signals))}"


class Database(NamesWhatThereIs):
    """The messages of one or more files, by identifier and by name. `str()` shows all messages.

    The constructor raises DatabaseError if two different messages have the same name or the same identifier.
    """

    _INSTEAD = {
        **dict.fromkeys(("get_message_by_name", "get_message_by_frame_id"), "message('EngineData')"),
        **dict.fromkeys(("signals", "signal"), "message('EngineData').signals"),
        "encode_message": "encode('EngineData', {..})",
        "decode_message": "decode(frame)",
    }

    def __init__(self, messages: Iterable[MessageFormat]) -> None:
        self._by_name: dict[str, MessageFormat] = {}
        self._by_frame: dict[tuple[int, bool], MessageFormat] = {}
        for one in messages:
            frame = one.identifier, one.is_extended
            for other in (self._by_name.get(one.name), self._by_frame.get(frame)):
                if other is not None and (other.name, other.identifier, other.is_extended) != (one.name, *frame):
                    raise DatabaseError(f"{one.place()}: {one} is in the way of {other}", one.path, one.name)
            self._by_name[one.name] = self._by_frame[frame] = one

    def with_more(self, other: "Database") -> "Database":
        """Returns a database with these messages and the messages of another database. A message of the other database
        is omitted if its name or identifier already exists here."""
        more = [one for one in other.messages if not self._has(one)]
        return Database([*self.messages, *more]) if more else self

    def _has(self, one: MessageFormat) -> bool:
        return one.name in self._by_name or (one.identifier, one.is_extended) in self._by_frame

    @property
    def messages(self) -> list[MessageFormat]:
        """The messages, in the same order as in the files."""
        return list(self._by_name.values())

    @property
    def nodes(self) -> list[str]:
        """The names of the nodes that send or receive a message, in the same order as in the files."""
        names: dict[str, None] = {}
        for message in self.messages:
            names.update(dict.fromkeys(message.senders))
            names.update(dict.fromkeys(name for signal in message.signals for name in signal.receivers))
        return list(names)

    def message(self, name: str) -> MessageFormat:
        """Returns the message with this name. Raises DatabaseError if there is no such message."""
        if name not in self._by_name:
            known = ", ".join(sorted(self._by_name)) or "none"
            raise DatabaseError(f"no message {name}; there are {known}", message=name)
        return self._by_name[name]

    def message_of(self, frame: MessageLike) -> Optional[MessageFormat]:
        """Returns the message that a frame contains; None for an unknown identifier, a remote frame or an error message
        frame."""
        if frame.is_remote_frame or frame.is_error_frame:
            return None
        return self._by_frame.get((frame.arbitration_id, frame.is_extended_id))

    def decode(self, frame: MessageLike) -> Optional[Decoded]:
        """Returns the decoded frame; None for an unknown identifier, a remote frame or an error message frame."""
        message = self.message_of(frame)
        if message is None:
            return None
        if len(frame.data) < message.size:
            return Decoded(message.name, (), f"{len(frame.data)} of {times(message.size, 'byte')}")
        # The libraries raise many types of exceptions.
        try:
            return Decoded(message.name, tuple(message.decode(bytes(frame.data[: message.size]))))
        except Exception as fault:
            return Decoded(message.name, (), f"{fault}")

    @explained("values are a dict, such as {'EngineSpeed': 800}")
    def encode(self, name: str, values: Mapping[str, Value]) -> Frame:
        """Returns the frame of this message with these signal values. A value is a number, a number as a string, or the
        name of a number."""
        if not isinstance(values, Mapping):
            raise ValueError(f"values are a dict of signals, such as {{'EngineSpeed': 800}}, not {values!r}")
        message = self.message(name)
        return frame_of(message, message.encode(values))

    def __str__(self) -> str:
        return "\n".join(line for message in self.messages for line in [f"{message}", *lines_of(message)])


def lines_of(message: MessageFormat) -> Iterator[str]:
    """Yields a line of text for each signal of a message."""
    return (f"  {signal}" for signal in message.signals)


def frame_of(message: MessageFormat, data: bytes) -> Frame:
    """Returns the frame of a message with this data. The data of an FD frame is padded to the next valid length.

    Raises DatabaseError if the data is too long for a frame.
    """
    if message.is_fd:
        data = data.ljust(next((length for length in FD_LENGTHS if length >= len(data)), 0), b"\0")
    try:
        return Frame(message.identifier, data, message.is_extended, is_fd=message.is_fd)
    except BadFrame as fault:
        raise DatabaseError(f"{message.place()}: message {message.name}: {fault}", message.path, message.name) from None


def load_database(*paths: Union[str, "os.PathLike[str]"], library: Optional[str] = None) -> Database:
    """Loads the messages of these files. `library` is `cantools` or `canmatrix`; the default is the first one that is
    installed."""
    if not paths:
        raise ValueError("load_database needs the path of a file, such as load_database('car.dbc')")
    name, messages_in = installed(library)
    messages: list[MessageFormat] = []
    for path in (os.fspath(path) for path in paths):
        # Raises the usual OSError if the file does not exist.
        open(path, "rb").close()
        # The libraries raise many types of exceptions.
        try:
            if is_dbc(path):
                check_numbers(path, MOST_VALUES if name == "cantools" else None)
            found = list(messages_in(path))
        except Exception as fault:
            raise refusal(path, name, messages_in, fault) from None
        if not found:
            raise DatabaseError(f"{path}: {name} finds no message in it, so it is no database", path)
        for message in found:
            message.check()
        messages += found
    return Database(messages)


def refusal(path: str, library: str, read: Reader, fault: Exception) -> DatabaseError:
    """Returns the error for a file that can't be read. For a DBC file, it includes the line number, which the libraries
    often omit."""
    place, said = path, str(fault) or type(fault).__name__

    def is_refused(beginning: str) -> bool:
        try:
            list(read(beginning))
        except Exception as other:
            return str(other) == str(fault)
        return False

    if is_dbc(path) and not isinstance(fault, LineFault):
        line = refused_line(path, is_refused)
        fault, said = line, f"{line}: {said}"
    if isinstance(fault, LineFault):
        place = f"{path}:{fault.line}"
    return DatabaseError(f"{place}: {library} can't read it: {said}", path)


def installed(library: Optional[str]) -> tuple[str, Reader]:
    """Returns the name of the library that reads files, and its reader function. `library` is the name of a library;
    None selects the first one that is installed."""
    # Without a handler, canmatrix writes to standard error which optional formats are missing.
    logging.getLogger("canmatrix").addHandler(logging.NullHandler())
    if library is not None and library not in READERS:
        raise ValueError(f"library is one of {', '.join(READERS)}, not {library!r}")
    for name in [library] if library else READERS:
        try:
            importlib.import_module(name)
        except ImportError:
            continue
        reader: Any = importlib.import_module(READERS[name])
        return name, reader.messages_in
    raise DatabaseError(f"signals need {library or 'cantools or canmatrix'}: {how_to_get(library)}")


def how_to_get(library: Optional[str]) -> str:
    """Returns the commands that install this library, or either of the libraries if `library` is None."""
    cantools, _, canmatrix = HOW_TO_GET.partition(", or ")
    return {"cantools": cantools, "canmatrix": canmatrix}.get(library or "", HOW_TO_GET)
