"""Reads and writes logs of other tools: candump logs, pcapng, and formats that python-can recognises by the file name
extension, such as ASC and BLF."""

import collections
import dataclasses
import gzip
import importlib
import io
import itertools
import os
import re
import stat
from collections.abc import Iterable, Iterator, Sequence
from typing import Any, BinaryIO, NamedTuple

from canbusd._run.log import LongLine, lines_of
from canbusd._run.pcapng import OUTBOUND, Capture
from canbusd._text import shown
from canbusd._whole_file import Path, replaced
from canbusd.frames import BadFrame, Frame, frame_like, log_line

#: The file name extensions that python-can reads, with or without `.gz`. Any other file is a candump log.
ENDINGS = (".asc", ".blf", ".csv", ".db", ".mf4", ".trc")
#: The extensions of text files.
TEXTS = (".asc", ".csv", ".trc")
# The extension of captures for Wireshark.
PCAPNG = ".pcapng"
#: The extensions of files that this module can write. The other formats of python-can lose frames, flags or channels.
WRITTEN = (".log", ".asc", ".blf", PCAPNG)
# The formats that have channel numbers instead of interface names.
NUMBERED = (".asc", ".blf")
# python-can and later versions of candump write the direction after the frame.
LINE = re.compile(r"\(([0-9]{1,10}\.[0-9]{6})\) +(\S+) +(\S+)(?: +([RT]))?")
# Matches channel numbers. python-can counts channels from 0, but its ASC and BLF files count from 1.
NUMBER = re.compile("[0-9]+")
# The first bytes of a record.
RECORD = "canbus record "


class Entry(NamedTuple):
    """An entry of a log: a frame with its timestamp, and its interface or channel."""

    channel: str
    frame: Frame


def read_entries(path: Path, names: Sequence[str] = ()) -> Iterator[Entry]:
    """Yields the entries of a log. The file name extension determines the format.

    In a log with channel numbers, the channels get the names in `names`, or can0, can1 and so on. Raises ValueError.
    Its message names the file and, for candump logs, the line.
    """
    if os.fspath(path).lower().endswith(PCAPNG):
        raise ValueError(f"{os.fspath(path)}: a capture for Wireshark is only written, not read")
    if is_candump(path):
        yield from candump_entries(path)
        return
    # python-can raises many kinds of exceptions for a malformed file.
    try:
        check_lines(path)
        for message in python_can_messages(path):
            yield Entry(name_of(message.channel, names), frame_like(message))
    except (ImportError, OSError, LongLine):
        raise
    except Exception as fault:
        raise ValueError(f"{os.fspath(path)}: {fault or type(fault).__name__}") from None


def is_candump(path: Path) -> bool:
    """Returns whether the file is a candump log, judging by its extension."""
    return os.path.splitext(os.fspath(path).lower().removesuffix(".gz"))[1] not in ENDINGS


def candump_entries(path: Path) -> Iterator[Entry]:
    """Yields the entries of a candump log."""
    with open(path, encoding="utf-8", errors="replace") as file:
        for number, line in enumerate(lines_of(file, path), 1):
            text = line.rstrip("\r\n ")
            if number == 1 and text.startswith(RECORD):
                raise ValueError(f"{os.fspath(path)}: this is a record; take its log, which has the ending .log")
            if text:
                yield entry_of(text, f"{os.fspath(path)}:{number}")


def entry_of(text: str, place: str) -> Entry:
    """Returns the entry in this line. `place` describes the line in error messages."""
    words = LINE.fullmatch(text)
    if not words:
        raise ValueError(f"{place}: not `(SECONDS.MICROS) INTERFACE FRAME`: {shown(text)}")
    try:
        frame = Frame.parse(words[3], float(words[1]))
        return Entry(words[2], dataclasses.replace(frame, is_rx=False) if words[4] == "T" else frame)
    except BadFrame as fault:
        raise ValueError(f"{place}: {fault}") from None


def check_lines(path: Path) -> None:
    """Checks the length of the lines in a text file, because python-can would keep a long line in memory. A fifo is not
    checked, because it can be read only once."""
    name = os.fspath(path).lower()
    is_text = os.path.splitext(name.removesuffix(".gz"))[1] in TEXTS
    if is_text and not stat.S_ISFIFO(os.stat(path).st_mode):
        opened: Any = gzip.open if name.endswith(".gz") else open
        with opened(path, "rb") as file:
            collections.deque(lines_of(file, path), maxlen=0)


def python_can_messages(path: Path) -> "Iterator[Any]":
    """Yields the messages of a log in one of python-can's formats."""
    import canbusd._python_can  # noqa: F401  it says what is missing

    can_io: Any = importlib.import_module("can.io")

    # The times in ASC files are relative to the date in the file.
    more: dict[str, Any] = {"relative_timestamp": False} if ".asc" in os.path.basename(path).lower() else {}
    with can_io.LogReader(os.fspath(path), **more) as reader:
        yield from reader


def name_of(channel: object, names: Sequence[str]) -> str:
    """Returns a channel's name. If the channel is a number or missing, returns the name of the corresponding interface."""
    text = str(channel)
    if channel is not None and not NUMBER.fullmatch(text):
        return text
    number = 0 if channel is None else int(text)
    return (names[number] if number < len(names) else "") or f"can{number}"


def write_entries(path: Path, entries: Iterable[Entry], names: Sequence[str] = ()) -> tuple[int, list[str]]:
    """Writes a log, and returns how many frames it has and the list of its interfaces. The file name extension
    determines the format.

    In a format with channel numbers, the interfaces in `names` get the first numbers. Other interfaces follow in the
    order of their first frames. The new file replaces the old one after all frames are written. Raises ValueError for
    an unknown extension.
    """
    ending = os.path.splitext(os.fspath(path))[1].lower()
    if ending not in WRITTEN:
        raise ValueError(f"{os.fspath(path)}: a log that is written ends in {', '.join(WRITTEN[:-1])} or {WRITTEN[-1]}")
    known = list(names)
    with replaced(path) as file:
        if ending == ".log":
            return write_candump(file, entries), known
        if ending == PCAPNG:
            return write_pcapng(file, entries, known), known
        return write_by_python_can(file, ending, entries, known), known


def is_numbered(path: Path) -> bool:
    """Returns whether a log with this path will have channel numbers, which depends on its extension."""
    return os.fspath(path).lower().endswith(NUMBERED)


def write_candump(file: BinaryIO, entries: Iterable[Entry]) -> int:
    """Writes a candump log, and returns the number of its frames."""
    count = 0
    for name, frame in entries:
        file.write(f"{log_line(name, frame)}\n".encode("ascii"))
        count += 1
    return count


def write_pcapng(file: BinaryIO, entries: Iterable[Entry], known: Sequence[str]) -> int:
    """Writes a capture for Wireshark that begins with the interfaces in `known`. Returns the number of its frames."""
    capture = Capture(file, [(name, 0) for name in known])
    count = 0
    for name, frame in entries:
        # Only the direction of sent frames is known: frames of a log without directions count as received.
        capture.write([(name, frame, 0 if frame.is_rx else OUTBOUND)])
        count += 1
    return count


def write_by_python_can(file: BinaryIO, ending: str, entries: Iterable[Entry], known: list[str]) -> int:
    """Writes a log with channel numbers, and returns the number of its frames. The channel numbers are indices into
    `known`, the list of interfaces. New interfaces are appended to it."""
    import canbusd._python_can  # noqa: F401  it says what is missing

    can_io: Any = importlib.import_module("can.io")

    first = next(iter(rest := iter(entries)), None)
    count = 0
    with can_io.BLFWriter(file) if ending == ".blf" else can_io.ASCWriter(
        io.TextIOWrapper(file, encoding="utf-8")
    ) as logger:
        if first is not None and hasattr(logger, "start_timestamp"):
            # The start date has a precision of milliseconds, and the timestamps in the log are relative to it.
            logger.start_timestamp = int(first.frame.timestamp * 1000) / 1000
        for name, frame in itertools.chain([] if first is None else [first], rest):
            if name not in known:
                known.append(name)
            message = frame.message()
            message.channel = known.index(name)
            logger.on_message_received(message)
            count += 1
    return count
