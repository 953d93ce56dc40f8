"""Reads logs in candump's format. Servers and benches write such logs next to their records."""

import itertools
import os
import re
from collections.abc import Iterator
from typing import IO, TYPE_CHECKING, AnyStr, Optional, Union

from canbusd._run.steps import RESTART, Steps, moment_of
from canbusd._text import shown
from canbusd.frames import Frame

if TYPE_CHECKING:
    from can.message import Message

Path = Union[str, "os.PathLike[str]"]

LOG_LINE = re.compile(r"\(([0-9]+\.[0-9]{6})\) (\S+) (\S+)")
#: More characters than any line of a log has, in any format.
MOST_LINE = 16_384


class LongLine(ValueError):
    """Raised if a line is too long for a log. The message names the file and the line."""


def lines_of(file: "IO[AnyStr]", path: Path) -> "Iterator[AnyStr]":
    """Yields the lines of a log. Raises LongLine if a line is too long."""
    for number in itertools.count(1):
        line = file.readline(MOST_LINE)
        if not line:
            return
        if len(line) == MOST_LINE:
            said = f"no line of a log has {MOST_LINE:,} characters, so this is none, or it is damaged here"
            raise LongLine(f"{os.fspath(path)}:{number}: {said}")
        yield line


def read_log(path: Path) -> "list[Message]":
    """Returns the messages of a log in candump's format. The channel of a message is the interface that sent it.

    Unlike python-can's reader, this function keeps the error classes of error message frames.
    """
    with open(path, encoding="ascii") as file:
        return [message_of(line.rstrip("\n"), path, number) for number, line in enumerate(lines_of(file, path), 1)]


def message_of(line: str, path: Path, number: int) -> "Message":
    """Returns the message in a line of a log, without its LF. Error messages name the log and the line."""
    import canbusd._python_can  # noqa: F401  it says what is missing

    words = LOG_LINE.fullmatch(line)
    if not words:
        raise ValueError(f"{os.fspath(path)}: line {number} is no frame: {shown(line)}")
    return Frame.parse(words[3], float(words[1])).message(words[2])


def log_beside(path: Path) -> Optional[str]:
    """Returns the path of the log that `canbusd serve` writes next to this record, or None if there is no log. For
    can0.rec and can0.rec.new this is can0.log."""
    record = os.fspath(path).removesuffix(".new").removesuffix(".cut")
    folder, name = os.path.split(record)
    # For the bus `...` the record is `....rec`, and os.path.splitext finds no extension in this name.
    log = os.path.join(folder, f"{name.rpartition('.')[0] or name}.log")
    return log if log != os.fspath(path) and os.path.isfile(log) else None


def names_in_log(steps: Steps, log: Path) -> dict[int, str]:
    """Maps the interfaces that won an attempt to their names in the log. The map is empty if the log belongs to another
    run.

    A log contains a line `(MOMENT) NAME FRAME` for each attempt with a frame. NAME is the interface that won the
    attempt.
    """
    columns = zip(steps.kinds, steps.moments, steps.ifaces)
    tried = ((moment_of(moment), winner) for kind, moment, winner in columns if kind < RESTART)
    names: dict[int, str] = {}
    with open(log, encoding="ascii", errors="replace") as file:
        # If the run was killed, its last line may be incomplete.
        whole = (line for line in iter(lambda: file.readline(MOST_LINE), "") if line.endswith("\n"))
        for line, (moment, winner) in zip(whole, tried):
            words = line.split()
            if len(words) != 3 or words[0] != f"({moment:0>17})" or names.setdefault(winner, words[1]) != words[1]:
                return {}
    return names
