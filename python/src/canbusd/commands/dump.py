"""Prints the frames that interfaces of a server receive, like candump, until Ctrl-C."""

import argparse
import contextlib
import re
import select
import sys
import time
from collections.abc import Callable, Sequence
from typing import Any, BinaryIO, Optional, TypeVar, Union

from canbusd._session.protocol import ALL_CLASSES
from canbusd.bus import CanbusdBus
from canbusd.commands import add_address, add_database, database_of, digits, least_zero
from canbusd.commands._capture import BATCH, Captured, Watched
from canbusd.commands._command import BadWords
from canbusd.frames import ERROR, EXTENDED, INVERTED, Frame, frame_like, log_line
from canbusd.signals import Database

EPILOG = """\
An interface is a name, followed by filters as candump has them: ID:MASK, ID~MASK for all others, #MASK for classes of
error message frames, and j where frames have to pass all of them. With -e each error message frame is explained in
words. With --pcapng they are in any case, and a frame that several of the interfaces receive is there once.

  canbusd dump -e can0
  canbusd dump can0,123:7FF can1,#FFFFFFFF
  canbusd dump -L can0 can1 > run.log
  canbusd dump --dbc car.dbc can0
  canbusd dump --pcapng - can0 can1 | wireshark -k -i -
"""
FILTER = re.compile("([0-9A-Fa-f]{1,8})([:~])([0-9A-Fa-f]{1,8})")
Bus = TypeVar("Bus", bound=CanbusdBus)


class View:
    """The format in which frames are printed."""

    def __init__(self, options: argparse.Namespace, width: int, database: Optional[Database] = None) -> None:
        self.is_log, self.explains = options.log, options.explain
        self.database = database
        self.width, self.has_seen_extended = width, False
        self.stamp: Callable[[float], str] = STAMPS[options.timestamps](options.timestamps)

    def lines(self, name: str, frame: Frame) -> list[str]:
        """Returns the lines that show a frame."""
        if self.is_log:
            return [log_line(name, frame)]
        lines = [f" {self.stamp(frame.timestamp)} {name:>{self.width}}  {self.long(frame)}"]
        if self.explains and frame.is_error_frame:
            lines.append(f"\t{frame.meaning or 'no class that canbusd knows'}")
        decoded = self.database.decode(frame) if self.database is not None else None
        if decoded is not None:
            lines.append(f"\t{decoded}")
        return lines

    def long(self, frame: Frame) -> str:
        """Returns a frame in the format that candump prints on a terminal."""
        if frame.is_error_frame:
            digits = f"{frame.arbitration_id | ERROR:08X}"
        elif frame.is_extended_id:
            digits = f"{frame.arbitration_id:08X}"
            # As in candump, 11-bit identifiers are aligned right once a frame with a 29-bit identifier has been
            # printed.
            self.has_seen_extended = True
        else:
            digits = f"{frame.arbitration_id:03X}".rjust(8 if self.has_seen_extended else 3)
        length = f"[{frame.dlc:02}]" if frame.is_fd else f" [{frame.dlc}]"
        data = "remote request" if frame.is_remote_frame else " ".join(f"{byte:02X}" for byte in frame.data)
        if frame.is_error_frame:
            data = data.ljust(23) + "   ERRORFRAME"
        return f"{digits}  {length}  {data}".rstrip()


def no_stamp(_: str) -> Callable[[float], str]:
    """Returns no timestamp."""
    return lambda moment: ""


def absolute(_: str) -> Callable[[float], str]:
    """Returns a function that formats a timestamp as the seconds since 1970."""
    return lambda moment: f"({moment:017.6f}) "


def dated(_: str) -> Callable[[float], str]:
    """Returns a function that formats a timestamp as the date and the time of day."""

    def stamp(moment: float) -> str:
        seconds, micros = divmod(round(moment * 1e6), 1000000)
        return f"({time.strftime('%Y-%m-%d %H:%M:%S', time.localtime(seconds))}.{micros:06}) "

    return stamp


def since(kind: str) -> Callable[[float], str]:
    """Returns a function that formats a timestamp as the seconds since the previous frame, or since the first frame."""
    start: list[float] = []

    def stamp(moment: float) -> str:
        start[:] = start or [moment]
        passed = max(moment - start[0], 0.0)
        if kind == "d":
            start[0] = moment
        return f"({passed:010.6f}) "

    return stamp


STAMPS: dict[Optional[str], Callable[[str], Callable[[float], str]]] = {
    None: no_stamp,
    "a": absolute,
    "A": dated,
    "d": since,
    "z": since,
}


def add_arguments(parser: argparse.ArgumentParser) -> None:
    """Adds the arguments of the command."""
    parser.add_argument("interfaces", nargs="+", metavar="INTERFACE[,FILTER..]", help="an interface of the server")
    parser.add_argument("-e", dest="explain", action="store_true", help="error message frames too, explained in words")
    parser.add_argument("-L", dest="log", action="store_true", help="write the format of log files")
    parser.add_argument(
        "-t",
        dest="timestamps",
        choices=("a", "A", "d", "z"),
        help="timestamps: absolute, absolute with date, delta, or from zero",
    )
    parser.add_argument("-n", dest="count", type=digits, metavar="COUNT", help="end after COUNT frames")
    parser.add_argument(
        "-T", dest="timeout", type=least_zero, metavar="MS", help="end after MS milliseconds without a frame"
    )
    parser.add_argument("--pcapng", metavar="FILE", help="write a capture for Wireshark; - is standard output")
    add_database(parser)
    add_address(parser)


def opened(text: str, options: argparse.Namespace, kind: "type[Bus]", errors: int, **more: bool) -> "tuple[str, Bus]":
    """Opens an interface with its filters, and with the error classes in `errors`. Returns the name and the bus of the
    interface."""
    name, *parts = text.split(",")
    filters: list[dict[str, Any]] = []
    join = False
    for part in parts:
        pair = FILTER.fullmatch(part)
        if pair:
            identifier = int(pair[1], 16) | (EXTENDED if len(pair[1]) == 8 else 0)
            identifier |= INVERTED if pair[2] == "~" else 0
            filters.append({"can_id": identifier, "can_mask": int(pair[3], 16)})
        elif re.fullmatch("#[0-9A-Fa-f]{1,8}", part):
            errors = int(part[1:], 16)
        elif part in ("j", "J"):
            join = True
        else:
            raise ValueError(f"{text}: `{part}` is no filter such as 123:7FF, 123~7FF, #1FFFFFFF or j")
    return name, kind(
        name, filters or None, address=options.address, fd=True, error_frames=errors, join_filters=join, **more
    )


class Drops:
    """Reports items that were dropped because the receive queue of a session was full. Checks for such items at most
    once in INTERVAL seconds."""

    INTERVAL = 1.0

    def __init__(self, buses: Sequence[tuple[str, CanbusdBus]]) -> None:
        self.buses, self.dropped = buses, [0] * len(buses)
        self.next_look, self.has_received = time.monotonic() + self.INTERVAL, False

    def look(self, has_received: bool) -> None:
        """Asks the server how many items were dropped, if frames have arrived since the last request."""
        self.has_received |= has_received
        if not self.has_received or time.monotonic() < self.next_look:
            return
        for place, (name, bus) in enumerate(self.buses):
            dropped = bus.stats().dropped
            if dropped > self.dropped[place]:
                more = dropped - self.dropped[place]
                print(
                    f"canbusd dump: {name}: {more} frame{'' if more == 1 else 's'} dropped, {dropped} in all: they came too fast",
                    file=sys.stderr,
                )
            self.dropped[place] = dropped
        self.next_look, self.has_received = time.monotonic() + self.INTERVAL, False


class Printed:
    """Prints the frames of interfaces on standard output as they arrive."""

    has_more = False

    def __init__(self, buses: Sequence[tuple[str, CanbusdBus]], view: View) -> None:
        self.buses, self.view = buses, view

    def take(self, ready: Sequence[CanbusdBus], most: int) -> int:
        """Prints up to `most` frames that have arrived, and returns how many were printed."""
        left = most
        for name, bus in self.buses:
            if bus in ready:
                left -= print_frames(name, bus, self.view, left)
        sys.stdout.flush()
        return most - left


def run(options: argparse.Namespace) -> None:
    """Prints or captures frames as they arrive."""
    if options.log and options.dbc:
        raise BadWords("--dbc does not go with -L: a log has frames only")
    if options.pcapng is None:
        view = View(options, max(len(text.split(",")[0]) for text in options.interfaces), database_of(options))
        errors = ALL_CLASSES if options.explain else 0
        buses = [opened(text, options, CanbusdBus, errors) for text in options.interfaces]
        follow(buses, Printed(buses, view), options.count, options.timeout)
        return
    if options.log or options.explain or options.timestamps or options.dbc:
        raise BadWords("-e, -L, -t and --dbc do not go with --pcapng")
    with capture_file(options.pcapng) as file:
        watched = [
            opened(text, options, Watched, ALL_CLASSES, receive_own_messages=True) for text in options.interfaces
        ]
        follow(watched, Captured(file, watched), options.count, options.timeout)


def capture_file(path: str) -> "contextlib.AbstractContextManager[BinaryIO]":
    """Opens a file for a capture."""
    if path != "-":
        return open(path, "wb")
    if sys.stdout.isatty():
        raise BadWords("--pcapng - writes bytes that are not for a terminal: `| wireshark -k -i -` shows them")
    return contextlib.nullcontext(sys.stdout.buffer)


def follow(
    buses: Sequence[tuple[str, CanbusdBus]],
    output: Union[Printed, Captured],
    count: Optional[int] = None,
    timeout: Optional[float] = None,
) -> None:
    """Passes frames to the output as they arrive. Ends after `count` frames, or when no frame has arrived for `timeout`
    milliseconds."""
    drops = Drops(buses)
    left = sys.maxsize if count is None else count
    most = float("inf") if timeout is None else timeout / 1000
    last = time.monotonic()
    while left > 0:
        wait = 0.0 if output.has_more else max(0.0, min(drops.INTERVAL, last + most - time.monotonic()))
        ready: list[CanbusdBus] = select.select([bus for _, bus in buses], [], [], wait)[0]
        if ready or output.has_more:
            left -= output.take(ready, left)
            last = time.monotonic()
        drops.look(bool(ready))
        if time.monotonic() >= last + most:
            break
    for _, bus in buses:
        bus.shutdown()


def print_frames(name: str, bus: CanbusdBus, view: View, most: int) -> int:
    """Prints up to `most` frames that have arrived, and returns how many were printed."""
    for count in range(min(most, BATCH)):
        message = bus.recv(0)
        if message is None:
            return count
        sys.stdout.writelines(f"{line}\n" for line in view.lines(name, frame_like(message)))
    return min(most, BATCH)
