"""Sends frames by an interface of a server, in cansend's spelling."""

import argparse
import errno
import re
import sys
from collections.abc import Iterable, Iterator, Mapping
from typing import Optional

import canbusd._python_can  # noqa: F401  it says what is missing, so it comes first

from can.exceptions import CanOperationError

from canbusd._session.protocol import NO_FRAMES
from canbusd.bus import CanbusdBus
from canbusd.commands import add_address, add_database, database_of, least_zero
from canbusd.frames import BadFrame, Frame
from canbusd.signals import Database, Value

EPILOG = """\
frames:
  123#DEADBEEF       11 bits in 3 digits; bytes may be separated by dots: 123#DE.AD.BE.EF
  00000123#          29 bits in 8 digits
  123#R, 123#R4      remote frames of length 0 and 4
  123##0DEADBEEF     an FD frame; in place of 0 its flags: 1 bit rate switch, 2 error state indicator, 3 both
  Engine.speed=120   with --dbc, a message with this signal; the words of one message that follow each other are one
                     frame, and signals that are not given have their initial value

The command ends once the bus has accepted the frames. What becomes of them is in the log and the record.

  canbusd send can0 123#DEADBEEF 00000123#R4
  canbusd send --dbc car.dbc can0 Engine.speed=120.5 Engine.gear=Drive
"""
SIGNAL = re.compile(r"([A-Za-z_]\w*)\.([A-Za-z_]\w*)=(.+)")


def add_arguments(parser: argparse.ArgumentParser) -> None:
    """Adds the arguments of the command."""
    parser.add_argument("interface", metavar="INTERFACE", help="an interface of the server")
    parser.add_argument("frames", nargs="+", metavar="FRAME", help="frames to send, in their order")
    parser.add_argument(
        "--timeout", type=least_zero, default=1.0, metavar="S", help="seconds to wait for room in the queue (default 1)"
    )
    add_database(parser)
    add_address(parser)


def frames_of_words(words: Iterable[str], database: Optional[Database]) -> Iterator[Frame]:
    """Yields the frames that the arguments describe."""
    message, values = "", dict[str, Value]()
    for text in words:
        signal = SIGNAL.fullmatch(text)
        if message and (not signal or signal[1] != message or signal[2] in values):
            yield frame_of_signals(message, values, database)
            message, values = "", {}
        if signal:
            message, values[signal[2]] = signal[1], signal[3]
        else:
            yield frame_of_word(text)
    if message:
        yield frame_of_signals(message, values, database)


def frame_of_signals(message: str, values: Mapping[str, Value], database: Optional[Database]) -> Frame:
    """Returns the frame of a message with these signal values."""
    if database is None:
        raise ValueError(f"{message}.{next(iter(values))}: the names of signals need --dbc FILE")
    return database.encode(message, values)


def frame_of_word(text: str) -> Frame:
    """Returns the frame that an argument describes."""
    frame = Frame.parse(text)
    if frame.is_error_frame:
        raise BadFrame(f"{text}: an error message frame, which nobody sends")
    if re.search("##[4-9A-Fa-f]", text):
        print(f"canbusd send: {text}: of the flags only 1 and 2 are sent", file=sys.stderr)
    return frame


def run(options: argparse.Namespace) -> None:
    """Sends the frames."""
    frames = list(frames_of_words(options.frames, database_of(options)))
    has_fd = any(frame.is_fd for frame in frames)
    with CanbusdBus(options.interface, NO_FRAMES, address=options.address, fd=has_fd, error_frames=False) as bus:
        try:
            for frame in frames:
                bus.send(frame.message(), timeout=options.timeout)
        except CanOperationError as fault:
            if fault.error_code != errno.ENETDOWN:
                raise
            is_down = bus.error_counters().state == "down"
            raise ValueError(
                f"interface down: `canbusd up {options.interface}` brings the interface up"
                if is_down
                else f"bus off: `canbusd restart {options.interface}` brings the interface back, as the server's "
                "--auto-restart does"
            ) from None
