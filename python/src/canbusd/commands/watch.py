"""Shows a running server in the browser: frames, states and counts as they come, on one page, until Ctrl-C."""

import argparse
import select
import sys
import threading
import time
from collections.abc import Iterable, Sequence
from typing import Optional

import canbusd._python_can  # noqa: F401  it says what is missing, so it comes first

from can.exceptions import CanOperationError

from canbusd._page.acts import Acts
from canbusd._page.live import MOST_FRAMES, Board, Json, Row, is_frame, opened
from canbusd._process.program import ProgramNotFound
from canbusd._process.rates import Rates
from canbusd._run.frame_times import FrameTimes
from canbusd._session.address import parse_address
from canbusd._session.protocol import Load
from canbusd.bus import interfaces
from canbusd.commands import above_zero, add_address, add_database, database_of, digits
from canbusd.commands._capture import Watched
from canbusd.commands._command import BadWords
from canbusd.frames import SENDING, Frame, frame_like
from canbusd.signals import Database, Decoded

EPILOG = """\
The page is served on 127.0.0.1 only. Its URL has a token, another one each time, without which nobody gets the page; the
page of a server at a Unix path is only for the user who runs this command. It shows on a time line how many frames each
interface sent, its state, error counts and queue; and lists the last frames, with the watched interfaces that sent them,
changes of state, and each identifier with its last data. Destroyed and unacknowledged frames are shown where the server
was started with --report.
Of a server with a bit rate it has the bus load, and what each identifier takes of it.
A session on each interface receives everything: each frame that it gets is an entry of the record.

The page also sends frames, once and cyclically, gives rules of faults, and takes interfaces down and up, each with the line of
Python that does the same. Cyclic frames end when the page is closed. With --read-only the page only shows.

  canbusd watch
  canbusd watch --port 0 -a ./bench.socket can0
  canbusd watch --read-only --dbc car.dbc
"""
BUS_ERROR, NOT_ACKNOWLEDGED, END_OF_FRAME, FORM = 0x080, 0x020, 0x1A, 0x02


class Watcher:
    """Sessions on all interfaces that the page shows."""

    def __init__(self, names: Sequence[str], address: Optional[str], database: Optional[Database] = None) -> None:
        self.database = database
        self.buses = [Watched(name, address=address, fd=True, receive_own_messages=True) for name in names]
        # The time when the counts were last requested.
        self.asked = 0.0
        # For each interface, the cache of frame times on its bus. Buses with the same bit rates share a cache.
        rates = [rates_of(bus.load()) for bus in self.buses]
        times = {one: times_of(one) for one in rates if one}
        self.wires = [times[one] if one else None for one in rates]

    def tick(self, seconds: float) -> tuple[Json, list[Row]]:
        """Waits for `seconds`. Returns the state of the interfaces, and the frames that arrived in the meantime."""
        rows: dict[tuple[float, str, int], Row] = {}
        faults = [[0, 0, 0] for _ in self.buses]
        deadline = time.monotonic() + seconds
        while True:
            ready = select.select(self.buses, [], [], max(0.0, deadline - time.monotonic()))[0]
            for number, bus in enumerate(self.buses):
                if bus in ready:
                    self.take(number, rows, faults[number])
            if time.monotonic() >= deadline:
                break
        began, asked = self.asked, time.monotonic()
        stats, self.asked = [bus.stats() for bus in self.buses], asked
        # Everything that was counted between two requests happened after the first request was sent.
        span, now = time.monotonic() - began if began else 0.0, time.time()
        loads = [bus.load().permille for bus in self.buses]
        for number in range(len(self.buses)):
            # Reads the frames that arrived before the counts were read.
            self.take(number, rows, faults[number])
        ifaces = [[*bus.error_counters(), *one[3:]] for bus, one in zip(self.buses, stats)]
        missed = sum(one.dropped for one in stats)
        tick = {"time": now, "span": span, "ifaces": ifaces, "faults": faults, "loads": loads, "missed": missed}
        self.note_times(rows.values())
        return tick, list(rows.values())

    def take(self, number: int, rows: dict[tuple[float, str, int], Row], faults: list[int]) -> None:
        """Reads the frames that an interface has received.

        A row contains the timestamp, the frame, the interfaces, the meaning, the sender, the nanoseconds on the wire,
        and, if a database file describes the frame, the message with its signals.
        """
        for _ in range(MOST_FRAMES):
            message = self.buses[number].recv(0)
            if message is None:
                return
            frame = frame_like(message)
            kind = fault_of(frame)
            if kind is not None:
                faults[kind] += 1
            # An error message frame belongs to one interface. A frame that several interfaces received has one row.
            key = frame.timestamp, str(frame), number if frame.is_error_frame else -1
            if key not in rows:
                decoded = self.decoded(frame)
                signals = None if decoded is None else [decoded.message, decoded.signals]
                rows[key] = [frame.timestamp, str(frame), 0, says(frame, decoded), -1, 0, signals]
            row = rows[key]
            row[2] |= 1 << number
            row[4] = row[4] if frame.is_rx else number

    def decoded(self, frame: Frame) -> Optional[Decoded]:
        """Returns the message and the signals of a frame, or None if no database file describes the frame."""
        return self.database.decode(frame) if self.database is not None else None

    def meaning(self, frame: Frame) -> str:
        """Returns the meaning of an error message frame, or of a frame that a database file describes."""
        return says(frame, self.decoded(frame))

    def note_times(self, rows: Iterable[Row]) -> None:
        """Adds to each row how many nanoseconds the frame and the bits after it took on the wire, if the bus has a bit
        rate."""
        by_wire: dict[FrameTimes, list[Row]] = {}
        for row in filter(is_frame, rows):
            # All interfaces that received a frame are on the same bus.
            wire = self.wires[(row[2] & -row[2]).bit_length() - 1]
            if wire is not None:
                by_wire.setdefault(wire, []).append(row)
        for wire, frames in by_wire.items():
            for row, nanos in zip(frames, wire.of(row[1] for row in frames)):
                row[5] = nanos


def rates_of(load: Load) -> Optional[Rates]:
    """Returns the bit rates of a bus, or None if it has none."""
    return Rates(load.bitrate, load.data_bitrate) if load.bitrate else None


def times_of(rates: Rates) -> Optional[FrameTimes]:
    """Returns the cache of frame times for these bit rates. If the program that computes the times is missing, prints a
    note and returns None."""
    try:
        return FrameTimes(rates)
    except ProgramNotFound as fault:
        print(f"canbusd watch: without bus load: {fault}", file=sys.stderr)
        return None


def says(frame: Frame, decoded: Optional[Decoded]) -> str:
    """Returns the meaning of an error message frame or of a decoded frame."""
    return frame.meaning if decoded is None else str(decoded)


def fault_of(frame: Frame) -> Optional[int]:
    """Returns the kind of fault that an error message frame reports for a frame that the interface sent: 0 for last
    bit, 1 for destroyed, 2 for not acknowledged. Returns None for other frames."""
    kind, place = frame.data.ljust(4, b"\0")[2:4]
    if not frame.is_error_frame or not frame.arbitration_id & BUS_ERROR or not kind & SENDING:
        return None
    if frame.arbitration_id & NOT_ACKNOWLEDGED:
        return 2
    return 0 if place == END_OF_FRAME and kind & FORM else 1


def add_arguments(parser: argparse.ArgumentParser) -> None:
    """Adds the arguments of the command."""
    parser.add_argument(
        "interfaces", nargs="*", metavar="INTERFACE", help="an interface of the server (default: all of them)"
    )
    parser.add_argument(
        "--port", type=digits, default=8029, metavar="N", help="the port of the page; 0 is any free one (default 8029)"
    )
    parser.add_argument(
        "--interval",
        type=above_zero,
        default=0.25,
        metavar="S",
        help="seconds between two looks at the counts (default 0.25)",
    )
    parser.add_argument("--read-only", action="store_true", help="the page only shows, and changes nothing")
    add_database(parser)
    add_address(parser)


def run(options: argparse.Namespace) -> None:
    """Serves the page until the server ends or the user presses Ctrl-C."""
    if options.port > 65535:
        raise BadWords(f"--port is a number from 0 to 65535, not {options.port}")
    names: list[str] = options.interfaces or interfaces(options.address)
    database = database_of(options)
    watcher, board = Watcher(names, options.address, database), Board()
    acts = None if options.read_only else Acts(names, options.address, database)
    known = {
        "names": names,
        "source": watcher.buses[0].address,
        "isDecoded": watcher.database is not None,
        "isTimed": any(watcher.wires),
        **({"messages": acts.messages()} if acts else {}),
    }
    has_path = parse_address(watcher.buses[0].address)[0] is not None
    with opened(options.port, board, known, is_own=has_path, acts=acts) as pages:
        threading.Thread(target=pages.serve_forever, daemon=True).start()
        print(f"watching {', '.join(names)} on {pages.url}", flush=True)
        try:
            while True:
                board.add(*watcher.tick(options.interval))
        except CanOperationError as fault:
            board.end(str(fault))
            raise
        finally:
            pages.shutdown()
