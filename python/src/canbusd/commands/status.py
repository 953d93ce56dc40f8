"""Prints a table of the state and the counts of a server's interfaces."""

import argparse
import sys
import time
from collections.abc import Sequence

from canbusd._run.summary import HEADINGS, Row, load_words, table
from canbusd._session.protocol import NO_FRAMES, Load
from canbusd.bus import CanbusdBus, interfaces
from canbusd.commands import above_zero, add_address

EPILOG = """\
TEC and REC are the transmit and the receive error count: error warning from 96, error passive from 128, bus off from
256; a `down` interface was taken off the bus. `sent` counts the frames accepted for sending: done, waiting, or lost at
bus off or when the interface went down. `refused` counts the frames that found the transmit queue full. On a bus with
a bit rate, `bus load` is how much of the last whole second it was busy.

  canbusd status
  canbusd status --watch can0 can1
"""
HOME, CLEAR_LINE, CLEAR_BELOW = "\x1b[H", "\x1b[K", "\x1b[J"


def add_arguments(parser: argparse.ArgumentParser) -> None:
    """Adds the arguments of the command."""
    parser.add_argument(
        "interfaces", nargs="*", metavar="INTERFACE", help="an interface of the server (default: all of them)"
    )
    parser.add_argument("--watch", action="store_true", help="keep the table on the screen until Ctrl-C")
    parser.add_argument(
        "--interval",
        type=above_zero,
        default=0.5,
        metavar="S",
        help="seconds between two looks with --watch (default 0.5)",
    )
    add_address(parser)


def run(options: argparse.Namespace) -> None:
    """Prints the table, once or repeatedly."""
    names = options.interfaces or interfaces(options.address)
    buses = [CanbusdBus(name, NO_FRAMES, address=options.address, error_frames=False) for name in names]
    on_screen = options.watch and sys.stdout.isatty()
    if on_screen:
        sys.stdout.write(HOME + CLEAR_BELOW)
    while True:
        lines = table_of([row_of(name, bus) for name, bus in zip(names, buses)], [bus.load() for bus in buses])
        if on_screen:
            sys.stdout.write(HOME + "".join(f"{line}{CLEAR_LINE}\n" for line in lines) + CLEAR_BELOW)
        else:
            sys.stdout.writelines(f"{line}\n" for line in lines)
        sys.stdout.flush()
        if not options.watch:
            break
        time.sleep(options.interval)
    for bus in buses:
        bus.shutdown()


def table_of(rows: Sequence[Row], loads: Sequence[Load]) -> list[str]:
    """Returns the lines of the table. If a bus has a bit rate, the table shows the bus load."""
    if not any(load.bitrate for load in loads):
        return table(rows)
    words = [load_words(load.permille) if load.bitrate else "-" for load in loads]
    return table([(*row, load) for row, load in zip(rows, words)], (*HEADINGS, "bus load"))


def row_of(name: str, bus: CanbusdBus) -> Row:
    """Returns the table row of an interface."""
    counters, stats = bus.error_counters(), bus.stats()
    counts: list[int] = [stats.sent, stats.done, stats.waiting, stats.lost, stats.refused]
    return (name, counters.state, counters.tec, counters.rec, *counts)
