"""Converts a log into the format of another tool: candump (.log), ASC (.asc), BLF (.blf) or, for Wireshark, pcapng."""

import argparse
import sys
from collections.abc import Sequence

from canbusd._run.logs import is_numbered, read_entries, write_entries
from canbusd._text import times

EPILOG = """\
The ending of a file says what it is; one with another ending is read as a log of candump, and pcapng is only written. ASC
and BLF have numbers of channels: the first interface is the first channel, in the order of --names, and then as they turn up
in the log. The other way the channels are can0, can1 and so on, or those of --names. ASC has no classes and no data of error
message frames, and its moments may all be earlier by the same part of a millisecond. In BLF moments from before 1990, as
those of a bench, begin with 0.

  canbusd convert run.log run.blf
  canbusd convert run.log run.pcapng
  canbusd convert --names ecu,tester drive.asc drive.log
"""


def add_arguments(parser: argparse.ArgumentParser) -> None:
    """Adds the arguments of the command."""
    parser.add_argument("source", metavar="FROM", help="the log that is read")
    parser.add_argument("target", metavar="TO", help="the log that is written")
    parser.add_argument("--names", metavar="NAME,..", help="the interfaces of the channels, the first one's first")


def run(options: argparse.Namespace) -> None:
    """Converts the log, and prints how many frames it has. If the new log has channel numbers instead of names, also
    prints the interface of each channel."""
    names: Sequence[str] = options.names.split(",") if options.names else ()
    count, known = write_entries(options.target, read_entries(options.source, names), names)
    if not count:
        print(f"canbusd convert: {options.source} has no frame", file=sys.stderr)
    channels = (
        ", ".join(f"{place} {name}" for place, name in enumerate(known, 1)) if is_numbered(options.target) else ""
    )
    print(f"{times(count, 'frame')}{f'; channels: {channels}' if channels else ''}")
