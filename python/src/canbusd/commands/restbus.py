"""Sends the messages of a database's nodes, except for nodes that are left out, each at its cycle time, until
Ctrl-C."""

import argparse
import contextlib
import signal
import sys
import time
from collections.abc import Iterator, Mapping, Sequence
from typing import Optional

from canbusd._restbus.live_rest_bus import LiveRestBus
from canbusd._restbus.nodes import NoInterface, interfaces_of, sender
from canbusd._text import times
from canbusd.bus import CanbusdBus, interfaces
from canbusd.commands import above_zero, add_address
from canbusd.commands._command import BadWords
from canbusd.rest_bus import RestBus
from canbusd.signals import Database, load_database

EPILOG = """\
A node sends by the interface that --node has for it, else by that of --interface, else by the one with its name. What is not
set with --set is as the file says it starts. With --log the frames of these nodes in a log are sent, at their moments there.

  canbusd restbus --list car.dbc
  canbusd restbus car.dbc --without ECU --interface can0
  canbusd restbus car.dbc --without ECU --node Engine=can0 --node Gateway=can1 --set Engine.EngineSpeed=3000
  canbusd restbus car.dbc --without ECU --interface can0 --log drive.blf
"""


def add_arguments(parser: argparse.ArgumentParser) -> None:
    """Adds the arguments of the command."""
    parser.add_argument("files", nargs="+", metavar="FILE", help="a DBC, ARXML, KCD or SYM file")
    parser.add_argument(
        "--without",
        action="append",
        default=[],
        metavar="NODE,..",
        help="nodes that are not simulated; it may be given again",
    )
    parser.add_argument("--interface", metavar="NAME", help="the interface of all nodes that have none by --node")
    parser.add_argument("--node", action="append", default=[], metavar="NODE=NAME", help="the interface of a node")
    parser.add_argument("--set", action="append", default=[], metavar="NODE.SIGNAL=VALUE", help="the value of a signal")
    parser.add_argument("--log", metavar="LOG", help="a log whose frames are sent, and then the command ends")
    parser.add_argument("--for", dest="duration", type=above_zero, metavar="S", help="end after S seconds")
    parser.add_argument("--list", action="store_true", help="print what the files say, and send nothing")
    add_address(parser)


def run(options: argparse.Namespace) -> None:
    """Sends the messages until the end, and prints how many frames were sent, refused and skipped."""
    nodes = dict(pairs_of(options.node, "--node", "NODE=NAME"))
    values = list(pairs_of(options.set, "--set", "NODE.SIGNAL=VALUE"))
    database = load_database(*options.files)
    if options.list:
        print(database)
        return
    known = interfaces(options.address)
    chosen = chosen_of(database, options, nodes, known)

    def opened(channel: str, **more: object) -> CanbusdBus:
        return CanbusdBus(channel, address=options.address, **more)  # type: ignore[arg-type]

    rest = LiveRestBus(database, chosen, opened)
    for words, value in values:
        node, _, name = words.partition(".")
        rest[node][name] = value
    print("\n".join(table_of(database, rest)), flush=True)
    with rest:
        duration: Optional[float] = options.duration
        if options.log:
            length = rest.replay(options.log)
            duration = length + 0.1 if duration is None else duration
        send_until(rest, duration)


def chosen_of(
    database: Database, options: argparse.Namespace, nodes: Mapping[str, str], known: Sequence[str]
) -> dict[str, str]:
    """Returns the interface of each node. If a node has no interface, raises ValueError with a suggestion of options."""
    without = [name for names in options.without for name in names.split(",")]
    try:
        return interfaces_of(database, without, nodes, options.interface, known)
    except NoInterface as fault:
        first = known[0]
        cure = f"give --interface {first} or --node {fault.node}={first}, or leave it out with --without {fault.node}"
        raise ValueError(f"{fault.fault}: {cure}; there are {', '.join(known)}") from None


def pairs_of(words: Sequence[str], option: str, form: str) -> Iterator[tuple[str, str]]:
    """Splits the arguments of an option into pairs of a name and a value."""
    for word in words:
        name, equals, value = word.partition("=")
        if not (name and equals and value):
            raise BadWords(f"{option} is {form}, not {word!r}")
        yield name, value


def table_of(database: Database, rest: RestBus) -> Iterator[str]:
    """Yields a line for each message, with its interface or with a note that the message is not sent. Also yields a
    line for each node that is not simulated."""
    sent = {message.format.name: message for message in rest.messages}
    for message in database.messages:
        interface = sent[message.name].interface if message.name in sent else "-"
        how = "" if message.name not in sent or message.is_cyclic else "  (no cycle time: not sent)"
        yield f"{interface:<10} {message}{how}"
    for node in sorted({sender(message) for message in database.messages} - {node.name for node in rest.nodes} - {""}):
        yield f"not simulated: {node}"


def send_until(rest: LiveRestBus, duration: Optional[float]) -> None:
    """Waits for the end of the duration or for Ctrl-C, and prints how many frames were sent, refused and skipped."""
    end = time.monotonic() + (float("inf") if duration is None else duration)
    # Ctrl-C is the usual way to end the command.
    signal.signal(signal.SIGINT, signal.default_int_handler)
    with contextlib.suppress(KeyboardInterrupt):
        while (left := end - time.monotonic()) > 0:
            rest.check()
            time.sleep(min(left, 0.2))
    counts = rest.counts()
    said = f"{times(counts.accepted, 'frame')} sent, {counts.refused} refused, {counts.skipped} skipped"
    print(f"canbusd restbus: {said}", file=sys.stderr)
