"""The common part of the commands that do the same for each of several interfaces of a server."""

import argparse
from collections.abc import Callable

import canbusd._python_can  # noqa: F401  it says what is missing, so it comes first

from can.exceptions import CanOperationError

from canbusd._session.protocol import NO_FRAMES
from canbusd.bus import CanbusdBus
from canbusd.commands import add_address


def add_arguments(parser: argparse.ArgumentParser) -> None:
    """Adds the arguments of the command."""
    parser.add_argument("interfaces", nargs="+", metavar="INTERFACE", help="an interface of the server")
    add_address(parser)


def do_with_each(options: argparse.Namespace, do: Callable[[CanbusdBus], None]) -> None:
    """Calls `do` for each interface. If some calls were refused, raises ValueError with all reasons after the last
    call."""
    faults: list[str] = []
    for bus in [
        CanbusdBus(name, NO_FRAMES, address=options.address, error_frames=False) for name in options.interfaces
    ]:
        with bus:
            try:
                do(bus)
            except CanOperationError as fault:
                faults.append(f"{fault}")
    if faults:
        raise ValueError("; ".join(faults))
