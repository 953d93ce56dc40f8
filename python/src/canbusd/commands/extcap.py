"""Shows the interfaces of a server in Wireshark's list of captures: Wireshark calls it by its extcap interface."""

import argparse
import os
import shlex
import sys
from pathlib import Path

import canbusd
from canbusd._run.pcapng import LINKTYPE_CAN_SOCKETCAN
from canbusd._session.address import server_address
from canbusd._session.protocol import ALL_CLASSES
from canbusd.commands import add_address
from canbusd.commands._command import BadWords

# Wireshark calls this program several times before it shows its list of captures. So python-can is imported only if it
# is needed.

EPILOG = """\
Once it is installed for the user, Wireshark and tshark list `canbusd`, which captures all interfaces of a server, each frame
once, and `canbusd-can0` and so on, one for each interface of the server at $CANBUSD_ADDRESS; else at 127.0.0.1:29536. In the
options of a capture the server may be another. There are no capture filters, only display filters.

  canbusd extcap --install
  tshark -i canbusd-can0
"""
# The name of the capture of all interfaces, and the prefix of the capture of one interface.
ALL, ONE = "canbusd", "canbusd-"
# The folders in the user's home directory from which Wireshark reads extcap programs: the first since version 4.2, the
# second before that.
FOLDERS = (".local/lib/wireshark/extcap", ".config/wireshark/extcap")
# How many seconds to wait for the answer of a server that may not exist.
DETECTION = 1.0
NO_FILTERS = "canbusd has no capture filters; a display filter selects frames"
SCRIPT = """\
#!/bin/sh
# Captures of canbusd, which `canbusd extcap --install` put here for Wireshark.
exec {python} -B -c 'import sys
sys.path[:] = [sys.argv.pop(1), *filter(None, sys.path)]
from canbusd.__main__ import main
main()' {package} extcap "$@"
"""


def add_arguments(parser: argparse.ArgumentParser) -> None:
    """Adds the arguments of the command. The arguments that only Wireshark uses are not shown in the help."""
    parser.usage = "canbusd extcap --install"
    parser.add_argument("--install", action="store_true", help="install it for this user, and print where")
    for name in ("--extcap-interfaces", "--extcap-dlts", "--extcap-config", "--capture"):
        parser.add_argument(name, action="store_true", help=argparse.SUPPRESS)
    for name in ("--extcap-interface", "--extcap-version", "--extcap-capture-filter", "--fifo"):
        parser.add_argument(name, help=argparse.SUPPRESS)
    add_address(parser)


def run(options: argparse.Namespace) -> None:
    """Answers Wireshark's request, or installs the script."""
    if options.install:
        install()
    elif options.extcap_interfaces:
        list_interfaces(options)
    elif options.extcap_dlts:
        print(f"dlt {{number={LINKTYPE_CAN_SOCKETCAN}}}{{name=CAN_SOCKETCAN}}{{display=SocketCAN}}")
    elif options.extcap_config:
        print(
            "arg {number=0}{call=--address}{display=Server}{type=string}"
            f"{{tooltip=HOST:PORT, or a Unix path; else {server_address(None)}}}"
        )
    elif options.capture:
        capture(options)
    elif options.extcap_capture_filter:
        # Wireshark shows this output as the reason for refusing the filter.
        print(NO_FILTERS)
    else:
        raise BadWords("canbusd extcap --install: Wireshark calls it with other words")


def install() -> None:
    """Writes the script that Wireshark starts to the user's extcap folders."""
    package = os.path.dirname(os.path.dirname(os.path.abspath(canbusd.__file__)))
    text = SCRIPT.format(python=shlex.quote(sys.executable), package=shlex.quote(package))
    for folder in FOLDERS:
        path = Path.home() / folder / "canbusd"
        path.parent.mkdir(parents=True, exist_ok=True)
        path.write_text(text, encoding="utf-8")
        path.chmod(0o755)
        print(path)


def list_interfaces(options: argparse.Namespace) -> None:
    """Prints the available captures. Without a server, this is only the capture of all interfaces. In Wireshark, the
    user may choose another server for it."""
    from can.exceptions import CanInitializationError

    from canbusd.bus import interfaces

    print(f"extcap {{version={canbusd.__version__}}}{{display=canbusd}}")
    try:
        names = interfaces(options.address, DETECTION)
    except (CanInitializationError, ValueError):
        names = []
    print(f"interface {{value={ALL}}}{{display=canbusd: all interfaces}}")
    for name in names:
        print(f"interface {{value={ONE}{name}}}{{display=canbusd: {name}}}")


def capture(options: argparse.Namespace) -> None:
    """Writes the frames of one or all interfaces to the fifo that Wireshark reads."""
    from canbusd.bus import interfaces
    from canbusd.commands._capture import Captured, Watched
    from canbusd.commands.dump import follow

    if options.extcap_capture_filter:
        raise BadWords(NO_FILTERS)
    if options.fifo is None or options.extcap_interface is None:
        raise BadWords("--capture needs --fifo and --extcap-interface")
    is_all = options.extcap_interface == ALL
    names = interfaces(options.address) if is_all else [options.extcap_interface[len(ONE) :]]
    with open(options.fifo, "wb") as file:
        buses = [
            (name, Watched(name, address=options.address, fd=True, error_frames=ALL_CLASSES, receive_own_messages=True))
            for name in names
        ]
        follow(buses, Captured(file, buses))
