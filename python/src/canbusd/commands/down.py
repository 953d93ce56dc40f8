"""Takes interfaces of a server off the bus."""

import argparse

from canbusd.bus import CanbusdBus
from canbusd.commands._each import add_arguments as add_arguments, do_with_each

EPILOG = """\
This is as `ip link set can0 down`: queued frames are lost, and until `canbusd up` the interface sends, accepts and
acknowledges nothing. Its clients stay connected, and their sends are refused. An interface that is down stays down.

  canbusd down can0
  canbusd up can0
"""


def run(options: argparse.Namespace) -> None:
    """Takes the interfaces off the bus."""
    do_with_each(options, CanbusdBus.down)
