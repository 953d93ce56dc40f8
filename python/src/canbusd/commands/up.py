"""Brings interfaces of a server up."""

import argparse

from canbusd.bus import CanbusdBus
from canbusd.commands._each import add_arguments as add_arguments, do_with_each

EPILOG = """\
Both error counts are 0 then. An interface that is bus off comes back, too, as by `canbusd restart`. An interface that is
up stays up.

  canbusd down can0
  canbusd up can0
"""


def run(options: argparse.Namespace) -> None:
    """Brings the interfaces up."""
    do_with_each(options, CanbusdBus.up)
