"""Brings interfaces of a server back from bus off."""

import argparse

from canbusd.bus import CanbusdBus
from canbusd.commands._each import add_arguments as add_arguments, do_with_each

EPILOG = """\
Both error counts are 0 then, and the frames queued at bus off are lost. An interface that is down comes up. One that is
neither bus off nor down is reported, with status 1; the others are brought back all the same.

  canbusd restart can0
  canbusd restart can0 can1
"""


def run(options: argparse.Namespace) -> None:
    """Restarts the interfaces."""
    do_with_each(options, CanbusdBus.restart)
