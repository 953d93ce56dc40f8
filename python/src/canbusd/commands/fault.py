"""Adds a fault rule to the bus of an interface, while its server runs."""

import argparse

from canbusd._session.address import reason_of, server_address
from canbusd._session.connection import SessionRefused
from canbusd._session.injection import Refused, RuleSession
from canbusd._words import VERDICTS
from canbusd.commands import add_address
from canbusd.commands._command import BadWords

EPILOG = f"""\
rules, whose words come in this order:
  next N [from NAMES] [id ID | id ID:MASK] [skip K] VERDICT      the next N attempts of these
  always [from NAMES] [id ID | id ID:MASK] [skip K] VERDICT      all of them
  VERDICT is {', '.join(VERDICTS[:-1])} or {VERDICTS[-1]}

A rule holds from the next attempt on, after those that the bus has, which has at most 64. ID has 3 digits for 11 bits or 8
for 29; with a mask both are words as of a filter.

  canbusd fault can0 "next 32 from ecu global bit"
  canbusd fault can0 next 1 id 123 skip 2 lastbit
  canbusd fault --left can0
  canbusd fault --end can0
"""


def add_arguments(parser: argparse.ArgumentParser) -> None:
    """Adds the arguments of the command."""
    parser.add_argument("interface", metavar="INTERFACE", help="an interface of the bus")
    parser.add_argument("rule", nargs="*", metavar="RULE", help="a rule, as one word or several")
    parser.add_argument("--left", action="store_true", help="print how many rules the bus has that are not used up")
    parser.add_argument("--end", action="store_true", help="end all its rules, before RULE if there is one")
    add_address(parser)


def run(options: argparse.Namespace) -> None:
    """Ends the existing rules, adds a rule, and prints how many rules remain, as the options request."""
    rule = " ".join(options.rule)
    if not (rule or options.left or options.end):
        raise BadWords("a rule is missing, such as 'next 32 from ecu global bit', or --left or --end")
    address = server_address(options.address)
    try:
        with RuleSession(address, options.interface) as session:
            if options.end:
                session.end_rules()
            if rule:
                # The newline marks the string as a script and not as a path.
                session.inject(f"{rule}\n")
            if options.left:
                print(session.rules_left())
    except (OSError, SessionRefused) as fault:
        raise ValueError(f"{address}: {reason_of(fault)}") from None
    except Refused as fault:
        raise ValueError(f"{fault}") from None
