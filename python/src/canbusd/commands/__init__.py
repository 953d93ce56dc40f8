"""The commands of `canbusd`. Each module has two functions: `add_arguments` adds the arguments of the command, and
`run` executes it."""

import argparse
from typing import Optional

from canbusd._process.rates import LEAST_BITRATE, MOST_BITRATE, MOST_DBITRATE, Rates
from canbusd._session.address import parse_address
from canbusd.commands._command import BadWords
from canbusd.signals import Database, load_database


def add_address(parser: argparse.ArgumentParser) -> None:
    """Adds the option for a server's address."""
    parser.add_argument(
        "-a",
        "--address",
        type=address_of,
        help="HOST:PORT of the server, or its Unix path, which begins with / or . (default: $CANBUSD_ADDRESS, else "
        "127.0.0.1:29536)",
    )


def add_database(parser: argparse.ArgumentParser) -> None:
    """Adds the option for database files, which contain the names of signals."""
    parser.add_argument(
        "--dbc",
        action="append",
        metavar="FILE",
        help="names of messages and signals: a DBC, ARXML or KCD file, or another that cantools or canmatrix reads; it "
        "may be given again",
    )


def database_of(options: argparse.Namespace) -> Optional[Database]:
    """Returns the messages in the given files, or None if no file is given."""
    return load_database(*options.dbc) if options.dbc else None


def add_rates(parser: argparse.ArgumentParser, what: str) -> None:
    """Adds the options for bit rates. `what` describes the purpose of the bit rates."""
    parser.add_argument(
        "--bitrate",
        type=digits,
        metavar="N",
        help=f"bits a second of the bus, from {LEAST_BITRATE} to {MOST_BITRATE}: {what}",
    )
    parser.add_argument(
        "--dbitrate",
        type=digits,
        metavar="M",
        help="bits a second of the data of FD frames with the bit rate switch, from those of --bitrate to "
        f"{MOST_DBITRATE}; without it all bits go at that rate",
    )


def digits(text: str) -> int:
    """Parses a string of decimal digits, and returns the number."""
    if not (text.isascii() and text.isdigit()):
        raise argparse.ArgumentTypeError(f"not a number in decimal digits: {text!r}")
    return int(text)


def least_zero(text: str) -> float:
    """Parses a number, which must be at least 0."""
    try:
        found = float(text)
    except ValueError:
        found = -1.0
    if not 0 <= found < float("inf"):
        raise argparse.ArgumentTypeError(f"not a number of at least 0: {text!r}")
    return found


def above_zero(text: str) -> float:
    """Parses a number, which must be above 0."""
    found = least_zero(text)
    if not found:
        raise argparse.ArgumentTypeError(f"not a number above 0: {text!r}")
    return found


def address_of(text: str) -> str:
    """Checks the form of an address and returns it."""
    try:
        parse_address(text)
    except ValueError as fault:
        raise argparse.ArgumentTypeError(f"{fault}") from None
    return text


def rates_of(options: argparse.Namespace) -> Optional[Rates]:
    """Returns the given bit rates, or None if none are given."""
    if options.bitrate is None:
        if options.dbitrate is not None:
            raise BadWords("--dbitrate needs --bitrate")
        return None
    try:
        return Rates(options.bitrate, options.dbitrate)
    except ValueError as fault:
        raise BadWords(f"{fault}") from None
