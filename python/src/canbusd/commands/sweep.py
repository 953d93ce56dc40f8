"""Runs a command again and again beside a server, each time with a fault at another attempt, and says which of them break it."""

import argparse
import os
from pathlib import Path
from typing import Any, Optional

import canbusd._python_can  # noqa: F401  it says what is missing, so it comes first

from canbusd._sweep import joined, worker
from canbusd._sweep.command import CommandTask, PlainTerminal
from canbusd._sweep.faults_given import Fault, parse_fault
from canbusd._sweep.options import OUT, shard_of
from canbusd._sweep.places import ALL_KINDS, USUAL, known_kinds
from canbusd._sweep.sweep import JITTER, Options, Sweep, given_place
from canbusd._sweep.telling import Telling
from canbusd._sweep.tests import Test
from canbusd.commands import above_zero, add_rates, digits
from canbusd.commands._command import BadWords

EPILOG = f"""\
The command runs in virtual time, first without a fault and then once for each attempt of that run and each kind of fault. A
server with these buses runs beside it, which its programs find as canbusd-run and the commands of canbusd do, by
CANBUSD_ADDRESS. The command passes if its status is 0. Several runs go on at once in this folder, so what each of them writes
belongs below TMPDIR, a folder of its own. {OUT}/index.html has all attempts and faults; the status is 1 if a
placement fails.

  canbusd sweep --bitrate 500000 can0,can1 -- ./scenario.sh
  canbusd sweep --bitrate 500000 --faults twice,missed can0,can1 -- sh -c 'canbusd-run ./ecu can0 & canbusd-run ./test can1'
  canbusd sweep --bitrate 500000 --fault '5 lastbit' can0,can1 -- ./scenario.sh
  canbusd sweep --join part-*/sweep.json
"""


def add_arguments(parser: argparse.ArgumentParser) -> None:
    """Adds the arguments of the command."""
    parser.usage = "canbusd sweep [options] BUS [BUS ..] -- COMMAND .. | canbusd sweep --join FILE .."
    parser.add_argument(
        "words",
        nargs=argparse.REMAINDER,
        metavar="BUS .. -- COMMAND ..",
        help="the buses, each the names of its interfaces, and the command",
    )
    add_rates(parser, "attempts take the time of their bits")
    parser.add_argument(
        "--auto-restart",
        type=digits,
        default=0,
        metavar="N",
        help="an interface comes back from bus off after N attempts",
    )
    parser.add_argument(
        "--faults",
        default=",".join(USUAL),
        metavar="KINDS",
        help=f"of {', '.join(ALL_KINDS)} (default: {','.join(USUAL)})",
    )
    parser.add_argument("--senders", default="", metavar="NAME,..", help="only frames that these interfaces send")
    parser.add_argument(
        "--ids", default="", metavar="ID,..", help="only frames with these identifiers, in 3 digits or 8"
    )
    parser.add_argument(
        "--known",
        action="append",
        default=[],
        metavar="GROUP",
        help="a group that fails and may, as 'twice 123 from can0'; may be repeated",
    )
    parser.add_argument(
        "--fault",
        action="append",
        default=[],
        metavar="FAULT",
        help="only this fault, as the sweep printed it; may be repeated",
    )
    parser.add_argument(
        "--seed", type=digits, default=0, metavar="N", help="with --fault or alone: this order of what is due at once"
    )
    parser.add_argument(
        "--jitter", type=digits, metavar="MICROS", help="each wait is longer by up to this in other orders"
    )
    parser.add_argument(
        "--jobs", type=digits, metavar="N", help="how many runs at once (default: one for each processor)"
    )
    parser.add_argument("--time", type=above_zero, metavar="S", help="begin no run after this many seconds")
    parser.add_argument(
        "--quick", action="store_true", help="samples of each identifier, and the rest only where these differ"
    )
    parser.add_argument("--pairs", type=digits, default=0, metavar="N", help="also try this many second faults")
    parser.add_argument(
        "--seeds", type=digits, default=0, metavar="N", help="also try this many other orders of simultaneous events"
    )
    parser.add_argument(
        "--check", type=digits, default=0, metavar="N", help="carry out N placements again, and compare the records"
    )
    parser.add_argument("--resume", action="store_true", help=f"go on from {OUT}/sweep.json")
    parser.add_argument("--shard", metavar="K/N", help="the K-th of N parts")
    parser.add_argument(
        "--join",
        action="store_true",
        help=f"the words are the files sweep.json of all parts: {OUT}/ has what they found together",
    )


def run(options: argparse.Namespace) -> int:
    """Runs the sweep or joins its parts, and returns the exit status."""
    if options.join:
        return join_parts(options.words)
    buses, words = parted(options.words)
    try:
        kinds = known_kinds(options.faults.split(","))
    except ValueError as fault:
        raise BadWords(str(fault)) from None
    task = CommandTask(words, buses, server_options(options), given_words(options))
    test = Test(task, kinds, named(options.senders), named(options.ids.upper()), options.known)
    found = sweep_options(options)
    # Restarts Python only after these checks, so that wrong arguments are reported at once.
    if not worker.is_ready():
        worker.start_anew(())
    page = "" if found.given is not None else os.path.join(OUT, "index.html")
    telling = Telling(PlainTerminal(), page, lambda report: None)
    Sweep([test], found, telling).carry_out()
    is_bad = test.base is not None and test.base.outcome != "passed"
    return int(is_bad or telling.failures > 0)


def join_parts(names: "list[str]") -> int:
    """Joins the parts of a sweep, prints the results, and returns the exit status."""
    if not names:
        raise BadWords("canbusd sweep --join FILE ..: it takes the files sweep.json of the parts")
    tests = joined.join([Path(name) for name in names], Path(OUT))
    for test in tests:
        for line in joined.lines_of(test):
            print(line)
    print(os.path.join(OUT, "index.html"))
    return int(any(joined.is_bad(test) for test in tests))


def parted(words: "list[str]") -> "tuple[list[str], list[str]]":
    """Splits the arguments into the buses and the command with its arguments."""
    if "--" not in words:
        raise BadWords("canbusd sweep BUS -- COMMAND ..: -- is before the command")
    place = words.index("--")
    if not words[:place] or not words[place + 1 :]:
        raise BadWords("canbusd sweep BUS -- COMMAND ..: it takes a bus, such as can0,can1, and a command")
    return words[:place], words[place + 1 :]


def named(text: str) -> "list[str]":
    """Returns the names in a comma-separated string."""
    return [name for name in text.split(",") if name]


def server_options(options: argparse.Namespace) -> "dict[str, Any]":
    """Returns the arguments for the class Server."""
    return {"bitrate": options.bitrate, "dbitrate": options.dbitrate, "auto_restart": options.auto_restart}


def given_words(options: argparse.Namespace) -> "list[str]":
    """Returns the command-line arguments that set the options of the server."""
    pairs = {
        "--bitrate": options.bitrate,
        "--dbitrate": options.dbitrate,
        "--auto-restart": options.auto_restart or None,
    }
    return [word for name, value in pairs.items() if value is not None for word in (name, str(value))]


def sweep_options(options: argparse.Namespace) -> Options:
    """Returns the options for the sweep."""
    try:
        faults: list[Fault] = [parse_fault(text) for text in options.fault]
        shard: Optional[tuple[int, int]] = shard_of(options.shard)
    except ValueError as fault:
        raise BadWords(f"{fault}") from None
    jitter = JITTER if options.jitter is None else options.jitter
    is_given = bool(faults) or options.seed > 0
    return Options(
        at_once=options.jobs or len(os.sched_getaffinity(0)),
        seconds=options.time,
        is_quick=options.quick,
        pairs=options.pairs,
        seeds=options.seeds,
        jitter=jitter,
        checks=options.check,
        is_resumed=options.resume,
        shard=shard,
        out=Path(OUT).absolute(),
        given=given_place(faults, options.seed, options.jitter or 0) if is_given else None,
    )
