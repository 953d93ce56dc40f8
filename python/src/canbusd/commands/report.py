"""Shows the run in a record: as a page for a browser, or as a text drawing for a terminal."""

import argparse
import io
import os
import sys
from collections.abc import Iterable
from typing import Optional

from canbusd._process.rates import Rates
from canbusd._run import drawings, summary
from canbusd._run.comparison import TOLERANCE, Comparison
from canbusd._run.fault_rules_of_run import FaultsFile, deciders, faults_beside, is_of_faults, read_ruled, with_names
from canbusd._run.slots import load_of, load_words, slots_of
from canbusd._text import shown
from canbusd.commands import add_database, add_rates, database_of, digits, least_zero, rates_of
from canbusd.commands._command import BadWords, add_record, note_of_names, replayed
from canbusd.record import BadRecord, Record, is_named

EPILOG = """\
The page is one file, which needs no network. It has a time line with a lane for each interface: its attempts, state,
error counters and queue; the chosen attempt in detail, with its arbitration bit by bit; and lists of events, attempts
and items, which follow it. A record that breaks the rules of the bus is refused. With the faults of the run, which
`canbusd serve --out` writes beside the record, the page says which rule gave an attempt its fault.

With --bitrate each attempt takes the time of its bits, and its moment is the end of the frame that it tries, as in a
record of `canbusd bench --bitrate`: the page shows the bus load over time and the identifiers that take most of it, how
long each frame was on the wire, and how long it waited from the first attempt in which it took part.

Of two records the frames are aligned by sender, identifier and order, so that one that is sent again is one difference. A
frame is only in one of the runs, has other data, another outcome, or is later or earlier by more than --tolerance.

  canbusd bench --record run.rec can0,can1 < first_frame.bench
  canbusd report --names can0,can1 run.rec > run.html
  canbusd report --bitrate 500000 --names can0,can1 run.rec > run.html
  canbusd report --counters --names can0,can1 run.rec
  canbusd report yesterday/ecu.rec today/ecu.rec > both.html
  canbusd report --text --exit-code yesterday/ecu.rec today/ecu.rec || echo they differ
"""
MOST_EVENTS = 1000


def add_arguments(parser: argparse.ArgumentParser) -> None:
    """Adds the arguments of the command."""
    add_record(parser)
    parser.add_argument(
        "other", nargs="?", metavar="OTHER", help="a second record: how the runs differ, and both on one axis"
    )
    parser.add_argument(
        "--tolerance",
        type=least_zero,
        default=1000 * TOLERANCE,
        metavar="MS",
        help="with OTHER: moments of a frame that differ by no more are the same, from the first frame of both on "
        f"(default {1000 * TOLERANCE:g})",
    )
    parser.add_argument(
        "--exit-code",
        action="store_true",
        help="with OTHER: the exit status is 1 where the runs differ in more than their order (default: 0)",
    )
    add_database(parser)
    parser.add_argument(
        "--items", type=digits, default=1000000, metavar="N", help="items on the page at most (default 1000000)"
    )
    add_rates(parser, "the page shows the bus load, and how long frames took and waited")
    parser.add_argument(
        "--faults", metavar="FILE", help="the script or the faults of the run (default: the faults beside RECORD)"
    )
    parser.add_argument("--text", action="store_true", help="write events as text, and both of the following")
    parser.add_argument(
        "--counters", action="store_true", help="draw the error counters after each attempt and restart"
    )
    parser.add_argument(
        "--arbitration", action="store_true", help="draw the bits of each attempt in which several interfaces took part"
    )
    parser.add_argument("--first", type=digits, metavar="N", help="the first attempt to draw, from 0")
    parser.add_argument("--last", type=digits, metavar="N", help="the last attempt to draw")


def run(options: argparse.Namespace) -> int:
    """Writes the page or the drawings to standard output, and returns the exit status."""
    rates = rates_of(options)
    check_words(options)
    # The faults file is opened before the record is read, because a server that ends in the meantime renames both
    # files.
    faults = None if has_drawings(options) else faults_of(options)
    record, named, rules = with_rules(faults, rates, options)
    other = None if options.other is None else replayed(options.other, options.names, options.cut)
    note_of_names("canbusd report", (options.record, named), *([] if other is None else [(options.other, other)]))
    title = "" if other is None else title_beside(options.record, options.other)
    comparison = None if other is None else Comparison(record, other, title, options.tolerance / 1000)
    if has_drawings(options):
        write_drawings(record, comparison, options, rates)
    else:
        write_page(named, rules, comparison, options, rates)
    return int(options.exit_code and comparison is not None and bool(comparison.differences))


def has_drawings(options: argparse.Namespace) -> bool:
    """Returns whether the options request text instead of a page."""
    return bool(options.text or options.counters or options.arbitration)


def check_words(options: argparse.Namespace) -> None:
    """Raises BadWords for options that have no effect together."""
    if options.exit_code and options.other is None:
        raise BadWords("--exit-code needs a second record")
    given = [f"--{name}" for name in ("first", "last") if vars(options)[name] is not None]
    if given and not has_drawings(options):
        raise BadWords(f"{' and '.join(given)}: attempts are drawn with --text, --counters or --arbitration only")
    if len(given) == 2 and options.last < options.first:
        raise BadWords(f"--first {options.first} --last {options.last}: no attempt is from there to there")


def write_drawings(
    record: Record, comparison: Optional[Comparison], options: argparse.Namespace, rates: Optional[Rates]
) -> None:
    """Writes the events and drawings as plain text."""
    first = options.first or 0
    last = record.replay.attempts if options.last is None else options.last
    if options.text:
        write(summary.story(record, MOST_EVENTS) if comparison is None else comparison.lines())
        write([load_words(load_of(slots_of(record.replay)))] if rates else [])
    if options.text or options.arbitration:
        write(drawings.arbitration(record, first, last))
    if options.text or options.counters:
        write(drawings.counters(record, first, last))


def write_page(
    record: Record,
    rules: list[str],
    comparison: Optional[Comparison],
    options: argparse.Namespace,
    rates: Optional[Rates],
) -> None:
    """Writes the page, which shows the rule of each attempt."""
    from canbusd._page.report import page

    title = os.path.basename(options.record)
    if isinstance(sys.stdout, io.TextIOWrapper):
        sys.stdout.reconfigure(encoding="utf-8")
    database, most_items = database_of(options), options.items
    sys.stdout.write(page(record.replay, record.names, title, most_items, database, rules, rates, comparison))


def faults_of(options: argparse.Namespace) -> Optional[FaultsFile]:
    """Opens the faults file that the user has named, or the faults file that a server left next to the record. Returns
    None if there is none."""
    if options.faults is not None:
        return FaultsFile(options.faults, options.record)
    try:
        return faults_beside(options.record)
    except OSError as fault:
        note(f"without rules of faults: {fault.filename}: {fault.strerror}")
        return None


def with_rules(
    faults: Optional[FaultsFile], rates: Optional[Rates], options: argparse.Namespace
) -> tuple[Record, Record, list[str]]:
    """Returns the record, the same record with the interface name that its faults may imply, and the rule of each
    attempt. If the faults file next to the record is wrong, there are no rules.

    A comparison uses the names in the logs of both runs. If the user names all interfaces, the record is read only
    once.
    """
    if faults is None:
        return as_it_is(rates, options)
    record = None if options.names else as_it_is(rates, options)[0]
    try:
        if record is None:
            record, rules = read_ruled(options.record, options.names, options.cut, rates, faults)
            named = record
        else:
            named = with_names(record, faults)
            rules = deciders(named, faults)
    except BadRecord as fault:
        if record is None and not is_of_faults(fault):
            raise BadRecord(f"{options.record}: {fault}") from None
        why = f"{faults.path}: {fault}"
        if "unknown interface" in (fault.verdict or "") and record and not all(map(is_named, record.names)):
            why += "; --names says how they are called"
        if options.faults is not None:
            raise BadRecord(why) from None
        note(f"without rules of faults: {why}")
        return as_it_is(rates, options)
    if faults.torn:
        note(f"{faults.path}: without its last line, which is torn: `{shown(faults.torn.decode(errors='replace'))}`")
    return record, named if options.other is None else record, rules


def as_it_is(rates: Optional[Rates], options: argparse.Namespace) -> tuple[Record, Record, list[str]]:
    """Returns the values that `with_rules` returns if there are no faults."""
    record = replayed(options.record, options.names, options.cut, rates)
    return record, record, []


def note(words: str) -> None:
    """Writes a note to standard error."""
    print(f"canbusd report: {words}", file=sys.stderr)


def title_beside(path: str, other: str) -> str:
    """Returns a title for the second of two records: its file name, or its path if both files have the same name."""
    name = os.path.basename(other)
    return other if name == os.path.basename(path) else name


def write(lines: Iterable[str]) -> None:
    """Writes lines to standard output."""
    sys.stdout.writelines(f"{line}\n" for line in lines)
