"""Replays a record, and lists its attempts and restarts, and the interfaces that went down."""

import argparse
import itertools
import json
import sys
from collections.abc import Iterator, Sequence

from canbusd._run.slots import Load, load_of, load_words, overlaps_of, slots_of
from canbusd._run.steps import DOWN, RESTART, moment_of
from canbusd.commands import add_rates, rates_of
from canbusd.commands._command import add_record, note_of_names, replayed
from canbusd.record import Attempt, Record, attempt_at, verdict_of

EPILOG = """\
The program audits the record, and says what each entry brought about. The last line is that of `canbusd audit`, `ok N
entries`; a record that breaks the rules is refused with its first wrong line or entry.

With --json each line is an object. Its `type` is `attempt` or `item`, which is a frame that an interface handed to a
socket; the others are the fields of canbusd.Attempt and canbusd.Item, and `attempt`, the number of the attempt that is
meant, as in a fault script: null where nothing was tried. The frame of an item that was dropped is null where it may have
been an error message frame.

With --bitrate each attempt takes the time of its bits, and none may begin before the one before it is over: the moment
of an attempt is the end of the frame that it tries, as in a record of `canbusd bench --bitrate`. Attempts that overlap
are reported, as a rule all of a server's, whose frames take no time, and the exit status is 1. Moments are microseconds,
rounded down: only an overlap that is there whatever was rounded off counts. The load is the share of the time, from the
start of the first attempt until the last is over, in which the wire was busy: with frames, flags of errors, and the 3
bits after them. With --json it is the last line, with its times in seconds.

  canbusd replay --names can0,can1 run.rec
  canbusd replay --quiet --bitrate 500000 run.rec
  canbusd replay --json run.rec | jq 'select(.outcome == "destroyed")'
"""
# The maximum number of overlapping attempts that are reported.
MOST_OVERLAPS = 10


def add_arguments(parser: argparse.ArgumentParser) -> None:
    """Adds the arguments of the command."""
    add_record(parser)
    add_rates(parser, "no attempt may begin before the one before it is over, and the bus load is written")
    form = parser.add_mutually_exclusive_group()
    form.add_argument("--quiet", action="store_true", help="write only the verdict, and the bus load")
    form.add_argument("--json", action="store_true", help="write each attempt and each item as a line of JSON")


def run(options: argparse.Namespace) -> int:
    """Prints a line for each attempt, for each restart and for each interface that goes down, and then the bus load and
    the verdict."""
    rates = rates_of(options)
    record = replayed(options.record, options.names, options.cut, rates)
    slots = slots_of(record.replay) if rates else []
    if not options.quiet:
        note_of_names("canbusd replay", (options.record, record))
    if options.json:
        for fields in objects_of(record):
            print(json.dumps(fields))
        if rates:
            print(json.dumps(load_object(load_of(slots))))
    elif not options.quiet:
        for line in lines_of(record):
            print(line)
    if rates and not options.json:
        print(load_words(load_of(slots)))
    overlaps = overlaps_of(record.replay, slots)
    if overlaps:
        report(overlaps)
        return 1
    if not options.json:
        print(verdict_of(record))
    return 0


def report(overlaps: Sequence[str]) -> None:
    """Reports the first overlapping attempts, and how many more there are."""
    for line in overlaps[:MOST_OVERLAPS]:
        print(f"canbusd replay: {line}", file=sys.stderr)
    if len(overlaps) > MOST_OVERLAPS:
        print(f"canbusd replay: {len(overlaps) - MOST_OVERLAPS:,} more do", file=sys.stderr)


def load_object(load: Load) -> dict[str, object]:
    """Returns the bus load as an object: the times in seconds, and the load as a fraction."""
    return {"type": "load", "busy": load.busy / 1e9, "time": load.whole / 1e9, "share": load.share}


def objects_of(record: Record) -> Iterator[dict[str, object]]:
    """Yields the fields of each attempt, then the fields of each item."""
    numbers = itertools.count()
    for attempt in record.attempts:
        number = None if attempt.outcome == "idle" else next(numbers)
        yield {"type": "attempt", "attempt": number, **vars(attempt)}
    steps = record.replay.steps
    for item, step in zip(record.items, record.replay.items.steps):
        number = None if steps.kinds[step] >= RESTART else steps.attempts[step]
        moment, frame = float(moment_of(steps.moments[step])), None if item.frame is None else str(item.frame)
        yield {"type": "item", "attempt": number, "timestamp": moment, **vars(item), "frame": frame}


def lines_of(record: Record) -> Iterator[str]:
    """Yields a line for each step, with the error counts of the interface that won, was restarted or went down."""
    run, names, steps = record.replay, record.names, record.replay.steps
    for place, (kind, moment, iface) in enumerate(zip(steps.kinds, steps.moments, steps.ifaces)):
        tec, rec = steps.counts_after(place)[iface]
        front, after = f"({moment_of(moment)}) {names[iface]}", f"counts {tec}/{rec}"
        if kind == RESTART:
            yield f"{front} restarted, {after}"
        elif kind == DOWN:
            yield f"{front} down, {after}"
        else:
            yield f"{front} {steps.text(place)} {words_of(attempt_at(run, names, place))}, {after}"


def words_of(attempt: Attempt) -> str:
    """Describes the outcome of an attempt in words."""
    words: list[str] = [attempt.outcome]
    if attempt.fault not in ("good", attempt.outcome):
        words.append(f"({attempt.fault})")
    words.append(f"accepted by {','.join(attempt.accepted) or 'nobody'}")
    if attempt.off:
        words.append(f"and {','.join(attempt.off)} bus off")
    return " ".join(words)
