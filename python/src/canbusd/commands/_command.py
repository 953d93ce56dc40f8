"""Functions that several commands use: reporting errors, and the arguments for a record and its interfaces."""

import argparse
import gc
import os
import signal
import sys
from collections.abc import Callable
from typing import NoReturn, Optional

from canbusd._process.rates import Rates
from canbusd.record import BadRecord, Record, is_named, read_run


class BadWords(ValueError):
    """The arguments of a command are wrong. The exit status is 2, like that of argparse."""


def run_command(work: Callable[[], Optional[int]], name: str) -> NoReturn:
    """Runs a command and exits. An error is reported on one line of standard error, with exit status 1.

    The command ends without a message at Ctrl-C, and also if the program that reads its standard output ends, such as
    `head`.
    """
    signal.signal(signal.SIGINT, signal.SIG_DFL)
    # A long run creates many objects but no reference cycles.
    gc.disable()
    try:
        status = status_of(work)
        sys.stdout.flush()
    except BrokenPipeError:
        forget_output()
        sys.exit(128 + signal.SIGPIPE)
    except OSError as fault:
        forget_output()
        sys.exit(f"{name}: {f'{fault.filename}: ' if fault.filename else ''}{fault.strerror or fault}")
    except BadWords as fault:
        print(f"{name}: {fault}", file=sys.stderr)
        sys.exit(2)
    except ValueError as fault:
        sys.exit(f"{name}: {fault}")
    except Exception as fault:
        if not is_can_error(fault):
            raise
        sys.exit(f"{name}: {str(fault).removeprefix('canbusd: ')}")
    sys.exit(status)


def status_of(work: Callable[[], Optional[int]]) -> Optional[int]:
    """Returns the exit status of a command. The argument parser may also end the command, for example after it has
    printed the help."""
    try:
        return work()
    except SystemExit as end:
        if isinstance(end.code, str):
            raise
        return end.code


def forget_output() -> None:
    """Discards output that could not be written, so that Python does not try to write it again."""
    os.dup2(os.open(os.devnull, os.O_WRONLY), sys.stdout.fileno())


def is_can_error(fault: Exception) -> bool:
    """Returns whether this is an exception of python-can, which is imported only if a command needs it."""
    can = sys.modules.get("can")
    return can is not None and isinstance(fault, can.CanError)


def add_record(parser: argparse.ArgumentParser) -> None:
    """Adds the arguments for a record and the names of its interfaces."""
    parser.add_argument("record", metavar="RECORD", help="what `canbusd bench --record` or `canbusd serve --out` wrote")
    parser.add_argument(
        "--names",
        metavar="NAME,..",
        help="the names of the interfaces; without them those in the log beside the "
        "record (can0.log beside can0.rec), if there is one",
    )
    parser.add_argument(
        "--cut", action="store_true", help="the record may end before its last line, as that of a run that was killed"
    )


def replayed(path: str, names: Optional[str], cut: bool = False, rates: Optional[Rates] = None) -> Record:
    """Returns the record in this file, with the events of its run but without the text of the file."""
    try:
        return read_run(path, names, cut, rates)
    except BadRecord as fault:
        raise BadRecord(f"{path}: {fault}") from None


def note_of_names(command: str, *runs: tuple[str, Record]) -> None:
    """Prints a note on standard error if some interfaces of a record have no name. The note is about the first such
    record, and explains how to name all of its interfaces."""
    for path, record in runs:
        nameless = [name for name in record.names if not is_named(name)]
        if nameless:
            names = ",".join(name if is_named(name) else "NAME" for name in record.names)
            said = f"no log names {', '.join(nameless)}: name all interfaces with --names {names}"
            print(f"{command}: note: {path}: {said}", file=sys.stderr)
            return
