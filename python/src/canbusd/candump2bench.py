"""Converts a log to an input for `canbusd bench`: candump2bench run.log > run.bench"""

import argparse
import re
import sys
from collections import Counter
from collections.abc import Iterable, Sequence

from canbusd._run.log import lines_of
from canbusd._run.logs import LINE, RECORD, is_candump, read_entries
from canbusd._text import NAME, shown, times
from canbusd.commands._command import run_command
from canbusd.frames import BadFrame, Frame, command_of, log_line

EPILOG = """\
Each line of the log, `(MOMENT) INTERFACE FRAME`, becomes a frame that a session on that interface sends, and an attempt
at that moment. So the frames go over the bus in the order of the log, whatever their identifiers are. The first line of
the output says how to run it. An FD frame keeps its bit rate switch and its error state indicator. A line that is no
data, remote or FD frame is named on standard error and left out, lines that differ in their moments only once; the status
is 1 then.

  candump2bench --listen tester run.log > run.bench
  canbusd bench tester,can0 < run.bench
"""
MOST_INTERFACES = 16
# The maximum size in bytes of an input for `canbusd bench`.
MOST_BYTES = 16777216
# The maximum number of skipped lines that are reported individually.
MOST_NAMED = 100
# Matches the lines that candump prints on a terminal. They have the number of data bytes in brackets.
SCREEN_LINE = re.compile(r".*\S +[0-9A-Fa-f]{3,8} +\[[0-9]{1,2}\].*")


class NotTaken(Exception):
    """A line of the log can't be converted. The message says why."""


class BenchInput:
    """The generated input. Sessions are numbered from 1, in the order in which their interfaces first appear."""

    def __init__(self, listeners: Sequence[str]) -> None:
        self.sessions: dict[str, int] = {}
        self.lines: list[str] = []
        self.bytes = 0
        # The numbers of the sessions that have enabled FD frames.
        self._with_fd = set[int]()
        self._names_of_listeners = listeners
        self._listeners = [self._session(name) for name in listeners]

    def take(self, text: str) -> None:
        """Adds the frame of a log line to the input."""
        line = LINE.fullmatch(text)
        if not line:
            hint = ", which `candump -L` and `candump -l` write" if SCREEN_LINE.fullmatch(text) else ""
            raise NotTaken(f"not `(SECONDS.MICROS) INTERFACE FRAME`{hint}")
        command = command_of(Frame.parse(line[3]))
        sender = self._session(line[2])
        if command.startswith("sendfd"):
            self._ask_for_fd(sender, *self._listeners)
        drains = (f"drain {number}" for number in self._listeners)
        self._add(f"at {line[1]}", f"feed {sender} < {command} >", "attempt", *drains)

    def _session(self, name: str) -> int:
        """Returns the number of the session on this interface, and opens the session if necessary."""
        if name not in self.sessions:
            if not NAME.fullmatch(name):
                raise NotTaken("an interface has 1 to 15 letters, digits, `_`, `-` and `.` for a name")
            if len(self.sessions) == MOST_INTERFACES:
                raise NotTaken(f"more than {MOST_INTERFACES} interfaces")
            number = self.sessions[name] = len(self.sessions) + 1
            # A session that only sends does not use its receive queue, so it filters out all frames.
            quiet = "" if name in self._names_of_listeners else "< filter 0 >"
            self._add(f"session {number}", f"feed {number} < open {name} >< rawmode >{quiet}")
        return self.sessions[name]

    def _ask_for_fd(self, *numbers: int) -> None:
        """Enables FD frames for these sessions, unless they are already enabled."""
        for number in numbers:
            if number not in self._with_fd:
                self._with_fd.add(number)
                self._add(f"feed {number} < fdframes 1 >")

    def _add(self, *lines: str) -> None:
        self.lines += lines
        self.bytes += sum(len(line) + 1 for line in lines)


def parser() -> argparse.ArgumentParser:
    """Returns the argument parser of the command."""
    made = argparse.ArgumentParser(
        prog="candump2bench",
        description="Makes an input of `canbusd bench` from a log of candump, or from an ASC or BLF file.",
        epilog=EPILOG,
        formatter_class=argparse.RawDescriptionHelpFormatter,
    )
    made.add_argument(
        "log",
        metavar="LOG",
        nargs="?",
        help="what `candump -l` or `canbusd` wrote, or an ASC, BLF or other file that python-can reads; without it, a log of "
        "candump from standard input",
    )
    made.add_argument(
        "--names",
        metavar="NAME,..",
        default="",
        help="the interfaces of a file that has numbers of channels, the first one's first (default: can0,can1,..)",
    )
    made.add_argument(
        "--listen",
        metavar="NAME",
        action="append",
        default=[],
        help="a further interface, whose session shows what it receives after each attempt",
    )
    return made


def convert() -> int:
    """Converts the log to an input file; returns the exit status."""
    words = parser().parse_args()
    try:
        bench = BenchInput(words.listen)
    except NotTaken as fault:
        parser().error(f"--listen: {fault}")
    if words.log and not is_candump(words.log):
        lines = (log_line(*entry).encode() for entry in read_entries(words.log, words.names.split(",")))
        return write(bench, take_lines(bench, lines, words.log))
    with open(words.log, "rb") if words.log else sys.stdin.buffer as log:
        place = words.log or "standard input"
        left_out = take_lines(bench, lines_of(log, place), place)
    return write(bench, left_out)


def take_lines(bench: BenchInput, log: Iterable[bytes], place: str) -> int:
    """Adds the lines of a log, and reports the lines that are skipped. Returns the number of skipped lines.

    Lines that differ only in their timestamps, such as repeated bus off frames, are reported once, with the number of
    repetitions.
    """
    left_out = 0
    named: dict[tuple[str, str], str] = {}
    alike = Counter[tuple[str, str]]()
    for number, line in enumerate(log, 1):
        text = line.decode("utf-8", "replace").rstrip("\r\n ")
        if number == 1 and text.startswith(RECORD):
            raise ValueError(f"{place}: this is a record; take its log, which has the ending .log")
        try:
            if text:
                bench.take(text)
            if bench.bytes > MOST_BYTES:
                break
        except (NotTaken, BadFrame) as fault:
            left_out += 1
            words = LINE.fullmatch(text)
            kind = (f"{fault}", f"{words[2]} {words[3]}" if words else text)
            if kind in named or len(named) < MOST_NAMED:
                named.setdefault(kind, f"{place}:{number}: {fault}: {shown(text)}")
                alike[kind] += 1
    for kind, said in named.items():
        more = f"; {times(alike[kind] - 1, 'line')} more like it" if alike[kind] > 1 else ""
        print(f"candump2bench: {said}{more}", file=sys.stderr)
    if left_out > sum(alike.values()):
        print(f"candump2bench: {place}: {left_out} lines in all were left out", file=sys.stderr)
    return left_out


def write(bench: BenchInput, left_out: int) -> int:
    """Writes the input file; returns the exit status."""
    first = f"# canbusd bench {','.join(bench.sessions)} < THIS FILE"
    if bench.bytes + len(first) + 1 > MOST_BYTES:
        print(
            f"candump2bench: the input would have more than the {MOST_BYTES} bytes that canbusd reads: cut the log",
            file=sys.stderr,
        )
        return 1
    if "attempt" not in bench.lines:
        print("candump2bench: no line of the log is a frame that can be sent", file=sys.stderr)
        return 1
    sys.stdout.write("\n".join([first, *bench.lines]) + "\n")
    return 1 if left_out else 0


def main() -> None:
    """Runs the command."""
    run_command(convert, "candump2bench")
