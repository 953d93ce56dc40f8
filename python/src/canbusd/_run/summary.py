"""Summarises a bus in a few lines: its events, the last lines of its log, and a table of its interfaces."""

import os
import re
from collections.abc import Iterable, Sequence
from pathlib import Path
from typing import Optional

from canbusd._process.rates import Rates
from canbusd._run.story import events_of, heading_of
from canbusd._session.protocol import STATES
from canbusd._whole_file import replaced
from canbusd.frames import ERROR_FRAME, meaning
from canbusd.record import Record
from canbusd.signals import Database

HEADINGS = ("interface", "state", "TEC", "REC", "sent", "done", "waiting", "lost", "refused")
LAST_LINES = 10
# More bytes than the shown last lines of a log have, including the line before them.
LAST_BYTES = 4096
MOST_EVENTS = 10

#: A line of the table: the name, the state, the transmit and receive error counts, and the counts of frames.
Row = tuple[object, ...]


def interfaces(record: Record) -> list[Row]:
    """Returns the rows of the interfaces at the end of a run."""
    rows: list[Row] = []
    for name, one in zip(record.names, record.replay.ifaces):
        counts = (one.sent, one.done, len(one.waiting), one.lost, one.refused)
        rows.append((name, STATES[one.state()], one.tec, one.rec, *counts))
    return rows


def story(record: Record, most: int = MOST_EVENTS) -> list[str]:
    """Returns a line that summarises the run, and lines for the last events of the run."""
    replay, names = record.replay, record.names
    events = events_of(replay, names)
    lines = [heading_of(replay, names, events)[0]]
    if len(events) > most:
        lines.append(f"  .. {len(events) - most} events before")
    for event in events[-most:]:
        attempt = f"attempt {replay.steps.attempts[event.step]}" if event.step >= 0 else "start"
        lines.append(f"  {attempt}: {event.words}")
    return lines


def load_words(permille: int) -> str:
    """Formats a bus load, given in thousandths, with a small bar: ` 43.2 % ####......`."""
    return f"{permille / 10:5.1f} % {'#' * min(round(permille / 100), 10):.<10}"


def table(rows: Iterable[Row], headings: Sequence[str] = HEADINGS) -> list[str]:
    """Returns the lines of a table. The first two columns are aligned left, and the other columns are aligned right."""
    cells = [list(headings), *([str(cell) for cell in row] for row in rows)]
    widths = [max(len(row[place]) for row in cells) for place in range(len(headings))]
    return [
        "  ".join(
            cell.ljust(width) if place < 2 else cell.rjust(width)
            for place, (cell, width) in enumerate(zip(row, widths))
        ).rstrip()
        for row in cells
    ]


def end_of_log(path: Path) -> list[str]:
    """Returns the path and the last lines of a log. The meaning of each error message frame is added in words."""
    try:
        with open(path, "rb") as file:
            file.seek(max(0, os.fstat(file.fileno()).st_size - LAST_BYTES))
            last = file.read().decode("ascii", errors="replace").splitlines()[-LAST_LINES:]
    except OSError as fault:
        return [f"{path}: {fault.strerror}"]
    heading = f"{path} ends, each frame with its sender:" if last else f"{path} is empty"
    return [heading, *(f"  {with_meaning(line)}" for line in last)]


def with_meaning(line: str) -> str:
    """Returns a line of a log, which may be incomplete. If it contains an error message frame, the meaning is added."""
    words = line.split()
    if len(words) == 3 and re.fullmatch(ERROR_FRAME, words[2]):
        return f"{line}  {meaning(words[2])}"
    return line


def write_page(
    record: Record,
    path: "os.PathLike[str]",
    rules: Sequence[str] = (),
    rates: Optional[Rates] = None,
    database: Optional[Database] = None,
) -> Path:
    """Writes the page of a run, and returns the path of the page. The caller can pass the rule of each attempt, the bus
    load, and messages with their signals."""
    from canbusd._page.report import page

    target = Path(path)
    name = target.with_suffix(".rec").name
    text = page(record.replay, record.names, name, database=database, rules=rules, rates=rates)
    with replaced(target) as file:
        file.write(text.encode())
    return target
