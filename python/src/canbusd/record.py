"""Reads the records of runs, their attempts and their items. docs/RECORD.md describes the format of a record.

    record = read_record("can0.rec")
    assert [attempt.outcome for attempt in record.attempts] == ["destroyed", "done"]

The program reports the effects of each entry of a record, and rejects a record that contains an error.
"""

import contextlib
import functools
import os
import re
from collections.abc import Callable, Iterable, Sequence
from dataclasses import dataclass, field
from typing import BinaryIO, Literal, Optional, Union, cast

from canbusd._process.rates import Rates
from canbusd._run.events import BadRecord, Events
from canbusd._run.log import log_beside, names_in_log
from canbusd._run.run_parts import Bus
from canbusd._run.steps import FATES, KINDS, RESTART, moment_of, numbers_in
from canbusd._run.workers import take_all
from canbusd._text import NAME, times
from canbusd.frames import Frame
from canbusd.replay import UNKNOWN, Replay

__all__ = ["Attempt", "BadRecord", "Item", "Record", "audit", "fault_named", "parse_record", "read_record"]

Path = Union[str, "os.PathLike[str]"]
Outcome = Literal["done", "lastbit", "destroyed", "noack", "idle"]
Fate = Literal["taken", "waiting", "unread", "dropped"]
# The pattern of a record's first line, and how many bytes of a file are read to check that line.
BEGINNING, LINE = re.compile(b"canbus record [1-6]\n"), 256


@dataclass(frozen=True)
class Attempt:
    """An attempt to put the frame that won arbitration on the bus."""

    #: The time of the attempt in seconds.
    timestamp: float
    #: The interface that won arbitration; the empty string if no frame was queued, so that the attempt only restarted
    #: interfaces.
    winner: str
    #: The number of the frame at the interface that won arbitration, starting at 0.
    number: int
    #: The frame in candump's format, such as `123#1122`.
    frame: str
    #: `done` if the frame was sent; `lastbit`, `destroyed` or `noack` if it will be sent again; `idle` if there was no
    #: frame.
    outcome: Outcome
    #: The fault of the attempt, written as in a fault script: `good`, `global bit`, `local crc can1`.
    fault: str
    #: The interfaces that accepted the frame.
    accepted: tuple[str, ...]
    #: The interfaces that went bus off.
    off: tuple[str, ...]
    #: The interfaces that were restarted automatically at the end of the attempt.
    restarted: tuple[str, ...]


@dataclass(frozen=True)
class Item:
    """A frame or an error message frame for a socket, and whether it was delivered, read or dropped."""

    interface: str
    #: The number of the socket. Sockets are numbered from 0 in the order in which they were opened.
    socket: int
    #: The interface that sent the frame. For an error message frame or an unknown frame, the interface that caused the
    #: item.
    sender: str
    #: The frame; None for a dropped item if it is not known whether it was a frame or an error message frame.
    frame: Optional[Frame]
    #: `taken` if a program read the item, `waiting` if it was unread at the end of the run, `unread` if it was unread
    #: when the socket was closed, and `dropped` if the receive queue was full.
    fate: Fate


@dataclass(frozen=True)
class Record(Bus):
    """The record of a run: the configuration of its bus, its entries, and the names of its interfaces."""

    #: The content of the record file, up to the last newline.
    text: bytes = field(repr=False)
    #: Whether the record ends before its last line, `end`.
    is_cut: bool
    names: tuple[str, ...]
    #: The events of the run, decoded from the record.
    replay: Replay = field(repr=False, compare=False)

    @functools.cached_property
    def lines(self) -> list[str]:
        """The lines of the record's entries."""
        return self.text.decode().split("\n")[2 : 2 + self.replay.entries]

    @property
    def attempts(self) -> list[Attempt]:
        """The attempts of the run. An attempt without a frame is included only if it restarted an interface."""
        return attempts_of(self.replay, self.names)

    @property
    def items(self) -> list[Item]:
        """The items that each socket received or lost, ordered by attempt and then by socket."""
        items = self.replay.items
        return list(map(self._item, items.sockets, items.steps, items.errors, items.fates()))

    def _item(self, socket: int, step: int, error: int, fate: int) -> Item:
        run, steps = self.replay, self.replay.steps
        text = run.texts.all[error or steps.frames[step]]
        frame = None if text == UNKNOWN else Frame.parse(text, float(moment_of(steps.moments[step])))
        iface = run.sockets[socket].iface
        sender = self.names[iface if error else steps.ifaces[step]]
        return Item(self.names[iface], socket, sender, frame, cast(Fate, FATES[fate]))


def attempts_of(run: Replay, names: Sequence[str], first: int = 0) -> list[Attempt]:
    """Returns the attempts of a run, beginning with step `first`, which must be the first step of an entry."""
    steps = run.steps
    restarts: dict[int, list[int]] = {}
    for place in steps.places_of(RESTART, first):
        restarts.setdefault(steps.entries[place], []).append(steps.ifaces[place])
    attempts: list[Attempt] = []
    last = -1
    for place in range(first, len(steps)):
        entry = steps.entries[place]
        again = restarts.get(entry, ()) if restarts else ()
        if steps.kinds[place] < RESTART:
            attempts.append(attempt_at(run, names, place, again))
        elif entry != last and entry in run.idle_verdicts:
            moment = float(moment_of(steps.moments[place]))
            fault = fault_named(run.idle_verdicts[entry], names)
            attempts.append(Attempt(moment, "", 0, "", "idle", fault, (), (), named(again, names)))
        last = entry
    return attempts


def attempt_at(run: Replay, names: Sequence[str], place: int, restarted: Sequence[int] = ()) -> Attempt:
    """Returns the attempt at this step of a run. `restarted` are the interfaces that were restarted automatically after
    it."""
    steps = run.steps
    return Attempt(
        float(moment_of(steps.moments[place])),
        names[steps.ifaces[place]],
        steps.numbers[place],
        steps.text(place),
        cast(Outcome, KINDS[steps.kinds[place]]),
        fault_named(steps.verdict(place), names),
        named(numbers_in(steps.accepted[place]), names),
        named(numbers_in(steps.off[place]), names),
        named(restarted, names),
    )


def named(numbers: Sequence[int], names: Sequence[str]) -> tuple[str, ...]:
    """Returns the names of the interfaces with these indexes."""
    return tuple(names[number] for number in numbers)


def read_record(
    path: Path, names: Optional[Sequence[str]] = None, cut: bool = False, rates: Optional[Rates] = None
) -> Record:
    """Returns the record in this file.

    `names` are the names of the interfaces, as a list or as a string like `can0,can1`. By default, they are read from
    the log next to the record (can0.log for can0.rec). The log contains only interfaces that won an attempt; the other
    interfaces are called `interface 0` and so on. With `cut`, the record may be incomplete, like the record of a killed
    run. Then only complete entries are read, and `is_cut` says whether the record is incomplete. If the bit rates of
    the bus are given, the steps include their time on the wire.
    """
    check_no_log(path)
    with open(path, "rb") as file:
        check_beginning(file)
        return parse_record(file.read(), path, names, cut, rates)


def check_no_log(path: Path) -> None:
    """Raises BadRecord if the file is a log; the error names the record next to it. If the path is not a file, the
    program reports the error later."""
    if os.path.isfile(os.fspath(path)):
        with open(path, "rb") as file:
            is_log = file.read(1) == b"("
        if is_log:
            record = os.path.splitext(path)[0] + ".rec"
            beside = f"its record is {record}" if os.path.exists(record) else "it has no record beside it"
            raise BadRecord(f"a log is no record: {beside}")


def parse_record(
    data: bytes,
    path: Optional[Path] = None,
    names: Optional[Sequence[str]] = None,
    cut: bool = False,
    rates: Optional[Rates] = None,
) -> Record:
    """Returns the record in these bytes, like read_record. A log with the names of the interfaces may be next to
    `path`."""
    with Events(cut, rates) as events:
        return record_of(events.texts(data), data[: data.rfind(b"\n") + 1], path, names, rates)


def read_run(path: Path, names: Optional[Sequence[str]], cut: bool, rates: Optional[Rates]) -> Record:
    """Returns the record in this file, like read_record, but does not keep the content of the file, which may be large."""
    check_no_log(path)
    with open(path, "rb") as file:
        check_beginning(file)
        with Events(cut, rates, file) as events:
            return record_of(events.texts_of_file(), b"", path, names, rates, take_all)


def check_beginning(file: BinaryIO) -> None:
    """Raises BadRecord if a file does not begin like a record. Without this check, the program would read the whole
    file before it reports the error."""
    try:
        text = os.pread(file.fileno(), LINE, 0)
    except OSError:
        # A pipe can't be read twice, so its first line is not checked here.
        return
    if not BEGINNING.match(text):
        with Events(cut=True) as events, contextlib.suppress(StopIteration):
            next(events.texts(text))


def record_of(
    events: Iterable[str],
    text: bytes,
    path: Optional[Path],
    names: Optional[Sequence[str]],
    rates: Optional[Rates],
    take: Callable[[Replay, Iterable[str]], object] = Replay.take_texts,
) -> Record:
    """Returns the record with these events and this text. Each string in `events` consists of one or more lines."""
    run = Replay(rates)
    run.text = text
    take(run, events)
    assert run.bus is not None
    return Record(**vars(run.bus), text=text, is_cut=not run.is_whole, names=names_of(run, path, names), replay=run)


def timed(run: Replay, rates: Rates) -> Replay:
    """Returns the same run, with the time on the wire at these bit rates. Reads the record again if the run has other
    bit rates."""
    return run if run.rates == rates else parse_record(run.text, cut=not run.is_whole, rates=rates).replay


def names_of(run: Replay, path: Optional[Path], given: Optional[Sequence[str]]) -> tuple[str, ...]:
    """Returns the names of the interfaces: the given names, or the names in the log next to the record, or numbers."""
    if given is not None:
        names = given.split(",") if isinstance(given, str) else given
        if len(names) != len(run.ifaces):
            raise BadRecord(
                f"its bus has {times(len(run.ifaces), 'interface')}, and these names are given: {','.join(names)}"
            )
        if len(set(names)) != len(names) or not all(map(NAME.fullmatch, names)):
            raise BadRecord(f"no names of interfaces, or the same twice: {','.join(names)}")
        return tuple(names)
    log = log_beside(path) if path is not None else None
    winners = names_in_log(run.steps, log) if log else {}
    return tuple(winners.get(number, number_named(number)) for number in range(len(run.ifaces)))


def number_named(number: int) -> str:
    """Returns the name for an interface whose name is not known."""
    return f"interface {number}"


def is_named(name: str) -> bool:
    """Returns whether this is the real name of an interface, not a name from `number_named`."""
    return NAME.fullmatch(name) is not None


def members_of(verdict: str, names: Sequence[str]) -> list[str]:
    """Returns the names of the interfaces that see a local fault: can1 for the verdict `local-crc:0002`."""
    _, _, digits = verdict.partition(":")
    return [name for number, name in enumerate(names) if digits and int(digits, 16) >> number & 1]


def fault_named(verdict: str, names: Sequence[str]) -> str:
    """Returns a verdict of a record as it is written in a fault script: `local crc can1` for `local-crc:0002`."""
    kind, colon, _ = verdict.partition(":")
    return " ".join([*kind.split("-"), *([",".join(members_of(verdict, names))] if colon else [])])


def audit(data: bytes, cut: bool = False) -> str:
    """Returns the result of `canbusd audit` for the bytes of a record. With `cut`, returns the result of `canbusd audit
    --cut`.

    The result is `ok 7 entries`, with `, then cut off` if the record is incomplete. Otherwise it is `canbusd: `
    followed by the error: `entry 3: wrong`, `line 5: bad line`, `bad version` or `read fault`.
    """
    try:
        return verdict_of(parse_record(data, cut=cut))
    except BadRecord as fault:
        return f"canbusd: {fault.verdict}"


def verdict_of(record: Record) -> str:
    """Returns the result of an audit for a record whose entries are correct."""
    return f"ok {record.replay.entries} entries{', then cut off' if record.is_cut else ''}"
