"""Finds the attempts of a test in the records that the test wrote."""

from collections import Counter, defaultdict
from collections.abc import Iterator
from dataclasses import dataclass
from pathlib import Path

from canbusd._placement import BusKey
from canbusd._process.rates import Rates
from canbusd._run.steps import TAKEN
from canbusd.record import Record, read_record


@dataclass(frozen=True)
class Attempted:
    """An attempt to send a frame, on a bus of a test."""

    bus: BusKey
    #: The number of the attempt on its bus.
    number: int
    #: The timestamp in seconds, with six decimal places.
    moment: str
    sender: str
    #: The frame in candump's spelling, such as `123#1122`.
    frame: str
    #: The index of the frame among the sender's frames with this identifier, and the index of the attempt among all
    #: attempts of the sender. Both start at 0.
    nth: int
    nth_of_sender: int
    #: The timestamp of the sender's previous attempt with this identifier, or 0 if there is none.
    since: str
    #: The sender's transmit error count before the attempt.
    errors: int
    #: The outcome (`done`, `lastbit`, `destroyed` or `noack`), and the fault in the attempt, which is usually `good`.
    outcome: str
    fault: str
    #: The other interfaces at which a socket of the test received the frame.
    receivers: tuple[str, ...] = ()
    #: The time at which the frame started. Without a bit rate, this is the timestamp.
    began: str = "0.000000"
    #: Whether the sender is the only interface on the bus.
    is_alone: bool = False

    @property
    def identifier(self) -> str:
        """The identifier of the frame, with 3 or 8 hexadecimal digits."""
        return self.frame.partition("#")[0]

    def __str__(self) -> str:
        return f"attempt {self.number}, frame {self.nth} of {self.identifier} from {self.sender}"


def attempts_in(folder: Path) -> list[Attempted]:
    """Returns the attempts of all records in this folder, sorted by bus and then by time."""
    return [one for path in sorted(folder.glob("*.rec")) for one in attempts_of(path)]


def attempts_of(path: Path) -> Iterator[Attempted]:
    """Yields the attempts in this record. A file with the ending `.bus` next to it describes the bus."""
    run, _, first = path.stem.partition("-")
    own, names, *numbers = path.with_suffix(".bus").read_text().split(" ")
    rates = Rates(*map(int, numbers)) if numbers else None
    yield from attempts_on((int(run), first), read_record(path, names.split(","), rates=rates), int(own))


def nanos_before(moment: str, nanos: int) -> str:
    """Returns the time that is `nanos` nanoseconds before `moment`, rounded down."""
    micros = (int(moment.replace(".", "")) * 1000 - nanos) // 1000
    return f"{micros // 1_000_000}.{micros % 1_000_000:06}"


def receivers_in(record: Record, own: int) -> dict[int, set[int]]:
    """Maps each step to the interfaces at which a socket received the frame of the step. The first `own` sockets are
    ignored."""
    items, sockets = record.replay.items, record.replay.sockets
    found: dict[int, set[int]] = defaultdict(set)
    for socket, step, error, fate in zip(items.sockets, items.steps, items.errors, items.fates()):
        if socket >= own and not error and fate == TAKEN:
            found[step].add(sockets[socket].iface)
    return found


def attempts_on(bus: BusKey, record: Record, own: int = 0) -> Iterator[Attempted]:
    """Yields the attempts of a record. The first `own` sockets were opened by this package and not by the test."""
    names, receivers = record.names, receivers_in(record, own)
    errors = [0] * len(names)
    of_identifier: Counter[tuple[int, str]] = Counter()
    of_sender: Counter[int] = Counter()
    since: dict[tuple[int, str], str] = {}
    for place, step in enumerate(record.replay.steps):
        if step.kind not in ("restart", "down"):
            key = step.iface, step.text.partition("#")[0]
            yield Attempted(
                bus,
                step.attempt,
                step.moment,
                names[step.iface],
                step.text,
                of_identifier[key],
                of_sender[step.iface],
                since.get(key, "0.000000"),
                errors[step.iface],
                step.kind,
                step.verdict,
                tuple(names[one] for one in sorted(receivers[place] - {step.iface})),
                nanos_before(step.moment, record.replay.steps.frame_nanos[place]),
                len(names) == 1,
            )
            since[key] = step.moment
            of_identifier[key] += 1
            of_sender[step.iface] += 1
        errors = [transmit for transmit, _ in step.counts]
