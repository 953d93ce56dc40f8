"""The current placement of a sweep: the faults that this process adds to the runs of a test, and where the records of
the runs are stored.

A sweep runs a test many times, each time in a new process and with a fault at a different attempt. Outside a sweep
there is no placement, and the functions of this module have no effect.
"""

import os
import shutil
import threading
import time
from collections.abc import Callable, Mapping, Sequence
from dataclasses import dataclass, field
from pathlib import Path
from typing import TYPE_CHECKING, NamedTuple, Optional, Union

from canbusd.faults import Script, lines_of, script_bytes

if TYPE_CHECKING:
    from canbusd._process.program_run import Ack
    from canbusd._process.rates import Rates

#: A bus in a test: the index of its server or bench in start order, and the name of the bus's first interface.
BusKey = tuple[int, str]


#: A record: the path of its file, or its content.
Left = Union[Path, bytes]
Keep = Callable[[BusKey, Sequence[str], int, Left, "Optional[Rates]"], None]


#: The delay of a late frame in seconds.
DELAY = 0.010


class AtSockets(NamedTuple):
    """A fault in the sockets of an interface."""

    #: `missed`: the sockets lose the frame with this timestamp, as if a receive buffer had overrun. `late`: the sockets
    #: receive that frame DELAY seconds later. `full`: from this time on, the first attempt to send such a frame finds
    #: the transmit queue full.
    kind: str
    interface: str
    #: The identifier as 3 or 8 hexadecimal digits, and the time in seconds with six decimals, both as written in
    #: protocol messages.
    identifier: str
    moment: str

    def is_received(self, message: str) -> bool:
        """Returns whether a message delivers this frame to a socket."""
        is_it = f" {self.identifier} {self.moment} " in message and not message.startswith("< error ")
        return is_it and self.kind != "full"

    def is_sent(self, message: str) -> bool:
        """Returns whether a message sends this frame at or after the time of the fault."""
        is_it = message.split(" ", 2)[:2] == ["send", self.identifier]
        return is_it and self.kind == "full" and time.time() >= float(self.moment)


class Outage(NamedTuple):
    """Interfaces of a server that go down at a given time, for a given number of seconds."""

    #: `down`: this interface is down. `noack`: all other interfaces of its bus are down, so that no node acknowledges
    #: its frames.
    kind: str
    interface: str
    moment: float
    seconds: float

    def among(self, buses: Sequence[Sequence[str]]) -> list[str]:
        """Returns the interfaces that go down on a server with these buses; an empty list if the server does not have
        `interface`."""
        own = next((names for names in buses if self.interface in names), ())
        return [name for name in own if (name == self.interface) == (self.kind == "down")]


class Reset(NamedTuple):
    """A program of a test that is killed at a given time and then started again."""

    program: int
    moment: float


#: Stands for the first bus of the first server or bench.
FIRST: BusKey = (0, "")


@dataclass
class Placement:
    """The faults that this process adds to the runs of its test, and a function that receives the runs' records."""

    #: The fault script lines for each bus, which are placed before the test's own lines.
    lines: Mapping[BusKey, Sequence[str]] = field(default_factory=dict)
    #: A function that is called with the record of each run. Its arguments are the bus, the names of the interfaces,
    #: how many of the first sockets belong to the package itself, the record's path or content, and the bit rates if
    #: the bus has any.
    keep: "Keep" = lambda *_: None
    at_sockets: Sequence[AtSockets] = ()
    resets: Sequence[Reset] = ()
    outages: Sequence[Outage] = ()
    #: The number of programs that the test has started so far.
    programs: int = 0
    #: The reason why a fault could not be carried out.
    failure: str = ""
    #: How many servers and benches the test has started, and the bus passed to the first call of `lines_of`.
    runs: int = 0
    first: Optional[BusKey] = None

    def next_run(self) -> int:
        """Returns the index of the next server or bench that starts."""
        self.runs += 1
        return self.runs - 1

    def lines_of(self, bus: BusKey) -> list[str]:
        """Returns the fault script lines for a bus. The bus in the first call of this method is treated as the bus
        FIRST."""
        self.first = self.first or bus
        return [*(self.lines.get(FIRST, ()) if bus == self.first else ()), *self.lines.get(bus, ())]


_current: Optional[Placement] = None


def carry_out(placement: Placement) -> None:
    """Sets the placement that this process carries out."""
    global _current
    _current = placement
    for one in placement.at_sockets:
        os.environ["CANBUSD_RUN_FAULT"] = " ".join(one)


def is_there() -> bool:
    """Returns whether this process carries out a placement."""
    return _current is not None


def has_faults() -> bool:
    """Returns whether this process carries out a placement with faults."""
    one = _current
    return one is not None and bool(one.lines or one.at_sockets or one.resets or one.outages)


def next_run() -> int:
    """Returns the index of the next server or bench that starts; 0 if there is no placement."""
    return _current.next_run() if _current else 0


def script_of(bus: BusKey, script: Optional[Script]) -> Optional[Script]:
    """Returns the fault script for a bus: the lines of the placement, followed by the test's own lines."""
    added = _current.lines_of(bus) if _current else ()
    if not added:
        return script
    numbers = {line.partition(" ")[0] for line in added if line[:1].isdigit()}
    own = lines_of(script_bytes(script).decode())
    return "".join(f"{line}\n" for line in [*added, *(line for line in own if line.partition(" ")[0] not in numbers)])


def rules_of(bus: BusKey) -> Sequence[str]:
    """Returns the rules that the placement adds to the script of a bus."""
    return [line for line in (_current.lines_of(bus) if _current else ()) if not line[:1].isdigit()]


def at_sockets_of(interface: str) -> Optional[AtSockets]:
    """Returns the fault that the placement injects in the sockets of an interface; None if there is none."""
    return next((one for one in _current.at_sockets if one.interface == interface), None) if _current else None


def acknowledged_by(usual: "Ack") -> "Ack":
    """Returns which nodes acknowledge frames. If the placement takes all other nodes off the bus, returns `peers`,
    which means only other nodes; otherwise returns `usual`."""
    is_noack = _current is not None and any(one.kind == "noack" for one in _current.outages)
    return "peers" if is_noack else usual


def note_server(buses: Sequence[Sequence[str]], take_down: Callable[[Sequence[str], float, float], None]) -> None:
    """Notes that the test has started a server with these buses. `take_down` is called with a list of interfaces, the
    time at which they go down, and how many seconds they stay down."""
    for outage in _current.outages if _current else ():
        names = outage.among(buses)
        if names:
            threading.Thread(target=take_down, args=(names, outage.moment, outage.seconds), daemon=True).start()


def note_failure(reason: Exception) -> None:
    """Notes that a fault of the placement could not be carried out. The result of this run then says nothing about the
    test."""
    if _current is not None:
        _current.failure = str(reason)


def note_program(restart: Callable[[], None]) -> None:
    """Notes that the test has started a program. `restart` kills the program and starts it again."""
    if _current is None:
        return
    number = _current.programs
    _current.programs += 1
    for reset in _current.resets:
        if reset.program == number:
            threading.Thread(target=_restart_at, args=(reset.moment, restart), daemon=True).start()


def _restart_at(moment: float, restart: Callable[[], None]) -> None:
    sleep_until(moment)
    restart()


def sleep_until(moment: float) -> None:
    """Waits until the clock reaches this time."""
    time.sleep(max(0.0, moment - time.time()))


def keep(bus: BusKey, names: Sequence[str], own: int, record: Left, rates: "Optional[Rates]") -> None:
    """Passes a complete record to the sweep, if there is one."""
    if _current and (isinstance(record, bytes) or record.exists()):
        _current.keep(bus, names, own, record, rates)


def copy_to(folder: Path) -> "Keep":
    """Returns a function that copies each record to this folder. A file next to the record contains how many sockets
    belong to the package itself, the names of the interfaces and the bit rates."""

    def copy(bus: BusKey, names: Sequence[str], own: int, record: Left, rates: "Optional[Rates]") -> None:
        target = folder / f"{bus[0]}-{bus[1]}.rec"
        if isinstance(record, bytes):
            target.write_bytes(record)
        else:
            shutil.copyfile(record, target)
        numbers = [] if rates is None else [one for one in (rates.bitrate, rates.dbitrate) if one is not None]
        target.with_suffix(".bus").write_text(" ".join(map(str, [own, ",".join(names), *numbers])))

    return copy
