"""Parses the fault descriptions that `--canbusd-fault` accepts and that the sweep prints.

    5 lastbit                                a fault at the attempt with this number, in the words of a fault script
    5-20 global bit                          a fault at several consecutive attempts
    next 1 from ecu id 123 skip 2 lastbit    a fault rule
    1:can0:5 lastbit                         a fault on another bus: the number of its server or bench, and its name
    missed ecu 123 1767225600.005089         the sockets of ecu lose the frame with this identifier and timestamp
    late ecu 123 1767225600.005089           the sockets of ecu receive this frame 10 ms later
    full tester 123 1767225600.005089        tester's first send of identifier 123 from this time on finds a full queue
    reset 0 1767225600.005089                the first program of the test is killed at this time and started again
    down ecu 1767225600.005089 0.100000      the interface is down from this time on, for this many seconds
    noack ecu 1767225600.004958 0.000133     all other interfaces of the bus are down, so no node acknowledges ecu's frames
"""

import re
from collections.abc import Iterable
from dataclasses import dataclass
from typing import Optional

from canbusd._placement import FIRST, AtSockets, BusKey, Outage, Reset
from canbusd._text import NAME, shown
from canbusd.rules import VERDICT, is_rule, parse_rule

TEXT = re.compile(rf"(?:(?P<run>[0-9]+):(?P<bus>{NAME.pattern}):)?(?P<line>.*)")
AT_SOCKETS = re.compile(
    rf"(missed|late|full) ({NAME.pattern}) ([0-9A-F]{{3}}|[0-9A-F]{{8}}) ([0-9]{{1,10}}\.[0-9]{{6}})"
)
RESET = re.compile(r"reset ([0-9]{1,4}) ([0-9]{1,10}\.[0-9]{6})")
OUTAGE = re.compile(
    rf"(?P<kind>down|noack) (?P<name>{NAME.pattern}) (?P<moment>[0-9]{{1,10}}\.[0-9]{{6}}) "
    r"(?P<seconds>[0-9]{1,10}\.[0-9]{6})"
)
NUMBERED = re.compile(rf"(?P<first>[0-9]{{1,8}})(?:-(?P<last>[0-9]{{1,8}}))? (?:{VERDICT.pattern})")


@dataclass(frozen=True)
class Fault:
    """A fault of a placement. It affects one bus of a test."""

    #: The bus. None means the bus of the test's first server or bench. If this server has several buses, None means its
    #: first bus.
    bus: Optional[BusKey]
    #: The line of a fault script, or a line for several consecutive attempts, such as `5-20 global bit`.
    line: str

    def __str__(self) -> str:
        return self.line if self.bus is None else f"{self.bus[0]}:{self.bus[1]}:{self.line}"

    @property
    def at_sockets(self) -> Optional[AtSockets]:
        """The fault at the sockets of an interface. None if this is another kind of fault."""
        found = AT_SOCKETS.fullmatch(self.line)
        return AtSockets(*found.groups()) if found else None

    @property
    def reset(self) -> Optional[Reset]:
        """The program that is killed and restarted. None if this is another kind of fault."""
        found = RESET.fullmatch(self.line)
        return Reset(int(found[1]), float(found[2])) if found else None

    @property
    def outage(self) -> Optional[Outage]:
        """The outage during which interfaces are down. None if this is another kind of fault."""
        found = OUTAGE.fullmatch(self.line)
        return Outage(found["kind"], found["name"], float(found["moment"]), float(found["seconds"])) if found else None

    @property
    def lines(self) -> list[str]:
        """The corresponding lines of a fault script. The list is empty for faults that a script can't express."""
        if self.at_sockets or self.reset or self.outage:
            return []
        numbers, _, verdict = self.line.partition(" ")
        first, dash, last = numbers.partition("-")
        return [f"{one} {verdict}" for one in range(int(first), int(last) + 1)] if dash else [self.line]


def parse_fault(text: str) -> Fault:
    """Parses a fault from a string. Raises ValueError with the reason if the string is wrong."""
    found = TEXT.fullmatch(text)
    assert found is not None
    bus = (int(found["run"]), found["bus"]) if found["bus"] else None
    line = found["line"]
    if is_rule(line):
        parse_rule(line)
        return Fault(bus, line)
    if any(form.fullmatch(line) for form in (AT_SOCKETS, RESET, OUTAGE)):
        return Fault(bus, line)
    numbered = NUMBERED.fullmatch(line)
    if not numbered:
        raise ValueError(
            f"{shown(text)!r} is no fault: `5 lastbit`, `5-20 global bit` or `next 1 from can0 id 123 lastbit`, in the "
            "words of a fault script; before it RUN:BUS: if the test has several buses"
        )
    if numbered["last"] and int(numbered["last"]) < int(numbered["first"]):
        raise ValueError(f"{shown(text)!r}: its last attempt is before its first")
    return Fault(bus, line)


def lines_by_bus(faults: Iterable[Fault]) -> dict[BusKey, list[str]]:
    """Maps each bus to the script lines of the faults on that bus."""
    found: dict[BusKey, list[str]] = {}
    for fault in faults:
        found.setdefault(fault.bus or FIRST, []).extend(fault.lines)
    return found
