"""The placements of a sweep: combinations of a fault and an attempt."""

import random
from collections import Counter
from collections.abc import Callable, Iterable, Iterator, Sequence
from dataclasses import dataclass, field
from typing import Optional

from canbusd._sweep.attempts import Attempted
from canbusd._sweep.faults_given import Fault

#: The number of consecutive attempts that a burst destroys.
BURST = 16
#: Times in microseconds: how long a sender is down; how long before the start of a frame the other interfaces go down
#: so that they do not acknowledge it; and how long after the end of the frame they come up. At that time the frame is
#: not sent again yet.
DOWN_MICROS, MICROS_BEFORE, MICROS_AFTER = 100_000, 2, 1
#: The increase of the transmit error count after a failed attempt (ISO 11898-1), and the count at which the sender goes
#: bus off.
STEP, OFF = 8, 256


def destroyed(one: Attempted) -> str:
    """Returns the script line that destroys the frame."""
    return f"{one.number} global bit"


def twice(one: Attempted) -> str:
    """Returns the script line after which receivers accept the frame twice."""
    return f"{one.number} lastbit"


def burst(one: Attempted) -> str:
    """Returns the line that destroys this attempt and the attempts that follow it."""
    return f"{one.number}-{one.number + BURST - 1} global bit"


def bus_off(one: Attempted) -> str:
    """Returns the rule that destroys all attempts of the sender, from this attempt on, until the sender is bus off."""
    count = -(-(OFF - one.errors) // STEP)
    skip = f"skip {one.nth_of_sender} " if one.nth_of_sender else ""
    return f"next {count} from {one.sender} {skip}global bit"


@dataclass(frozen=True)
class Kind:
    """A kind of fault: a function that returns the line for an attempt, and a description."""

    line: Callable[[Attempted], str]
    meaning: str
    #: The verdict of a fault rule that leads to the same record. Empty if there is no such verdict.
    verdict: str = ""


KINDS = {
    "destroyed": Kind(destroyed, "all nodes see a fault, and the frame is sent again", "global bit"),
    "twice": Kind(twice, "a fault in the last bit of end of frame: receivers have the frame twice", "lastbit"),
    "burst": Kind(burst, f"{BURST} attempts in a row are destroyed: frames come late, a sender may be error passive"),
    "busoff": Kind(bus_off, "what its sender tries is destroyed until it is bus off"),
}
#: The other kinds and their descriptions. They may have several faults at one attempt.
OTHERS = {
    "missed": "the receive queues of a node lose the frame, as by an overrun",
    "late": "a node has the frame 10 ms later, as one that does other work",
    "full": "the sender's transmit queue has no room for the frame",
    "reset": "a program that the test has started is killed at this moment, and starts anew",
    "down": f"the sender's interface goes down with this frame, and up {DOWN_MICROS // 1000} ms later",
    "noack": "nobody acknowledges the frame: all others of the bus are down for this attempt",
}
#: Kinds for which only servers can be used, because a bench has no times between its calls at which an interface could
#: go down.
OF_SERVERS = ("down", "noack")
#: The word before the name of the receiver in the kind of a placement.
BY = {"missed": "by", "late": "at"}
ALL_KINDS = (*KINDS, *OTHERS)
#: The kinds for a test that does not specify any.
USUAL = ("destroyed", "twice", "burst")


def known_kinds(names: Sequence[str]) -> Sequence[str]:
    """Returns the names of kinds unchanged. Raises ValueError if a name is unknown."""
    wrong = next((name for name in names if name not in ALL_KINDS), None)
    if wrong is not None:
        raise ValueError(f"no kind of fault {wrong!r}; there are {', '.join(ALL_KINDS)}")
    return names


@dataclass
class Result:
    """The result of one run of a test."""

    #: The outcome: `passed`, `failed` or `skipped`.
    outcome: str
    #: The first line of the failure, and pytest's complete output about it.
    message: str = ""
    long: str = ""
    #: The duration of the test in seconds of its own (virtual) time.
    took: float = 0.0
    #: The number of programs that the test started.
    programs: int = 0
    #: A checksum of the records. Equal runs have equal checksums.
    records: str = ""


@dataclass
class Place:
    """A fault at an attempt of a test, several faults, or another order of simultaneous events. Also stores the result
    of the run."""

    kind: str
    faults: Sequence[Fault]
    attempts: Sequence[Attempted] = ()
    seed: int = 0
    jitter: int = 0
    #: Whether the placement is tried first. This is true for the first two attempts with an identifier, the middle one
    #: and the last one.
    is_sample: bool = True
    result: Optional[Result] = field(default=None, compare=False)
    #: Whether a repetition of the run failed in the same way.
    is_confirmed: bool = field(default=True, compare=False)
    #: The attempts of the run with this placement. They are stored only if second faults are wanted.
    later: Sequence[Attempted] = field(default=(), compare=False)
    #: The path of the run's page, or the empty string if there is no page.
    page: str = field(default="", compare=False)

    @property
    def group(self) -> str:
        """The group of the placement: its kind, and the identifiers and senders of its frames."""
        frames = " and ".join(f"{one.identifier} from {one.sender}" for one in self.attempts)
        return f"{self.kind} {frames}" if frames else self.kind

    @property
    def key(self) -> tuple[str, ...]:
        """A key that distinguishes the placement from the other placements of its test."""
        return self.kind, str(self.seed), str(self.jitter), *map(str, self.faults)

    @property
    def has_failed(self) -> bool:
        """Whether the test failed with this placement."""
        return self.result is not None and self.result.outcome == "failed"

    def __str__(self) -> str:
        return " and ".join(map(str, self.attempts)) or f"seed {self.seed}, jitter {self.jitter} microseconds"

    def words(self, prefix: str) -> list[str]:
        """Returns the options that repeat the run. The names of the options begin with `prefix`."""
        words = [f"{prefix}seed", str(self.seed)] if self.seed else []
        words += [f"{prefix}jitter", str(self.jitter)] if self.jitter else []
        for fault in self.faults:
            words += [f"{prefix}fault", str(fault)]
        return words

    def as_rule(self) -> str:
        """Returns a fault rule that causes the same fault in an ordinary test, or the empty string if there is no such
        rule."""
        if len(self.attempts) != 1 or self.faults[0].bus is not None:
            return ""
        one, line = self.attempts[0], self.faults[0].line
        if self.kind not in KINDS:
            return ""
        if not line[:1].isdigit():
            return line
        skip = f"skip {one.nth} " if one.nth else ""
        verdict = KINDS[self.kind].verdict
        return f"next 1 from {one.sender} id {one.identifier} {skip}{verdict}" if verdict else ""


def pairs_of(places: Sequence[Place], count: int, draw: random.Random) -> Iterator[Place]:
    """Yields placements with two faults. The second fault is at an attempt of a run that passed with the first fault."""
    firsts = [one for one in places if one.later and one.result is not None and one.result.outcome == "passed"]
    # If a fault alone makes the test fail, it reveals nothing new as a second fault.
    bad = {one.group for one in places if one.has_failed}
    seen: set[tuple[str, ...]] = set()
    for _ in range(count if firsts else 0):
        first, kind = draw.choice(firsts), draw.choice(["destroyed", "twice"])
        after = [
            one
            for one in first.later
            if one.fault == "good" and one.number > first.attempts[0].number and Place(kind, (), [one]).group not in bad
        ]
        if not after:
            continue
        second = draw.choice(after)
        fault = Fault(first.faults[0].bus and second.bus, KINDS[kind].line(second))
        pair = Place(f"{first.kind}, then {kind}", [*first.faults, fault], [*first.attempts, second])
        if pair.key not in seen:
            seen.add(pair.key)
            yield pair


def micros_of(moment: str) -> int:
    """Converts a timestamp to microseconds."""
    return int(moment.replace(".", ""))


def seconds_of(micros: int) -> str:
    """Formats microseconds as a timestamp. Negative numbers become 0."""
    whole, rest = divmod(max(0, micros), 1_000_000)
    return f"{whole}.{rest:06}"


def faults_at(kind: str, one: Attempted, programs: int) -> Iterator[tuple[str, str]]:
    """Yields the faults of a kind at an attempt. Each fault is a pair: the kind, including the receiver or program that
    it affects, and the line."""
    if kind in ("missed", "late"):
        for receiver in one.receivers:
            yield f"{kind} {BY[kind]} {receiver}", f"{kind} {receiver} {one.identifier} {one.moment}"
    elif kind == "full":
        yield kind, f"full {one.sender} {one.identifier} {one.since}"
    elif kind == "reset":
        for program in range(programs):
            # The program is killed just before the frame arrives.
            yield f"reset of program {program}", f"reset {program} {seconds_of(micros_of(one.moment) - 1)}"
    elif kind == "down":
        yield kind, f"down {one.sender} {seconds_of(micros_of(one.moment) - 1)} {seconds_of(DOWN_MICROS)}"
    elif kind == "noack":
        began = micros_of(one.began) - MICROS_BEFORE
        took = micros_of(one.moment) + MICROS_AFTER - began
        if not one.is_alone:
            yield kind, f"noack {one.sender} {seconds_of(began)} {seconds_of(took)}"
    else:
        yield kind, KINDS[kind].line(one)


def places_at(
    attempts: Sequence[Attempted],
    kinds: Iterable[str],
    senders: Sequence[str] = (),
    ids: Sequence[str] = (),
    programs: int = 0,
) -> Iterator[Place]:
    """Yields the placements of these kinds at every attempt that had no fault. `senders` and `ids` limit the attempts
    unless they are empty. `programs` is how many programs the test starts."""
    buses = {one.bus for one in attempts}
    count = Counter((one.bus, one.sender, one.identifier) for one in attempts)
    for kind in kinds:
        for one in attempts:
            if one.fault != "good" or (senders and one.sender not in senders) or (ids and one.identifier not in ids):
                continue
            bus = None if len(buses) == 1 and one.bus[0] == 0 else one.bus
            last = count[one.bus, one.sender, one.identifier] - 1
            for name, line in faults_at(kind, one, programs):
                yield Place(name, [Fault(bus, line)], [one], is_sample=one.nth in (0, 1, last // 2, last))
