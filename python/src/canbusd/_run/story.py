"""Describes a run in words: a heading, its size, and its noteworthy events."""

import bisect
import itertools
import operator
import re
from collections import Counter
from collections.abc import Iterable, Iterator, Sequence
from typing import NamedTuple

from canbusd._run.run_parts import WARNING, severity
from canbusd._run.steps import DONE, DOWN, KINDS, LASTBIT, NOACK, RESTART, Steps, numbers_in
from canbusd._session.protocol import STATES
from canbusd._text import times
from canbusd._words import OUTCOMES
from canbusd.record import members_of
from canbusd.replay import Replay

# Several refused sends, or several dropped items, at one interface or socket form one event if at most this many steps
# are between them.
GAP = 8
# Matches consecutive steps at which a count has the same severity.
SAME_LEVEL = re.compile(rb"\x00+|\x01+|\x02+|\x03+")
REASONS = {
    "no-buffers": "its transmit queue was full",
    "bus-off": "it was bus off",
    "interface-down": "it was down",
}


class Event(NamedTuple):
    """A noteworthy event at a step of the run. Step -1 means the time before the first step."""

    step: int
    kind: str
    iface: int
    words: str


def joined(words: Sequence[str]) -> str:
    """Joins words into a list: `a`, `a and b`, `a, b and c`."""
    return " and ".join([", ".join(words[:-1]), words[-1]] if len(words) > 1 else words)


def events_of(run: Replay, names: Sequence[str]) -> list[Event]:
    """Returns the events of a run, sorted by step."""
    found = [*state_events(run, names), *second_copies(run, names), *refusals_of(run, names), *drops_of(run, names)]
    return sorted(found, key=lambda event: event.step)


def state_events(run: Replay, names: Sequence[str]) -> Iterator[Event]:
    """Yields events: changes of state, frames lost because an interface went bus off or down, and restarts."""
    steps = run.steps
    # The step in which each interface last went bus off or down.
    went: dict[int, int] = {}
    no_attempts = steps.places_of(RESTART) + steps.places_of(DOWN)
    for number in sorted({*no_attempts, *level_changes(steps, len(names))}):
        iface, now = steps.ifaces[number], steps.counts_row(number)
        if steps.kinds[number] == RESTART:
            back = f"{names[iface]} is back on the bus, with both counts 0"
            yield Event(number, "restart", iface, back + outage_of(steps, went[iface], number))
            continue
        if steps.kinds[number] == DOWN:
            if not (number and steps.down[number - 1] >> iface & 1):
                went[iface] = number
                yield from down_of(run, number, names[iface])
            continue
        before = states_of(steps.counts_before(number))
        for i in itertools.compress(itertools.count(), map(operator.ne, before, states_of(now))):
            went[i] = number
            yield from change_of(steps, number, i, names)


def down_of(run: Replay, number: int, name: str) -> Iterator[Event]:
    """Yields the events of an interface that goes down in a step."""
    iface, lost = run.steps.ifaces[number], len(run.lost.get(number, []))
    yield Event(number, "down", iface, f"{name} went down: it takes no part until it is up")
    if lost:
        yield Event(
            number, "lost", iface, f"{name} lost {times(lost, 'frame')}: its transmit queue is empty once it is down"
        )


def level_changes(steps: Steps, ifaces: int) -> Iterator[int]:
    """Yields the steps in which the severity of an error count changes. The first step may be included."""
    for place in range(2 * ifaces if steps.changed else 0):
        column = steps.counts[place :: 2 * ifaces]
        most = max(column, default=0)
        if most >= WARNING:
            levels = bytes(map([*map(severity, range(most + 1))].__getitem__, column))
            yield from (found.start() for found in SAME_LEVEL.finditer(levels))


def states_of(counts: Sequence[int]) -> list[int]:
    """Returns the severity of each interface, which depends on the higher of its two error counts."""
    return [severity(max(both)) for both in zip(counts[::2], counts[1::2])]


def outage_of(steps: Steps, went: int, back: int) -> str:
    """Returns how long an interface was bus off or down between two steps: `; it was off for 203.1 ms, attempts 836 to
    1,012`."""
    micros = steps.moments[back] - steps.moments[went]
    duration = f" for {duration_words(micros)}" if micros > 0 else ""
    first, last = steps.attempts[went], steps.attempts[back] - 1
    # An outage begins with the attempt in which the interface went bus off, or with the first attempt after it went
    # down.
    is_down = steps.kinds[went] == DOWN
    is_tried = last >= first if is_down else last > first
    attempts = f"attempts {first:,} to {last:,}" if is_tried else "and no frame was tried"
    return f"; it was {'down' if is_down else 'off'}{duration}, {attempts}"


def duration_words(micros: int) -> str:
    """Formats a duration in a suitable unit: `40 µs`, `203.1 ms`, `1.3 s`, `2 min 5.0 s`."""
    if micros < 1_000:
        return f"{micros} µs"
    if micros < 1_000_000:
        return f"{micros / 1_000:.1f} ms"
    minutes, rest = divmod(micros / 1_000_000, 60)
    return f"{minutes:,.0f} min {rest:.1f} s" if minutes else f"{rest:.1f} s"


class Climb(NamedTuple):
    """The attempts that raised the transmit error count of an interface since the count was last 0."""

    #: The number of the first of these attempts, and how many attempts changed the transmit error count.
    first: int
    attempts: int
    #: The number of failed attempts for each verdict, or for `noack`.
    faults: Counter[str]

    def words(self, names: Sequence[str]) -> str:
        """Returns `32 of its 33 attempts from attempt 1,000 on failed (31 x global bit, 1 x last bit)`, or `all its 32
        attempts ..`."""
        each = ", ".join(f"{count:,} x {fault_words(fault, names)}" for fault, count in self.faults.most_common())
        failed, attempts = sum(self.faults.values()), times(self.attempts, "attempt")
        which = f"all its {attempts}" if 1 < failed == self.attempts else f"{failed:,} of its {attempts}"
        return f"{which} from attempt {self.first:,} on failed ({each})"


def climb_to(steps: Steps, last: int, iface: int) -> Climb:
    """Returns the attempts that raised the transmit error count of an interface, up to the step `last`."""
    found: list[int] = []
    for place in reversed(range(bisect.bisect_right(steps.changed, last))):
        number = steps.changed[place]
        if steps.ifaces[number] == iface and steps.kinds[number] < RESTART:
            found.append(number)
            if not steps.counts_before(number)[2 * iface]:
                break
    failed = [number for number in reversed(found) if steps.kinds[number] != DONE]
    faults = Counter(KINDS[NOACK] if steps.kinds[one] == NOACK else steps.verdict(one) for one in failed)
    return Climb(steps.attempts[found[-1]], len(found), faults)


def fault_words(fault: str, names: Sequence[str]) -> str:
    """Describes a verdict or a missing acknowledgement in words."""
    short = {"noack": "no acknowledgement", "lastbit": "last bit"}
    return short.get(fault) or verdict_words(fault, names)


def change_of(steps: Steps, number: int, i: int, names: Sequence[str]) -> Iterator[Event]:
    """Yields the events for the change of an interface's state in a step."""
    tec, rec = steps.counts_after(number)[i]
    name, state = names[i], severity(max(tec, rec))
    if state == 3:
        why = climb_to(steps, number, i).words(names)
        yield Event(number, "bus off", i, f"{name} went bus off at transmit count {tec}: {why}")
        lost = times(steps.waiting_before(number)[i], "frame")
        yield Event(number, "lost", i, f"{name} lost {lost}: bus off empties its transmit queue")
    else:
        side = f"transmit count {tec}" if severity(tec) == state and state else f"receive count {rec}"
        reason = side if state else "both counts below 96"
        yield Event(number, STATES[state], i, f"{name} is error {STATES[state]}: {reason}")


def second_copies(run: Replay, names: Sequence[str]) -> Iterator[Event]:
    """Yields the attempts in which a receiver accepted a frame a second time, after a fault in the last bit."""
    steps = run.steps
    kinds, number = steps.kinds.tobytes(), -1
    # For each interface, the last frame that has to be sent again, and how many copies of the frame each receiver has
    # accepted.
    had: dict[int, tuple[int, Counter[int]]] = {}
    # While no frame has to be sent again, the loop skips to the next last-bit fault, because there may be a million
    # attempts.
    while 0 <= (number := number + 1 if had else kinds.find(LASTBIT, number + 1)) < len(kinds):
        kind, iface, accepted = kinds[number], steps.ifaces[number], steps.accepted[number]
        if not accepted or (iface not in had and kind != LASTBIT):
            continue
        frame, copies = had.get(iface, (-1, Counter()))
        if frame != steps.numbers[number]:
            copies = Counter()
        again = [i for i in numbers_in(accepted) if copies[i]]
        copies.update(numbers_in(accepted))
        if again:
            most = max(copies[i] for i in again)
            who = joined([names[i] for i in again])
            yield Event(number, "second copy", iface, f"{who} accepted {steps.text(number)} again: copy {most}")
        if kind == LASTBIT:
            had[iface] = steps.numbers[number], copies
        else:
            del had[iface]


def refusals_of(run: Replay, names: Sequence[str]) -> Iterator[Event]:
    """Yields the sends that were refused because a queue was full or because an interface was off."""
    for (iface, reason), steps in run.refused.items():
        for first, count in groups(steps):
            yield Event(first, "refused", iface, f"{names[iface]} refused {times(count, 'send')}: {REASONS[reason]}")


def drops_of(run: Replay, names: Sequence[str]) -> Iterator[Event]:
    """Yields the items that were dropped because the receive queue of a socket was full."""
    items = run.items
    found: dict[int, list[int]] = {}
    for place in itertools.chain.from_iterable(items.drops()):
        found.setdefault(items.sockets[place], []).append(items.steps[place])
    for number, steps in found.items():
        iface = run.sockets[number].iface
        for first, count in groups(steps):
            words = f"socket {number} on {names[iface]} dropped {times(count, 'item')}: its receive queue was full"
            yield Event(first, "dropped", iface, words)


def groups(steps: Iterable[int]) -> Iterator[tuple[int, int]]:
    """Groups steps that are close to each other, and yields the first step and the number of steps of each group."""
    first = last = count = 0
    for step in steps:
        if count and step - last > GAP:
            yield first, count
            count = 0
        first = first if count else step
        last, count = step, count + 1
    if count:
        yield first, count


def verdict_words(verdict: str, names: Sequence[str]) -> str:
    """Describes a verdict from the record in words: `local crc at can1` for `local-crc:0002`."""
    kind, colon, _ = verdict.partition(":")
    if not colon:
        return {"good": "none", "lastbit": "last bit, at the sender only"}.get(kind, kind.replace("-", " "))
    return f"{kind.replace('-', ' ')} at {', '.join(members_of(verdict, names)) or 'nobody'}"


def counts_by_kind(run: Replay) -> dict[str, int]:
    """Returns the number of steps of each kind."""
    return {kind: run.steps.count_of(number) for number, kind in enumerate(KINDS)}


def facts_of(run: Replay) -> str:
    """Describes the size of the run in numbers."""
    counts = counts_by_kind(run)
    outcomes = [f"{counts[kind]:,} {words}" for kind, words in OUTCOMES.items() if counts[kind]]
    facts = [f"{times(run.attempts, 'attempt')}: {joined(outcomes)}"] if outcomes else []
    facts += [times(run.idle, "idle attempt")] if run.idle else []
    facts += [f"Down {times(counts['down'], 'time')}"] if counts["down"] else []
    facts += [times(counts["restart"], "restart")] if counts["restart"] else []
    end = ", which is cut off" if not run.is_whole else ""
    return ". ".join([*facts, f"{times(run.entries, 'entry', 'entries')} in the record{end}."])


def heading_of(run: Replay, names: Sequence[str], events: Sequence[Event]) -> tuple[str, int]:
    """Describes the size and the worst event of the run in one line. Returns this line and the step of that event."""
    size = f"{times(len(names), 'node')}, {times(run.attempts, 'attempt')}"
    if not run.attempts:
        return f"{size}: no frame was tried", 0
    words, step = worst_of(run, names, events)
    return f"{size}: {words}", step


def worst_of(run: Replay, names: Sequence[str], events: Sequence[Event]) -> tuple[str, int]:
    """Returns the worst event, and the first step in which it occurred."""
    firsts = {event.kind: event for event in reversed(events)}
    if "bus off" in firsts:
        offs = [(names[event.iface], run.steps.attempts[event.step]) for event in events if event.kind == "bus off"]
        each = [f"{name} went bus off in attempt {attempt:,}" for name, attempt in offs]
        many = "{:,} times bus off, first {} in attempt {:,}".format(len(offs), *offs[0])
        return joined(each) if len(offs) <= 3 else many, firsts["bus off"].step
    if "passive" in firsts:
        first = firsts["passive"]
        attempt = f"{run.steps.attempts[first.step]:,}"
        return f"{names[first.iface]} became error passive in attempt {attempt}", first.step
    if "dropped" in firsts:
        dropped = sum(socket.dropped for socket in run.sockets)
        return f"{times(dropped, 'item')} dropped, since receive queues were full", firsts["dropped"].step
    if "down" in firsts:
        first = firsts["down"]
        return f"{names[first.iface]} went down before attempt {run.steps.attempts[first.step]:,}", first.step
    kinds = run.steps.kinds
    failed = run.attempts - run.steps.count_of(DONE)
    if failed:
        return f"{failed:,} failed", next(k for k, kind in enumerate(kinds) if DONE < kind < RESTART)
    refused = sum(iface.refused for iface in run.ifaces)
    return f"all done, {times(refused, 'send')} refused" if refused else "all done", 0
