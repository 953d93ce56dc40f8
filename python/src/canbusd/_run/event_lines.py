"""Groups the event lines of a run by kind, because a few kinds have millions of lines."""

import itertools
import operator
from collections.abc import Iterable, Iterator, Sequence

from canbusd._run.steps import numbers_in

#: The frequent kinds of lines, by the third letter of their first word: sends, receives, steps (`attempt`), restarts,
#: and interfaces that go down. Lines of the last two kinds are converted to steps. All other lines are read one by one.
SEND, RECEIVE, STEP, RESTART, DOWN = b"nctsw"
OTHER = ord("o")
#: Translation tables that map one kind to 1 and all other kinds to 0. `NO_QUEUE` lists the kinds that change no queue.
IS = {kind: bytes(kind == other for other in range(256)) for kind in (SEND, RECEIVE, STEP)}
FREQUENT = bytes(IS)
IS[OTHER] = bytes(other not in IS for other in range(256))
NO_QUEUE = bytes(other for other in range(256) if other not in (SEND, STEP))
#: The usual reply in lines of sends and attempts.
USUAL = {SEND: " = number ", STEP: " = tried "}
#: How many words precede the outcome in the line of a step.
WORDS = 8
#: The line of a step in which an interface is restarted or goes down. It has no verdict and no frame.
NO_ATTEMPT = "attempt {}  = tried {} 0  {} 0000 0000{}"
#: The word that follows the frame of an attempt and precedes the set of interfaces that the attempt restarts.
RESTARTED = " restarted "
#: Introduces the parts of a line that apply only to some interfaces.
ONLY = "; only {:04X}"
#: Used instead of a socket number if a receive returned no item. As an index, it selects the last element of a list.
NOBODY = -1

third_letter = operator.itemgetter(2)


class Senders(dict[str, int]):
    """Maps strings to the numbers at their start. A space may follow the number."""

    def __missing__(self, text: str) -> int:
        number = self[text] = int(text.partition(" ")[0])
        return number


class Receivers(dict[str, int]):
    """Maps the string after `receive`, such as `1 = d`, to the socket that got an item, or to NOBODY."""

    def __missing__(self, text: str) -> int:
        socket, _, reply = text.partition(" = ")
        number = self[text] = int(socket) if reply.startswith(("d", "e")) else NOBODY
        return number


SENDERS, RECEIVERS = Senders(), Receivers()


class Lines:
    """Consecutive lines with a separate line for each step: the line of an attempt that restarts interfaces is followed
    by one more line for each of them."""

    def __init__(self, text: str, may_restart: bool) -> None:
        """Groups the lines of `text` by kind. `may_restart` says whether attempts may restart interfaces."""
        self.all = text.split("\n")
        self.kinds = bytearray("".join(map(third_letter, self.all)).encode())
        #: The index of each line's entry, starting at 0.
        self.entries: Sequence[int] = range(len(self.all))
        if RESTART in self.kinds or DOWN in self.kinds or may_restart and RESTARTED in text:
            for place in reversed(range(len(self.all))):
                if self.kinds[place] in (RESTART, DOWN) or RESTARTED in self.all[place]:
                    self._spread(place)
        # Every unusual reply to a send contains a hyphen.
        if "-" in text and self.kinds.count(SEND) != text.count(USUAL[SEND]):
            self._sort_out(SEND)
        #: The words of all lines of steps. Each line has WORDS words, and then the outcome of the step as one string.
        self.words = self._words_of_steps()
        # Attempts without a frame, and other unusual lines of this kind, have fewer words.
        if len(self.words) != (WORDS + 1) * self.kinds.count(STEP):
            self._sort_out(STEP)
            self.words = self._words_of_steps()

    def _words_of_steps(self) -> list[str]:
        split = map(str.split, self.of(STEP), itertools.repeat(" "), itertools.repeat(WORDS))
        return [*itertools.chain.from_iterable(split)]

    def _sort_out(self, kind: int) -> None:
        """Marks the lines of this kind that have an unusual reply as OTHER, so that they are read one by one."""
        places = itertools.compress(itertools.count(), self.kinds.translate(IS[kind]))
        for place, line in zip(places, self.of(kind)):
            if USUAL[kind] not in line:
                self.kinds[place] = OTHER

    def _spread(self, place: int) -> None:
        """Splits the line at index `place` into one line for each step of its entry."""
        found = [*lines_of(self.all[place])]
        if len(found) != 1:
            entries = self.entries = [*self.entries]
            entries[place : place + 1] = entries[place : place + 1] * len(found)
        self.all[place : place + 1] = found
        self.kinds[place : place + 1] = bytes(STEP if USUAL[STEP] in line else OTHER for line in found)

    @property
    def has_others(self) -> bool:
        """Whether there are lines of an infrequent kind."""
        return bool(self.kinds.translate(None, FREQUENT))

    def of(self, kind: int) -> list[str]:
        """Returns the lines of this kind."""
        return list(itertools.compress(self.all, self.kinds.translate(IS[kind])))

    def entries_of(self, kind: int) -> Iterator[int]:
        """Returns the entry index of each line of this kind."""
        return itertools.compress(self.entries, self.kinds.translate(IS[kind]))

    def steps_before(self, kind: int) -> Iterator[int]:
        """Returns the number of steps before each line of this kind."""
        steps = itertools.accumulate(self.kinds.translate(IS[STEP]), initial=0)
        return itertools.compress(steps, self.kinds.translate(IS[kind]))

    def in_queues(self, units: Sequence[int], left: Iterable[int]) -> list[int]:
        """Returns, before each step and after the last line, how many more frames are queued than before the first
        line. `units` are the changes caused by sends, and `left` are the changes caused by steps."""
        kinds = self.kinds.translate(None, NO_QUEUE)
        came = [*itertools.accumulate(units, initial=0)]
        gone = [*itertools.accumulate(left, initial=0)]
        # How many sends precede each step: the lines before the step that are not steps.
        sends = map(operator.sub, itertools.compress(itertools.count(), kinds.translate(IS[STEP])), itertools.count())
        return [*map(operator.add, map(came.__getitem__, sends), gone), came[-1] + gone[-1]]


def senders_of(sends: Iterable[str], sockets: int) -> Iterator[int]:
    """Returns the socket number in each line of a send. `sockets` is the number of all sockets."""
    return map(SENDERS.__getitem__, map(words_after("send", len(str(sockets))), sends))


def receivers_of(receives: Iterable[str], sockets: int) -> Iterator[int]:
    """Returns the socket number in each line of a receive, or NOBODY if the receive returned no item. `sockets` is the
    number of all sockets."""
    return map(RECEIVERS.__getitem__, map(words_after("receive", len(f"{sockets} = d")), receives))


def words_after(name: str, size: int) -> "operator.itemgetter[slice]":
    """Returns a getter for the first `size` characters after the name of the call in a line."""
    place = len(name) + 1
    return operator.itemgetter(slice(place, place + size))


def lines_of(line: str) -> Iterator[str]:
    """Yields a line for each step of the entry, or the unchanged line if the entry has no step."""
    event, semicolon, parts = line.partition("; ")
    words = event.split(" ")
    if words[0] in ("restart", "down") and words[-1] == "ok":
        yield NO_ATTEMPT.format(words[2], words[1], words[0], semicolon + parts)
    elif words[0] == "attempt":
        members = int(words[-1], 16) if words[-2] == "restarted" else 0
        is_tried = words[4] == "tried"
        yield f"{' '.join(words[:-2])}{ONLY.format(0xFFFF & ~members)}{semicolon}{parts}" if is_tried else line
        for number in numbers_in(members):
            yield NO_ATTEMPT.format(words[1], number, "restart", ONLY.format(1 << number) + semicolon + parts)
    else:
        yield line
