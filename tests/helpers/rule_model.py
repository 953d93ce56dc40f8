"""Finds the rule that decided each attempt in a record, from the faults of the run, as docs/RECORD.md describes. This
is an independent model, with which the tests compare the program. It parses a rule with one regular expression, and
does not use the package's rules.
"""

import re
from collections.abc import Iterator, Sequence

MOST_RULES = 64
NAME = "[A-Za-z0-9_.-]{1,15}"
RULE = re.compile(
    rf"(?:always|next (?P<count>[0-9]{{1,8}}))(?: from (?P<senders>{NAME}(?:,{NAME})*))?"
    r"(?: id (?P<id>[0-9A-Fa-f]{1,8})(?::(?P<mask>[0-9A-Fa-f]{1,8}))?)?(?: skip (?P<skip>[0-9]{1,8}))? (?P<verdict>.*)"
)
LATER = re.compile("at ([0-9]{1,10}) (.*)")
NUMBERED = re.compile("([0-9]{1,8}) (.*)")
# The flags of an identifier word (linux/can.h).
EXTENDED, REMOTE, INVERTED = 1 << 31, 1 << 30, 1 << 29


class Rule:
    """A rule that the bus accepted, with its number. It stores how many attempts it still has to skip and to decide."""

    def __init__(self, number: int, text: str, names: Sequence[str]) -> None:
        found = RULE.fullmatch(text)
        assert found, text
        self.number, self.verdict = number, recorded(found["verdict"], names)
        self.line = f"rule {number} {written(found, names)}"
        self.senders = {names.index(name) for name in found["senders"].split(",")} if found["senders"] else None
        self.identifier, self.mask = words_of(found["id"], found["mask"])
        self.skip = int(found["skip"] or 0)
        self.left = int(found["count"]) if found["count"] else None

    def matches(self, winner: int, word: int) -> bool:
        """Returns whether the rule matches an attempt with this winner and this identifier word."""
        if self.senders is not None and winner not in self.senders:
            return False
        is_equal = word & self.mask == self.identifier & self.mask
        return is_equal != bool(self.identifier & INVERTED)


class RunFaults:
    """The faults of a run: numbered lines, rules, and changes during the run."""

    def __init__(self, text: str, names: Sequence[str]) -> None:
        self.names, self.taken = names, 0
        #: The rules that still have attempts to decide.
        self.rules: list[Rule] = []
        #: The verdicts of numbered lines, by the number of the attempt.
        self.lines: dict[int, str] = {}
        #: The rules that are added or ended during the run, in order, each with the number of the attempt before which that
        #: happens.
        self.later: list[tuple[int, str]] = []
        #: The number of attempts with a frame.
        self.tried = 0
        #: The event lines about rules that were accepted or ended, since the last call of `tell`.
        self.told: list[str] = []
        for line in filter(None, text.split("\n")):
            later, numbered = LATER.fullmatch(line), NUMBERED.fullmatch(line)
            if later:
                self.later.append((int(later[1]), later[2]))
            elif numbered:
                self.lines[int(numbered[1])] = recorded(numbered[2], names)
            elif not line.startswith("#"):
                self.take(line)

    def take(self, rule: str) -> None:
        """Adds a rule if there is room for it."""
        if len(self.rules) < MOST_RULES:
            self.taken += 1
            self.rules.append(Rule(self.taken, rule, self.names))
            self.told.append(self.rules[-1].line)

    def end(self) -> None:
        """Ends all remaining rules, but not the numbered lines."""
        self.rules.clear()
        self.told.append("nofaults")

    def catch_up(self, number: int) -> None:
        """Adds and ends rules as the run did before the attempt with this number."""
        while self.later and self.later[0][0] <= number:
            _, change = self.later.pop(0)
            if change == "nofaults":
                self.end()
            else:
                self.take(change)

    def tell(self) -> list[str]:
        """Returns the event lines about rules since the last call."""
        told, self.told = self.told, []
        return told

    def part(self, line: str) -> str:
        """Returns the part about the deciding rule, which ends the event line of this entry. Returns the empty string
        if no rule decided."""
        words = line.split(" ")
        if words[0] != "attempt" or words[4] != "tried":
            return ""
        verdict, rule = self.decide(int(words[5]), word_of(words[7]))
        return f"rule {rule}" if rule and verdict == words[2] else ""

    def decide(self, winner: int, word: int) -> "tuple[str, int | None]":
        """Returns the verdict of the next attempt with a frame, and the number of the rule that decided it, or None. An
        earlier rule that matches but still skips counts this attempt as skipped.
        """
        self.catch_up(self.tried)
        line = self.lines.get(self.tried)
        self.tried += 1
        if line is not None:
            return line, None
        for rule in self.rules:
            if not rule.matches(winner, word):
                continue
            if rule.skip:
                rule.skip -= 1
                continue
            if rule.left is not None:
                rule.left -= 1
                if not rule.left:
                    self.rules.remove(rule)
            return rule.verdict, rule.number
        return "good", None


def words_of(identifier: "str | None", mask: "str | None") -> tuple[int, int]:
    """Returns the identifier word and the mask of a rule. Whether a frame is a remote frame is compared only if the
    rule has a mask."""
    if identifier is None:
        return 0, 0
    number = int(identifier, 16)
    if mask is not None:
        return number, int(mask, 16)
    return (number, EXTENDED | 0x7FF) if len(identifier) == 3 else (EXTENDED | number, EXTENDED | 0x1FFFFFFF)


def word_of(frame: str) -> int:
    """Returns the identifier word of a frame in the notation used in records."""
    identifier, _, data = frame.partition("#")
    word = int(identifier, 16) | (EXTENDED if len(identifier) == 8 else 0)
    return word | (REMOTE if data.startswith("R") else 0)


def recorded(verdict: str, names: Sequence[str]) -> str:
    """Returns the verdict of a script in the notation used in records."""
    words = verdict.split(" ")
    if words[0] != "local":
        return "-".join(words)
    hit = sum(1 << names.index(name) for name in {*words[2].split(",")})
    return f"local-{words[1]}:{hit:04X}"


def written(found: "re.Match[str]", names: Sequence[str]) -> str:
    """Returns a rule as the program writes it: interfaces as numbers, identifier and mask in 8 digits each."""
    words = [f"next {int(found['count'])}" if found["count"] else "always"]
    if found["senders"]:
        words.append(f"from {in_places(found['senders'], names)}")
    identifier, mask = words_of(found["id"], found["mask"])
    if mask == EXTENDED | 0x7FF and identifier < 0x800:
        words.append(f"id {identifier:03X}")
    elif mask == EXTENDED | 0x1FFFFFFF and EXTENDED <= identifier < EXTENDED | 0x20000000:
        words.append(f"id {identifier - EXTENDED:08X}")
    elif identifier or mask:
        words.append(f"id {identifier:08X}:{mask:08X}")
    if int(found["skip"] or 0):
        words.append(f"skip {int(found['skip'])}")
    verdict, _, hit = found["verdict"].rpartition(" ")
    local = found["verdict"].startswith("local ")
    return " ".join([*words, f"{verdict} {in_places(hit, names)}" if local else found["verdict"]])


def in_places(given: str, names: Sequence[str]) -> str:
    """Returns these names without duplicates, in the order of the interfaces."""
    return ",".join(name for name in names if name in given.split(","))


def with_rules(events: str, faults: RunFaults) -> str:
    """Adds lines for the accepted rules and the deciding rules to a record's events."""
    return "".join(f"{line}\n" for line in ruled_lines(events.splitlines(), faults))


def ruled_lines(lines: Sequence[str], faults: RunFaults) -> Iterator[str]:
    """Yields the event lines with their parts about rules, and the lines about rules. The script's rules come after the
    second line, each change comes before its attempt, and the remaining changes come before the last line."""
    for place, line in enumerate(lines):
        if line.startswith(("end ", "cut ")):
            faults.catch_up(1 << 64)
        part = faults.part(line.partition(";")[0])
        yield from faults.tell() if place > 1 else ()
        yield f"{line}; {part}" if part else line
        yield from faults.tell() if place == 1 else ()


def rules_of(events):
    """Returns the number of the deciding rule for each attempt with a frame, or the empty string if no rule decided."""
    return [line.partition("; rule ")[2] for line in events.splitlines() if " = tried " in line]
