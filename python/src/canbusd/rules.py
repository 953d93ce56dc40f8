"""Fault rules. A rule selects attempts by sender and frame, and sets their fault. In a fault script, rules are written
like this:

    next 32 from ecu global bit
    next 1 id 123 skip 2 lastbit
    always id 7DF local crc tester

The program applies the rules. This module only defines their syntax.
"""

import re
from collections.abc import Iterable, Sequence
from dataclasses import dataclass
from typing import Optional

from canbusd._text import NAME, shown
from canbusd._words import VERDICTS
from canbusd.frames import EXTENDED, INVERTED

#: The largest integer in a rule.
MOST = 99999999
SHORT_MASK, LONG_MASK = EXTENDED | 0x7FF, EXTENDED | 0x1FFFFFFF
NUMBER = re.compile("[0-9]{1,8}")
WORD = re.compile("[0-9A-Fa-f]{1,8}")
NAMES = f"{NAME.pattern}(?:,{NAME.pattern})*"
VERDICT = re.compile("|".join(VERDICTS).replace("NAMES", NAMES))
# The verdicts that are suggested if the first word of a verdict is unknown.
MEANT = {
    "bit": "global bit",
    "crc": "local crc NAMES",
    "destroyed": "global bit",
    "form": "global form",
    "interface": "from NAMES",
    "last": "lastbit",
    "last_bit": "lastbit",
    "local": "local crc NAMES",
    "mask": "id 123:700",
    "sender": "from NAMES",
    "stuff": "local stuff NAMES",
}


@dataclass(frozen=True)
class Rule:
    """A rule: which attempts it matches, how many of them it applies to, and their verdict."""

    #: How many attempts get the verdict; None for all matching attempts.
    count: Optional[int]
    #: The verdict, written as in a fault script.
    verdict: str
    #: The senders whose attempts the rule matches; empty for all senders.
    senders: tuple[str, ...] = ()
    #: The identifier word and the mask of the frames that the rule matches, as in a filter; None for all frames.
    identifier: Optional[tuple[int, int]] = None
    #: How many matching attempts are left to later rules before the rule applies.
    skip: int = 0

    def __str__(self) -> str:
        return f"{self.head} {self.verdict}"

    @property
    def head(self) -> str:
        """The rule as a string, without its verdict."""
        parts = ["always" if self.count is None else f"next {self.count}"]
        parts += [f"from {','.join(self.senders)}"] if self.senders else []
        parts += [f"id {identifier_text(*self.identifier)}"] if self.identifier else []
        parts += [f"skip {self.skip}"] if self.skip else []
        return " ".join(parts)

    @property
    def names(self) -> tuple[str, ...]:
        """The interfaces that the rule names: the senders, and the interfaces that see its fault."""
        return (*self.senders, *seen_by(self.verdict))


def identifier_text(word: int, mask: int) -> str:
    """Returns the shortest notation for a rule's identifier and mask: `123`, `00000123`, or `123:700`."""
    if mask == SHORT_MASK and word <= 0x7FF:
        return f"{word:03X}"
    if mask == LONG_MASK and EXTENDED <= word <= LONG_MASK:
        return f"{word & ~EXTENDED:08X}"
    return f"{word:X}:{mask:X}"


def seen_by(verdict: str) -> list[str]:
    """Returns the interfaces that a verdict names."""
    return verdict.split(" ")[2].split(",") if verdict.startswith("local ") else []


def is_rule(line: str) -> bool:
    """Returns whether a line of a fault script is a rule."""
    return line.partition(" ")[0] in ("next", "always")


def parse_rule(text: str) -> Rule:
    """Parses a rule. If the rule is wrong, raises a ValueError that names the wrong word."""
    words = text.split(" ")
    try:
        count = count_of(words)
        senders = senders_of(words) if taken(words, "from") else ()
        identifier = identifier_of(next_of(words)) if taken(words, "id") else None
        skip = number_of(next_of(words), "skip") if taken(words, "skip") else None
        check_order(words, {"from": bool(senders), "id": identifier is not None, "skip": skip is not None})
        verdict = " ".join(words)
        if not VERDICT.fullmatch(verdict):
            raise ValueError(
                f"its verdict is {', '.join(VERDICTS[:-1])} or {VERDICTS[-1]}, not {verdict!r}{meant_by(words)}"
            )
    except ValueError as fault:
        raise ValueError(f"rule {shown(text)!r}: {fault}") from None
    return Rule(count, verdict, senders, identifier, skip or 0)


def meant_by(words: Sequence[str]) -> str:
    """Returns a suggestion for unknown words, such as ` (global bit?)`; the empty string if there is none."""
    if "" in words and len(words) > 1:
        return "; its words are parted by one space"
    found = MEANT.get(words[0]) if words else None
    return f" ({found}?)" if found else ""


def taken(words: list[str], word: str) -> bool:
    """Removes the first word if it equals `word`. Returns whether it was removed."""
    if words[:1] != [word]:
        return False
    del words[0]
    return True


def check_order(words: list[str], given: dict[str, bool]) -> None:
    """Raises ValueError if the next word begins a part that must come earlier, or a part that the rule already has."""
    parts = list(given)
    if words[:1] and words[0] in parts:
        place = parts.index(words[0])
        before = next((part for part in parts[place:] if given[part]), words[0])
        raise ValueError(f"{words[0]} {'is given twice' if before == words[0] else f'comes before {before}'}")


def next_of(words: list[str]) -> str:
    """Removes and returns the first word. Returns the empty string if there are no words."""
    return words.pop(0) if words else ""


def count_of(words: list[str]) -> Optional[int]:
    """Removes the first words of a rule, and returns how many attempts the rule applies to; None for `always`."""
    first = next_of(words)
    if first == "always":
        return None
    if first != "next":
        raise ValueError(f"it begins with next or always, not {first!r}")
    count = number_of(next_of(words), "next")
    if not count:
        raise ValueError("next takes at least 1 attempt")
    return count


def senders_of(words: list[str]) -> tuple[str, ...]:
    """Removes the word after `from`, and returns the interfaces in it."""
    names = next_of(words)
    if not re.fullmatch(NAMES, names):
        raise ValueError(f"after from are names of interfaces, joined by commas, not {names!r}")
    return tuple(names.split(","))


def number_of(word: str, after: str) -> int:
    """Parses a decimal number in a rule."""
    if not NUMBER.fullmatch(word):
        raise ValueError(f"after {after} is a number of 1 to 8 digits, not {word!r}")
    return int(word)


def identifier_of(word: str) -> tuple[int, int]:
    """Parses an identifier such as `123`, `00000123` or `123:700`. Returns the identifier word and the mask."""
    identifier, colon, mask = word.partition(":")
    if not WORD.fullmatch(identifier) or (colon and not WORD.fullmatch(mask)):
        raise ValueError(f"after id are hexadecimal digits, as in 123, 00000123 or 123:700, not {word!r}")
    number = int(identifier, 16)
    if colon:
        if int(mask, 16) & INVERTED:
            raise ValueError(f"a mask has no bit 29: {mask}; write {int(mask, 16) & ~INVERTED:X}")
        return number, int(mask, 16)
    if len(identifier) == 3 and number <= 0x7FF:
        return number, SHORT_MASK
    if len(identifier) == 8 and number <= 0x1FFFFFFF:
        return number | EXTENDED, LONG_MASK
    raise ValueError(f"an identifier has 11 bits in 3 digits or 29 bits in 8, not {identifier!r}")


def check_rules(rules: Iterable[Rule], names: Sequence[str]) -> None:
    """Raises ValueError if a rule names an interface that is not on its bus."""
    for rule in rules:
        unknown = next((name for name in rule.names if name not in names), None)
        if unknown is not None:
            raise ValueError(f"rule '{rule}': {unknown} is no interface of its bus, {','.join(names)}")


class GivenRules:
    """The rules that were added to a bus, with the program's number for each rule, and which rules still apply."""

    def __init__(self, rules: Iterable[Rule] = ()) -> None:
        self._rules: list[Rule] = []
        # How many more attempts each remaining rule applies to, by the number of the rule; None if there is no limit.
        self._left: dict[int, Optional[int]] = {}
        for rule in rules:
            self.add(rule)

    def __len__(self) -> int:
        """How many rules still apply."""
        return len(self._left)

    def among(self, first: int) -> int:
        """Returns how many of the first `first` rules still apply."""
        return sum(number <= first for number in self._left)

    def add(self, rule: Rule) -> None:
        """Adds a rule after the existing rules."""
        self._rules.append(rule)
        self._left[len(self._rules)] = rule.count

    def end(self) -> None:
        """Ends all rules."""
        self._left.clear()

    def unused(self) -> list[Rule]:
        """Returns the rules for a limited number of attempts, such as `next 1 ..`, that were never applied and were not
        ended by a command."""
        counted = ((self._rules[number - 1], left) for number, left in self._left.items() if left is not None)
        return [rule for rule, left in counted if rule.count == left]

    def gave(self, number: int) -> Rule:
        """Notes that the rule with this number was applied to an attempt, and returns the rule."""
        left = self._left.get(number)
        if left == 1:
            del self._left[number]
        elif left is not None:
            self._left[number] = left - 1
        return self._rules[number - 1]
