"""Faults on a bus: which attempts fail, and how.

    faults = Faults().next(32, sender="ecu").destroyed().always(id=0x7DF).local("crc", ["tester"])
    faults = Faults().destroyed(range(32)).last_bit(40).local("crc", ["can1"], 41)

The first example contains rules, which select attempts by sender and frame; see `canbusd.rules`. The second contains
lines for numbered attempts. Numbers start at 0 and count only attempts with a frame. A line takes precedence over all
rules, and a rule over later rules. An attempt without a line or a rule has no fault.
"""

import os
import re
from collections.abc import Callable, Iterable, Sequence
from typing import TYPE_CHECKING, Literal, Optional, Union

from canbusd._calls import NamesWhatThereIs, explained
from canbusd._text import NAME, shown
from canbusd.frames import EXTENDED
from canbusd._words import GOOD, LASTBIT, MOST_RULES
from canbusd.rules import MOST, NUMBER, VERDICT, Rule, is_rule, parse_rule

# Matches a string that is a malformed rule rather than the path of a missing file.
LIKE_RULE = re.compile(r"\A\S+ (?:[0-9]|.*(?:good|lastbit|last_bit|destroyed|global|local)\b)")
# Matches a string that can't be a path.
IS_TEXT = re.compile(r"\A\Z|\n|\A(?:[0-9]+|next|always) ")

# The largest 11-bit identifier, and the largest 29-bit identifier.
SHORT, LONG = 0x7FF, 0x1FFFFFFF

#: The hint in the error for a method that is called without a rule.
BY_NUMBER = "attempts are their numbers, from 0; a rule comes first: Faults().next(1).last_bit()"
#: The hint in the error for a rule that does not have a fault yet.
SAYS_WHICH = ".destroyed(), .last_bit(), .local(..) or .good() says which"

#: The kinds of faults that destroy a frame, and the kinds that a local fault may have.
Destroying = Literal["bit", "form"]
Seen = Literal["stuff", "crc", "form"]

Attempts = Union[int, Iterable[int]]
Names = Union[str, Sequence[str]]


def global_fault(kind: str) -> str:
    """Returns the verdict for a frame that all nodes destroy."""
    if kind not in ("bit", "form"):
        raise ValueError(f"kind of a destroyed frame is bit or form, not {kind!r}")
    return f"global {kind}"


def local_fault(kind: str, names: Names) -> str:
    """Returns the verdict for a fault that only these interfaces see."""
    if kind not in ("stuff", "crc", "form"):
        raise ValueError(f"kind of a local fault is stuff, crc or form, not {kind!r}")
    return f"local {kind} {','.join(listed(names, 'names of a local fault'))}"


def listed(names: Names, what: str) -> list[str]:
    """Returns a list of interface names. The error for an empty or wrong list mentions `what`, the name of the
    argument."""
    found = names.split(",") if isinstance(names, str) else list(names) if isinstance(names, Iterable) else []
    if not found or not all(isinstance(name, str) and NAME.fullmatch(name) for name in found):
        raise ValueError(f"{what} are names of interfaces, not {names!r}")
    return found


def whole_number(value: object, what: str, least: int = 0) -> int:
    """Checks and returns an integer in a rule. The error for a wrong value mentions `what`, the name of the argument."""
    if isinstance(value, bool) or not isinstance(value, int) or not least <= value <= MOST:
        raise ValueError(f"{what} is a number from {least} to {MOST}, not {value!r}")
    return value


def some_bits(value: object, what: str, most: int) -> int:
    """Checks and returns an identifier or a mask in a rule. The error for a wrong value mentions `what`, the name of
    the argument."""
    if isinstance(value, bool) or not isinstance(value, int) or not 0 <= value <= most:
        raise ValueError(f"{what} is a number from 0 to 0x{most:X}, not {value!r}")
    return value


def identifier_words(id: Optional[int], mask: Optional[int], extended: Optional[bool]) -> Optional[tuple[int, int]]:
    """Returns the identifier word and the mask of a rule. The rule matches only 11-bit identifiers or only 29-bit
    identifiers."""
    if id is None:
        if mask is not None or extended is not None:
            raise ValueError("mask and extended belong to an id, and none is given")
        return None
    is_extended = some_bits(id, "id", LONG) > SHORT if extended is None else bool(extended)
    width = LONG if is_extended else SHORT
    bits = width if mask is None else some_bits(mask, "mask", LONG)
    return some_bits(id, "id", width) | EXTENDED * is_extended, EXTENDED | bits


class Chosen:
    """The attempts that a rule selects. Each method sets the fault of these attempts, and returns the Faults object
    with the rule."""

    def __init__(self, head: Rule, add: Callable[[Rule], "Faults"]) -> None:
        self._head, self._add = head, add

    @explained()
    def good(self) -> "Faults":
        """Sets no fault, which protects the attempts from later rules."""
        return self._given(GOOD)

    @explained()
    def destroyed(self, kind: Destroying = "bit") -> "Faults":
        """Sets a fault that all nodes see, a `bit` or a `form` error. The frame is destroyed."""
        return self._given(global_fault(kind))

    @explained()
    def last_bit(self) -> "Faults":
        """Sets a fault in the last bit that only the sender sees. The other nodes accept the frame, and the sender
        sends it again."""
        return self._given(LASTBIT)

    @explained()
    def local(self, kind: Seen, names: Names) -> "Faults":
        """Sets a `stuff`, `crc` or `form` error that only these interfaces see."""
        return self._given(local_fault(kind, names))

    def __repr__(self) -> str:
        return f"<the rule `{self._head.head}` without its fault>"

    if not TYPE_CHECKING:

        def __getattr__(self, name):
            raise AttributeError(f"{self} has no {name} yet: {SAYS_WHICH}")

    def _given(self, verdict: str) -> "Faults":
        head = self._head
        return self._add(Rule(head.count, verdict, head.senders, head.identifier, head.skip))


class Faults(NamesWhatThereIs):
    """The rules and lines of a fault script. Each method adds a rule or a line, and returns the Faults object."""

    _INSTEAD = {
        **dict.fromkeys(
            ("add", "rule", "append"), "next(..) and always(..) add a rule; inject('next 1 lastbit') takes a text"
        ),
        "bus_off": "next(32, sender='ecu').destroyed(), or Server.bus_off('ecu')",
    }

    @explained("a text needs no Faults: faults='next 1 lastbit'")
    def __init__(self) -> None:
        self._verdicts: dict[int, str] = {}
        self._rules: list[Rule] = []

    @explained()
    def next(
        self,
        count: int,
        *,
        sender: Optional[Names] = None,
        id: Optional[int] = None,
        mask: Optional[int] = None,
        extended: Optional[bool] = None,
        skip: int = 0,
    ) -> Chosen:
        """Begins a rule for the next `count` matching attempts. The next method call sets their fault.

        `sender` names one or more sending interfaces. `id` is the identifier of the frame; it is a 29-bit identifier if
        it is 0x800 or more, or with `extended=True`. With a `mask`, the rule matches all identifiers that agree with
        `id` in the bits of the mask. Data frames, remote frames and FD frames can all match. The rule does not apply to
        the first `skip` matching attempts, which are left to later rules. A retransmission counts as an attempt.
        """
        return self._chosen(whole_number(count, "count", 1), sender, id, mask, extended, skip)

    @explained()
    def always(
        self,
        *,
        sender: Optional[Names] = None,
        id: Optional[int] = None,
        mask: Optional[int] = None,
        extended: Optional[bool] = None,
        skip: int = 0,
    ) -> Chosen:
        """Begins a rule for all matching attempts. The arguments are the same as for `next`."""
        return self._chosen(None, sender, id, mask, extended, skip)

    def _chosen(
        self,
        count: Optional[int],
        sender: Optional[Names],
        id: Optional[int],
        mask: Optional[int],
        extended: Optional[bool],
        skip: int,
    ) -> Chosen:
        senders = () if sender is None else tuple(listed(sender, "senders"))
        words = identifier_words(id, mask, extended)
        return Chosen(Rule(count, "", senders, words, whole_number(skip, "skip")), self._add_rule)

    def _add_rule(self, rule: Rule) -> "Faults":
        if len(self._rules) == MOST_RULES:
            raise ValueError(f"a bus has at most {MOST_RULES} rules")
        self._rules.append(rule)
        return self

    @explained(BY_NUMBER)
    def good(self, attempts: Attempts) -> "Faults":
        """Sets no fault for these attempts, even if a rule would set one."""
        return self._add(GOOD, attempts)

    @explained(BY_NUMBER)
    def destroyed(self, attempts: Attempts, kind: Destroying = "bit") -> "Faults":
        """Sets a fault that all nodes see, a `bit` or a `form` error. The frame is destroyed."""
        return self._add(global_fault(kind), attempts)

    @explained(BY_NUMBER)
    def last_bit(self, attempts: Attempts) -> "Faults":
        """Sets a fault in the last bit that only the sender sees. The other nodes accept the frame, and the sender
        sends it again."""
        return self._add(LASTBIT, attempts)

    @explained(BY_NUMBER)
    def local(self, kind: Seen, names: Names, attempts: Attempts) -> "Faults":
        """Sets a `stuff`, `crc` or `form` error that only these interfaces see.

        The frame is destroyed if one of them is error active. If all of them are error passive, they miss the frame.
        """
        return self._add(local_fault(kind, names), attempts)

    def _add(self, verdict: str, attempts: Attempts) -> "Faults":
        added: dict[int, str] = {}
        for number in [attempts] if isinstance(attempts, int) else attempts:
            if isinstance(number, bool) or not isinstance(number, int) or not 0 <= number <= MOST:
                raise ValueError(f"attempts are numbers from 0 to {MOST}, not {number!r}")
            if number in self._verdicts or number in added:
                raise ValueError(f"attempt {number} has a fault already")
            added[number] = verdict
        self._verdicts.update(added)
        return self

    def of(self, attempt: int) -> str:
        """Returns the verdict of the script line for this attempt, such as `local crc can1`; `good` if there is no
        line.

        Rules are not considered, because their verdicts depend on the run.
        """
        return self._verdicts.get(whole_number(attempt, "attempt"), GOOD)

    @property
    def rules(self) -> list[str]:
        """The rules in order, each written as a line of a fault script: `next 32 from ecu global bit`."""
        return [str(rule) for rule in self._rules]

    def __str__(self) -> str:
        lines = [f"{number} {verdict}" for number, verdict in sorted(self._verdicts.items())]
        return "".join(f"{line}\n" for line in [*self.rules, *lines])

    def __eq__(self, other: object) -> bool:
        return isinstance(other, Faults) and (self._verdicts, self._rules) == (other._verdicts, other._rules)

    def __repr__(self) -> str:
        calls = [f".{head_call(rule)}.{call_of(rule.verdict)}" for rule in self._rules]
        attempts: dict[str, list[int]] = {}
        for number, verdict in sorted(self._verdicts.items()):
            attempts.setdefault(verdict, []).append(number)
        calls += [f".{call_of(verdict, attempts_text(numbers))}" for verdict, numbers in attempts.items()]
        return "Faults()" + "".join(calls)


def attempts_text(numbers: list[int]) -> str:
    """Returns the source code of an argument that names these attempts, which must be in ascending order."""
    first, last = numbers[0], numbers[-1]
    if len(numbers) > 2 and last - first == len(numbers) - 1:
        return f"range({first}, {last + 1})"
    return str(numbers if len(numbers) > 1 else first)


def call_of(verdict: str, attempts: str = "") -> str:
    """Returns the source code of the call that sets a fault. `attempts` is the argument for the attempts, if there is
    one."""
    kind, *words = verdict.split()
    given = [attempts] if attempts else []
    if kind == "global":
        return f"destroyed({', '.join([*given, *([] if words == ['bit'] else [repr(words[0])])])})"
    if kind == "local":
        return f"local({', '.join([repr(words[0]), repr(words[1].split(',')), *given])})"
    return f"{'last_bit' if kind == LASTBIT else kind}({attempts})"


def head_call(rule: Rule) -> str:
    """Returns the source code of the call that begins a rule: `next(32, sender='ecu')`."""
    senders = list(rule.senders)
    given = [] if rule.count is None else [str(rule.count)]
    given += [f"sender={senders[0]!r}" if len(senders) == 1 else f"sender={senders!r}"] if senders else []
    given += identifier_arguments(*rule.identifier) if rule.identifier else []
    given += [f"skip={rule.skip}"] if rule.skip else []
    return f"{'always' if rule.count is None else 'next'}({', '.join(given)})"


def identifier_arguments(word: int, mask: int) -> list[str]:
    """Returns the source code of the arguments for a rule's identifier, without arguments that have their default
    values."""
    identifier, bits, extended = word & ~EXTENDED, mask & ~EXTENDED, bool(word & EXTENDED)
    arguments = [f"id={identifier:#x}"]
    arguments += [] if bits == (LONG if extended else SHORT) else [f"mask={bits:#x}"]
    return arguments + (["extended=True"] if extended and identifier <= SHORT else [])


#: A fault script: its path, its text, or a Faults object.
Script = Union[str, "os.PathLike[str]", Faults]


def script_bytes(script: Optional[Script]) -> bytes:
    """Returns a fault script byte for byte, as the program will receive it.

    A `str` is the text of a script if it is empty, contains a newline, or begins like a line such as `0 lastbit` or a
    rule such as `next 1 lastbit`. Any other `str` is a path.
    """
    if script is None:
        return b""
    if isinstance(script, Faults):
        return str(script).encode()
    if isinstance(script, Chosen):
        raise ValueError(f"{script!r}: {SAYS_WHICH}")
    if isinstance(script, str) and IS_TEXT.search(script):
        return script.encode()
    if not isinstance(script, (str, os.PathLike)):
        raise ValueError(f"faults are Faults(), a path or a text such as 'next 1 lastbit', not {script!r}")
    try:
        with open(script, "rb") as file:
            return file.read()
    except FileNotFoundError as fault:
        if isinstance(script, str) and LIKE_RULE.search(script):
            # This call raises an error that says what is wrong with the rule.
            parse_rule(script)
        hint = (
            f"{fault.strerror}; a text begins with the number of an attempt, as '0 lastbit' does, or with a rule, as "
            "'next 1 lastbit' does"
        )
        raise FileNotFoundError(fault.errno, hint, os.fspath(script)) from None


def lines_of(text: str) -> list[str]:
    """Returns the non-empty lines of a script without comments. Only LF ends a line."""
    return [line for line in text.split("\n") if line and not line.startswith("#")]


def rules_in(script: str) -> list[Rule]:
    """Returns the rules in a script, in order. Raises ValueError for a malformed rule."""
    return [parse_rule(line) for line in lines_of(script) if is_rule(line)]


def rules_of(faults: Script) -> list[Rule]:
    """Returns the rules of these faults. Raises ValueError for lines with attempt numbers, which a running bus does not
    accept."""
    lines = lines_of(script_bytes(faults).decode())
    other = next((line for line in lines if line[:1].isdigit()), None)
    if other is not None:
        raise ValueError(
            f"'{shown(other)}' names an attempt by number, which is only possible at the start; inject() takes rules"
        )
    return [parse_rule(line) for line in lines]
