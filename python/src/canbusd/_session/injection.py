"""Fault rules for a running bus: the methods that every session has, and a session that only handles rules."""

from collections.abc import Callable, Iterable
from types import TracebackType
from typing import Optional, TypeVar

from canbusd._session.connection import Connection
from canbusd._session.protocol import interfaces_of, refusal_in, rules_left_of
from canbusd._words import NO_SUCH_INTERFACE
from canbusd.faults import Script, rules_of
from canbusd.rules import Rule

T = TypeVar("T")

#: The time in seconds within which a server must answer.
TIMEOUT = 5.0


def no_interface(connection: Connection) -> str:
    """Returns the message for an unknown interface, which lists the names of the server's interfaces."""
    names = interfaces_of(connection.ask(["interfaces"])[0])
    return f"{NO_SUCH_INTERFACE}; the server has {', '.join(names)}" if names else NO_SUCH_INTERFACE


class Refused(RuntimeError):
    """The bus or the session refused a message. The exception's text is canbusd's reason, such as `no buffers` or `bus
    off`."""


class InjectsFaults:
    """A session that can add fault rules to the bus of its interface and remove them."""

    def _answer(self, message: str) -> str:
        """Returns the reply to a message: the empty string for `ok`, an answer, or the reason for a refusal."""
        raise NotImplementedError

    def _refused(self, message: str) -> str:
        """Returns the reason why a message was refused, or the empty string if it was accepted."""
        return self._answer(message)

    def _refusal(self, text: str) -> Exception:
        """Returns the exception for a refusal."""
        return Refused(text)

    def _parsed(self, answer: str, read: Callable[[str], Optional[T]]) -> T:
        """Returns the content of an answer, parsed by `read`. Raises an exception if `read` can't parse the answer, for
        example because it comes from another version."""
        found = read(answer)
        if found is None:
            raise self._refusal(f"another version of canbusd answers: {answer}")
        return found

    def inject(self, faults: Script) -> None:
        """Adds these rules to the bus of the interface, after the existing rules. They apply from the next attempt on.

        `faults` are rules built with Faults, such as ``Faults().next(32, sender="ecu").destroyed()``, or the same rules
        as a string. If a rule is refused, for example the 65th, the exception names it. The rules before it stay in
        force.
        """
        self._give(rules_of(faults))

    def _give(self, rules: Iterable[Rule]) -> None:
        for rule in rules:
            answer = self._refused(f"fault {rule}")
            if answer:
                raise self._refusal(f"{answer}: {rule}{self._wrong_name(rule) if answer == NO_SUCH_INTERFACE else ''}")

    def _wrong_name(self, rule: Rule) -> str:
        """Returns an explanation that names the first unknown interface in a rule and lists the server's interfaces. If
        all names are known, one of them is on another bus."""
        names = self._parsed(self._answer("interfaces"), interfaces_of)
        wrong = next((name for name in rule.names if name not in names), None)
        return f": {wrong} is none of {', '.join(names)}" if wrong else ": one of its interfaces is on another bus"

    def rules_left(self) -> int:
        """Returns how many rules of the interface's bus have not been used up. Rules without a count are included."""
        return self._parsed(self._answer("faults"), rules_left_of)

    def end_rules(self) -> None:
        """Ends all rules of the bus, no matter which session added them. Script lines for numbered attempts stay in
        force."""
        answer = self._answer("nofaults")
        if answer:
            raise self._refusal(answer)


class RuleSession(InjectsFaults):
    """A session on an interface of a server, without a socket. The session does not appear in the record.

    Raises OSError if there is no server, SessionRefused if the server refuses the session, and Refused if the server
    has no such interface.
    """

    def __init__(self, address: str, channel: str) -> None:
        self._connection = Connection(address, TIMEOUT)
        answer = self._answer(f"open {channel}")
        if answer:
            text = no_interface(self._connection) if answer == NO_SUCH_INTERFACE else answer
            self._connection.close()
            raise Refused(f"{channel}: {text}")

    def __enter__(self) -> "RuleSession":
        return self

    def __exit__(
        self, kind: Optional[type[BaseException]], fault: Optional[BaseException], _: Optional[TracebackType]
    ) -> None:
        self._connection.close()

    def _answer(self, message: str) -> str:
        return refusal_in(self._connection.ask([message])[0])
