"""The messages that each node of a database sends in a rest bus, the node's interface, and when the messages are first
due."""

import os
from collections.abc import Iterable, Mapping, Sequence
from typing import Optional, Union

from canbusd._database.formats import MessageFormat
from canbusd._restbus.schedule import micros, phases
from canbusd._words import FD_LENGTHS
from canbusd.signals import Database, load_database

Source = Union[Database, str, "os.PathLike[str]"]


class NoInterface(ValueError):
    """A node that sends a message has no interface or an unknown one. The exception's text ends with a suggestion of
    Python arguments."""

    def __init__(self, node: str, interface: str, known: Sequence[str]) -> None:
        self.node, self.known = node, known
        #: The error message without the suggestion.
        self.fault = f"node {node} has no interface{f' {interface!r}' if interface else ''}"
        cure = f"give nodes={{{node!r}: ..}} or interface=.., one of {', '.join(known)}, or without=[{node!r}]"
        super().__init__(f"{self.fault}: {cure}")


def database_of(source: Source) -> Database:
    """Returns the database. If the caller passes the path of a file, loads it. Raises ValueError for other arguments."""
    if isinstance(source, Database):
        return source
    if not isinstance(source, (str, os.PathLike)):
        raise ValueError(f"database is the path of a file, or what load_database returns, not {source!r}")
    return load_database(source)


def sender(message: MessageFormat) -> str:
    """Returns the node that sends a message, or the empty string if there is none."""
    return message.senders[0] if message.senders else ""


def is_sendable(message: MessageFormat) -> bool:
    """Returns whether the message fits into one frame."""
    return bool(message.size <= FD_LENGTHS[-1])


def has(message: MessageFormat, name: str) -> bool:
    """Returns whether a message has a signal with this name."""
    return any(signal.name == name for signal in message.signals)


def phases_of(messages: Sequence[MessageFormat]) -> list[int]:
    """Returns how long after the start the first frame of each message is due: the delay in the file, or a time that
    keeps the frames apart."""
    cyclic = [message for message in messages if message.is_cyclic]
    spread = dict(zip((one.name for one in cyclic), phases([micros(message.cycle_time) for message in cyclic])))
    return [micros(one.start_delay) if one.start_delay else spread.get(one.name, 0) for one in messages]


def interfaces_of(
    database: Database,
    without: Union[str, Sequence[str]],
    nodes: Mapping[str, str],
    interface: Optional[str],
    known: Sequence[str],
) -> dict[str, str]:
    """Returns the interface of each node that sends a message, except for the nodes in `without`.

    This is the node's entry in `nodes`, otherwise `interface`, otherwise the interface that has the name of the node.
    Raises NoInterface if there is no such interface, and ValueError if the name of a node is wrong.
    """
    senders = list(dict.fromkeys(sender(message) for message in database.messages if message.senders))
    if not isinstance(nodes, Mapping):
        raise ValueError(f"nodes are a dict of interfaces by nodes, such as {{'Engine': 'can0'}}, not {nodes!r}")
    if not isinstance(without, Iterable):
        raise ValueError(f"without is a node, or a list of nodes, such as ['ECU'], not {without!r}")
    left_out = [without] if isinstance(without, str) else list(without)
    for name in [*left_out, *nodes]:
        if name not in database.nodes:
            raise ValueError(f"no node {name} in the database; there are {', '.join(database.nodes) or 'none'}")
    found: dict[str, str] = {}
    for name in senders:
        if name not in left_out:
            found[name] = nodes.get(name) or interface or (name if name in known else "")
            if found[name] not in known:
                raise NoInterface(name, found[name], known)
    return found
