"""Reads database files with cantools."""

import importlib
from collections.abc import Iterator
from decimal import Decimal
from typing import Any

from canbusd._database.formats import MessageFormat, Raw, SignalFormat, bits_of, limits, named


def messages_in(path: str) -> Iterator[MessageFormat]:
    """Yields the messages of a database file."""
    cantools: Any = importlib.import_module("cantools")
    for message in cantools.database.load_file(path).messages:
        yield message_of(message, path)


def message_of(message: Any, path: str) -> MessageFormat:
    """Returns the message format for a cantools message."""
    # The signals of a container message are in PDUs. Each frame determines the positions of its PDUs.
    signals = [] if getattr(message, "is_container", False) else message.signals

    def unpack(data: bytes) -> dict[str, Raw]:
        return dict(message.decode(data, decode_choices=False, scaling=False)) if signals else {}

    return MessageFormat(
        name=message.name,
        identifier=message.frame_id,
        is_extended=bool(message.is_extended_frame),
        size=message.length,
        signals=tuple(map(signal_of, signals)),
        unpack=unpack,
        is_fd=bool(getattr(message, "is_fd", False)) or message.length > 8,
        senders=named(message.senders),
        cycle_time=float(message.cycle_time or 0) / 1000,
        start_delay=float(attribute(message, "GenMsgStartDelayTime") or 0) / 1000,
        send_type=str(message.send_type or ""),
        attributes={name: str(one.value) for name, one in (getattr(message.dbc, "attributes", None) or {}).items()},
        path=path,
    )


def attribute(message: Any, name: str) -> Any:
    """Returns an attribute of a message in a DBC file; None for other files, or if the message does not have the
    attribute."""
    attributes = getattr(message.dbc, "attributes", None) or {}
    return attributes[name].value if name in attributes else None


def signal_of(signal: Any) -> SignalFormat:
    """Returns the signal format for a cantools signal."""
    least, most = limits(signal.minimum, signal.maximum)
    return SignalFormat(
        name=signal.name,
        unit=signal.unit or "",
        receivers=named(signal.receivers),
        factor=Decimal(str(signal.scale)),
        offset=Decimal(str(signal.offset)),
        minimum=least,
        maximum=most,
        choices={int(raw): str(name) for raw, name in (signal.choices or {}).items()},
        raw_start=Decimal(str(signal.raw_initial or 0)),
        is_signed=bool(signal.is_signed),
        is_float=bool(signal.is_float),
        bits=bits_of(signal.start, signal.length, signal.byte_order == "little_endian"),
        is_multiplexer=bool(signal.is_multiplexer),
        multiplexer=signal.multiplexer_signal or "",
        multiplexer_values=tuple((number, number) for number in signal.multiplexer_ids or ()),
    )
