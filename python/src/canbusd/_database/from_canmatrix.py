"""Reads database files with canmatrix."""

import ast
import contextlib
import importlib
import importlib.util
import io
import re
from collections.abc import Iterator
from decimal import Decimal
from typing import Any

from canbusd._database.dbc_lines import LineFault, lines_of
from canbusd._database.formats import DatabaseError, MessageFormat, Raw, SignalFormat, bits_of, limits, named
from canbusd._text import shown

# Matches the output of canmatrix when it ignores a line of a DBC file.
LEFT_OUT = re.compile(r"^error with line no: [0-9]+\n(b.*)$", re.M)

# The extensions of files that canmatrix reads with lxml. Without lxml, canmatrix can't read these files.
OF_LXML = (".arxml", ".kcd", ".xml")


def messages_in(path: str) -> Iterator[MessageFormat]:
    """Yields the messages of a database file."""
    formats: Any = importlib.import_module("canmatrix.formats")
    printed = io.StringIO()
    with contextlib.redirect_stdout(printed):
        matrices = formats.loadp(path)
    left_out = LEFT_OUT.search(printed.getvalue())
    if left_out:
        # The line number that canmatrix prints may be wrong because of a line with values, so the line itself is
        # searched for.
        number = next((number for number, line in lines_of(path) if repr(line) == left_out[1]), 0)
        raise LineFault(number, shown(ast.literal_eval(left_out[1]).decode("latin-1").strip()))
    if not matrices:
        needs_lxml = path.lower().endswith(OF_LXML) and importlib.util.find_spec("lxml") is None
        raise DatabaseError(f"no such format{'; it needs lxml (apt-get install python3-lxml)' if needs_lxml else ''}")
    for matrix in matrices.values():
        for frame in matrix.frames:
            yield message_of(frame, matrix, path)


def message_of(frame: Any, matrix: Any, path: str) -> MessageFormat:
    """Returns the message format for a canmatrix frame."""
    # The signals of a container message are in PDUs. Each frame determines the positions of its PDUs.
    signals = [] if frame.is_pdu_container else frame.signals
    multiplexers = [signal.name for signal in signals if signal.is_multiplexer]

    def unpack(data: bytes) -> dict[str, Raw]:
        return {name: one.raw_value for name, one in frame.unpack(data).items()} if signals else {}

    return MessageFormat(
        name=frame.name,
        identifier=frame.arbitration_id.id,
        is_extended=bool(frame.arbitration_id.extended),
        size=frame.size,
        signals=tuple(signal_of(signal, multiplexers, matrix) for signal in signals),
        unpack=unpack,
        is_fd=bool(frame.is_fd) or frame.size > 8,
        senders=named(frame.transmitters),
        cycle_time=seconds(frame.cycle_time or frame.attribute("GenMsgCycleTime", db=matrix)),
        start_delay=seconds(frame.attributes.get("GenMsgStartDelayTime")),
        send_type=str(frame.attribute("GenMsgSendType", db=matrix, default="") or ""),
        attributes={name: str(frame.attribute(name, db=matrix, default="")) for name in matrix.frame_defines},
        path=path,
    )


def signal_of(signal: Any, multiplexers: list[str], matrix: Any) -> SignalFormat:
    """Returns the signal format for a canmatrix signal. `multiplexers` are the names of the multiplexers in its frame."""
    above, ranges = signal.muxer_for_signal or "", tuple((int(first), int(last)) for first, last in signal.mux_val_grp)
    if not above and signal.mux_val is not None and multiplexers:
        above = multiplexers[0]
    if above and not ranges:
        ranges = ((int(signal.mux_val), int(signal.mux_val)),)
    start = signal.attribute("GenSigStartValue", db=matrix)
    if start is None and signal.initial_value and signal.factor:
        start = (signal.initial_value - signal.offset) / signal.factor
    least, most = limits(signal.min, signal.max)
    return SignalFormat(
        name=signal.name,
        unit=signal.unit or "",
        receivers=named(signal.receivers),
        factor=Decimal(signal.factor),
        offset=Decimal(signal.offset),
        minimum=least,
        maximum=most,
        choices={int(raw): str(name) for raw, name in signal.values.items()},
        raw_start=Decimal(str(start or 0)),
        is_signed=bool(signal.is_signed),
        is_float=bool(signal.is_float),
        # For a big-endian signal, the start bit is counted from the highest bit of byte 0.
        bits=bits_of(signal.get_startbit(bit_numbering=1), signal.size, signal.is_little_endian),
        is_multiplexer=bool(signal.is_multiplexer),
        multiplexer=above,
        multiplexer_values=ranges if above else (),
    )


def seconds(milliseconds: Any) -> float:
    """Converts milliseconds, which the file uses, to seconds."""
    return float(milliseconds or 0) / 1000
