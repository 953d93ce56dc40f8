"""Checks the lines of DBC files for numbers that no signal can have, and finds the lines of messages and signals.

The libraries that read DBC files parse every number, even if this takes very long.
"""

import re
import tempfile
from collections.abc import Callable, Iterator
from typing import Optional

from canbusd._text import shown

#: The maximum number of digits of a number, and the largest exponent. A double requires at most 309 digits and the
#: exponent 324.
MOST_DIGITS, MOST_EXPONENT = 400, 999
#: The maximum length of a message, and of a line in the file, in bytes.
MOST_BYTES, MOST_LINE = 65_535, 1 << 20
QUOTE = re.compile(rb'(?<!\\)"')
NUMBER = re.compile(rb"(?<![\w.])[0-9.]+(?:[eE][-+]?([0-9]+))?")
MESSAGE = re.compile(rb"BO_ +([0-9]+) +([^ :]+) *: *([0-9]*)")
SIGNAL = re.compile(rb"SG_ +([^ :]+)[^:]*:(?: *([0-9]+) *\| *([0-9]+) *@)?")
RANGE = re.compile(rb"([0-9]{1,400})-([0-9]{1,400})")
#: Matches attributes that are read as numbers. The second pattern matches their valid values.
ATTRIBUTE = re.compile(rb'BA_(?:DEF_DEF_)? +"(Gen(?:Msg(?:Cycle|StartDelay)Time|SigStartValue))"(?: .*)? ([^ ;]+) *;')
FINITE = re.compile(rb"[-+]?(?:[0-9]+\.?[0-9]*|\.[0-9]+)(?:[eE][-+]?[0-9]+)?")


class LineFault(ValueError):
    """An error in a line of a DBC file."""

    def __init__(self, line: int, text: str) -> None:
        super().__init__(text)
        self.line = line


def is_dbc(path: str) -> bool:
    """Returns whether the file extension of this path is `.dbc`."""
    return path.lower().endswith(".dbc")


def check_numbers(path: str, most_values: Optional[int] = None) -> None:
    """Raises LineFault for a number outside the range of signals, because such a number is meaningless or takes long to
    parse. Also raises LineFault for a range of more than `most_values` multiplexer values, because some libraries list
    all values."""
    is_in_text = False
    for number, line in lines_of(path):
        # Numbers in a quoted string are ignored. The string may begin on an earlier line.
        parts = QUOTE.split(line)
        fault = fault_in(b'"'.join(parts[is_in_text::2]).strip(), b"" if is_in_text else line.strip())
        is_in_text ^= len(parts) % 2 == 0
        if most_values is not None and line.startswith(b"SG_MUL_VAL_ "):
            widest = max((int(last) - int(first) for first, last in RANGE.findall(line)), default=0)
            fault = fault or (f"a range has more than {most_values:,} values" if widest >= most_values else None)
        if fault:
            raise LineFault(number, fault)


def lines_of(path: str) -> Iterator[tuple[int, bytes]]:
    """Yields the number and content of each line of a file. Raises LineFault if a line is too long."""
    with open(path, "rb") as file:
        for number, line in enumerate(iter(lambda: file.readline(MOST_LINE), b""), 1):
            if len(line) == MOST_LINE:
                raise LineFault(number, f"a line of {MOST_LINE:,} bytes, so this is no DBC file, or it is damaged here")
            yield number, line


def fault_in(bare: bytes, line: bytes) -> Optional[str]:
    """Returns the error message for a line; None if the line is correct. `bare` is the line without its quoted strings."""
    for one in NUMBER.finditer(bare):
        if len(one[0]) > MOST_DIGITS or int(one[1] or 0) > MOST_EXPONENT:
            said = one[0].decode() if len(one[0]) < 30 else f"{one[0][:12].decode()} .. of {len(one[0])} characters"
            return f"{said} is beyond the numbers of signals"
    message, signal, attribute = MESSAGE.match(bare), SIGNAL.match(bare), ATTRIBUTE.match(line)
    if message and int(message[3] or 0) > MOST_BYTES:
        return f"message {message[2].decode(errors='replace')} has {int(message[3]):,} bytes, and at most {MOST_BYTES:,} are read"
    if signal and max(int(signal[2] or 0), int(signal[3] or 0)) > 8 * MOST_BYTES:
        name = signal[1].decode(errors="replace")
        return f"signal {name} is past the {8 * MOST_BYTES:,} bits that are read"
    if attribute and not FINITE.fullmatch(attribute[2]):
        return f"{attribute[1].decode()} is a number, not {attribute[2].decode(errors='replace')}"
    return None


def refused_line(path: str, is_refused: Callable[[str], bool]) -> LineFault:
    """Returns the number and content of the line that causes a refusal. A library refuses the file if it is cut off
    after this line, but not if it is cut off before this line."""
    lines = [line for _, line in lines_of(path)]
    right, wrong = 0, len(lines)
    with tempfile.NamedTemporaryFile(suffix=".dbc") as file:
        while right + 1 < wrong:
            middle = (right + wrong) // 2
            file.seek(0)
            file.truncate()
            file.writelines(lines[:middle])
            file.flush()
            right, wrong = (right, middle) if is_refused(file.name) else (middle, wrong)
    return LineFault(wrong, shown(b"".join(lines[wrong - 1 : wrong]).decode("latin-1").strip()))


def line_of(path: str, identifier: int, message: str, signal: str = "") -> int:
    """Returns the line number of the last message with this identifier and name. If `signal` is given, returns the line
    number of that signal. Returns 0 if there is no such message."""
    found, is_its = 0, False
    for number, line in lines_of(path):
        text = line.strip()
        opened, one = MESSAGE.match(text), SIGNAL.match(text)
        if opened:
            is_its = int(opened[1]) & 0x1FFFFFFF == identifier and opened[2] == message.encode(errors="replace")
            found = number if is_its else found
        elif one and is_its and signal and one[1] == signal.encode(errors="replace"):
            found = number
    return found
