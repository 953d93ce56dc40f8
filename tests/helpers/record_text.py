"""The text of a record, as docs/RECORD.md describes it: its grammar, and the bus and the entries that it contains."""

import dataclasses
import re
from collections.abc import Iterable, Iterator
from dataclasses import dataclass
from typing import Optional


def up_to(most: int) -> str:
    """Returns a regular expression for numbers from 0 to `most` without leading zeros. `most` is at least 10."""
    digits = str(most)
    ways = [digits, "0", f"[1-9][0-9]{{0,{len(digits) - 2}}}"]
    for place, digit in enumerate(digits):
        least = 1 if place == 0 else 0
        if int(digit) > least:
            ways.append(f"{digits[:place]}[{least}-{int(digit) - 1}][0-9]{{{len(digits) - place - 1}}}")
    return f"(?:{'|'.join(ways)})"


IFACE, SOCKET, COUNT = up_to(15), up_to((1 << 32) - 1), up_to((1 << 64) - 1)
SET = "[0-9A-F]{4}"
WORD = "[0-9A-F]{8}"
# Matches a word whose bit 29 is 0.
MASK = "[014589CD][0-9A-F]{7}"
MOMENT = r"(?:0|[1-9][0-9]{0,9})\.[0-9]{6}"
VERDICT = f"(?:good|global-bit|global-form|lastbit|local-(?:stuff|crc|form):{SET})"
REFUSALS = ["no-interface", "bad-capacity", "too-many-sockets", "no-socket", "bus-off", "no-buffers", "not-bus-off"]
MOST_FILTERS = 512

# Patterns for data and remote frames, for FD frames without flags, for FD frames with or without flags, and for error
# message frames.
IDENTIFIER = "(?:[0-7][0-9A-F]{2}|[01][0-9A-F]{7})"
FRAME = f"{IDENTIFIER}#(?:(?:[0-9A-F]{{2}}){{0,8}}|R[1-8]?)"
FD_BYTES = "|".join(f"[0-9A-F]{{{2 * length}}}" for length in (*range(9), 12, 16, 20, 24, 32, 48, 64))
FD_FRAME = f"{IDENTIFIER}##0(?:{FD_BYTES})"
FLAGGED_FRAME = f"{IDENTIFIER}##[0-3](?:{FD_BYTES})"
ERROR_FRAME = "[23][0-9A-F]{7}#[0-9A-F]{16}"

NUMBER = "(0|[1-9][0-9]*)"
BUS = f"bus {NUMBER} (always|peers) ({SET}) {NUMBER} {NUMBER}"


# The approximate number of bytes that one read returns.
BLOCK = 1 << 20
# The largest number of entries in a record that is written at the end of its run, and in one that is written during its
# run.
MOST_ENTRIES, MOST_LIVE_ENTRIES = 1 << 24, (1 << 32) - 2


class Version:
    """A version of the format: the line about the bus, the limits, and the words and replies of each kind of event."""

    def __init__(
        self, bus: str, fd: Optional[str] = None, limits: range = range(1, MOST_ENTRIES + 1), has_downs: bool = False
    ) -> None:
        # The pattern of FD frames, if the version has them, and whether interfaces can go down.
        self.bus, self.fd, self.limits, self.has_downs = re.compile(bus), fd, limits, has_downs

    def entries(self, restarts: bool) -> dict[str, re.Pattern[str]]:
        """Returns the regular expressions of entries, by kind. They depend on whether the bus restarts interfaces."""
        frame = f"(?:{FRAME}|{self.fd})" if self.fd else FRAME
        options = "loopback|recvown|join|fd" if self.fd else "loopback|recvown|join"
        restarted = f"(?: restarted (?!0000){SET})?" if restarts else ""
        attempted = f"(?:idle|tried {IFACE} {COUNT} {frame} (?:done|lastbit|destroyed|noack) {SET} {SET}){restarted}"
        received = f"none|data {IFACE} {COUNT} {frame} {MOMENT}|error {IFACE} {ERROR_FRAME} {MOMENT}"
        lines = [
            ("open", f"{IFACE} {SOCKET}", f"socket {SOCKET}"),
            ("close", SOCKET, f"closed {COUNT} {COUNT}"),
            ("filters", f"{SOCKET} {up_to(MOST_FILTERS)}(?: {WORD} {MASK})*", "ok"),
            ("option", f"{SOCKET} (?:(?:{options}) [01]|errmask {WORD})", "ok"),
            ("send", f"{SOCKET} {frame}", f"number {COUNT}"),
            ("receive", SOCKET, received),
            ("attempt", f"{MOMENT} {VERDICT}", attempted),
            ("restart", f"{IFACE} {MOMENT}", "ok"),
        ]
        lines += [("down", f"{IFACE} {MOMENT}", "ok")] if self.has_downs else []
        refusal = "|".join([*REFUSALS, "interface-down"] if self.has_downs else REFUSALS)
        spelled = {kind: f"{kind} {event} = (?:{reply}|{refusal})" for kind, event, reply in lines}
        if self.fd:
            spelled["send"] += f"|send {SOCKET} {self.fd} = fd-off"
        return {kind: re.compile(line) for kind, line in spelled.items()}


# Since version 2, the bus line ends with the number of attempts after which an interface restarts.
VERSION_3 = Version(f"{BUS} {NUMBER}", FD_FRAME)
# Version 5 adds the flags of FD frames.
VERSION_5 = Version(f"{BUS} {NUMBER}", FLAGGED_FRAME)
# Version 6 adds interfaces that go down.
VERSION_6 = Version(f"{BUS} {NUMBER}", FLAGGED_FRAME, has_downs=True)
LONG_LIMITS = range(MOST_ENTRIES + 1, MOST_LIVE_ENTRIES + 1)
# The versions, by the first line of their records. Version 4 is only for records of long runs, and these have no other
# version.
VERSIONS = {
    "canbus record 1": Version(BUS),
    "canbus record 2": Version(f"{BUS} ([1-9][0-9]*)"),
    "canbus record 3": VERSION_3,
    "canbus record 4": Version(f"{BUS} {NUMBER}", FLAGGED_FRAME, LONG_LIMITS, has_downs=True),
    "canbus record 5": VERSION_5,
    "canbus record 6": VERSION_6,
}


class BadRecord(ValueError):
    """The reason why these bytes are not a valid record. `verdict` is what `canbusd audit` reports, such as `line 5:
    bad line`."""

    def __init__(self, message: str, verdict: str) -> None:
        super().__init__(message)
        self.verdict = verdict


def bad_line(number: int, message: str) -> BadRecord:
    """Returns the error for the line with this number, counted from 1."""
    return BadRecord(f"line {number}: {message}", f"line {number}: bad line")


@dataclass(frozen=True)
class RecordText:
    """The content of a record: the configuration of the bus, and the lines of the entries."""

    ifaces: int
    #: Whether the bus always acknowledges frames, as if it had a silent node.
    always: bool
    #: The interfaces that report faults. Bit i stands for interface i.
    reporting: int
    tx_capacity: int
    limit: int
    #: The number of attempts after bus off until an interface restarts; 0 if interfaces do not restart.
    auto_restart: int
    lines: list[str]
    #: Whether the text ends before the line `end`.
    is_cut: bool

    def entries(self, first: int = 0) -> Iterator[tuple[list[str], list[str]]]:
        """Yields each entry from `first` onwards, as the words of its event and the words of its reply."""
        for number in range(first, len(self.lines)):
            event, reply = self.lines[number].split(" = ")
            yield event.split(" "), reply.split(" ")


def parse_text(data: bytes, cut: bool = False) -> RecordText:
    """Returns the record that these bytes contain. Raises BadRecord at the first line that is not valid in a record. If
    `cut` is true, the line `end` may be missing. Text after the last LF is then ignored.
    """
    reader, end = TextReader(), data.rfind(b"\n") + 1
    # A byte that is not valid in a record is reported before any wrong line.
    for block in blocks_of(data, end):
        decoded(block)
    if not cut:
        decoded(data[end:])
    for block in blocks_of(data, end):
        reader.take(decoded(block).split("\n")[:-1])
    return reader.finish(end < len(data), cut)


def blocks_of(data: bytes, end: int) -> Iterator[bytes]:
    """Yields the complete lines of these bytes in large blocks."""
    first = 0
    while first < end:
        after = data.find(b"\n", min(first + BLOCK, end - 1)) + 1
        yield data[first:after]
        first = after


def decoded(data: bytes) -> str:
    """Returns these bytes decoded as a string."""
    try:
        return data.decode()
    except UnicodeDecodeError:
        raise BadRecord("no record: it is no UTF-8 text", "read fault") from None


class TextReader:
    """Reads the lines of a record, all at once or during the run."""

    def __init__(self) -> None:
        #: The lines of the entries so far.
        self.lines: list[str] = []
        #: Whether the line `end` has been read.
        self.is_ended = False
        self._version: Optional[Version] = None
        self._bus: Optional[RecordText] = None
        self._entries: dict[str, re.Pattern[str]] = {}

    @property
    def bus(self) -> Optional[RecordText]:
        """Returns the record so far, or None before the line about the bus has been read. Its list of entries grows as
        further lines are read."""
        return self._bus

    def take(self, lines: Iterable[str]) -> None:
        """Reads these complete lines, which have no LF. Raises BadRecord at the first wrong line."""
        for line in lines:
            if self._bus is not None:
                self._take_entry(line)
            elif self._version is not None:
                self._bus = bus_of(self._version, line, self.lines)
                self._entries = self._version.entries(restarts=self._bus.auto_restart > 0)
            else:
                self._version = version_of(line)

    def _take_entry(self, line: str) -> None:
        if self.is_ended:
            raise self._text_after_the_end()
        kind = line.split(" ", 1)[0]
        entry = self._entries.get(kind)
        if entry is not None and entry.fullmatch(line) and (kind != "filters" or has_its_filters(line)):
            self.lines.append(line)
        elif not re.fullmatch("end (?:0|[1-9][0-9]*)", line):
            raise bad_line(len(self.lines) + 3, f"no entry of a record: {line[:60]!a}")
        elif line != f"end {len(self.lines)}":
            raise bad_line(len(self.lines) + 3, f"{line[:60]!a} after {len(self.lines)} entries")
        else:
            self.is_ended = True

    def finish(self, is_torn: bool = False, cut: bool = False) -> RecordText:
        """Returns the record that the lines contain. `is_torn` is true if an incomplete line follows them. If `cut` is
        true, the line `end` may be missing.
        """
        if self._version is None:
            raise no_version()
        if self._bus is None:
            raise bad_line(2, "cut off before its end" if is_torn else "the line of the bus is missing")
        if not self.is_ended:
            if cut:
                return dataclasses.replace(self._bus, is_cut=True)
            missing = "cut off before its end" if is_torn else f"the line `end {len(self.lines)}` is missing"
            raise bad_line(len(self.lines) + 3, missing)
        if is_torn:
            raise self._text_after_the_end()
        if self._version is VERSION_3 and not any(map(needs_fd, self.lines)):
            raise BadRecord("version 3, with neither an FD frame nor the option for such", "bad version")
        if self._version is VERSION_5 and not any(map(has_flags, self.lines)):
            raise BadRecord("version 5, without a flag of an FD frame", "bad version")
        if self._version is VERSION_6 and not any(map(has_down, self.lines)):
            raise BadRecord("version 6, without an interface that goes down", "bad version")
        return self._bus

    def _text_after_the_end(self) -> BadRecord:
        return bad_line(len(self.lines) + 4, f"text after the line `end {len(self.lines)}`")


def no_version() -> BadRecord:
    """Returns the error for a text whose first line is not that of any version."""
    first = " or ".join(f"`{line}`" for line in VERSIONS)
    return BadRecord(f"no record: its first line is not {first}", "bad version")


def version_of(line: str) -> Version:
    """Returns the version with this first line."""
    if line not in VERSIONS:
        raise no_version()
    return VERSIONS[line]


def needs_fd(line: str) -> bool:
    """Returns whether the line requires version 3 or later: it has an FD frame or the option for FD frames."""
    return "##" in line or line.startswith("option ") and line.split(" ")[2] == "fd"


def has_flags(line: str) -> bool:
    """Returns whether the line has an FD frame with a flag."""
    return re.search("##[1-3]", line) is not None


def has_down(line: str) -> bool:
    """Returns whether the line takes an interface down, or reports that one is down."""
    return line.startswith("down ") or line.endswith(" = interface-down")


def has_its_filters(line: str) -> bool:
    """Returns whether a line `filters` has the number of filters that it announces."""
    words = line.split(" = ")[0].split(" ")
    return len(words) == 3 + 2 * int(words[2])


def bus_of(version: Version, line: str, entries: list[str]) -> RecordText:
    """Returns the bus that this line describes, with this list of entries."""
    words = version.bus.fullmatch(line)
    if not words:
        raise bad_line(2, f"no bus: {line[:60]!a}")
    ifaces = int(words[1])
    # Version 1 does not have the third number.
    tx_capacity, limit, auto_restart = map(int, [*words.groups()[3:], "0"][:3])
    if not (1 <= ifaces <= 16 and 1 <= tx_capacity <= 1024 and limit in version.limits and auto_restart <= 1000000):
        raise bad_line(2, f"a number out of range: {line[:60]!a}")
    reporting = int(words[3], 16)
    return RecordText(ifaces, words[2] == "always", reporting, tx_capacity, limit, auto_restart, entries, is_cut=False)
