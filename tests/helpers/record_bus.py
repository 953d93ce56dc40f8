"""The parts of a bus, following the rules in docs/DEFINITIONS.md: frames, sockets, interfaces, and queued frames."""

from collections import deque
from typing import Optional

# The bits of an identifier word (linux/can.h) that mark a 29-bit identifier, a remote frame and an inverted filter.
EXTENDED, REMOTE, INVERTED = 1 << 31, 1 << 30, 1 << 29
#: The lowest error counts of an interface that is bus off, error passive, or error warning.
OFF, PASSIVE, WARNING = 256, 128, 96


def severity(count: int) -> int:
    """Returns the severity of an error count: 0 active, 1 warning, 2 passive, 3 off."""
    return (count >= WARNING) + (count >= PASSIVE) + (count >= OFF)


class Frame:
    """A data, remote or FD frame in the notation used in records, with its identifier word and the bits that
    arbitration compares."""

    __slots__ = ("text", "is_fd", "word", "bits")

    def __init__(self, text: str) -> None:
        identifier, payload = text.split("#", 1)
        number, is_extended, is_remote = int(identifier, 16), len(identifier) == 8, payload.startswith("R")
        self.text, self.is_fd = text, payload.startswith("#")
        self.word = number + is_extended * EXTENDED + is_remote * REMOTE
        # The bits begin with the identifier. After its first 11 bits come either RTR and IDE, or SRR, IDE, the other 18
        # bits and RTR. In place of RTR, an FD frame has a dominant bit.
        self.bits = f"{number:029b}{is_remote:b}" if is_extended else f"{number:011b}{is_remote:b}0"
        if is_extended:
            self.bits = f"{self.bits[:11]}11{self.bits[11:]}"


def is_match(word: int, identifier: int, mask: int) -> bool:
    """Returns whether an identifier word matches a filter of a raw socket (Linux, Documentation/networking/can.rst)."""
    return (word & mask == identifier & ~INVERTED & mask) is not (identifier & INVERTED != 0)


class Socket:
    """A raw socket, with its filters, its options and its waiting frames and error messages."""

    def __init__(self, number: int, iface: int, capacity: int) -> None:
        self.number, self.iface, self.capacity = number, iface, capacity
        self.closed_after: Optional[int] = None
        self.filters = [(0, 0)]
        # Whether frames pass the filters, by identifier word.
        self.passed: dict[int, bool] = {}
        self.options = {"loopback": 1, "recvown": 0, "join": 0, "errmask": 0, "fd": 0}
        # For each waiting item, the words of the reply that delivers it.
        self.queue: deque[list[str]] = deque()
        self.queued = self.dropped = self.taken = 0

    @property
    def waiting(self) -> int:
        """Returns the number of waiting items."""
        return len(self.queue)

    def passes(self, frame: Frame) -> bool:
        """Returns whether a frame passes the filters. Without filters no frame passes. An FD frame passes only if the
        socket has enabled FD frames."""
        if frame.is_fd and not self.options["fd"]:
            return False
        found = self.passed.get(frame.word)
        if found is None:
            matches = [is_match(frame.word, *one) for one in self.filters]
            found = self.passed[frame.word] = all(matches) and matches != [] if self.options["join"] else any(matches)
        return found


class Pending:
    """A frame in a transmit queue, with its number and the socket that sent it. `contender` is the interface and the
    frame, for arbitration."""

    __slots__ = ("number", "frame", "socket", "loops_back", "contender")

    def __init__(self, number: int, frame: Frame, socket: Socket, loops_back: int) -> None:
        self.number, self.frame, self.socket, self.loops_back = number, frame, socket, loops_back
        self.contender = socket.iface, frame


class Interface:
    """An interface, with its error counters, its transmit queue and its statistics."""

    def __init__(self) -> None:
        self.tec = self.rec = 0
        self.waiting: deque[Pending] = deque()
        self.sent = self.done = self.lost = self.refused = 0
        # The number of attempts since bus off, or None if the interface is not bus off.
        self.attempts_off: Optional[int] = None
        self.is_down = False

    def is_off(self) -> bool:
        """Returns whether the interface is bus off."""
        return self.tec >= OFF and not self.is_down

    def is_silent(self) -> bool:
        """Returns whether the interface is down or bus off, and so takes no part in the traffic."""
        return self.is_down or self.is_off()

    def is_passive(self) -> bool:
        """Returns whether the interface is error passive."""
        return self.state() == 2

    def state(self) -> int:
        """Returns the state of the interface: 0 active, 1 warning, 2 passive, 3 off."""
        return severity(max(self.tec, self.rec))

    def restart(self) -> None:
        """Restarts the interface after bus off, or brings it up."""
        self.tec = self.rec = 0
        self.attempts_off = None
        self.is_down = False

    def go_down(self) -> list[Pending]:
        """Takes the interface down, and returns the lost frames."""
        lost = list(self.waiting)
        self.lost += len(lost)
        self.waiting.clear()
        self.attempts_off = None
        self.is_down = True
        return lost

    def receive_error(self) -> None:
        """Counts an error that the interface detected as a receiver."""
        self.rec = min(self.rec + 1, 255)

    def good_reception(self) -> None:
        """Counts a frame that the interface received without error."""
        self.rec = 127 if self.rec > 127 else max(self.rec - 1, 0)
