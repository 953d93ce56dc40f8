"""The parts of a bus at the end of its run: its configuration, its interfaces and its sockets."""

from array import array
from dataclasses import dataclass
from typing import Optional

#: The size in bits of a count of waiting frames. One integer combines the counts of all interfaces, with interface 0 in
#: the lowest bits. Columns use the same size for a count.
WAITING_BITS = 16
MOST_WAITING = (1 << WAITING_BITS) - 1
#: The lowest error counts at which an interface is bus off, error passive, and in the error warning state.
OFF, PASSIVE, WARNING = 256, 128, 96


def severity(count: int) -> int:
    """Returns the severity of a count: 0 active, 1 warning, 2 passive, 3 off."""
    return (count >= WARNING) + (count >= PASSIVE) + (count >= OFF)


@dataclass(frozen=True)
class Bus:
    """The configuration of a bus."""

    #: The number of interfaces.
    ifaces: int
    #: Whether a silent node acknowledges every frame.
    always: bool
    #: The set of interfaces that report faults: bit i stands for interface i.
    reporting: int
    tx_capacity: int
    limit: int
    #: The number of attempts after which an interface is restarted from bus off; 0 for no automatic restart.
    auto_restart: int


def bus_of(line: str) -> Bus:
    """Parses the second line of a record."""
    _, ifaces, acknowledged, reporting, tx_capacity, limit, *restart = line.split(" ")
    # Version 1 lacks the last number in this line.
    auto_restart = int(restart[0]) if restart else 0
    return Bus(int(ifaces), acknowledged == "always", int(reporting, 16), int(tx_capacity), int(limit), auto_restart)


class Socket:
    """A raw socket."""

    def __init__(self, number: int, iface: int, capacity: int) -> None:
        self.number, self.iface, self.capacity = number, iface, capacity
        #: The last step before the socket was closed, or -1 if it was closed before the first step. None if the socket
        #: is open.
        self.closed_after: Optional[int] = None
        # When the socket started or stopped receiving error message frames: the number of steps before each change, and
        # whether it receives them after the change.
        self._takes_errors = [(0, False)]
        #: The number of items for the socket, and how many of them were dropped because its queue was full.
        self.handed = self.dropped = 0
        #: For each item that was taken, how many steps preceded this.
        self.taken_after = array("I")

    def set_errors(self, steps: int, is_taken: bool) -> None:
        """Records that the socket starts or stops receiving error message frames after this many steps."""
        self._takes_errors.append((steps, is_taken))

    def takes_errors(self, step: int) -> bool:
        """Returns whether the socket received error message frames during a step."""
        return next(is_taken for steps, is_taken in reversed(self._takes_errors) if steps <= step)

    @property
    def queued(self) -> int:
        """The number of items that were added to the receive queue."""
        return self.handed - self.dropped

    @property
    def taken(self) -> int:
        """The number of items that were taken from the receive queue."""
        return len(self.taken_after)

    @property
    def waiting(self) -> int:
        """The number of items in the socket's receive queue."""
        return self.queued - self.taken if self.closed_after is None else 0


class Interface:
    """An interface: its error counters, its transmit queue and its counts."""

    def __init__(self, number: int) -> None:
        self.number = number
        #: The increment for one frame that waits at this interface, in the integer that combines the counts of all
        #: interfaces.
        self.unit = 1 << WAITING_BITS * number
        self.tec = self.rec = 0
        self.is_down = False
        #: The event lines of the sends whose frames are waiting.
        self.queue: list[str] = []
        #: The number of frames that left the queue, and how many of them were removed because the interface went bus
        #: off or down.
        self.gone = self.lost = 0
        #: The number of sends that were refused because the queue was full.
        self.refused = 0

    @property
    def done(self) -> int:
        """The number of frames that were sent successfully."""
        return self.gone - self.lost

    @property
    def waiting(self) -> list[str]:
        """The waiting frames."""
        return [*map(frame_in, self.queue)]

    @property
    def sent(self) -> int:
        """The number of frames that were added to the queue."""
        return self.gone + len(self.queue)

    def leave(self, waiting: int) -> None:
        """Removes frames from the front of the queue. `waiting` combines the counts of the frames that still wait at
        each interface."""
        left = len(self.queue) - (waiting >> WAITING_BITS * self.number & MOST_WAITING)
        del self.queue[:left]
        self.gone += left

    def state(self) -> int:
        """The state of the interface: 0 active, 1 warning, 2 passive, 3 off, 4 down."""
        return 4 if self.is_down else severity(max(self.tec, self.rec))


def frame_in(line: str) -> str:
    """Returns the frame in the event line of a send."""
    return line.split(" ", 3)[2]
