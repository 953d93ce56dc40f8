"""A run with its steps, items, interfaces and sockets, built from the program's event lines.

The program implements the rules of the bus, and describes the effects of each entry of a record in these lines. This
module stores the effects, and derives the queued frames, the interfaces that take part in arbitration, and what
happened to each item. A run may have millions of lines, so `_run/chunks.py` reads them as columns.
"""

from array import array
from collections.abc import Callable, Iterable, Sequence
from typing import Optional

from canbusd._process.program import ProgramNotFound
from canbusd._process.rates import Rates
from canbusd._run.chunks import Chunk, Drop, Loss, Reader
from canbusd._run.columns import Waiting, later
from canbusd._run.run_parts import OFF, Bus, Interface, Socket, bus_of, frame_in
from canbusd._run.steps import DOWN, Items, Places, Steps

FIRST_LINE = "canbus events 1"
#: The replies to a send that the interface refused.
REFUSED = ("bus-off", "interface-down", "no-buffers")
#: Stands for a dropped item whose content is not known.
UNKNOWN = "?"


class Replay:
    """A run, up to the last event line that was processed."""

    def __init__(self, rates: Optional[Rates] = None) -> None:
        #: The bit rates for which the lines contain the time of attempts on the wire; None if the lines contain no
        #: times.
        self.rates = rates
        #: The content of the record, if the whole record was read at once.
        self.text = b""
        #: The configuration of the bus; None until its line has been processed.
        self.bus: Optional[Bus] = None
        self.ifaces: list[Interface] = []
        self.sockets: list[Socket] = []
        #: The frames and error message frames, each with its index. The first index stands for no frame.
        self.texts = Places("")
        self.steps, self.items = Steps(self.texts, self.ifaces), Items(self.sockets)
        #: The frames that were removed from a transmit queue by bus off or by `down`. For each frame: the step, the
        #: number and the frame.
        self.lost = self.steps.lost
        #: For each pair of interface and reply, the last step before each refused send. The reply is one of REFUSED.
        self.refused: dict[tuple[int, str], list[int]] = {}
        #: The verdicts of attempts without a frame that restarted interfaces, by the number of the entry.
        self.idle_verdicts: dict[int, str] = {}
        self.idle = 0
        #: The number of entries that have been processed.
        self.entries = 0
        #: Whether the last line of the run has been processed.
        self.is_whole = False
        # The reader for entry lines; None until the configuration of the bus is known.
        self._reader: Optional[Reader] = None
        # How many frames each interface has queued, packed into one integer.
        self._waiting = 0
        # The interfaces that are down, as a bit mask with bit i for interface i.
        self._down = 0
        # The number of attempts without a frame just before a step, by step.
        self._idle: dict[int, int] = {}

    @property
    def attempts(self) -> int:
        """How many attempts had a frame to send."""
        return self.steps.tried

    @property
    def idle_since(self) -> int:
        """How many attempts without a frame followed the last step."""
        return self._idle.get(len(self.steps), 0)

    def socket_ifaces(self) -> list[int]:
        """Returns the interface of each socket, by index."""
        return [socket.iface for socket in self.sockets]

    def take(self, lines: Iterable[str]) -> None:
        """Processes these lines, which must follow the lines that were processed before."""
        self.take_text("\n".join(lines))

    def take_texts(self, texts: Iterable[str]) -> None:
        """Processes these strings in order. Each string contains one or more lines."""
        for text in texts:
            self.take_text(text)

    def take_text(self, text: str) -> None:
        """Processes complete lines, which must follow the lines that were processed before. The last line has no
        newline."""
        while self.bus is None and text:
            front, _, text = text.partition("\n")
            self._begin(front)
        if not text:
            return
        assert self._reader is not None
        self.take_chunk(self._reader.read(text, self.socket_ifaces()))

    def take_chunk(self, chunk: Chunk) -> None:
        """Processes the lines of a chunk, which must follow the lines that were processed before."""
        first = self.entries
        self.entries += chunk.entry_count
        self._take_others(chunk, first)
        for socket, steps in chunk.taken.items():
            self.sockets[socket].taken_after += later(steps, len(self.steps))
        for iface, line in zip(chunk.senders, chunk.sends.split("\n")):
            self.ifaces[iface].queue.append(line)
        self._take_steps(chunk, first)

    def _begin(self, line: str) -> None:
        """Processes one of the lines before the first entry."""
        if line.startswith("bus "):
            self._make_bus(line)
        elif line != FIRST_LINE:
            raise ProgramNotFound(f"the program does not fit this package, which reads `{FIRST_LINE}`, not `{line}`")

    def _make_bus(self, line: str) -> None:
        self.bus = bus_of(line)
        count = self.bus.ifaces
        self.ifaces += map(Interface, range(count))
        self._waits = Waiting(count)
        self._reader = Reader(self.bus)

    # Methods for rare lines. Their arguments are the line, the number of steps before the line, and the index of its
    # entry.

    def _take_others(self, chunk: Chunk, first: int) -> None:
        """Processes the rare lines of a chunk."""
        calls: dict[str, Callable[[str, int, int], object]] = {
            "open": self._open_socket,
            "close": self._close_socket,
            "option": self._set_option,
            "send": self._refuse,
            "attempt": self._note_idle,
            "end": self._end,
            "cut": self._end,
        }
        for line, steps, entry in chunk.others:
            call = calls.get(line.partition(" ")[0])
            if call:
                call(line, len(self.steps) + steps, first + entry)

    def _end(self, line: str, __: int, entry: int) -> None:
        # The last line is not an entry.
        self.entries, self.is_whole = entry, line.startswith("end ")

    def _open_socket(self, line: str, *__: int) -> None:
        iface, capacity, _, reply = line.split(" ")[1:5]
        if reply == "socket":
            socket = Socket(len(self.sockets), int(iface), int(capacity))
            self.sockets.append(socket)

    def _close_socket(self, line: str, steps: int, __: int) -> None:
        number, _, reply = line.split(" ")[1:4]
        if reply == "closed":
            self.sockets[int(number)].closed_after = steps - 1

    def _set_option(self, line: str, steps: int, __: int) -> None:
        number, option, value, _, reply = line.split(" ")[1:]
        if option == "errmask" and reply == "ok":
            self.sockets[int(number)].set_errors(steps, int(value, 16) > 0)

    def _refuse(self, line: str, steps: int, __: int) -> None:
        """Records a send that was refused: its reply is not a number."""
        number, _, _, reply = line.split(" ")[1:]
        if reply in REFUSED:
            iface = self.ifaces[self.sockets[int(number)].iface]
            iface.refused += reply == "no-buffers"
            self.refused.setdefault((iface.number, reply), []).append(steps - 1)

    def _note_idle(self, line: str, steps: int, entry: int) -> None:
        """Records an attempt without a frame."""
        words = line.split(" ")
        self.idle += 1
        self._idle[steps] = self._idle.get(steps, 0) + 1
        if len(words) > 5:
            self.idle_verdicts[entry] = words[2]

    # Methods for frequent lines. A run may have millions of them.

    def _take_steps(self, chunk: Chunk, first_entry: int) -> None:
        """Adds the steps of a chunk: attempts with a frame, restarts of interfaces, and interfaces that go down."""
        first, first_item = len(self.steps), len(self.items)
        for step in chunk.breaks:
            self._set_down(chunk, step)
        waiting = self._waits.column(chunk.waiting, self._waiting)
        self._waiting += chunk.waiting_more
        self.steps.extend(chunk, first_entry, waiting)
        self.steps.note(
            self.steps.idle, ((step, count) for step, count in self._idle.items() if step < len(self.steps))
        )
        self.items.extend(chunk, first)
        self.steps.note(self.steps.hit, self._hits(chunk, first))
        for loss in chunk.lost:
            self._lose(chunk, loss, first)
        self._place_texts(chunk, first_item, self._drop(chunk, first, first_item))
        for iface in self.ifaces:
            iface.leave(self._waiting)
            iface.is_down = bool(self._down >> iface.number & 1)
            if self.steps:
                iface.tec, iface.rec = self.steps.counts[2 * (iface.number - len(self.ifaces)) :][:2]
        self._idle = {len(self.steps): self.idle_since}

    def _set_down(self, chunk: Chunk, step: int) -> None:
        """Records whether an interface is down, beginning with this step."""
        bit = 1 << chunk.ifaces[step]
        down = self._down | bit if chunk.kinds[step] == DOWN else self._down & ~bit
        if down != self._down:
            self._down = down
            self.steps.set_down(len(self.steps) + step, down)

    def _hits(self, chunk: Chunk, first: int) -> Iterable[tuple[int, int]]:
        """Yields each step with a local fault, and the interfaces that see the fault. Interfaces that are bus off or
        down do not see it."""
        for step, members in chunk.local:
            place, sender = first + step, chunk.ifaces[step]
            on = sum(1 << i for i, tec in enumerate(self.steps.counts_before(place)[::2]) if tec < OFF and i != sender)
            yield place, members & on & ~self.steps.down[place]

    def _lose(self, chunk: Chunk, loss: Loss, first: int) -> None:
        """Records that an interface goes down or bus off, and loses all frames in its transmit queue.

        At bus off, the first lost frame is the frame that was sent in the step.
        """
        iface = self.ifaces[chunk.ifaces[loss.step]]
        number = chunk.numbers[loss.step] if loss.gone is None else iface.gone + loss.gone
        place = number - iface.gone
        lines = iface.queue[place : place + loss.frames]
        self.lost[first + loss.step] = list(enumerate(map(frame_in, lines), number))
        iface.lost += loss.frames

    def _drop(self, chunk: Chunk, first: int, first_item: int) -> list[Drop]:
        """Records the items that sockets dropped because their queues were full. Returns the drops that may include
        error message frames."""
        found: list[Drop] = []
        for drop in chunk.dropped:
            socket = self.sockets[drop.socket]
            socket.dropped += drop.items
            self.items.drop(first_item + drop.item, drop.items)
            if socket.takes_errors(first + drop.step) and not drop.is_frame:
                found.append(drop)
        return found

    def _place_texts(self, chunk: Chunk, first_item: int, unknown: Sequence[Drop]) -> None:
        """Assigns indexes to the frames and error message frames of a chunk, and to dropped items with unknown content."""
        errors, before = self.items.errors, len(chunk.texts)
        if unknown and UNKNOWN not in self.texts:
            # UNKNOWN gets the index that follows those of all steps and items before the first unknown item.
            drop = unknown[0]
            told = (text for item, text in zip(chunk.errors, chunk.error_texts) if item < drop.item)
            before = max([*chunk.frames[: drop.step + 1], *told]) + 1
        places = self.texts.places_of(chunk.texts[:before])
        for drop in unknown:
            items = slice(first_item + drop.item, first_item + drop.item + drop.items)
            errors[items] = array("I", [self.texts[UNKNOWN]]) * drop.items
        places += self.texts.places_of(chunk.texts[before:])
        self.steps.frames.extend(map(places.__getitem__, chunk.frames))
        for item, text in zip(chunk.errors, chunk.error_texts):
            errors[first_item + item] = places[text]
