"""The verdict of `canbusd audit` on a record, and the output of `audit --events`, following the rules in
docs/DEFINITIONS.md. This is an independent model: a second implementation of the rules, with which the tests compare
the proved program. The model does not run the program. It compares each reply in the record with the reply that the
rules require, so a replay to the end of a record is an audit.
"""

import collections
from collections.abc import Iterator, Sequence
from dataclasses import dataclass, field
from typing import Optional

from record_bus import Frame, Interface, Pending, Socket, severity
from record_text import BadRecord, RecordText, parse_text
from wire_model import Frame as FrameOnWire, bit_counts
from wire_times import Rates, ending_of

FIRST_LINE = "canbus events 1"
MOST_SOCKETS = 64
# Bytes 2 and 3 of the error message frame for a fault. At the winner they depend on the verdict, and at the hit
# interface on the local fault.
AT_THE_WINNER = {"global-bit": (0x81, 0x0A), "global-form": (0x82, 0x1B), "local": (0x81, 0x00)}
AT_THE_HIT = {"stuff": (0x04, 0x0A), "crc": (0x00, 0x08), "form": (0x02, 0x1B)}
# Byte 1 of an error message frame for a change of state, by the severity of a counter: active, warning, passive.
TRANSMIT_CODES, RECEIVE_CODES = (0x40, 0x08, 0x20), (0x40, 0x04, 0x10)
#: The transmit and receive error counters of an interface.
Counts = tuple[int, int]


@dataclass
class Step:
    """A step is an attempt with a frame, a restart or a down. If an attempt restarts interfaces, a step for each of them follows."""

    #: The kind is done, lastbit, destroyed, noack, restart or down.
    kind: str
    #: The index of the entry that causes the step, and the timestamp in that entry.
    entry: int
    moment: str
    #: The winner, or the interface that restarted or went down.
    iface: int
    #: The number of earlier attempts with a frame, and the number of idle attempts since the previous step.
    attempt: int
    idle: int
    #: The number of queued frames at each interface before the step.
    waiting: list[int]
    #: For an attempt only: the number of its frame, the frame in the notation of records, and the verdict of the
    #: script.
    number: int = 0
    text: str = ""
    verdict: str = ""
    #: The interfaces that accept the frame, those that go bus off, and those at which a local fault occurs.
    accepted: Sequence[int] = ()
    off: Sequence[int] = ()
    hit: Sequence[int] = ()
    #: The frame of each interface that takes part in arbitration.
    contenders: list[tuple[int, Frame]] = field(default_factory=list)
    #: The error counters of each interface after the step.
    counts: Sequence[Counts] = ()


class Replay:
    """The replay of a record: its steps, the effects of its entries, and the state of the bus at the end."""

    def __init__(self, record: RecordText) -> None:
        self.record = record
        self.ifaces = [Interface() for _ in range(record.ifaces)]
        self.sockets: list[Socket] = []
        self.open_sockets: list[list[Socket]] = [[] for _ in self.ifaces]
        self.frames: dict[str, Frame] = {}
        self.steps: list[Step] = []
        #: The frames that were removed from a transmit queue by bus off or by a down, by step.
        self.lost: dict[int, list[Pending]] = {}
        #: For each interface and reply (`no-buffers`, `bus-off` or `interface-down`), the number of the last step
        #: before each refused send.
        self.refused: dict[tuple[int, str], list[int]] = {}
        self.counts: tuple[Counts, ...] = ((0, 0),) * record.ifaces
        self.attempts = self.idle = 0
        # The number of idle attempts since the last step.
        self.idle_since = 0
        self.moment = ""
        #: The effects of the latest step: the number of a socket, an error message frame as a string, and whether the
        #: socket had room. The string is empty if the item is the frame of the step.
        self.items: list[tuple[int, str, bool]] = []
        #: The number of replayed entries, and the effects of each event by the index of its entry.
        self.entries = 0
        self.parts: dict[int, list[str]] = {}
        self.go_on()

    def go_on(self) -> None:
        """Replays the entries that have been added to a record since the last call."""
        calls = {name[3:]: getattr(self, name) for name in dir(self) if name.startswith("on_")}
        for event, reply in self.record.entries(self.entries):
            if self.entries >= self.record.limit:
                raise wrong(self.entries, f"past the limit of {self.record.limit} entries")
            counts, lost = self.counts, [iface.lost for iface in self.ifaces]
            self.items.clear()
            legal: list[str] = calls[event[0]](self.entries, *event[1:])
            if legal != reply:
                raise wrong(self.entries, f"wrong: `{' '.join(reply)}`; legal is `{' '.join(legal)}`")
            if event[0] in ("attempt", "restart", "down"):
                self.parts[self.entries] = self.parts_since(counts, lost)
            self.entries += 1

    def parts_since(self, counts: Sequence[Counts], lost: Sequence[int]) -> list[str]:
        """Returns the effects of an entry. The arguments are the error counters and the numbers of lost frames before that entry."""
        parts = [f"counts {i} {tec} {rec}" for i, (tec, rec) in enumerate(self.counts) if (tec, rec) != counts[i]]
        parts += [f"lost {i} {iface.lost - lost[i]}" for i, iface in enumerate(self.ifaces) if iface.lost != lost[i]]
        queued, dropped = "", collections.Counter[int]()
        # Sorting keeps the items of each socket in their order.
        for socket, error, has_room in sorted(self.items, key=lambda item: item[0]):
            if has_room:
                queued += f" {socket}:{error}" if error else f" {socket}"
            else:
                dropped[socket] += 1
        without_room = "".join(f" {socket}:{count}" for socket, count in dropped.items())
        return parts + [f"{name}{words}" for name, words in (("put", queued), ("dropped", without_room)) if words]

    def lines(self, first: int = 0, rates: Optional[Rates] = None) -> Iterator[str]:
        """Yields the event lines of all entries from `first` onwards. With bit rates, the lines include the times of
        attempts."""
        for entry in range(first, self.entries):
            line = self.record.lines[entry]
            took = wire_part(line, rates) if rates is not None else ""
            yield "; ".join([line, *self.parts.get(entry, ()), *filter(None, [took])])

    def frame(self, text: str) -> Frame:
        """Returns the frame in this notation. Equal strings return the same object."""
        if text not in self.frames:
            self.frames[text] = Frame(text)
        return self.frames[text]

    def open_socket(self, number: str) -> Optional[Socket]:
        """Returns the socket with this number if it is open, otherwise None."""
        place = int(number)
        if place < len(self.sockets):
            socket = self.sockets[place]
            return socket if socket.closed_after is None else None
        return None

    # This and the following methods replay the calls of a socket. Each returns the words of the reply.

    def on_open(self, _entry: int, iface: str, capacity: str) -> list[str]:
        """Opens a socket."""
        if int(iface) >= len(self.ifaces):
            return ["no-interface"]
        if not 1 <= int(capacity) <= 65536:
            return ["bad-capacity"]
        if sum(map(len, self.open_sockets)) == MOST_SOCKETS:
            return ["too-many-sockets"]
        socket = Socket(len(self.sockets), int(iface), int(capacity))
        self.sockets.append(socket)
        self.open_sockets[int(iface)].append(socket)
        return ["socket", str(socket.number)]

    def on_close(self, _entry: int, number: str) -> list[str]:
        """Closes a socket. Items that were not received remain unread."""
        socket = self.open_socket(number)
        if socket is None:
            return ["no-socket"]
        unread = len(socket.queue)
        socket.queue.clear()
        socket.closed_after = len(self.steps) - 1
        self.open_sockets[socket.iface].remove(socket)
        return ["closed", str(unread), str(socket.dropped)]

    def on_filters(self, _entry: int, number: str, _count: str, *words: str) -> list[str]:
        """Changes the filters of a socket."""
        socket = self.open_socket(number)
        if socket is None:
            return ["no-socket"]
        numbers = [int(word, 16) for word in words]
        socket.filters = list(zip(numbers[::2], numbers[1::2]))
        socket.passed.clear()
        return ["ok"]

    def on_option(self, _entry: int, number: str, kind: str, value: str) -> list[str]:
        """Sets an option of a socket."""
        socket = self.open_socket(number)
        if socket is None:
            return ["no-socket"]
        socket.options[kind] = int(value, 16)
        socket.passed.clear()
        return ["ok"]

    def on_send(self, _entry: int, number: str, text: str) -> list[str]:
        """Puts a frame into a transmit queue."""
        socket = self.open_socket(number)
        if socket is None:
            return ["no-socket"]
        frame, iface = self.frame(text), self.ifaces[socket.iface]
        if frame.is_fd and not socket.options["fd"]:
            return ["fd-off"]
        if iface.is_off():
            return self.refuse(socket.iface, "bus-off")
        if iface.is_down:
            return self.refuse(socket.iface, "interface-down")
        if len(iface.waiting) == self.record.tx_capacity:
            iface.refused += 1
            return self.refuse(socket.iface, "no-buffers")
        iface.waiting.append(Pending(iface.sent, frame, socket, socket.options["loopback"]))
        iface.sent += 1
        return ["number", str(iface.sent - 1)]

    def refuse(self, number: int, reply: str) -> list[str]:
        """Records a refused send, and returns the reply."""
        self.refused.setdefault((number, reply), []).append(len(self.steps) - 1)
        return [reply]

    def on_receive(self, _entry: int, number: str) -> list[str]:
        """Delivers the oldest item of a socket."""
        socket = self.open_socket(number)
        if socket is None:
            return ["no-socket"]
        if not socket.queue:
            return ["none"]
        socket.taken += 1
        return socket.queue.popleft()

    def on_restart(self, entry: int, number: str, moment: str) -> list[str]:
        """Restarts an interface on request."""
        if int(number) >= len(self.ifaces):
            return ["no-interface"]
        if not self.ifaces[int(number)].is_silent():
            return ["not-bus-off"]
        self.restart(entry, int(number), moment)
        return ["ok"]

    def on_down(self, entry: int, number: str, moment: str) -> list[str]:
        """Takes an interface down. No socket gets an item about that."""
        if int(number) >= len(self.ifaces):
            return ["no-interface"]
        step = self.begin("down", entry, moment, int(number))
        lost = self.ifaces[int(number)].go_down()
        if lost:
            self.lost[len(self.steps)] = lost
        self.end(step)
        return ["ok"]

    def restart(self, entry: int, number: int, moment: str) -> None:
        """Restarts an interface."""
        step = self.begin("restart", entry, moment, number)
        self.ifaces[number].restart()
        self.count_errors()
        self.post_error(number, 0x100, bytes(8))
        self.end(step)

    # Attempts.

    def on_attempt(self, entry: int, moment: str, verdict: str) -> list[str]:
        """Performs an attempt, and the restarts at its end."""
        due = self.count_attempt()
        reply = self.attempt(entry, moment, verdict)
        for number in due:
            self.restart(entry, number, moment)
        return [*reply, "restarted", spelled_set(due)] if due else reply

    def count_attempt(self) -> list[int]:
        """Counts an attempt for each interface that is bus off, and returns the interfaces that restart after it."""
        due = []
        for number, iface in enumerate(self.ifaces):
            if iface.attempts_off is not None:
                iface.attempts_off += 1
                if iface.attempts_off == self.record.auto_restart:
                    due.append(number)
        return due

    def attempt(self, entry: int, moment: str, verdict: str) -> list[str]:
        """Tries the frame that wins arbitration."""
        contenders = [iface.waiting[0].contender for iface in self.ifaces if iface.waiting and not iface.is_silent()]
        if not contenders:
            self.idle += 1
            self.idle_since += 1
            return ["idle"]
        # min() returns the first of equal frames, so the interface with the lower number wins.
        winner = min(contenders, key=lambda contender: contender[1].bits)[0]
        sent = self.ifaces[winner].waiting[0]
        step = self.begin("", entry, moment, winner)
        step.number, step.text, step.contenders = sent.number, sent.frame.text, contenders
        step.verdict = verdict
        before = self.counts
        receivers = [i for i, iface in enumerate(self.ifaces) if i != winner and not iface.is_silent()]
        self.judge(step, receivers)
        self.leave_queue(step)
        self.post_frame(step, sent)
        if self.count_errors() or self.record.reporting:
            for number in range(len(self.ifaces)):
                self.post_fault(step, number, number in receivers)
                self.post_state(number, before[number])
        self.end(step)
        return [
            "tried",
            str(winner),
            str(step.number),
            step.text,
            step.kind,
            spelled_set(step.accepted),
            spelled_set(step.off),
        ]

    def judge(self, step: Step, receivers: list[int]) -> None:
        """Determines the outcome of an attempt, and updates the error counters."""
        winner, verdict = self.ifaces[step.iface], step.verdict.split(":")
        if len(verdict) > 1:
            named = int(verdict[1], 16)
            step.hit = [i for i in receivers if named >> i & 1]
        unhurt = [i for i in receivers if i not in step.hit]
        wrong_ones: Sequence[int] = step.hit
        good_ones: Sequence[int] = ()
        if verdict[0].startswith("global") or not all(self.ifaces[i].is_passive() for i in step.hit):
            step.kind, wrong_ones = "destroyed", receivers
            winner.tec += 8
        elif not self.record.always and not unhurt:
            step.kind = "noack"
            winner.tec += 0 if winner.is_passive() else 8
        else:
            step.kind = "lastbit" if verdict[0] == "lastbit" else "done"
            step.accepted = good_ones = unhurt
            winner.tec = winner.tec + 8 if step.kind == "lastbit" else max(winner.tec - 1, 0)
        for i in wrong_ones:
            self.ifaces[i].receive_error()
        for i in good_ones:
            self.ifaces[i].good_reception()
        step.off = (step.iface,) if winner.is_off() else ()

    def leave_queue(self, step: Step) -> None:
        """Removes a sent frame from its queue. If the winner goes bus off, it loses all its frames."""
        winner = self.ifaces[step.iface]
        if step.kind == "done":
            winner.waiting.popleft()
            winner.done += 1
        if step.off:
            winner.lost += len(winner.waiting)
            self.lost[len(self.steps)] = list(winner.waiting)
            winner.waiting.clear()
            winner.attempts_off = 0

    def post_frame(self, step: Step, sent: Pending) -> None:
        """Posts the frame to the sockets of the interfaces that accepted it, and by loopback to the sockets of the
        sending interface."""
        looped = [step.iface] if step.kind == "done" and sent.loops_back else []
        reply = ["data", str(step.iface), str(step.number), step.text, step.moment]
        for number in sorted([*step.accepted, *looped]):
            for socket in self.open_sockets[number]:
                if socket.passes(sent.frame) and (socket is not sent.socket or socket.options["recvown"]):
                    self.put(socket, reply)

    def post_fault(self, step: Step, number: int, is_receiver: bool) -> None:
        """Posts an error message frame for the fault that the interface detected in the attempt, if the interface
        reports faults."""
        kind, _, local = step.verdict.partition(":")[0].partition("-")
        place = None
        if not self.record.reporting >> number & 1:
            return
        if number == step.iface:
            if step.kind == "destroyed":
                place = AT_THE_WINNER[f"{kind}-{local}" if kind == "global" else "local"]
            elif step.kind != "done":
                place = (0x80, 0x19) if step.kind == "noack" else (0x82, 0x1A)
        elif number in step.hit:
            place = AT_THE_HIT[local]
        elif step.kind == "destroyed" and is_receiver:
            place = (0x04, 0x00)
        if place:
            nobody = step.kind == "noack" and number == step.iface
            self.post_error(number, 0x0A0 if nobody else 0x088, (0, 0, *place, 0, 0, 0, 0))

    def post_state(self, number: int, before: Counts) -> None:
        """Posts an error message frame if the state of an interface has changed."""
        iface = self.ifaces[number]
        if iface.state() == severity(max(before)):
            return
        if iface.is_off():
            self.post_error(number, 0x040, bytes(8))
            return
        transmit, receive = severity(iface.tec), severity(iface.rec)
        code = (TRANSMIT_CODES[transmit] if transmit >= receive else 0) | (
            RECEIVE_CODES[receive] if receive >= transmit else 0
        )
        self.post_error(number, 0x204, (0, code, 0, 0, 0, 0, iface.tec, iface.rec))

    def post_error(self, number: int, error_class: int, data: Sequence[int]) -> None:
        """Posts an error message frame to the interface's sockets whose error mask has this class."""
        text = f"{0x20000000 | error_class:08X}#{bytes(data).hex().upper()}"
        for socket in self.open_sockets[number]:
            if socket.options["errmask"] & error_class:
                self.put(socket, ["error", str(number), text, self.moment], text)

    def put(self, socket: Socket, reply: list[str], error: str = "") -> None:
        """Posts an item to a socket, which drops the item if its queue is full. `error` is the error message frame, or
        empty for other items."""
        has_room = len(socket.queue) < socket.capacity
        self.items.append((socket.number, error, has_room))
        if has_room:
            socket.queue.append(reply)
            socket.queued += 1
        else:
            socket.dropped += 1

    def begin(self, kind: str, entry: int, moment: str, iface: int) -> Step:
        """Begins a new step."""
        self.moment = moment
        waiting = [len(one.waiting) for one in self.ifaces]
        idle, self.idle_since = self.idle_since, 0
        return Step(kind, entry, moment, iface, self.attempts, idle, waiting)

    def count_errors(self) -> bool:
        """Stores the error counters of the interfaces, and returns whether any of them has changed."""
        counts = tuple((iface.tec, iface.rec) for iface in self.ifaces)
        if counts == self.counts:
            return False
        self.counts = counts
        return True

    def end(self, step: Step) -> None:
        """Adds a step that is now complete."""
        step.counts = self.counts
        self.steps.append(step)
        self.attempts += step.kind not in ("restart", "down")


def wrong(entry: int, message: str) -> BadRecord:
    """Returns the error for the entry with this index, counted from 0."""
    return BadRecord(f"entry {entry}: {message}", f"entry {entry}: wrong")


def spelled_set(numbers: Sequence[int]) -> str:
    """Returns a set of interfaces in the notation used in records."""
    return f"{sum(1 << number for number in numbers):04X}"


def wire_part(line: str, rates: Rates) -> str:
    """Returns the part of an event line that gives the times of its attempt on the wire and the bits of its frame. The
    part is empty if the attempt has no frame."""
    words = line.split(" ")
    if words[0] != "attempt" or words[4] != "tried":
        return ""
    frame = FrameOnWire.read(words[7])
    nominal, fast = bit_counts(frame)
    busy = rates.attempt_nanos(frame, ending_of(words[8], words[2]))
    return f"wire {rates.frame_nanos(frame)} {busy} {nominal} {fast}"


def events_of(data: bytes, cut: bool = False, rates: Optional[Rates] = None) -> str:
    """Returns the events of the record in these bytes. Raises BadRecord if the record is not legal."""
    record = parse_text(data, cut)
    replay = Replay(record)
    last = f"{'cut' if record.is_cut else 'end'} {replay.entries}"
    lines = [FIRST_LINE, data.split(b"\n", 2)[1].decode(), *replay.lines(rates=rates), last]
    return "".join(f"{line}\n" for line in lines)


def audit(data: bytes, cut: bool = False) -> str:
    """Returns the verdict of `canbusd audit` on these bytes, or of `canbusd audit --cut` if `cut` is true."""
    try:
        record = parse_text(data, cut)
        return f"ok {Replay(record).entries} entries{', then cut off' if record.is_cut else ''}"
    except BadRecord as fault:
        return f"canbusd: {fault.verdict}"
