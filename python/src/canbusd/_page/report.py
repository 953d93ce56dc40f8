"""Creates a page that shows a run. The page is one file with its style, its script and the columns of the replay.

If a database file is given (`--dbc`), the header of the data has two more objects. Their keys are indices into `texts`,
like those of `meanings`. `messages` contains the name of the message for each frame that the file describes. `signals`
contains a list of [signal, value, unit] for each of these frames. A value is a number, or a string if the file has
names for numbers. A unit is a string, which may be empty. The list is empty for a frame that is shorter than its
message. Without a file both objects are empty.

If bit rates are given, the header also has an object `wire`, and if the run is compared with another run, an object
`other`. The page then includes a script for each of them.
"""

import base64
import concurrent.futures
import functools
import itertools
import json
import operator
import os
import struct
import sys
import zlib
from array import array
from collections.abc import Iterable, Sequence
from typing import Any, Optional

from canbusd._page.other import other_of
from canbusd._page.wire import wire_of
from canbusd._process.rates import Rates
from canbusd._run.comparison import Comparison
from canbusd._run.run_parts import Socket
from canbusd._run.steps import IDLE, RESTART, Items, Places
from canbusd._run.story import Event, events_of, facts_of, heading_of, verdict_words
from canbusd._session.protocol import STATES
from canbusd.frames import Frame, meaning
from canbusd.replay import UNKNOWN, Replay
from canbusd.signals import Database

# The scripts of a page, in order. The last script, which starts the page, is added later.
SCRIPTS = (
    *("core", "lanes", "moves", "lists", "run", "strips", "signals"),
    *("chosen", "bits", "cursors", "run_signals", "identifiers"),
    *("tables", "address"),
)

Json = dict[str, Any]
Column = list[Any]


class Block:
    """Compresses the data of a page in this order: the columns, the header as JSON, and the size of the header in bytes
    as a little-endian number.

    A column stores the lowest bytes of all its numbers first, then the next bytes, and so on. So similar bytes are next
    to each other, which makes the compressed data small and the compression fast.
    """

    def __init__(self) -> None:
        self._packer = zlib.compressobj(1)
        # zlib releases the interpreter lock, so the next column can be prepared in the meantime.
        self._pool = concurrent.futures.ThreadPoolExecutor(1)
        self._parts: list[concurrent.futures.Future[bytes]] = []
        self._size = 0

    def column(self, code: str, numbers: Iterable[float]) -> Column:
        """Adds a column. Returns its type, its offset and its length."""
        if isinstance(numbers, array) and numbers.typecode == code:
            column: array[Any] = numbers
        else:
            column = array(code, numbers)
        text = column.tobytes()
        firsts = range(column.itemsize) if sys.byteorder == "little" else reversed(range(column.itemsize))
        return [code, self._add(b"".join(text[first :: column.itemsize] for first in firsts)), len(column)]

    def text(self, text: bytes) -> Column:
        """Adds encoded text as a column of bytes."""
        return ["B", self._add(text), len(text)]

    def packed(self, header: Json) -> str:
        """Returns the compressed columns and header, encoded in base64."""
        text = json.dumps(header, separators=(",", ":")).encode()
        self._add(text + struct.pack("<I", len(text)))
        with self._pool:
            parts = [part.result() for part in self._parts]
        return base64.b64encode(b"".join([*parts, self._packer.flush()])).decode()

    def _add(self, text: bytes) -> int:
        """Adds bytes, and returns their offset."""
        # At most two parts wait for compression, because they may be large.
        concurrent.futures.wait(self._parts[-2:-1])
        self._parts.append(self._pool.submit(self._packer.compress, text))
        self._size += len(text)
        return self._size - len(text)


class Timeline:
    """The steps and the idle attempts of a run as rows. Each step has one row, and each sequence of consecutive idle
    attempts has one row."""

    def __init__(self, run: Replay) -> None:
        self.steps, self.ifaces = run.steps, len(run.ifaces)
        #: The row of each step.
        self.places: Sequence[int] = range(len(self.steps))
        #: The rows of idle attempts, each with the number of attempts that it stands for.
        self.idle: list[tuple[int, int]] = []
        # Slices of a column of steps that together yield the column of rows. In each slice but the last, the last
        # number is for the row of idle attempts before that step.
        self._pieces: list[slice] = []
        if run.idle:
            self._place_idle([*self.steps.idle, run.idle_since])

    def _place_idle(self, idle: Sequence[int]) -> None:
        """Adds a row before each step that follows idle attempts. If the run ends with idle attempts, also adds a row
        after the last step."""
        ends = [*itertools.compress(itertools.count(), idle), len(self.steps)]
        firsts = [0, *ends[:-1]]
        self.idle = [(step + before, idle[step]) for before, step in enumerate(firsts[1:])]
        self._pieces = [*map(slice, firsts, [*(end + 1 for end in ends[:-1]), ends[-1]])]
        rows = (range(first + before, end + before) for before, (first, end) in enumerate(zip(firsts, ends)))
        self.places = array("I", itertools.chain.from_iterable(rows))

    def shown(self, column: "array[int]", end: Optional[int] = None) -> "array[int]":
        """Converts a column with a number for each step into a column with a number for each row. A row of idle
        attempts gets the number of the step after it.

        If there is no step after it, the row gets `end`, or the number of the last step if `end` is None.
        """
        if not self.idle:
            return column
        if end is None:
            end = column[-1] if column else 0
        padded = column + array(column.typecode, [end])
        return array(column.typecode, b"".join(map(padded.__getitem__, self._pieces)))

    def rows(self, column: "array[int]", idle: int = 0) -> "array[int]":
        """Converts a column from steps to rows. A row of idle attempts gets the number `idle`."""
        found = self.shown(column)
        for row, _ in self.idle:
            found[row] = idle
        return found

    def numbers(self) -> "array[int]":
        """Returns the number of the frame in each row. For a row of idle attempts, returns how many attempts it stands
        for."""
        found = self.shown(self.steps.numbers)
        for row, many in self.idle:
            found[row] = many
        return found

    def counts(self, place: int) -> "array[int]":
        """Returns a column with an error count after each row."""
        return self.lasting(self.steps.counts[place :: 2 * self.ifaces])

    def lasting(self, column: "array[int]") -> "array[int]":
        """Converts a column from steps to rows. A row of idle attempts repeats the number of the row before it."""
        found = self.shown(column)
        for row, _ in self.idle:
            found[row] = found[row - 1] if row else 0
        return found

    def faults(self, rules: Sequence[str]) -> tuple["array[int]", list[str]]:
        """Returns the verdict of each row as an index, and the list of the different verdicts. If the rule that caused
        a verdict is known, it follows the verdict after a line feed."""
        steps = self.steps
        if not rules:
            return self.rows(steps.verdicts), steps.verdict_texts.all
        texts: Places[str] = Places()
        ruled = array("I")
        for kind, attempt, verdict in zip(steps.kinds, steps.attempts, steps.verdicts):
            rule = rules[attempt] if kind < RESTART and attempt < len(rules) else ""
            text = steps.verdict_texts.all[verdict]
            ruled.append(texts[f"{text}\n{rule}" if rule else text])
        return self.rows(ruled), texts.all

    def columns(self, block: Block, faults: "array[int]") -> Json:
        """Returns the columns of the rows. A row of idle attempts contains only the number of these attempts."""
        steps, moments = self.steps, self.shown(self.steps.moments)
        return {
            "kind": block.column("B", self.rows(steps.kinds, IDLE)),
            "entry": block.column("I", self.shown(steps.entries)),
            "iface": block.column("B", self.rows(steps.ifaces)),
            "number": block.column("I", self.numbers()),
            "frame": block.column("I", self.rows(steps.frames)),
            "verdict": block.column("I", faults),
            "accepted": block.column("H", self.rows(steps.accepted)),
            "hit": block.column("H", self.rows(steps.hit)),
            "off": block.column("H", self.rows(steps.off)),
            "down": block.column("H", self.lasting(self.steps.down)),
            "seconds": block.column("d", map(operator.floordiv, moments, itertools.repeat(1000000))),
            "micros": block.column("I", map(operator.mod, moments, itertools.repeat(1000000))),
        }

    def lines(self, block: Block) -> Json:
        """Returns the error counts and the number of waiting frames of each interface, for each row."""
        waiting, ifaces = self.steps.waiting, range(self.ifaces)
        return {
            "tec": [block.column("H", self.counts(2 * i)) for i in ifaces],
            "rec": [block.column("H", self.counts(2 * i + 1)) for i in ifaces],
            "waiting": [block.column("H", self.rows(waiting[i :: self.ifaces])) for i in ifaces],
        }


def items_of(items: Items, most: int, timeline: Timeline, block: Block) -> Json:
    """Returns the columns of the first items. An item that is not an error message frame has the sender and the frame
    number of its step."""
    steps, ends = items.steps[:most], items.ends(most)
    if timeline.idle:
        steps = array("I", map(timeline.places.__getitem__, steps))
        ends = array("I", map([0, *map((1).__add__, timeline.places)].__getitem__, ends))
    return {
        "socket": block.column("I", items.sockets[:most]),
        "step": block.column("I", steps),
        # 0 if the item is the frame of the step, otherwise the index of an error message frame in `texts`.
        "error": block.column("I", items.errors[:most]),
        "fate": block.column("B", items.fates()[:most]),
        # The first row in which the item is no longer in its queue, or 0 if the item stays in the queue or never
        # entered it.
        "end": block.column("I", ends),
    }


def ifaces_of(run: Replay) -> list[Json]:
    """Returns the interfaces at the end of the run. This includes how many sends were refused because the queue was
    full, or because the interface was bus off or down."""
    return [
        {
            "sent": one.sent,
            "done": one.done,
            "waiting": len(one.waiting),
            "lost": one.lost,
            "full": one.refused,
            "off": len(run.refused.get((number, "bus-off"), [])),
            "down": len(run.refused.get((number, "interface-down"), [])),
            "tec": one.tec,
            "rec": one.rec,
            "state": STATES[one.state()],
        }
        for number, one in enumerate(run.ifaces)
    ]


def socket_of(socket: Socket) -> Json:
    """Returns the properties and counts of a socket at the end of the run."""
    return {
        "number": socket.number,
        "iface": socket.iface,
        "capacity": socket.capacity,
        "queued": socket.queued,
        "taken": socket.taken,
        "waiting": socket.waiting,
        "unread": socket.queued - socket.taken - socket.waiting,
        "dropped": socket.dropped,
        "open": "to the end" if socket.closed_after is None else "closed",
    }


def decoded_of(texts: Iterable[str], database: Optional[Database]) -> Json:
    """Returns the messages and signals of the frames that the database describes, by the indices of the frames."""
    messages: Json = {}
    signals: Json = {}
    # Without a database the frames are skipped, because there may be a million of them.
    for place, text in enumerate(texts) if database is not None else ():
        is_frame = text not in ("", UNKNOWN)
        decoded = database.decode(Frame.parse(text)) if database is not None and is_frame else None
        if decoded is not None:
            messages[str(place)], signals[str(place)] = decoded.message, decoded.signals
    return {"messages": messages, "signals": signals}


def meanings_of(run: Replay) -> dict[int, str]:
    """Maps the index of a frame in `texts` to its meaning, for error message frames and for items whose frame is
    unknown."""
    unknown, texts = {UNKNOWN: "a frame or an error message frame"}, run.texts.all
    return {place: unknown.get(texts[place]) or meaning(texts[place]) for place in sorted({0, *run.items.errors})[1:]}


def event_of(event: Event, places: Sequence[int]) -> Column:
    """Returns an event as a list: its row, its kind, its interface and its description."""
    return [places[event.step] if event.step >= 0 and places else 0, event.kind, event.iface, event.words]


def lost_frames(run: Replay, places: Sequence[int]) -> Json:
    """Maps the row of a step to the frames that were removed from a transmit queue because its interface went bus off
    or down. Each frame is given by its number and its content."""
    return {str(places[step]): [[number, run.texts[text]] for number, text in lost] for step, lost in run.lost.items()}


def fault_of(fault: str, names: Sequence[str]) -> str:
    """Describes a verdict in words, with the rule that caused it: ``global bit, by `next 32 from ecu global bit` ``."""
    verdict, _, rule = fault.partition("\n")
    return verdict_words(verdict, names) + (f", by `{rule}`" if rule else "")


def fullest_socket(run: Replay) -> int:
    """Returns the number of the socket that dropped the most items. If no socket dropped any, returns the socket that
    received the most items."""
    worst = max(run.sockets, key=lambda socket: (socket.dropped, socket.queued), default=None)
    return worst.number if worst else 0


def data_of(
    run: Replay,
    names: Sequence[str],
    title: str,
    most_items: int,
    database: Optional[Database] = None,
    rules: Sequence[str] = (),
    rates: Optional[Rates] = None,
    comparison: Optional[Comparison] = None,
) -> str:
    """Returns the data of a page in the form that the page's script reads."""
    block, timeline, events = Block(), Timeline(run), events_of(run, names)
    places, texts = timeline.places, run.texts
    heading, first = heading_of(run, names, events)
    faults, verdicts = timeline.faults(rules)
    # This has to be done before `texts` is used, because it adds frames that were never tried.
    lost = lost_frames(run, places)
    header = {
        "title": title,
        "heading": heading,
        "first": places[first] if places else 0,
        "facts": facts_of(run),
        "names": list(names),
        # There is one frame per line, and there may be a million lines. zlib compresses them while the outcomes of the
        # items are computed.
        "texts": block.text("\n".join(texts).encode()),
        "items": items_of(run.items, most_items, timeline, block),
        "steps": timeline.columns(block, faults),
        **timeline.lines(block),
        "itemsInAll": len(run.items),
        "events": [event_of(event, places) for event in events],
        "lost": lost,
        **ends_of(run),
        "meanings": meanings_of(run),
        **decoded_of(texts, database),
        "verdicts": [fault_of(fault, names) for fault in verdicts],
    }
    if rates is not None:
        header["wire"] = wire_of(run, timeline, rates, block.column)
    if comparison is not None:
        header["heading"] = comparison.heading()
        header["other"] = other_of(comparison, rates, block.column)
        if places and comparison.differences:
            attempt = min(comparison.differences[0].attempt, run.steps.tried - 1)
            header["first"] = places[run.steps.place_of(attempt) or 0]
    return block.packed(header)


def ends_of(run: Replay) -> Json:
    """Returns the part of the header that describes the interfaces and sockets at the end of the run."""
    return {
        "ifaces": ifaces_of(run),
        "sockets": [socket_of(socket) for socket in run.sockets],
        "socket": fullest_socket(run),
        # The first frame in each queue. If an interface takes part in arbitration with a frame that it never tries
        # later, it is this frame.
        "heads": ["".join(one.waiting[:1]) for one in run.ifaces],
    }


def page(
    run: Replay,
    names: Sequence[str],
    title: str,
    most_items: int = 1000000,
    database: Optional[Database] = None,
    rules: Sequence[str] = (),
    rates: Optional[Rates] = None,
    comparison: Optional[Comparison] = None,
) -> str:
    """Returns the page of a run with at most `most_items` items, and with the rule of each attempt if `rules` is given.

    If the bit rates of the bus are given, the page shows the bus load. If a comparison is given, it also shows the
    other run and the differences.
    """
    data = data_of(run, names, title, most_items, database, rules, rates, comparison)
    second = ""
    if comparison is not None:
        record, reversed_one = comparison.records[1], comparison.reversed(title)
        second = data_of(
            record.replay, reversed_one.names[0], comparison.title, most_items, database, (), rates, reversed_one
        )
    more = [*(["wire"] if rates is not None else []), *(["other"] if comparison is not None else [])]
    scripts = [f"{name}.js" for name in (*SCRIPTS, *more, "page")]
    return filled("page.html", scripts).replace("/*RUN*/", data).replace("/*SECOND*/", second)


def filled(name: str, scripts: Sequence[str], styles: Sequence[str] = ("page.css",)) -> str:
    """Returns a page without the data of a run."""
    parts = {"BODY": part(name), "STYLE": "".join(map(part, styles)), "SCRIPT": "".join(map(part, scripts))}
    text = part("shell.html")
    for place, content in parts.items():
        text = text.replace(f"/*{place}*/", content.rstrip("\n"))
    return text


@functools.lru_cache(maxsize=None)
def part(name: str) -> str:
    """Returns the content of a file that is part of a page."""
    with open(os.path.join(os.path.dirname(os.path.abspath(__file__)), name), encoding="utf-8") as file:
        return file.read()
