"""A bench: a bus without sockets, threads or clocks, so that every run has the same result.

    with Bench("can0,can1", faults=Faults().last_bit(0)) as bench:
        sender, receiver = bench.open("can0"), bench.open("can1")
        sender.send(0x123, b"\\x11\\x22")
        while bench.attempt():
            pass
        assert len(receiver.receive()) == 2

Frames are sent only while `attempt` or `run` is called. python-can is not needed. Several threads may use one bench:
each call is completed before the next call begins.
"""

import errno
import os
import re
import weakref
from collections.abc import Callable, Mapping, Sequence
from pathlib import Path
from typing import TYPE_CHECKING, Any, Optional, Union, cast

from canbusd._calls import NamesWhatThereIs, explained
from canbusd import _placement as placement
from canbusd._expect.bench_time import SOON, PassesTime
from canbusd._library.bench_inside import BenchInside, BenchRefused, is_used
from canbusd._library.library import config_of
from canbusd._process.bench_process import BenchProcess, fault_of
from canbusd._process.dialogue import Dialogue, Lines, moment_text
from canbusd._process.program import BenchError as BenchError, audited
from canbusd._process.program_run import Ack, bus_of, option_words, rates_by_bus
from canbusd._process.rates import BitRate, words_of
from canbusd._restbus.node import Node
from canbusd._restbus.nodes import database_of
from canbusd._restbus.simulated_nodes import HasRestBus
from canbusd._restbus.sleepers import Sleepers
from canbusd._run.log import read_log
from canbusd._run.summary import write_page
from canbusd._session.bench_session import Session as Session
from canbusd._session.injection import Refused as Refused
from canbusd._session.protocol import Filters, options
from canbusd._whole_file import replaced
from canbusd._words import MOST_RULES, MOST_SESSIONS, NO_SUCH_INTERFACE, TOO_MANY_RULES, TOO_MANY_SESSIONS
from canbusd.faults import Script, rules_in, rules_of, script_bytes
from canbusd.frames import Frame
from canbusd.record import Attempt, Outcome, Record, read_record
from canbusd.rules import GivenRules, check_rules, parse_rule
from canbusd.signals import Database

if TYPE_CHECKING:
    from can.message import Message

    from canbusd._restbus.bench_rest_bus import BenchRestBus

#: The errors that can occur when writing to an open file.
OF_WRITING = (errno.EFBIG, errno.ENOSPC, errno.EDQUOT, errno.EIO)
TRIED = re.compile(
    r"(?:idle|tried (?P<winner>\S+) (?P<number>\d+) (?P<outcome>\w+) (?P<accepted>\S+) (?P<off>\S+))"
    r"(?: restarted (?P<restarted>\S+))?(?: at (?P<at>[0-9.]+))?"
    r"(?:; fault (?P<fault>[^;]+))?(?:; rule (?P<rule>\d+))?"
)


def set_of(names: Optional[str]) -> tuple[str, ...]:
    """Returns the interfaces in a list that the bench has printed; `-` is the empty list."""
    return tuple(names.split(",")) if names and names != "-" else ()


def write_files(texts: Mapping[Path, Optional[bytes]]) -> None:
    """Writes each file completely or not at all, and continues after an error. At the end, raises BenchError with the
    first error."""
    faults: list[str] = []
    for path, text in texts.items():
        try:
            if text is not None:
                # The program also follows symbolic links.
                with replaced(os.path.realpath(path), is_synced=False) as file:
                    file.write(text)
        except OSError as fault:
            what = "write fault" if fault.errno in OF_WRITING else f"cannot open {path}"
            faults.append(f"canbusd: {what}\n  {path}: {fault.strerror} (os error {fault.errno})")
    if faults:
        raise BenchError(faults[0])


class Bench(PassesTime, Dialogue, HasRestBus["BenchRestBus"], NamesWhatThereIs):
    """A bus with these interfaces, given as `"can0,can1"` or a list, and with the options of `canbusd bench`.

    With a `bitrate`, an attempt lasts as long as its bits, and its timestamp is the time at which its frame ends. With
    a `data_bitrate`, also called `dbitrate`, FD frames with `bitrate_switch` use that rate for their data. `faults` is
    a fault script: a Faults object, a path, or the text of a script. `out` is a folder for the log and the record. They
    are written when the run ends, and are named after the first interface. Without `out`, they are deleted together
    with the Bench object.
    """

    _INSTEAD = {
        "session": "bus('can0') returns a session",
        **dict.fromkeys(("status", "stats", "load"), "a session has it: bus('can0')"),
        "restart": "up('can0'), or bus('can0').restart()",
        **dict.fromkeys(("send", "receive", "recv"), "a session sends and receives: bus('can0').send(0x123)"),
        "tick": "attempt() makes one, run() all",
        **dict.fromkeys(("isotp", "start", "environment"), "ISO-TP, UDS and programs need a Server"),
        **dict.fromkeys(("sleep", "advance"), "wait(seconds)"),
        "attempts": "record().attempts",
    }

    # Whether the record and the log were written to files.
    _has_files = False

    @explained()
    def __init__(
        self,
        names: Union[str, Sequence[str]],
        *,
        faults: Optional[Script] = None,
        ack: Ack = "always",
        report: bool = False,
        auto_restart: int = 0,
        txqueue: int = 10,
        rxqueue: int = 256,
        limit: int = 1_000_000,
        bitrate: Optional[BitRate] = None,
        data_bitrate: Optional[BitRate] = None,
        dbitrate: Optional[BitRate] = None,
        out: Union[str, "os.PathLike[str]", None] = None,
        observe: Union[str, Sequence[str], None] = None,
        database: Union[Database, str, "os.PathLike[str]", None] = None,
    ) -> None:
        words = option_words(ack, report, auto_restart=auto_restart, txqueue=txqueue, rxqueue=rxqueue, limit=limit)
        self.names, faults = bus_of(names, faults)
        self._rates_by_bus = rates_by_bus({self.names[0]: self.names}, bitrate, data_bitrate, dbitrate)
        self._rates = self._rates_by_bus[self.names[0]]
        words += words_of(self._rates_by_bus)
        self.database = None if database is None else database_of(database)
        PassesTime.__init__(self, observe)
        Dialogue.__init__(self, out)
        script = script_bytes(placement.script_of((self._number, self.names[0]), faults))
        self._sessions = 0
        self._rest_buses: "list[BenchRestBus]" = []
        self._nodes: dict[str, Node] = {}
        this: Bench = weakref.proxy(self)
        self._sleepers = Sleepers(self._turn, lambda name: this.up(name))
        self._sent: dict[str, list[Frame]] = {name: [] for name in self.names}
        self._words, self._script = words, script
        config = config_of(len(self.names), ack, report, auto_restart, txqueue, limit, self._rates)
        inside = self._inside(config, rxqueue, lambda given: this._why(given)) if is_used() else None
        self._begin(inside or self._as_process())
        # The program reports errors in the arguments here, before a session is used.
        self._greet()
        self._given = GivenRules(rules_in(script.decode()))
        # For each attempt, the rule that caused its fault, or the empty string if there is none.
        self._rules: list[str] = []
        # The time at which the last attempt ended.
        self._busy_until = 0.0

    def _inside(self, config: bytes, capacity: int, why: Callable[[bytes], str]) -> Optional[Lines]:
        """Returns a bench inside this process; None if the library refuses the arguments. In that case the program
        starts, and reports the reason."""
        try:
            return BenchInside(self.names, config, capacity, self._script, why)
        except BenchRefused:
            return None

    def _why(self, given: bytes) -> str:
        """Returns the error message that the program prints for this input."""
        return fault_of(self._words_of_run(), given)

    def _as_process(self) -> Lines:
        """Returns a bench that runs in a separate process."""
        return BenchProcess(self._words_of_run(), self._folder / "stderr")

    def _words_of_run(self) -> list[str]:
        """Returns the command line of the program. The fault script is written to a file first."""
        bus = ",".join(self.names)
        if self._script:
            path = self._folder / "faults"
            path.write_bytes(self._script)
            bus += f"@{path}"
        files = ["--record", str(self._path("rec")), "--log", str(self._path("log"))]
        return ["--show-faults", *self._words, *files, "--", bus]

    @explained()
    def open(
        self,
        channel: str,
        can_filters: Optional[Filters] = None,
        *,
        fd: bool = False,
        receive_own_messages: bool = False,
        local_loopback: bool = True,
        error_frames: Union[bool, int] = True,
        join_filters: bool = False,
    ) -> Session:
        """Opens a session with a raw socket on this interface. The options are the same as for CanbusdBus."""
        messages = options(
            fd=fd,
            receive_own_messages=receive_own_messages,
            local_loopback=local_loopback,
            error_frames=error_frames,
            join_filters=join_filters,
        )
        messages += ["origin 1"] if receive_own_messages else []
        if channel not in self.names:
            raise Refused(f"{NO_SUCH_INTERFACE} {channel!r}; the bench has {', '.join(self.names)}")
        with self._turn:
            if self._sessions > MOST_SESSIONS:
                raise Refused(TOO_MANY_SESSIONS)
            session = Session(self, self._sessions, channel)
            try:
                # If one of these messages is refused, the messages after it are refused too, or have no effect.
                words = " >< ".join([f"open {channel}", "rawmode", *messages, "echo"])
                self._ask(f"feed {self._sessions} < {words} >")
                if can_filters is not None:
                    session.set_filters(can_filters)
            except (Refused, ValueError):
                self._write(f"end {self._sessions}")
                self._in_step = True
                self._greet()
                raise
            self._greet()
            return session

    @explained()
    def bus(self, channel: str, can_filters: Optional[Filters] = None, **options: Any) -> Session:
        """Opens a session on this interface like `open`. From now on, the bench's expectations can check its frames.

        A test that uses this method, `send` and `recv` of the session, and the expectations of the bench runs unchanged
        on a server. While it waits, only the simulated time of the bus passes.
        """
        self._observing()
        return self.open(channel, can_filters, **options)

    @property
    def said(self) -> str:
        """The error that ended the bench; the empty string if there was none."""
        return self._lines.said

    @property
    def interfaces(self) -> list[str]:
        """The names of all interfaces."""
        return list(self.names)

    def _make_rest_bus(self, database: Database, interfaces: Mapping[str, str]) -> "BenchRestBus":
        from canbusd._restbus.bench_rest_bus import BenchRestBus

        rest = BenchRestBus(database, interfaces, self)
        self._due.append(rest)
        return rest

    @explained()
    def node(self, name: str) -> Node:
        """Returns the node of this interface, which can be switched off and on: ``bench.node("ecu").power_off()``."""
        return self._nodes.setdefault(self._named(str(name), "name"), Node(self, str(name)))

    def _attempt_now(self) -> Optional[Attempt]:
        return self.attempt(at=self.now)

    @explained()
    def inject(self, faults: Script, interface: Optional[str] = None) -> None:
        """Adds these fault rules after the existing rules of the bus. They apply from the next attempt.

        `interface` is an interface of the bus, as for a server that has several buses.

        Either all rules are added or none. Raises Refused if the bus would have more than 64 unused rules, and
        ValueError if a rule is wrong.
        """
        rules = rules_of(faults)
        self._named(interface)
        check_rules(rules, self.names)
        with self._turn:
            if len(self._given) + len(rules) > MOST_RULES:
                raise Refused(TOO_MANY_RULES)
            for rule in rules:
                # The bench sends no reply to a `fault` line.
                self._write(f"fault {rule}")
                self._in_step = True
                self._given.add(rule)

    def rules_left(self, interface: Optional[str] = None) -> int:
        # The rules that a sweep added are not counted.
        planted = self._given.among(len(placement.rules_of((self._number, self.names[0]))))
        return super().rules_left(interface) - planted

    def attempt(self, at: Union[str, float, None] = None) -> Optional[Attempt]:
        """Puts the frame that wins arbitration on the bus, and returns the attempt. Returns None if no frame is queued.

        `at` is the time of the attempt in seconds. Without `at`, the time of the last call is used again, or 0 if this
        is the first call. An attempt that only restarts an interface, without a frame, is returned with the outcome
        `idle`.
        """
        with self._turn:
            self._write("attempt", at)
            line = self._line()
            words = TRIED.fullmatch(line)
            attempt = self._attempt_of(words) if words else None
            self._in_step = True
            if attempt is not None and len(self._sleepers):
                self._sleepers.note(attempt)
        if not words:
            raise Refused(line)
        return attempt

    def run(self, most: int = 100_000, *, until: Union[str, float, None] = None) -> list[Attempt]:
        """Makes attempts until no frame is queued, and returns them. Raises RuntimeError if frames are still queued
        after `most` attempts.

        On a bus with a `bitrate`, `until` may be given instead. Then all attempts that begin before that time are made,
        however many there are, and the time of the bench is `until` afterwards.
        """
        if until is not None:
            return self._run_until(moment_text(until, "until"))
        if isinstance(most, bool) or not isinstance(most, int):
            raise ValueError(f"most is a number of attempts, not {most!r}; a moment is until={most!r}")
        attempts: list[Attempt] = []
        for _ in range(most):
            attempt = self.attempt()
            if attempt is None:
                return attempts
            attempts.append(attempt)
        raise RuntimeError(f"frames still wait after {most} attempts")

    def _run_until(self, moment: str, until_woken: bool = False) -> list[Attempt]:
        """Makes the attempts that begin before this time. If `until_woken` is true, stops after an attempt that wakes a
        node."""
        if self._rates is None:
            raise ValueError("until needs a bench with a bit rate, such as Bench(.., bitrate=500000)")
        attempts: list[Attempt] = []
        with self._turn:
            # The frame that wakes a node may end after `moment`.
            while not attempts or float(self._moment) < float(moment):
                asleep = len(self._sleepers)
                found = self._run_to_next(moment, self._rates.bitrate) if asleep else []
                if not found:
                    return attempts + self._begin_before(moment)
                attempts += found
                if until_woken and len(self._sleepers) < asleep:
                    break
        return attempts

    def _run_to_next(self, moment: str, bitrate: int) -> list[Attempt]:
        """Makes the next attempt if it begins before this time. When its frame ends, wakes the nodes that react to the
        frame."""
        soon = max(float(self._moment), self._busy_until) + SOON / bitrate
        attempts = self._begin_before(moment_text(soon) if soon < float(moment) else moment)
        for attempt in attempts:
            if self._sleepers.are_woken_by(attempt):
                self._begin_before(moment_text(attempt.timestamp))
                self._sleepers.note(attempt)
        return attempts

    def _begin_before(self, moment: str) -> list[Attempt]:
        """Makes all attempts that begin before this time, and sets the time of the bench to it. The `echo` reply marks
        the end of the output."""
        lines: list[str] = []
        with self._turn:
            last = min(self._sessions, MOST_SESSIONS)
            self._write(f"run {moment}\nfeed {last} < echo >")
            while (line := self._line()) != f"{last} < echo >":
                lines.append(line)
            words = [TRIED.fullmatch(line) for line in lines]
            attempts = [self._attempt_of(word) for word in words if word]
            self._moment = moment
            self._in_step = True
        if None in words:
            raise Refused(lines[-1])
        return [attempt for attempt in attempts if attempt is not None]

    def record(self) -> Record:
        """Ends the run, and returns its record."""
        return read_record(self._left("rec"), self.names, rates=self._rates)

    def log(self) -> "list[Message]":
        """Ends the run, and returns the log of the bus as python-can messages. A failed attempt is logged as an error
        message frame."""
        return read_log(self._left("log"))

    def report(self) -> Path:
        """Ends the run, writes an HTML page that shows the run, and returns the path of the page."""
        return self._page(self.record(), self._path("html"))

    def audit(self) -> str:
        """Ends the run, and audits its record with the program. Returns the program's result, such as `ok 7 entries`."""
        return audited(self._left("rec"))

    def _page(self, record: Record, path: Path) -> Path:
        """Writes the HTML page of the run to this path, and returns the path."""
        return write_page(record, path, self._rules, self._rates, self.database)

    def _ended(self) -> None:
        if self._given_out is not None:
            self._write_files()
        if placement.is_there():
            bus, record = (self._number, self.names[0]), self._lines.left("rec") or self._path("rec")
            placement.keep(bus, self.names, self._own_sessions, record, self._rates)

    def _left(self, ending: str) -> Path:
        """Ends the run, and returns the path of its record or log."""
        self.stop()
        with self._turn:
            self._write_files()
        return self._path(ending)

    def _write_files(self) -> None:
        """Writes the record and the log to files, unless this was done before. With an `out` folder, they are written
        when the run ends; otherwise when a file is first requested."""
        if not self._has_files:
            self._has_files = True
            write_files({self._path(ending): self._lines.left(ending) for ending in ("rec", "log")})

    def _path(self, ending: str) -> Path:
        return self._out / f"{self.names[0]}.{ending}"

    def _attempt_of(self, words: "re.Match[str]") -> Optional[Attempt]:
        """Returns the attempt that a matched line describes; None if the line is `idle` and no interface was restarted."""
        winner, digits, outcome, accepted, off, again, at, fault, rule = words.groups()
        moment, restarted = float(at or self._moment), set_of(again)
        self._busy_until = moment
        if winner is None:
            return Attempt(moment, "", 0, "", "idle", "good", (), (), restarted) if restarted else None
        number = int(digits)
        self._rules.append(str(self._given.gave(int(rule))) if rule else "")
        return Attempt(
            moment,
            winner,
            number,
            str(self._sent[winner][number]),
            cast(Outcome, outcome),
            fault or "good",
            set_of(accepted),
            set_of(off),
            restarted,
        )

    def _follow(self, message: str) -> None:
        """Updates the list of rules after the program has accepted a message that adds or ends rules."""
        command, _, rule = " ".join(message.split()).partition(" ")
        if command == "fault":
            self._given.add(parse_rule(rule))
        elif command == "nofaults":
            self._given.end()

    def _greet(self) -> None:
        """Starts the session that the next `open` will use, unless the bench already has the maximum number of
        sessions."""
        self._sessions += 1
        if self._sessions <= MOST_SESSIONS:
            self._line_after(f"session {self._sessions}")
