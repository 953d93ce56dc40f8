"""A server for a test. The test starts, uses and ends the server, which writes logs and records.

    with Server("can0,can1", faults=Faults().last_bit(0)) as server:
        with server.bus("can0") as can0, server.bus("can1") as can1:
            ...
    assert len(server.log("can0")) == 2
"""

import functools
import os
import re
import select
import subprocess
import threading
import time
from collections.abc import Mapping, Sequence
from pathlib import Path
from typing import TYPE_CHECKING, Any, NamedTuple, Optional, Union

import canbusd
from canbusd._calls import NamesWhatThereIs, explained
from canbusd._expect.expectations import Expectations
from canbusd._expect.observer import Observer, observed_of
from canbusd import _placement as placement
from canbusd._process import lock_file
from canbusd._process.program import ServerError as ServerError, audited
from canbusd._process.program_run import RUNNING, Ack, HasProgram, Run, option_words, rates_by_bus
from canbusd._process.rates import BitRate, words_of
from canbusd._process.serve_words import Recorded, bus_words, record_options
from canbusd._restbus.node import Node
from canbusd._restbus.nodes import database_of
from canbusd._restbus.simulated_nodes import SimulatesNodes
from canbusd._restbus.sleepers import LiveSleepers
from canbusd._run.live import LiveLog, LiveRecord, left_by
from canbusd._run.log import read_log
from canbusd._session.address import parse_address, reason_of
from canbusd._session.connection import SessionRefused
from canbusd._session.injection import TIMEOUT, RuleSession
from canbusd._session.protocol import Filters
from canbusd._session.raw_session import CURES, RawSession
from canbusd._words import MOST_BUSES, NO_SUCH_INTERFACE, RECORD_FULL
from canbusd.faults import Script, rules_of
from canbusd.programs import Program, RunsPrograms
from canbusd.record import Attempt, Record, read_record
from canbusd.rules import check_rules, parse_rule
from canbusd.signals import Database
from canbusd.virtual import note_rates

if TYPE_CHECKING:
    from can.message import Message

    from canbusd.bus import CanbusdBus
    from canbusd.rest_bus import RestBus

#: Time limits in seconds for the server to start listening, and to exit. Writing long records takes time.
START, END = 10.0, 60.0
ENTRIES = re.compile(r"bus (\S+) entries (\d+)")
# Matches the server's message that the record of a bus is full.
FULL = re.compile(r"bus (\S+): record full")
#: The calls that end the server. `{}` is replaced by the calls that end it only if logs and records are written at the
#: end.
ENDED_BY = "stop(), {}audit(), report() and its with block end it"


def full_record(errors: Path, buses: Mapping[str, Sequence[str]], channel: Optional[str]) -> str:
    """Returns an error message if the record of a bus is full, so that no further frames are sent on that bus;
    otherwise the empty string. `channel` is an interface of the bus; None means any bus."""
    said = errors.read_text(errors="replace") if errors.exists() else ""
    full = [name for name in FULL.findall(said) if channel is None or channel in buses[name][:-1]]
    return f"{full[0]}: {RECORD_FULL}{CURES[RECORD_FULL]}" if full else ""


class Result(NamedTuple):
    """The result of a server that has ended."""

    #: The exit status of the program: 0, or a negative number if it was killed by a signal, for example by
    #: :meth:`Server.kill`.
    status: int
    #: How many entries the record of each bus has. The key is the name of the bus's first interface.
    entries: dict[str, int]


class Server(Expectations, SimulatesNodes, RunsPrograms, HasProgram, Run, NamesWhatThereIs):
    """A running `canbusd serve` with these buses. Each bus is given by the names of its interfaces:
    ``Server("can0,can1", "car0")``.

    The options are those of the program. ``faults`` is a fault script for the only bus (a :class:`canbusd.Faults`
    object, a path or the text of a script), or a dict of scripts by the name of each bus's first interface.

    ``out`` is a folder for logs and records; without it, they are deleted together with the Server object. With
    ``record="live"`` the server writes logs and records while it runs, ``flush`` milliseconds (100) after each call,
    and :meth:`log`, :meth:`record` and :meth:`attempts` return the data so far. With ``record="none"`` it writes only
    logs in this way, and no records, so that a run may continue for weeks. Only with the default, ``record="end"``, a
    ``limit`` may be given (default: 1,000,000 entries).

    With a ``bitrate``, an attempt lasts as long as its bits, and ``pace_ms`` is not used. With a ``data_bitrate``, also
    called ``dbitrate``, FD frames with ``bitrate_switch`` use that rate for their data. Each rate is a number for all
    buses, or a dict of numbers whose keys are the name of one interface of each bus; the key None stands for all other
    buses.

    ``observe`` names the interfaces whose frames :meth:`expect` checks: by default all, or the first of each bus if
    there are more than 8. With ``observe=()``, the observing sessions add no entries to the record. ``database`` is a
    file or the result of load_database, with the names of messages and signals for expectations.

    The server is running when the constructor returns. It is ended by :meth:`stop`, at the end of a ``with`` block, and
    when this process exits, even if it crashes.
    """

    _INSTEAD = {
        **{
            name: f"the fixture `canbusd` hides the module; `from canbusd import {name}`"
            for name in [*canbusd.__all__, *canbusd._MODULES]
        },
        "load": "server.bus('can0').load()",
        "receive": "server.bus('can0').recv(timeout=1), or expect(..)",
        "recv": "server.bus('can0').recv(timeout=1), or expect(..)",
        "sleep": "wait(seconds)",
        "restart": "up('can0'), or server.bus('can0').restart()",
        "send": "server.bus('can0').send(can.Message(..))",
        "stats": "server.bus('can0').stats()",
    }

    @explained()
    def __init__(
        self,
        *buses: str,
        faults: Union[Script, Mapping[str, Script], None] = None,
        ack: Ack = "always",
        report: bool = False,
        auto_restart: int = 0,
        bitrate: Optional[BitRate] = None,
        data_bitrate: Optional[BitRate] = None,
        dbitrate: Optional[BitRate] = None,
        pace_ms: int = 1,
        write_bytes: int = 16_384,
        txqueue: int = 10,
        rxqueue: int = 256,
        limit: Optional[int] = None,
        record: Recorded = "end",
        flush: Optional[int] = None,
        sync: bool = False,
        out: Union[str, "os.PathLike[str]", None] = None,
        listen: str = "127.0.0.1:0",
        observe: Union[str, Sequence[str], None] = None,
        database: Union[Database, str, "os.PathLike[str]", None] = None,
    ) -> None:
        if not 0 < len(buses) <= MOST_BUSES or not all(isinstance(bus, str) for bus in buses):
            known = f"1 to {MOST_BUSES}, each by the names of its interfaces, such as 'can0,can1'"
            raise ValueError(f"buses are {known}, not {buses!r}")
        parse_address(str(listen), "listen", least_port=0)
        options, numbers = record_options(record, limit, flush, sync)
        numbers.update(auto_restart=auto_restart, pace_ms=pace_ms, write_bytes=write_bytes)
        options += option_words(placement.acknowledged_by(ack), report, txqueue=txqueue, rxqueue=rxqueue, **numbers)
        self.database = None if database is None else database_of(database)
        super().__init__(out)
        self._txqueue = txqueue
        self._by_bus = bus_words(buses, faults, self._folder, self._number)
        names = {name: bus[:-1] for name, bus in self._by_bus.items()}
        self._rates_by_bus = rates_by_bus(names, bitrate, data_bitrate, dbitrate)
        options += words_of(self._rates_by_bus)
        note_rates(self._rates_by_bus.values())
        self._prepare(record)
        self._observed = observed_of(observe, self._names(), lambda name: self._first(name, "observe"))
        words = ["--until-eof", "--listen", listen, *options, "--out", str(self._out)]
        self._start(self._folder / "stderr", "serve", *words, "--", *(bus[-1] for bus in self._by_bus.values()))
        RUNNING.add(self)
        #: The address for clients: HOST:PORT, or the path of a Unix socket.
        self.address = self._listening()
        self._sleepers = LiveSleepers(self.address, self._names())
        if self._observed:
            self._observing()
        placement.note_server(self._names(), self._take_down)

    def _take_down(self, names: Sequence[str], moment: float, seconds: float) -> None:
        """Takes interfaces down at the time `moment` for `seconds` seconds, if the server is still running."""
        placement.sleep_until(moment)
        try:
            sessions = [RawSession(self.address, name, ["filter 0"], TIMEOUT) for name in names]
            for session in sessions:
                session.down()
            placement.sleep_until(moment + seconds)
            for session in sessions:
                session.up()
                session.close()
        except Exception as reason:  # noqa: B902  it may have ended
            if self._result is None and self._child.poll() is None:
                placement.note_failure(reason)

    def _prepare(self, record: str) -> None:
        """Initializes the state of the run before the server starts."""
        # When the record is written; and the logs and records that are written while the server runs, by bus.
        self._record_when = record
        self._logs = {name: LiveLog(self._out / f"{name}.log") for name in self._by_bus}
        self._records = {name: LiveRecord(self._out / f"{name}.rec", bus[:-1]) for name, bus in self._by_bus.items()}
        self._programs: list[Program] = []
        self._rest_buses: "list[RestBus]" = []
        self._nodes: dict[str, Node] = {}
        # The first interface of each bus whose rules were ended with `end_rules`.
        self._rules_ended: set[str] = set()
        self._observer: Optional[Observer] = None
        self._ending = threading.Lock()
        self._result: Optional[Result] = None

    @property
    def _ends_too(self) -> str:
        """The calls that end the server only if logs and records are written at the end."""
        return "log(), record(), " if self._record_when == "end" else ""

    @property
    def interfaces(self) -> list[str]:
        """The names of all interfaces, ordered by bus."""
        return [name for bus in self._by_bus.values() for name in bus[:-1]]

    @explained()
    def bus(self, channel: str, can_filters: Optional[Filters] = None, **kwargs: Any) -> "CanbusdBus":
        """Returns a python-can bus on the interface with this name. The arguments are the same as for CanbusdBus."""
        import canbusd._python_can  # noqa: F401  it says what is missing, so it comes first
        from can.exceptions import CanInitializationError

        from canbusd.bus import CanbusdBus

        if channel not in self.interfaces:
            raise CanInitializationError(f"{channel}: {NO_SUCH_INTERFACE}; the server has {', '.join(self.interfaces)}")
        if self._result is not None:
            raise CanInitializationError(f"{channel}: the server has ended; {ENDED_BY.format(self._ends_too)}")
        bus = CanbusdBus(channel, can_filters=can_filters, address=self.address, **kwargs)
        bus.window = self._txqueue
        return bus

    @explained()
    def node(self, name: str, *programs: Program) -> Node:
        """Returns the node of this interface, which can be switched off and on. `programs` are the programs of the
        node, started by :meth:`start`: ``server.node("ecu", server.start("./ecu can0"))``.

        ``node.power_off()`` kills the programs, and ``power_on()`` starts them again. ``sleep()``, ``wake()`` and
        ``with node.unplugged():`` do not stop the programs. Each interface has one node. Later calls return the same
        node, and may add programs to it.
        """
        self._first(str(name))
        node = self._nodes.setdefault(name, Node(self, name))
        node._programs += tuple(one for one in programs if one not in node._programs)
        return node

    @explained()
    def inject(self, faults: Script, interface: Optional[str] = None) -> None:
        """Adds these fault rules to a running bus after its existing rules. They apply from the next attempt.

        `faults` are rules of Faults, such as ``Faults().next(32, sender="ecu").destroyed()``, or the text of such
        rules. `interface` is an interface of the bus, and may be omitted if there is only one bus. A bus has at most 64
        rules. If there are more, the error names the first rule that does not fit; the rules before it have been added.
        """
        rules = rules_of(faults)
        first = self._first(interface, "interface", "inject(faults, {})")
        check_rules(rules, self._by_bus[first][:-1])
        with self._rule_session(first) as session:
            session._give(rules)

    def rules_left(self, interface: Optional[str] = None) -> int:
        """Returns how many fault rules of a bus are not used up. Rules without a limit are included."""
        first = self._first(interface, "interface", "rules_left({})")
        with self._rule_session(first) as session:
            left = session.rules_left()
        return max(0, left - self._planted_left(first)) if left else 0

    def _planted_left(self, first: str) -> int:
        """Returns how many rules that a sweep of kind `busoff` has added still apply. Such a rule applies until its
        sender has lost a frame because of it."""
        planted = [] if first in self._rules_ended else map(parse_rule, placement.rules_of((self._number, first)))
        senders = [rule.senders[0] for rule in planted if rule.senders and rule.identifier is None]
        return sum(not self._observing().session(sender).stats().lost for sender in senders)

    def end_rules(self, interface: Optional[str] = None) -> None:
        """Ends all fault rules of a bus. Script lines for numbered attempts still apply."""
        first = self._first(interface, "interface", "end_rules({})")
        with self._rule_session(first) as session:
            session.end_rules()
        self._rules_ended.add(first)

    def stop(self) -> Result:
        """Ends the programs that were started by :meth:`start`, and then the server, which writes logs and records. A
        second call returns the same result.

        :raises ServerError: if the server ended with an error or was killed by another process, or if a program started
            by :meth:`start` had exited by itself
        """
        self._check_process()
        with self._ending:
            return self._stopped()

    def _stopped(self) -> Result:
        faults = self._end_programs()
        if self._result is None:
            self._end_observer()
            self._close_input()
            status, written = self._ended()
            self._result = Result(status, {name: int(number) for name, number in ENTRIES.findall(written)})
            if status != 0:
                faults.insert(0, self.said or f"the server ended with status {status}")
            if faults:
                raise ServerError("\n".join(faults))
        return self._result

    def kill(self) -> Result:
        """Kills the server, as if it had crashed. Logs and records then contain only the data written before."""
        self._check_process()
        if self._result is None:
            # This signal also kills a server that another thread is stopping.
            self._signal()
        with self._ending:
            if self._result is None:
                self._close_input()
                self._result = Result(self._ended()[0], {})
                self._end_observer()
            return self._result

    def log(self, name: Optional[str] = None) -> list["Message"]:
        """Ends the server, and returns the frames on the bus of this interface, oldest first.

        With ``record="live"`` and ``"none"`` the server continues, and the result contains the frames written so far.
        The channel of each frame is the interface that sent it. A frame that was destroyed or not acknowledged is an
        error message frame. The name may be omitted if there is only one bus.
        """
        first = self._first(name)
        return self._logs[first].messages() if self._record_when != "end" else read_log(self._file(name, "log"))

    def record(self, name: Optional[str] = None) -> Record:
        """Ends the server, and returns the record of the bus of this interface.

        With ``record="live"`` the server continues, and the result is the record so far. Its `is_cut` is true until the
        server has ended.
        """
        first = self._recorded(name)
        if self._record_when == "live":
            return self._records[first].record(self._rates_by_bus[first])
        return read_record(self._file(name, "rec"), self._by_bus[first][:-1], rates=self._rates_by_bus[first])

    def attempts(self, name: Optional[str] = None) -> list[Attempt]:
        """Returns the attempts on the bus of this interface; with ``record="live"``, those that were written so far.

        Each call reads only the new part of the record. Without ``record="live"``, the attempts are only available
        after the server has ended.
        """
        first = self._recorded(name)
        if self._record_when == "live":
            return self._records[first].attempts()
        if self._result is None:
            raise ServerError('attempts are known while the server runs with record="live", else after stop()')
        return self.record(name).attempts

    def audit(self) -> dict[str, str]:
        """Ends the server, and returns the result of `canbusd audit` for the record of each bus: `ok 7 entries` or an
        error.

        If a server with ``record="live"`` was killed, the result is `ok 7 entries, then cut off`.
        """
        return {name: self._audited(self._file(self._recorded(name), "rec")) for name in self._by_bus}

    def _audited(self, path: Path) -> str:
        left = left_by(path, self._record_when)
        return audited(left, cut=left != path)

    def report(self, name: Optional[str] = None) -> Path:
        """Ends the server, and returns the path of an HTML page that shows the run of the bus."""
        page = self._file(self._recorded(name), "html")
        return self._page(self.record(name), page)

    def _page(self, record: Record, path: Path) -> Path:
        """Writes an HTML page about a bus to this path; `record` is the record of the bus."""
        from canbusd._run.fault_rules_of_run import deciders, faults_beside
        from canbusd._run.summary import write_page

        faults = faults_beside(left_by(path.with_suffix(".rec"), self._record_when))
        rules = deciders(record, faults) if faults else []
        return write_page(record, path, rules, self._rates_by_bus[record.names[0]], self.database)

    def _check_runs(self, what: str) -> None:
        """Raises ServerError if the server has ended. `what` is the part of the message that says what is no longer
        possible."""
        if self._result is not None:
            by = "" if self._result.status < 0 else f"; {ENDED_BY.format(self._ends_too)}"
            raise ServerError(f"the server {'has ended' if by else 'was killed'}: {what}{by}")
        status = self._child.poll()
        if status is not None:
            raise ServerError(
                f"the server has crashed, with status {status}: {what}{f'; {self.said}' if self.said else ''}"
            )

    def _rule_session(self, first: str) -> RuleSession:
        """Opens a session that changes the rules of a bus. `first` is the first interface of the bus."""
        self._check_runs("its rules have ended with it")
        try:
            return RuleSession(self.address, first)
        except (OSError, SessionRefused) as fault:
            raise ServerError(f"no session on {first}: {reason_of(fault)}") from None

    def _observing(self) -> Observer:
        """Returns the observer, which uses the server's own sessions. Raises ServerError if the server has ended."""
        self._check_runs("nothing can be expected of it")
        if self._observer is None:
            # The observer must not hold a reference to the server, because the server's files are deleted together with
            # the Server object.
            full = functools.partial(full_record, self._folder / "stderr", self._by_bus)
            self._observer = Observer(self.address, self._names(), self._observed, full)
        return self._observer

    def _names(self) -> list[list[str]]:
        """Returns the names of the interfaces of each bus."""
        return [bus[:-1] for bus in self._by_bus.values()]

    def _shown(self, signals: Sequence[str] = ()) -> str:
        try:
            seen = super()._shown(signals)
        except ServerError as fault:
            seen = f"\n{fault}"
        if self._record_when == "end":
            return seen
        from canbusd._run.summary import end_of_log

        logs = [line for name in self._by_bus for line in end_of_log(self._out / f"{name}.log")]
        return "\n".join([seen, *logs])

    def expect_from_now(self) -> None:
        if self._result is None and self._observer is not None:
            super().expect_from_now()

    def _end_observer(self) -> None:
        self._sleepers.close()
        if self._observer is not None:
            self._observer.close()

    def _first(self, name: Optional[str], what: str = "name", call: str = "{}") -> str:
        """Returns the first interface of the bus that has this interface. The error mentions `what`, the name of the
        argument, and `call`, an example call."""
        found = [first for first, names in self._by_bus.items() if name in names[:-1] or name is None]
        if name is None and len(found) > 1:
            example = call.format(repr(found[-1]))
            raise ValueError(f"the server has {len(found)} buses: name an interface, as {example}")
        if not found:
            known = ", ".join(self.interfaces)
            raise ValueError(f"{what} is an interface of the server, one of {known}, not {name!r}")
        return found[0]

    def _recorded(self, name: Optional[str]) -> str:
        """Returns the first interface of the bus that has this interface. Raises ServerError if there is no record of
        the bus."""
        if self._record_when == "none":
            raise ServerError('there is no record: the server has record="none"')
        return self._first(name)

    def _forget(self) -> None:
        self._close_input()

    def _file(self, name: Optional[str], ending: str) -> Path:
        first = self._first(name)
        self.stop()
        return self._out / f"{first}.{ending}"

    def _listening(self) -> str:
        """Waits until the server is listening, and returns its address."""
        line = self._line(time.monotonic() + START)
        if line.startswith("listening "):
            return line[len("listening ") :].rstrip("\n")
        self._close_input()
        if line:
            self._signal()
        status, _ = self._ended()
        self._result = Result(status, {})
        raise ServerError(self.said or f"the server does not listen: {line!r}, status {status}")

    def _line(self, deadline: float) -> str:
        """Returns the first line of the server's output. The line is incomplete if the server exits or the deadline
        passes before the end of the line."""
        assert self._child.stdout is not None
        output = self._child.stdout.fileno()
        line = b""
        while not line.endswith(b"\n"):
            left = max(0.0, deadline - time.monotonic())
            if not select.select([output], [], [], left)[0]:
                self._signal()
                break
            piece = os.read(output, 1)
            if not piece:
                break
            line += piece
        return line.decode()

    def _ended(self) -> tuple[int, str]:
        """Waits until the server has exited. Returns its exit status and its output."""
        try:
            written, _ = self._child.communicate(timeout=END)
        except subprocess.TimeoutExpired:
            self._signal()
            self._child.communicate()
            self._result = Result(self._child.returncode, {})
            raise ServerError(f"the server did not end within {END:.0f} seconds, and was killed") from None
        finally:
            RUNNING.discard(self)
            if self._child.returncode:
                lock_file.remove_left(self._out)
        for name, bus in self._by_bus.items():
            own = sum(one in self._observed for one in bus[:-1])
            rates = self._rates_by_bus[name]
            placement.keep((self._number, name), bus[:-1], own, self._out / f"{name}.rec", rates)
        return self._child.returncode, written.decode()
