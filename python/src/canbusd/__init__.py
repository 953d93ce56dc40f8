"""Simulated CAN buses with faults, error frames and bus off, for python-can and pytest.

    with canbusd.Server("can0,can1", faults=canbusd.Faults().last_bit(0)) as server:
        with server.bus("can0") as can0, server.bus("can1") as can1:
            can0.send(can.Message(arbitration_id=0x123, data=[1, 2], is_extended_id=False))
            first, again = can1.recv(5), can1.recv(5)

Server         a server with one or more buses: opens buses, runs programs, checks frames and states
Bench          one bus, step by step: time advances with each attempt, and every run has the same result
Faults         rules that disturb frames, for a server, a bench or one test
CanbusdBus     the bus that `can.Bus(interface="canbusd", channel="can0")` opens
Frame          a frame of a bench or a record; `str()` returns candump's spelling
IsoTp          one end of an ISO-TP connection, which `Server.isotp` opens
RestBus        sends the messages of a database at their cycle times: `Server.rest_bus`, `Bench.rest_bus`
Program        a program that `Server.start` has started
load_database  loads messages and signals from a DBC, KCD, ARXML or SYM file, and returns a Database
read_record    reads the record of a bus, and returns a Record with its Attempts
step           marks a step of a test in the test's report
is_virtual     whether this process runs in virtual time

Other modules: canbusd.uds contains a simulated ECU and a UDS client, canbusd.e2e counters and checksums of messages,
canbusd.shapes signal values over time, canbusd.pytest_plugin the fixture `canbusd`, and canbusd.strategies frames and
faults for Hypothesis. A name is imported when it is first used: only CanbusdBus and logs require python-can, and only
the plugin requires pytest.
"""

import importlib
import sys
from typing import TYPE_CHECKING, Any

if sys.version_info < (3, 9):
    # Without this check, Python 3.8 or earlier would only report that a type is not subscriptable.
    raise ImportError("canbusd needs Python 3.9 or later, and this is %d.%d" % sys.version_info[:2])

if TYPE_CHECKING:
    from canbusd._process.program import ProgramNotFound
    from canbusd._session.protocol import ErrorCounters, Load, Stats
    from canbusd.bench import Bench, BenchError, Refused, Session
    from canbusd.bus import CanbusdBus
    from canbusd.faults import Faults
    from canbusd.frames import BadFrame, Frame
    from canbusd.isotp import IsoTp, IsoTpError
    from canbusd.local import LocalBus
    from canbusd.programs import Program
    from canbusd.record import Attempt, BadRecord, Item, Record, read_record
    from canbusd.rest_bus import RestBus
    from canbusd.server import Result, Server, ServerError
    from canbusd.signals import Database, DatabaseError, load_database
    from canbusd.steps import step
    from canbusd.virtual import is_virtual

#: The version of the program and of the wheel. The folder canbusd-*.dist-info next to this package has the same
#: version.
__version__ = "0.3.0"

__all__ = [
    "Attempt",
    "BadFrame",
    "BadRecord",
    "Bench",
    "BenchError",
    "CanbusdBus",
    "Database",
    "DatabaseError",
    "ErrorCounters",
    "Faults",
    "Frame",
    "IsoTp",
    "IsoTpError",
    "Item",
    "Load",
    "LocalBus",
    "Program",
    "ProgramNotFound",
    "Record",
    "Refused",
    "RestBus",
    "Result",
    "Server",
    "ServerError",
    "Session",
    "Stats",
    "is_virtual",
    "load_database",
    "read_record",
    "step",
]

_HOMES = {
    "_process.program": ["ProgramNotFound"],
    "_session.protocol": ["ErrorCounters", "Load", "Stats"],
    "bench": ["Bench", "BenchError", "Refused", "Session"],
    "bus": ["CanbusdBus"],
    "faults": ["Faults"],
    "frames": ["BadFrame", "Frame"],
    "isotp": ["IsoTp", "IsoTpError"],
    "local": ["LocalBus"],
    "programs": ["Program"],
    "record": ["Attempt", "BadRecord", "Item", "Record", "read_record"],
    "rest_bus": ["RestBus"],
    "server": ["Result", "Server", "ServerError"],
    "signals": ["Database", "DatabaseError", "load_database"],
    "steps": ["step"],
    "virtual": ["is_virtual"],
}

#: The modules of this package that a test can import, as in `from canbusd import uds`.
_MODULES = ["e2e", "shapes", "uds"]


def __getattr__(name: str) -> Any:
    if name in _MODULES:
        return importlib.import_module(f"canbusd.{name}")
    for module, names in _HOMES.items():
        if name in names:
            globals()[name] = found = getattr(importlib.import_module(f"canbusd.{module}"), name)
            return found
    from canbusd._calls import meant

    raise AttributeError(f"module {__name__!r} has no attribute {name!r}{meant(name, [*__all__, *_MODULES])}")


def __dir__() -> list[str]:
    return sorted([*globals(), *__all__, *_MODULES])
