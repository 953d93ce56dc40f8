"""Performs one run of a sweep in a forked child. The parent has already imported and collected everything that a run
needs.

A test with a server runs in its own virtual time. The child forks the process that performs the test, and then becomes
`canbusd-run --virtual`, which coordinates the run. A test that uses only benches needs neither a clock nor a
coordinator.
"""

import ctypes
import gc
import hashlib
import importlib
import json
import os
import signal
import sys
import traceback
import warnings
from collections.abc import Iterable, Sequence
from dataclasses import asdict, dataclass
from pathlib import Path
from typing import NoReturn, Optional, Protocol

from canbusd import _placement as placement
from canbusd._process.program import find_program
from canbusd._sweep.faults_given import Fault, lines_by_bus
from canbusd._sweep.places import Place, Result
from canbusd.virtual import OPTIONS, SETTING, python_words

#: The files of a run: one for its result, and one for the standard output and standard error of its processes.
RESULT, SAID = "result.json", "said"
#: The environment variable that loads a library when pytest is restarted, and the name of that library.
PRELOAD, LIBRARY = "LD_PRELOAD", "libcanbusd-virtual.so"
#: A run is aborted if a thread uses this many seconds of processor time without waiting, or if nothing happens for this
#: many seconds.
STALL = 5
# Of prctl(2).
PR_SET_PDEATHSIG, PR_SET_CHILD_SUBREAPER = 1, 36


@dataclass(frozen=True)
class Order:
    """The settings for one run of a test."""

    faults: Sequence[Fault]
    seed: int
    jitter: int
    #: The limit for the test's own (virtual) time in seconds; None for no limit.
    until: Optional[float]
    #: Whether to keep the page of the run if it fails.
    has_page: bool


#: The settings for a run without a fault.
FIRST_ORDER = Order((), 0, 0, None, False)


def is_ready() -> bool:
    """Returns whether children of this process can start runs in virtual time."""
    return LIBRARY in os.environ.get(PRELOAD, "")


def start_anew(words: Sequence[str]) -> NoReturn:
    """Restarts this Python with pytest's arguments in `words` and with the library for virtual time. The library does
    nothing until a child begins a run. After the restart, memory addresses and the order of sets are the same every
    time."""
    os.environ.setdefault("PYTHONHASHSEED", "0")
    program = find_program("canbusd-run")
    os.execv(program, [program, "--ready", "--", *python_words(words)])


def adopt_orphans() -> None:
    """Makes this process the parent of orphaned descendants, so that it can kill these."""
    ctypes.CDLL(None).prctl(PR_SET_CHILD_SUBREAPER, 1)


def warm(modules: Iterable[str]) -> None:
    """Imports the modules that an earlier run imported, so that later runs need not import them. The garbage collector
    then ignores all existing objects."""
    with warnings.catch_warnings():
        warnings.simplefilter("ignore")
        for name in modules:
            try:
                importlib.import_module(name)
            except Exception:  # noqa: B902  a module that can't be imported here is imported by those that need it
                pass
    gc.collect()
    gc.freeze()


class Task(Protocol):
    """A pytest test or a command that is swept."""

    @property
    def name(self) -> str:
        """The name of the task."""

    @property
    def is_virtual(self) -> bool:
        """Whether the task runs in virtual time."""

    def redirect(self, path: Path) -> None:
        """Redirects the standard output and standard error of this process to a file."""

    def carry_out(self, order: Order, given: placement.Placement, room: Path) -> "tuple[Result, list[str]]":
        """Performs the task in this process. Returns its result and the names of the modules that have been imported."""

    def repeat(self, place: Place) -> str:
        """Returns the command line that repeats the run with a placement."""

    def kept_as(self, rule: str) -> str:
        """Describes how the fault rule `rule` causes the same fault without a sweep."""


def start(task: Task, order: Order, room: Path, processor: int) -> int:
    """Starts a run in a child process, and returns the process ID. The child writes its result to the file RESULT in
    the folder `room`."""
    pid = os.fork()
    if pid:
        return pid
    status = 1
    try:
        os.setpgid(0, 0)
        die_with_parent()
        os.sched_setaffinity(0, {processor})
        task.redirect(room / SAID)
        if task.is_virtual:
            begin_run(order)
        given = placement_of(order.faults, room)
        placement.carry_out(given)
        result, modules = task.carry_out(order, given, room)
        if given.failure:
            result = Result("failed", f"the sweep itself failed: {given.failure}")
        result.programs, result.records = given.programs, sum_of(room)
        # Only a run without a fault reports its modules. The parent imports them before the other runs start.
        write_result(room, result, modules if order == FIRST_ORDER else [])
        status = 0
    except BaseException:  # noqa: B902  nothing of the child goes on in pytest
        write_result(room, Result("failed", "the sweep itself failed", traceback.format_exc()), [])
    finally:
        os._exit(status)


def placement_of(faults: Sequence[Fault], room: Path) -> placement.Placement:
    """Returns the placement that causes these faults. The records of the run are written to the folder `room`."""
    return placement.Placement(
        lines_by_bus(faults),
        placement.copy_to(room),
        [fault.at_sockets for fault in faults if fault.at_sockets],
        [fault.reset for fault in faults if fault.reset],
        [fault.outage for fault in faults if fault.outage],
    )


def die_with_parent() -> None:
    """Makes the kernel kill this process when its parent ends."""
    ctypes.CDLL(None).prctl(PR_SET_PDEATHSIG, signal.SIGKILL)


def begin_run(order: Order) -> None:
    """Begins a run in virtual time. This process becomes the coordinator. The call returns in its child, which is the
    first process of the run."""
    program = os.path.join(os.path.dirname(library_in_use()), "canbusd-run")
    words = [program, "--virtual", "--stall", str(STALL), "--seed", str(order.seed), "--jitter", str(order.jitter)]
    words += ["--until", f"{order.until:.6f}"] if order.until is not None else []
    settings, told = os.pipe()
    coordinator = os.getpid()
    child = os.fork()
    if child:
        os.close(settings)
        os.set_inheritable(told, True)
        os.execv(program, [*words, "--child", f"{child}:{told}"])
    die_with_parent()
    os.close(told)
    with open(settings, "rb") as file:
        given = file.read().split(b"\0")
    if os.getppid() != coordinator or len(given) < 2:
        os._exit(1)
    for one in filter(None, given):
        name, _, value = os.fsdecode(one).partition("=")
        assert name in (SETTING, OPTIONS)
        os.environ[name] = value
    if ctypes.CDLL(None).canbusd_virtual_enter() != 0:
        os._exit(1)


def library_in_use() -> str:
    """Returns the path of the virtual-time library with which this process was started."""
    return next(path for path in os.environ[PRELOAD].split(":") if path.endswith(LIBRARY))


def point_output_at(path: Path) -> None:
    """Redirects the standard output and standard error of this process to a file."""
    with open(path, "wb", buffering=0) as said:
        os.dup2(said.fileno(), 1)
        os.dup2(said.fileno(), 2)


def first_line(text: str) -> str:
    """Returns the first line of a string."""
    return next(iter(text.strip().splitlines()), "")


def sum_of(room: Path) -> str:
    """Returns a checksum of the records of a run. Equal runs have equal checksums."""
    found = hashlib.sha256()
    for path in sorted(room.glob("*.rec")):
        found.update(path.name.encode() + path.read_bytes())
    return found.hexdigest()[:16]


def write_result(room: Path, result: Result, modules: Sequence[str]) -> None:
    """Writes the result of a run to a file for the process that started the run."""
    draft = room / f"{RESULT}.new"
    draft.write_text(json.dumps([asdict(result), list(modules)]))
    draft.rename(room / RESULT)


def read_result(room: Path, status: int) -> "tuple[Result, list[str]]":
    """Returns the result of a run that ended with this exit status, and the names of the modules that it imported."""
    try:
        result, modules = json.loads((room / RESULT).read_text())
        return Result(**result), modules
    except FileNotFoundError:
        said = (room / SAID).read_text(errors="replace") if (room / SAID).exists() else ""
        message = first_line(said) or f"the run ended with status {os.waitstatus_to_exitcode(status)}"
        return Result("failed", message, said, records=sum_of(room)), []
