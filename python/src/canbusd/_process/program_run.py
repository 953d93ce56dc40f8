"""The parts that Server and Bench have in common: the options of the program, the run's folder, the end of the run, and
the program as a child process."""

import _thread
import functools
import os
import re
import shutil
import signal
import subprocess
import tempfile
import weakref
from collections.abc import Iterable, Mapping, Sequence
from contextvars import ContextVar
from pathlib import Path
from types import TracebackType
from typing import Literal, Optional, TypeVar, Union

from canbusd import _placement as placement
from canbusd._process.program import find_program
from canbusd._process.rates import LEAST_BITRATE, MOST_BITRATE, MOST_DBITRATE, BitRate, Rates
from canbusd._session.arguments import one_data_rate, truth
from canbusd._text import NAME
from canbusd._words import MOST_NAMES, NUMBERS
from canbusd.faults import Script

Self = TypeVar("Self", bound="Run")

#: The folder in which runs create their folders. None means the system's folder for temporary files.
FOLDERS: "ContextVar[Optional[Path]]" = ContextVar("FOLDERS", default=None)

Ack = Literal["always", "peers"]


def option_words(ack: str, report: bool, **numbers: int) -> list[str]:
    """Returns the command-line arguments for these options. If an option is wrong, raises ValueError that names it."""
    if ack not in ("always", "peers"):
        raise ValueError(f"ack is 'always' or 'peers', not {ack!r}")
    return ["--ack", ack, *(["--report"] if truth("report", report) else []), *number_words(**numbers)]


def number_words(**numbers: int) -> list[str]:
    """Returns the command-line arguments for these numeric options. If an option is wrong, raises ValueError that names
    it."""
    words: list[str] = []
    for name, number in numbers.items():
        option, least, most, unit = NUMBERS[name]
        if isinstance(number, bool) or not isinstance(number, int) or not least <= number <= most:
            raise ValueError(f"{name} is a whole number of {unit} from {least} to {most}, not {number!r}")
        words += [option, str(number)]
    return words


def rates_by_bus(
    buses: Mapping[str, Sequence[str]],
    bitrate: Optional[BitRate],
    data_bitrate: Optional[BitRate],
    dbitrate: Optional[BitRate] = None,
) -> dict[str, Optional[Rates]]:
    """Maps the first interface of each bus to the bit rates of the bus. Raises ValueError if a bus can't have these
    rates."""
    fast = rate_by_bus("data_bitrate", one_data_rate(data_bitrate, dbitrate), buses)
    nominal = rate_by_bus("bitrate", bitrate, buses)
    return {first: rates_of(nominal[first], fast[first]) for first in buses}


def rate_by_bus(argument: str, rate: Optional[BitRate], buses: Mapping[str, Sequence[str]]) -> dict[str, Optional[int]]:
    """Maps the first interface of each bus to the value of an argument for this bus. Raises ValueError with the reason
    if the argument is wrong."""
    if not isinstance(rate, Mapping):
        return dict.fromkeys(buses, rate)
    firsts = {name: first for first, names in buses.items() for name in names}
    found: dict[str, Optional[int]] = {}
    for name, number in rate.items():
        number_words(**{argument: number})
        if name is None:
            continue
        if name not in firsts:
            raise ValueError(f"{argument} is by interfaces, which are {', '.join(firsts)}, not by {name!r}")
        first = firsts[name]
        if first in found:
            raise ValueError(f"{argument} has two values for the bus {','.join(buses[first])!r}")
        found[first] = number
    return {first: found.get(first, rate.get(None)) for first in buses}


def rates_of(bitrate: Optional[int], fast: Optional[int]) -> Optional[Rates]:
    """Returns the bit rates of a bus, or None if it has none. Raises ValueError if a bus can't have these rates."""
    rates = {"bitrate": bitrate, "data_bitrate": fast}
    number_words(**{name: rate for name, rate in rates.items() if rate is not None})
    if fast is not None and bitrate is None:
        raise ValueError(f"data_bitrate={fast} needs a bitrate too, such as bitrate=500000")
    if fast is not None and bitrate is not None and fast < bitrate:
        raise ValueError(f"data_bitrate={fast} is below bitrate={bitrate}: it is as fast, or faster")
    return None if bitrate is None else Rates(bitrate, fast)


def check_names(names: Sequence[str]) -> Sequence[str]:
    """Returns the names of a bus's interfaces unchanged. Raises ValueError if a name is invalid, or if names are
    separated by anything but commas."""
    joined = ",".join(names)
    parted = [name for name in re.split(r"[\s,;]+", joined) if name]
    if re.search(r"[\s;]", joined) and parted:
        raise ValueError(
            f"names of interfaces are joined by commas without spaces, {','.join(parted)!r}, not {joined!r}"
        )
    wrong = next((name for name in names if not NAME.fullmatch(name)), None)
    if wrong is not None:
        raise ValueError(
            f"names of interfaces are 1 to 15 ASCII letters, digits, _, - and ., not {wrong!r}, as in {joined!r}"
        )
    twice = next((name for name in names if names.count(name) > 1), None)
    if twice is not None:
        raise ValueError(f"names of a bus's interfaces are different, and {joined!r} has {twice!r} twice")
    if len(names) > MOST_NAMES:
        raise ValueError(f"names of a bus's interfaces are 1 to {MOST_NAMES}, and {joined!r} has {len(names)}")
    return names


def bus_of(names: Union[str, Sequence[str]], faults: Optional[Script]) -> tuple[tuple[str, ...], Optional[Script]]:
    """Splits the description of a bus into its names and its faults. As on the command line, a file with faults may
    follow the names: can0,can1@FILE."""
    if isinstance(names, str):
        names, given, script_path = names.partition("@")
        if given and faults is not None:
            raise ValueError("faults are given twice, as a file after the names too")
        faults = Path(script_path) if given else faults
    parts = tuple(names.split(",") if isinstance(names, str) else names if isinstance(names, Iterable) else ())
    if not parts or not all(isinstance(name, str) for name in parts):
        raise ValueError(f"names are those of the interfaces, such as 'can0,can1', not {names!r}")
    check_names(parts)
    return parts, faults


def remove(folder: Path, process: int) -> None:
    """Removes the folder of a run, but not in a forked process.

    This function is a finalizer, and Python prints and ignores exceptions from finalizers. So if a Ctrl-C arrives here,
    another thread raises it again after the finalizer has finished.
    """
    if os.getpid() == process:
        try:
            shutil.rmtree(folder, ignore_errors=True)
        except (KeyboardInterrupt, OSError):
            # A Ctrl-C in rmtree may appear as an OSError, because a file descriptor is then closed twice. rmtree
            # ignores all other errors.
            try:
                shutil.rmtree(folder, ignore_errors=True)
            finally:
                _thread.start_new_thread(os.kill, (process, signal.SIGINT))


class Run:
    """A run of one or several buses. Its logs and records are in `out`, or in a temporary folder that exists as long as
    this object."""

    def __init__(self, out: Union[str, "os.PathLike[str]", None]) -> None:
        if out is not None and not os.path.isdir(out):
            raise ValueError(f"out is a folder that exists, not {os.fspath(out)!r}")
        self._process = os.getpid()
        #: The index of this server or bench in its test, which a sweep needs.
        self._number = placement.next_run()
        self._given_out = None if out is None else Path(out)
        self._folders = FOLDERS.get()

    @functools.cached_property
    def _folder(self) -> Path:
        """The run's own folder, which is created when it is first used."""
        folder = Path(tempfile.mkdtemp(prefix="canbusd-", dir=self._folders))
        self._remove = weakref.finalize(self, remove, folder, self._process)
        return folder

    @property
    def _out(self) -> Path:
        """The folder for the run's logs and records."""
        return self._folder if self._given_out is None else self._given_out

    def stop(self) -> object:
        """Ends the run. Its logs and records are then written."""
        raise NotImplementedError

    def _forget(self) -> None:
        """Closes the connection to the program in a forked process."""
        raise NotImplementedError

    def _check_process(self) -> None:
        """Raises RuntimeError in a forked process. Only the process that started the run may end it."""
        if os.getpid() != self._process:
            raise RuntimeError(f"this {type(self).__name__} belongs to process {self._process}, which was forked")

    def __enter__(self: Self) -> Self:
        return self

    def __exit__(
        self, kind: Optional[type[BaseException]], fault: Optional[BaseException], _: Optional[TracebackType]
    ) -> None:
        if os.getpid() != self._process:
            return
        try:
            self.stop()
        except RuntimeError:
            # An exception from the `with` block takes precedence.
            if kind is None:
                raise


class HasProgram:
    """A program that runs as a child process, with pipes for its input and output."""

    _child: "subprocess.Popen[bytes]"
    _errors: Path

    @property
    def said(self) -> str:
        """What the program has written to standard error so far, such as `note: bus can0: record full`."""
        return self._errors.read_text(errors="replace").strip()

    def _start(self, errors: Path, *words: str) -> None:
        """Starts the program with these arguments. Its standard error is written to the file `errors`."""
        self._errors = errors
        with open(errors, "wb") as file:
            # The program runs in its own session, so that Ctrl-C reaches only this process. This process then ends the
            # program properly.
            self._child = subprocess.Popen(
                [find_program(), *words],
                stdin=subprocess.PIPE,
                stdout=subprocess.PIPE,
                stderr=file,
                bufsize=0,
                start_new_session=True,
            )

    def _close_input(self) -> None:
        """Closes the program's input, which ends the program."""
        if self._child.stdin is not None:
            self._child.stdin.close()
            self._child.stdin = None

    def _signal(self) -> None:
        """Kills the program, and its launcher if there is one. Both are in one process group."""
        try:
            os.killpg(self._child.pid, signal.SIGKILL)
        except ProcessLookupError:
            pass


RUNNING: "weakref.WeakSet[Run]" = weakref.WeakSet()


def forget_runs() -> None:
    """Closes the inputs of all programs in a forked process, because an open input would keep the programs from
    ending."""
    for run in list(RUNNING):
        run._forget()
    RUNNING.clear()


os.register_at_fork(after_in_child=forget_runs)
