"""The command-line options of a sweep, and the function that replaces pytest's loop over the tests."""

import os
import re
from pathlib import Path
from typing import TYPE_CHECKING, Any, Optional

import pytest

from canbusd._sweep.places import ALL_KINDS

if TYPE_CHECKING:
    from canbusd._sweep.sweep import Options

#: The folder for the page of the sweep, inside the folder in which pytest was started.
OUT = "canbusd-sweep"
#: The options that require --canbusd-sweep: name, type, metavar and help.
OPTIONS: tuple[tuple[str, Any, str, str], ...] = (
    ("faults", str, "KINDS", f"kinds of faults in place of those of the tests: {', '.join(ALL_KINDS)}"),
    ("jobs", int, "N", "how many runs at once (default: one for each processor)"),
    ("time", float, "S", "begin no run after this many seconds"),
    ("pairs", int, "N", "also try this many second faults, each at an attempt of the run that the first fault made"),
    ("seeds", int, "N", "also try this many other orders of simultaneous events, apart by up to --canbusd-jitter"),
    ("check", int, "N", "carry out N placements again, and compare the records"),
    ("shard", str, "K/N", "the K-th of N parts"),
)


def add_sweep_options(group: Any) -> None:
    """Adds the options of a sweep."""
    group.addoption(
        "--canbusd-sweep",
        action="store_true",
        help="carry out each test with the marker canbusd_sweep again for each fault at each of its attempts",
    )
    group.addoption("--canbusd-sweep-all", action="store_true", help="the same of all tests with a server or a bench")
    group.addoption(
        "--canbusd-sweep-quick",
        action="store_true",
        help="the first two frames, the middle one and the last of each identifier, and the others only if these differ",
    )
    group.addoption("--canbusd-sweep-resume", action="store_true", help=f"go on from {OUT}/sweep.json")
    for name, kind, metavar, text in OPTIONS:
        group.addoption(f"--canbusd-sweep-{name}", type=kind, metavar=metavar, help=text)
    group.addoption(
        "--canbusd-fault",
        action="append",
        default=[],
        metavar="FAULT",
        help="with --canbusd-sweep: only this fault, as the sweep printed it: '5 lastbit'; may be repeated",
    )


def is_swept(config: pytest.Config) -> bool:
    """Returns whether pytest performs a sweep. Raises UsageError for options that require a sweep, and for options that
    a sweep does not allow."""
    is_wanted = bool(config.getoption("--canbusd-sweep") or config.getoption("--canbusd-sweep-all"))
    if not is_wanted:
        given = [
            f"--canbusd-sweep-{name}" for name, *_ in OPTIONS if config.getoption(f"--canbusd-sweep-{name}") is not None
        ]
        given += [name for name in ("--canbusd-sweep-quick", "--canbusd-sweep-resume") if config.getoption(name)]
        given += ["--canbusd-fault"] if config.getoption("--canbusd-fault") else []
        if given:
            raise pytest.UsageError(f"{given[0]} needs --canbusd-sweep")
        return False
    if config.getoption("--canbusd-virtual"):
        raise pytest.UsageError("--canbusd-sweep has its own virtual time: leave out --canbusd-virtual")
    if config.getoption("numprocesses", None):
        raise pytest.UsageError(
            "--canbusd-sweep has its own processes: leave out -n; --canbusd-sweep-jobs says how many"
        )
    return True


def begin(config: pytest.Config) -> None:
    """Restarts pytest with the library for virtual time, unless it was already started with this library."""
    from canbusd._sweep import worker

    if worker.is_ready():
        return
    capture = config.pluginmanager.getplugin("capturemanager")
    if capture is not None:
        capture.stop_global_capturing()
    worker.start_anew([str(word) for word in config.invocation_params.args])


def carry_out(session: pytest.Session) -> None:
    """Performs the sweep of a session."""
    from canbusd._sweep.items import prepare, report_to_pytest
    from canbusd._sweep.markers import swept_tests
    from canbusd._sweep.sweep import Sweep
    from canbusd._sweep.telling import Telling

    config = session.config
    options = read_options(config)
    faults = config.getoption("--canbusd-sweep-faults")
    all_of_them = bool(config.getoption("--canbusd-sweep-all")) or options.given is not None
    tests = swept_tests(session.items, all_of_them, faults.split(",") if faults else None)
    if not tests:
        raise pytest.UsageError(
            "no test has the marker canbusd_sweep; --canbusd-sweep-all takes all with a server or a bench"
        )
    page = "" if options.given is not None else os.path.join(OUT, "index.html")
    telling = Telling(config.pluginmanager.getplugin("terminalreporter"), page, report_to_pytest)
    prepare(session, session.items)
    try:
        Sweep(tests, options, telling).carry_out()
    finally:
        session._setupstate.teardown_exact(None)
    session.testsfailed = max(session.testsfailed, telling.failures)


def read_options(config: pytest.Config) -> "Options":
    """Returns the sweep's command-line options. If an option is wrong, raises UsageError that names it."""
    from canbusd._sweep.faults_given import parse_fault
    from canbusd._sweep.sweep import JITTER, Options, given_place

    seed, jitter = config.getoption("--canbusd-seed"), config.getoption("--canbusd-jitter")
    try:
        faults = [parse_fault(text) for text in config.getoption("--canbusd-fault")]
        shard = shard_of(config.getoption("--canbusd-sweep-shard"))
    except ValueError as fault:
        raise pytest.UsageError(str(fault)) from None
    is_given = bool(faults) or seed is not None
    return Options(
        at_once=numbered(config, "jobs", len(os.sched_getaffinity(0)), 1),
        seconds=config.getoption("--canbusd-sweep-time"),
        is_quick=bool(config.getoption("--canbusd-sweep-quick")),
        pairs=numbered(config, "pairs", 0, 0),
        seeds=numbered(config, "seeds", 0, 0),
        jitter=JITTER if jitter is None else jitter,
        checks=numbered(config, "check", 0, 0),
        is_resumed=bool(config.getoption("--canbusd-sweep-resume")),
        shard=shard,
        out=Path(config.invocation_params.dir) / OUT,
        given=given_place(faults, seed or 0, jitter or 0) if is_given else None,
    )


def numbered(config: pytest.Config, name: str, usual: int, least: int) -> int:
    """Returns the value of a numeric option, or `usual` if it is not given. Raises UsageError if the value is too
    small."""
    value = config.getoption(f"--canbusd-sweep-{name}")
    if value is None:
        return usual
    if value < least:
        raise pytest.UsageError(f"--canbusd-sweep-{name} is a number from {least} on, not {value}")
    return int(value)


def shard_of(text: Optional[str]) -> Optional[tuple[int, int]]:
    """Parses a part such as 2/4. Returns the index of the part, starting at 1, and how many parts there are. Raises
    ValueError for any other string."""
    if text is None:
        return None
    found = re.fullmatch("([0-9]+)/([0-9]+)", text)
    if not found or not 1 <= int(found[1]) <= int(found[2]):
        raise ValueError(f"a part is K/N, the K-th of N parts, as 1/4, not {text}")
    return int(found[1]), int(found[2])
