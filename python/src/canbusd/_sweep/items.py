"""Sweeps pytest tests."""

import shlex
import sys
import threading
import time
from collections.abc import Iterable
from pathlib import Path
from typing import Any

import pytest
from _pytest.runner import runtestprotocol

from canbusd._placement import Placement
from canbusd._sweep import worker
from canbusd._sweep.places import Place, Result
from canbusd._sweep.telling import Report

#: The names of the fixtures that use a server, and of the fixture that uses a bench.
SERVER_FIXTURES, BENCH_FIXTURE = {"canbusd", "canbusd_server"}, "canbusd_bench"


class ItemTask:
    """A pytest test that is swept."""

    def __init__(self, item: pytest.Item) -> None:
        self.item = item

    @property
    def name(self) -> str:
        """The node ID of the test."""
        return self.item.nodeid

    @property
    def is_virtual(self) -> bool:
        """Whether the test runs in virtual time. This is true unless the test uses only benches."""
        names = set(getattr(self.item, "fixturenames", ()))
        return bool(names & SERVER_FIXTURES) or BENCH_FIXTURE not in names

    def redirect(self, path: Path) -> None:
        """Redirects the output that pytest does not capture to the file `path`."""
        capture: Any = self.item.config.pluginmanager.getplugin("capturemanager")
        if capture is None:
            worker.point_output_at(path)
            return
        capture.stop_global_capturing()
        worker.point_output_at(path)
        capture.start_global_capturing()
        capture.suspend_global_capture()

    def carry_out(self, order: worker.Order, given: Placement, room: Path) -> "tuple[Result, list[str]]":
        """Runs the test. Returns the result and the names of the imported modules."""
        config = self.item.config
        config.option.canbusd_keep = "failed" if order.has_page else "none"
        folder = room / "tmp"
        folder.mkdir()
        config._tmp_path_factory._basetemp = folder  # type: ignore[attr-defined]
        began = time.monotonic()
        # The session fixtures were set up before the fork. Passing the session as the next item keeps them.
        reports = runtestprotocol(self.item, log=False, nextitem=self.item.session)  # type: ignore[arg-type]
        took = time.monotonic() - began
        return result_of(reports, took), list(sys.modules)

    def repeat(self, place: Place) -> str:
        """Returns the command line that repeats the run with a placement."""
        return shlex.join(["python3", "-m", "pytest", "--canbusd-sweep", *place.words("--canbusd-"), self.name])

    def kept_as(self, rule: str) -> str:
        """Returns the marker with which an ordinary test gets the fault of a placement."""
        return f'as a test: @pytest.mark.canbusd(.., faults="{rule}")'


def result_of(reports: "list[pytest.TestReport]", took: float) -> Result:
    """Returns the result of a test that has these reports. `took` is the duration of the test in seconds."""
    bad = next((one for one in reports if one.failed), None)
    if bad is None:
        return Result("skipped" if any(one.skipped for one in reports) else "passed", took=took)
    crash = getattr(bad.longrepr, "reprcrash", None)
    message = f"{bad.when}: {worker.first_line(crash.message if crash else bad.longreprtext)}"
    sections = (f"---- {title} ----\n{text}" for title, text in reports[-1].sections)
    return Result("failed", message, "\n".join([bad.longreprtext, *sections]), took)


def prepare(session: pytest.Session, items: Iterable[pytest.Item]) -> None:
    """Sets up the session fixtures, so that the runs need not do this again. Raises UsageError if a fixture leaves a
    thread running."""
    session._setupstate.setup(session)  # type: ignore[arg-type]
    for item in items:
        info: Any = item._fixtureinfo  # type: ignore[attr-defined]
        for name, definitions in info.name2fixturedefs.items():
            if definitions[-1].scope == "session" and name in info.names_closure:
                item._request.getfixturevalue(name)  # type: ignore[attr-defined]
    if threading.active_count() > 1:
        names = ", ".join(thread.name for thread in threading.enumerate()[1:])
        raise pytest.UsageError(f"tests can't be swept while a fixture of the session has a thread: {names}")


def report_to_pytest(report: Report) -> None:
    """Reports the result of a test, or of a group of its placements, to pytest for its summary, its exit status and
    JUnit."""
    task = report.test.task
    assert isinstance(task, ItemTask)
    item, base = task.item, report.test.base
    name = f"{item.nodeid}::[{report.group}]" if report.group else item.nodeid
    long: Any = report.text if report.outcome == "failed" else None
    if report.outcome == "skipped":
        long = (str(item.path), 0, "skipped without a fault")
    took = base.took if base is not None and not report.group else 0.0
    for when, outcome, text, duration in (
        ("setup", "passed", None, 0.0),
        ("call", report.outcome, long, took),
        ("teardown", "passed", None, 0.0),
    ):
        one: Any = pytest.TestReport(name, item.location, {}, outcome, text, when, duration=duration)  # type: ignore[arg-type]
        item.ihook.pytest_runtest_logreport(report=one)
