"""The pytest plugin: provides a server or a bench for a test, and audits its records when the test ends.

    @pytest.mark.canbusd("can0,can1", auto_restart=100)
    def test_a_node(canbusd):
        with canbusd.bus("can0") as tester, canbusd.bus("can1") as node:
            ...
"""

import contextlib
import inspect
import itertools
import os
import re
import shutil
from collections.abc import Callable, Iterator, Sequence
from pathlib import Path
from typing import TYPE_CHECKING, Any, Generator, Optional, Protocol, Union

import pytest

from canbusd._expect.expectations import Expectations
from canbusd._calls import no_such
from canbusd import _placement as placement, steps
from canbusd._reports import add_to_html, attach_to_allure
from canbusd._process.program import SET_BY, ProgramNotFound, audited
from canbusd._process.program_run import FOLDERS, RUNNING
from canbusd._run import summary
from canbusd._run.fault_rules_of_run import faults_beside, unused_rules
from canbusd._run.live import left_by
from canbusd._sweep import options as sweep_options
from canbusd.bench import Bench
from canbusd.record import BadRecord, read_record
from canbusd.rules import Rule
from canbusd.virtual import begin_test, is_virtual, python_words, repeated_by, virtual_words

if TYPE_CHECKING:
    from canbusd.programs import Program
    from canbusd.server import Server
    from canbusd.local import LocalBus

#: The buses of the fixture `canbusd` if the marker of the test names no buses.
BUSES = ("can0,can1",)
FAILED = pytest.StashKey[bool]()
CALLED = pytest.StashKey[bool]()
#: Whether a fixture has used the marker of the test.
USED = pytest.StashKey[bool]()
FOR_FIXTURES = "the test takes neither the fixture canbusd nor canbusd_bench"
PROGRAM = pytest.StashKey[bool]()
#: The description of the buses of a test, and the paths of the buses' pages.
TEXT, PAGES = pytest.StashKey[str](), pytest.StashKey[Sequence[str]]()


def pytest_addoption(parser: pytest.Parser) -> None:
    """Adds `--canbusd-keep`, `--canbusd-virtual` and its options, and the ini option `canbusd_program`."""
    parser.addini("canbusd_program", "path of the program canbusd, from the ini file; $CANBUSD goes before it")
    parser.getgroup("canbusd").addoption(
        "--canbusd-keep",
        choices=("failed", "all", "none"),
        default="failed",
        help="of which tests the logs, records and pages are kept (default: failed)",
    )
    add_virtual_options(parser.getgroup("canbusd"))
    sweep_options.add_sweep_options(parser.getgroup("canbusd"))


def add_virtual_options(group: Any) -> None:
    """Adds the options for virtual time."""
    group.addoption(
        "--canbusd-virtual",
        action="store_true",
        help="start pytest anew in virtual time, by canbusd-run --virtual: waits take no time, and each run is the same",
    )
    group.addoption(
        "--canbusd-seed", type=int, metavar="N", help="with --canbusd-virtual: another order of what is due at once"
    )
    group.addoption(
        "--canbusd-jitter", type=int, metavar="MICROS", help="with --canbusd-virtual: waits are longer by up to this"
    )


@pytest.hookimpl(tryfirst=True)  # type: ignore[misc]
def pytest_cmdline_main(config: pytest.Config) -> None:
    """Restarts pytest, in virtual time or for a sweep, if an option requests this."""
    seed, jitter = config.getoption("--canbusd-seed"), config.getoption("--canbusd-jitter")
    if sweep_options.is_swept(config):
        sweep_options.begin(config)
        return
    if not config.getoption("--canbusd-virtual"):
        if seed is not None or jitter is not None:
            raise pytest.UsageError("--canbusd-seed and --canbusd-jitter need --canbusd-virtual")
        return
    if is_virtual():
        return
    words = virtual_words(python_words([str(word) for word in config.invocation_params.args]), seed, jitter)
    capture = config.pluginmanager.getplugin("capturemanager")
    if capture is not None:
        capture.stop_global_capturing()
    os.execv(words[0], words)


def pytest_configure(config: pytest.Config) -> None:
    """Registers the marker, and reads the path of the program from the ini file."""
    config.addinivalue_line(
        "markers",
        "canbusd(*buses, **options): the buses of the fixtures canbusd and canbusd_bench, and their options, as of "
        "canbusd.Server and canbusd.Bench; virtual=True: the test is for pytest --canbusd-virtual",
    )
    config.addinivalue_line(
        "markers",
        "canbusd_sweep(faults=, senders=, ids=, known=, pairs=): what --canbusd-sweep tries, and which failures are known",
    )
    program = str(config.getini("canbusd_program"))
    if not program:
        return
    path = str((config.inipath.parent if config.inipath else config.rootpath) / program)
    if "CANBUSD" not in os.environ:
        os.environ["CANBUSD"] = path
        config.stash[PROGRAM] = True
    # The values are also equal if the variable was set by the pytest-xdist process that started this process.
    if os.environ["CANBUSD"] == path:
        SET_BY["CANBUSD"] = "canbusd_program in the ini file"


@pytest.hookimpl(tryfirst=True)  # type: ignore[misc]
def pytest_runtestloop(session: pytest.Session) -> Optional[bool]:
    """Runs a sweep instead of the tests, if an option requests this."""
    config = session.config
    if not sweep_options.is_swept(config) or config.option.collectonly or session.testsfailed:
        return None
    sweep_options.carry_out(session)
    return True


def pytest_unconfigure(config: pytest.Config) -> None:
    """Stops using the program that the ini file names."""
    SET_BY.pop("CANBUSD", None)
    if config.stash.get(PROGRAM, False):
        os.environ.pop("CANBUSD", None)


@pytest.hookimpl(hookwrapper=True)  # type: ignore[misc]
def pytest_runtest_protocol(item: pytest.Item) -> Generator[None, Any, None]:
    """Notes that the test was interrupted, for example by Ctrl-C. Such a test has no report, and its fixtures are torn
    down at the end of the session."""
    outcome = yield
    if outcome.excinfo is not None:
        item.stash[FAILED] = True


@pytest.hookimpl(hookwrapper=True, tryfirst=True)  # type: ignore[misc]
def pytest_runtest_makereport(item: pytest.Item) -> Generator[None, Any, None]:
    """Notes whether the test failed, because the teardown of its fixtures depends on this. An expected failure (xfail)
    does not count as failed."""
    outcome = yield
    report = outcome.get_result()
    if report.when == "teardown":
        add_to_html(item.config, report, item.stash.get(TEXT, ""), item.stash.get(PAGES, []))
    if report.failed:
        item.stash[FAILED] = True
        if report.when == "call" and steps.current.done:
            report.sections.append(("canbusd: steps", "\n".join(steps.current.lines())))
        if is_virtual() and not placement.is_there():
            report.sections.append(("canbusd: virtual time", f"repeat: {repeated_by(item.nodeid)}"))


@pytest.hookimpl(tryfirst=True)  # type: ignore[misc]
def pytest_runtest_setup(item: pytest.Item) -> None:
    """Fails a test that requires virtual time but does not run in it, whatever fixtures it uses. The expectations of
    the test ignore frames that a shared server received earlier."""
    marker = item.get_closest_marker("canbusd")
    if marker is not None and marker.kwargs.get("virtual") and not is_virtual():
        pytest.fail("this test is for virtual time: python3 -m pytest --canbusd-virtual", pytrace=False)
    steps.begin()
    if is_virtual():
        begin_test(item.nodeid)
    for run in list(RUNNING):
        # If a server has crashed, the tests that use it will report this.
        with contextlib.suppress(Exception):
            if isinstance(run, Expectations) and os.getpid() == run._process:
                run.expect_from_now()


@pytest.hookimpl(trylast=True)  # type: ignore[misc]
def pytest_runtest_call(item: pytest.Item) -> None:
    """Notes that the test function was called. The function of a skipped test is not called, so there is no warning
    about its marker."""
    item.stash[CALLED] = True


@pytest.hookimpl(trylast=True)  # type: ignore[misc]
def pytest_runtest_teardown(item: pytest.Item) -> None:
    """Adds the steps to the test's properties. Warns if no fixture used the test's own marker; a marker of its module
    or class may be meant for other tests."""
    if steps.current.done:
        item.user_properties.append(("canbusd_steps", "\n".join(steps.current.lines())))
    marker = next((mark for mark in item.own_markers if mark.name == "canbusd"), None)
    if marker is None or (not marker.args and marker.kwargs.keys() == {"virtual"}):
        return
    if item.stash.get(CALLED, False) and not item.stash.get(USED, False):
        item.warn(UnusedMarker(f"{item.nodeid}: {marker_words(marker)} does nothing: {FOR_FIXTURES}"))


def marker_words(marker: pytest.Mark) -> str:
    """Returns a marker as it is written in the source code of a test."""
    words = [*map(repr, marker.args), *(f"{name}={value!r}" for name, value in marker.kwargs.items())]
    return f"@pytest.mark.canbusd({', '.join(words)})"


def new_folder(place: Path, name: str) -> Path:
    """Creates a folder whose name ends with a number, as pytest does, but without a symbolic link to the current
    folder."""
    for number in itertools.count():
        with contextlib.suppress(FileExistsError):
            folder = place / f"{name}{number}"
            folder.mkdir(mode=0o700)
            return folder
    raise AssertionError("numbers have an end")


class UnusedRule(pytest.PytestWarning):
    """A fault rule, such as `next 1 id 7FE lastbit`, was never applied during a test, so the intended fault never
    happened."""


class UnusedMarker(pytest.PytestWarning):
    """A test has the marker `canbusd`, but does not use the fixtures `canbusd` and `canbusd_bench`. So the marker has
    no effect."""


class StartsServer(Protocol):
    """The type of the fixture `canbusd_server`, which starts a server with these buses and with the options of Server."""

    def __call__(self, *buses: str, **options: Any) -> "Server":
        """Starts a server."""


class Runs:
    """The servers and benches of a test, and the folder for their logs and records."""

    def __init__(self, request: pytest.FixtureRequest, factory: pytest.TempPathFactory) -> None:
        self._item: pytest.Item = request.node
        self._keep = str(request.config.getoption("--canbusd-keep"))
        # A run of a sweep only has to pass or fail. Benches write no files, and their records are not audited.
        self._is_bare = self._keep == "none" and placement.has_faults()
        name = re.sub(r"\W+", "-", self._item.name)[:40]
        self._folder = new_folder(factory.getbasetemp(), f"canbusd-{name}")
        self._runs: list[Union["Server", Bench]] = []
        #: The run and the names of its interfaces, by the path of each complete record.
        self._records: dict[Path, tuple[Union["Server", Bench], list[str]]] = {}

    def server(self, *buses: str, **options: Any) -> "Server":
        """Starts a server that writes its logs and records to the folder of the test."""
        from canbusd.server import Server

        out = self._folder_of(options)
        with self._below():
            server = Server(*buses, **options)
        self._add(server, out, [bus.partition("@")[0].split(",") for bus in buses])
        return server

    def bench(self, names: str, **options: Any) -> Bench:
        """Starts a bench that writes its log and record to the folder of the test."""
        out = self._folder_of(options, is_used=not self._is_bare)
        with self._below():
            bench = Bench(names, **options)
        self._add(bench, out, [list(bench.names)])
        return bench

    @contextlib.contextmanager
    def _below(self) -> Iterator[None]:
        """Makes runs create their folders in the folder of the test. Pytest removes them there if the process is
        killed."""
        before = FOLDERS.set(self._folder)
        try:
            yield
        finally:
            FOLDERS.reset(before)

    def _folder_of(self, options: dict[str, Any], is_used: bool = True) -> Path:
        if options.get("out") is not None:
            return Path(options["out"])
        out = self._folder / str(len(self._runs))
        if is_used:
            options["out"] = out
            out.mkdir()
        return out

    def _add(self, run: Union["Server", Bench], out: Path, buses: list[list[str]]) -> None:
        self._runs.append(run)
        for names in buses:
            self._records[out / f"{names[0]}.rec"] = run, names

    def audit(self, text: bytes, name: str) -> None:
        """Audits the record of a LocalBus. If the record is wrong, its file stays in the folder and the test fails."""
        path = self._folder / f"{name}.rec"
        path.write_bytes(text)
        said = audited(path)
        if not re.fullmatch(r"ok \d+ entries", said):
            pytest.fail(f"the record {path}: {said}", pytrace=False)
        path.unlink()

    def end(self) -> None:
        """Ends the runs and audits their records. An error in a run fails the test. Warns about rules that were never
        applied."""
        faults = [*self._stop(), *self._audit()]
        unused = [] if faults else [*self._unused()]
        failed = bool(faults) or self._item.stash.get(FAILED, False)
        # During a sweep, pages are written only if the page of the run was requested.
        if (failed or self._keep == "all") and not (placement.is_there() and self._keep == "none"):
            self._report()
        if self._keep == "none" or (self._keep == "failed" and not failed):
            shutil.rmtree(self._folder, ignore_errors=True)
        for folder in self._folder.glob("canbusd-*"):
            shutil.rmtree(folder, ignore_errors=True)
        if faults:
            pytest.fail("\n".join(faults), pytrace=False)
        for rule in unused:
            self._item.warn(UnusedRule(f"rule not used up: {rule}"))

    def _stop(self) -> Iterator[str]:
        """Ends the runs that are still running, and yields their errors."""
        for run in self._runs:
            if self._was_killed(run):
                # The test itself killed the server, so this is not an error. The files contain only the data written
                # while the server ran.
                for program in programs_of(run):
                    program.stop()
                continue
            try:
                result = run.stop()
                if result is not None and result.status != 0:
                    yield f"the server ended with status {result.status}"
            except (RuntimeError, OSError) as fault:
                yield str(fault)

    @staticmethod
    def _was_killed(run: Union["Server", Bench]) -> bool:
        """Returns whether the test itself killed the server."""
        return not isinstance(run, Bench) and run._result is not None and run._result.status < 0

    def _audit(self) -> Iterator[str]:
        """Audits the records, and yields the errors in them. The record of a killed server may be incomplete."""
        for path, (run, _) in self._records.items():
            if self._is_bare and isinstance(run, Bench):
                continue
            left = left_by(path, record_when(run))
            if left.exists():
                said = audited(left, cut=left != path)
                if not re.fullmatch(r"ok \d+ entries(, then cut off)?", said):
                    yield f"the record {left}: {said}"
            elif not self._was_killed(run) and record_when(run) != "none":
                yield f"no record at {path}"

    def _unused(self) -> Iterator[Rule]:
        """Yields the rules that were never applied, according to the records."""
        for path, (run, names) in self._records.items():
            if isinstance(run, Bench):
                given = placement.rules_of((run._number, names[0]))
                yield from (rule for rule in run._given.unused() if str(rule) not in given)
                continue
            faults = faults_beside(path) if path.exists() else None
            if faults is not None:
                given = placement.rules_of((run._number, names[0]))
                yield from (rule for rule in unused_rules(names, faults) if str(rule) not in given)

    def _report(self) -> None:
        """Adds a description of each bus and program to the test's report, and to the test's properties in a JUnit
        file."""
        facts = [self._facts(path, run, names) for path, (run, names) in self._records.items()]
        facts += [{"program": program.shown().splitlines()} for run in self._runs for program in programs_of(run)]
        sections = []
        for one in facts:
            self._item.user_properties += [
                (f"canbusd_{name}", "\n".join(lines)) for name, lines in one.items() if lines
            ]
            pages = one.pop("page", [])
            self._item.user_properties += [("canbusd_page_relative", path) for path in map(self._from_junit, pages)]
            page = [f"page: {path}" for path in pages]
            sections.append("\n".join([*itertools.chain(*one.values()), *page]))
            attach_to_allure(sections[-1], pages)
            self._item.stash[PAGES] = [*self._item.stash.get(PAGES, []), *pages]
        text = "\n\n".join(filter(None, sections))
        self._item.stash[TEXT] = text
        self._item.add_report_section("teardown", "canbusd", text)

    def _from_junit(self, page: str) -> str:
        """Returns the path of a page relative to the folder of the JUnit file, so that both can be copied together."""
        file = self._item.config.getoption("xmlpath", None)
        return os.path.relpath(page, os.path.dirname(os.path.abspath(file)) if file else None)

    def _facts(self, path: Path, run: Union["Server", Bench], names: list[str]) -> dict[str, list[str]]:
        """Writes the page of a bus. Returns a description of what happened on the bus, the end of its log, its states
        and counts, and the path of the page."""
        log, left = path.with_suffix(".log"), left_by(path, record_when(run))
        facts: dict[str, list[str]] = {"story": [], "log": summary.end_of_log(log) if log.exists() else []}
        if not left.exists():
            return facts
        try:
            record = read_record(left, names, cut=left != path, rates=run._rates_by_bus[names[0]])
            facts["story"] = summary.story(record)
            if record.is_cut:
                cut = f"{left} is cut off after {record.replay.entries} entries: `--cut` of the tools reads it"
                facts["record"] = [cut]
            facts["states"] = summary.table(summary.interfaces(record))
            if self._keep != "none":
                facts["page"] = [str(run._page(record, path.with_suffix(".html")))]
        except BadRecord as fault:
            facts["record"] = [f"{left}: {fault}"]
        return facts


def programs_of(run: Union["Server", Bench]) -> Sequence["Program"]:
    """Returns the programs that the test has started on the buses of a server; an empty list for a bench."""
    return [] if isinstance(run, Bench) else run._programs


def record_when(run: Union["Server", Bench]) -> str:
    """Returns when the record of a run is written: `end`, `live` (during the run), or `none` if it is not written."""
    return "end" if isinstance(run, Bench) else run._record_when


@pytest.fixture
def _canbusd_runs(request: pytest.FixtureRequest, tmp_path_factory: pytest.TempPathFactory) -> Iterator[Runs]:
    runs = Runs(request, tmp_path_factory)
    yield runs
    runs.end()


def marked(request: pytest.FixtureRequest, kind: Callable[..., object]) -> tuple[tuple[str, ...], dict[str, Any]]:
    """Returns the buses and the options in the test's marker that are valid for a server, a bench or a local bus."""
    request.node.stash[USED] = True
    marker = request.node.get_closest_marker("canbusd")
    if marker is None:
        return BUSES, {}
    options = {name: value for name, value in marker.kwargs.items() if name != "virtual"}
    known = [name for name, one in inspect.signature(kind).parameters.items() if one.kind is one.KEYWORD_ONLY]
    unknown = next((name for name in options if name not in known), None)
    if unknown is not None:
        raise refused(request, f"there is {no_such('option', unknown, [*known, 'virtual'])}")
    return tuple(marker.args) or BUSES, options


@contextlib.contextmanager
def blamed_on_marker(request: pytest.FixtureRequest) -> Iterator[None]:
    """Fails the test if the arguments of its marker are wrong, without showing the source code of this package."""
    try:
        yield
    except ProgramNotFound:
        raise
    except (ValueError, OSError, RuntimeError) as fault:
        raise refused(request, f"{fault}") from None


def refused(request: pytest.FixtureRequest, fault: str) -> BaseException:
    """Returns the exception that fails a test with a wrong marker."""
    marker = request.node.get_closest_marker("canbusd")
    if marker is not None:
        fault = f"{marker_words(marker)}: {fault}"
    return pytest.fail.Exception(fault, pytrace=False)


@pytest.fixture
def canbusd_server(_canbusd_runs: Runs) -> StartsServer:
    """Starts servers: `canbusd_server("can0,can1", faults=..)`. After the test, the servers are stopped and their
    records are audited."""
    return _canbusd_runs.server


@pytest.fixture
def canbusd(request: pytest.FixtureRequest, _canbusd_runs: Runs) -> "Server":
    """A server for the test. Its buses are given by the marker `canbusd`; by default, it has one bus with can0 and
    can1."""
    from canbusd.server import Server

    buses, options = marked(request, Server)
    with blamed_on_marker(request):
        return _canbusd_runs.server(*buses, **options)


@pytest.fixture
def canbusd_bench(request: pytest.FixtureRequest, _canbusd_runs: Runs) -> Bench:
    """A bench for the test. Its interfaces are given by the marker `canbusd`; by default can0 and can1."""
    buses, options = marked(request, Bench)
    if len(buses) != 1:
        raise refused(request, f"canbusd_bench has one bus, not {len(buses)}")
    with blamed_on_marker(request):
        return _canbusd_runs.bench(buses[0], **options)


@pytest.fixture
def canbusd_local(request: pytest.FixtureRequest, _canbusd_runs: Runs) -> Iterator["LocalBus"]:
    """A LocalBus for the test. Its interfaces are given by the marker `canbusd`; by default can0 and can1. After the
    test, its record is audited."""
    from canbusd.local import LocalBus

    buses, options = marked(request, LocalBus)
    if len(buses) != 1:
        raise refused(request, f"canbusd_local has one bus, not {len(buses)}")
    with blamed_on_marker(request):
        bus = LocalBus(buses[0], **options)
    with bus:
        yield bus
        _canbusd_runs.audit(bus.record(), bus.names[0])
