"""The options and fixtures that the tests of the program and of canbusd-run share. Each conftest.py registers them.
CANBUSD names the program to test. By default it is the program built from these sources. Without a program no test
runs. TESTS_CASES is the number of random inputs for a test, unless --cases gives another number.
"""

import importlib.util
import os
import random
import signal
import sys

import pytest

import commands
import kept_bytecode  # noqa: F401
import serving
from few_at_a_time import pytest_xdist_make_scheduler  # noqa: F401

# Programs that the tests start use the package under test.
os.environ["PYTHONPATH"] = os.path.dirname(importlib.util.find_spec("canbusd").submodule_search_locations[0])
os.environ["PYTHONDONTWRITEBYTECODE"] = "1"
# A background job, or a job under nohup, ignores these signals, and programs that the tests start would inherit that. A signal with
# a handler is not ignored in those programs.
for ignored in (signal.SIGINT, signal.SIGQUIT, signal.SIGHUP):
    if signal.getsignal(ignored) == signal.SIG_IGN:
        signal.signal(ignored, lambda *_: None)


def share(pluginmanager):
    """Registers this module as a plugin, only once for any number of test folders."""
    if not pluginmanager.has_plugin(__name__):
        pluginmanager.register(sys.modules[__name__], __name__)
    # If the package is not installed, pytest has not loaded the plugin by itself. The package's tests need the plugin
    # if they run together with these tests.
    pluginmanager.import_plugin("canbusd.pytest_plugin")


def pytest_addoption(parser):
    group = parser.getgroup("canbusd")
    group.addoption("--seed", type=int, default=random.SystemRandom().randrange(10**6), help="of all that is random")
    cases = int(os.environ.get("TESTS_CASES", 200))
    group.addoption(
        "--cases", type=int, default=cases, help="how many random inputs a test tries (200; 1000 in make test)"
    )
    group.addoption(
        "--frames", type=int, default=1_000_000, help="how many frames test_load.py sends with the slow tests (1000000)"
    )
    group.addoption(
        "--minutes", type=float, default=1, help="how long test_long_runs.py keeps up a steady load (1), 72 MB each"
    )
    group.addoption("--entries", type=int, default=20_000, help="of that load, how many entries a second (20000)")
    group.addoption(
        "--all-bytes", action="store_true", help="change each byte of a record to all others (test_damage.py)"
    )
    group.addoption("--beside", metavar="PROGRAM", help="another program that audits as canbusd does (test_damage.py)")
    limit = os.path.join(serving.ROOT, "benches", "limit.c")
    group.addoption("--other", metavar="SOURCE.c", default=limit, help="another program with a bench (benches/limit.c)")


def pytest_sessionstart(session):
    if not session.config.getoption("collectonly"):
        try:
            serving.program()
        except serving.NoProgram as fault:
            raise pytest.UsageError(f"{fault}") from None


def pytest_terminal_summary(terminalreporter, config):
    terminalreporter.write_line(f"--seed {config.getoption('seed')} repeats what was random")


def pytest_runtest_setup(item):
    if item.get_closest_marker("root") and os.geteuid() != 0:
        pytest.skip("not root")
    if item.get_closest_marker("browser") and not commands.BROWSER:
        pytest.skip("no browser: chromium")


@pytest.fixture
def rng(request):
    """A source of random numbers that depends only on the test and the seed, not on other tests."""
    return random.Random(f"{request.config.getoption('seed')} {request.node.name}")


@pytest.fixture
def cases(request):
    """The number of random inputs that a test tries."""
    return request.config.getoption("cases")


@pytest.fixture
def fixed_ports():
    """For tests that listen on a fixed port from a document or of another program. Only one of these tests runs at a
    time."""
    with serving.one_at_a_time("ports"):
        yield


@pytest.fixture(scope="session")
def program():
    """The path of the program, without its launcher."""
    return serving.program()


@pytest.fixture
def server():
    """A server with can0 and can1 on one bus, started by the launcher."""
    with serving.serving("can0,can1") as running:
        yield running
