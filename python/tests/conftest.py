"""Fixtures for the tests of buses and servers."""

import importlib.util
import os
import shutil
import subprocess
import sys

import pytest

import kept_bytecode  # noqa: F401
from browser import Browser
from canbusd._process.program import find_program
from canbusd.server import Server
from common import PYTHON
from few_at_a_time import pytest_xdist_make_scheduler  # noqa: F401
from made_once import made_once

# Programs that the tests start use the package under test, and the canbusd program that was built from these sources.
os.environ["PYTHONPATH"] = os.path.dirname(importlib.util.find_spec("canbusd").submodule_search_locations[0])


def fitting(kind):
    """Returns the path of the program or library that was built from these sources, or an empty string if there is
    none."""
    words = [PYTHON.parent / "scripts" / kind, "fitting"]
    found = subprocess.run(words, stdout=subprocess.PIPE, text=True, check=False).stdout.strip()
    return str(PYTHON.parent / found) if found else ""


if "CANBUSD" not in os.environ:
    os.environ["CANBUSD"] = fitting("program") or find_program()
# If the library has not been built, every bench runs as a separate process.
os.environ.setdefault("CANBUSD_LIBRARY", fitting("library"))


def pytest_addoption(pluginmanager):
    """Registers the plugin's options. If the package is not installed, pytest does not find the plugin by itself."""
    pluginmanager.import_plugin("canbusd.pytest_plugin")


@pytest.fixture(scope="session")
def browser(tmp_path_factory):
    """A browser that the tests use to open one page after another."""
    browser = Browser(tmp_path_factory.mktemp("browser"))
    yield browser
    browser.close()


@pytest.fixture
def server():
    """A server with can0 and can1 on one bus."""
    with Server("can0,can1") as running:
        yield running


@pytest.fixture
def pair(server):
    """Buses on can0 and can1 of the server."""
    with server.bus("can0") as can0, server.bus("can1") as can1:
        yield can0, can1


def install(folder):
    """Installs the package with pip."""
    # Installs from a copy, because setuptools builds in the source folder.
    source = folder / "clone" / "python"
    shutil.copytree(PYTHON, source, ignore=shutil.ignore_patterns("build", "*.egg-info", "__pycache__", ".*"))
    (source.parent / "scripts").symlink_to(PYTHON.parent / "scripts")
    done = subprocess.run(
        [sys.executable, "-m", "pip", "install", "--quiet", "--no-deps", "--no-build-isolation", "--no-index",
         "--target", folder / "target", source],
        capture_output=True, text=True, check=False,
    )  # fmt: skip
    assert done.returncode == 0, done.stderr


@pytest.fixture(scope="session")
def installed(request):
    """The environment of a process that uses the package as installed by pip, including its entry points."""
    place = made_once(request, "installed", install) / "target"
    given = {"PYTHONPATH": str(place), "CANBUSD_RUN": find_program("canbusd-run")}
    return {**os.environ, **given, "PYTHONWARNINGS": "ignore", "PYTHONUNBUFFERED": "1"}
