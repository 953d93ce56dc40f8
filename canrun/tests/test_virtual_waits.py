"""Virtual time compared with real time: every kind of wait, in eight languages, takes exactly the requested time and
has the same result."""

import os
import re
import shutil
import subprocess
import sys
from typing import Dict, NamedTuple

import pytest

from made_once import made_once
from running import FLAGS, needs_gcc
from serving import ROOT
from virtual_runs import virtual

FOLDER = os.path.join(ROOT, "canrun", "tests", "waits")
TOPICS = (
    *("sleeps", "polls", "signals", "awaited", "signalfds", "cancels", "locks", "conditions", "threads", "timers"),
    *("timerfds", "files", "queues", "sockets", "processes", "by_number"),
)
#: How many seconds longer a wait may take in real time, and how often all waits are tried on a busy machine.
LATE, TRIES = 2.0, 4


class Wait(NamedTuple):
    """The requested and the measured duration of a wait in microseconds, and its result."""

    wanted: float
    took: int
    result: str


def waits_in(text: str) -> Dict[str, Wait]:
    """Parses lines in the format `NAME MILLISECONDS MICROSECONDS RESULT`."""
    found = {}
    for line in text.splitlines():
        name, wanted, took, result = (*line.split(" ", 3), "")[:4]
        found[name] = Wait(float(wanted) * 1000, int(took), result)
    return found


def real(*words) -> Dict[str, Wait]:
    """Performs waits in real time, and returns their results."""
    ended = subprocess.run([*map(str, words)], capture_output=True, text=True, timeout=100, check=False)
    assert ended.returncode == 0, ended
    return waits_in(ended.stdout)


def compare(count: int, *words) -> None:
    """Performs waits in virtual time and in real time, and compares them."""
    ended = virtual(*words, options=("--stall", "10"))
    assert ended.returncode == 0, ended
    found = waits_in(ended.stdout)
    inexact = {name: wait for name, wait in found.items() if wait.took != wait.wanted}
    assert not inexact and len(found) == count, (inexact, ended.stderr)
    for number in range(TRIES):
        beside = real(*words)
        assert beside.keys() == found.keys()
        differ = {
            name: (wait, found[name])
            for name, wait in beside.items()
            if wait.result != found[name].result or not wait.wanted / 3 <= wait.took <= wait.wanted + LATE * 1e6
        }
        if not differ:
            return
        assert len(differ) < 5 and number + 1 < TRIES, differ


def skip_without(tool: str) -> None:
    """Skips a test if this program is not installed."""
    if shutil.which(tool) is None:
        pytest.skip(f"no {tool}")


@pytest.fixture(scope="module", name="program_of_c")
def make_program_of_c(request):
    """Builds the C program that performs the waits."""
    sources = [os.path.join(FOLDER, f"{name}.c") for name in ("main", *TOPICS)]
    words = ["gcc", *FLAGS, "-Wno-deprecated-declarations", *sources, "-lutil", "-o"]
    return made_once(request, "waits", lambda folder: subprocess.run([*words, folder / "waits"], check=True)) / "waits"


def names_of(topic):
    """Returns the names of the waits in a table."""
    with open(os.path.join(FOLDER, f"{topic}.c"), encoding="ascii") as file:
        return re.findall(rf'\{{"({topic}_\w+)",', file.read())


@needs_gcc
def test_c(program_of_c):
    """300 waits in C that run at the same time all take exactly the requested time"""
    count = sum(len(names_of(topic)) for topic in TOPICS)
    assert count > 300
    compare(count, program_of_c)


@needs_gcc
@pytest.mark.slow
@pytest.mark.parametrize("topic", TOPICS)
def test_often(program_of_c, topic):
    """no wait hangs in a thousand runs, and all runs are identical"""
    first = None
    for _ in range(1000):
        ended = virtual(program_of_c, *names_of(topic), options=("--stall", "20"))
        first = first or ended.stdout
        assert (ended.returncode, ended.stdout) == (0, first), ended


SCRIPTS = [
    ("waits.py", (sys.executable,), 43),
    *(
        ("waits.pl", ("perl",), 15),
        ("waits.sh", ("bash",), 13),
        ("waits.tcl", ("tclsh",), 7),
        ("waits.js", ("node",), 7),
    ),
]


@pytest.mark.parametrize("script, command, count", SCRIPTS, ids=[script for script, _, _ in SCRIPTS])
def test_script(script, command, count):
    """waits in Python, Perl, bash, Tcl and JavaScript take exactly the requested time"""
    skip_without(command[0])
    compare(count, *command, os.path.join(FOLDER, "languages", script))


def test_cpp(tmp_path):
    """waits in C++ take exactly the requested time"""
    skip_without("g++")
    source = os.path.join(FOLDER, "languages", "waits.cpp")
    subprocess.run(
        ["g++", "-std=c++17", "-Wall", "-Wextra", "-pthread", "-o", str(tmp_path / "waits"), source], check=True
    )
    compare(13, tmp_path / "waits")


def test_java(tmp_path):
    """waits in Java take exactly the requested time"""
    skip_without("javac")
    subprocess.run(["javac", "-d", str(tmp_path), os.path.join(FOLDER, "languages", "Waits.java")], check=True)
    compare(13, "java", "-cp", str(tmp_path), "Waits")
