"""The helpers for the tests: runs without a program, waits with a timeout, sleeping threads, and tests in several
processes."""

import os
import shutil
import subprocess
import sys
import threading
import time
import types

import pytest

from few_at_a_time import MOST, pytest_xdist_make_scheduler
from serving import ROOT, all_sleep, come_true, join, line_of, turns


def run_in(folder, **more):
    """Runs one test in this copy of the repository, for at most a minute. Returns the status and the output."""
    environment = {name: value for name, value in os.environ.items() if name != "CANBUSD"}
    done = subprocess.run(
        [sys.executable, "-m", "pytest", "-q", os.path.join(folder, "tests", "bench", "test_bench_dialogue.py")],
        env={**environment, **more},
        capture_output=True,
        text=True,
        timeout=60,
        check=False,
    )
    return done.returncode, done.stdout + done.stderr


def test_no_program_of_these_sources(tmp_path):
    """If there is no program built from these sources, no test runs, nothing is built, and a message shows how to build
    it."""
    for name in ("tests", "scripts", "python"):
        shutil.copytree(os.path.join(ROOT, name), tmp_path / name)
    shutil.copy(os.path.join(ROOT, "pytest.ini"), tmp_path)
    (tmp_path / "crates" / "can_bus" / "src").mkdir(parents=True)
    (tmp_path / "crates" / "can_bus" / "src" / "lib.rt").write_text("// other sources\n")
    (tmp_path / "crates.txt").write_text("can_bus:\n")
    status, output = run_in(tmp_path)
    assert status == pytest.ExitCode.USAGE_ERROR, output
    assert "no program fits these sources: `make` proves and builds it" in output, output
    assert "passed" not in output and "failed" not in output, output


def test_no_program_of_that_name():
    status, output = run_in(ROOT, CANBUSD="/nonexistent/canbusd")
    assert status == pytest.ExitCode.USAGE_ERROR, output
    assert "CANBUSD names no program: /nonexistent/canbusd" in output, output


@pytest.mark.parametrize(
    "folder, tests",
    [
        (".", ["python/tests/test_server.py::test_the_program_of_the_clone", "tests/bench/test_bench_dialogue.py"]),
        ("python", ["tests/test_server.py::test_the_program_of_the_clone"]),
        ("canrun/tests", ["test_run_kernel.py::test_differences"]),
    ],
)
def test_no_variable_has_to_be_set(folder, tests):
    """Tests run without any environment variables, from any folder in which pytest is called."""
    variables = ("CANBUSD", "CANBUSD_RUN", "PYTHONPATH", "PYTEST_ADDOPTS")
    done = subprocess.run(
        [sys.executable, "-m", "pytest", "-q", "-p", "no:cacheprovider", *tests],
        cwd=os.path.join(ROOT, folder),
        env={name: value for name, value in os.environ.items() if name not in variables},
        capture_output=True,
        text=True,
        timeout=120,
        check=False,
    )
    assert done.returncode == 0 and f"{len(tests)} passed" in done.stdout, done.stdout + done.stderr


def test_turns():
    """turns() continues until the loop is left. When the time has run out, it fails."""
    begin = time.monotonic()
    for count, _ in enumerate(turns("three")):
        if count == 3:
            break
    with pytest.raises(AssertionError, match="not within 0.2 seconds: the end"):
        for _ in turns("the end", 0.2):
            time.sleep(0.01)
    assert time.monotonic() - begin >= 0.2


def test_come_true():
    assert come_true(lambda: True, 0.1) is True
    assert come_true(lambda: False, 0.1) is False
    late = time.monotonic() + 0.1
    assert come_true(lambda: time.monotonic() > late)


def test_join():
    go_on = threading.Event()
    thread = threading.Thread(target=go_on.wait)
    thread.start()
    with pytest.raises(AssertionError, match="a thread goes on after 0.1 seconds"):
        join([thread], 0.1)
    go_on.set()
    join([thread])


def test_all_sleep():
    """A process that waits for input counts as asleep, and so does a process that has ended. A process that is
    computing does not."""
    waiting = subprocess.Popen(["cat"], stdin=subprocess.PIPE, stdout=subprocess.DEVNULL)
    counts = "print('counting', flush=True)\nwhile True: pass"
    counting = subprocess.Popen([sys.executable, "-c", counts], stdout=subprocess.PIPE, text=True)
    try:
        assert line_of(counting.stdout) == "counting\n"
        assert come_true(lambda: all_sleep([waiting.pid]))
        assert not any(all_sleep([waiting.pid, counting.pid]) for _ in range(20))
        counting.kill()
        assert come_true(lambda: all_sleep([waiting.pid, counting.pid]))
    finally:
        counting.kill()
        counting.communicate()
        waiting.communicate()


class Process:
    """A stand-in for a worker process of pytest-xdist."""

    def __init__(self):
        self.given, self.shutting_down, self.gateway = [], False, types.SimpleNamespace(id="")

    def send_runtest_some(self, places):
        self.given.append(places)

    def shutdown(self):
        self.shutting_down = True


@pytest.mark.parametrize("sizes", [[1], [3, 1, 1], [100, 1, 60], [1] * 50, [16], [500, 2, 500]])
def test_few_at_a_time(sizes):
    """Each test is given to one process, with a limit on tests from one file at a time. Every process is shut down."""
    pytest.importorskip("xdist", reason="no pytest-xdist (python3-pytest-xdist)")
    values = {"dist": "load", "tx": ["popen"] * 3}
    scheduler = pytest_xdist_make_scheduler(types.SimpleNamespace(getvalue=values.get), None)
    tests = [f"{file}.py::{number}" for file, size in enumerate(sizes) for number in range(size)]
    processes = [Process() for _ in range(3)]
    for process in processes:
        scheduler.add_node(process)
    for process in processes:
        scheduler.add_node_collection(process, tests)
    scheduler.schedule()
    for _ in range(len(tests)):
        for process, places in scheduler.node2pending.items():
            # A worker needs to have its next test before it runs the current one, unless it is shutting down.
            assert len(places) > 1 or process.shutting_down
            if places:
                scheduler.mark_test_complete(process, places[0], 1)
    given = [places for process in processes for places in process.given]
    assert sorted(place for places in given for place in places) == [*range(len(tests))]
    assert all(len(places) <= MOST and len({tests[place].split("::")[0] for place in places}) == 1 for places in given)
    assert all(process.shutting_down for process in processes)
