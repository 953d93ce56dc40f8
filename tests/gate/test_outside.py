"""scripts/outside: how it counts tests, which tests it repeats, and which skips it counts as failures."""

import importlib.machinery
import importlib.util
import os
import re
import sys

import pytest

from commands import call
from serving import ROOT

SCRIPT = os.path.join(ROOT, "scripts", "outside")

# A test file with three tests that pass, two that fail, and one that is skipped.
SUITE = """
import pytest

@pytest.fixture
def broken():
    yield
    raise OSError

@pytest.mark.parametrize("number", [1, 2, "a b::c"])
def test_passes(number):
    pass

def test_fails():
    assert False

def test_fails_in_the_end(broken):
    pass

def test_is_skipped():
    pytest.skip("it rains")
"""
# A test file with a test that passes at once, one that passes at the third try, and one that never passes. Each test
# records its tries.
TRIED = """
import pytest

pytestmark = pytest.mark.quiet

def tries(name):
    with open(f"{name}.tries", "a+") as file:
        file.write("x")
        file.seek(0)
        return len(file.read())

def test_at_once():
    assert tries("at_once") == 1

def test_late():
    assert tries("late") == 3

def test_never():
    assert tries("never") == 0
"""
INI = "[pytest]\nmarkers =\n    quiet: q\n    slow: s\n    sanitized: z\n"


@pytest.fixture(scope="module")
def outside():
    """The script, loaded as a module."""
    loader = importlib.machinery.SourceFileLoader("outside", SCRIPT)
    module = importlib.util.module_from_spec(importlib.util.spec_from_loader("outside", loader))
    sys.modules["outside"] = module
    loader.exec_module(module)
    return module


def suite(outside, folder, text):
    (folder / "pytest.ini").write_text(INI)
    (folder / "test_some.py").write_text(text)
    return outside.Suite((sys.executable, "-m", "pytest", "-q", "-p", "no:cacheprovider"), str(folder))


def test_results(outside, tmp_path):
    results, text = suite(outside, tmp_path, SUITE).run()
    assert {name.partition("::")[2]: result for name, result in results.items()} == {
        "test_passes[1]": "passed",
        "test_passes[2]": "passed",
        "test_passes[a b::c]": "passed",
        "test_fails": "failed",
        "test_fails_in_the_end": "failed",
        "test_is_skipped": "it rains",
    }, text
    assert {name.partition("::")[0] for name in results} == {"test_some.py"}


@pytest.mark.parametrize("text", ["import nothing_of_this_name\n", "import os\nos._exit(0)\n", "x = (\n"])
def test_a_run_that_breaks(outside, tmp_path, text):
    """A run that stops before it has counted its tests has failed."""
    results, _ = suite(outside, tmp_path, text).run()
    assert results and {*results.values()} == {"failed"}


def test_nothing_runs(outside, tmp_path, monkeypatch):
    """A part without tests has failed, but the quiet part may have none."""
    monkeypatch.setitem(outside.ROOMS, "bench", ("test_some.py",))
    monkeypatch.setattr(outside, "JOBS", "2")
    empty = suite(outside, tmp_path, "")
    assert outside.side_by_side(empty, ["bench"], "") == {"pytest": "failed"}
    assert outside.on_a_quiet_machine(empty, ["bench"], "") == {}


def test_without_what_may_be_missing(outside, tmp_path, monkeypatch):
    """Without pytest-xdist, tests run one after another. If a tool is missing, its part is skipped."""
    monkeypatch.setattr(outside, "has_module", lambda name: False)
    monkeypatch.setitem(outside.ROOMS, "bench", ("test_some.py",))
    text = "def test_one(request):\n    assert not hasattr(request.config, 'workerinput')\n"
    results = outside.side_by_side(suite(outside, tmp_path, text), ["bench"], "")
    assert results == {"test_some.py::test_one": "passed"}
    assert not [word for word in outside.pytest_suite().words if "timeout" in word]
    assert outside.check("no-tool", ["no-tool"]) == "no-tool is not installed"


def test_a_run_that_hangs(outside, tmp_path, monkeypatch):
    monkeypatch.setattr(outside, "LONGEST", 1)
    text = "import time\ndef test_hangs():\n    time.sleep(1000)\n"
    results, written = suite(outside, tmp_path, text).run()
    assert results == {"pytest": "failed"} and written.endswith("\nended after 1 seconds\n")


def test_a_test_that_hangs(outside, tmp_path):
    """A test that hangs fails after its timeout, and the next tests run."""
    pytest.importorskip("pytest_timeout", reason="no pytest-timeout (python3-pytest-timeout)")
    assert f"--timeout={outside.LONGEST_TEST}" in outside.pytest_suite().words
    text = "import time\ndef test_hangs():\n    time.sleep(1000)\ndef test_goes_on():\n    pass\n"
    results, written = suite(outside, tmp_path, text).run("--timeout=1")
    assert results == {"test_some.py::test_hangs": "failed", "test_some.py::test_goes_on": "passed"}, written


def test_what_fails_is_tried_again(outside, tmp_path, monkeypatch, capsys):
    """A failed test is repeated by itself, and each try is shown."""
    monkeypatch.setitem(outside.ROOMS, "bench", ("test_some.py",))
    results = outside.on_a_quiet_machine(suite(outside, tmp_path, TRIED), ["bench"], "")
    wanted = {"test_at_once": "passed", "test_late": "passed", "test_never": "failed"}
    assert {name.partition("::")[2]: result for name, result in results.items()} == wanted
    assert {path.stem: len(path.read_text()) for path in tmp_path.glob("*.tries")} == {
        "at_once": 1,
        "late": 3,
        "never": 3,
    }
    told = [line for line in capsys.readouterr().out.splitlines() if line.startswith("failed, try ")]
    both = "test_some.py::test_late test_some.py::test_never"
    assert told == [f"failed, try 2 of 3: {both}", f"failed, try 3 of 3: {both}"]


def test_skips(outside, monkeypatch, capsys):
    """Every skip is listed. If every skip has to be allowed, a skip without a line in the list counts as a failure."""
    monkeypatch.setattr(outside, "may_be_skipped", lambda: ["tests/bench/test_a.py: it rains"])
    results = {
        "tests/bench/test_a.py::test_1": "passed",
        "tests/bench/test_a.py::test_2": "it rains",
        "tests/bench/test_a.py::test_3": "it rains",
        "tests/gate/test_b.py::test_4": "it rains",
        "types": "mypy is not installed",
    }
    allowed = outside.without_unknown_skips(results)
    assert [*allowed.values()] == ["passed", "it rains", "it rains", "failed", "failed"]
    outside.list_skips(results, allowed)
    assert capsys.readouterr().out.splitlines() == [
        "skipped: 2 of tests/bench/test_a.py: it rains",
        "skipped, which scripts/may-be-skipped does not allow: 1 of tests/gate/test_b.py: it rains",
        "skipped, which scripts/may-be-skipped does not allow: 1 of types: mypy is not installed",
    ]
    outside.list_skips(results, results)
    assert "does not allow" not in capsys.readouterr().out
    assert outside.counts_of(allowed) == {"bench": (1, 0, 2), "gate": (0, 1, 0), "types": (0, 1, 0)}


@pytest.mark.parametrize(
    "name, part",
    [
        ("tests/server/test_load.py::test_load[1]", "server"),
        ("canrun/tests/test_run_c.py::test_program[plain-calls]", "canrun"),
        ("canrun/tests/test_run_c.py::test_program[sanitized-calls]", "sanitizers"),
        ("examples/python/test_lamp.py::test_lamp", "python"),
        ("python/tests/test_bus.py::test_send in virtual time", "virtual time"),
    ],
)
def test_the_part_of_a_test(outside, name, part):
    assert outside.part_of(name) == part


def test_both_parts_of_a_folder(outside):
    """If both parts of a folder are chosen, they form one run. If only one part is chosen, the tests of the other part
    are left out."""
    both, each = outside.groups_of(["canrun", "sanitizers"]), outside.groups_of(["bench", "sanitizers"])
    assert (both, each) == ([["canrun", "sanitizers"]], [["bench"], ["sanitizers"]])
    marks = [outside.tests_of(parts, "quiet")[1] for parts in (*both, *each)]
    assert marks == ["quiet and not slow", "quiet and not sanitized and not slow", "quiet and sanitized and not slow"]


def test_each_line_that_allows_a_skip_names_a_test_file(outside):
    for line in outside.may_be_skipped():
        file, _, reason = line.partition(": ")
        assert reason and os.path.isfile(os.path.join(ROOT, file)), line


def test_each_test_is_of_one_part(outside):
    """Every folder with tests belongs to a part, and every folder of a part exists."""
    places = {path for paths in outside.ROOMS.values() for path in paths}
    assert all(os.path.isdir(os.path.join(ROOT, place)) for place in places)
    with_tests = {
        os.path.relpath(folder, ROOT)
        for top in ("tests", "canrun", "python", "examples")
        for folder, _, names in os.walk(os.path.join(ROOT, top))
        if any(re.fullmatch(r"test_.*\.py", name) for name in names)
    }
    # Tests of the package and of canbusd-run run these folders.
    others = {f"examples/{name}" for name in ("c", "car", "recipes", "sweep", "virtual_ecu")}
    assert with_tests - others == places


def test_words():
    status, listed, _ = call(SCRIPT, "--list")
    assert status == 0 and "bench" in listed.splitlines()
    status, written, said = call(SCRIPT, "nothing")
    assert (status, written) == (2, "") and "no part nothing; there are " in said
