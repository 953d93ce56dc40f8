"""The package as Python finds it: entry points work without an installation, and the version number is the same
everywhere."""

import ast
import configparser
import email
import graphlib
import importlib
import os
import pydoc
import re
import subprocess
import sys
from pathlib import Path

import pytest

import canbusd
from canbusd._process.program import find_program

tomllib = pytest.importorskip("tomllib")
CLONE = Path(__file__).resolve().parents[2]
SOURCES = CLONE / "python" / "src"
(INFO,) = SOURCES.glob("canbusd-*.dist-info")
# Only PYTHONPATH is set, as README describes.
ENVIRONMENT = {**os.environ, "PYTHONPATH": str(SOURCES), "PYTHONDONTWRITEBYTECODE": "1"}
TEST = """
import can, pytest

@pytest.mark.canbusd("a,b")
def test_it(canbusd):
    with can.Bus(interface="canbusd", channel="a", address=canbusd.address) as a, canbusd.bus("b") as b:
        a.send(can.Message(arbitration_id=0x123, is_extended_id=False))
        assert b.recv(10).arbitration_id == 0x123
"""


def project():
    return tomllib.loads((CLONE / "python" / "pyproject.toml").read_text(encoding="utf-8"))["project"]


def test_the_entry_points_of_a_clone_are_those_of_the_wheel():
    found = configparser.ConfigParser(delimiters="=")
    found.optionxform = str
    found.read(INFO / "entry_points.txt")
    assert {name: dict(found[name]) for name in found.sections()} == project()["entry-points"]


def test_the_metadata_of_a_clone_is_that_of_the_wheel():
    found, wanted = email.message_from_string((INFO / "METADATA").read_text(encoding="utf-8")), project()
    assert found["Name"] == wanted["name"]
    assert found["Summary"] == wanted["description"]
    assert found["Requires-Python"] == wanted["requires-python"]
    assert [re.sub("[ ()]", "", one) for one in found.get_all("Requires-Dist")] == wanted["dependencies"]


def public_names():
    """Yields the modules and names that are imported by documents, entry points and launchers."""
    texts = [*CLONE.glob("*.md"), *CLONE.glob("docs/*.md"), *CLONE.glob("examples/**/*.py"), *CLONE.glob("tools/*")]
    for path in filter(Path.is_file, texts):
        text = path.read_text(encoding="utf-8")
        for module, names in re.findall(r"^ *from (canbusd[\w.]*) import ([\w, ]+)", text, re.M):
            yield from ((module, name) for name in names.replace(" ", "").split(","))
        yield from ((module, "") for module in re.findall(r"-m (canbusd[\w.]*)", text))
    tables = [project()["scripts"], *project()["entry-points"].values()]
    yield from (tuple(f"{place}:".split(":")[:2]) for table in tables for place in table.values())


#: Modules that users may import, even if no document imports them.
PUBLIC = """
    bench bus candump2bench commands e2e faults frames isotp programs pytest_plugin record replay rest_bus rules server shapes
    signals steps strategies uds virtual
"""


def test_public_paths_can_be_imported():
    wanted = {*public_names(), *((f"canbusd.{module}", "") for module in PUBLIC.split())}
    wanted |= {("canbusd", name) for name in canbusd.__all__}
    assert {
        ("canbusd.strategies", "fault_plans"),
        ("canbusd.bus", "CanbusdBus"),
        ("canbusd.__main__", "main"),
    } <= wanted
    for module, name in sorted(wanted):
        found = importlib.import_module(module)
        assert not name or hasattr(found, name), f"{module} has no {name}"


#: The parts of the package in order, each with its top-level modules for users. A part imports only itself and earlier
#: parts.
LAYERS = """
    _text+_words+_python_can+_calls+_whole_file+_placement+_crc+virtual+frames+rules+faults+steps+_reports
    _session
    _isotp
    _uds+uds
    _process
    _library
    _database+signals
    e2e+_protected shapes
    _run+record+replay
    _expect
    bus local isotp programs strategies
    _restbus+rest_bus
    bench server local_can
    _page
    _sweep
    commands+candump2bench pytest_plugin
    __main__
"""


def imported(body):
    """Returns the names of the modules that are imported when this code is imported."""
    for statement in body:
        if isinstance(statement, ast.Import):
            yield from (alias.name for alias in statement.names)
        elif isinstance(statement, ast.ImportFrom):
            yield from (f"{statement.module}.{alias.name}" for alias in statement.names)
            yield statement.module
        elif isinstance(statement, (ast.Try, ast.With)):
            yield from imported(statement.body)


def package_imports():
    """Returns the modules of the package. Each is mapped to the package's modules that it imports."""
    paths = (SOURCES / "canbusd").rglob("*.py")
    names = {str(path.relative_to(SOURCES).with_suffix("")).replace("/", "."): path for path in paths}
    trees = {name.removesuffix(".__init__"): ast.parse(path.read_bytes()) for name, path in names.items()}
    return {
        name: {one for one in imported(tree.body) if one in trees and one != "canbusd"}
        for name, tree in trees.items()
        if name != "canbusd"
    }


def test_layers():
    rooms = {}
    for number, line in enumerate(LAYERS.split("\n")):
        rooms |= {module: (number, room) for room in line.split() for module in room.split("+")}
    found = package_imports()
    assert len(found) > 60 and {name.split(".")[1] for name in found} == set(rooms)
    for name, others in found.items():
        number, room = rooms[name.split(".")[1]]
        for layer, other_room, other in ((*rooms[other.split(".")[1]], other) for other in others):
            assert layer < number or other_room == room, f"{name} imports {other}, which is of a layer above it"
    # prepare() raises CycleError if there is a cycle of imports.
    graphlib.TopologicalSorter(found).prepare()


def modules_after(statement):
    """Returns the names of all modules that are loaded after a statement."""
    asks = f"{statement}; import sys; print(*sys.modules)"
    return set(subprocess.check_output([sys.executable, "-c", asks], env=ENVIRONMENT, text=True).split())


def test_imports_are_cheap():
    """`import canbusd` takes a few milliseconds, because slow modules are imported only when they are needed."""
    alone = modules_after("import canbusd") - modules_after("import importlib, typing")
    assert alone == {"canbusd"}
    most = modules_after("from canbusd import Bench, Faults, Frame, Server, load_database, read_record")
    assert not most & set("asyncio can cantools concurrent hypothesis http json pytest xml".split())


def test_help_begins_with_what_users_call():
    text = pydoc.plain(pydoc.render_doc(canbusd))
    called = ["Server", "Bench", "Faults", "CanbusdBus", "Frame", "IsoTp", "RestBus", "Program", "load_database"]
    places = [text.index(f"    {name} ") for name in [*called, "read_record", "is_virtual"]]
    assert places == sorted(places) and places[-1] < re.search(r"^ *_\w+", text, re.M).start()


@pytest.mark.parametrize("words", [[], ["-p", "canbusd.pytest_plugin"]])
def test_a_clone_without_an_installation(tmp_path, words):
    (tmp_path / "test_it.py").write_text(TEST)
    words = [
        sys.executable,
        "-m",
        "pytest",
        "-q",
        "-p",
        "no:cacheprovider",
        *words,
        "--canbusd-keep=failed",
        "test_it.py",
    ]
    done = subprocess.run(words, cwd=tmp_path, env=ENVIRONMENT, capture_output=True, text=True, check=False)
    assert "1 passed" in done.stdout, done.stdout + done.stderr


def test_an_older_python():
    """On Python 3.8 the package reports that this version is too old, instead of failing in the middle of a module."""
    asks = "import sys; sys.version_info = (3, 8, 19, 'final', 0); import canbusd"
    done = subprocess.run([sys.executable, "-c", asks], env=ENVIRONMENT, capture_output=True, text=True, check=False)
    assert done.stderr.endswith("ImportError: canbusd needs Python 3.9 or later, and this is 3.8\n")


MISTAKES = """
from canbusd import Bench, Faults, Server
with Server("a,b", ack="nobody") as server:
    server.expect_state("a", "of")
    print(server.state("a") == "bus off")
    server.isotp("a", tx=1, rx=2, library="isotp")
    print([attempt for attempt in server.attempts() if attempt.outcome == "failed"])
Server("a", record="always")
Bench("a", ack="nobody")
Faults().next(1).destroyed("crc")
Faults().destroyed(1, "crc")
Faults().next(1).local("bit", "a")
Faults().local("bit", "a", 1)
Faults().last_bit()
Server("a", pace=1)
"""


def test_a_type_checker_sees_words_that_are_none(tmp_path):
    pytest.importorskip("mypy")
    (tmp_path / "mistakes.py").write_text(MISTAKES)
    words = [sys.executable, "-m", "mypy", "--strict", "--cache-dir", os.devnull, "mistakes.py"]
    environment = {**ENVIRONMENT, "MYPYPATH": str(SOURCES)}
    done = subprocess.run(words, cwd=tmp_path, env=environment, capture_output=True, text=True, check=False)
    wrong = {int(line) for line in re.findall(r"^mistakes.py:(\d+): error: ", done.stdout, re.M)}
    assert wrong == {*range(3, 16)}, done.stdout


def test_one_version(installed):
    version = canbusd.__version__
    assert INFO.name == f"canbusd-{version}.dist-info"
    assert email.message_from_string((INFO / "METADATA").read_text(encoding="utf-8"))["Version"] == version
    assert re.search(r"^## (\d\S+)", (CLONE / "CHANGELOG.md").read_text(encoding="utf-8"), re.M)[1] == version
    manual = (CLONE / "canbusd.1").read_text(encoding="utf-8").splitlines()[0]
    assert manual.endswith(f' "canbusd {version}"')
    asks = "from importlib.metadata import version; print(version('canbusd'))"
    words = [sys.executable, "-c", asks]
    assert subprocess.check_output(words, env=installed, cwd="/", text=True) == f"{version}\n"


def test_the_version_of_the_program():
    said = subprocess.check_output([find_program(), "--version"], text=True)
    assert said == f"canbusd {canbusd.__version__}\n"


@pytest.mark.parametrize(
    "python_can, said",
    [
        ("raise ModuleNotFoundError('No module named can', name='can')", "and there is none"),
        ("__version__ = '4.0.0'", "and found 4.0.0"),
        ("__version__ = '3.3.2.final.0-1'", "and found 3.3.2.final.0-1"),
    ],
)
@pytest.mark.parametrize("command", ["dump", "send", "status", "watch"])
def test_without_a_python_can_that_fits(tmp_path, python_can, said, command):
    (tmp_path / "can.py").write_text(python_can)
    environment = {**ENVIRONMENT, "PYTHONPATH": os.pathsep.join([str(tmp_path), str(SOURCES)])}
    words = [sys.executable, "-m", "canbusd", command, "can0"]
    done = subprocess.run(words, env=environment, capture_output=True, text=True, check=False)
    assert done.returncode == 1
    assert re.fullmatch(
        rf"canbusd {command}: canbusd needs python-can 4.1 or later, {said}: `apt-get install python3-can` .*\n",
        done.stderr,
    )
