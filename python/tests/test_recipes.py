"""Each recipe is a test file in examples/recipes. The recipe runs unchanged, and the document prints it."""

import ast
import importlib.util
import os
import re
import shutil
import subprocess
import sys
from pathlib import Path

import pytest
from made_once import made_once

TOP = Path(__file__).resolve().parents[2]
RECIPES, DOCUMENT = TOP / "examples" / "recipes", TOP / "docs" / "RECIPES.md"
MOST_LINES = 25
NEEDED = {
    "udsoncan": "udsoncan",
    "a_rest_bus": "canmatrix",
    "end_to_end_protection": "canmatrix",
    "shapes_of_signals": "canmatrix",
}


def recipes():
    """Returns the paths of all recipes, by recipe name."""
    return {path.stem[len("test_") :]: path for path in sorted(RECIPES.glob("test_*.py"))}


def run(installed, folder, names, *words, **environment):
    """Runs copies of the recipes, and returns pytest's output."""
    for name in names:
        shutil.copy(recipes()[name], folder)
    done = subprocess.run(
        [sys.executable, "-m", "pytest", "-rA", "-p", "no:cacheprovider", f"--basetemp={folder}/runs", *words],
        cwd=folder, env={**installed, **environment}, capture_output=True, text=True, timeout=300, check=False,
    )  # fmt: skip
    return done.stdout


@pytest.fixture(scope="module")
def written(installed, request):
    """pytest's output for all recipes whose required modules are installed."""
    there = [name for name in recipes() if name not in NEEDED or importlib.util.find_spec(NEEDED[name])]

    def make(folder):
        (folder / "go").symlink_to(RECIPES.parent / "go")
        (folder / "recipes").mkdir()
        (folder / "written").write_text(run(installed, folder / "recipes", there))

    return (made_once(request, "recipes", make) / "written").read_text()


def test_all_recipes_are_there():
    assert len(recipes()) == 26
    named = re.findall(r"\]\(\.\./examples/recipes/test_(\w+)\.py\)", DOCUMENT.read_text(encoding="utf-8"))
    assert sorted(named) == sorted(recipes())
    for name, path in recipes().items():
        text = path.read_text(encoding="utf-8")
        assert ast.get_docstring(ast.parse(text)), name
        code = text.splitlines()[ast.parse(text).body[1].lineno - 1 :]
        assert len(code) <= MOST_LINES, name


@pytest.mark.parametrize("name", recipes())
def test_a_recipe(written, name):
    if name == "a_virtual_ecu" and "GUEST" not in os.environ:
        pytest.skip("GUEST names no folder with vmlinuz and initrd")
    if name == "a_go_node" and not shutil.which("go"):
        pytest.skip("no go: apt-get install golang-go")
    if name in NEEDED:
        pytest.importorskip(NEEDED[name], reason=f"{NEEDED[name]} is not installed; Debian 12 has canmatrix only")
    assert re.search(rf"^PASSED test_{name}\.py::", written, re.M), written
    assert not re.search(rf"^(FAILED|ERROR) test_{name}\.py", written, re.M), written


def test_virtual_time(installed, tmp_path):
    """All recipes run in virtual time, except those with programs that use the real clock."""
    others = ("a_virtual_ecu", "a_go_node")
    there = [name for name in recipes() if name not in others]
    names = [name for name in there if name not in NEEDED or importlib.util.find_spec(NEEDED[name])]
    written = run(installed, tmp_path, names, "--canbusd-virtual")
    assert {f"test_{name}.py" for name in names} == set(re.findall(r"^PASSED (\w+\.py)::", written, re.M)), written
    assert not re.search("^(FAILED|ERROR) ", written, re.M), written


@pytest.mark.skipif(not shutil.which("gcc") or not shutil.which("candump"), reason="no gcc or no can-utils")
def test_the_first_found_fault(installed, tmp_path):
    """The commands of this recipe work when they are run one after another in a clone."""
    text = DOCUMENT.read_text(encoding="utf-8").partition("## The first found fault\n")[2].partition("\n## ")[0]
    commands = re.findall(r"^ +\$ (.*(?:\n {9,}\S.*)*)", text, re.M)
    (test,) = re.findall(r"^```python\n(.*?)^```$", text, re.M | re.S)
    (tmp_path / "test_mine.py").write_text(test)
    for name in ("canbusd", "canbusd-run", "examples"):
        (tmp_path / name).symlink_to(TOP / name)
    python = tmp_path / "bin" / "python3"
    python.parent.mkdir()
    python.symlink_to(sys.executable)
    env = {**installed, "PATH": f"{python.parent}:{installed['PATH']}", "PYTEST_ADDOPTS": "-p no:cacheprovider"}
    outputs = []
    for command in commands:
        done = subprocess.run(command, shell=True, cwd=tmp_path, env=env, capture_output=True, text=True, check=False)
        outputs.append(done.stdout)
    assert len(outputs) == 4
    assert re.findall(r"tester +200 +\[1\] +(\d\d)", outputs[1]) == ["00", "01", "02"], outputs[1]
    assert "1 passed" in outputs[2], outputs[2]
    shown = re.findall(r"^ {7}(.*(?: run, |placements fail).*)$", text, re.M)
    assert len(shown) == 2 and all(f"{line}\n" in outputs[3] for line in shown), outputs[3]
    assert re.search(r"faults=\"next 1 from tester id 123 lastbit\"", outputs[3]) and "index.html" in outputs[3]


def test_side_by_side(installed, tmp_path):
    pytest.importorskip("xdist", reason="no pytest-xdist (python3-pytest-xdist)")
    assert "4 passed" in run(installed, tmp_path, ["tests_side_by_side"], "-n", "2")


def test_a_fleet(installed, tmp_path):
    assert "1 passed" in run(installed, tmp_path, ["a_fleet_of_runs"], RUN="1")
