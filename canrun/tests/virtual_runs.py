"""Runs programs in virtual time for tests, and runs cases whose output and files are compared."""

import importlib.util
import os
import re
import subprocess
import sys

import pytest

from made_once import made_once
from running import FLAGS, command, needs
from serving import ROOT, program

SOURCES = os.path.join(ROOT, "canrun", "tests", "virtual_c")
CASES = os.path.join(ROOT, "canrun", "tests", "virtual_cases")

needs_can = pytest.mark.skipif(not importlib.util.find_spec("can"), reason="no python-can")
needs_tools = needs("candump", "cangen", "canplayer")

#: The names of the C programs in virtual_c/.
NODES = "bcm cyclic drawn forger full isotp j1939 late lent many orphans race respond slow_end unseen waits".split()


@pytest.fixture(scope="module")
def nodes(request):
    """Compiles the C programs, and returns their folder."""

    def compile_all(folder):
        for name in NODES:
            source = os.path.join(SOURCES, f"{name}.c")
            subprocess.run(["gcc", *FLAGS, "-o", str(folder / name), source], check=True)

    return made_once(request, "nodes", compile_all)


def virtual(*words, options=(), patience=300, **how):
    """Runs a program in virtual time. Returns the completed process with its status and output."""
    line = [command(), "--virtual", *options, "--", *map(str, words)]
    return subprocess.run(line, capture_output=True, text=True, timeout=patience, check=False, **how)


def files_below(folder):
    """Returns the contents of all files below a folder, by name."""
    return {
        str(path.relative_to(folder)): path.read_bytes()
        for path in sorted(folder.rglob("*"))
        if path.is_file() and path.name != "address"
    }


def case(name, folder, nodes, options=(), **settings):
    """Runs a case of virtual_cases/. Returns its output and the files that it left."""
    env = {
        **os.environ,
        "RUN": command(),
        "CANBUSD": program(),
        "NODES": str(nodes),
        "CASES": CASES,
        "OUT": str(folder),
    }
    env.update(PYTHON=sys.executable, PYTHONPATH=os.path.join(ROOT, "python", "src"), PYTHONDONTWRITEBYTECODE="1")
    env.pop("PYTEST_ADDOPTS", None)
    script = os.path.join(CASES, f"{name}.sh")
    ended = virtual("bash", script, options=options, env={**env, "KIND": "", **settings})
    assert ended.returncode == 0, ended
    return {"stdout": ended.stdout, "stderr": ended.stderr, **files_below(folder)}


def fails(ended, pattern):
    """Checks that a run ended with status 125 and that its standard error matches this pattern."""
    assert ended.returncode == 125 and re.search(pattern, ended.stderr), ended
