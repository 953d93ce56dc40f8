"""The programs of the benchmarks: the plain C programs compile without a warning, and `limit` writes the same output as canbusd."""

import os
import re
import shutil
import subprocess

import pytest

from commands import examples
from made_once import made_once
from serving import ROOT

pytestmark = pytest.mark.skipif(not (shutil.which("cc") and shutil.which("make")), reason="not installed: cc or make")


@pytest.fixture(scope="module")
def built(request):
    """Builds the programs, and returns their folder."""

    def build(folder):
        shutil.copytree(os.path.join(ROOT, "benches"), folder, dirs_exist_ok=True)
        done = subprocess.run(["make", "-s", "-C", folder, "clean", "all"], capture_output=True, text=True, check=False)
        assert (done.returncode, done.stderr) == (0, "")

    return made_once(request, "benches", build)


# The C programs support scripts, but no fault rules and no bit rates.
@pytest.mark.parametrize("name", sorted({*examples()} - {"one_goes_bus_off", "response_times"}))
def test_examples(built, name):
    with open(os.path.join(ROOT, "examples", f"{name}.bench"), encoding="utf-8") as file:
        words = re.search(r"\./canbusd (bench .+) < ", file.read())[1].split()
    with open(os.path.join(ROOT, "examples", f"{name}.bench"), "rb") as lines:
        done = subprocess.run([built / "limit", *words], stdin=lines, cwd=ROOT, capture_output=True, check=False)
    with open(os.path.join(ROOT, "examples", f"{name}.out"), "rb") as wanted:
        assert (done.returncode, done.stdout) == (0, wanted.read())


@pytest.mark.slow
def test_the_server_and_its_client(built):
    """The client finds every deliberate bug of a server, and no bug in a correct server."""
    done = subprocess.run([built / "serve_test.py"], capture_output=True, text=True, check=False)
    assert done.returncode == 0, done.stdout + done.stderr
