"""The worked examples produce the outputs in the files next to them. These outputs follow from the rules of the bus."""

import os
import re
import subprocess

import pytest

from commands import examples
from serving import ROOT


@pytest.mark.parametrize("name", examples())
def test_example(program, name):
    """The first lines of an example show its arguments, after `./canbusd`."""
    bench, expected = (os.path.join(ROOT, "examples", f"{name}.{ending}") for ending in ("bench", "out"))
    with open(bench, encoding="utf-8") as file:
        words = re.search(r"\./canbusd (.*) < examples/", file.read())[1].split()
    with open(bench, "rb") as file:
        done = subprocess.run([program, *words], stdin=file, capture_output=True, cwd=ROOT, timeout=60, check=False)
    with open(expected, "rb") as file:
        assert (done.returncode, done.stdout) == (0, file.read()), done.stderr
