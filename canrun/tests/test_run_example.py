"""The examples that use canbusd-run: a program that goes bus off, a car, and a virtual ECU."""

import os
import shutil
import subprocess
import sys

import pytest

from running import command, needs_gcc
from serving import ROOT, program

pytest.importorskip("can", reason="no python-can: apt-get install python3-can")


def run_example(folder, *options, patience=240):
    """Runs the tests of an example as the guide shows. Returns the output of pytest."""
    words = [sys.executable, "-m", "pytest", "-q", "-p", "no:cacheprovider", "-p", "canbusd.pytest_plugin", *options]
    env = {**os.environ, "CANBUSD": program(), "CANBUSD_RUN": command()}
    done = subprocess.run(
        [*words, folder], cwd=ROOT, env=env, stdout=subprocess.PIPE, stderr=subprocess.STDOUT, text=True, timeout=patience,
        check=False,
    )  # fmt: skip
    assert done.returncode == 0 and "skipped" not in done.stdout, done.stdout
    return done.stdout


@needs_gcc
def test_heartbeat():
    assert "1 passed" in run_example("examples/c")


@needs_gcc
@pytest.mark.parametrize("options", [pytest.param((), marks=pytest.mark.quiet), ("--canbusd-virtual",)])
def test_car(options):
    """all 12 tests pass for each instrument cluster, in real and in virtual time; a busy machine disturbs only the
    tests in real time"""
    pytest.importorskip("canmatrix", reason="no canmatrix: apt-get install python3-canmatrix")
    assert "24 passed" in run_example("examples/car", *options)


@pytest.mark.slow
def test_virtual_ecu():
    """a guest system in QEMU works with its own CAN driver"""
    if not shutil.which("qemu-system-x86_64") or "CANBUSD_KERNEL" not in os.environ:
        pytest.skip("no qemu-system-x86_64, or CANBUSD_KERNEL names no kernel (examples/virtual_ecu/guest)")
    assert "5 passed" in run_example("examples/virtual_ecu", patience=900)
