"""`canbusd bench` compared with an independent program, on random runs. The independent program is benches/limit.c, or
the source file that --other names, compiled with cc. It is called as `PROGRAM bench OPTIONS BUS`, like canbusd.
Standard output, the status and the line of an error must be equal. For an error in the command line, only the status
must be equal.
"""

import itertools
import os
import shlex
import shutil
import subprocess

import pytest

from random_benches import Maker

COMPILER = os.environ.get("CC", "cc")
pytestmark = pytest.mark.skipif(not shutil.which(COMPILER), reason=f"no C compiler: {COMPILER}")


@pytest.fixture
def other(request, tmp_path):
    """The independent program, compiled."""
    source = request.config.getoption("other")
    program = tmp_path / "other"
    subprocess.run([COMPILER, "-O2", "-march=native", "-o", program, source], check=True)
    return str(program)


def run(program, case, folder):
    return subprocess.run(
        [program] + case.words, input=case.text, cwd=folder, capture_output=True, timeout=60, check=False
    )


def difference(one, other):
    """Returns the first difference between two runs, or None if they agree."""
    if one.returncode != other.returncode:
        return f"status {one.returncode}, other {other.returncode}: {one.stderr!r}, other {other.stderr!r}"
    # Only canbusd writes further lines to standard error, after the line of an error or after a complete run.
    if one.returncode == 1 and one.stderr.splitlines()[:1] != other.stderr.splitlines()[:1]:
        return f"standard error {one.stderr!r}, other {other.stderr!r}"
    lines = itertools.zip_longest(one.stdout.split(b"\n"), other.stdout.split(b"\n"))
    for number, (here, there) in enumerate(lines, 1):
        if here != there:
            return f"line {number} of the output: {here!r}, other {there!r}"
    return None


def test_beside_an_independent_program(request, program, other, cases, tmp_path):
    """The two programs agree on random runs. The files of runs that differ are kept."""
    maker, faults = Maker(request.config.getoption("seed"), has_newer=False), []
    for number in range(cases):
        case, folder = maker.case(), tmp_path / str(number % 2)
        case.write_to(folder)
        differs = difference(run(program, case, folder), run(other, case, folder))
        if differs:
            case.write_to(tmp_path / f"differs{number}")
            faults.append(f"{tmp_path}/differs{number}: {shlex.join(case.words)}: {differs}")
    assert not faults, "\n".join(faults[:10])
