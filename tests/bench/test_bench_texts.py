"""Benches described as text: the input, and the expected output, which was worked out from the rules of the bus."""

import subprocess

import pytest

from bench_cases import named_cases
from serving import program


@pytest.mark.parametrize("case", named_cases())
def test_a_bench_writes_what_the_rules_give(case, tmp_path):
    (tmp_path / "script").write_text(case.script, encoding="utf-8")
    done = subprocess.run(
        [program(), *case.words], input=case.input.encode(), cwd=tmp_path, capture_output=True, timeout=60, check=False
    )
    assert done.stdout.decode() == case.output
    assert (done.returncode, done.stderr) == (0, b"")
