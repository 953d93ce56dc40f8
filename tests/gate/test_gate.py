"""scripts/test: the counts that it prints, and the order in which it runs the program's tests and the proofs. Stand-ins
for the parts record how they are called."""

import os
import shutil
import subprocess

import pytest

from serving import ROOT

# Each stand-in records that it was called, and prints the last line that its part would print.
STAND_INS = {
    "bin/nproc": "echo ${PROCESSORS:-4}",
    "bin/rt": """
echo "rt: can_memory_tests proved"
while [ -e wait ] && ! grep -q 'outside busy' calls; do sleep 0.1; done
echo 'echo the program' >crates/canbusd/out/canbusd && chmod +x crates/canbusd/out/canbusd
echo "${PROVED:-7 passed, 0 failed}"
""",
    "scripts/rattle-tests": 'echo "5 passed, 0 failed"',
    "scripts/edits": 'echo "3 passed, 0 failed"',
    "scripts/program": """
case "$*" in
"compare dist/canbusd") exit "${DIST:-0}" ;;
compare) exit "${COMPARED:-0}" ;;
sources) echo 1234 ;;
mark*) echo "mark" >>calls ;;
esac
""",
    "scripts/library": 'exit "${LIBRARY:-0}"',
    "scripts/outside": """
program=${CANBUSD+ $(realpath --relative-to . "$CANBUSD")}
echo "outside $2$program" >>calls
if [ "$2" = busy ] && [ "$program" = " dist/canbusd" ]; then echo "${EARLY:-9 passed, 0 failed, 2 skipped}"; exit; fi
echo "9 passed, 0 failed, 2 skipped"
""",
}
ON_DIST, ON_PROVED = "outside busy dist/canbusd", "outside busy crates/canbusd/out/canbusd"


@pytest.fixture
def gate(tmp_path):
    """A function that runs scripts/test with stand-ins. It returns the status, the output lines, and the calls of all parts but
    Rattle."""
    for folder in ("bin", "scripts", "dist", "crates/canbusd/out"):
        (tmp_path / folder).mkdir(parents=True)
    for name, text in STAND_INS.items():
        (tmp_path / name).write_text(f"#!/usr/bin/env bash\n{text}\n")
        (tmp_path / name).chmod(0o755)
    shutil.copy(os.path.join(ROOT, "scripts", "test"), tmp_path / "scripts")
    (tmp_path / "calls").touch()
    (tmp_path / "wait").touch()

    def run(*parts, **env):
        path = f"{tmp_path}/bin:{os.environ['PATH']}"
        inherited = {name: value for name, value in os.environ.items() if name != "CANBUSD"}
        words = {"cwd": tmp_path, "env": {**inherited, "PATH": path, **env}, "text": True, "timeout": 60}
        done = subprocess.run([tmp_path / "scripts" / "test", *parts], capture_output=True, **words)
        calls = (tmp_path / "calls").read_text().splitlines()
        return done.returncode, done.stdout.splitlines(), [call for call in calls if "still" not in call]

    return run


def test_early(gate):
    """On four processors, the tests of the program run once, while the proofs run, with the program in dist/."""
    status, lines, calls = gate()
    assert (status, lines[-1]) == (0, "44 passed, 0 failed, 6 skipped"), lines
    assert calls == [ON_DIST, "mark", "outside quiet crates/canbusd/out/canbusd"]


@pytest.mark.parametrize("early", ["8 passed, 1 failed, 2 skipped", "Killed"])
def test_early_ones_fail(gate, early):
    """If the early tests fail, they run again after the proofs, and only that run counts."""
    status, lines, calls = gate(EARLY=early)
    assert (status, lines[-1]) == (0, "44 passed, 0 failed, 6 skipped"), lines
    assert calls[:3] == [ON_DIST, "mark", ON_PROVED] and early in lines


@pytest.mark.parametrize("env", [{"PROCESSORS": "3"}, {"DIST": "3", "COMPARED": "3", "LIBRARY": "3"}])
def test_none_early(gate, env, tmp_path):
    """With fewer than four processors, or if dist/ holds another program, the tests run after the proofs."""
    (tmp_path / "wait").unlink()
    status, lines, calls = gate(**env)
    skipped = 8 if "COMPARED" in env else 6
    assert (status, lines[-1]) == (0, f"{50 - skipped} passed, 0 failed, {skipped} skipped"), lines
    assert calls[:2] == ["mark", ON_PROVED]


@pytest.mark.parametrize(
    "part, last, calls",
    [
        ("edits", "3 passed, 0 failed", []),
        ("tests", "5 passed, 0 failed", []),
        ("canrun", "9 passed, 0 failed, 2 skipped", ["outside canrun"]),
    ],
)
def test_one_part(gate, part, last, calls):
    """Each part can run by itself: the Rattle part, or the part that does not need the toolchain."""
    assert gate(part) == (0, [last], calls)


@pytest.mark.parametrize("env", [{"PROVED": "6 passed, 1 failed"}, {"COMPARED": "1"}, {"LIBRARY": "1"}])
def test_proofs_fail(gate, env):
    """If a proof fails, the whole command fails, and the program is not marked as built from these sources."""
    status, lines, calls = gate(**env)
    assert (status, lines[-1]) == (1, "43 passed, 1 failed, 6 skipped"), lines
    assert "mark" not in calls
