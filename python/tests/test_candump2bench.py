"""tools/candump2bench creates bench input from logs. tests/record/test_log_readers.py tests the tool with complete
logs."""

import subprocess
import sys
from pathlib import Path

import pytest

TOOL = Path(__file__).resolve().parents[2] / "tools" / "candump2bench"


def converted(text, *words):
    return subprocess.run([sys.executable, TOOL, *words], input=text, capture_output=True, text=True, check=False)


def test_its_first_line_says_how_to_run_it():
    done = converted("(1.000000) can0 123#1122\n", "--listen", "tester")
    assert (done.returncode, done.stderr) == (0, "")
    assert done.stdout.splitlines()[0] == "# canbusd bench tester,can0 < THIS FILE"
    assert "canbusd bench tester,can0 < run.bench" in converted("", "--help").stdout


@pytest.mark.parametrize(
    "line",
    [
        "  vcan0  123   [2]  11 22",
        " (1.000000)  can0  12345678   [0]",
        "  can0       7FF  [08]  01 02 03 04 05 06 07 08",
    ],
)
def test_what_candump_writes_on_a_screen_is_known_as_such(line):
    done = converted(f"(1.000000) can0 123#1122\n{line}\n")
    assert done.returncode == 1
    assert done.stderr.startswith("candump2bench: standard input:2: not ")
    assert "which `candump -L` and `candump -l` write" in done.stderr


def test_another_line_is_not():
    done = converted("(1.000000) can0 123#1122\n# a comment\n")
    assert done.stderr.endswith("not `(SECONDS.MICROS) INTERFACE FRAME`: # a comment\n")


def test_lines_that_are_alike():
    """Lines that differ only in their timestamps are reported once. All other different lines are reported."""
    failed = [f"(1.{number:06}) ecu 20000080#0000000000000000\n" for number in range(32)]
    others = ["garbage\n", "(2.000000) can1 20000080#0000000000000000\n", "rubbish\n"]
    done = converted("(0.000000) ecu 123#1122\n" + "".join([*failed, *others]))
    assert done.returncode == 1
    assert done.stderr.splitlines() == [
        "candump2bench: standard input:2: an error message frame, which nobody sends: (1.000000) ecu "
        "20000080#0000000000000000; 31 lines more like it",
        "candump2bench: standard input:34: not `(SECONDS.MICROS) INTERFACE FRAME`: garbage",
        "candump2bench: standard input:35: an error message frame, which nobody sends: (2.000000) can1 "
        "20000080#0000000000000000",
        "candump2bench: standard input:36: not `(SECONDS.MICROS) INTERFACE FRAME`: rubbish",
    ]
