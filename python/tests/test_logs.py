"""Logs for other tools: independent programs read the files that `canbusd convert` writes."""

import shutil
import subprocess
import sys
from pathlib import Path

import can
import pytest

from canbusd._run.logs import Entry, name_of, read_entries, write_entries
from canbusd.bench import Bench
from canbusd.frames import Frame
from forked import forked

TOOL = Path(__file__).resolve().parents[2] / "tools" / "candump2bench"
# A log with one frame of every kind. Each line has a time and an interface.
LOG = """\
(1795910922.386502) ecu 123#1122
(1795910922.386602) tester 124#R4
(1795910922.636502) ecu 12345678##11122
(1795910922.636503) ecu 20000080#0000000000000000
(1795910923.000000) tester 7FF#0102030405060708
"""


@pytest.fixture
def log(tmp_path):
    """A candump log."""
    path = tmp_path / "run.log"
    path.write_text(LOG)
    return path


def convert(*words):
    """Runs `canbusd convert`, and returns the exit status, the output and the error output."""
    return forked("convert", *words)


def output(*words):
    """Returns the output of a program."""
    return subprocess.run([*map(str, words)], capture_output=True, text=True, check=True).stdout


def test_blf_there_and_back(log, tmp_path):
    assert convert(log, tmp_path / "run.blf") == (0, "5 frames; channels: 1 ecu, 2 tester\n", "")
    assert convert("--names", "ecu,tester", tmp_path / "run.blf", tmp_path / "back.log") == (0, "5 frames\n", "")
    assert (tmp_path / "back.log").read_text() == LOG
    assert sorted(path.name for path in tmp_path.iterdir()) == ["back.log", "run.blf", "run.log"]


def test_asc_there_and_back(log, tmp_path):
    assert convert(log, tmp_path / "run.asc") == (0, "5 frames; channels: 1 ecu, 2 tester\n", "")
    found = list(read_entries(tmp_path / "run.asc", ["ecu", "tester"]))
    wanted = list(read_entries(log))
    # ASC can't store the classes of error message frames. All times in the ASC file are too early by the same amount.
    assert [(name, str(frame)) for name, frame in found if not frame.is_error_frame] == [
        (name, str(frame)) for name, frame in wanted if not frame.is_error_frame
    ]
    late = [its.frame.timestamp - one.frame.timestamp for one, its in zip(found, wanted)]
    assert late == pytest.approx([late[0]] * 5, abs=2e-6) and 0 <= late[0] < 0.001


def test_asc_as_asc2log_reads_it(log, tmp_path):
    if not shutil.which("asc2log"):
        pytest.skip("no asc2log (can-utils)")
    convert(log, tmp_path / "run.asc")
    lines = [line.split()[1:3] for line in output("asc2log", "-I", tmp_path / "run.asc").splitlines()]
    assert lines == [
        ["can0", "123#1122"],
        ["can1", "124#R4"],
        ["can0", "12345678##11122"],
        ["can0", "20000080#0000000000000000"],
        ["can1", "7FF#0102030405060708"],
    ]


@pytest.mark.parametrize("ending", ["blf", "log"])
def test_a_log_as_tshark_reads_it(log, tmp_path, ending):
    if not shutil.which("tshark"):
        pytest.skip("no tshark")
    convert(log, tmp_path / f"other.{ending}")
    fields = ["-T", "fields", "-e", "frame.time_relative", "-e", "can.id"]
    lines = [line.split("\t") for line in output("tshark", "-r", tmp_path / f"other.{ending}", *fields).splitlines()]
    rows = [(float(moment), int(number, 0)) for moment, number, *_ in lines if number]
    wanted = [(0.0, 0x123), (0.0001, 0x124), (0.25, 0x12345678), (0.613498, 0x7FF)]
    assert [number for _, number in rows if number != 0x80] == [number for _, number in wanted]
    moments = [moment for moment, number in rows if number != 0x80]
    assert moments == pytest.approx([moment for moment, _ in wanted], abs=1e-6)


@pytest.mark.parametrize("ending", ["blf", "asc"])
def test_any_of_them_as_input_of_the_bench(log, tmp_path, ending):
    path = tmp_path / f"run.{ending}"
    convert(log, path)
    done = subprocess.run(
        [sys.executable, TOOL, "--names", "ecu,tester", path], capture_output=True, text=True, check=False
    )
    lines = [line for line in done.stdout.splitlines() if " send" in line]
    assert lines == [
        "feed 1 < send 123 2 11 22 >",
        "feed 2 < sendrtr 124 4 >",
        "feed 1 < sendfdx 1 12345678 2 11 22 >",
        "feed 2 < send 7FF 8 01 02 03 04 05 06 07 08 >",
    ]
    # An error message frame is not sent by a node, so it is not converted.
    assert (done.returncode, done.stderr.count("\n")) == (1, 1)
    assert f"{path}:4: an error message frame" in done.stderr


def test_a_record_in_place_of_a_log(tmp_path):
    """A command that expects a log refuses a record, and its message points to the log of the record."""
    with Bench("ecu", out=tmp_path):
        pass
    record, said = tmp_path / "ecu.rec", "this is a record; take its log, which has the ending .log"
    status, written, errors = convert(record, tmp_path / "run.asc")
    assert (status, written, errors) == (1, "", f"canbusd convert: {record}: {said}\n")
    done = subprocess.run([sys.executable, TOOL, record], capture_output=True, text=True, check=False)
    assert (done.returncode, done.stdout, done.stderr) == (1, "", f"candump2bench: {record}: {said}\n")


def test_the_log_of_a_run(tmp_path):
    with Bench("ecu,tester", bitrate=500_000, out=tmp_path) as bench:
        ecu = bench.open("ecu", fd=True)
        ecu.send(0x123, b"\x11\x22")
        ecu.send(Frame.parse("00000123##3AA"))
        bench.run()
    convert(tmp_path / "ecu.log", tmp_path / "ecu.blf")
    with can.LogReader(str(tmp_path / "ecu.blf")) as reader:
        first, second = reader
    assert (first.arbitration_id, bytes(first.data), first.is_extended_id) == (0x123, b"\x11\x22", False)
    assert (second.arbitration_id, second.is_fd, second.bitrate_switch, second.error_state_indicator) == (
        0x123,
        True,
        True,
        True,
    )


@pytest.mark.parametrize(
    "name, text, said",
    [
        ("run.log", "(1.000000) can0 123#1122\nhello\n", "run.log:2: not `(SECONDS.MICROS) INTERFACE FRAME`: hello"),
        ("run.log", "(1.000000) can0 923#\n", "run.log:1: 923#: an identifier has 11 bits in 3 digits, as 123"),
        ("run.blf", "hello", "run.blf: "),
    ],
)
def test_what_is_no_log(tmp_path, name, text, said):
    (tmp_path / name).write_text(text)
    (tmp_path / "out.asc").write_text("as it was")
    status, _, written = convert(tmp_path / name, tmp_path / "out.asc")
    assert status == 1
    assert written.startswith(f"canbusd convert: {tmp_path}/{said}")
    assert (tmp_path / "out.asc").read_text() == "as it was"
    assert len(list(tmp_path.iterdir())) == 2


def test_what_is_not_written(log, tmp_path):
    status, _, said = convert(log, tmp_path / "run.trc")
    assert (status, said) == (
        1,
        f"canbusd convert: {tmp_path}/run.trc: a log that is written ends in .log, .asc, .blf or .pcapng\n",
    )
    (tmp_path / "empty.log").write_text("")
    status, written, said = convert(tmp_path / "empty.log", tmp_path / "run.asc")
    assert (status, written, said) == (0, "0 frames\n", f"canbusd convert: {tmp_path}/empty.log has no frame\n")
    status, _, said = convert(tmp_path / "none.log", tmp_path / "run.asc")
    assert (status, said) == (1, f"canbusd convert: {tmp_path}/none.log: No such file or directory\n")


def test_names_of_channels(tmp_path):
    assert [name_of(channel, ["ecu"]) for channel in ("car0", 0, "1", None)] == ["car0", "ecu", "can1", "ecu"]
    entries = [Entry("b", Frame(1, timestamp=2000000000.0)), Entry("a", Frame(2, timestamp=2000000000.5))]
    assert write_entries(tmp_path / "run.blf", entries, ["a"]) == (2, ["a", "b"])
    assert [one.channel for one in read_entries(tmp_path / "run.blf")] == ["can1", "can0"]
