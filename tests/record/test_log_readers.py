"""Tests that candump logs can be used as inputs to a bench, and that python-can and can-utils can read the logs of a
bench. Each reader must find one message for each line, with the line's identifier, kind and data.
"""

import os
import re
import shutil
import subprocess

import pytest

from commands import call, is_clean
from serving import ROOT, program

LOG_READER = os.path.join(ROOT, "tools", "candump2bench")
# One line of each kind, as in the tests of can_logfile.
EVERY_KIND = """\
(0000000000.000005) can0 00000123#R3
(0000000023.424242) can0 123#11223344
(0000000023.424243) can1 123#
(0000000023.424244) can1 7FF#R
(0000000023.424245) can0 1FFFFFFF#0102030405060708
(0000000023.424246) can1 123##01122334455667788AABBCCDD
(0000000023.424247) can0 12345678##0
(0000000023.424248) can1 123##1AABB
(0000000023.424249) can1 00000123##2
(0000000023.424250) can0 7FF##301020304
(9999999999.999999) can0 20000080#0000000000000000
(9999999999.999999) can1 200000A0#0000000000000000
"""


class Message:
    """A message of the log: its time, channel, identifier, kind and data."""

    def __init__(self, line):
        stamp, self.channel, text = line.split(" ")
        self.moment = stamp.strip("()")
        word, payload = text.split("#", 1)
        self.is_fd, self.flags = payload.startswith("#"), 0
        if self.is_fd:
            # An FD frame has a second # and a digit with its flags: 1 is the bit rate switch, 2 the error state
            # indicator.
            self.flags, payload = int(payload[1]), payload[2:]
        self.is_error = len(word) == 8 and int(word, 16) & 0x20000000 != 0
        self.is_extended = len(word) == 8 and not self.is_error
        self.number = int(word, 16) & 0x1FFFFFFF
        self.is_remote = payload.startswith("R")
        self.data = b"" if self.is_remote else bytes.fromhex(payload)


def by_python_can(path, messages):
    """Returns a description of each message that python-can reads differently."""
    reader = pytest.importorskip("can.io", reason="python-can is not installed")
    found = list(reader.CanutilsLogReader(path))
    faults = [] if len(found) == len(messages) else [f"python-can: {len(found)} messages"]
    for wanted, got in zip(messages, found):
        same = (
            got.is_error_frame == wanted.is_error
            and got.is_remote_frame == wanted.is_remote
            and got.is_fd == wanted.is_fd
            and got.bitrate_switch + 2 * got.error_state_indicator == wanted.flags
            and abs(got.timestamp - float(wanted.moment)) < 1e-3
            and (wanted.is_error or got.arbitration_id == wanted.number and got.is_extended_id == wanted.is_extended)
            and (wanted.is_error or bytes(got.data) == wanted.data)
        )
        if not same:
            faults.append(f"python-can: {got}")
    return faults


def by_log2asc(path, messages):
    """Returns a description of each message that log2asc from can-utils reads differently."""
    if not shutil.which("log2asc"):
        pytest.skip("can-utils is not installed")
    channels = sorted({message.channel for message in messages})
    made = subprocess.run(["log2asc", "-I", path, *channels], capture_output=True, text=True, check=True)
    lines = [line for line in made.stdout.splitlines() if " Rx " in line or "ErrorFrame" in line]
    faults = [] if len(lines) == len(messages) else [f"log2asc: {len(lines)} messages"]
    for wanted, line in zip(messages, lines):
        words = line.split()
        if wanted.is_error:
            same = "ErrorFrame" in words
        else:
            number = f"{wanted.number:X}" + ("x" if wanted.is_extended else "")
            if wanted.is_fd:
                # The words are time, CANFD, channel, Rx, identifier, two flags, length code, length, and bytes.
                same, data = words[1] == "CANFD" and words[4] == number, words[9:]
                same = same and int(words[5]) + 2 * int(words[6]) == wanted.flags
            else:
                same, data = words[2] == number and words[4] == ("r" if wanted.is_remote else "d"), words[6:]
            data = data[: len(wanted.data)]
            same = same and (wanted.is_remote or bytes.fromhex("".join(data)) == wanted.data)
        if not same:
            faults.append(f"log2asc: {line}")
    return faults


LOG = """\
(0000000001.000000) can0 123#1122
(1.000100) can1 123#R
(1.000200) can0 7FF#R4 R
(1.000300) can0 1fffffff#0102030405060708
(1.000400) can2 12345678#
(0.500000) can1 048C0000#DE.AD.BE.EF T
(1.000450) can1 123##10102030405060708090A0B0C
(1.000460) can0 1FFFFFFF##0
"""
# The frames in LOG that a listener receives.
HEARD = [
    "frame 123 1.000000 1122", "remote 123 1.000100 0", "remote 7FF 1.000200 4",
    "frame 1FFFFFFF 1.000300 0102030405060708", "frame 12345678 1.000400 ", "frame 048C0000 0.500000 DEADBEEF",
    "fdframex 1 123 1.000450 0102030405060708090A0B0C", "fdframe 1FFFFFFF 1.000460 ",
]  # fmt: skip
# The log that a bench writes when it plays LOG.
LOGGED = """\
(0000000001.000000) can0 123#1122
(0000000001.000100) can1 123#R
(0000000001.000200) can0 7FF#R4
(0000000001.000300) can0 1FFFFFFF#0102030405060708
(0000000001.000400) can2 12345678#
(0000000000.500000) can1 048C0000#DEADBEEF
(0000000001.000450) can1 123##10102030405060708090A0B0C
(0000000001.000460) can0 1FFFFFFF##0
"""
# Lines that are refused, and a word that occurs in the reason.
NOT_TAKEN = [
    ("(1.000500) can0 123##0112233445566778899", "bytes"),
    ("(1.000500) can0 123##", "no frame"),
    ("(1.000500) can0 123##0R", "bytes"),
    ("(1.000600) can0 20000080#0000000000000000", "error message frame"),
    ("(1.000650) can0 1234#00", "identifier"),
    ("(1.000700) can0 123#112", "bytes"),
    ("(1.000800) can0 800#", "identifier"),
    ("(1.000900) can0 123#R9", "remote"),
    ("(1.0) can0 123#", "MICROS"),
    ("garbage", "MICROS"),
    ("(1.000000) can0 123", "no frame"),
    ("(1.000000) no/name 123#", "name"),
    ("(1.000000) can0 123#112233445566778899", "bytes"),
    ("\x1b[2J", "MICROS"),
]


def heard(bench, folder):
    """Runs a bench with this input, on the bus that its first line names; returns the frames that the listener
    receives."""
    bus = re.match(r"# canbusd bench (\S+) < THIS FILE\n", bench)[1]
    record = os.path.join(folder, "log.rec")
    done = subprocess.run(
        [program(), "bench", "--record", record, bus], input=bench, text=True, capture_output=True, check=False
    )
    assert done.returncode == 0, done.stderr
    assert call(program(), "audit", record)[0] == 0, "the audit"
    return re.findall(r"< ((?:frame|remote|fdframex?) .*?) >", done.stdout)


def test_logs_of_candump(tmp_path):
    """candump2bench converts data, remote and 29-bit frames from several interfaces with their times, and reports each
    line that it can't convert."""
    path = os.path.join(tmp_path, "run.log")
    with open(path, "w", encoding="ascii") as file:
        file.write(LOG)
    status, bench, errors = call(LOG_READER, "--listen", "tester", path)
    assert (status, errors) == (0, ""), errors
    assert heard(bench, tmp_path) == HEARD, f"{heard(bench, tmp_path)}"
    with open(path, "a", encoding="ascii") as file:
        file.writelines(f"{line}\n" for line, _ in NOT_TAKEN)
    status, same, errors = call(LOG_READER, "--listen", "tester", path)
    assert status == 1 and same == bench, "the other lines are taken as before"
    named = errors.splitlines()
    assert len(named) == len(NOT_TAKEN) and "\x1b" not in errors, errors
    for number, (line, (_, word)) in enumerate(zip(named, NOT_TAKEN), 1 + LOG.count("\n")):
        assert line.startswith(f"candump2bench: {path}:{number}: ") and word in line, line
    with open(path, encoding="ascii") as file:
        assert call(LOG_READER, "--listen", "tester", stdin=file)[1] == bench, "by standard input"
    for fault in (call(LOG_READER, os.path.join(tmp_path, "none")), call(LOG_READER, tmp_path), call(LOG_READER)):
        assert is_clean(fault), f"{fault}"
    assert "Traceback" not in call(LOG_READER, "/bin/ls")[2], "binary"
    assert call("sh", "-c", '"$@" | head -n 1 >/dev/null', "sh", LOG_READER, path)[0] == 0, "head"


def test_log_of_a_bench(tmp_path):
    """If a bench plays a log, the log of that bench has the same frames and times."""
    path, log = tmp_path / "run.log", tmp_path / "again.log"
    path.write_text(LOG)
    bench = call(LOG_READER, path)[1]
    bus = re.match(r"# canbusd bench (\S+) < THIS FILE\n", bench)[1]
    done = call(program(), "bench", "--log", log, bus, stdin=None, input=bench)
    assert done[0] == 0, done[2]
    assert log.read_text() == LOGGED


def log_with_destroyed_frames(folder):
    """Returns the log of an example in which 32 frames are destroyed."""
    path = folder / "destroyed.log"
    with open(os.path.join(ROOT, "examples", "bus_off_attack.bench"), encoding="utf-8") as lines:
        done = call(
            program(), "bench", "--log", path, "can0,can1@examples/bus_off_attack.script", stdin=lines, cwd=ROOT
        )
    assert done[0] == 0, done[2]
    text = path.read_text()
    assert text.count(" can0 20000080#0000000000000000\n") == 32, text
    return text


@pytest.mark.parametrize("reads", [by_python_can, by_log2asc])
def test_readers(reads, tmp_path):
    """python-can and can-utils read every log of a bench: one with every kind of line, one of a played log, and one
    with destroyed frames."""
    path = tmp_path / "read.log"
    for text in (EVERY_KIND, LOGGED, log_with_destroyed_frames(tmp_path)):
        path.write_text(text)
        faults = reads(path, [Message(line) for line in text.splitlines()])
        assert not faults, faults


def test_log_of_many_frames(tmp_path):
    """candump2bench converts a log of 20,000 frames from 3 interfaces, as written by python-can and by can-utils."""
    lines, wanted = [], []
    for number in range(20000):
        identifier = f"{0x10000000 + number * 4177:08X}" if number % 3 == 0 else f"{number * 7 % 0x800:03X}"
        data = (number.to_bytes(4, "big") + bytes(range(number % 5))).hex().upper()
        moment = f"{1700000000 + number // 1000}.{number % 1000:03}000"
        lines.append(f"({moment}) can{number % 3} {identifier}#{data}{['', ' R', ' T'][number % 3]}\n")
        wanted.append(f"frame {identifier} {moment} {data}")
    path = os.path.join(tmp_path, "run.log")
    with open(path, "w", encoding="ascii") as file:
        file.writelines(lines)
    status, bench, errors = call(LOG_READER, "--listen", "tester", path)
    assert status == 0, errors
    assert heard(bench, tmp_path) == wanted, "other frames"
    with open(path, "w", encoding="ascii") as file:
        file.writelines(lines * 15)
    assert is_clean(call(LOG_READER, path)), "an input that is too long for the bench"
