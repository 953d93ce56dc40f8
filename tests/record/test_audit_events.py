"""Tests the exact output of `canbusd audit --events` for records whose events follow from the rules.

There are tests of each kind of part, of records that are cut off, of wrong entries and lines, of several files, of a
record that is read through a pipe while it grows, and of a writer that fails. test_memory.py refuses memory to this
command.
"""

import os
import subprocess

import pytest

from commands import run_line
from serving import WAIT, program

# Two interfaces that report faults. Sockets 0 and 1 request error message frames. Socket 0 has plenty of room, and
# socket 1, at interface 1, has room for one item. Socket 2, also at interface 1, requests no error message frames.
RECORD = """canbus record 1
bus 2 always 0003 10 100
open 0 256 = socket 0
open 1 1 = socket 1
open 1 9 = socket 2
option 0 errmask 1FFFFFFF = ok
option 1 errmask 1FFFFFFF = ok
send 0 123#01FF = number 0
attempt 0.000001 global-bit = tried 0 0 123#01FF destroyed 0000 0000
attempt 0.000002 good = tried 0 0 123#01FF done 0002 0000
receive 2 = data 0 0 123#01FF 0.000002
attempt 0.000003 good = idle
end 10
"""
# The first attempt raises the transmitter's count to 8 and the receiver's count to 1. The good attempt lowers each
# count by one. The error message frame for the first attempt takes the only free entry in the queue of socket 1.
FAULT = "; counts 0 8 0; counts 1 0 1; put 0:20000088#0000810A00000000 1:20000088#0000040000000000"
DONE = "; counts 0 7 0; counts 1 0 0; put 2; dropped 1:1"
EVENTS = (
    RECORD.replace("canbus record", "canbus events")
    .replace("destroyed 0000 0000\n", f"destroyed 0000 0000{FAULT}\n")
    .replace("done 0002 0000\n", f"done 0002 0000{DONE}\n")
)
# The same events at 500,000 bit/s. Up to its last data bit, 123#01FF has 35 bits and 3 stuff bits. The bit error is
# followed by an error flag of 6 bits, 6 bits of the other interface's flag, a delimiter of 8 bits and an intermission
# of 3 bits. In a complete frame, 15 bits of CRC, 2 stuff bits and 10 bits up to the end of frame follow the data. That
# is 65 bits in all, followed by an intermission.
TIMED = EVENTS.replace(f"{FAULT}\n", f"{FAULT}; wire 130000 122000 65 0\n").replace(
    f"{DONE}\n", f"{DONE}; wire 130000 136000 65 0\n"
)
# An FD frame with eight zero bytes and the bit rate switch. At the nominal bit rate it has 17 bits up to its BRS bit
# and 10 bits after its CRC. At the data bit rate it has ESI, 4 bits of length, 64 bits of data, 13 stuff bits, and 27
# bits of stuff count, CRC and fixed stuff bits.
SWITCHED = """canbus record 5
bus 1 always 0000 10 100 0
open 0 256 = socket 0
option 0 fd 1 = ok
send 0 124##10000000000000000 = number 0
attempt 0.000001 good = tried 0 0 124##10000000000000000 done 0000 0000
end 4
"""
# After 31 destroyed attempts the transmitter's count is 248. The next attempt takes its interface to bus off, and the
# waiting frames are lost. The call `restart` ends bus off.
FAULTS = "".join(
    f"attempt 0.0000{number:02} global-bit = tried 0 0 123# destroyed 0000 0000\n" for number in range(1, 32)
)
BUS_OFF = f"""canbus record 1
bus 2 always 0000 10 100
open 0 256 = socket 0
option 0 errmask 00000140 = ok
send 0 123# = number 0
send 0 124# = number 1
{FAULTS}attempt 0.000032 global-bit = tried 0 0 123# destroyed 0000 0001
attempt 0.000033 good = idle
restart 0 0.000034 = ok
end 38
"""


def audited(record, folder, *options):
    """Audits this record and requests its events; returns the status, the output and the errors."""
    (folder / "run.rec").write_text(record)
    return run_line(" ".join(["audit", "--events", *options, "run.rec"]), cwd=folder)


def front(text, lines):
    """Returns the first `lines` lines of a string."""
    return "".join(text.splitlines(True)[:lines])


def test_each_kind_of_part(tmp_path):
    """Event lines have parts for changed counts, for queued items, and for items without room in the queue."""
    assert audited(RECORD, tmp_path) == (0, EVENTS, "")
    assert audited(RECORD, tmp_path, "--cut") == (0, EVENTS, "")


def test_what_attempts_take_of_the_wire(tmp_path):
    """With bit rates, the line of each attempt with a frame ends with its time, and nothing else changes."""
    status, written, errors = audited(RECORD, tmp_path, "--bitrate", "500000")
    assert (status, errors) == (0, "") and written == TIMED
    assert audited(RECORD, tmp_path, "--cut", "--bitrate", "500000", "--dbitrate", "2000000") == (0, TIMED, "")
    half = TIMED.replace("wire 130000 122000", "wire 260000 244000").replace("wire 130000 136000", "wire 260000 272000")
    assert audited(RECORD, tmp_path, "--bitrate", "250000") == (0, half, "")


def test_both_bit_rates(tmp_path):
    """An FD frame that switches bit rates has bits at both rates. A third of a nanosecond is rounded up."""
    status, written, errors = audited(SWITCHED, tmp_path, "--bitrate", "500000", "--dbitrate", "2000000")
    assert (status, errors) == (0, "") and written.splitlines()[-2].endswith(
        "done 0000 0000; wire 108500 114500 27 109"
    )
    slow = audited(SWITCHED, tmp_path, "--bitrate", "500000")[1]
    assert slow.splitlines()[-2].endswith("done 0000 0000; wire 272000 278000 27 109")
    thirds = audited(SWITCHED, tmp_path, "--bitrate", "300000", "--dbitrate", "3000000")[1]
    assert thirds.splitlines()[-2].endswith("done 0000 0000; wire 126334 136334 27 109")


def test_bus_off(tmp_path):
    """The events show lost frames, error message frames for bus off, and the counts after a restart."""
    status, written, errors = audited(BUS_OFF, tmp_path)
    lines = written.splitlines()
    assert (status, errors) == (0, "") and lines[:6] == ["canbus events 1", *BUS_OFF.splitlines()[1:6]]
    off, restart = BUS_OFF.splitlines()[37], BUS_OFF.splitlines()[39]
    assert lines[37] == f"{off}; counts 0 256 0; counts 1 0 32; lost 0 2; put 0:20000040#0000000000000000"
    assert lines[38:] == [
        "attempt 0.000033 good = idle",
        f"{restart}; counts 0 0 0; put 0:20000100#0000000000000000",
        "end 38",
    ]


def test_a_record_that_is_cut_off(tmp_path):
    """The events of a record that is cut off, after an entry or within a line, end with a `cut` line."""
    assert audited(front(RECORD, 9), tmp_path, "--cut") == (0, front(EVENTS, 9) + "cut 7\n", "")
    note = "note: 13 bytes of a line without its end were not looked at\n"
    torn = front(RECORD, 9) + "attempt 0.000"
    assert audited(torn, tmp_path, "--cut") == (0, front(EVENTS, 9) + "cut 7\n", note)
    assert audited(front(RECORD, 2), tmp_path, "--cut") == (0, front(EVENTS, 2) + "cut 0\n", "")


@pytest.mark.parametrize(
    "old, new, lines",
    [
        ("done 0002 0000", "done 0000 0000", 9),  # a wrong entry
        ("open 1 1 = socket 1", "open 1 1 = socket 2", 3),
        ("100\n", "7\n", 9),  # more entries than the limit
        ("receive 2 = data", "receive 2 = date", 10),  # an unknown line
        ("bus 2", "bus 17", 0),
        ("record 1", "record 9", 0),
        ("end 10\n", "end 9\n", 12),
        ("end 10\n", "", 12),  # no end line
        ("end 10\n", "end 10\nend 10\n", 12),
        (
            "record 1\nbus 2 always 0003 10 100\n",
            "record 3\nbus 2 always 0003 10 100 0\n",
            12,
        ),  # a version that this record does not need
    ],
)
def test_before_a_fault(old, new, lines, tmp_path):
    """The events before a fault are written, and the fault is reported as by an audit without events."""
    record = RECORD.replace(old, new)
    status, written, errors = audited(record, tmp_path)
    assert (status, "", errors) == run_line("audit run.rec", cwd=tmp_path) and status == 1
    assert written.splitlines()[2:] == EVENTS.splitlines()[2:lines]
    assert written.splitlines()[:2] == (["canbus events 1", record.splitlines()[1]] if lines else [])


def test_a_wrong_entry_before_a_wrong_line(tmp_path):
    """If a malformed line follows a wrong entry, the malformed line is reported, but only the events before the wrong
    entry are written."""
    record = RECORD.replace("done 0002 0000", "done 0000 0000").replace("receive 2 = data", "receive 2 = date")
    status, written, errors = audited(record, tmp_path)
    assert (status, written) == (1, front(EVENTS, 9)) and errors.startswith("canbusd: line 11: bad line\n")


def test_several_files(tmp_path):
    """Several files are audited as one record, even if a file ends in the middle of a line."""
    (tmp_path / "a.rec").write_text(RECORD[:333])
    (tmp_path / "b.rec").write_text(RECORD[333:])
    assert run_line("audit --events a.rec b.rec", cwd=tmp_path) == (0, EVENTS, "")


def test_a_record_that_is_followed():
    """The events of lines that are written to a pipe are written before the pipe is closed."""
    words = [program(), "audit", "--events", "--cut", "/dev/stdin"]
    pipes = {"stdin": subprocess.PIPE, "stdout": subprocess.PIPE}
    with subprocess.Popen(words, bufsize=0, **pipes) as running:
        read = b""
        for line, events in zip(RECORD.splitlines(True)[:-1], EVENTS.splitlines(True)):
            running.stdin.write(line.encode())
            while not line.startswith("canbus") and not read.endswith(events.encode()):
                read += os.read(running.stdout.fileno(), 4096)
        running.stdin.close()
        read += running.stdout.read()
        assert running.wait(WAIT) == 0 and read.decode() == front(EVENTS, 12) + "cut 10\n"


def test_a_writer_that_fails(tmp_path):
    """If its output can't be written, an audit exits at once with a write fault, and does not write the output later."""
    (tmp_path / "run.rec").write_text(RECORD)
    with open("/dev/full", "wb") as full:
        words = [program(), "audit", "--events", "run.rec"]
        done = subprocess.run(words, stdout=full, stderr=subprocess.PIPE, text=True, cwd=tmp_path, check=False)
    assert done.returncode == 1 and done.stderr.startswith("canbusd: write fault\n")
