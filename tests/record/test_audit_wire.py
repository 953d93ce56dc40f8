"""Tests the times of attempts on the wire and the number of bits in their frames, as `canbusd audit --events --bitrate`
reports them. There are tests of frames and attempts whose lengths follow from their fields. There are tests of every
kind of frame and attempt, compared with the models wire_model.py and wire_times.py, which build frames bit by bit.
There are also tests of refused arguments. test_record_events.py has random runs.
"""

import os
import re
import subprocess

import pytest

from commands import run_line
from serving import ROOT, WAIT, program
from test_audit_events import BUS_OFF, EVENTS, RECORD
from test_damage import example
from timed_benches import random_rates, rate_options
from wire_model import FD_LENGTHS, KNOWN_LENGTHS, Frame, bit_counts, random_data, random_frames
from wire_times import Rates, ending_of

# At these bit rates a nominal bit takes 1,000 nanoseconds, and a bit at the data bit rate takes 125.
FAST = Rates(1_000_000, 8_000_000)
# Attempts to send a frame to another interface: the verdict, the outcome and the accepting interfaces. Interface 2 does
# not exist, so it can't detect a fault.
ATTEMPTS = [
    ("lastbit", "lastbit", "0002"),
    ("global-bit", "destroyed", "0000"),
    ("local-stuff:0002", "destroyed", "0000"),
    ("global-form", "destroyed", "0000"),
    ("local-crc:0002", "destroyed", "0000"),
    ("local-form:0002", "destroyed", "0000"),
    ("local-stuff:0004", "done", "0002"),
    ("good", "done", "0002"),
]
# An attempt whose frame no interface acknowledges.
NOBODY = [("good", "noack", "0000")]


def record_of(frame, attempts):
    """Returns the record of attempts to send a frame. The frame is queued twice, because at most two attempts succeed."""
    bus = "2 always" if attempts is ATTEMPTS else "1 peers"
    lines = ["open 0 1 = socket 0", "option 0 fd 1 = ok", *(f"send 0 {frame} = number {k}" for k in (0, 1))]
    number = 0
    for verdict, kind, accepted in attempts:
        lines.append(f"attempt 0.000000 {verdict} = tried 0 {number} {frame} {kind} {accepted} 0000")
        number += kind == "done"
    front = ["canbus record 4", f"bus {bus} 0000 10 4294967294 0"]
    return "".join(f"{line}\n" for line in [*front, *lines, f"end {len(lines)}"])


def wires(record, rates):
    """Returns the wire parts of a record's events: the durations of the frame and of the attempt in nanoseconds, and
    the number of bits at each rate."""
    words = [program(), "audit", "--events", *rate_options(rates), "/dev/stdin"]
    done = subprocess.run(words, input=record, capture_output=True, text=True, timeout=WAIT, check=False)
    assert (done.returncode, done.stderr) == (0, ""), record
    found = re.findall(r"; wire (\d+) (\d+) (\d+) (\d+)$", done.stdout, re.MULTILINE)
    return [tuple(map(int, numbers)) for numbers in found]


def bits_of(text):
    """Returns the number of bits that a frame has at each rate."""
    return wires(record_of(text, NOBODY), FAST)[0][2:]


@pytest.mark.parametrize("text, bits", KNOWN_LENGTHS)
def test_known_lengths_of_classic_frames(text, bits):
    assert bits_of(text) == (bits, 0)


@pytest.mark.parametrize(
    "text, nominal, fast",
    [
        ("555##1", 27, 32),
        ("555##1" + 3 * "55", 27, 32 + 24),
        ("555##1" + 20 * "55", 27, 37 + 160),
        ("15555555##1" + 20 * "55", 46, 37 + 160),
        ("123##1" + 64 * "00", 27, 651),
        # Without a switch the BRS bit is dominant. With a length of 3 it is one of five zeros in a row, so a stuff bit
        # follows.
        ("555##0" + 20 * "55", 27 + 37 + 160, 0),
        ("555##0" + 3 * "55", 27 + 32 + 24 + 1, 0),
    ],
)
def test_known_lengths_of_fd_frames(text, nominal, fast):
    """FD frames with only fixed stuff bits have the lengths that follow from counting their fields. So does a frame
    with the stuff bits of 64 zero bytes."""
    assert bits_of(text) == (nominal, fast)


def test_known_lengths_of_attempts():
    """Attempts have 52 bits up to the end of the data, 67 up to the end of the CRC, 77 in a whole frame, and 3 more in
    the intermission."""
    frame, rates = "123#11223344", Rates(500_000)
    lengths = [77 + 18, 52 + 23, 52 + 23, 67 + 26, 67 + 26, 67 + 26, 80, 80]
    assert wires(record_of(frame, ATTEMPTS), rates) == [(154_000, 2_000 * length, 77, 0) for length in lengths]
    assert wires(record_of(frame, NOBODY), rates) == [(154_000, 2_000 * (67 + 19), 77, 0)]
    # An FD frame has 17 nominal and 5 fast bits up to the end of its data. Up to the end of its CRC it has 17 nominal
    # and 32 fast bits.
    frame, length = "123##1", 27_000 + 32 * 125
    assert wires(record_of(frame, ATTEMPTS), FAST)[1] == (length, 40_000 + 5 * 125, 27, 32)
    assert wires(record_of(frame, NOBODY), FAST) == [(length, 36_000 + 32 * 125, 27, 32)]


@pytest.mark.parametrize(
    "text, rates, frame, attempt",
    [
        ("000#", Rates(1_000_000), 50_000, 53_000),
        ("000#", Rates(500_000), 100_000, 106_000),
        # The frame has 50 bits and the attempt 53, each of 3,333 and a third nanoseconds.
        ("000#", Rates(300_000), 166_667, 176_667),
        # The frame has 27 bits of 2,000 nanoseconds and 32 bits of 333 and a third. Without a data bit rate, all 59
        # bits take 2,000 nanoseconds.
        ("555##1", Rates(500_000, 3_000_000), 64_667, 70_667),
        ("555##1", Rates(500_000), 118_000, 124_000),
        ("123##1" + 64 * "00", FAST, 108_375, 111_375),
        # The longest frame has these times on the slowest bus and on the fastest bus.
        ("123##1" + 64 * "00", Rates(5_000), 135_600_000, 136_200_000),
        ("123##1" + 64 * "00", Rates(1_000_000, 20_000_000), 59_550, 62_550),
    ],
)
def test_times_are_rounded_up(text, rates, frame, attempt):
    assert wires(record_of(text, ATTEMPTS), rates)[-1][:2] == (frame, attempt)


def frames(maker, count):
    """Yields frames of every kind and length, and random frames."""
    for number in (maker.getrandbits(11), maker.getrandbits(29)):
        extended = number >= 1 << 11
        yield from (Frame(number, extended, random_data(maker, length)) for length in range(9))
        yield from (Frame(number, extended, requests=length) for length in range(9))
        for length in FD_LENGTHS:
            brs, esi = maker.random() < 0.5, maker.random() < 0.5
            for flags in ((brs, esi), (not brs, esi)):
                yield Frame(number, extended, random_data(maker, length), None, True, *flags)
    yield from random_frames(maker.random(), count, is_fd=False, longest=8)
    yield from random_frames(maker.random(), count, is_fd=True, longest=64)


def test_each_kind_of_frame_and_attempt(rng, cases):
    """The program agrees with the model for every kind of frame and attempt, at random bit rates."""
    for frame in frames(rng, cases // 10):
        rates, whole = random_rates(rng), bit_counts(frame)
        for attempts in (ATTEMPTS, NOBODY):
            wanted = [
                (rates.frame_nanos(frame), rates.attempt_nanos(frame, ending_of(kind, verdict)), *whole)
                for verdict, kind, _ in attempts
            ]
            assert wires(record_of(frame, attempts), rates) == wanted, (str(frame), rates)


def test_where_the_part_is(tmp_path):
    """The time on the wire is the last part of each attempt that tried a frame. All other lines are the same as without
    bit rates.

    123#01FF has 35 bits and 3 stuff bits up to the end of its data, 15 bits of CRC with 2 stuff bits, and 10 bits after
    that. Each bit takes 2,000 nanoseconds. The fault of the first attempt comes at the end of the data, and 23 bits
    follow.
    """
    (tmp_path / "run.rec").write_text(RECORD)
    failed, done = "destroyed 0000 0000; counts", "; dropped 1:1"
    wanted = re.sub(f"({failed}.*)", r"\1; wire 130000 122000 65 0", EVENTS)
    wanted = wanted.replace(done, f"{done}; wire 130000 136000 65 0")
    assert run_line("audit --events --bitrate 500000 run.rec", cwd=tmp_path) == (0, wanted, "")


def test_the_worked_line(tmp_path):
    """The line with a time in docs/RECORD.md is among the events of the record shown there."""
    with open(os.path.join(ROOT, "docs", "RECORD.md"), encoding="utf-8") as page:
        (line,) = re.findall("^    (attempt .*; wire .*)$", page.read(), re.MULTILINE)
    (tmp_path / "run.rec").write_bytes(example())
    status, written, errors = run_line("audit --events --bitrate 500000 run.rec", cwd=tmp_path)
    assert (status, errors) == (0, "") and line in written.splitlines()


def test_restarts_and_idle_attempts_take_no_time(tmp_path):
    """Restarts and idle attempts take no time. An attempt with a frame and a restart takes only the time of its frame."""
    entries = ["open 1 1 = socket 1", "send 1 000# = number 0"]
    entries += ["attempt 0.000034 good = tried 1 0 000# done 0000 0000 restarted 0001", "end 40"]
    both = BUS_OFF.replace("record 1", "record 2").replace("10 100", "10 100 2")
    both = both.replace("restart 0 0.000034 = ok\nend 38\n", "".join(f"{entry}\n" for entry in entries))
    for record in (BUS_OFF, both):
        (tmp_path / "run.rec").write_text(record)
        status, written, errors = run_line("audit --events --bitrate 1000000 run.rec", cwd=tmp_path)
        assert (status, errors) == (0, "")
        lines = written.splitlines()
        assert [line for line in lines if "; wire " in line] == [line for line in lines if " tried " in line]
        untimed = re.sub("; wire [0-9 ]+$", "", written, flags=re.MULTILINE)
        assert run_line("audit --events run.rec", cwd=tmp_path) == (0, untimed, "")
    # The sender's counts do not change, so the other parts belong to the restart.
    assert lines[-2].endswith("restarted 0001; counts 0 0 0; put 0:20000100#0000000000000000; wire 50000 53000 50 0")


@pytest.mark.parametrize(
    "words, fault",
    [
        ("--bitrate 500000", "'--bitrate' needs '--events'"),
        ("--events --dbitrate 500000", "'--dbitrate' needs '--bitrate'"),
        ("--events --bitrate 4999", "invalid value '4999' for '--bitrate': not a number from 5000 to 1000000"),
        (
            "--events --bitrate 500000 --dbitrate 499999",
            "invalid value '499999' for '--dbitrate': not a number from 500000 to 20000000",
        ),
    ],
)
def test_bad_words(words, fault, tmp_path):
    (tmp_path / "run.rec").write_text(RECORD)
    status, written, errors = run_line(f"audit {words} run.rec", cwd=tmp_path)
    assert (status, written) == (2, "") and errors.startswith(f"error: {fault}")
