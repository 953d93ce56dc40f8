"""Tests `canbusd bits`: the bits of frames agree with an independent model (wire_model.py) and with the bits that pages
show."""

from __future__ import annotations

import json
import os
import random
import re
import shutil
import subprocess
from collections.abc import Iterator

import pytest

from commands import call, run_line
from serving import ROOT, program
from wire_model import Frame, arbitration_bits, bit_counts, random_frames, sent

INTERMISSION = [1, 1, 1]
# These bits are worked out by hand: 34 zeros including those of the CRC, with a stuff bit after every five zeros. The
# other frames differ from frame 000# in the last bit of the identifier, and in RTR.
ZEROS = """SOF            0
identifier     0000(1)00000(1)00
RTR            0
IDE            0
reserved       0(1)
DLC            0000
CRC            0(1)00000(1)00000(1)0000
CRC delimiter  1
ACK slot       0
ACK delimiter  1
EOF            1111111
intermission   111
total          53 bits, 6 of them stuff bits, 0 at the data bit rate
time           100000 ns to end of frame
silent         identifier     bit 13, 001#
silent         RTR            bit 14, 000#R
not silent     000#11
"""


def frames_of_all_kinds(count: int) -> Iterator[Frame]:
    yield from random_frames(21, count // 2, is_fd=False, longest=8)
    yield from random_frames(22, count - count // 2, is_fd=True, longest=64)


def bits_of(*words: str) -> list[str]:
    """Returns the lines that `canbusd bits` writes for these arguments."""
    status, output, errors = call(program(), "bits", *words)
    assert (status, errors) == (0, ""), words
    return output.splitlines()


def is_total(line: str) -> bool:
    return line.startswith(("total ", "time "))


def silence_of(frame: Frame, other: Frame) -> int | None:
    """Returns the index of the bit at which the sender of the other frame loses arbitration, or None if it does not
    lose."""
    if arbitration_bits(frame) >= arbitration_bits(other):
        return None
    return next(place for place, (bit, its) in enumerate(zip(sent(frame).bits, sent(other).bits)) if bit != its)


def test_zeros_by_hand() -> None:
    assert run_line("bits 000# 001# 000#R 000#11 --bitrate 500000") == (0, ZEROS, "")


def test_examples_of_the_help_and_of_the_guide() -> None:
    with open(os.path.join(ROOT, "docs", "GUIDE.md"), encoding="utf-8") as file:
        texts = [run_line("help bits")[1], file.read()]
    for text in texts:
        found = re.search(r"^( +)\$ (?:\./)?canbusd bits (.*)\n((?:\1.*\n?)+)", text, re.M)
        assert found is not None
        assert [line.removeprefix(found[1]) for line in found[3].splitlines()] == bits_of(*found[2].split())


def test_random_frames_have_the_bits_of_the_model() -> None:
    frames = [*frames_of_all_kinds(600)]
    for frame, other in zip(frames, random.Random(23).sample(frames, len(frames))):
        lines, model = bits_of(str(frame), str(other)), sent(frame)
        fields = [line[15:] for line in lines if not is_total(line)][:-1]
        shown = zip([*model.bits, *INTERMISSION], [*model.stuffed, False, False, False])
        assert "".join(fields) == "".join(f"({bit})" if is_stuff else str(bit) for bit, is_stuff in shown), str(frame)
        total = len(model.bits) + 3
        assert lines[-2] == (
            f"total          {total} bits, {sum(model.stuffed)} of them stuff bits, {model.fast} at the data bit rate"
        )
        place = silence_of(frame, other)
        assert lines[-1].startswith("not silent " if place is None else "silent ")
        assert lines[-1].endswith(f"bit {place}, {other}" if place is not None else f"     {other}"), str(frame)


def test_times() -> None:
    for frame in frames_of_all_kinds(40):
        nominal, fast = bit_counts(frame)
        slow = -(-(nominal + fast) * 10**9 // 250000)
        assert f"time           {slow} ns to end of frame" in bits_of(str(frame), "--bitrate", "250000")
        both = -(-(nominal * 2000000 + fast * 500000) * 10**9 // (500000 * 2000000))
        rates = ("--bitrate", "500000", "--dbitrate", "2000000")
        assert f"time           {both} ns to end of frame" in bits_of(str(frame), *rates)


# This is slow because the program runs once for each frame.
@pytest.mark.slow
@pytest.mark.skipif(shutil.which("node") is None, reason="no node on the PATH")
def test_pages_show_the_bits_of_the_program() -> None:
    frames = [str(frame) for frame in frames_of_all_kinds(10000)]
    lines = [f"{frame} {other}" for frame, other in zip(frames, random.Random(24).sample(frames, len(frames)))]
    script = os.path.join(ROOT, "python", "src", "canbusd", "_page", "bits.js")
    reader = os.path.join(ROOT, "tests", "helpers", "page_bits.js")
    words = ["node", reader, script]
    done = subprocess.run(words, input="\n".join(lines), capture_output=True, text=True, check=True)
    shown = done.stdout.splitlines()
    assert len(shown) == len(lines)
    for line, page in zip(lines, shown):
        assert json.loads(page) == [one for one in bits_of(*line.split()) if not is_total(one)], line


@pytest.mark.parametrize(
    "line",
    [
        "bits",
        "bits 123",
        "bits 123#1",
        "bits 800#",
        "bits 123#112233445566778899",
        "bits 123#R9",
        "bits 123##4",
        "bits 123##0112233445566778899",
        "bits 20000080#0000000000000000",
        "bits 123# 124",
        "bits 123# --bitrate 4999",
        "bits 123# --bitrate can0=500000",
        "bits 123# --bitrate 500000 --bitrate 500000",
        "bits 123# --bitrate 500000 --dbitrate can0=500000",
        "bits 123# --dbitrate 500000",
        "bits 123# --strict",
    ],
)
def test_words_that_ask_for_no_bits(line: str) -> None:
    status, output, errors = run_line(line)
    assert (status, output) == (2, "") and errors.startswith("error: ") and "canbusd bits" in errors


def test_a_text_that_is_no_frame() -> None:
    errors = run_line("bits 123")[2]
    assert errors.splitlines()[0] == (
        "error: invalid value '123' for a frame: as candump logs it, such as 123#1122, 12345678#, 123#R4 or 123##1AABB"
    )
