"""The bits of frames on the wire: the model from which canbusd's numbers come, and the files that use these numbers.
The model agrees with catalogues of CRCs, with long division, and with the smallest and largest number of bits that the
fields of a frame allow. The tests in can_unit_tests and the laws in can_wire use the model's numbers.
"""

from __future__ import annotations

import os
import random
import re
from collections.abc import Sequence

import pytest

from serving import ROOT
from wire_model import Frame, bit_counts, crc, data_bits, number_bits, random_frames, sent

CRCS = [(15, 0x4599, 0x059E), (17, 0x1685B, 0x04F03), (21, 0x102899, 0x0ED841)]
# The frames in the law `known_frames_have_their_bits` (specs/Known.antt).
KNOWN = [
    Frame.read("123#11223344"),
    Frame.read("1ABCDEF0##3000102"),
    Frame.read("555##1" + 4 * "00" + 16 * "55"),
]


def read(*path: str) -> str:
    with open(os.path.join(ROOT, *path), encoding="utf-8") as file:
        return file.read()


def remainder(bits: Sequence[int], width: int, polynomial: int) -> list[int]:
    """Returns the remainder of the long division of the bits, followed by zeros."""
    rest = int("".join(map(str, bits)), 2) << width
    for place in reversed(range(len(bits))):
        if rest >> (place + width) & 1:
            rest ^= (1 << width | polynomial) << place
    return number_bits(rest, width)


@pytest.mark.parametrize("width, polynomial, check", CRCS)
def test_crcs(width: int, polynomial: int, check: int) -> None:
    assert crc(data_bits(Frame(0, False, b"123456789")), width, polynomial) == number_bits(check, width)
    maker = random.Random(3)
    for _ in range(500):
        bits = [maker.getrandbits(1) for _ in range(maker.randrange(1, 120))]
        assert crc(bits, width, polynomial) == remainder(bits, width, polynomial)


def test_bounds_of_classic_frames() -> None:
    for frame in random_frames(4, 5000, is_fd=False, longest=8):
        covered = (54 if frame.extended else 34) + 8 * len(frame.data)
        least = covered + 13
        total = sum(bit_counts(frame)) + 3
        assert least <= total <= least + (covered - 1) // 4, str(frame)


def test_stuffed_bits() -> None:
    """Before the end of the CRC, no six consecutive bits are equal."""
    for frame in [*random_frames(5, 1000, False, 8), *random_frames(6, 1000, True, 64)]:
        text = "".join(map(str, sent(frame).bits[:-10]))
        assert not re.search("0{6}|1{6}", text), str(frame)


def test_tables() -> None:
    """The random frames in the tests have the numbers of bits that the model computes."""
    text = read("tests", "rattle", "can_unit_tests", "tests", "wire.rtt")
    classic = re.findall(r'\("([0-9A-FR#]+)", (\d+)\),', text)
    for frame, nominal in classic:
        assert bit_counts(Frame.read(frame)) == (int(nominal), 0), frame
    fd = re.findall(r'\(\s*"([0-9A-F]+##[0-3][0-9A-F]*)",\s+(\d+),\s+(\d+),?\s*\),', text)
    for frame, nominal, fast in fd:
        assert bit_counts(Frame.read(frame)) == (int(nominal), int(fast)), frame
    assert len(classic) >= 48 and len(fd) == 40


def test_known_frames() -> None:
    """The frames in the law have the bits that the model computes."""
    law = read("crates", "can_wire", "src", "laws.rt").split("known_frames_have_their_bits")[1].split("{}")[0]
    texts = re.findall(r"low_bits (\d+) 0x([0-9A-F]+)", law)
    assert [number_bits(int(number, 16), int(count)) for count, number in texts] == [
        sent(frame).bits for frame in KNOWN
    ]
