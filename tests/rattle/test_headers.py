"""The numbers that the definitions and the code take from Linux equal those in the installed headers. Frames, masks and
filters use these numbers in various ways, so the test lists the exact strings. Error message frames use the names in
linux/can/error.h, in the definitions and in the code. There, a mask of n bits is written as the limit 2 ^ n.
"""

import os
import re
import shutil
import subprocess

import pytest

from serving import ROOT

HEADERS = ["linux/can.h", "linux/can/raw.h", "linux/can/error.h"]
COMPILER = shutil.which(os.environ.get("CC", "gcc"))
# For each constant, the number in canbusd and the strings in which it is used.
USES = [
    ("CAN_EFF_FLAG", 0x80000000, "can_frame/specs/Frames.antt", "f.id.extended then 2 ^ 31"),
    ("CAN_EFF_FLAG", 0x80000000, "can_frame/src/frame.rt", "0x8000_0000"),
    ("CAN_RTR_FLAG", 0x40000000, "can_frame/specs/Frames.antt", "is_remote f.payload then 2 ^ 30"),
    ("CAN_RTR_FLAG", 0x40000000, "can_frame/src/frame.rt", "0x4000_0000"),
    ("CAN_SFF_MASK", 0x7FF, "can_frame/src/can_id.rt", "if number >= 0x800 {"),
    ("CAN_SFF_MASK", 0x7FF, "can_frame/src/can_id.rt", "(number < 2 ^ 11)"),
    ("CAN_EFF_MASK", 0x1FFFFFFF, "can_frame/src/can_id.rt", "if number >= 0x2000_0000 {"),
    ("CAN_EFF_MASK", 0x1FFFFFFF, "can_frame/src/can_id.rt", "(number < 2 ^ 29)"),
    ("CAN_ERR_MASK", 0x1FFFFFFF, "can_frame/src/error_frame.rt", "if class >= 0x2000_0000 {"),
    ("CAN_ERR_MASK", 0x1FFFFFFF, "can_frame/src/error_frame.rt", "(class < 2 ^ 29)"),
    ("CAN_MAX_DLEN", 8, "can_frame/src/frame.rt", "(length bytes.now ≤ 8)"),
    ("CAN_ERR_FLAG", 0x20000000, "can_filter/src/filter.rt", "(bit_and mask (2 ^ 29) ≡ 0)"),
    ("CAN_ERR_FLAG", 0x20000000, "can_filter/src/filter.rt", "if mask & 0x2000_0000 != 0 {"),
    ("CAN_INV_FILTER", 0x20000000, "can_filter/specs/Filters.antt", "not (bit_and f.id (2 ^ 29) == 0)"),
    ("CAN_INV_FILTER", 0x20000000, "can_filter/src/filter.rt", "self.id & 0x2000_0000 != 0"),
    ("CAN_RAW_FILTER_MAX", 512, "can_filter/src/filter_set.rt", "MAX_FILTERS: usize = 512;"),
    ("CAN_RAW_FILTER_MAX", 512, "can_filter/src/filter_set.rt", "(512 < length filters.now)"),
]


def read(path):
    with open(os.path.join(ROOT, "crates", path), encoding="utf-8") as file:
        return file.read()


def in_code():
    """Returns the numbers for error message frames in the code, by name."""
    found = re.findall(r"pub const (CAN_ERR_\w+): u(?:8|32) = (\w+);", read("can_errframe/src/codes.rt"))
    return {name: int(number, 16) for name, number in found}


def in_definitions():
    """Returns the numbers for error message frames in the definitions, by name. These names are shorter: err_crtl, crtl_active,
    prot_bit, loc_ack."""
    prefixes = {"err": "CAN_", "crtl": "CAN_ERR_", "prot": "CAN_ERR_", "loc": "CAN_ERR_PROT_"}
    found = re.findall(r"^((\w+?)_\w+) = (0x\w+)$", read("can_errframe/specs/ErrorCodes.antt"), re.M)
    return {prefixes[kind] + name.upper(): int(number, 16) for name, kind, number in found}


@pytest.fixture(scope="module")
def headers(tmp_path_factory):
    """The values of the constants in the headers, which a compiled program prints."""
    if not COMPILER:
        pytest.skip("no C compiler: gcc")
    folder = tmp_path_factory.mktemp("headers")
    includes = "".join(f"#include <{header}>\n" for header in [*HEADERS, "stdio.h"])
    names = {name for name, *_ in USES} | in_code().keys() | in_definitions().keys()
    prints = "".join(
        f'#ifdef {name}\nprintf("{name} %llu\\n", (unsigned long long)({name}));\n#endif\n' for name in sorted(names)
    )
    (folder / "print.c").write_text(f"{includes}int main(void) {{\n{prints}return 0; }}\n")
    if subprocess.run([COMPILER, "-E", folder / "print.c"], capture_output=True, check=False).returncode:
        pytest.skip("the headers of SocketCAN are not installed: linux-libc-dev")
    subprocess.run([COMPILER, "-o", folder / "print", folder / "print.c"], check=True)
    printed = subprocess.run([folder / "print"], capture_output=True, text=True, check=True).stdout
    return {name: int(number) for name, number in map(str.split, printed.splitlines())}


@pytest.mark.parametrize("name, number, path, text", USES)
def test_frames_and_filters(headers, name, number, path, text):
    """The number equals the one in the headers, and the file contains the string."""
    assert headers.get(name, number) == number
    assert text in read(path)


@pytest.mark.parametrize("ours", [in_code(), in_definitions()], ids=["code", "definitions"])
def test_error_message_frames(headers, ours):
    """Each number equals the one in the headers, unless the headers lack it."""
    assert len(ours) >= 20
    wrong = {name: number for name, number in ours.items() if headers.get(name, number) != number}
    assert not wrong


def test_definitions_are_those_of_the_code():
    """The definitions and the code have the same numbers under the same names."""
    code, definitions = in_code(), in_definitions()
    assert {name: code.get(name) for name in definitions} == definitions
