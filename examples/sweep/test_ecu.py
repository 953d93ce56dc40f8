"""A body controller: rules that must hold even if any frame has a fault. `pytest --canbusd-sweep` finds the violations.
"""

import subprocess
import time
from pathlib import Path

import can
import pytest

pytestmark = pytest.mark.canbusd("tester,ecu", bitrate=500_000, auto_restart=128)


@pytest.fixture(scope="session")
def ecu(tmp_path_factory):
    program = tmp_path_factory.mktemp("ecu") / "ecu"
    subprocess.run(["gcc", "-O1", "-o", program, Path(__file__).with_name("ecu.c")], check=True)
    return program


@pytest.fixture
def tester(canbusd, ecu):
    canbusd.start([ecu, "ecu"])
    with canbusd.bus("tester", error_frames=False) as bus:
        canbusd.expect(id=0x200, within=1)
        yield bus


def received(bus, identifier, seconds):
    """Yields the first byte of each frame with this identifier that arrives within `seconds` seconds."""
    end = time.monotonic() + seconds
    while (left := end - time.monotonic()) > 0:
        message = bus.recv(left)
        if message is not None and message.arbitration_id == identifier:
            yield message.data[0]


@pytest.mark.canbusd_sweep()
def test_a_press_counts_once(tester):
    """Seven presses of the button are counted as seven."""
    for _ in range(7):
        tester.send(can.Message(arbitration_id=0x123, is_extended_id=False), timeout=1)
        time.sleep(0.007)
    assert [*received(tester, 0x124, 0.1)][-1] == 7


@pytest.mark.canbusd_sweep(faults=["destroyed", "twice", "burst", "busoff"], senders="ecu")
def test_the_counter_has_no_gap(tester):
    """Every counter value is equal to the previous value, or is the next value, or is 0 after a restart."""
    before = None
    for now in received(tester, 0x200, 0.3):
        assert before is None or now in (before, before + 1, 0), f"{now} after {before}"
        before = now
