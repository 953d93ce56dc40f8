"""Tests side by side.

With pytest-xdist (`apt-get install python3-pytest-xdist`), `python3 -m pytest -n auto` runs tests in as many processes
as there are processors. Each test has its own server on a free port, so interfaces with the same name do not clash.
"""

import can
import pytest


@pytest.mark.parametrize("value", range(4))
@pytest.mark.canbusd("ecu,tester")
def test_a_value(canbusd, value):
    with canbusd.bus("ecu") as ecu, canbusd.bus("tester") as tester:
        ecu.send(can.Message(arbitration_id=0x100, data=[value], is_extended_id=False))
        assert tester.recv(timeout=5).data[0] == value
        assert tester.recv(timeout=0.05) is None
