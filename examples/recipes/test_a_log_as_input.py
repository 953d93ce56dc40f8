"""A log as input.

python-can reads a candump log, and `can.MessageSync` returns each frame when it is due, so that the frames are sent with
their original timing. `send_many` would read the whole log first, and send all frames as fast as the bus allows. Here
all frames are sent on one interface; candump2bench keeps the interface of each frame.
"""

import can
import pytest

LOG = "(1.000000) can0 123#1122\n(1.000100) can0 124#33\n(1.500000) can0 123#1123\n"


@pytest.mark.canbusd("car,node", observe="node")
@pytest.mark.canbusd_sweep()
def test_a_drive(canbusd, tmp_path):
    (tmp_path / "drive.log").write_text(LOG)
    with canbusd.bus("car") as car, can.LogReader(tmp_path / "drive.log") as log:
        for message in can.MessageSync(log, timestamps=True, gap=0.0001):
            car.send(message, timeout=5)
    first, last = canbusd.expect(id=0x124, within=5), canbusd.expect(id=0x123, within=5)
    assert (first.data, last.data) == (b"\x33", b"\x11\x23")
    assert last.timestamp - first.timestamp > 0.25
