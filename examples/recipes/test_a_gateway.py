"""A gateway.

A server can have several buses, and a gateway has an interface on each of them. This gateway forwards frames with an
identifier below 200.
"""

import can
import pytest


@pytest.mark.canbusd("left,inner", "outer,right")
@pytest.mark.canbusd_sweep()
def test_a_gateway(canbusd):
    with canbusd.bus("left") as left, canbusd.bus("inner") as inner, canbusd.bus("outer") as outer:

        def forward(message):
            if message.arbitration_id < 0x200:
                outer.send(message)

        gateway = can.Notifier(inner, [forward])
        for identifier in (0x300, 0x100):
            left.send(can.Message(arbitration_id=identifier, is_extended_id=False))
        canbusd.expect(id=0x100, channel="right", within=5)
        canbusd.expect_no_frame(id=0x300, channel="right", within=0.1)
        gateway.stop()
