"""Order and change.

A lamp answers each request, and does not change its state until the next request.
"""

import can
import pytest

REQUEST, STATE = 0x200, 0x201


@pytest.mark.canbusd("tester,lamp")
@pytest.mark.canbusd_sweep(faults=["destroyed", "twice"])
def test_the_lamp_answers(canbusd):
    with canbusd.bus("tester") as tester, canbusd.bus("lamp", error_frames=False) as lamp:

        def answer(message):
            lamp.send(can.Message(arbitration_id=STATE, data=message.data, is_extended_id=False))

        node = can.Notifier(lamp, [answer])
        for is_on in (1, 0):
            tester.send(can.Message(arbitration_id=REQUEST, data=[is_on], is_extended_id=False))
            canbusd.expect_sequence(REQUEST, {"id": STATE, "data": bytes([is_on])}, within=5, between=())
            canbusd.expect_no_change(STATE, within=0.1)
        canbusd.expect_state("lamp", "active")
        node.stop()
