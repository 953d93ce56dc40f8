"""Lost arbitration on a server.

No fault rule makes a node lose arbitration, but traffic does. If the bus has a bit rate, long frames occupy it, and frames
that nodes send in the meantime wait. Of the waiting frames the one with the lowest identifier is transmitted first, even
if another one was sent earlier.
"""

import can
import pytest

LONG, FIRST, LATER = 0x001, 0x100, 0x200


@pytest.mark.canbusd("tester,ecu,gateway", bitrate=5_000)
@pytest.mark.canbusd_sweep()
def test_the_lower_identifier_goes_first(canbusd):
    with canbusd.bus("tester", fd=True) as tester, canbusd.bus("ecu") as ecu, canbusd.bus("gateway") as gateway:
        # Three frames of 64 bytes take more than a tenth of a second at this bit rate. So these frames win arbitration
        # even if a busy machine delays the test.
        for _ in range(3):
            tester.send(can.Message(arbitration_id=LONG, data=bytes(64), is_fd=True, is_extended_id=False))
        ecu.send(can.Message(arbitration_id=LATER, is_extended_id=False))
        gateway.send(can.Message(arbitration_id=FIRST, is_extended_id=False))
        canbusd.expect_sequence(LONG, LONG, LONG, FIRST, LATER, within=5, between=())
