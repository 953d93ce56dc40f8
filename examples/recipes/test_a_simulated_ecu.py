"""A simulated ECU.

A tester uses UDS: a session, security access, a routine, trouble codes that take longer than P2, a refusal on demand, and
an answer that loses one segment.
"""

import pytest
from canbusd import uds


@pytest.mark.canbusd("ecu,tester", bitrate=500_000)
def test_a_visit_to_the_workshop(canbusd):
    with uds.Ecu(canbusd, "ecu", tx=0x7E8, rx=0x7E0) as ecu, uds.Client(
        canbusd, "tester", tx=0x7E0, rx=0x7E8
    ) as tester:
        ecu.dids[0xF190], ecu.dtcs[0x123456] = b"WVWZZZ1JZXW000001", 0x09
        ecu.security(1, seed=b"\x12\x34")(lambda seed: seed[::-1])
        ecu.routine(0x0203, level=1)(lambda data: b"\x00")
        tester.session(3)
        tester.unlock(1, key=lambda seed: seed[::-1])
        assert tester.routine(0x0203) == b"\x00"
        ecu.delay(0x19, 0.2)
        assert tester.dtcs(mask=0x08) == {0x123456: 0x09} and tester.pending == 1
        ecu.refuse(0x22, "conditionsNotCorrect")
        with pytest.raises(uds.NegativeResponse, match="conditionsNotCorrect"):
            tester.read(0xF190)
        ecu.inject(uds.fault("consecutive frame 2", "lost"))
        with pytest.raises(uds.IsoTpError, match="no consecutive frame in time"):
            tester.read(0xF190)
        assert tester.read(0xF190) == b"WVWZZZ1JZXW000001"
