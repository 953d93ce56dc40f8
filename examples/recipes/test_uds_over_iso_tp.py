"""UDS over ISO-TP.

A tester requests the identification number of a vehicle (22 F1 90) over ISO-TP. In the second transfer all frames of the
answer after the first two are destroyed, until the ECU is bus off. Both ends report that the transfer failed, and after a
restart the next transfer works.
"""

import pytest
from canbusd import Faults
from canbusd.isotp import IsoTpError

VIN = b"\x62\xf1\x90WVWZZZ1JZXW000001"


@pytest.mark.canbusd("ecu,tester")
@pytest.mark.canbusd_sweep(known="twice 7E8 from ecu")
def test_reading_the_vin(canbusd):
    with canbusd.isotp("ecu", tx=0x7E8, rx=0x7E0) as ecu, canbusd.isotp("tester", tx=0x7E0, rx=0x7E8) as tester:
        tester.send(b"\x22\xf1\x90")
        assert ecu.recv(timeout=10) == b"\x22\xf1\x90"
        ecu.send(VIN)
        assert tester.recv(timeout=10) == VIN
        canbusd.inject(Faults().next(32, sender="ecu", skip=2).destroyed())
        for call in (lambda: ecu.send(bytes(100)), lambda: tester.recv(timeout=10)):
            with pytest.raises(IsoTpError):
                call()
        canbusd.expect_state("ecu", "off", within=5)
        with canbusd.bus("ecu") as bus:
            bus.restart()
        ecu.send(VIN)
        assert tester.recv(timeout=10) == VIN
