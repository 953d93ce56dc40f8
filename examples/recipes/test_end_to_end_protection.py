"""End-to-end protection.

The rest bus sends a message with the counter and the checksum of AUTOSAR's profile 1. The test checks them as an ECU would.
Then it injects a counter that does not change, and a wrong checksum.
"""

import pytest
from canbusd import e2e

DBC = """VERSION ""
BU_: Engine ECU
BO_ 256 EngineData: 4 Engine
 SG_ EngineSpeed : 16|16@1+ (0.25,0) [0|16000] "rpm" ECU
BA_DEF_ BO_ "GenMsgCycleTime" INT 0 65535;
BA_DEF_DEF_ "GenMsgCycleTime" 50;
"""


@pytest.mark.canbusd("engine,ecu", bitrate=500_000)
def test_the_engine_is_protected(canbusd, tmp_path):
    (tmp_path / "car.dbc").write_text(DBC)
    profile = e2e.Profile1(data_id=0x123)
    rest = canbusd.rest_bus(tmp_path / "car.dbc", without=["ECU"], interface="engine")
    engine = rest.protect("EngineData", profile)
    with rest:
        canbusd.expect_protected("EngineData", profile, count=20, within=5)
        engine.inject("repeated")
        engine.inject("wrong crc")
        with pytest.raises(AssertionError, match="(?s)3 of 20 .* repeated: .* wrong crc: .* wrong sequence: "):
            canbusd.expect_protected("EngineData", profile, count=20, within=5)
