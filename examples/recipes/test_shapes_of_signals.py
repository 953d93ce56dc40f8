"""Shapes of signals.

The engine's speed rises, its temperature swings, and its gear comes from a CSV file. The test checks that the same shapes
appear on the bus; an ECU that displays the speed can be tested in the same way.
"""

import pytest
from canbusd import shapes

DBC = """VERSION ""
BU_: Engine ECU
BO_ 256 EngineData: 4 Engine
 SG_ EngineSpeed : 0|16@1+ (0.25,0) [0|16000] "rpm" ECU
 SG_ Temperature : 16|8@1+ (1,-40) [-40|150] "degC" ECU
 SG_ Gear : 24|4@1+ (1,0) [0|8] "" ECU
BA_DEF_ BO_ "GenMsgCycleTime" INT 0 65535;
BA_DEF_DEF_ "GenMsgCycleTime" 10;
"""


@pytest.mark.canbusd("engine,ecu", bitrate=500_000)
def test_the_engine_speeds_up(canbusd, tmp_path):
    (tmp_path / "car.dbc").write_text(DBC)
    (tmp_path / "drive.csv").write_text("time,Gear\n0.0,1\n0.2,2\n0.4,3\n")
    with canbusd.rest_bus(tmp_path / "car.dbc", without=["ECU"], interface="engine") as rest:
        rest["Engine"].play("Temperature", shapes.sine(80, 90, period=0.5))
        rest["Engine"].play("Gear", shapes.csv(tmp_path / "drive.csv", "Gear"))
        rest["Engine"].play("EngineSpeed", shapes.ramp(800, 3000, seconds=0.5))
        canbusd.expect_signal("EngineSpeed", shape=shapes.ramp(800, 3000, seconds=0.5), late=0.1, within=5)
        canbusd.expect_signal("Temperature", between=(80, 90), within=0.2)
        canbusd.expect(signal="Gear", equals=3, within=5)
