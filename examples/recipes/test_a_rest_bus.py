"""A rest bus.

A rest bus simulates all nodes of a database except the node under test. Here the node under test notices that the engine
falls silent. On a bench the send times are exact. With a server you write `with canbusd.rest_bus(..)` and the same calls;
the thread of the rest bus then replaces `run`.
"""

import pytest
from canbusd import Bench

DBC = """VERSION ""
BU_: Engine ECU
BO_ 256 EngineData: 3 Engine
 SG_ EngineSpeed : 0|16@1+ (0.25,0) [0|16000] "rpm" ECU
 SG_ Counter : 16|4@1+ (1,0) [0|15] "" ECU
BA_DEF_ BO_ "GenMsgCycleTime" INT 0 65535;
BA_DEF_DEF_ "GenMsgCycleTime" 10;
"""


def test_the_engine_falls_silent(tmp_path):
    (tmp_path / "car.dbc").write_text(DBC)
    with Bench("engine,ecu", bitrate=500_000) as bench:
        ecu = bench.open("ecu")
        with bench.rest_bus(tmp_path / "car.dbc", without=["ECU"], interface="engine") as rest:
            rest["Engine"]["EngineSpeed"] = 3000
            rest.on_send("EngineData", lambda message: message.__setitem__("Counter", message.count % 16))
            rest.run(until=0.05)
            assert [frame.data.hex() for frame in ecu.receive()] == [f"e02e{count:02x}" for count in range(5)]
            rest.stop("Engine")
            rest.run(until=0.1)
            assert not ecu.receive()
