"""On a server and on a bench.

The same test runs on both: the ECU goes bus off and restarts, and its heartbeat continues. On a bench, time is bus
time, which passes while the test waits, and every run is identical.
"""

import pytest
from canbusd import Bench, Frame, Server


@pytest.mark.parametrize("kind", [Server, Bench])
def test_the_heartbeat_goes_on(kind):
    with kind("ecu,tester", bitrate=500_000) as run, run.bus("ecu") as ecu, run.bus("tester") as tester:
        task = ecu.send_periodic(Frame(0x701, b"\x05"), period=0.05)
        run.expect_sequence(0x701, 0x701, within=5)
        run.bus_off("ecu")
        run.expect_from_now()
        run.expect_no_frame(0x701, within=0.2)
        ecu.restart()
        assert run.expect(0x701, within=5).data == b"\x05"
        tester.send(0x123, b"\x01")
        run.expect(0x123, b"\x01", channel="ecu", within=5)
        task.stop()
    assert any(message.is_error_frame for message in run.log())
