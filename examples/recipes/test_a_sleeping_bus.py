"""A sleeping bus.

Two nodes sleep until a network management message wakes them; in AUTOSAR such messages have identifiers from 500 upwards.
Other frames do not wake them. While the door is awake, it sends its cyclic message. Both nodes sleep again after 300 ms
without a network management message.
"""

import pytest
from canbusd import Bench, Frame, Server

NM, NM_FILTER = range(0x500, 0x540), [{"can_id": 0x500, "can_mask": 0x7C0}]


@pytest.mark.parametrize("kind", [Server, Bench])
def test_network_management_wakes_the_bus(kind):
    with kind("door,light,tester", bitrate=500_000) as run, run.bus("door") as door, run.bus("tester") as tester:
        nodes, light = [run.node("door"), run.node("light")], run.bus("light", NM_FILTER, error_frames=False)
        door.send_periodic(Frame(0x200, b"\x01"), period=0.05)
        for _ in range(2):
            for node in nodes:
                node.sleep(wake_on=NM)
            run.expect_from_now()
            tester.send(0x123)
            run.expect_no_frame(0x200, within=0.2)
            assert [run.state(node.name) for node in nodes] == ["down", "down"]
            needed = tester.send_periodic(Frame(0x510, b"\x10\x40"), period=0.1)
            for node in nodes:
                run.expect_state(node.name, "active", within=5)
            run.expect_sequence(0x510, 0x200, 0x200, within=5)
            needed.stop()
            while light.recv(timeout=0.3):
                pass
