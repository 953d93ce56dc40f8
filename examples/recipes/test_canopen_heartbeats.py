"""CANopen heartbeats.

Node 5 sends a heartbeat every 50 ms. A master monitors it with a consumer time of 120 ms (object 1016 of CiA 301). When the
node is unplugged, the master sends the emergency 8130, heartbeat error. It receives heartbeats again after the node is
plugged in.
"""

import pytest
from canbusd import Bench, Frame, Server

HEARTBEAT, CONSUMER_TIME = [{"can_id": 0x705, "can_mask": 0x7FF}], 0.12


def consume(master):
    heard = None
    while (heartbeat := master.recv(timeout=CONSUMER_TIME)) is not None:
        heard = heartbeat
    master.send(0x081, bytes.fromhex("3081 11 0000000000"))
    return heard


@pytest.mark.parametrize("kind", [Server, Bench])
def test_a_node_that_is_unplugged_is_missed(kind):
    with kind("node,master", bitrate=125_000) as run, run.bus("node") as node:
        node.send_periodic(Frame(0x705, b"\x05"), period=0.05)
        with run.bus("master", HEARTBEAT, error_frames=False) as master:
            assert [master.recv(timeout=5).data[0] for _ in range(3)] == [5, 5, 5]
            with run.node("node").unplugged():
                heard = consume(master)
                missed = run.expect(0x081, within=5)
            assert heard is None or missed.timestamp - heard.timestamp >= CONSUMER_TIME
            assert master.recv(timeout=5).data[0] == 5
