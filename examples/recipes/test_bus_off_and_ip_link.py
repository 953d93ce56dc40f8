"""Bus off, and back by `ip link`.

Scripts that were written for a bench with hardware work unchanged: they set an interface up with the bus's bit rate, read
its state and error counter, and restart it. A bit rate that differs from the bus's is refused.
"""

import shutil

import can
import pytest
from canbusd import Faults

IP = shutil.which("ip", path="/usr/sbin:/usr/bin:/sbin:/bin")


@pytest.mark.skipif(not IP, reason="no ip: apt-get install iproute2")
@pytest.mark.canbusd("node,tester", bitrate=500_000)
def test_bus_off_and_back(canbusd):
    def link(words):
        return canbusd.run([IP, *words.split()], capture_output=True, text=True, timeout=30)

    assert link("link set node up type can bitrate 500000").returncode == 0
    assert "500000 bits a second" in link("link set node type can bitrate 250000").stderr
    canbusd.inject(Faults().next(32, sender="node").destroyed())
    with canbusd.bus("node") as node:
        node.send(can.Message(arbitration_id=0x123, is_extended_id=False))
        canbusd.expect_state("node", "off", within=5)
    assert "state BUS-OFF (berr-counter tx 256" in link("-details link show node").stdout
    assert link("link set node type can restart").returncode == 0
    assert "state ERROR-ACTIVE (berr-counter tx 0" in link("-details link show node").stdout
