"""A virtual ECU.

A guest system in QEMU uses a bus through its own Linux driver. `examples/virtual_ecu/guest` makes `initrd` for a Debian
kernel. The test in that folder sends requests to the guest, destroys its replies, and makes both ends go bus off. GUEST is
the folder of kernel and initrd.
"""

import os
import pytest
from canbusd import Faults

QEMU = """qemu-system-x86_64 -m 256 -nographic -no-reboot -net none
    -kernel vmlinuz -initrd initrd -append "console=ttyS0 quiet no_timer_check" -object can-bus,id=b
    -object can-host-socketcan,id=h,if=ecu,canbus=b -device kvaser_pci,canbus=b"""


@pytest.mark.skipif("GUEST" not in os.environ, reason="no guest")
@pytest.mark.canbusd("ecu,tester")
def test_the_ecu_comes_up(canbusd):
    canbusd.inject(Faults().next(3, sender="ecu").destroyed())
    canbusd.start(QEMU, cwd=os.environ["GUEST"])
    assert canbusd.expect(id=0x700, within=120).data == b"\x05"
