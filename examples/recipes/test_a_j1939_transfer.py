"""A J1939 ECU with a fault during a transfer of several packets.

An engine at address 00 sends 38 bytes of trouble codes (FECA) to a service tool at F9, in six packets, which the
tool acknowledges. In the second transfer all frames from the engine after the first packet are destroyed, until it
is bus off. Then the tool aborts the transfer with reason 3, a timeout. After a restart the next transfer works.
Both nodes use CAN_J1939, as on Linux.
"""

import sys

import pytest
from canbusd import Faults

NODE = "import socket as s; n = s.socket(s.PF_CAN, s.SOCK_DGRAM, s.CAN_J1939); n.bind(('{}', 0, s.J1939_NO_PGN, {}))\n"
ENGINE = NODE.format("ecu", 0x00) + "n.sendto(bytes(38), ('ecu', 0, 0xFECA, 0xF9)); n.close()"
TOOL = NODE.format("tool", 0xF9) + "print('ready', flush=True)\nwhile True: assert len(n.recv(1785)) == 38"
COMPLETE, ABORTED = "132600 06 FF CAFE00", "FF 03 FFFFFF CAFE00"


@pytest.mark.canbusd("ecu,tool")
def test_a_transfer_that_breaks(canbusd):
    canbusd.start([sys.executable, "-c", TOOL]).expect("ready")
    for breaks in False, True, False:
        if breaks:
            canbusd.inject(Faults().next(32, sender="ecu", skip=2).destroyed())
        canbusd.run([sys.executable, "-c", ENGINE], check=True)
        answer = ABORTED if breaks else COMPLETE
        canbusd.expect(id=0x18EC00F9, data=bytes.fromhex(answer), is_extended_id=True, within=5)
        if breaks:
            canbusd.expect_state("ecu", "off", within=5)
            with canbusd.bus("ecu") as ecu:
                ecu.restart()
