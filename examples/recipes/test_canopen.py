"""CANopen.

A node in Python that follows CiA 301: it sends its boot-up message, network management starts it, and a master reads an
object of its dictionary, the vendor's number, by SDO.
"""

import can
import pytest


@pytest.mark.canbusd("node,master", bitrate=500_000)
def test_a_node_is_started_and_read(canbusd):
    with canbusd.bus("node") as node, canbusd.bus("master") as master:

        def node_5(message):
            if message.arbitration_id == 0x000 and message.data[1] in (0, 5):
                node.send(0x705, {1: b"\x05", 2: b"\x04", 128: b"\x7f"}[message.data[0]])
            elif message.arbitration_id == 0x605 and message.data[:4] == b"\x40\x18\x10\x01":
                node.send(0x585, b"\x43\x18\x10\x01\x34\x12\x00\x00")

        notifier = can.Notifier(node, [node_5])
        node.send(0x705, b"\x00")
        canbusd.expect(0x705, b"\x00", within=5)
        master.send(0x000, b"\x01\x05")
        canbusd.expect(0x705, b"\x05", within=5)
        master.send(0x605, b"\x40\x18\x10\x01" + bytes(4))
        assert canbusd.expect(0x585, within=5).data[4:] == b"\x34\x12\x00\x00"
        notifier.stop()
