"""UDS for tests: a simulated ECU, a client, and faults in the ISO-TP segments that they send.

    with uds.Ecu(server, "ecu", tx=0x7E8, rx=0x7E0) as ecu, uds.Client(server, "tester", tx=0x7E0, rx=0x7E8) as tester:
        ecu.dids[0xF190] = b"WVWZZZ1JZXW000001"
        assert tester.read(0xF190) == b"WVWZZZ1JZXW000001"
        ecu.inject(uds.fault("consecutive frame 2", "lost"))

Services and response codes follow ISO 14229-1; segments follow ISO 15765-2. ODX and CDD files are not supported.
"""

from canbusd._isotp.end import IsoTpError as IsoTpError
from canbusd._isotp.segments import SegmentFault as SegmentFault, fault as fault
from canbusd._uds.client import Client as Client, connection as connection
from canbusd._uds.codes import NegativeResponse as NegativeResponse
from canbusd._uds.ecu import Ecu as Ecu

__all__ = ["Client", "Ecu", "IsoTpError", "NegativeResponse", "SegmentFault", "connection", "fault"]
