"""udsoncan.

The test reads an identifier with udsoncan (`pip install udsoncan`), over an ISO-TP connection. Debian has no package of
udsoncan, so this recipe follows its documentation, and has not been run.
"""

import pytest
import udsoncan
from canbusd import uds
from udsoncan.client import Client


@pytest.mark.canbusd("ecu,tester")
def test_reading_the_vin(canbusd):
    config = {**udsoncan.configs.default_client_config, "data_identifiers": {0xF190: udsoncan.AsciiCodec(17)}}
    with uds.Ecu(canbusd, "ecu", tx=0x7E8, rx=0x7E0) as ecu, canbusd.isotp("tester", tx=0x7E0, rx=0x7E8) as tester:
        ecu.dids[0xF190] = b"WVWZZZ1JZXW000001"
        with Client(uds.connection(tester), config=config) as client:
            values = client.read_data_by_identifier(0xF190).service_data.values
    assert values[0xF190] == "WVWZZZ1JZXW000001"
