"""One server for a module.

A fixture of the module starts the server once. Each test has to leave the server as it found it. The logs and records are
written to a pytest folder, and the records are audited at the end.
"""

import can
import pytest
from canbusd import Server


@pytest.fixture(scope="module")
def server(tmp_path_factory):
    with Server("ecu,tester", out=tmp_path_factory.mktemp("can")) as running:
        yield running
    assert all(said.startswith("ok ") for said in running.audit().values())


@pytest.mark.parametrize("value", range(3))
def test_a_value(server, value):
    with server.bus("ecu") as ecu, server.bus("tester") as tester:
        ecu.send(can.Message(arbitration_id=0x100, data=[value], is_extended_id=False))
        assert tester.recv(timeout=5).data[0] == value
