"""Tests of a node that were not written for virtual time."""

import time

import can
import pytest


def message(identifier, *data):
    return can.Message(arbitration_id=identifier, data=data, is_extended_id=False)


@pytest.mark.canbusd("ecu,tester", bitrate=500000)
def test_heartbeats(canbusd):
    with canbusd.bus("ecu") as ecu, canbusd.bus("tester") as tester:
        task = ecu.send_periodic(message(0x700, 5), 1.0)
        start, count = time.time(), 0
        while time.time() - start < 60:
            assert tester.recv(timeout=2).arbitration_id == 0x700
            count += 1
        task.stop()
        assert 60 <= count <= 61


@pytest.mark.canbusd("ecu,tester", bitrate=500000)
def test_timeout(canbusd):
    with canbusd.bus("tester") as tester:
        before = time.monotonic()
        assert tester.recv(timeout=123.25) is None
        assert time.monotonic() - before == pytest.approx(123.25, abs=1e-6)


@pytest.mark.canbusd("ecu,tester", bitrate=500000, faults="next 32 from ecu global bit")
def test_bus_off(canbusd):
    with canbusd.bus("ecu") as ecu, canbusd.bus("tester") as tester:
        ecu.send(message(1))
        canbusd.expect_state("ecu", "off")
        ecu.restart()
        ecu.send(message(2))
        received = tester.recv(timeout=1)
        while received is not None and received.is_error_frame:
            received = tester.recv(timeout=1)
        assert received.arbitration_id == 2


def test_bench(canbusd_bench):
    time.sleep(1000)
    canbusd_bench.open("can0").send(1)
    assert canbusd_bench.attempt().winner == "can0"
