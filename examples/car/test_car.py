"""A car of three nodes. The instrument cluster is under test, once in C and once in Python. The engine and the gateway are
simulated from the database.

    python3 -m pytest examples/car
    python3 -m pytest --canbusd-virtual examples/car

The cluster is an unchanged program for SocketCAN. canbusd-run connects its sockets to the test's server.
"""

import subprocess
import sys
from pathlib import Path

import can
import pytest

from canbusd import Faults

HERE = Path(__file__).parent
CAR = HERE / "car.dbc"
pytestmark = pytest.mark.canbusd("engine,gateway,cluster,tester", bitrate=500_000, database=CAR)


@pytest.fixture(scope="session")
def built(tmp_path_factory):
    """Builds the C cluster. Returns the command of each cluster."""
    program = tmp_path_factory.mktemp("cluster") / "cluster"
    source = HERE / "cluster.c"
    subprocess.run(
        ["gcc", "-std=c11", "-D_GNU_SOURCE", "-Wall", "-Wextra", "-Werror", "-o", program, source], check=True
    )
    return {"C": [program], "Python": [sys.executable, HERE / "cluster.py"]}


@pytest.fixture(params=["C", "Python"])
def rest(canbusd, built, request):
    """Starts a cluster program, and simulates all other nodes. The engine counts its messages."""
    nodes = {"Engine": "engine", "Gateway": "gateway"}
    with canbusd.rest_bus(CAR, without="Cluster", nodes=nodes) as rest:
        rest.on_send("EngineData", lambda message: message.__setitem__("Counter", message.count % 16))
        canbusd.start([*built[request.param], "cluster"])
        canbusd.expect("ClusterState", within=10)
        yield rest


def restart(canbusd, name):
    """Restarts a node that is bus off."""
    with canbusd.bus(name) as bus:
        bus.restart()


def test_start_up(canbusd, rest):
    """the cluster counts its messages, starting with the first one, and shows no lamp"""
    canbusd.expect_sequence(*({"signal": "Alive", "equals": number} for number in (1, 2, 3)), within=1)
    canbusd.expect_no_frame(signal="Lamp", above=0, within=0)


def test_it_reports_each_50_ms(canbusd, rest):
    canbusd.expect_cyclic("ClusterState", period=0.05, tolerance=0.045, count=6)


def test_it_shows_the_speed(canbusd, rest):
    for speed in (800, 3000.25, 0):
        rest["Engine"]["EngineSpeed"] = speed
        canbusd.expect(signal="ShownSpeed", equals=speed, within=1)


def test_ice_is_in_one_page_only(canbusd, rest):
    """a byte that means 2 degrees in page 1 means 42 % of fuel in page 0"""
    rest.send("Comfort", {"Page": 0, "Fuel": 42})
    canbusd.expect_no_change(signal="Ice", within=0.12)
    rest.send("Comfort", {"Page": 1, "Outside": 2})
    canbusd.expect(signal="Ice", equals="Yes", within=1)
    rest.send("Comfort", {"Page": 1, "Outside": 3.5})
    canbusd.expect(signal="Ice", equals="No", within=1)


def test_an_engine_that_falls_silent(canbusd, rest):
    rest.stop("Engine")
    canbusd.expect(signal="Lamp", equals="EngineLost", within=1)
    rest.start("Engine")
    canbusd.expect(signal="Lamp", equals="Off", within=1)


def test_an_engine_that_is_stuck(canbusd, rest):
    """a lamp shows that the engine's counter does not change, although the engine's messages arrive"""
    rest.on_send("EngineData", lambda message: message.__setitem__("Counter", 7))
    canbusd.expect(signal="Lamp", equals="EngineStuck", within=1)


def test_a_destroyed_message_is_sent_again(canbusd, rest):
    canbusd.inject(Faults().next(3, id=0x100).destroyed())
    canbusd.wait_for(lambda: canbusd.rules_left() == 0)
    canbusd.expect_no_frame(signal="Lamp", above=0, within=0.3)


def test_a_message_that_comes_twice(canbusd, rest):
    """the engine repeats its message after a fault that only it saw, so the cluster gets the same count twice"""
    canbusd.inject(Faults().next(3, sender="engine").last_bit())
    canbusd.wait_for(lambda: canbusd.rules_left() == 0)
    canbusd.expect_no_frame(signal="Lamp", above=0, within=0.3)


def test_the_engine_goes_bus_off(canbusd, rest):
    canbusd.bus_off("engine")
    canbusd.expect(signal="Lamp", equals="EngineLost", within=1)
    restart(canbusd, "engine")
    canbusd.expect(signal="Lamp", equals="Off", within=1)


def test_the_cluster_goes_bus_off(canbusd, rest):
    """other nodes continue while the cluster is bus off, and after its restart the cluster counts from 0"""
    canbusd.bus_off("cluster")
    # Ignores the frames that the cluster has sent before.
    canbusd.expect_from_now()
    canbusd.expect_no_frame("ClusterState", within=0.12)
    canbusd.expect_state("engine", "active")
    restart(canbusd, "cluster")
    canbusd.expect_sequence({"signal": "Alive", "equals": 0}, {"signal": "Alive", "equals": 1}, within=1)


def test_diagnostics_under_faults(canbusd, rest):
    """the whole answer arrives, although some of its frames are destroyed"""
    with canbusd.isotp("tester", tx=0x7E0, rx=0x7E8) as tester:
        canbusd.inject(Faults().next(2, id=0x7E8, skip=1).destroyed())
        tester.send(b"\x22\xf1\x90")
        assert tester.recv(timeout=5) == b"\x62\xf1\x90CLUSTER-000000001"
        tester.send(b"\x11\x01")
        assert tester.recv(timeout=5) == b"\x7f\x11\x31"


def test_load(canbusd, rest):
    """a babbling node with the highest priority leaves a third of the bus time to other nodes, which is enough"""
    with canbusd.bus("tester") as tester:
        message = can.Message(arbitration_id=0x001, data=bytes(8), is_extended_id=False)
        task = tester.send_periodic([message], period=0.00035)
        canbusd.expect_cyclic("ClusterState", period=0.05, tolerance=0.045, count=4)
        canbusd.expect_no_frame(signal="Lamp", above=0, within=0)
        task.stop()
