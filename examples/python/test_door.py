"""Faults that a door has to survive: duplicated frames, missed frames, lost arbitration, and bus off.

    pip install ./python
    python3 -m pytest examples/python

The fixtures come from the package's pytest plugin. `canbusd` is a server, here with two nodes. Its record is audited at
the end of each test. `canbusd_bench` is a bus without a clock, on which frames are sent only by `attempt` and `run`.
"""

import pytest
from door import COMMAND, REPORT, REQUEST, Door, message, step

from canbusd import Faults

CLOSED, OPEN = 0, 1
nodes = pytest.mark.canbusd("tester,door")


@pytest.fixture
def tester(canbusd):
    with canbusd.bus("tester", error_frames=False) as bus:
        yield bus


@pytest.fixture
def door_bus(canbusd):
    with canbusd.bus("door") as bus:
        yield bus


def expect(bus, identifier, *data):
    """Fails unless the next message has this identifier and these data."""
    received = bus.recv(timeout=5)
    assert (received.arbitration_id, tuple(received.data)) == (identifier, data)


@nodes
@pytest.mark.canbusd_sweep()
def test_it_opens(tester, door_bus):
    door = Door()
    tester.send(message(COMMAND, 0, OPEN))
    step(door, door_bus)
    expect(tester, REPORT, 0, OPEN)
    assert door.is_open


# The tester's first frame fails in its last bit: the door accepts the frame, and the tester sends it again.
@pytest.mark.canbusd("tester,door", faults=Faults().last_bit(0))
@pytest.mark.canbusd_sweep()
def test_a_command_that_arrives_twice_is_obeyed_once(tester, door_bus):
    door = Door()
    tester.send(message(COMMAND, 0, OPEN))
    step(door, door_bus)
    step(door, door_bus)
    expect(tester, REPORT, 0, OPEN)
    # The door sends only one report.
    assert door_bus.stats().sent == 1
    assert door.moves == 1


# 17 failed attempts make the door error passive. So its error flag can't destroy the command that it receives with a
# fault, and the door misses that command.
@pytest.mark.canbusd("tester,door", faults=Faults().destroyed(range(17)).local("crc", ["door"], 18))
def test_a_missed_command_is_asked_for(canbusd, tester, door_bus):
    door = Door()
    door_bus.send(door.report())
    expect(tester, REPORT, 255, CLOSED)
    for number, wanted in enumerate([OPEN, CLOSED]):
        tester.send(message(COMMAND, number, wanted))
    # The door receives error message frames for error warning and error passive, and then the second command.
    for _ in range(3):
        step(door, door_bus)
    expect(tester, REQUEST, 0)
    for number, wanted in enumerate([OPEN, CLOSED]):
        tester.send(message(COMMAND, number, wanted))
        step(door, door_bus)
        expect(tester, REPORT, number, wanted)
    assert (door.moves, door.is_open) == (2, False)


# The door's first report is destroyed 32 times. Each time adds 8 to its error counter, and at 256 the door is bus off.
@pytest.mark.canbusd("tester,door", faults=Faults().destroyed(range(1, 33)))
def test_it_comes_back_from_bus_off(canbusd, tester, door_bus):
    door = Door()
    tester.send(message(COMMAND, 0, OPEN))
    # The events are the command, error warning, error passive and bus off, and then the restart.
    for _ in range(5):
        step(door, door_bus)
    expect(tester, REPORT, 0, OPEN)
    assert door_bus.error_counters().state == "active"

    canbusd.stop()
    attempts = canbusd.record("tester").attempts
    assert [attempt.outcome for attempt in attempts] == ["done"] + 32 * ["destroyed"] + ["done"]
    assert attempts[32].off == ("door",)


@pytest.mark.canbusd("tester,door,other")
def test_a_report_that_loses_arbitration_is_sent_in_the_end(canbusd_bench):
    tester, door_session, other = (canbusd_bench.open(name) for name in canbusd_bench.names)
    door = Door()
    tester.send(message(COMMAND, 0, OPEN))
    canbusd_bench.attempt()
    for received in door_session.receive():
        for answer in door.handle(received):
            door_session.send(answer)
    # While the report waits, other nodes send frames with lower identifiers.
    for number in range(3):
        other.send(0x0FF, bytes([number]))
    assert [attempt.winner for attempt in canbusd_bench.run()] == ["other", "other", "other", "door"]
    assert [str(frame) for frame in tester.receive()] == ["0FF#00", "0FF#01", "0FF#02", "200#0001"]
