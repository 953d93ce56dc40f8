"""Interfaces that go down and up: on a server and a bench, with a rest bus and with programs, and by commands."""

import errno
import re
import sys

import can
import pytest

from canbusd._page.report import page
from canbusd._run.comparison import Comparison
from canbusd._run.steps import KINDS
from canbusd._run.story import events_of, facts_of, heading_of
from canbusd.bench import Bench
from canbusd.faults import Faults
from canbusd.isotp import IsoTpError
from canbusd.record import attempts_of
from canbusd.replay import Replay
from canbusd.server import Server
from common import DBC, WAIT, message, on_each_kind
from test_commands import call
from test_lying_server import liar
from test_report import data_of

#: A program that prints a line when it starts, and sends a frame on request.
PROGRAM = """
import can
with can.Bus(interface="socketcan", channel="ecu") as bus:
    bus.send(can.Message(arbitration_id=0x100, is_extended_id=False))
    for asked in bus:
        if asked.arbitration_id == 0x200:
            bus.send(can.Message(arbitration_id=0x201, is_extended_id=False))
"""


@on_each_kind
def run(request):
    """A server or a bench."""
    kind, bitrate = request.param
    with kind("ecu,tester", bitrate=bitrate, ack="peers") as running:
        yield running


@pytest.fixture
def database(tmp_path):
    """The path of a DBC file with two nodes, one of which sends a message every 10 ms."""
    path = tmp_path / "car.dbc"
    path.write_text(DBC)
    return path


def test_an_interface_goes_down_and_up(run):
    with run.bus("ecu") as ecu, run.bus("tester") as tester:
        run.down("ecu")
        run.expect_state("ecu", "down")
        assert run.state("ecu") == "down" and run.state("tester") == "active"
        with pytest.raises(Exception, match="^interface down") as refused:
            ecu.send(0x100)
        assert isinstance(refused.value, RuntimeError if isinstance(run, Bench) else can.CanOperationError)
        # Calling down() a second time has no effect.
        run.down("ecu")
        run.up("ecu")
        run.expect_state("ecu", "active")
        assert ecu.error_counters() == ("active", 0, 0)
        ecu.send(0x101)
        assert tester.recv(timeout=WAIT).arbitration_id == 0x101
        # Calling up() a second time has no effect.
        run.up("ecu")
        assert run.state("ecu") == "active"


def test_a_session_takes_its_interface_down(run):
    with run.bus("ecu") as ecu:
        ecu.down()
        assert ecu.error_counters().state == "down"
        ecu.up()
        assert ecu.error_counters() == ("active", 0, 0)
        ecu.down()
        # A restart of the ECU also brings its interface up.
        ecu.restart()
        assert ecu.error_counters().state == "active"
        with pytest.raises(Exception, match="ecu: not bus off, but active"):
            ecu.restart()


def test_nobody_acknowledges_where_the_others_are_down():
    with Bench("ecu,tester", ack="peers") as bench:
        ecu = bench.open("ecu")
        bench.down("tester")
        ecu.send(0x100)
        assert bench.attempt().outcome == "noack"
        bench.up("tester")
        assert (lambda one: (one.outcome, one.accepted))(bench.attempt()) == ("done", ("tester",))


def test_a_down_takes_what_waits():
    with Bench("can0,can1,can2") as bench:
        sender, other = bench.open("can0"), bench.open("can1")
        for number in range(3):
            sender.send(0x100 + number)
        other.send(0x200)
        assert bench.attempt(at=0.1).accepted == ("can1", "can2")
        sender.down(at=0.2)
        stats = sender.stats()
        assert (stats.sent, stats.done, stats.waiting, stats.lost) == (3, 1, 0, 2)
        assert [(one.winner, one.accepted) for one in bench.run()] == [("can1", ("can2",))]
        # The socket has received no frame while its interface was down.
        assert [frame.arbitration_id for frame in sender.receive()] == []
        sender.up(at=0.3)
        (back,) = sender.receive()
        assert (back.meaning, back.timestamp) == ("restarted", 0.3)
        record = bench.record()
    assert [step.kind for step in record.replay.steps] == ["done", "down", "done", "restart"]
    assert bench.audit().startswith("ok ")


def test_down_after_bus_off():
    with Bench("can0,can1", faults=Faults().destroyed(range(32)), auto_restart=3) as bench:
        sender = bench.open("can0")
        sender.send(0x123)
        assert bench.run()[-1].off == ("can0",)
        sender.down()
        assert sender.status() == ("down", 256, 0)
        # An automatic restart does not bring an interface up.
        assert [bench.attempt() for _ in range(5)] == [None] * 5
        sender.up()
        assert sender.status() == ("active", 0, 0)


def test_the_state_of_python_can(server):
    with server.bus("can0") as can0:
        can0.down()
        assert can0.state is can.BusState.ERROR
        with pytest.raises(can.CanOperationError) as refused:
            can0.send(message(1))
        assert refused.value.error_code == errno.ENETDOWN and "up() brings the interface up" in str(refused.value)
        can0.state = can.BusState.ACTIVE
        assert can0.state is can.BusState.ACTIVE


def test_a_periodic_message_goes_on(run):
    with run.bus("ecu") as ecu, run.bus("tester") as tester:
        task = ecu.send_periodic(can.Message(arbitration_id=0x123, is_extended_id=False), 0.01)
        assert tester.recv(timeout=WAIT)
        run.down("ecu")
        while tester.recv(timeout=0.1):
            pass
        run.up("ecu")
        assert tester.recv(timeout=WAIT).arbitration_id == 0x123
        task.stop()


def test_a_node_and_its_rest_bus(run, database):
    with run.rest_bus(database, interface="ecu", without=["ECU"]) as rest:
        node = run.node("ecu")
        run.expect(0x100, within=WAIT)
        node.power_off()
        assert run.state("ecu") == "down" and not rest.message("EngineData").is_running
        run.expect_from_now()
        run.expect_no_frame(0x100, within=0.1)
        before = rest.counts("EngineData")
        node.power_on()
        assert run.state("ecu") == "active"
        run.expect(0x100, within=WAIT)
        # The node sent no frames while it was down, so none was refused.
        assert before.refused == rest.counts("EngineData").refused == 0
        with node.unplugged():
            run.expect_state("ecu", "down")
        assert run.state("ecu") == "active" and rest.message("EngineData").is_running
        # A message that was stopped earlier stays stopped.
        rest.stop("EngineData")
        node.sleep()
        node.wake()
        assert not rest.message("EngineData").is_running


def test_a_rest_bus_goes_on_where_its_interface_is_down(run, database):
    with run.rest_bus(database, interface="ecu", without=["ECU"]) as rest:
        run.expect(0x100, within=WAIT)
        run.down("ecu")
        run.expect_state("ecu", "down")
        run.wait_for(lambda: rest.counts().refused > 2, timeout=WAIT)
        run.up("ecu")
        run.expect_from_now()
        run.expect(0x100, within=WAIT)


def test_a_node_with_a_program():
    with Server("ecu,tester") as server:
        program = server.start([sys.executable, "-c", PROGRAM])
        node = server.node("ecu", program)
        server.expect(0x100, within=WAIT)
        first = program.pid
        node.power_off()
        assert program.status is not None and server.state("ecu") == "down"
        node.power_on()
        server.expect(0x100, within=WAIT)
        assert program.status is None and program.pid != first
        with node.unplugged(), server.bus("tester") as tester:
            tester.send(0x200)
            server.expect_no_frame(0x201, within=0.2)
        with server.bus("tester") as tester:
            tester.send(0x200)
            server.expect(0x201, within=WAIT)
        node.power_off()


def test_bus_off_of_an_interface_that_is_down(server):
    server.down("can0")
    with pytest.raises(AssertionError, match=r"it sends nothing while it is down; up\('can0'\) brings it up"):
        server.bus_off("can0", timeout=0.05)


def test_a_transfer_of_iso_tp(server):
    with server.isotp("can0", tx=0x700, rx=0x701, library="canbusd") as end:
        server.down("can0")
        with pytest.raises(IsoTpError, match="^can0 is down$") as failed:
            end.send(b"12345678901")
        assert failed.value.errno == errno.ENETDOWN


def test_names_that_are_none(server):
    with pytest.raises(ValueError, match="name is an interface of the server, one of can0, can1, not 'can9'"):
        server.node("can9")
    with pytest.raises(can.CanInitializationError, match="can9"):
        server.down("can9")
    with pytest.raises(AttributeError, match=r"Node has no down: power_off\(\), sleep\(\), or with node.unplugged"):
        server.node("can0").down()
    with Bench("can0,can1") as bench, pytest.raises(ValueError, match="name is an interface of the bench"):
        bench.node("can9")


def test_the_commands(server):
    assert call("down", "can0", "can1", server=server) == (0, "", "")
    assert server.state("can0") == server.state("can1") == "down"
    assert call("down", "can0", server=server) == (0, "", "")
    written = call("status", "can0", server=server)[1].splitlines()
    assert written[1].split()[:4] == ["can0", "down", "0", "0"]
    said = "canbusd send: interface down: `canbusd up can0` brings the interface up\n"
    assert call("send", "can0", "123#", server=server) == (1, "", said)
    assert call("up", "can0", "can1", server=server) == (0, "", "")
    assert server.state("can0") == server.state("can1") == "active"
    assert call("up", "can0", server=server) == (0, "", "")
    status, _, said = call("down", "can9", server=server)
    assert status == 1 and said.startswith("canbusd down: ") and "can9" in said and said.count("\n") == 1


def test_an_older_program():
    with liar({"down": "< error unknown command >"}) as address:
        done = call("down", "can0", "--address", address)
    assert done == (1, "", "canbusd down: can0: the program is older, and has no interfaces that go down\n")


# ---- records ----

NAMES = ("ecu", "tester", "other")
#: The events of a run in which the ECU goes down twice and loses frames.
EVENTS = [
    "canbus events 1",
    "bus 3 always 0000 10 100 0",
    "open 0 256 = socket 0",
    "open 1 256 = socket 1",
    "send 0 100# = number 0",
    "send 0 101# = number 1",
    "attempt 0.000001 good = tried 0 0 100# done 0006 0000; put 1",
    "send 0 102# = number 2",
    "send 1 200# = number 0",
    "down 0 0.000002 = ok; lost 0 2",
    "send 0 103# = interface-down",
    "send 0 103# = interface-down",
    "attempt 0.000003 local-crc:0005 = tried 1 0 200# destroyed 0000 0000; counts 1 8 0; counts 2 0 1",
    "attempt 0.000004 good = tried 1 0 200# done 0004 0000; counts 1 7 0; counts 2 0 0",
    "down 0 0.000005 = ok",
    "down 7 0.000005 = no-interface",
    "restart 0 0.000006 = ok; put 0:20000100#0000000000000000",
    "send 0 104# = number 3",
    "attempt 0.000007 good = tried 0 3 104# done 0006 0000; put 1",
    "down 0 0.000008 = ok",
    "attempt 0.000009 good = idle",
    "end 19",
]


def replay_of(lines, at_once):
    """Returns the replay of these lines, fed with `at_once` lines in each call."""
    run = Replay()
    for first in range(0, len(lines), at_once):
        run.take(lines[first : first + at_once])
    return run


@pytest.mark.parametrize("at_once", [1, 2, 5, 100])
def test_downs_are_steps(at_once):
    run = replay_of(EVENTS, at_once)
    assert [(step.kind, step.iface, step.attempt) for step in run.steps] == [
        ("done", 0, 0), ("down", 0, 1), ("destroyed", 1, 1), ("done", 1, 2), ("down", 0, 3), ("restart", 0, 3),
        ("done", 0, 3), ("down", 0, 4),
    ]  # fmt: skip
    assert [*run.steps.down] == [0, 1, 1, 1, 1, 0, 0, 1]
    assert run.lost == {1: [(1, "101#"), (2, "102#")]}
    assert [step.waiting for step in run.steps[:3]] == [(2, 0, 0), (2, 1, 0), (0, 1, 0)]
    # Faults do not affect an interface that is down.
    assert [step.hit for step in run.steps[2:4]] == [(2,), ()]
    assert run.refused == {(0, "interface-down"): [1, 1]}
    ecu, tester, _ = run.ifaces
    assert (ecu.sent, ecu.done, ecu.lost, ecu.waiting, ecu.state(), tester.state()) == (4, 2, 2, [], 4, 0)
    assert (run.attempts, run.idle, run.entries, run.is_whole) == (4, 1, 19, True)
    assert [run.steps.place_of(number) for number in range(5)] == [0, 2, 3, 6, None]


def test_the_story_of_downs():
    run = replay_of(EVENTS, 100)
    events = events_of(run, NAMES)
    assert [(event.step, event.kind, event.words) for event in events] == [
        (1, "down", "ecu went down: it takes no part until it is up"),
        (1, "lost", "ecu lost 2 frames: its transmit queue is empty once it is down"),
        (1, "refused", "ecu refused 2 sends: it was down"),
        (5, "restart", "ecu is back on the bus, with both counts 0; it was down for 4 µs, attempts 1 to 2"),
        (7, "down", "ecu went down: it takes no part until it is up"),
    ]
    assert heading_of(run, NAMES, events) == ("3 nodes, 4 attempts: ecu went down before attempt 1", 1)
    assert facts_of(run) == (
        "4 attempts: 3 done and 1 destroyed. 1 idle attempt. Down 3 times. 1 restart. 19 entries in the record."
    )


def test_the_page_of_downs():
    run = replay_of(EVENTS, 100)
    header, column = data_of(page(run, NAMES, "run.rec"))
    kinds = ["done", "down", "destroyed", "done", "down", "restart", "done", "down", "idle"]
    assert [KINDS[kind] for kind in column(header["steps"]["kind"])] == kinds
    assert column(header["steps"]["down"]) == [0, 1, 1, 1, 1, 0, 0, 1, 1]
    assert [(one["state"], one["down"], one["off"]) for one in header["ifaces"]] == [
        ("down", 2, 0), ("active", 0, 0), ("active", 0, 0),
    ]  # fmt: skip
    lost = [(number, run.texts.all[place]) for number, place in header["lost"]["1"]]
    assert lost == [(1, "101#"), (2, "102#")]


def test_attempts_of_a_run_with_downs():
    attempts = attempts_of(replay_of(EVENTS, 100), NAMES)
    assert [(one.winner, one.number, one.outcome) for one in attempts] == [
        ("ecu", 0, "done"), ("tester", 0, "destroyed"), ("tester", 0, "done"), ("ecu", 3, "done"),
    ]  # fmt: skip


def test_two_runs_of_which_one_has_a_down(tmp_path):
    records = []
    for is_down in (True, False):
        with Bench("ecu,tester") as bench:
            ecu = bench.open("ecu")
            if is_down:
                bench.down("tester")
                bench.up("tester")
            ecu.send(0x100)
            bench.run()
        records.append(bench.record())
    assert [(one.kind, one.words) for one in Comparison(*records).differences] == [
        ("downs", "tester went down 1 time against 0")
    ]
    path = tmp_path / "run.rec"
    path.write_bytes(records[0].replay.text)
    assert records[0].replay.text.startswith(b"canbus record 6\n")
    status, written, _ = call("replay", "--names", "ecu,tester", path)
    assert status == 0 and re.search(r"^\(\d+\.\d{6}\) tester down, counts 0/0$", written, re.M)
    assert re.search(r"^ok \d+ entries$", written, re.M)
