"""Nodes sleep until a frame wakes them: on a server, on a bench, and in virtual time."""

import subprocess
import sys
import textwrap

import can
import pytest

from canbusd._process.program import find_program
from canbusd._restbus.wake_up import WakeUp, masks_of
from canbusd._session.protocol import filter_words
from canbusd.bench import Bench
from canbusd.frames import REMOTE, Frame, identifier_word
from canbusd.server import Server
from canbusd.virtual import is_virtual
from common import DBC, WAIT, on_each_kind
from test_downs import PROGRAM

#: The identifiers of network management messages, in the range that is usual for AUTOSAR.
NM = range(0x500, 0x540)


@on_each_kind
def run(request):
    """A server or a bench."""
    kind, bitrate = request.param
    with kind("ecu,gateway,tester", bitrate=bitrate) as running:
        yield running


@pytest.fixture
def database(tmp_path):
    """The path of a DBC file with two nodes, one of which sends a message every 10 ms."""
    pytest.importorskip("canmatrix")
    path = tmp_path / "car.dbc"
    path.write_text(DBC)
    return path


def test_a_frame_wakes_a_node(run):
    with run.bus("ecu") as ecu, run.bus("tester") as tester:
        run.node("ecu").sleep(wake_on=NM)
        assert run.state("ecu") == "down"
        tester.send(0x53F, b"\x01")
        assert run.expect_state("ecu", "active", within=WAIT) == ("active", 0, 0)
        tester.send(0x510, b"\x02")
        # The node does not receive the frame that wakes it.
        received = [ecu.recv(timeout=WAIT), ecu.recv(timeout=WAIT)]
        assert [(one.is_error_frame, one.arbitration_id) for one in received] == [(True, 0x100), (False, 0x510)]
        # After it has woken up, the node receives and sends frames again.
        ecu.send(0x501)
        run.expect_sequence(0x53F, 0x510, 0x501, within=WAIT)


def test_without_a_wake_up_it_stays_asleep(run):
    with run.bus("ecu") as ecu, run.bus("gateway") as gateway, run.bus("tester") as tester:
        run.node("ecu").sleep(wake_on=NM)
        for identifier in (0x4FF, 0x540, 0x123):
            tester.send(identifier)
        gateway.send(0x511, is_extended_id=True)
        gateway.send(Frame(0x512, is_remote_frame=True))
        run.expect(0x511, is_extended_id=True, within=WAIT)
        run.expect(0x512, within=WAIT)
        with pytest.raises(AssertionError, match=r"^ecu is down .*, and was not active within 0\.2 seconds"):
            run.expect_state("ecu", "active", within=0.2)
        assert ecu.recv(timeout=0) is None
        with pytest.raises(Exception, match="^interface down"):
            ecu.send(0x100)


def test_a_frame_that_nobody_sees_whole_wakes_nobody(run):
    with run.bus("tester") as tester:
        run.node("ecu").sleep(wake_on=NM)
        run.inject("next 3 from tester global bit")
        tester.send(0x511)
        assert run.expect_state("ecu", "active", within=WAIT)
        assert run.rules_left() == 0
    outcomes = [attempt.outcome for attempt in run.record().attempts]
    assert outcomes == ["destroyed"] * 3 + ["done"]


def test_frames_from_before_wake_nobody(run):
    with run.bus("tester") as tester, run.bus("ecu") as ecu:
        # Another node is already asleep, so the bench is watching for wake-up frames.
        run.node("gateway").sleep(wake_on=0x540)
        for _ in range(20):
            ecu.send(0x511, timeout=WAIT)
        for _ in range(20):
            assert tester.recv(timeout=WAIT)
        run.node("ecu").sleep(wake_on=NM)
        with pytest.raises(AssertionError, match="^ecu is down"):
            run.expect_state("ecu", "active", within=0.1)
        tester.send(0x511)
        run.expect_state("ecu", "active", within=WAIT)
        assert run.state("gateway") == "down"


def test_all_sleep_and_wake_one_another(run):
    """The nodes form a chain, in which each node that wakes up wakes the next one."""
    with run.bus("tester") as tester, run.bus("gateway") as gateway:
        run.node("ecu").sleep(wake_on=0x512)
        run.node("gateway").sleep(wake_on=[0x510, range(0x700, 0x780)])
        tester.send(0x705)
        run.expect_state("gateway", "active", within=WAIT)
        assert run.state("ecu") == "down"
        gateway.send(0x512)
        run.expect_state("ecu", "active", within=WAIT)
        # No frame wakes a node that is already awake. A node that goes back to sleep can be woken again.
        for name, wakes in ("ecu", 0x512), ("gateway", 0x510):
            run.node(name).sleep(wake_on=wakes)
            tester.send(wakes)
            run.expect_state(name, "active", within=WAIT)


def test_a_message_by_its_name_and_the_rest_bus(run, database):
    with run.rest_bus(database, interface="ecu", without=["ECU"]) as rest, run.bus("tester") as tester:
        run.expect("EngineData", within=WAIT)
        run.node("ecu").sleep(wake_on="EcuData")
        assert not rest.message("EngineData").is_running
        run.expect_from_now()
        run.expect_no_frame("EngineData", within=0.1)
        tester.send(run.frame("EcuData", {"Lamp": 1}))
        # The node sends its first messages within one cycle of the wake-up.
        woken = run.expect("EcuData", within=WAIT).timestamp
        first, second = [run.expect("EngineData", within=WAIT).timestamp for _ in range(2)]
        if isinstance(run, Bench) or is_virtual():
            assert 0 <= first - woken < 0.01 and second - first == pytest.approx(0.01, abs=1e-6)
        assert rest.counts("EngineData").refused == 0


@pytest.mark.parametrize("bitrate", [500_000, None])
def test_a_bench_whose_rest_bus_runs(database, bitrate):
    """The wake-up happens in the middle of a run of the bench."""
    with Bench("ecu,tester", bitrate=bitrate) as bench, bench.bus("tester") as tester:
        with bench.rest_bus(database, interface="ecu", without=["ECU"]) as rest:
            bench.node("ecu").sleep(wake_on=0x200)
            assert rest.run(until=0.05) == []
            tester.send(0x200, bytes(2))
            if bitrate is None:
                bench.attempt(at=0.05)
            rest.run(until=0.08)
    woken, *others = bench.record().attempts
    assert woken.frame == "200#0000" and round(woken.timestamp, 3) == 0.05
    # Three cycles of 10 ms fit into the remaining 30 ms.
    assert [attempt.frame[:3] for attempt in others] == ["100"] * 3
    moments = [attempt.timestamp for attempt in others]
    assert woken.timestamp <= moments[0] < 0.06
    assert [moment - moments[0] for moment in moments] == pytest.approx([0, 0.01, 0.02])


def test_a_bench_wakes_at_the_end_of_the_frame():
    with Bench("ecu,tester", bitrate=500_000) as bench:
        ecu, tester = bench.open("ecu"), bench.open("tester")
        bench.node("ecu").sleep(wake_on=NM)
        tester.send(0x511, b"\x01")
        tester.send(0x512)
        first, second = bench.run(until=1)
        restarted, after = ecu.receive()
        assert (restarted.meaning, restarted.timestamp) == ("restarted", first.timestamp)
        assert (after.arbitration_id, after.timestamp) == (0x512, second.timestamp)
        assert (first.accepted, second.accepted, bench.now) == ((), ("ecu",), 1)
        # The frame of a single attempt wakes nodes too.
        bench.node("ecu").sleep(wake_on=NM)
        tester.send(0x513)
        assert bench.attempt(at=2).outcome == "done" and bench.state("ecu") == "active"
    assert bench.audit().startswith("ok ")


def test_a_program_goes_on():
    with Server("ecu,tester") as server, server.bus("tester") as tester:
        program = server.start([sys.executable, "-c", PROGRAM])
        server.expect(0x100, within=WAIT)
        pid = program.pid
        # The program would answer the wake-up frame, but it does not receive that frame.
        server.node("ecu", program).sleep(wake_on=0x200)
        tester.send(0x200)
        server.expect_state("ecu", "active", within=WAIT)
        server.expect_no_frame(0x201, within=0.2)
        tester.send(0x200)
        server.expect(0x201, within=WAIT)
        assert program.pid == pid and program.status is None


def test_a_node_without_power_or_cable_does_not_wake(run):
    with run.bus("tester") as tester:
        node = run.node("ecu")
        assert run.node("ecu") is node
        node.sleep(wake_on=NM)
        node.power_off()
        tester.send(0x511)
        run.expect(0x511, within=WAIT)
        with pytest.raises(AssertionError, match="^ecu is down"):
            run.expect_state("ecu", "active", within=0.1)
        node.power_on()
        run.expect_state("ecu", "active", within=WAIT)
        node.sleep(wake_on=NM)
        with node.unplugged():
            tester.send(0x512)
            run.expect(0x512, within=WAIT)
            with pytest.raises(AssertionError, match="^ecu is down"):
                run.expect_state("ecu", "active", within=0.1)
        # The node is still asleep.
        assert run.state("ecu") == "down"
        tester.send(0x513)
        run.expect_state("ecu", "active", within=WAIT)
        with node.unplugged():
            pass
        assert run.state("ecu") == "active"
        node.sleep(wake_on=NM)
        node.wake()
        node.sleep()
        tester.send(0x514)
        run.expect(0x514, within=WAIT)
        with pytest.raises(AssertionError, match="^ecu is down"):
            run.expect_state("ecu", "active", within=0.1)


def test_fd_frames_wake_nobody():
    with Server("ecu,tester") as server, server.bus("tester", fd=True) as tester:
        server.node("ecu").sleep(wake_on=NM)
        tester.send(Frame(0x511, bytes(12), is_fd=True))
        server.expect(0x511, within=WAIT)
        with pytest.raises(AssertionError, match="^ecu is down"):
            server.expect_state("ecu", "active", within=0.1)
    with Bench("ecu,tester") as bench, bench.bus("tester", fd=True) as tester:
        bench.node("ecu").sleep(wake_on=NM)
        tester.send(Frame(0x511, bytes(12), is_fd=True))
        bench.expect(0x511)
        assert bench.state("ecu") == "down"


def test_more_filters_than_fit_into_a_message():
    with Server("ecu,tester") as server, server.bus("tester") as tester:
        server.node("ecu").sleep(wake_on=list(range(0x100, 0x300, 2)))
        tester.send(0x101)
        server.expect(0x101, within=WAIT)
        with pytest.raises(AssertionError, match="^ecu is down"):
            server.expect_state("ecu", "active", within=0.1)
        tester.send(0x2FE)
        server.expect_state("ecu", "active", within=WAIT)


def test_two_buses_of_a_server():
    with Server("ecu,tester", "other,third") as server, server.bus("third") as third, server.bus("tester") as tester:
        server.node("ecu").sleep(wake_on=NM)
        third.send(0x511)
        server.expect(0x511, within=WAIT)
        with pytest.raises(AssertionError, match="^ecu is down"):
            server.expect_state("ecu", "active", within=0.1)
        tester.send(0x511)
        server.expect_state("ecu", "active", within=WAIT)


def test_a_bench_goes_with_its_nodes():
    with Bench("ecu,tester") as bench:
        assert bench.node("ecu") is bench.node("ecu")
    folder = bench._folder
    assert folder.exists()
    # There is no reference cycle that keeps the bench alive.
    del bench
    assert not folder.exists()


def test_a_server_that_ends_while_nodes_sleep():
    with Server("ecu,tester") as server:
        server.node("ecu").sleep(wake_on=NM)
    assert server.audit()["ecu"].startswith("ok ")
    with Server("ecu,tester") as server:
        server.node("ecu").sleep(wake_on=NM)
        server.kill()


@pytest.mark.parametrize(
    ("wake_on", "said"),
    [
        (True, "^id is a number, such as 0x123"),
        (0x2000_0000, "^id is an identifier of 11 or 29 bits, from 0 to 1FFFFFFF, not 0x20000000$"),
        (1.5, "^wake_on is an identifier, the name of a message, a range, such as .*, or a list of these, not 1.5$"),
        ([], "^wake_on is .* has none$"),
        (range(5, 5), "^wake_on is .* has none$"),
        (range(0x500, 0x540, 2), "^a range has each identifier from its first on"),
        ("NM", "^id is a number, such as 0x123, not 'NM'; names of messages and signals need a database"),
    ],
)
def test_what_wakes_nobody(wake_on, said):
    with Bench("ecu,tester") as bench:
        with pytest.raises(ValueError, match=said):
            bench.node("ecu").sleep(wake_on=wake_on)
        # The node is not asleep.
        assert bench.state("ecu") == "active"
        with pytest.raises(TypeError, match="sleep has no argument wakes_on"):
            bench.node("ecu").sleep(wakes_on=0x500)


@pytest.mark.parametrize(
    "span",
    [
        range(0, 1),
        range(0x500, 0x540),
        range(0x501, 0x53F),
        range(7, 8),
        range(3, 0x7FF),
        range(0, 0x800),
        range(0x7FF, 0x803),
    ],
)
def test_filters_pass_what_wakes(span):
    wake_up = WakeUp(span, None)
    pairs = [filter_words(one) for one in wake_up.filters]
    for identifier in range(0x820):
        for is_extended in (False, True):
            if identifier > 0x7FF and not is_extended:
                continue
            frame = Frame(identifier, is_extended_id=is_extended)
            wakes = identifier in span and is_extended == (identifier > 0x7FF)
            assert wake_up.matches(frame) == wakes
            # Whether a filter matches is decided by the rule in linux/can.h.
            word = identifier_word(frame)
            assert any(word & mask == of & mask for of, mask in pairs) == wakes
            assert not any((word | REMOTE) & mask == of & mask for of, mask in pairs)
    assert sum(2**29 - mask for _, mask in masks_of(span)) == len(span)


VIRTUAL = """
import time
from canbusd import Server, read_record
with Server("ecu,tester", bitrate=500_000) as server, server.bus("tester") as tester:
    server.node("ecu").sleep(wake_on=range(0x500, 0x540))
    time.sleep(3600)
    assert server.state("ecu") == "down"
    began = time.time()
    tester.send(0x511, b"\\x01")
    server.expect_state("ecu", "active", within=1)
    woken = time.time() - began
steps = server.record().replay.steps
print([step.kind for step in steps], round(woken * 1e6))
"""


#: A test in which another thread uses the session that the test is waiting on.
OTHER_THREAD = """
import threading, time
from canbusd import Server
with Server("ecu,tester", bitrate=500_000) as server:
    server.down("ecu")
    began = time.monotonic()
    threading.Timer(0.1, lambda: server.up("ecu")).start()
    server.expect_state("ecu", "active", within=3)
    print(round((time.monotonic() - began) * 1000))
"""


def test_another_thread_brings_an_interface_up_in_virtual_time(tmp_path):
    path = tmp_path / "test.py"
    path.write_text(OTHER_THREAD)
    words = [find_program("canbusd-run"), "--virtual", "--", sys.executable, path]
    assert subprocess.run(words, capture_output=True, text=True, check=True).stdout == "100\n"


def test_virtual_time(tmp_path):
    """The node is awake at the end of the frame. The frame has 52 bits and at most 10 stuff bits of 2 us each."""
    path = tmp_path / "test.py"
    path.write_text(textwrap.dedent(VIRTUAL))
    outputs = {
        subprocess.run(
            [find_program("canbusd-run"), "--virtual", "--", sys.executable, path],
            capture_output=True,
            text=True,
            check=True,
        ).stdout
        for _ in range(3)
    }
    (output,) = outputs
    kinds, _, micros = output.rpartition(" ")
    assert kinds == "['down', 'done', 'restart']" and 104 <= int(micros) <= 124
