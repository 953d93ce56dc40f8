"""Servers and benches share one dialect: a test yields the same results on both, with and without a bit rate."""

import can
import pytest

from canbusd import e2e, shapes
from canbusd.bench import Bench
from canbusd.faults import Faults
from canbusd.frames import Frame
from canbusd.server import Server
from canbusd.virtual import is_virtual
from common import DBC, WAIT, on_each_kind


@on_each_kind
def run(request):
    """A server or a bench."""
    kind, bitrate = request.param
    with kind("ecu,tester", bitrate=bitrate) as running:
        yield running


@pytest.fixture
def ends(run):
    """The buses of the ECU and of the tester."""
    with run.bus("ecu") as ecu, run.bus("tester") as tester:
        yield ecu, tester


def is_exact(run):
    """Returns whether times are exact, so that a busy machine causes no delay."""
    return isinstance(run, Bench) or is_virtual()


def test_sending_and_receiving(run, ends):
    ecu, tester = ends
    ecu.send(0x123, b"\x01")
    ecu.send(Frame(0x124, b"\x02"))
    ecu.send(can.Message(arbitration_id=0x125, data=b"\x03", is_extended_id=False))
    ecu.send(0x18DAF110, b"\x04", timeout=WAIT)
    ecu.send(0x126, is_extended_id=True)
    found = [tester.recv(timeout=WAIT) for _ in range(5)]
    assert [(one.arbitration_id, bytes(one.data), one.is_extended_id) for one in found] == [
        *((0x123, b"\x01", False), (0x124, b"\x02", False), (0x125, b"\x03", False)),
        *((0x18DAF110, b"\x04", True), (0x126, b"", True)),
    ]
    assert tester.recv(timeout=0.05) is None and tester.recv(timeout=0) is None
    assert [frame.arbitration_id for frame in run.log()] == [0x123, 0x124, 0x125, 0x18DAF110, 0x126]


def test_filters(run, ends):
    ecu, _ = ends
    with run.bus("tester", [{"can_id": 0x123, "can_mask": 0x7FF}], error_frames=False) as tester:
        ecu.send(0x122)
        ecu.send(0x123)
        assert tester.recv(timeout=WAIT).arbitration_id == 0x123


def test_expectations(run, ends):
    ecu, tester = ends
    for number in range(3):
        ecu.send(0x100 + number, bytes([number]))
    assert run.expect(0x100, b"\0", within=WAIT).channel == "tester"
    assert [one.arbitration_id for one in run.expect_sequence(0x101, {"id": 0x102, "data": b"\x02"}, within=WAIT)] == [
        0x101,
        0x102,
    ]
    run.expect_no_frame(0x103, within=0.05)
    with pytest.raises(AssertionError) as fault:
        run.expect(0x101, within=0.05)
    assert str(fault.value).startswith("no frame 101 within 0.05 seconds\nit came earlier: ")
    tester.send(0x104)
    with pytest.raises(AssertionError, match="^frame 104 was not expected: "):
        run.expect_no_frame(0x104, within=WAIT)
    run.expect_from_now()
    task = ecu.send_periodic(can.Message(arbitration_id=0x105, data=b"\x07", is_extended_id=False), period=0.02)
    if is_exact(run):
        assert run.expect_cyclic(0x105, period=0.02, tolerance=0.001, count=5) == pytest.approx([0.02] * 5, abs=0.001)
    run.expect_sequence(0x105, 0x105, within=WAIT)
    run.expect_no_change(0x105, within=0.1)
    task.stop()
    assert run.wait_for(lambda: tester.recv(timeout=0) or tester, timeout=WAIT)
    with pytest.raises(TimeoutError, match=r"^the condition was not true within 0\.05 seconds"):
        run.wait_for(lambda: False, timeout=0.05)


def test_faults_and_states(run, ends):
    ecu, tester = ends
    run.inject(Faults().next(1, sender="ecu").last_bit(), "ecu")
    assert run.rules_left("ecu") == 1
    ecu.send(0x123)
    assert [tester.recv(timeout=WAIT).arbitration_id for _ in range(2)] == [0x123, 0x123]
    run.inject("always id 7FF global bit")
    assert run.rules_left() == 1
    run.end_rules()
    assert run.rules_left() == 0
    task = ecu.send_periodic(Frame(0x124), period=0.01)
    assert run.bus_off("ecu", timeout=WAIT).state == "off"
    task.stop()
    assert run.expect_state("ecu", "off", within=WAIT).state == "off"
    assert run.state("ecu") == "off" and run.error_counters("ecu") == ecu.error_counters()
    ecu.restart()
    run.expect_state("ecu", "active", within=WAIT)
    ecu.send(0x125)
    run.expect(0x125, within=WAIT)
    with pytest.raises(AssertionError, match="^tester is active .*, and was not off within 0.05 seconds"):
        run.expect_state("tester", "off", within=0.05)
    for call in (lambda: run.state("gateway"), lambda: run.expect_state("gateway", "off")):
        with pytest.raises(
            can.CanInitializationError, match="^gateway: no such interface; the (server|bench) has ecu, tester$"
        ):
            call()
    with pytest.raises(
        ValueError, match="^interface is an interface of the (server|bench), one of ecu, tester, not 'gateway'$"
    ):
        run.inject("next 1 lastbit", "gateway")


def test_names_of_a_database(run, ends, tmp_path):
    pytest.importorskip("canmatrix")
    (tmp_path / "car.dbc").write_text(DBC)
    ecu, _ = ends
    profile = e2e.Profile1(0x123)
    with run.rest_bus(tmp_path / "car.dbc", without=["ECU"], interface="tester") as rest:
        rest.protect("EngineData", profile)
        rest["Engine"].play("EngineSpeed", shapes.ramp(0, 3000, seconds=0.2))
        run.expect(signal="EngineSpeed", above=2000, within=WAIT)
        run.expect_protected("EngineData", profile, count=5, within=WAIT)
        ecu.send(run.frame("EcuData", {"Lamp": 2}))
        assert run.expect(signal="Lamp", equals=2, within=WAIT).arbitration_id == 0x200
        if is_exact(run):
            run.expect_cyclic("EngineData", period=0.01, tolerance=0.001, count=5)
        rest.stop("Engine")
        run.expect_no_frame(0x300, within=0.05)
        run.expect_from_now()
        run.expect_no_frame("EngineData", within=0.1)
    with pytest.raises(ValueError, match="^a message by its name has values"):
        run.frame("EcuData", b"\x02")
    with pytest.raises(ValueError, match="^values are of a message by its name"):
        run.frame(0x200, {"Lamp": 2})


def test_time_passes(run, ends):
    ecu, tester = ends
    task = ecu.send_periodic(Frame(0x123, b"\x01"), period=0.01)
    run.wait(0.1)
    received = [tester.recv(timeout=0) for _ in range(3)]
    assert [one.data[0] for one in received] == [1, 1, 1]
    if isinstance(run, Bench):
        assert run.now == pytest.approx(0.1, abs=1e-3)
    with pytest.raises(ValueError, match="^seconds is a number of seconds, 0 or more, not -1$"):
        run.wait(-1)
    with pytest.raises(AttributeError, match=r"has no sleep: wait\(seconds\)$"):
        run.sleep(1)
    task.stop()


def test_a_periodic_frame_changes(run, ends):
    ecu, tester = ends
    task = ecu.send_periodic(Frame(0x123, b"\x01"), period=0.01)
    assert tester.recv(timeout=WAIT).data == b"\x01"
    task.modify_data(Frame(0x123, b"\x02"))
    run.expect(0x123, b"\x02", within=WAIT)
    with pytest.raises(ValueError):
        task.modify_data(Frame(0x124, b"\x02"))
    task.stop()
    # This loop discards the frames that were sent before the stop.
    while tester.recv(timeout=0.1):
        pass
    task.start()
    assert tester.recv(timeout=WAIT).data == b"\x02"


def test_a_full_queue(run, ends):
    ecu, _ = ends
    # The transmit queue has room for fewer frames than this loop sends.
    for number in range(25):
        ecu.send(0x200, bytes([number]), timeout=WAIT)
    assert run.expect(0x200, bytes([24]), within=WAIT)


def test_the_time_of_a_bench():
    with Bench("ecu,tester", bitrate=500_000) as bench, bench.bus("ecu") as ecu, bench.bus("tester") as tester:
        assert bench.now == 0
        assert tester.recv() is None and bench.now < 0.001
        assert tester.recv(timeout=0.5) is None and bench.now == pytest.approx(0.5, abs=1e-3)
        began = bench.now
        ecu.send(0x123, b"\x01")
        found = tester.recv(timeout=1)
        # An 11-bit frame with one data byte has 55 bits and at most 12 stuff bits.
        assert began + 55 * 2e-6 <= found.timestamp <= began + 67 * 2e-6 and bench.now == pytest.approx(
            found.timestamp, abs=2e-4
        )
        task = ecu.send_periodic(Frame(0x124), period=0.01, duration=0.035)
        bench.expect_no_frame(0x125, within=0.1)
        assert (
            len([frame for frame in iter(lambda: tester.recv(timeout=0), None) if frame.arbitration_id == 0x124]) == 4
        )
        task.stop()
        with pytest.raises(ValueError, match="^period is a number of seconds above 0, not 0$"):
            ecu.send_periodic(Frame(0x124), period=0)


def test_shapes_on_a_bench_are_exact(tmp_path):
    pytest.importorskip("canmatrix")
    (tmp_path / "car.dbc").write_text(DBC)
    with Bench("engine,ecu", bitrate=500_000, database=tmp_path / "car.dbc") as bench:
        with bench.rest_bus(tmp_path / "car.dbc", without=["ECU"], interface="engine") as rest:
            for shape in (
                shapes.sine(1000, 2000, period=0.2),
                shapes.square(0, 100, period=0.1),
                shapes.ramp(0, 500, seconds=0.3),
            ):
                rest["Engine"].play("EngineSpeed", shape)
                bench.expect_signal("EngineSpeed", shape=shape, tolerance=0.2, late=0.001, within=0.5)
            other = shapes.sine(1000, 2000, period=0.22)
            rest["Engine"].play("EngineSpeed", shapes.sine(1000, 2000, period=0.2))
            with pytest.raises(AssertionError, match=r"does not follow Sine\(start=1000, end=2000, seconds=0.22\)"):
                bench.expect_signal("EngineSpeed", shape=other, tolerance=0.2, late=0.001, within=1)


def test_two_rest_buses_of_which_one_ends(tmp_path):
    pytest.importorskip("canmatrix")
    (tmp_path / "car.dbc").write_text(DBC)
    with Bench("engine,ecu", bitrate=500_000) as bench:
        with bench.rest_bus(tmp_path / "car.dbc", without=["ECU"], interface="engine") as rest:
            with bench.rest_bus(tmp_path / "car.dbc", without=["Engine"], interface="ecu"):
                bench.expect("EngineData")
            assert len(bench.expect_cyclic("EngineData", period=0.01, tolerance=0.0001, count=3)) == 3
            assert rest.counts().refused == 0


def test_calls_that_need_a_server():
    with Bench("ecu,tester") as bench:
        for name in ("isotp", "start", "environment"):
            with pytest.raises(AttributeError, match=f"^Bench has no {name}: ISO-TP, UDS and programs need a Server$"):
                getattr(bench, name)


def test_frames_that_wait_for_ever():
    with Bench("ecu,tester", faults="always from ecu id 123 global bit", auto_restart=1) as bench, bench.bus(
        "ecu"
    ) as ecu:
        ecu.send_periodic(Frame(0x123), period=0.001)
        with pytest.raises(AssertionError, match="^no frame 123 within 0.01 seconds"):
            bench.expect(0x123, within=0.01)


def test_a_bench_that_nobody_observes_is_as_it_was():
    with Bench("ecu,tester") as bench:
        sender, receiver = bench.open("ecu"), bench.open("tester")
        sender.send(0x123)
        assert bench.expect(0x123, within=0).arbitration_id == 0x123
        assert [frame.arbitration_id for frame in receiver.receive()] == [0x123]
    with Bench("ecu,tester", observe="tester") as bench, bench.bus("ecu") as ecu:
        ecu.send(0x124)
        assert bench.expect(0x124).channel == "tester"
        with pytest.raises(ValueError, match="^channel is one of the observed, tester, not 'ecu'$"):
            bench.expect(0x124, channel="ecu")
    with pytest.raises(ValueError, match="^observe is an interface of the bench, one of ecu, tester, not 'gateway'$"):
        Bench("ecu,tester", observe="gateway")
