"""The rest bus sends the frames of the other nodes in rest.dbc, on a bench and on a server. The expected bytes were
computed by hand."""

import gc
import signal
import subprocess
import sys
import threading
from pathlib import Path

import pytest
from can.exceptions import CanOperationError
from common import WAIT

from canbusd._restbus.punctuality import INTERVAL, Punctuality
from canbusd._restbus.schedule import Schedule, phases
from canbusd.bench import Bench, Refused
from canbusd.faults import Faults
from canbusd.rest_bus import Counts
from canbusd.server import Server
from canbusd.signals import DatabaseError, load_database
from canbusd.virtual import is_virtual

pytest.importorskip("canmatrix", reason="canmatrix is not installed (python3-canmatrix)")
REST = Path(__file__).with_name("rest.dbc")
# The identifiers of the messages EngineData, EngineStatus, GatewayPage and GatewayEvent.
DATA, STATUS, PAGE, EVENT = 0x100, 0x200, 0x300, 0x400


@pytest.fixture
def bench():
    """A bench at 500 kbit/s, with interfaces for the engine and the gateway."""
    with Bench("engine,gateway,ecu", bitrate=500_000) as running:
        yield running


def rest_of(bench, **more):
    """Returns the rest bus of a bench."""
    return bench.rest_bus(REST, without=["ECU"], nodes={"Engine": "engine", "Gateway": "gateway"}, **more)


def sent(session, identifier):
    """Returns the data of all frames with this identifier that a session has received, in hexadecimal."""
    return [frame.data.hex() for frame in session.receive() if frame.arbitration_id == identifier]


def test_each_message_at_its_cycle_time(bench):
    ecu = bench.open("ecu")
    with rest_of(bench) as rest:
        attempts = rest.run(until=1.0)
    frames = ecu.receive()
    counts = {identifier: 0 for identifier in (DATA, STATUS, PAGE)}
    for frame in frames:
        counts[frame.arbitration_id] += 1
    # The cycle times are 10, 100 and 20 ms. The second message has a start delay of 35 ms.
    assert counts == {DATA: 100, STATUS: 10, PAGE: 50}
    assert {attempt.outcome for attempt in attempts} == {"done"}
    assert {(attempt.winner, attempt.frame[:3]) for attempt in attempts} == {
        ("engine", "100"),
        ("engine", "200"),
        ("gateway", "300"),
    }


def test_periods_are_exact(bench):
    ecu = bench.open("ecu")
    with rest_of(bench) as rest:
        rest.run(until=1.0)
    frames = ecu.receive()
    for identifier, period in ((DATA, 0.01), (STATUS, 0.1), (PAGE, 0.02)):
        moments = [frame.timestamp for frame in frames if frame.arbitration_id == identifier]
        assert len(moments) == 1 / period
        assert all(later - earlier == pytest.approx(period, abs=1e-9) for earlier, later in zip(moments, moments[1:]))


def test_the_start_delay_of_the_file(bench):
    ecu = bench.open("ecu", [{"can_id": STATUS, "can_mask": 0x7FF}])
    with rest_of(bench) as rest:
        rest.run(until=0.1)
    # The frame starts at 35 ms. With 2 data bytes it has 62 bits and at most 12 stuff bits, each of 2 microseconds.
    [frame] = ecu.receive()
    assert 0.035 + 62 * 2e-6 - 10e-6 <= frame.timestamp <= 0.035 + 74 * 2e-6


def test_values(bench):
    ecu = bench.open("ecu")
    with rest_of(bench) as rest:
        assert (rest["Engine"]["EngineSpeed"], rest["Engine"]["State"]) == (800, "Off")
        rest.run(until=0.01)
        rest["Engine"]["EngineSpeed"] = 3000
        rest["Engine"]["EngineTemp"] = "20"
        rest["Engine"]["State"] = "Running"
        rest.message("EngineStatus")["Counter"] = 5
        rest.run(until=0.06)
        assert rest["Engine"]["EngineSpeed"] == 3000
        frames = ecu.receive()
    # 800 / 0.25 is 0C80, 3000 / 0.25 is 2EE0, and 20 + 40 is 3C in hexadecimal.
    data = [frame.data.hex() for frame in frames if frame.arbitration_id == DATA]
    assert data == ["800c000000000000"] + ["e02e3c0000000000"] * 5
    assert [frame.data.hex() for frame in frames if frame.arbitration_id == STATUS] == ["0205"]


@pytest.mark.parametrize(
    "node, name, value, said",
    [
        ("Engine", "EngineSpeed", 16001, "EngineData.EngineSpeed is from 0 to 16000, not 16001"),
        ("Engine", "State", "Flying", "EngineStatus.State is a number, or one of Off, Cranking, Running, not 'Flying'"),
        (
            "Engine",
            "Counter",
            1,
            "Engine sends Counter in several messages: EngineData.Counter or EngineStatus.Counter",
        ),
        ("Engine", "Torque", 1, "Engine sends no Torque; it sends EngineData.EngineSpeed, EngineData.EngineTemp, "),
        ("ECU", "Torque", 1, "no node ECU in the rest bus; there are Engine, Gateway"),
    ],
)
def test_values_that_are_none(bench, node, name, value, said):
    rest = rest_of(bench)
    with pytest.raises(DatabaseError) as fault:
        rest[node][name] = value
    assert str(fault.value).startswith(said)
    rest["Engine"]["EngineData.Counter"] = 1
    assert rest["Engine"]["EngineData.Counter"] == 1


def test_multiplexed_signals(bench):
    ecu = bench.open("ecu")
    rest = rest_of(bench)
    # These two signals are set. Each is sent if the multiplexer selects it.
    rest["Gateway"]["Left"], rest["Gateway"]["Right"] = -1, 10

    def turn(message):
        message["Page"] = message.count % 2

    rest.on_send("GatewayPage", turn)
    with rest:
        rest.run(until=0.1)
    # -1 / 0.5 is FFFE, and 10 / 2 is 05 in hexadecimal.
    assert sent(ecu, PAGE) == ["00feff", "010500", "00feff", "010500", "00feff"]


def test_counters_and_checksums(bench):
    ecu = bench.open("ecu")
    rest = rest_of(bench)

    def protect(message):
        message["Counter"] = message.count % 16
        message["Checksum"] = sum(message.data[:6]) & 0xFF

    rest.on_send("EngineData", protect)
    with rest:
        rest.run(until=0.18)
        # The checksum is 80 + 0C = 8C in hexadecimal.
        assert sent(ecu, DATA) == [f"800c00000000{0x8C:02x}{count % 16:02x}" for count in range(18)]
        # The value that the function sets is used only for that frame.
        assert rest["Engine"]["EngineData.Counter"] == 0
        rest.on_send("EngineData", None)
        rest.run(until=0.19)
    assert sent(ecu, DATA) == ["800c000000000000"]


def test_a_function_has_the_last_word_on_the_bytes(bench):
    ecu = bench.open("ecu")
    rest = rest_of(bench)

    def spoil(message):
        assert message["EngineSpeed"] == 800
        message.data = bytes([0xFF]) + message.data[1:]

    rest.on_send("EngineData", spoil)
    with rest:
        rest.run(until=0.01)
    assert sent(ecu, DATA) == ["ff0c000000000000"]


def test_nodes_and_messages_stop_and_start(bench):
    ecu = bench.open("ecu")

    def seen(until):
        rest.run(until=until)
        return {frame.arbitration_id for frame in ecu.receive()}

    with rest_of(bench) as rest:
        assert seen(0.1) == {DATA, STATUS, PAGE}
        rest.stop("Gateway")
        assert seen(0.2) == {DATA, STATUS}
        rest.stop("EngineData")
        assert seen(0.3) == {STATUS}
        rest.start("Gateway")
        rest.start("Gateway")
        assert seen(0.4) == {STATUS, PAGE}
        rest.stop()
        assert seen(0.5) == set()
        rest.start()
        assert seen(0.6) == {DATA, STATUS, PAGE}
        with pytest.raises(
            DatabaseError, match="^no message ECU in the rest bus; there are EngineData, EngineStatus, "
        ):
            rest.stop("ECU")


def test_an_event(bench):
    ecu = bench.open("ecu")
    with rest_of(bench) as rest:
        rest.run(until=0.2)
        # The message has a cycle time, but its send type says that it is sent only on events.
        assert sent(ecu, EVENT) == []
        rest.send("GatewayEvent", {"Key": 7})
        rest.send("GatewayEvent")
        rest.run(until=0.201)
        assert sent(ecu, EVENT) == ["07", "07"]


def test_a_table_over_time(bench):
    ecu = bench.open("ecu")
    with rest_of(bench) as rest:
        rest["Engine"].play("EngineSpeed", [(0.0, 1000), (0.02, 2000), (0.04, 0)])
        rest.run(until=0.05)
        rest["Engine"].play("EngineSpeed", [(0.01, 4), (5, 8)])
        rest["Engine"].play("EngineSpeed", [(0.02, 16)])
        rest.run(until=0.08)
        with pytest.raises(DatabaseError, match="^EngineData.EngineSpeed is a number, not 'fast'$"):
            rest["Engine"].play("EngineSpeed", [(0, 1), (1, "fast")])
    # These are 1000, 2000, 0 and 16 rpm times 4, least significant byte first. A new table replaces the previous one.
    speeds = [data[:4] for data in sent(ecu, DATA)]
    assert speeds == ["a00f", "a00f", "401f", "401f", "0000", "0000", "0000", "4000"]


def test_a_bench_without_a_bit_rate():
    with Bench("can0,can1") as bench:
        ecu = bench.open("can1")
        with bench.rest_bus(REST, without="ECU", interface="can0") as rest:
            attempts = rest.run(until=0.1)
        moments = [frame.timestamp for frame in ecu.receive() if frame.arbitration_id == DATA]
        assert len(attempts) == 10 + 5 + 1
        assert moments == pytest.approx([moments[0] + tick * 0.01 for tick in range(10)], abs=1e-9)
        with pytest.raises(ValueError, match="^the rest bus has ended$"):
            rest["Engine"]["EngineSpeed"] = 1
        with pytest.raises(ValueError, match="^the rest bus has ended$"):
            rest.run(until=1)


def test_what_a_bench_refuses_is_counted():
    with Bench("can0,can1", bitrate=500_000, faults=Faults().next(32).destroyed()) as bench:
        with bench.rest_bus(REST, without="ECU", interface="can0") as rest:
            rest.run(until=0.2)
            counts = rest.counts()
            # After bus off, no more frames are accepted.
            assert counts.refused > 20 and counts.accepted + counts.refused == 20 + 2 + 10
            with pytest.raises(Refused, match="^bus off$"):
                rest.send("GatewayEvent")


def test_interfaces_of_nodes(bench):
    database = load_database(REST)
    with pytest.raises(ValueError, match="^node Engine has no interface: give nodes={'Engine': ..} or interface=.., "):
        bench.rest_bus(database, without="ECU")
    with pytest.raises(ValueError, match="^node Engine has no interface 'can7': give "):
        bench.rest_bus(database, without="ECU", nodes={"Engine": "can7"})
    with pytest.raises(ValueError, match="^no node ECUU in the database; there are Engine, ECU, Gateway$"):
        bench.rest_bus(database, without="ECUU")
    rest = bench.rest_bus(database, without="ECU", nodes={"Engine": "engine"}, interface="gateway")
    assert {message.format.name: message.interface for message in rest.messages} == {
        "EngineData": "engine",
        "EngineStatus": "engine",
        "GatewayPage": "gateway",
        "GatewayEvent": "gateway",
    }
    with Bench("Engine,Gateway") as other:
        rest = other.rest_bus(database, without="ECU")
        assert [node.messages[0].interface for node in rest.nodes] == ["Engine", "Gateway"]


def test_a_log_as_input(bench, tmp_path):
    (tmp_path / "drive.log").write_text(
        "(100.000000) a 100#0102030405060708\n(100.001000) a 123#0000\n(100.030000) b 300#000000\n"
        "(100.050000) a 100#0807060504030201\n(100.060000) a 7FF#\n"
    )
    ecu = bench.open("ecu")
    with rest_of(bench) as rest:
        rest.stop("EngineStatus")
        assert rest.replay(tmp_path / "drive.log") == pytest.approx(0.05)
        rest.run(until=0.2)
        frames = [(str(frame), frame.timestamp) for frame in ecu.receive()]
        (tmp_path / "other.log").write_text("(100.001000) a 123#0000\n")
        with pytest.raises(ValueError, match="other.log: no frame of it is one of the rest bus$"):
            rest.replay(tmp_path / "other.log")
    # The replay omits the ECU's frames, and frames without a sender.
    assert [text for text, _ in frames] == ["100#0102030405060708", "300#000000", "100#0807060504030201"]
    assert frames[2][1] - frames[0][1] == pytest.approx(0.05, abs=30e-6)


# The following tests use a server in real time. They check times only roughly, because the machine may be busy.


@pytest.fixture
def car():
    """A server with an interface for each node."""
    with Server("engine,gateway,ecu", observe="ecu") as running:
        yield running


def live(server, **more):
    """Returns the rest bus of a server."""
    return server.rest_bus(REST, without=["ECU"], nodes={"Engine": "engine", "Gateway": "gateway"}, **more)


def test_a_server(car):
    with live(car) as rest:
        rest["Engine"]["EngineSpeed"] = 3000
        data = bytes.fromhex("e02e000000000000")
        assert car.expect(id=DATA, data=data, within=WAIT).channel == "ecu"
        car.expect(id=STATUS, within=WAIT)
        car.expect(id=PAGE, within=WAIT)
        rest.send("GatewayEvent", {"Key": 9})
        car.expect(id=EVENT, data=b"\x09", within=WAIT)
        rest.stop()
        accepted = rest.counts().accepted
    # The log contains every accepted frame, with the interface of its sender.
    log = car.log()
    assert len(log) == accepted == rest.counts().accepted
    assert {(message.channel, message.arbitration_id) for message in log} == {
        ("engine", DATA),
        ("engine", STATUS),
        ("gateway", PAGE),
        ("gateway", EVENT),
    }


def test_it_sends_from_the_with_block_on(car):
    rest = live(car)
    rest["Engine"]["EngineTemp"] = 0
    with rest:
        first = car.expect(id=DATA, within=WAIT)
    assert first.data.hex() == "800c280000000000"
    with pytest.raises(ValueError, match="^the rest bus has ended$"):
        rest.send("EngineData")
    rest.close()


def test_its_periods_do_not_drift(car):
    with live(car) as rest:
        first = car.expect(id=DATA, within=WAIT).timestamp
        car.wait_for(lambda: sum(rest.counts("EngineData")[::2]) >= 50, timeout=WAIT)
        rest.stop()
        log = [message.timestamp for message in car.log() if message.arbitration_id == DATA]
    # Even on a busy machine, each frame is sent no earlier than it is due, and in the right order.
    assert len(log) >= 2 and log[0] == first
    cycles = [round((moment - log[0]) / 0.01 - 0.25) for moment in log]
    assert all(later >= earlier for earlier, later in zip(cycles, cycles[1:]))


def test_a_fault_of_a_function_is_raised_at_the_end(car):
    def fail(message):
        raise KeyError(message.name)

    rest = live(car)
    rest.on_send("EngineData", fail)
    with pytest.raises(KeyError, match="EngineData"):
        with rest:
            car.wait_for(lambda: rest._fault, timeout=WAIT)
            with pytest.raises(KeyError, match="EngineData"):
                rest["Engine"]["EngineSpeed"] = 1
    # An error that the block itself raises takes precedence over the function's error.
    rest = live(car)
    rest.on_send("EngineData", fail)
    with pytest.raises(ZeroDivisionError):
        with rest:
            car.wait_for(lambda: rest._fault, timeout=WAIT)
            raise ZeroDivisionError


def test_it_goes_on_after_bus_off(car, caplog):
    with live(car) as rest:
        car.bus_off("engine", timeout=WAIT)
        car.wait_for(lambda: rest.counts("EngineData").refused > 3, timeout=WAIT)
        with pytest.raises(CanOperationError, match="^bus off"):
            rest.send("EngineData")
        with car.bus("engine") as engine:
            engine.restart()
        before = rest.counts("EngineData").accepted
        car.wait_for(lambda: rest.counts("EngineData").accepted > before + 3, timeout=WAIT)
        assert rest.counts("GatewayPage").refused == 0
    said = [record.message for record in caplog.records if "EngineData" in record.message]
    assert said == ["rest bus: EngineData is not sent by engine: bus off"]


def test_the_end_of_the_server_is_no_fault_and_a_lost_one_is(car):
    with live(car) as rest:
        car.expect(id=DATA, within=WAIT)
        car.stop()
        assert rest.counts().accepted
    with Server("engine,gateway,ecu") as lost:
        with pytest.raises(CanOperationError):
            with live(lost) as rest:
                lost._signal()
                rest._thread.join(WAIT)
        lost.kill()


def test_a_counter_counts_the_frames_that_were_sent(bench):
    ecu, engine = bench.open("ecu"), bench.open("engine")
    counted = []

    def count(message):
        counted.append(message.count)
        message["Counter"] = message.count % 16

    with rest_of(bench) as rest:
        rest.on_send("EngineData", count)
        rest.run(until=0.03)
        # The next 32 attempts of the engine fail, and it goes bus off. Its later frames are refused.
        bench.inject(Faults().next(32, sender="engine").destroyed())
        rest.run(until=0.1)
        assert engine.status().state == "off" and rest.counts("EngineData").refused > 3
        lost = engine.stats().lost
        engine.restart()
        rest.run(until=0.15)
        counts = rest.counts("EngineData")
        assert counted[-1] == counts.accepted - 1 < len(counted) - 1
    counters = [int(data[14:], 16) for data in sent(ecu, DATA)]
    accepted = [number % 16 for number in range(counts.accepted)]
    # Only frames that were in the queue at bus off are missing.
    assert 1 <= len(accepted) - len(counters) <= lost and set(counters) < set(accepted)
    assert counters[-4:] == accepted[-4:]


def test_threads_set_values(car):
    with live(car) as rest:

        def change():
            for speed in range(200):
                rest["Engine"]["EngineSpeed"] = speed

        threads = [threading.Thread(target=change) for _ in range(4)]
        for thread in threads:
            thread.start()
        for thread in threads:
            thread.join()
        assert rest["Engine"]["EngineSpeed"] == 199
        # 199 / 0.25 is 031C in hexadecimal.
        car.expect(id=DATA, data=bytes.fromhex("1c03000000000000"), within=WAIT)


def command(server, *words):
    """Returns the arguments that run `restbus` on this server."""
    return [sys.executable, "-m", "canbusd", "restbus", *map(str, words), "--address", server.address]


def test_the_command(car):
    words = [
        "--without",
        "ECU",
        "--node",
        "Engine=engine",
        "--interface",
        "gateway",
        "--set",
        "Engine.EngineSpeed=3000",
    ]
    child = subprocess.Popen(
        command(car, REST, *words), stdout=subprocess.PIPE, stderr=subprocess.PIPE, text=True, bufsize=1
    )
    try:
        car.expect(id=DATA, data=bytes.fromhex("e02e000000000000"), within=WAIT)
    finally:
        child.send_signal(signal.SIGINT)
        written, said = child.communicate(timeout=5 * WAIT)
    # The number of frames depends on how fast the machine is.
    assert child.returncode == 0 and said.startswith("canbusd restbus: ") and said.endswith(" skipped\n")
    lines = written.splitlines()
    assert lines[0] == "engine     EngineData 100 [8] from Engine, every 10 ms, NoMsgSendType"
    assert lines[3].startswith("gateway    GatewayEvent 400 [1] from Gateway, Engine, every 50 ms, Event  (")
    assert lines[-1] == "not simulated: ECU"


def test_the_command_with_a_log_and_an_end(car, tmp_path):
    (tmp_path / "drive.log").write_text("(1.000000) a 100#0102030405060708\n(1.010000) a 300#010203\n")
    words = [REST, "--without", "ECU", "--interface", "gateway", "--log", tmp_path / "drive.log"]
    done = subprocess.run(command(car, *words), capture_output=True, text=True, timeout=5 * WAIT, check=False)
    assert (done.returncode, done.stderr.split(":")[0]) == (0, "canbusd restbus")
    assert car.expect(id=PAGE, data=b"\x01\x02\x03", within=WAIT)
    done = subprocess.run(
        command(car, REST, "--without", "ECU", "--interface", "gateway", "--for", "0.2"),
        capture_output=True, text=True, timeout=5 * WAIT, check=False,
    )  # fmt: skip
    assert done.returncode == 0 and done.stderr.endswith(" skipped\n")


@pytest.mark.parametrize(
    "words, said",
    [
        (
            ["--without", "ECU"],
            "node Engine has no interface: give --interface engine or --node Engine=engine, or leave it out with --without "
            "Engine; there are engine, gateway, ecu",
        ),
        (["--without", "ECU,Engine", "--without", "E"], "no node E in the database; there are Engine, ECU, Gateway"),
        (["--without", "ECU,Engine", "--node", "Gateway=can7"], "node Gateway has no interface 'can7': give "),
        (["--without", "E"], "no node E in the database; there are Engine, ECU, Gateway"),
        (["--without", "ECU", "--interface", "ecu", "--set", "Engine.X=1"], "Engine sends no X; it sends EngineData."),
    ],
)
def test_words_that_are_wrong(car, words, said):
    done = subprocess.run(command(car, REST, *words), capture_output=True, text=True, timeout=5 * WAIT, check=False)
    assert done.returncode == 1
    assert done.stderr.startswith(f"canbusd restbus: {said}")


def test_what_the_files_say(car):
    done = subprocess.run(command(car, "--list", REST), capture_output=True, text=True, timeout=5 * WAIT, check=False)
    assert (done.returncode, done.stdout) == (0, f"{load_database(REST)}\n")


# The following tests are about schedules, which are messages and the times when they are due.


def test_a_schedule():
    schedule, called = Schedule(), []
    for due, order, name in ((20, 0, "d"), (10, 5, "c"), (10, 1, "a"), (10, 1, "b")):
        schedule.add(due, order, lambda moment, name=name: called.append((name, moment)))
    assert schedule.first() == 10
    for due, call in schedule.take(15):
        call(due)
    assert (called, schedule.first()) == ([("a", 10), ("b", 10), ("c", 10)], 20)
    assert list(Schedule().take(99)) == [] and Schedule().first() is None


def test_phases_keep_messages_apart():
    cycles = [10_000] * 8 + [20_000] * 22 + [50_000] * 20 + [100_000] * 30 + [1_000_000] * 20
    found = phases(cycles)
    assert all(0 <= phase < cycle for phase, cycle in zip(found, cycles))
    moments = sorted(due for phase, cycle in zip(found, cycles) for due in range(phase, 2_000_000, cycle))
    # 2,620 frames are due per second, or 2.6 per millisecond on average. At most 6 are due in any millisecond.
    assert (
        max(
            sum(first <= due < first + 1000 for due in moments[place : place + 20])
            for place, first in enumerate(moments)
        )
        <= 6
    )
    assert phases([]) == []
    assert phases([1000]) in ([0], [500])
    few = phases([10_000, 10_000, 10_000])
    assert min(abs(one - other) for one in few for other in few if one != other) >= 2000


def test_threads_take_turns_sooner_beside_a_rest_bus(car):
    before, frozen = sys.getswitchinterval(), gc.get_freeze_count()
    with live(car), live(car):
        if is_virtual():
            # In virtual time no frame is late, so nothing is changed.
            assert (sys.getswitchinterval(), gc.get_freeze_count()) == (pytest.approx(before), frozen)
        else:
            assert sys.getswitchinterval() == pytest.approx(INTERVAL) and gc.get_freeze_count() > frozen
    assert (sys.getswitchinterval(), gc.get_freeze_count()) == (pytest.approx(before), frozen)


def test_what_somebody_else_has_frozen_stays():
    punctuality = Punctuality()
    gc.freeze()
    try:
        frozen = gc.get_freeze_count()
        punctuality.begin()
        punctuality.end()
        # The count may be lower, because objects that are no longer used can be freed.
        assert 0 < gc.get_freeze_count() <= frozen
    finally:
        gc.unfreeze()


def test_counts():
    assert Counts(1, 2, 3).plus(Counts(accepted=4)) == (5, 2, 3)
