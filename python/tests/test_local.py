"""LocalBus is a bus inside the process that uses libcanbusd. The proved program only audits the records of the bus."""

import random
import threading

import can
import pytest

from canbusd import Bench, Frame, LocalBus, Refused
from canbusd._library import library
from canbusd._process.program import audited

try:
    library.find_library()
except library.LibraryNotFound:
    pytest.skip("no libcanbusd of these sources: scripts/library build", allow_module_level=True)


def audit(bus, path):
    path.write_bytes(bus.record())
    return audited(path)


def test_a_frame_goes_over_the_bus():
    with LocalBus("can0,can1") as bus:
        ecu, tester = bus.open("can0"), bus.open("can1")
        ecu.send(0x123, b"\x11\x22")
        assert tester.receive() is None
        tried = bus.attempt()
        assert (tried.frame, tried.winner, tried.outcome, tried.accepted) == (
            Frame(0x123, b"\x11\x22"),
            "can0",
            "done",
            ("can1",),
        )
        assert tester.receive() == Frame(0x123, b"\x11\x22")
        assert bus.attempt() is None


@pytest.mark.parametrize(
    "frame",
    [
        Frame(0x7FF, bytes(8)),
        Frame(0x1FFFFFFF, b"\x01", is_extended_id=True),
        Frame(0x5, b"", is_remote_frame=True, dlc=7),
        Frame(0x5, bytes(64), is_fd=True),
        Frame(0x5, bytes(12), is_fd=True, bitrate_switch=True, error_state_indicator=True),
    ],
    ids=str,
)
def test_a_frame_keeps_its_shape(frame):
    with LocalBus("can0,can1") as bus:
        sender, receiver = bus.open("can0", fd=True), bus.open("can1", fd=True)
        sender.send(frame)
        bus.run()
        assert receiver.receive() == frame


def test_refusals_have_their_texts():
    with LocalBus("can0,can1", txqueue=1, limit=100) as bus:
        socket = bus.open("can0")
        socket.send(1)
        for wrong, text in (
            (lambda: socket.send(1), "no buffers"),
            (lambda: socket.send(1, b"", is_fd=True), "fd frames off"),
        ):
            with pytest.raises(Refused, match=text):
                wrong()
        bus.down("can0")
        with pytest.raises(Refused, match="interface down"):
            socket.send(1)
        socket.close()
        with pytest.raises(Refused, match="no socket"):
            socket.send(1)
        with pytest.raises(Refused, match="no such interface 'can7'; the bus has can0, can1"):
            bus.open("can7")
    with pytest.raises(Refused, match="the bus is closed"):
        bus.attempt()


@pytest.mark.parametrize("rates", [{}, {"bitrate": 500_000}, {"bitrate": 500_000, "data_bitrate": 2_000_000}], ids=str)
def test_random_calls_leave_a_record_that_the_audit_takes(rates, tmp_path):
    """The audit accepts the record of random calls. So every reply is the same as the program's reply to that call."""
    draw = random.Random(91)
    names = ["can0", "can1", "can2"]
    with LocalBus(names, ack="peers", report=True, auto_restart=5, **rates) as bus:
        sockets = [bus.open(draw.choice(names), fd=True) for _ in range(6)]
        for _ in range(3000):
            socket = draw.choice(sockets)
            kind = draw.randrange(12)
            try:
                if kind < 4:
                    socket.send(
                        draw.choice(
                            [Frame(draw.randrange(0x800), bytes(draw.randrange(9))), Frame(5, bytes(48), is_fd=True)]
                        )
                    )
                elif kind < 7:
                    bus.attempt()
                elif kind < 9:
                    socket.receive()
                elif kind == 9:
                    bus.inject(f"next {draw.randrange(1, 20)} global bit")
                elif kind == 10:
                    draw.choice([bus.restart, bus.down])(draw.choice(names))
                elif rates:
                    bus.run(draw.random() / 1000)
                else:
                    socket.set_filters([{"can_id": draw.randrange(0x800), "can_mask": 0x700}])
            except Refused:
                pass
        text = bus.record()
        assert audit(bus, tmp_path / "run.rec") == f"ok {int(text.split()[-1])} entries"


def attempts_in(record):
    """Returns the replies to the attempts that tried a frame."""
    return [
        line.partition(b" = ")[2] for line in record.splitlines() if line.startswith(b"attempt") and b"tried" in line
    ]


def test_attempts_are_those_of_a_bench(tmp_path):
    """If the frames and the fault are the same, the attempts and their times are the same as on the program's bench."""
    faults, rates = "next 2 lastbit", {"bitrate": 500_000, "data_bitrate": 2_000_000}
    frames = [Frame(number, bytes(number)) for number in range(5)] + [
        Frame(9, bytes(48), is_fd=True, bitrate_switch=True)
    ]
    with LocalBus("can0,can1", **rates) as bus, Bench("can0,can1", out=tmp_path, **rates) as bench:
        for run in (bus, bench):
            run.inject(faults)
            sender = run.open("can0", fd=True)
            for frame in frames:
                sender.send(frame)
            run.run()
        ours = attempts_in(bus.record())
    assert ours == attempts_in((tmp_path / "can0.rec").read_bytes())
    assert len(ours) == 8


def test_error_message_frames_are_those_of_a_bench():
    found = []
    with LocalBus("can0,can1", report=True) as bus, Bench("can0,can1", report=True) as bench:
        for run in (bus, bench):
            run.inject("next 1 global bit")
            sender = run.open("can0")
            sender.send(Frame(0x123))
            run.attempt()
            found.append(sender.receive())
    assert [found[0]] == found[1]
    assert found[0].is_error_frame


@pytest.mark.parametrize("rates", [{"bitrate": {None: 500_000}}, {"bitrate": {"can1": 500_000}}], ids=str)
def test_bit_rates_are_given_as_those_of_a_bench(rates):
    with LocalBus("can0,can1", **rates) as bus:
        assert bus.load().bitrate == 500_000


def test_python_can(canbusd_local):
    bus = LocalBus("can0,can1", attempts="sent")
    with can.Bus(interface="canbusd", channel="can0", local=bus) as one, can.Bus(
        interface="canbusd", channel="can1", local=bus
    ) as other:
        one.send(can.Message(arbitration_id=0x123, data=[1, 2], is_extended_id=False))
        got = other.recv(timeout=1)
        assert (got.arbitration_id, bytes(got.data), got.channel) == (0x123, b"\x01\x02", "can1")
        assert other.recv(timeout=0) is None
        assert one.state is can.BusState.ACTIVE
        other.set_filters([{"can_id": 0x7DF, "can_mask": 0x7FF}])
        one.send(can.Message(arbitration_id=0x123, is_extended_id=False))
        one.send(can.Message(arbitration_id=0x7DF, is_extended_id=False))
        assert other.recv(timeout=1).arbitration_id == 0x7DF


def test_a_thread_waits_for_what_another_sends():
    bus = LocalBus("can0,can1", attempts="sent")
    receiver, got = bus.open("can1"), []
    thread = threading.Thread(target=lambda: got.append(receiver.wait(60)))
    thread.start()
    bus.open("can0").send(0x42, b"\x01")
    thread.join(60)
    assert got == [Frame(0x42, b"\x01")]


@pytest.mark.canbusd("ecu,tester", bitrate=500_000)
def test_fixture(canbusd_local):
    assert canbusd_local.names == ("ecu", "tester")
    canbusd_local.open("ecu").send(0x7E8, b"\x01")
    assert canbusd_local.run() == 1
    assert canbusd_local.moment > 0
