"""CanbusdBus on a server: the calls that a python-can user makes. The classes and bytes of error message frames follow
linux/can/error.h, and the limits of the error counters follow Bosch's specification."""

import errno
import os
import select
import signal
import socket
import threading

import can
import pytest
from common import WAIT, message, shape

from canbusd.bus import CanbusdBus, Self, interfaces
from canbusd.faults import Faults
from canbusd.server import Server


def all_of(bus):
    """Returns all messages that the bus receives until no more arrive."""
    return list(iter(lambda: bus.recv(0.2), None))


@pytest.mark.parametrize(
    "sent",
    [
        message(0x123, b"\x11\x22\x33\x44"),
        message(0x123),
        message(0x7FF, bytes(8)),
        message(0x123, b"\x01", extended=True),
        message(0x12345, b"\x01", extended=True),
        message(0x1FFFFFFF, extended=True),
        message(0, extended=True),
        message(0x123, is_remote_frame=True, dlc=0),
        message(0x123, is_remote_frame=True, dlc=4),
        message(0x123, extended=True, is_remote_frame=True, dlc=8),
        message(0x123, bytes(range(8)), is_fd=True),
        message(0x12345, bytes(range(12)), extended=True, is_fd=True),
        message(0x7FF, bytes(range(64)), is_fd=True),
    ],
    ids=str,
)
def test_a_message_arrives_as_it_was_sent(server, sent):
    with server.bus("can0", fd=True) as can0, server.bus("can1", fd=True) as can1:
        can0.send(sent)
        got = can1.recv(WAIT)
        assert shape(got) == shape(sent)
        assert (got.channel, got.is_rx) == ("can1", True)
        assert got.timestamp > 1e9
        assert can0.recv(0) is None


def test_eleven_and_twenty_nine_bits_are_apart(pair):
    can0, can1 = pair
    can0.send(message(0x123))
    can0.send(message(0x123, extended=True))
    assert [can1.recv(WAIT).is_extended_id for _ in range(2)] == [False, True]


@pytest.mark.parametrize(
    "wrong",
    [
        message(0x800),
        message(-1),
        message(0x20000000, extended=True),
        message(0x123, bytes(9)),
        message(0x123, bytes(12), is_fd=True),
        message(0x123, b"\x01", dlc=2),
        message(0x123, is_remote_frame=True, dlc=9),
        message(0x40, bytes(8), is_error_frame=True),
    ],
    ids=str,
)
def test_what_is_no_message_is_not_sent(pair, wrong):
    with pytest.raises(ValueError):
        pair[0].send(wrong)
    with pytest.raises(ValueError):
        pair[0].send_many([message(1), wrong])
    assert pair[0].stats().sent == 0


@pytest.mark.parametrize("length", [9, 13, 63, 65])
def test_fd_frames_have_the_lengths_of_can_fd(server, length):
    with server.bus("can0", fd=True) as bus, pytest.raises(ValueError, match=f"data has {length} bytes"):
        bus.send(message(1, bytes(length), is_fd=True))


@pytest.mark.parametrize("brs", [False, True])
@pytest.mark.parametrize("esi", [False, True])
def test_flags_of_fd_frames_are_kept(server, caplog, brs, esi):
    with server.bus("can0", fd=True, receive_own_messages=True) as can0, server.bus("can1", fd=True) as can1:
        can0.send(message(1, b"\x11", is_fd=True, bitrate_switch=brs, error_state_indicator=esi))
        for bus in (can0, can1):
            got = bus.recv(WAIT)
            assert (got.is_fd, got.bitrate_switch, got.error_state_indicator) == (True, brs, esi)
    assert not caplog.records


def error(class_, data):
    """Returns an error message frame in the form that `shape` returns."""
    return class_, bytes.fromhex(data), 8, False, False, True, False


def test_error_frames_and_state_to_bus_off_and_back():
    with Server("can0,can1", faults=Faults().destroyed(range(32))) as server:
        with server.bus("can0") as can0, server.bus("can1", error_frames=False) as can1:
            assert can0.state is can.BusState.ACTIVE
            can0.send(message(0x123))
            shapes = [shape(can0.recv(WAIT)) for _ in range(3)]
            # The transmit error counter reaches 96 and 128. Each time, the error message frame has class CRTL and the
            # counters. After that, the interface is bus off.
            assert shapes == [
                error(0x204, "0008000000006000"), error(0x204, "0020000000008000"), error(0x040, "0000000000000000")
            ]  # fmt: skip
            assert can0.state is can.BusState.ERROR
            assert can0.error_counters().state == "off"
            with pytest.raises(can.CanOperationError, match="bus off") as refused:
                can0.send(message(0x123), timeout=1)
            assert refused.value.error_code == errno.ENETDOWN
            with pytest.raises(can.CanOperationError, match="bus off after 0 of 2 messages"):
                can0.send_many([message(1), message(2)])
            can0.state = can.BusState.ACTIVE
            assert shape(can0.recv(WAIT)) == error(0x100, "0000000000000000")
            assert can0.state is can.BusState.ACTIVE
            assert can0.error_counters() == ("active", 0, 0)
            # The queued frame was lost at bus off. After the restart, the bus works again.
            can0.send(message(0x124))
            assert can1.recv(WAIT).arbitration_id == 0x124
            assert can0.stats().lost == 1


@pytest.mark.parametrize(
    "destroyed, counters, state",
    [
        (11, ("active", 87, 10), can.BusState.ACTIVE),
        (13, ("warning", 103, 12), can.BusState.ACTIVE),
        (17, ("passive", 135, 16), can.BusState.PASSIVE),
    ],
)
def test_the_state_is_that_of_the_counts(destroyed, counters, state):
    # Every destroyed frame adds 8 to the sender's error counter and 1 to the receiver's. The successful frame subtracts
    # 1 from both.
    with Server("can0,can1", faults=Faults().destroyed(range(destroyed))) as server:
        with server.bus("can0") as can0, server.bus("can1") as can1:
            can0.send(message(0x123))
            assert can1.recv(WAIT).arbitration_id == 0x123
            assert can0.error_counters() == (counters[0], counters[1], 0)
            assert can0.state is state
            assert can1.error_counters() == ("active", 0, counters[2])


def test_restart_where_nothing_is_off(pair):
    with pytest.raises(can.CanOperationError, match="not bus off"):
        pair[0].restart()
    # python-can's tools set this state when they start.
    pair[0].state = can.BusState.ACTIVE
    with pytest.raises(NotImplementedError):
        pair[0].state = can.BusState.PASSIVE


def test_automatic_restart():
    with Server("can0,can1", faults=Faults().destroyed(range(32)), auto_restart=5) as server:
        with server.bus("can0", error_frames=0x140) as can0:
            can0.send(message(0x123))
            assert [can0.recv(WAIT).arbitration_id for _ in range(2)] == [0x040, 0x100]
            assert can0.state is can.BusState.ACTIVE


@pytest.mark.parametrize(
    "mask, seen", [(0x40, [0x040]), (0x204, [0x204, 0x204]), (False, []), (True, [0x204, 0x204, 0x40])]
)
def test_classes_of_error_frames(mask, seen):
    with Server("can0,can1", faults=Faults().destroyed(range(32))) as server:
        with server.bus("can0", error_frames=mask) as can0, server.bus("can0") as watch:
            can0.send(message(0x123))
            while watch.recv(WAIT).arbitration_id != 0x040:
                pass
            assert [got.arbitration_id for got in all_of(can0)] == seen


def test_reported_faults():
    with Server("can0,can1", faults=Faults().destroyed(0), report=True) as server:
        with server.bus("can0") as can0, server.bus("can1") as can1:
            can0.send(message(0x123))
            # The class is PROT and BUSERROR. The sender reports a bit error in the data field, and the receiver reports
            # a stuff error.
            assert shape(can0.recv(WAIT)) == error(0x088, "0000810A00000000")
            assert shape(can1.recv(WAIT)) == error(0x088, "0000040000000000")


@pytest.fixture
def full():
    """A bus whose transmit queue holds two frames and stays full for a minute."""
    with Server("can0,can1", txqueue=2, pace_ms=60000) as server:
        with server.bus("can0") as can0, server.bus("can1") as can1:
            can0.send(message(1))
            assert can1.recv(WAIT).arbitration_id == 1
            can0.send_many([message(2), message(3)])
            yield can0


def test_a_full_transmit_queue(full):
    with pytest.raises(can.CanOperationError, match="no buffers") as refused:
        full.send(message(4))
    assert refused.value.error_code == errno.ENOBUFS
    with pytest.raises(can.CanOperationError):
        full.send(message(4), timeout=0)
    with pytest.raises(can.CanTimeoutError, match="no buffers"):
        full.send(message(4), timeout=0.1)
    with pytest.raises(can.CanTimeoutError, match="after 0 of 3 messages"):
        full.send_many([message(4)] * 3, timeout=0.1)
    assert (full.stats().waiting, full.stats().sent) == (2, 3)


def test_a_burst_waits_for_room():
    # The receive queue has room for all frames, however late the receiver reads them.
    with Server("can0,can1", rxqueue=300) as server, server.bus("can0") as can0, server.bus("can1") as can1:
        for number in range(300):
            can0.send(message(number), timeout=WAIT)
        assert [can1.recv(WAIT).arbitration_id for _ in range(300)] == list(range(300))


@pytest.mark.parametrize("window", [10, 3, 1, 64])
def test_many_messages_at_once(pair, window):
    can0, can1 = pair
    can0.window = window
    can0.send_many(message(number) for number in range(200))
    got = [can1.recv(WAIT).arbitration_id for _ in range(200)]
    assert sorted(got) == list(range(200))
    assert can0.stats().sent == 200
    if window <= 10:
        assert got == list(range(200))
        assert can0.stats().refused == 0


def test_many_messages_while_others_send_by_the_interface(pair, server):
    can0, can1 = pair
    with server.bus("can0") as other:
        senders = [
            threading.Thread(target=bus.send_many, args=([message(first + number) for number in range(100)], WAIT))
            for bus, first in ((can0, 0), (other, 0x100))
        ]
        for sender in senders:
            sender.start()
        got = [can1.recv(WAIT).arbitration_id for _ in range(200)]
        for sender in senders:
            sender.join()
    assert sorted(got) == [*range(100), *range(0x100, 0x164)]


FILTERS = [
    # Each case is a list of filters and the frames that pass: a is 11-bit 123, b is 29-bit 123, c is remote 123, d is
    # 11-bit 124.
    (None, "abcd"),
    ([{"can_id": 0x123, "can_mask": 0x7FF}], "abc"),
    ([{"can_id": 0x123, "can_mask": 0x1FFFFFFF}], "abc"),
    ([{"can_id": 0x123, "can_mask": 0x7FF, "extended": False}], "ac"),
    ([{"can_id": 0x123, "can_mask": 0x1FFFFFFF, "extended": True}], "b"),
    ([{"can_id": 0x80000123, "can_mask": 0x9FFFFFFF}], "b"),
    ([{"can_id": 0x123, "can_mask": 0xC00007FF}], "a"),
    ([{"can_id": 0x20000123, "can_mask": 0x7FF}], "d"),
    ([{"can_id": 0x124, "can_mask": 0x7FF}, {"can_id": 0x123, "can_mask": 0x7FF, "extended": True}], "bd"),
    ([{"can_id": 0, "can_mask": 0}], "abcd"),
]
# These filters do not fit into one message of 1,024 bytes, and match no frame.
FAR = [{"can_id": 0x700 + number, "can_mask": 0x7FF, "extended": False} for number in range(100)]
FRAMES = {
    "a": message(0x123),
    "b": message(0x123, extended=True),
    "c": message(0x123, is_remote_frame=True),
    "d": message(0x124),
}
END = message(0x7FE)
ENDS = {"can_id": 0x7FE, "can_mask": 0x7FF, "extended": False}


def until_end(bus, sender):
    sender.send_many([*FRAMES.values(), END])
    names = {shape(frame): name for name, frame in FRAMES.items()}
    seen = ""
    while True:
        got = bus.recv(WAIT)
        if shape(got) == shape(END):
            return seen
        seen += names[shape(got)]


@pytest.mark.parametrize("filters, passing", FILTERS)
def test_filters(pair, server, filters, passing):
    can0, can1 = pair
    wanted = None if filters is None else [*filters, ENDS]
    can1.set_filters(wanted)
    assert can1.filters == wanted
    assert until_end(can1, can0) == passing
    # Filters also work if they are passed to the constructor.
    with server.bus("can1", can_filters=wanted) as other:
        assert until_end(other, can0) == passing
    # With None instead of filters, every frame passes again.
    can1.set_filters(None)
    all_of(can1)
    assert until_end(can1, can0) == "abcd"


@pytest.mark.parametrize("filters, passing", FILTERS[1:])
def test_more_filters_than_fit_into_a_message(pair, filters, passing):
    can0, can1 = pair
    can1.set_filters([*filters, *FAR, ENDS])
    assert until_end(can1, can0) == passing
    can1.set_filters([*filters, ENDS])
    assert until_end(can1, can0) == passing


def test_the_server_filters(pair):
    can0, can1 = pair
    can1.set_filters([ENDS])
    assert until_end(can1, can0) == ""
    assert can1.stats().queued == 1


def test_frames_from_before_a_filter_are_filtered(pair):
    can0, can1 = pair
    can0.send(message(0x123))
    can0.send(message(0x124))
    # Both frames are either read while the bus waits for the status, or still in the connection.
    while can1.stats().taken < 2:
        pass
    can1.set_filters([{"can_id": 0x124, "can_mask": 0x7FF}])
    assert can1.recv(WAIT).arbitration_id == 0x124


def test_error_frames_are_not_filtered():
    with Server("can0,can1", faults=Faults().destroyed(range(32))) as server:
        with server.bus("can0", can_filters=[ENDS], error_frames=0x40) as few:
            with server.bus("can0", can_filters=[ENDS, *FAR], error_frames=0x40) as many:
                few.send(message(0x123))
                assert [bus.recv(WAIT).arbitration_id for bus in (few, many)] == [0x40, 0x40]


@pytest.mark.parametrize("count", [1, 100])
def test_joined_filters(server, count):
    # A frame must match all filters: its identifier is neither 123 nor an identifier in the other filters.
    others = [{**one, "can_id": one["can_id"] | 0x20000000} for one in FAR[: count - 1]]
    filters = [{"can_id": 0x20000123, "can_mask": 0x7FF}, *others]
    with server.bus("can0") as can0, server.bus("can1", can_filters=filters, join_filters=True) as can1:
        assert until_end(can1, can0) == "d"


@pytest.mark.parametrize(
    "wrong", [{"can_id": -1, "can_mask": 0}, {"can_id": 1}, {"can_mask": 1}, {"can_id": "1", "can_mask": 0}]
)
def test_a_wrong_filter(pair, server, wrong):
    for call in (pair[0].set_filters, lambda filters: server.bus("can0", can_filters=filters)):
        with pytest.raises(ValueError, match="can_id|can_mask"):
            call([wrong])
    with pytest.raises(ValueError, match="filter"):
        pair[0].set_filters(["123:7FF"])


def test_whose_a_message_is(server):
    """`is_rx` is False only for messages that this bus has sent, even if another bus has sent an identical message."""
    own, beside, other = server.bus("can0", receive_own_messages=True), server.bus("can0"), server.bus("can1")
    with own, beside, other:
        for sender in (own, beside, other, beside, own, own, other):
            sender.send(message(7, b"7"))
            got = own.recv(WAIT)
            assert shape(got) == shape(message(7, b"7")) and got.is_rx == (sender is not own)
        own.send(message(8, dlc=2, is_remote_frame=True))
        assert own.recv(WAIT).is_rx is False
    # The bus does not mistake an earlier frame from another bus on the same interface for its own.
    with server.bus("can0", receive_own_messages=True, fd=True) as own, server.bus("can0") as beside:
        beside.send(message(9))
        own.send(message(9, bytes(12), is_fd=True))
        got = sorted((one.is_fd, one.is_rx) for one in (own.recv(WAIT), own.recv(WAIT)))
        assert got == [(False, True), (True, False)]


def test_many_messages_are_own_ones_among_others(server):
    with server.bus("can0", receive_own_messages=True) as own, server.bus("can0") as beside:
        own.send_many([message(1)] * 30)
        beside.send_many([message(1)] * 30)
        own.send_many([message(1)] * 30)
        got = [own.recv(WAIT).is_rx for _ in range(90)]
        assert got == [False] * 30 + [True] * 30 + [False] * 30


def test_interfaces(monkeypatch):
    long = [f"a-long-name-{number:03}" for number in range(14 * 16)]
    buses = ["can0,can1", "car0", *(",".join(long[start : start + 16]) for start in range(0, len(long), 16))]
    names = ",".join(buses).split(",")
    with Server(*buses) as server:
        monkeypatch.setenv("CANBUSD_ADDRESS", server.address)
        configs = can.detect_available_configs("canbusd")
        assert configs == [{"interface": "canbusd", "channel": name} for name in names]
        with can.Bus(**configs[2]) as bus:
            assert bus.channel == "car0"
        assert server.interfaces == interfaces() == interfaces(server.address) == names
    assert can.detect_available_configs("canbusd") == []


def test_own_messages_and_loopback(server):
    with server.bus("can0") as other, server.bus("can1") as can1:
        with server.bus("can0", receive_own_messages=True) as loud:
            loud.send(message(1))
            assert [bus.recv(WAIT).arbitration_id for bus in (loud, other, can1)] == [1, 1, 1]
        with server.bus("can0", local_loopback=False, receive_own_messages=True) as silent:
            silent.send(message(2))
            assert can1.recv(WAIT).arbitration_id == 2
            assert (silent.recv(0.1), other.recv(0)) == (None, None)


def test_values_given_as_texts(server):
    texts = {
        "fd": "true",
        "receive_own_messages": "1",
        "local_loopback": "yes",
        "error_frames": "0x40",
        "timeout": "2.5",
    }
    with CanbusdBus(
        "can0", address=server.address, join_filters="off", bitrate=500000, single_handle=True, **texts
    ) as bus:
        bus.send(message(1, bytes(12), is_fd=True))
        assert bus.recv(WAIT).is_fd


def test_an_argument_that_is_none(server, caplog):
    with CanbusdBus("can0", address=server.address, adress="127.0.0.1:1", single_handle=True):
        said = [record.getMessage() for record in caplog.records if record.name == "can.canbusd"]
    assert said == ["can0: adress is no argument of this interface, and is left out"]


@pytest.mark.parametrize(
    "argument, value",
    [
        ("channel", ""), ("channel", "can 0"), ("channel", "> <"), ("address", "nowhere"), ("address", "127.0.0.1"),
        ("address", "127.0.0.1:99999"), ("address", "::1:29536"), ("fd", "maybe"), ("receive_own_messages", 2),
        ("local_loopback", "x"), ("error_frames", "all"), ("error_frames", -1), ("error_frames", 1 << 32),
        ("join_filters", None), ("timeout", 0), ("timeout", "soon"), ("timeout", -1), ("host", "127.0.0.1"),
        ("port", 1), ("bitrate", "fast"), ("bitrate", 5e5), ("data_bitrate", ""),
    ],
)  # fmt: skip
def test_a_wrong_argument_is_named(argument, value):
    with pytest.raises(ValueError, match=argument):
        CanbusdBus(**{"channel": "can0", argument: value})


def test_an_unknown_channel(server):
    with pytest.raises(can.CanInitializationError, match="can7.*no such interface"):
        server.bus("can7")


def test_no_server(tmp_path):
    with socket.create_server(("127.0.0.1", 0)) as closed:
        address = "127.0.0.1:%d" % closed.getsockname()[1]
    for nowhere in (address, str(tmp_path / "none")):
        with pytest.raises(
            can.CanInitializationError,
            match="(refused|No such file.*) .is `canbusd serve` running there",
        ):
            CanbusdBus("can0", address=nowhere)


def test_the_address_of_the_environment(server, monkeypatch):
    monkeypatch.setenv("CANBUSD_ADDRESS", server.address)
    with CanbusdBus("can0") as bus:
        assert server.address in str(bus)


def test_a_server_on_a_unix_path(tmp_path):
    with Server("can0,can1", listen=str(tmp_path / "socket")) as server:
        with server.bus("can0") as can0, server.bus("can1") as can1:
            can0.send(message(0x123))
            assert can1.recv(WAIT).arbitration_id == 0x123


def test_a_server_on_ipv6():
    try:
        socket.create_server(("::1", 0), family=socket.AF_INET6).close()
    except OSError:
        pytest.skip("no IPv6 here")
    with Server("can0,can1", listen="[::1]:0") as server, server.bus("can0") as can0:
        assert can0.error_counters().state == "active"


def test_a_bus_that_is_shut_down(server):
    bus = server.bus("can0")
    bus.shutdown()
    bus.shutdown()
    for call in (bus.recv, lambda: bus.send(message(1)), bus.stats, lambda: bus.state, lambda: bus.set_filters(None)):
        with pytest.raises(can.CanOperationError, match="shut down"):
            call()


def test_shutdown_wakes_who_waits(server):
    bus = server.bus("can0")
    seen = []

    def wait():
        try:
            bus.recv()
        except can.CanOperationError as fault:
            seen.append(str(fault))

    waiting = [threading.Thread(target=wait) for _ in range(3)]
    for thread in waiting:
        thread.start()
    bus.shutdown()
    for thread in waiting:
        thread.join(WAIT)
    assert seen == ["the bus was shut down"] * 3


def test_a_wait_that_is_interrupted(pair):
    class Interrupted(Exception):
        pass

    def interrupt(*_):
        raise Interrupted

    before = signal.signal(signal.SIGALRM, interrupt)
    try:
        for _ in range(5):
            signal.setitimer(signal.ITIMER_REAL, 0.02)
            with pytest.raises(Interrupted):
                pair[1].recv()
            pair[0].send(message(0x123))
            assert pair[1].recv(WAIT).arbitration_id == 0x123
    finally:
        signal.signal(signal.SIGALRM, before)


def test_frames_in_the_queue_cannot_be_taken_back(pair):
    with pytest.raises(NotImplementedError):
        pair[0].flush_tx_buffer()


def test_a_timeout_of_receiving(pair):
    assert [pair[0].recv(timeout) for timeout in (0, 0.01, -1)] == [None, None, None]


def test_a_bus_in_a_with_block_has_its_type():
    assert CanbusdBus.__enter__.__annotations__["return"] is Self


def test_messages_by_iteration(pair):
    pair[0].send_many([message(1), message(2)])
    messages = iter(pair[1])
    assert [next(messages).arbitration_id for _ in range(2)] == [1, 2]


def test_the_file_descriptor_is_readable_while_there_are_frames(pair):
    can0, can1 = pair
    assert not select.select([can1], [], [], 0)[0]
    can0.send_many([message(number) for number in range(5)])
    seen = []
    while len(seen) < 5:
        assert select.select([can1], [], [], WAIT)[0]
        got = can1.recv(0)
        seen += [got.arbitration_id] if got else []
    assert seen == list(range(5))
    assert not select.select([can1], [], [], 0)[0]
    # The same is true for frames that the bus has read while it waited for an answer.
    can0.send(message(6))
    while can1.stats().taken < 6:
        pass
    assert select.select([can1], [], [], WAIT)[0]
    assert can1.recv(WAIT).arbitration_id == 6
    assert not select.select([can1], [], [], 0)[0]


def test_sixty_four_buses_and_no_more():
    before = len(os.listdir("/proc/self/fd"))
    with Server(",".join(f"can{number}" for number in range(16)), observe=()) as server:
        buses = [server.bus(f"can{number % 16}") for number in range(64)]
        with pytest.raises(can.CanInitializationError, match="too many sessions"):
            server.bus("can0")
        buses[0].send(message(0x123))
        assert {shape(bus.recv(WAIT)) for bus in buses[1:]} == {shape(message(0x123))}
        for bus in buses:
            bus.shutdown()
    assert len(os.listdir("/proc/self/fd")) == before


def test_a_hundred_thousand_frames_without_a_loss():
    count = 100_000
    with Server("can0,can1", pace_ms=0, txqueue=1024, rxqueue=65536) as server:
        with server.bus("can0") as can0, server.bus("can1") as can1:
            frames = [message(number & 0x7FF, number.to_bytes(4, "big")) for number in range(count)]
            sender = threading.Thread(target=can0.send_many, args=(frames,))
            sender.start()
            got = [int.from_bytes(can1.recv(WAIT).data, "big") for _ in range(count)]
            sender.join(WAIT)
            assert got == list(range(count))
            assert can1.stats().dropped == 0
    assert server.audit() == {"can0": f"ok {server.stop().entries['can0']} entries"}
