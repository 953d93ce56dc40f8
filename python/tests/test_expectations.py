"""Expectations on a running server: interface states, frames that must or must not arrive, and the messages of failed
expectations."""

import contextlib
import re

import can
import pytest

from canbusd._run.summary import end_of_log
from canbusd.faults import Faults
from canbusd.server import Server, ServerError
from common import WAIT, message

OFF = Faults().destroyed(range(32))


@pytest.fixture
def observed():
    """A server that observes only the interface can1."""
    with Server("can0,can1,can2", observe="can1") as running:
        yield running


@pytest.fixture
def can0(observed):
    """A bus on can0 of the server `observed`."""
    with observed.bus("can0") as bus:
        yield bus


def test_the_state_of_an_interface(server):
    assert server.state("can0") == "active"
    assert server.error_counters("can1") == ("active", 0, 0)
    with pytest.raises(can.CanInitializationError, match="can9"):
        server.state("can9")


def test_a_state_comes(tmp_path):
    with Server("can0,can1", faults=OFF) as server, server.bus("can0") as can0:
        can0.send(message(1))
        assert server.expect_state("can0", "off", within=WAIT).tec == 256
        assert server.expect_state("can1", "active").rec == 32
        can0.restart()
        assert server.state("can0") == "active"
        with pytest.raises(AssertionError) as failure:
            server.expect_state("can0", "passive", within=0.05)
        first, heading, *seen = str(failure.value).split("\n")
        assert first == (
            "can0 is active (transmit count 0, receive count 0), and was not passive within 0.05 seconds: it was off, then "
            "active"
        )
        assert heading == "the last frames that were seen, each with its receiver:"
        assert seen[2].endswith("can0 20000040#0000000000000000  bus off")
        with pytest.raises(ValueError, match="state"):
            server.expect_state("can0", "bus off")
    assert server.audit()["can0"].startswith("ok ")


def test_frames_are_found_in_their_order(observed, can0):
    can0.send_many(
        [message(0x123, [n]) for n in range(3)] + [message(0x123, extended=True), message(0x18DAF110, extended=True)]
    )
    assert observed.expect(id=0x123, within=WAIT).data[0] == 0
    assert observed.expect(0x123, b"\x02", within=WAIT).channel == "can1"
    # The first two frames have already been taken, and the next frame with identifier 123 has a 29-bit identifier.
    observed.expect_no_frame(id=0x123, within=0.05)
    assert observed.expect(0x123, is_extended_id=True, within=WAIT).is_extended_id
    assert observed.expect(id=0x18DAF110, within=WAIT).is_extended_id
    observed.expect_no_frame(within=0.05)


def test_a_frame_that_does_not_come(observed, can0):
    can0.send(message(0x124, [1, 2]))
    observed.wait_for(lambda: can0.stats().done == 1, WAIT)
    with pytest.raises(AssertionError) as failure:
        observed.expect(id=0x123, data=b"\x01", within=0.05)
    first, heading, line = str(failure.value).split("\n")
    assert first == "no frame 123 with data 01 within 0.05 seconds"
    assert heading == "the last frames that can1 saw, each with its receiver:"
    assert re.fullmatch(r"  \(\d{10}\.\d{6}\) can1 124#0102", line)


def test_a_frame_that_should_not_come(observed, can0):
    can0.send(message(0x18DAF110, [1], extended=True))
    with pytest.raises(AssertionError, match=r"^frame 18DAF110 was not expected: \(\d+\.\d+\) can1 18DAF110#01\n"):
        observed.expect_no_frame(id=0x18DAF110, within=WAIT)


def test_error_message_frames_are_shown_in_words():
    with Server("can0,can1", faults=OFF, observe=["can0", "can1"]) as server, server.bus("can0") as can0:
        can0.send(message(1))
        assert server.expect(id=0x040, is_error_frame=True, channel="can0", within=WAIT).channel == "can0"
        with pytest.raises(AssertionError) as failure:
            server.expect(within=0.05, channel="can1")
        # ISO 11898-1: every error adds 8 to the sender's counter and 1 to the receiver's. At 256 the sender goes bus
        # off, which empties its queue.
        *_, last, sender, receiver = str(failure.value).split("\n")
        assert last.endswith("can0 20000040#0000000000000000  bus off")
        assert sender == "can0 is off (transmit count 256, receive count 0): sent 1, done 0, waiting 0, lost 1"
        assert receiver == "can1 is active (transmit count 0, receive count 32): sent 0, done 0, waiting 0, lost 0"


def test_a_frame_that_waits_is_shown():
    with Server("can0,can1", pace_ms=3000, observe="can1") as server, server.bus("can0") as can0:
        can0.send_many([message(1), message(2)])
        with pytest.raises(AssertionError, match=r"\ncan0 is active .*: sent 2, done ., waiting ., lost 0$"):
            server.expect(id=3, within=0.05)


def test_a_failure_without_a_place_for_a_session_shows_what_is_known():
    with Server("can0,can1", observe="can1") as server, contextlib.ExitStack() as buses:
        with contextlib.suppress(can.CanInitializationError):
            while True:
                buses.enter_context(server.bus("can0"))
        with pytest.raises(AssertionError, match="^no frame 001 within 0.05 seconds\nno frame was seen$"):
            server.expect(id=1, within=0.05)


@pytest.mark.parametrize("last", ["(0000000000.000003) can0 200000", "(0000000000.000003) can0 20000080#000", "(0"])
def test_the_end_of_a_log(tmp_path, last):
    log = tmp_path / "can0.log"
    lines = ["(0000000000.000001) can0 123#0102", "(0000000000.000002) can0 20000040#0000000000000000"]
    log.write_text("\n".join([*lines, last]))
    assert end_of_log(log) == [
        f"{log} ends, each frame with its sender:",
        f"  {lines[0]}",
        f"  {lines[1]}  bus off",
        f"  {last}",
    ]


def test_nothing_was_seen(observed):
    with pytest.raises(AssertionError, match="^no frame within 0.05 seconds\nno frame was seen$"):
        observed.expect(within=0.05)


def test_what_can_be_observed(observed):
    with Server("can0,can1", observe=()) as server, pytest.raises(ValueError, match="observe="):
        server.expect(id=1)
    with pytest.raises(ValueError, match="channel is one of the observed, can1, not 'can0'"):
        observed.expect(id=1, channel="can0")
    with pytest.raises(ValueError, match="can9"):
        Server("can0", observe="can9")


def test_all_interfaces_are_observed_without_a_word(pair, server):
    """A frame that several interfaces receive counts once. Its channel is the first interface that received it from
    another interface."""
    can0, can1 = pair
    can0.send(message(0x123, [1]))
    can1.send(message(0x123, [2]))
    can0.send(message(0x124))
    # Each interface's frames are counted separately, and include the frames that the interface sent itself.
    assert server.expect(id=0x123, channel="can0", within=WAIT).data == b"\1"
    assert server.expect(id=0x123, channel="can0", within=WAIT).data == b"\2"
    assert server.expect(id=0x123, channel="can1", within=0).data == b"\1"
    found = server.expect(id=0x124, within=WAIT)
    assert (found.arbitration_id, found.channel) == (0x124, "can1")
    server.expect_no_frame(within=0.05)
    server.expect_no_frame(within=0, channel="can0")


def test_each_frame_is_found_once(server, pair):
    can0, can1 = pair
    for number in range(100):
        (can0, can1)[number % 2].send(message(0x100, [number]))
        assert server.expect(id=0x100, within=WAIT).data[0] == number
    server.expect_no_frame(within=0)


def test_a_frame_is_seen_though_its_receivers_miss_it():
    """An error passive receiver can't destroy the frame in which it sees an error (ISO 11898-1). Only this receiver
    misses the frame."""
    with Server("can0,can1,can2") as server, server.bus("can0") as can0, server.bus("can1") as can1:
        server.inject(Faults().next(17, sender="can1").destroyed().next(1, sender="can0").local("crc", ["can1"]))
        can1.send(message(0x700))
        server.expect_state("can1", "passive", within=WAIT)
        can0.send(message(0x123))
        assert server.expect(id=0x123, channel="can2", within=WAIT)
        server.expect(id=0x123, channel="can0", within=0)
        server.expect_no_frame(id=0x123, channel="can1", within=0)


@pytest.mark.parametrize("auto_restart", [1, 5])
def test_short_bus_offs_are_never_missed(auto_restart):
    with Server("can0,can1", pace_ms=0, auto_restart=auto_restart) as server, server.bus("can0") as can0:
        for number in range(1, 31):
            server.inject(Faults().next(32, sender="can0").destroyed())
            can0.send(message(0x123))
            # Attempts to send frames from can1 continue, so that can0 restarts at once.
            server.wait_for(lambda: can0.stats().lost == number, WAIT)
            assert server.expect_state("can0", "off", within=WAIT).tec in (0, 256)
            assert server.expect_state("can0", "active", within=WAIT) == ("active", 0, 0)


def test_a_state_that_was_before_does_not_count(server, pair):
    """After bus off, an earlier `active` state does not count, and every later state does."""
    server.inject(Faults().next(32, sender="can0").destroyed())
    pair[0].send(message(1))
    server.wait_for(lambda: server.state("can0") == "off", WAIT)
    with pytest.raises(AssertionError, match="and was not active within 0 seconds: it was active, then warning, then"):
        server.expect_state("can0", "active", within=0)
    for state in ("warning", "passive", "off", "off"):
        assert server.expect_state("can0", state, within=0)
    pair[0].restart()
    server.expect_state("can0", "active", within=0)
    with pytest.raises(AssertionError, match="and was not off within 0 seconds\n"):
        server.expect_state("can0", "off", within=0)


def test_a_failure_names_what_was_seen_just_before(server, pair):
    """A failure message shows all frames so far, even if no earlier call has looked for frames."""
    pair[0].send(message(0x124))
    server.wait_for(lambda: pair[0].stats().done, WAIT)
    with pytest.raises(
        AssertionError, match=r"the last frames that were seen, each with its receiver:\n  \(\d+\.\d+\) can1 124#$"
    ):
        server.expect_state("can0", "off", within=0)


def test_more_frames_than_a_socket_holds_are_seen(tmp_path):
    """A Unix socket has room for about 4,000 frames. More frames than that are observed, although no call expects a
    frame while they arrive."""
    options = {"pace_ms": 0, "txqueue": 64, "rxqueue": 1024, "listen": str(tmp_path / "socket")}
    with Server("can0,can1", **options) as server, server.bus("can0") as can0:
        can0.send_many([message(number % 256, number.to_bytes(2, "big")) for number in range(12_000)], 10 * WAIT)
        server.expect(id=0xFF, data=(511).to_bytes(2, "big"), within=WAIT)
        server.expect_no_frame(id=0x7FF, within=0)
        assert server.expect(id=11_999 % 256, data=(11_999).to_bytes(2, "big"), within=WAIT)


def test_what_nobody_expects_is_kept_piece_by_piece(monkeypatch):
    # The session keeps 7 frames. The rest are passed on in groups of 2, in the order of the bus.
    monkeypatch.setattr("canbusd._expect.observer.MOST_UNREAD_FRAMES", 7)
    monkeypatch.setattr("canbusd._expect.observer.FRAMES_AT_ONCE", 2)
    with Server("can0,can1", txqueue=100) as server, server.bus("can0") as can0:
        can0.send_many([message(number) for number in range(100)])
        received = server._observing().received
        server.wait_for(lambda: received.arrived == 93, timeout=WAIT)
        for number in range(100):
            server.expect(id=number, within=WAIT)
        assert received.arrived == 100


def test_frames_that_were_dropped_are_no_frames_that_did_not_come(monkeypatch):
    with Server("can0,can1", pace_ms=0, rxqueue=1) as server, server.bus("can0") as can0:
        stats = server._observing().session("can1").stats
        monkeypatch.setattr(server._observing().session("can1"), "stats", lambda: stats()._replace(dropped=3))
        lost = r"is not known: 3 frames were dropped at can1 \(rxqueue\)"
        with pytest.raises(AssertionError, match=f"^whether there was no frame 001 {lost}"):
            server.expect_no_frame(id=1, within=0)
        can0.send(message(2))
        server.expect(id=2, within=WAIT)
        # The dropped frames came before the frame with identifier 2, which has been taken.
        server.expect_no_frame(id=1, within=0)


def test_expecting_from_now(server, pair):
    pair[0].send(message(1))
    server.wait_for(lambda: pair[0].stats().done, WAIT)
    server.expect_from_now()
    server.expect_no_frame(within=0)
    pair[0].send(message(2))
    assert server.expect(within=WAIT).arbitration_id == 2


def expectations(server, within):
    """Returns functions that call each expectation once, with this timeout in seconds."""
    return [
        lambda: server.expect(1, within=within),
        lambda: server.expect_no_frame(1, within=within),
        lambda: server.expect_cyclic(1, 0.01, within=within),
        lambda: server.expect_sequence(1, within=within),
        lambda: server.expect_no_change(1, within=within),
        lambda: server.expect_state("can0", "active", within=within),
    ]


@pytest.mark.parametrize("within", [-1, float("nan")])
def test_nobody_waits_a_negative_time(server, within):
    for call in expectations(server, within):
        with pytest.raises(ValueError, match=f"^within is a number of seconds, 0 or more, not {within}$"):
            call()


def test_the_other_identifier_of_the_same_number(server, pair):
    """can.Message(arbitration_id=0x123) has a 29-bit identifier. The failure message points this out."""
    pair[0].send(can.Message(arbitration_id=0x123, data=[1]))
    server.wait_for(lambda: pair[0].stats().done, WAIT)
    came = "\n00000123 with 29 bits came: give can.Message is_extended_id=False, or expect is_extended_id=True\n"
    for call in (
        lambda: server.expect(0x123, within=0),
        lambda: server.expect_cyclic(0x123, 0.01, within=0),
        lambda: server.expect_sequence(0x123, within=0),
        lambda: server.expect_no_change(0x123, within=0),
    ):
        with pytest.raises(AssertionError, match=came):
            call()
    with pytest.raises(AssertionError) as failure:
        server.expect(0x124, within=0)
    assert "with 29 bits came" not in str(failure.value)


def test_a_failure_says_where_it_was_expected_and_with_how_many_bits():
    with Server("can0,can1", "body,door") as server, server.bus("can0") as can0:
        can0.send(message(0x101))
        server.wait_for(lambda: can0.stats().done, WAIT)
        with pytest.raises(AssertionError, match="^no frame 101 at body within 0 seconds\n"):
            server.expect(0x101, channel="body", within=0)
        with pytest.raises(AssertionError, match="^no frame 101 at body every 1 second, give or take 0.1: came 0 "):
            server.expect_cyclic(0x101, 1, channel="body", within=0)
        with pytest.raises(AssertionError, match="^no frame 102 after frame 101 at can1 within 0 seconds"):
            server.expect_sequence(0x101, 0x102, channel="can1", within=0)
        with pytest.raises(AssertionError, match="^no frame 00000101 with 29 bits within 0 seconds\n"):
            server.expect(0x101, is_extended_id=True, within=0)


@pytest.mark.parametrize("wrong", ["0x123", 1.5, True])
def test_an_identifier_is_a_number(server, wrong):
    with pytest.raises(ValueError, match=f"^id is a number, .*, or the name of a message, not {wrong!r}$"):
        server.expect(id=wrong)


def test_many_interfaces_have_one_observer_a_bus():
    names = [f"can{number}" for number in range(20)]
    with Server(",".join(names[:10]), ",".join(names[10:])) as server, server.bus("can19") as bus:
        bus.send(message(1))
        assert server.expect(id=1, within=WAIT).channel == "can10"
        assert server.expect_state("can19", "active").tec == 0


def test_waiting_for_something(observed, can0):
    can0.send(message(1))
    assert observed.wait_for(lambda: can0.stats().done, WAIT) == 1
    with pytest.raises(TimeoutError, match="the condition was not true within 0.05 seconds"):
        observed.wait_for(lambda: can0.stats().done == 2, 0.05)


def test_an_observed_server_ends_in_order(observed, can0):
    can0.send(message(1))
    observed.expect(id=1, within=WAIT)
    can0.shutdown()
    assert observed.audit()["can0"].startswith("ok ")
    assert [item.fate for item in observed.record().items] == ["taken"]


def test_a_killed_server():
    with Server("can0,can1", observe="can1") as server:
        server.kill()
        with pytest.raises(ServerError, match="^the server was killed: nothing can be expected of it$"):
            server.expect(id=1)
