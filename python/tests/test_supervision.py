"""Cyclic frames, sequences and changes on a running server. test_judged.py tests the rules by which they are judged."""

import re
import threading

import pytest

from canbusd.server import Server
from canbusd.signals import DatabaseError, load_database
from common import WAIT, message
from test_report import data_of
from test_signals import CAR


@pytest.fixture
def can0(server):
    """A bus on can0 of the server."""
    with server.bus("can0") as bus:
        yield bus


@pytest.fixture
def car_server():
    """A server with a database. Any DBC library that is installed reads it."""
    pytest.importorskip("canmatrix")
    with Server("ecu,tester", database=CAR) as running, running.bus("ecu") as ecu:
        yield running, ecu


def engine(database, **values):
    return database.encode("Engine", values).message()


def test_a_cyclic_message(server, can0):
    """The returned gaps are the same as in the server's log."""
    for _ in range(5):
        can0.send(message(0x100))
        can0.send(message(0x200))
    gaps = server.expect_cyclic(0x100, period=10, tolerance=10, count=4, within=WAIT)
    # The fifth frame was the last one, and it has been taken.
    server.expect_no_frame(id=0x100, within=0)
    moments = [round(one.timestamp * 1e6) for one in server.log() if one.arbitration_id == 0x100]
    assert [round(gap * 1e6) for gap in gaps] == [after - before for before, after in zip(moments, moments[1:])]


def bit_times(identifier):
    """Returns the number of bits in a data frame without data bytes, from the start of frame to the end of the
    intermission. The CRC and the stuff bits are included, according to ISO 11898-1."""
    # These bits are the start of frame, the identifier, RTR, IDE, a reserved bit and the four bits of the DLC.
    bits, crc = f"0{identifier:011b}0000000", 0
    for bit in bits:
        crc = ((crc << 1) ^ (0x4599 if crc >> 14 != int(bit) else 0)) & 0x7FFF
    stuffed, run, last = 0, 0, ""
    for bit in f"{bits}{crc:015b}":
        run = run + 1 if bit == last else 1
        last = bit
        if run == 5:
            stuffed, run, last = stuffed + 1, 1, "10"[int(bit)]
    # The CRC is followed by its delimiter, the ACK slot, the ACK delimiter, the end of frame and the intermission.
    return len(bits) + 15 + stuffed + 1 + 2 + 7 + 3


def test_a_cyclic_message_on_a_wire():
    with Server("can0,can1", bitrate=10_000) as server, server.bus("can0") as can0:
        can0.send_many([message(0x555) for _ in range(6)])
        period = bit_times(0x555) / 10_000
        gaps = server.expect_cyclic(0x555, period, tolerance=0, count=5, within=WAIT)
        assert gaps == [period] * 5


def test_each_wrong_gap_is_reported():
    with Server("can0,can1", bitrate=10_000) as server, server.bus("can0") as can0:
        # The third and the fifth frame 555 are delayed by frames 2AA.
        can0.send_many([message(number) for number in (0x555, 0x555, 0x2AA, 0x555, 0x555, 0x2AA, 0x555)])
        period, other = bit_times(0x555), bit_times(0x2AA)
        with pytest.raises(AssertionError) as failure:
            server.expect_cyclic(0x555, period / 10_000, 0.0001, count=4, within=WAIT)
        first, *lines = str(failure.value).split("\n")
        assert first == f"no frame 555 every {period / 10_000} seconds, give or take 0.0001: 2 of 4 gaps are wrong"
        wrong = f"0.00{period + other}00 s, 0.00{other}00 too long, from"
        for line, number in zip(lines, (2, 4)):
            assert re.fullmatch(rf"  gap {number}: {wrong} \(\d+\.\d+\) to \(\d+\.\d+\)", line)
        assert lines[2] == "the last frames that were seen, each with its receiver:"


def test_cyclic_frames_that_end(server, can0):
    can0.send_many([message(0x100) for _ in range(3)])
    with pytest.raises(
        AssertionError, match=r"^no frame 100 every 5 seconds, give or take 5: came 3 of 11 times within 0.3 "
    ):
        server.expect_cyclic(0x100, 5, 5, within=0.3)
    # An expectation that fails does not take any frames.
    assert len(server.expect_cyclic(0x100, 5, 5, count=2, within=0)) == 2


def test_a_cyclic_message_of_29_bits_with_a_small_number(server, can0):
    can0.send_many([message(0x123), message(0x123, extended=True), message(0x123, extended=True)])
    assert len(server.expect_cyclic(0x123, 5, 5, count=1, within=WAIT, is_extended_id=True)) == 1


@pytest.mark.parametrize(
    "arguments, text",
    [
        ({"period": 0}, "period is a number of seconds above 0, not 0"),
        ({"period": 1, "tolerance": -1}, "tolerance is a number of seconds, 0 or more, not -1"),
        ({"period": 1, "tolerance": float("nan")}, "tolerance is a number of seconds, 0 or more, not nan"),
        ({"period": 1, "count": 0}, "count is a number of gaps, 1 or more, not 0"),
        ({"period": 1, "count": 1.5}, "count is a number of gaps, 1 or more, not 1.5"),
    ],
)
def test_what_is_not_cyclic(server, arguments, text):
    with pytest.raises(ValueError, match=f"^{text}$"):
        server.expect_cyclic(0x100, **arguments)


def test_a_sequence(server, can0):
    can0.send_many([message(0x100), message(0x7FF), message(0x101, [5]), message(0x102)])
    found = server.expect_sequence(0x100, {"id": 0x101, "data": b"\5"}, within=WAIT)
    assert [one.arbitration_id for one in found] == [0x100, 0x101]
    # Frames after the last step of the sequence are not taken.
    server.expect_sequence(0x102, within=WAIT)


def test_a_sequence_that_comes_while_it_is_waited_for(server, can0):
    timers = [threading.Timer(0.05 * (number + 1), can0.send, (message(0x100 + number),)) for number in range(3)]
    for timer in timers:
        timer.start()
    found = server.expect_sequence(0x100, 0x101, 0x102, within=WAIT, between=())
    assert [one.channel for one in found] == ["can1"] * 3
    for timer in timers:
        timer.join()


def test_a_sequence_in_another_order(server, can0):
    can0.send_many([message(0x101), message(0x100)])
    server.wait_for(lambda: can0.stats().done == 2, WAIT)
    with pytest.raises(AssertionError) as failure:
        server.expect_sequence(0x100, 0x101, within=0.05)
    first, heading, line, *_ = str(failure.value).split("\n")
    assert re.fullmatch(
        r"no frame 101 after frame 100 within 0.05 seconds: it came before, \(\d+\.\d+\) can1 101#", first
    )
    assert heading == "of the sequence came:" and re.fullmatch(r"  \(\d+\.\d+\) can1 100#", line)


def test_what_may_not_come_between(server, can0):
    can0.send_many([message(0x100), message(0x7FF), message(0x101)])
    with pytest.raises(
        AssertionError, match=r"^\(\d+\.\d+\) can1 7FF# came between frame 100 and frame 101\nof the sequence"
    ):
        server.expect_sequence(0x100, 0x101, within=WAIT, between=[0x300])
    server.expect_sequence(0x100, 0x101, within=WAIT, between=[0x7FF])


def test_a_sequence_has_steps(server):
    with pytest.raises(ValueError, match="^a sequence has steps"):
        server.expect_sequence()


def test_what_does_not_change(server, can0):
    with pytest.raises(AssertionError, match="^whether frame 100 changed is not known: there was none\n"):
        server.expect_no_change(0x100, within=0.05)
    can0.send_many([message(0x100, [1]), message(0x200, [5]), message(0x100, [1])])
    server.wait_for(lambda: can0.stats().done == 3, WAIT)
    server.expect_no_change(0x100, within=0)
    server.expect(0x100, within=0)
    can0.send(message(0x100, [2]))
    with pytest.raises(AssertionError, match=r"^frame 100 changed from 01 to 02: \(\d+\.\d+\) can1 100#02\n"):
        server.expect_no_change(0x100, within=WAIT)
    # The comparison starts with the frame that was expected last. No frame follows that one.
    server.expect(0x100, b"\2", within=WAIT)
    server.expect_no_change(0x100, within=0)
    with pytest.raises(ValueError, match="needs an id or a signal"):
        server.expect_no_change()


def test_a_change_that_comes_later(server, can0):
    can0.send(message(0x100, [1]))
    timer = threading.Timer(0.1, can0.send, (message(0x100, [2]),))
    timer.start()
    with pytest.raises(AssertionError, match="changed from 01 to 02"):
        server.expect_no_change(0x100, within=WAIT)
    timer.join()


def test_signals(car_server):
    server, ecu = car_server
    for speed in (100, 2000, 3000):
        ecu.send(engine(server.database, speed=speed, gear="Drive"))
    found = server.expect(signal="speed", above=2900, within=WAIT)
    assert server.database.decode(found).value("speed") == 3000
    with pytest.raises(AssertionError, match="^no signal gear equals Park within 0.05 seconds\n"):
        server.expect(signal="gear", equals="Park", within=0.05)
    ecu.send(engine(server.database, speed=500, gear="Reverse"))
    with pytest.raises(AssertionError, match="^no signal gear equals Park within 0.2 seconds: it was Reverse\n"):
        server.expect(signal="gear", equals="Park", within=0.2)
    with pytest.raises(AssertionError, match="^signal gear changed from Drive to Reverse: "):
        server.expect_no_change(signal="gear", within=WAIT)
    server.expect_no_frame(signal="speed", below=500, within=0)
    # A misspelt signal name is an error, even though the test would pass if no frame arrived.
    with pytest.raises(DatabaseError, match="^no signal sped; there are speed, "):
        server.expect_no_frame(signal="sped", above=0, within=0)
    with pytest.raises(DatabaseError, match="^no signal sped; there are speed, "):
        server.expect_no_change(signal="sped", within=0)
    with pytest.raises(DatabaseError, match="^no signal sped; there are speed, "):
        server.expect_sequence("Engine", {"signal": "sped"}, within=0)
    assert server.expect("Engine", within=WAIT).arbitration_id == 0x123


def test_a_failure_shows_the_signals_that_were_asked_for(car_server):
    """A failure shows the values of the signals. The speed in the frame is 2000, which is 20000 or 4E20 as a raw value.
    temperature has its initial value 25, which is 65 as a raw value, and torque and gear start at 0."""
    server, ecu = car_server
    ecu.send(engine(server.database, speed=2000))
    ecu.send(message(0x7FF))
    server.wait_for(lambda: ecu.stats().done == 2, WAIT)
    with pytest.raises(AssertionError) as failure:
        server.expect(signal="speed", above=2900, within=0)
    first, _, known, unknown = str(failure.value).split("\n")
    assert first == "no signal speed above 2900 within 0 seconds: it was 2000"
    assert known.endswith(" tester 123#204E410000000000  Engine: speed=2000 km/h")
    assert unknown.endswith(" tester 7FF#")
    with pytest.raises(AssertionError, match=r" tester 123#204E410000000000  Engine\n"):
        server.expect(id=0x7FE, within=0)


def test_cyclic_messages_and_orders_by_name(car_server):
    server, ecu = car_server
    for _ in range(3):
        ecu.send(engine(server.database))
    ecu.send(server.database.encode("Request", {"service": 34}).message())
    assert len(server.expect_cyclic("Engine", period=5, tolerance=5, count=1, within=WAIT)) == 1
    server.expect_sequence("Engine", {"signal": "Request.service", "equals": 34}, within=WAIT, between=())


def test_the_page_has_the_signals_of_the_database(car_server):
    server, ecu = car_server
    ecu.send(engine(server.database, speed=2000))
    server.expect("Engine", within=WAIT)
    header, _ = data_of(server.report().read_text(encoding="utf-8"))
    assert list(header["messages"].values()) == ["Engine"]
    assert [*header["signals"].values()][0][0] == ["speed", 2000, "km/h"]


def test_a_database_that_is_loaded():
    pytest.importorskip("canmatrix")
    database = load_database(CAR)
    with Server("ecu,tester", database=database) as server:
        assert server.database is database
    with pytest.raises(OSError):
        Server("ecu,tester", database="nowhere.dbc")
