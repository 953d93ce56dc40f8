"""Gaps, sequences and changes of frames. These tests define the frames themselves, so all times are exact."""

import pytest

from canbusd._expect.cyclic_checks import first_change, follow, gap_words, gaps_of, wrong_gaps
from canbusd._expect.frame_matcher import Wanted, wanted_of
from canbusd._expect.received_frames import Received
from canbusd.signals import DatabaseError, load_database
from test_signals import CAR, DRIVES
from canbusd.frames import Frame


def frames(*lines):
    """Returns received frames from lines such as `0.100000 123 1122`: time, identifier and data. The word `error` may
    precede the time."""
    received = Received([["a"]], ["a"])
    for line in lines:
        *kind, moment, identifier, data = line.split(" ")
        received.add("a", f"< {''.join(kind) or 'frame'} {identifier} {moment} {data}")
    return list(received.untaken())


def words(seen):
    return str(seen.frame)


@pytest.fixture
def car():
    pytest.importorskip("canmatrix")
    return load_database(CAR)


def test_gaps_are_exact():
    gaps = gaps_of([1_000_000, 1_110_000, 1_200_000, 1_310_001, 1_399_999, 1_899_999])
    assert [gap.length for gap in gaps] == [110_000, 90_000, 110_001, 89_998, 500_000]
    wrong = wrong_gaps(gaps, 100_000, 10_000)
    assert [gap_words(gap, 100_000) for gap in wrong] == [
        "gap 3: 0.110001 s, 0.010001 too long, from (0000000001.200000) to (0000000001.310001)",
        "gap 4: 0.089998 s, 0.010002 too short, from (0000000001.310001) to (0000000001.399999)",
        "gap 5: 0.500000 s, 0.400000 too long, from (0000000001.399999) to (0000000001.899999)",
    ]
    assert wrong_gaps(gaps[:2], 100_000, 10_000) == []
    assert [gap.number for gap in wrong_gaps(gaps[:2], 100_000, 9_999)] == [1, 2]
    assert gaps_of([]) == gaps_of([5]) == []


LINES = ["1.0 100 01", "1.1 101 ", "1.2 100 02", "1.3 700 ", "1.4 102 ", "1.5 101 "]


@pytest.mark.parametrize(
    "steps, between, found, intruder",
    [
        ([0x100, 0x101, 0x102], None, ["100#01", "101#", "102#"], None),
        ([0x100, 0x102], None, ["100#01", "102#"], None),
        ([0x102, 0x101], None, ["102#", "101#"], None),
        ([0x101, 0x100, 0x101], None, ["101#", "100#02", "101#"], None),
        # There are too few frames, or they are in the wrong order.
        ([0x102, 0x100], None, ["102#"], None),
        ([0x103], None, [], None),
        # A forbidden frame counts only between the first and the last step.
        ([0x100, 0x101], (), ["100#01", "101#"], None),
        ([0x101, 0x100, 0x700], (), ["101#", "100#02", "700#"], None),
        ([0x100, 0x102], (), ["100#01"], "101#"),
        ([0x100, 0x102], (0x101,), ["100#01"], "100#02"),
        ([0x100, 0x102], (0x101, {"id": 0x100, "data": b"\2"}), ["100#01"], "700#"),
        ([0x100, 0x102], (0x101, 0x100, 0x700), ["100#01", "102#"], None),
        ([{"id": 0x100, "data": b"\2"}, 0x101], None, ["100#02", "101#"], None),
    ],
)
def test_sequences(steps, between, found, intruder):
    allowed = None if between is None else [wanted_of(step, None) for step in between]
    followed = follow(frames(*LINES), [wanted_of(step, None) for step in steps], allowed)
    assert [words(seen) for seen in followed.found] == found
    assert (followed.intruder and words(followed.intruder)) == intruder


def test_error_message_frames_may_come_between():
    seen = frames("1.0 100 ", "error 1.1 204 0008000000006000", "1.2 101 ")
    assert len(follow(seen, [Wanted(0x100), Wanted(0x101)], ()).found) == 2
    assert len(follow(seen, [Wanted(0x100), Wanted(0x204, is_error_frame=True)], ()).found) == 2


def changes(before, *lines, **wanted):
    one = Wanted(**wanted)
    change = first_change(before, frames(*lines), lambda seen: one.content(seen.frame))
    return change and (change.before, change.after, words(change.seen))


def test_the_first_change():
    lines = ["1.0 100 01", "1.1 101 05", "1.2 100 01", "1.3 100 02", "1.4 100 03"]
    assert changes(None, *lines, id=0x100) == ("01", "02", "100#02")
    assert changes("00", *lines, id=0x100) == ("00", "01", "100#01")
    assert changes(None, *lines[:3], id=0x100) is changes(None, *lines, id=0x102) is None
    assert changes(None, "1.0 100 01", "1.1 100 ", id=0x100) == ("01", "no byte", "100#")


def test_the_first_change_of_a_signal(car):
    """The signal gear is the low three bits of byte 3. Changes in the message's other bits do not count."""
    lines = ["1.0 123 0000000300000000", "1.1 123 1111110311110000", "1.2 123 0000000200000000"]
    assert changes(None, *lines, signal="gear", database=car)[:2] == ("Drive", "Neutral")
    assert changes(None, *lines[:2], signal="Engine.gear", database=car) is None


# DRIVES was computed by hand in test_signals: speed 120.5, temperature 20, gear Drive, torque -10.
@pytest.mark.parametrize(
    "conditions, is_so",
    [
        ({}, True),
        ({"above": 120.4}, True),
        ({"above": 120.5}, False),
        ({"below": 120.6}, True),
        ({"below": 120.5}, False),
        ({"equals": 120.5}, True),
        ({"equals": 120.6}, False),
        ({"between": (120, 121)}, True),
        ({"between": (120.5, 120.5)}, True),
        ({"between": (121, 122)}, False),
        ({"above": 100, "below": 110}, False),
    ],
)
def test_conditions_of_a_signal(car, conditions, is_so):
    for name in ("speed", "Engine.speed"):
        assert Wanted(signal=name, database=car, **conditions).matches(Frame.parse(DRIVES)) is is_so
    assert not Wanted(signal="speed", database=car, **conditions).matches(Frame.parse("124#B5043C03FFEC0000"))


def test_values_with_names(car):
    frame = Frame.parse(DRIVES)
    assert Wanted(signal="gear", equals="Drive", database=car).matches(frame)
    assert not Wanted(signal="gear", equals="Park", database=car).matches(frame)
    # A value that has a name is neither above nor below a number.
    assert not Wanted(signal="gear", above=0, database=car).matches(frame)


def test_a_signal_that_is_not_there_with_this_multiplexer(car):
    wanted = Wanted(signal="right", database=car)
    assert wanted.matches(Frame.parse("200#0107")) and not wanted.matches(Frame.parse("200#0007"))
    assert wanted.content(Frame.parse("200#0107")) == 14


def test_the_name_of_a_message(car):
    assert Wanted("Engine", database=car).matches(Frame.parse(DRIVES))
    extended = Wanted("Request", database=car)
    assert extended.matches(Frame.parse("18DAF110#000000")) and not extended.matches(Frame.parse("123#"))


@pytest.mark.parametrize(
    "arguments, text",
    [
        ({"id": 0x123}, "frame 123"),
        ({"id": 0x123, "data": b"\x11\x22"}, "frame 123 with data 11 22"),
        ({"id": 0x800, "data": b""}, "frame 00000800 with data of no byte"),
        ({}, "frame"),
        ({"id": 0x101, "channel": "body"}, "frame 101 at body"),
        ({"id": 0x101, "is_extended_id": True}, "frame 00000101 with 29 bits"),
        ({"id": 0x101, "is_extended_id": False, "data": b"\1"}, "frame 101 with 11 bits and data 01"),
        ({"id": 0x040, "is_error_frame": True}, "error message frame 040"),
        ({"signal": "speed", "below": 5, "channel": "body"}, "signal speed below 5 at body"),
        ({"id": "Engine"}, "frame Engine"),
        ({"signal": "speed", "above": 2900}, "signal speed above 2900"),
        ({"signal": "speed", "above": 1, "below": 2.5}, "signal speed above 1 and below 2.5"),
        ({"signal": "speed", "between": (1, 2)}, "signal speed between 1 and 2"),
        ({"signal": "speed"}, "signal speed"),
        ({"signal": "gear", "equals": "Drive", "id": 0x123}, "signal gear equals Drive in frame 123"),
    ],
)
def test_what_is_looked_for_in_words(car, arguments, text):
    assert str(Wanted(**arguments, database=car)) == text


@pytest.mark.parametrize(
    "arguments, text",
    [
        ({"id": "0x123"}, "id is a number, 0x123, or the name of a message, not '0x123'"),
        ({"id": "Engine"}, "id is a number, such as 0x123, not 'Engine'; names .* need a database"),
        ({"id": 1.5}, "id is a number, such as 0x123, or the name of a message, not 1.5"),
        ({"id": True}, "id is a number, .* not True"),
        # Identifiers in messages are hexadecimal, so a string of digits is refused.
        ({"id": "101"}, "id is a number, 0x101, or the name of a message, not '101'"),
        ({"id": "7FE"}, "id is a number, 0x7FE, or the name of a message, not '7FE'"),
        ({"id": 0x1FFFFFFFF}, "id is an identifier of 11 or 29 bits, from 0 to 1FFFFFFF, not 0x1ffffffff"),
        ({"id": 0x20000000}, "id is an identifier of 11 or 29 bits"),
        ({"id": -1}, "id is an identifier of 11 or 29 bits, from 0 to 1FFFFFFF, not -0x1"),
        (
            {"id": 0x800, "is_extended_id": False},
            "id 800 has 29 bits: above 7FF there is none with is_extended_id=False",
        ),
        ({"signal": "speed"}, "signal 'speed': names of messages and signals need a database"),
        ({"above": 5}, "above is of a signal"),
        ({"id": 1, "equals": 0}, "equals is of a signal"),
    ],
)
def test_what_can_not_be_looked_for(arguments, text):
    with pytest.raises(ValueError, match=f"^{text}"):
        Wanted(**arguments)


def test_names_that_the_database_does_not_have(car):
    with pytest.raises(DatabaseError, match="^no message Motor; there are Engine, Pages, Request"):
        Wanted("Motor", database=car)
    with pytest.raises(DatabaseError, match="^no signal Engine.sped; there are speed"):
        Wanted(signal="Engine.sped", database=car)
    # The messages are Engine, Pages and Request. The most similar signal name is listed first.
    others = "temperature, gear, torque, page, left, right, service"
    with pytest.raises(DatabaseError, match=f"^no signal sped; there are speed, {others}$"):
        Wanted(signal="sped", database=car)
    with pytest.raises(DatabaseError, match="^no signal Pages.speed; there are page, left, right$"):
        Wanted(0x200, signal="speed", database=car)
    with pytest.raises(DatabaseError, match="^124 is not the identifier of any message of the database$"):
        Wanted(0x124, signal="speed", database=car)


def test_many_signals_are_not_all_named(tmp_path):
    lines = [f' SG_ s{number:02} : {number}|1@1+ (1,0) [0|1] "" ECU' for number in range(40)]
    path = tmp_path / "many.dbc"
    path.write_text("\n".join(['VERSION ""', "", "BU_: ECU", "", "BO_ 1 M: 8 ECU", *lines, ""]))
    with pytest.raises(DatabaseError, match="^no signal x17; there are s17, .* and 28 more$") as fault:
        Wanted(signal="x17", database=load_database(path))
    assert fault.value.signal == "x17" and str(fault.value).count(", ") == 11


@pytest.mark.parametrize(
    "arguments, text",
    [
        ({"between": 5}, "between has two ends, such as (0, 100), not 5"),
        ({"between": (100, 0)}, "between has its lower end first: (0, 100), not (100, 0)"),
        ({"between": (0, float("nan"))}, "each end of between is a number, not nan"),
        ({"above": float("nan")}, "above is a number, not nan"),
        ({"below": "Drive"}, "below is a number, not 'Drive'"),
        ({"equals": "fast"}, "speed is a number, not 'fast'"),
        ({"equals": float("nan")}, "speed is a number, not nan"),
        (
            {"signal": "gear", "equals": "Driv"},
            "gear is a number, or one of Park, Reverse, Neutral, Drive, not 'Driv'",
        ),
        ({"signal": "gear", "equals": 3}, "gear has a name for 3: equals='Drive'"),
    ],
)
def test_what_can_never_be(car, arguments, text):
    with pytest.raises(ValueError) as fault:
        Wanted(**{"signal": "speed", "database": car, **arguments})
    assert str(fault.value) == text


def test_what_may_be_though_it_is_odd(car):
    """A limit outside the signal's range, a value without a name, and a number in a string are allowed."""
    assert not Wanted(signal="speed", above=99999, database=car).matches(Frame.parse(DRIVES))
    assert Wanted(signal="gear", equals=6, database=car).matches(Frame.parse("123#0000000600000000"))
    assert Wanted(signal="speed", equals="120.50", database=car).matches(Frame.parse(DRIVES))


@pytest.mark.parametrize(
    "arguments, text, hint",
    [
        (
            {"id": 0x123},
            "00000123#01",
            "00000123 with 29 bits came: give can.Message is_extended_id=False, or expect is_extended_id=True",
        ),
        (
            {"id": 0x123, "is_extended_id": True},
            "123#01",
            "123 with 11 bits came: give can.Message is_extended_id=True, or expect is_extended_id=False",
        ),
        ({"id": 0x123}, "123#01", ""),
        ({"id": 0x123}, "00000124#", ""),
        ({}, "00000123#", ""),
    ],
)
def test_the_other_identifier_of_the_same_number(arguments, text, hint):
    assert Wanted(**arguments).hint(Frame.parse(text)) == hint


def test_the_bits_of_a_message_are_those_of_the_file(car):
    came = "00000123 with 29 bits came: give can.Message is_extended_id=False"
    assert Wanted("Engine", database=car).hint(Frame.parse("00000123#")) == came
    with pytest.raises(ValueError, match="^is_extended_id=True: the database has 11 bits for this message$"):
        Wanted("Engine", is_extended_id=True, database=car)
