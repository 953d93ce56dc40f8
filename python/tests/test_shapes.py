"""Signal shapes. The values follow the definitions: on a bench at exact times, and on a server as checked by
expectations."""

import math

import pytest

from canbusd import shapes
from canbusd.bench import Bench
from canbusd.server import Server
from canbusd.signals import DatabaseError, load_database
from common import WAIT

pytest.importorskip("canmatrix")

DBC = """VERSION ""
BU_: Engine ECU
BO_ 256 EngineData: 6 Engine
 SG_ EngineSpeed : 0|16@1+ (0.25,0) [0|16000] "rpm" ECU
 SG_ Temperature : 16|8@1+ (1,-40) [-40|150] "degC" ECU
 SG_ Gear : 24|4@1+ (1,0) [0|3] "" ECU
 SG_ Free : 32|16@1- (1,0) [0|0] "" ECU
VAL_ 256 Gear 0 "Park" 1 "Drive" 2 "Reverse" ;
BA_DEF_ BO_ "GenMsgCycleTime" INT 0 65535;
BA_DEF_DEF_ "GenMsgCycleTime" 10;
"""


@pytest.fixture
def dbc(tmp_path):
    """Writes the file."""
    (tmp_path / "car.dbc").write_text(DBC)
    return tmp_path / "car.dbc"


def played(dbc, signal, *shape, until=0.1):
    """Returns the values of a signal on a bench. Frames are sent every 10 milliseconds, starting 6 milliseconds after
    the beginning.
    """
    database = load_database(dbc)
    with Bench("engine,ecu", bitrate=500_000) as bench:
        ecu = bench.open("ecu")
        with bench.rest_bus(database, interface="engine") as rest:
            for one in shape:
                rest["Engine"].play(signal, one)
            rest.run(until=until)
            return [database.decode(frame).value(signal) for frame in ecu.receive()]


#: The times at which the frames are sent, in seconds.
MOMENTS = [0.006 + 0.01 * number for number in range(10)]


def test_a_ramp(dbc):
    found = played(dbc, "EngineSpeed", shapes.ramp(800, 3200, seconds=0.06), until=0.1)
    assert (
        found == [round(4 * min(800 + 2400 * at / 0.06, 3200)) / 4 for at in MOMENTS][: len(found)] and len(found) >= 9
    )


def test_a_sine(dbc):
    found = played(dbc, "EngineSpeed", shapes.sine(1000, 3000, period=0.08))
    wanted = [2000 + 1000 * math.sin(2 * math.pi * at / 0.08) for at in MOMENTS]
    assert all(abs(one - other) <= 0.125 for one, other in zip(found, wanted)) and len(found) >= 9


def test_a_square(dbc):
    found = played(dbc, "Temperature", shapes.square(20, 90, period=0.04, duty=0.25))
    # The signal is low for 10 of 40 milliseconds.
    assert found == [20, 90, 90, 90, 20, 90, 90, 90, 20, 90][: len(found)] and len(found) >= 9


def test_toggles(dbc):
    assert played(dbc, "Gear", shapes.toggle("Park", "Drive", "Reverse"))[:5] == [
        "Park",
        "Drive",
        "Reverse",
        "Park",
        "Drive",
    ]
    assert played(dbc, "Gear", shapes.toggle("Park", "Drive", period=0.04))[:6] == [
        *("Park", "Park", "Drive", "Drive", "Park", "Park")
    ]
    assert played(dbc, "Gear", shapes.toggle())[:4] == ["Park", "Drive", "Park", "Drive"]


def test_noise(dbc):
    one, same, other = (played(dbc, "Temperature", shapes.noise(20, 90, seed=seed)) for seed in (1, 1, 2))
    assert one == same != other
    assert all(20 <= value <= 90 for value in one) and len(set(one)) > 5


def test_tables(dbc, tmp_path):
    rows = [(0.0, 800), (0.02, 900.5), (0.05, 1000)]
    assert played(dbc, "EngineSpeed", shapes.table(rows))[:7] == [800, 800, 900.5, 900.5, 900.5, 1000, 1000]
    (tmp_path / "drive.csv").write_text("time,EngineSpeed,Gear\n10.00,800,Park\n10.02,900.5,Drive\n10.05,1000,Drive\n")
    assert played(dbc, "EngineSpeed", shapes.csv(tmp_path / "drive.csv", "EngineSpeed"))[:6] == [
        *(800, 800, 900.5, 900.5, 900.5, 1000)
    ]
    assert played(dbc, "Gear", shapes.csv(tmp_path / "drive.csv", "Gear", time="time"))[:3] == ["Park", "Park", "Drive"]


def test_limits_of_the_database(dbc):
    found = played(dbc, "Temperature", shapes.ramp(seconds=0.05))
    assert found[0] == round(-40 + 190 * 0.006 / 0.05) and found[-1] == 150
    for shape in (shapes.ramp(0, 160), shapes.sine(-41, 0), shapes.table([(0, 0), (1, 151)])):
        with pytest.raises(DatabaseError, match="Temperature is from -40 to 150, not "):
            played(dbc, "Temperature", shape)
    # The DBC file gives no limits for this signal, so the limits are those of a signed 16-bit integer.
    assert played(dbc, "Free", shapes.square(period=0.04))[:3] == [-32768, -32768, 32767]


def test_what_comes_last_counts(dbc):
    assert played(dbc, "EngineSpeed", shapes.ramp(0, 100), [(0.0, 700)])[:2] == [700, 700]
    assert played(dbc, "EngineSpeed", [(0.0, 700), (0.02, 800)], shapes.table([(0, 5)]))[:4] == [5, 5, 5, 5]
    with Bench("engine,ecu", bitrate=500_000) as bench, bench.rest_bus(dbc, interface="engine") as rest:
        rest["Engine"].play("EngineSpeed", shapes.ramp(0, 100))
        rest.run(until=0.05)
        assert 0 < rest["Engine"]["EngineSpeed"] < 100
        rest["Engine"]["EngineSpeed"] = 50
        rest.run(until=0.1)
        assert rest["Engine"]["EngineSpeed"] == 50


def test_what_a_server_expects(dbc):
    with Server("engine,ecu", bitrate=500_000, database=dbc) as server:
        with server.rest_bus(dbc, interface="engine") as rest:
            # On a busy machine a server's frames are late, but the frames of a bench have exact times.
            ramp = shapes.ramp(800, 3200, seconds=1)
            rest["Engine"].play("EngineSpeed", ramp)
            values = server.expect_signal("EngineSpeed", shape=ramp, late=0.5, within=WAIT)
            assert values[0][1] < 2000 and values[-1][1] >= 1900 and values[-1][0] >= 1
            with pytest.raises(AssertionError) as fault:
                server.expect_signal("EngineSpeed", shape=ramp, late=0.01, within=0.2)
            said = str(fault.value).split("\n")[0]
            assert said.startswith(
                "signal EngineSpeed does not follow Ramp(start=800, end=3200, seconds=1.0) within 0.2 seconds: it "
            )
            assert " in place of " in said


def test_values_between(dbc):
    with Server("engine,ecu", bitrate=500_000, database=dbc) as server:
        with server.rest_bus(dbc, interface="engine") as rest:
            rest["Engine"]["EngineSpeed"] = 1000
            server.wait_for(lambda: rest.counts().accepted > 2, timeout=WAIT)
            server.expect_from_now()
            assert {value for _, value in server.expect_signal("EngineSpeed", within=0.2)} == {1000}
            server.expect_signal("EngineSpeed", between=(900, 1100), within=0.1)
            server.expect_signal("Gear", between=(0, 1), within=0.1)
            with pytest.raises(AssertionError, match="^signal EngineSpeed .*was 1000, not from 0 to 900: "):
                server.expect_signal("EngineSpeed", between=(0, 900), within=0.2)
        with server.bus("engine") as engine:
            # The value 16000.25 is above the limit in the database.
            engine.send(server.database.encode("EngineData", {}).message())
            server.expect_from_now()
            frame = server.database.encode("EngineData", {}).message()
            frame.data[:2] = (64001).to_bytes(2, "little")
            engine.send(frame)
            with pytest.raises(AssertionError, match="^signal EngineSpeed was 16000.25, not from 0 to 16000: "):
                server.expect_signal("EngineSpeed", within=WAIT)
            with pytest.raises(AssertionError, match="is not known: there was none"):
                server.expect_signal("EngineSpeed", within=0.05)


@pytest.mark.parametrize(
    "make, said",
    [
        (lambda: shapes.ramp(0, 1, seconds=0), "seconds is a number of seconds above 0, not 0"),
        (
            lambda: shapes.sine("0", 1),
            "the ends of a shape are numbers, or left out for the limits of the signal, not '0'",
        ),
        (lambda: shapes.square(0, 1, duty=1), "duty is the part of a period that is low, above 0 and below 1, not 1"),
        (lambda: shapes.table([]), r"a table has pairs of seconds and values, such as .*, not \[\]"),
        (lambda: shapes.table([(0, 1), 2]), "a table has pairs of seconds and values, such as .*, not 2"),
    ],
)
def test_words_that_are_wrong(make, said):
    with pytest.raises(ValueError, match=said):
        make()


def test_files_that_are_wrong(tmp_path):
    path = tmp_path / "a.csv"
    for text, said in [
        ("t,Speed\n0,1\n", r"a\.csv: no column Sped \(Speed\?\); there are t, Speed$"),
        ("t,Sped\n0,1\nx,2\n", r"a\.csv:3: no number of seconds and value: x,2$"),
        ("t,Sped\n0\n", r"a\.csv:2: no number of seconds and value: 0$"),
        ("t,Sped\n", r"a\.csv: no row below its heading$"),
        ("", r"a\.csv: no column Sped; there are none$"),
    ]:
        path.write_text(text)
        with pytest.raises(ValueError, match=said):
            shapes.csv(path, "Sped")
    with pytest.raises(FileNotFoundError):
        shapes.csv(tmp_path / "b.csv", "Speed")


def test_expectations_that_are_wrong(dbc):
    with Server("engine,ecu", database=dbc) as server:
        for words, said in [
            ({"shape": 5}, "shape is one of canbusd.shapes, such as ramp"),
            ({"shape": shapes.noise()}, r"Noise\(.*\) can't be expected: its values are not those of a moment"),
            ({"shape": shapes.toggle()}, "can't be expected"),
            ({"shape": shapes.ramp(), "between": (0, 1)}, "expect_signal has a shape or between, not both"),
            (
                {"shape": shapes.toggle("Park", period=1)},
                "the values of a shape that is expected are numbers, not 'Park'",
            ),
            ({"between": (1, 0)}, r"between has its lower end first: \(0, 1\), not \(1, 0\)"),
            ({"shape": shapes.ramp(), "tolerance": -1}, "tolerance is a number of seconds, 0 or more, not -1"),
        ]:
            with pytest.raises(ValueError, match=said):
                server.expect_signal("EngineSpeed", **words)
        with pytest.raises(DatabaseError, match="no signal Speed"):
            server.expect_signal("Speed")
