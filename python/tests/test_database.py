"""The contents of databases: messages with their senders, timing and signals. Files that are not databases are refused.
"""

import random
from pathlib import Path

import pytest

from canbusd.bench import Bench
from canbusd.frames import Frame
from canbusd.signals import HOW_TO_GET, DatabaseError, load_database
from test_signals import LIBRARIES

REST = Path(__file__).with_name("rest.dbc")
# These values were computed by hand from the file: 3200 * 0.25 is 800, and 0 with the offset -40 is -40.
SHOWN = """\
EngineData 100 [8] from Engine, every 10 ms, NoMsgSendType
  EngineSpeed: 0 to 16000 rpm; starts as 800; for ECU, Gateway
  EngineTemp: -40 to 215 degC; starts as -40; for ECU
  Checksum: 0 to 255; starts as 0; for ECU
  Counter: 0 to 15; starts as 0; for ECU
EngineStatus 200 [2] from Engine, every 100 ms, after 35 ms, CyclicAndEvent
  State: 0=Off, 1=Cranking, 2=Running; starts as Off; for ECU
  Counter: 0 to 15; starts as 0; for ECU
GatewayPage 300 [3] from Gateway, every 20 ms, Cyclic
  Page: 0 to 255; starts as 0; for ECU; multiplexer
  Left: -16384 to 16383.5 V; starts as 0; for ECU; with Page=0
  Right: 0 to 510 %; starts as 0; for ECU; with Page=1
GatewayEvent 400 [1] from Gateway, Engine, every 50 ms, Event
  Key: 0 to 255; starts as 0; for ECU
EcuData 123 [2] from ECU, every 20 ms, NoMsgSendType
  Torque: -16384 to 16383.5 Nm; starts as 0; for Engine
Request 18DAF110 [3] from nobody, NoMsgSendType
  Service: 0 to 255; starts as 0; for ECU"""
HEAD = 'VERSION ""\n\nBU_: ECU TESTER\n\n'
MULTIPLEXERS = (
    HEAD
    + """BO_ 512 Deep: 8 ECU
 SG_ outer M : 0|8@1+ (1,0) [0|255] "" TESTER
 SG_ inner m0M : 8|8@1+ (1,0) [0|255] "" TESTER
 SG_ deep m1 : 16|8@1+ (2,-40) [0|0] "" TESTER
 SG_ wide m2 : 8|8@1+ (1,0) [0|255] "" TESTER

SG_MUL_VAL_ 512 inner outer 0-0;
SG_MUL_VAL_ 512 deep inner 1-1;
SG_MUL_VAL_ 512 wide outer 2-2, 4-6;
"""
)


@pytest.fixture(params=LIBRARIES)
def library(request):
    """Each installed library."""
    pytest.importorskip(request.param, reason=LIBRARIES[request.param])
    return request.param


@pytest.fixture
def rest(library):
    """The database from the file rest.dbc."""
    return load_database(REST, library=library)


def written(folder, text, name="wrong.dbc"):
    """Writes a database file with these contents, and returns its path."""
    path = folder / name
    path.write_text(text)
    return path


def test_all_that_a_file_says(rest):
    assert str(rest) == SHOWN
    assert rest.nodes == ["Engine", "ECU", "Gateway"]
    assert [message.name for message in rest.messages if message.is_cyclic] == [
        "EngineData",
        "EngineStatus",
        "GatewayPage",
        "EcuData",
    ]
    status = rest.message("EngineStatus")
    assert (status.cycle_time, status.start_delay, status.senders) == (0.1, 0.035, ("Engine",))
    assert status.signal("State").choices == {0: "Off", 1: "Cranking", 2: "Running"}
    with pytest.raises(DatabaseError, match="^no signal EngineStatus.Stat; there are State, Counter$"):
        status.signal("Stat")


def test_the_message_of_a_frame(rest):
    assert rest.message_of(Frame.parse("123#0000")).name == "EcuData"
    assert [rest.message_of(Frame.parse(text)) for text in ("124#00", "123#R2", "20000123#00")] == [None] * 3


def random_signals(rng):
    """Chooses random signals for a message of 8 bytes that do not overlap. Returns their lines for a DBC file, and
    their raw limits by name."""
    taken, lines, limits = set(), [], {}
    for number in range(rng.randint(1, 6)):
        size, is_little, is_signed = rng.randint(1, 20), rng.random() < 0.5, rng.random() < 0.5
        start = rng.randrange(64)
        # DBC files count bits upwards from the lowest bit, or downwards from the highest bit and then on to the next
        # byte.
        bits, bit = [], start
        for _ in range(size):
            bits.append(bit)
            bit = bit + 1 if is_little else bit + 15 if bit % 8 == 0 else bit - 1
        if max(bits) < 64 and not taken & {*bits}:
            taken.update(bits)
            form = f"{start}|{size}@{int(is_little)}{'-' if is_signed else '+'}"
            lines.append(f' SG_ s{number} : {form} (1,0) [0|0] "" TESTER')
            limits[f"s{number}"] = (-(1 << size - 1), (1 << size - 1) - 1) if is_signed else (0, (1 << size) - 1)
    return lines, limits


def test_messages_are_encoded_as_the_library_does(tmp_path):
    formats = pytest.importorskip("canmatrix.formats", reason=LIBRARIES["canmatrix"])
    rng = random.Random(7)
    for _ in range(60):
        lines, limits = random_signals(rng)
        path = written(tmp_path, HEAD + "\n".join(["BO_ 1 M: 8 ECU", *lines]) + "\n")
        database, (matrix,) = load_database(path, library="canmatrix"), formats.loadp(str(path)).values()
        for _ in range(5):
            values = {
                name: rng.choice([least, most, rng.randint(least, most)]) for name, (least, most) in limits.items()
            }
            frame = database.encode("M", values)
            assert frame.data == bytes(matrix.frames[0].signals_to_bytes(values))
            assert {signal.name: signal.value for signal in database.decode(frame).signals} == values


def test_floats(tmp_path, library):
    text = HEAD + 'BO_ 1 M: 8 ECU\n SG_ f : 0|32@1- (2,1) [0|0] "" ECU\n SG_ g : 39|32@0- (1,0) [0|0] "" ECU\n\n'
    text += "SIG_VALTYPE_ 1 f : 1;\nSIG_VALTYPE_ 1 g : 1;\n"
    database = load_database(written(tmp_path, text), library=library)
    # (4 - 1) / 2 is 1.5, which is 3FC00000 in IEEE 754. -2 is C0000000.
    frame = database.encode("M", {"f": 4, "g": -2})
    assert str(frame) == "001#0000C03FC0000000"
    assert [signal.value for signal in database.decode(frame).signals] == [4, -2]


def test_what_is_not_given_is_as_it_starts(rest):
    # 800 / 0.25 is 0C80 in hexadecimal, and the raw value of -40 is 00.
    assert str(rest.encode("EngineData", {})) == "100#800C000000000000"
    # The most significant byte is first: -1.5 / 0.5 is FFFD.
    assert str(rest.encode("EcuData", {"Torque": -1.5})) == "123#FFFD"
    # The range [0|0] means that there is no limit: -8 / 0.5 is FFF0.
    assert str(rest.encode("GatewayPage", {"Page": 0, "Left": -8})) == "300#00F0FF"


def test_multiplexers_of_multiplexers(library, tmp_path):
    deep = load_database(written(tmp_path, MULTIPLEXERS), library=library)
    # (2 + 40) / 2 is 15 in hexadecimal.
    assert str(deep.encode("Deep", {"outer": 0, "inner": 1, "deep": 2})) == "200#0001150000000000"
    assert str(deep.encode("Deep", {"outer": 5, "wide": 9})) == "200#0509000000000000"
    assert str(deep.decode(Frame.parse("200#0001150000000000"))) == "Deep: outer=0, inner=1, deep=2"
    assert str(deep.decode(Frame.parse("200#0509150000000000"))) == "Deep: outer=5, wide=9"
    with pytest.raises(DatabaseError, match="^Deep.deep is not there with this multiplexer$"):
        deep.encode("Deep", {"outer": 0, "inner": 2, "deep": 2})


@pytest.mark.parametrize(
    "ending, line",
    [
        # canmatrix writes these files. KCD and SYM have no send types, SYM has no nodes, and ARXML has no cycle times.
        ("kcd", "EngineStatus 200 [2] from Engine, every 100 ms"),
        ("sym", "EngineStatus 200 [2] from nobody, every 100 ms"),
        ("arxml", "FRAME_EngineStatus 200 [2] from Engine"),
    ],
)
def test_other_formats(library, ending, line, tmp_path):
    formats = pytest.importorskip("canmatrix.formats", reason="no canmatrix, which converts the file")
    path = tmp_path / f"rest.{ending}"
    formats.dumpp(formats.loadp(str(REST)), str(path))
    lines = str(load_database(path, library=library)).split("\n")
    assert any(one == line or one.startswith(f"{line}, spontan") for one in lines), lines


def test_fd_frames_are_filled_up(library, tmp_path):
    long = HEAD + 'BO_ 3 Long: 10 ECU\n SG_ last : 72|8@1+ (1,0) [0|0] "" TESTER\n'
    database = load_database(written(tmp_path, long), library=library)
    frame = database.encode("Long", {"last": 7})
    assert str(frame) == f"003##0{'00' * 9}070000"
    assert database.decode(frame).value("last") == 7


def test_a_message_that_no_frame_has_room_for(library, tmp_path):
    huge = HEAD + 'BO_ 3 Huge: 100 ECU\n SG_ last : 0|8@1+ (1,0) [0|0] "" TESTER\n'
    path = written(tmp_path, huge)
    with pytest.raises(DatabaseError, match=f"^{path}:[0-9]+: message Huge: data has 100 bytes"):
        load_database(path, library=library).encode("Huge", {})


@pytest.mark.parametrize(
    "text, said, signal",
    [
        ("hello\n", "{library} .*", ""),
        ("", "{library} .*", ""),
        (HEAD, "{library} finds no message in it, so it is no database", ""),
        (HEAD + 'BO_ 1 M: 8 ECU\n SG_ s : x|8@1+ (1,0) [0|0] "" ECU\n', "{library} can't read it: .*", ""),
        (HEAD + 'BO_ 1 M: 8 ECU\n SG_ s : 60|8@1+ (1,0) [0|0] "" ECU\n', ".*M.*s.*", "s"),
        (HEAD + 'BO_ 1 M: 2 ECU\n SG_ s : 8|16@0+ (1,0) [0|0] "" ECU\n', ".*M.*s.*", "s"),
        (HEAD + 'BO_ 1 M: 8 ECU\n SG_ s : 0|8@1+ (0,0) [0|0] "" ECU\n', ".*M.*s.*", "s"),
        (HEAD + "BO_ 1 M: 8 ECU\n\nBO_ 2 M: 8 ECU\n", ".*", ""),
        (HEAD + "BO_ 1 M: 8 ECU\n\nBO_ 1 N: 8 ECU\n", ".*", ""),
    ],
)
def test_what_is_no_database(library, tmp_path, text, said, signal):
    path = written(tmp_path, text)
    place = f"{path}:[0-9]+" if "BO_" in text else path
    with pytest.raises(DatabaseError, match=f"^{place}: {said.format(library=library)}$") as fault:
        load_database(path, library=library)
    assert fault.value.path == str(path)
    if signal and library == "canmatrix":
        assert (fault.value.message, fault.value.signal) == ("M", signal)


def test_where_a_wrong_line_is(tmp_path):
    pytest.importorskip("canmatrix", reason=LIBRARIES["canmatrix"])
    line = 'SG_ s : x|8@1+ (1,0) [0|0] "" ECU'
    for more in ("", 'VAL_ 1 s 0 "a" 1 "b" 2 "c" ;\n'):
        path = written(tmp_path, f"{HEAD}BO_ 1 M: 8 ECU\n{more} {line}\n")
        with pytest.raises(DatabaseError) as fault:
            load_database(path, library="canmatrix")
        assert str(fault.value) == f"{path}:{7 if more else 6}: canmatrix can't read it: {line}"


def test_a_signal_past_its_frame(tmp_path):
    pytest.importorskip("canmatrix", reason=LIBRARIES["canmatrix"])
    path = written(tmp_path, HEAD + 'BO_ 1 M: 2 ECU\n SG_ s : 12|8@1+ (1,0) [0|0] "" ECU\n')
    with pytest.raises(DatabaseError) as fault:
        load_database(path, library="canmatrix")
    assert str(fault.value) == f"{path}:6: message M: signal s has bits past the 2 bytes of its message"


def test_signals_in_each_others_way(tmp_path):
    pytest.importorskip("canmatrix", reason="cantools refuses the file")
    text = HEAD + 'BO_ 1 M: 2 ECU\n SG_ a : 0|9@1+ (1,0) [0|0] "" ECU\n SG_ b : 8|8@1+ (1,0) [0|0] "" ECU\n'
    database = load_database(written(tmp_path, text), library="canmatrix")
    # Messages with overlapping signals can be decoded, but not encoded.
    assert str(database.decode(Frame.parse("001#0003"))) == "M: a=256, b=3"
    with pytest.raises(DatabaseError, match="message M: signal b has bits that a has too"):
        database.encode("M", {"a": 1})


def test_a_file_of_the_same_messages_again(library, tmp_path):
    again = written(tmp_path, REST.read_text(), "again.dbc")
    assert len(load_database(REST, again, library=library).messages) == 6


def test_how_to_get_the_library_that_was_asked_for(monkeypatch):
    monkeypatch.setitem(__import__("sys").modules, "cantools", None)
    with pytest.raises(DatabaseError, match="^signals need cantools: pip install cantools$"):
        load_database(REST, library="cantools")
    with pytest.raises(ValueError, match="^library is one of cantools, canmatrix, not 'kcd'$"):
        load_database(REST, library="kcd")
    assert "canmatrix" in HOW_TO_GET


def test_a_frame_of_the_bench(rest):
    with Bench("can0,can1") as bench:
        sender, receiver = bench.open("can0"), bench.open("can1")
        sender.send(rest.encode("EngineStatus", {"State": "Running"}))
        bench.run()
        assert str(rest.decode(receiver.receive()[0])) == "EngineStatus: State=Running, Counter=0"
