"""Signals by name: frames are encoded and decoded with a DBC file, with every library and in every file format. The
expected bytes were computed by hand."""

import subprocess
import sys
from pathlib import Path

import pytest

from canbusd._page.report import page
from canbusd.bench import Bench
from canbusd.commands.watch import Watcher
from canbusd.frames import Frame
from canbusd.signals import HOW_TO_GET, DatabaseError, load_database
from test_commands import call, dumped, dumping
from test_report import data_of

CAR = Path(__file__).with_name("car.dbc")
LIBRARIES = {"cantools": "cantools is not installed (pip has it, Debian 12 does not)", "canmatrix": "no canmatrix"}
# speed is 1205 = 04B5, least significant byte first. temperature is 20 + 40 = 3C, gear is 3, and torque is -20 = FFEC,
# most significant byte first.
DRIVES = "123#B5043C03FFEC0000"


@pytest.fixture(params=LIBRARIES)
def library(request):
    """Each installed library."""
    pytest.importorskip(request.param, reason=LIBRARIES[request.param])
    return request.param


@pytest.fixture
def car(library):
    """The database from the file car.dbc."""
    return load_database(CAR, library=library)


def decoded(database, text):
    """Returns the decoded frame as a string, or None."""
    found = database.decode(Frame.parse(text))
    return None if found is None else str(found)


def test_what_a_frame_says(car):
    found = car.decode(Frame.parse(DRIVES))
    assert found.message == "Engine"
    assert found.signals == (
        ("speed", 120.5, "km/h"),
        ("temperature", 20, "degC"),
        ("gear", "Drive", ""),
        ("torque", -10, "Nm"),
    )
    assert [type(signal.value) for signal in found.signals] == [float, int, str, int]
    assert str(found) == "Engine: speed=120.5 km/h, temperature=20 degC, gear=Drive, torque=-10 Nm"
    # This value of the signal gear has no name.
    assert decoded(car, "123#0000000600000000").endswith("gear=6, torque=0 Nm")


def test_the_value_of_a_signal(car):
    found = car.decode(Frame.parse(DRIVES))
    assert (found.value("speed"), found.value("gear")) == (120.5, "Drive")
    with pytest.raises(DatabaseError, match="^no signal right in Pages: page=0, left=5$"):
        car.decode(Frame.parse("200#0005")).value("right")
    with pytest.raises(DatabaseError, match="^no signal speed in Engine: 2 of 8 bytes$"):
        car.decode(Frame.parse("123#B504")).value("speed")


def test_signals_of_one_value_of_a_multiplexer(car):
    assert decoded(car, "200#0005") == "Pages: page=0, left=5"
    assert decoded(car, "200#0105") == "Pages: page=1, right=10 %"
    assert decoded(car, "200#0205") == "Pages: page=2"


def test_frames_that_the_file_does_not_know(car):
    assert decoded(car, "18DAF110#220000") == "Request: service=34"
    assert [decoded(car, text) for text in ("00000123#0000000000000000", "123#R8", "20000040#0000000000000000")] == [
        None
    ] * 3
    assert decoded(car, "123#B504") == "Engine: 2 of 8 bytes"


def test_the_frame_of_signals(car):
    values = {"speed": "120.5", "temperature": 20, "gear": "Drive", "torque": -10.0}
    assert str(car.encode("Engine", values)) == DRIVES
    # If no value is given for a signal, its initial value is used: 65 for temperature.
    assert str(car.encode("Engine", {"gear": 1})) == "123#0000410100000000"
    assert str(car.encode("Pages", {"page": 1, "right": "10"})) == "200#0105"
    assert str(car.encode("Request", {"service": "0x22"})) == "18DAF110#220000"


@pytest.mark.parametrize(
    "message, values, said",
    [
        ("Motor", {}, "no message Motor; there are Engine, Pages, Request"),
        ("Engine", {"sped": 1}, "no signal Engine.sped; there are speed, temperature, gear, torque"),
        ("Engine", {"gear": "Fast"}, "Engine.gear is a number, or one of Park, Reverse, Neutral, Drive, not 'Fast'"),
        ("Engine", {"speed": "fast"}, "Engine.speed is a number, not 'fast'"),
        ("Pages", {"page": 0, "right": 2}, "Pages.right is not there with this multiplexer"),
    ],
)
def test_signals_that_are_none(car, message, values, said):
    with pytest.raises(DatabaseError) as fault:
        car.encode(message, values)
    assert str(fault.value) == said


def test_a_value_out_of_range(car):
    with pytest.raises(DatabaseError, match="Engine.*temperature"):
        car.encode("Engine", {"temperature": 216})


# canmatrix converts the DBC file to this format. In ARXML, messages get other names, and units and signs are lost.
@pytest.mark.parametrize(
    "ending, line",
    [
        ("kcd", "Engine: speed=120.5 km/h, temperature=20 degC, gear=Drive, torque=-10 Nm"),
        ("arxml", "FRAME_Engine: speed=120.5, temperature=20, gear=Drive, torque=32758"),
    ],
)
def test_other_formats(library, ending, line, tmp_path):
    formats = pytest.importorskip("canmatrix.formats", reason="no canmatrix, which converts the file")
    path = tmp_path / f"car.{ending}"
    formats.dumpp(formats.loadp(str(CAR)), str(path))
    assert decoded(load_database(path, library=library), DRIVES) == line


def test_files_that_are_none(library, tmp_path):
    with pytest.raises(FileNotFoundError):
        load_database(tmp_path / "car.dbc", library=library)
    path = tmp_path / "car.xyz"
    path.write_bytes(b"\0\1")
    with pytest.raises(DatabaseError, match=f"car.xyz: {library} can't read it: "):
        load_database(path, library=library)


def test_no_library(tmp_path):
    program = "import sys; sys.modules.update(cantools=None, canmatrix=None)\nfrom canbusd.__main__ import main\nmain(sys.argv[1:])"
    words = ["dump", "--dbc", CAR, "can0"]
    done = subprocess.run([sys.executable, "-c", program, *words], capture_output=True, text=True, check=False)
    assert done.returncode == 1
    assert done.stderr == f"canbusd dump: signals need cantools or canmatrix: {HOW_TO_GET}\n"


def test_sending_and_dumping(server, library):
    with server.bus("can0") as can0, dumping(server, can0, "--dbc", CAR, "can1") as dump:
        sent = ["speed=120.5", "temperature=20", "gear=Drive", "torque=-10"]
        words = [*(f"Engine.{signal}" for signal in sent), "Engine.gear=1", "Pages.page=1", "124#"]
        assert call("send", "--dbc", CAR, "can0", *words, server=server) == (0, "", "")
        lines = [line for line in dumped(dump, can0) if line.startswith("\t") or " 124 " in line]
    assert lines == [
        "\tEngine: speed=120.5 km/h, temperature=20 degC, gear=Drive, torque=-10 Nm\n",
        "\tEngine: speed=0 km/h, temperature=25 degC, gear=Reverse, torque=0 Nm\n",
        "\tPages: page=1, right=0 %\n",
        "  can1  124   [0]\n",
    ]


def test_words_that_do_not_go(server, library):
    status, _, said = call("send", "can0", "Engine.speed=1", server=server)
    assert (status, said) == (1, "canbusd send: Engine.speed: the names of signals need --dbc FILE\n")
    status, _, said = call("dump", "-L", "--dbc", CAR, "can0", server=server)
    assert (status, said) == (2, "canbusd dump: --dbc does not go with -L: a log has frames only\n")
    status, _, said = call("dump", "--dbc", "/no/such.dbc", "can0", server=server)
    assert (status, said) == (1, "canbusd dump: /no/such.dbc: No such file or directory\n")


def test_the_live_page_says_what_a_frame_is(library):
    watcher = Watcher([], None, load_database(CAR, library=library))
    assert watcher.meaning(Frame.parse("200#0005")) == "Pages: page=0, left=5"
    assert watcher.meaning(Frame.parse("20000040#0000000000000000")) == "bus off"
    assert watcher.meaning(Frame.parse("124#")) == ""


def test_the_data_of_a_page(car):
    with Bench("can0,can1") as bench:
        session = bench.open("can0")
        for text in (DRIVES, "200#", "124#", DRIVES):
            session.send(Frame.parse(text))
        bench.run()
        record = bench.record()
    header, _ = data_of(page(record.replay, record.names, "run.rec", database=car))
    place = {text: str(number) for number, text in enumerate(header["texts"])}
    assert header["messages"] == {place[DRIVES]: "Engine", place["200#"]: "Pages"}
    engine = [["speed", 120.5, "km/h"], ["temperature", 20, "degC"], ["gear", "Drive", ""], ["torque", -10, "Nm"]]
    assert header["signals"] == {place[DRIVES]: engine, place["200#"]: []}
    header, _ = data_of(page(record.replay, record.names, "run.rec"))
    assert header["messages"] == header["signals"] == {}


def test_the_command_that_makes_a_page(library, tmp_path):
    with Bench("can0,can1", out=tmp_path) as bench:
        bench.open("can0").send(Frame.parse(DRIVES))
        bench.run()
    status, written, said = call("report", "--names", "can0,can1", "--dbc", CAR, tmp_path / "can0.rec")
    assert (status, said) == (0, "")
    assert list(data_of(written)[0]["messages"].values()) == ["Engine"]
