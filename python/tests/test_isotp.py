"""ISO-TP endpoints: the frames that they send according to ISO 15765-2, and failed transfers."""

import importlib.util
import re
import sys
import threading

import pytest

import canbusd.isotp
from canbusd._isotp.segments import fault
from canbusd._process.program import ProgramNotFound, find_program
from canbusd.faults import Faults
from canbusd.isotp import IsoTpError
from canbusd.server import Server
from common import WAIT


def is_there(library):
    """Returns whether this ISO-TP library is installed."""
    if library == "canbusd":
        return True
    if library == "can-isotp":
        return importlib.util.find_spec("isotp") is not None
    try:
        return bool(find_program("canbusd-run"))
    except ProgramNotFound:
        return False


@pytest.fixture(params=["can-isotp", "canbusd-run", "canbusd"])
def library(request):
    """The ISO-TP libraries, one after another. A test is skipped if its library is not installed."""
    if not is_there(request.param):
        pytest.skip(f"no {request.param}; Debian 12 has no package of can-isotp")
    return request.param


@pytest.fixture
def car():
    """A server with an ECU and a tester."""
    with Server("ecu,tester") as running:
        yield running


@pytest.fixture
def ends(car, library):
    """The ISO-TP endpoints of the ECU and the tester."""
    with car.isotp("ecu", tx=0x7E8, rx=0x7E0, library=library) as ecu:
        with car.isotp("tester", tx=0x7E0, rx=0x7E8, library=library) as tester:
            yield ecu, tester


VIN = b"\x62\xf1\x90WVWZZZ1JZXW000001"


def test_what_is_on_the_bus(car, ends):
    ecu, tester = ends
    tester.send(b"\x22\xf1\x90")
    assert ecu.recv(timeout=WAIT) == b"\x22\xf1\x90"
    ecu.send(VIN)
    assert tester.recv(timeout=WAIT) == VIN
    assert ecu.recv(timeout=0) is None
    log = [(message.channel, f"{message.arbitration_id:X}", bytes(message.data)) for message in car.log()]
    # The tester sends a single frame. The ECU answers with a first frame that announces 20 bytes and, after the flow
    # control, with the consecutive frames 1 and 2. Padding is not compared.
    wanted = [
        ("tester", "7E0", b"\x03\x22\xf1\x90"),
        ("ecu", "7E8", b"\x10\x14" + VIN[:6]),
        ("tester", "7E0", b"\x30"),
        ("ecu", "7E8", b"\x21" + VIN[6:13]),
        ("ecu", "7E8", b"\x22" + VIN[13:]),
    ]
    assert len(log) == len(wanted)
    for one, other in zip(log, wanted):
        assert one[:2] == other[:2] and one[2].startswith(other[2])


def test_long_messages_both_ways(ends):
    ecu, tester = ends
    sent = bytes(number * 7 % 256 for number in range(4095))
    tester.send(sent)
    assert ecu.recv(timeout=WAIT) == sent
    ecu.send(sent[:1000])
    assert tester.recv(timeout=WAIT) == sent[:1000]


def test_identifiers_of_29_bits(car, library):
    with car.isotp("ecu", tx=0x18DAF110, rx=0x18DA10F1, library=library) as ecu:
        with car.isotp("tester", tx=0x18DA10F1, rx=0x18DAF110, library=library) as tester:
            tester.send(b"\x3e\x00")
            assert ecu.recv(timeout=WAIT) == b"\x3e\x00"
    assert [(message.arbitration_id, message.is_extended_id) for message in car.log()] == [(0x18DA10F1, True)]


def test_bus_off_in_the_middle_of_a_transfer(car, ends):
    ecu, tester = ends
    # The first two frames, a first frame and a consecutive frame, are sent successfully. The later attempts fail.
    car.inject(Faults().next(32, sender="ecu", skip=2).destroyed())
    said = "" if ecu.library == "can-isotp" else "^ecu is bus off$"
    with pytest.raises(IsoTpError, match=said):
        ecu.send(bytes(100), timeout=WAIT)
    with pytest.raises(IsoTpError):
        tester.recv(timeout=WAIT)
    car.expect_state("ecu", "off", within=WAIT)
    with car.bus("ecu") as bus:
        bus.restart()
    tester.send(b"\x3e\x00")
    assert ecu.recv(timeout=WAIT) == b"\x3e\x00"


def test_nobody_answers(car, library):
    with car.isotp("tester", tx=0x7E0, rx=0x7E8, library=library) as tester:
        # A single frame requires no answer, but a first frame requires flow control.
        tester.send(b"\x3e\x00")
        said = "" if tester.library == "can-isotp" else "^the other end sent no flow control in time, or "
        with pytest.raises(IsoTpError, match=said):
            tester.send(bytes(100), timeout=WAIT)
        assert tester.recv(timeout=0.01) is None


def test_threads_send_and_receive(ends):
    ecu, tester = ends
    count, received = 50, {"ecu": [], "tester": []}

    def receive(name, end):
        while len(received[name]) < count:
            data = end.recv(timeout=WAIT)
            assert data is not None
            received[name].append(data)

    def send(end):
        for number in range(count):
            end.send(bytes([number]))

    threads = [
        threading.Thread(target=receive, args=("ecu", ecu)),
        threading.Thread(target=receive, args=("tester", tester)),
    ]
    threads += [threading.Thread(target=send, args=(ecu,)), threading.Thread(target=send, args=(tester,))]
    for thread in threads:
        thread.start()
    for thread in threads:
        thread.join()
    assert received == {name: [bytes([number]) for number in range(count)] for name in received}


def test_the_end_of_the_server(library):
    with Server("ecu,tester") as server, server.isotp("tester", tx=0x7E0, rx=0x7E8, library=library) as tester:
        server.stop()
        with pytest.raises((IsoTpError, OSError)):
            tester.send(b"\x3e\x00", timeout=WAIT)
            tester.recv(timeout=WAIT)
            tester.send(b"\x3e\x00", timeout=WAIT)


def test_an_end_that_is_closed(car, library):
    with car.isotp("tester", tx=0x7E0, rx=0x7E8, library=library) as tester:
        for data in (b"", bytes(4096)):
            with pytest.raises(ValueError, match=f"^data has 1 to 4095 bytes, not {len(data)}$"):
                tester.send(data)
    if library != "can-isotp":
        with pytest.raises(IsoTpError, match="^this end was closed: "):
            tester.send(b"\x3e\x00")
        tester.close()


@pytest.mark.parametrize(
    "words, said",
    [
        ({"channel": "can7"}, "channel is one of ecu, tester, not 'can7'"),
        ({"tx": 1 << 29}, "tx is an identifier of 11 or 29 bits, not 536870912"),
        ({"rx": 0x18DA10F1}, "tx and rx are both of 11 bits or both of 29, not 7E0 and 18DA10F1"),
        ({"library": "isotp"}, "library is 'can-isotp', 'canbusd-run' or 'canbusd', not 'isotp'"),
        ({"padding": 256}, "padding is the byte that fills frames up, such as 0xCC, not 256"),
        ({"tx_dl": 16}, "tx_dl=16 needs fd=True: other frames have 8 bytes"),
        ({"tx_dl": 9, "fd": True}, "tx_dl is one of 8, 12, 16, 20, 24, 32, 48, 64, not 9"),
        ({"stmin": 0x80}, "stmin is 0 to 0x7F, milliseconds, or 0xF1 to 0xF9, 100 to 900 us, not 0x80"),
        (
            {"functional": 0x7E0},
            "functional is the identifier of requests to all, such as 0x7DF, not that of tx or rx, 7E0",
        ),
        ({"functional": 0x7DF, "library": "can-isotp"}, "functional needs library='canbusd', not 'can-isotp'"),
    ],
)
def test_words_that_are_wrong(car, words, said):
    with pytest.raises(ValueError) as fault:
        car.isotp(**{"channel": "tester", "tx": 0x7E0, "rx": 0x7E8, **words})
    assert str(fault.value) == said


def test_neither_is_there(car, monkeypatch):
    def missing(name):
        raise ProgramNotFound(name)

    monkeypatch.setitem(sys.modules, "isotp", None)
    monkeypatch.setattr(canbusd.isotp, "find_program", missing)
    with car.isotp("tester", tx=0x7E0, rx=0x7E8) as tester:
        assert tester.library == "canbusd"
    with pytest.raises(ImportError, match="^isotp needs canbusd-run, and there is none: `pip install"):
        car.isotp("tester", tx=0x7E0, rx=0x7E8, library="canbusd-run")
    with pytest.raises(ImportError, match="^isotp needs can-isotp, which is not installed: `pip install can-isotp`$"):
        car.isotp("tester", tx=0x7E0, rx=0x7E8, library="can-isotp")


#: Options, and the frames by which 3 bytes are sent to the ECU and 20 bytes back, according to ISO 15765-2. `..` marks
#: bytes that are not compared.
OPTIONS = [
    (
        {"padding": 0xAA},
        ["0322f190aaaaaaaa", "101462f190575657", "300000aaaaaaaaaa", "215a5a5a314a5a58", "2257303030303031"],
    ),
    ({"fd": True}, ["0322f190", "001462f1905756575a5a5a314a5a5857303030303031...."]),
    (
        {"fd": True, "tx_dl": 16, "padding": 0x55},
        ["0322f19055555555", "101462f1905756575a5a5a314a5a5857", "3000005555555555", "2130303030303155"],
    ),
    (
        {"block_size": 1, "stmin": 3},
        ["0322f190", "101462f190575657", "300103", "215a5a5a314a5a58", "300103", "2257303030303031"],
    ),
    (
        {"extended": (0x10, 0xF1)},
        ["f10322f190", "10101462f1905756", "f1300000", "1021575a5a5a314a", "10225a5857303030", "1023303031"],
    ),
]


@pytest.mark.parametrize("options, wanted", OPTIONS)
@pytest.mark.parametrize("other", ["canbusd-run", "canbusd"])
def test_options(car, library, other, options, wanted):
    if not is_there(other):
        pytest.skip(f"no {other}")
    theirs = {name: value[::-1] if name == "extended" else value for name, value in options.items()}
    with car.isotp("ecu", tx=0x7E8, rx=0x7E0, library=library, **options) as ecu:
        with car.isotp("tester", tx=0x7E0, rx=0x7E8, library=other, **theirs) as tester:
            tester.send(b"\x22\xf1\x90")
            assert ecu.recv(timeout=WAIT) == b"\x22\xf1\x90"
            ecu.send(VIN)
            assert tester.recv(timeout=WAIT) == VIN
            sent = bytes(number * 7 % 256 for number in range(300))
            tester.send(sent)
            assert ecu.recv(timeout=WAIT) == sent
    log = car.log()
    shown = [bytes(message.data).hex() for message in log]
    assert all(re.fullmatch(one, found) for one, found in zip(wanted, shown)), shown
    assert all(message.is_fd == options.get("fd", False) for message in log)


@pytest.mark.parametrize("stmin, seconds", [(5, 0.005), (0xF9, 0.0009)])
def test_the_distance_of_consecutive_frames(car, stmin, seconds):
    with car.isotp("ecu", tx=0x7E8, rx=0x7E0, library="canbusd", stmin=stmin) as ecu:
        with car.isotp("tester", tx=0x7E0, rx=0x7E8, library="canbusd") as tester:
            tester.send(bytes(60))
            assert ecu.recv(timeout=WAIT) == bytes(60)
    moments = [message.timestamp for message in car.log() if message.data[0] >> 4 == 2]
    assert len(moments) == 8
    # The sender begins its pause after the previous frame has been on the bus. So a busy machine never makes the pause
    # shorter.
    assert all(after - before >= seconds - 1e-6 for before, after in zip(moments, moments[1:]))


def test_requests_to_all(car):
    with car.isotp("ecu", tx=0x7E8, rx=0x7E0, functional=0x7DF) as ecu:
        with car.isotp("tester", tx=0x7E0, rx=0x7E8, functional=0x7DF, padding=0xCC) as tester:
            tester.send(b"\x3e\x80", functional=True)
            assert ecu.recv(timeout=WAIT) == b"\x3e\x80"
            assert tester.recv(timeout=0.05) is None
        with car.isotp("tester", tx=0x7E0, rx=0x7E8, library="canbusd") as tester:
            with pytest.raises(ValueError, match="^functional=True needs the identifier of requests to all: isotp"):
                tester.send(b"\x3e\x80", functional=True)
    assert [(one.arbitration_id, bytes(one.data).hex()) for one in car.log()] == [(0x7DF, "023e80cccccccccc")]


def test_faults_need_python(car, library):
    with car.isotp("tester", tx=0x7E0, rx=0x7E8, library=library) as tester:
        if library == "canbusd":
            tester.inject(fault("first frame", "lost"))
        else:
            with pytest.raises(
                ValueError, match=f"^an end by {library} has no faults of segments: give isotp library="
            ):
                tester.inject(fault("first frame", "lost"))


def test_bus_off_while_a_message_comes(car):
    with car.isotp("ecu", tx=0x7E8, rx=0x7E0, library="canbusd") as ecu:
        with car.isotp("tester", tx=0x7E0, rx=0x7E8, library="canbusd") as tester:
            # The flow control frame is destroyed 32 times, so the tester goes bus off.
            car.inject(Faults().next(32, sender="tester").destroyed())
            with pytest.raises(IsoTpError):
                ecu.send(bytes(100), timeout=WAIT)
            car.expect_state("tester", "off", within=WAIT)
            with pytest.raises(IsoTpError):
                tester.recv(timeout=WAIT)
            # If a flow control frame can't be sent, only its own transfer fails. The next transfer works.
            with car.bus("tester") as bus:
                bus.restart()
            ecu.send(VIN, timeout=WAIT)
            assert tester.recv(timeout=WAIT) == VIN
