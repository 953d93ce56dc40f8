"""A simulated ECU and a UDS client: requests and responses according to ISO 14229-1, segmentation according to ISO
15765-2."""

import errno
import importlib.util
import time

import pytest

from canbusd import uds
from canbusd.server import Server
from common import WAIT

VIN = b"WVWZZZ1JZXW000001"


@pytest.fixture
def car():
    """A server with an ECU and a tester."""
    with Server("ecu,tester", bitrate=500_000) as running:
        yield running


@pytest.fixture
def ecu(car):
    """An ECU that has a VIN."""
    with uds.Ecu(car, "ecu", tx=0x7E8, rx=0x7E0, functional=0x7DF, p2=WAIT) as running:
        running.dids[0xF190] = VIN
        yield running


@pytest.fixture
def tester(car, ecu):
    """A UDS client for the ECU."""
    with uds.Client(car, "tester", tx=0x7E0, rx=0x7E8, functional=0x7DF, p2=WAIT) as client:
        yield client


def refused(call, *words, **more):
    """Returns the negative response code with which a call is refused."""
    with pytest.raises(uds.NegativeResponse) as fault:
        call(*words, **more)
    return fault.value.code


def test_what_is_on_the_bus(car, tester):
    assert tester.read(0xF190) == VIN
    log = [(message.channel, bytes(message.data).hex()) for message in car.log()]
    # The response of 20 bytes is sent as a first frame and, after the flow control, two consecutive frames.
    assert log == [
        ("tester", "0322f190"),
        ("ecu", "1014" + b"\x62\xf1\x90WVW".hex()),
        ("tester", "300000"),
        ("ecu", "21" + b"ZZZ1JZX".hex()),
        ("ecu", "22" + b"W000001".hex()),
    ]


def test_sessions(ecu, tester):
    # P2 is 60 seconds, sent in milliseconds. P2* is 5 seconds, sent in units of 10 milliseconds.
    assert tester.request(b"\x10\x03") == bytes.fromhex("5003 EA60 01F4")
    assert ecu.session == 3
    assert refused(tester.session, 0x44) == 0x12
    assert refused(tester.request, b"\x10") == 0x13
    tester.reset()
    assert ecu.session == 1


def test_sessions_by_their_names(ecu, tester):
    ecu.routine(0x0203, sessions="extended")(lambda data: b"\x00")
    ecu.routine(0x0204, sessions=["programming", 3])(lambda data: b"\x01")
    # The session numbers are those of ISO 14229-1.
    for name, number, allowed in (("default", 1, []), ("programming", 2, [0x0204]), ("extended", 3, [0x0203, 0x0204])):
        tester.session(name)
        assert ecu.session == number
        for routine in (0x0203, 0x0204):
            if routine in allowed:
                assert tester.routine(routine) == bytes([routine & 1 ^ 1])
            else:
                assert refused(tester.routine, routine) in (0x31, 0x7F)
    with pytest.raises(
        ValueError, match="^session is a number, or one of default, programming, extended, safetySystem"
    ):
        tester.session("extendet")
    with pytest.raises(ValueError, match="^session is a number from 0 to 0xFF, not 256$"):
        tester.session(256)


def test_a_session_ends_by_itself(car):
    with uds.Ecu(car, "ecu", tx=0x7E8, rx=0x7E0, s3=1.0) as ecu:
        with uds.Client(car, "tester", tx=0x7E0, rx=0x7E8, p2=WAIT) as tester:
            tester.session(3)
            for _ in range(3):
                time.sleep(0.5)
                tester.tester_present()
            assert ecu.session == 3
            car.wait_for(lambda: ecu.session == 1, timeout=WAIT)


def test_dids(ecu, tester):
    ecu.dids[0x0100], ecu.writable = b"\x01\x02", {0x0100}

    @ecu.did(0x0101, sessions=[3])
    def count():
        return bytes([len(ecu.requests)])

    written = []
    ecu.write(0x0102, level=1)(written.append)
    ecu.security(1, seed=b"\x12\x34")(lambda seed: bytes(one ^ 0xFF for one in seed))
    tester.write(0x0100, b"\x03\x04")
    assert tester.read(0x0100) == b"\x03\x04"
    assert refused(tester.write, 0x0100, b"\x03") == 0x13
    assert refused(tester.write, 0xF190, VIN) == 0x31
    assert refused(tester.read, 0x0101) == 0x31
    assert refused(tester.write, 0x0102, b"\x01") == 0x33
    # If a request names several data identifiers, the ECU returns those that exist.
    assert tester.request(b"\x22\x01\x01\x01\x00") == b"\x62\x01\x00\x03\x04"
    assert refused(tester.request, b"\x22\x01") == 0x13
    tester.session(3)
    assert tester.read(0x0101) == bytes([len(ecu.requests)])
    tester.unlock(1, lambda seed: bytes(one ^ 0xFF for one in seed))
    tester.write(0x0102, b"\x01")
    assert written == [b"\x01"] and ecu.level == 1
    tester.session(3)
    assert ecu.level == 0


def test_security(ecu, tester):
    ecu.security(1, seed=b"\x36\x57")(lambda seed: b"\xc9\xa9")
    assert refused(tester.request, b"\x27\x01") == 0x7F
    tester.session(3)
    assert refused(tester.request, b"\x27\x02\xc9\xa9") == 0x24
    assert tester.request(b"\x27\x01") == b"\x67\x01\x36\x57"
    assert refused(tester.request, b"\x27\x02\x00\x00") == 0x35
    # A key is valid only for the most recent seed.
    assert refused(tester.request, b"\x27\x02\xc9\xa9") == 0x24
    tester.unlock(1, lambda seed: b"\xc9\xa9")
    assert tester.request(b"\x27\x01") == b"\x67\x01\x00\x00"
    tester.session(3)
    wrong = [refused(tester.unlock, 1, lambda seed: b"\0\0") for _ in range(4)]
    assert wrong == [0x35, 0x35, 0x36, 0x37]
    assert refused(tester.request, b"\x27\x03") == 0x12


def test_routines(ecu, tester):
    @ecu.routine(0x0203)
    def self_test(data):
        return data + b"\x00"

    @ecu.routine(0x0204, sessions=[3])
    def erase(data, kind):
        return bytes([kind])

    assert tester.routine(0x0203, b"\x07") == b"\x07\x00"
    assert refused(tester.routine, 0x0203, kind=3) == 0x12
    assert refused(tester.routine, 0x0204) == 0x31
    tester.session(3)
    assert [tester.routine(0x0204, kind=kind) for kind in (1, 2, 3)] == [b"\x01", b"\x02", b"\x03"]
    assert refused(tester.routine, 0x9999) == 0x31


def test_pending_responses(car):
    with uds.Ecu(car, "ecu", tx=0x7E8, rx=0x7E0, p2=0.3, p2_star=0.5) as ecu:
        with uds.Client(car, "tester", tx=0x7E0, rx=0x7E8, p2=WAIT, p2_star=WAIT) as tester:
            ecu.routine(0x0203)(lambda data: time.sleep(1.0) or b"\x01")
            assert tester.routine(0x0203) == b"\x01"
            # The first "response pending" comes after P2, and the second after nine tenths of P2*.
            assert tester.pending == 2
            ecu.dids[0x0100] = b"\x05"
            ecu.delay(0x22, 0.6)
            assert (tester.read(0x0100), tester.pending) == (b"\x05", 1)
            assert (tester.read(0x0100), tester.pending) == (b"\x05", 0)
            # A positive response that is late is sent even if the request suppresses it.
            ecu.delay(0x3E, 0.6)
            assert tester.request(b"\x3e\x80") == b"\x7e\x00"


def test_trouble_codes(ecu, tester):
    ecu.dtcs.update({0x123456: 0x09, 0x0A9B17: 0x24})
    assert tester.dtcs() == {0x123456: 0x09, 0x0A9B17: 0x24}
    assert tester.dtcs(mask=0x08) == {0x123456: 0x09}
    assert tester.request(b"\x19\x01\xff") == bytes.fromhex("5901 FF 01 0002")
    assert tester.request(b"\x19\x02\x04") == bytes.fromhex("5902 FF 0A9B17 24")
    assert tester.request(b"\x19\x0a") == bytes.fromhex("590A FF 123456 09 0A9B17 24")
    tester.clear_dtcs(0x123456)
    assert refused(tester.clear_dtcs, 0x123456) == 0x31
    tester.clear_dtcs()
    assert tester.dtcs() == {}
    assert refused(tester.request, b"\x19\x55") == 0x12
    tester.session(3)
    tester.request(b"\x85\x02")
    assert not ecu.sets_dtcs
    tester.session(1)
    assert ecu.sets_dtcs


def test_memory(ecu, tester):
    ecu.memory[0x1000] = bytearray(3000)
    content = bytes(number * 7 % 256 for number in range(2500))
    assert refused(tester.download, 0x1000, content) == 0x7F
    tester.session(2)
    tester.download(0x1010, content)
    assert bytes(ecu.memory[0x1000][0x10 : 0x10 + 2500]) == content
    assert tester.upload(0x1010, 2500) == content
    assert refused(tester.download, 0x1800, bytes(2000)) == 0x31
    assert refused(tester.request, b"\x36\x01\x00") == 0x24
    tester.request(bytes.fromhex("34 00 44 00001000 00000004"))
    assert refused(tester.request, b"\x36\x02\x00") == 0x73
    # If a block is repeated because its response was lost, it counts once.
    assert [tester.request(b"\x36\x01\xaa\xbb") for _ in range(2)] == [b"\x76\x01"] * 2
    assert refused(tester.request, b"\x37") == 0x24
    assert refused(tester.request, b"\x36\x02\x01\x02\x03") == 0x71
    assert tester.request(b"\x36\x02\xcc\xdd") == b"\x76\x02"
    assert tester.request(b"\x37") == b"\x77"
    assert bytes(ecu.memory[0x1000][:4]) == b"\xaa\xbb\xcc\xdd"
    ecu.load_level = 1
    assert refused(tester.upload, 0x1000, 1) == 0x33


def test_negative_responses_on_demand(ecu, tester):
    ecu.refuse(0x22, "conditionsNotCorrect", count=2)
    ecu.refuse(0x22, 0x21)
    assert [refused(tester.read, 0xF190) for _ in range(3)] == [0x22, 0x22, 0x21]
    assert tester.read(0xF190) == VIN
    assert refused(tester.request, b"\xba\x01") == 0x11

    @ecu.service(0xBA)
    def own(request):
        if len(request) > 2:
            raise uds.NegativeResponse("rpmTooHigh")
        return b"\xfa" + request[1:]

    assert tester.request(b"\xba\x01") == b"\xfa\x01"
    with pytest.raises(uds.NegativeResponse, match=r"^rpmTooHigh \(81\) to service BA$"):
        tester.request(b"\xba\x01\x02")


def test_requests_to_all(ecu, tester):
    assert tester.request(b"\x22\xf1\x90", functional=True)[3:] == VIN
    tester.session(3)
    tester.tester_present(functional=True)
    # If a request is addressed to all ECUs, no ECU replies that a service or an identifier is unknown.
    for request in (b"\xba\x01", b"\x22\x99\x99"):
        tester.end.send(request, functional=True)
        assert tester.end.recv(timeout=0.2) is None
    assert ecu.requests[-2:] == [b"\xba\x01", b"\x22\x99\x99"]
    with pytest.raises(ValueError, match="^a request to all is one single frame, and 20 bytes are more$"):
        tester.end.send(bytes(20), functional=True)


def test_no_answer(car):
    with uds.Client(car, "tester", tx=0x7E0, rx=0x7E8, p2=0.05) as tester:
        with pytest.raises(TimeoutError, match=r"^no answer to 22 F1 90 within 0\.05 seconds$"):
            tester.read(0xF190)


def test_a_fault_of_a_function_is_the_tests(car):
    ecu = uds.Ecu(car, "ecu", tx=0x7E8, rx=0x7E0)
    ecu.did(0x0100)(lambda: 1 // 0)
    with uds.Client(car, "tester", tx=0x7E0, rx=0x7E8, p2=WAIT) as tester:
        assert refused(tester.read, 0x0100) == 0x10
    with pytest.raises(ZeroDivisionError):
        ecu.close()
    ecu.close()


def test_a_did_that_is_a_text(car):
    ecu = uds.Ecu(car, "ecu", tx=0x7E8, rx=0x7E0)
    ecu.dids[0xF190] = VIN.decode()
    with uds.Client(car, "tester", tx=0x7E0, rx=0x7E8, p2=WAIT) as tester:
        assert refused(tester.read, 0xF190) == 0x10
    with pytest.raises(ValueError, match="^DID F190: data is bytes, .* not 'WVWZZZ1JZXW000001'$"):
        ecu.close()


@pytest.mark.parametrize(
    "segment, kind, number",
    [
        ("consecutive frame 1", "lost", "EILSEQ"),
        ("consecutive frame 2", "lost", "ETIMEDOUT"),
        ("consecutive frame 2", "twice", ""),
        ("consecutive frame 1", "twice", "EILSEQ"),
        ("consecutive frame 2", "short", "EBADMSG"),
        ("consecutive frame 1", "wrong number", "EILSEQ"),
        ("consecutive frame 1", "late", "ETIMEDOUT"),
    ],
)
def test_faults_of_segments(ecu, tester, segment, kind, number):
    ecu.inject(uds.fault(segment, kind))
    if number:
        with pytest.raises(uds.IsoTpError) as fault:
            tester.read(0xF190)
        assert fault.value.errno == getattr(errno, number)
        tester.end.recv(timeout=1.5)
    else:
        assert tester.read(0xF190) == VIN
    # The fault affects only one message, so the next response is right.
    assert tester.read(0xF190) == VIN


@pytest.mark.parametrize("kind", ["lost", "twice", "late"])
def test_faults_of_single_frames(ecu, tester, kind):
    ecu.dids[0x0100] = b"\x05"
    ecu.inject(uds.fault("single frame", kind, count=2, delay=0.3))
    tester._p2 = WAIT if kind == "twice" else 0.15
    for _ in range(2):
        if kind == "twice":
            assert tester.read(0x0100) == b"\x05"
        else:
            with pytest.raises(TimeoutError):
                tester.read(0x0100)
        time.sleep(0.4)
        while tester.end.recv(timeout=0):
            pass
    assert tester.read(0x0100) == b"\x05"


@pytest.mark.parametrize(
    "kind, number", [("lost", "ECOMM"), ("overflow", "EMSGSIZE"), ("short", "EBADMSG"), ("wait", ""), ("late", "ECOMM")]
)
def test_faults_of_flow_control(car, ecu, kind, number):
    with uds.Client(car, "tester", tx=0x7E0, rx=0x7E8) as tester:
        with car.isotp("ecu", tx=0x7E8, rx=0x7E0, library="canbusd-run") as end:
            ecu.close()
            delay = 0.3 if kind == "wait" else 1.5
            tester.inject(uds.fault("flow control", kind, delay=delay))
            if number:
                with pytest.raises(uds.IsoTpError) as fault:
                    end.send(bytes(100), timeout=WAIT)
                assert fault.value.errno == getattr(errno, number)
            else:
                began = time.monotonic()
                end.send(bytes(100), timeout=WAIT)
                assert time.monotonic() - began >= 0.3
                assert tester.end.recv(timeout=WAIT) == bytes(100)


@pytest.mark.parametrize(
    "call, said",
    [
        (
            lambda: uds.fault("frame 3", "lost"),
            "segment is 'single frame', 'first frame', 'consecutive frame N' with N from 1, or",
        ),
        (
            lambda: uds.fault("first frame", "losts"),
            "kind is one of lost, twice, late, short, wrong number, wait, overflow, not",
        ),
        (lambda: uds.fault("first frame", "wait"), "a first frame can't be 'wait': only a flow control can"),
        (lambda: uds.fault("first frame", "lost", count=0), "count is a number of messages, 1 or more, not 0"),
        (lambda: uds.NegativeResponse("conditionNotCorrect"), r"not 'conditionNotCorrect' \(conditionsNotCorrect\?\)"),
    ],
)
def test_words_that_are_wrong(call, said):
    with pytest.raises(ValueError, match=said):
        call()


def test_words_of_an_ecu_that_are_wrong(ecu, tester):
    for call, said in [
        (lambda: ecu.security(2, seed=b"\1"), "level is odd, from 1 to 0x7D, as a request for its seed has it, not 2"),
        (lambda: ecu.refuse(0x122, 0x31), "service is a number from 0 to 0xFF, not 290"),
        (lambda: ecu.delay(0x22, -1), "seconds is a number of seconds, 0 or more, not -1"),
        (lambda: ecu.did(0x12345), "number is one from 0 to 0xFFFF, not 74565"),
        (lambda: tester.read("F190"), "did is a number from 0 to 0xFFFF, not 'F190'"),
        (lambda: ecu.inject("first frame lost"), "fault is one of a segment, as uds.fault"),
    ]:
        with pytest.raises(ValueError, match=said):
            call()
    with pytest.raises(TypeError, match=r"bytes are ecu\.dids\[0xF190\] = b'\.\.'"):
        ecu.did(0xF190, b"VIN")
    with pytest.raises(AttributeError, match=r"^Client has no read_data_by_identifier: read\(0xF190\)$"):
        tester.read_data_by_identifier(0xF190)


def test_times_that_are_wrong(car):
    with pytest.raises(ValueError, match="^p2_star is a number of seconds above 0, not 0$"):
        uds.Ecu(car, "ecu", tx=0x7E8, rx=0x7E0, p2_star=0)
    with pytest.raises(ValueError, match="^p2 is a number of seconds, 0 or more, not -1$"):
        uds.Client(car, "tester", tx=0x7E0, rx=0x7E8, p2=-1)
    with pytest.raises(ValueError, match="^channel is one of ecu, tester, not 'can7'$"):
        uds.Ecu(car, "can7", tx=0x7E8, rx=0x7E0)


def test_no_udsoncan(tester):
    if importlib.util.find_spec("udsoncan") is None:
        with pytest.raises(
            ImportError, match="^connection needs udsoncan, which is not installed: `pip install udsoncan`$"
        ):
            uds.connection(tester.end)


def test_an_answer_that_takes_longer_than_p2(car):
    with uds.Ecu(car, "ecu", tx=0x7E8, rx=0x7E0) as ecu:
        with uds.Client(car, "tester", tx=0x7E0, rx=0x7E8, p2=1.0, stmin=45) as tester:
            ecu.dids[0x0100] = bytes(200)
            # The response has 28 consecutive frames, sent at intervals of 45 milliseconds.
            assert tester.read(0x0100) == bytes(200)
