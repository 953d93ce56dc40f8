"""End-to-end protection: the check values in AUTOSAR's SWS_CRCLibrary, the examples in PRS_E2EProtocol, and the faults
that are detected."""

import pytest

from canbusd import e2e
from canbusd._protected import profile_in
from canbusd.bench import Bench
from canbusd.server import Server
from canbusd.signals import load_database
from common import WAIT

#: The inputs and CRCs from the examples in SWS_CRCLibrary, for SAE J1850, 2F and CCITT.
CRCS = [
    ("00 00 00 00", 0x59, 0x12, 0x84C0),
    ("F2 01 83", 0x37, 0xC2, 0xD374),
    ("0F AA 00 55", 0x79, 0xC6, 0x2023),
    ("00 FF 55 11", 0xB8, 0x77, 0xB8F9),
    ("33 22 55 AA BB CC DD EE FF", 0xCB, 0x11, 0xF53F),
    ("92 6B 55", 0x8C, 0x33, 0x0745),
    ("FF FF FF FF", 0x74, 0x6C, 0x1D0F),
    ("31 32 33 34 35 36 37 38 39", 0x4B, 0xDF, 0x29B1),
]
DBC = """VERSION ""
BU_: Engine ECU
BO_ 256 EngineData: 8 Engine
 SG_ Crc : 0|8@1+ (1,0) [0|255] "" ECU
 SG_ Alive : 8|4@1+ (1,0) [0|14] "" ECU
 SG_ EngineSpeed : 23|16@0+ (0.25,0) [0|16000] "rpm" ECU
 SG_ Sum : 55|16@0+ (1,0) [0|65535] "" ECU
BA_DEF_ BO_ "GenMsgCycleTime" INT 0 65535;
BA_DEF_DEF_ "GenMsgCycleTime" 10;
"""


@pytest.fixture
def dbc(tmp_path):
    """The path of a DBC file with a message that has counters and checksums."""
    pytest.importorskip("canmatrix")
    (tmp_path / "car.dbc").write_text(DBC)
    return tmp_path / "car.dbc"


@pytest.mark.parametrize("text, j1850, h2f, ccitt", CRCS)
def test_crcs(text, j1850, h2f, ccitt):
    data = bytes.fromhex(text)
    assert (e2e.crc8(data), e2e.crc8_h2f(data), e2e.crc16(data)) == (j1850, h2f, ccitt)


def test_crcs_of_another_program(rng_bytes=bytes(range(256))):
    crcmod = pytest.importorskip("crcmod")
    others = [
        (e2e.crc8, crcmod.mkCrcFun(0x11D, initCrc=0, rev=False, xorOut=0xFF)),
        (e2e.crc8_h2f, crcmod.mkCrcFun(0x12F, initCrc=0, rev=False, xorOut=0xFF)),
        (e2e.crc16, crcmod.mkCrcFun(0x11021, initCrc=0xFFFF, rev=False, xorOut=0)),
    ]
    for own, other in others:
        for size in range(65):
            data = bytes(byte * 37 % 256 for byte in rng_bytes[:size])
            assert own(data) == other(data)


#: The examples from PRS_E2EProtocol: 8 or 16 zero bytes with the data ID 123 or 1234, or with the data IDs 01 to 10.
#: All IDs are in hexadecimal.
IDS = range(1, 17)
EXAMPLES = [
    (e2e.Profile1(0x123), 8, 0, "cc 00 00 00 00 00 00 00"),
    (e2e.Profile1(0x123), 8, 1, "91 01 00 00 00 00 00 00"),
    (e2e.Profile1(0x123, mode="nibble"), 8, 0, "2a 10 00 00 00 00 00 00"),
    (e2e.Profile1(0x123, mode="nibble"), 8, 1, "77 11 00 00 00 00 00 00"),
    (e2e.Profile2(IDS), 8, 1, "1b 01 00 00 00 00 00 00"),
    (e2e.Profile2(IDS), 8, 2, "98 02 00 00 00 00 00 00"),
    (e2e.Profile2(IDS), 8, 3, "31 03 00 00 00 00 00 00"),
    (e2e.Profile2(IDS), 8, 8, "08 08 00 00 00 00 00 00"),
    (e2e.Profile5(0x1234), 8, 0, "1c ca 00 00 00 00 00 00"),
    (e2e.Profile5(0x1234, offset=64), 16, 0, "00 00 00 00 00 00 00 00 28 91 00 00 00 00 00 00"),
    (e2e.Profile11(0x123), 8, 0, "cc 00 00 00 00 00 00 00"),
    (e2e.Profile11(0x123, mode="nibble"), 8, 0, "2a 10 00 00 00 00 00 00"),
    (e2e.Profile11(0x123, mode="nibble"), 8, 1, "77 11 00 00 00 00 00 00"),
    (
        e2e.Profile11(0x123, "nibble", crc_offset=64, counter_offset=72, nibble_offset=76),
        *(16, 0, "00 00 00 00 00 00 00 00 7d 10 00 00 00 00 00 00"),
    ),
    (e2e.Profile22(IDS), 8, 1, "1b 01 00 00 00 00 00 00"),
]


@pytest.mark.parametrize("profile, size, counter, wanted", EXAMPLES)
def test_examples(profile, size, counter, wanted):
    data = profile.protect(bytes(size), counter)
    assert data.hex(" ") == wanted
    assert profile.is_right(data) and profile.counter(data) == counter


#: The standards contain no examples for these modes. The expected bytes follow the text of the standard, and another
#: program computes the CRCs.
def test_other_modes():
    crcmod = pytest.importorskip("crcmod")
    crc = crcmod.mkCrcFun(0x11D, initCrc=0, rev=False, xorOut=0)
    for mode, counter, ids in [("alternating", 0, b"\x23"), ("alternating", 1, b"\x01"), ("low", 1, b"\x23")]:
        content = bytes([counter | 0x50, 7, 8, 9])
        data = e2e.Profile1(0x123, mode=mode).protect(b"\xff\x5a\x07\x08\x09", counter)
        assert data == bytes([crc(ids + content)]) + content


PROFILES = [
    e2e.Profile1(0x123, "alternating"),
    e2e.Profile2(IDS),
    e2e.Profile5(0x1234),
    e2e.Profile11(7, "nibble"),
    e2e.Profile22(IDS),
]


@pytest.mark.parametrize("profile", PROFILES)
def test_each_bit_counts(profile):
    right = profile.protect(bytes(range(40, 48)), 5)
    for bit in range(64):
        wrong = bytearray(right)
        wrong[bit // 8] ^= 1 << bit % 8
        # The message may contain four bits of the data ID, which are protected only by the CRC.
        assert not profile.is_right(bytes(wrong))


@pytest.mark.parametrize("profile", PROFILES)
def test_counters_go_round(profile):
    protection, checker = e2e.Protection(profile), e2e.Checker(profile)
    found = [checker.check(protection.applied(bytes(8))) for _ in range(600)]
    assert found == ["initial"] + ["ok"] * 599
    sent = e2e.Protection(profile)
    counters = [profile.counter(sent.applied(bytes(8))) for _ in range(profile.modulo + 1)]
    # Profiles 2 and 22 increment the counter before they send a message.
    first = 1 if isinstance(profile, e2e.Profile2) else 0
    assert counters == [(first + number) % profile.modulo for number in range(profile.modulo + 1)]


def test_what_is_found():
    protection, checker = e2e.Protection(e2e.Profile1(0x123, max_delta=2)), e2e.Checker(
        e2e.Profile1(0x123, max_delta=2)
    )
    found = [checker.check(protection.applied(bytes(8))) for _ in range(2)]
    for fault, count in (("repeated", 2), ("wrong crc", 1), ("some lost", 1)):
        protection.inject(fault, count)
    found += [checker.check(protection.applied(bytes(8))) for _ in range(6)]
    # The frame with the wrong checksum incremented the sender's counter, so the next frame is out of sequence.
    assert found == ["initial", "ok", "repeated", "repeated", "wrong crc", "wrong sequence", "ok", "ok"]
    protection.inject("some lost")
    assert checker.check(protection.applied(bytes(8))) == "some lost"
    assert checker.check(e2e.Profile1(0x124).protect(bytes(8), 0)) == "wrong crc"
    assert checker.check(b"") == "wrong crc"


def test_signals(dbc):
    message = load_database(dbc).message("EngineData")
    profile = e2e.Signals("Alive", crc="Crc", modulo=15).of(message)
    data = profile.protect(bytes.fromhex("0050112233445566"), 7)
    assert data == bytes([e2e.crc8(bytes.fromhex("57112233445566"))]) + bytes.fromhex("57112233445566")
    assert profile.is_right(data) and profile.counter(data) == 7
    other = e2e.Signals("Alive", crc="Sum", function=sum).of(message).protect(bytes([0xFF] * 8), 0)
    # The checksum has its most significant byte first.
    assert other == bytes.fromhex("fff0ffffffff") + (0xFF * 5 + 0xF0).to_bytes(2, "big")
    assert e2e.Signals("Alive").of(message).protect(bytes(8), 17).hex() == "0001000000000000"


@pytest.mark.parametrize(
    "make, said",
    [
        (lambda message: e2e.Profile1(0x12345), "data_id is a number from 0 to 0xFFFF, not 74565"),
        (
            lambda message: e2e.Profile1(1, "bot"),
            r"mode is one of both, alternating, low, nibble, not 'bot' \(both\?\)",
        ),
        (lambda message: e2e.Profile11(1, "low"), "mode is one of both, nibble, not 'low'"),
        (lambda message: e2e.Profile2([1, 2]), "data_ids are 16 bytes, one for each value of the counter, not 2"),
        (lambda message: e2e.Profile5(1, offset=3), "offset is a place in bits, a multiple of 8, not 3"),
        (lambda message: e2e.Profile5(1, offset=48).of(message), r"Profile5\(.*\) needs 9 bytes, and EngineData has 8"),
        (lambda message: e2e.Profile1(1, max_delta=15), "max_delta is from 1 to 14, not 15"),
        (
            lambda message: e2e.Signals("Alive", modulo=17).of(message),
            "modulo is from 2 to 16, as Alive has bits for, not 17",
        ),
        (lambda message: e2e.Signals("Alive", crc="Alive").of(message), "EngineData.Alive is no checksum"),
        (lambda message: e2e.Signals("Alife").of(message), "no signal EngineData.Alife; there are Crc, Alive"),
        (
            lambda message: e2e.Signals("Alive").protect(bytes(8), 0),
            r"Signals\('Alive'\) is of a message: give it to protect",
        ),
        (
            lambda message: e2e.Protection(e2e.Profile5(1)).inject("wrong"),
            "fault is one of wrong crc, repeated, some lost",
        ),
        (lambda message: e2e.Protection(e2e.Profile5(1)).applied(b"\0"), "needs 3 bytes, not 1"),
    ],
)
def test_words_that_are_wrong(dbc, make, said):
    with pytest.raises(ValueError, match=said):
        make(load_database(dbc).message("EngineData"))


def test_a_rest_bus_on_a_bench(dbc):
    with Bench("engine,ecu", bitrate=500_000) as bench:
        ecu = bench.open("ecu")
        with bench.rest_bus(dbc, interface="engine") as rest:
            protection = rest.protect("EngineData", e2e.Profile1(0x123))
            rest["Engine"]["EngineSpeed"] = 3000
            rest.run(until=0.035)
            protection.inject("repeated")
            rest.run(until=0.055)
            frames = ecu.receive()
            with pytest.raises(ValueError, match="^profile is one of canbusd.e2e, Profile1, .*, not 291$"):
                rest.protect("EngineData", 0x123)
    checker = e2e.Checker(e2e.Profile1(0x123))
    assert [checker.check(frame.data) for frame in frames] == ["initial", "ok", "ok", "repeated", "ok"]
    assert all(frame.data[2:4] == b"\x2e\xe0" for frame in frames)


def test_what_a_server_expects(dbc):
    profile = e2e.Signals("Alive", crc="Crc", modulo=15)
    with Server("engine,ecu", bitrate=500_000) as server, server.rest_bus(dbc, interface="engine") as rest:
        protection = rest.protect("EngineData", profile)
        server.wait_for(lambda: rest.counts().accepted > 2, timeout=WAIT)
        server.expect_from_now()
        frames = server.expect_protected("EngineData", profile, count=20, within=WAIT)
        counters = [frame.data[1] & 15 for frame in frames]
        assert all((after - before) % 15 == 1 for before, after in zip(counters, counters[1:]))
        sent = rest.counts().accepted
        server.wait_for(lambda: rest.counts().accepted > sent + 2, timeout=WAIT)
        protection.inject("wrong crc", count=2)
        server.wait_for(lambda: rest.counts().accepted > sent + 5, timeout=WAIT)
        with pytest.raises(AssertionError) as fault:
            server.expect_protected("EngineData", profile, count=20, within=WAIT)
        lines = str(fault.value).split("\n")
        assert lines[0] == "no frame EngineData by Signals('Alive', 'Crc'): 3 of 20 frames are wrong"
        assert [line.split(":")[0] for line in lines[1:4]] == ["  wrong crc", "  wrong crc", "  wrong sequence"]
        with pytest.raises(AssertionError, match="^no frame 7FF by Profile5.*: came 0 of 1 times within 0.05 seconds"):
            server.expect_protected(0x7FF, e2e.Profile5(1), count=1, within=0.05)
        with pytest.raises(ValueError, match="^count is a number of frames, 1 or more, not 0$"):
            server.expect_protected("EngineData", profile, count=0)


ATTRIBUTES = """VERSION ""
BU_: Engine ECU
BO_ 256 One: 8 Engine
 SG_ A : 32|8@1+ (1,0) [0|255] "" ECU
BO_ 257 Two: 8 Engine
 SG_ A : 32|8@1+ (1,0) [0|255] "" ECU
BO_ 258 Five: 8 Engine
 SG_ A : 0|8@1+ (1,0) [0|255] "" ECU
BO_ 259 Plain: 8 Engine
 SG_ A : 0|8@1+ (1,0) [0|255] "" ECU
BO_ 260 Wrong: 8 Engine
 SG_ A : 0|8@1+ (1,0) [0|255] "" ECU
BA_DEF_ BO_ "GenMsgCycleTime" INT 0 65535;
BA_DEF_ BO_ "E2EProfile" STRING ;
BA_DEF_ BO_ "E2EDataId" INT 0 65535;
BA_DEF_ BO_ "E2EDataIds" STRING ;
BA_DEF_ BO_ "E2EDataIdMode" ENUM "both","alternating","low","nibble";
BA_DEF_ BO_ "E2EOffset" INT 0 512;
BA_DEF_ BO_ "E2EMaxDelta" INT 0 255;
BA_DEF_DEF_ "GenMsgCycleTime" 10;
BA_DEF_DEF_ "E2EProfile" "";
BA_DEF_DEF_ "E2EDataId" 0;
BA_DEF_DEF_ "E2EDataIds" "";
BA_DEF_DEF_ "E2EDataIdMode" "both";
BA_DEF_DEF_ "E2EOffset" 0;
BA_DEF_DEF_ "E2EMaxDelta" 0;
BA_ "E2EProfile" BO_ 256 "P01";
BA_ "E2EDataId" BO_ 256 291;
BA_ "E2EDataIdMode" BO_ 256 3;
BA_ "E2EProfile" BO_ 257 "PROFILE_02";
BA_ "E2EDataIds" BO_ 257 "1,2,3,4,5,6,7,8,9,10,11,12,13,14,15,0x10";
BA_ "E2EProfile" BO_ 258 "5";
BA_ "E2EDataId" BO_ 258 4660;
BA_ "E2EOffset" BO_ 258 16;
BA_ "E2EMaxDelta" BO_ 258 3;
BA_ "E2EProfile" BO_ 260 "P04";
"""


def test_attributes_of_a_database(tmp_path):
    pytest.importorskip("canmatrix")
    (tmp_path / "car.dbc").write_text(ATTRIBUTES)
    messages = {one.name: one for one in load_database(tmp_path / "car.dbc").messages}
    assert profile_in(messages["One"]) == e2e.Profile1(0x123, "nibble")
    assert profile_in(messages["Two"]) == e2e.Profile2(IDS)
    assert profile_in(messages["Five"]) == e2e.Profile5(0x1234, offset=16, max_delta=3)
    assert profile_in(messages["Plain"]) is None
    with pytest.raises(
        ValueError, match=r"car\.dbc:11: attributes of Wrong, E2EProfile=P04, .*: there are the profiles 1, 2, 5"
    ):
        profile_in(messages["Wrong"])
    with Bench("engine,ecu", bitrate=500_000) as bench:
        with bench.rest_bus(tmp_path / "car.dbc", without=["ECU"], interface="engine") as rest:
            for name in ("One", "Two", "Five"):
                rest.protect(name)
            for name in ("One", "Two", "Five"):
                assert len(bench.expect_protected(name, count=5)) == 5
            with pytest.raises(
                ValueError, match="^Plain in the database has no attribute E2EProfile: give a profile, such as"
            ):
                rest.protect("Plain")
            with pytest.raises(ValueError, match="^the database has no attribute E2EProfile: give a profile"):
                bench.expect_protected(0x7FF)
