"""Frames: candump's notation, the messages of a session, and error message frames as text."""

import pytest

from canbusd.frames import BadFrame, Frame, command_of, frame_of, meaning


@pytest.mark.parametrize(
    "text, frame",
    [
        ("123#", Frame(0x123)),
        ("123#11.22", Frame(0x123, b"\x11\x22")),
        ("7ff#0102030405060708", Frame(0x7FF, bytes(range(1, 9)))),
        ("00000123#01", Frame(0x123, b"\x01", is_extended_id=True)),
        ("1FFFFFFF#", Frame(0x1FFFFFFF, is_extended_id=True)),
        ("123#R", Frame(0x123, is_remote_frame=True)),
        ("123#R0", Frame(0x123, is_remote_frame=True)),
        ("00000123#R3", Frame(0x123, is_extended_id=True, is_remote_frame=True, dlc=3)),
        ("123##0" + "AB" * 64, Frame(0x123, b"\xab" * 64, is_fd=True)),
        ("123##1", Frame(0x123, is_fd=True, bitrate_switch=True)),
        ("123##2", Frame(0x123, is_fd=True, error_state_indicator=True)),
        ("123##3", Frame(0x123, is_fd=True, bitrate_switch=True, error_state_indicator=True)),
        # On a newer Linux, candump marks FD frames with flag 4.
        ("123##511", Frame(0x123, b"\x11", is_fd=True, bitrate_switch=True)),
        ("20000204#0008000000006000", Frame(0x204, bytes([0, 8, 0, 0, 0, 0, 0x60, 0]), is_error_frame=True)),
    ],
)
def test_spelling_of_cansend(text, frame):
    assert Frame.parse(text) == frame


@pytest.mark.parametrize(
    "text",
    [
        "123#",
        "123#1122",
        "00000123#01",
        "123#R",
        "123#R8",
        "00000123#R3",
        "123##0",
        "123##0" + "00" * 12,
        "123##1",
        "00000123##2" + "00" * 16,
        "123##3AABB",
        "20000040#0000000000000000",
    ],
)
def test_a_frame_is_spelled_as_it_was_read(text):
    assert str(Frame.parse(text)) == text


@pytest.mark.parametrize(
    "text, word",
    [
        ("", "no frame"), ("123", "no frame"), ("123##", "no frame"), ("123#-1", "no frame"), ("800#", "identifier"),
        ("1234#", "identifier"), ("40000000#", "identifier"), ("123#R9", "remote"), ("123#1", "pairs"),
        ("123##0R", "pairs"), ("123#112233445566778899", "9 bytes"), ("123##0112233445566778899", "9 bytes"),
    ],
)  # fmt: skip
def test_what_is_no_frame(text, word):
    with pytest.raises(BadFrame, match=word):
        Frame.parse(text)


@pytest.mark.parametrize(
    "fields, word",
    [
        ({"arbitration_id": 0x800}, "arbitration_id"),
        ({"arbitration_id": -1}, "arbitration_id"),
        ({"arbitration_id": 0x20000000, "is_extended_id": True}, "arbitration_id"),
        ({"arbitration_id": 1, "data": bytes(9)}, "data"),
        ({"arbitration_id": 1, "data": bytes(9), "is_fd": True}, "data"),
        ({"arbitration_id": 1, "is_remote_frame": True, "dlc": 9}, "dlc"),
        ({"arbitration_id": 1, "is_remote_frame": True, "data": b"1"}, "remote"),
        ({"arbitration_id": 1, "is_remote_frame": True, "is_fd": True}, "remote"),
        ({"arbitration_id": 1, "bitrate_switch": True}, "flags"),
        ({"arbitration_id": 1, "is_remote_frame": True, "error_state_indicator": True}, "flags"),
    ],
)
def test_a_wrong_field_is_named(fields, word):
    with pytest.raises(ValueError, match=word):
        Frame(**fields)


@pytest.mark.parametrize(
    "frame, command",
    [
        (Frame(0x123, bytes.fromhex("11223344")), "send 123 4 11 22 33 44"),
        (Frame(0x123, is_extended_id=True), "send 00000123 0"),
        (Frame(0x123, is_extended_id=True, is_remote_frame=True, dlc=3), "sendrtr 00000123 3"),
        (Frame(0x7FF, bytes(12), is_fd=True), "sendfd 7FF 12" + " 00" * 12),
        (Frame(0x7FF, b"\xab", is_fd=True, bitrate_switch=True), "sendfdx 1 7FF 1 AB"),
        (Frame.parse("00000123##3"), "sendfdx 3 00000123 0"),
    ],
)
def test_the_message_that_sends_a_frame(frame, command):
    assert command_of(frame) == command


def test_nobody_sends_error_message_frames():
    with pytest.raises(BadFrame):
        command_of(Frame(0x40, bytes(8), is_error_frame=True))


@pytest.mark.parametrize(
    "message, text, timestamp",
    [
        ("frame 123 23.424242 11223344", "123#11223344", 23.424242),
        ("frame 123 9999999999.999999 ", "123#", 9999999999.999999),
        ("frame 048C0000 0.000001 FF", "048C0000#FF", 0.000001),
        ("remote 00000123 0.000005 3", "00000123#R3", 0.000005),
        ("fdframe 123 0.000001 0102030405060708090A0B0C", "123##00102030405060708090A0B0C", 0.000001),
        ("fdframex 1 123 0.000001 AABB", "123##1AABB", 0.000001),
        ("fdframex 3 00000123 0.000001  other 17", "00000123##3", 0.000001),
        ("error 204 0.000012 0008000000006000", "20000204#0008000000006000", 0.000012),
    ],
)
def test_the_frame_of_a_message(message, text, timestamp):
    frame = frame_of(message)
    assert (str(frame), frame.timestamp) == (text, timestamp)


@pytest.mark.parametrize("message", ["ok", "error bus off", "error no buffers", "error bad id", "echo", "hi", ""])
def test_an_answer_is_no_frame(message):
    assert frame_of(message) is None


@pytest.mark.parametrize(
    "text, words",
    [
        ("20000204#0008000000006000", "error warning, transmit count 96, receive count 0"),
        ("20000204#0020000000008000", "error passive, transmit count 128, receive count 0"),
        ("20000204#0030000000008080", "error passive, transmit count 128, receive count 128"),
        ("20000204#0040000000000000", "error active, transmit count 0, receive count 0"),
        ("20000040#0000000000000000", "bus off"),
        ("20000100#0000000000000000", "restarted"),
        ("20000088#0000810A00000000", "bus error, bit error while sending in the data section"),
        ("20000088#0000821A00000000", "bus error, form error while sending in the end of frame"),
        ("20000088#0000821B00000000", "bus error, form error while sending in the ACK delimiter"),
        ("20000088#0000000800000000", "bus error, in the CRC sequence"),
        ("20000088#0000040000000000", "bus error, stuff error"),
        ("200000A0#0000801900000000", "bus error, no acknowledgement, while sending in the ACK slot"),
        ("123#20", ""),
    ],
)
def test_error_message_frames_in_words(text, words):
    assert meaning(text) == Frame.parse(text).meaning == words
