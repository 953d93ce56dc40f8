"""Writes captures for Wireshark: pcapng files with frames in SocketCAN's link type.

Blocks and options follow the pcapng specification (draft-ietf-opsawg-pcapng), and frames follow LINKTYPE_CAN_SOCKETCAN.
"""

import struct
from collections.abc import Iterable
from typing import BinaryIO

from canbusd.frames import ERROR, EXTENDED, REMOTE, Frame, flag_number

#: The link type of the interfaces.
LINKTYPE_CAN_SOCKETCAN = 227
# The types of the blocks.
SECTION, INTERFACE, PACKET = 0x0A0D0D0A, 1, 6
# The codes of the options of a section, an interface and a packet.
APPLICATION = 4
NAME, SPEED, RESOLUTION = 2, 8, 9
FLAGS = 2
# The flag of the link type that marks an FD frame.
FD = 0x4
#: The direction of a packet, in its flags.
INBOUND, OUTBOUND = 1, 2

#: The name of an interface, a frame, and the frame's direction, which is 0 if it is not known.
Packet = tuple[str, Frame, int]


class Capture:
    """A capture that is written packet by packet. Every write contains complete blocks."""

    def __init__(self, file: BinaryIO, interfaces: Iterable[tuple[str, int]] = ()) -> None:
        """Writes the start of a capture with these interfaces. Each interface is given with its bit rate, or with 0 if
        it has none."""
        self._file = file
        self._numbers: dict[str, int] = {}
        begin = block(SECTION, struct.pack("<IHHq", 0x1A2B3C4D, 1, 0, -1), option(APPLICATION, b"canbusd"))
        file.write(begin + b"".join(self._interface(name, bitrate) for name, bitrate in interfaces))

    def write(self, packets: Iterable[Packet]) -> None:
        """Writes frames, each with its interface and its direction. An interface that is not yet in the capture is
        added to it."""
        blocks = []
        for name, frame, way in packets:
            if name not in self._numbers:
                blocks.append(self._interface(name))
            blocks.append(packet(self._numbers[name], frame, way))
        self._file.write(b"".join(blocks))

    def _interface(self, name: str, bitrate: int = 0) -> bytes:
        self._numbers[name] = len(self._numbers)
        speed = [option(SPEED, struct.pack("<Q", bitrate))] if bitrate else []
        head = struct.pack("<HHI", LINKTYPE_CAN_SOCKETCAN, 0, 0)
        # The resolution of the timestamps is one microsecond.
        return block(INTERFACE, head, option(NAME, name.encode()), option(RESOLUTION, b"\x06"), *speed)


def padded(data: bytes) -> bytes:
    """Returns the bytes padded to a multiple of 4."""
    return data + bytes(-len(data) % 4)


def option(code: int, value: bytes) -> bytes:
    """Returns an option of a block."""
    return struct.pack("<HH", code, len(value)) + padded(value)


def block(kind: int, body: bytes, *options: bytes) -> bytes:
    """Returns a block. Its length is stored at both ends, and an empty option marks the end of the options."""
    whole = padded(body) + (b"".join(options) + bytes(4) if options else b"")
    length = struct.pack("<I", len(whole) + 12)
    return struct.pack("<I", kind) + length + whole + length


def socketcan(frame: Frame) -> bytes:
    """Returns a frame in the format of the link type: the identifier in network byte order, the length, the flags and
    the data."""
    identifier = frame.arbitration_id
    identifier |= ERROR if frame.is_error_frame else EXTENDED if frame.is_extended_id else 0
    identifier |= REMOTE if frame.is_remote_frame else 0
    flags = FD | flag_number(frame) if frame.is_fd else 0
    return struct.pack(">IBBxx", identifier, frame.dlc, flags) + frame.data


def packet(number: int, frame: Frame, way: int) -> bytes:
    """Returns the block for a frame at the interface with this index."""
    data, moment = socketcan(frame), round(frame.timestamp * 1e6)
    head = struct.pack("<IIIII", number, moment >> 32, moment & 0xFFFFFFFF, len(data), len(data))
    return block(PACKET, head + padded(data), *([option(FLAGS, struct.pack("<I", way))] if way else []))
