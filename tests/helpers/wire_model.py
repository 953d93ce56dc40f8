"""A model of frames on the wire, bit by bit, independent of the program and its definitions.

The sources are the Bosch CAN Specification 2.0, sections 3 and 6, and ISO 11898-1:2015. `python3 tests/helpers/wire_model.py`
prints the random frames of tests/rattle/can_unit_tests/tests/wire.rtt, with the numbers of their bits.
"""

from __future__ import annotations

import dataclasses
import random
from collections.abc import Iterator, Sequence

FD_LENGTHS = [0, 1, 2, 3, 4, 5, 6, 7, 8, 12, 16, 20, 24, 32, 48, 64]
ACKNOWLEDGED_END = [1, 0, 1] + 7 * [1]
# The number of bits from start of frame to end of frame. For 000# it was worked out by hand: 34 zeros including those
# of the CRC, 6 stuff bits, and 10 bits at the end. The other lengths come from the fields of the frames and from a
# second model.
KNOWN_LENGTHS = [
    ("000#", 50),
    ("123#", 45),
    ("123#R", 45),
    ("123#11223344", 77),
    ("555#5555555555555555", 109),
    ("7FF#FFFFFFFFFFFFFFFF", 123),
    ("048C0000#", 69),
    ("1FFFFFFF#", 71),
]


@dataclasses.dataclass(frozen=True)
class Frame:
    """A frame. `requests` is the length in the DLC field of a remote frame."""

    number: int
    extended: bool
    data: bytes = b""
    requests: int | None = None
    is_fd: bool = False
    brs: bool = False
    esi: bool = False

    @staticmethod
    def read(text: str) -> Frame:
        """Returns the frame for a string in candump's notation. Of the flags of an FD frame, 1 is BRS and 2 is ESI."""
        word, payload = text.split("#", 1)
        number, extended = int(word, 16), len(word) == 8
        if payload.startswith("#"):
            flags = int(payload[1])
            return Frame(number, extended, bytes.fromhex(payload[2:]), None, True, flags & 1 > 0, flags & 2 > 0)
        if payload.startswith("R"):
            return Frame(number, extended, requests=int(payload[1:] or "0"))
        return Frame(number, extended, bytes.fromhex(payload))

    def __str__(self) -> str:
        payload = "R" + str(self.requests or "") if self.requests is not None else self.data.hex().upper()
        flags = f"#{self.brs + 2 * self.esi}" if self.is_fd else ""
        return f"{self.number:0{8 if self.extended else 3}X}#{flags}{payload}"


def number_bits(number: int, count: int) -> list[int]:
    """Returns the lowest `count` bits of a number, the highest bit first."""
    return [number >> place & 1 for place in reversed(range(count))]


def crc(bits: Sequence[int], width: int, polynomial: int, start: int = 0) -> list[int]:
    """Returns the content of the CRC register (Bosch, section 3.2.1) after these bits."""
    register = start
    for bit in bits:
        differs = bit ^ register >> (width - 1)
        register = (register << 1) % (1 << width)
        if differs:
            register ^= polynomial
    return number_bits(register, width)


class Sender:
    """The bits that have been sent, the number of bits at the data bit rate, the number of stuff bits, and which bits are stuff
    bits. Fixed stuff bits count as well."""

    def __init__(self) -> None:
        self.bits: list[int] = []
        self.stuffed: list[bool] = []
        self.fast = self.stuff_bits = self.run = 0

    def put(self, bit: int, fast: bool, is_stuff: bool = False) -> None:
        self.run = self.run + 1 if self.bits and self.bits[-1] == bit else 1
        self.bits.append(bit)
        self.stuffed.append(is_stuff)
        self.fast += fast

    def put_stuff_bit(self, fast: bool) -> None:
        """Adds a stuff bit if the last five bits are equal."""
        if self.run == 5:
            self.put(1 - self.bits[-1], fast, True)
            self.stuff_bits += 1

    def send(self, bits: Sequence[int], fast: bool = False) -> None:
        for bit in bits:
            self.put_stuff_bit(fast)
            self.put(bit, fast)

    def send_fixed(self, bits: Sequence[int], fast: bool) -> None:
        """Sends bits with a fixed stuff bit before the first and after every fourth bit."""
        for place, bit in enumerate(bits):
            if place % 4 == 0:
                self.put(1 - self.bits[-1], fast, True)
            self.put(bit, fast)


def arbitration_bits(frame: Frame) -> list[int]:
    rtr = int(frame.requests is not None)
    if frame.extended:
        return number_bits(frame.number >> 18, 11) + [1, 1] + number_bits(frame.number, 18) + [rtr]
    return number_bits(frame.number, 11) + [rtr, 0]


def data_bits(frame: Frame) -> list[int]:
    return [bit for byte in frame.data for bit in number_bits(byte, 8)]


def send_classic(frame: Frame, sender: Sender) -> None:
    length = len(frame.data) if frame.requests is None else frame.requests
    reserved = [0, 0] if frame.extended else [0]
    covered = [0, *arbitration_bits(frame), *reserved, *number_bits(length, 4), *data_bits(frame)]
    sender.send(covered + crc(covered, 15, 0x4599))
    sender.put_stuff_bit(False)


def send_fd(frame: Frame, sender: Sender) -> None:
    length = len(frame.data)
    sender.send([0, *arbitration_bits(frame), 1, 0, int(frame.brs)])
    code = number_bits(FD_LENGTHS.index(length), 4)
    sender.send([int(frame.esi), *code, *data_bits(frame)], frame.brs)
    count = sender.stuff_bits % 8
    gray = number_bits(count ^ count >> 1, 3)
    check = gray + [sum(gray) % 2]
    width, polynomial = (17, 0x1685B) if length <= 16 else (21, 0x102899)
    check += crc(sender.bits + check, width, polynomial, 1 << (width - 1))
    sender.send_fixed(check, frame.brs)


def sent(frame: Frame) -> Sender:
    """Returns the bits of a frame from start of frame to end of frame, with the acknowledgement of a receiver."""
    sender = Sender()
    if frame.is_fd:
        send_fd(frame, sender)
    else:
        send_classic(frame, sender)
    for bit in ACKNOWLEDGED_END:
        sender.put(bit, False)
    return sender


def bit_counts(frame: Frame) -> tuple[int, int]:
    """Returns how many bits of a frame are sent at the nominal bit rate and how many at the data bit rate."""
    sender = sent(frame)
    return len(sender.bits) - sender.fast, sender.fast


def random_data(maker: random.Random, length: int) -> bytes:
    """Returns random data. Some of it has many equal bits in a row, and so needs stuff bits."""
    choices = b"\x00\xff\x0f\xf8\x83\x3c" if maker.random() < 0.5 else bytes(range(256))
    return bytes(maker.choice(choices) for _ in range(length))


def random_frames(seed: int, count: int, is_fd: bool, longest: int) -> Iterator[Frame]:
    """Returns random frames of every kind, many of which have stuff bits."""
    maker = random.Random(seed)
    lengths = [length for length in FD_LENGTHS if length <= longest]
    for _ in range(count):
        extended = maker.random() < 0.5
        bits = 29 if extended else 11
        number = maker.getrandbits(bits) & maker.choice([-1, -1, maker.getrandbits(bits)])
        length = maker.choice(lengths)
        if is_fd:
            brs, esi = maker.random() < 0.7, maker.random() < 0.5
            yield Frame(number, extended, random_data(maker, length), None, True, brs, esi)
        elif maker.random() < 0.2:
            yield Frame(number, extended, requests=length)
        else:
            yield Frame(number, extended, random_data(maker, length))


def main() -> None:
    for frame in random_frames(1, 40, is_fd=False, longest=8):
        print(f'        ("{frame}", {bit_counts(frame)[0]}),')
    for frame in random_frames(2, 40, is_fd=True, longest=24):
        nominal, fast = bit_counts(frame)
        print(f'        ("{frame}", {nominal}, {fast}),')


if __name__ == "__main__":
    main()
