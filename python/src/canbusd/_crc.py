"""The CRCs that the AUTOSAR end-to-end profiles use (SWS_CRCLibrary), computed with tables."""

from collections.abc import Sequence

from canbusd.frames import data_bytes


def _table(polynomial: int, bits: int) -> list[int]:
    """Returns the table with the CRC of every byte value."""
    table, highest, mask = [], 1 << bits - 1, (1 << bits) - 1
    for byte in range(256):
        crc = byte << bits - 8
        for _ in range(8):
            crc = (crc << 1 ^ (polynomial if crc & highest else 0)) & mask
        table.append(crc)
    return table


J1850, _H2F, _CCITT = _table(0x1D, 8), _table(0x2F, 8), _table(0x1021, 16)


def crc8_of(table: Sequence[int], data: bytes, crc: int) -> int:
    """Updates an 8-bit CRC with these bytes, using a table, and returns the new CRC."""
    for byte in data:
        crc = table[crc ^ byte]
    return crc


def crc8(data: bytes) -> int:
    """Returns the CRC-8 of SAE J1850: polynomial 1D, initial value FF, inverted at the end."""
    return crc8_of(J1850, data_bytes(data), 0xFF) ^ 0xFF


def crc8_h2f(data: bytes) -> int:
    """Returns the CRC-8 with polynomial 2F and initial value FF, inverted at the end."""
    return crc8_of(_H2F, data_bytes(data), 0xFF) ^ 0xFF


def crc16(data: bytes) -> int:
    """Returns the CRC-16 CCITT-FALSE: polynomial 1021, initial value FFFF."""
    crc = 0xFFFF
    for byte in data_bytes(data):
        crc = (crc << 8 & 0xFFFF) ^ _CCITT[crc >> 8 ^ byte]
    return crc
