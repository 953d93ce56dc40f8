"""Adds an integer to every element of a column. The column is treated as one large integer, so that a single fast
addition is enough."""

import operator
import sys
from array import array
from collections.abc import Iterable
from typing import Literal

from canbusd._run.run_parts import WAITING_BITS

#: The size in bytes of a count of waiting frames.
WAITING_BYTES = WAITING_BITS // 8


def raised(numbers: bytes, size: int, by: int, order: Literal["little", "big"] = sys.byteorder) -> bytes:
    """Adds `by` to each of these integers, which are `size` bytes long."""
    if not by or not numbers:
        return numbers
    ones = int.from_bytes((1).to_bytes(size, order) * (len(numbers) // size), order)
    return (int.from_bytes(numbers, order) + by * ones).to_bytes(len(numbers), order)


def later(column: "array[int]", by: int) -> "array[int]":
    """Returns a copy of a column with `by` added to each element."""
    return array(column.typecode, raised(column.tobytes(), column.itemsize, by))


class Waiting:
    """Packs the increase in the number of waiting frames since the first line: for each step, two bytes for each
    interface.

    Each step has two spare bytes with the value 1. If the increase is negative, the subtraction borrows from these
    bytes and not from the next step.
    """

    def __init__(self, ifaces: int) -> None:
        self._ifaces, self._size = ifaces, WAITING_BYTES * (ifaces + 1)

    def packed(self, waiting: Iterable[int]) -> bytes:
        """Packs one integer for each step. It combines the increases at all interfaces, and may be negative."""
        spare = 1 << WAITING_BITS * self._ifaces
        each = operator.methodcaller("to_bytes", self._size, "little")
        return b"".join(map(each, map(spare.__add__, waiting)))

    def column(self, packed: bytes, before: int) -> "array[int]":
        """Returns the column with the number of waiting frames. `before` is the combined number of frames that waited
        before the first line."""
        column = array("H", raised(packed, self._size, before, "little"))
        if sys.byteorder == "big":
            column.byteswap()
        del column[self._ifaces :: self._ifaces + 1]
        return column
