"""A bench inside this process, simulated by libcanbusd. Its input and output have the same format as those of the
program."""

import ctypes
import functools
import os
import weakref
from collections.abc import Callable, Sequence
from typing import NoReturn, Optional

from canbusd._library.library import LibraryNotFound, library, text_of
from canbusd._process.program import BenchError

#: The initial size of the output buffer in bytes.
ROOM = 4096


def is_used() -> bool:
    """Returns whether benches run inside this process, which is only possible with the library. They run as a separate
    process if `$CANBUSD_LIBRARY` is empty, or if `$CANBUSD` names a program and `$CANBUSD_LIBRARY` is not set."""
    given = os.environ.get("CANBUSD_LIBRARY")
    if given is None and os.environ.get("CANBUSD"):
        return False
    return given != "" and has_benches(given)


@functools.lru_cache(maxsize=None)
def has_benches(given: Optional[str]) -> bool:
    """Returns whether the library exists and supports benches. Raises LibraryNotFound if `$CANBUSD_LIBRARY` names a
    library that does not exist."""
    try:
        return hasattr(library(), "canbusd_bench_new")
    except LibraryNotFound:
        if given:
            raise
        return False


class BenchRefused(RuntimeError):
    """The library refused to create a bench. The message is the library's message for the error code."""


class BenchInside:
    """A bench of the library."""

    def __init__(
        self, names: Sequence[str], config: bytes, capacity: int, faults: bytes, why: Callable[[bytes], str]
    ) -> None:
        """Creates a bench with these interface names, this struct that describes its bus, the capacity of its receive
        queues and the text of a fault script. Raises BenchRefused if the library refuses them. `why` is a function that
        returns the program's error message for an input."""
        self._why = why
        self._input: list[bytes] = []
        self._handle = ctypes.c_void_p()
        self._functions, joined = library(), ",".join(names).encode()
        code = self._functions.canbusd_bench_new(
            joined, config, capacity, 1, faults, len(faults), ctypes.byref(self._handle), None
        )
        if code:
            raise BenchRefused(text_of(code))
        weakref.finalize(self, self._functions.canbusd_bench_free, self._handle.value)
        self._take, self._length = self._functions.canbusd_bench_take, ctypes.c_size_t()
        self._room = ctypes.create_string_buffer(ROOM)
        self._written = memoryview(self._room)
        self._arguments = self._room, ROOM, ctypes.byref(self._length), None
        self._rest = b""
        #: Whether the bench has ended, and the error that ended it if there was one.
        self.is_over = False
        self.said = ""

    def write(self, data: bytes) -> None:
        """Gives it lines."""
        self._input.append(data)
        code = self._take(self._handle, data, len(data), *self._arguments)
        length = self._length.value
        self._rest += self._written[:length] if length <= ROOM else self._text("output")
        if code:
            self._fail(code)

    def read_line(self) -> str:
        """Returns the next line of the bench's output, without the newline."""
        line, end, self._rest = self._rest.partition(b"\n")
        if not end:
            raise BenchError("the bench said nothing")
        return line.decode()

    def end(self) -> None:
        """Ends it."""
        self.is_over = True

    def forget(self) -> None:
        """Does nothing, because a forked process has its own copy of the bench."""

    def left(self, ending: str) -> Optional[bytes]:
        """Returns the record or the log of the bench; None after an error."""
        return None if self.said else self._text("record" if ending == "rec" else ending)

    def _text(self, name: str) -> bytes:
        """Calls a library function that writes a string into a buffer, and returns the string."""
        call, length = getattr(self._functions, f"canbusd_bench_{name}"), ctypes.c_size_t()
        code = call(self._handle, None, 0, ctypes.byref(length))
        room = ctypes.create_string_buffer(max(length.value, 1))
        code = code or call(self._handle, room, length.value, ctypes.byref(length))
        if code:
            self._fail(code)
        return room.raw[: length.value]

    def _fail(self, code: int) -> NoReturn:
        """Ends the bench with the error for this code."""
        self.is_over = True
        self.said = self._why(b"".join(self._input)) or f"canbusd: {text_of(code)}"
        raise BenchError(self.said)
