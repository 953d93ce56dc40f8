"""Loads libcanbusd, and declares its functions for ctypes. Structs are packed to and unpacked from bytes, which is
faster than setting the fields of a ctypes.Structure."""

import ctypes
import ctypes.util
import functools
import os
import struct
import subprocess
from collections.abc import Callable
from pathlib import Path
from typing import Optional

from canbusd._process.program import SET_BY
from canbusd._process.rates import Rates

#: The ABI version of the library that this module uses, and the library's file name with this version.
ABI = 0
SONAME = f"libcanbusd.so.{ABI}"

# The return codes of canbusd.h that do not stand for a refusal.
OK, NOTHING = 0, 12

# The structs in canbusd.h. In results, a frame consists of its head (identifier word, length and flags) and its data.
CONFIG = struct.Struct("=7I")
FRAME = struct.Struct("=IBBxx64s")
HEAD = struct.Struct("=IBB")
ITEM = struct.Struct("=6sxx64s16xQ")
FILTER = struct.Struct("=2I")
TRIED = struct.Struct("=6sxx64sIIQQ3I4x")
STATUS = struct.Struct("=4I5Q")
STATS = struct.Struct("=3Q")
LOAD = struct.Struct("=4IQ")

_POINTER, _U32, _U64, _SIZE = ctypes.c_void_p, ctypes.c_uint32, ctypes.c_uint64, ctypes.c_size_t
_TEXT = [_POINTER, _POINTER, _SIZE, _POINTER]
_CALLS = {
    "new": [ctypes.c_char_p, _POINTER, _POINTER],
    "open": [_POINTER, _U32, _U32, _POINTER],
    "close": [_POINTER, _U32, _POINTER],
    "set_filters": [_POINTER, _U32, _POINTER, _SIZE],
    "set_option": [_POINTER, _U32, _U32, _U32],
    "send": [_POINTER, _U32, _POINTER, _POINTER],
    "receive": [_POINTER, _U32, _POINTER],
    "attempt": [_POINTER, _U64, _POINTER],
    "run": [_POINTER, _U64, _POINTER],
    "restart": [_POINTER, _U32, _U64],
    "down": [_POINTER, _U32, _U64],
    "inject": [_POINTER, ctypes.c_char_p],
    "end_rules": [_POINTER],
    "get_status": [_POINTER, _U32, _POINTER],
    "get_stats": [_POINTER, _U32, _POINTER],
    "get_load": [_POINTER, _U64, _POINTER],
    "record": _TEXT,
}
#: The functions for benches, which older libraries do not have.
_BENCH_CALLS = {
    "bench_new": [ctypes.c_char_p, _POINTER, _U32, _U32, ctypes.c_char_p, _SIZE, _POINTER, _POINTER],
    "bench_take": [_POINTER, ctypes.c_char_p, _SIZE, _POINTER, _SIZE, _POINTER, _POINTER],
    "bench_output": _TEXT,
    "bench_record": _TEXT,
    "bench_log": _TEXT,
}


class LibraryNotFound(FileNotFoundError):
    """No libcanbusd was found at the expected paths."""


def find_library() -> str:
    """Returns the path of libcanbusd: `$CANBUSD_LIBRARY`, or the first library found in the package, in the clone of
    the package, or in the system."""
    given = os.environ.get("CANBUSD_LIBRARY")
    if given:
        if not os.path.isfile(given):
            raise LibraryNotFound(f"{SET_BY.get('CANBUSD_LIBRARY', 'CANBUSD_LIBRARY')} names no library: {given}")
        return os.path.abspath(given)
    package = Path(__file__).resolve().parents[1]
    packed, clone = package / "program" / SONAME, package.parent.parent.parent
    if packed.is_file():
        return str(packed)
    script = clone / "scripts" / "library"
    if script.is_file() and (clone / "crates.txt").is_file():
        fitting = subprocess.run([script, "fitting"], stdout=subprocess.PIPE, text=True, check=False)
        if fitting.returncode == 0:
            return str(clone / fitting.stdout.strip())
    found = ctypes.util.find_library("canbusd")
    if found == SONAME:
        return found
    raise LibraryNotFound(
        f"no {SONAME} fits this package; install the wheel, build it by scripts/library, or set CANBUSD_LIBRARY to its path"
    )


@functools.lru_cache(maxsize=None)
def quick(name: str) -> Callable[..., int]:
    """Returns a library function that must be called with ctypes objects, because its arguments are not converted. The
    function does not release the GIL, because it never blocks."""
    function: Callable[..., int] = ctypes.PyDLL(find_library())[f"canbusd_{name}"]
    return function


@functools.lru_cache(maxsize=None)
def library() -> ctypes.CDLL:
    """Returns the library. The first call loads it."""
    loaded = ctypes.CDLL(find_library())
    has_benches = hasattr(loaded, "canbusd_bench_new")
    for name, arguments in {**_CALLS, **(_BENCH_CALLS if has_benches else {})}.items():
        function = getattr(loaded, f"canbusd_{name}")
        function.argtypes, function.restype = arguments, _U32
    for free in (loaded.canbusd_free, *([loaded.canbusd_bench_free] if has_benches else [])):
        free.argtypes, free.restype = [_POINTER], None
    loaded.canbusd_strerror.argtypes, loaded.canbusd_strerror.restype = [_U32], ctypes.c_char_p
    return loaded


def config_of(
    ifaces: int, ack: str, report: bool, auto_restart: int, txqueue: int, limit: int, rates: Optional[Rates]
) -> bytes:
    """Returns the struct that describes a bus with this many interfaces and with these options, which must be valid."""
    nominal, fast = (rates.bitrate, rates.dbitrate or 0) if rates else (0, 0)
    reporting = (1 << ifaces) - 1 if report else 0
    return CONFIG.pack(int(ack == "peers"), reporting, txqueue, limit, auto_restart, nominal, fast)


def text_of(code: int) -> str:
    """Returns the library's error message for an error code."""
    text: bytes = library().canbusd_strerror(code)
    return text.decode()
