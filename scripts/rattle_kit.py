"""Functions that the gate's scripts share: the kit's view of the crates, the results of earlier runs, and parallel
lanes of work.

`rt` and its library belong to the kit, so they are loaded from the folder that contains the command rt.
"""

import hashlib
import importlib.util
import json
import os
import shutil
import sys
import tempfile
from concurrent.futures import ThreadPoolExecutor
from typing import Any, Callable, Dict, Iterable, List, Optional, Sequence, Tuple

TOP = os.path.dirname(os.path.dirname(os.path.realpath(__file__)))
# The maximum memory of a check in bytes. It limits the number of parallel checks.
CHECK_MEMORY = 4 << 30


def load_rtlib() -> Any:
    """Returns the kit's library, or ends the script if there is no kit."""
    rt = shutil.which("rt")
    if rt is None:
        sys.exit("canbusd: the command rt of the Rattle kit has to be on the PATH")
    sys.dont_write_bytecode = True
    path = os.path.join(os.path.dirname(os.path.realpath(rt)), "rtlib.py")
    spec = importlib.util.spec_from_file_location("rtlib", path)
    assert spec and spec.loader
    module = importlib.util.module_from_spec(spec)
    sys.modules["rtlib"] = module
    spec.loader.exec_module(module)
    return module


def files_below(folder: str, parts: Iterable[str]) -> List[str]:
    """Returns the sorted paths of all files in these parts of a folder."""
    found = []
    for part in parts:
        for at, _, names in os.walk(os.path.join(folder, part)):
            found += [os.path.join(at, name) for name in names]
    return sorted(found)


def sum_of(*things: object) -> str:
    """Returns one hash of its arguments. If an argument is the path of a file and begins with /, the file's contents
    are hashed instead."""
    total = hashlib.sha256()
    for thing in things:
        if isinstance(thing, str) and thing.startswith("/") and os.path.isfile(thing):
            with open(thing, "rb") as file:
                total.update(hashlib.sha256(file.read()).digest())
        else:
            total.update(repr(thing).encode() + b"\0")
    return total.hexdigest()


def kit_sum(rtlib: Any) -> str:
    return sum_of(*[f"{rtlib.KIT}/{name}" for name in ("KIT-ID", "WHAT", "bin/rt", "bin/rtlib.py")])


class Kept:
    """Results of earlier runs on this machine, each stored under the hash of its inputs. A missing result is computed
    again. With `anew` all results are computed again."""

    def __init__(self, kind: str, anew: bool):
        home = os.environ.get("CANBUSD_KEPT") or os.path.join(
            os.environ.get("XDG_CACHE_HOME") or os.path.expanduser("~/.cache"), "canbusd-gate"
        )
        self.folder, self.anew = os.path.join(home, kind), anew

    def get(self, key: str) -> Optional[Dict[str, Any]]:
        if self.anew:
            return None
        try:
            with open(os.path.join(self.folder, key), encoding="utf-8") as file:
                found = json.load(file)
        except (OSError, ValueError):
            return None
        return found if isinstance(found, dict) and found.get("key") == key else None

    def put(self, key: str, verdict: Dict[str, Any]) -> None:
        try:
            os.makedirs(self.folder, exist_ok=True)
            with tempfile.NamedTemporaryFile("w", dir=self.folder, delete=False, encoding="utf-8") as file:
                json.dump({**verdict, "key": key}, file)
            os.replace(file.name, os.path.join(self.folder, key))
        except OSError as error:
            print(f"note: nothing is kept for the next run: {error}", file=sys.stderr)


def lanes(wanted: Optional[int] = None) -> int:
    """Returns the number of parallel checks: one for each processor, as far as the free memory allows."""
    processors = wanted or len(os.sched_getaffinity(0))
    return max(1, min(processors, free_memory() // CHECK_MEMORY))


def free_memory() -> int:
    """Returns the free memory in bytes."""
    with open("/proc/meminfo", encoding="ascii") as file:
        return {line.split(":")[0]: int(line.split()[1]) << 10 for line in file}["MemAvailable"]


def in_lanes(work: Callable[[str], Tuple[int, int]], names: Sequence[str], count: int) -> Tuple[int, int]:
    """Calls `work` for each name, in `count` threads that begin in this order. Returns the sums of the two counts that
    `work` returns: good and bad."""
    with ThreadPoolExecutor(count) as pool:
        counts = list(pool.map(work, names))
    return sum(good for good, _ in counts), sum(bad for _, bad in counts)
