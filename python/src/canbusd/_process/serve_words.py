"""The command-line arguments that start a server."""

from collections.abc import Mapping
from pathlib import Path
from typing import Literal, Optional, Union

from canbusd import _placement as placement
from canbusd._process.program_run import check_names
from canbusd._session.arguments import truth
from canbusd.faults import Script, script_bytes

Recorded = Literal["end", "live", "none"]


def bus_words(
    buses: tuple[str, ...], faults: Union[Script, Mapping[str, Script], None], folder: Path, run: int = 0
) -> dict[str, list[str]]:
    """Writes the fault scripts to this folder, and maps the first interface of each bus to the list of its interfaces.

    The last element of each list is the program's argument for the bus, such as `can0,can1@FILE`. `run` is the index of
    the server.
    """
    by_bus: dict[str, list[str]] = {}
    known: set[str] = set()
    for bus in buses:
        names = check_names(bus.partition("@")[0].split(","))
        twice = next((name for name in names if name in known), None)
        if twice is not None:
            raise ValueError(f"buses are of different interfaces, and two have {twice!r}")
        known.update(names)
        by_bus[names[0]] = [*names, bus]
    scripts = scripts_of(by_bus, faults)
    for name, words in by_bus.items():
        bus, at, path = words[-1].partition("@")
        given = Path(path) if at else scripts.get(name)
        script = placement.script_of((run, name), given)
        if script is None or (at and script is given):
            continue
        file = folder / f"{name}.faults"
        file.write_bytes(script_bytes(script))
        words[-1] = f"{bus}@{file}"
    return by_bus


def scripts_of(by_bus: Mapping[str, list[str]], faults: Union[Script, Mapping[str, Script], None]) -> dict[str, Script]:
    """Maps the first interface of each bus with faults to its script. Raises ValueError if a bus has two scripts."""
    if faults is None:
        return {}
    if not isinstance(faults, Mapping):
        if len(by_bus) != 1:
            example = f"{{{next(iter(by_bus))!r}: ..}}"
            raise ValueError(f"faults of several buses are a dict, by the name of a bus's first interface: {example}")
        faults = {next(iter(by_bus)): faults}
    scripts: dict[str, Script] = {}
    for given, script in faults.items():
        name = given.split(",")[0]
        if name not in by_bus:
            raise ValueError(f"faults of {given!r}: a bus is named by its first interface, here {' or '.join(by_bus)}")
        if name in scripts or "@" in by_bus[name][-1]:
            raise ValueError(f"faults of {given!r} are given twice")
        scripts[name] = script
    return scripts


def record_options(
    record: str, limit: Optional[int], flush: Optional[int], sync: bool
) -> tuple[list[str], dict[str, int]]:
    """Returns the arguments that determine when the record is written, and the numeric options. Raises ValueError if
    options contradict each other."""
    if record not in ("end", "live", "none"):
        raise ValueError(f"record is 'end', 'live' or 'none', not {record!r}")
    if record == "end":
        if flush is not None or truth("sync", sync):
            raise ValueError("flush and sync are of a server whose record is 'live' or 'none': give record='live' too")
        return [], {"limit": 1_000_000 if limit is None else limit}
    if limit is not None:
        raise ValueError(f"limit= needs record='end', not {record!r}")
    words = ["--record", record, *(["--sync"] if truth("sync", sync) else [])]
    return words, {} if flush is None else {"flush": flush}
