"""Reads and writes sweep.json. The file contains the results of a sweep, for `-resume`, `canbusd sweep --join` and
other tools."""

import json
from collections.abc import Iterable, Mapping, Sequence
from dataclasses import asdict
from pathlib import Path
from typing import Any

from canbusd._placement import BusKey
from canbusd._sweep.places import Place, Result
from canbusd._sweep.tests import Test
from canbusd._whole_file import replaced

#: The version of the file format. Files with another version are ignored.
FORMAT = 1
#: A test or a placement in the form in which it is stored in the file.
Facts = Mapping[str, Any]


def write_results(path: Path, tests: Sequence[Facts]) -> None:
    """Writes the results of tests. The old file is replaced only after the new one is complete."""
    path.parent.mkdir(parents=True, exist_ok=True)
    with replaced(path) as file:
        file.write(json.dumps({"format": FORMAT, "tests": tests}).encode())


def write_page(path: Path, tests: Sequence[Facts]) -> None:
    """Writes the page of a sweep."""
    from canbusd._page.report import filled

    text = filled("sweep.html", ["sweep.js"], ["page.css", "sweep.css"])
    data = json.dumps({"tests": tests}).replace("<", "\\u003c")
    with replaced(path) as file:
        file.write(text.replace("/*RUN*/", data).encode())


def test_facts(test: Test) -> Facts:
    """Returns the results of a test as they are stored in the file."""
    return {
        "test": test.name,
        "base": None if test.base is None else asdict(test.base),
        "known": list(test.known),
        "attempts": [{**asdict(one), "bus": bus_text(one.bus), "identifier": one.identifier} for one in test.attempts],
        "placements": [place_facts(test, place) for place in test.places],
    }


def place_facts(test: Test, place: Place) -> Facts:
    """Returns the results of a placement as they are stored in the file."""
    return {
        "kind": place.kind,
        "group": place.group,
        "faults": [str(fault) for fault in place.faults],
        "bus": " ".join(bus_text(one.bus) for one in place.attempts),
        "attempts": [one.number for one in place.attempts],
        "seed": place.seed,
        "jitter": place.jitter,
        "rule": place.as_rule(),
        "command": test.task.repeat(place),
        "kept_as": test.task.kept_as(place.as_rule()) if place.as_rule() else "",
        "result": None if place.result is None else asdict(place.result),
        "page": place.page,
    }


def bus_text(bus: BusKey) -> str:
    """Formats a bus of a test as a string: the index of its server or bench, and the bus's name."""
    return f"{bus[0]}:{bus[1]}"


def read_results(path: Path, tests: Iterable[Test]) -> None:
    """Copies results from an earlier sweep to the placements of each test whose run without a fault wrote the same
    records."""
    try:
        found = json.loads(path.read_text())
    except FileNotFoundError:
        return
    if found.get("format") != FORMAT:
        return
    known = {one["test"]: one for one in found["tests"]}
    for test in tests:
        before = known.get(test.name)
        if before is None or test.base is None or (before["base"] or {}).get("records") != test.base.records:
            continue
        results = {key_of(one): one for one in before["placements"] if one["result"] is not None}
        for place in test.places:
            one = results.get(place.key)
            if one is not None:
                place.result = Result(**one["result"])


def key_of(facts: Facts) -> tuple[str, ...]:
    """Returns a key that distinguishes a placement from the other placements of its test."""
    return facts["kind"], str(facts["seed"]), str(facts["jitter"]), *facts["faults"]
