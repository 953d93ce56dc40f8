"""Combines the results of several parts of a sweep."""

import json
import os
from collections import defaultdict
from collections.abc import Iterator, Sequence
from itertools import zip_longest
from pathlib import Path
from typing import Any

from canbusd._sweep.results import FORMAT, Facts, key_of, write_page, write_results
from canbusd._sweep.telling import line_of_group, line_of_test
from canbusd._text import shown


def join(paths: Sequence[Path], out: Path) -> list[Facts]:
    """Combines these parts, writes the resulting sweep.json and page to the folder `out`, and returns the tests. If a
    file belongs to another sweep, raises ValueError that names the file."""
    parts: dict[str, list[tuple[Path, Facts]]] = defaultdict(list)
    for path in paths:
        for test in read_part(path):
            parts[test["test"]].append((path, test))
    tests = [joined(found, out) for found in parts.values()]
    write_results(out / "sweep.json", tests)
    write_page(out / "index.html", tests)
    return tests


def read_part(path: Path) -> list[Facts]:
    """Returns the tests in a sweep.json file. Raises ValueError if the file is not a sweep.json."""
    try:
        found = json.loads(path.read_text(encoding="utf-8"))
    except ValueError:
        found = None
    if not isinstance(found, dict) or found.get("format") != FORMAT:
        raise ValueError(f"{path}: it is no sweep.json of this version of canbusd")
    tests: list[Facts] = found["tests"]
    return tests


def joined(parts: Sequence[tuple[Path, Facts]], out: Path) -> Facts:
    """Returns the results of a test with the placements of all parts, in the order of a sweep without parts."""
    (first, test), *others = parts
    for path, other in others:
        if records_of(other) != records_of(test):
            raise ValueError(f"{path}: {shown(test['test'])} without a fault left other records than in {first}")
    places: dict[tuple[str, ...], Facts] = {}
    for turn in zip_longest(*(moved_places(path, one, out) for path, one in parts)):
        for place in filter(None, turn):
            before = places.get(key_of(place))
            if before is None or before["result"] is None:
                places[key_of(place)] = place
    return {**test, "placements": [*places.values()]}


def records_of(test: Facts) -> Any:
    """Returns the checksum of the records that the test wrote in its run without a fault."""
    return (test["base"] or {}).get("records")


def moved_places(path: Path, test: Facts, out: Path) -> Iterator[Facts]:
    """Yields the placements of a part, with the paths of their pages relative to `out`."""
    for place in test["placements"]:
        page = os.path.relpath(path.parent / place["page"], out) if place["page"] else ""
        yield {**place, "page": page}


def lines_of(test: Facts) -> Iterator[str]:
    """Yields the lines that report the results of a test: one line for the test, and three lines for each failing
    group."""
    base, places = test["base"], test["placements"]
    if base is None or base["outcome"] != "passed":
        yield f"{test['test']}: {base['outcome'] if base else 'not run'} without a fault"
        return
    run = sum(place["result"] is not None for place in places)
    bad = failures_in(test)
    failed = sum(map(len, bad.values()))
    yield line_of_test(test["test"], len(test["attempts"]), len(places), run, failed)
    for group, failures in bad.items():
        of = sum(place["group"] == group for place in places)
        yield line_of_group(group, len(failures), of, group in test["known"])
        yield f"    {failures[0]['result']['message']}"
        yield f"    repeat: {failures[0]['command']}"


def failures_in(test: Facts) -> dict[str, list[Facts]]:
    """Returns the failed placements of each group."""
    found: dict[str, list[Facts]] = defaultdict(list)
    for place in test["placements"]:
        if place["result"] is not None and place["result"]["outcome"] == "failed":
            found[place["group"]].append(place)
    return found


def is_bad(test: Facts) -> bool:
    """Returns whether a test fails without a fault, or fails in a group that is not known to fail."""
    is_failed = test["base"] is None or test["base"]["outcome"] == "failed"
    return is_failed or any(group not in test["known"] for group in failures_in(test))
