"""Finds the pytest tests that are swept, and reads their markers."""

from collections.abc import Iterable, Sequence
from typing import Any, Optional

import pytest

from canbusd._sweep.items import BENCH_FIXTURE, SERVER_FIXTURES, ItemTask
from canbusd._sweep.places import USUAL, known_kinds
from canbusd._sweep.tests import Test

#: The arguments that the marker accepts.
ARGUMENTS = ("faults", "senders", "ids", "known", "pairs")


def swept_tests(items: Iterable[pytest.Item], all_of_them: bool, kinds: Optional[Sequence[str]]) -> list[Test]:
    """Returns the tests that have the marker, or all tests that use a server or a bench. If kinds of faults are given,
    they apply to all of these tests."""
    found = []
    for item in items:
        marker = item.get_closest_marker("canbusd_sweep")
        names = set(getattr(item, "fixturenames", ()))
        if marker or (all_of_them and names & {*SERVER_FIXTURES, BENCH_FIXTURE}):
            found.append(test_of(item, dict(marker.kwargs) if marker else {}, marker.args if marker else (), kinds))
    return found


def test_of(item: pytest.Item, given: dict[str, Any], args: Sequence[Any], kinds: Optional[Sequence[str]]) -> Test:
    """Returns a test with the settings of its marker. Raises UsageError if a setting is wrong."""
    unknown = next((name for name in given if name not in ARGUMENTS), None)
    if args or unknown:
        what = f"there is no argument {unknown}" if unknown else "its arguments have names"
        raise pytest.UsageError(f"{item.nodeid}: marker canbusd_sweep: {what}; there are {', '.join(ARGUMENTS)}")
    try:
        wanted = known_kinds(kinds or listed(given.get("faults", USUAL)))
    except ValueError as fault:
        raise pytest.UsageError(f"{item.nodeid}: {fault}") from None
    return Test(
        ItemTask(item),
        wanted,
        listed(given.get("senders", ())),
        [identifier_text(one) for one in listed(given.get("ids", ()))],
        listed(given.get("known", ())),
        int(given.get("pairs", 0)),
    )


def listed(value: Any) -> list[Any]:
    """Returns the value as a list. A single value becomes a list with one element."""
    return [value] if isinstance(value, (str, int)) else list(value)


def identifier_text(value: Any) -> str:
    """Returns an identifier as it appears in records, with 3 or 8 hexadecimal digits."""
    if isinstance(value, str):
        return value.upper()
    return f"{value:03X}" if value <= 0x7FF else f"{value:08X}"
