"""Limits for the value of a signal (`above`, `below`, `equals` and `between`), and errors for limits that no value can
meet."""

import math
from collections.abc import Callable, Mapping, Sequence
from decimal import Decimal
from numbers import Real
from typing import Any

from canbusd._database.formats import SignalFormat
from canbusd.signals import Value


def check_conditions(name: str, formats: Sequence[SignalFormat], conditions: Mapping[str, Any]) -> None:
    """Raises ValueError if no value of the signal can meet one of these limits. `formats` are the formats of all
    signals with this name."""
    for kind in ("above", "below"):
        if kind in conditions:
            check_number(kind, conditions[kind])
    if "between" in conditions:
        check_ends(conditions["between"])
    if "equals" in conditions:
        check_value(name, formats, conditions["equals"])


def check_number(kind: str, limit: object) -> None:
    """Raises ValueError if a limit is not a number."""
    if not isinstance(limit, (Real, Decimal)) or math.isnan(limit):
        raise ValueError(f"{kind} is a number, not {limit!r}")


def check_ends(ends: object) -> None:
    """Raises ValueError if `ends` is not a range, which consists of two numbers with the lower one first."""
    if not isinstance(ends, (tuple, list)) or len(ends) != 2:
        raise ValueError(f"between has two ends, such as (0, 100), not {ends!r}")
    for one in ends:
        check_number("each end of between", one)
    if ends[0] > ends[1]:
        raise ValueError(f"between has its lower end first: {(ends[1], ends[0])!r}, not {ends!r}")


def check_value(name: str, formats: Sequence[SignalFormat], value: Value) -> None:
    """Raises ValueError if the value is not a number or a name of the signal, or if it is a number that has a name."""
    if any(value in one.choices.values() for one in formats):
        return
    names = list(dict.fromkeys(name for one in formats for name in one.choices.values()))
    if not is_number(value):
        known = f", or one of {', '.join(names)}" if names else ""
        raise ValueError(f"{name} is a number{known}, not {value!r}")
    named = [name_of(one, value) for one in formats]
    if named and all(named):
        raise ValueError(f"{name} has a name for {value}: equals={named[0]!r}")


def is_number(value: Value) -> bool:
    """Returns whether a value is a number or a number as a string, and not NaN."""
    try:
        return not math.isnan(float(value))
    except (TypeError, ValueError):
        return False


def name_of(signal: SignalFormat, value: Value) -> str:
    """Returns the name of this number in the signal; the empty string if the number has no name."""
    numbers_of_names = {name: float(raw * signal.factor + signal.offset) for raw, name in signal.choices.items()}
    return next((name for name, number in numbers_of_names.items() if is_near(number, value)), "")


def is_near(value: Value, wanted: Value) -> bool:
    """Returns whether two values are equal. Names must be identical. Numbers may differ in the last digits, because
    multiplication by a factor causes rounding errors."""
    if isinstance(value, str):
        return value == str(wanted)
    return is_number(wanted) and math.isclose(value, float(wanted), rel_tol=1e-9, abs_tol=1e-12)


def is_above(value: Value, limit: float) -> bool:
    """Returns whether a value is a number above this limit."""
    return not isinstance(value, str) and value > limit


def is_below(value: Value, limit: float) -> bool:
    """Returns whether a value is a number below this limit."""
    return not isinstance(value, str) and value < limit


def is_between(value: Value, ends: Sequence[float]) -> bool:
    """Returns whether a value is a number within this range."""
    return not isinstance(value, str) and ends[0] <= value <= ends[1]


CONDITIONS: dict[str, Callable[[Value, Any], bool]] = {
    "above": is_above,
    "below": is_below,
    "equals": is_near,
    "between": is_between,
}


def limit_words(limit: object) -> str:
    """Formats a limit of a signal, which is a value or a range."""
    return " and ".join(map(str, limit)) if isinstance(limit, (tuple, list)) else str(limit)
