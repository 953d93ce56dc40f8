"""The pattern for interface names, excerpts of lines for error messages, and counts in words."""

import re

NAME = re.compile("[A-Za-z0-9_.-]{1,15}")


def shown(line: str) -> str:
    """Returns the first 60 characters of a line. Control and non-ASCII characters are replaced, so that the result can
    be printed on a terminal."""
    return "".join(char if " " <= char <= "~" else "?" for char in line[:60]) + (" .." if len(line) > 60 else "")


def times(count: int, one: str, many: str = "") -> str:
    """Returns a count with its noun: `1 frame`, `2 frames`."""
    return f"{count:,} {one if count == 1 else many or one + 's'}"


def seconds_words(seconds: float) -> str:
    """Returns a duration with its unit: `1 second`, `0.5 seconds`."""
    return f"{seconds:g} second{'' if seconds == 1 else 's'}"
