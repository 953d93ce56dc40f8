"""Raises an error with a remedy if python-can is missing or too old.

Modules that use python-can import this module first.
"""

import re

LEAST = (4, 1)
WANTED = f"canbusd needs python-can {LEAST[0]}.{LEAST[1]} or later"
CURE = "`apt-get install python3-can` for Debian's /usr/bin/python3, else `pip install 'python-can>=4.1'`"


class NoPythonCan(ImportError):
    """Raised if python-can is missing or too old. The message says which version was found, and which command installs
    python-can."""


try:
    import can
except ModuleNotFoundError as fault:
    if fault.name != "can":
        raise
    raise NoPythonCan(f"{WANTED}, and there is none: {CURE}") from None

FOUND = str(getattr(can, "__version__", "unknown"))
_numbers = re.match(r"(\d+)\.(\d+)", FOUND)
# Debian 13 has a python-can that reports version 0.0.0; it is version 4.5.
if _numbers and (0, 0) < (int(_numbers[1]), int(_numbers[2])) < LEAST:
    raise NoPythonCan(f"{WANTED}, and found {FOUND}: {CURE}")
