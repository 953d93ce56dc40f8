"""Virtual time: functions that tell whether this process runs in virtual time, and that restart pytest in virtual time.
"""

import functools
import os
import random
import shlex
import sys
import warnings
from collections.abc import Iterable, Sequence
from typing import Optional

#: The environment variables that canbusd-run sets for programs in virtual time: the path of the run's shared memory,
#: and the options that repeat the run.
SETTING, OPTIONS = "CANBUSD_RUN_VIRTUAL", "CANBUSD_RUN_OPTIONS"


def is_virtual() -> bool:
    """Returns whether this process runs in virtual time, because of ``canbusd-run --virtual`` or ``--canbusd-virtual``."""
    return bool(os.environ.get(SETTING))


@functools.lru_cache(maxsize=None)
def _warn_of_no_rate() -> None:
    text = "in virtual time the frames of a server without bitrate= take no time, and each comes pace_ms after the last"
    warnings.warn(text, stacklevel=4)


def note_rates(rates: Iterable[object]) -> None:
    """Warns once if a server in virtual time has a bus without a bit rate."""
    if is_virtual() and None in rates:
        _warn_of_no_rate()


def virtual_words(words: Sequence[str], seed: Optional[int] = None, jitter: Optional[int] = None) -> list[str]:
    """Returns the command that runs a program in virtual time."""
    from canbusd._process.program import find_program

    options = [] if seed is None else ["--seed", str(seed)]
    options += [] if jitter is None else ["--jitter", str(jitter)]
    return [find_program("canbusd-run"), "--virtual", *options, "--", *words]


def python_words(words: Sequence[str]) -> list[str]:
    """Returns the command line of this Python process. Before Python 3.10, returns a command that runs pytest with the
    arguments `words`."""
    given: Sequence[str] = getattr(sys, "orig_argv", ())
    return [sys.executable, *given[1:]] if given else [sys.executable, "-m", "pytest", *words]


def begin_test(test: str) -> None:
    """Seeds `random` at the start of a pytest test. The seed is derived from the options of the run and the name of the
    test, like those of all other random sources."""
    random.seed(f"{os.environ.get(OPTIONS)} {test}")


def repeated_by(test: str) -> str:
    """Returns the command that repeats a pytest test in the virtual time of this run."""
    options = os.environ.get(OPTIONS, "").replace("--", "--canbusd-")
    return " ".join(filter(None, ["python3 -m pytest --canbusd-virtual", options, shlex.quote(test)]))
