"""Steps of a test, which appear in the reports of JUnit, pytest-html and allure-pytest.

    with step("the ECU wakes"):
        server.expect(0x701, within=1)
"""

import contextlib
import importlib
import sys
import time
from collections.abc import Callable, Iterator
from typing import Any, Optional


class Step:
    """A step: its title, its start time in seconds, its nesting depth, and its outcome."""

    def __init__(self, title: str, began: float, depth: int) -> None:
        self.title, self.began, self.depth = title, began, depth
        #: `passed` or `failed`, once the step has ended.
        self.outcome = "not over"

    def __str__(self) -> str:
        return f"{self.began:9.3f} s  {'  ' * self.depth}{self.title}: {self.outcome}"


class Steps:
    """The steps of the test that is currently running."""

    def __init__(self) -> None:
        self.done: list[Step] = []
        self._depth = 0
        self._start = time.monotonic()

    def lines(self) -> list[str]:
        """Returns the steps as text, one line for each step."""
        return [str(one) for one in self.done]

    @contextlib.contextmanager
    def step(self, title: str, now: Optional[Callable[[], float]]) -> Iterator[None]:
        """A context manager that adds a step, and records its outcome at the end of the block."""
        began = now() if now is not None else time.monotonic() - self._start
        one = Step(title, began, self._depth)
        self.done.append(one)
        self._depth += 1
        try:
            yield
        except BaseException as fault:
            one.outcome = f"failed, {type(fault).__name__}"
            raise
        else:
            one.outcome = "passed"
        finally:
            self._depth -= 1


#: The steps of the test that pytest is currently running.
current = Steps()


def begin() -> None:
    """Begins a test."""
    global current
    current = Steps()


@contextlib.contextmanager
def step(title: str, *, now: Optional[Callable[[], float]] = None) -> Iterator[None]:
    """Marks a step of a test: ``with step("the ECU wakes"): ..``. As a decorator, it makes every call of a function a
    step.

    The test's report shows each step with its start time: the seconds since the start of the test, or the result of
    `now`. Steps appear in JUnit files, in the reports of pytest-html and allure-pytest, and on the terminal if the test
    fails. Steps may be nested.
    """
    if not isinstance(title, str) or not title:
        raise ValueError(f"title is the text of a step, not {title!r}")
    with contextlib.ExitStack() as stack:
        allure = with_allure()
        if allure is not None:
            stack.enter_context(allure.step(title))
        stack.enter_context(current.step(title, now))
        yield


def with_allure() -> Any:
    """Returns the module `allure` if pytest has loaded the allure-pytest plugin; otherwise None."""
    return importlib.import_module("allure") if "allure_pytest" in sys.modules else None
