"""A test that is swept, and its runs."""

from collections.abc import Sequence
from dataclasses import dataclass, field
from typing import Optional

from canbusd._sweep.attempts import Attempted
from canbusd._sweep.places import USUAL, Place, Result
from canbusd._sweep.worker import Task


@dataclass
class Test:
    """A test or a command that is swept, and its runs."""

    __test__ = False

    task: Task
    kinds: Sequence[str] = USUAL
    senders: Sequence[str] = ()
    ids: Sequence[str] = ()
    #: The groups that are known to fail.
    known: Sequence[str] = ()
    pairs: int = 0
    #: The result of the run without a fault, the attempts of this run, and its duration in seconds of real time.
    base: Optional[Result] = None
    attempts: list[Attempted] = field(default_factory=list)
    real_seconds: float = 0.0
    places: list[Place] = field(default_factory=list)

    @property
    def name(self) -> str:
        """The name of the test or command."""
        return self.task.name
