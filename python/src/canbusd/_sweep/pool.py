"""Performs the runs of a sweep, several at a time. Each run gets its own processor."""

import os
import select
import shutil
import signal
import tempfile
import time
from collections import deque
from collections.abc import Callable, Iterable
from dataclasses import dataclass
from pathlib import Path
from typing import Optional

from canbusd._sweep import worker
from canbusd._sweep.places import Place, Result
from canbusd._sweep.tests import Test

#: The limit for the real time of a run is LEAST_LIMIT seconds plus TIMES times the duration of the run without a fault.
LEAST_LIMIT, TIMES = 60.0, 50.0
#: The same two values for the limit of the test's own (virtual) time.
LEAST_UNTIL, TIMES_UNTIL = 60.0, 10.0


@dataclass
class Job:
    """A run that has not started yet: a test with a placement, or without a fault."""

    test: Test
    place: Optional[Place] = None
    #: Whether to keep the page of the run if it fails.
    has_page: bool = False

    @property
    def order(self) -> worker.Order:
        """The settings for the run."""
        base, place = self.test.base, self.place
        until = None if base is None else LEAST_UNTIL + TIMES_UNTIL * base.took
        if place is None:
            return worker.Order((), 0, 0, until, self.has_page)
        return worker.Order(place.faults, place.seed, place.jitter, until, self.has_page)

    @property
    def limit(self) -> float:
        """The limit for the run's real time, in seconds."""
        return LEAST_LIMIT + TIMES * (self.test.real_seconds or LEAST_LIMIT)


@dataclass
class Run:
    """A run that has started and has not ended yet."""

    job: Job
    pid: int
    room: Path
    processor: int
    began: float
    is_late: bool = False


@dataclass
class Outcome:
    """A run that has ended. The records of the run stay in the folder `room` until `done` has returned."""

    job: Job
    result: Result
    room: Path
    modules: list[str]
    seconds: float


class Pool:
    """Performs runs. After the end or an interruption, no processes or files of the runs remain."""

    def __init__(self, at_once: int, until: Optional[float]) -> None:
        """Prepares `at_once` processors and a folder. No further run starts after the time `until`."""
        processors = sorted(os.sched_getaffinity(0))
        self._free = deque(processors[number % len(processors)] for number in range(at_once))
        self._running: dict[int, Run] = {}
        self._until = until
        self._folder = Path(tempfile.mkdtemp(prefix="canbusd-sweep-"))
        self._number = 0
        #: The number of runs that were not started because the time was up.
        self.not_begun = 0

    def carry_out(self, jobs: Iterable[Job], done: Callable[[Outcome], Iterable[Job]]) -> None:
        """Performs these runs, and the further runs that `done` returns when a run ends."""
        waiting = deque(jobs)
        try:
            while waiting or self._running:
                while waiting and self._free and not self._is_late():
                    self._start(waiting.popleft())
                if waiting and self._is_late():
                    self.not_begun += len(waiting)
                    waiting.clear()
                for pidfd in self._ended():
                    waiting.extend(self._finish(pidfd, done))
        except BaseException:
            self.end()
            raise

    def end(self) -> None:
        """Kills the runs that have not ended, and removes the folders of all runs."""
        for run in self._running.values():
            kill_group(run.pid)
        self._running.clear()
        end_children(set())
        shutil.rmtree(self._folder, ignore_errors=True)

    def _is_late(self) -> bool:
        return self._until is not None and time.monotonic() >= self._until

    def _start(self, job: Job) -> None:
        room = self._folder / str(self._number)
        room.mkdir()
        self._number += 1
        processor = self._free.popleft()
        pid = worker.start(job.test.task, job.order, room, processor)
        self._running[os.pidfd_open(pid)] = Run(job, pid, room, processor, time.monotonic())

    def _ended(self) -> list[int]:
        """Waits until a run ends or exceeds its time limit, and kills the runs that exceed it. Returns the file
        descriptors of the runs that have ended."""
        poll = select.poll()
        for pidfd in self._running:
            poll.register(pidfd, select.POLLIN)
        now = time.monotonic()
        left = min((run.began + run.job.limit - now for run in self._running.values()), default=0.0)
        over = [pidfd for pidfd, _ in poll.poll(max(0.0, left) * 1000 + 1)] if self._running else []
        for run in self._running.values():
            if time.monotonic() - run.began >= run.job.limit:
                run.is_late = True
                kill_group(run.pid)
        return over

    def _finish(self, pidfd: int, done: Callable[[Outcome], Iterable[Job]]) -> Iterable[Job]:
        run = self._running[pidfd]
        seconds = time.monotonic() - run.began
        kill_group(run.pid)
        _, status = os.waitpid(run.pid, 0)
        os.close(pidfd)
        del self._running[pidfd]
        end_children({one.pid for one in self._running.values()})
        self._free.append(run.processor)
        result, modules = worker.read_result(run.room, status)
        if run.is_late:
            result = Result("failed", f"it went on after {run.job.limit:.0f} s of real time")
        more = list(done(Outcome(run.job, result, run.room, modules, seconds)))
        shutil.rmtree(run.room, ignore_errors=True)
        return more


def kill_group(pid: int) -> None:
    """Kills the processes in the process group of a run."""
    try:
        os.killpg(pid, signal.SIGKILL)
    except ProcessLookupError:
        pass


def end_children(known: set[int]) -> None:
    """Kills all children of this process except `known`. Processes that outlived their run have become children of this
    process."""
    for _ in range(100):
        with open(f"/proc/self/task/{os.getpid()}/children", encoding="ascii") as file:
            left = [int(word) for word in file.read().split() if int(word) not in known]
        if not left:
            return
        for pid in left:
            try:
                os.kill(pid, signal.SIGKILL)
                os.waitpid(pid, 0)
            except (ProcessLookupError, ChildProcessError):
                pass
