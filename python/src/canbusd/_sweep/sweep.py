"""A sweep of tests: each test runs first without a fault and then with each placement, and the results are reported."""

import os
import random
import shutil
import time
from collections import defaultdict
from collections.abc import Iterable, Iterator
from dataclasses import dataclass
from pathlib import Path
from typing import Optional

from canbusd._sweep import worker
from canbusd._sweep.attempts import attempts_in
from canbusd._sweep.faults_given import Fault
from canbusd._sweep.places import OF_SERVERS, Place, pairs_of, places_at
from canbusd._sweep.pool import Job, Outcome, Pool
from canbusd._sweep.results import Facts, read_results, test_facts, write_page, write_results
from canbusd._sweep.telling import Telling
from canbusd._sweep.tests import Test

#: The default jitter in microseconds for runs in which simultaneous events are in another order.
JITTER = 500
#: The minimum time in seconds between two updates of the file with the results so far.
BETWEEN_NOTES = 2.0


@dataclass(frozen=True)
class Options:
    """The command-line options of a sweep."""

    at_once: int
    seconds: Optional[float]
    is_quick: bool
    pairs: int
    seeds: int
    jitter: int
    checks: int
    is_resumed: bool
    shard: Optional[tuple[int, int]]
    out: Path
    #: A single placement to repeat, given by its faults, seed and jitter.
    given: Optional[Place]


class Sweep:
    """A sweep of tests, or of a command."""

    def __init__(self, tests: list[Test], options: Options, telling: Telling) -> None:
        self._tests, self._options, self._telling = tests, options, telling
        self._until = None if options.seconds is None else time.monotonic() + options.seconds
        self._noted = 0.0
        self._modules: set[str] = set()
        self._groups: dict[tuple[str, str], list[Place]] = defaultdict(list)
        #: The placements whose repetition did not write the same records.
        self.differences: list[str] = []

    def carry_out(self) -> None:
        """Performs the sweep, and reports its results."""
        worker.adopt_orphans()
        worker.warm(())
        pool = Pool(self._options.at_once, self._until)
        try:
            self._run_all(pool)
        finally:
            pool.end()

    def _run_all(self, pool: Pool) -> None:
        """Runs each test without a fault, and then with its placements."""
        self._telling.begin(len(self._tests))
        if self._options.given is None:
            pool.carry_out([Job(test) for test in self._tests], self._base_done)
            worker.warm(sorted(self._modules))
        self._make_places()
        began = time.monotonic()
        self._note(is_due=True)
        try:
            pool.carry_out(self._jobs(), self._done)
            pool.carry_out(self._pairs(), self._done)
        finally:
            self._note(is_due=True)
        took = time.monotonic() - began
        if self._options.given is None:
            self._check(pool)
            self._confirm(pool)
            self._note(is_due=True)
            write_page(self._options.out / "index.html", self._facts())
        self._telling.end(self._tests, took, pool.not_begun, self._options.seconds, self.differences)

    def _base_done(self, outcome: Outcome) -> Iterable[Job]:
        """Stores the result of a run without a fault, and returns no further runs."""
        test = outcome.job.test
        test.base, test.real_seconds = outcome.result, outcome.seconds
        if outcome.result.outcome == "passed":
            test.attempts = attempts_in(outcome.room)
        self._modules.update(outcome.modules)
        return ()

    def _make_places(self) -> None:
        """Creates the placements for each test that passed without a fault."""
        options = self._options
        for test in self._tests:
            if options.given is not None:
                test.places = [options.given]
                continue
            if test.base is None or test.base.outcome != "passed":
                continue
            kinds = [kind for kind in test.kinds if test.task.is_virtual or kind not in OF_SERVERS]
            places = list(places_at(test.attempts, kinds, test.senders, test.ids, test.base.programs))
            places += [Place("order", (), (), seed, options.jitter) for seed in range(1, options.seeds + 1)]
            if options.shard is not None:
                number, count = options.shard
                places = places[number - 1 :: count]
            test.places = [*places]
            for place in places:
                self._groups[test.name, place.group].append(place)
        if options.is_resumed:
            read_results(options.out / "sweep.json", self._tests)

    def _jobs(self) -> Iterator[Job]:
        """Yields the runs of all placements. They alternate between the tests, so that a time limit affects all tests
        equally."""
        waiting = [
            iter([place for place in test.places if place.result is None and (place.is_sample or not self._is_quick)])
            for test in self._tests
        ]
        left = list(zip(self._tests, waiting))
        while left:
            still = []
            for test, places in left:
                place = next(places, None)
                if place is not None:
                    yield Job(test, place, has_page=self._options.given is not None)
                    still.append((test, places))
            left = still

    def _note(self, is_due: bool = False) -> None:
        """Writes the results so far to the file at regular intervals, so that a killed sweep can be resumed."""
        now = time.monotonic()
        if self._options.given is None and (is_due or now - self._noted >= BETWEEN_NOTES):
            self._noted = now
            write_results(self._options.out / "sweep.json", self._facts())

    def _facts(self) -> list[Facts]:
        """Returns the results so far."""
        return [test_facts(test) for test in self._tests]

    def _pairs_of(self, test: Test) -> int:
        """Returns how many second faults a test gets."""
        return self._options.pairs or test.pairs

    def _pairs(self) -> Iterator[Job]:
        """Yields the runs with two faults."""
        for test in self._tests:
            for place in [*pairs_of(test.places, self._pairs_of(test), random.Random(0))]:
                test.places.append(place)
                yield Job(test, place)

    @property
    def _is_quick(self) -> bool:
        return self._options.is_quick and self._options.given is None

    def _done(self, outcome: Outcome) -> Iterable[Job]:
        """Stores the result of a run with a placement. In a quick sweep, if the samples of a group have different
        outcomes, returns runs for the rest of the group."""
        test, place = outcome.job.test, outcome.job.place
        assert place is not None
        place.result = outcome.result
        self._note()
        if self._pairs_of(test) and len(place.attempts) == 1:
            place.later = attempts_in(outcome.room)
        self._telling.progress(self._tests)
        if self._options.given is not None:
            place.page = self._kept_page(outcome, "given")
        group = self._groups.get((test.name, place.group), [])
        found = {one.result.outcome for one in group if one.result is not None}
        if not self._is_quick or len(found) < 2:
            return ()
        rest = [one for one in group if one.result is None and not one.is_sample]
        for one in rest:
            one.is_sample = True
        return [Job(test, one) for one in rest]

    def _check(self, pool: Pool) -> None:
        """Repeats the runs of some placements and compares their records."""
        done = [(test, place) for test in self._tests for place in test.places if place.result is not None]
        count = min(self._options.checks, len(done))

        def take(outcome: Outcome) -> Iterable[Job]:
            test, place = outcome.job.test, outcome.job.place
            assert place is not None and place.result is not None
            if outcome.result.records != place.result.records:
                self.differences.append(f"{test.name}: {' '.join(map(str, place.faults))}")
            return ()

        pool.carry_out([Job(*done[number * len(done) // count]) for number in range(count)], take)
        self.differences.sort()

    def _confirm(self, pool: Pool) -> None:
        """Repeats the first failed run of each group, and keeps its page."""
        jobs = []
        for test in self._tests:
            firsts: dict[str, Place] = {}
            for place in test.places:
                if place.has_failed:
                    firsts.setdefault(place.group, place)
            jobs += [Job(test, place, has_page=True) for place in firsts.values()]

        def take(outcome: Outcome) -> Iterable[Job]:
            place = outcome.job.place
            assert place is not None and place.result is not None
            place.is_confirmed = outcome.result.message == place.result.message
            place.page = self._kept_page(outcome, f"{outcome.job.test.name}-{place.group}")
            return ()

        pool.carry_out(jobs, take)

    def _kept_page(self, outcome: Outcome, name: str) -> str:
        """Copies the page and the records of a run to a folder next to the sweep's page. Returns the relative path of
        the copied page."""
        found = sorted(outcome.room.glob("tmp/**/*.html"))
        if not found:
            return ""
        stem = "".join(letter if letter.isalnum() else "-" for letter in name)
        folder = self._options.out / "runs" / stem
        shutil.rmtree(folder, ignore_errors=True)
        folder.mkdir(parents=True)
        for path in [*found, *outcome.room.glob("*.rec")]:
            shutil.copyfile(path, folder / path.name)
        return os.path.relpath(folder / found[0].name, self._options.out)


def given_place(faults: Iterable[Fault], seed: int, jitter: int) -> Place:
    """Returns the placement that the command line describes."""
    return Place("given", list(faults), (), seed, jitter)
