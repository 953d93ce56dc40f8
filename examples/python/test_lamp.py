"""Hypothesis searches for a fault plan that breaks a node, and shrinks it. The plan that it finds becomes an ordinary test.

Debian's package is python3-hypothesis. A bench gives the same run for the same plan, so the search can be repeated.
"""

import pytest
from lamp import TOGGLE, Lamp

from canbusd import Bench, Faults

hypothesis = pytest.importorskip("hypothesis", reason="Hypothesis is not installed: apt-get install python3-hypothesis")
strategies = pytest.importorskip("canbusd.strategies")

BUS = "switch,lamp"
# The fault plan that `test_a_search` finds.
FOUND = Faults().last_bit(0)
search = hypothesis.settings(deadline=None, derandomize=True, database=None, max_examples=50)


def ends_on(lamp, plan):
    """Runs the lamp on a bench with this fault plan and switches it once. Returns whether it is on after that."""
    with Bench(BUS, faults=plan) as bench:
        switch, node = bench.open("switch"), bench.open("lamp", error_frames=False)
        switch.send(TOGGLE, b"\x07")
        bench.run()
        for frame in node.receive():
            lamp.receive(frame)
        return lamp.is_on


def test_a_search():
    plans = strategies.fault_plans(BUS, attempts=4)
    plan = hypothesis.find(plans, lambda plan: not ends_on(Lamp(), plan), settings=search)
    assert plan == FOUND


def test_what_the_search_found():
    assert not ends_on(Lamp(), FOUND)
    assert ends_on(Lamp(counts=True), FOUND)


# The plans have too few faults to make the switch go bus off, which takes 32.
@search
@hypothesis.given(plan=strategies.fault_plans(BUS, attempts=8))
def test_a_lamp_that_counts(plan):
    assert ends_on(Lamp(counts=True), plan)
