"""Strategies for Hypothesis. The generated frames can be sent, the program accepts the generated fault plans, and
failing examples shrink to simple ones."""

import pytest

hypothesis = pytest.importorskip("hypothesis", reason="no Hypothesis (python3-hypothesis)")

from hypothesis import find, given, settings  # noqa: E402

from canbusd.bench import Bench  # noqa: E402
from canbusd.faults import Faults  # noqa: E402
from canbusd.frames import Frame, command_of  # noqa: E402
from canbusd.strategies import fault_plans, frames, message_sets  # noqa: E402

NAMES = "can0,can1,can2"
quiet = settings(deadline=None, derandomize=True, database=None, max_examples=60)


@quiet
@given(frames(fd=True))
def test_frames_can_be_sent(frame):
    assert command_of(frame)
    assert Frame.parse(str(frame)) == frame


def test_each_kind_of_frame_is_made():
    kinds = [
        lambda frame: frame.is_extended_id,
        lambda frame: frame.is_remote_frame and frame.dlc == 8,
        lambda frame: frame.is_fd and len(frame.data) == 64,
        lambda frame: not frame.is_extended_id and len(frame.data) == 8,
    ]
    for kind in kinds:
        assert kind(find(frames(fd=True), kind, settings=settings(quiet, max_examples=2000)))
    assert find(frames(), lambda frame: True, settings=quiet) == Frame(0)
    assert find(frames(extended=True, remote=False), lambda frame: True, settings=quiet) == Frame(
        0, is_extended_id=True
    )


@quiet
@given(fault_plans(NAMES))
def test_the_program_takes_plans(plan):
    with Bench(NAMES, faults=plan) as bench:
        bench.open("can0").send(0x123)
        assert [attempt.fault for attempt in bench.run()][0] == plan.of(0)


@quiet
@given(fault_plans(NAMES, most_rules=4))
def test_the_program_takes_rules(plan):
    assert eval(repr(plan)) == plan
    with Bench(NAMES, faults=plan) as bench:
        bench.open("can0").send(0x123)
        bench.open("can1").send(0x124)
        faults = [attempt.fault for attempt in bench.run()]
        assert [attempt.fault for attempt in bench.record().attempts] == faults


def test_plans_shrink():
    assert find(fault_plans(NAMES), lambda plan: True, settings=quiet) == Faults()
    found = find(fault_plans(NAMES), lambda plan: plan.of(3).startswith("local"), settings=quiet)
    assert repr(found) == "Faults().local('crc', ['can0'], 3)"
    found = find(fault_plans(NAMES, most_rules=2), lambda plan: plan.rules, settings=quiet)
    assert repr(found) == "Faults().next(1).last_bit()"


@quiet
@given(message_sets(NAMES))
def test_no_identifier_is_sent_by_two(messages):
    assert list(messages) == NAMES.split(",")
    sent = [(frame.arbitration_id, frame.is_extended_id) for some in messages.values() for frame in some]
    assert len(set(sent)) == len(sent)
