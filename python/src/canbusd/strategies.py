"""Hypothesis strategies for frames, fault plans, and the messages of a bus.

    @given(fault_plans("can0,can1"))
    def test_my_node(plan):
        with Bench("can0,can1", faults=plan) as bench:
            ...

A bench always produces the same run from the same plan. So a failure that Hypothesis has found and shrunk can be turned
into an ordinary test: the plan that Hypothesis prints is Python code.
"""

from collections.abc import Sequence
from typing import Optional, Union

from hypothesis import strategies as st
from hypothesis.strategies import SearchStrategy

from canbusd._words import DATA_LENGTHS, FD_LENGTHS, REMOTE_LENGTHS
from canbusd.faults import Faults
from canbusd.frames import Frame
from canbusd.rules import Rule

Names = Union[str, Sequence[str]]


def frames(*, extended: Optional[bool] = None, remote: bool = True, fd: bool = False) -> SearchStrategy[Frame]:
    """Generates valid data frames with 11-bit or 29-bit identifiers. Also generates remote frames unless `remote` is
    false, and FD frames if `fd` is true.

    The simplest frames are data frames with a low 11-bit identifier and no data.
    """
    kinds = [data_frames(extended)]
    kinds += [remote_frames(extended)] if remote else []
    kinds += [fd_frames(extended)] if fd else []
    return st.one_of(kinds)


def identifiers(extended: Optional[bool] = None) -> SearchStrategy[tuple[int, bool]]:
    """Generates pairs of an identifier and a bool. The bool is true if the identifier has 29 bits."""
    short, long = (st.tuples(st.integers(0, most), st.just(most > 0x7FF)) for most in (0x7FF, 0x1FFFFFFF))
    return st.one_of(short, long) if extended is None else long if extended else short


def data_frames(extended: Optional[bool] = None) -> SearchStrategy[Frame]:
    """Generates classic CAN data frames."""
    return st.builds(lambda one, data: Frame(one[0], data, one[1]), identifiers(extended), bytes_of(DATA_LENGTHS))


def remote_frames(extended: Optional[bool] = None) -> SearchStrategy[Frame]:
    """Generates remote frames."""
    return st.builds(
        lambda one, dlc: Frame(one[0], b"", one[1], is_remote_frame=True, dlc=dlc),
        identifiers(extended),
        st.sampled_from(REMOTE_LENGTHS),
    )


def fd_frames(extended: Optional[bool] = None) -> SearchStrategy[Frame]:
    """Generates FD frames with all valid data lengths and all combinations of flags."""
    return st.builds(
        lambda one, data, brs, esi: Frame(
            one[0], data, one[1], is_fd=True, bitrate_switch=brs, error_state_indicator=esi
        ),
        identifiers(extended),
        bytes_of(FD_LENGTHS),
        st.booleans(),
        st.booleans(),
    )


def bytes_of(lengths: Sequence[int]) -> SearchStrategy[bytes]:
    """Generates byte strings of these lengths, with equal probability for each length."""
    return st.sampled_from(lengths).flatmap(lambda length: st.binary(min_size=length, max_size=length))


def listed(names: Names) -> list[str]:
    """Returns the names of interfaces as a list."""
    return names.split(",") if isinstance(names, str) else list(names)


def faults_of_one(names: Names) -> SearchStrategy[str]:
    """Generates the fault of one attempt, written as in a fault script."""
    known = listed(names)
    hit = st.sets(st.sampled_from(known), min_size=1).map(lambda some: ",".join(sorted(some, key=known.index)))
    local = st.builds("local {} {}".format, st.sampled_from(["crc", "stuff", "form"]), hit)
    return st.one_of(st.sampled_from(["lastbit", "global bit", "global form"]), local)


def rules(names: Names, attempts: int = 32) -> SearchStrategy[Rule]:
    """Generates rules for the next attempts of one interface or of all interfaces. A rule may skip attempts. It applies
    to at most `attempts` attempts, and skips at most `attempts`."""
    known = listed(names)
    senders = st.one_of(st.just(()), st.sampled_from(known).map(lambda name: (name,)))
    counts, skips = st.integers(1, attempts), st.integers(0, attempts)
    return st.builds(Rule, counts, faults_of_one(names), senders, st.none(), skips)


def fault_plans(names: Names, attempts: int = 32, most: int = 8, most_rules: int = 0) -> SearchStrategy[Faults]:
    """Generates fault plans for these interfaces. A plan has at most `most` faults, all in the first `attempts`
    attempts, and at most `most_rules` rules.

    Plans shrink to few faults in early attempts. The simplest fault is a fault in the last bit.
    """
    verdicts = st.dictionaries(st.integers(0, attempts - 1), faults_of_one(names), max_size=most)
    return st.builds(plan_of, verdicts, st.lists(rules(names, attempts), max_size=most_rules))


def plan_of(verdicts: dict[int, str], given: Sequence[Rule] = ()) -> Faults:
    """Returns the plan with these faults (verdicts by attempt number) and these rules."""
    plan = Faults()
    for rule in given:
        plan._add_rule(rule)
    for attempt, verdict in sorted(verdicts.items()):
        plan._add(verdict, attempt)
    return plan


def message_sets(
    names: Names, *, most: int = 4, extended: Optional[bool] = None
) -> SearchStrategy[dict[str, list[Frame]]]:
    """Generates a dict with the messages that each interface of a bus sends. As on a real bus, no two interfaces send
    the same identifier."""
    known = listed(names)
    senders = st.lists(
        st.tuples(data_frames(extended), st.sampled_from(known)),
        max_size=most * len(known),
        unique_by=lambda one: (one[0].arbitration_id, one[0].is_extended_id),
    )
    return senders.map(lambda pairs: {name: [frame for frame, by in pairs if by == name] for name in known})
