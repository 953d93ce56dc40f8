"""The merged frames of several sessions: each frame of a bus occurs once, in order, whichever session was read first.
"""

import itertools

import pytest

from canbusd._expect import received_frames
from canbusd._expect.received_frames import Received, state_in
from canbusd._session.protocol import ErrorCounters

# The frames that the sessions on a and b receive: a sends frame 1, b sends frame 2, then a sends frame 1 again and
# frame 3. b misses frame 3.
AT_A = [
    "< frame 001 1.000001 11 same 0",
    "< frame 002 1.000002  other 0",
    "< frame 001 1.000003 11 same 1",
    "< frame 003 1.000004 33 same 2",
]
AT_B = [
    "< frame 001 1.000001 11 other 0",
    "< frame 002 1.000002  same 0",
    "< frame 001 1.000003 11 other 1",
]


def mixed(*lists):
    """Yields all possible merges of the lists. A merge keeps the order of the items of each list."""
    places = [number for number, one in enumerate(lists) for _ in one]
    for order in set(itertools.permutations(places)):
        rest = [iter(one) for one in lists]
        yield [(number, next(rest[number])) for number in order]


def test_the_order_is_that_of_the_bus():
    for texts in mixed(AT_A, AT_B):
        received = Received([["a", "b"]], ["a", "b"])
        for number, text in texts:
            received.add("ab"[number], text)
        found = [(str(seen.frame), seen.channel("ab")) for seen in received.untaken()]
        assert found == [("001#11", "b"), ("002#", "a"), ("001#11", "b"), ("003#33", "a")]
        assert [str(seen.frame) for seen in received.untaken("b")] == ["001#11", "002#", "001#11"]


def test_frames_of_one_microsecond():
    """After a fault in the last bit, a frame is sent again. The two frames have the same sender, content, number and
    timestamp, but count as two."""
    received = Received([["a", "b"]], ["a", "b"])
    for name in "abab":
        received.add(name, "< frame 001 1.000001 11 other 0")
    assert len(list(received.untaken())) == 2


def test_frames_of_two_buses_are_two():
    received = Received([["a"], ["b"]], ["a", "b"])
    received.add("b", "< frame 001 1.000002 11 other 0")
    received.add("a", "< frame 001 1.000001 11 other 0")
    assert [seen.channel("ab") for seen in received.untaken()] == ["a", "b"]
    received.take(next(received.untaken()))
    # Each bus has its own order, so taking a frame of one bus does not take earlier frames of the other bus.
    assert [seen.channel("ab") for seen in received.untaken()] == ["b"]


def test_what_is_taken():
    received = Received([["a", "b"]], ["a", "b"])
    for name, texts in (("a", AT_A), ("b", AT_B)):
        for text in texts:
            received.add(name, text)
    of_b = list(received.untaken("b"))
    received.take(of_b[1], "b")
    assert list(received.untaken("b")) == of_b[2:]
    assert [str(seen.frame) for seen in received.untaken()] == ["001#11", "003#33"]
    assert len(list(received.untaken("a"))) == 4
    received.take(of_b[2])
    assert [str(seen.frame) for seen in received.untaken("a")] == ["003#33"]
    received.take_all()
    assert list(received.untaken()) == list(received.untaken("a")) == []


def test_only_error_message_frames_of_others():
    received = Received([["a", "b"]], ["a"])
    received.begin("b", ErrorCounters("active", 0, 0))
    received.add("b", "< frame 001 1.000001 11 other 0")
    received.add("b", "< error 204 1.000002 0008000000006000")
    assert list(received.untaken()) == []
    assert received.expected_state("b", "warning").counters == ("warning", 96, 0)


@pytest.mark.parametrize(
    "text, state",
    [
        # In linux/can/error.h, byte 1 contains the state, and bytes 6 and 7 contain the error counters.
        ("204 1.0 0008000000006000", ("warning", 96, 0)),
        ("204 1.0 0004000000000060", ("warning", 0, 96)),
        ("204 1.0 0030000000008080", ("passive", 128, 128)),
        ("204 1.0 0010000000000580", ("passive", 5, 128)),
        ("204 1.0 0040000000005F00", ("active", 95, 0)),
        ("040 1.0 0000000000000000", ("off", 256, 0)),
        ("100 1.0 0000000000000000", ("active", 0, 0)),
        ("088 1.0 0000810A00000000", None),
    ],
)
def test_the_state_in_an_error_message_frame(text, state):
    assert state_in(["error", *text.split()]) == state


def states(names):
    received = Received([["a"]], ["a"])
    texts = {
        "active": "204 {} 0040000000005F00",
        "warning": "204 {} 0008000000006000",
        "passive": "204 {} 0020000000008000",
        "off": "040 {} 0000000000000000",
        "restarted": "100 {} 0000000000000000",
    }
    received.begin("a", ErrorCounters("active", 0, 0))
    for number, name in enumerate(names.split()):
        received.add("a", f"< error {texts[name].format(f'1.{number:06}')}")
    return received


def test_states_are_expected_one_after_another():
    received = states("warning passive off restarted warning active off restarted")
    found = [received.expected_state("a", state) for state in ("off", "active", "active", "off", "active")]
    assert [seen.moment for seen in found] == [1_000_002, 1_000_003, 1_000_005, 1_000_006, 1_000_007]
    # The interface is still active, and its state has not changed since then.
    assert received.expected_state("a", "active").moment == 1_000_007
    assert received.expected_state("a", "off") is None
    assert received.states_since("a") == []


def test_the_state_at_the_start_counts_only_while_it_lasts():
    assert states("").expected_state("a", "active").moment is None
    assert states("warning").expected_state("a", "active") is None
    received = states("warning passive")
    received.take_all()
    assert received.expected_state("a", "warning") is None
    assert received.expected_state("a", "passive").moment == 1_000_001


def test_old_frames_and_states_are_forgotten(monkeypatch):
    monkeypatch.setattr(received_frames, "MOST_KEPT", 20)
    monkeypatch.setattr(received_frames, "MOST_STATES", 20)
    received = Received([["a", "b"]], ["a", "b"])
    received.begin("a", ErrorCounters("active", 0, 0))
    for number in range(50):
        received.add("a", f"< frame {number:03X} 1.{number:06}  other {number}")
        received.add("a", f"< error 204 1.{number:06} 0008000000006000")
    kept = [seen.frame.arbitration_id for seen in received.untaken() if not seen.frame.is_error_frame]
    assert kept[-1] == 49 and 9 <= len(kept) <= 10
    assert received.missed(None) + len(list(received.untaken())) == 100
    received.take(next(received.untaken()))
    assert received.missed(None) == 0 and received.missed("a") == 0
    assert len(received.states["a"]) <= 20
