"""The comparison of two runs: the first difference, as text and on a page."""

import contextlib
import random

import pytest

from browser import PROGRAM
from test_commands import call
from test_page import CUT, WEAK, WIDE, opened  # noqa: F401  a fixture

from canbusd._process.rates import Rates
from canbusd._run.alignment import aligned, common
from canbusd._run.comparison import Comparison
from canbusd import Refused
from canbusd.bench import Bench
from canbusd.faults import Faults
from canbusd.frames import Frame
from canbusd.record import read_record


def run_of(tmp_path, name, faults=None, frames=6, names="can0,can1"):
    """Returns the record of a run in which the first interface sends frames. The record is also in a file."""
    (tmp_path / name).mkdir()
    with Bench(names, faults=faults, out=tmp_path / name) as bench:
        sender = bench.open(bench.names[0])
        for number in range(frames):
            sender.send(0x100 + number, bytes([number]))
        bench.run()
        return bench.record()


def test_a_frame_that_is_sent_again(tmp_path):
    """A frame that is sent again is one difference. The frames after it match."""
    one, other = run_of(tmp_path, "a"), run_of(tmp_path, "b", Faults().destroyed(4))
    words = "can0 104#04: done against destroyed (global bit), then done"
    assert Comparison(one, other).differences == [("other outcome", 4, 4, words)]
    assert Comparison(one, other).lines() == [
        f"1 difference, in attempt 4: other outcome: {words}",
        f"!         4         4  other outcome: {words}",
    ]
    assert Comparison(one, other).partners == {0: 0, 1: 1, 2: 2, 3: 3, 5: 4, 6: 5}
    [back] = Comparison(other, one).differences
    assert back == ("other outcome", 4, 4, "can0 104#04: destroyed (global bit), then done against done")
    assert Comparison(one, other).reversed("a").differences == [back]


def test_runs_that_are_alike_and_one_that_goes_on(tmp_path):
    one, same, longer = run_of(tmp_path, "a"), run_of(tmp_path, "b"), run_of(tmp_path, "c", frames=8)
    assert Comparison(one, same).lines() == ["No difference in 6 attempts"]
    more = [(6, "can0 106#06: done"), (7, "can0 107#07: done")]
    assert Comparison(one, longer).differences == [("only there", 6, number, words) for number, words in more]
    assert Comparison(longer, one).differences == [("only here", number, 6, words) for number, words in more]
    assert Comparison(longer, one).lines()[1:] == [
        f"-         {number}            only here: {words}" for number, words in more
    ]
    nothing = run_of(tmp_path, "d", frames=0)
    assert Comparison(nothing, nothing).lines() == ["No difference in 0 attempts"]


def run_at(tmp_path, name, sent, faults=None, **more):
    """Returns a run on a bus at 500 kbit/s, in which each frame is sent at a given time from a given interface."""
    (tmp_path / name).mkdir()
    with Bench("a,b,c", faults=faults, bitrate=500_000, out=tmp_path / name, **more) as bench:
        sessions = {channel: bench.open(channel) for channel in bench.names}
        for moment, channel, text in sorted(sent):
            bench.run(until=moment)
            with contextlib.suppress(Refused):
                sessions[channel].send(Frame.parse(text))
        bench.run()
        return bench.record()


def cyclic(channel, identifier, count, period=0.01, start=0.0):
    """Returns cyclic frames whose first byte is a counter."""
    return [(start + period * k, channel, f"{identifier}#{k % 16:02X}") for k in range(count)]


def test_a_frame_that_is_missing(tmp_path):
    """The frames after the missing one match, and so do the frames from other senders."""
    sent = cyclic("a", "100", 100) + cyclic("b", "200", 100, start=0.003)
    lost = [one for one in sent if one[:2] != (0.5, "a")]
    one, other = run_at(tmp_path, "a", sent), run_at(tmp_path, "b", lost)
    assert Comparison(one, other).differences == [("only here", 100, 100, "a 100#02: done")]
    assert Comparison(other, one).differences == [("only there", 100, 100, "a 100#02: done")]


def test_other_data_and_another_outcome(tmp_path):
    sent = cyclic("a", "100", 20)
    changed = [
        (moment, channel, "100#FF" if text == "100#05" and moment < 0.1 else text) for moment, channel, text in sent
    ]
    faults = Faults().next(1, id=0x100, skip=7).last_bit().next(1, id=0x100, skip=3).local("crc", ["c"])
    comparison = Comparison(run_at(tmp_path, "a", sent), run_at(tmp_path, "b", changed, faults))
    # The second rule applies to the fourth attempt and the first rule to the eighth, because the repetition of a frame
    # is an additional attempt.
    assert comparison.differences == [
        ("other outcome", 3, 3, "a 100#03: done against destroyed (local crc c), then done"),
        ("other data", 5, 6, "a 100#05 against a 100#FF"),
        ("other outcome", 6, 7, "a 100#06: done against lastbit, then done"),
    ]


def test_frames_that_come_later(tmp_path):
    """A frame that is late by more than the tolerance is reported. If all later frames are late too, only the first of
    them is reported."""
    sent = cyclic("a", "100", 100) + cyclic("b", "200", 100, start=0.003)
    late = [(moment + 0.025 * (channel == "b" and moment > 0.5), channel, text) for moment, channel, text in sent]
    one, other = run_at(tmp_path, "a", sent), run_at(tmp_path, "b", late)
    [found] = Comparison(one, other).differences
    assert (found.kind, found.words) == ("later", "b 200#02: later by 25.000 ms")
    assert Comparison(other, one).differences[0].words == "b 200#02: earlier by 25.000 ms"
    assert Comparison(one, other, tolerance=0.03).differences == []
    single = [(moment + 0.005 * (moment == 0.503), channel, text) for moment, channel, text in sent]
    other = run_at(tmp_path, "c", single)
    assert Comparison(one, other).differences == []
    assert [each.words for each in Comparison(one, other, tolerance=0).differences] == ["b 200#02: later by 5.000 ms"]


def test_runs_that_differ_in_order_only(tmp_path):
    """Two nodes send at about the same time. The command reports only a different order, and its exit status is 0."""
    sent = cyclic("a", "100", 50) + cyclic("b", "200", 50, start=0.0004)
    jittered = cyclic("a", "100", 50) + [
        (moment - 0.0008 * (k % 3 == 2), channel, text)
        for k, (moment, channel, text) in enumerate(cyclic("b", "200", 50, start=0.0004))
    ]
    one, other = run_at(tmp_path, "a", sent), run_at(tmp_path, "b", jittered)
    assert Comparison(one, other).lines() == ["The same frames in another order, first at attempt 4"]
    records = [tmp_path / name / "a.rec" for name in "ab"]
    status, written, _ = call("report", "--text", "--exit-code", "--names", "a,b,c", *records)
    assert status == 0 and written.startswith("The same frames in another order")


def test_outages_and_restarts(tmp_path):
    """A comparison reports a node that goes bus off, and a different number of restarts."""
    sent = cyclic("a", "100", 30) + cyclic("b", "200", 30, start=0.003)
    faults = Faults().next(32, sender="b", skip=10).destroyed()
    # The node restarts after 600 attempts of at least 11 bits each. The node's next frame is due earlier, so it is
    # refused.
    one = run_at(tmp_path, "a", sent, auto_restart=600)
    other = run_at(tmp_path, "b", sent, faults, auto_restart=600)
    assert [(each.kind, each.words) for each in Comparison(one, other).differences] == [
        (
            "other outcome",
            "b 200#0A: done against 31 times destroyed (global bit), then destroyed (global bit), b bus off",
        ),
        ("only here", "b 200#0B: done"),
        ("restarts", "b was restarted 0 times against 1"),
    ]


@pytest.mark.parametrize("seed", range(20))
def test_the_longest_part_in_common(seed):
    """The result is a longest common subsequence. The test computes its length from the definition."""
    source = random.Random(seed)
    for _ in range(50):
        one, other = (["abc"[source.randrange(3)] for _ in range(source.randrange(12))] for _ in range(2))
        longest = [[0] * (len(other) + 1) for _ in range(len(one) + 1)]
        for k, left in enumerate(one):
            for n, right in enumerate(other):
                longer = longest[k][n] + 1 if left == right else 0
                longest[k + 1][n + 1] = max(longer, longest[k][n + 1], longest[k + 1][n])
        found = common(one, other)
        assert len(found) == longest[-1][-1] and all(one[k] == other[n] for k, n in found)
        assert all(first[0] < then[0] and first[1] < then[1] for first, then in zip(found, found[1:]))
        pairs = aligned(one, other)
        assert [k for k, _ in pairs if k is not None] == [*range(len(one))]
        assert [n for _, n in pairs if n is not None] == [*range(len(other))]


def test_the_command(tmp_path):
    run_of(tmp_path, "a")
    run_of(tmp_path, "b", Faults().destroyed(4))
    records = [tmp_path / "a" / "can0.rec", tmp_path / "b" / "can0.rec"]
    status, written, said = call("report", "--text", "--names", "can0,can1", *records)
    assert (status, said) == (0, "") and written.startswith(
        "1 difference, in attempt 4: other outcome: can0 104#04: done against"
    )
    status, written, said = call("report", *records)
    assert (status, "</html>" in written) == (0, True)
    note = "no log names interface 1: name all interfaces with --names can0,NAME"
    assert said == f"canbusd report: note: {records[0]}: {note}\n"


def runs_of_two_nodes(tmp_path, *names):
    """Returns the paths of the records of two runs. The first interface sends a frame in both runs, and the second
    interface only in the second run.
    """
    records = []
    for folder, senders in (("a", [0]), ("b", [0, 1])):
        (tmp_path / folder).mkdir()
        with Bench(",".join(names), out=tmp_path / folder) as bench:
            sessions = [bench.open(name) for name in bench.names]
            for number in senders:
                sessions[number].send(0x123, b"\xab\xcd")
                bench.run()
        records.append(tmp_path / folder / f"{names[0]}.rec")
    return records


def test_names_of_senders_only(tmp_path):
    """A log contains only the names of senders. An interface that has no name in one run is matched by its index in the
    other run."""
    one, other = runs_of_two_nodes(tmp_path, "can0", "can1")
    wanted = [
        "1 difference, in attempt 1: only there: can1 123#ABCD: done",
        "+                   1  only there: can1 123#ABCD: done",
    ]
    assert Comparison(read_record(one), read_record(other)).lines() == wanted
    assert Comparison(read_record(one, "can0,can1"), read_record(other, "can0,can1")).lines() == wanted
    # The differences are the same if both logs are missing or only one is. A run without its log equals itself.
    one.with_suffix(".log").unlink()
    assert Comparison(read_record(one), read_record(other)).lines() == wanted
    assert Comparison(read_record(one), read_record(one, "can0,can1")).differences == []
    other.with_suffix(".log").unlink()
    assert (
        Comparison(read_record(one), read_record(other)).lines()[1]
        == "+                   1  only there: interface 1 123#ABCD: done"
    )


@pytest.mark.parametrize("names", ["can1,can0", "can1,can2", "ecu,tester"])
def test_names_that_do_not_fit(tmp_path, names):
    """Interfaces are matched by name if both runs name all of them, and otherwise by index."""
    one, other = runs_of_two_nodes(tmp_path, "can0", "can1")
    found = Comparison(read_record(other, "can0,can1"), read_record(other, names))
    if names == "can1,can0":
        assert found.lines() == ["The same frames in another order, first at attempt 0"]
    else:
        assert found.differences[0].attempt == 0
    assert Comparison(read_record(one), read_record(one, names)).differences == []


def test_receivers_in_another_order(tmp_path):
    """Receivers with the same names are equal, even if their indices differ."""
    one = tmp_path / "a" / "can0.rec"
    run_of(tmp_path, "a", names="can0,can1,can2")
    assert Comparison(read_record(one, "can0,can1,can2"), read_record(one, "can0,can2,can1")).differences == []


def test_the_exit_status(tmp_path):
    """The exit status is 0 even if the runs differ. With --exit-code it is then 1, even if a page is written."""
    one, other = runs_of_two_nodes(tmp_path, "can0", "can1")
    words = ["report", "--names", "can0,can1"]
    for form in ([], ["--text"]):
        assert call(*words, *form, one, other)[::2] == (0, "")
        assert call(*words, *form, "--exit-code", one, other)[::2] == (1, "")
        assert call(*words, *form, "--exit-code", one, one)[::2] == (0, "")
    assert call(*words, "--exit-code", one) == (2, "", "canbusd report: --exit-code needs a second record\n")


def test_interfaces_without_a_name(tmp_path):
    """A note explains how to name the interfaces. It is not printed if all interfaces have names, or if the output
    contains no names."""
    one, other = runs_of_two_nodes(tmp_path, "can0", "can1")
    note = f"note: {one}: no log names interface 1: name all interfaces with --names can0,NAME\n"
    for words in (["report"], ["report", "--text"], ["replay"], ["replay", "--json"]):
        assert call(*words, one)[::2] == (0, f"canbusd {words[0]}: {note}")
        assert call(*words, other)[::2] == (0, "")
        assert call(*words, "--names", "can0,can1", one)[::2] == (0, "")
    assert call("replay", "--quiet", one)[2] == ""
    assert call("report", "--text", other, one)[2] == f"canbusd report: {note}"


@pytest.mark.skipif(PROGRAM is None, reason="not installed: chromium")
@pytest.mark.parametrize("width", [500, 1200])
def test_both_on_one_axis(opened, tmp_path, width):  # noqa: F811
    """Each node has a second lane for the other run. The page opens at the first difference, and also shows the other
    run's events there."""
    one, other = run_of(tmp_path, "a"), run_of(tmp_path, "b", Faults().destroyed(4))
    shown = opened(one.replay, one.names, comparison=Comparison(one, other, "b.rec"))
    shown.size(width)
    assert shown.run("view.step") == 4
    assert shown.run("at('title').textContent").startswith("1 difference, in attempt 4: other outcome: can0 104#04: ")
    assert shown.run("lanes.map(lane => lane.name)") == ["can0", "can1", "can0 \u2032", "can1 \u2032"]
    said = shown.run("at('chosen').textContent")
    assert "other outcome: can0 104#04: done against destroyed (global bit), then done" in said
    assert "The same in b.rec, attempt 5: can0 104#04 done" in said
    shown.key("ArrowLeft")
    assert "The same in b.rec, attempt 3: can0 103#03 done" in shown.run("at('chosen').textContent")
    # An attempt of the other run is drawn at the position of the matching attempt of this run. A failed attempt is
    # drawn at the border before the last attempt of its frame.
    spans = "[0, 1].map(which => [...other.spans[0][which]].map(place => Math.round(100 * place)))"
    assert shown.run(spans) == [[0, 100, 200, 300, 370, 400, 500], [100, 200, 300, 400, 430, 500, 600]]
    shown.key("t")
    assert shown.run("byTime.isOn && [...other.spans[1][0]].length") == 7
    assert [shown.run(CUT), shown.run(WIDE), shown.run(WEAK)] == [[], 0, []]


@pytest.mark.skipif(PROGRAM is None, reason="not installed: chromium")
def test_a_run_beside_nothing(opened, tmp_path):  # noqa: F811
    """The title states which of the two runs has the frames."""
    one, nothing = run_of(tmp_path, "a"), run_of(tmp_path, "b", frames=0)
    shown = opened(one.replay, one.names, comparison=Comparison(one, nothing, "b.rec"))
    assert shown.run("at('title').textContent").startswith("6 differences, first in attempt 0: only here: ")
    shown = opened(nothing.replay, one.names, comparison=Comparison(nothing, one, "a.rec"))
    assert shown.run("at('title').textContent").startswith("6 differences, first in attempt 0: only there: ")
    for key in ("d", "D", "t", "m", "f", "ArrowRight"):
        shown.key(key)


@pytest.mark.skipif(PROGRAM is None, reason="not installed: chromium")
def test_from_one_difference_to_the_next_and_to_the_other_run(opened, tmp_path):  # noqa: F811
    sent = cyclic("a", "100", 20) + cyclic("b", "200", 20, start=0.003)
    faults = Faults().next(1, sender="b", skip=4).destroyed().next(1, sender="a", skip=9).destroyed()
    one = run_at(tmp_path, "one", sent)
    other = run_at(tmp_path, "other", [*sent, (0.3, "b", "300#")], faults)
    shown = opened(one.replay, one.names, comparison=Comparison(one, other, "other.rec"), rates=Rates(500_000))
    rows = "[...document.querySelectorAll('#differing .rows .row')].map(row => [...row.children].map(one => one.textContent))"
    assert [row[:3] for row in shown.run(rows)] == [
        ["9", "9", "other outcome"],
        ["18", "19", "other outcome"],
        ["", "42", "only there"],
    ]
    assert shown.run("at('tabs').firstChild.getAttribute('aria-selected')") == "true"
    assert shown.run("view.step") == 9
    shown.key("d")
    assert shown.run("view.step") == 18
    shown.key("D")
    assert shown.run("view.step") == 9
    shown.run("delete document.body.dataset.drawn")
    shown.key("o")
    shown.until("document.body?.dataset.drawn !== undefined")
    # The page shows the other run's attempt of the same frame, with the list and the load of that run. The first run is
    # now the one that is compared.
    assert shown.run("location.hash") == "#attempt=10&run=2"
    assert shown.run("run.title") == "other.rec" and shown.run("run.other.title") == "run.rec"
    assert shown.run("attemptOf[axis.count]") == 43 and shown.run("lanes[0].name") == "bus load"
    assert [row[:3] for row in shown.run(rows)][-1] == ["42", "", "only here"]
    shown.run("delete document.body.dataset.drawn")
    shown.key("o")
    shown.until("document.body?.dataset.drawn !== undefined")
    assert shown.run("run.title") == "run.rec"


@pytest.mark.skipif(PROGRAM is None, reason="not installed: chromium")
def test_bars_of_the_other_run_are_as_long_as_its_attempts(opened, tmp_path):  # noqa: F811
    """In the other run, bars and outages are drawn as long as that run's attempts took."""
    sent = cyclic("a", "100", 30) + cyclic("b", "200", 30, start=0.003)
    faults = Faults().next(32, sender="b", skip=10).destroyed()
    one = run_at(tmp_path, "one", sent, auto_restart=2)
    other = run_at(tmp_path, "other", sent, faults, auto_restart=2)
    shown = opened(one.replay, one.names, comparison=Comparison(one, other, "other.rec"), rates=Rates(500_000))
    starts, ends = shown.run("[0, 1].map(which => [...other.spans[1][which]])")
    # The frame has one byte. The record stores the end of the frame in microseconds, and 3 bits of intermission follow.
    moments = [attempt.timestamp for attempt in other.attempts if attempt.outcome == "done"]
    done = [
        k
        for k, attempt in enumerate(one for one in other.attempts if one.outcome != "idle")
        if attempt.outcome == "done"
    ]
    assert [ends[k] - ends[done[0]] for k in done] == pytest.approx(
        [moment - moments[0] for moment in moments], abs=2e-6
    )
    assert all(50 * 2e-6 < ends[k] - starts[k] < 75 * 2e-6 for k in done)
    [[iface, state, _, begin, _, end]] = shown.run(
        "run.other.away.map(([iface, state, ...more]) => [iface, STATES[state], ...more])"
    )
    off = next(attempt.timestamp for attempt in other.attempts if attempt.off)
    back = next(attempt.timestamp for attempt in other.attempts if attempt.restarted)
    first = moments[0] - (ends[done[0]] - starts[done[0]] - 6e-6)
    assert (iface, state, begin, end) == (
        1,
        "off",
        pytest.approx(off - first, abs=1e-4),
        pytest.approx(back - first, abs=1e-5),
    )
