"""The page of a run on a bus with bit rates, in a browser: bus load and time on the wire. The tests are skipped if
Chromium is not installed.
"""

import pytest
from browser import PROGRAM
from test_page import ATTEMPT, CUT, TABS, WRITTEN, long_run, opened, show_each  # noqa: F401  a fixture
from test_report import NAMES, bus_off, record_of
from test_time_on_wire import run_of_three_messages

from canbusd._page.report import page
from canbusd._process.rates import Rates
from canbusd.record import parse_record

pytestmark = pytest.mark.skipif(PROGRAM is None, reason="no chromium on the PATH")
NODES = ("a", "b", "c")
# At the first of these bit rates, each of the seven attempts takes 216 microseconds, and the next one follows at once.
FULL, HALF, DOUBLE = Rates(500000), Rates(1000000), Rates(250000)
SEEN = "lanes[0].values().map(([, words]) => words)"
# Returns whether the bus load lane is drawn at these positions on the axis: 16 pixels above its bottom edge, and above
# its top edge.
DRAWN = """(places => {
  const wide = at('lanes').width, all = at('lanes').getContext('2d').getImageData(0, 0, wide, 60).data;
  const isDrawn = (x, y) => all[4 * (y * wide + x) + 3] > 0;
  return places.map(place => Math.round(placeOf(plotted(), place))).map(x => [isDrawn(x, 36), isDrawn(x, 4)]);
})"""
# In 400 parts of the run, the page's load equals the sum of the times of all attempts divided by the length of the
# part.
SAME = """[...Array(400).keys()].every(k => {
  const from = k * 37 % 401 / 401 * run.wire.end, to = from + (1 + k * 53 % 97) / 97 * (run.wire.end - from);
  let busy = 0;
  for (let step = 0; step < axis.count; step++) {
    const begin = wire.begin[step];
    busy += Math.max(Math.min(begin + wire.busy[step], to) - Math.max(begin, from), 0);
  }
  return Math.abs(loadIn(from, to) - busy / (to - from)) < 1e-6;
})"""

# The page's load between the starts of two attempts is the fraction of this time that the first attempt takes.
EACH = """[...Array(axis.count - 1).keys()].every(step => {
  const load = loadIn(nanosAt(axis.start[step]), nanosAt(axis.start[step + 1]));
  return Math.abs(load - wire.busy[step] / (wire.begin[step + 1] - wire.begin[step])) < 1e-6;
})"""


@pytest.fixture
def half(opened):  # noqa: F811
    """The page of a run at twice the bit rate, so that the bus is idle half of the time."""
    return opened(run_of_three_messages(), NODES, HALF)


def look(shown, first, last):
    """Zooms to a part of the time axis. The limits are in microseconds."""
    shown.run(f"look({first} / 1e6, {last} / 1e6)")
    shown.settle()


def test_load_in_words(half):
    # The run has 7 attempts of 108 microseconds. Each one except the last is followed by a pause of equal length.
    assert "Bus load 53.8 % at 1 Mbit/s." in half.run("at('facts').textContent")
    assert half.run(SEEN) == ["in view 53.8 %", "in all 53.8 %"]
    for first, last, share in [(0, 108, "100.0"), (108, 216, "0.0"), (54, 162, "50.0"), (0, 216, "50.0")]:
        look(half, first, last)
        assert half.run(SEEN) == [f"in view {share} %", "in all 53.8 %"]
        assert f"in view {share} %" in half.run("at('gutter').textContent")


def test_the_track(half):
    look(half, 0, 432)
    drawn = half.run(f"{DRAWN}([50, 160, 270, 380].map(micros => micros / 1e6))")
    assert drawn == [[True, False], [False, False], [True, False], [False, False]]
    assert {"100 %", "0 %"} <= {*half.run(WRITTEN)}


def test_more_than_the_wire_can_carry(opened):
    shown = opened(run_of_three_messages(), NODES, DOUBLE)
    assert shown.run(SEEN) == ["in view 175.0 %", "in all 175.0 %"]
    assert shown.run(f"{DRAWN}([500 / 1e6])") == [[True, True]]
    assert "at 250 kbit/s." in shown.run("at('facts').textContent")


def test_attempts_are_as_long_as_they_took(half):
    assert half.run("widthOf(plotted(), 3) / plotted().width") == pytest.approx(108 / 1404, rel=0.001)
    assert half.run("at('by-time').getAttribute('aria-pressed')") == "true"
    place = "(() => { const box = at('lanes').getBoundingClientRect(); return [box.left, box.top + 70]; })()"
    left, top = half.run(place)
    width = half.run("plotted().width")
    for attempt in (2, 5):
        # This point is two thirds of the way through the attempt.
        x = left + (216 * attempt + 72) / 1404 * width
        half.mouse("mousePressed", x, top, button="left", clickCount=1)
        half.mouse("mouseReleased", x, top, button="left", clickCount=1)
        assert half.run(ATTEMPT) == attempt
        assert half.run("at('cursor').getBoundingClientRect().width") == pytest.approx(108 / 1404 * width, abs=1)


def test_by_attempts_the_load_is_that_of_their_time(half):
    look(half, 216, 648)
    half.key("t")
    assert half.run("at('by-time').getAttribute('aria-pressed')") == "false"
    assert half.run("[axis.stepAt(view.from), axis.from(view.to), nanosAt(axis.start[2])]") == [1, 6, 432000]
    assert half.run(SEEN)[0] == "in view 50.0 %"
    assert "001#55555555555505" in half.run(WRITTEN)
    half.key("t")
    half.key("0")
    assert half.run(SEEN)[0] == "in view 53.8 %"


def test_the_detail(opened):
    shown = opened(run_of_three_messages(), NODES, FULL)
    shown.run("choose(6)")
    words = shown.run(
        "[...document.querySelectorAll('#chosen dt')].map(one => [one.textContent, one.nextSibling.textContent])"
    )
    assert (
        dict(words).items()
        >= {
            "on the wire": "210 \u00b5s: 105 bits",
            "attempt": "216 \u00b5s, from its start until the next one may begin",
            # The frame loses arbitration in the attempts that start at 864 and 1080 microseconds.
            "response time": "at least 642 \u00b5s, from the start of attempt 4, its first, to this end of frame",
            "003 in view": "load 28.6 %, 28.6 % of the busy time",
        }.items()
    )
    shown.run("choose(3)")
    assert "at least 210 \u00b5s, the frame itself" in shown.run("at('chosen').textContent")


def test_an_attempt_that_failed_sent_no_whole_frame(opened):
    # The frame from can0 is destroyed 32 times, in attempts that are one microsecond apart.
    shown = opened(bus_off(), NAMES, FULL)
    shown.run("choose(0)")
    text = shown.run("at('chosen').textContent")
    assert "whole frame90 \u00b5s: 45 bits, not all of which were sent" in text
    assert "not sent in this attempt, the first in which it took part" in text
    shown.run("choose(31)")
    text = shown.run("at('chosen').textContent")
    assert "not sent in this attempt; the first in which it took part, 0, began 31 \u00b5s before" in text


def test_attempts_longer_than_the_axis(opened):
    """Attempts that are longer than the time between them are not drawn outside the lanes, and the text for the load
    stays short."""
    shown = opened(bus_off(), NAMES, FULL)
    assert shown.run(SEEN) == ["in view > 999 %", "in all > 999 %"]
    for width in (320, 500):
        shown.size(width)
        assert shown.run(CUT) == []
    shown.run("choose(31), look(axis.start[31] + 2e-5, axis.start[31] + 4e-5)")
    shown.settle()
    cursor = "['cursor', 'lanes'].map(id => at(id).getBoundingClientRect()).map(({ left, right }) => [left, right])"
    (left, right), (first, last) = shown.run(cursor)
    assert left >= first and right <= last


def test_identifiers_that_take_most(opened):
    shown = opened(run_of_three_messages(), NODES, FULL)
    shown.run("showTab('tab-load')")
    rows = "[...at('loads').rows].map(row => [...row.cells].map(cell => cell.textContent))"
    assert shown.run(rows)[1:] == [
        ["001", "3", "0", "0.648", "42.9 %", "42.9 %"],
        ["002", "2", "0", "0.432", "28.6 %", "28.6 %"],
        ["003", "2", "0", "0.432", "28.6 %", "28.6 %"],
    ]
    look(shown, 0, 432)
    assert [row[0] for row in shown.run(rows)[1:]] == ["001", "002"]
    assert shown.run("at('load-words').textContent").startswith("Bus load in view: 100.0 % of 432 \u00b5s.")


def test_shares_are_those_of_the_attempts(opened):
    # The run has 5,000 attempts that are one millisecond apart. Some of them fail, and there is one pause.
    shown = opened(long_run(), NAMES, FULL)
    assert shown.run(SAME) is True and shown.run(EACH) is True
    shown.key("t")
    assert shown.run(EACH) is True
    shown = opened(run_of_three_messages(), NODES, HALF)
    assert shown.run(SAME) is True


def test_a_run_without_attempts(opened):
    shown = opened(record_of(), NAMES, FULL)
    assert shown.run("at('facts').textContent").endswith(" Bus load 0.0 % at 500 kbit/s.")
    assert shown.run(SEEN) == ["in view 0.0 %", "in all 0.0 %"]
    for key in "t+e":
        shown.key(key)


def test_a_run_with_bus_off(opened):
    shown = opened(bus_off(), NAMES, FULL)
    for _ in range(35):
        shown.key("ArrowLeft")
    assert shown.run(ATTEMPT) == 0
    shown.key("End")
    assert shown.run("titleOf(view.step)") == "restart"
    long_text = shown.run("tipWords(0, 32)").splitlines()
    assert long_text[0] == "attempts 0 to 31" and long_text[-1].startswith("bus load ")
    # 123# has 19 bits up to the end of its data length code, plus a stuff bit after five of the last 7 zeros. They are
    # followed by 12 bits of error flags, 8 of the error delimiter and 3 of intermission.
    assert shown.run("tipWords(0, 1)").endswith("busy for 86 \u00b5s")
    assert "31 attempts begin before the wire is free" in shown.run("at('facts').textContent")


@pytest.mark.parametrize("dark", [False, True])
@pytest.mark.parametrize("width", [320, 500, 1000, 1600])
def test_nothing_is_cut_and_all_is_legible(half, width, dark):
    half.size(width, dark=dark)
    half.run("at('help').open = true")
    assert "as long as it took" in half.run("at('help').textContent")
    assert "an instant" not in half.run("at('help').textContent")
    show_each(half, width, [*TABS, "tab-load"])


# Returns the times at which this colour is drawn among a node's counters, `above` pixels above the bottom edge. The
# times are from 0 to the end of the run, in steps of `each` microseconds.
AT_MOMENTS = """((node, name, above, each) => {
  const top = 2 + lanes.slice(0, lanes.findIndex(lane => lane.number === node)).reduce((sum, lane) => sum + lane.height, 0);
  const y = top + STRIP + BAND + 4 + CURVES - 2 - above, canvas = at('lanes'), wide = plotted().width;
  const brush = new OffscreenCanvas(canvas.width, canvas.height).getContext('2d', { willReadFrequently: true });
  brush.drawImage(canvas, 0, 0);
  const row = new Uint32Array(brush.getImageData(0, y, canvas.width, 1).data.buffer);
  block(brush, theme[name], 0, 0, 1, 1);
  const wanted = new Uint32Array(brush.getImageData(0, 0, 1, 1).data.buffer)[0];
  const all = [...Array(Math.floor(axis.length * 1e6 / each)).keys()].map(k => k * each + each / 2);
  const isDrawn = x => x >= 0 && x < wide && row[x] === wanted;
  return all.filter(micros => isDrawn(Math.floor(placeOf(plotted(), micros / 1e6))));
})"""


def between(each, whole, *spans):
    """Returns the midpoints of the steps that are in one of these time spans."""
    moments = [each * k + each / 2 for k in range(whole // each)]
    return [moment for moment in moments if any(first < moment < last for first, last in spans)]


def test_a_queue_is_grey_while_a_frame_waits(half):
    """A queue is grey from the start of the first attempt of its frame until the end of the attempt that sends it.

    Attempts of 108 microseconds begin every 216 microseconds. At the start, a, b and c each queue a frame. a queues its
    next frame after the third attempt, b and c after the fourth, and a again after the fifth.
    """
    half.run("for (const lane of lanes) lane.isFolded = false; buildGutter(); redraw()")
    half.settle()
    wanted = [
        [(0, 108), (648, 756), (1080, 1188)],
        [(0, 324), (864, 972)],
        [(0, 540), (864, 1404)],
    ]
    for node, spans in enumerate(wanted):
        assert half.run(f"{AT_MOMENTS}({node}, 'queue', 8, 36)") == between(36, 1404, *spans)


def test_a_queue_without_a_bit_rate_is_grey_while_a_frame_is_known_to_wait(opened):
    """Without bit rates, attempts take no time. A frame that remains after one attempt waits until the next attempt."""
    shown = opened(run_of_three_messages(), NODES)
    shown.key("t")
    shown.run("for (const lane of lanes) lane.isFolded = false; buildGutter(); redraw()")
    shown.settle()
    # Times are relative to the first attempt, at 210. b sends in the second attempt, at 426. c sends in the third, at
    # 642, and in the last, at 1506.
    for node, spans in enumerate([[], [(0, 216)], [(0, 432), (864, 1296)]]):
        seen = shown.run(f"{AT_MOMENTS}({node}, 'queue', 8, 24)")
        at_instants = {216 * k + 12 for k in range(7)}
        assert [moment for moment in seen if moment not in at_instants] == [
            moment for moment in between(24, 1296, *spans) if moment not in at_instants
        ]


def test_an_outage_is_as_long_as_it_was(opened):
    """A state begins and ends at the end of an attempt or at a restart."""
    entries = ["open 0 1 = socket 0", "open 1 1 = socket 1", "send 0 123# = number 0"]
    for attempt in range(32):
        off = "0001" if attempt == 31 else "0000"
        entries.append(f"attempt 0.{1000 * (attempt + 1):06} global-bit = tried 0 0 123# destroyed 0000 {off}")
    entries += [
        "restart 0 0.036500 = ok",
        "send 0 124# = number 1",
        "attempt 0.037000 good = tried 0 1 124# done 0002 0000",
    ]
    lines = ["canbus record 1", "bus 2 always 0000 10 100", *entries, f"end {len(entries)}", ""]
    shown = opened(parse_record("\n".join(lines).encode()).replay, ("can0", "can1"), FULL)
    # can0 is error passive after 16 attempts and bus off after 32. An attempt begins every millisecond and takes 86
    # microseconds.
    for attempt, is_before in ((15, False), (31, True)):
        look(shown, 1000 * attempt - 100, 1000 * attempt + 300)
        seen = [moment - 1000 * attempt for moment in shown.run(f"{AT_MOMENTS}(0, 'passive', BAND + CURVES, 4)")]
        assert (max(seen) if is_before else min(seen)) == pytest.approx(86, abs=4)
        assert (min(seen) < -90) if is_before else (max(seen) > 290)
