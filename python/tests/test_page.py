"""The page of a run in a browser: keyboard, mouse, text, colours and widths. The tests are skipped if Chromium is not
installed."""

import base64
import csv
import io
import json

import pytest
from browser import PROGRAM
from test_downs import EVENTS, replay_of
from test_downs import NAMES as NAMES_OF_EVENTS
from test_report import NAMES, bus_off, record_of

from canbusd._page.report import page
from canbusd.record import parse_record

pytestmark = pytest.mark.skipif(PROGRAM is None, reason="no chromium on the PATH")
# A point in the first node's lane, 300 pixels from the left edge.
PLACE = "(() => { const box = at('lanes').getBoundingClientRect(); return [box.left + 300, box.top + 12]; })()"
ATTEMPT = "attemptOf[view.step]"
SPAN = "view.to - view.from"
# For each node, the number of colours in its state band at step 32.
COLOURS = """(() => {
  const left = placeOf(plotted(), axis.start[32]) + 3, pen = at('lanes').getContext('2d');
  const all = new Uint32Array(pen.getImageData(left, 0, 8, at('lanes').height).data.buffer);
  return lanes.map((lane, i) => {
    const top = 2 + lanes.slice(0, i).reduce((sum, one) => sum + one.height, 0) + STRIP + 4;
    return new Set(all.subarray(top * 8, (top + 6) * 8)).size;
  });
})()"""
# The strings that are drawn on the time axis.
WRITTEN = """(() => {
  const said = [], pen = CanvasRenderingContext2D.prototype, write = pen.fillText;
  pen.fillText = function (text, ...more) { said.push(text); write.call(this, text, ...more); };
  show();
  pen.fillText = write;
  return said;
})()"""
# Elements that are cut off at the right edge of the page, or at the edge of a box that neither scrolls nor shows that
# something is cut off.
CUT = """[...document.querySelectorAll('main *, header *')].filter(one => {
  const style = getComputedStyle(one), isSigned = style.textOverflow === 'ellipsis' || style.webkitLineClamp !== 'none';
  return one.checkVisibility() && one.scrollWidth > one.clientWidth + 1 && style.overflowX === 'hidden' && !isSigned
    || one.checkVisibility() && one.getBoundingClientRect().right > innerWidth + 1 && !one.closest('.rolling, pre');
}).map(one => one.outerHTML.slice(0, 80))"""
# The number of list rows that are wider than their list.
WIDE = "[...document.querySelectorAll('.row')].filter(one => one.checkVisibility() && one.scrollWidth > one.clientWidth).length"
# The elements whose text contrast with the background, as defined by WCAG 2, is below 4.5.
WEAK = """(() => {
  const channels = colour => colour.match(/[\\d.]+/g).map(Number);
  const luminance = ([red, green, blue]) => {
    const parts = [red, green, blue].map(one => one / 255)
      .map(one => one <= 0.03928 ? one / 12.92 : ((one + 0.055) / 1.055) ** 2.4);
    return 0.2126 * parts[0] + 0.7152 * parts[1] + 0.0722 * parts[2];
  };
  const background = one => {
    for (; one; one = one.parentElement) {
      const colour = channels(getComputedStyle(one).backgroundColor);
      if (colour.length < 4 || colour[3] > 0.99) return colour;
    }
    return [255, 255, 255];
  };
  const weak = [];
  for (const one of document.querySelectorAll('body *')) {
    if (!one.checkVisibility() || ![...one.childNodes].some(child => child.nodeType === 3 && child.data.trim())) continue;
    const style = getComputedStyle(one);
    const [dark, light] = [luminance(channels(style.color)), luminance(background(one))].sort((a, b) => a - b);
    if ((light + 0.05) / (dark + 0.05) < 4.5) weak.push(one.outerHTML.slice(0, 80));
  }
  return weak;
})()"""
# The selected rows of the current list that are in view.
MARKED = """[...lists[tab].body.querySelectorAll('[aria-selected]')].filter(row => {
  const box = lists[tab].box.getBoundingClientRect(), one = row.getBoundingClientRect();
  return one.top >= box.top && one.bottom <= box.bottom + 1;
}).map(row => row.firstChild.textContent)"""
# The outcomes in the list of attempts. If an outcome is not completely visible in its row, it is null.
OUTCOMES = """[...lists[tab].body.children].map(row => {
  const box = row.getBoundingClientRect(), words = row.querySelector('.mark').parentElement;
  const one = words.getBoundingClientRect();
  const isSeen = one.right <= box.right + 1 && one.bottom <= box.bottom + 1 && one.left >= box.left;
  return isSeen ? words.textContent : null;
})"""
# The last characters of each lane's name, or null if they are not visible.
ENDS = """lanes.map((lane, k) => {
  const name = at('gutter').children[k + 1].querySelector('.name'), end = name.lastElementChild;
  return end.getBoundingClientRect().right <= name.getBoundingClientRect().right + 1 ? end.textContent : null;
})"""
TABS = ["tab-events", "tab-attempts", "tab-items", "tab-nodes", "tab-sockets", "tab-identifiers"]


@pytest.fixture
def opened(browser, tmp_path):
    """A function that opens the page of a run, optionally with the bit rates of its bus."""

    def open_page(run, names=NAMES, rates=None, comparison=None):
        path = tmp_path / "run.html"
        path.write_text(page(run, names, "run.rec", rates=rates, comparison=comparison), encoding="utf-8")
        browser.size(1200)
        browser.open(f"file://{path}")
        return browser

    yield open_page
    assert browser.faults == []


@pytest.fixture
def shown(opened):
    """The page of a run in which can0 goes bus off during attempt 31."""
    return opened(bus_off())


def test_it_begins_with_what_matters(shown):
    assert shown.run("at('title').textContent") == "2 nodes, 32 attempts: can0 went bus off in attempt 31"
    assert shown.run(ATTEMPT) == 31
    assert shown.run("at('chosen').textContent").startswith("Attempt 31 at 0.000032")


def test_keys(shown):
    def after(*keys):
        for key in keys:
            shown.key(key)
        return shown.run(ATTEMPT)

    assert after("Home") == 0
    assert after("e") == 11
    assert after("e") == 15
    assert after("E") == 11
    assert after("ArrowRight") == 12
    assert after("F") == 11
    # The address is updated after the key is released.
    shown.until("location.hash === '#attempt=11'")
    assert after("End", "ArrowLeft") and shown.run("titleOf(view.step)") == "2 idle"
    whole = shown.run(SPAN)
    after("+")
    assert shown.run(SPAN) == whole / 2
    after("0")
    assert shown.run(SPAN) == whole


def test_rows_are_chosen_by_keys(shown):
    shown.key("Home")
    shown.run("document.querySelector('#events .rows [tabindex=\"0\"]').focus()")
    shown.key("ArrowDown")
    shown.key("Enter")
    assert shown.run(ATTEMPT) == 15
    assert shown.run("document.activeElement.getAttribute('aria-selected')") == "true"


def test_the_wheel_scrolls_and_zooms_with_ctrl_only(shown):
    x, y = shown.run(PLACE)
    whole = shown.run(SPAN)
    shown.mouse("mouseWheel", x, y, deltaX=0, deltaY=-200, modifiers=2)
    shown.until(f"{SPAN} < {whole}")
    assert shown.run("scrollY") == 0
    shown.key("0")
    shown.size(1200, 500)
    shown.mouse("mouseWheel", x, y, deltaX=0, deltaY=200)
    shown.until("scrollY > 0 || at('area').scrollTop > 0")
    assert shown.run(SPAN) == whole


def test_mouse(shown):
    x, y = shown.run(PLACE)
    shown.mouse("mouseMoved", x, y)
    said = shown.run("at('tip').textContent")
    attempt = int(said.split()[1])
    # Every attempt so far has added 8 to the transmit error counter.
    assert f"can0 {8 * (attempt + 1)}/0, can1 0/{attempt + 1}" in said
    shown.mouse("mousePressed", x, y, button="left", clickCount=1)
    shown.mouse("mouseReleased", x, y, button="left", clickCount=1)
    assert shown.run(ATTEMPT) == attempt


def show_each(shown, width, tabs):
    """Shows each list in turn. Checks that nothing is cut off or wider than the page, and that all text is legible."""
    for name in tabs:
        shown.run(f"showTab('{name}')")
        shown.settle()
        assert shown.run("document.documentElement.scrollWidth") == width
        assert shown.run(CUT) == []
        assert shown.run(WIDE) == 0
        assert shown.run(WEAK) == []


@pytest.mark.parametrize("dark", [False, True])
@pytest.mark.parametrize("width", [320, 500, 1000, 1200, 1600])
def test_nothing_is_cut_and_all_is_legible(shown, width, dark):
    shown.size(width, dark=dark)
    assert shown.run("theme.page") == ("#14181e" if dark else "#fff")
    show_each(shown, width, TABS)


def test_wide_windows_have_the_list_beside_the_detail(shown):
    sides = "['lists', 'chosen'].map(id => at(id).getBoundingClientRect()).map(({ top, left }) => [top, left])"
    shown.size(1600)
    (above, left), (beside, right) = shown.run(sides)
    assert above == beside and right > left + 700
    assert shown.run("document.documentElement.scrollHeight") == 900
    shown.size(500)
    (above, left), (below, right) = shown.run(sides)
    assert below > above and left == right


def test_numbers_are_at_the_right(shown):
    align = "[...document.querySelectorAll('#events .row')].map(row => getComputedStyle(row.firstChild).textAlign)"
    assert set(shown.run(align)) == {"right"}
    shown.run("showTab('tab-nodes')")
    aligned = "[...document.querySelectorAll('#ifaces tr')].map(row => getComputedStyle(row.children[4]).textAlign)"
    assert set(shown.run(aligned)) == {"right"}


def test_idle_attempts_are_a_step_and_a_node_that_is_off_is_hatched(shown):
    assert shown.run("sentence(32)") == "No node on the bus had a frame to send. Bus off: can0."
    off, on = shown.run(COLOURS)
    assert off > 1 and on == 1
    for key in ["End", "ArrowLeft", "+", "+", "+"]:
        shown.key(key)
    assert "2 idle" in shown.run(WRITTEN)


def test_a_node_that_is_down(opened):
    """A node that is down is hatched differently from a node that is bus off, and its state is described as `down`."""
    shown = opened(replay_of(EVENTS, 100), NAMES_OF_EVENTS)
    down = "ecu goes down: it takes no part until it is up, and its transmit queue is empty."
    assert [shown.run(f"sentence({step})") for step in (1, 8)] == [
        down,
        "No node on the bus had a frame to send. Down: ecu.",
    ]
    assert [shown.run(f"titleOf({step})") for step in (1, 2, 5)] == ["down", "attempt 1", "restart"]
    assert "down" in shown.run(WRITTEN)
    assert shown.run("stateWords(STATES[IS_DOWN])") == "down"
    assert shown.run("String(HATCH.off) !== String(HATCH.down) && theme.off !== theme.down")
    shown.run("choose(2)")
    states = (
        "[...document.querySelectorAll('#chosen tr')].map(row => row.textContent).filter(text => /^ecu/.test(text))"
    )
    assert any("down" in text for text in shown.run(states))
    shown.run("showTab('tab-nodes')")
    assert "down" in shown.run("at('ifaces').textContent")
    show_each(shown, 1200, TABS)


def test_sixteen_nodes_of_which_one_sends(opened):
    lines = ["canbus record 1", "bus 16 always 0000 10 100", "open 0 256 = socket 0"]
    for number in range(10):
        frame = f"101#01020304050607{number:02}"
        lines += [
            f"send 0 {frame} = number {number}",
            f"attempt 0.{number:06} good = tried 0 {number} {frame} done FFFE 0000",
        ]
    names = [f"can{number}" for number in range(16)]
    record = parse_record("\n".join([*lines, f"end {len(lines) - 2}", ""]).encode(), names=names)
    shown = opened(record.replay, names)
    # The axis has room for the identifiers of frames, and for their data after zooming in.
    written = shown.run(WRITTEN)
    assert written.count("101") == 10 and "101#0102030405060700" not in written
    for key in ["Home", "+"]:
        shown.key(key)
    assert "101#0102030405060700" in shown.run(WRITTEN)
    # Counters that stay 0 are collapsed until the user expands them.
    assert shown.run("lanes.map(lane => lane.isFolded).join()") == ",".join(["true"] * 16)
    folded = shown.run("at('lanes').clientHeight")
    shown.run("at('gutter').querySelector('button').click()")
    shown.settle()
    assert shown.run("at('lanes').clientHeight - CURVES") == folded
    assert "256 bus off" in shown.run(WRITTEN)


def long_names():
    """Sixteen nodes with names of 15 characters. Each sends a frame of 64 bytes, and the first goes bus off."""
    names, entries = [f"powertrain_can{number:X}" for number in range(16)], []
    for number in range(16):
        entries += [f"open {number} 256 = socket {number}", f"option {number} fd 1 = ok"]
    for number in range(16):
        frame = f"1FFFFF{number:02X}##0" + f"{number:02X}" * 64
        others, attempt = f"{0xFFFF ^ 1 << number:04X} 0000", 1000 * number
        entries += [
            f"send {number} {frame} = number 0",
            f"attempt 0.{attempt:06} good = tried {number} 0 {frame} done {others}",
        ]
    frame = "123##0" + "5A" * 64
    entries.append(f"send 0 {frame} = number 1")
    for k in range(32):
        fate = f"destroyed 0000 000{k // 31}"
        entries.append(f"attempt 1.{1000 * k:06} global-bit = tried 0 1 {frame} {fate}")
    lines = ["canbus record 3", "bus 16 always 0000 10 1000 0", *entries, f"end {len(entries)}", ""]
    return parse_record("\n".join(lines).encode(), names=names).replay, names


@pytest.mark.parametrize("width", [320, 500, 640, 1600])
def test_long_names_and_frames_have_room(opened, width):
    shown = opened(*long_names())
    shown.size(width)
    show_each(shown, width, TABS)
    # The outcome of an attempt is visible in its row, however long the names and frames are.
    shown.run("showTab('tab-attempts')")
    shown.settle()
    assert "destroyed" in shown.run(OUTCOMES) and None not in shown.run(OUTCOMES)
    # The end of each name, where the names differ, is visible in the node's lane.
    assert shown.run(ENDS) == [name[-5:] for name in long_names()[1]]


def long_run(count=5000):
    """can0 sends 123 and 124 alternately, and every 50th attempt fails. There is one pause of 3 seconds."""
    entries, sent = ["open 0 1 = socket 0", "open 1 65536 = socket 1", "send 0 123# = number 0"], 0
    for number in range(count):
        fails, text = number % 50 == 49, f"12{3 + sent % 2}#"
        fate = ("global-bit", "destroyed 0000") if fails else ("good", "done 0002")
        moment = f"{number // 1000 + 3 * (number >= 4000)}.{number % 1000:03}000"
        entries.append(f"attempt {moment} {fate[0]} = tried 0 {sent} {text} {fate[1]} 0000")
        if not fails:
            sent += 1
            entries.append(f"send 0 12{3 + sent % 2}# = number {sent}")
    return record_of(*entries, bus="2 always 0000 10 20000")


def test_more_attempts_than_pixels_are_shares(opened):
    shown = opened(long_run())
    assert (
        shown.run("KINDS.map((_, kind) => won(tallies.of(0, axis.count), 0, kind)).slice(0, 5).join()")
        == "4900,0,100,0,0"
    )
    assert "123#" not in shown.run(WRITTEN)
    for _ in range(9):
        shown.key("+")
    assert "123#" in shown.run(WRITTEN)


def test_sums_and_extremes_are_those_of_the_steps(opened):
    shown = opened(long_run(1000))
    same = """[[0, 1000], [0, 64], [63, 129], [1, 63], [64, 128], [500, 500], [700, 999]].every(([first, last]) => {
      const part = Array.from({ length: last - first }, (_, k) => first + k), found = tec[0].range(first, last, {});
      const failed = part.filter(step => steps.kind[step] === 2).length, counts = part.map(step => tec[0].all[step]);
      return failures.of(first, last)[1] === failed && won(tallies.of(first, last), 0, 2) === failed
        && (!part.length || found.high === Math.max(...counts) && found.low === Math.min(...counts));
    })"""
    assert shown.run(same) is True


def test_by_time_a_pause_looks_like_one(opened):
    shown = opened(long_run())
    # The 3 s pause is before attempt 4000, and the whole run takes 8 s.
    gap = "(axis.start[4000] - axis.start[3999]) / axis.length"
    assert shown.run(gap) == pytest.approx(1 / 5000, rel=0.1)
    shown.key("t")
    assert shown.run(gap) == pytest.approx(3 / 8, rel=0.01)
    assert shown.run("at('by-time').getAttribute('aria-pressed')") == "true"
    assert {"2 s", "6 s"} <= {*shown.run(WRITTEN)}
    shown.key("t")
    assert shown.run(SPAN) == shown.run("axis.length")


def test_lists_follow_the_chosen_attempt(opened):
    shown = opened(long_run())
    for number in (0, 500, 2499, 4999):
        shown.run(f"location.hash = '#attempt={number}'")
        shown.until(f"{ATTEMPT} === {number}")
        for name in ("tab-attempts", "tab-items"):
            shown.run(f"showTab('{name}')")
            shown.settle()
            # No socket receives a frame that is destroyed.
            belonging = [] if name == "tab-items" and number % 50 == 49 else [f"{number:,}"]
            assert shown.run(MARKED) == belonging
        shown.run("showTab('tab-attempts')")
        shown.key("ArrowLeft")
        assert shown.run(MARKED) == [f"{max(number - 1, 0):,}"]


def test_events_follow(shown):
    shown.run("location.hash = '#attempt=15'")
    shown.until(f"{ATTEMPT} === 15")
    assert shown.run(MARKED) == ["15"]
    assert "error passive: transmit count 128" in shown.run("at('chosen').textContent")


def test_time_since_the_start(opened):
    """The list of events shows the time since the start next to the time of day. On a bench, all times are relative to
    the start of the run."""
    cells = "[...document.querySelectorAll('#events .row')].map(row => [2, 3].map(k => row.children[k].textContent))"
    start = 1_732_540_000
    attempts = [
        f"attempt {start + k}.500000 global-bit = tried 0 0 123# destroyed 0000 000{k // 32}" for k in range(1, 33)
    ]
    shown = opened(record_of("open 0 256 = socket 0", "send 0 123# = number 0", *attempts))
    assert shown.run(cells) == [
        ["since the start", "since last"],
        ["11.000000", ""],
        ["15.000000", "4.000000"],
        ["31.000000", "16.000000"],
        ["31.000000", "0.000000"],
    ]
    assert shown.run(CUT) == []
    shown.run("showTab('tab-attempts')")
    shown.settle()
    rows = "[...document.querySelectorAll('#tried .row')].map(row => [1, 2].map(k => row.children[k].textContent))"
    assert shown.run(rows)[-3:] == [["29.000000", "1.000000"], ["30.000000", "1.000000"], ["31.000000", "1.000000"]]
    shown = opened(bus_off())
    assert shown.run(cells)[0] == ["since last", "kind"]


def test_statistics_of_identifiers(opened):
    """The frames with identifier 100 have gaps of 10, 12 and 8 ms, and those with 200 a gap of 10.5 ms. 300 occurs only
    once."""
    tried = [
        ("0.000000", "0 0 100#01"), ("0.001000", "1 0 200#AA"), ("0.010000", "0 1 100#02"), ("0.011500", "1 1 200#AB"),
        ("0.022000", "0 2 100#03"), ("0.023000", "0 3 300#"), ("0.030000", "0 4 100#04"),
    ]  # fmt: skip
    sends = [f"send {words.split()[0]} {words.split()[2]} = number {words.split()[1]}" for _, words in tried]
    attempts = []
    for (moment, words), send in zip(tried, sends):
        attempts += [send, f"attempt {moment} good = tried {words} done 000{2 - int(words[0])} 0000"]
    both = ["open 0 256 = socket 0", "open 1 256 = socket 1"]
    shown = opened(record_of(*both, *attempts))
    shown.run("showTab('tab-identifiers')")
    shown.settle()
    rows = "[...document.querySelectorAll('#identifiers .rows .row')].map(row => [...row.children].map(one => one.textContent))"
    assert shown.run(rows) == [
        ["100", "can0", "4", "0", "10.000", "8.000", "12.000", "2.000", "100#04"],
        ["200", "can1", "2", "0", "10.500", "10.500", "10.500", "0.000", "200#AB"],
        ["300", "can0", "1", "0", "", "", "", "", "300#"],
    ]
    shown.run("at('of-frame').value = '2', at('of-frame').dispatchEvent(new Event('input')), 0")
    assert [row[0] for row in shown.run(rows)] == ["200"] and shown.run("at('found').textContent") == "1 of 3"


def test_filters(opened):
    shown = opened(long_run())

    def found(**values):
        for name, value in values.items():
            name = name.replace("_", "-")
            shown.run(f"at('{name}').value = '{value}', at('{name}').dispatchEvent(new Event('input')), 0")
        shown.settle()
        return shown.run("at('found').textContent")

    shown.run("showTab('tab-attempts')")
    assert found() == "5,000 of 5,000"
    assert found(of_outcome="failed") == "100 of 5,000"
    assert found(of_outcome="", of_frame="124") == "2,500 of 5,000"
    assert found(of_frame="0x12") == "5,000 of 5,000"
    assert found(of_node="1") == "0 of 5,000"
    assert found(of_node="0", of_frame="") == "5,000 of 5,000"
    shown.run("look(0, 100), at('in-view').click()")
    assert found() == "100 of 5,000"
    shown.run("showTab('tab-items')")
    # Two of the 100 frames were destroyed, so no socket received them.
    assert found() == "98 of 4,900"
    assert found(of_fate="3") == "0 of 4,900"


def test_interfaces_that_never_sent(opened):
    """An interface that never sent has no name in the log. The page tells the user how to name it."""
    shown = opened(bus_off(), ("can0", "interface 1"))
    assert shown.run("at('facts').textContent").endswith(
        " No log beside the record names all interfaces: --names NAME,.. does."
    )
    assert "--names" not in opened(bus_off()).run("at('facts').textContent")


def test_what_was_lost_is_on_the_page(shown):
    text = shown.run("at('chosen').innerText")
    assert "all its 32 attempts from attempt 0 on failed (32 x global bit)" in text
    assert "123#" in text and "124#" in text and "Lost with it" in text
    shown.run("showTab('tab-nodes')")
    assert "refused: bus off" in shown.run("at('ifaces').textContent")


@pytest.mark.quiet
def test_a_held_key_and_the_load(opened):
    shown = opened(long_run())
    shown.ask("Performance.enable", timeDomain="threadTicks")

    def used():
        return next(
            one["value"] for one in shown.ask("Performance.getMetrics")["metrics"] if one["name"] == "TaskDuration"
        )

    shown.run("choose(0)")
    for name in ("tab-events", "tab-attempts", "tab-items"):
        shown.run(f"showTab('{name}')")
        before, count = used(), 50
        shown.run(
            f"""(async () => {{
          for (let k = 0; k < {count}; k++) {{
            document.dispatchEvent(new KeyboardEvent('keydown', {{ key: 'ArrowRight', bubbles: true }}));
            await new Promise(done => requestAnimationFrame(done));
          }}
        }})()"""
        )
        # This is processor time, which is not affected by other work on the machine.
        assert (used() - before) / count < 0.033


def test_paper(shown):
    shown.size(1000, dark=True)
    shown.run("window.papers = [], addEventListener('beforeprint', () => papers.push(theme.page))")
    assert base64.b64decode(shown.ask("Page.printToPDF")["data"]).startswith(b"%PDF")
    assert shown.run("papers.join()") == "#fff"
    assert shown.run("theme.page") == "#14181e"
    shown.ask("Emulation.setEmulatedMedia", media="print")
    assert shown.run("getComputedStyle(document.querySelector('.tools')).display") == "none"
    shown.ask("Emulation.setEmulatedMedia", media="")


def test_parts_have_names_and_the_focus_goes_down_the_page(shown):
    assert shown.run("document.querySelectorAll('main').length") == 1
    assert shown.run("[...document.querySelectorAll('canvas[role]')].every(one => one.ariaLabel)")
    assert shown.run(
        "[...document.querySelectorAll('[role=grid], section, [role=tabpanel]')].every(one => one.ariaLabel)"
    )
    assert shown.run("[...document.querySelectorAll('.tools button')].every(one => one.title)")
    assert shown.run("[...document.querySelectorAll('.legend span')].every(one => one.title && one.innerText)")
    places = shown.run(
        """[...document.querySelectorAll('button, input, select, summary, [tabindex="0"]')]
      .filter(one => one.checkVisibility() && one.tabIndex >= 0)
      .map(one => one.closest('.tools, #timeline, #tabs, #filters, .kinds, .rolling, #chosen')).map(one => one.id || one.className)
      .filter((one, k, all) => one !== all[k - 1])"""
    )
    assert places == ["tools", "timeline", "tabs", "filters", "kinds", "events", "chosen"]


def test_tabs_are_chosen_by_arrow_keys(shown):
    shown.run("document.querySelector('[role=tab][aria-selected=true]').focus()")
    shown.key("ArrowRight")
    assert shown.run("document.activeElement.textContent") == "Attempts 32"
    assert shown.run("tab") == "tab-attempts"
    assert shown.run(ATTEMPT) == 31


def test_a_clean_run_begins_with_its_attempts(opened):
    """The list of events is hidden, because the run contains no events."""
    shown = opened(
        record_of(
            "open 0 256 = socket 0", "send 0 123# = number 0", "attempt 0.000001 good = tried 0 0 123# done 0002 0000"
        )
    )
    assert shown.run("[tab, at('tab-attempts').hidden, at('tab-events').hidden]") == ["tab-attempts", False, True]


def test_moments_of_the_clock_are_times_of_day(opened):
    start = 1_732_540_000
    shown = opened(
        record_of(
            "open 0 256 = socket 0",
            "send 0 123# = number 0",
            f"attempt {start}.500000 good = tried 0 0 123# done 0002 0000",
        )
    )
    # The time of day is in the same format as the browser's own date formatter produces.
    words = "{ hour: '2-digit', minute: '2-digit', second: '2-digit', hourCycle: 'h23' }"
    time_of_day = shown.run(f"new Intl.DateTimeFormat('en', {words}).format(new Date({start}000))")
    assert shown.run("at('chosen').textContent").startswith(f"Attempt 0 at {time_of_day}.500000")
    date = shown.run(f"[1 + new Date({start}000).getMonth(), new Date({start}000).getDate()]")
    assert f"2024-{date[0]:02}-{date[1]:02}, GMT" in shown.run("at('facts').textContent")
    assert f"{time_of_day}.500000" in shown.run(WRITTEN)


def test_the_address_follows_what_is_chosen(shown, browser):
    """The address contains the attempt, both cursors, the axis, the view, the list and its filters. A page that is
    opened with this address shows the same."""
    shown.key("t")
    shown.run("choose(12), markStep(3), look(1e-5, 2e-5), showTab('tab-attempts')")
    shown.run("at('of-outcome').value = '2', at('of-frame').value = '123#', at('in-view').click(), find(tab)")
    shown.until("location.hash.includes('outcome=2')")
    state = (
        "[view.step, second.step, byTime.isOn, view.from, view.to, tab, at('in-view').checked, lists[tab].list.length]"
    )
    before, address = shown.run(state), shown.run("location.href")
    assert before[:3] == [12, 3, True] and before[5:7] == ["tab-attempts", True]
    assert address.split("#")[1].startswith("attempt=12&")
    shown.open(address)
    assert shown.run(state) == before
    # An address that is typed while the page is open takes effect too.
    shown.run("location.hash = '#attempt=15'")
    shown.until(f"{ATTEMPT} === 15 && tab === 'tab-events'")
    assert shown.run("[second.step, byTime.isOn, view.from, view.to === axis.length]") == [None, False, 0, True]
    for wrong in ("#attempt=99999", "#step=1e9", "#attempt=-1", "#view=9,1&mark=x&list=nothing&lanes=,&by=", "#%"):
        shown.open(address.split("#")[0] + wrong)
        assert shown.run("view.step < axis.count && view.to > view.from && tab === 'tab-events'")


def test_two_cursors(shown):
    """The page shows the time between two cursors, which can be set with a key, the button or the mouse."""
    shown.run("choose(20)")
    shown.key("m")
    assert shown.run("at('second-cursor').hidden") is False
    shown.run("choose(11)")
    # The attempts are a microsecond apart.
    assert "Since the mark, attempt 20: -0.000009 s, 9 attempts before it." in shown.run("at('chosen').textContent")
    shown.run("choose(31)")
    assert "Since the mark, attempt 20: 0.000011 s, 11 attempts after it." in shown.run("at('chosen').textContent")
    x, y = shown.run(PLACE)
    for kind in ("mousePressed", "mouseReleased"):
        shown.mouse(kind, x, y, button="left", clickCount=1, modifiers=8)
    assert shown.run("[attemptOf[second.step] < 20, view.step]") == [True, 31]
    shown.run("at('mark').click(), at('mark').click()")
    assert shown.run("[second.step, at('second-cursor').hidden]") == [None, True]


def test_a_list_as_csv(shown):
    """The CSV file contains the filtered rows. Numbers have no thousands separators, and quoting follows RFC 4180."""
    rows = list(csv.reader(io.StringIO(shown.run("csvOf(lists[tab], at(tab))"))))
    assert rows[0] == ["attempt", "moment", "since last", "kind", "what"]
    assert rows[1] == ["11", "0.000012", "", "warning", "can0 is error warning: transmit count 96"]
    shown.run("showTab('tab-attempts'), at('of-outcome').value = '2', find(tab)")
    rows = list(csv.reader(io.StringIO(shown.run("csvOf(lists[tab], at(tab))"))))
    assert len(rows) == 33 and rows[32][:2] == ["31", "0.000032"]
    shown.run("showTab('tab-nodes')")
    rows = list(csv.reader(io.StringIO(shown.run("csvOf(lists[tab], at(tab))"))))
    assert [row[0] for row in rows] == ["node", "can0", "can1"]
    cells = ["1,234", "a,b", 'say "x"', "1,234.5", "12,34"]
    [row] = csv.reader([shown.run(f"{json.dumps(cells)}.map(csvCell).join()")])
    assert row == ["1234", "a,b", 'say "x"', "1234.5", "12,34"]


def test_states_without_colour(shown):
    """States can be distinguished without colour, because each fills its band differently: warning is a frame or low,
    passive is full, bus off is hatched."""
    shares = """[1, 2, 3].map(state => [40, 3].map(wide => {
      const pen = new OffscreenCanvas(48, 16).getContext('2d', { willReadFrequently: true });
      const measured = pen.measureText.bind(pen);
      pen.measureText = () => ({ width: 1000 });
      block(pen, theme.page, 0, 0, 48, 16);
      const page = [...pen.getImageData(0, 0, 1, 1).data].join();
      stateBar(pen, state, 2, 1, wide, fillsOf(pen));
      let filled = 0;
      for (let x = 2; x < 2 + wide; x++) for (let y = 1; y < BAND; y++) {
        filled += [...pen.getImageData(x, y, 1, 1).data].join() !== page;
      }
      return filled / wide / (BAND - 1);
    }))"""
    for dark in (False, True):
        shown.size(1200, dark=dark)
        (frame, low), (full, narrow), (hatched, _) = shown.run(shares)
        assert frame < 0.5 and low < 0.6 and full == narrow == 1 and 0.2 < hatched < 1
