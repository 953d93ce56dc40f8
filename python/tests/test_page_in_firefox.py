"""The page of a run in Firefox. test_page.py has more tests, for Chromium. The tests are skipped if Firefox is not
installed."""

import pytest
from firefox import PROGRAM, Firefox
from test_page import ATTEMPT, CUT, WEAK, WIDE
from test_page_of_bits import ROWS, ZEROS
from test_report import NAMES, bus_off, record_of

from canbusd._page.report import page

pytestmark = pytest.mark.skipif(PROGRAM is None, reason="no firefox on the PATH")
FOCUSED = "document.activeElement.closest('#bits') ? document.activeElement.cells[0].textContent : null"


@pytest.fixture(scope="module")
def firefox(tmp_path_factory):
    """A browser that the tests use to open one page after another."""
    firefox = Firefox(tmp_path_factory.mktemp("firefox"))
    yield firefox
    firefox.close()


@pytest.fixture
def opened(firefox, tmp_path):
    """A function that opens the page of a run."""

    def open_page(run):
        path = tmp_path / "run.html"
        path.write_text(page(run, NAMES, "run.rec"), encoding="utf-8")
        firefox.open(f"file://{path}")
        return firefox

    yield open_page
    assert firefox.faults() == []


def test_attempts_are_chosen_by_keys(opened):
    shown = opened(bus_off())
    assert shown.run("at('title').textContent") == "2 nodes, 32 attempts: can0 went bus off in attempt 31"
    assert shown.run(ATTEMPT) == 31
    shown.run("showTab('tab-attempts'), document.querySelector('#tried [tabindex=\"0\"]').focus()")
    assert shown.run("at('tried').querySelectorAll('.rows .row').length") > 3
    shown.run("choose(0)")
    shown.key("ArrowRight")
    assert shown.run(ATTEMPT) == 1
    shown.key("e")
    assert shown.run(ATTEMPT) == 11


def test_the_table_of_bits(opened):
    shown = opened(
        record_of(
            "open 0 256 = socket 0",
            "open 1 256 = socket 1",
            "send 0 000# = number 0",
            "send 1 001#FF = number 0",
            "attempt 0.000002 good = tried 0 0 000# done 0002 0000",
        )
    )
    shown.run("choose(0)")
    assert shown.run(ROWS) == ZEROS
    shown.run("at('csv').focus()")
    for _ in range(9):
        shown.key("Tab")
        if shown.run(FOCUSED):
            break
    assert shown.run(FOCUSED) == "SOF"
    shown.key("ArrowDown")
    assert shown.run(FOCUSED) == "identifier"
    assert shown.run("getComputedStyle(document.activeElement).outlineStyle") == "solid"
    shown.key("Escape")
    assert shown.run(FOCUSED) is None


def test_colours_and_widths(opened):
    shown = opened(bus_off())
    for dark in (False, True):
        for width in (500, 1600):
            shown.size(width, dark=dark)
            assert shown.run("document.documentElement.scrollWidth - innerWidth") <= 0
            for tab in ("tab-events", "tab-attempts", "tab-items"):
                shown.run(f"showTab('{tab}')")
                shown.settle()
                assert (shown.run(CUT), shown.run(WIDE)) == ([], 0)
        assert shown.run(WEAK) == []
