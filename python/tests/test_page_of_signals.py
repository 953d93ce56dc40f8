"""Signals on the page of a run, in a browser: lanes with curves and with names, the search, and values at the cursor.
The tests are skipped if Chromium or a library that reads DBC files is not installed."""

from pathlib import Path

import pytest

from browser import PROGRAM, Browser
from test_page import CUT, WEAK, WIDE, WRITTEN

from canbusd._page.report import page
from canbusd.bench import Bench
from canbusd.signals import load_database

pytest.importorskip("canmatrix", reason="not installed: canmatrix")
pytestmark = pytest.mark.skipif(PROGRAM is None, reason="not installed: chromium")

CAR = Path(__file__).with_name("car.dbc")
CELLS = (
    "[...document.querySelectorAll('#signals .rows .row')].map(row => [...row.children].map(one => one.textContent))"
)


@pytest.fixture(scope="module")
def shown(tmp_path_factory):
    """The page of a run in which a car shifts from park to drive, at 0, 50 and 120.5 km/h. The multiplexer selects page
    0 first, then page 1."""
    car = load_database(CAR, library="canmatrix")
    with Bench("ECU,TESTER") as bench:
        ecu = bench.open("ECU")
        for gear, speed in (("Park", 0), ("Drive", 50), ("Drive", 120.5)):
            ecu.send(car.encode("Engine", {"speed": speed, "gear": gear, "torque": 0, "temperature": 20}))
        ecu.send(car.encode("Pages", {"page": 0, "left": 5}))
        ecu.send(car.encode("Pages", {"page": 1, "right": 8}))
        bench.run()
        record = bench.record()
    folder = tmp_path_factory.mktemp("page")
    (folder / "run.html").write_text(page(record.replay, record.names, "run.rec", database=car), encoding="utf-8")
    browser = Browser(folder / "browser")
    browser.size(1200)
    browser.open(f"file://{folder / 'run.html'}")
    browser.run("showTab('tab-signals')")
    yield browser
    faults = browser.faults
    browser.close()
    assert faults == []


def choose(shown, step):
    shown.run(f"choose({step})")
    shown.settle()
    return [[row[1], row[2]] for row in shown.run(CELLS)]


def test_at_first_those_that_change_are_shown(shown):
    """At first, the page shows the signals that change. Signals with a unit or with names come first."""
    assert shown.run("signals.shown.map(({ name }) => name)") == ["gear", "speed", "page"]
    assert shown.run("lanes.slice(2).map(({ name }) => name)") == ["gear", "speed", "page"]


def test_the_address_has_the_lanes_and_the_list(shown):
    """The address contains the signals that are shown and the search string. A page that is opened with this address
    shows the same."""
    keys = [shown.run(f"signals.all().find(one => one.name === '{name}').key") for name in ("temperature", "torque")]
    shown.run(
        "showTab('tab-signals'), at('of-signal').value = 'eng', at('of-signal').dispatchEvent(new Event('input'))"
    )
    shown.run("[...at('gutter').querySelectorAll('button.goes')].forEach(button => button.click())")
    for key in keys:
        shown.run(f"toggleSignal(signals.all().find(one => one.key === '{key}'))")
    shown.until(f"location.hash.includes('lanes={keys[0]}%2C{keys[1]}') && location.hash.includes('signal=eng')")
    address = shown.run("location.href")
    shown.open(address)
    assert shown.run("lanes.slice(2).map(({ name }) => name)") == ["temperature", "torque"]
    assert {row[1] for row in shown.run(CELLS)} == {"gear", "speed", "temperature", "torque"}
    shown.open(address.split("#")[0])
    assert shown.run("signals.shown.length") == 3 and shown.run("tab") == "tab-signals"


def test_values_at_the_cursor_are_in_one_table(shown):
    first = {
        "gear": "Park",
        "speed": "0 km/h",
        "temperature": "20 degC",
        "torque": "0 Nm",
        "left": "",
        "page": "",
        "right": "",
    }
    assert dict(choose(shown, 0)) == first
    assert dict(choose(shown, 2)) == {**first, "gear": "Drive", "speed": "120.5 km/h"}
    assert dict(choose(shown, 3))["left"] == "5"
    # A signal that a multiplexed frame does not contain keeps its value.
    last = dict(choose(shown, 4))
    assert (last["page"], last["left"], last["right"]) == ("1", "5", "8 %")


def test_signals_are_found_by_parts_of_their_names(shown):
    for words, names in (("pages", ["left", "page", "right"]), ("ENG te", ["temperature"]), ("", None), ("none", [])):
        shown.run(f"at('of-signal').value = '{words}', at('of-signal').dispatchEvent(new Event('input')), 0")
        shown.settle()
        found = [row[1] for row in shown.run(CELLS)]
        assert found == names or names is None and len(found) == 7
    shown.run("at('of-signal').value = '', at('of-signal').dispatchEvent(new Event('input')), 0")


@pytest.mark.parametrize("width", [500, 1200])
def test_lanes_of_signals(shown, width):
    """A band shows the names of a signal's values. A curve shows the smallest and the largest value. Clicking on a
    lane's name removes the lane."""
    shown.size(width)
    shown.run("[...at('gutter').querySelectorAll('button.goes')].forEach(button => button.click())")
    for name in ("gear", "speed"):
        shown.run(f"toggleSignal(signals.all().find(one => one.name === '{name}'))")
    shown.settle()
    choose(shown, 1)
    assert shown.run("lanes.slice(-2).map(lane => [lane.name, lane.values(1)[0][1]])") == [
        ["gear", "Drive"],
        ["speed", "50 km/h"],
    ]
    written = shown.run(WRITTEN)
    assert {"Park", "Drive"} <= {*written} and (width < 640 or "120.5 km/h" in written)
    assert [shown.run(CUT), shown.run(WIDE), shown.run(WEAK)] == [[], 0, []]
    assert [row[3] for row in shown.run(CELLS) if row[1] in ("gear", "speed")] == ["shown", "shown"]
    shown.run("[...at('gutter').querySelectorAll('button.goes')].forEach(button => button.click())")
    shown.settle()
    assert shown.run("lanes.length") == 2 and {row[3] for row in shown.run(CELLS)} == {""}
