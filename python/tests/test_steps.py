"""The steps of a test: in a JUnit file, on the terminal, and in the reports of other pytest plugins."""

import re
from xml.etree import ElementTree

import pytest

from canbusd import step, steps
from canbusd.bench import Bench
from canbusd.steps import Steps

from test_pytest_plugin import run as run

pytest_plugins = ["pytester"]

TESTS = """
    from canbusd import step

    @step("wakes the ECU")
    def wake():
        pass

    def test_passes(canbusd):
        with canbusd.step("asks"):
            wake()
        with step("is answered"):
            pass

    def test_fails():
        with step("asks"):
            with step("waits"):
                raise TimeoutError("on purpose")

    def test_has_none():
        pass
"""


def shown(lines):
    """Returns these lines without the durations."""
    return [re.sub(r"^ *[0-9.]+ s  ", "", line) for line in lines]


def test_reports(run, pytester):
    result = run(TESTS, "--junitxml=junit.xml")
    result.assert_outcomes(passed=2, failed=1)
    cases = {case.get("name"): case for case in ElementTree.parse(pytester.path / "junit.xml").iter("testcase")}
    found = {
        name: [
            shown(one.get("value").split("\n")) for one in case.iter("property") if one.get("name") == "canbusd_steps"
        ]
        for name, case in cases.items()
    }
    assert found == {
        "test_passes": [["asks: passed", "  wakes the ECU: passed", "is answered: passed"]],
        "test_fails": [["asks: failed, TimeoutError", "  waits: failed, TimeoutError"]],
        "test_has_none": [],
    }
    assert result.stdout.str().count("canbusd: steps") == 1
    result.stdout.fnmatch_lines(
        ["*canbusd: steps*", "* s  asks: failed, TimeoutError", "* s    waits: failed, TimeoutError"]
    )


#: A plugin that records the calls from canbusd to pytest-html and allure-pytest. Function and module names are as in
#: their documentation.
STAND_INS = """
import contextlib, sys, types

given = []
html = types.ModuleType("pytest_html")
html.__version__ = "4.1.1"
html.extras = types.SimpleNamespace(
    text=lambda content, name: (name, content), url=lambda content, name: (name, content)
)
allure = types.ModuleType("allure")
allure.attachment_type = types.SimpleNamespace(TEXT="text", HTML="html")

class Attach:
    def __call__(self, body, name, attachment_type):
        given.append(f"allure {attachment_type} {name}")
    def file(self, source, name, attachment_type):
        given.append(f"allure {attachment_type} {name}")

@contextlib.contextmanager
def allure_step(title):
    given.append(f"allure step {title}")
    yield

allure.attach, allure.step = Attach(), allure_step
sys.modules.update({"pytest_html": html, "allure": allure, "allure_pytest": types.ModuleType("allure_pytest")})

def pytest_addoption(parser):
    parser.addoption("--html", dest="htmlpath")

def pytest_runtest_logreport(report):
    given.extend(f"html {name} {content.splitlines()[0]}" for name, content in getattr(report, "extras", []))

def pytest_unconfigure(config):
    print("\\n".join(f"GIVEN {one}" for one in given))
"""


def test_plugins_that_make_reports(run, pytester):
    pytester.makepyfile(stand_ins=STAND_INS)
    text = """
    def test_it(canbusd):
        with canbusd.step("asks"):
            assert False, "on purpose"
    """
    result = run(text, "-p", "stand_ins", "--html=report.html")
    result.assert_outcomes(failed=1)
    given = [line[len("GIVEN ") :] for line in result.stdout.lines if line.startswith("GIVEN ")]
    assert given[:3] == ["allure step asks", "allure text canbusd", "allure html can0.html"]
    assert re.fullmatch(r"html steps +[0-9.]+ s  asks: failed, AssertionError", given[3])
    assert given[4] == "html canbusd 2 nodes, 0 attempts: no frame was tried"
    # The link to the page is relative to the folder of the HTML report.
    assert re.fullmatch(r"html page kept/.*/can0\.html", given[5]) and (pytester.path / given[5].split()[2]).exists()
    assert len(given) == 6


def test_a_bench_has_its_own_time():
    steps.begin()
    with Bench("a,b", bitrate=500_000) as bench, bench.bus("a") as one:
        with bench.step("nothing comes"):
            assert one.recv(timeout=1.5) is None
        with bench.step("later"):
            pass
    assert [one.title for one in steps.current.done] == ["nothing comes", "later"]
    assert steps.current.done[0].began == 0 and steps.current.done[1].began == pytest.approx(1.5, abs=0.001)


def test_a_title_that_is_none():
    for title in ("", 5):
        with pytest.raises(ValueError, match="^title is the text of a step, not "):
            with step(title):
                pass


def test_steps_that_are_not_over():
    own = Steps()
    with own.step("asks", lambda: 2.0):
        assert own.lines() == ["    2.000 s  asks: not over"]
