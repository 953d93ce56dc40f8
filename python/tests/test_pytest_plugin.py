"""The pytest plugin, tested by running pytest on small tests."""

import os
import re
from importlib.util import find_spec as is_there
from pathlib import Path
from xml.etree import ElementTree

import pytest
from common import needs_live
from test_report import data_of

import canbusd

pytest_plugins = ["pytester"]

PASSES = """
    def test_it(canbusd):
        with canbusd.bus("can0") as sender, canbusd.bus("can1") as receiver:
            sender.send(can.Message(arbitration_id=0x123, is_extended_id=False))
            assert receiver.recv(10).arbitration_id == 0x123
"""
FAILS = """
    @pytest.mark.canbusd("body,door", faults=canbusd.Faults().destroyed(range(32)))
    def test_it(canbusd):
        with canbusd.bus("body") as sender:
            sender.send(can.Message(arbitration_id=0x123, is_extended_id=False))
            while sender.recv(10).arbitration_id != 0x40:
                pass
            assert False, "on purpose"
"""


@pytest.fixture
def run(pytester, monkeypatch):
    """A function that runs pytest on a test, in another process that uses this package."""
    monkeypatch.setenv("PYTHONPATH", str(Path(canbusd.__file__).parents[1]), prepend=os.pathsep)
    monkeypatch.setenv("PYTHONDONTWRITEBYTECODE", "1")

    def run(text, *words):
        body = "\n".join(line[4:] for line in text.split("\n"))
        pytester.makepyfile("import can, canbusd, pytest\n" + body)
        # -p loads the plugin even if the package is not installed.
        words = (
            "-p",
            "canbusd.pytest_plugin",
            "-p",
            "no:cacheprovider",
            f"--basetemp={pytester.path / 'kept'}",
            *words,
        )
        return pytester.runpytest_subprocess(*words)

    return run


def kept(pytester):
    """Returns the names of the files that the runs have left in the folder `kept`."""
    return sorted(path.name for path in (pytester.path / "kept").rglob("*") if path.is_file())


def test_a_test_that_passes_leaves_nothing(run, pytester):
    run(PASSES).assert_outcomes(passed=1)
    assert kept(pytester) == []


def test_a_test_that_fails_says_what_was_on_the_bus(run, pytester):
    result = run(FAILS)
    result.assert_outcomes(failed=1)
    result.stdout.fnmatch_lines(
        [
            "*Captured canbusd teardown*",
            "2 nodes, 32 attempts: body went bus off in attempt 31",
            "  attempt 11: *",
            "*/body.log ends, each frame with its sender:",
            "*) body 20000080#0000000000000000  bus error",
            "interface  state *",
            "body       off     256    0     1     0        0     1        0",
            "door       active    0   32     0     0        0     0        0",
            "page: *body.html",
        ]
    )
    assert kept(pytester) == ["body.html", "body.log", "body.rec", "body.rec.faults"]
    page = re.search(r"^page: (.*)$", result.stdout.str(), re.M)[1]
    assert Path(page).read_text(encoding="utf-8").endswith("</html>\n")


def test_what_is_kept(run, pytester):
    result = run(PASSES, "--canbusd-keep=all")
    result.assert_outcomes(passed=1)
    assert kept(pytester) == ["can0.html", "can0.log", "can0.rec"] and "page:" not in result.stdout.str()
    result = run(FAILS, "--canbusd-keep=none")
    result.assert_outcomes(failed=1)
    assert kept(pytester) == [] and "body       off " in result.stdout.str() and "page:" not in result.stdout.str()


def test_a_failed_test_in_a_junit_file(run, pytester):
    for words in ([], ["-n", "1"]) if is_there("xdist") else ([],):
        run(
            f"""
    {FAILS}
    def test_that_passes(canbusd):
        canbusd.start("sleep 1000")

    @pytest.mark.canbusd("a,b", "c")
    def test_a_program(canbusd):
        canbusd.start("sh -c 'echo said; exit 3'").expect("said")
        assert False
    """,
            "--junitxml=junit.xml",
            *words,
        ).assert_outcomes(failed=2, passed=1, errors=1)
        found = {}
        for case in ElementTree.parse(pytester.path / "junit.xml").iter("testcase"):
            for one in case.iter("property"):
                found.setdefault(case.get("name"), []).append((one.get("name"), one.get("value")))
        assert found.keys() == {"test_it", "test_a_program"}
        facts = dict(found["test_it"])
        assert [*facts] == ["canbusd_story", "canbusd_log", "canbusd_states", "canbusd_page", "canbusd_page_relative"]
        relative = pytester.path / facts["canbusd_page_relative"]
        assert not os.path.isabs(facts["canbusd_page_relative"]) and relative.samefile(facts["canbusd_page"])
        assert facts["canbusd_story"].startswith("2 nodes, 32 attempts: body went bus off in attempt 31\n")
        assert facts["canbusd_log"].splitlines()[1].endswith("body 20000080#0000000000000000  bus error")
        assert "\nbody       off     256 " in facts["canbusd_states"]
        assert Path(facts["canbusd_page"]).read_text(encoding="utf-8").endswith("</html>\n")
        pages = [Path(value).name for name, value in found["test_a_program"] if name == "canbusd_page"]
        assert pages == ["a.html", "c.html"]
        program = "sh -c 'echo said; exit 3': status 3, 1 line of output:\n  said"
        assert found["test_a_program"][-1] == ("canbusd_program", program)


def test_a_program_that_dies_fails_the_test(run):
    """The report shows the output and the status of a program that died, just as for a program that is ended after a
    failed test."""
    result = run(
        """
    def test_death(canbusd):
        canbusd.wait_for(lambda program=canbusd.start("sh -c 'echo last; exit 3'"): program.status, timeout=20)

    def test_one_that_may_end(canbusd):
        canbusd.start("true", may_end=True)

    def test_one_that_stays(canbusd):
        canbusd.start(["sh", "-c", "echo first; exec sleep 1000"]).expect("first")
        assert False

    def test_a_server_that_is_killed(canbusd):
        canbusd.start("sh -c 'exec sleep 1000'")
        canbusd.kill()
    """
    )
    result.assert_outcomes(passed=3, errors=1, failed=1)
    result.stdout.fnmatch_lines(
        [
            "sh -c 'echo last; exit 3' ended before the test did; pass may_end=True if it may",
            "sh -c 'echo last; exit 3': status 3, 1 line of output:",
            "  last",
        ]
    )
    result.stdout.fnmatch_lines(
        ["sh -c 'echo first; exec sleep 1000': stopped, status -15, 1 line of output:", "  first"]
    )


def test_a_record_that_is_wrong_fails_the_test(run):
    result = run(
        """
    def test_it(canbusd_server, tmp_path):
        server = canbusd_server("can0,can1", out=tmp_path)
        with server.bus("can0") as sender, server.bus("can1") as receiver:
            sender.send(can.Message(arbitration_id=0x123, is_extended_id=False))
            assert receiver.recv(10)
        server.stop()
        record = tmp_path / "can0.rec"
        record.write_text(record.read_text().replace("done 0002", "done 0000"))
    """
    )
    result.assert_outcomes(passed=1, errors=1)
    result.stdout.fnmatch_lines(["*the record */can0.rec: canbusd: entry *: wrong"])


def test_the_marker_and_the_factory(run):
    run(
        """
    @pytest.mark.canbusd("a,b", "c", auto_restart=3, txqueue=1)
    def test_a_marker(canbusd):
        for name in ("a", "b", "c"):
            canbusd.bus(name).shutdown()
        with pytest.raises(can.CanError, match="no such interface"):
            canbusd.bus("can0")

    def test_two_servers(canbusd_server):
        one, two = canbusd_server("can0"), canbusd_server("can0", "can1", pace_ms=0)
        assert one.address != two.address

    @pytest.mark.canbusd("a,b", faults=canbusd.Faults().last_bit(0))
    def test_a_bench(canbusd_bench):
        canbusd_bench.open("a").send(1)
        assert [attempt.outcome for attempt in canbusd_bench.run()] == ["lastbit", "done"]

    def test_a_bench_without_a_marker(canbusd_bench):
        assert canbusd_bench.names == ("can0", "can1")

    @pytest.mark.canbusd("a,b", faults="next 1 lastbit")
    def test_rules(canbusd):
        canbusd.inject("next 1 from a lastbit")
        with canbusd.bus("a") as a, canbusd.bus("b") as b:
            a.send(can.Message(arbitration_id=0x123, is_extended_id=False))
            assert [b.recv(10).arbitration_id for _ in range(3)] == [0x123] * 3
    """,
        "--strict-markers",
    ).assert_outcomes(passed=5)


UNUSED = """
    def send(bus, *numbers):
        for number in numbers:
            bus.send(can.Message(arbitration_id=number, is_extended_id=False))

    @pytest.mark.canbusd("a,b", faults="next 1 id 7FE lastbit\\nnext 2 id 124 lastbit\\nalways id 7FD lastbit")
    def test_a_server(canbusd):
        canbusd.inject("next 3 id 7FC skip 1 lastbit")
        with canbusd.bus("a") as a:
            send(a, 0x123, 0x124, 0x7FC)
            canbusd.expect(id=0x7FC, within=20)

    @pytest.mark.canbusd("a,b", "c,d", record="live", faults={"c": "next 1 from c lastbit\\nnext 1 from d lastbit"})
    def test_two_buses(canbusd):
        with canbusd.bus("c") as c:
            send(c, 0x123)
            canbusd.expect(within=20)

    @pytest.mark.canbusd("a,b", faults="next 1 id 7FE lastbit")
    def test_ended(canbusd):
        canbusd.inject("next 1 id 7FD lastbit")
        canbusd.end_rules()
        canbusd.inject("next 1 id 123 lastbit")
        with canbusd.bus("a") as a:
            send(a, 0x123)
            canbusd.expect(within=20)

    @pytest.mark.canbusd("a,b", faults="next 1 id 7FE lastbit\\nnext 2 id 123 lastbit")
    def test_a_bench(canbusd_bench):
        canbusd_bench.open("a").send(0x123)
        canbusd_bench.attempt()

    def test_none(canbusd):
        with canbusd.bus("can0") as can0:
            send(can0, 0x123)

    def test_killed(canbusd):
        canbusd.inject("next 1 id 7FE lastbit")
        canbusd.kill()
"""


def test_rules_that_gave_no_verdict(run, pytester):
    result = run(UNUSED)
    result.assert_outcomes(passed=6)
    said = re.findall(r"UnusedRule: (.*)", result.stdout.str())
    assert said == [
        "rule not used up: next 1 id 7FE lastbit",
        "rule not used up: next 3 id 7FC skip 1 lastbit",
        "rule not used up: next 1 from d lastbit",
        "rule not used up: next 1 id 7FE lastbit",
    ]
    result = run(UNUSED, "-W", "error::canbusd.pytest_plugin.UnusedRule")
    result.assert_outcomes(passed=6, errors=3)
    assert kept(pytester) == []


def test_a_server_that_dies(run):
    """A test may kill its server without failing. If the server crashes, the test fails."""
    result = run(
        """
    def test_it_is_killed(canbusd):
        with canbusd.bus("can0") as bus:
            canbusd.kill()
            with pytest.raises(can.CanError):
                bus.recv(10)

    def test_it_crashes(canbusd):
        canbusd._signal()
    """
    )
    result.assert_outcomes(passed=2, errors=1)
    result.stdout.fnmatch_lines(["*ERROR at teardown of test_it_crashes*", "*the server ended with status -9*"])


@needs_live
def test_what_a_server_that_dies_has_written_is_kept(run, pytester):
    result = run(
        """
    @pytest.mark.canbusd("can0,can1", record="live", flush=0)
    def test_it_crashes(canbusd):
        with canbusd.bus("can0") as can0:
            can0.send(can.Message(arbitration_id=0x123, is_extended_id=False))
            canbusd.wait_for(lambda: canbusd.attempts() and canbusd.log(), timeout=20)
            canbusd._signal()
    """
    )
    result.assert_outcomes(passed=1, errors=1)
    result.stdout.fnmatch_lines(
        [
            "2 nodes, 1 attempt*",
            "*/can0.log ends, each frame with its sender:",
            "*) can0 123#",
            "*/can0.rec.new is cut off after * entries: `--cut` of the tools reads it",
            "can0 *active *1     1 *",
            "page: *can0.html",
        ]
    )
    result.stdout.fnmatch_lines(["*ERROR at teardown of test_it_crashes*", "*the server ended with status -9*"])
    assert kept(pytester) == ["can0.html", "can0.log", "can0.rec.faults.new", "can0.rec.new"]


@needs_live
def test_records_that_are_written_live_and_not_at_all(run, pytester):
    result = run(
        """
    @pytest.mark.canbusd("can0,can1", record="live")
    def test_live(canbusd):
        with canbusd.bus("can0") as can0:
            can0.send(can.Message(arbitration_id=0x123, is_extended_id=False))

    @pytest.mark.canbusd("can0,can1", record="none")
    def test_none(canbusd):
        canbusd.bus("can0").shutdown()

    @pytest.mark.canbusd("can0,can1", record="live")
    def test_killed(canbusd):
        canbusd.kill()
    """
    )
    result.assert_outcomes(passed=3)
    assert kept(pytester) == []
    result = run(
        """
    @pytest.mark.canbusd("can0,can1", record="none", flush=0)
    def test_none(canbusd):
        with canbusd.bus("can0") as can0:
            can0.send(can.Message(arbitration_id=0x123, is_extended_id=False))
            assert canbusd.wait_for(canbusd.log, timeout=20) == []
    """
    )
    result.assert_outcomes(failed=1)
    result.stdout.fnmatch_lines(["*/can0.log ends, each frame with its sender:", "*) can0 123#"])
    assert kept(pytester) == ["can0.log"]


def test_what_a_marker_may_not_say(run):
    result = run(
        """
    @pytest.mark.canbusd("a", colour="red")
    def test_an_option(canbusd):
        pass

    @pytest.mark.canbusd("a,a")
    def test_a_name(canbusd):
        pass

    @pytest.mark.canbusd("a", "b")
    def test_a_bench(canbusd_bench):
        pass

    @pytest.mark.canbusd("a", pace_ms=3)
    def test_an_option_of_a_bench(canbusd_bench):
        pass

    @pytest.mark.canbusd("a", database="nowhere.dbc")
    def test_a_file(canbusd):
        pass

    @pytest.mark.canbusd("a", faults="next 1 lost")
    def test_a_rule(canbusd):
        pass
    """
    )
    result.assert_outcomes(errors=6)
    mark = "@pytest.mark.canbusd"
    result.stdout.fnmatch_lines(
        [f"{mark}('a', colour='red'): there is no option colour; there are faults, ack, *, database, virtual"]
    )
    result.stdout.fnmatch_lines([f"{mark}('a,a'): names of a bus's interfaces are *, and 'a,a' has 'a' twice"])
    result.stdout.fnmatch_lines([f"{mark}('a', 'b'): canbusd_bench has one bus, not 2"])
    result.stdout.fnmatch_lines(
        [f"{mark}('a', pace_ms=3): there is no option pace_ms; there are faults, *, database, virtual"]
    )
    result.stdout.fnmatch_lines([f"{mark}('a', database='nowhere.dbc'): *No such file*"])
    result.stdout.fnmatch_lines([f"{mark}('a', faults='next 1 lost'): *script line 1: bad line"])
    # Each error shows only this message, without any source lines from the package.
    assert "def __init__" not in result.stdout.str() and "Traceback" not in result.stdout.str()
    assert result.stdout.str().count("pytest_plugin.py") == 0


def test_a_marker_without_its_fixture_warns(run):
    text = """
    @pytest.mark.canbusd("a,b", pace_ms=0)
    def test_without():
        pass

    @pytest.mark.canbusd("a,b")
    def test_another_one(canbusd_server):
        pass

    @pytest.mark.canbusd("a,b")
    def test_with(canbusd):
        pass

    @pytest.mark.canbusd("a,b")
    def test_asked_for(request):
        request.getfixturevalue("canbusd_bench")

    @pytest.mark.canbusd("a,b")
    @pytest.mark.skip
    def test_skipped():
        pass

    @pytest.mark.canbusd("a,b")
    class TestOfAClass:
        def test_one(self, canbusd):
            pass

        def test_other(self):
            pass
    """
    result = run(text)
    result.assert_outcomes(passed=6, skipped=1)
    assert result.stdout.str().count("UnusedMarker: ") == 2
    for name, words in (("test_without", "'a,b', pace_ms=0"), ("test_another_one", "'a,b'")):
        said = f"*UnusedMarker: *.py::{name}: @pytest.mark.canbusd({words}) does nothing: the test takes neither *"
        result.stdout.fnmatch_lines([f"*.py::{name}", said])
    run(text, "-W", "error::canbusd.pytest_plugin.UnusedMarker").assert_outcomes(passed=6, skipped=1, errors=2)


def test_a_marker_for_virtual_time_needs_no_fixture(run):
    result = run(
        """
    @pytest.mark.canbusd(virtual=True)
    def test_it():
        pass
    """
    )
    result.assert_outcomes(errors=1)
    result.stdout.fnmatch_lines(["*this test is for virtual time: python3 -m pytest --canbusd-virtual"])


def test_a_marker_takes_both_names_of_the_bit_rate_for_data(run):
    run(
        """
    @pytest.mark.canbusd("a", bitrate=500_000, dbitrate=2_000_000)
    def test_one(canbusd):
        assert canbusd.bus("a").load().data_bitrate == 2_000_000

    @pytest.mark.canbusd("a", bitrate=500_000, data_bitrate=2_000_000)
    def test_other(canbusd):
        assert canbusd.bus("a").load().data_bitrate == 2_000_000
    """
    ).assert_outcomes(passed=2)


def test_a_bench_that_is_not_ended_is_audited_too(run, pytester):
    run(
        """
    def test_it(canbusd_bench):
        canbusd_bench.open("can0").send(0x123)
        canbusd_bench.attempt()
        assert False
    """
    ).stdout.fnmatch_lines(
        [
            "*Captured canbusd teardown*",
            "*/can0.log ends, each frame with its sender:",
            "*) can0 123#",
            "can0 *active *1     1 *",
        ]
    )
    assert kept(pytester) == ["can0.html", "can0.log", "can0.rec"]


def test_a_test_that_has_to_fail_has_not_failed(run, pytester):
    result = run(
        """
    @pytest.mark.xfail
    def test_it(canbusd):
        assert False

    @pytest.mark.xfail(strict=True)
    def test_it_too(canbusd_bench):
        assert False
    """
    )
    result.assert_outcomes(xfailed=2)
    assert "canbusd teardown" not in result.stdout.str() and kept(pytester) == []
    result = run("    @pytest.mark.xfail(strict=True)\n" + PASSES.lstrip("\n"))
    result.assert_outcomes(failed=1)
    assert kept(pytester) == ["can0.html", "can0.log", "can0.rec"]


@pytest.mark.parametrize("fixture", ["canbusd", "canbusd_bench"])
def test_a_test_that_is_interrupted_has_failed(run, pytester, fixture):
    """A test that is interrupted, as by Ctrl-C, counts as failed, so its files are kept. The files of the earlier test
    are removed."""
    result = run(
        f"""
    def test_it_passes({fixture}):
        pass

    def test_it_hangs({fixture}):
        raise KeyboardInterrupt

    def test_it_is_not_run({fixture}):
        pass
    """
    )
    assert result.ret == pytest.ExitCode.INTERRUPTED
    assert kept(pytester) == ["can0.html", "can0.log", "can0.rec"]


def test_no_links_that_lead_nowhere(run, pytester):
    run(PASSES + PASSES.replace("test_it", "test_other")).assert_outcomes(passed=2)
    assert [path for path in (pytester.path / "kept").rglob("*") if path.is_symlink() and not path.exists()] == []
    assert list((pytester.path / "kept").iterdir()) == []


@pytest.mark.parametrize("fixture", ["canbusd", "canbusd_bench"])
def test_a_pytest_that_is_killed(run, pytester, monkeypatch, fixture):
    """A killed pytest leaves files only in its own folder. The next pytest removes this folder."""
    (pytester.path / "tmp").mkdir()
    monkeypatch.setenv("TMPDIR", str(pytester.path / "tmp"))
    run(
        f"""
    def test_it({fixture}):
        import os
        os.kill(os.getpid(), 9)
    """
    )
    assert list((pytester.path / "tmp").glob("canbusd-*")) == []


def test_the_program_of_the_ini_file(run, pytester, monkeypatch):
    program = os.path.realpath(canbusd._process.program.find_program())
    (pytester.path / "the program").symlink_to(program)
    monkeypatch.delenv("CANBUSD")
    monkeypatch.setenv("PATH", "/nowhere")
    pytester.makeini("[pytest]\ncanbusd_program = the program\n")
    run(PASSES).assert_outcomes(passed=1)
    pytester.makeini("[pytest]\ncanbusd_program = another program\n")
    result = run(PASSES)
    result.assert_outcomes(errors=1)
    result.stdout.fnmatch_lines([f"*canbusd_program in the ini file names no program: {pytester.path}/another program"])
    monkeypatch.setenv("CANBUSD", "/nowhere/canbusd")
    result = run(PASSES)
    result.assert_outcomes(errors=1)
    result.stdout.fnmatch_lines(["*: CANBUSD names no program: /nowhere/canbusd*"])


def test_with_xdist(run, pytester):
    pytest.importorskip("xdist")
    tests = "".join(PASSES.replace("test_it", f"test_{number}") for number in range(6))
    run(tests, "-n", "2").assert_outcomes(passed=6)
    assert kept(pytester) == []


def test_an_expectation_that_fails_shows_what_was_seen(run):
    done = run(
        """
    @pytest.mark.canbusd("can0,can1", observe="can1")
    def test_it(canbusd):
        with canbusd.bus("can0") as can0:
            can0.send(can.Message(arbitration_id=0x123, data=[1, 2], is_extended_id=False))
            assert canbusd.expect(id=0x123, within=20).data == b"\\1\\2"
            canbusd.expect_state("can0", "active")
            canbusd.expect(id=0x124, within=0.1)
    """
    )
    done.assert_outcomes(failed=1)
    done.stdout.fnmatch_lines(
        [
            "E * no frame 124 within 0.1 seconds",
            "E * the last frames that can1 saw, each with its receiver:",
            "E * (*) can1 123#0102",
        ]
    )
    # The failure is reported at a line of the test, not of the package.
    done.stdout.no_fnmatch_line("*expectations.py*")


def test_a_database_is_in_the_failure_and_on_the_page(run, pytester):
    pytest.importorskip("canmatrix")
    done = run(
        f"""
    @pytest.mark.canbusd("can0,can1", database={str(Path(__file__).with_name("car.dbc"))!r})
    def test_it(canbusd):
        with canbusd.bus("can0") as can0:
            can0.send(canbusd.database.encode("Engine", {{"speed": 2000}}).message())
            canbusd.wait_for(lambda: can0.stats().done, 20)
            canbusd.expect(signal="speed", above=2900, within=0)
    """
    )
    done.assert_outcomes(failed=1)
    done.stdout.fnmatch_lines(["E * can1 123#204E410000000000  Engine: speed=2000 km/h"])
    page = next((pytester.path / "kept").rglob("can0.html")).read_text(encoding="utf-8")
    assert list(data_of(page)[0]["messages"].values()) == ["Engine"]


def test_a_server_that_tests_share_is_expected_from_each_test_on(run):
    """A test can expect frames that were sent while one of its fixtures was set up."""
    done = run(
        """
    @pytest.fixture(scope="module")
    def server():
        with canbusd.Server("can0,can1") as running, running.bus("can0") as can0:
            running.can0 = can0
            yield running

    @pytest.fixture
    def sent(server):
        server.can0.send(can.Message(arbitration_id=0x123, is_extended_id=False))
        server.wait_for(lambda: server.can0.stats().waiting == 0, 20)
        server.inject(canbusd.Faults().next(32, sender="can0").destroyed())
        server.can0.send(can.Message(arbitration_id=0x124, is_extended_id=False))
        server.wait_for(lambda: server.state("can0") == "off", 20)
        server.can0.restart()

    def test_one(server, sent):
        server.expect(id=0x123, within=0)
        server.expect_state("can0", "off", within=0)

    def test_two(server):
        server.expect_no_frame(within=0)
        with pytest.raises(AssertionError):
            server.expect_state("can0", "off", within=0)

    def test_three(server, sent):
        server.expect(id=0x123, within=0)
        server.expect_state("can0", "off", within=0)
    """
    )
    done.assert_outcomes(passed=3)
