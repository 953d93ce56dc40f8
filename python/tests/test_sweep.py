"""A sweep tries each fault at every attempt of a test. These tests run pytest on other tests."""

import json
import os
import re
import shutil
import signal
import subprocess
import sys
import time
from dataclasses import replace
from pathlib import Path
from xml.etree import ElementTree

import pytest

import canbusd
from canbusd._process.program import find_program
from canbusd._sweep.attempts import Attempted
from canbusd._sweep.faults_given import Fault, parse_fault
from canbusd._sweep.places import places_at
from forked import forked

pytest_plugins = ["pytester"]
EXAMPLES = Path(__file__).resolve().parents[2] / "examples" / "sweep"

# A test with an ECU that counts the frames that it receives, so a frame that arrives twice is counted twice.
PRESSES = """
    def press(canbusd, count):
        with canbusd.bus("tester") as tester, canbusd.bus("ecu", error_frames=False) as ecu:
            for _ in range(count):
                tester.send(can.Message(arbitration_id=0x123, is_extended_id=False), timeout=1)
            presses = 0
            while ecu.recv(0.05) is not None:
                presses += 1
        return presses

    @pytest.mark.canbusd("tester,ecu", bitrate=500_000)
    @pytest.mark.canbusd_sweep()
    def test_presses(canbusd):
        assert press(canbusd, 3) == 3
"""
BENCH = """
    @pytest.mark.canbusd("a,b")
    @pytest.mark.canbusd_sweep(faults=["destroyed", "twice"])
    def test_five(canbusd_bench):
        sender, receiver = canbusd_bench.open("a"), canbusd_bench.open("b")
        for number in range(5):
            sender.send(0x100 + number, b"")
        canbusd_bench.run()
        assert len(receiver.receive()) == 5
"""


@pytest.fixture
def sweep(pytester, monkeypatch):
    """A function that runs pytest on tests with the options of a sweep, in another process that uses this package. It
    starts pytest in the same way as a sweep would restart it, so that no restart is required. A few tests are about
    this restart, and start pytest directly.
    """
    monkeypatch.setenv("PYTHONPATH", str(Path(canbusd.__file__).parents[1]), prepend=os.pathsep)
    monkeypatch.setenv("PYTHONDONTWRITEBYTECODE", "1")
    monkeypatch.setenv("PYTHONHASHSEED", "0")

    def run(text, *words, is_ready=True):
        pytester.makepyfile("import can, canbusd, pytest\n" + "\n".join(line[4:] for line in text.split("\n")))
        ready = [find_program("canbusd-run"), "--ready", "--"] if "--canbusd-sweep" in words and is_ready else []
        pytest_words = [sys.executable, "-m", "pytest", f"--basetemp={pytester.path / 'runs'}"]
        plugins = ["-p", "canbusd.pytest_plugin", "-p", "no:cacheprovider", "-p", "no:xdist"]
        return pytester.run(*ready, *pytest_words, *plugins, *words)

    return run


def found(pytester):
    """Returns the results of the sweep, by test name."""
    tests = json.loads((pytester.path / "canbusd-sweep" / "sweep.json").read_text())["tests"]
    return {test["test"].partition("::")[2]: test for test in tests}


def outcomes(test, kind):
    return [place["result"]["outcome"] for place in test["placements"] if place["kind"] == kind]


def test_a_frame_that_is_counted_twice(sweep, pytester):
    result = sweep(PRESSES, "--canbusd-sweep", "--junitxml=results.xml", is_ready=False)
    result.stdout.fnmatch_lines(
        [
            "test_a_frame_that_is_counted_twice.py::test_presses: 3 attempts, 9 placements, 9 run, 3 failed",
            "  twice 123 from tester: 3 of 3 placements fail",
            "    3 x call: *assert 4 == 3",
            "    first: attempt 0, frame 0 of 123 from tester",
            "    repeat: python3 -m pytest --canbusd-sweep --canbusd-fault '0 lastbit' *::test_presses",
            '    as a test: @pytest.mark.canbusd(.., faults="next 1 from tester id 123 lastbit")',
            "9 placements, 9 run; *",
            "canbusd-sweep/index.html",
        ]
    )
    assert result.ret == pytest.ExitCode.TESTS_FAILED
    test = found(pytester)["test_presses"]
    assert outcomes(test, "destroyed") == outcomes(test, "burst") == ["passed"] * 3
    assert outcomes(test, "twice") == ["failed"] * 3
    cases = ElementTree.parse(pytester.path / "results.xml").findall(".//testcase")
    failures = [case.find("failure") for case in cases]
    assert [failure is None for failure in failures] == [True, False]
    assert "--canbusd-fault '0 lastbit'" in failures[1].text


def test_a_placement_again(sweep, pytester):
    """If a placement is run again, selected by its number or its rule, the records are the same as in the sweep."""
    sweep(PRESSES, "--canbusd-sweep")
    places = [one for one in found(pytester)["test_presses"]["placements"] if one["rule"]]
    for place in [places[1], places[-1]]:
        for fault in [*place["faults"], place["rule"]]:
            again = sweep(PRESSES, "--canbusd-sweep", "--canbusd-fault", fault)
            again.stdout.fnmatch_lines([f"*::test_presses: *; its records are {place['result']['records']}*"])


def test_a_found_fault_as_an_ordinary_test(sweep, pytester):
    sweep(PRESSES, "--canbusd-sweep")
    rule = next(one["rule"] for one in found(pytester)["test_presses"]["placements"] if one["kind"] == "twice")
    kept = PRESSES.replace("bitrate=500_000", f"bitrate=500_000, faults='{rule}'")
    sweep(kept, "--canbusd-virtual").assert_outcomes(failed=1)


def test_a_bench(sweep, pytester):
    """The sweep of a test with a bench does not require virtual time."""
    result = sweep(BENCH, "--canbusd-sweep")
    result.stdout.fnmatch_lines(["*::test_five: 5 attempts, 10 placements, 10 run, 5 failed"])
    test = found(pytester)["test_five"]
    assert outcomes(test, "destroyed") == ["passed"] * 5 and outcomes(test, "twice") == ["failed"] * 5


def test_known_failures(sweep):
    known = PRESSES.replace(
        "canbusd_sweep()", "canbusd_sweep(known=['twice 123 from tester', 'burst 123 from tester'])"
    )
    result = sweep(known, "--canbusd-sweep")
    result.stdout.fnmatch_lines(
        [
            "  twice 123 from tester: 3 of 3 placements fail, as is known",
            "  burst 123 from tester: known to fail, and none of 3 does now",
        ]
    )
    assert result.ret == 0


def test_a_frame_that_is_missed(sweep, pytester):
    """A frame can be missed by one receiver only. If no test notices this, the sweep reports it."""
    result = sweep(PRESSES, "--canbusd-sweep", "--canbusd-sweep-faults", "missed")
    result.stdout.fnmatch_lines(
        ["  missed by ecu 123 from tester: 3 of 3 placements fail", "    3 x call: *assert 2 == 3"]
    )
    fault = found(pytester)["test_presses"]["placements"][0]
    assert fault["faults"][0].startswith("missed ecu 123 ") and fault["rule"] == ""
    unseen = PRESSES.replace("== 3", ">= 2")
    sweep(unseen, "--canbusd-sweep", "--canbusd-sweep-faults", "missed").stdout.fnmatch_lines(
        ["  not noticed: missed by ecu 123 from tester, 3 placements"]
    )


OUTAGES = """
    @pytest.mark.canbusd("tester,ecu", bitrate=500_000)
    @pytest.mark.canbusd_sweep(faults=["down", "noack"])
    def test_all_is_well(canbusd):
        with canbusd.bus("tester") as tester, canbusd.bus("ecu", error_frames=False) as ecu:
            for _ in range(3):
                tester.send(can.Message(arbitration_id=0x123, is_extended_id=False), timeout=1)
            assert len([*iter(lambda: ecu.recv(0.05), None)]) == 3
            assert tester.error_counters() == ("active", 0, 0)
"""


def test_interfaces_that_are_down(sweep, pytester):
    """A sender that goes down loses the frames in its queue. A frame that nobody acknowledges is sent again and
    counted."""
    result = sweep(OUTAGES, "--canbusd-sweep", "--canbusd-sweep-check", "6")
    result.stdout.fnmatch_lines(
        [
            "*::test_all_is_well: 3 attempts, 6 placements, 6 run, *",
            "  down 123 from tester: 3 of 3 placements fail",
            "  noack 123 from tester: 3 of 3 placements fail",
        ]
    )
    said = {one["faults"][0].split()[0]: [] for one in found(pytester)["test_all_is_well"]["placements"]}
    for one in found(pytester)["test_all_is_well"]["placements"]:
        said[one["faults"][0].split()[0]].append(one["result"]["message"])
    # After the third frame, the tester stays down.
    assert [re.search("assert ([0-9]+ == 3)", text)[1] for text in said["down"][:2]] == ["1 == 3", "2 == 3"]
    assert "state='down'" in said["down"][2]
    # The missing acknowledgement adds 8, and each successful frame subtracts 1.
    assert [re.search("tec=([0-9]+)", text)[1] for text in said["noack"]] == ["5", "6", "7"]


RULES = """
    @pytest.mark.canbusd("tester,ecu", bitrate=500_000, auto_restart=20)
    @pytest.mark.canbusd_sweep(faults=["busoff"])
    def test_no_rule_is_left(canbusd):
        with canbusd.bus("tester") as tester:
            for _ in range(3):
                assert canbusd.rules_left() == 0
                tester.send(can.Message(arbitration_id=0x123, is_extended_id=False), timeout=1)
                time.sleep(0.05)
            assert canbusd.rules_left() == 0
            canbusd.inject("next 1 from ecu lastbit")
            assert canbusd.rules_left() == 1

    @pytest.mark.canbusd("a,b")
    @pytest.mark.canbusd_sweep(faults=["busoff"])
    def test_nor_of_a_bench(canbusd_bench):
        a = canbusd_bench.bus("a")
        for _ in range(3):
            assert canbusd_bench.rules_left() == 0
            if a.error_counters().state != "off":
                a.send(0x123)
            canbusd_bench.run()
        canbusd_bench.inject("next 1 from b lastbit")
        assert canbusd_bench.rules_left() == 1
"""


def test_the_rule_of_bus_off_is_hidden(sweep):
    sweep("    import time\n" + RULES, "--canbusd-sweep").stdout.fnmatch_lines(
        [
            "*::test_no_rule_is_left: 3 attempts, 3 placements, 3 run, 0 failed",
            "*::test_nor_of_a_bench: 3 attempts, 3 placements, 3 run, 0 failed",
        ]
    )


IN_TIME = """
    @pytest.mark.canbusd("tester,ecu", bitrate=500_000)
    @pytest.mark.canbusd_sweep(faults=["late", "full"])
    def test_in_time(canbusd):
        with canbusd.bus("tester") as tester, canbusd.bus("ecu") as ecu:
            for _ in range(3):
                tester.send(can.Message(arbitration_id=0x123, is_extended_id=False))
                message = ecu.recv(1)
                assert time.time() - message.timestamp < 0.005
"""


def test_a_frame_that_is_late_and_one_without_room(sweep):
    sweep("    import time\n" + IN_TIME, "--canbusd-sweep").stdout.fnmatch_lines(
        [
            "  late at ecu 123 from tester: 3 of 3 placements fail",
            "  full 123 from tester: 3 of 3 placements fail",
            "    3 x call: can.exceptions.CanOperationError: *transmit queue*full*",
        ]
    )


ANSWERED = """
    @pytest.mark.canbusd("tester,ecu", bitrate=500_000)
    @pytest.mark.canbusd_sweep(faults=["late"], ids=["123"])
    def test_answered(canbusd, tmp_path):
        subprocess.run(["gcc", "-o", tmp_path / "ecu", "sweep/ecu.c"], check=True)
        canbusd.start([tmp_path / "ecu", "ecu"])
        with canbusd.bus("tester") as tester:
            canbusd.expect(id=0x200, within=1)
            for _ in range(3):
                tester.send(can.Message(arbitration_id=0x123, is_extended_id=False))
                sent = time.time()
                canbusd.expect(id=0x124, within=1)
                assert time.time() - sent < 0.005
"""


@pytest.mark.skipif(not shutil.which("gcc"), reason="no gcc")
def test_programs_are_late_and_without_room(sweep, pytester):
    """The example's ECU is late or its writes are refused, but its counter still increases."""
    shutil.copytree(EXAMPLES, pytester.path / "sweep")
    sweep("    import subprocess, time\n" + ANSWERED, "--canbusd-sweep").stdout.fnmatch_lines(
        ["  late at ecu 123 from tester: 3 of 3 placements fail"]
    )
    words = ["-p", "canbusd.pytest_plugin", "-p", "no:cacheprovider", "-p", "no:xdist", "--canbusd-sweep"]
    words += ["--canbusd-sweep-faults", "full", "sweep", "-k", "gap"]
    pytester.runpytest_subprocess(*words).stdout.fnmatch_lines(
        # The gap is not noticed at the first frame, because no counter value precedes it, nor at the last two frames,
        # because no later frame follows in the test.
        ["  full 200 from ecu: 13 of 16 placements fail", "    13 x call: AssertionError: 2 after 0"]
    )


@pytest.mark.skipif(not shutil.which("gcc"), reason="no gcc")
def test_programs_miss_frames_and_are_reset(pytester, monkeypatch):
    """The example's ECU counts presses. It misses frames, and a reset clears the count."""
    monkeypatch.setenv("PYTHONPATH", str(Path(canbusd.__file__).parents[1]), prepend=os.pathsep)
    shutil.copytree(EXAMPLES, pytester.path / "sweep")
    plugins = ["-p", "canbusd.pytest_plugin", "-p", "no:cacheprovider", "-p", "no:xdist"]
    words = ["--canbusd-sweep", "--canbusd-sweep-faults", "missed,reset", "sweep", "-k", "press"]
    pytester.runpytest_subprocess(*plugins, *words).stdout.fnmatch_lines(
        [
            # No test checks the cyclic message.
            "  not noticed: missed by tester 200 from ecu, 8 placements",
            "  missed by ecu 123 from tester: 7 of 7 placements fail",
            "    7 x call: assert 6 == 7",
            # A reset clears the count, except before the first press.
            "  reset of program 0 123 from tester: 7 of 7 placements fail",
        ]
    )


def test_quick(sweep, pytester):
    """A quick sweep tries the first two frames, the middle frame and the last frame with an identifier. It tries all
    frames with the identifier only if the results of these differ."""
    many = BENCH.replace("0x100 + number", "0x100").replace("range(5)", "range(9)").replace("== 5", ">= 9")
    sweep(many, "--canbusd-sweep", "--canbusd-sweep-quick").stdout.fnmatch_lines(
        ["*: 9 attempts, 18 placements, 8 run, 0 failed", "18 placements, 8 run, 10 like those that were run; *"]
    )
    differs = many.replace(">= 9", "== 9")
    sweep(differs, "--canbusd-sweep", "--canbusd-sweep-quick").stdout.fnmatch_lines(
        # Any duplicate frame makes the count wrong, so all four sampled frames have the same result.
        ["*: 9 attempts, 18 placements, 8 run, 4 failed"]
    )
    last = many.replace(">= 9", "== 9 or canbusd_bench.record().attempts[-2].outcome == 'lastbit'")
    sweep(last, "--canbusd-sweep", "--canbusd-sweep-quick").stdout.fnmatch_lines(
        ["*: 9 attempts, 18 placements, 13 run, 8 failed"]
    )


def joined(pytester, *names):
    """Joins the results in these folders. Returns the command's exit status, output lines and error output."""
    parts = (f"{name}/sweep.json" for name in names)
    status, written, said = forked("sweep", "--join", *parts, cwd=pytester.path)
    return status, written.splitlines(), said


def test_parts_of_a_sweep(sweep, pytester):
    """The parts of a sweep have no placement in common. Together they find the same failures as the whole sweep."""
    whole = sweep(BENCH, "--canbusd-sweep").outlines
    expected = found(pytester)
    keys = []
    for part in "123":
        sweep(BENCH, "--canbusd-sweep", "--canbusd-sweep-shard", f"{part}/3")
        keys += [(one["kind"], *one["faults"]) for one in found(pytester)["test_five"]["placements"]]
        (pytester.path / "canbusd-sweep").rename(pytester.path / f"part{part}")
    assert len(keys) == len({*keys}) == 10
    status, lines, said = joined(pytester, "part1", "part2", "part3")
    assert (status, said) == (1, "") and lines[-1] == "canbusd-sweep/index.html"
    assert "  twice 100 from a: 1 of 1 placements fail" in lines
    assert {line for line in lines if line.endswith(" fail")} == {line for line in whole if line.endswith(" fail")}
    assert lines[0] in whole
    assert (pytester.path / "canbusd-sweep" / "index.html").exists()
    for test, other in zip(expected.values(), found(pytester).values()):
        for place in [*test["placements"], *other["placements"]]:
            is_shown = bool(place.pop("page"))
            assert not is_shown or place["result"]["outcome"] == "failed"
            del place["result"]["took"], place["result"]["long"]
        assert test["placements"] == other["placements"]
    # A page stays in the folder of the part that created it.
    pages = json.loads((pytester.path / "canbusd-sweep" / "sweep.json").read_text())["tests"][0]["placements"]
    assert all((pytester.path / "canbusd-sweep" / place["page"]).exists() for place in pages)


def test_parts_that_do_not_fit(sweep, pytester):
    sweep(BENCH, "--canbusd-sweep", "--canbusd-sweep-shard", "1/2")
    (pytester.path / "canbusd-sweep").rename(pytester.path / "part1")
    sweep(BENCH.replace("(5)", "(6)").replace("== 5", "== 6"), "--canbusd-sweep", "--canbusd-sweep-shard", "2/2")
    (pytester.path / "canbusd-sweep").rename(pytester.path / "part2")
    start = "canbusd sweep: "
    test = "test_parts_that_do_not_fit.py::test_five"
    said = f"{start}part2/sweep.json: {test} without a fault left other records than in part1/sweep.json\n"
    assert joined(pytester, "part1", "part2") == (1, [], said)
    assert joined(pytester, "part1")[0] == 1
    (pytester.path / "part2" / "sweep.json").write_text('{"format": 0}')
    no_part = f"{start}part2/sweep.json: it is no sweep.json of this version of canbusd\n"
    assert joined(pytester, "part1", "part2") == (1, [], no_part)
    assert joined(pytester, "none") == (1, [], f"{start}none/sweep.json: No such file or directory\n")


def test_a_limit_of_time(sweep, pytester):
    """A sweep with a time limit reports which placements were not run. When the sweep is resumed, it runs them."""
    result = sweep(BENCH, "--canbusd-sweep", "--canbusd-sweep-time", "0")
    assert "not run" not in result.stdout.str() and result.ret == 0
    begun = sweep(BENCH, "--canbusd-sweep", "--canbusd-sweep-shard", "1/2")
    begun.stdout.fnmatch_lines(["5 placements, 5 run; *"])
    test = found(pytester)["test_five"]
    test["placements"][0]["result"]["message"] = "known from before"
    path = pytester.path / "canbusd-sweep" / "sweep.json"
    path.write_text(json.dumps({"format": 1, "tests": [test]}))
    sweep(BENCH, "--canbusd-sweep", "--canbusd-sweep-resume").stdout.fnmatch_lines(["10 placements, 10 run; *"])
    assert "known from before" in path.read_text()


def test_second_faults(sweep, pytester):
    """With a second fault, the sweep finds a test that passes with one duplicate frame but fails with two."""
    two = BENCH.replace("== 5", "<= 6").replace('["destroyed", "twice"]', '["twice"], pairs=20')
    sweep(two, "--canbusd-sweep").stdout.fnmatch_lines(["  twice, then twice *: * placements fail"])
    places = found(pytester)["test_five"]["placements"]
    bad = [one for one in places if one["result"]["outcome"] == "failed"]
    assert bad and all(one["kind"] == "twice, then twice" and len(one["faults"]) == 2 for one in bad)


def test_a_test_that_fails_without_a_fault(sweep):
    result = sweep(BENCH.replace("== 5", "== 6"), "--canbusd-sweep")
    result.stdout.fnmatch_lines(["*::test_five: failed without a fault: call: *assert 5 == 6"])
    result.assert_outcomes(failed=1)


REFUSED = {
    "no sweep": (["--canbusd-sweep-quick"], "--canbusd-sweep-quick needs --canbusd-sweep"),
    "a fault without one": (["--canbusd-fault", "0 lastbit"], "--canbusd-fault needs --canbusd-sweep"),
    "virtual time too": (["--canbusd-sweep", "--canbusd-virtual"], "*leave out --canbusd-virtual"),
    "no fault": (["--canbusd-sweep", "--canbusd-fault", "0 last"], "*'0 last' is no fault: `5 lastbit`, *"),
    "a range that falls": (
        ["--canbusd-sweep", "--canbusd-fault", "5-3 lastbit"],
        "*its last attempt is before its first",
    ),
    "a rule with a fault": (["--canbusd-sweep", "--canbusd-fault", "next 0 lastbit"], "*next takes at least 1 attempt"),
    "no part": (
        ["--canbusd-sweep", "--canbusd-sweep-shard", "3/2"],
        "a part is K/N, the K-th of N parts, as 1/4, not 3/2",
    ),
    "no kind": (
        ["--canbusd-sweep", "--canbusd-sweep-faults", "lost"],
        "*no kind of fault 'lost'; there are destroyed, *",
    ),
    "no runs": (["--canbusd-sweep", "--canbusd-sweep-jobs", "0"], "*a number from 1 on, not 0"),
}


@pytest.mark.parametrize("words, said", REFUSED.values(), ids=REFUSED)
def test_refused(sweep, words, said):
    result = sweep(BENCH, *words)
    result.stderr.fnmatch_lines([f"ERROR: {said}"])
    assert result.ret == pytest.ExitCode.USAGE_ERROR


def test_nothing_to_sweep(sweep):
    result = sweep("    def test_it():\n        pass", "--canbusd-sweep")
    result.stderr.fnmatch_lines(["ERROR: no test has the marker canbusd_sweep; --canbusd-sweep-all takes all with *"])
    unknown = sweep(BENCH.replace("faults=", "fault="), "--canbusd-sweep")
    unknown.stderr.fnmatch_lines(["ERROR: *marker canbusd_sweep: there is no argument fault; there are faults, *"])


def test_a_fixture_with_a_thread(sweep):
    text = """
    import threading, time

    @pytest.fixture(scope="session")
    def busy():
        end = threading.Event()
        threading.Thread(target=end.wait, name="its thread").start()
        yield
        end.set()

    @pytest.mark.canbusd_sweep()
    def test_it(busy, canbusd_bench):
        pass
    """
    result = sweep(text, "--canbusd-sweep")
    result.stderr.fnmatch_lines(["ERROR: tests can't be swept while a fixture of the session has a thread: its thread"])


def test_a_sweep_that_is_killed(pytester, monkeypatch):
    """A killed sweep leaves no processes, and the next sweep continues from the results of the killed one."""
    monkeypatch.setenv("PYTHONPATH", str(Path(canbusd.__file__).parents[1]), prepend=os.pathsep)
    mark = f"CANBUSD_SWEEP_TEST={os.getpid()}"
    monkeypatch.setenv(*mark.split("="))
    slow = PRESSES.replace("press(canbusd, 3) == 3", "press(canbusd, 20) >= 20")
    path = pytester.makepyfile("import can, canbusd, pytest\n" + "\n".join(line[4:] for line in slow.split("\n")))
    words = [
        sys.executable,
        "-m",
        "pytest",
        "-q",
        "-p",
        "canbusd.pytest_plugin",
        "-p",
        "no:xdist",
        "--canbusd-sweep",
        path,
    ]
    child = subprocess.Popen(words, cwd=pytester.path, stdout=subprocess.DEVNULL, stderr=subprocess.DEVNULL)
    results = pytester.path / "canbusd-sweep" / "sweep.json"
    until = time.monotonic() + 60
    while not (results.exists() and '"outcome": "passed"' in results.read_text()) and time.monotonic() < until:
        time.sleep(0.02)
    child.send_signal(signal.SIGKILL)
    child.wait()
    until = time.monotonic() + 30
    while (left := processes_with(mark)) and time.monotonic() < until:
        time.sleep(0.05)
    assert not left
    assert json.loads(results.read_text())["tests"][0]["base"]["outcome"] == "passed"


# A script that sends two frames to a program. The program expects two frames, but receives three if one is duplicated.
TWO = """#!/bin/sh
"$CANBUSD_RUN" "$PYTHON" node.py can1 >"$TMPDIR/got" &
sleep 0.05
"$CANBUSD_RUN" "$PYTHON" node.py can0 2
wait
echo "$(wc -l <"$TMPDIR/got") frames"
[ "$(wc -l <"$TMPDIR/got")" -eq 2 ]
"""
NODE = """import socket, struct, sys
node = socket.socket(socket.AF_CAN, socket.SOCK_RAW, socket.CAN_RAW)
node.bind((sys.argv[1],))
for number in range(int("".join(sys.argv[2:]) or 0)):
    node.send(struct.pack("=IB3x8s", 0x123, 1, bytes([number])))
node.settimeout(0.3)
while not sys.argv[2:]:
    try:
        print(node.recv(16).hex(), flush=True)
    except TimeoutError:
        break
"""


def test_a_command(pytester, monkeypatch):
    """The command's exit status is the verdict. Its programs find the server through their environment."""
    monkeypatch.setenv("PYTHONPATH", str(Path(canbusd.__file__).parents[1]), prepend=os.pathsep)
    monkeypatch.setenv("CANBUSD_RUN", find_program("canbusd-run"))
    monkeypatch.setenv("PYTHON", sys.executable)
    pytester.makefile(".py", node=NODE)
    script = pytester.path / "two.sh"
    script.write_text(TWO)
    script.chmod(0o755)
    words = [sys.executable, "-m", "canbusd", "sweep", "--bitrate", "500000"]
    found = subprocess.run([*words, "can0,can1", "--", script], cwd=pytester.path, capture_output=True, text=True)
    assert found.returncode == 1, found.stderr
    assert re.search(
        r"two\.sh: 2 attempts, 6 placements, 6 run, 2 failed\n"
        r"  twice 123 from can0: 2 of 2 placements fail\n"
        r"    2 x status 1: 3 frames\n"
        r"    first: attempt 0, frame 0 of 123 from can0\n"
        r"    repeat: canbusd sweep --bitrate 500000 --fault '0 lastbit' can0,can1 -- \S+two\.sh\n"
        r"    as a script: next 1 from can0 id 123 lastbit\n",
        found.stdout,
    )
    again = subprocess.run(
        [*words, "--fault", "1 global bit", "can0,can1", "--", script],
        cwd=pytester.path,
        capture_output=True,
        text=True,
    )
    assert again.returncode == 0 and "two.sh: passed; its records are " in again.stdout


@pytest.mark.parametrize(
    "words, said",
    [
        (["can0,can1", "true"], "-- is before the command"),
        (["--", "true"], "it takes a bus, such as can0,can1, and a command"),
        (["can0", "--"], "it takes a bus, such as can0,can1, and a command"),
        (["--faults", "lost", "can0", "--", "true"], "no kind of fault 'lost'; there are destroyed, "),
        (["--fault", "0 last", "can0", "--", "true"], "'0 last' is no fault: "),
        (["--shard", "2/1", "can0", "--", "true"], "a part is K/N, the K-th of N parts, as 1/4, not 2/1"),
    ],
)
def test_words_of_the_command(words, said):
    status, _, errors = forked("sweep", *words)
    assert status == 2 and said in errors


def processes_with(mark):
    """Returns the ids of all processes except this one whose environment contains this string."""
    found = []
    for path in Path("/proc").glob("[0-9]*/environ"):
        try:
            if mark.encode() in path.read_bytes() and int(path.parts[2]) != os.getpid():
                found.append(int(path.parts[2]))
        except OSError:
            pass
    return found


@pytest.mark.skipif(not shutil.which("gcc"), reason="no gcc")
def test_the_examples(pytester, monkeypatch):
    """The sweep finds every planted bug, at every placement where the bug shows."""
    monkeypatch.setenv("PYTHONPATH", str(Path(canbusd.__file__).parents[1]), prepend=os.pathsep)
    shutil.copytree(EXAMPLES, pytester.path / "sweep")
    plugins = ["-p", "canbusd.pytest_plugin", "-p", "no:cacheprovider", "-p", "no:xdist"]
    result = pytester.runpytest_subprocess(*plugins, "--canbusd-sweep", "sweep")
    result.stdout.fnmatch_lines(
        [
            # Each of the seven frames reveals the bug, and no other placement does.
            "*::test_a_press_counts_once: 22 attempts, 66 placements, 66 run, 7 failed",
            "  twice 123 from tester: 7 of 7 placements fail",
            # The bug is not found at the first frame, because no counter value precedes it, nor at the last two frames,
            # because they are too late for the test to notice.
            "*::test_the_counter_has_no_gap: 16 attempts, 64 placements, 64 run, 13 failed",
            "  busoff 200 from ecu: 13 of 16 placements fail",
            # Only one request reaches the gateway so late that it collides with the next request.
            "*::test_each_request_is_answered: 16 attempts, 32 placements, 32 run, 1 failed",
            "  destroyed 100 from tester: 1 of 8 placements fail",
        ]
    )


def test_examples_and_recipes_hold(pytester, monkeypatch):
    """All marked examples and recipes pass, except for one known effect: a duplicate consecutive frame ends an ISO-TP
    transfer."""
    monkeypatch.setenv("PYTHONPATH", str(Path(canbusd.__file__).parents[1]), prepend=os.pathsep)
    for name in ("recipes", "python"):
        shutil.copytree(EXAMPLES.parent / name, pytester.path / name)
    plugins = ["-p", "canbusd.pytest_plugin", "-p", "no:cacheprovider", "-p", "no:xdist"]
    result = pytester.runpytest_subprocess(*plugins, "--canbusd-sweep", "--canbusd-sweep-quick", "recipes", "python")
    known = "  twice 7E8 from ecu: 2 of 8 placements fail, as is known"
    result.stdout.fnmatch_lines(["canbusd sweep: 8 tests without a fault first", known])
    assert result.ret == 0 and result.stdout.str().count(" placements fail") == 1


def attempt(number, sender, frame, nth=0, nth_of_sender=0, errors=0, fault="good"):
    places = nth, nth_of_sender, "0.000000"
    return Attempted((0, "a"), number, "0.000000", sender, frame, *places, errors, "done", fault)


def test_rules_of_placements():
    """A rule identifies a frame by its sender, its identifier and the number of frames with the same identifier before
    it."""
    found = [attempt(0, "a", "123#"), attempt(1, "a", "123#", 1, 1), attempt(2, "b", "00000123#", 0, 0, 16)]
    rules = [(place.kind, str(place.faults[0]), place.as_rule()) for place in places_at(found, ["twice", "busoff"])]
    assert rules == [
        ("twice", "0 lastbit", "next 1 from a id 123 lastbit"),
        ("twice", "1 lastbit", "next 1 from a id 123 skip 1 lastbit"),
        ("twice", "2 lastbit", "next 1 from b id 00000123 lastbit"),
        # The sender is bus off at 256, and each failed attempt adds 8 (ISO 11898-1).
        ("busoff", "next 32 from a global bit", "next 32 from a global bit"),
        ("busoff", "next 32 from a skip 1 global bit", "next 32 from a skip 1 global bit"),
        ("busoff", "next 30 from b global bit", "next 30 from b global bit"),
    ]


def test_outages_of_placements():
    """A sender goes down just before the end of its frame. A receiver goes down just before the frame starts."""
    found = [
        replace(attempt(0, "a", "123#"), moment="5.000130", began="5.000000"),
        replace(attempt(1, "a", "123#", 1, 1), moment="6.000130", began="6.000000", is_alone=True),
    ]
    places = [(place.kind, str(place.faults[0]), place.as_rule()) for place in places_at(found, ["down", "noack"])]
    assert places == [
        ("down", "down a 5.000129 0.100000", ""),
        ("down", "down a 6.000129 0.100000", ""),
        ("noack", "noack a 4.999998 0.000133", ""),
    ]
    outage = parse_fault("noack a 4.999998 0.000133").outage
    assert outage == ("noack", "a", 4.999998, 0.000133)
    assert outage.among([("x", "y"), ("a", "b", "c")]) == ["b", "c"] and outage.among([("x", "y")]) == []
    down = parse_fault("down b 4.999998 0.100000").outage
    assert down.among([("x", "y"), ("a", "b", "c")]) == ["b"] and parse_fault("down b 4.999998 0.100000").lines == []


def test_attempts_that_have_a_fault_get_none():
    found = [attempt(0, "a", "123#", fault="global bit"), attempt(1, "a", "123#", 1, 1)]
    assert [place.faults[0].line for place in places_at(found, ["destroyed", "burst"])] == [
        "1 global bit",
        "1-16 global bit",
    ]


def test_texts_of_faults():
    assert parse_fault("5 lastbit") == Fault(None, "5 lastbit")
    assert parse_fault("1:can0:5-7 global bit").lines == ["5 global bit", "6 global bit", "7 global bit"]
    assert str(parse_fault("1:can0:next 2 from a global form")) == "1:can0:next 2 from a global form"
    for text in ("", "5", "x lastbit", "5 local crc", "1:5 lastbit"):
        with pytest.raises(ValueError, match=re.escape("is no fault")):
            parse_fault(text)
