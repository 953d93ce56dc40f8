"""Virtual time: runs with the same seed are identical, and so are pytest tests with the same name."""

import os
import re
import shutil
import subprocess
import sys

import pytest

from running import command, needs_gcc
from serving import ROOT, program
from virtual_runs import case, needs_can, needs_tools, nodes, virtual

__all__ = ["nodes"]

#: How often the test suite runs every case.
RUNS = 5
SEED = ("--seed", "5", "--jitter", "300")

SAME = [
    *(("nodes", ""), ("tools", ""), ("isotp", ""), ("j1939", ""), ("bcm", ""), ("worst_case", ""), ("senders", "")),
    ("bus_off", "auto"),
    *(pytest.param(*words, marks=needs_can) for words in (("bus_off", "program"), ("pytest", ""))),
    *(pytest.param("python", kind, marks=needs_can) for kind in ("socketcan", "canbusd")),
]


def all_same(name, kind, folder, nodes, runs, options=()):
    """Runs a case several times, and checks that the outputs and files are identical. All runs use the same folder,
    because its name may be in the output."""
    first = case(name, folder / "run", nodes, options, KIND=kind)
    (folder / "run").rename(folder / "first")
    for number in range(1, runs):
        left = case(name, folder / "run", nodes, options, KIND=kind)
        differ = [key for key in {*first, *left} if first.get(key) != left.get(key)]
        assert not differ, f"run {number}: {differ}"
        shutil.rmtree(folder / "run")


@needs_gcc
@needs_tools
@pytest.mark.parametrize("name, kind", SAME)
@pytest.mark.parametrize("runs", [RUNS, pytest.param(100, marks=pytest.mark.slow)])
def test_same_bytes(tmp_path, nodes, name, kind, runs):
    """logs, records and all outputs are identical in every run"""
    all_same(name, kind, tmp_path, nodes, runs)


@needs_gcc
@needs_tools
@pytest.mark.parametrize("name, kind", SAME)
def test_same_bytes_of_a_seed(tmp_path, nodes, name, kind):
    """logs, records and all outputs are identical in two runs with the same seed and jitter"""
    all_same(name, kind, tmp_path, nodes, 2, SEED)


@pytest.mark.slow
@needs_gcc
@needs_tools
@pytest.mark.parametrize("options", [(), SEED])
@pytest.mark.parametrize("name, kind", SAME)
def test_same_bytes_beside_others(tmp_path, nodes, name, kind, options):
    """logs, records and all outputs are identical while four other processes use the processors"""
    burners = [subprocess.Popen(["nice", "-n", "19", "sh", "-c", "while :; do :; done"]) for _ in range(4)]
    try:
        all_same(name, kind, tmp_path, nodes, 100, options)
    finally:
        for burner in burners:
            burner.kill()
            burner.wait()


@needs_gcc
@needs_tools
def test_seeds(tmp_path, nodes):
    """runs with the same seed are identical, and runs with different seeds differ"""
    left = [case("nodes", tmp_path / name, nodes, words, FRAMES="20") for name, words in zip("abc", (SEED, SEED, ()))]
    assert left[0] == left[1] != left[2]


@needs_gcc
def test_race(nodes):
    """some seeds show a race that the usual order never shows, and they show it again in every run"""
    assert virtual(nodes / "race").stdout == "all are unique\n"
    found = [virtual(nodes / "race", options=("--seed", str(seed), "--jitter", "500")).stdout for seed in range(12)]
    assert 1 <= sum("given out twice" in text for text in found) <= 11, found
    again = [virtual(nodes / "race", options=("--seed", str(seed), "--jitter", "500")).stdout for seed in range(12)]
    assert again == found


@needs_gcc
@pytest.mark.parametrize("options", [(), ("--seed", "7")])
def test_what_is_random(nodes, options):
    """random bytes, addresses, and the order in which threads leave a barrier depend only on the seed"""
    runs = [virtual(nodes / "drawn", options=options) for _ in range(5)]
    assert {(run.returncode, run.stderr) for run in runs} == {(0, "")}
    assert len({run.stdout for run in runs}) == 1, [run.stdout for run in runs]
    drawn = dict(line.rsplit(" ", 1) for line in runs[0].stdout.splitlines() if not line.startswith("addresses"))
    assert all(drawn.values()) and len(set(drawn.values())) == len(drawn), drawn
    other = virtual(nodes / "drawn", options=("--seed", "8")).stdout
    assert not set(drawn.items()) & {tuple(line.rsplit(" ", 1)) for line in other.splitlines()}


def test_what_is_random_of_a_shell():
    """random bytes are the same in every run, even if a random device is the standard input of a program"""
    text = "head -c 8 /dev/urandom; head -c 8 </dev/urandom"
    line = [command(), "--virtual", "sh", "-c", text]
    first, second = (subprocess.run(line, stdout=subprocess.PIPE, check=True).stdout for _ in range(2))
    assert len(first) == 16 and first == second and first[:8] != first[8:]


#: A TCP server and a client that both write twice before they read, while another thread sleeps. Prints the time of
#: each reply.
WRITES = """
import socket, threading, time

def serve():
    with server.accept()[0] as end:
        for _ in range(50):
            while len(end.recv(1)) and not end.recv(1):
                pass
            end.sendall(b"a")
            end.sendall(b"b")

def tick():
    while True:
        time.sleep(0.001)

server = socket.create_server(("127.0.0.1", 0))
threading.Thread(target=serve).start()
threading.Thread(target=tick, daemon=True).start()
with socket.create_connection(server.getsockname()) as client:
    for _ in range(50):
        client.sendall(b"c")
        client.sendall(b"d")
        assert client.recv(1) + client.recv(1) == b"ab"
        print(f"{time.monotonic():.3f}")
        time.sleep(0.05)
"""


def test_writes_to_tcp():
    """no byte is delayed by the kernel's TCP timers, which use the real clock"""
    ended = virtual(sys.executable, "-c", WRITES)
    assert ended.returncode == 0, ended
    assert ended.stdout.split() == [f"{1000 + number * 0.05:.3f}" for number in range(50)]


def test_seed_of_a_failed_script():
    """if a script fails, the run prints the seed with which the failure can be repeated"""
    for words, options in ((("--seed", "7"), "--seed 7 --jitter 0"), (("--jitter", "50"), "--seed 0 --jitter 50")):
        ended = virtual("sh", "-c", "sleep 1; exit 3", options=words)
        line = f"canbusd-run: virtual time: at 1.000000 s status 3; {options} repeats it\n"
        assert (ended.returncode, re.sub(r"1\.0000\d\d", "1.000000", ended.stderr)) == (3, line)
    assert virtual("sh", "-c", "exit 3").stderr == virtual("true", options=SEED).stderr == ""


#: Tests that fail with some seeds. Their results depend on waits, on threads, on a server that several tests use, and
#: on random numbers.
RACES = """
import random
import threading
import time
import uuid

import can
import pytest

import canbusd as package


@pytest.fixture(scope="module")
def shared():
    with package.Server("a,b", bitrate=500000) as server:
        yield server


def order_of(buses):
    \"\"\"In which order the frames of two threads come.\"\"\"

    def send(bus, identifier):
        for _ in range(5):
            time.sleep(0.01)
            bus.send(can.Message(arbitration_id=identifier, is_extended_id=False))

    threads = [threading.Thread(target=send, args=(bus, number)) for number, bus in enumerate(buses, 1)]
    for thread in threads:
        thread.start()
    order = "".join(str(buses[2].recv(timeout=1).arbitration_id) for _ in range(10))
    for thread in threads:
        thread.join()
    return order


@pytest.mark.canbusd("one,two,three", bitrate=500000)
@pytest.mark.parametrize("number", range(2))
def test_own(canbusd, number):
    with canbusd.bus("one") as one, canbusd.bus("two") as two, canbusd.bus("three") as three:
        order = order_of([one, two, three])
    assert order == "", f"{random.random()} {uuid.uuid4()}"


@pytest.mark.parametrize("number", range(2))
def test_shared(shared, number):
    with shared.bus("a") as one, shared.bus("a") as two, shared.bus("b") as three:
        order = order_of([one, two, three])
    assert order == "", f"{random.random()} {uuid.uuid4()}"
"""


def reasons(text):
    """Returns pytest's messages about each failed test: the lines that begin with E."""
    parts = re.findall(r"^_+ (test_\S+) _+$(.*?)(?=^_+ test_|^=+ short)", text, re.M | re.S)
    return {name: re.findall("^E .*$", body, re.M) for name, body in parts}


@needs_can
@pytest.mark.parametrize("seeds", [2, pytest.param(50, marks=pytest.mark.slow)])
def test_repeated_tests(tmp_path, seeds):
    """the command that a failed test prints repeats the failure, although it runs only that test of the file"""
    (tmp_path / "test_it.py").write_text(RACES, encoding="utf-8")
    env = {**os.environ, "CANBUSD_RUN": command(), "CANBUSD": program(), "PYTHONPATH": os.path.join(ROOT, "python/src")}
    env["PYTEST_ADDOPTS"] = "-p canbusd.pytest_plugin -p no:cacheprovider --tb=short"
    how = {"cwd": tmp_path, "env": env, "stdout": subprocess.PIPE, "text": True, "check": False}
    orders = set()
    for seed in range(1, seeds + 1):
        options = ["--canbusd-virtual", "--canbusd-seed", str(seed), "--canbusd-jitter", "300"]
        whole = subprocess.run([sys.executable, "-m", "pytest", "test_it.py", *options], **how).stdout
        failed = reasons(whole)
        commands = re.findall("^repeat: python3 (.*)$", whole, re.M)
        assert len(failed) == len(commands) == 4, whole
        orders.update(re.findall("assert '([12]+)' == ''", whole))
        for line in commands[seed % 2 :: 2] if seeds == 2 else commands:
            again = subprocess.run(f"{sys.executable} {line}", shell=True, **how).stdout
            (name,) = reasons(again)
            assert reasons(again)[name] == failed[name], (seed, whole, again)
    # In each of the five rounds either thread can be first, so 32 orders are possible.
    assert len(orders) > min(seeds, 16), orders


#: Makes every call of the package that can time out, with several timeouts and start times. Prints the calls that do
#: not take exactly the timeout.
WAITS = """
import contextlib, time
import canbusd

def exact(call, micros):
    before = time.monotonic_ns()
    with contextlib.suppress(AssertionError):
        call(micros / 1e6)
    return time.monotonic_ns() - before == micros * 1000

with canbusd.Server("ecu,tester", bitrate=500000) as server:
    with server.bus("tester") as bus, server.isotp("ecu", tx=0x7E0, rx=0x7E8) as end:
        calls = {
            "recv": lambda seconds: bus.recv(timeout=seconds),
            "isotp": lambda seconds: end.recv(timeout=seconds),
            "expect": lambda seconds: server.expect(0x123, within=seconds),
            "state": lambda seconds: server.expect_state("ecu", "off", within=seconds),
        }
        for start in (0, 0.01927, 0.01627, 0.000001, 1.3, 0.000027, 12345.678901, 86400 * 365):
            time.sleep(start)
            for micros in (100000, 1, 1000, 123456, 300000, 333333):
                print(*(f"{name} {micros} {time.monotonic()}" for name in calls if not exact(calls[name], micros)))
"""


@needs_can
def test_waits_of_the_package():
    """every call of the package times out after exactly its timeout, whenever it begins"""
    env = {**os.environ, "CANBUSD": program(), "PYTHONPATH": os.path.join(ROOT, "python", "src")}
    ended = virtual(sys.executable, "-c", WAITS, env=env)
    assert (ended.returncode, set(ended.stdout.split("\n"))) == (0, {""}), ended


def test_start_of_python(tmp_path):
    """a test begins at the start of the run, however much Python has to read and compile first"""
    (tmp_path / "test_it.py").write_text("import time\ndef test_it():\n    print(time.monotonic())\n", encoding="utf-8")
    words = [sys.executable, "-m", "pytest", "-q", "-s", "-p", "no:cacheprovider", "test_it.py"]
    for env in ({}, {"PYTHONPYCACHEPREFIX": str(tmp_path / "new")}, {"PYTHONDONTWRITEBYTECODE": "1"}):
        ended = virtual(*words, cwd=tmp_path, env={**os.environ, **env})
        assert ended.stdout.startswith("1000.0\n"), ended
