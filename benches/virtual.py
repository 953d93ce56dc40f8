#!/usr/bin/env python3
"""Measures how fast virtual time is: a start, an idle hour, nodes in C that read nothing or everything, and pytest tests.

    benches/virtual.py [SECONDS]    measures SECONDS of bus time (by default 20)

CANBUSD and CANBUSD_RUN name the programs. Turns are the scheduling turns of all threads. Processor time is the sum for
all programs of the run, including the server."""

import os
import re
import resource
import shutil
import subprocess
import sys
import tempfile

ROOT = os.path.dirname(os.path.dirname(os.path.abspath(__file__)))
CASES = os.path.join(ROOT, "canrun", "tests", "virtual_cases")
RUN = os.environ.get("CANBUSD_RUN") or os.path.join(ROOT, "canbusd-run")
SERVER = '. "$CASES/server.sh"; start --record none can0,can1,can2,can3,can4,can5,can6,can7,can8,can9; '
DUMP = 'aside candump -ta can9 >"$OUT/candump"; dump=$!; '
IDLE = SERVER + DUMP + "sleep $((FRAMES / 100)); kill $dump; stop"
TWO = (
    SERVER
    + DUMP
    + ('aside "$NODES/respond" can1 100 200 $FRAMES; inside "$NODES/cyclic" can0 100 10000 $FRAMES; kill $dump; stop')
)
TEN = SERVER + (
    'for k in 1 2 3 4 5 6 7 8 9; do aside "$NODES/cyclic" can$k 10$k 10000 $FRAMES; done; '
    'inside "$NODES/cyclic" can0 100 10000 $FRAMES; stop'
)
START = '. "$CASES/server.sh"; start can0,can1; inside "$NODES/cyclic" can0 100 10000 1; stop'
STARTS = 20
#: How many seconds pass until all queues are full. These seconds are not measured.
FIRST = 10
#: The name of each program, its source and a compiler flag.
NODES = (
    *(("cyclic", "cyclic", "-g0"), ("respond", "respond", "-g0")),
    *(("sender", "cyclic", "-DSENDS_ONLY"), ("reader", "cyclic", "-DREADS")),
)
SENDERS, READERS = TEN.replace("cyclic", "sender"), TEN.replace("cyclic", "reader")
#: Tests with two nodes that answer each other every 10 ms: once as C programs that the test starts, and once in Python.
TESTS = """
import os, threading, time
import can, pytest

FRAMES, NODES = int(os.environ["FRAMES"]), os.environ["NODES"]

@pytest.mark.canbusd("can0,can1", bitrate=500000)
def test_c(canbusd):
    nodes = ([f"{NODES}/respond", "can1", "100", "200", str(FRAMES)], [f"{NODES}/cyclic", "can0", "100", "10000", str(FRAMES)])
    for node in [canbusd.start(words, may_end=True) for words in nodes]:
        node.wait(FRAMES)

@pytest.mark.canbusd("can0,can1", bitrate=500000)
def test_python(canbusd):
    def respond():
        for _ in range(FRAMES):
            data = other.recv(timeout=1).data
            other.send(can.Message(arbitration_id=0x200, data=data, is_extended_id=False))

    with canbusd.bus("can0") as node, canbusd.bus("can1") as other:
        thread = threading.Thread(target=respond)
        thread.start()
        begun = time.monotonic()
        for k in range(FRAMES):
            time.sleep(max(0, begun + k * 0.01 - time.monotonic()))
            node.send(can.Message(arbitration_id=0x100, data=[k & 255], is_extended_id=False))
            assert node.recv(timeout=1).arbitration_id == 0x200
        thread.join()
"""
PYTEST = 'mkdir "$OUT"; cd "$OUT"; "$PYTHON" -m pytest -q -p canbusd.pytest_plugin -p no:cacheprovider "$NODES/test_nodes.py" -k {} >&2'


def run(name, script, seconds, folder):
    """Runs a script for `seconds` seconds of bus time. Returns the processor time and how many turns there were."""
    env = {**os.environ, "RUN": RUN, "CASES": CASES, "NODES": folder, "FRAMES": str(seconds * 100)}
    env.setdefault("CANBUSD", os.path.join(ROOT, "dist", "canbusd"))
    env.update(PYTHON=sys.executable, PYTHONPATH=os.path.join(ROOT, "python", "src"), CANBUSD_RUN=RUN)
    env.update(OUT=os.path.join(folder, f"{name.split()[0]}.{seconds}"), CANBUSD_RUN_DEBUG="1")
    before = resource.getrusage(resource.RUSAGE_CHILDREN)
    words = [RUN, "--virtual", "--", "bash", "-c", script]
    ended = subprocess.run(words, env=env, stderr=subprocess.PIPE, text=True, check=True)
    shutil.rmtree(env["OUT"])
    after = resource.getrusage(resource.RUSAGE_CHILDREN)
    used = after.ru_utime + after.ru_stime - before.ru_utime - before.ru_stime
    return used, int(re.search(r"(\d+) turns", ended.stderr).group(1))


def measure(name, script, seconds, frames, whole, folder):
    """Prints what `seconds` seconds of a script cost, without the first seconds, in which queues fill. There are
    `frames` frames in a second. If `frames` is 0, measures the whole run of `whole` seconds."""
    first, turns = run(name, script, FIRST if frames else whole, folder)
    if not frames:
        print(f"{name}: {first:.1f} s of a processor for {whole} s of bus time", flush=True)
        return
    used, all_turns = run(name, script, FIRST + seconds, folder)
    used, turns = (used - first) / seconds, (all_turns - turns) / seconds
    rate = f"{turns / frames:.1f} turns, {used / frames * 1e6:.1f} us a frame"
    rate += f", {used / turns * 1e6:.1f} us a turn"
    print(
        f"{name}: {rate}, {first + used * (whole - FIRST):.1f} s of a processor for {whole} s of bus time", flush=True
    )


def main():
    seconds = int(sys.argv[1]) if len(sys.argv) > 1 else 20
    with tempfile.TemporaryDirectory() as folder:
        for node, name, flag in NODES:
            source = os.path.join(ROOT, "canrun", "tests", "virtual_c", f"{name}.c")
            subprocess.run(["gcc", "-O1", flag, "-o", os.path.join(folder, node), source], check=True)
        with open(os.path.join(folder, "test_nodes.py"), "w", encoding="utf-8") as file:
            file.write(TESTS)
        used = sum(run("start", START, 0, folder)[0] for _ in range(STARTS)) / STARTS
        print(f"start, a frame, end: {used * 1e3:.0f} ms of a processor", flush=True)
        measure("idle, with candump", IDLE, 3600, 0, 3600, folder)
        measure("two nodes and candump", TWO, seconds, 200, 600, folder)
        measure("ten nodes", TEN, seconds, 1000, 3600, folder)
        measure("senders, ten", SENDERS, seconds, 1000, 3600, folder)
        measure("readers, ten", READERS, seconds, 1000, 3600, folder)
        measure("pytest, two C nodes", PYTEST.format("test_c"), seconds, 200, 600, folder)
        measure("Python, two nodes", PYTEST.format("test_python"), seconds, 200, 60, folder)


if __name__ == "__main__":
    main()
