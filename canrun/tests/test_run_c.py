"""canbusd-run: C programs with CAN sockets, one for each part of SocketCAN's API (run_c/)."""

import os
import re
import shutil
import signal
import subprocess
import tempfile

import pytest

from made_once import made_once
from running import (
    FAST,
    SANITIZERS,
    compiled,
    environment,
    needs_gcc,
    none_left,
    passes,
    run,
    sanitized_command,
    started,
)
from serving import ROOT, serving

pytestmark = needs_gcc

ATTACK = f"can0,can1@{ROOT}/examples/bus_off_attack.script"
SIXTEEN = ",".join(f"node{number}" for number in range(16))
#: The programs that need only can0 and can1 on one bus.
PLAIN = (
    "calls",
    "faults",
    "options",
    "filters",
    "own",
    "fd",
    "epoll",
    "fork",
    "threads",
    "signals",
    "bcm",
    pytest.param("isotp", marks=pytest.mark.quiet),
    pytest.param("isotp_state", marks=pytest.mark.quiet),
    "j1939",
    "edges",
    "devices",
    "rows",
    "handles",
    "quick",
    "passed_by",
    "wrote_past",
)


@pytest.fixture(params=["", pytest.param("sanitized", marks=pytest.mark.sanitized)], ids=["plain", "sanitized"])
def build(request, tmp_path):
    """Compiles a program and runs it with canbusd-run: once as usual, and once with sanitizers in the program and in
    canbusd-run."""
    return Build(request, str(tmp_path))


class Build:
    def __init__(self, request, folder):
        self.request, self.folder, self.flags, self.how, self.settings = request, folder, (), {}, {}
        if request.param == "sanitized":
            reports = f"log_path={folder}/report:verify_asan_link_order=0:detect_stack_use_after_return=0"
            self.flags, self.how = SANITIZERS, {"runner": sanitized_command()}
            self.settings = {"ASAN_OPTIONS": reports, "UBSAN_OPTIONS": f"log_path={folder}/report:print_stacktrace=1"}

    def passes(self, server, name, *words, **how):
        made = f"{self.request.param}run_c-{name}"
        path = made_once(self.request, made, lambda folder: compiled(name, folder, *self.flags)) / name
        written = passes(
            server, path, *words, patience=200, env=environment(server, **self.settings), **self.how, **how
        )
        assert none_left(server), "a bridge is left"
        reports = [file for file in os.listdir(self.folder) if file.startswith("report")]
        assert not reports, "".join(open(os.path.join(self.folder, file), encoding="utf-8").read() for file in reports)
        return written


@pytest.mark.parametrize("name", PLAIN)
def test_program(build, name):
    """every program passes its checks, no bridge is left, and the record is legal"""
    with serving(*FAST, "can0,can1") as server:
        build.passes(server, name)
        server.end()
        server.audited("can0.rec")


@pytest.mark.parametrize("name", PLAIN)
def test_program_at_unix_path(build, name):
    """the programs pass with a server at a Unix path"""
    with serving(*FAST, "can0,can1", address="./run.socket") as server:
        build.passes(server, name)
        server.end()


def test_stamps(build):
    """a program reads the timestamps that are in the server's log"""
    with serving(*FAST, "can0,can1") as server:
        stamps = build.passes(server, "stamps").split()
        server.end()
        with open(server.path("can0.log"), encoding="utf-8") as log:
            logged = re.findall(r"^\((\d+\.\d{6})\) can0 123#", log.read(), re.M)
        assert len(stamps) == 3 and logged[:3] == stamps, f"{stamps}, and in the log {logged}"


def test_any(build):
    """a socket on all interfaces receives frames from two buses"""
    with serving(*FAST, "can0,can1", "car0") as server:
        build.passes(server, "any")
        server.end()


def test_any_order(build):
    """a socket receives the frames of two buses in order, starting with the first frame"""
    with serving(*FAST, "can0,can1", "car0,car1") as server:
        assert build.passes(server, "any_order") == "600 and 600\n"
        server.end()


def test_small_stack(build):
    """sockets work in threads with the smallest stack, and after a program has cleared its environment"""
    with serving(*FAST, "can0,can1") as server:
        build.passes(server, "small_stack")
        server.end()


@pytest.mark.parametrize("compiler", ["gcc", "clang"])
def test_thread_sanitizer(tmp_path, compiler):
    """a program with the thread sanitizer works with CAN sockets"""
    path = str(tmp_path / "threads")
    words = ["-g", "-O1", "-pthread", "-fsanitize=thread", "-o", path, f"{ROOT}/canrun/tests/run_c/threads.c"]
    if not shutil.which(compiler) or subprocess.run([compiler, *words], capture_output=True, check=False).returncode:
        pytest.skip(f"no {compiler} with the thread sanitizer")
    with serving(*FAST, "can0,can1") as server:
        passes(server, path, patience=200)
        server.end()


def test_interfaces_16(build):
    """sockets work on every interface of a bus with 16 interfaces"""
    with serving(*FAST, SIXTEEN) as server:
        build.passes(server, "interfaces_16")
        server.end()


def test_full(build):
    """a write to a full queue fails with ENOBUFS, and with --wait each write waits for room"""
    with serving("--pace", "1000", "can0,can1") as server:
        build.passes(server, "full")
        server.end()
    with serving("--pace", "20", "can0,can1") as server:
        build.passes(server, "full", "wait", options=["--wait"])
        server.end()


def test_waiting_signal():
    """a signal ends a write that waits for room, with EINTR if the handler lacks SA_RESTART; if the writing program is
    killed, the frame is not sent"""
    with serving("--pace", "60000", "--txqueue", "1", "can0,can1") as server, tempfile.TemporaryDirectory() as folder:
        assert passes(server, compiled("waiting", folder), options=["--wait"]) == "2 accepted\n"
        server.end()


@pytest.mark.parametrize("number", [signal.SIGINT, signal.SIGTERM, signal.SIGHUP])
@pytest.mark.parametrize("lots", [1, pytest.param(20, marks=pytest.mark.slow)])
def test_stopped(number, lots, tmp_path):
    """with --wait a signal that usually ends a program ends its waiting write, even if the signal's handler has
    SA_RESTART"""
    path = compiled("stopped", str(tmp_path))
    for _ in range(lots):
        # The bus sends only one frame a minute. All tries of a program end within that minute.
        with serving("--pace", "60000", "--txqueue", "1", "can0,can1") as server:
            passes(server, path, str(int(number)), "50", options=["--wait"])
            server.end()


@pytest.mark.parametrize("room", ["1", "10"])
def test_deaf_thread(build, room):
    """with --wait a thread that gets no signals waits for only a second, so that another thread's handler can end the
    program; with a queue of 10 frames, the write that waits is a quick write"""
    with serving("--pace", "60000", "--txqueue", room, "can0,can1") as server:
        build.passes(server, "deaf", options=["--wait"])
        server.end()


def test_busoff(build):
    """the program gets error message frames and ENETDOWN, and works again after the restart"""
    with serving("--pace", "1", "--auto-restart", "300", ATTACK) as server:
        assert build.passes(server, "busoff") in ("down\n", "up\n")
        server.end()


def test_gone(build, tmp_path):
    """socket calls fail with ENODEV and ENXIO if the server ends while the program runs"""
    path = compiled("gone", str(tmp_path))
    with serving(*FAST, "can0,can1") as server, started(server, path) as child:
        assert child.stdout.readline() == "ready\n", child.stderr.read()
        server.end()
        assert child.wait(20) == 0, child.stderr.read()
        assert none_left(server), "a bridge is left"


def test_overflow(build):
    """a counter reports how many frames a slow reader has lost"""
    with serving(*FAST, "can0,can1") as server:
        assert re.fullmatch(r"\d+ received, \d+ lost\n", build.passes(server, "overflow"))
        server.end()


def test_static(tmp_path):
    """before a statically linked program starts, a note says that its sockets will be the kernel's"""
    path = compiled("faults", str(tmp_path), "-static")
    with serving("can0,can1") as server:
        ended = run(server, path)
        assert ended.stderr.startswith(
            f"canbusd-run: note: {path} is linked statically, so its CAN sockets are the kernel's; "
            "with canbusd-run --static they are the server's\n"
        )
