"""Programs with CAN sockets on the buses of a server. Some run to completion, others keep running."""

import contextlib
import os
import re
import signal
import subprocess
import sys
import threading
import time
from pathlib import Path

import pytest
from common import WAIT, message

from canbusd import Server, ServerError
from canbusd._process.output import BLOCK, MOST, Output, Search
from canbusd.programs import Program, words_of

# A SocketCAN node that prints every frame that it receives.
NODE = """
import socket, struct, sys
with socket.socket(socket.PF_CAN, socket.SOCK_RAW, socket.CAN_RAW) as node:
    node.bind(("can1",))
    print("ready", flush=True)
    while True:
        print("received %X" % struct.unpack("=I", node.recv(16)[:4]), flush=True)
"""
STAYS = [sys.executable, "-c", NODE]
# A program that ignores SIGTERM and prints a note instead.
STUBBORN = [
    sys.executable,
    "-c",
    "import signal\nsignal.signal(signal.SIGTERM, lambda *_: print('no', flush=True))\n"
    "print('ready', flush=True)\nwhile True: signal.pause()",
]


def has_ended(pid):
    """Returns whether the process with this id has ended."""
    try:
        os.kill(pid, 0)
    except ProcessLookupError:
        return True
    return False


@pytest.mark.parametrize(
    "text, words",
    [
        ("cansend ecu 123#11", ["cansend", "ecu", "123#11"]),
        ("cansend ecu 123##1AABB", ["cansend", "ecu", "123##1AABB"]),
        ("  candump can0,123~7FF,#FFFFFFFF ", ["candump", "can0,123~7FF,#FFFFFFFF"]),
        ("'a program' \"with 'words'\" of\\ three x''", ["a program", "with 'words'", "of three", "x"]),
        ("sh -c 'candump can0 | head'", ["sh", "-c", "candump can0 | head"]),
        (["a program", "x;y"], ["a program", "x;y"]),
        (("a", "b"), ["a", "b"]),
    ],
)
def test_words(text, words):
    assert words_of(text) == words


@pytest.mark.parametrize(
    "words, fault",
    [
        (
            "candump can0 | head",
            r"'candump can0 \| head' has '\|', which only a shell carries out: \['sh', '-c', 'candump",
        ),
        ("candump can0>log", "has '>'"),
        ("cangen can0 & candump can0", "has '&'"),
        ("candump 'can0", "can't be split into words: No closing quotation"),
        ("", "no word was given"),
        ([], "no word was given"),
        (["candump", 0], r"is the list of its words, or one str, not \['candump', 0\]"),
        (b"candump can0", "is the list of its words, or one str"),
        (None, "is the list of its words, or one str, not None"),
    ],
)
def test_words_that_are_refused(server, words, fault):
    for call in (server.run, server.start):
        with pytest.raises(ValueError, match=fault):
            call(words)
        with pytest.raises(ValueError, match="shell=True"):
            call("true", shell=True)


def test_run_of_one_text(server):
    done = server.run("sh -c 'echo $CANBUSD_INTERFACES'", stdout=subprocess.PIPE, text=True, check=True)
    assert done.stdout == "can0,can1\n"


def test_a_program_that_stays(server):
    node = server.start(STAYS)
    assert node.expect("ready", within=WAIT) == "ready\n" and node.status is None
    with server.bus("can0") as bus:
        bus.send(message(0x123))
    assert node.expect("received 123", within=WAIT) == node.output == "ready\nreceived 123\n"
    assert server.stop().status == 0
    assert node.status == -signal.SIGTERM and has_ended(node.pid)
    assert server.audit()["can0"].startswith("ok ")
    with pytest.raises(ServerError, match="the server has ended"):
        server.start(STAYS)


def test_stop(server):
    node = server.start(STAYS)
    assert node.stop() == node.stop() == -signal.SIGTERM
    stubborn = server.start(STUBBORN)
    stubborn.expect("ready", within=WAIT)
    assert stubborn.stop(timeout=0.1) == -signal.SIGKILL and stubborn.output == "ready\nno\n"
    assert server.stop().status == 0


def test_one_that_ends_by_itself():
    words = ["sh", "-c", "echo one; echo two >&2; exit 3"]
    with pytest.raises(ServerError) as fault, Server("can0,can1") as server:
        gone = server.start(words)
        server.wait_for(lambda: gone.status is not None, timeout=WAIT)
        assert gone.stop() == 3
    assert str(fault.value).splitlines() == [
        "sh -c 'echo one; echo two >&2; exit 3' ended before the test did; pass may_end=True if it may",
        "sh -c 'echo one; echo two >&2; exit 3': status 3, 2 lines of output:",
        "  one",
        "  two",
    ]
    # The error is raised only once, so stop() succeeds now.
    assert server.stop().status == 0


def test_one_that_may_end():
    with Server("can0,can1") as server:
        server.start(["sh", "-c", "exit 3"], may_end=True)
        assert server.start("sh -c 'exit 4'").wait(WAIT) == 4
        with pytest.raises(TimeoutError, match="goes on after 0 seconds\n.*: runs, and no output$"):
            server.start("sleep 1000").wait(0)


def test_a_server_that_is_killed():
    with Server("can0,can1") as server:
        node = server.start(STAYS)
        node.expect("ready", within=WAIT)
        server.kill()
        assert node.wait(WAIT) == 1 and "No such device" in node.output
        other = server
    assert other.stop().status == -signal.SIGKILL


# A Python script that starts a program, prints the process ids, and then ends in one of several ways.
STARTS = """
import os, signal, sys, threading, time
from canbusd import Server
server = Server("can0", listen=sys.argv[1])
program = server.start(["sh", "-c", sys.argv[2]])
print(program.pid, program.expect("\\n"), flush=True)
"""
# Three shell programs: one that ends at SIGTERM, one that ignores SIGTERM, and one with a second process in its process
# group.
MEEK, STUBBORN_ONE, TWO = (
    "echo; exec sleep 1000",
    "trap '' TERM; echo; sleep 1000",
    "sleep 1000 & echo $!; exec sleep 1000",
)
ENDS = {
    "end": "",
    "exception": "raise SystemExit(3)",
    "_exit": "os._exit(3)",
    "exec": "os.execv('/bin/true', ['true'])",
    "SIGKILL": "os.kill(os.getpid(), signal.SIGKILL)",
    "SIGTERM": "os.kill(os.getpid(), signal.SIGTERM)",
    # The forked child keeps the standard output open until its standard input is closed.
    "SIGKILL beside a child": "os.fork() or os.read(0, 1)\nos.kill(os.getpid(), signal.SIGKILL)",
    "SIGKILL in a thread": "threading.Thread(target=lambda: os.kill(os.getpid(), signal.SIGKILL)).start()\ntime.sleep(100)",
}


def wait_until_ended(pids, seconds=WAIT):
    """Waits until all these processes have ended. Fails if one is left after `seconds`."""
    until = time.monotonic() + seconds
    while not all(map(has_ended, pids)):
        assert time.monotonic() < until, f"{pids} go on"
        time.sleep(0.02)


@pytest.mark.parametrize(
    "program, end",
    [
        *((MEEK, end) for end in ENDS),
        *((program, end) for program in (STUBBORN_ONE, TWO) for end in ("end", "SIGKILL")),
    ],
)
def test_one_that_nobody_stops(program, end, tmp_path):
    """The program and its whole process group end when the process that started them ends, no matter how it ends."""
    words = [sys.executable, "-c", STARTS + ENDS[end], f"{tmp_path}/socket", program]
    read, write = os.pipe()
    try:
        # A child of the program might keep a pipe open, so the output goes to a file and the test does not wait for the
        # end of a pipe.
        with open(tmp_path / "output", "w+b") as file:
            child = subprocess.Popen(words, stdin=read, stdout=file, stderr=subprocess.STDOUT)
            child.wait(WAIT)
            file.seek(0)
            pids = [int(word) for word in file.read().split()]
        assert len(pids) == 1 + (program == TWO)
        wait_until_ended(pids)
    finally:
        os.close(read)
        os.close(write)


def test_the_end_of_the_thread_that_started_it_is_none_of_its(server):
    started = []
    thread = threading.Thread(target=lambda: started.append(server.start(STAYS)))
    thread.start()
    thread.join(WAIT)
    started[0].expect("ready", within=WAIT)
    assert started[0].status is None and started[0].stop() == -signal.SIGTERM


def children():
    """Returns the ids of the child processes that have not been waited for."""
    found = set()
    for task in Path("/proc/self/task").iterdir():
        found.update((task / "children").read_text().split())
    return found


def test_nothing_is_left_of_one_that_has_ended(server):
    """A program that has ended leaves no process, so no later signal reaches another process with its id."""
    before = children()
    for ended in (
        lambda one: one.wait(WAIT),
        lambda one: server.wait_for(lambda: one.status is not None),
        Program.stop,
    ):
        program = server.start("sleep 0.01", may_end=True)
        assert len(children() - before) == 2
        ended(program)
        assert children() == before and program.status is not None


def test_nothing_is_left_of_one_that_did_not_start(server):
    before = children()
    with pytest.raises(NotADirectoryError):
        server.start("true", cwd="/dev/null", may_end=True, executable="/dev/null/x")
    assert children() == before


def test_one_that_is_forgotten(server):
    """A program ends when the last reference to its object is dropped, just as a server does."""
    pid = Program(["sleep", "1000"], [], server._folder / "forgotten", False).pid
    until = time.monotonic() + WAIT
    # If the program has ended before Python frees the object, Python itself waits for the process.
    with contextlib.suppress(ChildProcessError):
        while os.waitpid(pid, os.WNOHANG) == (0, 0):
            assert time.monotonic() < until
            time.sleep(0.02)


# A program that, during an expectation, writes more than is read, but not more than the disk can hold.
ENDLESS = "import os, signal\nfor _ in range(3000): os.write(1, b'x' * 99_999 + b'\\n')\nsignal.pause()"


def peak():
    """Returns the peak memory of this process in bytes."""
    return int(re.search(r"VmHWM:\s+(\d+)", Path("/proc/self/status").read_text())[1]) * 1024


@pytest.mark.parametrize("within", [0, 0.5, 2])
def test_an_expectation_beside_one_that_writes_without_end(server, within):
    """An expectation ends in time, and uses at most 10 MB of memory."""
    endless = server.start([sys.executable, "-c", ENDLESS])
    endless.expect("x", within=WAIT)
    # Resets the peak memory to the current memory.
    Path("/proc/self/clear_refs").write_text("5")
    memory, start = peak(), time.monotonic()
    with pytest.raises(
        AssertionError, match=r"^no 'y' in the (first [0-9,]+ bytes of the )?output within .*\n"
    ) as fault:
        endless.expect("y", within=within)
    assert time.monotonic() - start < within + 0.5
    assert peak() - memory < 10_000_000 and len(str(fault.value)) < 20_000
    endless.stop()


def test_a_long_output(tmp_path):
    """A string is found at any position, even across two blocks. The returned output is the last megabyte up to the end
    of that string."""
    path = tmp_path / "output"
    for place in (0, BLOCK - 3, 5 * MOST):
        path.write_bytes(b"." * place + b"\xc3\xa4\r\nneedle" + b"," * MOST + b"\n")
        with Search(path, "\u00e4\nneedle") as search:
            assert search.goes_on(time.monotonic() + WAIT) and search.is_found
        text = Output(path).text(search.place)
        assert "\u00e4\nneedle" in text and len(text) <= MOST + 100
        first = search.place - MOST
        assert text.startswith(f".. {first:,} bytes before\n") == (first > 0)


def test_a_search_that_goes_on(tmp_path):
    """A search continues while output is written, even if a write ends in the middle of a character."""
    path = tmp_path / "output"
    with open(path, "wb", buffering=0) as file, Search(path, "b\u20acd\ne") as search:
        for byte in "ab\u20acd\r\ne".encode():
            assert search.goes_on(0) and not search.is_found
            file.write(bytes([byte]))
        assert search.goes_on(0) and search.is_found


def test_an_expectation_that_fails(server):
    node = server.start(["sh", "-c", "seq 12; exec sleep 1000"])
    node.expect("12", within=WAIT)
    with pytest.raises(AssertionError) as fault:
        node.expect("13", within=0.1)
    assert str(fault.value).startswith("no '13' in the output within 0.1 seconds\nsh -c ")
    assert ": runs, the last 10 of 12 lines of output:\n  3\n" in str(fault.value)
    gone = server.start("true", may_end=True)
    with pytest.raises(AssertionError, match="^no 'x' in the output\ntrue: status 0, and no output$"):
        gone.expect("x", within=WAIT)


def test_a_program_that_can_not_be_started(server, tmp_path):
    """Starting a program that does not exist raises subprocess's error, with any environment and folder. If the program
    starts, its own exit status is returned."""
    (tmp_path / "plain").write_text("")
    (tmp_path / "script").write_text("#!/bin/sh\nexit 127\n")
    (tmp_path / "script").chmod(0o755)
    there = {"PATH": str(tmp_path)}
    for call in (server.run, server.start, lambda words, **more: subprocess.run([words], check=False, **more)):
        with pytest.raises(FileNotFoundError) as fault:
            call("candmp")
        assert fault.value.filename == "candmp" and "candmp" in str(fault.value)
        for words, more in (("true", {"env": there}), ("./nowhere", {"cwd": tmp_path}), (f"{tmp_path}/nowhere", {})):
            with pytest.raises(FileNotFoundError):
                call(words, **more)
        for words, more in ((f"{tmp_path}/plain", {}), ("./plain", {"cwd": tmp_path}), ("plain", {"env": there})):
            with pytest.raises(PermissionError):
                call(words, **more)
    # The launcher in a clone is a bash script, so bash has to be on the PATH.
    there = {"PATH": f"{tmp_path}:{os.environ['PATH']}"}
    for words, more in (("script", {"env": there}), ("./script", {"cwd": tmp_path}), ("sh -c 'exit 127'", {})):
        assert server.run(words, **more).returncode == 127
        assert server.start(words, may_end=True, **more).wait(WAIT) == 127
    with pytest.raises(subprocess.CalledProcessError):
        server.run("sh -c 'exit 3'", check=True)


def test_arguments_of_popen(server, tmp_path):
    read, write = os.pipe()
    with open(read, "rb") as stdin:
        reader = server.start("sh -c 'pwd; echo $X; cat'", cwd=tmp_path, env={**os.environ, "X": "1"}, stdin=stdin)
    with open(write, "wb") as stdout:
        stdout.write(b"last\n")
    assert reader.wait(WAIT) == 0 and reader.output == f"{tmp_path}\n1\nlast\n"
