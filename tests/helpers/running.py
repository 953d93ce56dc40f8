"""canbusd-run for tests: the command itself, C programs that are compiled for a test, and processes that are left after
a run."""

import contextlib
import functools
import os
import shutil
import signal
import subprocess

import pytest

from serving import ROOT, WAIT, come_true, one_at_a_time, serving

SOURCES = os.path.join(ROOT, "canrun")
PROGRAMS = os.path.join(ROOT, "canrun", "tests", "run_c")
FLAGS = ["-std=gnu11", "-O1", "-Wall", "-Wextra", "-Werror", "-pthread"]
SANITIZERS = ["-g", "-fsanitize=address,undefined", "-fno-sanitize-recover=all"]
#: The options of a server that never waits, so that tests are fast.
FAST = ("--pace", "0", "--txqueue", "1024", "--rxqueue", "65536", "--write", "16384")

needs_gcc = pytest.mark.skipif(not shutil.which("gcc"), reason="no gcc: apt-get install gcc")


def needs(*tools):
    """Skips a test if one of these programs is not installed."""
    missing = [tool for tool in tools if not shutil.which(tool)]
    return pytest.mark.skipif(bool(missing), reason=f"no {', '.join(missing)}: apt-get install can-utils")


@functools.lru_cache(maxsize=None)
def command():
    """Returns the path of canbusd-run: the value of CANBUSD_RUN, or else a build of these sources, made if necessary."""
    if "CANBUSD_RUN" in os.environ:
        return os.path.abspath(os.environ["CANBUSD_RUN"])
    words = [os.path.join(ROOT, "scripts", "run-program"), "choose"]
    chosen = subprocess.run(words, stdout=subprocess.PIPE, text=True, check=False)
    if chosen.returncode:
        pytest.skip("no canbusd-run: it is built by gcc")
    return os.path.join(ROOT, chosen.stdout.strip())


@functools.lru_cache(maxsize=None)
def sanitized_command():
    """Returns the path of canbusd-run with sanitizers, which is built for the tests."""
    with one_at_a_time("sanitized"):
        subprocess.run(["make", "-s", "-C", SOURCES, "sanitized"], check=True)
    return os.path.join(SOURCES, "out", "sanitized", "canbusd-run")


def compiled(name, folder, *flags):
    """Compiles a program from canrun/tests/run_c into this folder, and returns its path."""
    path = os.path.join(folder, name)
    subprocess.run(["gcc", *FLAGS, *flags, "-o", path, os.path.join(PROGRAMS, f"{name}.c")], check=True)
    return path


def environment(server, **more):
    """Returns the environment in which canbusd-run finds this server."""
    address = server.address
    if address.startswith("."):
        address = os.path.join(server.folder, address)
    return {**os.environ, "CANBUSD_ADDRESS": address, **more}


def run(server, *words, options=(), patience=60, runner=None, **how):
    """Runs a program with canbusd-run. Returns the result and the output."""
    how.setdefault("env", environment(server))
    line = [runner or command(), *options, "--", *words]
    return subprocess.run(line, capture_output=True, text=True, timeout=patience, check=False, **how)


def passes(server, *words, **how):
    """Runs a program, checks that its status is 0, and returns its standard output."""
    ended = run(server, *words, **how)
    assert ended.returncode == 0, f"status {ended.returncode}: {ended.stdout}{ended.stderr}"
    return ended.stdout


@contextlib.contextmanager
def started(server, *words, options=(), **how):
    """Starts a program with canbusd-run in a separate process group. At the end of the block this group is ended."""
    how.setdefault("env", environment(server))
    how = {"stdout": subprocess.PIPE, "stderr": subprocess.PIPE, "text": True, "start_new_session": True, **how}
    with subprocess.Popen([command(), *options, "--", *words], **how) as child:
        try:
            yield child
        finally:
            with contextlib.suppress(ProcessLookupError):
                os.killpg(child.pid, signal.SIGKILL)


def processes_of(address, name):
    """Returns the process ids of running processes with this name that belong to a server at this address."""
    found = []
    for process in filter(str.isdigit, os.listdir("/proc")):
        with contextlib.suppress(OSError):
            with open(f"/proc/{process}/environ", "rb") as environ:
                settings = environ.read().split(b"\0")
            with open(f"/proc/{process}/comm", encoding="utf-8") as comm:
                is_named = comm.read().strip() == name
            if is_named and f"CANBUSD_ADDRESS={address}".encode() in settings:
                found.append(int(process))
    return found


def bridges(address):
    """Returns the process ids of the running bridges to a server at this address."""
    return processes_of(address, "canbusd-bridge")


def none_left(server):
    """Waits until all bridges of this server have ended, and returns whether they did so in time."""
    return come_true(lambda: not bridges(environment(server)["CANBUSD_ADDRESS"]), WAIT)


#: The system calls in which a program waits for frames: poll, select, pselect6, ppoll, epoll_wait, epoll_pwait, recvmsg. While a
#: program creates or binds a socket, it waits in other calls.
WAITING = {7, 23, 270, 271, 232, 281, 47}


def settled(child):
    """Waits until the program waits for frames or has ended, and returns it."""

    def fact(name):
        with open(f"/proc/{child.pid}/{name}", encoding="utf-8") as file:
            return file.read().split()[0]

    def waits():
        # canbusd-run itself waits in these calls too, for replies from the server. The name of its process may change
        # between two reads, so the name is read before and after the call.
        before, call, after = fact("comm"), fact("syscall"), fact("comm")
        return "canbusd-run" not in (before, after) and call in map(str, WAITING)

    def is_settled():
        return child.poll() is not None or waits()

    assert come_true(is_settled), "it does not wait for frames"
    return child


@contextlib.contextmanager
def listening(server, *words, **how):
    """Starts a program with canbusd-run, and waits until it waits for frames."""
    with started(server, *words, **how) as child:
        yield settled(child)


def written(child, patience=WAIT):
    """Waits until the program exits by itself with status 0, and returns its output."""
    output, errors = child.communicate(timeout=patience)
    assert child.returncode == 0, f"status {child.returncode}: {output}{errors}"
    return output


@pytest.fixture
def server():
    """A fast server with two buses. The test has to close all its sessions."""
    with serving(*FAST, "can0,can1", "vcan0") as running:
        yield running
        assert none_left(running), "a bridge is left"
        running.end()
