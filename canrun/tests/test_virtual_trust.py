"""Virtual time: programs outside a run have no access to it, and the run gives no program additional rights."""

import signal
import subprocess
import sys
import textwrap

import pytest

from running import command, needs_gcc
from virtual_runs import nodes, virtual

__all__ = ["nodes"]

#: A program outside the run. It connects to a coordinator as this user again and again until the run has ended. Prints
#: how many descriptors it has received.
STRANGER = textwrap.dedent(
    """
    import contextlib, os, socket, sys
    if sys.argv[2] == "nobody":
        os.setgid(65534)
        os.setuid(65534)
    got = 0
    with contextlib.suppress(ConnectionRefusedError):
        for number in range(100000):
            with socket.socket(socket.AF_UNIX, socket.SOCK_SEQPACKET) as end:
                end.connect(f"\\0canbusd-virtual/{sys.argv[1]}")
                with contextlib.suppress(BrokenPipeError, ConnectionResetError):
                    end.send((256).to_bytes(4, sys.byteorder) + bytes(8))
                with contextlib.suppress(ConnectionResetError):
                    got += len(end.recvmsg(1, 100)[1])
            if number == 100:
                print(got, flush=True)
    print(got)
    """
)

#: A program in the run that passes bytes through a pipe with pauses, and prints the time at the end.
TICKS = textwrap.dedent(
    """
    import os, sys, threading, time
    print(os.environ["CANBUSD_RUN_VIRTUAL"].split("/")[2], flush=True)
    sys.stdin.readline()
    read, write = os.pipe()
    def send():
        for _ in range(500):
            time.sleep(0.01)
            os.write(write, b"x")
    threading.Thread(target=send).start()
    for _ in range(500):
        os.read(read, 1)
    print(f"{time.monotonic():.3f}", flush=True)
    """
)


@pytest.mark.parametrize(
    "user", [pytest.param("nobody", marks=pytest.mark.root), pytest.param("same", id="of the same user")]
)
def test_stranger(user):
    """a program outside the run that connects to the coordinator gets no descriptor, and does not change the run"""
    line = [command(), "--virtual", sys.executable, "-c", TICKS]
    with subprocess.Popen(line, stdin=subprocess.PIPE, stdout=subprocess.PIPE, text=True) as run:
        coordinator = run.stdout.readline().strip()
        stranger = [sys.executable, "-c", STRANGER, coordinator, user]
        with subprocess.Popen(stranger, stdout=subprocess.PIPE, text=True) as other:
            assert other.stdout.readline() == "0\n", "it got the epoll of the run"
            output, _ = run.communicate("go\n", timeout=120)
            assert other.communicate(timeout=120)[0] == "0\n"
    assert (run.returncode, output) == (0, "1005.000\n")


@needs_gcc
def test_alarms_of_others(nodes):
    """alarms that a program without rights writes into the run's memory send no signal outside the run"""
    with subprocess.Popen(["sleep", "1000"]) as victim:
        try:
            ended = virtual(nodes / "forger", "alarm", victim.pid)
            assert (ended.returncode, ended.stdout) == (0, "written\n"), ended
            assert victim.poll() is None, "it was killed"
        finally:
            victim.kill()


@needs_gcc
def test_alarms_of_the_run(nodes):
    """forged alarms send no signal to a program of the run that has more rights, but a program's own alarms work"""
    script = 'sleep 100 & victim=$!; "$0" alarm $victim; kill -0 $victim && echo lives; kill $victim'
    ended = virtual("bash", "-c", script, nodes / "forger")
    assert (ended.returncode, ended.stdout) == (0, "written\nlives\n"), ended
    alarm = "import signal, time; signal.setitimer(signal.ITIMER_REAL, 5); time.sleep(100)"
    assert virtual(sys.executable, "-c", alarm).returncode == 128 + signal.SIGALRM


@needs_gcc
def test_slots_that_are_not_there(nodes):
    """a slot number that is too large does not crash the coordinator"""
    ended = virtual("sh", "-c", 'sleep 5 & "$0" used; wait; date +%s', nodes / "forger")
    assert (ended.returncode, ended.stdout) == (0, "written\n1767225605\n"), ended


#: Adds always-ready pipe ends to the run's epoll descriptor, and then sleeps.
READY = textwrap.dedent(
    """
    import os, select, time
    numbers = map(int, os.listdir("/proc/self/fd"))
    epoll = next(n for n in numbers if n >= 900 and os.readlink(f"/proc/self/fd/{n}") == "anon_inode:[eventpoll]")
    read, write = os.pipe()
    os.write(write, b"x")
    ends = [os.dup(read) for _ in range(100)]
    of_run = select.epoll.fromfd(epoll)
    for end in ends:
        of_run.register(end, select.EPOLLIN)
    for _ in range(20):
        time.sleep(1)
    print(time.monotonic())
    os._exit(0)
    """
)


def test_epoll_that_is_always_ready():
    """the run continues even if a program has added always-ready descriptors to the run's epoll descriptor"""
    ended = virtual(sys.executable, "-c", READY)
    assert (ended.returncode, ended.stdout) == (0, "1020.0\n"), ended


@pytest.mark.root
def test_user_given_up():
    """a program that has given up root's rights continues, and so do its children; the run notices when the program
    ends"""
    text = """
    import os, time
    os.setgid(65534)
    os.setuid(65534)
    if os.fork() == 0:
        time.sleep(2)
        os._exit(3)
    print(os.waitstatus_to_exitcode(os.wait()[1]), time.monotonic())
    """
    ended = virtual(sys.executable, "-c", textwrap.dedent(text))
    assert (ended.returncode, ended.stdout) == (0, "3 1002.0\n"), ended


@needs_gcc
def test_orphans(nodes):
    """a process is recognised as part of the run even if its parent ends while the process registers"""
    ended = virtual(nodes / "orphans", "1000")
    assert (ended.returncode, ended.stdout, ended.stderr) == (0, "over\n", ""), ended
