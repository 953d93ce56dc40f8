"""A program that can't be in virtual time ends the run at once, with status 125 and a line that names the program, the
thread and the reason."""

import os
import shutil
import socket
import subprocess
import sys
import time

import pytest

from running import command, needs_gcc
from virtual_runs import fails, virtual

needs_root = pytest.mark.skipif(os.geteuid() != 0, reason="only root can run as another user")
#: The words that run a program as a user like nobody, who is not the run's user and is in no group.
OTHER = ["setpriv", "--reuid=65534", "--regid=65534", "--clear-groups"]
RIGHTS = r"\w+ \(process \d+\) has other rights than the run"


def soon(pattern, *words, before=()):
    """Runs a program that would take a minute. Checks that the run ends within seconds, with this reason."""
    begun = time.monotonic()
    line = [*before, command(), "--virtual", "--", *map(str, words)]
    ended = subprocess.run(line, capture_output=True, text=True, timeout=100, check=False)
    fails(ended, pattern)
    assert time.monotonic() - begun < 20


@needs_root
def test_another_user():
    """root's run ends if a process changes to another user and then executes a program"""
    soon(RIGHTS, *OTHER, "sleep", "60")
    soon(RIGHTS, "sh", "-c", f"{' '.join(OTHER)} sleep 60; echo never")


@needs_root
def test_same_program_goes_on():
    """a program that gives up its rights but executes no other program stays in the run"""
    text = "import os, time; os.setuid(65534); time.sleep(60); print(time.time())"
    ended = virtual(sys.executable, "-c", text)
    assert (ended.returncode, ended.stdout) == (0, "1767225660.0\n"), ended


@pytest.fixture(name="open_folder")
def make_open_folder():
    """Makes a folder that all users may read."""
    folder = subprocess.check_output(["mktemp", "-d", "/tmp/refused.XXXXXX"], text=True).strip()
    os.chmod(folder, 0o755)
    yield folder
    shutil.rmtree(folder)


@needs_root
@pytest.mark.skipif(not shutil.which("setcap"), reason="no setcap")
def test_own_rights(open_folder):
    """a run that was started by a user other than root ends if a program is setuid or has capabilities"""
    for name, words in (("setuid", ["chmod", "4755"]), ("setcap", ["setcap", "cap_net_raw+ep"])):
        path = shutil.copy(shutil.which("sleep"), os.path.join(open_folder, name))
        subprocess.run([*words, path], check=True)
        soon(RIGHTS, path, "60", before=OTHER)
        soon(RIGHTS, "sh", "-c", f"{path} 60; echo never", before=OTHER)


TRACED = r"\w+ \(process \d+\) is traced, as by strace or gdb"


@pytest.mark.skipif(not shutil.which("strace"), reason="no strace")
def test_traced():
    """the run ends if a program in it is started by strace, or if the run itself is started by strace"""
    soon(TRACED, "strace", "-f", "-o", "/dev/null", "sleep", "60")
    soon(TRACED, "sleep", "60", before=("strace", "-f", "-o", "/dev/null"))


SENDS = "import socket, time; s = socket.socket(socket.AF_INET, socket.SOCK_DGRAM)"


def test_datagrams():
    """a UDP datagram to a program outside the run, on this machine or another, ends the run"""
    sent = r"\(thread \d+ of process \d+\) sends to UDP port {}, which is no program of this run, at {}"
    with socket.socket(socket.AF_INET, socket.SOCK_DGRAM) as server:
        server.bind(("127.0.0.1", 0))
        port = server.getsockname()[1]
        to = f"('127.0.0.1', {port})"
        for text in (f"s.sendto(b'x', {to})", f"s.connect({to}); s.send(b'x')", f"s.sendmsg([b'x'], [], 0, {to})"):
            soon(sent.format(port, "127.0.0.1"), sys.executable, "-c", f"{SENDS}; {text}; time.sleep(60)")
    soon(
        sent.format(53, "192.0.2.1"),
        sys.executable,
        "-c",
        f"{SENDS}; s.sendto(b'x', ('192.0.2.1', 53)); time.sleep(60)",
    )
    # Datagrams to these peers do not end the run: a missing peer, which the kernel reports; a peer to which a socket is
    # only connected, as for a route lookup; a multicast group; and a peer in the run.
    for text in (
        "s.sendto(b'x', ('127.0.0.1', 9))",
        "s.connect(('127.0.0.1', 9))",
        "s.sendto(b'x', ('239.1.1.1', 5353))",
        "r = socket.socket(socket.AF_INET6, socket.SOCK_DGRAM); r.bind(('::', 0)); s.settimeout(5)\n"
        "s.sendto(b'x', ('127.0.0.1', r.getsockname()[1])); r.sendto(b'y', r.recvfrom(5)[1]); assert s.recv(5) == b'y'",
    ):
        ended = virtual(sys.executable, "-c", f"{SENDS}; {text}")
        assert (ended.returncode, ended.stderr) == (0, ""), ended


CALLS = """
#define _GNU_SOURCE
#include <linux/futex.h>
#include <sched.h>
#include <signal.h>
#include <stdlib.h>
#include <sys/syscall.h>
#include <unistd.h>
static char stack[65536];
static int run(void *nothing) { return nothing != 0; }
int main(int count, char **words) {
    static int word;
    switch (atoi(words[count - 1])) {
    case 0: return syscall(SYS_futex, &word, FUTEX_WAIT_REQUEUE_PI, 0, 0, &word, 0);
    case 1: return syscall(449, 0, 0, 0, 0, 0);
    case 2: return syscall(SYS_io_getevents, 0, 1, 1, 0, 0);
    default: clone(run, stack + sizeof stack, CLONE_VM | SIGCHLD, 0); return 0;
    }
}
"""


@needs_gcc
def test_calls(tmp_path):
    """a run ends if a program makes an unknown system call that waits, or starts a child that shares its memory"""
    (tmp_path / "calls.c").write_text(CALLS, encoding="ascii")
    subprocess.run(["gcc", "-o", str(tmp_path / "calls"), str(tmp_path / "calls.c")], check=True)
    reasons = (
        "makes operation 11 of futex",
        "makes system call 449",
        "makes system call 208",
        "shares its memory by clone",
    )
    for number, reason in enumerate(reasons):
        soon(rf"calls \((thread \d+ of )?process \d+\) {reason}", tmp_path / "calls", number)
