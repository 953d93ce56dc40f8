"""A server in a separate folder, and clients that are plain sockets. The package's Server has only one way to end a
server, and its clients interpret messages. This module shows the processes, the streams and the end of a server from
outside. Its clients return each message unchanged.
"""

import contextlib
import fcntl
import functools
import glob
import os
import pathlib
import re
import select
import shutil
import signal
import socket
import subprocess
import tempfile
import time

ROOT = str(pathlib.Path(__file__).resolve().parents[2])
# The timeout in seconds for any awaited event, long enough for a busy machine.
WAIT = 60


@functools.lru_cache(maxsize=None)
def program():
    """Returns the path of the program without its launcher: the value of CANBUSD, or the program of these sources."""
    if "CANBUSD" in os.environ:
        path = os.path.abspath(os.environ["CANBUSD"])
        if not shutil.which(path):
            raise NoProgram(f"CANBUSD names no program: {path}")
        return path
    words = [os.path.join(ROOT, "scripts", "program"), "fitting"]
    fitting = subprocess.run(words, stdout=subprocess.PIPE, text=True, check=False)
    if fitting.returncode:
        raise NoProgram(
            "no program fits these sources: `make` proves and builds it (20 to 40 minutes), "
            "`scripts/program choose` says why dist/ has none, and CANBUSD=PROGRAM tests another"
        )
    return os.path.join(ROOT, fitting.stdout.strip())


class NoProgram(Exception):
    """There is no program to test. The message says how to get one."""


@functools.lru_cache(maxsize=None)
def writes_live():
    """Returns whether the program has the option `serve --record`."""
    return b"--record" in subprocess.run([program(), "serve", "--help"], stdout=subprocess.PIPE, check=True).stdout


class NotListening(Exception):
    """A server did not print its address. The message is what it printed instead."""


def come_true(question, patience=WAIT):
    """Waits until the condition is true, and returns whether that happened within `patience` seconds."""
    until = time.monotonic() + patience
    while time.monotonic() < until:
        if question():
            return True
        time.sleep(0.02)
    return False


def turns(what, patience=WAIT):
    """Yields until the loop is left. If that takes too long, fails the test with the name of the awaited event."""
    until = time.monotonic() + patience
    while time.monotonic() < until:
        yield
    raise AssertionError(f"not within {patience} seconds: {what}")


def join(threads, patience=WAIT):
    """Waits until these threads have ended, at most `patience` seconds for all of them together."""
    until = time.monotonic() + patience
    for thread in threads:
        thread.join(max(0, until - time.monotonic()))
        assert not thread.is_alive(), f"a thread goes on after {patience} seconds"


@contextlib.contextmanager
def one_at_a_time(what):
    """Ensures that only one test of this user on this machine runs such a block at a time."""
    path = os.path.join(tempfile.gettempdir(), f"canbusd-tests-{os.getuid()}-{what}.lock")
    with open(path, "w", encoding="ascii") as file:
        fcntl.flock(file, fcntl.LOCK_EX)
        yield


def threads_of(processes):
    """Yields the state of each thread, and how often it has gone to sleep."""
    for process in processes:
        for path in glob.glob(f"/proc/{process}/task/*/status"):
            with contextlib.suppress(OSError), open(path, encoding="utf-8") as status:
                yield path, *re.findall(r"^(?:State|voluntary_ctxt_switches):\s+(\S+)", status.read(), re.M)


def all_sleep(processes):
    """Returns whether all threads of these processes are asleep or have ended. A thread that is seen twice in the same sleep did
    not run in between."""
    before, now = sorted(threads_of(processes)), sorted(threads_of(processes))
    return before == now and all(state in "SZ" for _, state, _ in now)


def line_of(stream):
    """Returns the next line from a text pipe. The pipe must not be read in any other way."""
    assert select.select([stream], [], [], WAIT)[0], "it writes nothing"
    return stream.readline()


class Server:
    """A server that runs in a separate folder and in a separate process group. `launcher` is True for the part of the
    launcher that starts servers, a path for another launcher, or False for the program itself. Ctrl-C ends the server,
    and so does the end of its input if that is a pipe. The server's files are in the folder unless `out` names another
    folder.
    """

    def __init__(self, *words, address="127.0.0.1:0", launcher=True, out=".", **how):
        self.folder = tempfile.mkdtemp(prefix="canbusd-")
        self.errors = open(self.path("stderr"), "w+", encoding="utf-8")
        if launcher is True:
            start = [os.path.join(ROOT, "tools", "serve"), program()]
        else:
            start = [launcher or program()]
        self.child = subprocess.Popen(
            [*start, "serve", "--listen", address, *(["--out", out] if out else []), *words],
            cwd=self.folder,
            stdout=subprocess.PIPE,
            stderr=self.errors,
            text=True,
            start_new_session=True,
            **{"stdin": subprocess.DEVNULL, **how},
        )
        line = line_of(self.child.stdout)
        if not line.startswith("listening "):
            with contextlib.suppress(subprocess.TimeoutExpired):
                self.child.wait(WAIT)
            said = self.said()
            self.close()
            raise NotListening(f"{line}{said}")
        self.address = line.removeprefix("listening ").rstrip("\n")
        if ":" in self.address:
            host, _, port = self.address.rpartition(":")
            self.host, self.port = host.strip("[]"), int(port)

    def said(self):
        with open(self.path("stderr"), encoding="utf-8") as errors:
            return errors.read().strip()

    def path(self, name):
        return os.path.join(self.folder, name)

    def processes(self):
        """Returns the processes of the server, each with the fields of its state."""
        for process in filter(str.isdigit, os.listdir("/proc")):
            with contextlib.suppress(OSError), open(f"/proc/{process}/stat", encoding="utf-8") as stat:
                fields = stat.read().rsplit(") ", 1)[1].split()
                if int(fields[3]) == self.child.pid:
                    yield process, fields

    def ticks(self):
        """Returns the processor time of all processes of the server, in hundredths of a second."""
        return sum(int(fields[11]) + int(fields[12]) for _, fields in self.processes())

    def held(self):
        """Returns how many file descriptors and threads the server's processes have."""
        return sum(
            len(os.listdir(f"/proc/{process}/{what}")) for process, _ in self.processes() for what in ("fd", "task")
        )

    def rests(self):
        """Returns whether all threads of the server are asleep."""
        return all_sleep([process for process, _ in self.processes()])

    def memory(self, what):
        """Returns the memory of the server's processes in kilobytes, by the field VmRSS or VmHWM of their status."""
        held = 0
        for process, _ in self.processes():
            with contextlib.suppress(OSError), open(f"/proc/{process}/status", encoding="utf-8") as status:
                held += sum(int(line.split()[1]) for line in status if line.startswith(f"{what}:"))
        return held

    def finish(self, patience=WAIT):
        """Ends the server within the timeout. Returns the status, and the output after `listening`."""
        if self.child.stdin is None:
            os.killpg(self.child.pid, signal.SIGINT)
        try:
            written, _ = self.child.communicate(timeout=patience)
        except subprocess.TimeoutExpired:
            raise AssertionError("the server did not end") from None
        return self.child.returncode, written

    def end(self, says="", patience=WAIT):
        """Ends the server, and checks its status and its standard error. Returns the output after `listening`."""
        status, written = self.finish(patience)
        assert status == 0, f"status {status}: {self.said()}"
        assert self.said() == says, f"standard error: {self.said()}"
        return written

    def audited(self, name):
        """Returns the number of entries in the record with this name, as the audit reports it."""
        audit = subprocess.run([program(), "audit", self.path(name)], capture_output=True, text=True, check=False)
        assert re.fullmatch(r"ok \d+ entries\n", audit.stdout), f"the audit: {audit.stdout}{audit.stderr}"
        return int(audit.stdout.split()[1])

    def close(self):
        with contextlib.suppress(ProcessLookupError):
            os.killpg(self.child.pid, signal.SIGKILL)
        self.child.wait()
        self.errors.close()
        self.child.stdout.close()
        shutil.rmtree(self.folder)


@contextlib.contextmanager
def serving(*words, **how):
    """A server that is always ended with the block."""
    server = Server(*words, **how)
    try:
        yield server
    finally:
        server.close()


def serving_alone(*words, **how):
    """The program as a server, without its launcher. It ends when its input ends."""
    return serving("--until-eof", *words, launcher=False, stdin=subprocess.PIPE, **how)


class Plain:
    """A connection through a plain socket, which returns each message unchanged."""

    def __init__(self, server):
        self.rest = ""
        if ":" in server.address:
            self.socket = socket.create_connection((server.host, server.port), WAIT)
        else:
            self.socket = socket.socket(socket.AF_UNIX)
            self.socket.settimeout(WAIT)
            self.socket.connect(os.path.join(server.folder, server.address))

    def write(self, text):
        self.socket.sendall(text.encode())

    def text(self):
        """Returns the next message, or the empty string if the connection has been closed."""
        while ">" not in self.rest:
            piece = self.socket.recv(65536)
            if not piece:
                return ""
            self.rest += piece.decode()
        text, self.rest = self.rest.split(">", 1)
        return text + ">"

    def answer(self, command):
        self.write(command)
        return self.text()

    def frame(self):
        """Returns the identifier and the data of the next frame, both as they are written."""
        text = self.text()
        frame = re.fullmatch(r"< frame ([0-9A-F]{3}|[0-9A-F]{8}) \d+\.\d{6} ([0-9A-F]*) >", text)
        assert frame, text
        return frame[1], bytes.fromhex(frame[2])

    def close(self):
        self.socket.close()


def plain(server, name):
    """Opens a session in raw mode on the interface with this name."""
    client = Plain(server)
    greeted = client.text(), client.answer(f"< open {name} >"), client.answer("< rawmode >")
    assert greeted == ("< hi >", "< ok >", "< ok >"), f"{greeted}"
    return client


class Pair:
    """Two sessions that exchange frames even on a busy bus: they use the 29-bit identifier 0, which wins against every
    identifier except the 11-bit identifier 0, which no other session sends."""

    def __init__(self, server, source="can0", target="can1"):
        self.source, self.target, self.count = plain(server, source), plain(server, target), 0
        replies = self.source.answer("< filter 0 >"), self.target.answer("< filter 1 80000000 DFFFFFFF >")
        assert replies == ("< ok >", "< ok >"), f"{replies}"

    def go_on(self, after="what happened"):
        """Sends a frame from one session to the other, and checks that it arrives."""
        self.count += 1
        data = self.count.to_bytes(4, "big")
        self.source.write(f"< send 00000000 4 {data.hex(' ')} >")
        try:
            got = self.target.frame()
        except TimeoutError:
            got = "nothing"
        assert got == ("00000000", data), f"after {after} others get {got} in place of frame {self.count}"
