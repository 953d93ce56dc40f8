"""The command canbusd-run: it becomes the program, finds the server, and leaves no file or process."""

import contextlib
import os
import pty
import re
import select
import shutil
import signal
import socket
import stat
import subprocess
import threading
import time

import pytest

from running import (
    FAST,
    SOURCES,
    bridges,
    command,
    environment,
    listening,
    needs,
    needs_gcc,
    none_left,
    passes,
    run,
    started,
)
from serving import ROOT, WAIT, come_true, line_of, plain, serving, threads_of

NOWHERE = "127.0.0.1:9"


def alone(*words, **how):
    """Runs canbusd-run with these words. Starts no server."""
    how = {"capture_output": True, "text": True, "timeout": 60, "check": False, **how}
    env = {name: value for name, value in os.environ.items() if not name.startswith("CANBUSD_")}
    return subprocess.run([command(), *words], **{"env": env, **how})


def test_help():
    """--help shows every option, and --version shows the version"""
    shown = alone("--help")
    assert shown.returncode == 0 and shown.stderr == ""
    for word in ("--address", "--interfaces", "--wait", "CANBUSD_ADDRESS", "CANBUSD_RUN_DEBUG", "125", "126", "127"):
        assert word in shown.stdout, word
    assert re.fullmatch(r"canbusd-run \d+\.\d+\.\d+\n", alone("--version").stdout)


@pytest.mark.parametrize(
    "words, line",
    [
        ((), "which program? --help shows how it is used"),
        (("--address", NOWHERE), "which program? --help shows how it is used"),
        (("--fast", "true"), "no such option (--help shows all): --fast"),
        (
            ("--address", "can0", "true"),
            "can0 is no address: it is HOST:PORT, [V6]:PORT, or a Unix path that begins with / or .",
        ),
        (
            ("--address", "1.2.3.4:0", "true"),
            "1.2.3.4:0 is no address: it is HOST:PORT, [V6]:PORT, or a Unix path that begins with / or .",
        ),
    ],
)
def test_wrong_words(words, line):
    """after wrong arguments canbusd-run prints one line and ends with status 125"""
    ended = alone(*words)
    assert (ended.returncode, ended.stdout, ended.stderr) == (125, "", f"canbusd-run: {line}\n")


@pytest.mark.quiet
@pytest.mark.parametrize("how", ["option", "variable", "default"])
def test_no_server(how, tmp_path, fixed_ports):
    """without a server canbusd-run ends at once with status 125, and prints one line with the address and a remedy"""
    address = f"{tmp_path}/none.socket"
    words = {"option": ["--address", address], "variable": [], "default": []}[how]
    env = {**os.environ, "CANBUSD_ADDRESS": address if how == "variable" else ""}
    if how == "default":
        address = "127.0.0.1:29536"
        with contextlib.closing(socket.socket()) as probe:
            if probe.connect_ex(("127.0.0.1", 29536)) == 0:
                pytest.skip("something listens at the default address")
    begin = time.monotonic()
    ended = alone(*words, "touch", str(tmp_path / "ran"), env=env)
    assert time.monotonic() - begin < 5
    assert ended.returncode == 125 and ended.stdout == "" and ended.stderr.count("\n") == 1, ended
    assert (
        f"no canbusd server at {address} (" in ended.stderr
        and "canbusd serve" in ended.stderr
        and "--address" in ended.stderr
    )
    assert not (tmp_path / "ran").exists()


def test_other_server():
    """if a program other than canbusd listens at the address, the error line says so"""
    with socket.create_server(("127.0.0.1", 0)) as other:
        address = f"127.0.0.1:{other.getsockname()[1]}"
        with subprocess.Popen([command(), "--address", address, "true"], stderr=subprocess.PIPE, text=True) as child:
            connection, _ = other.accept()
            connection.sendall(b"220 \x1b[31mmail.example\r\n")
            connection.close()
            said = child.stderr.read()
            assert child.wait(WAIT) == 125 and "something else: it says 220 ?[31mmail.example" in said, said


@pytest.mark.parametrize("answer", [b"< error unknown command >", b"< interfaces can0", b"< interfaces >", b""])
def test_older_server(answer):
    """a server that can't list its interfaces is reported as an older version of canbusd"""
    with socket.create_server(("127.0.0.1", 0)) as older:
        address = f"127.0.0.1:{older.getsockname()[1]}"
        with subprocess.Popen([command(), "--address", address, "true"], stderr=subprocess.PIPE, text=True) as child:
            connection, _ = older.accept()
            with connection:
                connection.sendall(b"< hi >")
                assert connection.recv(100) == b"< interfaces >"
                connection.sendall(answer)
            version = alone("--version").stdout.strip()
            assert child.stderr.read() == (
                f"canbusd-run: the server at {address} is older than {version}: start one of the same version\n"
            )
            assert child.wait(WAIT) == 125


def test_full_server():
    """if the server has no free session, the error line names a remedy, and does not say that there is no server"""
    with serving("can0,can1") as server:
        clients = [plain(server, "can0") for _ in range(64)]
        ended = run(server, "true")
        assert (ended.returncode, ended.stdout, ended.stderr) == (
            125,
            "",
            f"canbusd-run: the server at {server.address} has as many sessions as it can, 64: close some\n",
        )
        for client in clients:
            client.close()
        server.end()


#: Sends a frame for each argument. For each received frame, prints whether this socket sent it, and whether this host
#: sent it.
OWN_FRAMES = """
import socket, struct, sys
with socket.socket(socket.PF_CAN, socket.SOCK_RAW, socket.CAN_RAW) as can:
    can.setsockopt(socket.SOL_CAN_RAW, socket.CAN_RAW_RECV_OWN_MSGS, 1)
    can.bind(("can0",))
    for _ in sys.argv[1:]:
        can.send(struct.pack("=IB3x8s", 0x123, 0, b""))
        for _ in range(2):
            flags = can.recvmsg(72)[2]
            print(bool(flags & 0x800), bool(flags & 4))
"""


def test_numbers_of_a_long_run():
    """after billions of frames a socket still recognises its own frames, and only its own"""
    numbers = [5, 6, 2**24 + 4, 2**24 + 6, 2**32 - 2]
    # After each own frame the server sends a frame of another socket. The number of that frame has the same index as
    # the number of an earlier own frame.
    others = [4, 2**24 + 5, 2**24 + 5, 2**24 + 5, 2**24 + 6]
    with socket.create_server(("127.0.0.1", 0)) as server:
        address = f"127.0.0.1:{server.getsockname()[1]}"
        words = ["--address", address, "/usr/bin/python3", "-c", OWN_FRAMES, *map(str, numbers)]
        thread = threading.Thread(target=answer_sessions, args=(server, list(zip(numbers, others))), daemon=True)
        thread.start()
        ended = alone(*words)
        assert ended.stdout.split("\n") == [*(len(numbers) * ["True True", "False True"]), ""], ended
        server.close()


#: Sends two frames, the second with a timer. Prints whether each of the four messages reports a received frame.
TIMED_FRAMES = """
import socket, struct
with socket.socket(socket.PF_CAN, socket.SOCK_DGRAM, socket.CAN_BCM) as can:
    can.settimeout(20)
    can.connect(("",))
    def task(opcode, flags, count, frames):
        return struct.pack("IIIqqqqII", opcode, flags, count, 0, 1000, 0, 0, 0x123, len(frames)) + b"".join(frames)
    can.send(task(socket.CAN_BCM_RX_SETUP, socket.CAN_BCM_RX_FILTER_ID | socket.CAN_BCM_RX_NO_AUTOTIMER, 0, []))
    start = socket.CAN_BCM_SETTIMER | socket.CAN_BCM_STARTTIMER
    can.sendto(task(socket.CAN_BCM_TX_SETUP, start, 2, [struct.pack("=IB3x8s", 0x123, 0, b"")]), ("can0",))
    for _ in range(4):
        print(struct.unpack_from("I", can.recv(200))[0] == socket.CAN_BCM_RX_CHANGED)
"""


def test_frames_that_come_with_a_verdict():
    """the program gets the messages that arrive together with the result of a frame from a timer, even if nothing
    arrives after them"""
    with socket.create_server(("127.0.0.1", 0)) as server:
        address = f"127.0.0.1:{server.getsockname()[1]}"
        numbers = [(1, 2), (3, 4)]
        threading.Thread(target=answer_sessions, args=(server, numbers), daemon=True).start()
        ended = alone("--address", address, "/usr/bin/python3", "-c", TIMED_FRAMES)
        assert ended.stdout.split() == 4 * ["True"], ended
        server.close()


def answer_sessions(server, numbers):
    """Sends the greeting to every session. Answers a send with the frame's number, this frame, and another frame on the
    same interface."""
    with contextlib.suppress(OSError):
        while True:
            connection, _ = server.accept()
            threading.Thread(target=answer_session, args=(connection, numbers), daemon=True).start()


def answer_session(connection, numbers):
    connection.sendall(b"< hi >")
    text, handed_over = "", 0
    with connection:
        while piece := connection.recv(4096):
            *messages, text = (text + piece.decode()).split(">")
            for message in messages:
                word = message.split()[1]
                if word == "send":
                    own, other = numbers.pop(0)
                    handed = "".join(f"< frame 123 0.000000  same {number} >" for number in (own, other))
                    handed_over += 2
                    answer = f"< ack {own} >{handed}"
                else:
                    known = {
                        "echo": "< echo >",
                        "interfaces": "< interfaces can0,can1 >",
                        "stats": f"< stats {handed_over} 0 0 0 0 0 0 >",
                    }
                    answer = known.get(word, "< ok >")
                connection.sendall(answer.encode())


def test_interfaces():
    """a program finds the names of all the server's interfaces"""
    buses = [",".join(f"{bus}-interface{number:02}" for number in range(16)) for bus in "abcdefghijklmnop"]
    names = [name for bus in buses for name in bus.split(",")]
    text = "import socket; print(*(n for i, n in socket.if_nameindex() if i >= 1 << 20)); " + (
        "print(*(socket.if_nametoindex(n) for n in socket_names), *map(socket.if_indextoname, (1 << 20, (1 << 20) + 255)))"
    ).replace("socket_names", repr([names[0], names[17], names[-1]]))
    with serving(*buses) as server:
        shown, numbers = passes(server, "/usr/bin/python3", "-c", text).splitlines()
        assert shown.split() == names
        assert numbers == f"1048576 1048593 1048831 {names[0]} {names[-1]}"
        server.end()


def test_some_interfaces():
    """with --interfaces a program finds only the named interfaces, and the server must have all of them"""
    text = "import socket; print(*(n for i, n in socket.if_nameindex() if i >= 1 << 20))"
    with serving("can0,can1,can2", "far0") as server:
        shown = passes(server, "/usr/bin/python3", "-c", text, options=["--interfaces", "far0,can1"])
        assert shown.split() == ["far0", "can1"]
        wrong = {
            "can0,can9": "can9",
            "can0,": "",
            "": "",
            "can0,,can1": "",
            "can0,\n\x1b[m,x": "??[m",
            30 * "x": 30 * "x",
        }
        for names, name in wrong.items():
            ended = alone("--address", server.address, "--interfaces", names, "true")
            line = f"canbusd-run: --interfaces: the server has no interface '{name}'; it has can0,can1,can2,far0\n"
            assert (ended.returncode, ended.stderr) == (125, line)
        server.end()


def test_wait(tmp_path):
    """--wait waits until the server has started"""
    address = str(tmp_path / "late.socket")
    with subprocess.Popen(
        [command(), "--wait", "--address", address, "echo", "ran"], stdout=subprocess.PIPE, text=True
    ) as child:
        time.sleep(0.3)
        assert child.poll() is None
        with serving("can0,can1", address=address) as server:
            assert child.communicate(timeout=WAIT)[0] == "ran\n"
            server.end()


@pytest.mark.parametrize("address", ["127.0.0.1:0", "./run.socket", "[::1]:0"])
def test_addresses(address):
    """the address comes from an option or a variable; it may be a host name or a relative path, which also works if the
    program is in another folder"""
    if address.startswith("[") and not os.path.exists("/proc/net/if_inet6"):
        pytest.skip("no IPv6")
    with serving("can0,can1", address=address) as server:
        reader = plain(server, "can1")
        words = ["python3", "-c", SEND]
        if address.startswith("."):
            inside = ["sh", "-c", 'cd / && exec "$@"', "sh", *words]
            ended = alone("--address", "./run.socket", "--", *inside, cwd=server.folder)
        elif address.startswith("["):
            ended = alone("--address", server.address, "--", *words)
        else:
            ended = alone("--address", f"localhost:{server.port}", "--", *words)
        assert ended.returncode == 0, ended
        passes(server, *words)
        assert [reader.frame() for _ in range(2)] == [("123", b"\1")] * 2
        reader.close()
        server.end()


SEND = "import socket, struct; s = socket.socket(29, 3, 1); s.bind(('can0',)); s.send(struct.pack('=IB3x8s', 0x123, 1, b'\\1'))"


def test_status_and_pid():
    """canbusd-run has the process ID of the program, and ends with the program's status or signal"""
    with serving("can0,can1") as server:
        assert run(server, "sh", "-c", "exit 7").returncode == 7
        assert run(server, "sh", "-c", "kill -KILL $$").returncode == -signal.SIGKILL
        missing, folder = run(server, "no-such-program"), run(server, "/tmp")
        assert (missing.returncode, missing.stderr) == (
            127,
            "canbusd-run: no-such-program: No such file or directory\n",
        )
        assert (folder.returncode, folder.stderr) == (126, "canbusd-run: /tmp: Permission denied\n")
        with started(server, "sh", "-c", "echo $$") as child:
            assert int(child.stdout.readline()) == child.pid
        assert passes(server, "printf", "%s|", "--address", "x y", "") == "--address|x y||"
        server.end()


def pressed(terminal):
    """Presses Ctrl-C. Returns the output of the terminal from then until its program ends. If Ctrl-C comes just before
    a wait, Python notices it only when the wait ends, so Ctrl-C is pressed again.
    """
    shown = b""
    for _ in range(WAIT):
        os.write(terminal, b"\3")
        try:
            while select.select([terminal], [], [], 1)[0]:
                shown += os.read(terminal, 1000)
        except OSError:
            # The last process has ended. Reads of the terminal then fail with EIO.
            return shown
    raise AssertionError(f"it goes on: {shown!r}")


def test_interrupt():
    """Ctrl-C at a terminal ends the program that runs there, and its bridges"""
    with serving("can0,can1") as server:
        pid, terminal = pty.fork()
        if pid == 0:
            os.execve(command(), [command(), "python3", "-c", WAITING_READER], environment(server))
        shown = b""
        while b"ready" not in shown:
            shown += os.read(terminal, 1000)
        assert len(bridges(environment(server)["CANBUSD_ADDRESS"])) == 1
        shown += pressed(terminal)
        _, status = os.waitpid(pid, 0)
        os.close(terminal)
        assert b"KeyboardInterrupt" in shown and os.WTERMSIG(status) == signal.SIGINT, shown
        assert none_left(server)
        server.end()


WAITING_READER = (
    "import socket, sys; s = socket.socket(29, 3, 1); s.bind(('can0',)); print('ready', flush=True); "
    "s.recv(16); print('got', flush=True); s.recv(16)"
)


def test_kill():
    """after SIGKILL of the program no process and no session is left"""
    with serving("can0,can1", "car0") as server:
        watcher = plain(server, "can1")
        for _ in range(3):
            with started(server, "python3", "-c", WAITING_READER) as child:
                assert child.stdout.readline() == "ready\n", child.stderr.read()
                watcher.write("< send 123 0 >")
                assert child.stdout.readline() == "got\n"
                child.kill()
            assert none_left(server)
        watcher.close()
        assert come_true(server.rests)
        server.end()


def test_pipes():
    """a bridge keeps no pipe open, so a reader sees the end of its input after the program has ended"""
    with serving("can0,can1") as server:
        script = 'python3 -c "$1" & read -r _; kill -STOP $!; echo done'
        with started(server, "bash", "-c", f"({script})", "sh", WAITING_READER, stdin=subprocess.PIPE) as child:
            assert child.stdout.readline() == "ready\n", child.stderr.read()
            child.stdin.write("\n")
            child.stdin.flush()
            assert child.stdout.readline() == "done\n"
            for number in bridges(environment(server)["CANBUSD_ADDRESS"]):
                held = {os.readlink(f"/proc/{number}/fd/{fd}") for fd in os.listdir(f"/proc/{number}/fd")}
                memory = "/memfd:canbusd-socket (deleted)"
                assert {re.sub(r"\d+", "N", one) for one in held} == {"/dev/null", "socket:[N]", memory}, held
                assert os.readlink(f"/proc/{number}/cwd") == "/"
        assert none_left(server)
        server.end()


def test_no_child():
    """the program sees no child, no SIGCHLD, and only one descriptor for each socket; its other files are untouched"""
    text = """
import os, signal, socket
seen = []
signal.signal(signal.SIGCHLD, lambda *_: seen.append(1))
before = os.listdir("/proc/self/fd")
a = socket.socket(29, 3, 1)
a.bind(("can0",))
assert len(os.listdir("/proc/self/fd")) == len(before) + 1
try:
    os.waitpid(-1, os.WNOHANG)
except ChildProcessError:
    pass
else:
    raise AssertionError("a child")
a.close()
assert os.listdir("/proc/self/fd") == before and not seen
r, w = os.pipe()
assert os.write(w, b"xyz") == 3 and os.read(r, 2) == b"xy"
x, y = socket.socketpair()
x.send(b"1")
assert y.recv(5) == b"1"
with open("/dev/null", "wb", 0) as null:
    assert null.write(b"123") == 3
"""
    with serving("can0,can1") as server:
        passes(server, "/usr/bin/python3", "-c", text)
        assert none_left(server)
        server.end()


@needs("candump", "cansend")
def test_nested():
    """canbusd-run works inside canbusd-run, in a shell, and together with other preloaded libraries"""
    with serving(*FAST, "can0,can1") as server:
        assert passes(server, command(), "sh", "-c", 'echo "$LD_PRELOAD"').count("libcanbusd-run.so") == 1
        with listening(server, "stdbuf", "-oL", "candump", "-L", "-n", "2", "can1") as dump:
            passes(server, "sh", "-c", f"cansend can0 123#01 && {command()} cansend can0 124#02")
            assert [line.split()[2] for line in dump.communicate(timeout=WAIT)[0].splitlines()] == ["123#01", "124#02"]
        server.end()


#: Makes two bind calls, which the server refuses.
TWICE = """
import errno, socket
with socket.socket(29, 3, 1) as s:
    for _ in range(2):
        try:
            s.bind(("can0",))
        except OSError as fault:
            assert fault.errno == errno.ENOSPC, fault
        else:
            raise AssertionError("bound")
"""


def test_debug():
    """with CANBUSD_RUN_DEBUG=1 every refusal is printed with the server's reason"""
    text = SEND.replace("s.send(", "s.send(b'x' * 15) if 0 else s.send(")
    with serving("--limit", "3", "can0,can1") as server:
        client = plain(server, "can0")
        client.write("< send 1 0 >")
        ended = run(server, "/usr/bin/python3", "-c", text, env=environment(server, CANBUSD_RUN_DEBUG="1"))
        assert (
            ended.returncode == 1
            and "canbusd-run: bind: No space left on device: the server says: record full\n" in ended.stderr
        ), ended
        # A full record is not reported as bus off. It is reported once, even without CANBUSD_RUN_DEBUG.
        again = run(server, "/usr/bin/python3", "-c", TWICE)
        assert again.stderr == "canbusd-run: bind: No space left on device: the server says: record full\n", again
        client.close()
        server.finish()
    with serving("can0,can1") as server:
        wrong = run(
            server,
            "/usr/bin/python3",
            "-c",
            text.replace("can0", "can9"),
            env=environment(server, CANBUSD_RUN_DEBUG="1"),
        )
        assert (
            "canbusd-run: interface: No such device: no interface of the server has this name\n" in wrong.stderr
        ), wrong
        server.end()


#: Starts another program with posix_spawn, and then replaces itself with a program from PATH.
STARTS = [
    "/usr/bin/python3",
    "-c",
    "import os; os.waitpid(os.posix_spawn('{0}', ['x'], os.environ), 0); os.execvp('true', ['true'])",
]


@needs_gcc
def test_obstacles(tmp_path):
    """a note says why a program gets the kernel's sockets: static linking, setuid, 32 bits, Go"""
    source = tmp_path / "nothing.c"
    source.write_text("int main(void) { return 0; }\n", encoding="utf-8")
    built = {}
    for name, flags in {"dynamic": [], "static": ["-static"]}.items():
        built[name] = str(tmp_path / name)
        subprocess.run(["gcc", *flags, "-o", built[name], str(source)], check=True)
    marked = bytearray((tmp_path / "dynamic").read_bytes())
    marked[4] = 1
    (tmp_path / "small").write_bytes(marked)
    (tmp_path / "small").chmod(0o755)
    with serving("can0,can1") as server:
        assert run(server, built["dynamic"]).stderr == ""
        plain = "canbusd-run: note: {} {}, so its CAN sockets are the kernel's\n"
        note = plain.replace("\n", "; with canbusd-run --static they are the server's\n")
        static = run(server, built["static"])
        assert (static.returncode, static.stderr) == (0, note.format(built["static"], "is linked statically"))
        # The note is the same if a shell or Python starts the program.
        for words in (["sh", "-c", built["static"]], ["bash", "-c", f"exec {built['static']}"], STARTS):
            started = run(server, *(word.format(built["static"]) for word in words))
            assert started.stderr == static.stderr, words
        assert run(server, "sh", "-c", built["dynamic"]).stderr == ""
        # These programs are linked statically, but they either use no CAN sockets or run another program with the
        # library.
        assert run(server, "/usr/bin/python3", "-c", "import ctypes.util; ctypes.util.find_library('c')").stderr == ""
        loader = os.path.realpath("/lib64/ld-linux-x86-64.so.2")
        if os.path.exists(loader):
            assert run(server, "sh", "-c", f"{loader} {built['dynamic']}").stderr == ""
            assert run(server, loader, built["dynamic"]).stderr == ""
        (tmp_path / "valgrind").mkdir()
        shutil.copy(built["static"], tmp_path / "valgrind" / "memcheck-amd64-linux")
        assert run(server, "sh", "-c", str(tmp_path / "valgrind" / "memcheck-amd64-linux")).stderr == ""
        small = run(server, str(tmp_path / "small"))
        assert small.stderr.startswith(plain.format(tmp_path / "small", "is a 32-bit program"))
        if os.geteuid() == 0:
            shutil.copy(built["dynamic"], tmp_path / "other")
            os.chown(tmp_path / "other", 65534, 65534)
            os.chmod(tmp_path / "other", 0o755 | stat.S_ISUID)
            other = run(server, str(tmp_path / "other"))
            assert other.stderr == plain.format(tmp_path / "other", "is setuid, setgid or has capabilities")
        server.end()


def test_space_in_path(tmp_path):
    """the loader can't preload a library whose path contains a space, so canbusd-run prints one line and ends with
    status 125"""
    folder = tmp_path / "my programs"
    folder.mkdir()
    for name in ("canbusd-run", "canbusd-bridge", "libcanbusd-run.so", "libcanbusd-virtual.so"):
        shutil.copy(os.path.join(os.path.dirname(command()), name), folder / name)
    with serving("can0,can1") as server:
        ended = run(server, "true", runner=str(folder / "canbusd-run"))
        assert ended.returncode == 125 and "a space or a colon" in ended.stderr, ended
        server.end()


@pytest.mark.root
def test_unprivileged(tmp_path):
    """the user nobody, who can't get additional rights, can use canbusd-run"""
    reader = os.path.dirname(command())
    shutil.copytree(reader, tmp_path / "run", ignore=shutil.ignore_patterns("sanitized"))
    for path in [tmp_path, *tmp_path.parents]:
        if os.stat(path).st_mode & 0o755 != 0o755 and str(path).startswith("/tmp/pytest"):
            os.chmod(path, 0o755)
    with serving("can0,can1") as server:
        client = plain(server, "can1")
        words = ["setpriv", "--reuid=65534", "--regid=65534", "--clear-groups", "--no-new-privs", "--inh-caps=-all"]
        subprocess.run(
            [*words, str(tmp_path / "run" / "canbusd-run"), "/usr/bin/python3", "-c", SEND],
            env=environment(server),
            check=True,
            timeout=60,
        )
        assert client.frame() == ("123", b"\1")
        client.close()
        assert none_left(server)
        server.end()


def test_64_sockets():
    """a program can have as many sockets as the server has sessions. One more socket fails with EUSERS (87), and a line
    gives the reason. It succeeds after another socket has been closed"""
    text = """
import errno, socket
def one():
    s = socket.socket(29, 3, 1)
    s.bind(("can0",))
    return s
all = [one() for _ in range(64)]
try:
    one()
except OSError as fault:
    assert fault.errno == errno.EUSERS, fault
else:
    raise AssertionError("65 sockets")
all.pop().close()
for _ in range(100):
    try:
        one()
        break
    except OSError:
        import time
        time.sleep(0.05)
else:
    raise AssertionError("no room")
"""
    with serving("can0,can1") as server:
        ended = run(server, "/usr/bin/python3", "-c", text)
        address = environment(server)["CANBUSD_ADDRESS"]
        why = f"can0: the server at {address} has 64 sessions, as many as it can"
        each = "each CAN socket takes one for each interface"
        assert ended.stderr == f"canbusd-run: bind: Too many users: {why}; {each}\n", ended
        assert ended.returncode == 0 and none_left(server)
        server.end()


def test_limit_of_descriptors():
    """a socket call that finds no free descriptor fails with EMFILE, whichever descriptor it is, and leaves no
    descriptor open"""
    text = """
import errno, os, resource, socket
before = len(os.listdir("/proc/self/fd"))
hard = resource.getrlimit(resource.RLIMIT_NOFILE)[1]
seen = set()
for limit in range(3, 14):
    resource.setrlimit(resource.RLIMIT_NOFILE, (limit, hard))
    made = []
    try:
        while len(made) < 8:
            made.append(socket.socket(29, 3, 1))
            made[-1].bind(("can0",))
    except OSError as fault:
        seen.add(errno.errorcode[fault.errno])
    for one in made:
        one.close()
resource.setrlimit(resource.RLIMIT_NOFILE, (hard, hard))
assert len(os.listdir("/proc/self/fd")) == before
print(*seen)
"""
    with serving("can0,can1") as server:
        assert passes(server, "/usr/bin/python3", "-c", text) == "EMFILE\n"
        server.end()


def test_limit_of_files():
    """a program with a file size limit of 0 can still use sockets, and keeps that limit"""
    text = f"import resource; resource.setrlimit(resource.RLIMIT_FSIZE, (0, 1 << 30)); {SEND}"
    text += "; assert resource.getrlimit(resource.RLIMIT_FSIZE) == (0, 1 << 30)"
    with serving("can0,can1") as server:
        passes(server, "/usr/bin/python3", "-c", text)
        server.end()


@pytest.mark.skipif(os.geteuid() != 0, reason="another user has to be this one's")
def test_limit_of_processes():
    """if a socket's bridge process can't be started, the call fails with EAGAIN, as fork does"""
    text = """
import os, resource, socket
os.setgid(65534); os.setuid(65534)
resource.setrlimit(resource.RLIMIT_NPROC, (0, 0))
try:
    socket.socket(29, 3, 1)
except BlockingIOError as fault:
    print("EAGAIN")
"""
    with serving("can0,can1") as server:
        assert passes(server, "/usr/bin/python3", "-c", text) == "EAGAIN\n"
        server.end()


@pytest.mark.parametrize("address", ["127.0.0.1:0", "[::1]:0", "./run.socket"])
@pytest.mark.parametrize("words, length", [((), 10), (("--txqueue", "77"), 77), (("--txqueue=1024",), 1024)])
def test_length_of_queue(address, words, length):
    """SIOCGIFTXQLEN returns the server's queue length"""
    text = """
import fcntl, socket, struct
with socket.socket() as any:
    asked = struct.pack("16sI12x", b"can0", 0)
    print(struct.unpack("16sI12x", fcntl.ioctl(any, 0x8942, asked))[1])
"""
    with serving(*words, "can0,can1", address=address) as server:
        assert passes(server, "/usr/bin/python3", "-c", text) == f"{length}\n"
        server.end()


#: With this library, connect in a bridge returns only after the server has closed the connection, or after 5 seconds.
LATE_CONNECT = """
#include <poll.h>
#include <sys/socket.h>
int __real_connect(int fd, const struct sockaddr *address, socklen_t length);
int __wrap_connect(int fd, const struct sockaddr *address, socklen_t length) {
    int result = __real_connect(fd, address, length);
    poll(&(struct pollfd){fd, 0, 0}, 1, 5000);
    return result;
}
"""


@needs_gcc
def test_server_closes_before_a_write(tmp_path):
    """the bridge reads the last message of a server that closes the connection: if the server is full, bind fails with
    EUSERS, even if the bridge has not written yet"""
    text = """
import errno, socket
with socket.socket(29, 3, 1) as s:
    try:
        s.bind(("can0",))
    except OSError as fault:
        print(errno.errorcode[fault.errno])
"""

    def greet_and_turn_away(server):
        answer_session(server.accept()[0], [])
        connection, _ = server.accept()
        connection.sendall(b"< error too many sessions >")
        connection.close()

    (tmp_path / "late.c").write_text(LATE_CONNECT, encoding="utf-8")
    flags = f"LDFLAGS=-Wl,--wrap=connect {tmp_path}/late.c"
    subprocess.run(["make", "-s", "-C", SOURCES, f"OUT={tmp_path}", flags, f"{tmp_path}/canbusd-bridge"], check=True)
    for name in ("canbusd-run", "libcanbusd-run.so"):
        shutil.copy(os.path.join(os.path.dirname(command()), name), tmp_path)
    address = str(tmp_path / "full.socket")
    with contextlib.closing(socket.socket(socket.AF_UNIX)) as server:
        server.bind(address)
        server.listen()
        threading.Thread(target=greet_and_turn_away, args=(server,), daemon=True).start()
        words = [tmp_path / "canbusd-run", "--address", address, "/usr/bin/python3", "-c", text]
        env = {**os.environ, "CANBUSD_RUN_DEBUG": "1"}
        ended = subprocess.run(words, env=env, capture_output=True, text=True, timeout=60, check=False)
        assert (ended.stdout, ended.stderr) == (
            "EUSERS\n",
            f"canbusd-run: bind: Too many users: can0: the server at {address} has 64 sessions, as many as it can; "
            "each CAN socket takes one for each interface\n",
        )


def stop(server):
    """Sends SIGSTOP to a server, and waits until it has stopped."""
    os.killpg(server.child.pid, signal.SIGSTOP)
    assert come_true(lambda: all(state == "T" for _, state, _ in threads_of(pid for pid, _ in server.processes())))


def call_of(pid):
    """Returns the number of the system call in which a process waits, or `running` if it does not wait."""
    with open(f"/proc/{pid}/syscall", encoding="utf-8") as file:
        return file.read().split()[0]


#: A process's writes to a socket are quick writes after this many writes to the socket.
QUICK = 8
#: Writes as many frames as its argument says, and then waits for a line of input.
WRITER = """
import errno, socket, struct, sys, threading, time
s = socket.socket(29, 3, 1)
s.bind(("can0",))
frame = struct.pack("=IB3x8s", 0x123, 1, b"1")
for _ in range(int(sys.argv[1])):
    s.send(frame)
print("ready", flush=True)
sys.stdin.readline()
"""


@pytest.mark.parametrize("before", [0, QUICK])
def test_server_stops(before):
    """while the server is stopped, every waiting write fails after its time limit, even if there are several. After the
    server continues, writes succeed. This holds for writes through pipes and for quick writes"""
    text = (
        WRITER
        + """
def write():
    begun = time.monotonic()
    try:
        s.send(frame)
    except OSError as fault:
        print(errno.errorcode[fault.errno], time.monotonic() - begun < 8, flush=True)
writers = [threading.Thread(target=write) for _ in range(3)]
for writer in writers:
    writer.start()
sys.stdin.readline()
for writer in writers:
    writer.join()
s.send(frame)
print("sent", flush=True)
"""
    )
    with serving("can0,can1") as server, contextlib.closing(plain(server, "can1")) as reader, started(
        server, "/usr/bin/python3", "-c", text, str(before), stdin=subprocess.PIPE
    ) as child:
        assert line_of(child.stdout) == "ready\n"
        assert [reader.frame() for _ in range(before)] == [("123", b"1")] * before
        stop(server)
        child.stdin.write("\n")
        child.stdin.flush()
        assert [line_of(child.stdout) for _ in range(3)] == ["ETIMEDOUT True\n"] * 3
        os.killpg(server.child.pid, signal.SIGCONT)
        assert come_true(lambda: reader.frame() == ("123", b"1"))
        child.stdin.write("\n")
        child.stdin.flush()
        assert line_of(child.stdout) == "sent\n"
        assert reader.frame() == ("123", b"1")


@pytest.mark.parametrize("before", [0, QUICK])
def test_bridge_is_killed(before):
    """a write fails with ENXIO if the bridge is killed during the write"""
    text = (
        WRITER
        + """
try:
    s.send(frame)
except OSError as fault:
    print(errno.errorcode[fault.errno], flush=True)
"""
    )
    with serving(*FAST, "can0,can1") as server, started(
        server, "/usr/bin/python3", "-c", text, str(before), stdin=subprocess.PIPE
    ) as child:
        assert line_of(child.stdout) == "ready\n"
        (bridge,) = bridges(environment(server)["CANBUSD_ADDRESS"])
        stop(server)
        child.stdin.write("\n")
        child.stdin.flush()
        # During a write the bridge waits for the server in recv (system call recvfrom), and not in ppoll.
        assert come_true(lambda: call_of(bridge) == "45")
        os.kill(bridge, signal.SIGKILL)
        assert line_of(child.stdout) == "ENXIO\n"
        os.killpg(server.child.pid, signal.SIGCONT)


def test_no_descriptors():
    """a program that has reached its limit of descriptors can write and read frames, but calls that need the bridge
    fail with EMFILE"""
    text = """
import errno, os, resource, socket, struct
s, t = socket.socket(29, 3, 1), socket.socket(29, 3, 1)
s.bind(("can0",))
t.bind(("can1",))
resource.setrlimit(resource.RLIMIT_NOFILE, (20, 20))
held = []
try:
    while True:
        held.append(os.dup(0))
except OSError:
    pass
frame = struct.pack("=IB3x8s", 0x123, 1, b"1")
assert s.send(frame) == 16
assert t.recvfrom(16) == (frame, ("can1",))
assert t.getsockopt(socket.SOL_SOCKET, socket.SO_TYPE) == socket.SOCK_RAW
for name in socket.CAN_RAW_LOOPBACK, socket.CAN_RAW_FD_FRAMES:
    try:
        s.getsockopt(socket.SOL_CAN_RAW, name)
    except OSError as fault:
        assert fault.errno == errno.EMFILE, fault
    else:
        raise AssertionError(name)
for fd in held:
    os.close(fd)
assert s.getsockopt(socket.SOL_CAN_RAW, socket.CAN_RAW_LOOPBACK) == 1
"""
    with serving("can0,can1") as server:
        passes(server, "/usr/bin/python3", "-c", text)
        server.end()


@needs_gcc
def test_stored_files():
    """a build from the same sources with the same compiler gives exactly the files in dist/"""
    if not os.access(os.path.join(ROOT, "canrun"), os.W_OK):
        pytest.skip("the sources' folder can't be written")
    compared = subprocess.run(
        [os.path.join(ROOT, "scripts", "run-program"), "compare"], capture_output=True, text=True, check=False
    )
    assert compared.returncode in (0, 3), compared.stdout + compared.stderr
    if compared.returncode == 3:
        pytest.skip(compared.stdout.strip())


@pytest.mark.parametrize(
    "words, wanted",
    [
        (["--a"], "--address"),
        (["--address", "x", "--w"], "--wait"),
        (["--wait", "--", "canbusd-no"], ""),
        (["tru"], "true"),
        (["--interfaces", "can0", "tru"], "true"),
    ],
)
def test_completions_of_bash(words, wanted):
    """shell completion offers options first, then programs"""
    script = """
source "$1/tools/completions/canbusd-run.bash"
shift
COMP_WORDS=(canbusd-run "$@") COMP_CWORD=$#
_canbusd_run canbusd-run "${@: -1}" "${COMP_WORDS[COMP_CWORD - 1]}" && printf '%s\\n' "${COMPREPLY[@]}"
"""
    shown = subprocess.run(["bash", "-c", script, "bash", ROOT, *words], capture_output=True, text=True, check=False)
    assert shown.stderr == "" and wanted in shown.stdout.split("\n"), shown


def test_bridge_alone():
    """if a user starts a bridge by hand, it prints what it is for"""
    bridge = os.path.join(os.path.dirname(command()), "canbusd-bridge")
    ended = subprocess.run([bridge], capture_output=True, text=True, check=False, stdin=subprocess.DEVNULL)
    assert ended.returncode == 125 and "canbusd-run" in ended.stderr
