"""Virtual time, `canbusd-run --virtual`: exact waits in unchanged programs, identical output in every run, the
messages, and the files and processes that a run leaves."""

import contextlib
import os
import random
import re
import signal
import socket
import subprocess
import sys
import time

import pytest

from running import FLAGS, command, needs_gcc
from serving import ROOT, come_true, program
from virtual_runs import CASES, SOURCES, case, fails, needs_can, needs_tools, nodes, virtual

__all__ = ["nodes"]


@needs_gcc
def test_waits(nodes):
    """every kind of wait takes exactly as long as requested, and returns the expected result"""
    ended = virtual(nodes / "waits")
    assert (ended.returncode, ended.stderr) == (0, ""), ended
    assert ended.stdout.splitlines() == [
        *("usleep 1.500 0", "sleep 86400000.000 0", "poll 11.000 0", "ppoll 12.000 0", "select 7.000 0"),
        *("pselect 8.000 0", "epoll_wait 13.000 0", "recv 20.000 1", "poll_woken 40.000 1", "read 0.000 1"),
        *("sem_timedwait 21.000 1", "pthread_cond_timedwait 22.000 1", "pthread_cond_clockwait 23.000 1"),
        *("pthread_cond_wait 50.000 0", "pthread_mutex_timedlock 24.000 1", "pthread_join 0.000 0"),
        *("cnd_timedwait 25.000 1", "timerfd 31.000 1", "timerfd_again 35.000 3", "setitimer 32.000 1"),
        *("alarm 1000.000 1", "timer_create 33.000 3", "timer_thread 36.000 5", "waitpid 41.000 4"),
        "system 42.000 6",
    ]


@needs_tools
def test_example(tmp_path):
    """`examples/scenario.sh` prints ten frames, one each second, identical in every run, and leaves no file"""
    env = {**os.environ, "CANBUSD": program(), "CANBUSD_RUN": command(), "TMPDIR": str(tmp_path)}
    runs = [virtual(os.path.join(ROOT, "examples", "scenario.sh"), env=env) for _ in range(2)]
    assert [(run.returncode, run.stderr) for run in runs] == [(0, "")] * 2
    assert runs[0].stdout == runs[1].stdout and not os.listdir(tmp_path)
    lines = re.findall(r"^ \((\d+)\.(\d+)\)  can1  123   \[2\]  11 22$", runs[0].stdout, re.M)
    assert len(lines) == len(runs[0].stdout.splitlines()) == 10
    assert [int(second) - int(lines[0][0]) for second, _ in lines] == list(range(10))


@needs_gcc
@needs_tools
def test_moments(tmp_path, nodes):
    """a frame's timestamp is its send time plus its duration of 63 to 67 bits of 2 us, by ISO 11898-1"""
    left = case("nodes", tmp_path / "run", nodes, FRAMES="50")
    sent = re.findall(r"\((\d+)\.(\d{6})\) +can2 +100 ", left["candump"].decode())
    assert len(sent) == 50
    for number, (_, micro) in enumerate(sent):
        assert 126 <= int(micro) - number * 10000 <= 134, (number, micro)


def worst_case_bench(rounds):
    """Returns the lines of a bench in which three nodes send as the nodes of the case `worst_case` do, starting at the
    same second."""
    sends = [(k * 540, 1, "001 7 55 55 55 55 55 55 05") for k in range(7 * rounds)]
    for node, text in ((2, "002 7 55 55 55 55 55 55 03"), (3, "003 7 55 55 55 55 55 55 7C")):
        sends += [(k * 756, node, text) for k in range(5 * rounds)]
    lines = [f"session {node}" for node in (1, 2, 3)] + [
        f"feed {node} < open can{node - 1} >< rawmode >" for node in (1, 2, 3)
    ]
    lines.append("at 1767225601.000000")
    for micro, node, text in sorted(sends):
        lines += [f"run {1767225601 + micro // 1000000}.{micro % 1000000:06d}", f"feed {node} < send {text} >"]
    return "\n".join(lines + ["run 1767225603.000000", ""])


@needs_gcc
def test_response_times(tmp_path, nodes):
    """the log of three unchanged programs is identical to the log of a bench with the same sends"""
    left = case("worst_case", tmp_path / "run", nodes, ROUNDS="100")
    words = [program(), "bench", "--bitrate", "500000", "--log", str(tmp_path / "log"), "can0,can1,can2"]
    subprocess.run(words, input=worst_case_bench(100), text=True, stdout=subprocess.DEVNULL, check=True)
    assert left["can0.log"] == (tmp_path / "log").read_bytes()
    assert left["can0.log"].count(b"\n") == 1700


@needs_gcc
@needs_tools
def test_isotp(tmp_path, nodes):
    """an ISO-TP message without a receiver fails after exactly the timeout N_Bs, 1 s"""
    sent = case("isotp", tmp_path / "run", nodes)["sent"].decode().splitlines()
    assert [line.split(": ")[1].split()[0] for line in sent] == ["60", "4000", "-1"]
    assert sent[2].endswith("write of 60 after 1.000000 s: -1 Communication error on send")


def turns(ended):
    """Returns how many scheduling turns the threads of a run took. The run reports this with CANBUSD_RUN_DEBUG=1."""
    return int(re.search(r"(\d+) turns", ended.stderr).group(1))


def sockets(folder, nodes, script):
    """Starts a server, runs a shell script, and stops the server. Returns the script's output, the number of frames on
    can0, and the number of scheduling turns."""
    settings = {"RUN": command(), "CANBUSD": program(), "NODES": str(nodes), "CASES": CASES, "OUT": str(folder)}
    script = f'. "$CASES/server.sh"; start can0,can1; {script}; stop; cat "$OUT/errors"'
    ended = virtual("bash", "-c", script, env={**os.environ, **settings, "CANBUSD_RUN_DEBUG": "1"})
    assert ended.returncode == 0, ended
    frames = (folder / "can0.log").read_text().count("\n")
    return ended.stdout, frames, turns(ended)


@needs_gcc
def test_full_queue(tmp_path, nodes):
    """a program that does not read loses all but the first frames; after it has read, it receives later frames"""
    script = 'aside "$NODES/full" can1 8 9>&-; node=$!; inside "$NODES/cyclic" can0 100 1000 12000; wait $node'
    text, frames, _ = sockets(tmp_path / "run", nodes, script)
    parts = [[int(number) for number in part.split("-")] for part in text.split()]
    assert frames == 12000 + 800
    assert len(parts) == 2 and parts[0][0] == 0 and 4096 <= parts[0][1] < 6000, text
    assert parts[1][0] < 8200 and parts[1][1] == 11999, text


@needs_gcc
def test_turns_of_many_sockets(tmp_path, nodes):
    """the number of scheduling turns of a process with many sockets is the same in every run, although the socket names
    differ"""
    runs = [sockets(tmp_path / name, nodes, 'inside "$NODES/many" can0 48 9>&-') for name in "abc"]
    assert len(set(runs)) == 1, runs


@needs_gcc
def test_turns_of_the_late(nodes):
    """every child process takes two scheduling turns, one of the child and one of its parent, however late it begins"""
    env = {**os.environ, "CANBUSD_RUN_DEBUG": "1"}
    runs = [virtual(nodes / "late", ms, "4", env=env) for ms in ("0", "100")]
    assert [(run.returncode, turns(run)) for run in runs] == [(0, 1 + 2 * 4)] * 2, runs


@needs_gcc
def test_turns_of_a_sender(tmp_path, nodes):
    """a frame from a sender that does not read takes four scheduling turns: two of the sender, two of the server"""
    few, many = (
        sockets(tmp_path / str(count), nodes, f'inside "$NODES/lent" turns {count}')[1:] for count in (1000, 3000)
    )
    assert (many[0] - few[0], many[1] - few[1]) == (2000, pytest.approx(8000, abs=100))


@needs_gcc
def test_lent_sessions(tmp_path, nodes):
    """programs that only send get the same results and recognise their own frames, even while descriptors are opened
    and closed and processes start and end"""
    plain = sockets(tmp_path / "plain", nodes, 'inside "$NODES/lent" plain')
    assert plain[0] == 3 * (10 * "0 " + 30 * "105 " + "\n") and plain[1] == 30
    assert sockets(tmp_path / "filter", nodes, 'inside "$NODES/lent" filter')[:2] == plain[:2]
    own = sockets(tmp_path / "own", nodes, 'inside "$NODES/lent" own')
    assert own[:2] == ("16 40 1\n16 41 1\n16 42 1\n", 43)
    for word, count in (("many", 800), ("fork", 48), ("closed", 16)):
        assert sockets(tmp_path / word, nodes, f'inside "$NODES/lent" {word}')[:2] == ("", count), word
    script = 'aside "$NODES/lent" gone; node=$!; sleep 1; exec 9>&-; wait $node'
    assert sockets(tmp_path / "gone", nodes, script)[:2] == ("-1 No such device\n", 8)
    for number in range(5):
        script = (
            f'aside "$NODES/lent" turns 500; node=$!; sleep 0.{number}1; kill -9 $node; inside "$NODES/lent" filter'
        )
        assert sockets(tmp_path / f"killed{number}", nodes, script)[0] == plain[0]


def test_shell():
    """a script sees dates in virtual time, and the run ends with the program's status"""
    ended = virtual("sh", "-c", "date +%s; sleep 3600; (sleep 1; date +%s) & wait; date +%s; exit 7")
    assert (ended.returncode, ended.stderr) == (7, "")
    assert ended.stdout.split() == ["1767225600", "1767229201", "1767229201"]
    dated = virtual("date", "+%s", options=("--date", "2027-02-03T04:05:06"))
    assert dated.stdout == "1801627506\n"


def test_until():
    """with --until the run ends at this virtual time by SIGTERM, with the status 128 + SIGTERM, as in a shell"""
    ended = virtual("sleep", "1000", options=("--until", "10"))
    assert ended.returncode == 128 + signal.SIGTERM and "--until" in ended.stderr


#: Starts a program that ignores SIGTERM, a program that ends a second after SIGTERM, and a program that ends at once.
LEFT = """
(trap '' TERM; while :; do sleep 0.1; echo x; done) >deaf &
(trap 'sleep 1; echo ended; exit' TERM; while :; do sleep 0.25; echo x; done) >late &
(while :; do sleep 0.1; echo x; done) >plain &
sleep $0
"""


@pytest.mark.parametrize("seconds, options", [("3.05", ()), ("1000", ("--until", "3.05"))])
def test_what_is_left(tmp_path, seconds, options):
    """programs that are left at the end of a run get SIGTERM, and then two more seconds of virtual time, even on a busy
    machine"""
    for number in range(3):
        folder = tmp_path / str(number)
        folder.mkdir()
        assert virtual("sh", "-c", LEFT, seconds, options=options, cwd=folder).returncode == (143 if options else 0)
        lines = {path.name: path.read_text() for path in folder.iterdir()}
        # The shell of `plain` ends together with its sleep, which gets SIGTERM too.
        assert lines == {"deaf": 50 * "x\n", "late": 12 * "x\n" + "ended\n", "plain": 30 * "x\n"}, number


def test_all_wait(tmp_path):
    """if all threads wait and none has a timeout, the run ends with status 125, and reports each wait"""
    ended = virtual("sh", "-c", "mkfifo $0; cat $0", tmp_path / "pipe", options=("--stall", "2"))
    assert ended.returncode == 125 and "all wait, and nobody for a moment" in ended.stderr
    assert re.search(r"sh \(process \d+\) waits for a child's end", ended.stderr), ended.stderr


def test_stopped():
    """a stopped program does not delay other programs; after SIGCONT it continues"""
    for text, seconds in (("sleep 5 & sleep 1", 11), ("sleep 5 &", 15)):
        script = f"{text}; kill -STOP $!".replace("&;", "&") + "; sleep 10; kill -CONT $!; wait; date +%s"
        ended = virtual("sh", "-c", script)
        assert (ended.returncode, ended.stdout) == (0, f"{1767225600 + seconds}\n"), ended


def test_signals_to_a_stopped_one():
    """the sender of a signal does not wait for a stopped program, which handles the signal after it continues"""
    send = 30 * "kill -USR1 $!; "
    begun = time.monotonic()
    ended = virtual("sh", "-c", f"sleep 100 & sleep 1; kill -STOP $!; {send} sleep 4; kill -CONT $!; wait $!; echo $?")
    assert ended.stdout == f"{128 + signal.SIGUSR1}\n", ended
    assert time.monotonic() - begun < 60


def test_lock_of_a_file(tmp_path):
    """a wait that the library does not see takes its correct virtual time if another program ends it"""
    text = '(flock 8; sleep 5) 8>"$0" & sleep 1; flock "$0" date +%s; wait'
    ended = virtual("sh", "-c", text, tmp_path / "lock")
    assert (ended.returncode, ended.stdout, ended.stderr) == (0, "1767225605\n", ""), ended


@needs_gcc
def test_unseen(nodes):
    """a wait by the real clock and a thread that spins end the run; SO_SNDTIMEO works, and io_uring is refused with one
    line"""
    for word, number in (("nanosleep", 35), ("futex", 202)):
        ended = virtual(nodes / "unseen", word)
        fails(ended, rf"unseen \(process \d+\) waits by the real clock, in system call {number},")
    fails(
        virtual(nodes / "unseen", "spin", options=("--stall", "1")), r"unseen \(process \d+\) has run for 1 s without"
    )
    late = virtual(nodes / "unseen", "sndtimeo")
    assert (late.returncode, late.stdout) == (0, "-1 EAGAIN 20000\n"), late
    refused = virtual(nodes / "unseen", "io_uring")
    assert refused.returncode == 0, refused
    assert re.search(r"unseen \(process \d+\) is refused io_uring", refused.stderr) and refused.stderr.count("\n") == 1


def static_unseen(folder):
    """Builds unseen.c with static linking, so that it can't load the library, like a Go program. Returns its path."""
    path = str(folder / "unseen")
    words = ["gcc", *FLAGS, "-static", "-o", path, os.path.join(SOURCES, "unseen.c")]
    if subprocess.run(words, check=False, capture_output=True).returncode:
        pytest.skip("no static C library")
    return path


@needs_gcc
def test_calls_of_go(tmp_path):
    """a program that makes its own system calls, as Go programs do, is reported with the reason, and the run ends when
    it waits"""
    ended = virtual(static_unseen(tmp_path), "futex")
    fails(ended, r"unseen \(process \d+\) is linked statically, so it sees the real time")
    fails(ended, r"unseen \(process \d+\) waits by the real clock, in system call 202, .* it is linked statically")


@needs_gcc
@pytest.mark.parametrize("is_static", [False, True])
def test_io_uring_by_instruction(tmp_path, nodes, is_static):
    """the run ends if a program waits for an io_uring that was set up with direct system calls"""
    ended = virtual(static_unseen(tmp_path) if is_static else nodes / "unseen", "io_uring_enter")
    if ended.returncode == 77:
        pytest.skip("no io_uring")
    fails(ended, r"unseen \(process \d+\) waits by the real clock, in system call 426,")


def test_server_outside():
    """a connection to a program outside the run ends the run"""
    with socket.create_server(("127.0.0.1", 0)) as server:
        port = server.getsockname()[1]
        text = f"import socket; socket.create_connection(('127.0.0.1', {port}))"
        ended = virtual(sys.executable, "-c", text)
    fails(
        ended, rf"python.* \(thread \d+ of process \d+\) connects to TCP port {port}, which is no program of this run"
    )
    inside = "import socket; s = socket.create_server(('127.0.0.1', 0)); socket.create_connection(s.getsockname())"
    assert virtual(sys.executable, "-c", inside).returncode == 0


#: Connects to programs outside the run: with python-can without an address, in a child process, and at a Unix path.
OUTSIDE = r"""
import os, socket, subprocess, sys
import can
import pytest

TEXT = "import socket, sys; socket.create_connection(('127.0.0.1', int(sys.argv[1])))"

def test_port():
    socket.create_connection(("127.0.0.1", int(os.environ["OUTSIDE"])), 5)

def test_bus():
    can.Bus(interface="canbusd", channel="can0")

def test_child():
    subprocess.run([sys.executable, "-c", TEXT, os.environ["OUTSIDE"]])

def test_path():
    socket.socket(socket.AF_UNIX).connect(os.environ["OUTSIDE_PATH"])

@pytest.mark.parametrize("text", ["x" * 500])
def test_long(text):
    test_port()

def test_odd():
    os.environ["PYTEST_CURRENT_TEST"] = "\x1b[2J\n%s%n\u00e4" + 10000 * "y"
    test_port()
"""


@needs_can
@pytest.mark.parametrize(
    "name, line",
    [
        ("port", r"AT_PORT, in test_it\.py::test_port \(call\)"),
        ("bus", r"AT_PORT, in test_it\.py::test_bus \(call\)"),
        ("child", r"AT_PORT, in test_it\.py::test_child \(call\)"),
        ("path", r"AT_PATH, in test_it\.py::test_path \(call\)"),
        ("long", r"AT_PORT, in test_it\.py::test_long\[x{150,200}\.\."),
        ("odd", r"AT_PORT, in \?\[2J\?%s%n\?\?y{150,210}\.\."),
    ],
)
def test_server_outside_of_pytest(tmp_path, name, line):
    """the line about a connection to a program outside the run names the test; it is on the run's standard error,
    although pytest captures the output of tests"""
    (tmp_path / "test_it.py").write_text(OUTSIDE, encoding="utf-8")
    path = str(tmp_path / "outside")
    with socket.create_server(("127.0.0.1", 0)) as server, socket.socket(socket.AF_UNIX) as other:
        other.bind(path)
        other.listen()
        port = str(server.getsockname()[1])
        env = {**os.environ, "PYTHONPATH": os.path.join(ROOT, "python/src"), "OUTSIDE": port, "OUTSIDE_PATH": path}
        env.update(CANBUSD_ADDRESS=f"127.0.0.1:{port}", CANBUSD_RUN=command(), CANBUSD=program())
        words = [sys.executable, "-m", "pytest", "-p", "canbusd.pytest_plugin", "-q", f"test_it.py::test_{name}"]
        words.append("--canbusd-virtual")
        ended = subprocess.run(words, cwd=tmp_path, env=env, capture_output=True, text=True, check=False)
    places = {
        "AT_PORT": rf"TCP port {port}, which is no program of this run, at 127\.0\.0\.1",
        "AT_PATH": rf"{re.escape(path)} of process {os.getpid()}, which is no program of this run",
    }
    for word, place in places.items():
        line = line.replace(word, place)
    fails(ended, rf"^canbusd-run: virtual time: at [\d.]+ s python.* connects to {line}; start it inside of the run\n$")
    assert ended.stderr.count("\n") == 1 and ended.stderr.isascii(), ended


@needs_gcc
def test_static(tmp_path):
    """a program that does not load the library is reported with the reason, and the run ends when it waits"""
    (tmp_path / "static.c").write_text(
        "#include <unistd.h>\nint main(int n, char **w) { return w && n > 1 && sleep(2); }\n"
    )
    path = str(tmp_path / "static")
    if subprocess.run(["gcc", "-static", "-o", path, path + ".c"], check=False, capture_output=True).returncode:
        pytest.skip("no static C library")
    assert virtual(path).returncode == 0
    fails(
        virtual(path, "wait"),
        r"static \(process \d+\) waits by the real clock, in system call \d+, .* it is linked statically",
    )
    lost = virtual("env", "-i", "/bin/sleep", "1")
    fails(lost, r"sleep \(process \d+\) waits by the real clock, in system call \d+, .* it has lost LD_PRELOAD")


SLOW_START = """
#define _GNU_SOURCE
#include <dlfcn.h>
#include <time.h>

static double now(void) {
    struct timespec t;
    return clock_gettime(CLOCK_MONOTONIC, &t) ? 0 : (double)t.tv_sec + (double)t.tv_nsec / 1e9;
}

int execv(const char *path, char *const words[]) {
    int (*real)(const char *, char *const *);
    *(void **)&real = dlsym(RTLD_NEXT, "execv");
    for (double end = now() + 0.5; now() < end;) {
    }
    return real(path, words);
}
"""


@needs_gcc
def test_slow_start(tmp_path):
    """a program that starts late, as on a busy machine, does not count as a program without the library"""
    (tmp_path / "slow.c").write_text(SLOW_START)
    library = str(tmp_path / "slow.so")
    subprocess.run(["gcc", *FLAGS, "-shared", "-fPIC", "-o", library, str(tmp_path / "slow.c")], check=True)
    ended = virtual("sleep", "1", env={**os.environ, "LD_PRELOAD": library})
    assert (ended.returncode, ended.stdout, ended.stderr) == (0, "", ""), ended


#: Prints how many seconds pass until the end of the input.
END_OF_INPUT = """
import select, sys, time
begun = time.monotonic()
ready = select.select([sys.stdin], [], [], 60)[0]
print(f"{time.monotonic() - begun:.3f}", ready and sys.stdin.read())
"""


@needs_gcc
def test_slow_end(nodes):
    """on a busy processor, no virtual time passes while threads of an ended program have not ended yet"""
    processor = {min(os.sched_getaffinity(0))}
    burners = [subprocess.Popen(["sh", "-c", "while :; do :; done"]) for _ in range(2)]
    try:
        for burner in burners:
            os.sched_setaffinity(burner.pid, processor)
        script = '"$0" | "$1" -c "$2"'
        words = ("sh", "-c", script, nodes / "slow_end", sys.executable, END_OF_INPUT)
        runs = [virtual(*words, preexec_fn=lambda: os.sched_setaffinity(0, processor)) for _ in range(3)]
    finally:
        for burner in burners:
            burner.kill()
            burner.wait()
    assert [(ended.returncode, ended.stdout) for ended in runs] == 3 * [(0, "1.000 \n")], runs


@pytest.mark.parametrize(
    "words, fault",
    [
        (("--virtual", "--wait", "true"), "--virtual has no --address"),
        (("--until", "5", "true"), "only --virtual has this option: until"),
        (("--virtual", "--date", "soon", "true"), "a date is as"),
        (("--virtual", "--seed", "x", "true"), "a number from 0"),
        (("--virtual", "--until", "0", "true"), "above 0"),
        (("--virtual", "--jitter", "2000000", "true"), "microseconds"),
    ],
)
def test_wrong_options(words, fault):
    """after wrong options canbusd-run prints one line and ends with status 125"""
    ended = subprocess.run([command(), *words], capture_output=True, text=True, check=False)
    assert ended.returncode == 125 and fault in ended.stderr and ended.stderr.count("\n") == 1


def runs(pid):
    """Returns whether a process is still running."""
    try:
        with open(f"/proc/{pid}/stat", encoding="ascii", errors="replace") as file:
            return file.read().rpartition(")")[2].split()[0] not in "ZX"
    except OSError:
        return False


def of_run(mark):
    """Returns the running processes that have this string in their environment. All processes of a run inherit it."""
    found = []
    for pid in filter(str.isdigit, os.listdir("/proc")):
        with contextlib.suppress(OSError):
            with open(f"/proc/{pid}/environ", "rb") as file:
                if mark in file.read() and runs(pid):
                    found.append(int(pid))
    return found


#: Programs that fork, start a new session, ignore signals, become daemons, crash, are stopped, and execute other
#: programs.
MANY = """
setsid sleep 1e6 &
(trap '' TERM HUP; while :; do sleep 1; done) &
sh -c 'kill -STOP $$' &
(setsid sh -c 'sleep 1e6 & exec sleep 1e6' & ) &
sh -c 'kill -SEGV $$' 2>/dev/null &
(while :; do (sleep 0.01; exec true); done) &
sleep 1e6 &
wait
"""


@pytest.mark.parametrize("times", [10, pytest.param(200, marks=pytest.mark.slow)])
def test_killed(times):
    """after SIGKILL of the started process or its coordinator, at any time, no process is left a few seconds later"""
    chance = random.Random(1)
    for number in range(times):
        mark = f"CANBUSD_TEST_KILLED={os.getpid()}.{times}.{number}"
        name, value = mark.split("=")
        words = [command(), "--virtual", "--", "bash", "-c", MANY]
        with subprocess.Popen(words, stderr=subprocess.DEVNULL, env={**os.environ, name: value}) as child:
            time.sleep(chance.uniform(0, 0.6))
            coordinators = open(f"/proc/{child.pid}/task/{child.pid}/children", encoding="ascii").read().split()
            os.kill(int(coordinators[0]) if number % 2 and coordinators else child.pid, signal.SIGKILL)
            child.wait()
        assert come_true(lambda: not of_run(mark.encode() + b"\0"), 5), (number, of_run(mark.encode() + b"\0"))


PYTEST = """
import time
import can
import pytest
import canbusd as package

@pytest.mark.canbusd("ecu,tester", bitrate=500000, virtual=True)
def test_heartbeats(canbusd):
    assert package.is_virtual()
    with canbusd.bus("ecu") as ecu, canbusd.bus("tester") as tester:
        task = ecu.send_periodic(can.Message(arbitration_id=0x700, data=[5], is_extended_id=False), 1.0)
        end, count = time.time() + 60, 0
        while time.time() < end:
            assert tester.recv(timeout=2) is not None
            count += 1
        task.stop()
        assert 60 <= count <= 61

def test_fault():
    time.sleep(1000)
    assert False

def test_no_rate():
    for _ in range(2):
        with package.Server("can0"):
            pass
"""


@needs_can
def test_pytest(tmp_path):
    """pytest restarts itself in virtual time; a failed test prints the command that repeats it; without virtual time, a
    test that requires it fails"""
    (tmp_path / "test_it.py").write_text(PYTEST, encoding="utf-8")
    line = [sys.executable, "-m", "pytest", "-p", "canbusd.pytest_plugin", "-q", "test_it.py"]
    env = {**os.environ, "CANBUSD_RUN": command(), "CANBUSD": program(), "PYTHONPATH": os.path.join(ROOT, "python/src")}
    how = {"cwd": tmp_path, "env": env, "stdout": subprocess.PIPE, "text": True, "check": False}
    ended = subprocess.run([*line, "--canbusd-virtual", "--canbusd-seed", "3"], **how)
    assert "1 failed, 2 passed" in ended.stdout, ended.stdout
    assert ended.stdout.count("UserWarning: in virtual time the frames of a server without bitrate= take no time") == 1
    repeated = "repeat: python3 -m pytest --canbusd-virtual --canbusd-seed 3 --canbusd-jitter 0 test_it.py::test_fault"
    assert repeated in ended.stdout
    real = subprocess.run([*line, "-k", "heartbeats"], **how)
    assert real.returncode == 1 and "this test is for virtual time" in real.stdout, real.stdout
