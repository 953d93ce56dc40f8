"""canbusd-run --static: programs that load no library. A statically linked program gets the kernel's answers to the
cases in kernel/ and links/. The exceptions are the known differences from the kernel, and the cases in static.txt.
Other tests run Go and musl programs, and test signals and forks."""

import concurrent.futures
import os
import re
import shutil
import signal
import subprocess

import pytest

from running import FAST, command, compiled, environment, needs_gcc, passes, processes_of, run, started
from serving import ROOT, come_true, serving
from serving import plain as session
from test_run_kernel import KERNEL, LOTS, answered, answers, differences, file_of, probe
from test_run_kernel import plain as words_of
from test_run_links import CARDS, LINKS, needs_ip, needs_libsocketcan

STATIC = ("--static",)
#: Cases whose names contain these words use J1939 sockets, which --static does not have.
OF_J1939 = ("j1939", "claims:", "notices:", "transport:")


def supports(kernel=os.uname().release):
    """Returns whether this kernel supports --static."""
    return tuple(map(int, re.findall(r"\d+", kernel)[:2])) >= (5, 19)


pytestmark = [needs_gcc, pytest.mark.skipif(not supports(), reason="a kernel before Linux 5.19")]


def known_differences():
    text = re.sub(r"^#.*\n", "", file_of("static.txt"), flags=re.M)
    return re.findall(r"^(?!\w+:\w+:)(.+)$", text, re.M), answers(text)


def unlike(cases, folder, answer):
    """Returns the cases in a folder whose answer is neither the kernel's nor a known difference. Each case of
    static.txt runs on a separate server, because it would disturb other cases."""
    alone = known_differences()[1]
    wanted = {**answers(file_of("answers.txt", folder)), **differences(folder)[1], **alone}
    others = [case for case in cases if case not in alone]
    lots = [others[number::LOTS] for number in range(LOTS)] + [[case] for case in cases if case in alone]
    with concurrent.futures.ThreadPoolExecutor(LOTS) as pool:
        got = {case: answer for lot in pool.map(answer, lots) for case, answer in lot.items()}
    return [f"{case}:{got.get(case)}\n  wanted {wanted[case]}" for case in cases if got.get(case) != wanted[case]]


@needs_ip
@needs_libsocketcan
@pytest.mark.parametrize("folder", [KERNEL, LINKS], ids=["kernel", "links"])
def test_answers(tmp_path, folder):
    """a static program gets the kernel's answers, except for the cases in static.txt"""
    program = probe(str(tmp_path), LINKS, flags=["-static", "-lsocketcan"])
    listed = subprocess.run([program, "--list"], stdout=subprocess.PIPE, text=True, check=True).stdout.split()
    known = answers(file_of("answers.txt", folder))
    cases = [case for case in listed if case in known and not any(word in case for word in OF_J1939)]
    how = {"options": CARDS} if folder == LINKS else {}
    wrong = unlike(cases, folder, lambda lot: answered(program, lot, run_options=STATIC, **how))
    assert not wrong, "\n".join(wrong)


def test_differences():
    """every difference is documented in LIMITS, and still occurs"""
    limits = words_of(file_of("../../../canbusd-run.1").split(".SH LIMITS")[1].split(".SH ENVIRONMENT")[0])
    lines, cases = known_differences()
    kernel = {**answers(file_of("answers.txt")), **answers(file_of("answers.txt", LINKS))}
    assert lines and not [line for line in lines if line not in limits]
    assert not [case for case, answer in cases.items() if kernel.get(case, answer) == answer]


#: The programs of test_run_c.py that need only can0 and can1 on one bus, and do not check the internals of the library.
SAME = ("calls", "options", "filters", "own", "fd", "epoll", "threads", "bcm", "rows", "isotp")


@pytest.mark.parametrize("name", SAME)
def test_programs(tmp_path, name):
    """statically linked programs have the same results as programs with the library"""
    program = compiled(name, str(tmp_path), "-static")
    with serving(*FAST, "can0,can1", "vcan0") as server:
        passes(server, program, options=STATIC, patience=200)
        server.end()


@pytest.mark.parametrize("kind", ["restarted", "interrupted"])
def test_signals(tmp_path, kind):
    """no frame is lost when a signal interrupts a wait"""
    program = compiled("interrupted", str(tmp_path), "-static")
    with serving(*FAST, "can0,can1") as server:
        passes(server, program, kind, options=STATIC, patience=200)
        server.end()


@pytest.mark.skipif(not shutil.which("go"), reason="no go: apt-get install golang-go")
def test_go(tmp_path):
    """a Go program finds its interface with net.InterfaceByName, and answers a thousand frames"""
    node = str(tmp_path / "node")
    subprocess.run(["go", "build", "-o", node, os.path.join(ROOT, "examples", "go", "node.go")], check=True)
    with serving(*FAST, "can0,can1") as server:
        with started(server, node, "can0", options=STATIC) as child:
            assert child.stdout.readline() == "ready\n"
            tester = session(server, "can1")
            for number in range(1000):
                tester.write(f"< send 123 1 {number % 255:02X} >")
                assert tester.frame() == ("124", bytes([number % 255 + 1]))
            os.killpg(child.pid, signal.SIGTERM)
            assert child.wait(20) == -signal.SIGTERM
        server.end()


@pytest.mark.skipif(not shutil.which("musl-gcc"), reason="no musl-gcc: apt-get install musl-tools")
def test_musl(tmp_path):
    """a program that is linked with musl sends a frame"""
    program = str(tmp_path / "send_one")
    source = os.path.join(ROOT, "canrun", "tests", "run_c", "send_one.c")
    headers = ["-idirafter", "/usr/include", "-idirafter", "/usr/include/x86_64-linux-gnu"]
    subprocess.run(["musl-gcc", "-std=gnu11", "-O1", *headers, "-o", program, source], check=True)
    with serving(*FAST, "can0,can1") as server:
        tester = session(server, "can1")
        passes(server, program, "can0", options=STATIC)
        assert tester.frame() == ("123", bytes([1, 0, 0, 0]))
        server.end()


def test_process(tmp_path):
    """the program keeps its process ID and its exit status, and the supervisor process ends"""
    program = compiled("send_one", str(tmp_path), "-static")
    with serving(*FAST, "can0,can1") as server:
        shown = run(server, "sh", "-c", f"echo $$; exec {program} none", options=STATIC)
        assert shown.returncode == 1
        with started(server, "sh", "-c", f"echo $$; {program} can0; exec sleep 60", options=STATIC) as child:
            assert int(child.stdout.readline()) == child.pid
        assert come_true(lambda: not supervisors(server))
        server.end()


def supervisors(server):
    """Returns the supervisor processes of programs that have this server's address."""
    return processes_of(environment(server)["CANBUSD_ADDRESS"], "canbusd-static")


def test_refused(tmp_path):
    """options and sockets that --static does not support are refused, and a line names the reason"""
    program = compiled("send_one", str(tmp_path), "-static")
    with serving(*FAST, "can0,can1") as server:
        note = run(server, program, "can0").stderr
        assert note.startswith(
            f"canbusd-run: note: {program} is linked statically, so its CAN sockets are the kernel's; "
        )
        assert "with canbusd-run --static they are the server's" in note
        for options, why in (("--wait", "--static has no --wait"), ("--virtual", "--static has no virtual time")):
            refused = run(server, program, "can0", options=("--static", options))
            assert refused.returncode == 125 and why in refused.stderr
        j1939 = compiled("j1939", str(tmp_path), "-static")
        assert "canbusd-run: --static has no CAN_J1939\n" in run(server, j1939, options=STATIC).stderr
        inside = run(server, command(), "--static", program, "can0", options=("--virtual",), env=dict(os.environ))
        assert inside.returncode == 125 and "--static has no virtual time" in inside.stderr
        server.end()
