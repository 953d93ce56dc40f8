"""canbusd-run: netlink access to interfaces. Each case in links/ has the answer of a kernel with a CAN card. Common
programs find interfaces, change them, and recover them from bus off. Further tests check the cost of these requests for
a server."""

import contextlib
import os
import re
import signal
import socket
import subprocess
import threading
import time
import types

import pytest

from running import (
    FAST,
    SANITIZERS,
    command,
    compiled,
    environment,
    needs_gcc,
    passes,
    processes_of,
    run,
    sanitized_command,
    started,
)
from serving import ROOT, come_true, join, plain, serving
from test_run_kernel import KERNEL, boots, check_differences, probe, unlike

LINKS = os.path.join(ROOT, "canrun", "tests", "links")
#: The buses of the server for the cases. can2 and can3 take the role of the interfaces of the CAN cards.
CARDS = ("--bitrate", "500000", "can0,can1", "vcan0", "can2,can3")
#: A bus with a fault script that destroys a frame from can0 again and again until its sender is bus off.
ATTACK = f"can0,can1@{ROOT}/examples/bus_off_attack.script"

needs_ip = pytest.mark.skipif(not os.path.exists("/usr/sbin/ip"), reason="no ip: apt-get install iproute2")
needs_libsocketcan = pytest.mark.skipif(
    not os.path.exists("/usr/include/libsocketcan.h"), reason="no libsocketcan: apt-get install libsocketcan-dev"
)
IP = "/usr/sbin/ip"


def keepers(server):
    """Returns the process IDs of a server's keepers (canbusd-links)."""
    return processes_of(environment(server)["CANBUSD_ADDRESS"], "canbusd-links")


def ended(server):
    """Ends a server, and checks that its keepers end too."""
    server.end()
    assert come_true(lambda: not keepers(server)), "a keeper is left"


@contextlib.contextmanager
def bus(*words):
    """Runs a server. Checks that its keepers end when it ends."""
    with serving(*words) as server:
        yield server
        ended(server)


def state_of(server, name="can0"):
    """Returns the state and the error counters in the format of `ip`."""
    shown = passes(server, IP, "-details", "link", "show", name)
    return re.search(r"state (\S+) \(berr-counter tx (\d+) rx (\d+)\)", shown).groups()


def comes_to(server, state, name="can0"):
    assert come_true(lambda: state_of(server, name)[0] == state), state_of(server, name)


def cases_of(program):
    """Returns the cases of links/."""
    listed = subprocess.run([program, "--list"], stdout=subprocess.PIPE, text=True, check=True).stdout.split()
    cases = [case for case in listed if os.path.exists(os.path.join(LINKS, f"{case.split(':')[0]}.c"))]
    assert len(cases) >= 120
    return cases


@needs_gcc
@needs_ip
@needs_libsocketcan
def test_answers(tmp_path):
    """canbusd-run answers every case as the kernel does, or as differences.txt says"""
    program = probe(str(tmp_path), LINKS, flags=["-lsocketcan"])
    wrong = unlike(program, cases_of(program), LINKS, options=CARDS)
    assert not wrong, "\n".join(wrong)


@pytest.mark.sanitized
@needs_gcc
@needs_ip
@needs_libsocketcan
def test_answers_sanitized(tmp_path):
    """with sanitizers the answers are the same, and the sanitizers report nothing"""
    folder = str(tmp_path)
    program = probe(folder, LINKS, flags=[*SANITIZERS, "-lsocketcan"])
    reports = f"log_path={folder}/report:verify_asan_link_order=0:detect_stack_use_after_return=0"
    settings = {"ASAN_OPTIONS": f"{reports}:detect_leaks=0", "UBSAN_OPTIONS": f"log_path={folder}/report"}
    how = {"options": CARDS, "settings": settings, "runner": sanitized_command()}
    wrong = unlike(program, cases_of(program), LINKS, **how)
    assert not wrong, "\n".join(wrong)
    assert not [file for file in os.listdir(folder) if file.startswith("report")]


def test_differences():
    """every difference is documented in LIMITS, and still occurs"""
    check_differences(LINKS)


@pytest.mark.slow
def test_recorded():
    """answers.txt contains the answers that the kernel gives now"""
    booted = boots(os.path.join(KERNEL, "answers"), "links")
    with open(os.path.join(LINKS, "answers.txt"), encoding="utf-8") as file:
        recorded = file.read()
    assert re.findall(r"^\w+:.*$", booted, re.M) == re.findall(r"^\w+:.*$", recorded, re.M)


# ---- bus off ----


@needs_gcc
@needs_ip
def test_bus_off(tmp_path):
    """state, carrier, error counters and restart counts are the same as the server's, before and after a restart"""
    writer = compiled("send_one", str(tmp_path))
    with bus(*FAST, ATTACK) as server:
        assert state_of(server) == ("ERROR-ACTIVE", "0", "0")
        passes(server, writer, "can0")
        comes_to(server, "BUS-OFF")
        shown = passes(server, IP, "-details", "-statistics", "link", "show", "can0")
        assert "<NO-CARRIER,NOARP,UP,ECHO>" in shown and "state DOWN" in shown
        assert re.search(r"bus-off\n\s+0 +0 +0 +1 +1 +1 ", shown), shown
        assert "can0" in passes(server, IP, "-o", "link", "list", "up")
        passes(server, IP, "link", "set", "can0", "type", "can", "restart")
        comes_to(server, "ERROR-ACTIVE")
        shown = passes(server, IP, "-details", "-statistics", "link", "show", "can0")
        assert re.search(r"bus-off\n\s+1 +0 +0 +1 +1 +1 ", shown), shown
        assert "<NOARP,UP,LOWER_UP,ECHO>" in shown
        assert run(server, IP, "link", "set", "can0", "type", "can", "restart").returncode == 2


def relay(source, target):
    """Forwards all messages, but holds state reports back until the next reply to a keeper, or until nothing else
    arrives."""
    text = items = b""
    source.settimeout(0.1)
    with contextlib.suppress(OSError):
        while True:
            try:
                piece = source.recv(65536)
            except socket.timeout:
                target.sendall(items)
                items = b""
                continue
            if not piece:
                break
            *texts, text = re.split(rb"(?<=>)", text + piece)
            for one in texts:
                if re.search(rb"< error [0-9A-F]+ \d", one):
                    items += one
                    continue
                target.sendall(one)
                if b"< echo >" in one:
                    target.sendall(items)
                    items = b""
    with contextlib.suppress(OSError):
        target.shutdown(socket.SHUT_RDWR)


@contextlib.contextmanager
def overtaken(server):
    """Yields another address of the server, at which replies overtake reports that were queued before them."""

    def accept():
        with contextlib.suppress(OSError):
            while True:
                ends = door.accept()[0], socket.create_connection((server.host, server.port))
                for source, target in (ends, ends[::-1]):
                    threading.Thread(target=relay, args=(source, target), daemon=True).start()

    with socket.create_server(("127.0.0.1", 0)) as door:
        thread = threading.Thread(target=accept)
        thread.start()
        try:
            yield types.SimpleNamespace(address=f"127.0.0.1:{door.getsockname()[1]}")
        finally:
            door.shutdown(socket.SHUT_RDWR)
            join([thread])


@needs_gcc
@needs_ip
def test_bus_off_that_replies_overtake(tmp_path):
    """the restart counts match the state that is shown, even if replies overtake reports"""
    writer = compiled("send_one", str(tmp_path))
    with bus(*FAST, ATTACK) as server, overtaken(server) as late:
        assert state_of(late) == ("ERROR-ACTIVE", "0", "0")
        passes(late, writer, "can0")
        comes_to(late, "BUS-OFF")
        shown = passes(late, IP, "-details", "-statistics", "link", "show", "can0")
        assert re.search(r"bus-off\n\s+0 +0 +0 +1 +1 +1 ", shown), shown
        passes(late, IP, "link", "set", "can0", "type", "can", "restart")
        shown = passes(late, IP, "-details", "-statistics", "link", "show", "can0")
        assert re.search(r"bus-off\n\s+1 +0 +0 +1 +1 +1 ", shown), shown


@needs_gcc
@needs_ip
def test_restart_ms(tmp_path):
    """restart-ms restarts an interface even after the program that set it has ended; manual restarts are refused"""
    writer = compiled("send_one", str(tmp_path))
    with bus(*FAST, ATTACK) as server:
        passes(server, IP, "link", "set", "can0", "up", "type", "can", "restart-ms", "300")
        begun = time.monotonic()
        passes(server, writer, "can0")
        refused = run(server, IP, "link", "set", "can0", "type", "can", "restart")
        assert (refused.returncode, refused.stderr) == (2, "Error: restart-ms restarts the interface.\n")
        shown = r"bus-off\n\s+1 +0 +0 +1 +1 +1 "

        def is_restarted():
            return re.search(shown, passes(server, IP, "-details", "-statistics", "link", "show", "can0"))

        assert come_true(is_restarted)
        assert time.monotonic() - begun >= 0.3
        assert state_of(server) == ("ERROR-ACTIVE", "0", "0")


@needs_ip
def test_bit_rates_of_each_bus():
    """`ip` shows the bit rates of the interface's bus, and can't set other bit rates"""
    rates = ("--bitrate", "500000", "--bitrate", "body0=125000", "--dbitrate", "can0=2000000")
    with bus(*rates, "can0,can1", "body0") as server:
        for name, nominal, fast in (("can0", 500000, 2000000), ("can1", 500000, 2000000), ("body0", 125000, 125000)):
            shown = passes(server, IP, "-details", "link", "show", name)
            assert re.findall(r"bitrate (\d+)", shown)[:2] == [str(nominal), str(fast)], shown
        passes(server, IP, "link", "set", "body0", "type", "can", "bitrate", "125000")
        refused = run(server, IP, "link", "set", "body0", "type", "can", "bitrate", "500000")
        assert refused.returncode == 2 and "125000" in refused.stderr, refused


@needs_gcc
@needs_ip
def test_monitor(tmp_path):
    """`ip monitor link` reports that the carrier is lost, and that it is back"""
    writer = compiled("send_one", str(tmp_path))
    with bus(*FAST, ATTACK) as server, started(server, IP, "monitor", "link") as monitor:
        assert come_true(lambda: keepers(server))
        assert state_of(server) == ("ERROR-ACTIVE", "0", "0")
        passes(server, writer, "can0")
        comes_to(server, "BUS-OFF")
        passes(server, IP, "link", "set", "can0", "type", "can", "restart")
        comes_to(server, "ERROR-ACTIVE")
        wanted = (r"can0: <NO-CARRIER,NOARP,UP,ECHO>", r"can0: <NOARP,UP,LOWER_UP,ECHO>")
        lines = []
        for pattern in wanted:
            while not (lines and re.search(pattern, lines[-1])):
                lines.append(monitor.stdout.readline())
                assert len(lines) < 50 and lines[-1], lines
        os.killpg(monitor.pid, signal.SIGKILL)


# ---- interfaces that are set down and up ----


@needs_gcc
@needs_ip
def test_down_and_up(tmp_path):
    """an interface that is down sends nothing, acknowledges nothing, and loses its queued frames"""
    writer = compiled("send_one", str(tmp_path))
    # The bus has a bit rate. Without a bit rate the repeats of an unacknowledged frame would fill the record in
    # seconds.
    with bus("--ack", "peers", "can0,can1") as server, contextlib.closing(plain(server, "can1")) as other:
        passes(server, IP, "link", "set", "can1", "down")
        # No node acknowledges the frame from can0, so it stays in the queue.
        passes(server, writer, "can0")
        comes_to(server, "ERROR-PASSIVE")
        shown = passes(server, IP, "-details", "link", "show", "can1")
        assert (
            "<NOARP,ECHO>" in shown and "state DOWN" in shown and "can <FD> state STOPPED (berr-counter tx 0" in shown
        )
        refused = run(server, writer, "can1")
        assert refused.returncode != 0 and "Network is down" in refused.stderr
        refused = run(server, IP, "link", "set", "can1", "type", "can", "restart")
        assert (refused.returncode, refused.stderr) == (2, "Error: the interface is down.\n")
        # When the interface is up again, it receives that frame.
        passes(server, IP, "link", "set", "can1", "up")
        assert other.frame()[0] == "123"
        shown = passes(server, IP, "-details", "-statistics", "link", "show", "can1")
        assert "<NOARP,UP,LOWER_UP,ECHO>" in shown and "state ERROR-ACTIVE (berr-counter tx 0 rx 0)" in shown
        # Setting the interface up does not count as a restart.
        assert re.search(r"bus-off\n\s+0 +0 +0 +0 +0 +0 ", shown), shown


@needs_ip
def test_down_by_others():
    """an interface that another client of the server sets down is shown as down, and netlink can set it up"""
    with bus(*FAST, "can0,can1") as server, contextlib.closing(plain(server, "can0")) as client:
        assert state_of(server)[0] == "ERROR-ACTIVE"
        assert client.answer("< down >") == "< ok >"
        assert state_of(server)[0] == "STOPPED"
        passes(server, IP, "link", "set", "can0", "up")
        assert client.answer("< status >") == "< status active 0 0 >"


# ---- cost for the server ----


@needs_ip
def test_dump_of_many():
    """listing 256 interfaces is fast, starts no process, and needs no session"""
    names = [[f"b{number}x{one}" for one in range(16)] for number in range(16)]
    with bus(*FAST, *(",".join(names_of_bus) for names_of_bus in names)) as server:
        shown = passes(server, IP, "-details", "-o", "link", "show")
        assert all(f": {name}: <NOARP,UP,LOWER_UP,ECHO>" in shown for of_bus in names for name in of_bus)
        assert not keepers(server)
        passes(server, IP, "link", "show", "b3x4")
        again = passes(server, IP, "-details", "-o", "link", "show")
        assert len(re.findall("can <FD> state ERROR-ACTIVE", again)) == 1
        assert len(keepers(server)) == 1


@needs_ip
def test_sessions():
    """all requests share one session of the server, even if there are a hundred"""
    with bus(*FAST, "can0,can1") as server:
        script = "for i in $(seq 100); do ip link show can0; done | grep -c link/can"
        assert passes(server, "sh", "-c", script, env=environment(server, PATH="/usr/sbin:/usr/bin:/bin")) == "100\n"
        assert len(keepers(server)) == 1


@needs_ip
def test_full():
    """an interface is found even if the server has no free session; its state is then unknown, and standard error says
    why"""
    with bus(*FAST, "can0,can1") as server:
        clients = [plain(server, "can0") for _ in range(63)]
        script = f"echo ready; read line; {IP} -details link show can0"
        with started(server, "sh", "-c", script, stdin=subprocess.PIPE) as shell:
            assert shell.stdout.readline() == "ready\n"
            clients.append(plain(server, "can0"))
            output, errors = shell.communicate("go on\n", timeout=60)
            assert "can0: <NOARP" in output and "state ERROR" not in output
            assert "Too many users: the server says: too many sessions" in errors
        for client in clients:
            client.close()


@pytest.mark.skipif(os.geteuid() != 0, reason="not root, so there is no other user")
@needs_ip
def test_other_user():
    """a keeper does not serve the programs of another user, who gets a separate keeper"""
    with bus(*FAST, "can0,can1") as server:
        passes(server, IP, "link", "set", "can0", "type", "can", "restart-ms", "100")
        words = ["setpriv", "--reuid=65534", "--regid=65534", "--clear-groups", command(), "--", IP]
        shown = subprocess.run(
            [*words, "-details", "link", "show", "can0"],
            env=environment(server),
            capture_output=True,
            text=True,
            check=False,
        )
        assert "restart-ms 0" in shown.stdout, shown
        assert len(keepers(server)) == 2


# ---- other programs ----


def test_pyroute2(tmp_path):
    """pyroute2 finds interfaces, reads their state, and sets them up"""
    pytest.importorskip("pyroute2", reason="no pyroute2: apt-get install python3-pyroute2")
    writer = compiled("send_one", str(tmp_path))
    program = """
import pyroute2, subprocess, sys, time
ip = pyroute2.IPRoute()
index, = ip.link_lookup(ifname="can0")
def attribute(name):
    return ip.get_links(index)[0].get_attr(name)
print(attribute("IFLA_IFNAME"), attribute("IFLA_MTU"), attribute("IFLA_OPERSTATE"))
print(attribute("IFLA_LINKINFO").get_attr("IFLA_INFO_KIND"))
print("can0" in [one.get_attr("IFLA_IFNAME") for one in ip.get_links()], len(ip.get_addr(index=index)))
ip.link("set", index=index, state="up")
subprocess.run([sys.argv[1], "can0"], check=True)
while attribute("IFLA_OPERSTATE") != "DOWN":
    time.sleep(0.01)
print(attribute("IFLA_CARRIER"))
ip.link("set", index=index, state="down")
ip.link("set", index=index, state="up")
print(attribute("IFLA_OPERSTATE"))
try:
    ip.link_lookup(ifname="can9"), ip.link("set", ifname="can9", state="up")
except pyroute2.NetlinkError as error:
    print(error.code)
"""
    with bus(*FAST, ATTACK) as server:
        written = passes(server, "/usr/bin/python3", "-c", program, writer)
        assert written == "can0 72 UP\ncan\nTrue 0\n0\nUP\n19\n"


@needs_ip
def test_python_can():
    """python-can detects the interfaces of the server"""
    program = "import can; print(sorted(one['channel'] for one in can.detect_available_configs('socketcan')))"
    with bus(*FAST, "can0,can1", "vcan0") as server:
        path = environment(server, PATH=f"{os.environ['PATH']}:/usr/sbin")
        written = passes(server, "/usr/bin/python3", "-c", program, env=path)
        assert written.splitlines()[-1] == "['can0', 'can1', 'vcan0']"


QT = "/usr/lib/qt5/bin/canbusutil"


@pytest.mark.skipif(
    not os.path.exists(QT), reason="no canbusutil: apt-get install libqt5serialbus5-bin libqt5serialbus5-plugins"
)
def test_qt():
    """Qt's list of CAN devices contains the server's interfaces"""
    with bus(*FAST, "can0,can1", "vcan0") as server:
        written = passes(server, QT, "-d", "socketcan", env=environment(server, QT_QPA_PLATFORM="offscreen"))
        assert [line for line in written.split() if "can" in line] == ["can0", "can1", "vcan0"]


# ---- virtual time ----


@needs_gcc
@needs_ip
def test_virtual(tmp_path):
    """in virtual time restart-ms takes exactly the requested time, and a minute passes at once"""
    writer = compiled("send_one", str(tmp_path))
    script = f"""
export PATH=/usr/sbin:$PATH CANBUSD_ADDRESS={tmp_path}/bus
canbusd serve --listen $CANBUSD_ADDRESS --bitrate 500000 {ATTACK} >{tmp_path}/server &
canbusd-run --wait ip link set can0 type can restart-ms 60000
canbusd-run {writer} can0
sleep 59
canbusd-run ip -details link show can0 | grep -o 'state [A-Z-]* (.*)'
sleep 2
canbusd-run ip -details link show can0 | grep -o 'state [A-Z-]* (.*)'
kill %1
"""
    folder = str(tmp_path / "bin")
    os.mkdir(folder)
    os.symlink(command(), os.path.join(folder, "canbusd-run"))
    os.symlink(os.path.join(ROOT, "canbusd"), os.path.join(folder, "canbusd"))
    path = {**os.environ, "PATH": f"{folder}:{os.environ['PATH']}"}
    begun = time.monotonic()
    run_of = subprocess.run(
        [command(), "--virtual", "bash", "-c", script],
        env=path,
        capture_output=True,
        text=True,
        timeout=200,
        check=False,
    )
    assert (
        run_of.stdout == "state BUS-OFF (berr-counter tx 256 rx 0)\nstate ERROR-ACTIVE (berr-counter tx 0 rx 0)\n"
    ), run_of
    assert time.monotonic() - begun < 50
