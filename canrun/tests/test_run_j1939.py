"""canbusd-run: J1939, tested with the tools of can-utils and CPython's own tests. The cases with a kernel's answers are
in kernel/j1939.c and other files."""

import importlib.util
import re
import signal

import pytest

from running import (  # noqa: F401
    FAST,
    compiled,
    listening,
    needs,
    needs_gcc,
    none_left,
    passes,
    run,
    server,
    started,
    written,
)
from serving import come_true, serving
from test_run_kernel import answers, file_of, probe
from virtual_runs import case, nodes  # noqa: F401  the fixture

PYTHON = "/usr/bin/python3"


def lines_of(child):
    """Ends a program with Ctrl-C, and returns its output."""
    child.send_signal(signal.SIGINT)
    return child.communicate(timeout=20)[0].splitlines()


@needs("testj1939")
def test_testj1939(server):  # noqa: F811
    """messages of one frame and of several frames arrive at the other end of the bus, and at a socket on the same
    interface"""
    for sender in "can1", "can0":
        with listening(server, "testj1939", "-r", "-w20", "can0:0x90") as receiver:
            passes(server, "testj1939", "-s20", f"{sender}:0x80", f"{sender}:0x90,0x12300")
            lines = [receiver.stdout.readline() for _ in range(3)]
        assert lines == [
            "80 12300: 01 23 45 67 89 ab cd ef\n",
            "00008     01 23 45 67 89 ab cd ef\n",
            "00010     01 23 45 67\n",
        ]


@needs("testj1939")
def test_testj1939_echo(server):  # noqa: F811
    """an echoed message arrives back at its sender"""
    with listening(server, "testj1939", "-e", "-w20", "can0:0x90"):
        text = passes(server, "testj1939", "-s30", "-r", "-w2", "can1:0x80", "can1:0x90,0x12300")
    assert text.startswith("90 12300: 01 23 45 67 89 ab cd ef\n") and len(text.splitlines()) == 4, text


@needs("j1939cat")
def test_j1939cat(server, tmp_path):  # noqa: F811
    """a file of a kilobyte arrives complete. The sender may end with an error because it has no room for the
    notification. Debian 12 with the kernel's sockets has the same error"""
    data = bytes(number * 7 % 256 for number in range(1000))
    (tmp_path / "sent").write_bytes(data)
    with open(tmp_path / "received", "wb") as file:
        with listening(server, "j1939cat", "can0:0x90", "-r", stdout=file, text=False):
            sent = run(server, "j1939cat", "-i", str(tmp_path / "sent"), "can1:0x80", ":0x90,0x12300")
            assert come_true(lambda: (tmp_path / "received").read_bytes() == data)
    is_cut = sent.returncode == 1 and "recvmsg error notification: truncated" in sent.stderr
    assert is_cut or sent.returncode == 0, sent


@needs("j1939spy", "testj1939", "cansend")
def test_j1939spy(server):  # noqa: F811
    """j1939spy shows messages to all nodes, and messages to other nodes"""
    with listening(server, "stdbuf", "-oL", "j1939spy", "-P", "can0") as spy:
        passes(server, "testj1939", "-s30", "-B", "can1:0x80", "can1:,0x0FE12")
        passes(server, "cansend", "can1", "18EA90FE#00EE00")
        lines = sorted(spy.stdout.readline().strip() for _ in range(2))
    assert lines == [
        "80,0fe12 - !6 [30] 01234567 89abcdef 01234567 89abcdef 01234567 89abcdef 01234567 89ab",
        "can0:fe,0ea00 90 !6 [3] 00ee00",
    ]


@needs("j1939sr")
def test_j1939sr(server):  # noqa: F811
    """a line arrives"""
    with listening(server, "stdbuf", "-oL", "j1939sr", "can0:91", stdin=-1) as receiver:
        passes(server, "j1939sr", "can1:80", "can1:91,12300", input="1122334455\n")
        assert receiver.stdout.readline() == "1122334455\n"


@needs("j1939acd", "candump", "cansend")
def test_j1939acd(server, tmp_path):  # noqa: F811
    """the daemon claims an address, answers requests, yields the address to a lower name, and takes another one"""
    words = ("j1939acd", "-r", "100,80-120", "-c", str(tmp_path / "cache"), "1122334455667788", "can0")
    with listening(server, "stdbuf", "-oL", "candump", "-L", "can1") as dump:

        def claim():
            line = ""
            while not re.search("18EEFF.*#8877665544332211", line):
                line = dump.stdout.readline()
            return int(re.search("18EEFF(..)#", line).group(1), 16)

        with started(server, *words) as daemon:
            address = claim()
            passes(server, "cansend", "can1", "18EAFFFE#00EE00")
            assert claim() == address
            passes(server, "cansend", "can1", f"18EEFF{address:02X}#0100000000000000")
            assert claim() != address
            daemon.send_signal(signal.SIGTERM)
            assert claim() == 0xFE


@pytest.mark.skipif(
    not importlib.util.find_spec("test.test_socket"), reason="no tests of CPython, as of libpython3.11-testsuite"
)
def test_cpython(server):  # noqa: F811
    """the three J1939 tests of CPython pass"""
    ended = run(server, PYTHON, "-m", "unittest", "-v", "test.test_socket.J1939Test")
    assert ended.returncode == 0 and "Ran 3 tests" in ended.stderr and "skipped" not in ended.stderr, ended


@needs_gcc
def test_long_message(tmp_path):
    """a message of 100,000 bytes arrives unchanged, and the error queue reports its progress"""
    path = compiled("j1939", str(tmp_path))
    with serving(*FAST, "can0,can1") as server:
        passes(server, path, "100000", "1", patience=200)
        assert none_left(server)
        server.end()


@pytest.mark.slow
@needs_gcc
def test_waits(tmp_path):
    """1,000 messages from separate sockets arrive, and each sender waits until its message is sent"""
    path = compiled("j1939", str(tmp_path))
    with serving(*FAST, "can0,can1") as server:
        passes(server, path, "9", "1000", patience=280)
        server.end()


@needs_gcc
def test_bus_off(tmp_path):
    """a transfer that loses packets fails: both ends abort it, and nothing is reported as sent"""
    script = tmp_path / "off.script"
    script.write_text("next 32 from can1 skip 3 global bit\n", encoding="utf-8")
    with serving("--pace", "1", f"can0,can1@{script}") as server:
        with listening(server, "candump", "-L", "can0") as dump:
            program = f"""
import errno, select, socket
with socket.socket(socket.PF_CAN, socket.SOCK_DGRAM, socket.CAN_J1939) as ecu, \\
        socket.socket(socket.PF_CAN, socket.SOCK_DGRAM, socket.CAN_J1939) as tester:
    tester.bind(("can0", 0, {0x40000}, 0x90))
    ecu.bind(("can1", 0, {0x40000}, 0x80))
    ecu.sendto(bytes(100), ("can1", 0, {0x12300}, 0x90))
    ready = select.poll()
    ready.register(ecu, select.POLLERR)
    assert ready.poll(20000) == [(ecu.fileno(), select.POLLERR)]
    assert ecu.getsockopt(socket.SOL_SOCKET, socket.SO_ERROR) == errno.EHOSTUNREACH
    ready.unregister(ecu)
    ready.register(tester, select.POLLIN)
    assert ready.poll(2000) == []
"""
            passes(server, PYTHON, "-c", program)
            text = " ".join(lines_of(dump))
        assert re.search("18EC8090#FF03FFFFFF002301", text), text
        server.end()


@needs_gcc
def test_virtual(tmp_path, nodes):  # noqa: F811
    """in virtual time a claimed address is valid after exactly 250 ms, and a transfer to a missing node is aborted
    after 1.25 s"""
    left = case("j1939", tmp_path / "run", nodes)
    claimed = re.fullmatch(rb"claimed after (0\.\d+) s\n", left["claimed"])
    assert claimed and 0.25 <= float(claimed.group(1)) < 0.252, left["claimed"]
    assert left["received"].split() == [b"8", b"30", b"5000"]
    sent = left["sent"].decode().splitlines()
    assert [line.split(" after ")[0] for line in sent] == [
        *(f"{length} bytes: Success" for length in (8, 30, 5000)),
        "30 bytes: No route to host",
    ]
    # The time is measured from the end of the request on the bus. The request has 131 bits and at most 29 stuff bits,
    # of 2 microseconds each.
    given_up = float(sent[3].split(" after ")[1].split()[0])
    assert 1.25 + 131 * 2e-6 <= given_up <= 1.25 + 160 * 2e-6, sent


@needs_gcc
def test_virtual_answers(tmp_path, nodes):  # noqa: F811
    """in virtual time frames have a duration, and every case still gets the kernel's answer"""
    kernel = answers(file_of("answers.txt"))
    left = case("answers", tmp_path / "run", nodes, PROBE=probe(str(tmp_path)))
    got = answers(left["answers"].decode())
    assert len(got) > 250
    assert not {name: (kernel[name], answer) for name, answer in got.items() if answer != kernel[name]}
