"""The commands dump, send, status, report and replay. Each command runs in a separate process, either forked or started
as a program."""

import contextlib
import json
import os
import re
import select
import subprocess
import sys
from pathlib import Path

import can
import pytest

import canbusd
from canbusd import Load
from canbusd._words import COMMANDS
from canbusd.bench import Bench
from canbusd.commands.dump import View
from canbusd.commands.status import table_of
from canbusd.faults import Faults
from canbusd.frames import Frame
from canbusd.server import Server
from forked import forked

WAIT = 30
READY, END = 0x7FF, 0x7FE


def environment(server=None):
    """Returns the environment variables for a command, which imports the same package as this test."""
    address = {"CANBUSD_ADDRESS": server.address} if server else {}
    places = [str(Path(canbusd.__file__).parents[1]), *filter(None, [os.environ.get("PYTHONPATH")])]
    return {**os.environ, "PYTHONPATH": os.pathsep.join(places), "PYTHONDONTWRITEBYTECODE": "1", "TZ": "UTC", **address}


def words_of(*words):
    return [sys.executable, "-m", "canbusd", *map(str, words)]


def call(*words, server=None, **more):
    """Runs a command to completion, and returns its exit status, its output and its error output."""
    return forked(*words, env=environment(server), **more)


def message(identifier, data=b"", **more):
    return can.Message(arbitration_id=identifier, data=data, is_extended_id=more.pop("is_extended_id", False), **more)


@contextlib.contextmanager
def dumping(server, sender, *words, names=("can1",)):
    """Runs `dump` for these interfaces. `sender` sends frames until the dump has written a frame for each of them."""
    child = subprocess.Popen(
        words_of("dump", *words), env=environment(server), stdout=subprocess.PIPE, stderr=subprocess.PIPE, bufsize=0
    )
    try:
        seen = b""
        for _ in range(200):
            sender.send(message(READY), timeout=5)
            if select.select([child.stdout], [], [], 0.1)[0]:
                seen += os.read(child.stdout.fileno(), 65536)
            if all(re.search(rf"{name} .*{READY:X}.*\n".encode(), seen) for name in names):
                break
        else:
            raise AssertionError(f"no frame: {seen!r} {child.stderr.read() if child.poll() is not None else ''}")
        yield child
    finally:
        child.kill()
        child.communicate()


def dumped(child, sender, names=1):
    """Returns the output of `dump` up to the last frame, without the frames that were sent to await its start."""
    written = b""
    for _ in range(10 * WAIT):
        # The frame is sent repeatedly, because the dump's receive queue may be full.
        sender.send(message(END), timeout=5)
        while select.select([child.stdout], [], [], 0.1)[0]:
            piece = os.read(child.stdout.fileno(), 65536)
            assert piece, child.stderr.read()
            written += piece
        if len(set(re.findall(rf"(can\d) +(?:[0-9A-F]+# *)?{END:X}\b".encode(), written))) == names:
            break
    else:
        raise AssertionError(f"no last frame: {written[-1000:]!r}")
    lines = written.decode().splitlines(True)
    return [line for line in lines if not re.search(rf"\b(?:{READY:X}|{END:X})\b", line)]


@pytest.mark.parametrize(
    "text, line",
    [
        ("123#11223344", "  can0  123   [4]  11 22 33 44\n"),
        ("123#", "  can0  123   [0]\n"),
        ("123#R4", "  can0  123   [4]  remote request\n"),
        ("12345678#0102030405060708", "  can0  12345678   [8]  01 02 03 04 05 06 07 08\n"),
        ("123##0" + "AB" * 12, "  can0  123  [12]  " + " ".join(["AB"] * 12) + "\n"),
        ("123##011", "  can0  123  [01]  11\n"),
        ("20000004#0004000000000000", "  can0  20000004   [8]  00 04 00 00 00 00 00 00   ERRORFRAME\n"),
    ],
)
def test_frames_on_the_screen_are_those_of_candump(text, line):
    """The printed lines are the same as those of candump from can-utils."""
    import argparse

    view = View(argparse.Namespace(log=False, explain=False, timestamps=None), 4)
    assert "".join(f"{one}\n" for one in view.lines("can0", Frame.parse(text))) == line


def test_identifiers_of_11_bits_after_one_of_29():
    """After a 29-bit identifier, 11-bit identifiers are right-aligned, as in candump's output."""
    import argparse

    view = View(argparse.Namespace(log=False, explain=False, timestamps=None), 4)
    lines = [view.lines("can0", Frame.parse(text))[0] for text in ("00000123#", "123#R2", "123##0" + "00" * 12)]
    assert lines == [
        "  can0  00000123   [0]",
        "  can0       123   [2]  remote request",
        "  can0       123  [12]  00 00 00 00 00 00 00 00 00 00 00 00",
    ]


def test_timestamps_of_candump():
    import argparse

    frame = Frame.parse("123#11", 1436509052.249713)
    later = Frame.parse("123#11", 1436509053.25)
    for kind, first, second in [
        ("a", " (1436509052.249713)  can0", " (1436509053.250000)  can0"),
        ("d", " (000.000000)  can0", " (001.000287)  can0"),
        ("z", " (000.000000)  can0", " (001.000287)  can0"),
    ]:
        view = View(argparse.Namespace(log=False, explain=False, timestamps=kind), 4)
        assert [view.lines("can0", one)[0].split("  123")[0] for one in (frame, later)] == [first, second]


def test_dump_of_several_interfaces():
    with Server("can0,can1,can2") as server, server.bus("can0", fd=True) as sender:
        with dumping(server, sender, "can1", "can2", names=("can1", "can2")) as child:
            for text in ("123#11", "00000123#", "123#R2", "123##0" + "00" * 12):
                frame = Frame.parse(text)
                sender.send(
                    message(frame.arbitration_id, frame.data, is_extended_id=frame.is_extended_id, is_fd=frame.is_fd,
                            is_remote_frame=frame.is_remote_frame, dlc=frame.dlc),
                    timeout=5,
                )  # fmt: skip
            lines = dumped(child, sender, names=2)
    for name in ("can1", "can2"):
        # Spaces are ignored, because the width of the identifier column depends on the order of the frames.
        assert [" ".join(line.split()) for line in lines if name in line] == [
            f"{name} 123 [1] 11",
            f"{name} 00000123 [0]",
            f"{name} 123 [2] remote request",
            f"{name} 123 [12] 00 00 00 00 00 00 00 00 00 00 00 00",
        ]


def test_dump_with_filters():
    with Server("can0,can1") as server, server.bus("can0") as sender:
        with dumping(server, sender, "can1,123:C00007FF,7FE:7FE") as child:
            for identifier, extended in ((0x122, False), (0x123, True), (0x123, False), (0x124, False)):
                sender.send(message(identifier, is_extended_id=extended), timeout=5)
            assert dumped(child, sender) == ["  can1  123   [0]\n"]
        status, written, said = call("dump", "can1,abc", server=server)
        assert (status, written) == (1, "") and "`abc` is no filter" in said


def test_dump_of_error_message_frames_in_words():
    first = 100
    with Server("can0,can1", faults=Faults().destroyed(range(first, first + 32)), auto_restart=5) as server:
        with server.bus("can0", error_frames=False) as sender, server.bus("can0") as watcher:
            with dumping(server, watcher, "-e", "can0", names=("can0",)) as child:
                while watcher.stats().sent < first:
                    watcher.send(message(READY), timeout=5)
                sender.send(message(0x123), timeout=5)
                received = (watcher.recv(WAIT) for _ in range(1000))
                assert any(one.is_error_frame and one.arbitration_id == 0x100 for one in received)
                lines = dumped(child, sender)
    assert lines == [
        "  can0  20000204   [8]  00 08 00 00 00 00 60 00   ERRORFRAME\n",
        "\terror warning, transmit count 96, receive count 0\n",
        "  can0  20000204   [8]  00 20 00 00 00 00 80 00   ERRORFRAME\n",
        "\terror passive, transmit count 128, receive count 0\n",
        "  can0  20000040   [8]  00 00 00 00 00 00 00 00   ERRORFRAME\n",
        "\tbus off\n",
        "  can0  20000100   [8]  00 00 00 00 00 00 00 00   ERRORFRAME\n",
        "\trestarted\n",
    ]


def test_dump_as_a_log(tmp_path):
    with Server("can0,can1") as server, server.bus("can0") as sender:
        with dumping(server, sender, "-L", "can1") as child:
            sender.send(message(0x123, b"\x01\x02"), timeout=5)
            sender.send(message(0x123, is_extended_id=True), timeout=5)
            lines = dumped(child, sender)
    log = tmp_path / "run.log"
    log.write_text("".join(lines))
    assert [(one.arbitration_id, one.is_extended_id, bytes(one.data), one.channel) for one in can.LogReader(log)] == [
        (0x123, False, b"\x01\x02", "can1"),
        (0x123, True, b"", "can1"),
    ]


def test_dump_that_counts_and_dump_that_waits():
    with Server("can0,can1") as server, server.bus("can0") as sender:
        with dumping(server, sender, "-n", "3", "can1") as child:
            for _ in range(3):
                sender.send(message(READY), timeout=5)
            assert child.wait(WAIT) == 0
        assert call("dump", "-T", "10", "can1", server=server) == (0, "", "")


def test_dump_says_what_found_no_room():
    """The receive queue has room for one frame. Every frame of a burst is either written or counted as dropped."""
    frames = 20000
    with Server("can0,can1", pace_ms=0, txqueue=1024, rxqueue=1) as server, server.bus("can0") as sender:
        with dumping(server, sender, "-L", "can1") as child:
            sender.send_many(message(0x123, number.to_bytes(4, "big")) for number in range(frames))
            lines = dumped(child, sender)
            assert 0 < len(lines) < frames
            said = ""
            while sum(map(int, re.findall(r"^canbusd dump: can1: (\d+) frames? dropped, ", said, re.M))) < frames - len(
                lines
            ):
                assert select.select([child.stderr], [], [], WAIT)[0], said
                said += os.read(child.stderr.fileno(), 65536).decode()
                sender.send(message(END), timeout=5)


def test_dump_into_a_pipe_that_closes():
    with Server("can0,can1") as server, server.bus("can0") as sender:
        with dumping(server, sender, "can1") as child:
            child.stdout.close()
            for _ in range(1000):
                sender.send(message(READY), timeout=5)
                if child.poll() is not None:
                    break
            child.wait(WAIT)
            assert child.stderr.read() == b""


def test_dump_when_the_server_ends():
    with Server("can0,can1") as server, server.bus("can0") as sender:
        with dumping(server, sender, "can1") as child:
            server.stop()
            assert child.wait(WAIT) == 1
            said = child.stderr.read().decode()
            assert re.fullmatch(r"canbusd dump: [^\n]+\n", said)


@pytest.mark.parametrize(
    "text, spelled",
    [
        ("123#DEADBEEF", "123#DEADBEEF"),
        ("7ff#de.ad", "7FF#DEAD"),
        ("00000123#", "00000123#"),
        ("123#R", "123#R"),
        ("1FFFFFFF#R4", "1FFFFFFF#R4"),
        ("123##0" + "01" * 64, "123##0" + "01" * 64),
        ("123##1FF", "123##1FF"),
        ("123##3", "123##3"),
    ],
)
def test_send_in_the_spelling_of_cansend(text, spelled):
    with Server("can0,can1") as server, server.bus("can1", fd=True) as receiver:
        assert call("send", "can0", text, server=server) == (0, "", "")
        received = receiver.recv(WAIT)
    frame = Frame.parse(spelled)
    assert bytes(received.data) == frame.data
    for field in (
        "arbitration_id", "is_extended_id", "is_remote_frame", "is_fd", "dlc", "bitrate_switch",
        "error_state_indicator",
    ):  # fmt: skip
        assert getattr(received, field) == getattr(frame, field)


def test_send_of_several_frames_and_flags():
    with Server("can0,can1") as server, server.bus("can1", fd=True) as receiver:
        frames = [f"1{number:02}#{number:02}" for number in range(30)]
        status, written, said = call("send", "can0", *frames, "123##5FF", server=server)
        assert (status, written) == (0, "") and "of the flags only 1 and 2 are sent" in said
        assert [receiver.recv(WAIT).arbitration_id for _ in range(31)] == [
            *(int(text[:3], 16) for text in frames),
            0x123,
        ]


@pytest.mark.parametrize(
    "words, fault",
    [
        (("can0", "123"), "canbusd send: 123: no frame such as"),
        (("can0", "800#"), "canbusd send: 800#: an identifier has 11 bits in 3 digits"),
        (("can0", "20000040#0000000000000000"), "nobody sends"),
        (("can7", "123#"), "no such interface; the server has can0, can1"),
    ],
)
def test_send_refuses_in_one_line(words, fault):
    with Server("can0,can1") as server:
        status, written, said = call("send", *words, server=server)
    assert (status, written) == (1, "") and fault in said and said.count("\n") == 1


def test_no_server(tmp_path):
    for words in (
        ("send", "can0", "123#"),
        ("dump", "can0"),
        ("status", "can0"),
        ("restart", "can0"),
        ("down", "can0"),
        ("up", "can0"),
        ("fault", "can0", "--left"),
    ):
        status, written, said = call(*words, "--address", str(tmp_path / "socket"))
        assert (status, written) == (1, "") and said.startswith(f"canbusd {words[0]}: ") and said.count("\n") == 1


def test_status_of_interfaces():
    with Server("can0,can1", faults=Faults().destroyed(range(32))) as server, server.bus("can0") as sender:
        sender.send(message(0x123), timeout=5)
        while sender.recv(WAIT).arbitration_id != 0x40:
            pass
        status, written, said = call("status", "can0", "can1", server=server)
        assert call("status", server=server) == (status, written, said)
    assert (status, said) == (0, "")
    assert written.splitlines() == [
        "interface  state   TEC  REC  sent  done  waiting  lost  refused",
        "can0       off     256    0     1     0        0     1        0",
        "can1       active    0   32     0     0        0     0        0",
    ]


def test_status_has_the_load_of_buses_with_a_bit_rate():
    rows = [("can0", "active", 0, 0, 1200, 1190, 10, 0, 3), ("can1", "off", 256, 0, 1, 0, 0, 1, 0)]
    rows.append(("body0", "active", 0, 7, 0, 0, 0, 0, 0))
    busy = [(432, 1_080_000), (1000, 2_000_000), (0, 5_000)]
    assert table_of(rows, [Load(*each, 500_000, 500_000) for each in busy]) == [
        "interface  state   TEC  REC  sent  done  waiting  lost  refused            bus load",
        "can0       active    0    0  1200  1190       10     0        3   43.2 % ####......",
        "can1       off     256    0     1     0        0     1        0  100.0 % ##########",
        "body0      active    0    7     0     0        0     0        0    0.0 % ..........",
    ]
    assert table_of(rows[1:], [Load(432, 1_080_000, 5_000, 5_000), Load(0, 0, 0, 0)]) == [
        "interface  state   TEC  REC  sent  done  waiting  lost  refused            bus load",
        "can1       off     256    0     1     0        0     1        0   43.2 % ####......",
        "body0      active    0    7     0     0        0     0        0                   -",
    ]
    assert table_of(rows[:1], [Load(0, 0, 0, 0)]) == [
        "interface  state   TEC  REC  sent  done  waiting  lost  refused",
        "can0       active    0    0  1200  1190       10     0        3",
    ]


def test_status_of_a_busy_bus():
    with Server("can0,can1", bitrate=5_000, txqueue=1_000) as server, server.bus("can0") as sender:

        def is_full():
            """Returns whether the status shows a fully loaded bus for the last second. The load can be lower although
            the queue is never empty, because a server that falls behind skips attempts."""
            sender.send_many([message(1, bytes(8))] * (1_000 - sender.stats().waiting))
            status, written, said = call("status", server=server)
            assert (status, said) == (0, "")
            return re.search(r"^can0  .*  (99\.\d|100\.0) % #{10}\n", written, re.M)

        server.wait_for(is_full, timeout=3 * WAIT)


def test_status_that_watches():
    with Server("can0") as server:
        child = subprocess.Popen(
            words_of("status", "--watch", "--interval", "0.01", "can0"), env=environment(server), text=True,
            stdout=subprocess.PIPE, stderr=subprocess.PIPE,
        )  # fmt: skip
        lines = [child.stdout.readline() for _ in range(6)]
        child.stdout.close()
        said = child.stderr.read()
        child.wait(WAIT)
        child.stderr.close()
    assert lines[::2] == [lines[0]] * 3 and lines[1].startswith("can0")
    assert said == ""


def test_restart_of_interfaces():
    with Server("can0,can1,can2", faults=Faults().destroyed(range(64))) as server:
        with server.bus("can0") as can0, server.bus("can2") as can2:
            for bus in (can0, can2):
                bus.send(message(0x123), timeout=5)
                server.expect_state(bus.channel, "off", within=WAIT)
            cure = "`canbusd restart can0` brings the interface back, as the server's --auto-restart does"
            assert call("send", "can0", "123#", server=server) == (1, "", f"canbusd send: bus off: {cure}\n")
            assert call("restart", "can0", "can9", server=server)[0] == 1
            assert can0.error_counters().state == "off"
            said = "canbusd restart: can1: not bus off, but active\n"
            assert call("restart", "can1", "can0", server=server) == (1, "", said)
            assert (can0.error_counters(), can2.error_counters().state) == (("active", 0, 0), "off")
            assert call("restart", "can2", server=server) == (0, "", "")
            assert can2.error_counters() == ("active", 0, 0)
    assert server.audit()["can0"].startswith("ok ")


def test_a_full_record_and_its_cures():
    with Server("can0,can1", limit=8, observe=()) as server, server.bus("can0") as can0:
        with pytest.raises(can.CanOperationError, match="^record full"):
            while True:
                can0.send(message(1), timeout=5)
        status, written, said = call("status", server=server)
    cure = "start the server again with a higher limit= (--limit), or with record='live' (--record live)"
    assert (status, written) == (1, "")
    assert said == (f"canbusd status: channel 'can0' of the server at {server.address}: record full: {cure}\n")


def test_fault_of_a_bus_that_runs():
    with Server("can0,can1") as server, server.bus("can0") as sender, server.bus("can1") as receiver:
        for words in (["next 1 from can0 id 123 lastbit"], ["always", "from", "can1", "global", "bit"]):
            assert call("fault", "can0", *words, server=server) == (0, "", "")
        assert call("fault", "can1", "--left", server=server) == (0, "2\n", "")
        sender.send(message(0x123))
        assert [receiver.recv(WAIT).arbitration_id for _ in range(2)] == [0x123, 0x123]
        assert call("fault", "--left", "can0", server=server) == (0, "1\n", "")
        assert call("fault", "--end", "--left", "can1", "next 1 good", server=server) == (0, "1\n", "")
        assert call("fault", "can1", "--end", server=server) == (0, "", "")
        assert server.rules_left() == 0


@pytest.mark.parametrize(
    "words, fault",
    [
        (["can0", "next 1 bad"], "rule 'next 1 bad': its verdict is .*, not 'bad'"),
        (["can0", "5 lastbit"], "'5 lastbit' names an attempt by number, .*"),
        (["can0", "next 1 from can9 good"], "no such interface: next 1 from can9 good: can9 is none of can0, can1"),
        (["can9", "next 1 good"], "can9: no such interface; the server has can0, can1"),
        (
            ["-a", "./no.socket", "can0", "--left"],
            r"./no.socket: No such file .* \(is `canbusd serve` running there\?\)",
        ),
    ],
)
def test_fault_refuses_in_one_line(words, fault):
    with Server("can0,can1") as server:
        status, written, said = call("fault", *words, server=server)
        assert server.rules_left() == 0
    assert (status, written) == (1, "") and re.fullmatch(f"canbusd fault: {fault}\n", said), said


@pytest.fixture
def record(tmp_path):
    """The path of the record of a run in which one frame is destroyed once, and another frame loses arbitration."""
    with Bench("can0,can1", faults=Faults().destroyed(0), out=tmp_path) as bench:
        for name, identifier in (("can0", 0x124), ("can1", 0x123)):
            bench.open(name).send(identifier)
        bench.run()
    return tmp_path / "can0.rec"


def test_replay_of_a_record(record):
    status, written, said = call("replay", record)
    assert (status, said) == (0, "")
    lines = written.splitlines()
    assert lines[:-1] == [
        "(0.000000) can1 123# destroyed (global bit) accepted by nobody, counts 8/0",
        "(0.000000) can1 123# done accepted by can0, counts 7/0",
        "(0.000000) can0 124# done accepted by can1, counts 0/0",
    ]
    assert re.fullmatch(r"ok \d+ entries", lines[-1])
    assert call("replay", "--quiet", record)[1] == lines[-1] + "\n"
    record.write_text(record.read_text().replace("done 0002", "done 0000"))
    status, written, said = call("replay", record)
    assert (status, written) == (1, "")
    assert re.fullmatch(r"canbusd replay: .*can0\.rec: entry \d+: wrong: `attempt .*`; legal is: attempt .*\n", said)


def test_a_record_that_is_cut_off(record):
    """A killed server leaves an incomplete record. The names of its interfaces are in the log next to the record."""
    whole, cut = call("replay", record)[1], record.with_name("can0.rec.new")
    cut.write_bytes(record.read_bytes()[:-4])
    for command in ("replay", "report"):
        status, written, said = call(command, cut)
        assert (status, written) == (1, "") and re.fullmatch(
            r"canbusd \w+: .*: line \d+: bad line: .*the text ends here, in a line without LF; .*\n", said
        )
    assert call("replay", "--cut", cut) == (0, whole.replace(" entries", " entries, then cut off"), "")
    assert call("replay", "--cut", record) == (0, whole, "")
    status, page, said = call("report", "--cut", cut)
    assert (status, said) == (0, "") and page.endswith("</html>\n")


def test_report_of_a_record(record):
    status, page, said = call("report", record)
    assert (status, said) == (0, "") and page.endswith("</html>\n")
    drawn = call("report", "--text", record)[1]
    story = "2 nodes, 3 attempts: 1 failed\n"
    assert drawn == story + call("report", "--arbitration", record)[1] + call("report", "--counters", record)[1]
    # The frame 123 wins, because it has a dominant bit where 124 has a recessive one.
    assert "attempt 1: can1 wins with 123#, done\n  can0 001001001<- loses here\n  can1 00100100011 00\n" in drawn
    assert "can1: transmit count #, receive count o, over 3 steps\n" in drawn
    assert call("report", record.with_name("none"))[::2] == (
        1,
        f"canbusd report: {record.with_name('none')}: No such file or directory\n",
    )


def test_commands_and_their_help():
    status, written, _ = call("--help")
    assert status == 0
    names = re.findall(r"^  (\w+) +\w", written.split("commands:\n")[1].split("\n\n")[0], re.M)
    assert names == [*COMMANDS]
    for name in names:
        status, page, _ = call(name, "--help")
        assert status == 0 and call("help", name) == (0, page, "")
        assert f"canbusd {name}" in page
    assert call("help")[:2] == (0, written)
    assert call("dance")[0] == call("help", "dance")[0] == call()[0] == 2
    status, written, said = call("--version")
    assert (status, said) == (0, "")
    # An installed package prints its commit.
    assert re.fullmatch(rf"canbusd {re.escape(canbusd.__version__)}( \([0-9a-f]{{8}}\+?\))?\n", written)


@pytest.mark.parametrize(
    "words, said",
    [
        (["--verson"], "canbusd: error: no option --verson; the command comes first"),
        (["-a", "127.0.0.1:9", "status"], "canbusd: error: no option -a; the command comes first"),
        (["snd", "can0", "123#"], "canbusd: error: no command snd; did you mean send?"),
        (["help", "replya"], "canbusd: error: no command replya; did you mean replay?"),
        (["zzz"], "canbusd: error: no command zzz"),
        ([], "canbusd: error: the following arguments are required: COMMAND"),
    ],
)
def test_first_words_that_are_wrong(words, said):
    status, written, errors = call(*words)
    assert (status, written, errors.splitlines()[-1]) == (2, "", said)


@pytest.mark.parametrize(
    "words, said",
    [
        ("report --items -5 R", "not a number in decimal digits: '-5'"),
        ("report --text --first -1 R", "not a number in decimal digits: '-1'"),
        ("report --first 40 R", "--first: attempts are drawn with --text, --counters or --arbitration only"),
        ("report --text --first 5 --last 2 R", "--first 5 --last 2: no attempt is from there to there"),
        ("send --timeout -1 can0 123#", "not a number of at least 0: '-1'"),
        ("send --timeout nan can0 123#", "not a number of at least 0: 'nan'"),
        ("status --interval 0", "not a number above 0: '0'"),
        ("watch --interval x", "not a number of at least 0: 'x'"),
        ("watch --port 65536", "--port is a number from 0 to 65535, not 65536"),
        ("dump -n -1 can0", "not a number in decimal digits: '-1'"),
        ("dump -T -1 can0", "not a number of at least 0: '-1'"),
        ("dump -L --dbc car.dbc can0", "--dbc does not go with -L: a log has frames only"),
        ("restbus --for 0 car.dbc", "not a number above 0: '0'"),
        ("restbus --node Engine car.dbc", "--node is NODE=NAME, not 'Engine'"),
        ("fault can0", "a rule is missing, such as 'next 32 from ecu global bit', or --left or --end"),
        (
            "status -a 29536",
            "address is HOST:PORT, [V6]:PORT, or a Unix path that begins with / or ., not '29536' (127.0.0.1:29536?)",
        ),
    ],
)
def test_options_that_are_wrong(words, said):
    """The exit status for a wrong option is 2, as for the program itself. The command does not connect to a server or
    open a file first."""
    status, written, errors = call(*words.split())
    assert (status, written) == (2, "") and errors.endswith(f": {said}\n"), errors


def test_output_that_cannot_be_written():
    for words in (["--help"], ["--version"], ["report", "--help"]):
        with open("/dev/full", "w", encoding="utf-8") as full:
            done = subprocess.run(words_of(*words), env=environment(), stdout=full, stderr=subprocess.PIPE, text=True)
        name = "canbusd report" if words[0] == "report" else "canbusd"
        assert (done.returncode, done.stderr) == (1, f"{name}: No space left on device\n")


def test_no_server_is_said_once(tmp_path):
    status, written, said = call("status", "-a", tmp_path / "none")
    assert (status, written) == (1, "") and said.startswith(f"canbusd status: the server at {tmp_path}/none: ")


def test_replay_of_a_fault_in_the_last_bit(tmp_path):
    with Bench("can0,can1", faults=Faults().last_bit(0), out=tmp_path) as bench:
        bench.open("can0").send(0x123)
        bench.run()
    written = call("replay", "--names", "can0,can1", tmp_path / "can0.rec")[1]
    assert written.splitlines()[0] == "(0.000000) can0 123# lastbit accepted by can1, counts 8/0"


def test_a_replay_in_json(tmp_path):
    faults = Faults().last_bit(0).destroyed(range(1, 32))
    with Bench("can0,can1", faults=faults, auto_restart=1, out=tmp_path) as bench:
        can0, can1 = bench.open("can0", error_frames=0x140), bench.open("can1", error_frames=False)
        can0.send(0x123, b"\x11")
        bench.run()
        assert [str(frame) for frame in can1.receive()] == ["123#11"]
    status, written, said = call("replay", "--json", "--names", "can0,can1", tmp_path / "can0.rec")
    assert (status, said) == (0, "")
    lines = [json.loads(line) for line in written.splitlines()]
    attempt = {
        "type": "attempt", "attempt": 0, "timestamp": 0.0, "winner": "can0", "number": 0, "frame": "123#11",
        "outcome": "lastbit", "fault": "lastbit", "accepted": ["can1"], "off": [], "restarted": [],
    }  # fmt: skip
    destroyed = {**attempt, "outcome": "destroyed", "fault": "global bit", "accepted": []}
    idle = {
        **attempt, "attempt": None, "winner": "", "frame": "", "outcome": "idle", "fault": "good", "accepted": [],
        "restarted": ["can0"],
    }  # fmt: skip
    off = [{**destroyed, "attempt": number, "off": ["can0"] if number == 31 else []} for number in range(1, 32)]
    assert lines[:33] == [attempt, *off, idle]
    item = {
        "type": "item", "attempt": 0, "timestamp": 0.0, "interface": "can1", "socket": 1, "sender": "can0",
        "frame": "123#11", "fate": "taken",
    }  # fmt: skip
    at_can0 = {**item, "interface": "can0", "socket": 0, "fate": "waiting"}
    assert lines[33:] == [
        item,
        {**at_can0, "attempt": 31, "frame": "20000040#0000000000000000"},
        {**at_can0, "attempt": None, "frame": "20000100#0000000000000000"},
    ]
    assert call("replay", "--json", "--quiet", tmp_path / "can0.rec")[0] == 2


def test_reports_need_no_python_can(record):
    """Only buses and logs require python-can. No part of the package requires pytest."""
    program = (
        "import sys; sys.modules['can'] = sys.modules['pytest'] = None\n"
        "import canbusd\n"
        "from canbusd import Bench, Faults, Frame, read_record\n"
        "from canbusd.__main__ import main\n"
        "with Bench('can0,can1') as bench:\n"
        "    bench.open('can0').send(0x123)\n"
        "    assert bench.run()[0].outcome == 'done'\n"
        f"main(['replay', {str(record)!r}])\n"
    )
    done = subprocess.run(
        [sys.executable, "-c", program], env=environment(), capture_output=True, text=True, timeout=WAIT
    )
    assert (done.returncode, done.stderr) == (0, "") and "ok " in done.stdout
