"""Captures for Wireshark, which are read with tshark: from a log, from a running server, and through Wireshark's list
of interfaces."""

import shutil
import signal
import subprocess
import time
from pathlib import Path

import pytest
from test_commands import WAIT, call, environment, message, words_of
from test_logs import LOG, convert

from canbusd.commands._capture import Merged
from canbusd.faults import Faults
from canbusd.frames import Frame
from canbusd.server import Server

pytestmark = pytest.mark.skipif(not shutil.which("tshark"), reason="no tshark")
READY = 0x7FF
# The tshark fields that describe a frame. A flag is printed as 1 or True, depending on the version.
FIELDS = "frame.interface_name frame.packet_flags_direction frame.time_epoch can.flags.err can.id can.flags.xtd can.flags.rtr"
FIELDS_OF_FD = "canfd.flags.brs canfd.flags.esi can.len data.data"
DIRECTIONS = {"": "", "1": "in", "2": "out"}


def read(path):
    """Returns the frames in a capture: interface, direction, timestamp, and the frame in candump's notation."""
    words = [word for name in f"{FIELDS} {FIELDS_OF_FD}".split() for word in ("-e", name)]
    written = subprocess.check_output(
        ["tshark", "-r", path, "-T", "fields", *words], stderr=subprocess.DEVNULL, text=True
    )
    return [row_of(*line.split("\t")) for line in written.splitlines()]


def row_of(name, way, moment, is_error, number, is_extended, is_remote, brs, esi, length, data):
    error, extended, remote, has_brs, has_esi = (
        one in ("1", "True") for one in (is_error, is_extended, is_remote, brs, esi)
    )
    digits = "ERROR" if error else f"{int(number):08X}" if extended else f"{int(number):03X}"
    flags = f"#{has_brs + 2 * has_esi}" if brs else ""
    text = f"{digits}#R{length}" if remote else f"{digits}#{flags}{data.replace(':', '').upper()}"
    return name, DIRECTIONS[way and str(int(way, 16))], moment[:-3], text


def interfaces_of(path):
    """Returns the interfaces in a capture and their bit rates, as printed by capinfos."""
    written = subprocess.check_output(["capinfos", path], text=True)
    found = {}
    for line in written.split("Interface #0 info:")[1].splitlines():
        name, _, value = (part.strip() for part in line.partition("="))
        if name == "Name":
            found[value] = last = {}
        elif name in ("Speed", "Encapsulation", "Time precision"):
            last[name] = value
    return found


def test_a_log(tmp_path):
    """Frames have an interface and a timestamp. They have a direction if the log marks frames as sent."""
    log = tmp_path / "run.log"
    log.write_text(
        LOG.replace("123#1122", "123#1122 R").replace("R4", "R4 T") + "(1795910923.100000) late 001##3AABB\n"
    )
    assert convert("--names", "tester", log, tmp_path / "run.pcapng") == (0, "6 frames\n", "")
    assert read(tmp_path / "run.pcapng") == [
        ("ecu", "", "1795910922.386502", "123#1122"),
        ("tester", "out", "1795910922.386602", "124#R4"),
        ("ecu", "", "1795910922.636502", "12345678##11122"),
        ("ecu", "", "1795910922.636503", "ERROR#"),
        ("tester", "", "1795910923.000000", "7FF#0102030405060708"),
        ("late", "", "1795910923.100000", "001##3AABB"),
    ]
    kind = {"Encapsulation": "SocketCAN (125 - socketcan)", "Time precision": "microseconds (6)"}
    assert interfaces_of(tmp_path / "run.pcapng") == {name: kind for name in ("tester", "ecu", "late")}
    status, _, said = convert(tmp_path / "run.pcapng", tmp_path / "back.log")
    assert (status, said) == (
        1,
        f"canbusd convert: {tmp_path}/run.pcapng: a capture for Wireshark is only written, not read\n",
    )


def test_error_message_frames(tmp_path):
    """Wireshark shows bus off. It also shows a missing acknowledgement together with the bus error."""
    (tmp_path / "run.log").write_text(
        "(1.000000) a 20000040#0000000000000000\n(1.000000) a 200000A0#0000821A00000000\n"
    )
    convert(tmp_path / "run.log", tmp_path / "run.pcapng")
    words = ["-T", "fields", "-e", "can.err.busoff", "-e", "can.err.ack", "-e", "can.err.buserror"]
    words = ["tshark", "-r", tmp_path / "run.pcapng", *words]
    lines = subprocess.check_output(words, stderr=subprocess.DEVNULL, text=True).splitlines()
    assert [[one in ("1", "True") for one in line.split("\t")] for line in lines] == [
        [True, False, False],
        [False, True, True],
    ]


def capturing(server, sender, path, *words):
    """Starts a capture of a running server, and sends frames until the first of them is in the capture."""
    child = subprocess.Popen(
        words_of("dump", "--pcapng", path, *words),
        env=environment(server),
        stdout=subprocess.DEVNULL,
        stderr=subprocess.PIPE,
    )
    deadline = time.monotonic() + 4 * WAIT
    while not path.exists() or not any(text == "7FF#" for *_, text in read(path)):
        assert child.poll() is None and time.monotonic() < deadline, child.stderr.read()
        sender.send(message(READY), timeout=5)
        time.sleep(0.05)
    return child


def test_each_frame_once(tmp_path):
    """Every frame is captured once, at the interface of its sender. Error message frames are captured at the interface
    that reports them."""
    path = tmp_path / "run.pcapng"
    with Server("can0,can1,can2", "body0", bitrate=500_000, data_bitrate=2_000_000, auto_restart=128) as server:
        with server.bus("can0", fd=True) as can0, server.bus("can1") as can1, server.bus("body0") as body:
            child = capturing(server, can0, path, "can0", "can1", "can2", "body0")
            for number in range(100):
                can0.send(message(0x100, bytes([number])), timeout=5)
                can0.send(
                    message(0x12345678, bytes(12), is_extended_id=True, is_fd=True, bitrate_switch=True), timeout=5
                )
                can1.send(message(0x200, bytes([number])), timeout=5)
                body.send(message(0x100, bytes([number])), timeout=5)
            server.inject(Faults().next(32, sender="can1").destroyed(), "can0")
            can1.send(message(0x300))
            server.expect_state("can1", "off", within=WAIT)
            can0.send(message(0x7FE), timeout=5)
            deadline = time.monotonic() + 4 * WAIT
            while not any(text == "7FE#" for *_, text in read(path)) and time.monotonic() < deadline:
                time.sleep(0.05)
            child.send_signal(signal.SIGINT)
            assert child.wait(WAIT) == -signal.SIGINT and child.stderr.read() == b""
    rows = [(name, way, text) for name, way, _, text in read(path) if text != "7FF#"]
    frames = [(name, text) for name, way, text in rows if text != "ERROR#" and way == "out"]
    for name, number in (("can0", 0x100), ("can1", 0x200), ("body0", 0x100)):
        wanted = [(name, f"{number:03X}#{each:02X}") for each in range(100)]
        assert [one for one in frames if one[0] == name and one[1].startswith(f"{number:03X}#")] == wanted
    assert frames.count(("can0", "12345678##1" + 12 * "00")) == 100
    assert len(frames) == 401
    # can1 reports error warning, error passive, bus off and the restart. The other interfaces report no state changes.
    assert {(name, way) for name, way, text in rows if text == "ERROR#"} == {("can1", "in")}
    assert len([text for *_, text in rows if text == "ERROR#"]) in (3, 4)
    moments = [float(moment) for name, _, moment, _ in read(path) if name != "body0"]
    assert moments == sorted(moments)
    assert {name: said["Speed"] for name, said in interfaces_of(path).items()} == dict.fromkeys(
        ("can0", "can1", "can2", "body0"), "500000"
    )


def test_one_interface(tmp_path):
    """Frames from the interface's own clients are outbound, and all other frames are inbound. -n limits the number of
    frames, and filters select which frames are captured."""
    path = tmp_path / "run.pcapng"
    with Server("can0,can1") as server, server.bus("can0") as can0, server.bus("can1") as can1:
        child = capturing(server, can0, path, "-n", "60", "can1,100:700,7FF:7FF")
        while child.poll() is None:
            can0.send(message(0x101), timeout=5)
            can0.send(message(0x201), timeout=5)
            can1.send(message(0x102), timeout=5)
    rows = read(path)
    assert len(rows) == 60
    assert {(way, text) for _, way, _, text in rows} == {("in", "7FF#"), ("in", "101#"), ("out", "102#")}


class Heard:
    """A stand-in for a session that has received `frames`. The frames in `later` are still in its socket."""

    def __init__(self, *frames, later=()):
        self.frames, self.later = [*frames], [*later]

    def at_hand(self):
        found, self.frames = self.frames, []
        return found

    def up_to_now(self):
        found, self.later = self.later, []
        return found


def test_frames_that_come_one_after_another():
    """Frames with the same timestamp and content count as one frame. If one session is ahead, its frames wait for those
    of the other sessions."""
    one, sent = Frame(1, timestamp=5.0), Frame(1, timestamp=5.0, is_rx=False)
    other = Frame(2, timestamp=6.0)
    merged = Merged([("a", Heard(one)), ("b", Heard(later=[sent, other])), ("c", Heard())])
    assert [(name, str(frame), way) for name, frame, way in merged.take()] == [("b", "001#", 2)]
    assert merged.has_more
    assert [(name, str(frame), way) for name, frame, way in merged.take()] == [("b", "002#", 1)]
    assert not merged.has_more
    # The same frame may occur twice with one timestamp, as in virtual time. Each of two buses may have sent the same
    # frame.
    merged = Merged([("a", Heard(one, one)), ("b", Heard(sent, sent))])
    assert [name for name, _, _ in merged.take()] == ["b", "b"]
    merged = Merged([("a", Heard(sent)), ("b", Heard(sent))])
    assert [name for name, _, _ in merged.take()] == ["a", "b"]


@pytest.mark.parametrize(
    "words, said",
    [
        (["-L", "--pcapng", "x", "can0"], "-e, -L, -t and --dbc do not go with --pcapng"),
        (["--pcapng", "no/x", "can0"], "no/x: No such file or directory"),
    ],
)
def test_what_is_refused(tmp_path, words, said):
    with Server("can0") as server:
        status, _, written = call("dump", *words, server=server, cwd=tmp_path)
    assert status in (1, 2) and written == f"canbusd dump: {said}\n"
    assert not (tmp_path / "x").exists()


@pytest.fixture
def home(tmp_path):
    """A home folder in which the capture script for Wireshark is installed."""
    folder = tmp_path / "a home"
    done = subprocess.run(
        words_of("extcap", "--install"),
        env={**environment(), "HOME": str(folder)},
        capture_output=True,
        text=True,
        check=True,
    )
    assert [Path(line).relative_to(folder).parts[0] for line in done.stdout.splitlines()] == [".local", ".config"]
    return folder


def test_in_the_list_of_wireshark(home, tmp_path):
    """Without a server, the list contains only the capture of all interfaces. With a server, it also contains each
    interface."""

    def listed(**more):
        words = {**environment(), "HOME": str(home), "CANBUSD_ADDRESS": str(tmp_path / "none"), **more}
        written = subprocess.run(
            ["tshark", "-D"], env=words, capture_output=True, text=True, check=True, timeout=4 * WAIT
        ).stdout
        return [line.split(" ", 1)[1] for line in written.splitlines() if "canbusd" in line]

    assert listed() == ["canbusd (canbusd: all interfaces)"]
    path = tmp_path / "run.pcapng"
    with Server("can0,can1") as server, server.bus("can0") as can0:
        every = ["canbusd (canbusd: all interfaces)", "canbusd-can0 (canbusd: can0)", "canbusd-can1 (canbusd: can1)"]
        assert listed(CANBUSD_ADDRESS=server.address) == every
        # The server's address is given as an option of the capture.
        words = ["tshark", "-i", "canbusd", "-o", f"extcap.canbusd.address:{server.address}", "-c", "20", "-w", path]
        elsewhere = {**environment(), "HOME": str(home), "CANBUSD_ADDRESS": str(tmp_path / "none")}
        child = subprocess.Popen(words, env=elsewhere, stderr=subprocess.PIPE)
        deadline = time.monotonic() + 4 * WAIT
        while child.poll() is None and time.monotonic() < deadline:
            can0.send(message(READY), timeout=5)
            time.sleep(0.02)
        said = child.communicate()[1]
        assert child.poll() == 0, said
    frames = [(name, way, text) for name, way, _, text in read(path)]
    # The capture opens one interface after another. Before can0 is open, the capture may receive a frame from can0
    # through can1, and store it as inbound.
    first = frames.index(("can0", "out", "7FF#"))
    assert frames == first * [("can0", "in", "7FF#")] + (20 - first) * [("can0", "out", "7FF#")]


def test_what_wireshark_asks(home, tmp_path):
    """Capture filters are refused. If there is no server, an error message says so."""
    script, server = home / ".config" / "wireshark" / "extcap" / "canbusd", str(tmp_path / "none")

    def asked(*words):
        done = subprocess.run(
            [script, *words], env={**environment(), "CANBUSD_ADDRESS": server}, capture_output=True, text=True
        )
        return done.returncode, done.stdout, done.stderr

    filters = "canbusd has no capture filters; a display filter selects frames"
    assert asked("--extcap-interface", "canbusd", "--extcap-capture-filter", "can") == (0, f"{filters}\n", "")
    status, _, said = asked("--capture", "--extcap-interface=canbusd", f"--fifo={tmp_path}/fifo")
    assert status == 1 and said.startswith(f"canbusd extcap: the server at {server}: ")
    assert asked() == (2, "", "canbusd extcap: canbusd extcap --install: Wireshark calls it with other words\n")
