"""Tests `canbusd serve` with clients that were not written for it: python-can, its player and logger, and the readers
of can-utils.
"""

import contextlib
import logging
import os
import re
import shutil
import signal
import subprocess
import sys
import threading
import time

import pytest

from serving import ROOT, WAIT, Plain, all_sleep, come_true, join, line_of, plain, program, serving

can = pytest.importorskip("can", reason="python-can is not installed")
from can.io import CanutilsLogReader  # noqa: E402

# The number of frames of the replayed log.
FRAMES = 10000
# python-can 4.1 sends small 29-bit identifiers without leading zeros, and treats each received frame as a 29-bit frame.
OLD_CLIENT = can.__version__.startswith("4.1.")


def client(server, name, **more):
    """Opens a python-can bus on the interface with this name."""
    return can.Bus(interface="socketcand", channel=name, host=server.host, port=server.port, **more)


@contextlib.contextmanager
def logged():
    """Yields a list that collects the messages that python-can logs."""
    lines = []
    handler = logging.Handler()
    handler.emit = lambda record: lines.append(record.getMessage())
    logger = logging.getLogger("can")
    logger.addHandler(handler)
    try:
        yield lines
    finally:
        logger.removeHandler(handler)


def message(number, data=b"", **more):
    return can.Message(
        arbitration_id=number, data=data, is_extended_id=more.pop("is_extended_id", number > 0x7FF), **more
    )


def expect(bus, number, data):
    got = bus.recv(WAIT)
    assert got is not None and (got.arbitration_id, bytes(got.data)) == (
        number,
        data,
    ), f"{got}, not {number:X} {data.hex()}"
    return got


def passes(source, target, number, data):
    source.send(message(number, data))
    return expect(target, number, data)


def test_python_can_both_ways():
    """Frames of 11 and 29 bits with 0 to 8 bytes arrive in both directions."""
    with serving("can0,can1") as server, client(server, "can0") as can0, client(server, "can1") as can1:
        for number in (0, 0x123, 0x7FF, 0x10000000, 0x12345678, 0x1FFFFFFF):
            for length in (0, 1, 8):
                got = passes(can0, can1, number, bytes(range(0xF8, 0xF8 + length)))
                assert abs(got.timestamp - time.time()) < WAIT, f"the moment {got.timestamp}"
                # An interface does not get its own frames, so the next frame on each interface is the one that the
                # other interface sent.
                passes(can1, can0, number, bytes(range(length)))
        passes(can0, can1, 0x7FF, b"")


def test_empty_frame():
    """A frame without data is sent as a message with two spaces before its end."""
    with serving("can0,can1") as server, client(server, "can0") as can0, client(server, "can1") as can1:
        socket1 = plain(server, "can1")
        got = passes(can0, can1, 0x123, b"")
        assert got.dlc == 0, f"{got.dlc} bytes"
        text = socket1.text()
        assert re.fullmatch(r"< frame 123 \d+\.\d{6}  >", text), text


def test_identifiers_of_29_bits():
    """29-bit identifiers below 10000000 (hexadecimal) arrive too if bit 31 of the identifier is set."""
    saw = []
    with serving("can0,can1") as server, client(server, "can0") as can0, logged() as lines:
        socket1 = plain(server, "can1")
        for number, wanted in [(0x123, "123"), (0x12345, None)]:
            can0.send(message(number, is_extended_id=True))
            can0.send(message(number | 0x80000000, b"\x01", is_extended_id=True))
            if not OLD_CLIENT:
                wanted = f"{number:08X}"
            if wanted:
                first = socket1.frame()
                assert first == (wanted, b""), f"{first}"
                saw.append(f"{number:X} arrives as {wanted}")
            else:
                saw.append(f"{number:X} is a bad id")
            second = socket1.frame()
            assert second == (f"{number:08X}", b"\x01"), f"{second}"
            saw.append(f"{number | 0x80000000:X} as {number:08X}")
        # can0 reads all replies to its earlier messages before it reads this frame.
        socket1.write("< send 7FE 0 >")
        expect(can0, 0x7FE, b"")
        assert any("< error bad id >" in line for line in lines) == OLD_CLIENT, f"logged {lines}"


def test_frames_received_have_no_format():
    """python-can 4.1 treats each received frame as a frame with a 29-bit identifier."""
    with serving("can0,can1") as server, client(server, "can0") as can0, client(server, "can1") as can1:
        short, long = passes(can0, can1, 0x123, b""), passes(can0, can1, 0x12345678, b"")
    assert long.is_extended_id and short.is_extended_id == OLD_CLIENT, f"{short} {long}"


def test_remote_frames():
    """python-can up to 4.5 neither sends nor recognises remote frames."""
    with serving("can0,can1") as server, client(server, "can0") as can0, logged() as lines:
        socket1 = plain(server, "can1")
        socket1.write("< sendrtr 123 3 >< send 124 1 5 >")
        expect(can0, 0x124, b"\x05")
        unknown = [line for line in lines if "< remote 123 " in line]
        can0.send(message(0x123, is_remote_frame=True, dlc=3))
        can0.send(message(0x125, is_remote_frame=True, dlc=0))
        got = socket1.text()
        # The python-can package of Debian 13 sends no remote frames either, and has no version number to check.
        if not got.startswith("< remote 123 "):
            assert unknown, f"logged {lines}"
            assert re.fullmatch(r"< frame 125 \S+  >", got), got
            socket1.write("< send 7FE 0 >")
            expect(can0, 0x7FE, b"")
            assert any("< error bad word count >" in line for line in lines), f"logged {lines}"


def test_filters_and_periodic_frames():
    """The filters, the Notifier and the periodic frames of python-can work."""
    with serving("can0,can1") as server, client(server, "can0") as can0:
        seen = []
        enough = threading.Event()

        def take(got):
            seen.append(got.arbitration_id)
            if len(seen) == 20:
                enough.set()

        with client(server, "can1", can_filters=[{"can_id": 0x200, "can_mask": 0x700}]) as can1:
            notifier = can.Notifier(can1, [take], timeout=0.1)
            tasks = [can0.send_periodic(message(number, b"\x01"), 0.01) for number in (0x123, 0x234)]
            assert enough.wait(WAIT), f"{len(seen)} frames"
            for task in tasks:
                task.stop()
            notifier.stop()
        assert set(seen) == {0x234}, f"{set(seen)}"


def test_script_of_faults(tmp_path):
    """A frame whose last bit fails arrives twice."""
    script = tmp_path / "faults"
    script.write_text("0 lastbit\n")
    with serving(f"can0,can1@{script}") as server, client(server, "can0") as can0, client(server, "can1") as can1:
        passes(can0, can1, 0x123, b"\x01")
        expect(can1, 0x123, b"\x01")
        passes(can0, can1, 0x124, b"\x02")


@pytest.mark.quiet
def test_connects_to_a_busy_bus():
    """The first frame never arrives in the same read as the `< ok >` for `rawmode`."""
    with serving("--pace", "0", "--txqueue", "1024", "can0,can1") as server:
        over = threading.Event()
        sender = plain(server, "can0")

        def send():
            while not over.is_set():
                sender.write("< send 123 4 11 22 33 44 >")
                time.sleep(0.0002)

        thread = threading.Thread(target=send)
        thread.start()
        try:
            for _ in range(100):
                with client(server, "can1") as can1:
                    expect(can1, 0x123, b"\x11\x22\x33\x44")
        finally:
            over.set()
            join([thread])


def first_frame(server, sender, *pieces):
    """Sends these pieces one after another; the last one puts the session into raw mode. Then another session sends a
    frame. Returns the seconds from the last piece until the frame arrives."""
    one = Plain(server)
    texts = [one.text()]
    for piece in pieces:
        start = time.monotonic()
        one.write(piece)
        texts += [one.text() for _ in range(piece.count("<"))]
    assert texts == ["< hi >", "< ok >", "< ok >"], texts
    sender.write("< send 123 0 >")
    assert one.frame() == ("123", b"")
    seconds = time.monotonic() - start
    one.close()
    return seconds


def test_first_frame_of_a_session():
    """The first frame arrives at once if a client sends `open` and `rawmode` together. It arrives 20 ms later if a
    client waits for a reply between them."""
    with serving("--pace", "0", "can0,can1") as server:
        sender = plain(server, "can0")
        assert min(first_frame(server, sender, "< open can1 >< rawmode >") for _ in range(20)) < 0.015
        assert min(first_frame(server, sender, "< open can1 >", "< rawmode >") for _ in range(5)) >= 0.020


def test_several_buses():
    """If a server has two buses, no frame crosses from one bus to the other."""
    with serving("can0,can1", "can2,can3") as server:
        with contextlib.ExitStack() as stack:
            buses = [stack.enter_context(client(server, f"can{number}")) for number in range(4)]
            # In the second round, a frame from another bus would arrive before the expected frame.
            for number in (0x100, 0x500):
                passes(buses[0], buses[1], number, b"\x01")
                passes(buses[2], buses[3], number + 1, b"\x02")
                passes(buses[3], buses[2], number + 2, b"\x03")
                passes(buses[1], buses[0], number + 3, b"\x04")
        written = server.end()
        assert re.fullmatch(r"bus can0 entries \d+\nbus can2 entries \d+\n", written), written
        logs = {
            name: [one.arbitration_id for one in CanutilsLogReader(server.path(name))]
            for name in ("can0.log", "can2.log")
        }
    assert logs == {"can0.log": [0x100, 0x103, 0x500, 0x503], "can2.log": [0x101, 0x102, 0x501, 0x502]}, f"{logs}"


def candump_log(path, count):
    """Writes a log with 4,000 frames per second; returns the frames as pairs of identifier and data."""
    frames = []
    with open(path, "w", encoding="ascii") as file:
        for number in range(count):
            identifier = 0x10000000 + number * 4177 if number % 3 == 0 else number * 7 % 0x800
            text = f"{identifier:08X}" if identifier > 0x7FF else f"{identifier:03X}"
            data = number.to_bytes(4, "big") + bytes(range(number % 5))
            file.write(f"({1700000000 + number // 4000}.{number % 4000 * 250:06d}) can0 {text}#{data.hex().upper()}\n")
            frames.append((text, data))
    return frames


def of_can(module, server, *words):
    """Returns the command that runs python-can's player or logger with the server."""
    return [
        sys.executable,
        "-m",
        f"can.{module}",
        "-i",
        "socketcand",
        *words,
        f"--host={server.host}",
        f"--port={server.port}",
    ]


def logger_runs(server, path):
    """Starts the logger, and waits until it is connected; returns its process."""
    logger = subprocess.Popen(
        of_can("logger", server, "-c", "can1", "-f", path),
        stdout=subprocess.PIPE,
        stderr=subprocess.PIPE,
        text=True,
        env={**os.environ, "PYTHONUNBUFFERED": "1"},
    )
    line = line_of(logger.stdout)
    assert line.startswith("Connected"), f"the logger said {line!r}"
    return logger


def bytes_wait(port):
    """Returns whether an open connection to this port has bytes in transit."""
    with open("/proc/net/tcp", encoding="ascii") as file:
        for _, here, there, state, queues, *_ in map(str.split, file):
            ports = here.split(":")[-1], there.split(":")[-1]
            if f"{port:04X}" in ports and state == "01" and queues != "00000000:00000000":
                return True
    return False


def logger_ends(server, logger):
    """Ends the logger after it has received all frames from the server; returns its standard error."""
    assert come_true(
        lambda: server.rests() and not bytes_wait(server.port) and all_sleep([logger.pid]), 3 * WAIT
    ), "the logger does not come to rest"
    logger.send_signal(signal.SIGINT)
    return logger.communicate(timeout=WAIT)[1]


def compare_logger(path, frames, warnings):
    """Compares the logger's output with the frames. If a read of the logger ends in the middle of a frame, the logger
    loses that frame and logs a warning."""
    got = [(one.arbitration_id, bytes(one.data)) for one in CanutilsLogReader(path)]
    wanted = [(int(text, 16), data) for text, data in frames]
    places = {frame: place for place, frame in enumerate(wanted)}
    order = [places.get(frame, -1) for frame in got]
    assert -1 not in order and order == sorted(set(order)), "the logger wrote frames in disorder, twice or changed"
    lost, cut = len(wanted) - len(got), len(re.findall("Invalid Frame: $|Bad data: No opening", warnings, re.M))
    assert lost == cut, f"the logger lost {lost} frames, {cut} of them cut by its reads of 1,024 bytes"


def compare_files(server, frames):
    """Compares the frames with the server's log, as read by python-can's reader and by those readers in can-utils that
    do not need CAN support in the kernel."""
    path = server.path("can0.log")
    with open(path, encoding="ascii") as file:
        lines = [line.split() for line in file]
    assert [(words[1], *words[2].split("#")) for words in lines] == [
        ("can0", text, data.hex().upper()) for text, data in frames
    ], "the log is not the frames sent"
    read = [(one.arbitration_id, one.is_extended_id, bytes(one.data)) for one in CanutilsLogReader(path)]
    assert read == [(int(text, 16), len(text) == 8, data) for text, data in frames], "CanutilsLogReader reads otherwise"
    asc = subprocess.run(["log2asc", "-I", path, "can0"], capture_output=True, text=True, check=True).stdout
    asc = [line.split()[2:3] + line.split()[6:] for line in asc.splitlines() if " Rx " in line]
    wanted = [
        [f"{int(text, 16):X}" + ("x" if len(text) == 8 else ""), *data.hex(" ").upper().split()]
        for text, data in frames
    ]
    assert asc == wanted, "log2asc reads otherwise"
    with open(path, encoding="ascii") as file:
        long = subprocess.run(["log2long"], stdin=file, capture_output=True, text=True, check=True).stdout
    long = [[line.split()[2], *line.split("'")[0].split()[4:]] for line in long.splitlines()]
    assert long == [[text, *data.hex(" ").upper().split()] for text, data in frames], "log2long reads otherwise"


@pytest.mark.quiet
@pytest.mark.skipif(
    not (shutil.which("log2asc") and shutil.which("log2long")), reason="can-utils' log2asc and log2long are missing"
)
def test_player_and_logger():
    """The server's log and record contain the frames that can.player replays, and can.logger logs them until Ctrl-C."""
    with serving("--pace", "0", "--txqueue", "1024", "--rxqueue", "65536", "can0,can1") as server:
        frames = candump_log(server.path("replayed.log"), FRAMES)
        logged = server.path("logged.log")
        socket1 = plain(server, "can1")
        logger = logger_runs(server, logged)
        try:
            player = subprocess.Popen(
                of_can("player", server, "-c", "can0", server.path("replayed.log")),
                stdout=subprocess.DEVNULL,
                stderr=subprocess.PIPE,
                text=True,
            )
            got = [socket1.frame() for _ in frames]
            assert got == frames, "a plain socket does not receive the frames in their order"
            errors = player.communicate(timeout=WAIT)[1]
            assert player.returncode == 0, f"the player: {errors}"
            compare_logger(logged, frames, logger_ends(server, logger))
        finally:
            logger.kill()
        written = server.end()
        compare_files(server, frames)
        entries = server.audited("can0.rec")
        assert written == f"bus can0 entries {entries}\n", written


def test_the_first_session():
    """The first session in examples/python succeeds. The other tests in that folder run with those of the package."""
    with serving("can0,can1") as server:
        words = [sys.executable, os.path.join(ROOT, "examples", "python", "first_session.py"), server.address]
        environment = {**os.environ, "CANBUSD": program()}
        done = subprocess.run(words, env=environment, capture_output=True, text=True, timeout=3 * WAIT, check=False)
    assert done.returncode == 0, done.stderr
