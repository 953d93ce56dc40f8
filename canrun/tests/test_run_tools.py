"""canbusd-run: the tools of can-utils. Their output is compared with can-utils' own formats."""

import contextlib
import re
import signal
import socket
import subprocess
import time

import pytest

from running import (  # noqa: F401
    FAST,
    command,
    environment,
    listening,
    needs,
    none_left,
    passes,
    run,
    server,
    settled,
    started,
    written,
)
from serving import ROOT, come_true, plain, serving, turns

pytestmark = needs("candump", "cansend")


def send(server, *frames, name="can0"):
    for frame in frames:
        assert passes(server, "cansend", name, frame) == ""


def ended(child):
    """Ends a program with Ctrl-C, and returns its output."""
    child.send_signal(signal.SIGINT)
    return child.communicate(timeout=20)[0]


def logged(server, name):
    """Ends the server, and returns the frames in its log."""
    server.end()
    with open(server.path(f"{name}.log"), encoding="utf-8") as log:
        return [line.split(" ", 1)[1] for line in log.read().splitlines()]


def test_cansend():
    """the server's log has the classic frames, 29-bit identifiers, remote frames and FD frames that cansend sends"""
    with serving(*FAST, "can0,can1") as server:
        frames = ["123#", "123#DEADBEEF", "5AA#0011223344556677", "1F334455#11", "00000123#", "123#R", "123#R5"]
        frames += ["213##311223344556677881122334455667788", "123##1AABB", "123##2", "123##0AA"]
        send(server, *frames)
        assert none_left(server)
        assert logged(server, "can0") == [f"can0 {frame}" for frame in frames]


def test_cansend_refused():
    """the error messages for a wrong interface name, a full queue and bus off are those of the kernel"""
    with serving("--pace", "60000", "can0,can1@" + f"{ROOT}/examples/bus_off_attack.script") as server:
        wrong = run(server, "cansend", "can7", "123#")
        assert wrong.returncode == 1 and "No such device" in wrong.stderr, wrong
        note = "canbusd-run: note: the server has no interface can7; it has can0,can1\n"
        assert wrong.stderr.count(note) == 1, wrong
        full = [run(server, "cansend", "can0", "123#") for _ in range(12)][-1]
        assert full.returncode == 1 and full.stderr == "write: No buffer space available\n", full
        server.end()
    with serving("--pace", "0", "can0,can1@" + f"{ROOT}/examples/bus_off_attack.script") as server:
        send(server, "123#")
        assert come_true(lambda: run(server, "cansend", "can0", "123#").stderr == "write: Network is down\n")
        server.end()


def test_candump(server):
    """the lines of candump have the documented formats"""
    with listening(server, "candump", "-n", "4", "can1") as dump:
        send(server, "123#1122", "12345678#01", "123#R", "7FF#0011223344556677")
        # After the first 29-bit identifier, candump indents 11-bit identifiers.
        assert re.sub(" +", " ", written(dump)) == (
            " can1 123 [2] 11 22\n"
            " can1 12345678 [1] 01\n"
            " can1 123 [0] remote request\n"
            " can1 7FF [8] 00 11 22 33 44 55 66 77\n"
        )
    with listening(server, "candump", "-n", "1", "-x", "-e", "-a", "can1") as dump:
        send(server, "123#414243")
        assert written(dump) == "  can1  RX - -  123   [3]  41 42 43                  'ABC'\n"
    with listening(server, "candump", "-n", "1", "can1") as dump:
        send(server, "123##0112233445566778899AABBCC")
        assert written(dump) == "  can1  123  [12]  11 22 33 44 55 66 77 88 99 AA BB CC\n"
    # The digit contains the flags of an FD frame: 1 is the bit rate switch, 2 the error state indicator; 4 marks each
    # FD frame (linux/can.h).
    with listening(server, "candump", "-L", "-n", "3", "can1") as dump:
        send(server, "123##1AABB", "123##3", "123##0AA")
        assert [line.split()[-1] for line in written(dump).splitlines()] == ["123##5AABB", "123##7", "123##4AA"]
    quiet = run(server, "candump", "-T", "300", "can1")
    assert (quiet.returncode, quiet.stdout) == (0, ""), quiet


def test_candump_stamps():
    """every kind of timestamp is the same as in the server's log"""
    with serving(*FAST, "can0,can1") as server:
        with listening(server, "candump", "-L", "-n", "2", "can1") as first, listening(
            server, "candump", "-ta", "-n", "2", "can1"
        ) as second, listening(server, "candump", "-H", "-ta", "-n", "2", "can1") as third:
            send(server, "123#11", "124#22")
            lines = written(first).splitlines()
            absolute = re.findall(r"\((\d+\.\d+)\)", written(second))
            hardware = third.communicate(timeout=20)[0].splitlines()
        server.end()
        with open(server.path("can0.log"), encoding="utf-8") as log:
            expected = log.read().splitlines()
        assert lines == [line.replace("can0", "can1") for line in expected]
        assert absolute == [line[1:].split(")")[0] for line in expected]
        assert len(hardware) == 2, hardware


@pytest.mark.parametrize(
    "words, expected",
    [
        ("can1,123:7FF", ["123", "00000123"]),
        ("can1,123:C00007FF", ["123"]),
        ("can1,00000123:DFFFFFFF", ["00000123"]),
        ("can1,123~7FF", ["124", "7FF"]),
        ("can1,100:700,123~7FF,j", ["124"]),
        (
            "can1," + ",".join(f"{number:03X}:7FF" for number in range(0x100, 0x124)) + ",7FF:7FF",
            ["123", "00000123", "7FF"],
        ),
        ("can1," + ",".join(f"{number:08X}:DFFFFFFF" for number in range(0x100, 0x1C8)), ["00000123"]),
    ],
)
def test_candump_filters(server, words, expected):
    """candump shows only matching frames, and a last frame that always matches; there may be 200 filters"""
    last = "" if "~" in words else ",1AA:7FF"
    with listening(server, "candump", "-L", words + last) as dump:
        send(server, "123#", "124#", "00000123#", "7FF#", "1AA#")
        lines = []
        for line in dump.stdout:
            lines.append(line.split()[-1].split("#")[0])
            if lines[-1] == "1AA":
                break
    assert lines == [*expected, "1AA"]


def test_candump_any(server):
    """candump on all interfaces shows the frames of two buses, including the loopback on the sending interface"""
    with listening(server, "candump", "-L", "any") as dump:
        send(server, "123#01")
        send(server, "124#02", name="vcan0")
        names = sorted(dump.stdout.readline().split(" ", 1)[1] for _ in range(3))
    assert names == ["can0 123#01\n", "can1 123#01\n", "vcan0 124#02\n"]


def test_candump_errors():
    """candump shows bus off and restart as error message frames, in the format of `-L`"""
    script = f"can0,can1@{ROOT}/examples/bus_off_attack.script"
    with serving("--pace", "1", "--auto-restart", "50", script) as server:
        with listening(server, "candump", "-L", "-n", "4", "can0,0~0,#FFFFFFFF") as dump:
            send(server, "123#01")
            classes = [line.split()[-1].split("#")[0] for line in written(dump).splitlines()]
        assert classes == ["20000204", "20000204", "20000040", "20000100"]
        server.end()


def test_candump_log(server, tmp_path):
    """candump -l writes a log file"""
    with listening(server, "candump", "-l", "-n", "2", "can1", cwd=tmp_path) as dump:
        send(server, "123#01", "12345678#02")
        written(dump)
    (path,) = tmp_path.glob("candump-*.log")
    lines = [line.split(" ", 1)[1] for line in path.read_text().splitlines()]
    assert lines == ["can1 123#01", "can1 12345678#02"]


def test_cangen(server, tmp_path):
    """10,000 frames at full speed all arrive, once each and in order"""
    frames = 10_000
    with open(tmp_path / "lines", "w+", encoding="utf-8") as lines:
        with listening(server, "candump", "-L", "-n", str(frames), "can1", stdout=lines) as dump:
            passes(
                server, "cangen", "can0", "-g", "0", "-p", "10", "-I", "123", "-L", "8", "-D", "i", "-n", str(frames)
            )
            written(dump)
        lines.seek(0)
        numbers = [int.from_bytes(bytes.fromhex(line.split("#")[1]), "little") for line in lines]
    assert numbers == list(range(frames))


def test_cangen_kinds(server):
    """cangen generates FD frames, 29-bit identifiers and remote frames; with -i it continues when the queue is full"""
    with listening(server, "candump", "-L", "-n", "30", "can1") as dump:
        passes(server, "cangen", "can0", "-g", "1", "-n", "10", "-f")
        passes(server, "cangen", "can0", "-g", "1", "-n", "10", "-e")
        passes(server, "cangen", "can0", "-g", "1", "-n", "10", "-R")
        lines = [line.split()[-1] for line in written(dump).splitlines()]
    assert all(re.fullmatch(r"[0-9A-F]{3}##4([0-9A-F]{2})*", line) for line in lines[:10]), lines
    assert all(re.fullmatch(r"[0-9A-F]{8}#([0-9A-F]{2})*", line) for line in lines[10:20]), lines
    assert all(re.fullmatch(r"[0-9A-F]{3}#R[0-8]?", line) for line in lines[20:]), lines
    with serving("--pace", "50", "can0,can1") as slow:
        refused = run(slow, "cangen", "can0", "-g", "0", "-n", "50", "-i")
        assert refused.returncode == 0 and re.search(r"Counted \d+ ENOBUFS return values", refused.stdout), refused
        slow.end()


def test_canplayer(server, tmp_path):
    """canplayer replays a log; with --wait it does so even if the queue is short"""
    log = tmp_path / "run.log"
    lines = [f"({number / 1000:.6f}) can0 {number:03X}#{number:04X}" for number in range(1, 101)]
    log.write_text("\n".join(lines) + "\n", encoding="utf-8")
    with serving("--pace", "1", "can0,can1") as short:
        with listening(short, "candump", "-L", "-n", "100", "can1") as dump:
            passes(short, "canplayer", "-I", str(log), "-t", options=["--wait"])
            played = [line.split()[-1] for line in written(dump).splitlines()]
        short.end()
    assert played == [line.split()[-1] for line in lines]
    with listening(server, "candump", "-L", "-n", "100", "can1") as dump:
        passes(server, "canplayer", "-I", str(log), "can0=can0")
        assert len(written(dump).splitlines()) == 100


def test_cansequence(server):
    """one cansequence sends a counter, and another one finds no gap in it"""
    with listening(server, "cansequence", "-r", "-v", "can1") as reader:
        passes(server, "cansequence", "can0", "--loop=300", "-p")
        send(server, "002#FF")  # The next number is 300 & 255.
        output = ""
        for line in reader.stderr:
            output += line
            if "missing" in line:
                break
        ended(reader)
    assert re.search(r"RX:\s+255\s+expected:\s+44\s+missing:\s+211 .* incident: 1$", output), output


def test_canfdtest(server):
    """canfdtest returns each frame with all its bytes incremented by one"""
    with listening(server, "canfdtest", "can1") as dut:
        host = run(server, "canfdtest", "-g", "-l", "200", "can0")
        assert host.returncode == 0 and "Test messages sent and received: 200" in host.stdout + host.stderr, host
        ended(dut)


def test_canbusload(server):
    """canbusload counts frames and bits"""
    with listening(server, "canbusload", "can1@500000") as load:
        for number in range(5):
            send(server, f"{0x100 + number:03X}#1122334455667788")
        assert come_true(
            lambda: any(int(line.split()[1]) > 0 for line in [load.stdout.readline()] if line.startswith(" can1@"))
        )
        ended(load)


def test_cansniffer(server):
    """cansniffer shows the changing data of an identifier"""
    with started(server, "cansniffer", "can1", stdin=subprocess.PIPE) as sniffer:
        settled(sniffer)
        shown = ""
        for number in range(50):
            send(server, f"123#A1B2C3{number:02X}")
            time.sleep(0.05)
            if number % 10 == 9:
                sniffer.stdin.write("\n")
                sniffer.stdin.flush()
        sniffer.stdin.write("q\n")
        sniffer.stdin.flush()
        try:
            shown = sniffer.communicate(timeout=2)[0]
        except subprocess.TimeoutExpired:
            shown = ended(sniffer)
    assert "A1 B2 C3" in re.sub(r"\x1b\[[0-9;]*[A-Za-z]", "", shown), shown[-500:]


def test_canlogserver(server):
    """a client that connects to canlogserver's port receives the log"""
    with started(server, "canlogserver", "-p", "28700", "can1") as logs, contextlib.ExitStack() as ending:
        for _ in turns("it listens"):
            with contextlib.suppress(ConnectionRefusedError):
                client = ending.enter_context(socket.create_connection(("127.0.0.1", 28700), 0.5))
                break
            time.sleep(0.05)
        for _ in turns("a line of the log"):
            send(server, "123#DEADBEEF")
            with contextlib.suppress(TimeoutError):
                line = client.recv(200).split(b"\n")[0]
                break
        assert re.fullmatch(rb"\(\d+\.\d{6}\) can1 123#DEADBEEF", line), line


def test_isotpdump(server):
    """isotpdump shows the protocol's frames, also with a preloaded library that makes it write every line at once"""
    with listening(server, "stdbuf", "-oL", "isotpdump", "-s", "123", "-d", "321", "-c", "can1") as dump:
        send(server, "123#021122", "123#100A112233445566")
        lines = [dump.stdout.readline() for _ in range(2)]
        ended(dump)
    text = re.sub(r"\x1b\[[0-9;]*m", "", "".join(lines))
    assert "[SF] ln: 2" in text and "[FF] ln: 10" in text, text


@needs("isotpsend", "isotprecv")
@pytest.mark.parametrize(
    "sending, receiving, length",
    [
        (["-s", "123", "-d", "321"], ["-s", "321", "-d", "123"], 5),
        (["-s", "123", "-d", "321"], ["-s", "321", "-d", "123", "-b", "4", "-m", "1"], 3000),
        (["-s", "12345678", "-d", "123", "-p", "AA"], ["-s", "123", "-d", "12345678", "-p", "55"], 200),
        (["-s", "123", "-d", "321", "-x", "E0"], ["-s", "321", "-d", "123", "-x", "E0", "-b", "2"], 50),
        (["-s", "123", "-d", "321", "-L", "72:64:0"], ["-s", "321", "-d", "123", "-L", "72:64:0"], 300),
    ],
)
def test_isotp(server, sending, receiving, length):
    """isotpsend and isotprecv transfer single frames, blocks, 29-bit identifiers with padding, extended addresses and
    FD frames"""
    text = " ".join(f"{number * 7 % 256:02X}" for number in range(length))
    with listening(server, "isotprecv", *receiving, "can1") as receiver:
        passes(server, "isotpsend", *sending, "can0", input=text + "\n")
        assert written(receiver).split() == text.split()


@needs("isotpsend", "isotprecv")
def test_isotp_bus_off(tmp_path):
    """an ISO-TP message whose frames are lost fails with ECOMM 2 seconds after the last frame, although the server
    accepted all frames"""
    script = tmp_path / "off.script"
    script.write_text("next 32 from ecu skip 3 global bit\n", encoding="utf-8")
    with serving("--pace", "1", f"ecu,tester@{script}") as server:
        with listening(server, "isotprecv", "-s", "321", "-d", "123", "tester"):
            sent = run(server, "isotpsend", "-b", "-D", "60", "-s", "123", "-d", "321", "ecu")
        assert (sent.returncode, sent.stderr) == (255, "write: Communication error on send\n"), sent
        server.end()


@needs("isotpsend", "isotprecv", "cangen")
@pytest.mark.quiet
@pytest.mark.parametrize("is_busy", [False, True], ids=["idle", "busy"])
def test_isotp_stmin(is_busy):
    """the requested pause between two frames of a message lasts from the end of the first on the bus to the start of
    the second, even if other nodes send"""
    with serving("--bitrate", "50000", "ecu,tester,other") as server, contextlib.ExitStack() as ending:
        receiver = ending.enter_context(
            listening(server, "isotprecv", "-s", "321", "-d", "123", "-m", "0A", "tester", stdout=subprocess.PIPE)
        )
        if is_busy:  # Bursts of 23 ms win arbitration; only a pause between bursts lets other frames pass.
            ending.enter_context(
                started(server, "cangen", "-g", "40", "-c", "10", "-I", "100", "-L", "8", "other", options=["--wait"])
            )
        passes(server, "isotpsend", "-b", "-D", "60", "-s", "123", "-d", "321", "ecu")
        assert len(written(receiver).split()) == 60
        ending.close()
        server.end()
        with open(server.path("ecu.log"), encoding="utf-8") as log:
            frames = re.findall(r"^\((\d+\.\d+)\) ecu 123#(2\w+)", log.read(), re.M)
        ends = [float(end) for end, _ in frames]
        # A frame has 44 bits and its data, without counting stuff bits. The last frame has 6 data bytes, and the others
        # have 8.
        least = [0.010 + (44 + 4 * len(data)) / 50_000 for _, data in frames]
        gaps = [after - end for end, after in zip(ends, ends[1:])]
        assert len(ends) == 8 and all(gap >= short - 1e-6 for gap, short in zip(gaps, least[1:])), (gaps, least)
        record = server.path("ecu.rec")
        with open(record, encoding="utf-8") as entries:
            assert is_busy or "no buffers" not in entries.read()


def test_canplayer_log_with_faults(tmp_path):
    """canplayer replays a server's own log with error message frames to its end: writes of these frames succeed, and a
    note says that they are not sent"""
    log = "(0.000001) can0 123#01\n(0.000002) can0 20000080#0000000000000000\n(0.000003) can0 124#02\n"
    (tmp_path / "faults.log").write_text(log, encoding="utf-8")
    with serving(*FAST, "can0,can1") as server:
        played = run(server, "canplayer", "-t", "-I", str(tmp_path / "faults.log"))
        assert (played.returncode, played.stdout) == (0, ""), played
        assert played.stderr == (
            "canbusd-run: note: error message frames that are written go nowhere: the server makes its own\n"
        )
        assert logged(server, "can0") == ["can0 123#01", "can0 124#02"]


#: How often to run a test that would fail if a program hung. The slow variant runs as often as --cases says.
few_and_many = pytest.mark.parametrize("runs", [10, pytest.param(0, marks=pytest.mark.slow)], ids=["few", "many"])


@few_and_many
@needs("cangen")
@pytest.mark.parametrize("places", ["1", "10"])
def test_wait_never_hangs(places, runs, cases):
    """with --wait a program that sends 1,000 frames always finishes, although it often finds the queue full"""
    words = ["cangen", "-g", "0", "-n", "1000", "can0"]
    with serving("--pace", "0", "--txqueue", places, "--record", "none", "can0,can1") as server:
        for _ in range(runs or cases):
            ended = run(server, *words, options=["--wait"])
            assert (ended.returncode, ended.stderr) == (0, ""), ended
        server.end()


def refused_sends(server):
    """Returns how many sends were refused because a queue was full."""
    client = plain(server, "can0")
    for text in iter(lambda: client.answer("< stats >"), ""):
        if text.startswith("< stats "):
            client.close()
            return int(text.split()[9])
    raise AssertionError("no counts")


def refused_without_cause(record):
    """Returns the sends that were refused although no other socket had sent a frame since the socket's previous
    refusal. After a refusal a waiting write watches the queue, and sends when there is room. So it is refused again
    only if another socket was faster."""
    found, overtaken = [], {}
    with open(record, encoding="utf-8") as entries:
        sends = re.findall(r"^send (\d+) \S+ = (no-buffers|number)", entries.read(), re.M)
    for number, (socket, result) in enumerate(sends):
        if result == "number":
            overtaken.update(dict.fromkeys(overtaken.keys() - {socket}, True))
        else:
            found += [number] if not overtaken.get(socket, True) else []
            overtaken[socket] = False
    return found


@needs("cangen")
@pytest.mark.parametrize("options", [(), ("--txqueue", "1"), ("--bitrate", "500000")], ids=["10", "1", "bit rate"])
def test_waits_are_not_refused(options):
    """a waiting write is sent when there is room. If there is only one writer, only its first write that finds no room
    is refused. With several writers, a write is also refused if another one has taken its room"""
    words = ["cangen", "-g", "0", "-n", "300", "-L", "8", "can0"]
    with serving(*options, "can0,can1") as server:
        for _ in range(2):
            before = refused_sends(server)
            assert run(server, *words, options=["--wait"]).returncode == 0
            assert refused_sends(server) - before <= 1
        with contextlib.ExitStack() as end:
            for child in [end.enter_context(started(server, *words, options=["--wait"])) for _ in range(3)]:
                assert child.wait(60) == 0
        server.end()
        assert not refused_without_cause(server.path("can0.rec"))


@few_and_many
@needs("cangen", "isotpsend", "isotprecv")
def test_isotp_full_queue(runs, cases):
    """without --wait, sending an ISO-TP message never hangs, even if other programs keep the queue full: it succeeds or
    fails"""
    with serving(
        "--pace", "0", "--txqueue", "1", "--record", "none", "can0,can1"
    ) as server, contextlib.ExitStack() as end:
        end.enter_context(started(server, "cangen", "-g", "0", "-i", "-I", "100", "can0", stdout=subprocess.DEVNULL))
        end.enter_context(
            started(server, "isotprecv", "-l", "-s", "321", "-d", "123", "can1", stdout=subprocess.DEVNULL)
        )
        for _ in range(runs or cases):
            sent = run(server, "isotpsend", "-b", "-D", "20", "-s", "123", "-d", "321", "can0", patience=60)
            assert sent.stderr in (
                "",
                "write: Communication error on send\n",
                "write: No buffer space available\n",
            ), sent
        end.close()
        server.end()


@needs("isotpperf", "isotpsend", "isotprecv")
def test_isotpperf(server):
    """isotpperf measures a message between two other programs"""
    with listening(server, "stdbuf", "-oL", "isotpperf", "-s", "123", "-d", "321", "vcan0") as perf:
        with listening(server, "isotprecv", "-s", "321", "-d", "123", "vcan0") as receiver:
            passes(server, "isotpsend", "-s", "123", "-d", "321", "vcan0", input="11 " * 100 + "\n")
            assert len(written(receiver).split()) == 100
        for _ in turns("the message is measured"):
            shown = perf.stdout.read(1)
            while not shown.endswith(("\r", "\n")):
                shown += perf.stdout.read(1)
            if "100 byte in" in shown:
                break


@needs("bcmserver")
def test_bcmserver(server, fixed_ports):
    """bcmserver accepts commands for a cyclic frame and for a content filter at its port"""
    with started(server, "bcmserver") as running, contextlib.ExitStack() as ending:
        for _ in turns("it listens"):
            if running.poll() is not None:
                pytest.skip("another bcmserver has its port")
            with contextlib.suppress(ConnectionRefusedError):
                client = ending.enter_context(socket.create_connection(("127.0.0.1", 28600), 20))
                break
            time.sleep(0.05)
        with listening(server, "candump", "-L", "-n", "3", "can1") as dump:
            client.sendall(b"< can0 A 0 20000 123 2 AB CD >")
            assert [line.split()[-1] for line in written(dump).splitlines()] == ["123#ABCD"] * 3
        client.sendall(b"< can0 D 0 0 123 0 >< can0 R 0 0 222 1 FF >")
        said = ""
        for number in range(1000):
            send(server, f"222#{number // 20 % 256:02X}", name="can1")
            client.settimeout(0.1)
            with contextlib.suppress(TimeoutError):
                said += client.recv(200).decode()
            if said.count(">") >= 2:
                break
        assert re.search(r"< can0 222 1 00 >.*< can0 222 1 01 >", said), said
