"""The class Server: how it starts, how it ends, and which files it leaves."""

import errno
import fcntl
import multiprocessing
import os
import re
import shutil
import signal
import subprocess
import sys
import threading
import time
from pathlib import Path

import can
import pytest
from common import WAIT, message, needs_live, shape
from on_wire import nanos_of

import canbusd
from canbusd import Load
from canbusd._process import lock_file
from canbusd._process.program import find_program
from canbusd._process.program_run import NUMBERS
from canbusd._session.protocol import NO_FRAMES
from canbusd.faults import Faults
from canbusd.server import Server, ServerError

CLONE = Path(__file__).resolve().parents[2]


def send_one(server, channel="can0", other="can1"):
    """Sends a frame from one interface to the other."""
    with server.bus(channel) as sender, server.bus(other) as receiver:
        sender.send(message(0x123, b"\x11\x22"))
        assert receiver.recv(WAIT).arbitration_id == 0x123


def test_what_a_server_leaves(tmp_path):
    with Server("can0,can1", "car0,car1", faults={"can0,can1": Faults().last_bit(0)}, out=tmp_path) as server:
        send_one(server)
        send_one(server, "car1", "car0")
    result = server.stop()
    assert result == server.stop()
    assert (result.status, list(result.entries)) == (0, ["can0", "car0"])
    left = {"can0.log", "can0.rec", "can0.rec.faults", "car0.log", "car0.rec"}
    assert {path.name for path in tmp_path.iterdir()} == left
    # After a fault in the last bit, the sender repeats a frame that the receiver has already accepted.
    assert [(one.channel, one.arbitration_id) for one in server.log("can1")] == [("can0", 0x123)] * 2
    assert [attempt.outcome for attempt in server.record("can0").attempts] == ["lastbit", "done"]
    assert [(one.channel, bytes(one.data)) for one in server.log("car0")] == [("car1", b"\x11\x22")]
    assert server.record("car1").names == ("car0", "car1")
    assert server.audit() == {name: f"ok {count} entries" for name, count in result.entries.items()}
    page = server.report("can1")
    assert page == tmp_path / "can0.html"
    assert page.read_text(encoding="utf-8").startswith("<!DOCTYPE html>")
    with pytest.raises(ValueError, match="^name .* one of can0, can1, car0, car1, not 'can7'$"):
        server.log("can7")


def test_the_log_has_all_kinds_of_frames(server):
    sent = [
        message(0x123, is_remote_frame=True, dlc=4), message(0x12345, b"\x01", extended=True),
        message(0x7FF, bytes(12), is_fd=True), message(1),
    ]  # fmt: skip
    with server.bus("can0", fd=True) as can0, server.bus("can1", fd=True) as can1:
        can0.send_many(sent)
        while shape(can1.recv(WAIT)) != shape(sent[-1]):
            pass
    assert [shape(one) for one in server.log()] == [shape(one) for one in sent]


def test_the_log_has_a_frame_for_each_kind_of_fault():
    with Server("can0,can1", faults=Faults().destroyed(0), ack="peers") as server:
        send_one(server)
    # BUSERROR.
    destroyed, done = server.log()
    assert shape(destroyed) == (0x080, bytes(8), 8, False, False, True, False)
    assert done.arbitration_id == 0x123


@pytest.mark.parametrize("form", ["path", "text", "faults", "dict"])
def test_ways_to_give_faults(tmp_path, form):
    faults = Faults().destroyed(range(3))
    (tmp_path / "script").write_text(str(faults))
    given = {"path": tmp_path / "script", "text": str(faults), "faults": faults, "dict": {"can0": faults}}[form]
    with Server("can0,can1", faults=given) as server:
        send_one(server)
    assert [attempt.outcome for attempt in server.record().attempts] == [*["destroyed"] * 3, "done"]


@pytest.mark.parametrize(
    "buses, options, name",
    [
        ([], {}, "buses"),
        ([["can0", "can1"]], {}, "buses"),
        (["can0,can1", "can0,can2"], {}, "buses"),
        (["can0", "can1,can0"], {}, "buses are of different interfaces, and two have 'can0'"),
        ([str(number) for number in range(17)], {}, "buses are 1 to 16"),
        (["can0,can0"], {}, "names of a bus's interfaces are different, and 'can0,can0' has 'can0' twice"),
        (["can 0"], {}, "names .* 'can,0', not 'can 0'"),
        (["can0 can1"], {}, "joined by commas without spaces, 'can0,can1', not 'can0 can1'"),
        (["can0,"], {}, "names .* not '', as in 'can0,'"),
        (["k\N{LATIN SMALL LETTER U WITH DIAERESIS}che"], {}, "names .* 1 to 15 ASCII letters, digits, _, - and .,"),
        (["a123456789012345"], {}, "names .* not 'a123456789012345'"),
        ([",".join(f"can{number}" for number in range(17))], {}, "names .* 1 to 16, .* has 17"),
        (["can0"], {"out": "/no/such/folder"}, "out"),
        (["can0", "can1"], {"faults": Faults()}, "faults"),
        (["can0"], {"faults": {"can1": Faults()}}, "faults"),
        (["can0"], {"faults": 0}, "faults"),
        (["can0"], {"ack": "nobody"}, "ack"),
        (["can0"], {"pace_ms": -1}, "pace_ms"),
        (["can0"], {"pace_ms": 0.5}, "pace_ms"),
        (["can0"], {"write_bytes": 255}, "write_bytes"),
        (["can0"], {"bitrate": 4999}, "bitrate"),
        (["can0"], {"dbitrate": 500_000}, "data_bitrate=500000 needs a bitrate too"),
        (["can0"], {"bitrate": 500_000, "data_bitrate": 499_999}, "data_bitrate=499999 is below bitrate=500000"),
        (["can0"], {"data_bitrate": 500_000, "dbitrate": 600_000}, "are one argument, not 500000 and 600000"),
        (["can0"], {"bitrate": {"can1": 500_000}}, "bitrate is by interfaces, which are can0, not by 'can1'"),
        (["can0,can1"], {"bitrate": {"can0": 5_000, "can1": 5_000}}, "bitrate has two values for the bus 'can0,can1'"),
        (["can0"], {"bitrate": {"can0": 5_000, None: 4_999}}, "bitrate is .*, not 4999"),
        (["can0"], {"bitrate": {"can0": None}}, "bitrate is .*, not None"),
        (["a", "b"], {"bitrate": {"a": 5_000}, "dbitrate": {"b": 5_000}}, "data_bitrate=5000 needs a bitrate too"),
        (["a", "b"], {"bitrate": {"a": 5_000}, "dbitrate": 5_000}, "data_bitrate=5000 needs a bitrate too"),
        (["a", "b"], {"bitrate": {"a": 5_001, None: 5_000}, "dbitrate": 5_000}, "5000 is below bitrate=5001"),
        (["can0"], {"txqueue": "10"}, "txqueue"),
        (["can0"], {"limit": True}, "limit"),
        (["can0"], {"listen": "x"}, "listen is HOST:PORT, .* not 'x'"),
        (["can0"], {"listen": 29536}, r"listen is HOST:PORT, .* not '29536' \(127\.0\.0\.1:29536\?\)$"),
        (["can0"], {"listen": ":29536"}, r"not ':29536' \(127\.0\.0\.1:29536\?\)$"),
        (["can0"], {"listen": "can.sock"}, r"not 'can\.sock' \(\./can\.sock\?\)$"),
        (["can0"], {"listen": "127.0.0.1:65536"}, "listen is HOST:PORT"),
    ],
)
def test_a_wrong_argument_is_named(buses, options, name):
    with pytest.raises(ValueError, match=name):
        Server(*buses, **options)


@pytest.mark.parametrize(
    "buses, options, said",
    [
        (["can0"], {"faults": "0 bad\n"}, "script line 1: bad line"),
        (["can0"], {"faults": "0 local crc can1\n"}, "unknown interface"),
        (["can0"], {"listen": "/no/such/folder/socket"}, "cannot listen"),
    ],
)
def test_a_start_that_fails_says_why(buses, options, said):
    with pytest.raises(ServerError, match=said):
        Server(*buses, **options)


@pytest.mark.parametrize("name", [pytest.param(name, marks=needs_live if name == "flush" else ()) for name in NUMBERS])
def test_the_limits_of_numbers_are_those_of_the_program(name, tmp_path):
    option, least, most, _ = NUMBERS[name]
    more = {"flush": {"record": "live"}, "data_bitrate": {"bitrate": least}}.get(name, {})
    for number, is_taken in ((least - 1, False), (least, True), (most, True), (most + 1, False)):
        words = [find_program(), "serve", "--until-eof", "--listen", "127.0.0.1:0", "--out", tmp_path]
        words += [f"--{option}={value}" for option, value in more.items()]
        done = subprocess.run(
            [*words, f"{option}={number}", "can0"], stdin=subprocess.DEVNULL, capture_output=True, check=False
        )
        assert (done.returncode == 0) is is_taken, done.stderr
        if not is_taken:
            with pytest.raises(ValueError, match=name):
                Server("can0", **more, **{name: number})


def test_names_at_their_limits():
    buses = [",".join(f"{letter}{number:02}-_.ABCDEFGHz" for number in range(16)) for letter in "abcdefghijklmnop"]
    with Server(*buses, listen="localhost:0") as server:
        assert len(server.interfaces) == 256 and not server.address.endswith(":0")


def test_a_port_in_use(server):
    with pytest.raises(ServerError, match="cannot listen"):
        Server("can0", listen=server.address)


def test_interfaces_that_there_are(server):
    with pytest.raises(can.CanInitializationError, match="^can7: no such interface; the server has can0, can1$"):
        server.bus("can7")
    server.log()
    with pytest.raises(can.CanInitializationError, match=r"^can0: the server has ended; .*log\(\), record\(\)"):
        server.bus("can0")


def test_spaces_between_names_are_named():
    with pytest.raises(ValueError, match="^names .* commas without spaces, 'can0,can1', not 'can0, can1'$"):
        Server("can0, can1")


def test_no_program(monkeypatch):
    monkeypatch.setenv("CANBUSD", "/no/such/program")
    with pytest.raises(FileNotFoundError, match="CANBUSD"):
        Server("can0")


def test_the_program_of_the_clone(monkeypatch):
    monkeypatch.delenv("CANBUSD")
    monkeypatch.setattr(
        "canbusd._process.program.__file__", str(CLONE / "python" / "src" / "canbusd" / "_process" / "program.py")
    )
    assert find_program() == str(CLONE / "canbusd")


def test_the_program_of_the_package(installed, tmp_path):
    environment = {name: value for name, value in installed.items() if name != "CANBUSD"}
    program = "from canbusd._process.program import find_program; print(find_program())"
    found = subprocess.check_output([sys.executable, "-c", program], env=environment, cwd=tmp_path, text=True)
    assert found.endswith("/target/canbusd/program/canbusd\n")


def test_the_options_reach_the_program():
    with Server("can0,can1", txqueue=3, pace_ms=60000, rxqueue=1, auto_restart=7, limit=500, report=True) as server:
        with server.bus("can0") as can0:
            assert can0.window == 3
            can0.send(message(1))
            while can0.stats().waiting:
                pass
            can0.send_many([message(1)] * 3)
            with pytest.raises(can.CanOperationError) as refused:
                can0.send(message(1))
            assert refused.value.error_code == errno.ENOBUFS
    record = server.record()
    assert (record.tx_capacity, record.auto_restart, record.limit, record.reporting) == (3, 7, 500, 3)


def follows(moments, lasts):
    """Returns whether the gaps between the timestamps are these numbers of microseconds, apart from rounding. Larger
    gaps are allowed, because a server that is more than 0.1 seconds late skips the missed time."""
    gaps = [after - before for before, after in zip(moments, moments[1:])]
    return all(0 <= gap - span <= 1 or gap - span > 100_000 for gap, span in zip(gaps, lasts))


def test_the_bit_rates_reach_the_program(caplog):
    frames = [message(1, b"\x55" * 4), message(2, bytes(64), is_fd=True, bitrate_switch=True), message(3)]
    with Server("can0,can1", bitrate=5_000, dbitrate=20_000) as server:
        rates = {"bitrate": 5_000, "data_bitrate": 20_000}
        with server.bus("can0", fd=True, **rates) as can0, server.bus("can1", fd=True) as can1:
            can0.send_many(frames)
            received = [can1.recv(WAIT) for _ in frames]
        assert not caplog.records
        server.bus("can0", bitrate=500_000).shutdown()
        assert caplog.messages == ["can0: bitrate 500000 is left out: that of the server is 5000"]
    attempts = server.record().attempts
    times = [nanos_of(attempt.frame, 5_000, 20_000) for attempt in attempts]
    moments = [round(one.timestamp * 1_000_000) for one in attempts]
    assert moments == [round(one.timestamp * 1_000_000) for one in received]
    lasts = [(before[1] - before[0] + after[0]) // 1000 for before, after in zip(times, times[1:])]
    assert len(lasts) == 2 and follows(moments, lasts), (moments, lasts)
    # The page shows the bus load.
    assert "loadIn" in server.report().read_text(encoding="utf-8")


def test_each_bus_has_bit_rates_of_its_own():
    """The bit rate of a bus is given by the name of any of its interfaces. The key None stands for all other buses. If
    no rate applies to a bus, the bus has no bit rate."""
    frame, frames = message(1, b"\x55" * 4), 3
    rates = {"bitrate": {"body1": 5_000, "can0": 50_000}, "data_bitrate": {"can0": 500_000}}
    with Server("can0,can1", "body0,body1", "lin0,lin1", **rates) as server:
        buses = [server.bus(name) for name in server.interfaces]
        assert [(one.load().bitrate, one.load().data_bitrate) for one in buses[::2]] == [
            (50_000, 500_000),
            (5_000, 5_000),
            (0, 0),
        ]
        for sender, receiver in zip(buses[::2], buses[1::2]):
            sender.send_many([frame] * frames)
            assert all(receiver.recv(WAIT) for _ in range(frames))
        for bus in buses:
            bus.shutdown()
    for name, rate in (("can0", 50_000), ("body0", 5_000)):
        moments = [round(one.timestamp * 1_000_000) for one in server.record(name).attempts]
        lasts = nanos_of(server.record(name).attempts[0].frame, rate)[1] // 1000
        assert follows(moments, (frames - 1) * [lasts]), moments
        assert "loadIn" in server.report(name).read_text(encoding="utf-8")
    assert "loadIn" not in server.report("lin0").read_text(encoding="utf-8")


def test_a_number_for_all_others():
    with Server("can0", "can1,can2", "can3", bitrate={None: 500_000, "can2": 125_000}) as server:
        loads = []
        for name in server.interfaces:
            with server.bus(name) as bus:
                loads.append(bus.load().bitrate)
    assert loads == [500_000, 125_000, 125_000, 500_000]


def test_the_load_of_a_bus():
    """The load of a full bus is 100 %, and that of an idle bus is 0 %. The bits of intermission after a frame are
    counted too."""
    frame, size = message(1, bytes(8)), 500
    with Server("can0,can1", "car0", bitrate=50_000, txqueue=size) as server:
        with server.bus("can0") as can0, server.bus("can1", can_filters=NO_FRAMES) as can1, server.bus("car0") as car0:

            def is_full():
                can0.send_many([frame] * (size - can0.stats().waiting), timeout=WAIT)
                return can0.load().permille >= 990

            assert can0.load() == car0.load() == Load(0, 0, 50_000, 50_000)
            server.wait_for(is_full, timeout=WAIT)
            assert can1.load().permille >= 990 and can1.load().micros >= 990_000
            assert car0.load() == Load(0, 0, 50_000, 50_000)
            server.wait_for(lambda: can0.stats().waiting == 0 and can0.load().permille == 0, timeout=WAIT)
            load, done = can0.load(), can0.stats().done
        lasts = nanos_of("001#0000000000000000", 50_000)[1]
        assert load == Load(0, done * lasts // 1000, 50_000, 50_000)


def test_without_a_bit_rate_there_is_no_load():
    with Server("can0,can1") as server, server.bus("can0") as can0, server.bus("can1") as can1:
        can0.send_many([message(1)] * 10)
        assert [can1.recv(WAIT) for _ in range(10)]
        assert can0.load() == Load(0, 0, 0, 0)


def test_what_a_server_says_of_a_full_record():
    with Server("can0,can1", limit=4, observe=()) as server, server.bus("can0") as can0:
        cure = r"record full: start the server again with a higher limit= \(--limit\), or with record='live' .*$"
        with pytest.raises(can.CanOperationError, match=f"^{cure}"):
            for _ in range(10):
                can0.send(message(1), timeout=WAIT)
        with pytest.raises(can.CanInitializationError, match=f"^canbusd: channel 'can1' .*: {cure}"):
            server.bus("can1")
    assert "record full" in server.said


class UntilFull:
    """A clock for deadlines that does not advance until the record of a server is full."""

    sleep = staticmethod(time.sleep)

    def __init__(self, server):
        self._server = server

    def monotonic(self):
        return 1000.0 if "record full" in self._server.said else 0.0


@pytest.mark.parametrize("sends", ["one", "many"])
def test_a_record_that_fills_while_a_send_waits(monkeypatch, sends):
    """If no node acknowledges a frame, no frame leaves the queue, and every attempt adds an entry to the record. The
    record fills up while the counts stay the same."""
    with Server("can0", ack="peers", limit=300, txqueue=2, observe=()) as server, server.bus("can0") as can0:
        clock = UntilFull(server)
        monkeypatch.setattr("canbusd._session.raw_session.time", clock)
        monkeypatch.setattr("canbusd._session.raw_session.seconds_until", lambda end: max(0.0, end - clock.monotonic()))
        with pytest.raises(can.CanOperationError, match="^record full.*: start the server again with a higher limit="):
            if sends == "one":
                for number in range(3):
                    can0.send(message(number), timeout=WAIT)
            else:
                can0.send_many([message(number) for number in range(3)], WAIT)


def test_what_is_expected_where_the_record_is_full():
    """No frame can be sent once the record is full. So an expectation fails with `record full`, not because of a
    missing frame."""
    with Server("can0,can1", limit=60) as server, server.bus("can0") as can0:
        with pytest.raises(can.CanOperationError, match="^record full"):
            for _ in range(60):
                can0.send(message(1), timeout=WAIT)
        cure = r"record full: start the server again with a higher limit= \(--limit\), or with record='live' "
        server.wait_for(lambda: "record full" in server.said, timeout=WAIT)
        for call in (
            lambda: server.expect(2, within=0),
            lambda: server.expect_cyclic(1, 5, 5, count=60, within=0),
            lambda: server.expect_sequence(2, within=0),
            lambda: server.expect_no_frame(2, within=0),
            lambda: server.expect_no_change(1, within=0),
        ):
            # The session may already have received this error and been closed.
            with pytest.raises((AssertionError, can.CanError), match=cure):
                call()


def test_of_several_buses_one_has_to_be_named():
    with Server("can0,can1", "gwa,gwb") as server:
        for call, example in (
            (lambda: server.inject("next 1 lastbit"), "inject(faults, 'gwa')"),
            (server.rules_left, "rules_left('gwa')"),
            (server.end_rules, "end_rules('gwa')"),
            (server.log, "'gwa'"),
        ):
            with pytest.raises(ValueError) as fault:
                call()
            assert str(fault.value) == f"the server has 2 buses: name an interface, as {example}"
        server.inject("next 1 lastbit", "gwb")
        assert (server.rules_left("gwa"), server.rules_left("can1")) == (1, 0)


def test_a_server_that_is_killed_leaves_nothing(tmp_path):
    with Server("can0,can1", out=tmp_path) as server:
        assert server.kill().status == -signal.SIGKILL
    assert server.stop() == (-signal.SIGKILL, {})
    assert list(tmp_path.iterdir()) == []


def test_a_lock_file_that_is_let_go_a_moment_later(tmp_path, monkeypatch):
    """The launcher may be ended by the same signal before its server ends. The lock file is removed even then."""
    monkeypatch.setattr(lock_file, "CLOSING", WAIT)
    file = (tmp_path / lock_file.NAME).open("wb")
    fcntl.flock(file, fcntl.LOCK_EX)
    threading.Timer(0.1, file.close).start()
    lock_file.remove_left(tmp_path)
    assert list(tmp_path.iterdir()) == []
    lock_file.remove_left(tmp_path / "none")


def test_the_lock_file_of_another_server(tmp_path):
    """The lock file of a running server is not removed, and neither is a link or a file that is not empty."""
    lock = tmp_path / lock_file.NAME
    with Server("can0", out=tmp_path):
        with pytest.raises(ServerError, match="another server writes to it"):
            Server("can0", out=tmp_path)
        assert lock.exists()
    assert not lock.exists()
    lock.write_text("of the user\n")
    lock_file.remove_left(tmp_path)
    assert lock.read_text() == "of the user\n"
    lock.rename(tmp_path / "other")
    lock.symlink_to("other")
    lock_file.remove_left(tmp_path)
    assert lock.is_symlink() and lock.read_text() == "of the user\n"


def test_a_server_that_others_kill_is_a_fault():
    with pytest.raises(ServerError, match="status -9"), Server("can0,can1") as server:
        os.killpg(server._child.pid, signal.SIGKILL)


def test_the_fault_of_a_test_is_not_hidden():
    with pytest.raises(KeyError), Server("can0,can1"):
        raise KeyError


def test_files_and_processes_are_gone_in_the_end():
    before = set(os.listdir("/proc/self/fd"))
    server = Server("can0,can1")
    folder = server._folder
    server.stop()
    assert set(os.listdir("/proc/self/fd")) == before
    assert folder.exists()
    del server
    assert not folder.exists()


@pytest.mark.parametrize("how", ["os.kill(os.getpid(), 9)", "raise KeyboardInterrupt"])
@pytest.mark.parametrize("observe, entries", [((), 0), (None, 8)])
def test_the_end_of_its_process_ends_a_server(tmp_path, how, observe, entries):
    """A server ends when the process that started it ends. Each of the two observing sessions adds four entries to the
    record: an open, two options and a close."""
    (tmp_path / "out").mkdir()
    program = f"""
import os
from canbusd.server import Server
server = Server("can0,can1", out={str(tmp_path / 'out')!r}, observe={observe!r})
{how}
"""
    package = str(Path(canbusd.__file__).parents[1])
    environment = {**os.environ, "PYTHONPATH": package, "TMPDIR": str(tmp_path)}
    subprocess.run([sys.executable, "-c", program], env=environment, capture_output=True, timeout=WAIT, check=False)
    # The server ends by itself, and writes its log and its record.
    record = tmp_path / "out" / "can0.rec"
    for _ in range(WAIT * 100):
        if record.exists() and record.read_text().endswith(f"end {entries}\n"):
            break
        time.sleep(0.01)
    else:
        pytest.fail("it still runs")


def test_a_forked_process_keeps_no_server_from_its_end(tmp_path):
    context = multiprocessing.get_context("fork")
    with Server("can0,can1", out=tmp_path) as server:
        release = context.Event()
        child = context.Process(target=release.wait, args=(WAIT,), daemon=True)
        child.start()
        assert server.stop().status == 0
        assert child.is_alive()
        release.set()
        child.join(WAIT)


# The code that a forked process runs. The keys describe what the process does.
FORKED = {
    "it exits": "sys.exit()",
    "it raises": "raise KeyError",
    "it stops it": "server.stop()",
    "it kills it": "server.kill()",
    "it audits it": "server.audit()",
    "its block ends": "with server: sys.exit()",
    "it drops it": "del server; gc.collect(); os._exit(0)",
    "it drops a bus": "bus.shutdown(); os._exit(0)",
}


# A bench has no kill(), and no separate bus objects.
OF_A_SERVER = ("it kills it", "it drops a bus")


@pytest.mark.parametrize(
    "does, run",
    [(does, run) for does in FORKED for run in ("server", "bench") if run == "server" or does not in OF_A_SERVER],
)
def test_a_forked_process_leaves_the_run_to_its_parent(does, run):
    program = f"""
import gc, os, sys
import can
from canbusd import Bench, Server
if {run!r} == "server":
    server = Server("can0,can1")
    bus = server.bus("can0")
else:
    server = Bench("can0,can1")
if os.fork() == 0:
    {FORKED[does]}
os.wait()
if {run!r} == "server":
    bus.send(can.Message(arbitration_id=0x123, is_extended_id=False))
    assert bus.stats().sent == 1
    bus.shutdown()
else:
    server.open("can0").send(0x123)
    assert server.attempt().outcome == "done"
server.stop()
assert len(server.log()) == 1
assert len(os.listdir(server._folder)) > 1
print("of one piece")
"""
    environment = {**os.environ, "PYTHONPATH": str(Path(canbusd.__file__).parents[1])}
    done = subprocess.run(
        [sys.executable, "-c", program], env=environment, capture_output=True, text=True, timeout=WAIT, check=False
    )
    assert done.stdout == "of one piece\n", done.stderr
    if does in ("it stops it", "it kills it", "it audits it"):
        assert re.search(r"RuntimeError: this (Server|Bench) belongs to process \d+, ", done.stderr)


def test_a_server_that_many_threads_stop(server):
    faults, results = [], []

    def stop():
        try:
            results.append(server.stop())
        except Exception as fault:
            faults.append(fault)

    send_one(server)
    threads = [threading.Thread(target=stop) for _ in range(10)]
    for thread in threads:
        thread.start()
    for thread in threads:
        thread.join(WAIT)
    assert faults == []
    assert results == [server.stop()] * 10


@pytest.fixture
def launcher(tmp_path):
    """The bin/ folder of an installation. Its script starts the program, the launcher of servers, and the Python
    commands."""
    place = tmp_path / "libexec" / "canbusd"
    place.mkdir(parents=True)
    (tmp_path / "bin").mkdir()
    shutil.copy(CLONE / "tools" / "canbusd.sh", tmp_path / "bin" / "canbusd")
    (tmp_path / "bin" / "canbusd").chmod(0o755)
    (place / "canbusd").symlink_to(find_program())
    for name in ("serve", "commands"):
        (place / name).symlink_to(CLONE / "tools" / name)
    return tmp_path / "bin"


@pytest.mark.parametrize("found_by", ["variable", "path"])
def test_the_launcher(launcher, monkeypatch, found_by):
    if found_by == "variable":
        monkeypatch.setenv("CANBUSD", str(launcher / "canbusd"))
    else:
        monkeypatch.delenv("CANBUSD")
        monkeypatch.setenv("PATH", str(launcher), prepend=os.pathsep)
        monkeypatch.setattr("canbusd._process.program.__file__", "/canbusd/_process/program.py")
    assert find_program() == str(launcher / "canbusd")
    with Server("can0,can1") as server:
        send_one(server)
    assert server.stop().status == 0
    assert [one.arbitration_id for one in server.log()] == [0x123]
    assert server.audit() == {"can0": f"ok {server.stop().entries['can0']} entries"}
    killed = Server("can0,can1")
    group = killed._child.pid
    killed.kill()
    for _ in range(WAIT * 100):
        states = subprocess.run(
            ["ps", "-o", "stat=", "-s", str(group)], capture_output=True, text=True, check=False
        ).stdout
        # The processes may remain as zombies if no process waits for them.
        if all(state.startswith("Z") for state in states.split()):
            break
        time.sleep(0.01)
    else:
        pytest.fail(f"some of its processes still run: {states}")


def test_programs_with_can_sockets(server, pair):
    """Unmodified programs with CAN sockets work with run() and with environment(). The exit status and the error output
    of a failed program are returned."""
    can0, can1 = pair
    send = "import socket, struct; s = socket.socket(29, 3, 1); s.bind(('can0',)); s.send(struct.pack('=IB3x8s', 0x123, 1, b'a'))"
    done = server.run([sys.executable, "-c", send], check=True, capture_output=True, text=True)
    assert (done.returncode, done.stdout, done.stderr) == (0, "", "")
    subprocess.run([sys.executable, "-c", send], env=server.environment(), check=True)
    assert [can1.recv(WAIT).arbitration_id for _ in range(2)] == [0x123] * 2
    assert can0.recv(WAIT).data == b"a"  # The frame comes by loopback.
    assert server.run(["sh", "-c", "exit 3"], wait=True).returncode == 3
    wrong = server.run([sys.executable, "-c", send.replace("can0", "can5")], capture_output=True, text=True)
    assert wrong.returncode == 1 and "No such device" in wrong.stderr
