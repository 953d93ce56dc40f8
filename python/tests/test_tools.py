"""python-can finds the interface by its entry point, and python-can's own tools and helpers work with the interface."""

import asyncio
import random
import shutil
import subprocess
import sys
import threading
import time

import can
import pytest
from can.io import ASCReader, CanutilsLogReader, CanutilsLogWriter
from common import WAIT, message, shape

from canbusd.faults import Faults
from canbusd.server import Server


def tool(name, *words, env):
    """Starts one of python-can's tools on the interface can1."""
    return subprocess.Popen(
        [sys.executable, "-m", f"can.{name}", "-i", "canbusd", "-c", "can1", *map(str, words)],
        env=env, stdin=subprocess.DEVNULL, stdout=subprocess.PIPE, stderr=subprocess.PIPE, text=True,
    )  # fmt: skip


def test_the_interface_by_its_name(installed, server):
    program = """
import can
with can.Bus(interface="canbusd", channel="can0") as bus:
    print(type(bus).__module__, bus.channel_info)
    bus.send(can.Message(arbitration_id=0x123, is_extended_id=False))
try:
    can.Bus(interface="canbusd", channel="can7")
except can.CanInitializationError as fault:
    print(fault)
"""
    env = {**installed, "CANBUSD_ADDRESS": server.address}
    with server.bus("can1") as can1:
        done = subprocess.run([sys.executable, "-c", program], env=env, capture_output=True, text=True, check=False)
        assert can1.recv(WAIT).arbitration_id == 0x123
    assert done.stdout.splitlines() == [
        f"canbusd.bus canbusd: channel 'can0' of the server at {server.address}",
        f"canbusd: channel 'can7' of the server at {server.address}: no such interface; the server has can0, can1",
    ]


def test_the_settings_of_can_conf(installed, server, tmp_path):
    (tmp_path / "can.conf").write_text(
        f"[default]\ninterface = canbusd\nchannel = can0\naddress = {server.address}\nfd = true\nerror_frames = no\n"
    )
    program = "import can\nwith can.Bus() as bus: print(bus.channel_info, bus._fd)"
    done = subprocess.run(
        [sys.executable, "-c", program],
        env={**installed, "HOME": str(tmp_path)},
        capture_output=True,
        text=True,
        check=False,
    )
    assert done.stdout == f"canbusd: channel 'can0' of the server at {server.address} True\n", done.stderr


def test_importing_needs_neither_python_can_nor_pytest(installed):
    program = """
import canbusd, sys
canbusd.Faults, canbusd.Bench, canbusd.Server, canbusd.read_record
print({"can", "pytest"} & {*sys.modules})
"""
    assert subprocess.check_output([sys.executable, "-c", program], env=installed, text=True) == "set()\n"


@pytest.mark.parametrize("ending, reader", [("asc", ASCReader), ("log", CanutilsLogReader)])
def test_can_logger(installed, tmp_path, ending, reader):
    sent = [message(number % 0x800, number.to_bytes(2, "big")) for number in range(200)]
    # In candump logs, python-can 4.1 leaves out the length of a remote frame.
    sent += [message(0x12345, b"\x01", extended=True), message(0x123, is_remote_frame=True, dlc=0)]
    file = tmp_path / f"run.{ending}"
    with Server("can0,can1") as server:
        # The tool passes unknown options on to the writer of the file.
        logger = tool(
            "logger", "-f", file, "--error-frames=False", env={**installed, "CANBUSD_ADDRESS": server.address}
        )
        started = [logger.stdout.readline(), logger.stdout.readline()]
        assert started[1].startswith("Can Logger (Started"), logger.communicate()
        with server.bus("can0") as can0, server.bus("can1") as watch:
            can0.send_many(sent)
            for _ in sent:
                assert watch.recv(WAIT)
        server.stop()
        _, errors = logger.communicate(timeout=WAIT)
    assert errors.strip().endswith("CanOperationError: the server closed the connection")
    # The file contains the same frames as the record does for the socket that was opened first.
    taken = [item for item in server.record().items if item.socket == 0 and item.fate == "taken"]
    with reader(str(file)) as log:
        logged = [shape(one) for one in log]
    assert len(logged) == len(taken) > 0
    assert logged == [shape(one) for one in sent][: len(taken)]


def test_can_player(installed, tmp_path):
    chosen = random.Random(32)
    frames = [
        message(chosen.randrange(0x800), chosen.randbytes(chosen.randrange(9)), timestamp=number / 10000)
        for number in range(9000)
    ] + [
        message(chosen.randrange(0x20000000), chosen.randbytes(8), extended=True, timestamp=0.9 + number / 10000)
        for number in range(1000)
    ]
    with Server("can0,can1", pace_ms=0, txqueue=1024, rxqueue=65536) as server, server.bus("can0") as can0:
        # Every burst fits into the transmit queue, because the player does not repeat frames that are refused.
        for start in range(0, len(frames), 1000):
            part = frames[start : start + 1000]
            with CanutilsLogWriter(str(tmp_path / "run.log")) as log:
                for frame in part:
                    log(frame)
            player = tool("player", f"--address={server.address}", "--gap=0", tmp_path / "run.log", env=installed)
            got = []
            while len(got) < len(part) and (one := can0.recv(WAIT)):
                got.append(shape(one))
            _, errors = player.communicate(timeout=WAIT)
            assert (player.returncode, errors) == (0, "")
            assert got == [shape(frame) for frame in part]
        assert can0.recv(0.1) is None


@pytest.mark.skipif(not shutil.which("tmux"), reason="can.viewer needs a terminal, here tmux")
def test_can_viewer(installed, server, tmp_path):
    tmux = ["tmux", "-S", str(tmp_path / "tmux")]
    words = [sys.executable, "-m", "can.viewer", "-i", "canbusd", "-c", "can1", f"--address={server.address}"]
    start = [*tmux, "-f", "/dev/null", "new-session", "-d", "-x", "120", "-y", "30", *words]
    subprocess.run(start, env={**installed, "TERM": "xterm", "LC_ALL": "C.UTF-8"}, check=True)
    screen = ""
    try:
        with server.bus("can0") as can0:
            for _ in range(200):
                can0.send(message(0x123, b"\x11\x22\x33"), timeout=WAIT)
                can0.send(message(0x12345, b"\xab", extended=True), timeout=WAIT)
                screen = subprocess.run(
                    [*tmux, "capture-pane", "-p"], capture_output=True, text=True, check=True
                ).stdout
                if "0x00012345" in screen and "11 22 33" in screen:
                    break
                time.sleep(0.1)
    finally:
        subprocess.run([*tmux, "kill-server"], check=False)
    lines = [line.split() for line in screen.splitlines()]
    assert any("0x123" in line and line[-3:] == ["11", "22", "33"] for line in lines), screen
    assert any("0x00012345" in line and line[-1] == "AB" for line in lines), screen


def test_a_notifier_in_a_thread(pair):
    can0, can1 = pair
    reader = can.BufferedReader()
    notifier = can.Notifier(can1, [reader], timeout=0.1)
    # While the notifier waits for frames, this thread sends on the same bus and requests the status.
    for number in range(200):
        can0.send(message(number), timeout=WAIT)
        can1.send(message(0x7FF), timeout=WAIT)
        assert can1.error_counters().state == "active"
        assert reader.get_message(WAIT).arbitration_id == number
    notifier.stop()
    assert notifier.exception is None


def test_many_threads_on_one_bus(pair):
    can0, can1 = pair
    each, count = 100, 8
    got = []

    def send(first):
        for number in range(each):
            can0.send(message(first, bytes([number])), timeout=WAIT)

    def receive():
        while True:
            one = can1.recv(WAIT)
            if one is None or one.arbitration_id == 0x7FF:
                break
            got.append((one.arbitration_id, one.data[0]))

    threads = [threading.Thread(target=send, args=(first,)) for first in range(count)]
    receivers = [threading.Thread(target=receive) for _ in range(3)]
    for thread in [*threads, *receivers]:
        thread.start()
    for thread in threads:
        thread.join(WAIT)
    can0.send_many([message(0x7FF)] * len(receivers))
    for thread in receivers:
        thread.join(WAIT)
    assert sorted(got) == [(first, number) for first in range(count) for number in range(each)]


def test_a_notifier_on_asyncio(pair):
    can0, can1 = pair
    count = 500

    async def run():
        reader = can.AsyncBufferedReader()
        notifier = can.Notifier(can1, [reader], loop=asyncio.get_running_loop())
        got = []
        for first in range(0, count, 100):
            # Frames arrive while the same bus waits for answers.
            can0.send_many([message(first + number) for number in range(100)])
            assert can1.error_counters().state == "active"
            got += [(await asyncio.wait_for(reader.get_message(), WAIT)).arbitration_id for _ in range(100)]
        notifier.stop()
        return got

    assert asyncio.run(run()) == list(range(count))


def test_sending_periodically(pair):
    can0, can1 = pair
    task = can0.send_periodic(message(0x123, b"\x01"), 0.002)
    got = [can1.recv(WAIT) for _ in range(20)]
    task.modify_data(message(0x123, b"\x02"))
    while can1.recv(WAIT).data != b"\x02":
        pass
    task.stop()
    while can1.recv(0.1):
        pass
    assert can1.recv(0.1) is None
    assert {bytes(one.data) for one in got} == {b"\x01"}
    # Every frame has a later timestamp than the frame before it.
    moments = [one.timestamp for one in got]
    assert moments == sorted(set(moments))


def test_a_periodic_task_survives_bus_off(caplog):
    with Server("can0,can1", faults=Faults().destroyed(range(32)), txqueue=1024) as server:
        with server.bus("can0") as can0, server.bus("can1", error_frames=False) as can1:
            task = can0.send_periodic(message(0x123), 0.005)
            while can0.recv(WAIT).arbitration_id != 0x040:
                pass
            for _ in range(WAIT * 100):
                if "bus off" in caplog.text:
                    break
                time.sleep(0.01)
            # Further frames are refused during this time.
            time.sleep(0.05)
            can0.restart()
            assert can1.recv(WAIT).arbitration_id == 0x123
            task.stop()
    assert [one.getMessage() for one in caplog.records] == [
        "can0: a periodic message is not sent: bus off: restart() brings the interface back, as the server's "
        "auto_restart= does [Error Code 100]"
    ]
    assert "Traceback" not in caplog.text


def test_a_periodic_task_survives_a_full_queue():
    with Server("can0,can1", txqueue=1, pace_ms=50) as server:
        with server.bus("can0") as can0, server.bus("can1") as can1:
            task = can0.send_periodic(message(0x123), 0.002)
            while not can0.stats().refused:
                pass
            before = can0.stats().done
            while can0.stats().done < before + 3:
                assert can1.recv(WAIT)
            task.stop()


def test_a_periodic_task_ends_with_its_bus(server, caplog):
    with server.bus("can0") as can0, server.bus("can1") as can1:
        task = can0.send_periodic(message(0x123), 0.002)
        assert can1.recv(WAIT)
        can0.shutdown()
        while can1.recv(0.1):
            pass
        # If a frame is still being sent when the task is stopped, no error is raised.
        task.bus.send(message(0x123))
    assert not caplog.records


def test_the_thread_safe_bus_of_python_can(installed, server):
    pytest.importorskip("wrapt")
    program = f"""
import can, threading
address = {server.address!r}
with can.ThreadSafeBus("can0", interface="canbusd", address=address) as can0, \\
        can.ThreadSafeBus("can1", interface="canbusd", address=address) as can1:
    send = lambda: [can0.send(can.Message(arbitration_id=1), timeout=10) for _ in range(50)]
    threads = [threading.Thread(target=send)
               for _ in range(4)]
    for thread in threads: thread.start()
    print(sum(can1.recv(10).arbitration_id for _ in range(200)))
    for thread in threads: thread.join()
    can0.set_filters([{{"can_id": 1, "can_mask": 1}}])
    can0.state = can.BusState.ACTIVE
    print(can0.state)
"""
    done = subprocess.run([sys.executable, "-c", program], env=installed, capture_output=True, text=True, check=False)
    assert done.stdout == "200\nBusState.ACTIVE\n", done.stderr
