"""canbusd-run: python-can's interface `socketcan`, in programs that are not written for canbusd."""

import textwrap

import pytest

from running import needs, passes, server, settled, started, written  # noqa: F401  the fixture
from serving import ROOT, plain, serving

pytest.importorskip("can", reason="no python-can: apt-get install python3-can")

PYTHON = "/usr/bin/python3"
START = """
import sys, time
import can

def bus(channel="can0", **options):
    return can.Bus(interface="socketcan", channel=channel, **options)

def message(identifier, data=(), **options):
    return can.Message(arbitration_id=identifier, data=bytes(data), is_extended_id=options.pop("is_extended_id", False), **options)

def all_of(receiver, count):
    got = [receiver.recv(timeout=20) for _ in range(count)]
    assert receiver.recv(timeout=0.1) is None
    return got
"""


def python(server, text, *words, **how):
    """Runs a Python program with canbusd-run. Returns the output of the program."""
    return passes(server, PYTHON, "-c", START + textwrap.dedent(text), *words, **how)


def test_send_and_receive(server):
    """identifiers, lengths and remote frames arrive unchanged, and frames from other nodes are marked as received"""
    python(
        server,
        """
        with bus("can0") as can0, bus("can1") as can1:
            sent = [message(0x123, [1, 2, 3]), message(0x1ABCDEF0, b"12345678", is_extended_id=True), message(0x7FF),
                    message(0x123, dlc=5, is_remote_frame=True)]
            for one in sent:
                can0.send(one)
            for one, other in zip(sent, all_of(can1, 4)):
                assert (one.arbitration_id, one.data, one.dlc, one.is_extended_id, one.is_remote_frame) == (
                    other.arbitration_id, other.data, other.dlc, other.is_extended_id, other.is_remote_frame), (one, other)
                assert other.is_rx and other.channel == "can1" and abs(other.timestamp - time.time()) < 60
            assert can0.recv(timeout=0.1) is None
        """,
    )


def test_filters(server):
    """filters apply both when a bus is opened and when they are changed"""
    python(
        server,
        """
        with bus("can0") as can0, bus("can1", can_filters=[{"can_id": 0x123, "can_mask": 0x7FF}]) as can1:
            for identifier in 0x123, 0x124:
                can0.send(message(identifier))
            assert [one.arbitration_id for one in all_of(can1, 1)] == [0x123]
            can1.set_filters([{"can_id": 0x124, "can_mask": 0x7FF, "extended": False}, {"can_id": 0x5, "can_mask": 0x1FFFFFFF, "extended": True}])
            for identifier, is_long in (0x123, False), (0x124, False), (0x124, True), (5, True):
                can0.send(message(identifier, is_extended_id=is_long))
            assert [one.arbitration_id for one in all_of(can1, 2)] == [0x124, 5]
            can1.set_filters(None)
            can0.send(message(0x7))
            assert all_of(can1, 1)[0].arbitration_id == 7
        """,
    )


def test_fd(server):
    """FD frames of all lengths arrive"""
    python(
        server,
        """
        with bus("can0", fd=True) as can0, bus("can1", fd=True) as can1, bus("can1") as classic:
            for length in (0, 8, 12, 64):
                can0.send(message(0x123, range(length), is_fd=True))
                got = can1.recv(timeout=20)
                assert got.is_fd and got.data == bytes(range(length)), got
            can0.send(message(0x124))
            assert all_of(classic, 1)[0].arbitration_id == 0x124
        """,
    )


def test_own_messages(server):
    """receive_own_messages works, and a socket's own messages are marked as sent"""
    python(
        server,
        """
        with bus("can0", receive_own_messages=True) as can0, bus("can1") as can1:
            can0.send(message(0x1))
            can1.send(message(0x2))
            got = sorted(all_of(can0, 2), key=lambda one: one.arbitration_id)
            assert [(one.arbitration_id, one.is_rx) for one in got] == [(1, False), (2, True)]
        """,
    )


def test_any(server):
    """an empty channel receives from all interfaces"""
    python(
        server,
        """
        with bus("") as every, bus("vcan0") as vcan0, bus("can0") as can0:
            vcan0.send(message(0x1))
            assert [(one.arbitration_id, one.channel) for one in all_of(every, 1)] == [(1, "vcan0")]
            can0.send(message(0x2))
            assert sorted((one.arbitration_id, one.channel) for one in all_of(every, 2)) == [(2, "can0"), (2, "can1")]
        """,
    )


def test_notifier(server):
    """a Notifier and a ThreadSafeBus work"""
    python(
        server,
        """
        with can.ThreadSafeBus(interface="socketcan", channel="can0") as can0, bus("can1") as can1:
            reader = can.BufferedReader()
            notifier = can.Notifier(can1, [reader])
            for number in range(500):
                can0.send(message(0x100, [number >> 8, number & 255]))
            assert [int.from_bytes(reader.get_message(20).data, "big") for _ in range(500)] == list(range(500))
            notifier.stop()
        """,
    )


def test_asyncio(server):
    """an AsyncBufferedReader works"""
    python(
        server,
        """
        import asyncio

        async def main():
            with bus("can0") as can0, bus("can1") as can1:
                reader = can.AsyncBufferedReader()
                notifier = can.Notifier(can1, [reader], loop=asyncio.get_running_loop())
                for number in range(100):
                    can0.send(message(0x100, [number]))
                assert [(await reader.get_message()).data[0] for _ in range(100)] == list(range(100))
                notifier.stop()

        asyncio.run(main())
        """,
    )


def test_periodic(server):
    """the broadcast manager sends cyclic frames with several periods; tasks can be modified, stopped and restarted, and
    can send several frames in turn"""
    python(
        server,
        """
        with bus("can0") as can0, bus("can1") as can1:
            task = can0.send_periodic(message(0x123, [1]), 0.02)
            assert isinstance(task, can.CyclicSendTaskABC) and type(task).__module__.endswith("socketcan.socketcan")
            stamps = [can1.recv(timeout=20).timestamp for _ in range(21)]
            assert 0.3 < stamps[-1] - stamps[0] < 5, stamps
            task.modify_data(message(0x123, [2]))
            while can1.recv(timeout=20).data != b"\\2":
                pass
            task.stop()
            while can1.recv(timeout=0.2):
                pass
            task.start()
            assert can1.recv(timeout=20).data == b"\\2"
            task.stop()
            while can1.recv(timeout=0.2):
                pass
            several = can0.send_periodic([message(0x10, [1]), message(0x10, [2])], 0.02)
            assert [can1.recv(timeout=20).data for _ in range(4)] == [b"\1", b"\2", b"\1", b"\2"]
            several.stop()
            while can1.recv(timeout=0.2):
                pass
            limited = can0.send_periodic(message(0x12), 0.02, duration=0.2)
            assert len(all_of(can1, 10)) == 10
            limited.stop()
        """,
    )


def test_errors():
    """a program receives error message frames and notices bus off; a send then raises an exception"""
    with serving("--pace", "0", f"can0,can1@{ROOT}/examples/bus_off_attack.script") as server:
        python(
            server,
            """
            with bus("can0") as can0:
                can0.send(message(0x123))
                got = all_of(can0, 3)
                assert all(one.is_error_frame for one in got)
                assert [one.arbitration_id for one in got] == [0x204, 0x204, 0x040], got
                try:
                    can0.send(message(0x123))
                except can.CanOperationError as fault:
                    assert fault.error_code == 100, fault  # ENETDOWN
                else:
                    raise AssertionError("a node that is bus off has sent")
            """,
        )
        server.end()


def test_no_interface(server):
    """an unknown interface name raises an error at once"""
    python(
        server,
        """
        try:
            bus("can7")
        except OSError as fault:
            assert fault.errno == 19, fault
        else:
            raise AssertionError("a bus on no interface")
        """,
    )


@needs("candump")
def test_logger_and_player(server, tmp_path):
    """python-can's own programs write a log and replay it"""
    log = tmp_path / "run.log"
    with started(server, PYTHON, "-m", "can.logger", "-i", "socketcan", "-c", "can1", "-f", str(log)) as logger:
        settled(logger)
        passes(
            server,
            PYTHON,
            "-c",
            START + "with bus() as can0:\n    for n in range(5): can0.send(message(0x100 + n, [n]))\n",
        )
        python(server, "with bus() as can0:\n    time.sleep(0.5)\n")
        logger.send_signal(2)
        logger.wait(20)
    lines = log.read_text(encoding="utf-8").splitlines()
    assert [line.split()[2] for line in lines] == [f"{0x100 + n:03X}#{n:02X}" for n in range(5)], lines
    with started(server, "candump", "-L", "-n", "5", "can1") as dump:
        settled(dump)
        passes(server, PYTHON, "-m", "can.player", "-i", "socketcan", "-c", "can0", str(log))
        assert [line.split()[2] for line in written(dump).splitlines()] == [line.split()[2] for line in lines]


def test_plain_sockets(server):
    """Python's own socket module works"""
    python(
        server,
        """
        import socket, struct
        a = socket.socket(socket.AF_CAN, socket.SOCK_RAW, socket.CAN_RAW)
        b = socket.socket(socket.AF_CAN, socket.SOCK_RAW, socket.CAN_RAW)
        a.bind(("can0",))
        b.bind(("can1",))
        assert a.getsockname() == ("can0",)
        assert a.family is socket.AF_CAN and a.type is socket.SOCK_RAW and a.proto == socket.CAN_RAW
        frame = struct.pack("=IB3x8s", 0x123, 2, b"ab")
        assert a.send(frame) == 16
        assert b.recvfrom(16) == (frame, ("can1",))
        b.setsockopt(socket.SOL_CAN_RAW, socket.CAN_RAW_FILTER, struct.pack("=II", 0x124, 0x7FF))
        assert b.getsockopt(socket.SOL_CAN_RAW, socket.CAN_RAW_FILTER, 8) == struct.pack("=II", 0x124, 0x7FF)
        b.settimeout(0.1)
        a.send(frame)
        try:
            b.recv(16)
        except TimeoutError:
            pass
        else:
            raise AssertionError("the filter lets it pass")
        assert ("can0" in dict((name, index) for index, name in socket.if_nameindex()))
        copy = a.dup()
        a.close()
        assert copy.send(struct.pack("=IB3x8s", 0x124, 0, b"")) == 16
        assert b.recv(16)[:4] == struct.pack("=I", 0x124)
        """,
    )


def test_multiprocessing(server):
    """a forked child process can use a bus"""
    python(
        server,
        """
        import multiprocessing

        def send():
            with bus("can0") as can0:
                can0.send(message(0x321))

        with bus("can1") as can1:
            child = multiprocessing.get_context("fork").Process(target=send)
            child.start()
            assert all_of(can1, 1)[0].arbitration_id == 0x321
            child.join(20)
            assert child.exitcode == 0
        """,
    )


def test_isotp(server):
    """ISO-TP sockets of Python's socket module work"""
    python(
        server,
        """
        import socket
        a = socket.socket(socket.AF_CAN, socket.SOCK_DGRAM, socket.CAN_ISOTP)
        b = socket.socket(socket.AF_CAN, socket.SOCK_DGRAM, socket.CAN_ISOTP)
        a.bind(("can0", 0x321, 0x123))
        b.bind(("can1", 0x123, 0x321))
        for length in 1, 7, 8, 500:
            data = bytes(number % 251 for number in range(length))
            assert a.send(data) == length and b.recv(5000) == data
            assert b.send(data) == length and a.recv(5000) == data
        """,
    )


def test_handle_of_libc(server):
    """canbusd-run also replaces functions that a program gets from a handle of the C library, as scapy's native ISO-TP
    sockets do"""
    text = """
import ctypes, socket, struct
libc = ctypes.CDLL("libc.so.6", use_errno=True)
index = socket.if_nametoindex("can0")
fd = libc.socket(socket.PF_CAN, socket.SOCK_RAW, socket.CAN_RAW)
assert libc.bind(fd, struct.pack("=HHiII", socket.AF_CAN, 0, index, 0, 0), 16) == 0, ctypes.get_errno()
assert libc.write(fd, struct.pack("=IB3x8s", 0x123, 2, b"ab"), 16) == 16
made = socket.socket(socket.PF_CAN, socket.SOCK_DGRAM, socket.CAN_ISOTP)
assert libc.bind(made.fileno(), struct.pack("=HHiII", socket.AF_CAN, 0, index, 0x321, 0x123), 16) == 0
assert made.send(b"cd") == 2
"""
    reader = plain(server, "can1")
    passes(server, "/usr/bin/python3", "-c", text)
    assert [reader.frame() for _ in range(2)] == [("123", b"ab"), ("123", b"\x02cd")]
