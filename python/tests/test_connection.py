"""CanbusdBus with a simulated server: messages that are split at any byte, late or missing answers, and the end of the
connection.
"""

import asyncio
import contextlib
import select
import socket
import threading
import time

import can
import pytest
from common import WAIT, message, shape

from canbusd._session.pending_questions import MOST_PAGES, PAGE
from canbusd.bus import CanbusdBus, interfaces
from canbusd.server import Server


UNKNOWN = "< error unknown command >"


class Played:
    """A simulated server with one session on a Unix socket. It looks up its answer to each message in the table
    `answers`. An old server does not acknowledge frames."""

    def __init__(self, path, greeting=b"< hi >", cut=False, old=False):
        self.address, self._greeting, self._cut = str(path), greeting, cut
        self.answers = {"echo": "< echo >"}
        if old:
            self.answers.update(dict.fromkeys(["ack", "origin", "interfaces", "load"], UNKNOWN), send="", sendrtr="")
        self.seen, self._accepted = [], 0
        self.peer = None
        self._listener = socket.socket(socket.AF_UNIX)
        self._listener.bind(self.address)
        self._listener.listen()
        self._thread = threading.Thread(target=self._serve, daemon=True)
        self._thread.start()

    def write(self, text):
        step = 1 if self._cut else len(text) or 1
        for start in range(0, len(text), step):
            self.peer.sendall(text[start : start + step])

    def _serve(self):
        with contextlib.suppress(OSError):
            self.peer, _ = self._listener.accept()
            self.write(self._greeting)
            rest = b""
            while True:
                piece = self.peer.recv(4096)
                if not piece:
                    break
                *messages, rest = (rest + piece).split(b">")
                for one in messages:
                    self._answer(one.split(b"<")[1].strip().decode())
        if self.peer is not None:
            self.peer.close()

    def _answer(self, one):
        self.seen.append(one)
        word = one.split()[0]
        answer = self.answers.get(word)
        if answer is None and word.startswith("send"):
            answer = f"< ack {self._accepted} >"
            self._accepted += 1
        elif answer is None:
            answer = "< ok >"
        if answer:
            self.write(answer.encode())

    def close(self):
        self._listener.close()
        if self.peer is not None:
            with contextlib.suppress(OSError):
                self.peer.shutdown(socket.SHUT_RDWR)
        self._thread.join(WAIT)


@pytest.fixture
def play(tmp_path):
    """A function that starts simulated servers, which run until the end of the test."""
    played = []

    def start(**how):
        played.append(Played(tmp_path / f"socket{len(played)}", **how))
        return played[-1]

    yield start
    for one in played:
        one.close()


STREAM = (
    b"< frame 123 23.424242 11223344 >< frame 00000123 23.000001  >< remote 7FF 1.000000 4 >\r\n"
    b"< fdframe 12345678 0.000001 000102030405060708090A0B >< error 204 0.000012 0008000000006000 >"
    b"< frame 7FF 1764041234.123456 FF >"
)
READ = [
    (0x123, b"\x11\x22\x33\x44", 4, False, False, False, False),
    (0x123, b"", 0, True, False, False, False),
    (0x7FF, b"", 4, False, True, False, False),
    (0x12345678, bytes(range(12)), 12, True, False, False, True),
    (0x204, bytes.fromhex("0008000000006000"), 8, False, False, True, False),
    (0x7FF, b"\xff", 1, False, False, False, False),
]
MOMENTS = [23.424242, 23.000001, 1.0, 0.000001, 0.000012, 1764041234.123456]


def test_messages_cut_at_each_byte(play):
    played = play()
    with CanbusdBus("can0", address=played.address) as bus:
        for cut in range(len(STREAM) + 1):
            whole = STREAM[:cut].count(b">")
            played.write(STREAM[:cut])
            got = [bus.recv(WAIT) for _ in range(whole)]
            # The bus does not return a message that is incomplete.
            assert bus.recv(0) is None
            played.write(STREAM[cut:])
            got += [bus.recv(WAIT) for _ in range(len(READ) - whole)]
            assert list(map(shape, got)) == READ
            assert [one.timestamp for one in got] == MOMENTS


def test_answers_cut_at_each_byte_among_frames(play):
    played = play(cut=True)
    frames = "< frame 123 1.000000 01 >", "< error 040 1.000000 0000000000000000 >"
    played.answers["status"] = "< status passive 128 7 >".join(frames)
    played.answers["send"] = "< error no buffers >< frame 124 1.000000  >"
    with CanbusdBus("can0", address=played.address) as bus:
        assert bus.error_counters() == ("passive", 128, 7)
        with pytest.raises(can.CanOperationError, match="no buffers"):
            bus.send(message(1))
        assert [bus.recv(WAIT).arbitration_id for _ in range(3)] == [0x123, 0x040, 0x124]


@pytest.mark.parametrize("old, end", [(False, []), (True, ["echo"])])
def test_what_is_written(play, old, end):
    played = play(old=old)
    with CanbusdBus("can0", address=played.address, fd=True, receive_own_messages=True) as bus:
        assert [one for one in played.seen if one != "echo"] == [
            "open can0", "rawmode", "errdata 1", "errmask 1FFFFFFF", "fdframes 1", "recvown 1", "ack 1", "origin 1",
            "filter 1 0 0",
        ]  # fmt: skip
        del played.seen[:]
        bus.send(message(0x12345, b"\x01\xab", extended=True))
        bus.send(message(0x123, is_remote_frame=True, dlc=4))
        bus.set_filters([{"can_id": 0x123, "can_mask": 0x7FF, "extended": False}])
        assert played.seen == [
            "send 00012345 2 01 AB",
            *end,
            "sendrtr 123 4",
            *end,
            "filter 1 123 800007FF",
            "echo",
        ]


def test_an_older_server_has_no_list_of_interfaces(play, monkeypatch):
    with pytest.raises(can.CanInitializationError, match="is older, and can't say which interfaces it has"):
        interfaces(play(old=True).address)
    monkeypatch.setenv("CANBUSD_ADDRESS", play(old=True).address)
    assert can.detect_available_configs("canbusd") == []


@pytest.mark.parametrize(
    "answer, given, said",
    [
        ("load 0 0 500000 2000000", {"bitrate": 500_000, "data_bitrate": "2000000"}, []),
        ("load 0 0 500000 500000", {"bitrate": "250000"}, ["bitrate 250000 is left out: that of the server is 500000"]),
        (
            "load 0 0 500000 500000",
            {"bitrate": 500_000, "data_bitrate": 2_000_000},
            ["data_bitrate 2000000 is left out: that of the server is 500000"],
        ),
        (
            "load 0 0 500000 500000",
            {"bitrate": 500_000, "dbitrate": 2_000_000},
            ["data_bitrate 2000000 is left out: that of the server is 500000"],
        ),
        (
            "load 0 0 0 0",
            {"bitrate": 500_000},
            ["bitrate 500000 is left out: the server has none, and frames take no time"],
        ),
        # Older servers do not report bit rates.
        ("load 0 0", {"bitrate": 500_000}, []),
        ("error unknown command", {"bitrate": 500_000, "data_bitrate": 500_000}, []),
    ],
)
def test_bit_rates_that_are_not_those_of_the_server(play, caplog, answer, given, said):
    played = play()
    played.answers["load"] = f"< {answer} >"
    can.Bus(interface="canbusd", channel="can0", address=played.address, **given).shutdown()
    assert caplog.messages == [f"can0: {one}" for one in said] and played.seen.count("load") == 1


def test_a_server_is_asked_for_no_bit_rates_where_none_is_given(play, caplog):
    played = play()
    can.Bus(interface="canbusd", channel="can0", address=played.address).shutdown()
    assert not caplog.records and "load" not in played.seen


@pytest.mark.parametrize("answer", ["load 432 1080000", "load 432 1080000 x -1", "error unknown command"])
def test_the_load_of_an_older_server(play, answer):
    played = play()
    played.answers["load"] = f"< {answer} >"
    said = f"^another version of canbusd answers: {answer.removeprefix('error ')}$"
    with CanbusdBus("can0", address=played.address) as bus, pytest.raises(can.CanOperationError, match=said):
        bus.load()


def test_whose_a_frame_is(play):
    played = play(cut=True)
    with CanbusdBus("can0", address=played.address, fd=True, receive_own_messages=True) as bus:
        # A record has at most 4,294,967,294 entries, so the index of a frame has at most ten digits.
        for number in (0, 7, 5000, 4294967293):
            played.answers["send"] = f"< frame 124 1.000000  same {number + 1} >< ack {number} >"
            bus.send(message(1))
            played.write(
                b"< frame 123 1.000000  same %d >< fdframe 123 1.000000 0102 same %d >< remote 123 1.000000 4 other %d >"
                b"< error 040 1.000000 0000000000000000 >" % ((number,) * 3)
            )
            got = [bus.recv(WAIT) for _ in range(5)]
            assert [one.is_rx for one in got] == [True, False, False, True, True]
            assert [bytes(one.data) for one in got[1:3]] == [b"", b"\1\2"] and got[3].dlc == 4


def test_only_the_last_own_numbers_are_kept(play):
    played = play()
    with CanbusdBus("can0", address=played.address, receive_own_messages=True) as bus:
        pages = MOST_PAGES + 1
        for page in range(pages):
            played.answers["send"] = f"< ack {page * PAGE} >"
            bus.send(message(1))
        played.write(b"".join(b"< frame 123 1.000000  same %d >" % (n * PAGE) for n in range(pages)))
        assert [bus.recv(WAIT).is_rx for _ in range(pages)] == [True] + [False] * (pages - 1)


@pytest.mark.parametrize("verdict", ["ack", "ack x", "ack 1 2", "ack 12345678901", "acknowledged 1"])
def test_what_is_no_ack_is_a_refusal(play, verdict):
    played = play()
    with CanbusdBus("can0", address=played.address) as bus:
        played.answers["send"] = f"< {verdict} >"
        with pytest.raises(can.CanOperationError, match=verdict):
            bus.send(message(1))


class Overtaken:
    """A lock that another thread has just released, after that thread has read from the connection."""

    def __init__(self, lock, reads):
        self._lock, self._reads = lock, [reads]

    def acquire(self, *words):
        taken = self._lock.acquire(*words)
        if self._reads:
            self._reads.pop()()
        return taken

    def release(self):
        self._lock.release()

    def locked(self):
        return self._lock.locked()


@pytest.mark.quiet
@pytest.mark.parametrize("what", ["frame", "answer"])
def test_what_another_thread_has_just_read_is_not_waited_for(play, what):
    played = play()
    with CanbusdBus("can0", address=played.address) as bus:
        connection = bus._session._connection
        text = b"< frame 123 1.000000 01 >" if what == "frame" else b"< ack 0 >"
        played.answers["send"] = ""

        def reads():
            with connection._lock:
                connection._pieces.append(text)
                connection._sort()

        lock, connection._reading = connection._reading, Overtaken(connection._reading, reads)
        begun = time.monotonic()
        if what == "frame":
            assert bus.recv(WAIT).arbitration_id == 0x123
        else:
            bus.send(message(1))
        assert time.monotonic() - begun < 1
        connection._reading = lock


@pytest.mark.parametrize(
    "greeting, said",
    [
        (b"< error too many sessions >", "too many sessions"),
        (b"< hello >", "`hello`"),
        (b"", "nothing within 0.2 seconds"),
    ],
)
def test_another_greeting(play, greeting, said):
    played = play(greeting=greeting)
    with pytest.raises(can.CanInitializationError, match=said):
        CanbusdBus("can0", address=played.address, timeout=0.2)


@pytest.mark.parametrize("refused", ["open", "rawmode", "errmask", "filter"])
def test_a_refusal_at_the_start(play, refused):
    played = play()
    played.answers[refused] = "< error no memory >"
    with pytest.raises(can.CanInitializationError, match="no memory"):
        CanbusdBus("can0", address=played.address)


@pytest.mark.parametrize("old, end", [(False, b""), (True, b"< echo >")])
def test_an_answer_that_comes_too_late(play, old, end):
    played = play(old=old)
    with CanbusdBus("can0", address=played.address, timeout=0.2) as bus:
        answers = played.answers.copy()
        played.answers.update({"send": "", "echo": ""})
        for _ in range(2):
            with pytest.raises(can.CanTimeoutError, match="no answer within 0.2 seconds"):
                bus.send(message(1))
        played.answers.clear()
        played.answers.update(answers)
        # These late answers belong to earlier requests, so later calls do not return them.
        played.write(b"< error bus off >%b< error no buffers >%b" % (end, end))
        bus.send(message(2))
        played.answers["status"] = "< status active 1 2 >"
        assert bus.error_counters() == ("active", 1, 2)


@pytest.mark.parametrize(
    "junk",
    [
        "< frame 123 >",
        "< frame XYZ 1.000000 11 >",
        "< frame 123 1.000000 1 >",
        "< frame 123 nan 11 >",
        "< frame 123 inf >",
    ],
)
def test_what_is_no_message_is_a_fault(play, junk):
    played = play()
    with CanbusdBus("can0", address=played.address) as bus:
        played.write(junk.encode())
        with pytest.raises(can.CanOperationError, match="no message of canbusd"):
            bus.recv(WAIT)


@pytest.mark.parametrize("said, reason", [(b"< error no memory >", "no memory"), (b"x" * 5000, "without its end")])
def test_what_nobody_asked_for_ends_the_connection(play, said, reason):
    played = play()
    with CanbusdBus("can0", address=played.address) as bus:
        played.write(said)
        for _ in range(2):
            with pytest.raises(can.CanOperationError, match=reason):
                bus.recv(WAIT)


def test_a_server_that_takes_nothing(play):
    played = play()
    with CanbusdBus("can0", address=played.address, timeout=0.3) as bus:
        stop, done = threading.Event(), []
        answer = played._answer
        played._answer = lambda one: (done.append(one), stop.wait(WAIT), answer(one))
        bus.window = 1024
        played.answers["stats"] = "< stats 0 0 0 0 0 0 0 0 >"
        with pytest.raises(can.CanTimeoutError):
            bus.send_many([message(1, bytes(8))] * 100_000)
        stop.set()


def ends_of(bus):
    """Checks that waiting and later calls of a bus raise an error after the server has gone."""
    for call in (lambda: bus.recv(WAIT), lambda: bus.recv(0), bus.recv, lambda: bus.send(message(1)), bus.stats):
        with pytest.raises(can.CanOperationError, match="the server closed the connection|the connection broke"):
            call()


def test_frames_before_the_end_are_received(play):
    played = play()
    with CanbusdBus("can0", address=played.address) as bus:
        played.write(STREAM)
        played.close()
        assert [shape(bus.recv(WAIT)) for _ in READ] == READ
        ends_of(bus)


@pytest.mark.parametrize("how", ["stop", "kill"])
def test_a_server_that_ends(how):
    with Server("can0,can1") as server:
        can0, can1 = server.bus("can0"), server.bus("can1")
        seen = []

        def wait():
            try:
                can0.recv()
            except can.CanOperationError as fault:
                seen.append(fault)

        waiting = [threading.Thread(target=wait) for _ in range(2)]
        for thread in waiting:
            thread.start()
        getattr(server, how)()
        for thread in waiting:
            thread.join(WAIT)
        assert len(seen) == 2
        ends_of(can1)
        for bus in (can0, can1):
            bus.shutdown()


def test_a_server_that_dies_is_reported_once_on_asyncio():
    faults = []

    class Listener(can.Listener):
        def on_message_received(self, msg):
            faults.append(msg)

        def on_error(self, exc):
            faults.append(exc)

    async def run():
        loop = asyncio.get_running_loop()
        loop.set_exception_handler(lambda _, context: faults.append(context.get("exception")))
        with Server("can0,can1") as server:
            bus = server.bus("can0")
            notifier = can.Notifier(bus, [Listener()], loop=loop)
            server.kill()
            for _ in range(100):
                await asyncio.sleep(0.01)
                if faults:
                    break
            # If the file descriptor were still readable, the callback would be called thousands of times during this
            # pause.
            await asyncio.sleep(0.1)
            notifier.stop()
            assert not select.select([bus], [], [], 0)[0]
            bus.shutdown()

    asyncio.run(run())
    assert [type(fault) for fault in faults] == [can.CanOperationError]
