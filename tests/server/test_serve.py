"""Tests `canbusd serve` with plain sockets: records that become full, clients that disconnect, and the end of a server.
"""

import contextlib
import os
import re
import resource
import shutil
import signal
import socket
import subprocess
import threading
import time

import pytest

from commands import call
from serving import ROOT, WAIT, Plain, come_true, join, line_of, plain, program, serving, serving_alone, turns


def test_full_record():
    """A full record is reported once by the server, and in the reply to each later call, and no thread spins."""
    with serving("--limit", "5", "can0,can1", "can2") as server:
        can0, can1 = plain(server, "can0"), plain(server, "can1")
        can0.write("< send 123 1 5 >")
        assert can1.frame() == ("123", b"\x05"), "not the frame"
        for one in (can0, can1, can0):
            text = one.answer("< send 123 0 >")
            assert text == "< error record full >", text
        others = can0.answer("< echo >"), can0.answer("< stats >"), can0.answer("< status >")
        assert others == ("< echo >", "< stats 0 0 0 1 1 0 0 0 >", "< status active 0 0 >"), f"{others}"
        before = server.ticks()
        time.sleep(1)
        assert server.ticks() - before <= 5, f"{server.ticks() - before} hundredths of a second in one"
        assert plain(server, "can2").answer("< filter 0 >") == "< ok >", "the other bus"
        written = server.end("note: bus can0: record full")
        assert written == "bus can0 entries 5\nbus can2 entries 3\n", written
        assert server.audited("can0.rec") == 5, "the audit"


def test_nearly_full_record():
    """A record that is nine tenths full is reported once, and the note names the alternatives that have no limit."""
    note = "note: bus can0: the record is nine tenths full; serve --record live or --record none has no such end"
    with serving("--limit", "50", "--pace", "0", "can0,can1") as server:
        can0, can1 = plain(server, "can0"), plain(server, "can1")
        for value in range(15):
            can0.write(f"< send 123 1 {value:X} >")
            assert can1.frame() == ("123", bytes([value])), "not the frame"
            assert value < 14 or come_true(lambda: server.said() == note), server.said()
            assert value > 13 or server.said() == "", server.said()
        server.end(note)


def test_verbose():
    """With --verbose, every client, every opened interface, every end of a session, every bus off and every restart is
    reported on a line with its time."""
    words = ("--verbose", "--auto-restart", "3", "--pace", "0", f"can0,can1@{ROOT}/examples/bus_off_attack.script")
    with serving(*words) as server:
        can0 = plain(server, "can0")
        port = can0.socket.getsockname()[1]
        can0.write("< send 123 0 >")
        assert come_true(lambda: "can0: restarted" in server.said()), server.said()
        refused = can0.answer("< sendfd 123 0 >")
        assert refused == "< error fd frames off >", refused
        can0.close()
        assert come_true(lambda: "session 1: gone" in server.said()), server.said()
        status, _ = server.finish()
        lines = [line.split(" ", 1) for line in server.said().splitlines()]
        assert status == 0 and all(re.fullmatch(r"\d{10}\.\d{6}", moment) for moment, _ in lines), server.said()
        assert [line for _, line in lines] == [
            f"session 1: came from 127.0.0.1:{port}",
            "session 1: opened can0",
            "can0: bus off",
            "can0: restarted",
            "session 1: gone, 1 frames refused, 0 dropped",
        ], server.said()


def test_down_and_up():
    """An interface that is down reports this, and neither sends nor receives anything. A restart brings it up, and the
    server reports both changes."""
    with serving("--verbose", "--pace", "0", "can0,can1") as server:
        can0, can1 = plain(server, "can0"), plain(server, "can1")
        replies = [can0.answer(f"< {words} >") for words in ("down", "status", "send 123 0")]
        assert replies == ["< ok >", "< status down 0 0 >", "< error interface down >"], replies
        assert come_true(lambda: "can0: down" in said_in_turn(server)), server.said()
        can1.write("< send 100 0 >")
        assert come_true(lambda: can1.answer("< stats >").split()[6] == "1"), can1.answer("< stats >")
        replies = [can0.answer(f"< {words} >") for words in ("restart", "status", "restart")]
        assert replies == ["< ok >", "< status active 0 0 >", "< error not bus off >"], replies
        assert come_true(lambda: "can0: restarted" in said_in_turn(server)), server.said()
        can1.write("< send 101 0 >")
        assert can0.frame() == ("101", b""), "not the frame after it came up"
        assert said_in_turn(server).count("can0: down") == 1, server.said()
        assert server.finish()[0] == 0
        assert server.audited("can0.rec") > 0, "the audit"


def said_in_turn(server):
    """Returns the lines that a server with --verbose has written, without their times."""
    return [re.sub(r"^\d{10}\.\d{6} ", "", line) for line in server.said().splitlines()]


def test_verbose_of_another_bus():
    """Interfaces and buses other than the first are reported by their own names."""
    words = ("--verbose", "--auto-restart", "3", "--pace", "0", "--limit", "50")
    with serving(*words, "car0", f"can0,can1@{ROOT}/examples/bus_off_attack.script") as server:
        ports = []
        for number, name in enumerate(("can1", "can0")):
            client = plain(server, name)
            ports.append((client, client.socket.getsockname()[1]))
            opened = f"session {number + 1}: opened {name}"
            assert come_true(lambda: said_in_turn(server)[-1:] == [opened]), server.said()
        (can1, port), (can0, other) = ports
        can1.write("< send 123 0 >")
        assert come_true(lambda: said_in_turn(server)[-1:] == ["can1: restarted"]), server.said()
        # There are 38 entries: two opens, a send, 32 attempts, and three more up to the restart. Each further frame
        # adds three entries.
        for value in range(4):
            can1.write(f"< send 123 1 {value} >")
            assert can0.frame() == ("123", bytes([value])), "not the frame"
        assert can1.answer("< send 123 0 >") == "< error record full >"
        full = "note: bus can0: record full"
        assert come_true(lambda: said_in_turn(server)[-1:] == [full]), server.said()
        assert said_in_turn(server) == [
            f"session 1: came from 127.0.0.1:{port}",
            "session 1: opened can1",
            f"session 2: came from 127.0.0.1:{other}",
            "session 2: opened can0",
            "can1: bus off",
            "can1: restarted",
            "can0: nine tenths full",
            "note: bus can0: the record is nine tenths full; serve --record live or --record none has no such end",
            "can0: record full",
            full,
        ], server.said()
        assert server.finish()[0] == 0


def test_record_that_a_delivery_finds_full():
    """If the first call that does not fit into the record is a receive, this is reported, and both sessions continue."""
    with serving("--limit", "4", "--pace", "0", "can0,can1") as server:
        can0, can1 = plain(server, "can0"), plain(server, "can1")
        can0.write("< send 123 1 5 >")
        text = can1.text()
        assert text == "< error record full >", text
        assert come_true(lambda: "can0: record full" in server.said()), server.said()
        others = can0.answer("< echo >"), can1.answer("< echo >")
        assert others == ("< echo >", "< echo >"), f"{others}"
        written = server.end("note: bus can0: record full")
        assert written == "bus can0 entries 4\n", written


def test_each_of_64_sessions():
    """A frame reaches the sockets of all sessions, whatever their session numbers are."""
    with serving("--pace", "0", "can0,can1") as server:
        sender, *others = [plain(server, "can0")] + [plain(server, "can1") for _ in range(63)]
        for number in range(3):
            sender.write(f"< send 123 1 {number} >")
            for place, one in enumerate(others):
                got = one.frame()
                assert got == ("123", bytes([number])), f"socket {place + 1}: {got}"
        server.end()


def test_counts_of_verbose():
    """With --verbose, the report contains the number of lost frames of a session, and the restart that follows many
    calls from that session."""
    words = ("--verbose", "--pace", "0", "--txqueue", "1024", "--rxqueue", "1")
    with serving(*words, f"can0,can1@{ROOT}/examples/bus_off_attack.script", "can2,can3") as server:
        off = plain(server, "can0")
        off.write("< send 123 0 >")
        assert come_true(lambda: "can0: bus off" in server.said()), server.said()
        refused = [off.answer("< send 123 0 >") for _ in range(100)]
        assert refused == ["< error bus off >"] * 100, refused[0]
        assert off.answer("< restart >") == "< ok >", "restart"
        assert come_true(lambda: "can0: restarted" in server.said()), server.said()
        sender, asleep = plain(server, "can2"), plain(server, "can3")
        for _ in range(40):
            sender.write("< send 7FF 8 1 2 3 4 5 6 7 8 >" * 1000 + "< echo >")
            while sender.text() != "< echo >":
                pass
        asleep.write("< close >")
        closed = next(text for text in iter(asleep.text, "") if text.startswith("< closed "))
        dropped = int(closed.split()[3])
        assert dropped > 0, closed
        off.close()
        gone = [
            "session 1: gone, 100 frames refused, 0 dropped",
            f"session 3: gone, 0 frames refused, {dropped} dropped",
        ]
        assert come_true(lambda: all(line in server.said() for line in gone)), f"{gone} in {server.said()}"
        status, _ = server.finish()
        assert status == 0, server.said()


@pytest.mark.slow
def test_raw_sessions_keep_their_places():
    """If all slots are taken when a client connects, a client that has been silent for a minute loses its slot, but no
    session in raw mode does."""
    with serving("can0,can1") as server:
        raw = [plain(server, "can0") for _ in range(63)]
        silent = Plain(server)
        assert silent.text() == "< hi >"
        time.sleep(61)
        newcomer = Plain(server)
        assert (newcomer.text(), silent.text()) == ("< hi >", ""), "the silent client has its place"
        answers = [one.answer("< echo >") for one in raw]
        assert answers == ["< echo >"] * 63, f"{answers}"
        server.end()


def has_ended(client):
    """Returns whether the server has closed this connection. A reset counts too."""
    try:
        return client.text() == ""
    except ConnectionError:
        return True


@pytest.mark.parametrize("pieces", ["whole", "byte by byte"])
@pytest.mark.parametrize("method", ["GET", "POST", "PATCH", "patch", "FOO", "x", "\r\n\r\nGET", " GET"])
def test_web_page(method, pieces):
    """An HTTP request with any method sends no frame on a bus. Its connection is closed, and that is reported."""
    body = "< open can0 >< rawmode >< send 123 0 >"
    request = f"{method} / HTTP/1.1\r\nHost: 127.0.0.1\r\nContent-Length: {len(body)}\r\n\r\n{body}"
    with serving("--verbose", "can0,can1") as server:
        page = Plain(server)
        page.socket.setsockopt(socket.IPPROTO_TCP, socket.TCP_NODELAY, 1)
        port = page.socket.getsockname()[1]
        assert page.text() == "< hi >"
        with contextlib.suppress(ConnectionError):
            for piece in [request] if pieces == "whole" else request:
                page.write(piece)
        assert has_ended(page), "the connection goes on"
        assert come_true(lambda: "session 1: gone" in server.said()), server.said()
        status, written = server.finish()
        lines = [line.split(" ", 1)[1] for line in server.said().splitlines()]
        assert (status, lines) == (
            0,
            [
                f"session 1: came from 127.0.0.1:{port}",
                "session 1: closed, not a client of canbusd",
                "session 1: gone, 0 frames refused, 0 dropped",
            ],
        ), server.said()
        assert written == "bus can0 entries 0\n", written
        assert server.audited("can0.rec") == 0, "the audit"


@pytest.mark.parametrize("first", ["G", "GET", " GET", "get", " ", "\t\r\n", "x>"])
def test_no_web_page(first):
    """A client that begins like an HTTP request, but has no blank after its first word, is served."""
    with serving("can0,can1") as server:
        near, other = Plain(server), plain(server, "can1")
        assert near.text() == "< hi >"
        near.write(first)
        assert other.answer("< echo >") == "< echo >"
        answers = near.answer("< open can0 >"), near.answer("< rawmode >")
        assert answers == ("< ok >", "< ok >"), f"{answers}"
        near.write("< send 123 0 >")
        assert other.frame() == ("123", b""), "not the frame"
        server.end()


def test_slow_reader():
    """Frames that a slow client does not read are dropped and counted, and no other client waits for the slow client."""
    with serving(
        "--pace", "0", "--txqueue", "1024", "--rxqueue", "100", "can0,can1", address="./slow.socket"
    ) as server:
        sender, slow, quick = plain(server, "can0"), plain(server, "can1"), plain(server, "can1")
        asleep = plain(server, "can1")
        numbers = list(range(3000))
        for number in numbers:
            sender.write(f"< send 123 2 {number >> 8:x} {number & 255:x} >")
            got = int.from_bytes(quick.frame()[1], "big")
            assert got == number, f"{got} instead of {number}"
        got, taken, queued = [], 0, None
        # The answer to `stats` arrives somewhere between the frames.
        for _ in turns("all that was queued is taken"):
            if taken == queued and len(got) >= taken:
                break
            slow.write("< stats >")
            for text in iter(slow.text, ""):
                if text.startswith("< stats "):
                    queued, dropped, taken = map(int, text.split()[2:5])
                    break
                got.append(int(text.split()[4], 16))
        assert got == sorted(set(got)) and queued + dropped == 3000 and dropped > 0, f"{len(got)} frames, {text}"
        server.end()
        asleep.close()


@pytest.mark.parametrize("most", [256, 1024, 65536])
def test_bytes_of_a_write(most):
    """Frames arrive complete and in order, however many bytes the server sends in one write."""
    options = ("--pace", "0", "--txqueue", "1024", "--rxqueue", "65536", "--write", str(most))
    with serving(*options, "can0,can1") as server:
        sender, reader = plain(server, "can0"), plain(server, "can1")
        for start in range(0, 5000, 500):
            numbers = range(start, start + 500)
            sender.write("".join(f"< send 123 2 {number >> 8:x} {number & 255:x} >" for number in numbers))
            got = [int.from_bytes(reader.frame()[1], "big") for _ in numbers]
            assert got == list(numbers), f"not the frames from {start} on"
        server.end()


@pytest.mark.skipif(not shutil.which("cc"), reason="no C compiler: cc")
@pytest.mark.parametrize("words, most", [(["--write", "256"], 256), ([], 1024), (["--write", "3000"], 3000)])
def test_lengths_of_writes(words, most, tmp_path):
    """Each write contains only complete frames and does not exceed the limit. If many frames wait, a write is longer
    than half of the limit (noted_sends.c)."""
    library, sends = tmp_path / "noted_sends.so", tmp_path / "sends"
    source = os.path.join(ROOT, "tests", "helpers", "noted_sends.c")
    subprocess.run(["cc", "-O2", "-Wall", "-Werror", "-fPIC", "-shared", "-o", library, source], check=True)
    environment = {**os.environ, "LD_PRELOAD": str(library), "SENDS": str(sends)}
    with serving_alone("--pace", "0", "--txqueue", "100", *words, "can0,can1", env=environment) as server:
        sender, reader = plain(server, "can0"), plain(server, "can1")
        for _ in range(20):
            # The server reads these messages together, and sends up to 64 frames on the bus before a client gets one.
            sender.write("< send 123 8 1 2 3 4 5 6 7 8 >" * 100)
            texts = [reader.text() for _ in range(100)]
        server.end()
    length = len(texts[0])
    assert texts[0].startswith("< frame 123 ") and all(len(text) == length for text in texts)
    lengths = [int(line) for line in sends.read_text().splitlines() if int(line) > len("< ok >")]
    assert sum(lengths) == 20 * 100 * length and all(count % length == 0 for count in lengths), f"{lengths}"
    assert most / 2 < max(lengths) <= most, f"{max(lengths)} bytes in a write"


def test_clients_that_go():
    """Clients that disconnect after half a message, or shut down their sending side, do not stop the frames of other
    clients."""
    with serving("can0,can1") as server:
        can0, can1 = plain(server, "can0"), plain(server, "can1")
        gone, half = plain(server, "can0"), plain(server, "can1")
        gone.write("< send 123 8 1")
        gone.close()
        half.socket.shutdown(socket.SHUT_WR)
        assert half.text() == "", "a session went on without its client's input"
        can0.write("< send 124 0 >")
        assert can1.frame() == ("124", b""), "not the frame"
        written = server.end()
        assert written == f"bus can0 entries {server.audited('can0.rec')}\n", written


def test_too_many_sessions():
    """A server has at most 64 sessions at once. The 65th is refused and reported."""
    with serving("--verbose", "can0") as server:
        clients = [plain(server, "can0") for _ in range(64)]
        last = Plain(server)
        texts = last.text(), last.text()
        assert texts == ("< error too many sessions >", ""), f"{texts}"
        port = last.socket.getsockname()[1]
        away = f"session 65: turned away from 127.0.0.1:{port}, too many sessions"
        assert come_true(lambda: away in said_in_turn(server)), server.said()
        clients.pop().close()
        for _ in turns("somebody comes in once one has gone"):
            if Plain(server).text() == "< hi >":
                break
        before = server.ticks()
        time.sleep(1)
        assert server.ticks() - before <= 5, f"{server.ticks() - before} hundredths of a second in one of idleness"


def test_sessions_that_come_and_go():
    """2,000 sessions that connect and disconnect, some in the middle of a message, leave no threads or descriptors
    behind."""
    openings = [
        "",
        "< open can0 >",
        "< open can0 >< rawmode >< send 123 1 2 >",
        "< open can1 >< rawmode >< close >",
        "<<<>>> \0 < send",
        "< open can0 >< rawmode >" + "< send 7FF 8 1 2 3 4 5 6 7 8 >" * 50,
    ]
    with serving("--pace", "0", "--txqueue", "1024", "can0,can1") as server:
        # All threads of the server have started once the first client has been greeted and has disconnected.
        with contextlib.closing(Plain(server)) as visitor:
            assert visitor.text() == "< hi >"
        assert come_true(server.rests), "the server does not come to rest"
        before = server.held()

        def visit(first):
            for number in range(first, first + 250):
                with contextlib.suppress(OSError), contextlib.closing(Plain(server)) as visitor:
                    visitor.write(openings[number % len(openings)])
                    if number % 4:
                        visitor.text()

        threads = [threading.Thread(target=visit, args=(first,)) for first in range(0, 2000, 250)]
        for thread in threads:
            thread.start()
        join(threads, 3 * WAIT)
        left = server.held
        assert come_true(lambda: left() == before), f"{left()} descriptors and threads, {before} before"
        server.end()
        server.audited("can0.rec")


def test_ends_while_busy():
    """A server that is ended with Ctrl-C while all sessions send and receive leaves complete records."""
    for _ in range(5):
        with serving("--pace", "0", "--txqueue", "1024", "--rxqueue", "65536", "can0,can1", "can2,can3") as server:
            clients = [plain(server, f"can{number}") for number in (0, 0, 1, 2, 3)]
            rounds = [0] * len(clients)

            def send(place, one):
                with contextlib.suppress(OSError):
                    while True:
                        one.write("< send 123 4 11 22 33 44 >< send 92345678 0 >")
                        one.socket.recv(65536)
                        rounds[place] += 1

            threads = [threading.Thread(target=send, args=one) for one in enumerate(clients)]
            for thread in threads:
                thread.start()
            assert come_true(lambda: min(rounds) >= 50), f"rounds of the clients: {rounds}"
            written = server.end()
            join(threads)
            audited = [server.audited(name) for name in ("can0.rec", "can2.rec")]
            assert written == f"bus can0 entries {audited[0]}\nbus can2 entries {audited[1]}\n", written


def test_unix_path(tmp_path):
    """A server takes over a socket file without a listener, and removes it at the end. It does not touch a socket that
    is in use."""
    path = os.path.join(tmp_path, "socket")
    with socket.socket(socket.AF_UNIX) as stale:
        stale.bind(path)
    with serving("can0", address=path) as server:
        assert server.address == path, server.address
        status, _, errors = call(program(), "serve", "--listen", path, "can0")
        assert status == 1 and errors.startswith("canbusd: cannot listen\n"), f"{status} {errors}"
        assert plain(server, "can0").answer("< echo >") == "< echo >", "the first server"
        server.end()
    assert not os.path.exists(path), "the file is still there"


def connected(server):
    """Opens a connection to a server; returns None if it is refused."""
    with contextlib.suppress(ConnectionRefusedError, ConnectionResetError, FileNotFoundError):
        if ":" in server.address:
            return socket.create_connection((server.host, server.port), WAIT)
        one = socket.socket(socket.AF_UNIX)
        one.settimeout(WAIT)
        try:
            one.connect(server.address)
            return one
        except BaseException:
            one.close()
            raise
    return None


def heard(connection):
    """Returns all bytes that a connection receives until its end. Sends a byte first, because if Linux dropped a new
    connection on the server's side, the client is notified of this only when it sends.
    """
    text = b""
    with contextlib.suppress(ConnectionResetError, BrokenPipeError):
        connection.sendall(b" ")
        while piece := connection.recv(4096):
            text += piece
    return text


@pytest.mark.slow
def test_ends_in_bursts():
    """1,000 servers are ended while clients connect. Every server exits, and each client gets either a greeting or
    nothing."""
    for number in range(1000):
        path = "./burst.socket" if number % 2 else "127.0.0.1:0"
        with contextlib.ExitStack() as stack:
            server = stack.enter_context(serving_alone("can0", address=path))
            if number % 2:
                server.address = server.path("burst.socket")
            burst = [connected(server) for _ in range(number % 24)]
            server.child.stdin.close()
            while len(burst) < 60 and burst[-1:] != [None]:
                burst.append(connected(server))
            for one in filter(None, burst):
                stack.enter_context(one)
            try:
                assert server.child.wait(WAIT) == 0, f"burst {number}: status {server.child.returncode}"
            except subprocess.TimeoutExpired:
                raise AssertionError(f"burst {number}: the server goes on") from None
            for one in filter(None, burst):
                assert heard(one) in (b"", b"< hi >"), f"burst {number}: a client heard something else"


def test_door_after_the_last_session():
    """After the last session that --sessions allows has begun, new clients are refused at once, and so is a waiting
    client."""
    for address in ("127.0.0.1:0", "./last.socket"):
        with serving_alone("--sessions", "1", "can0", address=address) as server:
            if ":" not in address:
                server.address = server.path("last.socket")
            with contextlib.closing(Plain(server)) as first:
                assert first.text() == "< hi >", "the session"
                for _ in turns("newcomers are refused"):
                    if (late := connected(server)) is None:
                        break
                    with late:
                        assert heard(late) == b"", "a client that came too late heard something"
                assert first.answer("< open can0 >") == "< ok >", "the session goes on"
            assert server.child.wait(WAIT) == 0, "the end"


def test_attempts_in_vain_at_the_end(tmp_path):
    """Neither an unacknowledged frame nor an interface that waits for its restart delays the end of a server."""
    most = 16777216
    with serving("--ack", "peers", "--pace", "0", "--limit", str(most), "can0") as server:
        plain(server, "can0").write("< send 123 0 >")
        server.end()
        assert server.audited("can0.rec") < most
    script = tmp_path / "faults"
    script.write_text("".join(f"{number} global bit\n" for number in range(32)))
    with serving("--auto-restart", "1000000", f"can0,can1@{script}") as server:
        one = plain(server, "can0")
        one.write("< send 123 0 >")
        assert come_true(lambda: one.answer("< status >").startswith("< status off ")), "bus off"
        server.end()
        assert server.audited("can0.rec") < 1000000


def test_own_socket_file(tmp_path):
    """A server removes only its own socket file, and only one server can use a path."""
    path = os.path.join(tmp_path, "socket")

    def second():
        return call(program(), "serve", "--listen", path, "can0")[0]

    # A server that checks whether the path is in use does not count as a session of the first server, even if the first
    # server is stopped.
    with serving_alone("--sessions", "1", "can0", address=path) as server:
        assert second() == 1, "two servers have one path"
        os.kill(server.child.pid, signal.SIGSTOP)
        waiting = [socket.socket(socket.AF_UNIX) for _ in range(200)]
        for one in waiting:
            one.setblocking(False)
            with contextlib.suppress(BlockingIOError):
                one.connect(path)
        assert second() == 1, "two servers have one path, one of them stopped"
        for one in waiting:
            one.close()
        os.kill(server.child.pid, signal.SIGCONT)
        assert server.child.wait(WAIT) == 0, "the end"
    assert os.listdir(tmp_path) == [], f"{os.listdir(tmp_path)} is left"
    # A file that has replaced the socket is not removed.
    for kind in ("file", "socket"):
        with serving_alone("can0", address=path) as server:
            os.unlink(path)
            with socket.socket(socket.AF_UNIX) as other:
                if kind == "file":
                    with open(path, "wb") as file:
                        file.write(b"mine")
                else:
                    other.bind(path)
                    other.listen()
                server.end()
                assert os.listdir(tmp_path) == ["socket"], f"{os.listdir(tmp_path)} is left of a {kind}"
        os.unlink(path)
    # The next server takes over the socket file of a killed server. If two servers start at once, only one of them gets
    # it.
    for _ in range(100):
        with serving_alone("can0", address=path) as server:
            server.child.kill()
            server.child.wait(WAIT)
        assert os.path.exists(path), "the killed server's file"
        both = [
            subprocess.Popen(
                [program(), "serve", "--until-eof", "--listen", path, "can0"],
                text=True,
                stdin=subprocess.PIPE,
                stdout=subprocess.PIPE,
                stderr=subprocess.DEVNULL,
            )
            for _ in range(2)
        ]
        lines = [line_of(one.stdout) for one in both]
        for one in both:
            one.communicate(timeout=WAIT)
        assert sorted(lines) == ["", f"listening {path}\n"], f"{lines}"


def test_folder_of_a_server(tmp_path):
    """A folder in which no file can be created is refused before the server listens. Files of an earlier run remain
    until the new files are complete."""
    none = os.path.join(tmp_path, "none")
    words = [program(), "serve", "--listen", "127.0.0.1:0", "--until-eof", "--out"]
    said = f"canbusd: cannot open {none}\n  {none}/can0.rec.new: No such file or directory (os error 2)\n"
    assert call(*words, none, "can0") == (1, "", said)
    os.mkdir(none)
    for name in ("can0.log", "can0.rec"):
        with open(os.path.join(none, name), "w", encoding="utf-8") as file:
            file.write(f"old {name}\n")

    def may_not_grow():
        resource.setrlimit(resource.RLIMIT_FSIZE, (0, 0))
        signal.signal(signal.SIGXFSZ, signal.SIG_IGN)

    status, _, errors = call(*words, none, "can0", preexec_fn=may_not_grow)
    faults = [line for line in errors.splitlines() if not line.startswith("  ")]
    assert (status, faults) == (1, ["canbusd: write fault"]), errors
    with open(os.path.join(none, "can0.rec"), encoding="utf-8") as file:
        assert file.read() == "old can0.rec\n"
    assert sorted(os.listdir(none)) == ["can0.log", "can0.rec"], f"{os.listdir(none)}"


def test_links_of_a_folder(tmp_path):
    """A link that somebody else created at a name that a server writes to first is removed and not followed."""
    words = [program(), "serve", "--listen", "127.0.0.1:0", "--until-eof", "--out", str(tmp_path), "can0"]
    others = tmp_path / "others"
    others.write_text("of others\n")
    for name in ("can0.rec.new", "can0.log.new"):
        (tmp_path / name).symlink_to(others)
    status, _, errors = call(*words)
    assert (status, errors) == (0, "")
    assert others.read_text() == "of others\n", "it was written through a link"
    assert sorted(os.listdir(tmp_path)) == ["can0.log", "can0.rec", "others"]
