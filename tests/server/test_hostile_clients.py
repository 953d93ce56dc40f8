"""Tests clients of `canbusd serve` that send random bytes, disconnect at any time, or read nothing. After each of them
a frame still passes between two sessions on the same bus, and at the end the record is audited.
"""

import contextlib
import random
import resource
import select
import socket
import struct
import threading
import time

import pytest

from serving import WAIT, Pair, Plain, come_true, join, plain, serving_alone, turns

FAST = ("--pace", "0", "--txqueue", "1024")
# The messages with which a client enters raw mode, and further messages in raw mode.
DIALOGUE = b"< open can1 >< rawmode >< filter 1 123 7FF >< send 124 2 1 2 >< stats >< errmask FF >< send 7FF 0 >"
WORDS = [
    b"open",
    b"can1",
    b"can2",
    b"rawmode",
    b"send",
    b"sendrtr",
    b"123",
    b"12345678",
    b"8",
    b"0",
    b"ff",
    b"filter",
    b"512",
    b"join",
    b"loopback",
    b"recvown",
    b"fdframes",
    b"sendfd",
    b"sendfdx",
    b"12",
    b"errmask",
    b"FFFFFFFF",
    b"errdata",
    b"ack",
    b"origin",
    b"interfaces",
    b"1",
    b"stats",
    b"status",
    b"load",
    b"echo",
    b"restart",
    # Words for fault rules. No rule made of these words affects frames of other clients.
    b"fault",
    b"faults",
    b"nofaults",
    b"next",
    b"always",
    b"from",
    b"skip",
    b"good",
    b"bcmmode",
    b"close",
    b"\0",
    b"\xff\xfe",
    b"<",
    b">",
    b"><",
    b"< ",
    b" >",
    b"\r\n",
    b"\t",
    b"x" * 1100,
]


@contextlib.contextmanager
def disturbed(*words, sessions=4000, says="", **how):
    """Runs a server with two sessions that keep exchanging frames, and audits its record at the end."""
    with serving_alone(*FAST, "--sessions", str(sessions), *words, "can0,can1,can2", **how) as server:
        pair = Pair(server)
        yield server, pair
        pair.go_on("all of it")
        written = server.end(says)
        assert written == f"bus can0 entries {server.audited('can0.rec')}\n", written


def connect(server):
    return socket.create_connection((server.host, server.port), 10)


def reset(client):
    """Resets the connection: bytes in transit are lost, and the server gets an error."""
    client.setsockopt(socket.SOL_SOCKET, socket.SO_LINGER, struct.pack("ii", 1, 0))
    client.close()


def gone(client, how):
    """Disconnects a client in one of three ways."""
    if how == "reset":
        reset(client)
    elif how == "half closed":
        # If the server has closed the connection first, shutdown fails with ENOTCONN.
        with contextlib.suppress(OSError):
            client.shutdown(socket.SHUT_WR)
            while client.recv(65536):
                pass
        client.close()
    else:
        client.close()


def nonsense(rng):
    """Returns random bytes, or random words in messages."""
    if rng.random() < 0.4:
        return rng.randbytes(rng.choice([1, 10, 1000, 20000]))
    text = b"".join(
        b"< " + b" ".join(rng.choices(WORDS, k=rng.randrange(6))) + b" >" for _ in range(rng.choice([1, 5, 50]))
    )
    return rng.choice([b"", b"< open can1 >", b"< open can2 >< rawmode >"]) + text


def test_random_bytes(rng):
    """The server survives 600 clients that send random bytes and words in pieces of different sizes."""
    with disturbed() as (server, pair):
        for number in range(600):
            client, text = connect(server), nonsense(rng)
            with contextlib.suppress(ConnectionError):
                while text:
                    size = rng.choice([1, 3, 100, 5000])
                    client.sendall(text[:size])
                    text = text[size:]
                    if rng.random() < 0.1 and select.select([client], [], [], 0)[0]:
                        client.recv(100)
                gone(client, rng.choice(["reset", "closed", "half closed"]))
            client.close()
            if number % 10 == 0:
                pair.go_on("random bytes")


def test_cut_messages():
    """The server survives clients that disconnect after any byte of a dialogue, in each of three ways."""
    with disturbed() as (server, pair):
        for end in range(len(DIALOGUE) + 1):
            for how in ("reset", "closed", "half closed"):
                client = connect(server)
                with contextlib.suppress(ConnectionError):
                    client.sendall(DIALOGUE[:end])
                    gone(client, how)
            pair.go_on(f"a dialogue cut at byte {end}")


def test_one_byte_at_a_time():
    """A dialogue that arrives byte by byte gets the usual answers."""
    with disturbed() as (server, pair), contextlib.closing(Plain(server)) as client:
        client.socket.setsockopt(socket.IPPROTO_TCP, socket.TCP_NODELAY, 1)
        for byte in DIALOGUE + b"< close >":
            client.socket.sendall(bytes([byte]))
        texts = list(iter(client.text, ""))
        wanted = ["< hi >", "< ok >", "< ok >", "< ok >", "< stats 0 0 0 1 1 0 0 0 >", "< ok >", "< closed 0 0 >"]
        assert [text.replace("1 0 1 0 0 >", "1 1 0 0 0 >") for text in texts] == wanted, f"{texts}"
        pair.go_on("single bytes")


def test_endless_messages():
    """A message of a million bytes is reported once, a million `<` are skipped, and the next message is read."""
    with disturbed() as (server, pair):
        before = server.memory("VmRSS")
        for text, replies in [
            (b"<" * 10**6, []),
            (b"< " + b"x" * 10**6, ["< error message too long >"]),
            (b"x" * 10**6, []),
            (b">" * 10**6, []),
            (b"< >" * 10**3, ["< error empty message >"] * 10**3),
        ]:
            with contextlib.closing(Plain(server)) as client:
                client.write(text.decode() + "< echo >")
                texts = [client.text() for _ in range(len(replies) + 2)]
                assert texts == ["< hi >", *replies, "< echo >"], f"{text[:3]}..: {texts[:5]}"
            pair.go_on(f"{len(text)} bytes of {text[:3]}")
        grown = server.memory("VmRSS") - before
        assert grown < 4096, f"{grown} KB more"


def test_nobody_takes_the_answers():
    """If a client sends commands and reads no answers, the server stops reading from that client and still serves other
    clients."""
    with disturbed() as (server, pair):
        for command in (b"< echo >", b"< x >", b"< open can9 >"):
            client = connect(server)
            client.settimeout(0.5)
            said = 0
            with contextlib.suppress(TimeoutError):
                while said < 2 * 10**8:
                    said += client.send(command * 1000)
            assert said < 2 * 10**8, "it reads without an end though nobody takes its answers"
            pair.go_on("a client that takes no answers")
            reset(client)
            pair.go_on("its reset")


def test_slow_readers():
    """Twenty sessions that do not read 3,000 frames delay no other session. Ten of the twenty are reset, and the other
    ten then read their frames in order."""
    with disturbed("--rxqueue", "100") as (server, pair):
        slow, sender = [plain(server, "can1") for _ in range(20)], plain(server, "can2")
        assert sender.answer("< filter 0 >") == "< ok >", "the sender"
        for number in range(3000):
            sender.write(f"< send 123 2 {number >> 8:x} {number & 255:x} >")
            if number % 100 == 0:
                pair.go_on("frames that nobody reads")
        for one in slow[:10]:
            reset(one.socket)
        pair.go_on("resets of slow readers")
        for one in slow[10:]:
            one.write("< close >")
            texts = list(iter(one.text, ""))
            numbers = [int(text.split()[4], 16) for text in texts if text.startswith("< frame 123 ")]
            is_in_order = numbers == sorted(set(numbers)) and texts[-1].startswith("< closed ")
            assert is_in_order, f"{len(texts)} texts, {texts[-1:]}"


def test_silent_connections(rng):
    """The 62 session slots of silent connections, and the file descriptors of 40 refused connections, are free again
    after these disconnect."""
    with disturbed() as (server, pair):
        before = server.held()
        for _ in range(3):
            silent = [Plain(server) for _ in range(62)]
            assert [one.text() for one in silent] == ["< hi >"] * 62, "not everybody came in"
            more = [Plain(server) for _ in range(40)]
            texts = {one.text() for one in more}
            assert texts == {"< error too many sessions >"}, f"{texts}"
            pair.go_on("64 sessions")
            for one in silent + more:
                rng.choice([reset, lambda client: client.close()])(one.socket)
            assert come_true(
                lambda: server.held() == before
            ), f"{server.held()} descriptors and threads, {before} before"


def comes_in(server):
    with contextlib.closing(Plain(server)) as client:
        return client.text() == "< hi >"


def test_storms(rng):
    """Frames still pass while 1,500 clients from 16 threads connect and disconnect in every way."""
    with disturbed() as (server, pair):
        seeds = [rng.randrange(2**32) for _ in range(16)]
        threads = [threading.Thread(target=storm, args=(server, random.Random(seed), 94)) for seed in seeds]
        for thread in threads:
            thread.start()
        for _ in turns("the storm is over", 6 * WAIT):
            if not any(thread.is_alive() for thread in threads):
                break
            pair.go_on("a storm")
            time.sleep(0.01)


def storm(server, rng, count):
    for _ in range(count):
        with contextlib.suppress(OSError):
            client = connect(server)
            client.sendall(DIALOGUE[: rng.randrange(len(DIALOGUE))] * rng.choice([1, 1, 30]))
            if rng.random() < 0.5:
                client.recv(4096)
            gone(client, rng.choice(["reset", "closed", "half closed"]))


def test_four_thousand_sessions():
    """One run serves 4,000 sessions, half of them in raw mode with frames, and only its record makes its memory grow."""
    with disturbed() as (server, pair):
        visit(server, 200)
        before = server.memory("VmRSS")
        visit(server, 4000 - 2 - 200)
        assert come_true(lambda: server.held() < 60), f"{server.held()} descriptors and threads are left"
        grown = server.memory("VmRSS") - before
        pair.go_on("3,998 sessions")
        with contextlib.suppress(OSError):
            assert not comes_in(server), "one more comes in"
    # For half of the sessions the record has four entries, and each entry is also stored in a list of 4 calls.
    most = (1900 * 4 * 36 + 1900 * 4 * 104) // 1024 + 2048
    assert grown <= most, f"{grown} KB more"


def visit(server, count):
    """Opens `count` sessions from 8 threads; every second session enters raw mode."""
    failed = []

    def come(first):
        for number in range(first, count, 8):
            try:
                with contextlib.closing(Plain(server)) as client:
                    texts = [client.text()]
                    if number % 2:
                        texts += [
                            client.answer("< open can1 >"),
                            client.answer("< rawmode >"),
                            client.answer("< stats >"),
                        ]
                        client.write("< send 124 0 >< close >")
                    client.socket.shutdown(socket.SHUT_WR)
                    texts += list(iter(client.text, ""))
                    assert texts[0] == "< hi >" and (len(texts) == 1 or texts[-1].startswith("< closed ")), f"{texts}"
            except (OSError, AssertionError) as fault:
                failed.append(fault)

    threads = [threading.Thread(target=come, args=(first,)) for first in range(8)]
    for thread in threads:
        thread.start()
    join(threads, 6 * WAIT)
    assert not failed, f"{len(failed)} of {count}: {failed[:1]}"


def test_too_few_descriptors():
    """While there are more clients than file descriptors, for five seconds, the server does not spin. It then accepts
    the remaining sessions.
    """

    def begin():
        resource.setrlimit(resource.RLIMIT_NOFILE, (24, 24))

    with disturbed(sessions=200, preexec_fn=begin) as (server, pair):
        crowd = [connect(server) for _ in range(60)]
        ticks, until = server.ticks(), time.monotonic() + 5
        while time.monotonic() < until:
            pair.go_on("too few descriptors")
            time.sleep(0.05)
        ticks = server.ticks() - ticks
        assert ticks < 100, f"{ticks} hundredths of a second of processor time"
        for client in crowd:
            client.close()
        served = 0
        with contextlib.suppress(OSError):
            while served <= 200 and comes_in(server):
                served += 1
        # A connection that could not be accepted does not count as a session. Only the pair and the crowd count.
        assert served == 200 - 2 - 60, f"{served} of 138 sessions are left"
