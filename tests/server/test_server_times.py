"""Tests `canbusd serve --bitrate`: the times of frames on the bus of a server, and the times at which clients get them.
"""

from __future__ import annotations

import functools
import itertools
import os
import pathlib
import random
import re
import shutil
import signal
import subprocess
import sys
import time
from collections.abc import Callable, Sequence

import pytest

from serving import ROOT, Plain, Server, come_true, plain, program, serving, serving_alone, turns
from timed_benches import MICRO, bench, moment, random_frame, rate_options, send
from wire_model import Frame
from wire_times import IDLE, SECOND, Ending, Rates

# By how much a client's clock may differ from the server's, in seconds. Both are set to the system's time at the start.
CLOCKS = 0.001
EIGHT_BYTES = Frame.read("123#1122334455667788")
# How many frames wait in a queue. The client keeps the queue full unless it is late by more time than these frames
# take.
WINDOW = 1024


class TooBusy(Exception):
    """The machine was too busy, so the server ran late."""


def patiently(test: Callable[..., None]) -> Callable[..., None]:
    """Runs the test up to three times, until the machine is not too busy for it."""

    @functools.wraps(test)
    def tried(**fixtures: object) -> None:
        for _ in range(2):
            try:
                return test(**fixtures)
            except TooBusy:
                pass
        return test(**fixtures)

    return tried


def end_in_time(server: Server) -> None:
    """Ends a server; raises TooBusy if the server ran late."""
    status, _ = server.finish()
    said = server.said()
    if said:
        raise TooBusy(said)
    assert status == 0


def micros(text: str) -> int:
    return int(text.replace(".", ""))


def replayed(path: str, rates: Rates) -> str:
    """Replays the times in a record with its bit rates, which must yield no finding; returns the report."""
    words = [sys.executable, "-m", "canbusd", "replay", "--quiet", *rate_options(rates), path]
    done = subprocess.run(words, capture_output=True, text=True, timeout=120, check=False)
    assert (done.returncode, done.stderr) == (0, ""), done.stderr
    return done.stdout


def attempts(server: Server, name: str = "can0") -> list[tuple[int, str]]:
    """Returns the attempts in the record of a bus: for each, the time in microseconds and the line."""
    with open(server.path(f"{name}.rec"), encoding="utf-8") as record:
        lines = [line for line in record if line.startswith("attempt ")]
    return [(micros(line.split(" ")[1]), line) for line in lines]


def quiet(server: Server, name: str) -> Plain:
    """Opens a session that gets no frames, so that the client only reads replies."""
    client = raw(server, name)
    assert client.answer("< filter 0 >") == "< ok >"
    return client


def waiting(client: Plain) -> int:
    """Returns how many frames wait at the session's interface."""
    return int(client.answer("< stats >").split(" ")[7])


def raw(server: Server, name: str) -> Plain:
    """Opens a session that also accepts FD frames."""
    client = plain(server, name)
    assert client.answer("< fdframes 1 >") == "< ok >"
    return client


def received(client: Plain) -> int:
    """Returns the timestamp of the next frame, in microseconds."""
    return micros(re.search(r" (\d+\.\d{6}) ", client.text())[1])


@patiently
@pytest.mark.parametrize("nominal", [5_000, 125_000, 1_000_000])
def test_moments_are_those_of_the_bench(nominal: int, rng: random.Random) -> None:
    """Waiting frames follow one another without gaps, at the same times as on a bench whose time is set to the first
    send."""
    rates = Rates(nominal, rng.choice([None, nominal, 8 * nominal]))
    frames = [random_frame(rng) for _ in range(12)]
    with serving(*rate_options(rates), "--txqueue", "1024", "can0,can1") as server:
        can0, can1 = raw(server, "can0"), raw(server, "can1")
        can0.write("".join(map(send, frames)))
        moments = [received(can1) for _ in frames]
        end_in_time(server)
        made = [when for when, _ in attempts(server)]
        said = replayed(server.path("can0.rec"), rates)
    began = moments[0] - rates.frame_nanos(frames[0]) // MICRO
    lines = [f"at {moment(began * MICRO)}", *(f"feed 1 {send(frame)}" for frame in frames), *len(frames) * ["attempt"]]
    options = [*rate_options(rates), "--txqueue", "1024"]
    written = [line.split(" at ")[1] for line in bench(program(), options, ["can0", "can1"], lines)]
    assert moments == made == [micros(text) for text in written]
    # The bus is busy all the time, except during the last intermission and for the rounding of times.
    assert re.match(r"load (?:100\.0|99\.\d) %: ", said), said


@patiently
def test_each_bus_has_bit_rates_of_its_own(rng: random.Random) -> None:
    """A bit rate with a name applies to the bus with that name, and a bit rate without a name applies to all other
    buses."""
    buses = {"can0": Rates(500_000, 2_000_000), "body0": Rates(125_000, 2_000_000), "fd0": Rates(500_000, 8_000_000)}
    words = "--bitrate 500000 --dbitrate fd1=8000000 --bitrate body1=125000 --dbitrate 2000000 --txqueue 1024".split()
    frames = [random_frame(rng) for _ in range(12)]
    with serving(*words, "can0,can1", "body0,body1", "fd0,fd1") as server:
        moments = {}
        for name, rates in buses.items():
            sender, receiver = raw(server, name), raw(server, f"{name[:-1]}1")
            assert sender.answer("< load >").endswith(f" {rates.nominal} {rates.fast} >")
            sender.write("".join(map(send, frames)))
            moments[name] = [received(receiver) for _ in frames]
        end_in_time(server)
        for name, rates in buses.items():
            assert moments[name] == [when for when, _ in attempts(server, name)]
            replayed(server.path(f"{name}.rec"), rates)
    for name, rates in buses.items():
        # Each frame begins at the end of the attempt before it.
        nanos = [rates.frame_nanos(frames[0])]
        for before, frame in itertools.pairwise(frames):
            nanos.append(nanos[-1] + rates.attempt_nanos(before) - rates.frame_nanos(before) + rates.frame_nanos(frame))
        steps = [(when - moments[name][0]) * MICRO - (end - nanos[0]) for when, end in zip(moments[name], nanos)]
        assert all(abs(step) <= MICRO for step in steps), (name, steps)


@pytest.mark.quiet
@patiently
def test_a_bus_without_bit_rate_is_beside_one_with_it() -> None:
    """If only one of two buses has a bit rate, the other bus runs at --pace, and its load is 0."""
    with serving("--bitrate", "body0=5000", "can0,can1", "body0,body1") as server:
        can0, can1, body0 = plain(server, "can0"), plain(server, "can1"), plain(server, "body0")
        assert [one.answer("< load >") for one in (can0, body0)] == ["< load 0 0 0 0 >", "< load 0 0 5000 5000 >"]
        begun = time.monotonic()
        can0.write(10 * send(EIGHT_BYTES))
        for _ in range(10):
            received(can1)
        # At 5,000 bit/s ten frames would take 222 ms or more.
        assert time.monotonic() - begun < 10 * Rates(5_000).frame_nanos(EIGHT_BYTES) / SECOND
        end_in_time(server)


@patiently
def test_random_frames_and_faults(rng: random.Random) -> None:
    """If two nodes send with pauses and some attempts fail, every attempt begins at or after the end of the previous
    one."""
    rates = Rates(500_000, 2_000_000)
    with serving(*rate_options(rates), "--txqueue", "100", "--auto-restart", "128", "can0,can1") as server:
        clients = [quiet(server, "can0"), quiet(server, "can1")]
        kinds = ["lastbit", "global bit", "local crc can1", "global form", "local stuff can0"]
        for number in range(300):
            if number % 7 == 0:
                assert clients[0].answer(f"< fault next 1 {rng.choice(kinds)} >") == "< ok >"
            rng.choice(clients).write(send(random_frame(rng)))
            time.sleep(rng.choice([0, 0, 0, 0.001]))
        assert come_true(lambda: not any(map(waiting, clients))), "frames wait"
        end_in_time(server)
        server.audited("can0.rec")
        moments = [when for when, _ in attempts(server)]
        replayed(server.path("can0.rec"), rates)
    assert moments == sorted(moments) and len(moments) > 300


@patiently
@pytest.mark.parametrize("nominal", [5_000, 500_000])
def test_nobody_gets_a_frame_before_its_end(nominal: int) -> None:
    """A client gets a frame only after the end of the frame, so an answer to it begins later."""
    rates, frame = Rates(nominal), EIGHT_BYTES
    lasts = rates.frame_nanos(frame) / SECOND
    with serving(*rate_options(rates), "can0,can1") as server:
        can0, can1 = plain(server, "can0"), plain(server, "can1")
        for _ in range(20):
            sent = time.monotonic()
            can0.write(send(frame))
            end = received(can1)
            now, took = time.time(), time.monotonic() - sent
            assert took >= lasts and now >= end / 1_000_000 - CLOCKS, (took, lasts, now, end)
            can1.write(send(frame))
            answered = received(can0)
            assert answered >= end + (rates.attempt_nanos(frame) - rates.frame_nanos(frame) + lasts * SECOND) // MICRO
        end_in_time(server)
        replayed(server.path("can0.rec"), rates)


@pytest.mark.quiet
@patiently
def test_sender_gets_its_frame_at_its_end() -> None:
    """A sender gets its own frame by loopback only after the end of the frame, but gets the reply to the send at once."""
    rates, frame = Rates(5_000), Frame.read("123#11")
    with serving("--bitrate", "5000", "can0") as server:
        can0 = plain(server, "can0")
        assert [can0.answer(text) for text in ("< ack 1 >", "< recvown 1 >")] == ["< ok >", "< ok >"]
        sent = time.monotonic()
        assert can0.answer(send(frame)) == "< ack 0 >"
        assert time.monotonic() - sent < rates.frame_nanos(frame) / SECOND
        received(can0)
        assert time.monotonic() - sent >= rates.frame_nanos(frame) / SECOND
        end_in_time(server)


@patiently
def test_recovery_takes_128_times_11_bits() -> None:
    """An interface that goes bus off on an idle bus is active again 128 * 11 bits after its last attempt."""
    rates, frame = Rates(20_000), Frame.read("123#11")
    with serving("--bitrate", "20000", "--auto-restart", "128", "can0,can1") as server:
        can0 = plain(server, "can0")
        assert can0.answer("< fault next 32 global bit >") == "< ok >"
        can0.write(send(frame))
        assert come_true(lambda: "off" in can0.answer("< status >"))
        assert come_true(lambda: can0.answer("< status >") == "< status active 0 0 >")
        end_in_time(server)
        tried = attempts(server)
        replayed(server.path("can0.rec"), rates)
    idle = [when for when, line in tried if " tried " not in line]
    last = max(when for when, line in tried if " tried " in line)
    over = last * MICRO - rates.frame_nanos(frame) + rates.attempt_nanos(frame, Ending.AFTER_DATA)
    assert len(tried) - len(idle) == 32 and len(idle) == 128
    assert abs(idle[-1] * MICRO - over - 128 * rates.idle_nanos()) <= MICRO
    assert [b - a for a, b in itertools.pairwise(idle)] == 127 * [IDLE * 50]


def test_late_server_leaves_out_what_it_missed() -> None:
    """A server that was stopped reports its delay once a minute for each bus, and continues at the current time."""
    rates = Rates(50_000)
    usual = rates.attempt_nanos(EIGHT_BYTES) // MICRO
    with serving_alone(*rate_options(rates), "--txqueue", "1024", "--verbose", "car0", "can0,can1") as server:
        can0, can1 = plain(server, "can0"), plain(server, "can1")
        # These frames take more than two seconds, so that some still wait at each stop.
        can0.write(1000 * send(EIGHT_BYTES))
        moments = [received(can1)]
        for _ in range(2):
            server.child.send_signal(signal.SIGSTOP)
            time.sleep(0.4)
            server.child.send_signal(signal.SIGCONT)
            for _ in turns("a frame comes late"):
                moments.append(received(can1))
                if moments[-1] - moments[-2] > usual + 100_000:
                    break
        status, _ = server.finish()
        lines = [line for line in server.said().splitlines() if line.endswith(" s behind its bit rate")]
        assert status == 0 and len(lines) == 2, server.said()
        late = re.fullmatch(r"note: bus can0: (\d\.\d s behind its bit rate)", lines[1])
        assert late and re.fullmatch(rf"\d{{10}}\.\d{{6}} can0: {re.escape(late[1])}", lines[0]), lines
        replayed(server.path("can0.rec"), rates)
    steps = [b - a for a, b in itertools.pairwise(moments)]
    assert min(steps) >= usual, steps


@pytest.mark.skipif(not shutil.which("cc"), reason="no C compiler: cc")
@pytest.mark.parametrize("words, later", [(["--bitrate", "500000"], 0), ([], 3600)])
def test_a_clock_that_is_set(words: Sequence[str], later: int, tmp_path: pathlib.Path) -> None:
    """If the clock is changed by an hour (set_clock.c), times with a bit rate continue as before, and times without one
    follow the clock."""
    library, changed = tmp_path / "set_clock.so", tmp_path / "changed"
    source = os.path.join(ROOT, "tests", "helpers", "set_clock.c")
    subprocess.run(["cc", "-O2", "-Wall", "-Werror", "-fPIC", "-shared", "-o", library, source], check=True)
    environment = {**os.environ, "LD_PRELOAD": str(library), "CLOCK": str(changed)}
    with serving_alone(*words, "can0,can1", env=environment) as server:
        can0, can1 = plain(server, "can0"), plain(server, "can1")
        sent, begun = time.time(), time.monotonic()
        can0.write(send(EIGHT_BYTES))
        first, had = received(can1) / 1_000_000, time.monotonic()
        time.sleep(0.1)
        changed.touch()
        again = time.monotonic()
        can0.write(send(EIGHT_BYTES))
        passed, over = received(can1) / 1_000_000 - first, time.monotonic()
        status, _ = server.finish()
    assert status == 0 and sent - CLOCKS <= first <= sent + over - begun + CLOCKS, (sent, first)
    assert again - had - CLOCKS <= passed - later <= over - begun + CLOCKS, (again - had, passed, over - begun)


@pytest.mark.quiet
@patiently
def test_end_waits_for_no_frame() -> None:
    """When a server ends, waiting frames are tried with the times that they would have had, and the server exits at
    once."""
    rates = Rates(5_000)
    with serving(*rate_options(rates), "--txqueue", "1024", "can0,can1") as server:
        can0 = quiet(server, "can0")
        can0.write(500 * send(EIGHT_BYTES))
        assert come_true(lambda: 0 < waiting(can0) < 500)
        begun = time.monotonic()
        end_in_time(server)
        assert time.monotonic() - begun < 5 < 500 * rates.attempt_nanos(EIGHT_BYTES) / SECOND
        moments = [when for when, _ in attempts(server)]
        replayed(server.path("can0.rec"), rates)
    assert len(moments) == 500
    assert abs(moments[-1] - moments[0] - 499 * rates.attempt_nanos(EIGHT_BYTES) // MICRO) <= 1


@pytest.mark.quiet
@patiently
@pytest.mark.parametrize("words", [[], ["--record", "none"]])
def test_nothing_spins(words: Sequence[str]) -> None:
    """The server uses almost no processor time while no frame waits, and little while frames are on the bus."""
    with serving_alone("--bitrate", "5000", *words, "can0,can1") as server:
        can0 = plain(server, "can0")
        can0.write(send(EIGHT_BYTES))
        time.sleep(0.5)
        before = server.ticks()
        time.sleep(1)
        assert server.ticks() - before <= 3, "it runs while nothing waits"
        can0.write(30 * send(EIGHT_BYTES))
        before = server.ticks()
        time.sleep(0.5)
        assert server.ticks() - before <= 10, "it runs while frames last"
        end_in_time(server)


class Filling:
    """A client that keeps the queue of its interface full, and a client that counts arriving frames."""

    def __init__(self, server: Server, frame: Frame) -> None:
        self.sender, self.receiver = plain(server, "can0"), plain(server, "can1")
        self.text, self.left = send(frame).encode(), b""
        self.count = 0

    def send(self, count: int) -> None:
        self.sender.socket.sendall(count * self.text)

    def take(self) -> tuple[float, float]:
        """Waits for frames, reads all that have arrived, and sends the same number of frames. Returns the arrival time
        and the timestamp of the last frame."""
        whole = 0
        while not whole:
            self.left += self.receiver.socket.recv(1 << 20)
            whole = self.left.rfind(b">") + 1
        came, taken, self.left = time.monotonic(), self.left[:whole], self.left[whole:]
        self.send(taken.count(b">"))
        return came, float(taken.split()[-3])

    def run(self, seconds: float) -> list[tuple[float, float]]:
        """Returns the arrival times and timestamps of frames during a number of seconds, once the bus is full."""
        self.send(WINDOW)
        begun, arrivals = time.monotonic() + 1, [self.take()]
        while arrivals[-1][0] < begun + seconds:
            arrivals.append(self.take())
        return [arrival for arrival in arrivals if arrival[0] >= begun]


def least_late(arrivals: list[tuple[float, float]]) -> tuple[float, float]:
    """Returns the arrival time and the delay of the frame with the smallest delay. The delay includes the difference
    between the two clocks. On a busy machine other frames arrive later, but none arrives early."""
    late, came = min((came - moment, came) for came, moment in arrivals)
    return came, late


@pytest.mark.quiet
@patiently
@pytest.mark.parametrize(
    "nominal", [500_000, *(pytest.param(rate, marks=pytest.mark.slow) for rate in (125_000, 1_000_000))]
)
def test_mean_rate(nominal: int) -> None:
    """A full bus reaches its bit rate within 0.1 % over ten seconds, so the timestamps agree with the clock."""
    rates, sizes = Rates(nominal), ["--txqueue", str(WINDOW), "--rxqueue", "65536", "--write", "16384"]
    with serving(*rate_options(rates), *sizes, "can0,can1") as server:
        arrivals = Filling(server, EIGHT_BYTES).run(11)
        end_in_time(server)
        replayed(server.path("can0.rec"), rates)
    first, last = arrivals[0][0] + 1, arrivals[-1][0] - 1
    begun, was_late = least_late([arrival for arrival in arrivals if arrival[0] <= first])
    ended, is_late = least_late([arrival for arrival in arrivals if arrival[0] >= last])
    print(f"{nominal}: {is_late - was_late:+.6f} s in {ended - begun:.6f} s")
    assert abs(is_late - was_late) <= 0.001 * (ended - begun)
