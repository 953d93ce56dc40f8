"""The command `python3 -m canbusd watch`: the data for the page, the page in a browser, and the end of the command."""

import contextlib
import http.client
import json
import os
import re
import resource
import socket
import subprocess
import sys
import threading
import time
from pathlib import Path

import can
import pytest
from browser import PROGRAM, Browser
from on_wire import nanos_of

import canbusd
from canbusd._page.live import MOST_FRAMES, MOST_TICKS, Board
from canbusd._process.program import ProgramNotFound
from canbusd._process.rates import Rates
from canbusd._run.frame_times import FrameTimes
from canbusd.commands.watch import Watcher, fault_of, times_of
from canbusd.faults import Faults
from canbusd.frames import Frame
from canbusd.server import Server
from canbusd.signals import load_database

WAIT = 30


def numbered(first, last):
    return [{"number": number} for number in range(first, last)]


def test_a_page_that_comes_later_begins_with_all_that_is_kept():
    board = Board()
    for tick in numbered(0, MOST_TICKS + 5):
        board.add(tick, [])
    news = board.news()
    start = next(news)
    assert (start["start"], start["ticks"]) == (True, numbered(5, MOST_TICKS + 5))
    row = [0.1, "123#", 1, "", -1]
    board.add({"number": -1}, [row])
    assert next(news) == {"ticks": [{"number": -1}], "frames": [row]}


def test_frames_and_bus_errors_push_out_no_bus_off():
    board = Board()
    off = [0.0, "20000040#0000000000000000", 1, "bus off", -1]
    board.add({"number": 0}, [off])
    for number in range(3):
        frames = [[1.0 + k, f"123#{number:02}", 1, "", -1] for k in range(MOST_FRAMES)]
        board.add({"number": number}, [*frames, *([1.5, "20000088#00", 1, "bus error, bit error", -1] for _ in frames)])
    start = next(board.news())
    assert start["frames"][0] == off
    assert len(start["frames"]) == 1 + 2 * MOST_FRAMES


def test_the_sender_is_the_interface_that_has_sent_the_frame():
    """Every frame is attributed to the right sender, even if all identifiers are equal and one interface of the bus is
    not watched."""
    with Server("can0,can1,can2") as server:
        watcher = Watcher(["can0", "can1"], server.address)
        assert watcher.wires == [None, None]
        for sender in ("can0", "can1", "can2", "can1", "can0"):
            with server.bus(sender, receive_own_messages=True) as bus:
                bus.send(can.Message(arbitration_id=0x100, is_extended_id=False))
                assert bus.recv(5), "the frame before the next one"
        _, rows = watcher.tick(1)
        for bus in watcher.buses:
            bus.shutdown()
    assert [(row[1], row[2], row[4]) for row in sorted(rows)] == [("100#", 3, sender) for sender in (0, 1, -1, 1, 0)]


def test_how_long_frames_took_on_buses_with_bit_rates_of_their_own():
    """A frame takes ten times as long on the slower bus. If the bus has no bit rate, the time is not known."""
    names, rates = ["can0", "body0", "lin0"], {"can0": 50_000, "body0": 5_000}
    with Server(*names, bitrate=rates) as server:
        watcher = Watcher(names, server.address)
        assert [wire and wire.rates.bitrate for wire in watcher.wires] == [50_000, 5_000, None]
        for number, name in enumerate(names):
            with server.bus(name, receive_own_messages=True) as bus:
                bus.send(can.Message(arbitration_id=number, is_extended_id=False))
                assert bus.recv(5), "the frame before the next one"
        _, rows = watcher.tick(1)
        for one in watcher.buses:
            one.shutdown()
    wanted = [(f"00{number}#", nanos_of(f"00{number}#", rate)[1]) for number, rate in enumerate(rates.values())]
    assert sorted((row[1], row[5]) for row in rows) == [*wanted, ("002#", 0)]


def test_the_load_and_how_long_frames_took():
    rates = Rates(5_000, 20_000)
    with Server("can0,can1", bitrate=5_000, dbitrate=20_000, txqueue=1_000) as server, server.bus("can0") as bus:
        watcher = Watcher(["can0", "can1"], server.address)
        assert [wire.rates for wire in watcher.wires] == [rates, rates]
        # It takes 26 seconds to send these frames.
        bus.send_many([can.Message(arbitration_id=1, data=bytes(8), is_extended_id=False)] * 1_000)
        server.wait_for(lambda: bus.load().permille >= 990, timeout=WAIT)
        tick, rows = watcher.tick(0.1)
        for one in watcher.buses:
            one.shutdown()
    assert all(990 <= load <= 1_000 for load in tick["loads"]) and len(tick["loads"]) == 2
    assert rows and {row[5] for row in rows} == {nanos_of("001#0000000000000000", 5_000, 20_000)[1]}


def test_how_long_frames_of_each_kind_take():
    """The program computes the times, and receives one request per frame."""
    texts = ["000#", "7FF#FFFFFFFFFFFFFFFF", "1FFFFFFF#", "123#R", "048C0000#R8", "123##0", f"1ABCDEF0##3{64 * '00'}"]
    times = FrameTimes(Rates(5_000, 20_000))
    wanted = [nanos_of(text, 5_000, 20_000)[1] for text in texts]
    assert times.of(texts) == wanted
    # The times are cached, so no program is started.
    with pytest.MonkeyPatch.context() as patch:
        patch.setenv("CANBUSD", "/nonexistent/canbusd")
        assert times.of([*texts[::-1], texts[0]]) == [*wanted[::-1], wanted[0]]
        assert times.of([]) == []
        with pytest.raises(ProgramNotFound):
            times.of([*texts, "124#"])


def test_no_more_times_are_kept_than_there_is_room_for(monkeypatch):
    monkeypatch.setattr("canbusd._run.frame_times.MOST_KEPT", 3)
    times = FrameTimes(Rates(5_000))
    for texts in (
        ["001#", "002#"],
        ["002#", "003#", "001#"],
        ["002#", "004#", "002#"],
        ["001#", "002#", "003#", "004#"],
    ):
        assert times.of(texts) == [nanos_of(text, 5_000)[1] for text in texts]


def test_without_a_program_there_is_no_load(monkeypatch, capsys):
    """If the server is on another machine, the program may be missing here. Then a note says so, and there is no bus
    load."""
    monkeypatch.setenv("CANBUSD", "/nonexistent/canbusd")
    assert times_of(Rates(5_000)) is None
    assert capsys.readouterr().err == (
        "canbusd watch: without bus load: CANBUSD names no program: /nonexistent/canbusd\n"
    )


def test_a_page_that_reads_slowly_begins_anew():
    board = Board()
    board.add({"number": 0}, [])
    news = board.news()
    next(news)
    for tick in numbered(1, 3):
        board.add(tick, [])
    again = next(news)
    assert (again["start"], again["ticks"]) == (True, numbered(0, 3))


def test_a_page_gets_the_end():
    board = Board()
    news = []
    reader = threading.Thread(target=lambda: news.extend(board.news()))
    board.add({"number": 0}, [])
    reader.start()
    while not news:
        reader.join(0.01)
    board.end("gone")
    reader.join(WAIT)
    assert news[-1] == {"end": "gone"}


@pytest.mark.parametrize(
    ("text", "fault"),
    [
        # These are, according to linux/can/error.h: a bit error while sending, a form error in the end of frame, and a
        # missing acknowledgement.
        ("20000088#0000810A00000000", 1),
        ("20000088#0000821A00000000", 0),
        ("200000A0#0000801900000000", 2),
        # These are a receiver's error, a state change, bus off, and a data frame.
        ("20000088#0000040000000000", None),
        ("20000204#0008000000006000", None),
        ("20000040#0000000000000000", None),
        ("123#0000810A00000000", None),
        # The payloads of these frames are shorter than 8 bytes.
        ("20000088#00", None),
        ("20000088#000081", 1),
    ],
)
def test_faults_of_the_sender(text, fault):
    assert fault_of(Frame.parse(text)) == fault


WATCH = [sys.executable, "-m", "canbusd", "watch"]
ENVIRONMENT = {
    **os.environ,
    "PYTHONPATH": str(Path(canbusd.__file__).parents[1]),
    "PYTHONDONTWRITEBYTECODE": "1",
    "PYTHONWARNINGS": "ignore",
}


def called(server, *words):
    """Runs the command with these arguments to completion, and returns the completed process."""
    words = [*WATCH, "-a", server.address, *words, "can0"]
    return subprocess.run(words, env=ENVIRONMENT, capture_output=True, text=True, timeout=WAIT, check=False)


class Watch:
    """A running process of the command `watch`."""

    def __init__(self, server, *names, options=()):
        self.child = subprocess.Popen(
            [*WATCH, "--port", "0", "--interval", "0.05", "-a", server.address, *options, *names],
            env=ENVIRONMENT, stdout=subprocess.PIPE, stderr=subprocess.PIPE, text=True,
        )  # fmt: skip
        said = self.child.stdout.readline()
        assert said.startswith(f"watching {', '.join(names)} on http://127.0.0.1:"), said + self.child.stderr.read()
        self.url = said.split()[-1]
        self.port, self.path = int(self.url.split(":")[2].split("/")[0]), "/" + self.url.split("/", 3)[3]

    def get(self, path=None, host=None, method="GET"):
        """Requests the page or another path, and returns the HTTP response."""
        connection = http.client.HTTPConnection("127.0.0.1", self.port, timeout=WAIT)
        connection.request(method, path or self.path, headers={"Host": host or f"127.0.0.1:{self.port}"})
        return connection.getresponse()

    def __enter__(self):
        return self

    def __exit__(self, *_):
        self.child.kill()
        self.child.communicate()


def message(identifier):
    return can.Message(arbitration_id=identifier, data=[1], is_extended_id=False)


def test_news_have_the_frames_and_counts_of_both_interfaces():
    # The first frame is destroyed once, so the transmit error counter of its sender is first 8 and then 7.
    server = Server("can0,can1", report=True, faults=Faults().destroyed(0))
    with server, Watch(server, "can0", "can1") as watch:
        answer = watch.get(f"{watch.path}news")
        assert answer.getheader("Content-Type") == "text/event-stream"
        with server.bus("can0") as bus:
            bus.send(message(0x123))
        frames, faults, now = {}, 0, []
        for _ in range(1000):
            line = answer.readline()
            if line.startswith(b"data: "):
                news = json.loads(line[6:])
                for _, text, seen, says, *_ in news["frames"]:
                    frames[text, says] = frames.get((text, says), 0) | seen
                faults += sum(tick["faults"][0][1] for tick in news["ticks"])
                now = news["ticks"][-1]["ifaces"][0] if news["ticks"] else now
            if frames.get(("123#01", "")) == 3:
                break
    assert frames == {
        ("123#01", ""): 3,
        ("20000088#0000040000000000", "bus error, stuff error"): 2,
        ("20000088#0000810A00000000", "bus error, bit error while sending in the data section"): 1,
    }
    assert faults == 1
    assert now == ["active", 7, 0, 1, 1, 0, 0, 0]


@contextlib.contextmanager
def connections(port, count):
    """Opens `count` connections on which no request is sent."""
    with contextlib.ExitStack() as all_of_them:
        made = []
        for _ in range(count):
            made.append(all_of_them.enter_context(socket.create_connection(("127.0.0.1", port), WAIT)))
        yield made


def test_connections_that_ask_nothing_are_closed():
    with Server("can0") as server, Watch(server, "can0") as watch, connections(watch.port, 30) as silent:
        # Other connections are served in the meantime.
        assert watch.get().status == 200
        for one in silent:
            assert one.recv(1) == b""


def ticks(child):
    """Returns the processor time of a process in hundredths of a second."""
    fields = Path(f"/proc/{child.pid}/stat").read_text(encoding="ascii").rsplit(") ", 1)[1].split()
    return int(fields[11]) + int(fields[12])


def test_without_file_descriptors_it_waits_for_some():
    with Server("can0") as server, Watch(server, "can0") as watch:
        resource.prlimit(watch.child.pid, resource.RLIMIT_NOFILE, (20, 20))
        with connections(watch.port, 60):
            before, start = ticks(watch.child), time.monotonic()
            time.sleep(3)
            assert ticks(watch.child) - before < 20 * (time.monotonic() - start)
        assert watch.get().status == 200


@pytest.mark.parametrize("words", [["--port", "65536"], ["--port", "-1"], ["--interval", "0"], ["--interval", "nan"]])
def test_a_wrong_number_is_named(words):
    with Server("can0") as server:
        done = called(server, *words)
    assert (done.returncode, done.stdout) == (2, "")
    said = done.stderr.splitlines()[-1]
    assert re.fullmatch(rf"canbusd watch: .*{words[0]}.* number .*{words[1]}'?", said), said


def test_a_port_in_use():
    with Server("can0") as server, Watch(server, "can0") as watch:
        done = called(server, "--port", str(watch.port))
    assert done.stderr == f"canbusd watch: 127.0.0.1:{watch.port}: Address already in use; --port 0 takes a free one\n"


def test_it_ends_with_the_server():
    with Server("can0,can1") as server:
        with Watch(server, "can0") as watch:
            answer = watch.get(f"{watch.path}news")
            server.stop()
            assert '"end":' in answer.read().decode().splitlines()[-2]
            assert watch.child.wait(WAIT) == 1
            assert watch.child.stderr.read().startswith("canbusd watch: ")


@pytest.mark.skipif(PROGRAM is None, reason="no chromium on the PATH")
def test_the_page(tmp_path):
    # can0 sends a frame, which is destroyed 32 times, so can0 goes bus off.
    with Server("can0,can1", faults=Faults().destroyed(range(32))) as server, Watch(server, "can0", "can1") as watch:
        browser = Browser(tmp_path)
        try:
            browser.size(1200)
            browser.open(watch.url)
            with server.bus("can0") as can0, server.bus("can1") as can1:
                can0.send(message(0x123))
                browser.until("at('offs').textContent.startsWith('Bus off now: can0. Went bus off: can0')")
                can1.send(message(0x124))
                browser.until("byIdentifier.has('124')")
                browser.settle()
            shown = browser.run("[...at('ifaces').rows[1].cells].map(one => one.textContent)")
            assert shown == ["can0", "bus\u00a0off", "256", "0", "1", "0", "0", "1", "0"]
            # From here on, only can1 sends.
            browser.until("byIdentifier.get('124').sender === 1")
            browser.run("showTab('tab-events')")
            assert "bus off" in browser.run("at('events').innerText")
            # While the page is paused, the selection stays and no row moves. New frames are stored for later.
            browser.run("at('offs').querySelector('button').click()")
            browser.settle()
            assert browser.run("at('moment').innerText").startswith("Chosen: ")
            browser.key(" ")
            before = browser.run("ticks.length")
            browser.until("held.length > 3")
            assert browser.run("ticks.length") == before
            browser.key(" ")
            assert browser.run("ticks.length") > before
            assert browser.run("chosen.kind") == "bus off"
            assert browser.run("at('events').querySelector('[aria-selected]').innerText.includes('bus off')")
            # The buttons hide and show the different kinds of rows.
            browser.run("[...at('kinds').children].find(one => one.textContent.startsWith('error warning')).click()")
            browser.settle()
            assert browser.run("[...new Set(lists[tab].list.map(one => one.kind))].join()") == "error warning"
            browser.size(500, dark=True)
            assert browser.run("document.documentElement.scrollWidth") == 500
            server.stop()
            browser.until("at('facts').textContent.startsWith('The server has ended')")
            assert browser.faults == []
        finally:
            browser.close()


@pytest.mark.skipif(PROGRAM is None, reason="no chromium on the PATH")
def test_signals_of_the_page(tmp_path):
    """A table shows the latest values. Selected signals also have lanes, with either a band of names or a curve."""
    pytest.importorskip("canmatrix", reason="not installed: canmatrix")
    file = Path(__file__).with_name("car.dbc")
    car = load_database(file, library="canmatrix")
    cells = "[...document.querySelectorAll('#signals .rows .row')].map(row => [row.children[1].textContent, row.children[2].textContent])"
    with Server("can0,can1") as server, Watch(server, "can0", "can1", options=["--dbc", str(file)]) as watch:
        browser = Browser(tmp_path)
        try:
            browser.size(1200)
            browser.open(watch.url)
            browser.run("showTab('tab-signals')")
            with server.bus("can0") as bus:
                for speed, gear in ((50, "Drive"), (120.5, "Reverse")):
                    bus.send(car.encode("Engine", {"speed": speed, "gear": gear, "temperature": 20}).message())
                    browser.until(f"signals.at({{ key: 'Engine.speed' }}) === {speed}")
            browser.run("signals.all().filter(({ name }) => ['gear', 'speed'].includes(name)).forEach(toggleSignal)")
            browser.settle()
            assert browser.run(cells) == [
                ["gear", "Reverse"],
                ["speed", "120.5 km/h"],
                ["temperature", "20 degC"],
                ["torque", "0 Nm"],
            ]
            shown = browser.run("lanes.slice(-2).map(lane => [lane.name, lane.said.textContent])")
            assert shown == [["gear", "Reverse"], ["speed", "120.5 km/h"]]
            before = browser.run("ticks.length")
            browser.until(f"ticks.length > {before} + 1")
            assert browser.run("lanes.slice(-2).map(lane => lane.said.isConnected).join()") == "true,true"
            browser.run("[...at('gutter').querySelectorAll('button.goes')].forEach(button => button.click())")
            browser.settle()
            assert browser.run("lanes.length") == 2
            assert browser.faults == []
        finally:
            browser.close()


@pytest.mark.skipif(PROGRAM is None, reason="no chromium on the PATH")
def test_the_page_of_a_server_with_a_bit_rate(tmp_path):
    """The page shows the load even of an idle bus, and the percentage of time that each identifier takes."""
    with Server("can0,can1", bitrate=5_000) as server, Watch(server, "can0", "can1") as watch:
        browser = Browser(tmp_path)
        try:
            browser.size(1200)
            browser.open(watch.url)
            browser.until("ticks.length > 0")
            browser.settle()
            rows = browser.run("[...at('ifaces').rows].map(row => row.cells[9]?.textContent)")
            assert rows == ["bus load", " 0.0 %", " 0.0 %"]
            with server.bus("can0", bitrate=5_000) as bus:
                bus.send(message(0x123))
                browser.until("byIdentifier.has('123')")
            # The load of a bus is shown once, in the row of the bus's first node.
            browser.until("at('ifaces').rows[2].cells[9].textContent === ''")
            browser.run("showTab('tab-identifiers')")
            browser.settle()
            assert "100.0 %" in browser.run("at('identifiers').innerText")
            assert browser.faults == []
        finally:
            browser.close()


def test_no_more_frames_a_second_than_the_bus_carries():
    """A frame without data has at least 47 bits including the intermission. The frame rate stays below the resulting
    limit, even if the counts are requested late."""
    with Server("can0,can1", bitrate=5_000, txqueue=1_000) as server, server.bus("can0") as bus:
        watcher = Watcher(["can0", "can1"], server.address)
        bus.window = 1_000
        bus.send_many([message(0x555)] * 300)
        before, found = 0, []
        for seconds in (0.1, 0.5, 0.02, 0.2, 0.02, 0.3):
            tick, _ = watcher.tick(seconds)
            found.append((tick["ifaces"][0][4] - before, tick["span"]))
            before = tick["ifaces"][0][4]
            # The pause simulates a busy machine.
            time.sleep(0.1)
        for one in watcher.buses:
            one.shutdown()
    assert found[0][1] == 0
    # One additional frame is possible, because the first or the last frame may be only partly in this time span.
    assert all(0 < count <= 1 + span * 5_000 / 47 for count, span in found[1:])


@pytest.mark.skipif(PROGRAM is None, reason="no chromium on the PATH")
def test_what_is_short_and_what_is_late(tmp_path):
    """A short bus off leaves a mark, even if it ends before the next request for the counts. A late request does not
    result in a higher rate."""
    faults, options = Faults().next(32, sender="can0").destroyed(), ("--interval", "1")
    with Server("can0,can1", faults=faults, auto_restart=1) as server, Watch(
        server, "can0", "can1", options=options
    ) as watch:
        browser = Browser(tmp_path)
        try:
            browser.size(1200)
            browser.open(watch.url)
            browser.until("ticks.length > 2")
            with server.bus("can0") as can0, server.bus("can1") as can1:
                can0.send(message(0x123))
                can1.send(message(0x124))
                browser.until("offs.length === 1 && ticks[ticks.length - 1].time > offs[0].moment + 2")
            browser.run("pause()")
            browser.settle()
            # Returns whether a mark is drawn in can0's state band, first at the bus off and then next to it.
            drawn = """(() => {
              const x = Math.floor(placeOf(plotted(), offs[0].moment - ticks[0].time)), canvas = at('lanes');
              const copy = new OffscreenCanvas(canvas.width, canvas.height).getContext('2d', { willReadFrequently: true });
              copy.drawImage(canvas, 0, 0);
              return [x, x - 12].map(left => [...copy.getImageData(left, 2 + STRIP + 3, 3, 6).data].some(byte => byte > 0));
            })()"""
            assert browser.run("ticks.some(tick => tick.ifaces[0][0] === 'off')") is False
            assert browser.run(drawn) == [True, False]
            tick = "{ time: 100 + seconds, span, ifaces: names.map(() => ['active', 0, 0, 0, done, 0, 0, 0]), faults: names.map(() => [0, 0, 0]), loads: [0, 0], missed: 0 }"
            browser.run(
                f"const tickOf = (seconds, span, done) => ({tick});"
                "take({ start: true, frames: [], ticks: [tickOf(0, 0, 0), tickOf(0.25, 0.25, 25), tickOf(2.25, 2, 225), tickOf(2.3, 0.25, 250)] });"
                "sayNow(); measure()"
            )
            assert browser.run("busiest") == 100
            assert browser.run("at('facts').textContent").split(": ")[1].startswith("200 frames a second")
            # The page may be told the sender of a frame after it was told a receiver.
            browser.run("takeFrame(102, '7F0#', 2, '', -1, 0, null); takeFrame(102, '7F0#', 1, '', 0, 0, null)")
            senders = "[frames[frames.length - 1], byIdentifier.get('7F0')].map(one => one.sender)"
            assert browser.run(senders) == [0, 0]
            assert browser.faults == []
        finally:
            browser.close()
