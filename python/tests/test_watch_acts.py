"""The actions on the page of `canbusd watch`: the requests, who may send them, and the page in a browser."""

import contextlib
import http.client
import json
import os
import subprocess
import sys
import time
from pathlib import Path

import can
import pytest
from browser import Browser
from test_watch import WAIT, Watch
from test_watch_private import NOBODY, needs_browser, needs_root, site

from canbusd._page.acts import LEAST_PERIOD, MOST_CYCLES, Acts
from canbusd._page.live import MOST_BODY, TOKEN
from canbusd._words import INTERFACE_DOWN
from canbusd._session.raw_session import refusal
from canbusd.frames import Frame, frame_like
from canbusd.server import Server
from canbusd.signals import load_database

DBC = Path(__file__).with_name("car.dbc")
ACTS = ("send", "cycle", "stop", "rule", "end", "down", "up", "restart")
# If no message arrives for this many seconds, a test assumes that none will.
SILENCE = 0.3


@pytest.fixture(scope="module")
def server():
    with Server("can0,can1") as started:
        yield started


@pytest.fixture(scope="module")
def watched(server):
    with Watch(server, "can0", "can1") as watch:
        yield watch


@pytest.fixture
def receiver(server):
    """A bus on can1 without unread frames from earlier tests."""
    with server.bus("can1", fd=True) as bus:
        yield bus


def headers_of(watch):
    """Returns the headers that the page itself sends with its requests."""
    here = f"127.0.0.1:{watch.port}"
    return {"Host": here, "Origin": f"http://{here}", TOKEN: watch.path.strip("/")}


def posted(watch, act, body, headers=None):
    """Sends a request for an action with this body, and returns the HTTP response."""
    connection = http.client.HTTPConnection("127.0.0.1", watch.port, timeout=WAIT)
    connection.putrequest("POST", f"{watch.path}{act}", skip_host=True, skip_accept_encoding=True)
    headers = {"Content-Length": str(len(body)), **(headers_of(watch) if headers is None else headers)}
    for name, values in headers.items():
        for value in [values] if isinstance(values, str) else values:
            connection.putheader(name, value)
    connection.endheaders(body)
    return connection.getresponse()


def ask(watch, act, node="can0", **asked):
    """Sends a request as the page does, and returns the decoded answer."""
    answer = posted(watch, act, json.dumps({"node": node, **asked}).encode())
    assert (answer.status, answer.getheader("Content-Type")) == (200, "application/json")
    return json.loads(answer.read())


@contextlib.contextmanager
def opened(watch):
    """Opens the page. Yields a function that returns the next news for the page."""
    with watch.get(f"{watch.path}news") as answer:

        def news():
            while True:
                line = answer.readline()
                assert line
                if line.startswith(b"data: "):
                    return json.loads(line[6:])

        yield news


def is_silent(bus):
    """Reads the messages that are still arriving, and returns whether they stop."""
    deadline = time.monotonic() + WAIT
    while time.monotonic() < deadline:
        if bus.recv(SILENCE) is None:
            return True
    return False


@pytest.mark.parametrize(
    ("text", "python"),
    [
        ("123#1122", 'can.Message(arbitration_id=0x123, data=bytes.fromhex("11 22"), is_extended_id=False)'),
        ("00000123#", "can.Message(arbitration_id=0x123)"),
        ("7FF#R4", "can.Message(arbitration_id=0x7FF, dlc=4, is_extended_id=False, is_remote_frame=True)"),
        ("001##0", "can.Message(arbitration_id=0x1, is_extended_id=False, is_fd=True)"),
        (
            f"1ABCDEF0##3{12 * 'AB'}",
            f'can.Message(arbitration_id=0x1ABCDEF0, data=bytes.fromhex("{" ".join(12 * ["AB"])}"), is_fd=True, '
            "bitrate_switch=True, error_state_indicator=True)",
        ),
    ],
)
def test_a_frame_is_sent(server, watched, receiver, text, python):
    """A frame is sent once. The Python line that the page shows would send the same frame."""
    has_fd = ", fd=True" if "##" in text else ""
    line = ask(watched, "send", frame=text)["python"]
    assert line == f'bus.send({python})  # bus = server.bus("can0"{has_fd})'
    with server.bus("can0", fd=True) as bus:
        eval(line, {"bus": bus, "can": can})
        assert [frame_like(receiver.recv(WAIT)) for _ in range(2)] == [Frame.parse(text)] * 2
    assert is_silent(receiver)


def test_signals_are_sent():
    pytest.importorskip("canmatrix", reason="not installed: canmatrix")
    database = load_database(DBC)
    with Server("can0,can1") as server, Watch(server, "can0", options=["--dbc", str(DBC)]) as watch:
        assert b'"messages": [["Engine", 0' in watch.get().read()
        with server.bus("can1") as receiver, server.bus("can0") as bus:
            line = ask(watch, "send", message="Engine", signals={"speed": "120.5", "gear": "Drive"})["python"]
            python = 'database.encode("Engine", {"speed": 120.5, "gear": "Drive"})'
            assert line == f'bus.send({python})  # bus = server.bus("can0")'
            eval(line, {"bus": bus, "database": database})
            for _ in range(2):
                assert str(database.decode(receiver.recv(WAIT))) == (
                    "Engine: speed=120.5 km/h, temperature=25 degC, gear=Drive, torque=0 Nm"
                )
        for asked, fault in (
            ({"message": "Engine", "signals": {"speed": "fast"}}, "Engine.speed is a number, not 'fast'"),
            ({"message": "Engine", "signals": {"rpm": "1"}}, "no signal Engine.rpm; there are "),
            ({"message": "Brake", "signals": {}}, "no message Brake; there are "),
            ({"message": "Engine", "signals": [1]}, "signals are an object of texts"),
            ({"message": "Engine", "signals": {"speed": 1}}, "signals are an object of texts"),
        ):
            assert ask(watch, "send", **asked)["fault"].startswith(fault)


@pytest.mark.parametrize(
    ("act", "asked", "fault"),
    [
        ("send", {"frame": "12#"}, "12#: an identifier has 11 bits in 3 digits, as 123, or 29 bits in 8"),
        ("send", {"frame": 1}, "frame is a text, not 1"),
        ("send", {"frame": "20000040#0000000000000000"}, "an error message frame, which nobody sends"),
        ("send", {"node": "can7", "frame": "123#"}, "node is one of can0, can1, not 'can7'"),
        ("send", {"node": None, "frame": "123#"}, "node is a text, not None"),
        ("send", {"message": "Engine", "signals": {}}, "the names of signals need --dbc FILE"),
        ("cycle", {"frame": "123#", "period": LEAST_PERIOD / 2, "page": ""}, "a period is from 1 to 3.6e+06 ms"),
        ("cycle", {"frame": "123#", "period": float("nan"), "page": ""}, "a period is from 1 to"),
        ("cycle", {"frame": "123#", "period": "1", "page": ""}, "a period is from 1 to"),
        ("cycle", {"frame": "20000040#0000000000000000", "period": 1, "page": ""}, "an error message frame"),
        ("cycle", {"frame": "123#", "period": 1, "page": "other"}, "the page has lost its connection"),
        ("stop", {"cycle": 1, "page": "other"}, "it has ended already"),
        ("stop", {"cycle": [], "page": "other"}, "it has ended already"),
        ("rule", {"rule": "destroy it"}, "rule 'destroy it': it begins with next or always, not 'destroy'"),
        ("rule", {"rule": ""}, "rule '': it begins with next or always"),
        ("rule", {"rule": str(DBC)}, f"rule '{str(DBC)[:20]}"),
        ("rule", {"rule": "next 1 lastbit\nnext 1 lastbit"}, "rule "),
        ("rule", {"rule": "next 1 from can7 lastbit"}, "no such interface: next 1 from can7 lastbit: can7 is none of"),
        ("restart", {}, "can0: not bus off, but active"),
    ],
)
def test_what_is_refused_is_said(watched, receiver, act, asked, fault):
    assert ask(watched, act, **asked)["fault"].startswith(fault)
    assert is_silent(receiver)


def test_refusals_of_the_bus():
    """A send is refused if the queue is full or the interface is bus off. A rule is refused if there are too many
    rules."""
    # No node acknowledges the first frame, so it stays in the queue and is repeated.
    with Server("can0", ack="peers", txqueue=1) as lone, Watch(lone, "can0") as watch:
        assert "python" in ask(watch, "send", frame="123#")
        fault = ask(watch, "send", frame="123#")["fault"]
        assert fault.startswith("no buffers: the transmit queue is full") and "Error Code" not in fault
    with Server("can0,can1") as other, Watch(other, "can0") as watch:
        line = ask(watch, "rule", rule=" next 32 from can0 global bit ")["python"]
        assert line == 'server.inject("next 32 from can0 global bit", "can0")'
        assert other.rules_left("can0") == 1
        assert "python" in ask(watch, "send", frame="123#")
        other.wait_for(lambda: other.state("can0") == "off", timeout=WAIT)
        assert ask(watch, "send", frame="123#")["fault"].startswith("bus off: restart() brings")
        assert ask(watch, "restart")["python"] == 'bus.restart()  # bus = server.bus("can0")'
        assert other.state("can0") == "active"
        eval(line, {"server": other})
        for _ in range(63):
            ask(watch, "rule", rule="always lastbit")
        assert "fault" in ask(watch, "rule", rule="always lastbit")
        assert ask(watch, "end")["python"] == 'server.end_rules("can0")'
        assert other.rules_left("can0") == 0
        assert ask(watch, "up")["python"] == 'server.up("can0")'


def refuse(*_):
    raise refusal(INTERFACE_DOWN)


def test_nodes_go_down_and_up(server, watched):
    assert ask(watched, "down")["python"] == 'server.down("can0")'
    assert server.state("can0") == "down"
    assert ask(watched, "send", frame="123#")["fault"].startswith("interface down: up() brings")
    assert ask(watched, "up")["python"] == 'server.up("can0")'
    assert server.state("can0") == "active"


class Interface:
    """A stand-in for a bus that records the calls of its methods."""

    channel = "can0"

    def __init__(self):
        self.asked = []

    def __getattr__(self, name):
        return lambda *words: self.asked.append((name, *words))


def test_what_each_act_asks_the_interface_for(monkeypatch):
    """Every action calls the right method of the bus. The stand-in for the bus supports all of them."""
    bus = Interface()
    monkeypatch.setattr("canbusd._page.acts.CanbusdBus", lambda *_, **__: bus)
    acts = Acts(["can0"], None)
    assert tuple(acts.by_name) == ACTS
    lines = [acts.do(name, {"node": "can0", "rule": "next 1 lastbit"}) for name in ("down", "up", "restart", "rule")]
    bus.send = refuse
    assert acts.do("send", {"node": "can0", "frame": "123#"}) == {
        "fault": "interface down: up() brings the interface up"
    }
    assert bus.asked == [("down",), ("up",), ("restart",), ("inject", "next 1 lastbit\n")]
    assert [line["python"].partition(" ")[0] for line in lines] == [
        'server.down("can0")', 'server.up("can0")', "bus.restart()", 'server.inject("next'
    ]  # fmt: skip


def test_cyclic_frames(watched, receiver):
    """Cyclic frames are sent until they are stopped. The page receives a list of them."""
    with opened(watched) as news:
        page = news()["page"]
        line = ask(watched, "cycle", page=page, frame="123#11", period=0.02)["python"]
        python = 'can.Message(arbitration_id=0x123, data=bytes.fromhex("11"), is_extended_id=False)'
        assert line == f'task = bus.send_periodic({python}, 0.02)  # bus = server.bus("can0")'
        got = [receiver.recv(WAIT) for _ in range(6)]
        assert {str(frame_like(one)) for one in got} == {"123#11"}
        # If a frame is late, the next one is not sent early.
        assert got[-1].timestamp - got[0].timestamp > 3 * 0.02
        while not (cycles := news()["cycles"]):
            pass
        [[number, *shown]] = cycles
        assert shown == ["can0", "123#11", 0.02, ""]
        assert ask(watched, "stop", page="other", cycle=number)["fault"] == "it has ended already"
        assert ask(watched, "stop", page=page, cycle=number) == {"python": "task.stop()"}
        assert is_silent(receiver)
        while news()["cycles"]:
            pass


def test_cyclic_frames_end_with_their_page(watched, receiver):
    """When a page is closed, its cyclic frames stop. The cyclic frames of other pages continue."""
    with opened(watched) as other:
        with opened(watched) as news:
            for one, frame in ((news, "100#"), (other, "200#")):
                assert "python" in ask(watched, "cycle", page=one()["page"], frame=frame, period=0.01)
            found = set()
            while len(found) < 2:
                found.add(receiver.recv(WAIT).arbitration_id)
            page = news()["page"]
        deadline = time.monotonic() + WAIT
        while not is_without(receiver, 0x100):
            assert time.monotonic() < deadline
        assert ask(watched, "cycle", page=page, frame="100#", period=0.01)["fault"].startswith("the page has lost")
    assert is_silent(receiver)


def is_without(bus, identifier):
    """Returns whether none of the next frames has this identifier."""
    return all(bus.recv(WAIT).arbitration_id != identifier for _ in range(20))


def test_a_closed_page_is_known_without_news(server, receiver):
    """The server notices that a page was closed, even if the counts are requested only once an hour."""
    with Watch(server, "can0", options=["--interval", "3600"]) as watch:
        with opened(watch) as news:
            assert "python" in ask(watch, "cycle", page=news()["page"], frame="300#", period=0.01)
            assert receiver.recv(WAIT)
            while not (cycles := news()["cycles"]):
                pass
            [[*_, fault]] = cycles
            assert fault == ""
        assert is_silent(receiver)


def test_refusals_of_cyclic_frames():
    """The page shows why a cyclic frame is refused. Sending continues after the interface has restarted. The number of
    cyclic frames is limited."""
    with Server("can0,can1") as server, Watch(server, "can0") as watch, opened(watch) as news:
        page = news()["page"]
        server.inject("next 32 from can0 global bit", "can0")
        ask(watch, "cycle", page=page, frame="123#", period=0.01)
        while not any(fault.startswith("bus off: ") for *_, fault in news()["cycles"]):
            pass
        ask(watch, "restart")
        while any(fault for *_, fault in news()["cycles"]):
            pass
        for _ in range(MOST_CYCLES - 1):
            assert "python" in ask(watch, "cycle", page=page, frame="123#", period=60)
        fault = ask(watch, "cycle", page=page, frame="123#", period=60)["fault"]
        assert fault == f"{MOST_CYCLES} frames are sent cyclically already"


def test_nothing_is_done_for_others(watched, receiver):
    """A request is refused if its token, origin or host is missing or wrong, or if it is not a POST request for an
    action."""
    own, frame = headers_of(watched), json.dumps({"node": "can0", "frame": "123#"}).encode()
    token, here = own[TOKEN], own["Origin"]
    without = {name: {key: value for key, value in own.items() if key != name} for name in (TOKEN, "Origin")}
    for headers in (
        without[TOKEN],
        without["Origin"],
        *({**own, TOKEN: other} for other in ("", token[:-1], token.swapcase(), f"{token}0", [token, token])),
        *(
            {**own, "Origin": other}
            for other in (
                *("", "null", "http://example.org", "http://127.0.0.1", here.replace("http", "https"), f"{here}/"),
                *(here.replace("127.0.0.1", "localhost"), [here, here], [here, "http://example.org"]),
            )
        ),
        {**own, "Host": "example.org"},
    ):
        for act in ACTS:
            assert posted(watched, act, frame, headers).status == 403, headers
    for act in ACTS:
        assert watched.get(f"{watched.path}{act}").status == 404
        for method in ("PUT", "OPTIONS", "HEAD", "DELETE"):
            assert watched.get(f"{watched.path}{act}", method=method).status == 501
    for path in ("", "news", "other", "send/", "do"):
        assert posted(watched, path, frame).status == 501
    assert is_silent(receiver)
    localhost = {
        **own,
        "Host": own["Host"].replace("127.0.0.1", "localhost"),
        "Origin": here.replace("127.0.0.1", "localhost"),
    }
    assert posted(watched, "send", frame, localhost).status == 200
    assert receiver.recv(WAIT)


def test_a_body_that_is_none(watched, receiver):
    own, frame = headers_of(watched), json.dumps({"node": "can0", "frame": "123#"}).encode()
    large = frame.ljust(MOST_BODY + 1)
    assert posted(watched, "send", large).status == 413
    for size, status in (("", 411), ("-1", 411), ("+9", 411), ("1e1", 411), ("9" * 9, 413), ("9" * 5000, 411)):
        assert posted(watched, "send", frame, {**own, "Content-Length": size}).status == status, size
    chunked = {**own, "Content-Length": [], "Transfer-Encoding": "chunked"}
    assert posted(watched, "send", frame, chunked).status == 411
    for text in (b"", b"{", b"[]", b'"send"', b"\xff", b"[" * MOST_BODY, frame[:-1]):
        assert posted(watched, "send", text).status == 400, text
    assert is_silent(receiver)
    assert posted(watched, "send", large[:MOST_BODY]).status == 200
    assert receiver.recv(WAIT)


def test_a_page_that_only_reads(server, receiver):
    """With --read-only the page has no controls, and every action is refused."""
    with Watch(server, "can0", options=["--read-only"]) as watch:
        frame = json.dumps({"node": "can0", "frame": "123#"}).encode()
        for act in ACTS:
            assert posted(watch, act, frame).status == 501
        page = watch.get().read()
        assert b"X-Canbusd-Token" not in page and b"act-" not in page and b"ACTS" not in page
        with opened(watch) as news:
            assert not {"page", "cycles"} & {*news()}
    assert is_silent(receiver)


# A program that requests the sending of a frame at a port, with a path that contains the token, and prints the HTTP
# status.
SEND = """
import http.client, sys
port, path = sys.argv[1:]
connection = http.client.HTTPConnection("127.0.0.1", int(port), timeout=60)
headers = {"Origin": f"http://127.0.0.1:{port}", "X-Canbusd-Token": path.strip("/")}
connection.request("POST", f"{path}send", b'{"node": "can0", "frame": "123#"}', headers)
print(connection.getresponse().status)
"""


@needs_root
def test_another_user_of_a_server_at_a_unix_path(tmp_path):
    with Server("can0,can1", listen=str(tmp_path / "socket")) as server, Watch(server, "can0") as watch:
        words = [sys.executable, "-c", SEND, str(watch.port), watch.path]
        for user, status in ((NOBODY, "403"), (os.geteuid(), "200")):
            more = {"user": user, "group": user, "extra_groups": []} if user else {}
            done = subprocess.run(words, capture_output=True, text=True, timeout=WAIT, check=True, **more)
            assert done.stdout.strip() == status


def said(browser, form):
    """Waits for the answer that a form shows for its latest action, and returns the answer."""
    browser.until(f"at('{form}').querySelector('.said').textContent !== ''")
    text = browser.run(f"at('{form}').querySelector('.said').textContent")
    browser.run(f"at('{form}').querySelector('.said').replaceChildren()")
    return text


def press(browser, form, name):
    """Presses a button of a form, and returns the answer that the form shows."""
    browser.run(f"at('{form}').querySelector('.said').replaceChildren()")
    browser.run(f"at('{form}').elements.{name}.click()")
    return said(browser, form)


@pytest.mark.browser
@needs_browser
def test_the_page_sends(tmp_path):
    """The page can be used with the keyboard, sends signals and cyclic frames, and adds rules. After the page is
    closed, its cyclic frames stop."""
    pytest.importorskip("canmatrix", reason="not installed: canmatrix")
    with Server("can0,can1") as server, Watch(server, "can0", "can1", options=["--dbc", str(DBC)]) as watch:
        browser = Browser(tmp_path)
        try:
            with server.bus("can1", fd=True) as receiver:
                browser.size(1600)
                browser.open(watch.url)
                browser.until("page !== ''")
                assert browser.run("at('acts').open") is False
                # This part uses only the keyboard.
                browser.key("s")
                for key in "123":
                    browser.key(key)
                browser.key("Enter")
                assert said(browser, "act-frame") == (
                    "bus.send(can.Message(arbitration_id=0x123, is_extended_id=False))"
                    '  # bus = server.bus("can0") copy'
                )
                assert str(frame_like(receiver.recv(WAIT))) == "123#"
                browser.until("frames.some(one => one.text === '123#' && one.sender === 0)")
                # The loop sends every kind of frame. After it, an invalid identifier is refused.
                for kind, data, text in (
                    ("#", "11 22 ab", "123#1122AB"),
                    ("##0", "0A", "123##00A"),
                    ("##1", "", "123##1"),
                    ("#R", "4", "123#R4"),
                ):
                    browser.run(
                        f"at('act-kind').value = '{kind}'; at('act-data').value = '{data}'; at('act-kind').onchange()"
                    )
                    assert press(browser, "act-frame", "send").startswith("bus.send(can.Message(arbitration_id=0x123, ")
                    assert str(frame_like(receiver.recv(WAIT))) == text
                browser.run("at('act-id').value = '12'")
                assert press(browser, "act-frame", "send").startswith(
                    "Refused: 12#R4: an identifier has 11 bits in 3 digits"
                )
                # The button copies the line of Python code.
                press_copy = "navigator.clipboard.writeText = async text => { window.copied = text; }; at('act-node').querySelector('.said button').click()"
                browser.run("at('act-node').elements.up.click()")
                browser.until("!!at('act-node').querySelector('.said button')")
                browser.run(press_copy)
                browser.until("at('act-node').querySelector('.said button').textContent === 'copied'")
                assert browser.run("window.copied") == 'server.up("can0")' and browser.run("isSecureContext")
                # Signals are sent cyclically. A signal without a given value is sent with its initial value.
                browser.run("at('act-message').value = 'Engine'; at('act-message').onchange()")
                assert browser.run("[...at('by-signals').querySelectorAll('input')].map(one => [one.name, one.placeholder].join())") == [
                    "speed,0", "temperature,25", "gear,Park", "torque,0"
                ]  # fmt: skip
                browser.run(
                    "at('by-signals').querySelector('[name=gear]').value = 'Drive'; at('act-period').value = 20"
                )
                assert press(browser, "act-frame", "cycle").startswith(
                    'task = bus.send_periodic(database.encode("Engine", {"gear": "Drive"}), 0.02)  # bus'
                )
                assert {receiver.recv(WAIT).arbitration_id for _ in range(5)} == {0x123}
                browser.until("at('cycles').innerText === 'stop Engine 123#0000410300000000 by can0, every 20 ms'")
                browser.run("at('cycles').querySelector('button').click()")
                assert said(browser, "act-frame") == "task.stop() copy"
                assert is_silent(receiver)
                browser.until("document.activeElement.name === 'cycle' && !at('cycles').children.length")
                # A rule is selected from the ready-made ones and added, and the bus obeys it.
                browser.run("at('act-ready').value = 4; at('act-ready').onchange()")
                assert (
                    press(browser, "act-rule", "rule") == 'server.inject("next 32 from can0 global bit", "can0") copy'
                )
                press(browser, "act-frame", "send")
                browser.until("at('offs').textContent.startsWith('Bus off now: can0.')")
                assert press(browser, "act-frame", "send").startswith("Refused: bus off: ")
                assert press(browser, "act-node", "restart") == 'bus.restart()  # bus = server.bus("can0") copy'
                assert press(browser, "act-node", "restart") == "Refused: can0: not bus off, but active"
                assert press(browser, "act-rule", "end") == 'server.end_rules("can0") copy'
                browser.run("at('act-text').value = 'next 1 lost'")
                assert press(browser, "act-rule", "rule").startswith("Refused: rule 'next 1 lost': its verdict is ")
                browser.run("at('act-name').value = 'can1'; at('act-name').onchange()")
                assert press(browser, "act-node", "up") == 'server.up("can1") copy'
                # No element is too wide at either page width, in light or dark colours.
                for width in (1600, 500):
                    for is_dark in (False, True):
                        browser.size(width, dark=is_dark)
                        assert browser.run("document.documentElement.scrollWidth") == width
                        wide = "[...at('acts').querySelectorAll('*')].filter(one => one.scrollWidth > one.clientWidth + 1 && getComputedStyle(one).display !== 'inline' && !one.matches('input, select, option')).length"
                        assert browser.run(wide) == 0
                assert browser.faults == []
                # The page is closed while a frame is sent cyclically.
                browser.run("at('act-name').value = 'can0'; at('act-name').onchange()")
                press(browser, "act-frame", "cycle")
                assert receiver.recv(WAIT)
                browser.ask("Page.navigate", url="about:blank")
                assert is_silent(receiver)
        finally:
            browser.close()


@pytest.mark.browser
@needs_browser
def test_a_page_without_controls(server, tmp_path):
    with Watch(server, "can0", options=["--read-only"]) as watch:
        browser = Browser(tmp_path)
        try:
            browser.open(watch.url)
            browser.until("ticks.length > 1")
            browser.key("s")
            assert browser.run("at('acts')") is None and browser.run("document.forms.length") == 0
            assert browser.faults == []
        finally:
            browser.close()


@pytest.mark.browser
@needs_browser
def test_another_site_sends_nothing(watched, receiver, tmp_path):
    """Even a site that knows the URL can't send frames, because the browser either asks the server for permission first
    or omits a header."""
    body = json.dumps({"node": "can0", "frame": "123#"})
    with site() as port:
        browser = Browser(tmp_path, "--host-resolver-rules=MAP site.example 127.0.0.1")
        try:
            for name in (f"127.0.0.1:{port}", f"site.example:{port}"):
                browser.open(f"http://{name}/")
                target = f"http://127.0.0.1:{watched.port}{watched.path}send"
                for more in (f"headers: {{ '{TOKEN}': '{watched.path.strip('/')}' }}", "mode: 'no-cors'"):
                    asked = f"fetch('{target}', {{ method: 'POST', body: '{body}', {more} }})"
                    assert browser.run(f"{asked}.then(one => one.text(), () => 'refused')") in ("", "refused")
            assert is_silent(receiver)
        finally:
            browser.close()
