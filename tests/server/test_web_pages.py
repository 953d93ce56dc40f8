"""A page in a browser can't put frames on a bus, because its requests to the server's port do not begin as a client's
messages do. A page from another site may send by `fetch` with mode `no-cors` without any permission. It may not read
the response, but it does not need to. After DNS rebinding a page has the server's own origin, and may choose any
method.
"""

import contextlib
import http.server
import json
import shutil
import socket
import subprocess
import threading

import pytest

from commands import BROWSER
from serving import WAIT, come_true, plain, serving

# Chromium takes up to half a minute to start on a busy machine.
PATIENCE = 60
MESSAGES = "< open can0 >< rawmode >< send 123 1 11 >"
# Chromium refuses to connect to ports below 1024 and to some other ports; the server's port is none of these.
PAGE = """<!DOCTYPE html>
<script>
async function tries() {
    const requests = [
        { method: "POST", mode: "no-cors", body: MESSAGES },
        { method: "POST", mode: "no-cors", body: new Blob([MESSAGES]) },
        { method: "GET", mode: "no-cors" },
    ];
    for (const request of requests) {
        const stopped = AbortSignal.timeout(3000);
        await fetch("http://ADDRESS/" + encodeURIComponent(MESSAGES), { ...request, signal: stopped }).catch(() => {});
    }
    await fetch("/done", { method: "POST" });
}
const MESSAGES = TEXT;
tries();
</script>
"""


class Pages(http.server.ThreadingHTTPServer):
    """Serves the page, and stores when its script begins and when it has ended."""

    daemon_threads = True

    def __init__(self, page):
        super().__init__(("127.0.0.1", 0), Request)
        self.page, self.asked, self.done, self.is_there = page.encode(), threading.Event(), threading.Event(), False


class Request(http.server.BaseHTTPRequestHandler):
    def do_GET(self):
        if self.path == "/here":
            self.server.asked.set()
        self.send_response(404 if self.path == "/is-there" and not self.server.is_there else 200)
        self.send_header("Content-Type", "text/html")
        self.send_header("Access-Control-Allow-Origin", "*")
        self.end_headers()
        self.wfile.write(self.server.page)

    def do_POST(self):
        self.server.done.set()
        self.send_response(204)
        self.end_headers()

    def log_message(self, *_):
        pass


@contextlib.contextmanager
def page_of(text):
    with Pages(text) as pages:
        thread = threading.Thread(target=pages.serve_forever)
        thread.start()
        try:
            yield pages
        finally:
            pages.shutdown()
            thread.join(WAIT)


@contextlib.contextmanager
def browsing(port, folder):
    """Opens the page at this port in a browser, and ends the browser afterwards."""
    words = ["--headless=new", "--no-sandbox", "--disable-gpu", "--no-first-run", f"--user-data-dir={folder}"]
    browser = subprocess.Popen(
        [BROWSER, *words, f"http://127.0.0.1:{port}/"],
        stdin=subprocess.DEVNULL,
        stdout=subprocess.DEVNULL,
        stderr=subprocess.DEVNULL,
    )
    try:
        yield
    finally:
        browser.terminate()
        browser.wait(WAIT)


def sent(server):
    """Returns the number of frames that the server says it has accepted at can0."""
    client = plain(server, "can0")
    counts = client.answer("< stats >").split()
    client.close()
    assert counts[1] == "stats", counts
    return int(counts[5])


@pytest.mark.browser
def test_a_page_sends_no_frames(server, tmp_path):
    text = PAGE.replace("ADDRESS", server.address).replace("TEXT", json.dumps(MESSAGES))
    with page_of(text) as pages, browsing(pages.server_address[1], tmp_path):
        assert pages.done.wait(PATIENCE), "the page's script did not end"
    assert sent(server) == 0


# The server takes over the page's origin, as after DNS rebinding, so requests of any method need no permission.
REBOUND = """<!DOCTYPE html>
<script>
async function is_said(address) {
    return fetch(address).then((response) => response.ok, () => false);
}
async function tries() {
    while (await is_said("/here")) {}
    while (!(await is_said("OTHER/is-there"))) {}
    for (const method of ["FOO", "patch", "POST", "x"]) {
        const stopped = AbortSignal.timeout(3000);
        await fetch("/", { method, body: TEXT, signal: stopped }).catch(() => {});
    }
    await fetch("OTHER/done", { method: "POST" });
}
tries();
</script>
"""


@pytest.mark.browser
def test_a_page_of_the_same_origin_sends_no_frames(tmp_path):
    with page_of("") as other:
        text = REBOUND.replace("OTHER", f"http://127.0.0.1:{other.server_address[1]}").replace(
            "TEXT", json.dumps(MESSAGES)
        )
        with page_of(text) as pages, browsing(pages.server_address[1], tmp_path):
            assert pages.asked.wait(PATIENCE), "the page was not opened"
            pages.shutdown()
            pages.server_close()
            with serving("can0,can1", address=f"127.0.0.1:{pages.server_address[1]}") as server:
                other.is_there = True
                assert other.done.wait(PATIENCE), "the page's script did not end"
                assert sent(server) == 0


METHODS = ("GET", "POST", "OPTIONS", "PUT", "HEAD", "DELETE", "PATCH", "CONNECT", "TRACE", "get", "patch", "FOO", "x")
# The first bytes that programs other than clients of canbusd send, followed by messages in the test.
STRANGERS = {
    **{f"{method} of HTTP": f"{method} / HTTP/1.1\r\nHost: x\r\n\r\n".encode() for method in METHODS},
    "HTTP after blank lines": b"\r\n\r\nGET / HTTP/1.1\r\n\r\n",
    "HTTP with a tab": b"GET\t/ HTTP/1.1\r\n\r\n",
    "HTTP/0.9": b"GET /\r\n",
    "HTTP/2": b"PRI * HTTP/2.0\r\n\r\nSM\r\n\r\n",
    "RTSP": b"DESCRIBE rtsp://localhost/ RTSP/1.0\r\nCSeq: 1\r\n\r\n",
    "TLS": bytes.fromhex("16 03 01 00 a1 01 00 00 9d 03 03"),
    "STUN": bytes.fromhex("00 01 00 00 21 12 a4 42"),
    "SSH": b"SSH-2.0-OpenSSH_9.2p1 Debian-2\r\n",
    "SMTP": b"EHLO localhost\r\n",
    "Redis": b"*1\r\n$4\r\nPING\r\n",
    "a word and a line feed": b"x\n",
    "NUL": b"\0",
    "DEL": b"\x7f",
}


def heard_after(server, pieces):
    """Sends these pieces on a new connection; returns all bytes that are received up to the end of the connection or
    the first `< ok >`."""
    heard = b""
    with socket.create_connection((server.host, server.port), WAIT) as connection:
        connection.setsockopt(socket.IPPROTO_TCP, socket.TCP_NODELAY, 1)
        with contextlib.suppress(ConnectionError):
            for piece in pieces:
                connection.sendall(piece)
        with contextlib.suppress(ConnectionError):
            while b"< ok >" not in heard and (piece := connection.recv(4096)):
                heard += piece
    return heard


@pytest.mark.parametrize("size", [4096, 1], ids=["whole", "cut"])
@pytest.mark.parametrize("first", STRANGERS.values(), ids=STRANGERS)
def test_a_stranger_is_not_heard(server, first, size):
    """The connection of a program that is not a client of canbusd is closed without a reply to any of its messages, and
    other clients are served as before."""
    text = first + MESSAGES.encode()
    heard = heard_after(server, [text[start : start + size] for start in range(0, len(text), size)])
    assert heard in (b"", b"< hi >")
    assert sent(server) == 0


# The first bytes that clients send, before their messages. Text outside messages is skipped.
CLIENTS = {
    "at once": b"",
    "after a blank": b" ",
    "after blank lines": b"\n\r\n\t",
    "after a word": b"x",
    "after a word and marks": b"x>y>",
    "after UTF-8": "\u00e9".encode(),
}


@pytest.mark.parametrize("size", [4096, 1], ids=["whole", "cut"])
@pytest.mark.parametrize("first", CLIENTS.values(), ids=CLIENTS)
def test_a_client_is_heard(server, first, size):
    """A client is served even if blanks, control bytes or other characters come before or between its messages."""
    text = first + b"< open can0 > GET / \0 < rawmode >< send 123 1 11 >"
    with socket.create_connection((server.host, server.port), WAIT) as connection:
        for start in range(0, len(text), size):
            connection.sendall(text[start : start + size])
        assert come_true(lambda: sent(server) == 1)


def test_curl_and_openssl_are_not_heard(server):
    """Requests and handshakes of curl and openssl are refused, if these programs are installed."""
    address = f"{server.host}:{server.port}"
    commands = [
        ["curl", "-s", "-m", "10", "-X", word, "-d", MESSAGES, f"http://{address}/"] for word in ("POST", "get", "FOO")
    ]
    commands.append(["curl", "-s", "-k", "-m", "10", f"https://{address}/"])
    commands.append(["openssl", "s_client", "-connect", address])
    for command in commands:
        if shutil.which(command[0]):
            done = subprocess.run(command, input=MESSAGES.encode(), capture_output=True, timeout=WAIT, check=False)
            assert done.returncode != 0, command
    assert sent(server) == 0
