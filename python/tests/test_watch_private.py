"""Only users who have the page's URL can open the page of `canbusd watch`. If the server is at a Unix path, only one
user can open it."""

import contextlib
import http.server
import os
import re
import socket
import subprocess
import sys
import threading

import pytest
from browser import PROGRAM, Browser
from test_watch import WAIT, Watch, connections

from canbusd._page.live import MOST_BYTES, MOST_WAITING, user_of
from canbusd.server import Server

NOBODY = 65534
needs_browser = pytest.mark.skipif(PROGRAM is None, reason="no chromium on the PATH")
needs_root = pytest.mark.skipif(os.geteuid() != 0, reason="needs root, which may be another user")
# A program that requests paths at a port, and prints the HTTP status of each response.
ASK = """
import http.client, sys
port, *paths = sys.argv[1:]
for path in paths:
    connection = http.client.HTTPConnection("127.0.0.1", int(port), timeout=60)
    connection.request("GET", path)
    print(connection.getresponse().status)
"""


@pytest.fixture(scope="module", params=["Unix path", "TCP"])
def watched(request, tmp_path_factory):
    """The page of a server that is at a Unix path, or at a TCP port to which every user may connect."""
    path = str(tmp_path_factory.mktemp("private") / "socket")
    with Server("can0,can1", listen=path if request.param == "Unix path" else "127.0.0.1:0") as server:
        with Watch(server, "can0") as watch:
            watch.is_private = request.param == "Unix path"
            yield watch


def others(watch):
    """Returns paths that are similar to the page's path, but without the token, with a wrong token or with a part of
    the token."""
    token = watch.path.strip("/")
    cut = [token[:-1], token[1:], token.swapcase(), token + "0", token + "%00", "0" * len(token), f"{token}\u00e9"]
    paths = [
        "",
        "favicon.ico",
        "news",
        "../page.js",
        f"?{token}",
        f"?token={token}",
        f"x/{token}/",
        *(f"{one}/" for one in cut),
    ]
    return [f"/{path}".encode().decode("latin-1") for path in paths]


def raw(watch, text):
    """Sends these bytes, and returns the bytes of the response."""
    with socket.create_connection(("127.0.0.1", watch.port), WAIT) as own:
        own.sendall(text)
        parts = []
        while part := own.recv(1 << 16):
            parts.append(part)
        return b"".join(parts)


def status_of(answer):
    return int(answer.split(b" ", 2)[1])


def test_the_url_has_a_token_that_is_new_each_time(watched):
    """Every URL has a new token of 256 random bits from the module `secrets`."""
    assert re.fullmatch(r"http://127\.0\.0\.1:\d+/[A-Za-z0-9_-]{43}/", watched.url)
    with Server("can0") as server, Watch(server, "can0") as other:
        assert other.path != watched.path
        assert other.get(watched.path).status == 403


def test_without_the_token_nothing_is_there(watched):
    """Without the token, every path and method is refused in the same way: the responses are identical."""
    host = f"Host: 127.0.0.1:{watched.port}\r\n\r\n"
    answers = set()
    for path in others(watched):
        for method in ("GET", "POST", "PUT", "OPTIONS", "PATCH", "FOO"):
            answer = raw(watched, f"{method} {path} HTTP/1.1\r\n{host}".encode("latin-1"))
            assert status_of(answer) == 403, (method, path)
            answers.add(re.sub(rb"Date: .*", b"", answer))
        assert status_of(raw(watched, f"HEAD {path} HTTP/1.1\r\n{host}".encode("latin-1"))) == 403
    assert len(answers) == 1
    assert watched.path.strip("/").encode() not in answers.pop()


def test_with_the_token(watched):
    for path, status in (
        (None, 200),
        (f"{watched.path}news", 200),
        (f"{watched.path}other", 404),
        (f"{watched.path}../x", 404),
    ):
        assert watched.get(path).status == status
    assert watched.get(f"{watched.path}?reload").status == 200
    for method in ("POST", "OPTIONS", "HEAD", "PUT", "DELETE", "TRACE", "CONNECT"):
        assert watched.get(method=method).status == 501


def test_another_name_of_this_machine_is_refused(watched):
    """A request with a different host name is refused even if it has the token. Otherwise a site whose name resolves to
    this machine could read the page (DNS rebinding)."""
    port = watched.port
    assert watched.get(host=f"localhost:{port}").status == 200
    for host in (
        "example.org",
        f"example.org:{port}",
        f"127.0.0.1.example.org:{port}",
        "127.0.0.1",
        f"[::1]:{port}",
        "",
    ):
        assert status_of(raw(watched, f"GET {watched.path} HTTP/1.1\r\nHost: {host}\r\n\r\n".encode())) == 403, host
    own = f"Host: 127.0.0.1:{port}\r\n"
    for hosts in ("", own + own, f"{own}Host: example.org\r\n", f"Host: example.org\r\n{own}"):
        assert status_of(raw(watched, f"GET {watched.path} HTTP/1.1\r\n{hosts}\r\n".encode())) == 403, hosts
    # In HTTP 0.9 a request has no Host header, and a response has no status line.
    assert b"Error code: 403" in raw(watched, f"GET {watched.path}\r\n\r\n".encode())
    absolute = f"GET http://127.0.0.1:{port}{watched.path} HTTP/1.1\r\n{own}\r\n"
    assert status_of(raw(watched, absolute.encode())) == 403


def test_each_answer_has_the_headers(watched):
    page = watched.get()
    assert page.getheader("Content-Security-Policy").startswith("default-src 'none'; script-src 'sha256-")
    for answer in (page, watched.get(f"{watched.path}news"), watched.get(f"{watched.path}x"), watched.get("/")):
        assert answer.getheader("X-Content-Type-Options") == "nosniff"
        assert answer.getheader("Cache-Control") == "no-store"
        assert answer.getheader("Referrer-Policy") == "no-referrer"
        assert answer.getheader("Cross-Origin-Resource-Policy") == "same-origin"
        assert answer.getheader("Content-Security-Policy") == page.getheader("Content-Security-Policy")
        assert answer.getheader("Access-Control-Allow-Origin") is None and answer.getheader("Server") == "canbusd"


def test_one_request_a_connection(watched):
    """A second request on the same connection is not read, because it may come from someone else."""
    host = f"Host: 127.0.0.1:{watched.port}\r\nConnection: keep-alive\r\n"
    whole = f"GET {watched.path} HTTP/1.1\r\nRange: bytes=0-9\r\n{host}\r\n".encode()
    answer = raw(watched, whole + whole)
    assert status_of(answer) == 200 and answer.count(b"HTTP/1.0 200") == 1 and b"</html>" in answer


def test_the_token_is_in_no_log(tmp_path):
    """Neither the token nor a message about a browser that disconnects is logged."""
    with Server("can0") as server, Watch(server, "can0") as watch:
        for path in (watch.path, f"{watch.path}news", "/", f"{watch.path}x"):
            with socket.create_connection(("127.0.0.1", watch.port), WAIT) as own:
                own.sendall(f"GET {path} HTTP/1.1\r\nHost: 127.0.0.1:{watch.port}\r\n\r\n".encode())
                own.recv(1)
                # With this option, the connection is closed with a reset.
                own.setsockopt(socket.SOL_SOCKET, socket.SO_LINGER, b"\1\0\0\0\0\0\0\0")
        assert raw(watch, b"no request\r\n\r\n")
        assert watch.get().status == 200
        with open(f"/proc/{watch.child.pid}/cmdline", "rb") as file:
            assert watch.path.strip("/").encode() not in file.read()
        watch.child.terminate()
        _, said = watch.child.communicate(timeout=WAIT)
    assert said == ""


@needs_root
def test_another_user(watched):
    """Another user who has the URL can open the page only if the server is at a TCP port, which that user could watch
    anyway."""
    words = [sys.executable, "-c", ASK, str(watched.port), "/", watched.path, f"{watched.path}news"]
    done = subprocess.run(
        words, user=NOBODY, group=NOBODY, extra_groups=[], capture_output=True, text=True, timeout=WAIT, check=True
    )
    assert done.stdout.split() == ["403", *(["403"] * 2 if watched.is_private else ["200"] * 2)]
    done = subprocess.run(words, capture_output=True, text=True, timeout=WAIT, check=True)
    assert done.stdout.split() == ["403", "200", "200"]


@pytest.mark.parametrize("family", [socket.AF_INET, socket.AF_INET6])
def test_the_user_of_a_connection(family):
    """The system can tell which user a connection belongs to, also for IPv6. A closed connection has no user."""
    with socket.socket() as listening:
        listening.bind(("127.0.0.1", 0))
        listening.listen()
        own = listening.getsockname()
        with socket.socket(family) as client:
            client.connect(("::ffff:127.0.0.1" if family == socket.AF_INET6 else "127.0.0.1", own[1]))
            accepted, address = listening.accept()
            with accepted:
                assert user_of(address, own) == os.geteuid()
                assert user_of((address[0], own[1]), own) is None and user_of(address, address) is None
                client.shutdown(socket.SHUT_WR)
                assert user_of(address, own) is None


def memory(watch):
    """Returns how much memory the command uses, in bytes."""
    with open(f"/proc/{watch.child.pid}/statm", encoding="ascii") as file:
        return int(file.read().split()[1]) * os.sysconf("SC_PAGE_SIZE")


def test_many_that_ask_nothing_keep_nobody_out(watched):
    """Many connections that send no request, or only part of one, do not keep other clients out. New connections
    replace the oldest ones."""
    with connections(watched.port, 5 * MOST_WAITING) as silent:
        for one in silent:
            with contextlib.suppress(OSError):
                one.sendall(b"GET /")
        assert watched.get().status == 200
        assert silent[0].recv(1) == b""
        with open(f"/proc/{watched.child.pid}/status", encoding="ascii") as file:
            threads = int(re.search(r"Threads:\s+(\d+)", file.read())[1])
        assert threads < 2 * MOST_WAITING
    assert watched.get().status == 200


def test_a_long_request_is_not_kept(watched):
    host = f"GET {watched.path} HTTP/1.1\r\nHost: 127.0.0.1:{watched.port}\r\n".encode()
    assert status_of(raw(watched, host + b"a: b\r\n" * 90 + b"\r\n")) == 200
    before = memory(watched)
    with connections(watched.port, MOST_WAITING // 2) as long:
        for one in long:
            with contextlib.suppress(OSError):
                for _ in range(90):
                    one.sendall(b"a: " + b"b" * 60_000 + b"\r\n")
        assert watched.get().status == 200
        assert memory(watched) - before < 64 * MOST_BYTES + (8 << 20)


def test_a_page_that_takes_nothing_ends(watched):
    """A client that does not read the news is disconnected, and does not delay other clients."""
    with socket.create_connection(("127.0.0.1", watched.port), WAIT) as slow:
        slow.setsockopt(socket.SOL_SOCKET, socket.SO_RCVBUF, 1024)
        slow.sendall(f"GET {watched.path}news HTTP/1.1\r\nHost: 127.0.0.1:{watched.port}\r\n\r\n".encode())
        answer = watched.get(f"{watched.path}news")
        assert answer.readline().startswith(b"data: ")


class Site(http.server.BaseHTTPRequestHandler):
    """Another web site. It stores the path and the referrer of every request."""

    seen = []

    def do_GET(self):
        self.seen.append((self.path, self.headers.get("Referer")))
        self.send_response(200)
        self.send_header("Content-Type", "text/html")
        self.end_headers()
        self.wfile.write(b"<!DOCTYPE html><body data-drawn=''>site</body>")

    def log_message(self, *_):
        pass


@contextlib.contextmanager
def site():
    """Runs the other web site, and yields its port."""
    with http.server.ThreadingHTTPServer(("127.0.0.1", 0), Site) as server:
        threading.Thread(target=server.serve_forever, daemon=True).start()
        try:
            yield server.server_address[1]
        finally:
            server.shutdown()


@pytest.mark.browser
@needs_browser
def test_another_site_in_a_browser(watched, tmp_path):
    """Another site in the browser can't read the page, even if it knows the URL or if its name resolves to this
    machine."""
    with site() as port:
        browser = Browser(tmp_path, "--host-resolver-rules=MAP site.example 127.0.0.1")
        try:
            for name in (f"127.0.0.1:{port}", f"site.example:{port}"):
                browser.open(f"http://{name}/")
                for path in ("/", watched.path, f"{watched.path}news"):
                    target = f"http://127.0.0.1:{watched.port}{path}"
                    said = f"fetch('{target}').then(one => one.text(), () => 'refused')"
                    assert browser.run(said) == "refused"
                    said = f"fetch('{target}', {{ mode: 'no-cors' }}).then(one => one.text(), () => 'refused')"
                    assert browser.run(said) in ("", "refused")
                    said = f"new Promise(done => {{ const news = new EventSource('{target}'); news.onerror = () => done('refused'); news.onmessage = done; }})"
                    assert browser.run(said) == "refused"
                framed = f"""new Promise(done => {{
                    const frame = document.createElement('iframe');
                    frame.src = 'http://127.0.0.1:{watched.port}{watched.path}';
                    frame.onload = () => {{ try {{ done(frame.contentDocument.title); }} catch {{ done('refused'); }} }};
                    document.body.append(frame);
                }})"""
                assert browser.run(framed) in ("", "refused", None)
            # This URL leads to the page under the host name of the other site.
            browser.ask("Page.navigate", url=f"http://site.example:{watched.port}{watched.path}")
            browser.until("document.body?.innerText.includes('403')")
        finally:
            browser.close()


@pytest.mark.browser
@needs_browser
def test_the_page_works_and_says_its_url_to_nobody(watched, tmp_path):
    """The page's content security policy allows only its own script and its news."""
    with site() as port:
        browser = Browser(tmp_path)
        try:
            browser.open(watched.url)
            browser.until("ticks.length > 1")
            assert browser.faults == []
            assert browser.run("getComputedStyle(document.querySelector('header h1')).fontWeight") != ""
            assert browser.run("document.styleSheets.length") == 1
            for script in (
                "Object.assign(document.createElement('script'), { textContent: 'window.foreign = 1' })",
                f"Object.assign(document.createElement('script'), {{ src: 'http://127.0.0.1:{port}/foreign' }})",
                f"Object.assign(document.createElement('img'), {{ src: 'http://127.0.0.1:{port}/foreign' }})",
            ):
                browser.run(f"document.body.append({script})")
            said = (
                f"fetch('http://127.0.0.1:{port}/foreign', {{ mode: 'no-cors' }}).then(() => 'sent', () => 'refused')"
            )
            assert browser.run(said) == "refused"
            assert browser.run("window.foreign") is None
            Site.seen.clear()
            browser.run(f"void (location.href = 'http://127.0.0.1:{port}/next')")
            browser.until("document.body?.innerText === 'site'")
            assert [one for one in Site.seen if one[0] != "/favicon.ico"] == [("/next", None)]
        finally:
            browser.close()


@pytest.mark.browser
@needs_browser
def test_a_page_of_localhost_works_too(watched, tmp_path):
    browser = Browser(tmp_path)
    try:
        browser.open(watched.url.replace("127.0.0.1", "localhost"))
        browser.until("ticks.length > 1")
        assert browser.faults == []
    finally:
        browser.close()
