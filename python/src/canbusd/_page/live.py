"""The live page of `canbusd watch`: its updates, and the web server that sends them to browsers.

All local users, and all web sites that are open in a browser, can connect to 127.0.0.1. So the path of every request
has to begin with a token that only the URL of the page contains. The request also has to name this machine as its host,
which excludes sites whose name resolves to this machine. If the server is at a Unix path, which file permissions
protect, the browser has to belong to the user who runs the command.

The page uses POST to request an action, such as sending a frame. The request has to come from the page's own origin,
with the token in a header that no other site can make a browser send. A GET changes nothing.
"""

import base64
import contextlib
import errno
import hashlib
import itertools
import json
import operator
import os
import re
import secrets
import socket
import struct
import sys
import threading
import time
from collections import deque
from collections.abc import Iterator
from http import HTTPStatus
from http.server import BaseHTTPRequestHandler, ThreadingHTTPServer
from typing import Any, BinaryIO, Optional

from canbusd._page.acts import Acts
from canbusd._page.report import filled, part

SCRIPTS = (
    "core.js",
    "lanes.js",
    "moves.js",
    "lists.js",
    "signals.js",
    "watch_signals.js",
    "watch_loads.js",
)
# The controls of a page with actions, and their script and style.
ACTS, ACT_SCRIPTS, ACT_STYLES = "watch_acts.html", ("watch_acts.js",), ("watch_acts.css",)
# The maximum number of earlier ticks and frames that a newly opened page receives.
MOST_TICKS, MOST_FRAMES = 2400, 4000
# Times in seconds: how long pages have to receive the message that the server has ended, how long a connection may be
# silent, and the pause before the next attempt if there is no free file descriptor.
CLOSE_TIMEOUT, REQUEST_TIMEOUT, PAUSE = 2.0, 10.0, 0.2
# If there is no update for this many seconds, a page gets an empty update. Writing it fails if the page was closed.
BEAT = 1.0
# The maximum number of connections that have not sent a request, and the maximum size in bytes of a request and of its
# body.
MOST_WAITING, MOST_BYTES, MOST_BODY = 64, 65536, 16384
# The name of the header with the token.
TOKEN = "X-Canbusd-Token"
# The headers of every response. Browsers must not cache the response, guess its type, show it to other sites, or send
# its URL to them.
HEADERS = {
    "Cache-Control": "no-store",
    "Cross-Origin-Resource-Policy": "same-origin",
    "Referrer-Policy": "no-referrer",
    "X-Content-Type-Options": "nosniff",
}
POLICY = (
    "default-src 'none'; script-src 'sha256-{}'; style-src 'sha256-{}'; connect-src 'self'; img-src data:; "
    "base-uri 'none'; form-action 'none'; frame-ancestors 'none'"
)
REFUSAL = (
    "The page is at the whole URL that `canbusd watch` has printed, and of a server at a Unix path only for the user who "
    "runs the command"
)

Json = dict[str, Any]
Row = list[Any]


class Board:
    """The updates for the pages: for each tick, the counts of the interfaces and the frames that arrived since the
    previous tick."""

    def __init__(self) -> None:
        self._changed = threading.Condition()
        self._ticks: deque[Json] = deque(maxlen=MOST_TICKS)
        # Frames, faults and changes of state are stored separately, so that a flood of one kind does not displace the
        # others.
        self._kept = [deque[Row](maxlen=MOST_FRAMES) for _ in range(3)]
        self._last: tuple[int, Json] = (0, {})
        self._end: Optional[str] = None
        self._readers = 0

    def add(self, tick: Json, frames: list[Row]) -> None:
        """Adds a tick."""
        with self._changed:
            self._ticks.append(tick)
            for row in frames:
                self._kept[0 if is_frame(row) else 1 if row[3].startswith("bus error") else 2].append(row)
            self._last = self._last[0] + 1, {"ticks": [tick], "frames": frames}
            self._changed.notify_all()

    def end(self, reason: str) -> None:
        """Ends the updates, and waits until all pages have received the reason."""
        with self._changed:
            self._end = reason
            self._changed.notify_all()
            self._changed.wait_for(lambda: not self._readers, CLOSE_TIMEOUT)

    def news(self) -> Iterator[Json]:
        """Yields the updates for a page: first everything that was stored, then each tick, or an empty update if
        nothing happened. The last update is the reason for the end."""
        with self._changed:
            self._readers += 1
        try:
            seen = -1
            while True:
                with self._changed:
                    has_news = self._changed.wait_for(lambda: self._last[0] != seen or self._end is not None, BEAT)
                    if self._end is not None:
                        break
                    number, news = self._last
                    if not has_news:
                        news = {"ticks": [], "frames": []}
                    elif seen < 0 or number != seen + 1:
                        # A new page, or one that reads too slowly, starts again with everything that was stored.
                        rows = sorted(itertools.chain(*self._kept), key=operator.itemgetter(0))
                        news = {"start": True, "ticks": list(self._ticks), "frames": rows}
                    seen = number
                yield news
            yield {"end": self._end}
        finally:
            with self._changed:
                self._readers -= 1
                self._changed.notify_all()


class Pages(ThreadingHTTPServer):
    """Serves the page, and its updates as server-sent events, to browsers that know its URL."""

    # A connection that sends no request must not delay the end of the process.
    daemon_threads = True
    request_queue_size = 128

    def __init__(self, port: int, board: Board, known: Json, is_own: bool, acts: Optional[Acts]) -> None:
        """Opens the port. If `is_own` is true, only the user who runs the server may load the page. If `acts` is None,
        the page has no actions."""
        self._waiting: dict[socket.socket, None] = {}
        self._lock = threading.Lock()
        super().__init__(("127.0.0.1", port), Request)
        self.board, self.acts, self._is_own = board, acts, is_own
        self._token = secrets.token_urlsafe()
        scripts, styles = (ACT_SCRIPTS, ACT_STYLES) if acts else ((), ())
        text = filled("watch.html", (*SCRIPTS, *scripts, "watch.js"), ("page.css", *styles))
        text = text.replace("/*ACTS*/", part(ACTS) if acts else "")
        self.policy = policy_of(text)
        self.page = text.replace("/*RUN*/", json.dumps(known).replace("<", "\\u003c")).encode()

    @property
    def url(self) -> str:
        """The address of the page."""
        return f"http://127.0.0.1:{self.server_address[1]}/{self._token}/"

    def admits(self, hosts: list[str], token: str, client: tuple[str, int]) -> bool:
        """Returns whether a request is accepted. This depends on its `Host` headers, on the token in its path, and on
        the user who sends it."""
        port = self.server_address[1]
        is_here = hosts in ([f"127.0.0.1:{port}"], [f"localhost:{port}"])
        has_token = secrets.compare_digest(token.encode(), self._token.encode())
        return is_here and has_token and not (self._is_own and user_of(client, ("127.0.0.1", port)) != os.geteuid())

    def trusts(self, host: str, origins: list[str], tokens: list[str]) -> bool:
        """Returns whether a request for an action comes from the page at this host. This depends on the origin, and on
        the token in a header."""
        has_token = len(tokens) == 1 and secrets.compare_digest(tokens[0].encode(), self._token.encode())
        return has_token and origins == [f"http://{host}"]

    def get_request(self) -> tuple[Any, Any]:
        """Accepts a connection. If there is no free file descriptor, waits briefly, so that the caller's loop does not
        keep a processor busy."""
        try:
            return super().get_request()
        except OSError:
            time.sleep(PAUSE)
            raise

    def process_request(self, request: Any, client_address: Any) -> None:
        """Serves a connection. If too many connections have not sent a request, closes the oldest of them, so that
        other clients can connect."""
        with self._lock:
            self._waiting[request] = None
            oldest = next(iter(self._waiting)) if len(self._waiting) > MOST_WAITING else None
        if oldest is not None:
            self.asks(oldest)
            shut_down(oldest)
        super().process_request(request, client_address)

    def asks(self, request: socket.socket) -> None:
        """Records that a connection does not need to send a request any more, because its request was accepted or
        because it is being closed."""
        with self._lock:
            self._waiting.pop(request, None)

    def shutdown_request(self, request: Any) -> None:
        """Closes a connection."""
        self.asks(request)
        super().shutdown_request(request)

    def handle_error(self, request: Any, client_address: Any) -> None:
        """Ignores errors that occur because a browser closed its connection."""
        if not isinstance(sys.exc_info()[1], OSError):
            super().handle_error(request, client_address)


def shut_down(connection: socket.socket) -> None:
    """Shuts down a connection. The thread of the connection closes it afterwards."""
    try:
        connection.shutdown(socket.SHUT_RDWR)
    except OSError:
        pass


def opened(port: int, board: Board, known: Json, is_own: bool, acts: Optional[Acts] = None) -> Pages:
    """Opens the port and returns the server. If the port can't be opened, the error message names the port."""
    try:
        return Pages(port, board, known, is_own, acts)
    except OSError as fault:
        hint = "; --port 0 takes a free one" if fault.errno == errno.EADDRINUSE else ""
        raise OSError(fault.errno, f"{fault.strerror}{hint}", f"127.0.0.1:{port}") from None


def policy_of(page: str) -> str:
    """Returns the content security policy of a page. It allows only the one script and the one style in the page."""
    parts = (page.partition(f"<{name}>")[2].partition(f"</{name}>")[0] for name in ("script", "style"))
    return POLICY.format(*(base64.b64encode(hashlib.sha256(part.encode()).digest()).decode() for part in parts))


def user_of(client: tuple[str, int], server: tuple[str, int]) -> Optional[int]:
    """Returns the user who owns the client's socket of a TCP connection on this machine, or None if the socket is
    closed."""
    for table, prefix in (("tcp", ""), ("tcp6", "::ffff:")):
        ends = " ".join(f"{words_of(prefix + host)}:{port:04X}" for host, port in (client, server))
        try:
            with open(f"/proc/net/{table}", encoding="ascii") as file:
                # After the two addresses there are: state 01 (established), the queues, the timer, the retransmissions
                # and the user.
                found = re.search(rf"^ *\d+: {ends} 01 \S+ \S+ \S+ +(\d+) ", file.read(), re.M)
        except FileNotFoundError:
            continue
        if found:
            return int(found[1])
    return None


def words_of(host: str) -> str:
    """Formats an IP address as in /proc/net: 0100007F for 127.0.0.1 on most machines."""
    packed = socket.inet_pton(socket.AF_INET6 if ":" in host else socket.AF_INET, host)
    return "".join(f"{word:08X}" for word in struct.unpack(f"={len(packed) // 4}I", packed))


class Bounded:
    """A request from which at most MOST_BYTES bytes can be read."""

    def __init__(self, file: BinaryIO) -> None:
        self._file, self._left = file, MOST_BYTES
        self.close = file.close

    def readline(self, most: int) -> bytes:
        """Reads a line, but at most `most` bytes."""
        line = self._file.readline(min(most, self._left))
        self._left -= len(line)
        return line

    def read(self, size: int) -> bytes:
        """Reads `size` bytes, or fewer if fewer remain."""
        found = self._file.read(min(size, self._left))
        self._left -= len(found)
        return found


class Request(BaseHTTPRequestHandler):
    """A browser's request."""

    server: Pages
    rfile: Any
    # This applies to connections that send no request, and to pages that do not read their updates.
    timeout = REQUEST_TIMEOUT

    def setup(self) -> None:
        """Begins to read."""
        super().setup()
        self.rfile = Bounded(self.rfile)

    def parse_request(self) -> bool:
        """Reads the header of a request, and refuses the request if it is not admitted."""
        if not super().parse_request():
            return False
        _, _, path = self.path.partition("?")[0].partition("/")
        token, _, self.path = path.partition("/")
        if not self.server.admits(self.headers.get_all("Host", []), token, self.client_address):
            self.send_error(HTTPStatus.FORBIDDEN, explain=REFUSAL)
            return False
        self.server.asks(self.connection)
        return True

    def do_GET(self) -> None:
        """Sends the page or its updates."""
        if self.path == "":
            self.start("text/html; charset=utf-8")
            self.wfile.write(self.server.page)
        elif self.path == "news":
            self.start("text/event-stream")
            self.send_news()
        else:
            self.send_error(HTTPStatus.NOT_FOUND)

    def do_POST(self) -> None:
        """Performs an action that the page requests. If there are no actions, the response is that POST is not
        supported."""
        acts = self.server.acts
        if acts is None or self.path not in acts.by_name:
            self.send_error(HTTPStatus.NOT_IMPLEMENTED, f"Unsupported method ({self.command!r})")
            return
        host, *_ = self.headers.get_all("Host", [])
        if not self.server.trusts(host, self.headers.get_all("Origin", []), self.headers.get_all(TOKEN, [])):
            self.send_error(HTTPStatus.FORBIDDEN, explain=REFUSAL)
            return
        size = self.headers.get("Content-Length", "")
        if not re.fullmatch("[0-9]{1,9}", size):
            self.send_error(HTTPStatus.LENGTH_REQUIRED)
        elif int(size) > MOST_BODY:
            self.send_error(HTTPStatus.REQUEST_ENTITY_TOO_LARGE)
        else:
            self.act(acts, self.rfile.read(int(size)))

    def act(self, acts: Acts, text: bytes) -> None:
        """Performs the action that this JSON object requests, and sends the result."""
        try:
            asked = json.loads(text)
        except (ValueError, RecursionError):
            asked = None
        if not isinstance(asked, dict):
            self.send_error(HTTPStatus.BAD_REQUEST)
            return
        answer = json.dumps(acts.do(self.path, asked)).encode()
        self.start("application/json")
        self.wfile.write(answer)

    def start(self, kind: str) -> None:
        """Sends the header of a successful response."""
        self.send_response(HTTPStatus.OK)
        self.send_header("Content-Type", kind)
        self.end_headers()

    def end_headers(self) -> None:
        """Adds the headers that all responses have, and ends the header."""
        for name, value in {**HEADERS, "Content-Security-Policy": self.server.policy}.items():
            self.send_header(name, value)
        super().end_headers()

    def send_news(self) -> None:
        """Sends the updates until they end or the browser closes the connection."""
        acts = self.server.acts
        with acts.page() if acts else contextlib.nullcontext(Json) as of_page:
            for news in self.server.board.news():
                text = json.dumps({**news, **of_page()}, separators=(",", ":"))
                self.wfile.write(f"data: {text}\n\n".encode())

    def version_string(self) -> str:
        """Returns the name of the program that serves the page."""
        return "canbusd"

    def log_message(self, format: str, *args: Any) -> None:
        """Logs nothing, because the paths of requests contain the token."""


def is_frame(row: Row) -> bool:
    """Returns whether a row is a frame and not an error message frame, which has bit 29 set in its first digit."""
    return not (row[1][8:9] == "#" and row[1][0] in "23")
