"""A connection to a server that any number of threads can use.

A thread that waits for a frame or an answer reads the socket, unless another thread is reading it. The reading thread
sorts the messages into frames and answers, and wakes the other threads. So the connection needs no separate thread, and
reads nothing too early.

A signal handler may raise an exception at any time, for example at Ctrl-C. So the code either takes a lock with `with`,
or records in the same step that it took the lock. No thread waits while it holds a lock that others need. Sent or
received bytes are never forgotten: `noted.extend(map(call, (word,)))` is a single call in C, so the result of `call` is
in the list before any handler runs. threading.Condition is not used, because it releases its lock to wait and then
takes it again, so an exception would leave it locked.
"""

import contextlib
import os
import select
import socket
import threading
import time
from collections import deque
from collections.abc import Callable, Sequence
from typing import NoReturn, Optional, TypeVar, Union

from canbusd._session.address import connect
from canbusd._session.pending_questions import ECHO, VERDICT, Asked, OwnNumbers
from canbusd._session.protocol import LONGEST_ANSWER
from canbusd._session.readiness import PIECE, Readiness
from canbusd._session.waits import seconds_until, wait_for_ready
from canbusd._text import seconds_words

# How many seconds a server may take to end a session.
CLOSE_TIMEOUT = 1.0
# The shortest and the longest pause in seconds between two checks of a state that the server does not announce, such as
# a full transmit queue.
POLL, LONGEST_POLL = 0.0002, 0.01
# The maximum time in seconds for which a waiting thread sleeps. Then the thread checks for input that another thread
# has read, because the other thread may have been interrupted before it could wake this one.
LONGEST_NAP = 1.0
# How many seconds another thread gets to finish its read.
A_TURN = 0.001
# Any program may listen at an address, and terminals execute control characters. So characters that occur in no message
# become `?`, and all whitespace characters become spaces.
PRINTED = bytes(32 if byte in b"\t\n\v\f\r" else byte if 32 <= byte < 127 else ord("?") for byte in range(256))

T = TypeVar("T")


class NoAnswer(TimeoutError):
    """The server did not answer in time."""


class SessionRefused(Exception):
    """The server refused the session. The exception's text is the server's reason."""


class Connection:
    """A session with the server at this address. It begins with the server's greeting.

    If the server does not answer within `timeout` seconds, calls raise NoAnswer. After the connection has ended, calls
    raise ConnectionError.
    """

    def __init__(self, address: str, timeout: float) -> None:
        self._timeout = timeout
        # The first lock allows only one question at a time, the second allows only one reader at a time, and the third
        # protects the attributes below.
        self._asking = threading.Lock()
        self._reading = threading.Lock()
        self._lock = threading.Lock()
        # Threads wait for this lock while another thread reads. It is released when that thread has read something.
        self._news: Optional[threading.Lock] = None
        # The bytes that were read but not yet sorted into messages, and the beginning of an incomplete message.
        self._pieces: list[bytes] = []
        self._rest = ""
        self._frames: deque[str] = deque()
        # Whether the server acknowledges each sent frame with the frame's number, and the numbers of this session's
        # frames if they are recorded.
        self._has_acks = False
        self._own: Optional[OwnNumbers] = None
        # The length of the current question in bytes, and how many of its bytes were sent.
        self._length, self._sent = 0, [0]
        # The first expected answer is the greeting.
        self._asked = Asked(VERDICT)
        self._end: Optional[str] = None
        self._is_closing = self._is_closed = False
        self._readiness: Optional[Readiness] = None
        self._process = os.getpid()
        self._socket = connect(address, timeout)
        self._number = self._socket.fileno()
        try:
            self._greet()
        except BaseException:
            self._socket.close()
            raise

    def ask(self, messages: Sequence[str]) -> list[str]:
        """Writes these messages at once, and returns the answer to each. The empty string means that there was no
        answer, or that a frame was accepted."""
        written: list[str] = []
        ends = ""
        for message in messages:
            is_frame = self._has_acks and message.startswith("send")
            written.append(f"< {message} >" if is_frame else f"< {message} >< echo >")
            ends += VERDICT if is_frame else ECHO
        data = "".join(written).encode()
        with self._asking:
            deadline = time.monotonic() + self._timeout
            with self._lock:
                self._settle()
                self._length, self._sent, self._asked = len(data), [], self._asked.and_then(ends)
                sent = self._send(data)
            if sent != len(data):
                self._write(memoryview(data)[sent or 0 :], deadline)
            answers = self._wait(self._answered, deadline)
            if answers is None:
                raise NoAnswer(f"no answer within {seconds_words(self._timeout)}")
            return answers

    def ask_acks(self, notes_own: bool = False) -> None:
        """Requests that the server acknowledges each sent frame with the frame's number instead of an echo.

        If `notes_own` is true, these numbers are recorded for `is_own`. An older server continues to send echoes.
        """
        self._own = OwnNumbers() if notes_own else None
        self._has_acks = self.ask(["ack 1"]) == ["ok"]

    def is_own(self, number: int) -> bool:
        """Returns whether the frame with this number at the interface was sent by this session."""
        return self._own is not None and number in self._own

    def frame(self, timeout: Optional[float]) -> Optional[str]:
        """Returns the next message with a frame, without the characters before its `<`. Returns None if no frame
        arrives within `timeout` seconds."""
        if self._frames and self._readiness is None:
            # This is the usual case in a burst of frames.
            try:
                return self._frames.popleft()
            except IndexError:
                pass
        try:
            return self._wait(self._next_frame, None if timeout is None else time.monotonic() + timeout)
        except ConnectionError:
            with self._lock:
                # When the connection has ended, a thread that waits for the file descriptor is notified only once.
                if self._readiness is not None and not self._is_closing:
                    self._readiness.show(False)
            raise

    def take_frames(self, to: deque[str]) -> int:
        """Reads the socket once without waiting, appends the frames to `to`, and returns how many frames were appended.

        A single call moves all frames, so each frame is in one of the two lists even if a signal handler raises an
        exception. If another thread is reading, this call waits for that thread to finish, because repeated calls would
        otherwise keep it from reading.
        """
        before = len(to)
        try:
            has_read, _ = self._read(self._never, 0.0, select.POLLIN)
            if not has_read:
                self._await_reader(self._never, A_TURN, select.POLLIN)
        finally:
            with contextlib.suppress(IndexError):
                to.extend(iter(self._frames.popleft, None))
        return len(to) - before

    def frames_at_hand(self) -> int:
        """Returns the number of frames that were read but not taken yet."""
        return len(self._frames)

    def socket_fileno(self) -> int:
        """Returns the file descriptor of the socket. It becomes readable when the server sends anything, even if it is
        only an answer."""
        return self._number

    def fileno(self) -> int:
        """Returns a file descriptor that is readable when `frame` would return at once. Raises NotImplementedError if
        the system can't provide it."""
        if not hasattr(select, "epoll"):
            raise NotImplementedError("a file descriptor needs epoll, which this system does not have")
        with self._lock:
            if self._end is not None and self._readiness is None:
                raise ConnectionError(self._end)
            if self._readiness is None:
                self._readiness = Readiness(self._socket)
                self._readiness.show(bool(self._frames))
            return self._readiness.fileno()

    def close(self) -> None:
        """Ends the session, and all calls that wait for a frame or an answer. A second call does nothing."""
        with self._lock:
            if self._is_closed:
                return
            self._is_closing = True
        # A forked process must not end its parent's session.
        is_own = os.getpid() == self._process
        if is_own:
            self._part()
        with self._lock:
            self._stop("the bus was shut down")
            self._frames.clear()
        self._wake()
        if is_own:
            with contextlib.suppress(OSError):
                self._socket.shutdown(socket.SHUT_RDWR)
        self._release()

    def _part(self) -> None:
        """Ends the session by closing the server's input. The server then closes the connection. The server may already
        be gone, or may be busy."""
        taken: list[bool] = []
        try:
            taken.extend(map(self._asking.acquire, (True,), (CLOSE_TIMEOUT,)))
            if taken[0]:
                self._socket.shutdown(socket.SHUT_WR)
                self._wait(self._never, time.monotonic() + CLOSE_TIMEOUT)
        except OSError:
            pass
        finally:
            if taken == [True]:
                self._asking.release()

    def _release(self) -> None:
        """Closes the file descriptors, after all threads have stopped reading."""
        taken: list[bool] = []
        try:
            taken.extend(map(self._reading.acquire, (True,), (CLOSE_TIMEOUT,)))
            with self._lock:
                self._socket.close()
                if self._readiness is not None:
                    self._readiness.close()
                    self._readiness = None
                self._is_closed = True
        finally:
            if taken == [True]:
                self._reading.release()

    def _greet(self) -> None:
        self._wait(lambda: self._asked.answers or None, time.monotonic() + self._timeout)
        greeting = next(iter(self._asked.answers), "")
        if greeting.startswith("error "):
            raise SessionRefused(greeting[len("error ") :])
        if greeting != "hi":
            shown = f"`{greeting[:60]}`" if greeting else f"nothing within {seconds_words(self._timeout)}"
            raise NoAnswer(f"no server of canbusd: {shown} in place of its greeting")

    def _answered(self) -> Optional[list[str]]:
        return [*self._asked.answers] if self._asked.is_answered else None

    def _next_frame(self) -> Optional[str]:
        frame = self._frames.popleft() if self._frames else None
        if self._readiness is not None and self._end is None:
            self._readiness.show(bool(self._frames))
        return frame

    def _never(self) -> None:
        return None

    def _settle(self) -> None:
        """Discards the current question. If the caller gave up after the question was sent, the remaining answers will
        still arrive."""
        sent = sum(self._sent)
        if 0 < sent < self._length:
            self._stop("half a command was written")
        self._asked = self._asked.given_up(was_sent=sent > 0)

    def _write(self, left: memoryview, deadline: float) -> None:
        """Writes the rest of a question. Reads frames in the meantime, because a server accepts no commands while it
        waits for its client to read."""
        while left:
            sent = self._wait(lambda: self._send(left), deadline, select.POLLIN | select.POLLOUT)
            if sent is None:
                with self._lock:
                    # Part of a command may already have been written.
                    self._stop(f"the server took no commands within {seconds_words(self._timeout)}")
                raise NoAnswer(self._end)
            left = left[sent:]

    def _send(self, data: Union[bytes, memoryview]) -> Optional[int]:
        """Writes as many bytes as the socket accepts, and records how many that were."""
        if self._end is not None:
            self._raise_end()
        try:
            self._sent.extend(map(self._socket.send, (data,)))
            return self._sent[-1]
        except BlockingIOError:
            return None
        except OSError as fault:
            self._stop(f"the connection broke: {fault.strerror}")
            self._raise_end()

    def _wait(
        self, ready: Callable[[], Optional[T]], deadline: Optional[float], events: int = select.POLLIN
    ) -> Optional[T]:
        """Returns the first result of `ready` that is not None, or None if there is no such result before the deadline.

        `ready` is called again after each change. Messages that arrived before the end of the connection are still
        returned.
        """
        while True:
            left = None if deadline is None else seconds_until(deadline)
            has_read, found = self._read(ready, left, events)
            if not has_read:
                found = self._await_reader(ready, left, events)
            if found is not None or left == 0:
                return found

    def _await_reader(self, ready: Callable[[], Optional[T]], left: Optional[float], events: int) -> Optional[T]:
        """Waits until the reading thread has read something, if there is a reading thread. Returns the result of
        `ready`."""
        with self._lock:
            found = self._look(ready)
            if found is not None or left == 0:
                return found
            news = self._next_news()
        # A thread that starts to read after this point will find the lock, and will wake this thread.
        if self._reading.locked():
            # The reading thread does not notice when the socket accepts more bytes.
            most = 0.01 if events & select.POLLOUT else LONGEST_NAP
            if news.acquire(timeout=most if left is None else min(left, most)):
                news.release()
        with self._lock:
            return self._look(ready)

    def _look(self, ready: Callable[[], Optional[T]]) -> Optional[T]:
        found = ready()
        if found is None and self._end is not None:
            self._raise_end()
        return found

    def _next_news(self) -> threading.Lock:
        """Returns a lock that is released after another thread has read something."""
        if self._news is None:
            news = threading.Lock()
            news.acquire()
            self._news = news
        return self._news

    def _wake(self) -> None:
        """Wakes the threads that wait while another thread reads."""
        if self._news is not None:
            with self._lock:
                news, self._news = self._news, None
            if news is not None:
                news.release()

    def _read(
        self, ready: Callable[[], Optional[T]], seconds: Optional[float], events: int
    ) -> tuple[bool, Optional[T]]:
        """Reads the available input, or waits up to `seconds` for input. Does nothing if another thread is reading or
        if a result is ready.

        Returns whether no other thread was reading, and the result of `ready`.
        """
        taken: list[bool] = []
        try:
            taken.extend(map(self._reading.acquire, (False,)))
            if not taken[0]:
                return False, None
            if not self._pieces:
                with self._lock:
                    found = self._look(ready)
                if found is not None:
                    return True, found
                self._receive(seconds, events)
            with self._lock:
                if self._pieces:
                    self._sort()
                return True, self._look(ready)
        finally:
            if taken == [True]:
                self._reading.release()
                self._wake()

    def _receive(self, seconds: Optional[float], events: int) -> None:
        try:
            if wait_for_ready((self._number,), events, seconds):
                self._pieces.extend(map(self._socket.recv, (PIECE,)))
        except BlockingIOError:
            pass
        except OSError as fault:
            with self._lock:
                self._stop(f"the connection broke: {fault.strerror}")

    def _sort(self) -> None:
        """Sorts the input into frames and answers. The input may end in the middle of a message."""
        is_end = b"" in self._pieces
        messages = (self._rest + b"".join(self._pieces).translate(PRINTED).decode("ascii")).split(">")
        rest = messages.pop()
        asked, frames, unasked = self._asked.sorted(messages, self._note)
        # The state changes completely or not at all: no signal handler runs before the frames are in `_frames`.
        self._pieces, self._rest, self._asked = [], rest, asked
        self._frames.extend(frames)
        if unasked and not self._is_closing:
            self._stop(f"the server says: {unasked}")
        elif len(rest) > LONGEST_ANSWER:
            self._stop("no server of canbusd: a message without its end")
        elif is_end:
            self._stop("the server closed the connection")
        if self._readiness is not None and self._frames:
            self._readiness.show(True)

    def _note(self, number: int) -> None:
        if self._own is not None:
            self._own.note(number)

    def _stop(self, reason: str) -> None:
        """Marks the connection as unusable. If it is already unusable, the first reason is kept."""
        if self._end is not None:
            return
        self._end = "the bus was shut down" if self._is_closing else reason
        if self._readiness is not None:
            self._readiness.forget(self._socket)
            self._readiness.show(True)

    def _raise_end(self) -> NoReturn:
        assert self._end is not None
        raise ConnectionError(self._end)
