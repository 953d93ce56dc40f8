"""ISO-TP on the interfaces of a server, with one of three implementations: can-isotp, a socket of canbusd-run, or
Python.

    with server.isotp("ecu", tx=0x7E8, rx=0x7E0) as ecu, server.isotp("tester", tx=0x7E0, rx=0x7E8) as tester:
        tester.send(b"\\x22\\xf1\\x90")
        assert ecu.recv(timeout=5) == b"\\x22\\xf1\\x90"
"""

import contextlib
import importlib
import json
import os
import select
import socket
import subprocess
import sys
import threading
import time
from collections.abc import Callable
from typing import TYPE_CHECKING, Any, Optional

from canbusd._isotp.end import ERRORS, LONGEST_TRANSFER, MOST_BYTES, OUTAGES, check
from canbusd._isotp.end import IsoTp as IsoTp, IsoTpError as IsoTpError
from canbusd._isotp.options import Options
from canbusd._isotp.python_end import PythonIsoTp
from canbusd._process.program import ProgramNotFound, find_program
from canbusd._session.observing_session import ObservingSession
from canbusd._session.waits import seconds_until
from canbusd._text import seconds_words

if TYPE_CHECKING:
    from canbusd.bus import CanbusdBus

HOW_TO_GET = "`pip install can-isotp`, or canbusd-run beside the program"
#: The implementations.
LIBRARIES = ("can-isotp", "canbusd-run", "canbusd")
#: The program that opens the socket. It is started by canbusd-run.
SOCKET_PROGRAM = os.path.join(os.path.dirname(__file__), "_process", "isotp_socket.py")
#: Time limits in seconds for the process with the socket to start, and to exit.
START, END = 20.0, 5.0


def open_isotp(
    opened: "Callable[..., CanbusdBus]", address: str, channel: str, options: Options, library: Optional[str] = None
) -> IsoTp:
    """Returns one end of an ISO-TP connection on an interface. `opened` is a function that opens a python-can bus on an
    interface. `library` names the implementation; the default is the first available implementation that supports the
    options."""
    if library not in (None, *LIBRARIES):
        raise ValueError(f"library is {', '.join(map(repr, LIBRARIES[:-1]))} or {LIBRARIES[-1]!r}, not {library!r}")
    if options.functional is not None and library not in (None, "canbusd"):
        raise ValueError(f"functional needs library='canbusd', not {library!r}")
    if library == "canbusd" or options.functional is not None:
        return PythonIsoTp(opened, channel, options)
    if library != "canbusd-run":
        try:
            isotp = importlib.import_module("isotp")
            return CanIsoTp(isotp, opened(channel, error_frames=False, fd=options.fd), options)
        except ModuleNotFoundError:
            if library:
                raise ImportError("isotp needs can-isotp, which is not installed: `pip install can-isotp`") from None
    try:
        program = find_program("canbusd-run")
    except ProgramNotFound:
        if library:
            raise ImportError(f"isotp needs canbusd-run, and there is none: {HOW_TO_GET}") from None
        return PythonIsoTp(opened, channel, options)
    return SocketIsoTp(program, address, channel, options)


def check_physical(functional: bool) -> None:
    """Raises ValueError for a functional request, because this implementation has no identifier for functional
    requests."""
    if functional:
        raise ValueError("functional=True needs the identifier of requests to all: isotp(.., functional=0x7DF)")


class CanIsoTp(IsoTp):
    """An end of a connection that uses a can-isotp stack, version 2 or later, with the stack's own threads."""

    library = "can-isotp"

    def __init__(self, isotp: Any, bus: "CanbusdBus", options: Options) -> None:
        kind = "Normal" if options.addresses is None else "Extended"
        mode = getattr(isotp.AddressingMode, f"{kind}_{29 if options.has_29_bits else 11}bits")
        self._bus, self._faults = bus, list[Exception]()
        own, theirs = options.addresses or (None, None)
        address = isotp.Address(mode, txid=options.tx, rxid=options.rx, target_address=own, source_address=theirs)
        params = {
            "stmin": options.stmin,
            "blocksize": options.block_size,
            "tx_data_length": options.tx_dl,
            "tx_padding": options.padding,
            "can_fd": options.fd,
        }
        self._stack = isotp.CanStack(bus, address=address, error_handler=self._faults.append, params=params)
        self._stack.start()

    def send(self, data: bytes, timeout: float = LONGEST_TRANSFER, *, functional: bool = False) -> None:
        check_physical(functional)
        self._raise()
        self._stack.send(check(data))
        deadline = time.monotonic() + timeout
        while self._stack.transmitting():
            if time.monotonic() > deadline:
                raise IsoTpError(f"the transfer is not over after {seconds_words(timeout)}")
            time.sleep(0.001)
        self._raise()

    def recv(self, timeout: Optional[float] = None) -> Optional[bytes]:
        deadline = None if timeout is None else time.monotonic() + timeout
        while True:
            left = 0.05 if deadline is None else min(0.05, seconds_until(deadline))
            data = self._stack.recv(block=True, timeout=left)
            if data is not None:
                return bytes(data)
            self._raise()
            if left == 0:
                return None

    def close(self) -> None:
        self._stack.stop()
        self._bus.shutdown()

    def _raise(self) -> None:
        if self._faults:
            raise IsoTpError(f"{self._faults.pop(0)}")


class SocketIsoTp(IsoTp):
    """An end of a connection that uses a CAN_ISOTP socket in another process, which canbusd-run starts. The two
    processes communicate over a pair of sockets.

    Each packet to that process is a message to send. Each packet from that process begins with a letter: `r` is
    followed by a received message, `s` by the errno of a send (0 for success), and `e` by the errno of a failed
    receive.
    """

    library = "canbusd-run"

    def __init__(self, program: str, address: str, channel: str, options: Options) -> None:
        self._address, self._channel = address, channel
        self._own, theirs = socket.socketpair(socket.AF_UNIX, socket.SOCK_SEQPACKET)
        words = [sys.executable, "-I", "-S", SOCKET_PROGRAM, str(theirs.fileno()), channel, json.dumps(vars(options))]
        with theirs:
            self._child = subprocess.Popen(
                [program, "--address", address, "--", *words],
                pass_fds=[theirs.fileno()],
                stdin=subprocess.DEVNULL,
                stdout=subprocess.DEVNULL,
                stderr=subprocess.PIPE,
            )
        self._sending, self._news = threading.Lock(), threading.Condition()
        # The packets that no call has returned yet, and whether a thread is reading packets.
        self._received: list[bytes] = []
        self._is_read = False
        try:
            if self._next("o", START) is None:
                raise IsoTpError(f"no socket on {channel} within {seconds_words(START)}")
        except BaseException:
            self.close()
            raise

    def send(self, data: bytes, timeout: float = LONGEST_TRANSFER, *, functional: bool = False) -> None:
        check_physical(functional)
        with self._sending:
            try:
                self._own.send(check(data))
            except OSError as fault:
                raise IsoTpError(f"this end was closed: {fault.strerror}", fault.errno) from None
            answer = self._next("s", timeout)
        if answer is None:
            raise IsoTpError(f"the transfer is not over after {seconds_words(timeout)}")
        self._taken(answer)

    def recv(self, timeout: Optional[float] = None) -> Optional[bytes]:
        answer = self._next("re", timeout)
        return None if answer is None else self._taken(answer)

    def _taken(self, packet: bytes) -> bytes:
        """Returns the content of a packet. If the packet contains an errno other than 0, raises the error."""
        if packet[:1] == b"r":
            return packet[1:]
        number = int(packet[1:])
        if number:
            outage = outage_of(self._address, self._channel)
            text = f"{self._channel} is {outage}" if outage else ERRORS.get(number, os.strerror(number))
            raise IsoTpError(text, number)
        return b""

    def close(self) -> None:
        # The process exits when this end of the socket pair is closed.
        self._own.close()
        try:
            self._child.wait(END)
        except subprocess.TimeoutExpired:
            self._child.kill()
            self._child.wait()
        assert self._child.stderr is not None
        self._child.stderr.close()

    def _next(self, letters: str, timeout: Optional[float]) -> Optional[bytes]:
        """Returns the next packet that begins with one of these letters; None if no packet arrives within `timeout`
        seconds.

        If several threads wait, one of them reads all packets, and stores the packets of the other threads.
        """
        deadline = None if timeout is None else time.monotonic() + timeout
        with self._news:
            while True:
                found = next((packet for packet in self._received if packet[:1].decode() in letters), None)
                if found is not None:
                    self._received.remove(found)
                    return found
                left = None if deadline is None else seconds_until(deadline)
                if left == 0:
                    return None
                if self._is_read:
                    self._news.wait(left)
                else:
                    self._read(left)

    def _read(self, left: Optional[float]) -> None:
        """Reads a packet, if one arrives within `left` seconds. Meanwhile, other threads may check the stored packets."""
        self._is_read = True
        self._news.release()
        try:
            packet = self._own.recv(MOST_BYTES + 1) if select.select([self._own], [], [], left)[0] else None
        except OSError as fault:
            raise IsoTpError(f"this end was closed: {fault.strerror}", fault.errno) from None
        finally:
            self._news.acquire()
            self._is_read = False
            self._news.notify_all()
        if packet == b"":
            raise IsoTpError(f"the process with the socket has ended: {self._said()}")
        if packet is not None:
            self._received.append(packet)

    def _said(self) -> str:
        """Returns the last line that the process wrote to standard error, after the process has exited."""
        assert self._child.stderr is not None
        return self._child.stderr.read().decode(errors="replace").strip().split("\n")[-1] or "without a word"


def outage_of(address: str, channel: str) -> str:
    """Returns why an interface is off the bus, if the server reports a reason: `bus off` or `down`; otherwise the empty
    string."""
    # Errors of python-can are also suppressed, if it is installed: without an answer from the server, there is no
    # reason.
    with contextlib.suppress(Exception):
        session = ObservingSession(address, channel, has_frames=False)
        session.close()
        return OUTAGES.get(session.first.state, "")
    return ""
