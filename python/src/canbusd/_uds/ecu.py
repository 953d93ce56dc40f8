"""A simulated ECU: its data, and how it responds to requests."""

import contextlib
import threading
import time
from collections.abc import Callable, Iterable
from concurrent.futures import ThreadPoolExecutor
from concurrent.futures import TimeoutError as NotYet
from types import TracebackType
from typing import TYPE_CHECKING, Any, Optional, TypeVar, Union, cast

from canbusd._calls import NamesWhatThereIs, close_at_exit, explained
from canbusd._isotp.end import IsoTpError
from canbusd._isotp.segments import SegmentFault
from canbusd._session.arguments import check_within
from canbusd._session.waits import seconds_until
from canbusd._uds import codes
from canbusd._uds.answers import Answers, Guarded, Lock
from canbusd._uds.codes import NegativeResponse, byte_of, code_of, session_of

if TYPE_CHECKING:
    from canbusd._isotp.python_end import PythonIsoTp
    from canbusd.server import Server

F = TypeVar("F", bound=Callable[..., Any])
#: While a response is pending, the next pending response is sent after this fraction of P2*.
PART = 0.9


#: The sessions in which a function is available, as one or more numbers or names; empty for all sessions.
Sessions = Union[int, str, Iterable[Union[int, str]]]


def _keeper(table: dict[int, Guarded], number: int, sessions: Sessions, level: int) -> Callable[[F], F]:
    """Returns a decorator that stores a function in a table under the key `number`."""
    if isinstance(number, bool) or not isinstance(number, int) or not 0 <= number <= 0xFFFF:
        raise ValueError(f"number is one from 0 to 0xFFFF, not {number!r}")
    allowed = tuple(map(session_of, [sessions] if isinstance(sessions, (int, str)) else sessions))

    def keep(function: F) -> F:
        table[number] = Guarded(function, allowed, level)
        return function

    return keep


class OnDemand:
    """Changes to the responses of services. Each change applies to a number of requests."""

    def __init__(self) -> None:
        self._left: dict[int, list[list[Any]]] = {}

    def add(self, service: int, what: Any, count: int) -> None:
        """Adds a change for the next `count` requests of a service. It applies after the changes that were added
        earlier are used up."""
        if isinstance(count, bool) or not isinstance(count, int) or count < 1:
            raise ValueError(f"count is a number of requests, 1 or more, not {count!r}")
        self._left.setdefault(byte_of("service", service), []).append([what, count])

    def take(self, service: int) -> Any:
        """Returns the change for the current request of a service, and uses it up for this request; None if there is no
        change."""
        there = self._left.get(service)
        if not there:
            return None
        there[0][1] -= 1
        return there.pop(0)[0] if not there[0][1] else there[0][0]


class Ecu(Answers, NamesWhatThereIs):
    """A simulated ECU on an interface of a server. A thread answers UDS requests (ISO 14229-1) over ISO-TP.

    The arguments are the same as for `Server.isotp`. The ECU responds within `p2` seconds, and within `p2_star` seconds
    after a pending response. It returns to the default session after `s3` seconds without a request. Its data are in
    `dids`, `dtcs` and `memory`. Its behaviour is defined by functions with the decorators `did`, `write`, `routine`,
    `security` and `service`. If a function takes longer than P2, the ECU sends pending responses (78) in the meantime.
    If a function raises NegativeResponse, the ECU sends that response.
    """

    _INSTEAD = {
        "reject": "refuse(0x22, 'conditionsNotCorrect')",
        "fault": "inject(uds.fault('first frame', 'lost'))",
        "start": "an Ecu answers from its constructor on, until close() or the end of its with block",
    }

    @explained()
    def __init__(
        self,
        server: "Server",
        channel: str,
        *,
        tx: int,
        rx: int,
        functional: Optional[int] = None,
        p2: float = 0.05,
        p2_star: float = 5.0,
        s3: float = 5.0,
        **options: Any,
    ) -> None:
        for name, seconds in (("p2", p2), ("p2_star", p2_star), ("s3", s3)):
            check_within(seconds, name)
        if not p2_star > 0:
            raise ValueError(f"p2_star is a number of seconds above 0, not {p2_star!r}")
        super().__init__(p2, p2_star)
        self._s3 = s3
        #: The requests that the ECU has received, oldest first.
        self.requests: list[bytes] = []
        self._refused, self._delayed = OnDemand(), OnDemand()
        self._last = time.monotonic()
        self._worker = ThreadPoolExecutor(1, "canbusd ECU")
        end = server.isotp(channel, tx=tx, rx=rx, functional=functional, library="canbusd", **options)
        self._end = cast("PythonIsoTp", end)
        self._fault: Optional[BaseException] = None
        self._thread = threading.Thread(target=self._serve, name="canbusd ECU", daemon=True)
        self._thread.start()

    # Methods that define the data and the services of the ECU.

    @explained("bytes are ecu.dids[0xF190] = b'..', and a function has the decorator @ecu.did(0xF190)")
    def did(self, number: int, *, sessions: Sessions = (), level: int = 0) -> Callable[[F], F]:
        """Decorates a function ``def f()`` that returns the bytes of a DID. If `sessions` are given, the DID can only
        be read in these sessions. If a `level` is given, this security level must be unlocked first."""
        return _keeper(self._readers, number, sessions, level)

    @explained("a function that takes what is written has the decorator @ecu.write(0xF190)")
    def write(self, number: int, *, sessions: Sessions = (), level: int = 0) -> Callable[[F], F]:
        """Decorates a function ``def f(data)`` that is called with the bytes that are written to a DID."""
        return _keeper(self._writers, number, sessions, level)

    @explained("a function has the decorator @ecu.routine(0x0203)")
    def routine(self, number: int, *, sessions: Sessions = (), level: int = 0) -> Callable[[F], F]:
        """Decorates a function ``def f(data)`` that runs a routine. The bytes that it returns are included in the
        response.

        A function with a second parameter, ``def f(data, kind)``, is also called to stop the routine (2) and to get its
        results (3).
        """
        return _keeper(self._routines, number, sessions, level)

    def security(self, level: int, *, seed: Union[bytes, Callable[[], bytes]]) -> Callable[[F], F]:
        """Decorates a function ``def f(seed)`` that returns the key for a seed. `level` must be odd."""
        if isinstance(level, bool) or not isinstance(level, int) or not 0 < level < 0x7F or level % 2 == 0:
            raise ValueError(f"level is odd, from 1 to 0x7D, as a request for its seed has it, not {level!r}")

        def taken(function: F) -> F:
            self._locks[level] = Lock(seed, function)
            return function

        return taken

    def service(self, number: int) -> Callable[[F], F]:
        """Decorates a function ``def f(request)`` that answers the requests of a service. It returns the bytes of the
        response, or None for no response."""
        byte_of("service", number)

        def taken(function: F) -> F:
            self._services[number] = function
            return function

        return taken

    def refuse(self, service: int, code: Union[int, str], count: int = 1) -> None:
        """Refuses the next `count` requests of a service with this response code. The code is given as a number or a
        name."""
        self._refused.add(service, code_of(code), count)

    def delay(self, service: int, seconds: float, count: int = 1) -> None:
        """Delays the responses to the next `count` requests of a service by `seconds`. After P2, the ECU sends pending
        responses in the meantime."""
        check_within(seconds, "seconds")
        self._delayed.add(service, seconds, count)

    def inject(self, fault: SegmentFault) -> None:
        """Adds a fault to a segment of a response, or to a flow control: ``ecu.inject(uds.fault("consecutive frame 3",
        "lost"))``."""
        self._end.inject(fault)

    def close(self) -> None:
        """Closes the ECU. If one of its functions raised an exception other than NegativeResponse, raises that
        exception."""
        self._end.close()
        self._thread.join()
        self._worker.shutdown()
        fault, self._fault = self._fault, None
        if fault is not None:
            raise fault

    def __enter__(self) -> "Ecu":
        return self

    def __exit__(
        self, kind: Optional[type[BaseException]], fault: Optional[BaseException], _: Optional[TracebackType]
    ) -> None:
        close_at_exit(self.close, kind)

    # The ECU's thread.

    def _serve(self) -> None:
        while True:
            try:
                found = self._end.recv_request(self._until_default())
            except IsoTpError:
                if self._end.is_over:
                    return
                # A request that was not received completely is ignored.
                continue
            if found is None:
                self._enter(1)
            else:
                self.requests.append(found[0])
                self._handle(*found)
                self._last = time.monotonic()

    def _until_default(self) -> Optional[float]:
        """Returns how many seconds remain until the ECU returns to the default session; None if it is in the default
        session."""
        return None if self.session == 1 else seconds_until(self._last + self._s3)

    def _handle(self, request: bytes, is_to_all: bool) -> None:
        """Responds to a request. Sends pending responses if the response takes longer than P2."""
        future = self._worker.submit(self._answer, request, is_to_all)
        seconds, is_pending = self._p2, False
        while True:
            try:
                answer = future.result(seconds)
                break
            except NotYet:
                self._send(bytes([codes.NEGATIVE, request[0], codes.PENDING]))
                seconds, is_pending = self._p2_star * PART, True
        # After a pending response, the final response is always sent.
        if answer and (is_pending or not codes.is_suppressed(request, answer)):
            self._send(answer)

    def _send(self, answer: bytes) -> None:
        # If the other end has given up or the interface is bus off, the test notices this at the other end.
        with contextlib.suppress(IsoTpError):
            self._end.send(answer)

    def _answer(self, request: bytes, is_to_all: bool) -> Optional[bytes]:
        """Returns the response to a request; None if no response is sent."""
        service = request[0]
        time.sleep(self._delayed.take(service) or 0.0)
        try:
            code = self._refused.take(service)
            if code is not None:
                raise NegativeResponse(code)
            return self._carry_out(service, request)
        except NegativeResponse as refusal:
            is_silent = is_to_all and refusal.code in codes.SILENT_TO_ALL
            return None if is_silent else bytes([codes.NEGATIVE, service, refusal.code])
        except Exception as fault:
            self._fault = self._fault or fault
            return bytes([codes.NEGATIVE, service, codes.GENERAL_REJECT])
