"""A UDS client for tests, with a method for any request and a method for each common service."""

import importlib
import time
from collections.abc import Callable
from types import TracebackType
from typing import TYPE_CHECKING, Any, Optional, Union, cast

from canbusd._calls import NamesWhatThereIs, explained
from canbusd._isotp.end import IsoTp
from canbusd._isotp.python_end import LONGEST_GAP, PythonIsoTp
from canbusd._isotp.segments import SegmentFault
from canbusd._session.arguments import check_within
from canbusd._session.waits import seconds_until
from canbusd._text import seconds_words
from canbusd._uds import codes
from canbusd._uds.codes import NegativeResponse, byte_of, session_of
from canbusd.frames import data_bytes

if TYPE_CHECKING:
    from canbusd.server import Server


class Client(NamesWhatThereIs):
    """A tester on an interface of a server. It sends UDS requests (ISO 14229-1) to an ECU over ISO-TP.

    The arguments are the same as for `Server.isotp`. A response must begin within `p2` seconds, or within `p2_star`
    seconds after a pending response. Methods raise NegativeResponse for a negative response, TimeoutError for a missing
    response, and IsoTpError for a failed transfer.
    """

    _INSTEAD = {
        **dict.fromkeys(("read_data_by_identifier", "read_did"), "read(0xF190)"),
        **dict.fromkeys(("write_data_by_identifier", "write_did"), "write(0xF190, data)"),
        **dict.fromkeys(("change_session", "diagnostic_session_control"), "session(3)"),
        **dict.fromkeys(("unlock_security_access", "security_access"), "unlock(1, key)"),
        **dict.fromkeys(("start_routine", "routine_control"), "routine(0x0203)"),
        **dict.fromkeys(("ecu_reset",), "reset()"),
        **dict.fromkeys(("clear_dtc", "clear_diagnostic_information"), "clear_dtcs()"),
        **dict.fromkeys(("read_dtc", "read_dtc_information"), "dtcs()"),
        "send": "request(bytes)",
    }

    @explained()
    def __init__(
        self,
        server: "Server",
        channel: str,
        *,
        tx: int,
        rx: int,
        functional: Optional[int] = None,
        p2: float = 1.0,
        p2_star: float = 5.0,
        **options: Any,
    ) -> None:
        for name, seconds in (("p2", p2), ("p2_star", p2_star)):
            check_within(seconds, name)
        self._p2, self._p2_star = p2, p2_star
        #: The client's ISO-TP end. To use it with udsoncan, pass it to `connection`.
        self.end = server.isotp(channel, tx=tx, rx=rx, functional=functional, library="canbusd", **options)
        self._python_end = cast(PythonIsoTp, self.end)
        #: How many pending responses preceded the last response.
        self.pending = 0

    @explained()
    def request(self, data: bytes, *, functional: bool = False) -> bytes:
        """Sends a request, and returns all bytes of the positive response.

        If `functional` is true, the request is sent to all ECUs, and the first response is used. Raises
        NegativeResponse if the request is refused. Raises TimeoutError if no response begins within P2, or within P2*
        after a pending response.
        """
        __tracebackhide__ = True
        request = data_bytes(data)
        self.pending = 0
        self.end.send(request, functional=functional)
        seconds = self._p2
        deadline = time.monotonic() + seconds
        while True:
            answer = self.end.recv(seconds_until(deadline))
            while answer is None and self._python_end.is_receiving:
                # P2 limits the time until the response begins, not until it ends.
                answer = self.end.recv(LONGEST_GAP)
            if answer is None:
                after = " after the last pending response" if self.pending else ""
                text = f"no answer to {request[:8].hex(' ').upper()} within {seconds_words(seconds)}{after}"
                raise TimeoutError(text)
            if answer[0] == request[0] + codes.POSITIVE:
                return answer
            if len(answer) > 2 and answer[:2] == bytes([codes.NEGATIVE, request[0]]):
                if answer[2] != codes.PENDING:
                    raise NegativeResponse(answer[2], request[0])
                self.pending += 1
                seconds = self._p2_star
                deadline = time.monotonic() + seconds

    def session(self, kind: Union[int, str]) -> None:
        """Changes the session to 1 or ``"default"``, 2 or ``"programming"``, 3 or ``"extended"``, or another session
        number."""
        self.request(bytes([codes.SESSION, session_of(kind)]))

    def reset(self, kind: int = 1) -> None:
        """Resets the ECU. `kind` is 1 for a hard reset, 2 for a key off/on reset, and 3 for a soft reset."""
        self.request(bytes([codes.RESET, byte_of("kind", kind)]))

    def read(self, did: int) -> bytes:
        """Reads a DID, and returns its bytes."""
        return self.request(bytes([codes.READ]) + _number("did", did))[3:]

    def write(self, did: int, data: bytes) -> None:
        """Writes these bytes to a DID."""
        self.request(bytes([codes.WRITE]) + _number("did", did) + data_bytes(data))

    def unlock(self, level: int, key: Callable[[bytes], bytes]) -> None:
        """Unlocks a security level: requests a seed, calls the function `key` with the seed, and sends the key that it
        returns."""
        seed = self.request(bytes([codes.SECURITY, byte_of("level", level)]))[2:]
        if any(seed):
            self.request(bytes([codes.SECURITY, level + 1]) + data_bytes(key(seed)))

    def routine(self, number: int, data: bytes = b"", kind: int = 1) -> bytes:
        """Starts a routine (`kind` 1), stops it (2) or requests its results (3). Returns the bytes that follow the
        routine's number in the response."""
        request = bytes([codes.ROUTINE, byte_of("kind", kind)]) + _number("number", number) + data_bytes(data)
        return self.request(request)[4:]

    def dtcs(self, mask: int = 0xFF) -> dict[int, int]:
        """Returns the trouble codes whose status has at least one bit of this mask, as a dict of status by trouble
        code."""
        found = self.request(bytes([codes.READ_DTCS, codes.DTCS_BY_STATUS, byte_of("mask", mask)]))[3:]
        rows = [found[place : place + 4] for place in range(0, len(found) - 3, 4)]
        return {int.from_bytes(row[:3], "big"): row[3] for row in rows}

    def clear_dtcs(self, group: int = codes.ALL_DTCS) -> None:
        """Clears a group of trouble codes; by default all trouble codes."""
        self.request(bytes([codes.CLEAR_DTCS]) + group.to_bytes(3, "big"))

    def tester_present(self, *, functional: bool = False) -> None:
        """Sends TesterPresent without requesting a response. This keeps the session open."""
        self.end.send(bytes([codes.TESTER_PRESENT, codes.SUPPRESSED]), functional=functional)

    def download(self, address: int, data: bytes) -> None:
        """Downloads bytes to the ECU's memory, using RequestDownload, TransferData for each block, and
        RequestTransferExit."""
        content = data_bytes(data)
        size = self._begin(codes.DOWNLOAD, address, len(content))
        for number, start in enumerate(range(0, len(content), size), 1):
            self.request(bytes([codes.TRANSFER, number % 256]) + content[start : start + size])
        self.request(bytes([codes.TRANSFER_EXIT]))

    def upload(self, address: int, size: int) -> bytes:
        """Uploads bytes from the ECU's memory, using RequestUpload, TransferData for each block, and
        RequestTransferExit."""
        self._begin(codes.UPLOAD, address, size)
        content, number = b"", 1
        while len(content) < size:
            content += self.request(bytes([codes.TRANSFER, number % 256]))[2:]
            number += 1
        self.request(bytes([codes.TRANSFER_EXIT]))
        return content

    def inject(self, fault: SegmentFault) -> None:
        """Adds a fault to a request or a flow control: ``inject(uds.fault("flow control", "lost"))``."""
        self.end.inject(fault)

    def close(self) -> None:
        """Closes the client."""
        self.end.close()

    def _begin(self, service: int, address: int, size: int) -> int:
        """Begins a download or an upload. Returns how many data bytes a TransferData request can have."""
        numbers = address.to_bytes(4, "big") + size.to_bytes(4, "big")
        answer = self.request(bytes([service, 0x00, 0x44]) + numbers)
        return int.from_bytes(answer[2 : 2 + (answer[1] >> 4)], "big") - 2

    def __enter__(self) -> "Client":
        return self

    def __exit__(
        self, kind: Optional[type[BaseException]], fault: Optional[BaseException], _: Optional[TracebackType]
    ) -> None:
        self.close()


def _number(what: str, number: object) -> bytes:
    """Returns the number of a DID or a routine as two bytes."""
    if isinstance(number, bool) or not isinstance(number, int) or not 0 <= number <= 0xFFFF:
        raise ValueError(f"{what} is a number from 0 to 0xFFFF, not {number!r}")
    return number.to_bytes(2, "big")


def connection(end: IsoTp) -> Any:
    """Returns a udsoncan connection over an ISO-TP end: ``udsoncan.client.Client(uds.connection(end))``.

    Raises ImportError if udsoncan is not installed.
    """
    try:
        base: Any = importlib.import_module("udsoncan.connections").BaseConnection
        late: Any = importlib.import_module("udsoncan.exceptions").TimeoutException
    except ImportError:
        raise ImportError("connection needs udsoncan, which is not installed: `pip install udsoncan`") from None

    class Connection(base):  # type: ignore[misc]
        """A udsoncan connection over an ISO-TP end. Closing the connection does not close the end."""

        _is_open = False

        def open(self) -> "Connection":
            self._is_open = True
            return self

        def close(self) -> None:
            self._is_open = False

        def is_open(self) -> bool:
            return self._is_open

        def empty_rxqueue(self) -> None:
            while end.recv(timeout=0) is not None:
                pass

        def specific_send(self, payload: bytes, timeout: Optional[float] = None) -> None:
            end.send(payload)

        def specific_wait_frame(self, timeout: float = 2.0) -> bytes:
            answer = end.recv(timeout=timeout)
            if answer is None:
                raise late(f"no answer within {seconds_words(timeout)}")
            return answer

    return Connection()
