"""The responses of a simulated ECU to the requests of each service. They are based on the ECU's data and functions."""

import inspect
import time
from collections.abc import Callable, Sequence
from dataclasses import dataclass
from typing import Optional, Union

from canbusd._uds import codes
from canbusd._uds.codes import NegativeResponse, check_length
from canbusd._uds.memory import Memory
from canbusd.frames import data_bytes

#: After MOST_KEYS wrong keys in succession, the ECU refuses requests for a seed for KEY_DELAY seconds.
MOST_KEYS, KEY_DELAY = 3, 10.0


def bytes_of_did(number: int, data: object) -> bytes:
    """Returns the bytes of a DID. Raises ValueError with the number of the DID if the value is not bytes."""
    try:
        return data_bytes(data)
    except ValueError as fault:
        raise ValueError(f"DID {number:04X}: {fault}") from None


@dataclass
class Guarded:
    """A function for a DID or a routine, with the sessions in which it may be called and the security level that must
    be unlocked. If there are no sessions, it may be called in all sessions. Level 0 does not have to be unlocked."""

    function: Callable[..., Optional[bytes]]
    sessions: Sequence[int]
    level: int


@dataclass
class Lock:
    """A security level: its seed, the function that computes the key for a seed, and the current state of the level."""

    seed: Union[bytes, Callable[[], bytes]]
    key: Callable[[bytes], bytes]
    #: The last seed that was sent, and how many wrong keys have been received in succession.
    given: Optional[bytes] = None
    wrong: int = 0
    closed_until: float = 0.0


class Answers:
    """The data of an ECU, and the methods that answer requests."""

    def __init__(self, p2: float, p2_star: float) -> None:
        self._p2, self._p2_star = p2, p2_star
        #: The current session (1 default, 2 programming, 3 extended, or another number), and the sessions that the ECU
        #: supports.
        self.session, self.sessions = 1, {1, 2, 3}
        #: The security level that is unlocked; 0 if no level is unlocked.
        self.level = 0
        #: The bytes of each DID: ``ecu.dids[0xF190] = b"WVW.."``. For a function instead of bytes, use the decorator
        #: `did`.
        self.dids: dict[int, bytes] = {}
        #: The DIDs that may be written. To call a function with the written bytes, use the decorator `write`.
        self.writable: set[int] = set()
        #: The status of each trouble code: ``ecu.dtcs[0x123456] = 0x09``. `status_mask` contains the status bits that
        #: the ECU supports.
        self.dtcs: dict[int, int] = {}
        self.status_mask = 0xFF
        #: Whether the ECU records trouble codes, and the type of the last communication control; 0 means that all
        #: messages are enabled.
        self.sets_dtcs, self.communication = True, 0
        #: The security level that must be unlocked for downloads and uploads; 0 if none.
        self.load_level = 0
        #: The services that are not available in the default session.
        self.not_in_default = {codes.SECURITY, codes.COMMUNICATION, codes.DTC_SETTING} | set(range(0x34, 0x38))
        self._memory = Memory()
        self._readers: dict[int, Guarded] = {}
        self._writers: dict[int, Guarded] = {}
        self._routines: dict[int, Guarded] = {}
        self._locks: dict[int, Lock] = {}
        self._services: dict[int, Callable[[bytes], Optional[bytes]]] = {}
        self._own: dict[int, Callable[[bytes], Optional[bytes]]] = {
            codes.SESSION: self._change_session, codes.RESET: self._reset, codes.CLEAR_DTCS: self._clear_dtcs,
            codes.READ_DTCS: self._read_dtcs, codes.READ: self._read, codes.SECURITY: self._unlock,
            codes.COMMUNICATION: self._communicate, codes.WRITE: self._write, codes.ROUTINE: self._do_routine,
            codes.DOWNLOAD: self._load, codes.UPLOAD: self._load, codes.TRANSFER: self._memory.transfer,
            codes.TRANSFER_EXIT: self._memory.end, codes.TESTER_PRESENT: self._stay, codes.DTC_SETTING: self._set_dtcs,
        }  # fmt: skip

    @property
    def memory(self) -> dict[int, bytearray]:
        """The memory for downloads and uploads. The keys are start addresses: ``ecu.memory[0x1000] = bytearray(256)``."""
        return self._memory.regions

    def _carry_out(self, service: int, request: bytes) -> Optional[bytes]:
        if service in self._services:
            answer = self._services[service](request)
            return None if answer is None else data_bytes(answer)
        function = self._own.get(service)
        if function is None:
            raise NegativeResponse(0x11)
        if self.session == 1 and service in self.not_in_default:
            raise NegativeResponse(0x7F)
        if service in codes.WITH_SUBFUNCTION:
            check_length(request, 2)
            request = bytes([service, request[1] & ~codes.SUPPRESSED]) + request[2:]
        return function(request)

    def _enter(self, session: int) -> None:
        """Changes the session. This locks all security levels and ends a transfer."""
        self.session, self.level = session, 0
        self._memory.forget()
        if session == 1:
            self.sets_dtcs, self.communication = True, 0
        for lock in self._locks.values():
            lock.given = None

    def _is_in_session(self, one: Guarded) -> bool:
        return not one.sessions or self.session in one.sessions

    def _check_level(self, level: int) -> None:
        """Refuses a request that requires a security level which is locked."""
        if level and self.level != level:
            raise NegativeResponse(0x33)

    def _change_session(self, request: bytes) -> bytes:
        check_length(request, 2, 2)
        if request[1] not in self.sessions:
            raise NegativeResponse(0x12)
        self._enter(request[1])
        # P2 is sent in milliseconds, and P2* in units of 10 milliseconds.
        times = [min(round(self._p2 * 1000), 0xFFFF), min(round(self._p2_star * 100), 0xFFFF)]
        return bytes([0x50, request[1]]) + b"".join(one.to_bytes(2, "big") for one in times)

    def _reset(self, request: bytes) -> bytes:
        check_length(request, 2, 2)
        if request[1] not in (1, 2, 3):
            raise NegativeResponse(0x12)
        self._enter(1)
        return bytes([0x51, request[1]])

    def _clear_dtcs(self, request: bytes) -> bytes:
        check_length(request, 4, 4)
        group = int.from_bytes(request[1:], "big")
        if group == codes.ALL_DTCS:
            self.dtcs.clear()
        elif self.dtcs.pop(group, None) is None:
            raise NegativeResponse(0x31)
        return b"\x54"

    def _read_dtcs(self, request: bytes) -> bytes:
        kind = request[1]
        if kind not in (codes.COUNT_DTCS, codes.DTCS_BY_STATUS, codes.SUPPORTED_DTCS):
            raise NegativeResponse(0x12)
        length = 2 if kind == codes.SUPPORTED_DTCS else 3
        check_length(request, length, length)
        found = [
            (code, status & self.status_mask)
            for code, status in self.dtcs.items()
            if kind == codes.SUPPORTED_DTCS or status & self.status_mask & request[2]
        ]
        head = bytes([0x59, kind, self.status_mask])
        if kind == codes.COUNT_DTCS:
            # The byte 01 is the DTC format identifier of ISO 14229-1.
            return head + b"\x01" + len(found).to_bytes(2, "big")
        return head + b"".join(code.to_bytes(3, "big") + bytes([status]) for code, status in found)

    def _read(self, request: bytes) -> bytes:
        if len(request) < 3 or len(request) % 2 == 0:
            raise NegativeResponse(0x13)
        answer = b""
        for place in range(1, len(request), 2):
            number = int.from_bytes(request[place : place + 2], "big")
            reader = self._readers.get(number)
            if reader is not None and self._is_in_session(reader):
                self._check_level(reader.level)
                answer += request[place : place + 2] + bytes_of_did(number, reader.function())
            elif reader is None and number in self.dids:
                answer += request[place : place + 2] + bytes_of_did(number, self.dids[number])
        if not answer:
            raise NegativeResponse(0x31)
        return b"\x62" + answer

    def _write(self, request: bytes) -> bytes:
        check_length(request, 4)
        number, data = int.from_bytes(request[1:3], "big"), request[3:]
        writer = self._writers.get(number)
        if writer is not None and self._is_in_session(writer):
            self._check_level(writer.level)
            writer.function(data)
        elif writer is not None or number not in self.writable & self.dids.keys():
            raise NegativeResponse(0x31)
        elif len(data) != len(self.dids[number]):
            raise NegativeResponse(0x13)
        else:
            self.dids[number] = data
        return b"\x6e" + request[1:3]

    def _unlock(self, request: bytes) -> bytes:
        level = request[1] if request[1] % 2 else request[1] - 1
        lock = self._locks.get(level)
        if lock is None:
            raise NegativeResponse(0x12)
        if lock.closed_until > time.monotonic():
            raise NegativeResponse(0x37)
        if request[1] == level:
            seed = data_bytes(lock.seed() if callable(lock.seed) else lock.seed)
            lock.given = None if self.level == level else seed
            return bytes([0x67, level]) + (bytes(len(seed)) if lock.given is None else seed)
        seed, lock.given = lock.given or b"", None
        if not seed:
            raise NegativeResponse(0x24)
        if request[2:] != data_bytes(lock.key(seed)):
            lock.wrong += 1
            if lock.wrong < MOST_KEYS:
                raise NegativeResponse(0x35)
            lock.wrong, lock.closed_until = 0, time.monotonic() + KEY_DELAY
            raise NegativeResponse(0x36)
        self.level, lock.wrong = level, 0
        return bytes([0x67, request[1]])

    def _communicate(self, request: bytes) -> bytes:
        check_length(request, 3, 3)
        if request[1] > 3:
            raise NegativeResponse(0x12)
        self.communication = request[1]
        return bytes([0x68, request[1]])

    def _do_routine(self, request: bytes) -> bytes:
        check_length(request, 4)
        kind, routine = request[1], self._routines.get(int.from_bytes(request[2:4], "big"))
        if routine is None or not self._is_in_session(routine):
            raise NegativeResponse(0x31)
        takes_kind = len(inspect.signature(routine.function).parameters) > 1
        if kind not in (1, 2, 3) or (kind != 1 and not takes_kind):
            raise NegativeResponse(0x12)
        self._check_level(routine.level)
        result = routine.function(request[4:], kind) if takes_kind else routine.function(request[4:])
        return bytes([0x71, kind]) + request[2:4] + data_bytes(result or b"")

    def _load(self, request: bytes) -> bytes:
        self._check_level(self.load_level)
        return self._memory.request(request)

    def _stay(self, request: bytes) -> bytes:
        check_length(request, 2, 2)
        if request[1]:
            raise NegativeResponse(0x12)
        return b"\x7e\x00"

    def _set_dtcs(self, request: bytes) -> bytes:
        if request[1] not in (1, 2):
            raise NegativeResponse(0x12)
        self.sets_dtcs = request[1] == 1
        return bytes([0xC5, request[1]])
