"""The numbers of the services in ISO 14229-1, and the codes of negative responses."""

from typing import Union

from canbusd._calls import meant

SESSION, RESET, CLEAR_DTCS, READ_DTCS, READ, SECURITY = 0x10, 0x11, 0x14, 0x19, 0x22, 0x27
COMMUNICATION, WRITE, ROUTINE, DOWNLOAD, UPLOAD = 0x28, 0x2E, 0x31, 0x34, 0x35
TRANSFER, TRANSFER_EXIT, TESTER_PRESENT, DTC_SETTING = 0x36, 0x37, 0x3E, 0x85
#: The value that is added to the service in a positive response, and the first byte of a negative response.
POSITIVE, NEGATIVE = 0x40, 0x7F
#: The services whose second byte is a subfunction.
WITH_SUBFUNCTION = (SESSION, RESET, READ_DTCS, SECURITY, COMMUNICATION, ROUTINE, TESTER_PRESENT, DTC_SETTING)
#: The subfunctions of READ_DTCS, and the group for which CLEAR_DTCS clears all trouble codes.
COUNT_DTCS, DTCS_BY_STATUS, SUPPORTED_DTCS, ALL_DTCS = 0x01, 0x02, 0x0A, 0xFFFFFF
#: The bit in a subfunction that suppresses the positive response.
SUPPRESSED = 0x80
#: The sessions in ISO 14229-1, by name.
SESSIONS = {"default": 1, "programming": 2, "extended": 3, "safetySystem": 4}
CODES = {
    0x10: "generalReject",
    0x11: "serviceNotSupported",
    0x12: "subFunctionNotSupported",
    0x13: "incorrectMessageLengthOrInvalidFormat",
    0x14: "responseTooLong",
    0x21: "busyRepeatRequest",
    0x22: "conditionsNotCorrect",
    0x24: "requestSequenceError",
    0x25: "noResponseFromSubnetComponent",
    0x26: "failurePreventsExecutionOfRequestedAction",
    0x31: "requestOutOfRange",
    0x33: "securityAccessDenied",
    0x34: "authenticationRequired",
    0x35: "invalidKey",
    0x36: "exceededNumberOfAttempts",
    0x37: "requiredTimeDelayNotExpired",
    0x70: "uploadDownloadNotAccepted",
    0x71: "transferDataSuspended",
    0x72: "generalProgrammingFailure",
    0x73: "wrongBlockSequenceCounter",
    0x78: "requestCorrectlyReceived-ResponsePending",
    0x7E: "subFunctionNotSupportedInActiveSession",
    0x7F: "serviceNotSupportedInActiveSession",
    0x81: "rpmTooHigh",
    0x82: "rpmTooLow",
    0x83: "engineIsRunning",
    0x84: "engineIsNotRunning",
    0x88: "vehicleSpeedTooHigh",
    0x89: "vehicleSpeedTooLow",
    0x92: "voltageTooHigh",
    0x93: "voltageTooLow",
}
GENERAL_REJECT, PENDING = 0x10, 0x78
#: The response codes that are never sent in response to a functional request.
SILENT_TO_ALL = (0x11, 0x12, 0x31, 0x7E, 0x7F)


def code_of(code: Union[int, str]) -> int:
    """Returns the value of a response code, which may be given by name. Raises ValueError if the name or value is
    unknown."""
    if isinstance(code, str):
        for number, name in CODES.items():
            if name.lower() == code.lower():
                return number
        raise ValueError(
            f"code is a number or a name, such as 'conditionsNotCorrect', not {code!r}{meant(code, CODES.values())}"
        )
    return byte_of("code", code)


def session_of(session: Union[int, str]) -> int:
    """Returns the number of a session, which may be given by name."""
    if isinstance(session, str):
        if session not in SESSIONS:
            raise ValueError(f"session is a number, or one of {', '.join(SESSIONS)}, not {session!r}")
        return SESSIONS[session]
    return byte_of("session", session)


def byte_of(what: str, number: object) -> int:
    """Returns `number` if it fits into one byte. Otherwise raises ValueError."""
    if isinstance(number, bool) or not isinstance(number, int) or not 0 <= number <= 0xFF:
        raise ValueError(f"{what} is a number from 0 to 0xFF, not {number!r}")
    return number


class NegativeResponse(Exception):
    """A negative response. A client raises this exception when it receives one; a function of an ECU raises it to send
    one."""

    def __init__(self, code: Union[int, str], service: int = 0) -> None:
        #: The response code, and the service that was refused.
        self.code, self.service = code_of(code), service
        #: The name of the response code, as in ISO 14229-1.
        self.name = CODES.get(self.code, f"code {self.code:02X}")
        super().__init__(f"{self.name} ({self.code:02X})" + (f" to service {service:02X}" if service else ""))


def is_suppressed(request: bytes, answer: bytes) -> bool:
    """Returns whether an answer is a positive response that the request asked to suppress."""
    has_bit = request[0] in WITH_SUBFUNCTION and len(request) > 1 and bool(request[1] & SUPPRESSED)
    return has_bit and answer[0] != NEGATIVE


def check_length(request: bytes, least: int, most: int = 4095) -> None:
    """Refuses a request that is shorter than `least` or longer than `most` bytes."""
    if not least <= len(request) <= most:
        raise NegativeResponse(0x13)
