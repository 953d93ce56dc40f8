"""One end of an ISO-TP connection: the methods and errors that all implementations share."""

import errno
from abc import ABC, abstractmethod
from types import TracebackType
from typing import Optional

from canbusd._calls import NamesWhatThereIs
from canbusd._isotp.segments import SegmentFault
from canbusd.frames import data_bytes

#: The default time limit for a transfer in seconds. A message of 4,095 bytes takes less time even at 10 kbit/s.
LONGEST_TRANSFER = 60.0
#: The maximum length of a message in bytes.
MOST_BYTES = 4095
#: The error message for each errno of a CAN_ISOTP socket (net/can/isotp.c).
ERRORS = {
    errno.ECOMM: "the other end sent no flow control in time, or a frame did not go out",
    errno.ETIMEDOUT: "the other end sent no consecutive frame in time",
    errno.EILSEQ: "a consecutive frame has the wrong number",
    errno.EBADMSG: "a frame has a wrong length, or is a wrong flow control",
    errno.EMSGSIZE: "the other end has no room for as many bytes",
    errno.ENETDOWN: "the interface is bus off or down",
}
#: The states in which an interface can neither send nor receive, in words.
OUTAGES = {"off": "bus off", "down": "down"}


class IsoTpError(RuntimeError):
    """A transfer has failed. `errno` is the errno of a socket, or None with can-isotp."""

    def __init__(self, text: str, number: Optional[int] = None) -> None:
        super().__init__(text)
        self.errno = number


class IsoTp(NamesWhatThereIs, ABC):
    """One end of an ISO-TP connection, which exchanges messages of 1 to 4,095 bytes with one other end."""

    _INSTEAD = {"receive": "recv(timeout=1)", "read": "recv(timeout=1)", "write": "send(data)"}
    #: The name of the implementation: `can-isotp`, `canbusd-run` or `canbusd`.
    library: str

    @abstractmethod
    def send(self, data: bytes, timeout: float = LONGEST_TRANSFER, *, functional: bool = False) -> None:
        """Sends a message. Returns after the last frame of the message was sent. Raises IsoTpError if the transfer
        fails.

        If `functional` is true, the message is sent to all nodes in a single frame with the `functional` identifier.
        """

    @abstractmethod
    def recv(self, timeout: Optional[float] = None) -> Optional[bytes]:
        """Returns the next message; None if no message is complete within `timeout` seconds. Raises IsoTpError if a
        transfer fails."""

    @abstractmethod
    def close(self) -> None:
        """Closes the end."""

    def inject(self, fault: SegmentFault) -> None:
        """Adds a fault to a segment that this end sends: ``end.inject(uds.fault("consecutive frame 3", "lost"))``."""
        raise ValueError(f"an end by {self.library} has no faults of segments: give isotp library='canbusd'")

    def __enter__(self) -> "IsoTp":
        return self

    def __exit__(
        self, kind: Optional[type[BaseException]], fault: Optional[BaseException], _: Optional[TracebackType]
    ) -> None:
        self.close()


def check(data: bytes) -> bytes:
    """Returns the bytes of a message. Raises ValueError if the message can't be sent."""
    found = data_bytes(data)
    if not 1 <= len(found) <= MOST_BYTES:
        raise ValueError(f"data has 1 to {MOST_BYTES} bytes, not {len(found)}")
    return found
