"""Captures frames from a running server for Wireshark. A frame that several interfaces receive is captured only once.
"""

import collections
import time
from collections.abc import Iterator, Sequence
from typing import BinaryIO

from can.message import Message

from canbusd._run.pcapng import INBOUND, OUTBOUND, Capture, Packet
from canbusd.bus import CanbusdBus
from canbusd.frames import Frame, frame_like

# How many seconds a session may take to deliver its frames, and the maximum number of frames to read from it at a time.
PATIENCE, BATCH = 5.0, 1000


class Watched(CanbusdBus):
    """A bus that treats all frames sent from its interface as its own, no matter which session sent them."""

    #: The number of frames that the bus has received.
    received = 0

    def _is_own(self, number: int) -> bool:
        return True

    def _message(self, text: str) -> Message:
        self.received += 1
        return super()._message(text)

    def at_hand(self) -> Iterator[Frame]:
        """Yields frames that were received, at most BATCH of them."""
        for _ in range(BATCH):
            message = self.recv(0)
            if message is None:
                return
            yield frame_like(message)

    def up_to_now(self) -> Iterator[Frame]:
        """Yields all frames that were sent to the socket, including frames that are still on their way from the server."""
        wanted, deadline = self.stats().queued, time.monotonic() + PATIENCE
        while self.received < wanted and time.monotonic() < deadline:
            message = self.recv(0.01)
            if message is not None:
                yield frame_like(message)
        # Later calls do not wait again for the frames that failed to arrive in time.
        self.received = max(self.received, wanted)


class Merged:
    """Merges the frames of several interfaces, so that each frame appears only once. If the sender is one of these
    interfaces, the frame appears at the sender."""

    def __init__(self, buses: Sequence[tuple[str, Watched]]) -> None:
        self._buses = buses
        # The copies of each frame at the interfaces, in order of arrival. The key contains the timestamp, the frame as
        # a string, and how many equal frames came before it.
        self._held: dict[tuple[float, str, int, str], list[Packet]] = {}
        # For each interface, the timestamp of its last frame, and how often it received each frame with this timestamp.
        self._last: dict[str, tuple[float, collections.Counter[str]]] = {}

    @property
    def has_more(self) -> bool:
        """Whether frames have been received but not taken yet."""
        return bool(self._held)

    def take(self) -> list[Packet]:
        """Returns the frames that are complete, sorted by timestamp."""
        for name, bus in self._buses:
            self._add(name, bus.at_hand())
        # An attempt delivers its frame to the sockets of all interfaces at once. So every socket has received the
        # frames that were read up to here.
        whole = [*self._held]
        if whole and len(self._buses) > 1:
            for name, bus in self._buses:
                self._add(name, bus.up_to_now())
        found = [packet for key in whole for packet in once(self._held.pop(key))]
        return sorted(found, key=lambda packet: packet[1].timestamp)

    def _add(self, name: str, frames: Iterator[Frame]) -> None:
        for frame in frames:
            moment, text = frame.timestamp, str(frame)
            if self._last.get(name, (-1.0,))[0] != moment:
                self._last[name] = moment, collections.Counter()
            before = self._last[name][1]
            # An error message frame belongs to a single interface.
            key = moment, text, before[text], name if frame.is_error_frame else ""
            before[text] += 1
            self._held.setdefault(key, []).append((name, frame, INBOUND if frame.is_rx else OUTBOUND))


def once(packets: Sequence[Packet]) -> Sequence[Packet]:
    """Returns one packet for a frame, or several packets if several interfaces sent the same frame at the same time."""
    return [packet for packet in packets if packet[2] == OUTBOUND] or packets[:1]


class Captured:
    """Writes the frames of several interfaces to a capture as they arrive."""

    def __init__(self, file: BinaryIO, buses: Sequence[tuple[str, Watched]]) -> None:
        self._file = file
        self._capture = Capture(file, [(name, bus.load().bitrate) for name, bus in buses])
        self._merged = Merged(buses)
        file.flush()

    @property
    def has_more(self) -> bool:
        """Whether frames have been received but not taken yet."""
        return self._merged.has_more

    def take(self, ready: object, most: int) -> int:
        """Writes up to `most` frames that have arrived, and returns how many were written."""
        packets = self._merged.take()[:most]
        self._capture.write(packets)
        self._file.flush()
        return len(packets)
