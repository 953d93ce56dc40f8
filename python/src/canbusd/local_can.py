"""The python-can interface `canbusd` for a bus inside this process: `can.Bus(interface="canbusd", channel="can0",
local=bus)`."""

from typing import Any, Optional

import canbusd._python_can  # noqa: F401  it says what is missing, so it comes first

from can.bus import BusABC, BusState
from can.exceptions import CanInitializationError, CanOperationError
from can.message import Message

from canbusd._session.protocol import ErrorCounters, Filters, Load, Stats
from canbusd._session.raw_session import ERROR_CODES
from canbusd.bus import BUS_STATES
from canbusd.frames import frame_like
from canbusd.local import LocalBus, LocalSocket, Refused


class LocalCanbusdBus(BusABC):
    """A raw socket on an interface of a LocalBus. With ``attempts="sent"``, frames are transmitted during the call that
    sends them; otherwise by ``local.attempt()`` and ``local.run()``.

    :param channel: the name of the interface
    :param local: the bus inside this process
    :param can_filters: see :meth:`can.BusABC.set_filters`
    :param kwargs: the other arguments of `LocalBus.open`
    """

    def __init__(self, channel: str, can_filters: Optional[Filters] = None, *, local: LocalBus, **kwargs: Any) -> None:
        # Since version 4.3, python-can warns about a bus that was not shut down, even if its constructor failed.
        self._is_shutdown = True
        self.channel, self.local = channel, local
        self.channel_info = f"canbusd: channel '{channel}' of a bus in this process"
        try:
            self._socket: LocalSocket = local.open(channel, **kwargs)
        except Refused as fault:
            raise CanInitializationError(f"{self.channel_info}: {fault}") from None
        super().__init__(channel=channel, can_filters=can_filters)  # type: ignore[arg-type]
        self._is_shutdown = False

    def send(self, msg: Message, timeout: Optional[float] = None) -> None:
        """Puts a message into the transmit queue of the interface. If the queue is full, raises CanOperationError
        immediately."""
        try:
            self._socket.send(frame_like(msg))
        except Refused as fault:
            raise CanOperationError(f"{fault}", ERROR_CODES.get(f"{fault}")) from None

    def _recv_internal(self, timeout: Optional[float]) -> "tuple[Optional[Message], bool]":
        frame = self._socket.receive() if timeout == 0 else self._socket.wait(timeout)
        return (None if frame is None else frame.message(self.channel)), True

    def _apply_filters(self, filters: Optional[Filters]) -> None:
        self._socket.set_filters(filters or None)

    @property
    def state(self) -> BusState:
        """The state of the interface: ACTIVE (even at error warning), PASSIVE, or ERROR if it is bus off or down."""
        return BUS_STATES[self.error_counters().state]

    @state.setter
    def state(self, new_state: BusState) -> None:
        if new_state is not BusState.ACTIVE:
            raise NotImplementedError(f"{new_state} can't be set: there is no listen-only mode")
        if self.error_counters().state in ("off", "down"):
            self.restart()

    def restart(self) -> None:
        """Restarts the interface after bus off, or brings it up if it is down."""
        self.local.restart(self.channel)

    def down(self) -> None:
        """Takes the interface off the bus."""
        self.local.down(self.channel)

    def error_counters(self) -> ErrorCounters:
        """Returns the state of the interface and its error counters."""
        return self.local.status(self.channel)

    def stats(self) -> Stats:
        """Returns the counts of this socket and its interface."""
        return self._socket.stats()

    def load(self) -> Load:
        """Returns the bus load and the bit rates of the bus."""
        return self.local.load()

    def shutdown(self) -> None:
        """Closes the socket. The bus itself stays open."""
        if not self._is_shutdown:
            self._socket.close()
        super().shutdown()
