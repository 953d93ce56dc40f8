"""A node of a test that can leave the bus and return to it: its interface, its programs, and its messages in rest
buses."""

import contextlib
import weakref
from collections.abc import Callable, Iterator, Sequence
from typing import TYPE_CHECKING, Optional, Protocol

from canbusd._calls import NamesWhatThereIs, close_at_exit, explained
from canbusd._restbus.sleepers import Sleepers
from canbusd._restbus.wake_up import WakeOn, WakeUp

if TYPE_CHECKING:
    from canbusd.programs import Program
    from canbusd.rest_bus import RestBus, RestMessage
    from canbusd.signals import Database


class Run(Protocol):
    """The methods of a server or a bench that a node uses."""

    database: "Optional[Database]"

    @property
    def _sleepers(self) -> Sleepers:
        """The nodes that sleep until a frame wakes them up."""

    def down(self, name: str) -> None:
        """Takes an interface off the bus."""

    def up(self, name: str) -> None:
        """Brings an interface up."""

    def _open_rest_buses(self) -> "Sequence[RestBus]":
        """Returns the rest buses that have not ended."""


class Node(NamesWhatThereIs):
    """A node with its own interface. The method `node` of a server or a bench returns it: ``server.node("ecu",
    program)``.

    A node is off the bus after `power_off` or `sleep`, and in an `unplugged` block. It then sends, accepts and
    acknowledges nothing, and the messages that a rest bus sends from its interface stop. When the node returns, they
    start again from the beginning.
    """

    _INSTEAD = {
        **dict.fromkeys(("down", "off", "stop", "kill"), "power_off(), sleep(), or with node.unplugged(): .."),
        **dict.fromkeys(("up", "on", "start"), "power_on(), or wake()"),
        **dict.fromkeys(("unplug", "plug", "plug_in"), "with node.unplugged(): .."),
    }

    def __init__(self, run: Run, name: str, programs: "Sequence[Program]" = ()) -> None:
        #: The name of the node's interface.
        self.name = name
        # The run owns its nodes, so a node must not keep the run alive.
        self._run: Run = weakref.proxy(run)
        self._programs = tuple(programs)
        # Whether a call such as `sleep` took the node off the bus, and the frames that wake the node up.
        self._is_off = False
        self._wake_up: Optional[WakeUp] = None
        # The messages that rest buses were sending from this interface when the node left the bus.
        self._ceased: "list[tuple[RestBus, list[RestMessage]]]" = []

    def power_off(self) -> None:
        """Cuts the node's power: its programs are killed, and the frames in its transmit queue are lost."""
        for program in self._programs:
            program._power_off()
        self._leave(None)

    def power_on(self) -> None:
        """Restores the node's power. Both error counts are 0, and the programs that `power_off` killed are started
        again."""
        self.wake()
        for program in self._programs:
            program._power_on()

    @explained()
    def sleep(self, wake_on: Optional[WakeOn] = None) -> None:
        """Takes the node off the bus as if it slept. Its programs continue, but their sends are refused.

        A frame from another node wakes this node up if its identifier is in `wake_on`: an identifier, the name of a
        message, a range such as ``range(0x500, 0x540)``, or a list of these. The programs don't receive this frame.
        Only classical data frames wake a node up, as with transceivers for selective wake-up. Identifiers above 7FF
        have 29 bits. Without `wake_on`, only the calls `wake` and `power_on` wake the node up.
        """
        self._leave(None if wake_on is None else WakeUp(wake_on, self._run.database))

    def wake(self) -> None:
        """Puts the node on the bus again, with both error counts 0."""
        self._return(self._run.up)

    @contextlib.contextmanager
    def unplugged(self) -> Iterator[None]:
        """Unplugs the node's cable during the `with` block, while its programs continue. If the node slept before, it
        sleeps again afterwards."""
        # A frame may wake the node up at the same time. The lock ensures that the node wakes up completely or not at
        # all.
        with self._run._sleepers.lock:
            was_off, wake_up = self._is_off, self._wake_up
            self._leave(None)
        kind = None
        try:
            yield
        except BaseException as fault:
            kind = type(fault)
            raise
        finally:
            close_at_exit(lambda: self._leave(wake_up) if was_off else self.wake(), kind)

    def _return(self, up: Callable[[str], None]) -> None:
        """Brings the node's interface up by calling `up`, and restarts its messages in rest buses."""
        with self._run._sleepers.lock:
            self._run._sleepers.remove(self.name)
            up(self.name)
            self._is_off, self._wake_up = False, None
            ceased, self._ceased = self._ceased, []
            for rest, messages in ceased:
                rest._resume(messages)

    def _leave(self, wake_up: Optional[WakeUp]) -> None:
        """Takes the node off the bus until a call, or a frame in `wake_up`, wakes it up."""
        with self._run._sleepers.lock:
            self._run._sleepers.remove(self.name)
            self._ceased += [(rest, rest._silence(self.name)) for rest in self._run._open_rest_buses()]
            self._run.down(self.name)
            self._is_off, self._wake_up = True, wake_up
            if wake_up is not None:
                self._run._sleepers.add(self.name, wake_up, self._return)
