"""Mixins with which a bench or a server can simulate nodes."""

from collections.abc import Mapping, Sequence
from typing import TYPE_CHECKING, Any, Generic, Literal, Optional, TypeVar, Union

from canbusd._calls import explained

if TYPE_CHECKING:
    from canbusd._restbus.nodes import Source
    from canbusd._session.protocol import Filters
    from canbusd.bus import CanbusdBus
    from canbusd.isotp import IsoTp
    from canbusd.rest_bus import RestBus
    from canbusd.signals import Database

R = TypeVar("R", bound="RestBus")
Library = Literal["can-isotp", "canbusd-run", "canbusd"]


class HasRestBus(Generic[R]):
    """The methods for rest buses that a bench and a server have in common."""

    database: "Optional[Database]"
    # The rest buses created so far.
    _rest_buses: "list[R]"

    def down(self, name: str) -> None:
        """Takes an interface off the bus."""
        raise NotImplementedError

    def up(self, name: str) -> None:
        """Brings an interface up."""
        raise NotImplementedError

    @property
    def interfaces(self) -> list[str]:
        """The names of all interfaces."""
        raise NotImplementedError

    def _make_rest_bus(self, database: "Database", interfaces: Mapping[str, str]) -> R:
        """Returns a rest bus for a database. `interfaces` maps each node to its interface."""
        raise NotImplementedError

    @explained()
    def rest_bus(
        self,
        database: "Source",
        without: Union[str, Sequence[str]] = (),
        nodes: Optional[Mapping[str, str]] = None,
        interface: Optional[str] = None,
    ) -> R:
        """Returns a rest bus that simulates all nodes of a database, or of a database file, except for the nodes in
        `without`.

        On a server the nodes send during the `with` block, on a bench during `rest.run(until=..)`. A node sends from
        its interface in `nodes`, otherwise from `interface`, otherwise from the interface that has the name of the
        node.
        """
        from canbusd._restbus.nodes import database_of, interfaces_of

        known = database_of(database)
        found = interfaces_of(known, without, nodes or {}, interface, self.interfaces)
        # The expectations of the test can then also use the names in this database.
        self.database = known if self.database is None else self.database.with_more(known)
        rest = self._make_rest_bus(known, found)
        self._rest_buses = [*self._open_rest_buses(), rest]
        return rest

    def _open_rest_buses(self) -> "list[R]":
        """Returns the rest buses that have not ended."""
        return [one for one in self._rest_buses if not one._is_closed]


class SimulatesNodes(HasRestBus["RestBus"]):
    """The methods of a server for simulated nodes."""

    address: str
    _result: Any

    def bus(self, channel: str, can_filters: "Optional[Filters]" = None, **kwargs: Any) -> "CanbusdBus":
        """Opens a python-can bus on an interface."""
        raise NotImplementedError

    def _make_rest_bus(self, database: "Database", interfaces: Mapping[str, str]) -> "RestBus":
        from canbusd._restbus.live_rest_bus import LiveRestBus

        return LiveRestBus(database, interfaces, self.bus, lambda: self._result is not None)

    @explained()
    def isotp(
        self,
        channel: str,
        *,
        tx: int,
        rx: int,
        padding: Optional[int] = None,
        fd: bool = False,
        tx_dl: Optional[int] = None,
        stmin: int = 0,
        block_size: int = 0,
        extended: Union[int, tuple[int, int], None] = None,
        functional: Optional[int] = None,
        library: Optional[Library] = None,
    ) -> "IsoTp":
        """Returns an ISO-TP endpoint on an interface. It sends frames with the identifier `tx`, and receives frames
        with the identifier `rx`.

        Identifiers above 7FF have 29 bits. `padding` is the byte that fills frames up to 8 bytes. `tx_dl` is the
        maximum number of bytes in a sent frame, up to 64 with `fd`. `stmin`, as a byte, and `block_size` are the values
        in the endpoint's flow control frames. `extended` is the address in the first byte of each frame, or a pair of
        addresses for sent and received frames. `functional` is the identifier of requests to all nodes: the endpoint
        also receives these, and sends them with ``send(data, functional=True)``. The implementation is can-isotp if it
        is installed, otherwise a socket of canbusd-run or Python code.
        """
        from canbusd._isotp.options import options_of
        from canbusd.isotp import open_isotp

        if channel not in self.interfaces:
            raise ValueError(f"channel is one of {', '.join(self.interfaces)}, not {channel!r}")
        options = options_of(tx, rx, padding, fd, tx_dl, stmin, block_size, extended, functional)
        return open_isotp(self.bus, self.address, channel, options, library)
