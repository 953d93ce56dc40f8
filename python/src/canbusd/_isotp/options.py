"""The options of an ISO-TP end, in the format that sockets and can-isotp expect."""

from dataclasses import dataclass
from typing import Optional, Union

from canbusd._words import FD_LENGTHS

#: The valid values for the maximum length of sent frames, in bytes.
FRAME_LENGTHS = FD_LENGTHS[8:]


@dataclass(frozen=True)
class Options:
    """The identifiers of an ISO-TP end, and its options for sending and receiving."""

    tx: int
    rx: int
    #: The byte that pads frames to 8 bytes; None if frames are not padded.
    padding: Optional[int] = None
    fd: bool = False
    #: The maximum length of a sent frame in bytes.
    tx_dl: int = 8
    #: The parameters of the flow controls that this end sends: the byte with the minimum time between consecutive
    #: frames, and the number of frames in a block.
    stmin: int = 0
    block_size: int = 0
    #: The address bytes of sent and of received frames; None if frames have no address byte.
    addresses: Optional[tuple[int, int]] = None
    #: The identifier of functional requests, which are sent to all nodes in single frames; None if there are no such
    #: requests.
    functional: Optional[int] = None

    @property
    def has_29_bits(self) -> bool:
        """Whether the identifiers of this end are 29-bit identifiers."""
        return self.tx > 0x7FF


def options_of(
    tx: int,
    rx: int,
    padding: Optional[int],
    fd: bool,
    tx_dl: Optional[int],
    stmin: int,
    block_size: int,
    extended: Union[int, tuple[int, int], None],
    functional: Optional[int],
) -> Options:
    """Returns the options for these arguments of `isotp`. Raises ValueError if an argument is wrong."""
    identifiers = {"tx": tx, "rx": rx, **({} if functional is None else {"functional": functional})}
    for name, identifier in identifiers.items():
        if isinstance(identifier, bool) or not isinstance(identifier, int) or not 0 <= identifier <= 0x1FFFFFFF:
            raise ValueError(f"{name} is an identifier of 11 or 29 bits, not {identifier!r}")
    if tx == rx:
        raise ValueError(
            f"tx and rx are different, not both {tx:X}: rx is the identifier that the other end sends with"
        )
    if (tx > 0x7FF) != (rx > 0x7FF):
        raise ValueError(f"tx and rx are both of 11 bits or both of 29, not {tx:X} and {rx:X}")
    if functional in (tx, rx):
        raise ValueError(
            f"functional is the identifier of requests to all, such as 0x7DF, not that of tx or rx, {functional:X}"
        )
    if not isinstance(fd, bool):
        raise ValueError(f"fd is True or False, not {fd!r}")
    if padding is not None:
        _check_byte("padding", padding, "the byte that fills frames up, such as 0xCC")
    length = (64 if fd else 8) if tx_dl is None else tx_dl
    if length not in FRAME_LENGTHS:
        raise ValueError(f"tx_dl is one of {', '.join(map(str, FRAME_LENGTHS))}, not {tx_dl!r}")
    if length > 8 and not fd:
        raise ValueError(f"tx_dl={length} needs fd=True: other frames have 8 bytes")
    _check_byte(
        "stmin", stmin, "the byte of a flow control: 0 to 0x7F for milliseconds, 0xF1 to 0xF9 for 100 to 900 us"
    )
    if not (stmin <= 0x7F or 0xF1 <= stmin <= 0xF9):
        raise ValueError(f"stmin is 0 to 0x7F, milliseconds, or 0xF1 to 0xF9, 100 to 900 us, not {stmin:#x}")
    _check_byte("block_size", block_size, "how many consecutive frames come before the next flow control, 0 for all")
    return Options(tx, rx, padding, fd, length, stmin, block_size, _addresses(extended), functional)


def _addresses(extended: object) -> Optional[tuple[int, int]]:
    """Returns the address bytes of sent and of received frames; None if frames have no address byte."""
    if extended is None:
        return None
    meaning = (
        "the address byte of what is sent and received, or a pair of both; identifiers above 7FF have 29 bits anyway"
    )
    both = extended if isinstance(extended, tuple) and len(extended) == 2 else (extended, extended)
    for one in both:
        _check_byte("extended", one, meaning)
    return both  # type: ignore[return-value]


def _check_byte(name: str, value: object, meaning: str) -> None:
    if isinstance(value, bool) or not isinstance(value, int) or not 0 <= value <= 0xFF:
        raise ValueError(f"{name} is {meaning}, not {value!r}")
