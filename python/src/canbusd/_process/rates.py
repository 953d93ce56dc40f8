"""The bit rates of buses, and the command-line arguments that set these rates."""

from collections.abc import Mapping
from dataclasses import dataclass
from typing import Optional, Union

from canbusd._words import NUMBERS

LEAST_BITRATE, MOST_BITRATE = NUMBERS["bitrate"][1:3]
MOST_DBITRATE = NUMBERS["data_bitrate"][2]
#: A bit rate for all buses, or a mapping with a bit rate for each bus, by the name of one of its interfaces. The rate
#: for None applies to all other buses.
BitRate = Union[int, Mapping[Optional[str], int]]


@dataclass(frozen=True)
class Rates:
    """The bit rates of a bus in bits per second: the nominal bit rate, and the bit rate for the data of FD frames with
    a bit rate switch."""

    bitrate: int
    #: The data bit rate. None means that all bits have the nominal bit rate.
    dbitrate: Optional[int] = None

    def __post_init__(self) -> None:
        if not LEAST_BITRATE <= self.bitrate <= MOST_BITRATE:
            raise ValueError(f"--bitrate {self.bitrate}: from {LEAST_BITRATE} to {MOST_BITRATE}")
        if self.dbitrate is not None and not self.bitrate <= self.dbitrate <= MOST_DBITRATE:
            raise ValueError(f"--dbitrate {self.dbitrate}: from {self.bitrate}, that of --bitrate, to {MOST_DBITRATE}")

    @property
    def words(self) -> list[str]:
        """The command-line arguments that set these bit rates for all buses."""
        return self.words_for()

    def words_for(self, name: str = "") -> list[str]:
        """Returns the command-line arguments that set these bit rates for the bus with the interface `name`, or for all
        buses if `name` is empty."""
        front = f"{name}=" if name else ""
        fast = [] if self.dbitrate is None else ["--dbitrate", f"{front}{self.dbitrate}"]
        return ["--bitrate", f"{front}{self.bitrate}", *fast]


def words_of(rates: Mapping[str, Optional[Rates]]) -> list[str]:
    """Returns the command-line arguments that set these bit rates. Each key names one interface of the bus."""
    if len(set(rates.values())) == 1:
        return next((one.words for one in rates.values() if one), [])
    return [word for name, one in rates.items() if one for word in one.words_for(name)]
