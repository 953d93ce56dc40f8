"""Checks the arguments of a bus, which may be strings, as in can.conf or on a command line, and the arguments of other
calls."""

from numbers import Real
from typing import TypeVar, Union

from canbusd._text import NAME

Rate = TypeVar("Rate")
TRUTHS = {"1": True, "true": True, "yes": True, "on": True, "0": False, "false": False, "no": False, "off": False}


def truth(name: str, value: object) -> bool:
    """Returns a truth value. The caller may pass it as a string."""
    found = TRUTHS.get(str(value).lower())
    if found is None:
        raise ValueError(f"{name} is true or false, not {value!r}")
    return found


def mask_or_truth(name: str, value: object) -> Union[bool, int]:
    """Returns a mask of error classes, or a truth value that stands for all classes or for none. 0 and 1 are truth
    values."""
    if str(value).lower() in TRUTHS:
        return truth(name, value)
    try:
        mask = int(str(value), 0)
    except ValueError:
        mask = -1
    if not 0 <= mask <= 0xFFFFFFFF:
        raise ValueError(f"{name} is true, false or a mask of error classes, not {value!r}")
    return mask


def seconds(name: str, value: object) -> float:
    """Returns a number of seconds greater than 0. The caller may pass it as a string."""
    try:
        found = float(str(value))
    except ValueError:
        found = 0.0
    if not 0 < found < float("inf"):
        raise ValueError(f"{name} is a number of seconds above 0, not {value!r}")
    return found


def bit_rates(**rates: object) -> dict[str, int]:
    """Returns the bit rates that are not None, as integers. The caller may pass them as strings."""
    try:
        return {name: int(str(rate)) for name, rate in rates.items() if rate is not None}
    except ValueError:
        raise ValueError(f"{' and '.join(rates)} are whole numbers, of bits a second, not {rates!r}") from None


def interface_name(channel: object) -> str:
    """Returns the name of an interface. Raises ValueError for an invalid channel."""
    name = str(channel)
    if not NAME.fullmatch(name):
        raise ValueError(f"channel is the name of an interface, such as can0, not {channel!r}")
    return name


def check_within(seconds: object, what: str = "within") -> None:
    """Raises ValueError unless `seconds` is a valid number of seconds to wait."""
    if not isinstance(seconds, Real) or not float(seconds) >= 0:
        raise ValueError(f"{what} is a number of seconds, 0 or more, not {seconds!r}")


def one_data_rate(data_bitrate: Rate, dbitrate: Rate) -> Rate:
    """Returns the data bit rate, which has two names: one from python-can, and one from the program."""
    if data_bitrate is not None and dbitrate is not None and data_bitrate != dbitrate:
        raise ValueError(f"data_bitrate and dbitrate are one argument, not {data_bitrate!r} and {dbitrate!r}")
    return dbitrate if data_bitrate is None else data_bitrate
