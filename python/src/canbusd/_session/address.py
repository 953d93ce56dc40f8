"""The address of a server: parses it, connects to it, and explains why a connection failed."""

import os
import re
import socket
from typing import Optional

DEFAULT_ADDRESS = "127.0.0.1:29536"
# The exceptions that mean that no server listens at an address: one for TCP, and one for a Unix path that does not
# exist.
NO_SERVER = (ConnectionRefusedError, FileNotFoundError)
# Matches HOST:PORT or [V6]:PORT.
HOST_PORT = re.compile(r"(?:\[([^][]+)\]|([^][:]+)):([0-9]{1,5})")


def parse_address(
    text: str, what: str = "address", least_port: int = 1
) -> tuple[Optional[str], Optional[tuple[str, int]]]:
    """Parses an address, and returns its Unix path, or its host and port. Raises ValueError for any other string."""
    if text.startswith(("/", ".")):
        return text, None
    words = HOST_PORT.fullmatch(text)
    if not words or not least_port <= int(words[3]) < 65536:
        known = "HOST:PORT, [V6]:PORT, or a Unix path that begins with / or ."
        raise ValueError(f"{what} is {known}, not {text!r}{meant(text)}")
    return None, (words[1] or words[2], int(words[3]))


def meant(text: str) -> str:
    """Returns a suggestion for an incomplete address, in the form of a question, or the empty string if there is none."""
    if re.fullmatch(":?[0-9]{1,5}", text):
        return f" (127.0.0.1:{text.lstrip(':')}?)"
    return f" (./{text}?)" if re.fullmatch("[^:]*[.][^:]*", text) else ""


def server_address(given: Optional[str] = None) -> str:
    """Returns the server's address: the given one, or $CANBUSD_ADDRESS, or the default. Raises ValueError if the
    address is malformed."""
    address = str(given or os.environ.get("CANBUSD_ADDRESS") or DEFAULT_ADDRESS)
    parse_address(address)
    return address


def reason_of(fault: Exception) -> str:
    """Describes in words why a session could not be opened."""
    hint = " (is `canbusd serve` running there?)" if isinstance(fault, NO_SERVER) else ""
    return f"{getattr(fault, 'strerror', None) or fault}{hint}"


def connect(address: str, timeout: float) -> socket.socket:
    """Connects to this address, and returns a socket that sends small writes without delay."""
    path, host_port = parse_address(address)
    if host_port is not None:
        connected = socket.create_connection(host_port, timeout)
        # Without this option, a command would wait up to 40 milliseconds until TCP acknowledges the previous command.
        connected.setsockopt(socket.IPPROTO_TCP, socket.TCP_NODELAY, 1)
    else:
        assert path is not None
        connected = socket.socket(socket.AF_UNIX)
        try:
            connected.settimeout(timeout)
            connected.connect(path)
        except BaseException:
            connected.close()
            raise
    connected.setblocking(False)
    return connected
