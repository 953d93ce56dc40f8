"""A file descriptor that becomes readable when a connection has something to read."""

import contextlib
import os
import select
import socket

# The maximum number of bytes in one read.
PIECE = 65536


class Readiness:
    """A file descriptor that is readable if the socket is readable, or if there are frames that were read but not taken
    yet."""

    def __init__(self, connected: socket.socket) -> None:
        self._reader, self._writer = os.pipe()
        os.set_blocking(self._reader, False)
        self._is_shown = False
        self._epoll = select.epoll()
        self._epoll.register(self._reader, select.EPOLLIN)
        self._epoll.register(connected, select.EPOLLIN)

    def fileno(self) -> int:
        """Returns the file descriptor."""
        return self._epoll.fileno()

    def show(self, is_ready: bool) -> None:
        """If `is_ready` is true, makes the file descriptor readable. Otherwise it is readable only if the socket is."""
        if is_ready and not self._is_shown:
            os.write(self._writer, b"!")
            self._is_shown = True
        elif not is_ready:
            # This also runs if the file descriptor is not marked as readable, because an earlier call may have been
            # interrupted.
            self._is_shown = False
            with contextlib.suppress(BlockingIOError):
                os.read(self._reader, PIECE)

    def forget(self, connected: socket.socket) -> None:
        """Stops watching the socket. Its connection has ended, so the socket would stay readable indefinitely."""
        self._epoll.unregister(connected)

    def close(self) -> None:
        """Closes the file descriptors."""
        self._epoll.close()
        os.close(self._reader)
        os.close(self._writer)
