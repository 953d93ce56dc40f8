"""The file with which a server locks its folder. If a server is killed, the file stays in the folder."""

import contextlib
import fcntl
import os
import time
from pathlib import Path

#: The name of the file in the server's `--out` folder.
NAME = ".canbusd.lock"
#: How many seconds a killed server may take to close its files. Its launcher does not wait for this.
CLOSING = 0.2


def remove_left(folder: Path) -> None:
    """Removes the lock file that a killed server left in this folder. As in the server, the file is removed only if it
    is empty and if no other server holds the lock."""
    path = folder / NAME
    # If the file can't be removed, it stays and does no harm.
    with contextlib.suppress(OSError):
        lock = os.open(path, os.O_RDWR | os.O_NOFOLLOW)
        try:
            take(lock)
            if os.path.samestat(os.fstat(lock), os.lstat(path)) and not os.fstat(lock).st_size:
                path.unlink()
        finally:
            os.close(lock)


def take(lock: int) -> None:
    """Acquires the lock on this file. Raises BlockingIOError if a server holds the lock."""
    deadline = time.monotonic() + CLOSING
    while True:
        try:
            return fcntl.flock(lock, fcntl.LOCK_EX | fcntl.LOCK_NB)
        except BlockingIOError:
            if time.monotonic() >= deadline:
                raise
            time.sleep(0.01)
