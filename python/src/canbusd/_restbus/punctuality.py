"""Keeps the threads of this process punctual.

By default, a thread that computes blocks other threads for 5 milliseconds at a time. A full garbage collection blocks
all threads while it visits every object. With the objects of pytest and a database library this takes 30 milliseconds.
"""

import gc
import sys
import threading

#: The maximum time in seconds for which a thread that computes may block other threads.
INTERVAL = 0.0001


class Punctuality:
    """While at least one caller needs punctuality, Python switches threads more often, and the garbage collector
    ignores the objects that already existed."""

    def __init__(self) -> None:
        self._lock = threading.Lock()
        self._users = 0
        self._interval = sys.getswitchinterval()
        self._has_frozen = False

    def begin(self) -> None:
        """Registers a caller that needs punctuality until it calls `end`."""
        with self._lock:
            self._users += 1
            if self._users == 1:
                self._interval = sys.getswitchinterval()
                sys.setswitchinterval(min(self._interval, INTERVAL))
                # `end` may unfreeze objects only if this class froze them.
                self._has_frozen = not gc.get_freeze_count()
                if self._has_frozen:
                    gc.freeze()

    def end(self) -> None:
        """Removes a user."""
        with self._lock:
            self._users -= 1
            if not self._users:
                sys.setswitchinterval(self._interval)
                if self._has_frozen:
                    gc.unfreeze()


PUNCTUALITY = Punctuality()
