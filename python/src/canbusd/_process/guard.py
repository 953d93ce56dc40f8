"""Guards for programs. A guard ends a program after this process has ended, in whatever way."""

import contextlib
import os
import subprocess
import weakref

# The first line of the guard's input is the process ID of the program. A second line means that the program has ended.
# If the input ends without a second line, the guard sends SIGTERM to the program. After 5 seconds, or earlier if the
# program has ended, the guard sends SIGKILL to the remaining processes of the program's group.
GUARD = """
read -r program && [ -n "$program" ] || exit
read -r _ && exit
kill -s TERM "$program"
for _ in 1 2 3 4 5 6 7 8 9 10; do
    kill -s 0 "$program" || break
    sleep 0.5
done
kill -s KILL -- "-$program" "$program"
"""


class Guard:
    """The guard of a program that leads a process group. The guard starts before the program, so that the program is
    never without a guard."""

    def __init__(self) -> None:
        null = subprocess.DEVNULL
        # The guard has its own session, so that it survives signals that end this process, such as Ctrl-C.
        self._child = subprocess.Popen(
            ["/bin/sh", "-c", GUARD],
            bufsize=0,
            stdin=subprocess.PIPE,
            stdout=null,
            stderr=null,
            start_new_session=True,
            cwd="/",
        )
        assert self._child.stdin is not None
        self._input = self._child.stdin
        GUARDS.add(self)
        # When the guard's input is closed, the guard ends the program.
        weakref.finalize(self, self._input.close)

    def watch(self, program: int) -> None:
        """Sends the guard the process ID of its program."""
        self._input.write(f"{program}\n".encode())

    def release(self) -> None:
        """Ends the guard of a program that has ended or did not start. Otherwise the guard might later kill another
        program that got the same process ID."""
        # Another thread may have done this already.
        with contextlib.suppress(BrokenPipeError, ValueError):
            self._input.write(b"\n")
        self._input.close()
        self._child.wait()

    def forget(self) -> None:
        """Closes the guard's input in a forked process."""
        self._input.close()


GUARDS: "weakref.WeakSet[Guard]" = weakref.WeakSet()


def forget_guards() -> None:
    """Closes the inputs of all guards in a forked process, because an open input would keep the guards from ending
    their programs."""
    for guard in list(GUARDS):
        guard.forget()
    GUARDS.clear()


os.register_at_fork(after_in_child=forget_guards)
