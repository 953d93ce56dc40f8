"""A bench in its own process. Lines are sent to it and read from it through pipes."""

import os
import select
import subprocess
from collections.abc import Sequence
from pathlib import Path
from typing import Optional

from canbusd._process.program import BenchError, ProgramNotFound, find_program
from canbusd._process.program_run import HasProgram

#: How many seconds a bench may be silent before it is killed.
TIMEOUT = 30.0


def fault_of(words: Sequence[str], given: bytes) -> str:
    """Runs a bench with these arguments and this input, and returns its error message. Returns the empty string if the
    bench succeeds or if the program does not exist."""
    try:
        program = find_program()
    except ProgramNotFound:
        return ""
    done = subprocess.run([program, "bench", *words], input=given, capture_output=True, check=False)
    return done.stderr.decode(errors="replace").strip() if done.returncode else ""


class BenchProcess(HasProgram):
    """A process that runs `canbusd bench`."""

    def __init__(self, words: Sequence[str], errors: Path) -> None:
        """Starts the bench with these arguments. Its standard error goes to a file."""
        self._start(errors, "bench", *words)
        self._rest = b""

    @property
    def is_over(self) -> bool:
        """Whether the bench has ended."""
        return self._child.stdin is None

    def write(self, data: bytes) -> None:
        """Sends lines to the bench."""
        assert self._child.stdin is not None
        try:
            self._child.stdin.write(data)
        except BrokenPipeError:
            self._finish()

    def read_line(self) -> str:
        """Returns the next line that the bench writes, without its LF."""
        while b"\n" not in self._rest:
            if not self._more():
                self._finish()
                raise BenchError("the bench ended")
        line, _, self._rest = self._rest.partition(b"\n")
        return line.decode()

    def end(self) -> None:
        """Closes the input of the bench, and waits until the bench ends."""
        self.forget()
        while self._more():
            pass
        self._finish()

    def forget(self) -> None:
        """Closes this process's end of the bench's input."""
        self._close_input()

    def left(self, ending: str) -> Optional[bytes]:
        """Returns None, because the bench has written its record and its log itself."""
        return None

    def _more(self) -> bool:
        """Reads more output of the bench. Returns false at the end of the output."""
        assert self._child.stdout is not None
        output = self._child.stdout.fileno()
        if not select.select([output], [], [], TIMEOUT)[0]:
            self._signal()
            self._finish(f"the bench said nothing for {TIMEOUT:.0f} seconds")
        piece = os.read(output, 65536)
        self._rest += piece
        return bool(piece)

    def _finish(self, fault: str = "") -> None:
        """Waits until the program ends. If it failed, raises BenchError with `fault` and the program's messages."""
        self._close_input()
        status = self._child.wait(TIMEOUT)
        assert self._child.stdout is not None
        self._child.stdout.close()
        if status != 0:
            raise BenchError("\n".join(filter(None, [fault, self.said])) or f"the bench ended with status {status}")
