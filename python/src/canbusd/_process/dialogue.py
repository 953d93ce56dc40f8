"""A dialogue with a bench: lines that are sent to the bench, and lines that it writes."""

import os
import re
import threading
from typing import Optional, Protocol, Union

from canbusd._process.program import BenchError
from canbusd._process.program_run import RUNNING, Run
from canbusd._session.injection import Refused
from canbusd._words import MOST_INPUT
from canbusd.frames import frame_of

MESSAGES = re.compile(r"< (.*?) >")
AT = re.compile(r"[0-9]{1,10}\.[0-9]{6}")


def moment_text(at: Union[str, float], what: str = "at") -> str:
    """Formats a time as the bench reads it: seconds with six decimal places."""
    try:
        text = at if isinstance(at, str) else f"{at:.6f}"
    except (TypeError, ValueError):
        text = ""
    if not AT.fullmatch(text):
        raise ValueError(f"{what} is a number of seconds from 0 to 9999999999.999999, not {at!r}")
    return text


class Lines(Protocol):
    """The bench of a dialogue, which is another process or a part of this process. It receives lines and answers with
    lines.

    If it ends with an error, its methods raise BenchError.
    """

    @property
    def is_over(self) -> bool:
        """Whether the bench has ended."""

    @property
    def said(self) -> str:
        """The bench's messages about the error with which it ended."""

    def write(self, data: bytes) -> None:
        """Sends lines to the bench."""

    def read_line(self) -> str:
        """Returns the next line that the bench writes, without its LF."""

    def end(self) -> None:
        """Ends the bench. After this call its record and its log are complete."""

    def forget(self) -> None:
        """Closes the connection to the bench in a forked process."""

    def left(self, ending: str) -> Optional[bytes]:
        """Returns the record or the log of a complete run. `ending` is the file name extension. Returns None if the
        bench wrote the file itself."""


class Dialogue(Run):
    """A bench that handles one call at a time. Each call sends lines and reads what the bench writes in reply."""

    _lines: Lines

    def __init__(self, out: Union[str, "os.PathLike[str]", None]) -> None:
        super().__init__(out)
        self._moment = "0.000000"
        # This lock allows one call at a time. If a call is interrupted, its answer will still arrive, and the next call
        # would mistake it for its own answer. `_in_step` is false after such an interruption.
        self._turn = threading.RLock()
        self._in_step = True
        self._written = 0

    def _begin(self, lines: Lines) -> None:
        """Begins the dialogue with this bench."""
        self._lines = lines
        RUNNING.add(self)

    @property
    def _is_over(self) -> bool:
        """Whether the bench has ended."""
        return self._lines.is_over

    def _forget(self) -> None:
        self._lines.forget()

    def stop(self) -> None:
        """Ends the run. Its record and its log are then written, and the sessions can't be used any more."""
        self._check_process()
        with self._turn:
            if self._lines.is_over:
                return
            RUNNING.discard(self)
            self._lines.end()
            self._ended()

    def _ended(self) -> None:
        """Called once after the run has ended without an error."""
        raise NotImplementedError

    def _ask(self, lines: str, at: Union[str, float, None] = None) -> list[str]:
        """Sends lines whose last one ends with `< echo >`, and returns what the session writes before that echo. Raises
        Refused if a line is refused.

        The answer to a line of messages is a single line, so an echo that a caller requested is not mistaken for the
        last echo.
        """
        with self._turn:
            self._write(lines, at)
            messages: list[str] = MESSAGES.findall(self._line())
            while not messages or messages[-1] != "echo":
                messages += MESSAGES.findall(self._line())
            self._in_step = True
        for message in messages:
            if message.startswith("error ") and frame_of(message) is None:
                raise Refused(message[len("error ") :])
        return messages[:-1]

    def _line_after(self, line: str) -> str:
        with self._turn:
            self._write(line)
            written = self._line()
            self._in_step = True
        return written

    def _write(self, lines: str, at: Union[str, float, None] = None) -> None:
        """Writes lines. If `at` is given, sets the bench's time first."""
        if os.getpid() != self._process:
            self._check_process()
        if self._lines.is_over:
            raise ValueError("the bench has ended")
        if not self._in_step:
            raise BenchError("a call was interrupted, and its answer is still to come: the bench can only be ended")
        moment = self._moment if at is None else moment_text(at)
        data = f"at {moment}\n{lines}\n".encode() if at is not None else f"{lines}\n".encode()
        if self._written + len(data) > MOST_INPUT:
            self.stop()
            raise BenchError(
                f"a bench takes {MOST_INPUT} bytes of input, and has got them: it was ended, and has its record"
            )
        self._in_step = False
        self._moment = moment
        self._written += len(data)
        try:
            self._lines.write(data)
        except BenchError:
            RUNNING.discard(self)
            raise

    def _line(self) -> str:
        try:
            return self._lines.read_line()
        except BenchError:
            RUNNING.discard(self)
            raise
