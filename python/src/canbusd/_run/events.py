"""Reads the lines that `canbusd audit --events` prints for a record (docs/RECORD.md). If the program refuses the
record, raises BadRecord with the reason."""

import contextlib
import fcntl
import os
import select
import subprocess
import weakref
from collections.abc import Callable, Iterator
from types import TracebackType
from typing import IO, BinaryIO, Optional

from canbusd._process.program import ProgramNotFound, find_program
from canbusd._process.rates import Rates

# How many bytes to read at a time. Larger reads are no faster.
BLOCK = 1 << 17
# The size of the program's output pipe in bytes.
AHEAD = 1 << 20
# The value of F_SETPIPE_SZ in fcntl.h. Python has had a name for it since version 3.10.
SET_PIPE_SIZE = 1031
# How long to wait for a line, in milliseconds, before `doubt` is called.
SILENCE = 1000


class BadRecord(ValueError):
    """Raised if a file is not the record of a run. The message is the reason.

    `verdict` is the verdict of `canbusd audit` on the file, such as `line 5: bad line`, or None if the audit was not
    run.
    """

    def __init__(self, message: str, verdict: Optional[str] = None) -> None:
        super().__init__(message)
        self.verdict = verdict


class Events:
    """An audit of a record. Either the caller passes the record, at once or in pieces, or the program reads it from a
    file.

    With `cut` the record may lack its last line, `end`. With bit rates, the lines include the times of attempts on the
    wire. With `faults`, such as `can0,can1@FILE`, the lines include the rule from that script that gave an attempt its
    verdict.
    """

    def __init__(
        self,
        cut: bool = False,
        rates: Optional[Rates] = None,
        file: Optional[BinaryIO] = None,
        faults: Optional[str] = None,
    ) -> None:
        self._program = find_program()
        options = [*(["--cut"] if cut else []), *(rates.words if rates else [])]
        options += [f"--faults={faults}"] if faults is not None else []
        words = [self._program, "audit", "--events", *options, "/dev/stdin"]
        pipe = subprocess.PIPE
        self._process = subprocess.Popen(words, bufsize=0, stdin=file or pipe, stdout=pipe, stderr=pipe)
        assert self._process.stdout is not None
        self._input, self._output = self._process.stdin, self._process.stdout
        widen(self._process.stdout)
        if self._input is not None:
            # A write must not block when the pipe is full, because the program may be waiting for this process to read
            # its output.
            os.set_blocking(self._input.fileno(), False)
        # How many lines were passed to the program, how many were received, and the beginning of an incomplete line.
        self._handed = self._came = 0
        self._rest = ""
        self.close = weakref.finalize(self, end, self._process)

    def __enter__(self) -> "Events":
        return self

    def __exit__(
        self,
        kind: Optional[type[BaseException]],
        fault: Optional[BaseException],
        traceback: Optional[TracebackType],
    ) -> None:
        self.close()

    def texts(self, text: bytes, is_last: bool = True, doubt: Callable[[], object] = lambda: None) -> Iterator[str]:
        """Yields the event lines for these lines of the record: several at once, without the final LF.

        Each line of the record has an event line, except that the first two lines share one. The line `end` has one
        only if `is_last` is true. Raises BadRecord at the first wrong line. The program reports a wrong line only after
        it has read everything, so `doubt` is called after each second without an event line.
        """
        assert self._input is not None
        unwritten = memoryview(text)
        self._handed += text.count(b"\n")
        waiting = select.poll()
        waiting.register(self._output, select.POLLIN)
        waiting.register(self._input, select.POLLOUT)
        while is_last or unwritten or self._came < self._handed > 1:
            ready = waiting.poll(SILENCE)
            if not ready:
                doubt()
            for descriptor, _ in ready:
                if descriptor != self._output.fileno():
                    unwritten = unwritten[write_some(descriptor, unwritten) :]
                    if not unwritten:
                        waiting.unregister(descriptor)
                    if is_last and not unwritten:
                        self._input.close()
                    continue
                block = os.read(self._output.fileno(), BLOCK)
                if not block:
                    self._check_status()
                    return
                for lines in self._whole_lines(block):
                    self._came += lines.count("\n") + 1
                    yield lines

    def texts_of_file(self) -> Iterator[str]:
        """Yields the event lines for the file: several at once, without the final LF."""
        while block := read_block(self._output):
            yield from self._whole_lines(block)
        self._check_status()

    def _whole_lines(self, block: bytes) -> Iterator[str]:
        """Yields all complete lines that have been read so far, as one string, if there are any."""
        lines, has_ended, self._rest = f"{self._rest}{block.decode()}".rpartition("\n")
        if has_ended:
            yield lines

    def _check_status(self) -> None:
        """Waits until the program ends. Raises BadRecord if the program refused the record."""
        assert self._process.stderr is not None
        said = self._process.stderr.read().decode(errors="replace")
        status = self._process.wait()
        if status == 1:
            raise fault_of(said)
        if status:
            words = said.strip() or f"status {status}"
            raise ProgramNotFound(f"{self._program} does not fit this package: {words}")


def widen(pipe: IO[bytes]) -> None:
    """Enlarges a pipe if the system allows it, so that the writer does not wait while the reader processes a block."""
    with contextlib.suppress(OSError):
        fcntl.fcntl(pipe, SET_PIPE_SIZE, AHEAD)


def read_block(pipe: IO[bytes]) -> bytes:
    """Reads until the block is full or the file ends."""
    parts, size = [], 0
    while size < BLOCK and (part := os.read(pipe.fileno(), BLOCK - size)):
        parts.append(part)
        size += len(part)
    return b"".join(parts)


def write_some(descriptor: int, text: memoryview) -> int:
    """Writes text to the program and returns how many bytes were written. If the program has already ended with an
    error, returns the length of the text."""
    try:
        return os.write(descriptor, text)
    except BrokenPipeError:
        return len(text)


def end(process: "subprocess.Popen[bytes]") -> None:
    """Kills a program if it still runs, and frees its resources."""
    process.kill()
    for stream in (process.stdin, process.stdout, process.stderr):
        if stream is not None:
            with contextlib.suppress(BrokenPipeError):
                stream.close()
    process.wait()


def fault_of(said: str) -> BadRecord:
    """Returns the exception for an error that an audit reported. The error text is the verdict, then ` /dev/stdin:5:
    LINE`, and further lines with the reason."""
    verdict, *notes = said.removeprefix("canbusd: ").splitlines() or [""]
    words = [note.strip() for note in notes]
    if words:
        words[0] = f"`{words[0].partition(': ')[2]}`"
    return BadRecord(": ".join([verdict, *(["; ".join(words)] if words else [])]), verdict)
