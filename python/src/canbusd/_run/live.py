"""Reads logs and records while a server writes them. Every line is read only once."""

import contextlib
import threading
from collections.abc import Iterator, Sequence
from pathlib import Path
from typing import TYPE_CHECKING, BinaryIO, Optional

from canbusd._process.rates import Rates
from canbusd._run.events import BadRecord, Events
from canbusd._run.log import message_of
from canbusd.record import Attempt, Record, attempts_of, parse_record
from canbusd.replay import Replay

if TYPE_CHECKING:
    from can.message import Message


def left_by(record: Path, when: str) -> Path:
    """Returns the current path of a record that will have the path `record` when it is complete. While a `live` run
    continues, or after it was killed, can0.rec is still called can0.rec.new."""
    growing = record.with_name(f"{record.name}.new")
    return growing if when == "live" and growing.exists() else record


class GrowingFile:
    """A file to which another process appends lines: the first of the given paths that exists."""

    def __init__(self, *paths: Path) -> None:
        self._paths = paths
        # The offset of the first line that was not returned yet.
        self._place = 0

    def text(self, first: int = 0) -> bytes:
        """Returns the complete lines starting at offset `first`."""
        with self._opened() as file:
            file.seek(first)
            whole, lf, _ = file.read().rpartition(b"\n")
        return whole + lf

    def take(self) -> bytes:
        """Returns the complete lines that were not returned before."""
        text = self.text(self._place)
        self._place += len(text)
        return text

    def lines(self) -> Iterator[str]:
        """Yields the complete lines that were not returned before, without LF. A line counts as returned when the
        caller requests the next one."""
        for line in self.text(self._place).splitlines(True):
            yield line[:-1].decode(errors="replace")
            self._place += len(line)

    def _opened(self) -> BinaryIO:
        for path in self._paths[:-1]:
            with contextlib.suppress(FileNotFoundError):
                return open(path, "rb")
        return open(self._paths[-1], "rb")


class LiveLog:
    """A log that a running server writes."""

    def __init__(self, path: Path) -> None:
        self._path, self._file = path, GrowingFile(path)
        self._messages: "list[Message]" = []
        self._lock = threading.Lock()

    def messages(self) -> "list[Message]":
        """Returns the messages that the server has written so far."""
        with self._lock:
            for line in self._file.lines():
                self._messages.append(message_of(line, self._path, len(self._messages) + 1))
            return list(self._messages)


class LiveRecord:
    """A record that a running server writes, for a bus with these interface names."""

    def __init__(self, path: Path, names: Sequence[str]) -> None:
        self._file, self._names = GrowingFile(path.with_name(f"{path.name}.new"), path), tuple(names)
        # The audit of the lines read so far, and the run that the audit describes.
        self._events: Optional[Events] = None
        self._run = Replay()
        self._attempts: list[Attempt] = []
        self._fault: Optional[BadRecord] = None
        self._lock = threading.Lock()

    def record(self, rates: Optional[Rates] = None) -> Record:
        """Returns the record so far. If bit rates are given, the record includes the times on the wire."""
        return parse_record(self._file.text(), names=self._names, cut=True, rates=rates)

    def attempts(self) -> list[Attempt]:
        """Returns the attempts that the server has written so far. Each call reads only the new entries."""
        with self._lock:
            if self._fault is not None:
                raise self._fault
            try:
                self._read()
            except BadRecord as fault:
                self._fault = fault
                raise
            if self._run.bus is None:
                # Raises an error that explains why there is no record yet.
                parse_record(self._file.text(), cut=True)
            return list(self._attempts)

    def _read(self) -> None:
        """Reads the new lines and their effects. After a wrong line or entry, every call raises the same error."""
        text = self._file.take()
        if not text or self._run.is_whole:
            return
        if self._events is None:
            self._events = Events(cut=True)
        first = len(self._run.steps)
        last_line = text[text.rfind(b"\n", 0, -1) + 1 :]
        is_last = last_line.startswith(b"end ")
        for lines in self._events.texts(text, is_last, lambda: parse_record(self._file.text(), cut=True)):
            self._run.take_text(lines)
        self._attempts += attempts_of(self._run, self._names, first)
