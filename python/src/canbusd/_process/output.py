"""The output of a program so far, stored in a file. The output may be too large to read it completely."""

import codecs
import os
import time
from pathlib import Path
from typing import BinaryIO, Optional

#: The maximum size in bytes of a returned string, and the size in bytes of the blocks that a search reads.
MOST, BLOCK = 1 << 20, 1 << 17
#: The maximum number of characters in a line of output in a failure message.
LONGEST = 1000


class Output:
    """The output of a program."""

    def __init__(self, path: Path) -> None:
        self._path = path

    def __len__(self) -> int:
        return os.stat(self._path).st_size

    def text(self, end: Optional[int] = None) -> str:
        """Returns the output, or the part before `end`. If this part is larger than MOST bytes, returns its last MOST
        bytes after a line that says how many bytes were left out."""
        size = len(self) if end is None else end
        first = max(0, size - MOST)
        with open(self._path, "rb") as file:
            file.seek(first)
            text = unix_lines(file.read(size - first).decode(errors="replace"))
        return f".. {first:,} bytes before\n{text}" if first else text

    def last_lines(self, most: int) -> list[str]:
        """Returns the last lines of the output, after a line that says how many lines the output has. Returns an empty
        list if there is no output."""
        lines = self.text().splitlines()
        if not lines:
            return []
        size = len(self)
        count = f"{size:,} bytes" if size > MOST else f"{len(lines)} line{'' if len(lines) == 1 else 's'}"
        more = "" if len(lines) <= most else f"the last {most} {'lines ' if size > MOST else ''}of "
        shown = (line if len(line) <= LONGEST else f"{line[:LONGEST]} .." for line in lines[-most:])
        return [f"{more}{count} of output:", *(f"  {line}" for line in shown)]


class Search:
    """A search for a string in the output of a program. After the program has written more, the search continues where
    it stopped."""

    def __init__(self, path: Path, text: str) -> None:
        self._file: BinaryIO = open(path, "rb")
        self._text = text
        self._decoder = codecs.getincrementaldecoder("utf-8")("replace")
        # The end of the output read so far, which may contain the start of the string. A line break in the output may
        # be two characters long.
        self._rest = ""
        #: The number of bytes read so far.
        self.place = 0
        self.is_found = not text

    def __enter__(self) -> "Search":
        return self

    def __exit__(self, *_: object) -> None:
        self._file.close()

    def goes_on(self, deadline: float) -> bool:
        """Reads the available output until the string is found or the deadline passes, but at least MOST bytes. Returns
        whether the string was found or all available output was read."""
        while not self.is_found:
            if self.place >= MOST and time.monotonic() >= deadline:
                return False
            block = self._file.read(BLOCK)
            if not block:
                break
            self.place += len(block)
            seen = self._rest + self._decoder.decode(block)
            self.is_found = self._text in unix_lines(seen)
            self._rest = seen[-2 * len(self._text) :]
        return True


def unix_lines(text: str) -> str:
    """Returns a string in which all line breaks are LF, as in Python's text files."""
    return text.replace("\r\n", "\n").replace("\r", "\n") if "\r" in text else text
