"""Sweeps a command. The command runs in virtual time with its own server, and its exit status is the verdict."""

import os
import shlex
import subprocess
import sys
import time
from collections.abc import Mapping, Sequence
from pathlib import Path
from typing import Any

from canbusd._placement import Placement
from canbusd._sweep import worker
from canbusd._sweep.places import Place, Result

#: How many of the last lines of the command's output are shown for a failure.
LAST_LINES = 40


class CommandTask:
    """A command that is swept. Its programs run under canbusd-run, and find the server through environment variables."""

    is_virtual = True

    def __init__(
        self, words: Sequence[str], buses: Sequence[str], options: Mapping[str, Any], given: Sequence[str]
    ) -> None:
        """Prepares the task. `options` are the arguments of Server, and `given` contains the command-line words that
        set them."""
        self._words, self._buses, self._options, self._given = list(words), list(buses), dict(options), list(given)

    @property
    def name(self) -> str:
        """The command."""
        return shlex.join(self._words)

    def redirect(self, path: Path) -> None:
        """Redirects the output of the command to a file."""
        worker.point_output_at(path)

    def carry_out(self, order: worker.Order, given: Placement, room: Path) -> "tuple[Result, list[str]]":
        """Runs the command with its own server, and returns the result."""
        from canbusd.server import Server, ServerError

        out = room / "tmp"
        out.mkdir()
        began = time.monotonic()
        server = Server(*self._buses, out=out, observe=(), **self._options)
        own = room / "own"
        own.mkdir()
        environment = {**os.environ, "CANBUSD_ADDRESS": server.address, "TMPDIR": str(own)}
        status = subprocess.run(self._words, env=environment, stdin=subprocess.DEVNULL, check=False).returncode
        took = time.monotonic() - began
        try:
            server.stop()
        except ServerError as fault:
            return Result("failed", f"the server: {worker.first_line(str(fault))}", str(fault), took), list(sys.modules)
        if status == 0:
            return Result("passed", took=took), list(sys.modules)
        if order.has_page:
            for bus in self._buses:
                server.report(bus.partition("@")[0].split(",")[0])
        said = (room / worker.SAID).read_text(errors="replace").splitlines()[-LAST_LINES:]
        words = f"status {status}" if status > 0 else f"ended by signal {-status}"
        message = f"{words}: {said[-1]}" if said else words
        return Result("failed", message, "\n".join([words, *said]), took), list(sys.modules)

    def repeat(self, place: Place) -> str:
        """Returns the command line that repeats the run with a placement."""
        words = ["canbusd", "sweep", *self._given, *place.words("--"), *self._buses, "--", *self._words]
        return shlex.join(words)

    def kept_as(self, rule: str) -> str:
        """Returns the line for a fault script that causes the same fault without a sweep."""
        return f"as a script: {rule}"


class PlainTerminal:
    """Writes the report of a sweep to standard output."""

    def __init__(self) -> None:
        self.isatty = sys.stdout.isatty()
        self._is_open = False

    def ensure_newline(self) -> None:
        """Ends the line."""
        if self._is_open:
            print()
        self._is_open = False

    def section(self, title: str) -> None:
        """Writes the title of a section."""
        self.ensure_newline()

    def write_line(self, line: str, **markup: bool) -> None:
        """Writes a line."""
        self.ensure_newline()
        print(line, flush=True)

    def rewrite(self, line: str, **markup: bool) -> None:
        """Replaces the last line of the output."""
        print(f"\r\033[K{line}", end="", flush=True)
        self._is_open = True
