"""Programs whose CAN sockets are on the buses of a server. They run to completion, or in the background during a test.
"""

import errno
import os
import shlex
import signal
import subprocess
import time
from collections.abc import Mapping, Sequence
from pathlib import Path
from typing import Any, Optional, Union

from canbusd._calls import NamesWhatThereIs, explained
from canbusd import _placement as placement
from canbusd._process.guard import Guard
from canbusd._process.output import Output, Search
from canbusd._process.program import ServerError, find_program
from canbusd._session.arguments import check_within
from canbusd._session.connection import LONGEST_POLL, POLL
from canbusd._text import seconds_words

#: A program and its arguments: a list of words, or a string that is split as a shell would split it.
Words = Union[str, Sequence[Union[str, "os.PathLike[str]"]]]
#: Characters that only a shell interprets. A string with such a character is rejected.
OPERATORS = frozenset("();<>|&")
#: How many of the last output lines are shown in a failure message.
LAST_LINES = 10


def words_of(words: Words) -> list[str]:
    """Returns a program and its arguments as a list. A string is split as a shell would split it. Raises ValueError if
    the string contains characters that only a shell interprets."""
    if isinstance(words, str):
        found = split(words)
    elif isinstance(words, Sequence) and all(isinstance(word, (str, os.PathLike)) for word in words):
        found = [os.fspath(word) for word in words]
    else:
        raise ValueError(f"a program is the list of its words, or one str, not {words!r}")
    if not found:
        raise ValueError("a program has a name, and no word was given")
    return found


def check_no_shell(arguments: dict[str, Any]) -> None:
    """Raises ValueError if `shell` is true. A test that needs a shell can start the shell as the program; the CAN
    sockets of its commands are then on the server, too."""
    if arguments.get("shell"):
        raise ValueError("shell=True: a shell is a program, too: ['sh', '-c', 'cangen can0 | ..']")


def split(text: str) -> list[str]:
    """Returns the words of a string, split as a shell would split it."""
    try:
        lexer = shlex.shlex(text, posix=True, punctuation_chars=True)
        lexer.whitespace_split, lexer.commenters = True, ""
        found = [*lexer]
    except ValueError as fault:
        raise ValueError(f"{text!r} can't be split into words: {fault}") from None
    operator = next((word for word in found if word and OPERATORS.issuperset(word)), None)
    if operator is not None:
        raise ValueError(f"{text!r} has {operator!r}, which only a shell carries out: ['sh', '-c', {text!r}]")
    return found


def check_program(
    name: str, env: Optional[Mapping[str, str]] = None, cwd: Union[str, "os.PathLike[str]", None] = None
) -> None:
    """Raises the same error as subprocess if a program can't be started: FileNotFoundError or PermissionError.

    This check is necessary because the program is started by canbusd-run, whose exit status 127 for a failed start
    might also be the exit status of the program.
    """
    folder = cwd or ""
    places = [""] if "/" in name else os.get_exec_path(env)
    found = [path for place in places if os.path.isfile(path := os.path.join(folder, place, name))]
    if not found:
        where = folder if folder and not os.path.isdir(folder) else name
        raise FileNotFoundError(errno.ENOENT, os.strerror(errno.ENOENT), os.fspath(where))
    if not any(os.access(path, os.X_OK) for path in found):
        raise PermissionError(errno.EACCES, os.strerror(errno.EACCES), name)


class Program(NamesWhatThereIs):
    """A program that runs during a test. It is started by :meth:`canbusd.Server.start`, and ended by the server.

    `output` contains everything that the program has written to standard output and standard error so far. The program
    may buffer its output and write it later.
    """

    _INSTEAD = {
        **dict.fromkeys(("kill", "terminate", "send_signal", "close"), "stop() ends it"),
        **dict.fromkeys(("returncode", "poll"), "status, which is None while it runs"),
        **dict.fromkeys(("stdout", "stderr", "communicate", "read"), "output is what it has written so far"),
    }

    def __init__(
        self, words: Sequence[str], command: Sequence[str], output: Path, may_end: bool, **kwargs: Any
    ) -> None:
        self._words, self._path, self._output = list(words), output, Output(output)
        self._may_end, self._is_stopped, self._is_off = may_end, False, False
        # The program has its own session, so that Ctrl-C in the terminal interrupts only the test.
        how: dict[str, Any] = {"stdin": subprocess.DEVNULL, "start_new_session": True, **kwargs}
        self._command, self._how = [*command, *words], how
        output.write_bytes(b"")
        self._start()
        placement.note_program(self._restart)

    def _start(self) -> None:
        """Starts the program. Its output is appended to the output of earlier starts."""
        self._guard = Guard()
        child: "Optional[subprocess.Popen[bytes]]" = None
        try:
            with open(self._path, "ab") as file:
                child = subprocess.Popen(self._command, stdout=file, stderr=subprocess.STDOUT, **self._how)
            self._guard.watch(child.pid)
        except BaseException:
            if child is not None:
                child.kill()
            self._guard.release()
            raise
        self._child = child

    def _restart(self) -> None:
        """Kills the program, as a reset would, and starts it again. Does nothing if the program has exited."""
        if self.status is None:
            self._kill()
            self._child.wait()
            self._guard.release()
            self._start()

    def _power_off(self) -> None:
        """Kills the program if it is running, like a node that loses power. The test does not fail because of this
        exit."""
        if self.status is None:
            self._is_off = True
            self._kill()
            self._child.wait()
            self._guard.release()

    def _power_on(self) -> None:
        """Starts the program again, if it was killed by `_power_off`."""
        if self._is_off:
            self._is_off = False
            self._start()

    @property
    def pid(self) -> int:
        """The process identifier of the program."""
        return self._child.pid

    @property
    def status(self) -> Optional[int]:
        """The exit status of the program; negative if a signal killed it, None while it is running."""
        status = self._child.poll()
        if status is not None:
            self._guard.release()
        return status

    @property
    def output(self) -> str:
        """The output of the program so far."""
        return self._path.read_text(encoding="utf-8", errors="replace")

    @explained()
    def expect(self, text: str, *, within: float = 10.0) -> str:
        """Waits until the program's output contains this text, and returns the output. Raises AssertionError if the
        text does not appear within these seconds, or if the program exits before that.

        If the output is longer than a megabyte, only the last megabyte up to the text is returned, after a line that
        says how many bytes are omitted.
        """
        __tracebackhide__ = True
        if not isinstance(text, str):
            raise ValueError(f"text is what its output has, such as '123   [1]  11', not {text!r}")
        check_within(within)
        deadline, pause = time.monotonic() + within, POLL
        with Search(self._path, text) as search:
            while True:
                # The status is read before the output, so that all output of a program that has exited is searched.
                has_ended = self.status is not None
                is_read = search.goes_on(deadline)
                if search.is_found:
                    return self._output.text(search.place)
                if is_read and has_ended or time.monotonic() >= deadline:
                    where = "the output" if is_read else f"the first {search.place:,} bytes of the output"
                    when = "" if is_read and has_ended else f" within {seconds_words(within)}"
                    raise AssertionError(f"no {text!r} in {where}{when}\n{self.shown()}")
                time.sleep(pause)
                pause = min(2 * pause, LONGEST_POLL)

    @explained()
    def wait(self, timeout: float) -> int:
        """Waits until the program exits by itself, and returns its exit status. The test does not fail because of this
        exit. Raises TimeoutError after `timeout` seconds."""
        __tracebackhide__ = True
        try:
            status = self._child.wait(timeout)
        except subprocess.TimeoutExpired:
            raise TimeoutError(f"it goes on after {seconds_words(timeout)}\n{self.shown()}") from None
        self._guard.release()
        self._may_end = True
        return status

    def stop(self, timeout: float = 5.0) -> int:
        """Ends the program with SIGTERM. If it is still running after `timeout` seconds, kills its whole process group
        with SIGKILL. Returns the exit status.

        If the program had already exited by itself, the test still fails at its end, unless `may_end` or `wait` allowed
        the exit.
        """
        if self.status is None:
            self._is_stopped = True
            self._child.terminate()
            try:
                self._child.wait(timeout)
            except subprocess.TimeoutExpired:
                self._kill()
        status = self._child.wait()
        self._guard.release()
        return status

    def _kill(self) -> None:
        try:
            os.killpg(self._child.pid, signal.SIGKILL)
        except ProcessLookupError:
            pass

    def fault(self) -> Optional[str]:
        """Returns an error message if the program has exited by itself although this was not allowed; otherwise None."""
        if self.status is None or self._may_end or self._is_stopped or self._is_off:
            return None
        return f"{self._name()} ended before the test did; pass may_end=True if it may\n{self.shown()}"

    def shown(self) -> str:
        """Returns the program's command, its status and the end of its output, for an error message."""
        state = "runs" if self.status is None else f"{'stopped, ' if self._is_stopped else ''}status {self.status}"
        lines = self._output.last_lines(LAST_LINES) or ["and no output"]
        return "\n".join([f"{self._name()}: {state}, {lines[0]}", *lines[1:]])

    def _name(self) -> str:
        return shlex.join(self._words)


class RunsPrograms:
    """The part of a server that runs programs with CAN sockets."""

    address: str
    _folder: Path
    _result: Any
    _programs: list[Program]

    def _check_runs(self, what: str) -> None:
        """Raises ServerError if the server has ended. `what` is the part of the message that says what is no longer
        possible."""
        raise NotImplementedError

    def run(
        self, words: Words, wait: bool = False, static: bool = False, **kwargs: Any
    ) -> "subprocess.CompletedProcess[Any]":
        """Runs a program until it exits. Its CAN sockets are on the buses of this server. The program is a string such
        as ``"cansend can0 123#"``, or a list of words.

        With ``wait``, the program's writes block while the transmit queue is full. With ``static``, the program may be
        statically linked, or written in Go. The other arguments are those of subprocess.run, except ``shell``. A string
        is split into words as a shell would split it; characters that only a shell interprets raise ValueError. Raises
        FileNotFoundError if there is no such program. With ``check``, an exit status other than 0 raises
        CalledProcessError.
        """
        check_no_shell(kwargs)
        found = words_of(words)
        self._check_runs("no program can be run on its buses")
        check_program(found[0], kwargs.get("env"), kwargs.get("cwd"))
        return subprocess.run([*self._run_words(wait, static), *found], **kwargs)

    def start(
        self, words: Words, wait: bool = False, may_end: bool = False, static: bool = False, **kwargs: Any
    ) -> Program:
        """Starts a program in the background, such as ``"candump can0"``. The server ends the program when it stops.

        If the program exits by itself before that, :meth:`stop` raises ServerError and the test fails, unless
        ``may_end`` is true. The other arguments are those of subprocess.Popen. Raises FileNotFoundError if there is no
        such program. The program's output is in :attr:`Program.output`.
        """
        check_no_shell(kwargs)
        taken = next((name for name in ("stdout", "stderr", "capture_output") if name in kwargs), None)
        if taken is not None:
            raise ValueError(f"{taken} is the Program's: its `output` is what it writes to both")
        found = words_of(words)
        self._check_runs("no program can be started on its buses")
        check_program(found[0], kwargs.get("env"), kwargs.get("cwd"))
        path = self._folder / f"program{len(self._programs)}"
        program = Program(found, self._run_words(wait, static), path, may_end, **kwargs)
        self._programs.append(program)
        return program

    def environment(self) -> dict[str, str]:
        """Returns the environment of this process, with the variables that connect a program's CAN sockets to this
        server.

        Use it to start programs in other ways: ``subprocess.Popen(["candump", "can0"], env=server.environment())``.
        """
        words = [*self._run_words(), "env", "-0"]
        pairs = os.fsdecode(subprocess.run(words, stdout=subprocess.PIPE, check=True).stdout).split("\0")
        return dict(pair.split("=", 1) for pair in pairs if pair)

    def _run_words(self, wait: bool = False, static: bool = False) -> list[str]:
        options = [*(["--wait"] if wait else []), *(["--static"] if static else [])]
        return [find_program("canbusd-run"), "--address", self.address, *options, "--"]

    def _end_programs(self) -> list[str]:
        """Ends the programs that were started by :meth:`start`. Returns error messages for programs that had exited by
        themselves."""
        for program in self._programs:
            program.stop()
        return [fault for program in self._programs for fault in [program.fault()] if fault is not None]
