"""Runs each command of the package in a fork of the test process. This saves the start of Python and the import of modules.

Some tests need a separate program, because they kill the command or limit its memory. They start `python3 -m canbusd`.
"""

import gc
import importlib
import io
import os
import selectors
import signal
import subprocess
import sys
import time
import traceback

from canbusd.__main__ import main
from canbusd._words import COMMANDS, PROGRAM

#: The timeout in seconds for a command. SIGALRM ends a command that takes longer.
LONGEST = 60


def forked(*words, env=None, cwd=None, stdin=subprocess.DEVNULL, preexec_fn=None, longest=LONGEST):
    """Runs `canbusd` with these arguments, and returns its status, its output and its errors."""
    if words and words[0] in {*COMMANDS} - {*PROGRAM}:
        importlib.import_module(f"canbusd.commands.{words[0]}")
    (output, written), (errors, said) = os.pipe(), os.pipe()
    with open(os.devnull, encoding="ascii") as nothing:

        def begin():
            signal.signal(signal.SIGALRM, signal.SIG_DFL)
            signal.alarm(longest)
            take_streams(nothing if stdin == subprocess.DEVNULL else stdin, written, said)
            os.chdir(cwd or ".")
            take_environment(dict(os.environ if env is None else env))
            if preexec_fn is not None:
                preexec_fn()

        process = os.fork()
        if process == 0:
            become(begin, [*map(str, words)])
    os.close(written)
    os.close(said)
    texts = read_all(output, errors)
    _, status = os.waitpid(process, 0)
    return os.waitstatus_to_exitcode(status), *texts


def read_all(*pipes):
    """Reads these pipes until all their writers have closed them, then closes the pipes. Returns the strings that were
    read."""
    found = {pipe: io.BytesIO() for pipe in pipes}
    with selectors.DefaultSelector() as ready:
        for pipe in pipes:
            ready.register(pipe, selectors.EVENT_READ)
        while ready.get_map():
            for key, _ in ready.select():
                if not found[key.fd].write(os.read(key.fd, 1 << 16)):
                    ready.unregister(key.fd)
                    os.close(key.fd)
    for text in found.values():
        text.seek(0)
    return [io.TextIOWrapper(text, errors="surrogateescape").read() for text in found.values()]


def become(begin, words):
    """Runs a command with these arguments in this process, and then exits."""
    status = 1
    try:
        # Garbage collection is off, because the fork still uses objects that appear to be garbage here.
        gc.disable()
        begin()
        main(words)
    except SystemExit as end:
        status = status_of(end)
    except BaseException:
        traceback.print_exc()
    finally:
        try:
            sys.stdout.flush()
            sys.stderr.flush()
        finally:
            os._exit(status)


def take_streams(*streams):
    """Uses these files or file descriptors as the standard streams."""
    for number, stream in enumerate(streams):
        os.dup2(stream if isinstance(stream, int) else stream.fileno(), number)
    sys.stdin, sys.stdout = open(0, closefd=False), open(1, "w", closefd=False)
    sys.stderr = open(2, "w", errors="backslashreplace", closefd=False)


def take_environment(env):
    os.environ.clear()
    os.environ.update(env)
    time.tzset()


def status_of(end):
    """Returns the exit status for this SystemExit. Its message, if any, is written to standard error."""
    if isinstance(end.code, str):
        print(end.code, file=sys.stderr)
        return 1
    return end.code or 0
