"""Functions that run commands, and the records of the examples."""

import contextlib
import os
import re
import shutil
import socket
import subprocess
import threading

from serving import ROOT, program

BROWSER = next(filter(None, map(shutil.which, ("chromium", "chromium-browser", "google-chrome"))), None)

# Input that starts two sessions in raw mode, one on each of the first two interfaces, and the output for that input.
TWO_SESSIONS = """session 1
session 2
feed 1 < open can0 >< rawmode >
feed 2 < open can1 >< rawmode >
"""
TWO_STARTED = """1 < hi >
2 < hi >
1 < ok >< ok >
2 < ok >< ok >
"""


def call(*words, **more):
    """Runs a command, and returns its status, standard output and standard error."""
    done = subprocess.run(
        words, capture_output=True, text=True, timeout=120, check=False, **{"stdin": subprocess.DEVNULL, **more}
    )
    return done.returncode, done.stdout, done.stderr


def run_line(line, text="", **more):
    """Runs the program with these arguments (a string that is split as a shell would split it) and this input. Returns
    the status, the output and the errors."""
    return call(program(), *line.split(), stdin=None, input=text, **more)


def run_bytes(line, text):
    """Runs the program as run_line does, but each read of the input returns only one byte."""
    ours, theirs = socket.socketpair(socket.AF_UNIX, socket.SOCK_SEQPACKET)
    words = [program(), *line.split()]
    with subprocess.Popen(words, stdin=theirs, stdout=subprocess.PIPE, stderr=subprocess.PIPE, text=True) as running:
        theirs.close()
        sender = threading.Thread(target=send_bytes, args=(ours, text.encode()))
        sender.start()
        output, errors = running.communicate(timeout=120)
        sender.join()
    return running.returncode, output, errors


def send_bytes(stream, text):
    """Sends each byte in a separate packet, until the reader closes the stream."""
    with stream, contextlib.suppress(BrokenPipeError, ConnectionResetError):
        for place in range(len(text)):
            stream.send(text[place : place + 1])


def is_clean(fault):
    """Returns whether an error is reported in one line, without a traceback."""
    status, written, errors = fault
    return status == 1 and written == "" and re.fullmatch(r"(?:canbusd report|candump2bench): [^\n]+\n", errors)


def example(name, folder):
    """Creates the record of an example in the guide, and returns its path."""
    bench, record = os.path.join(ROOT, "examples", f"{name}.bench"), os.path.join(folder, f"{name}.rec")
    with open(bench, encoding="utf-8") as text:
        *options, bus = re.search(r"\./canbusd bench (.+) < ", text.read())[1].split()
    with open(bench, encoding="utf-8") as lines:
        done = call(program(), "bench", "--record", record, *options, bus, stdin=lines, cwd=ROOT)
    assert done[0] == 0, done[2]
    return record, bus.split("@")[0]


def examples():
    """Returns the names of the examples."""
    return sorted(
        name[: -len(".bench")] for name in os.listdir(os.path.join(ROOT, "examples")) if name.endswith(".bench")
    )
