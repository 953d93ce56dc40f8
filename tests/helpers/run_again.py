"""Runs a program for many inputs: run_again.c starts the program once, and each run is a fork of that process."""

import os
import select
import struct
import subprocess

from serving import ROOT, WAIT

SOURCE = os.path.join(ROOT, "tests", "helpers", "run_again.c")
#: The exit statuses of the runs.
STATUS = struct.Struct("=i")


def compile_library(folder):
    """Compiles run_again.c into this folder."""
    words = ["gcc", "-O1", "-Wall", "-Wextra", "-Werror", "-shared", "-fPIC", SOURCE]
    subprocess.run([*words, "-o", folder / "run_again.so"], check=True)


class Again:
    """A program with these arguments, which reads each input from /dev/stdin."""

    def __init__(self, library, *words):
        self.files = [os.memfd_create(name, os.MFD_CLOEXEC) for name in ("input", "output", "errors")]
        asked, self.ask = os.pipe()
        self.told, tell = os.pipe()
        # The pipes of each run are new.
        streams = [open(f"/proc/self/fd/{file}", mode) for file, mode in zip(self.files, ("rb", "ab", "ab"))]
        env = {**os.environ, "LD_PRELOAD": str(library), "RUN_AGAIN": f"{asked} {tell}"}
        stdin, stdout, stderr = streams
        self.process = subprocess.Popen(
            words, env=env, stdin=stdin, stdout=stdout, stderr=stderr, pass_fds=[asked, tell]
        )
        for stream in streams:
            stream.close()
        os.close(asked)
        os.close(tell)

    def run(self, data):
        """Returns the status, the output and the errors of a run with this input."""
        for file in self.files:
            os.ftruncate(file, 0)
        os.pwrite(self.files[0], data, 0)
        os.write(self.ask, b"\n")
        assert select.select([self.told], [], [], WAIT)[0], f"no end of {data!r}"
        (status,) = STATUS.unpack(os.read(self.told, STATUS.size))
        return os.waitstatus_to_exitcode(status), *(os.pread(file, 1 << 20, 0) for file in self.files[1:])

    def close(self):
        """Ends the program."""
        os.close(self.ask)
        assert self.process.wait(WAIT) == 0
        for file in (*self.files, self.told):
            os.close(file)
