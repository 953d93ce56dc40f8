"""`canbusd bench` on a pipe, byte for byte. The tests of the package use canbusd.Bench for this."""

import os
import select
import subprocess

import pytest

from serving import WAIT, program


class Bench:
    """A bench with pipes for its input and output."""

    def __init__(self, *words):
        self.child = subprocess.Popen(
            [program(), "bench", *words], stdin=subprocess.PIPE, stdout=subprocess.PIPE, bufsize=0
        )

    def __enter__(self):
        return self

    def __exit__(self, *_):
        self.child.stdin.close()
        self.child.wait(WAIT)
        self.child.stdout.close()

    def write(self, text):
        self.child.stdin.write(text.encode())

    def ask(self, text, answer):
        """Writes the string, and waits for exactly this answer while the input stays open."""
        self.write(text)
        got = b""
        while len(got) < len(answer):
            if not select.select([self.child.stdout], [], [], WAIT)[0]:
                pytest.fail(f"{got!r} after {text!r}, not {answer!r}")
            more = os.read(self.child.stdout.fileno(), 65536)
            assert more, f"the end after {got!r}"
            got += more
        assert got == answer.encode(), f"{got!r} after {text!r}, not {answer!r}"


def test_bench_in_a_dialogue():
    """Each answer is written before the next input arrives, even if a piece of input ends in the middle of a line."""
    with Bench("can0,can1") as bench:
        bench.ask("session 1\n", "1 < hi >\n")
        bench.ask("session 2\n", "2 < hi >\n")
        bench.ask("feed 1 < open can0 >< rawmode >\n", "1 < ok >< ok >\n")
        bench.ask("feed 2 < open can1 >< rawmode >\nfeed 1 < se", "2 < ok >< ok >\n")
        bench.ask("nd 123 4 11 22 33 44 >\nat 23.424242\nattempt\ndra", "tried can0 0 done can1 -\n")
        bench.ask("in 2\n", "2 < frame 123 23.424242 11223344 >\n")
        frames = 1000
        for number in range(1, frames):
            bench.ask(f"feed 1 < send 123 1 {number % 256:02X} >\nattempt\n", f"tried can0 {number} done can1 -\n")
            bench.ask("drain 2\n", f"2 < frame 123 23.424242 {number % 256:02X} >\n")
    assert bench.child.returncode == 0, f"status {bench.child.returncode}"
