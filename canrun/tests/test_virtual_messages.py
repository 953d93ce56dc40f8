"""Virtual time: messages about programs that can't work, and no messages about programs that can."""

import os
import re
import subprocess
import time

import pytest

from running import FLAGS, command, needs, needs_gcc
from virtual_runs import fails, virtual


@needs("candump")
def test_no_server():
    """a program that uses CAN sockets without a server gets one message about the missing server, which suggests a
    command"""
    ended = virtual("candump", "can0")
    assert ended.returncode == 1
    (said,) = (line for line in ended.stderr.splitlines() if line.startswith("canbusd-run: "))
    assert re.search(
        r"candump \(process \d+\) has no CAN sockets.*: they take a server and canbusd-run inside", said
    ), said
    assert "canbusd-run --virtual sh -c 'canbusd serve --bitrate 500000 can0 & sleep 1; canbusd-run candump ..'" in said


#: A program with two ELF notes, of which the second is a note of Go.
NOTED = """
#include <stdio.h>
#define NOTE(name, owner) \\
    __attribute__((section(name), used, aligned(4))) static const struct { \\
        unsigned length, rest, type; \\
        char of[4], text[8]; \\
    }
NOTE(".note.a", "GNU") first = {4, 5, 7, "GNU", "abcd"};
NOTE(".note.go.buildid", "Go") second = {4, 8, 4, "Go", "abcdefg"};

int main(void) {
    puts("ran");
    return 0;
}
"""


@needs_gcc
def test_go_with_c(tmp_path):
    """a Go program that loads libraries ends the run at once, even while other programs can continue"""
    (tmp_path / "noted.c").write_text(NOTED, encoding="utf-8")
    path = str(tmp_path / "noted")
    subprocess.run(["gcc", *FLAGS, "-Wno-unused-macros", "-o", path, path + ".c"], check=True)
    ended = virtual(path)
    fails(
        ended,
        r"noted \(process \d+\) is a Go program, which calls the kernel itself, so its waits are not seen.*; start it outside",
    )
    assert ended.stdout == ""


@needs_gcc
def test_short_ones(tmp_path):
    """a program without the library causes no message if it does not wait and ends soon"""
    source = str(tmp_path / "short.c")
    with open(source, "w", encoding="utf-8") as file:
        file.write("int main(void) { for (volatile long i = 0; i < 50000000; i++) {} return 0; }\n")
    subprocess.run(["gcc", "-O1", "-o", str(tmp_path / "short"), source], check=True)
    script = f"env -i {tmp_path}/short; env -i {tmp_path}/short; sleep 1; date +%s"
    ended = virtual("sh", "-c", script)
    assert (ended.returncode, ended.stdout, ended.stderr) == (0, "1767225601\n", ""), ended


@needs_gcc
@pytest.mark.parametrize("does", ["for (volatile long i = 0; i < 3000000000; i++) {}", "getchar();"])
def test_long_ones(tmp_path, does):
    """a program without the library that runs for a long time is reported, because it sees the real time, even if it
    only waits for input from outside the run"""
    source = str(tmp_path / "long.c")
    with open(source, "w", encoding="utf-8") as file:
        file.write(f"#include <stdio.h>\nint main(void) {{ {does} return 0; }}\n")
    subprocess.run(["gcc", "-O1", "-o", str(tmp_path / "long"), source], check=True)
    line = [command(), "--virtual", "env", "-i", str(tmp_path / "long")]
    with subprocess.Popen(line, stdin=subprocess.PIPE, stderr=subprocess.PIPE, text=True) as child:
        said = child.stderr.readline()
        child.stdin.close()
        assert re.search(r"long \(process \d+\) has lost LD_PRELOAD, as by env -i, so it sees the real time", said)
        assert child.wait(60) == 0 and child.stderr.read() == ""


@needs("valgrind")
def test_valgrind():
    """a program inside valgrind is in virtual time, and there is no message"""
    ended = virtual("valgrind", "-q", "sh", "-c", "date +%s; sleep 30; date +%s")
    assert (ended.returncode, ended.stdout, ended.stderr) == (0, "1767225600\n1767225630\n", ""), ended


@needs("parallel")
def test_parallel(tmp_path):
    """GNU parallel works, although it first determines the maximum length of commands with a changed environment"""
    env = {**os.environ, "HOME": str(tmp_path), "PARALLEL_HOME": str(tmp_path)}
    begun = time.monotonic()
    ended = virtual("parallel", "-j1", "sleep 20; echo", ":::", "a", "b", env=env)
    assert (ended.returncode, ended.stdout, ended.stderr) == (0, "a\nb\n", ""), ended
    assert time.monotonic() - begun < 30


@pytest.mark.parametrize("word", ["--seed", "--jitter"])
def test_help(word):
    """the help says how large the jitter must be"""
    shown = subprocess.run([command(), "--help"], stdout=subprocess.PIPE, text=True, check=True).stdout
    assert word in shown and "to exceed the time between the events" in shown
