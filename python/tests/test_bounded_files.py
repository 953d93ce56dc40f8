"""Tests of files that are neither logs nor records. The first bytes show this, and a command stops reading after them.
Some fault files here are large."""

import gzip
import os
import resource
import subprocess
import sys

import can
import pytest
from test_commands import environment

from canbusd import Bench, Faults, Server
from canbusd.record import read_record

WAIT = 60
# The memory limit of a command in bytes, which is too low for a line of 100 MB.
MOST_MEMORY = 400_000_000
FRAME = "(1795910922.000000) ecu 123#11\n"
ASC = "date Sat Sep 30 15:06:13.191 2017\nbase hex  timestamps absolute\nno internal events logged\n"
NO_LINE = "no line of a log has 16,384 characters, so this is none, or it is damaged here"


def limited():
    """Limits the memory and the time of a command."""
    resource.setrlimit(resource.RLIMIT_AS, (MOST_MEMORY, MOST_MEMORY))
    resource.setrlimit(resource.RLIMIT_CPU, (30, 30))


def call(*words, **more):
    """Runs a command, and returns its exit status, output and error output."""
    if words[0] == "candump2bench":
        words = ["-c", "from canbusd.candump2bench import main; main()", *words[1:]]
    else:
        words = ["-m", "canbusd", *words]
    done = subprocess.run(
        [sys.executable, *map(str, words)], env=environment(), preexec_fn=limited, text=True, capture_output=True,
        timeout=WAIT, check=False, **more,
    )  # fmt: skip
    return done.returncode, done.stdout, done.stderr


def sparse(path, head=""):
    """Creates a file with this head and 100 MB of zero bytes, and returns the file's path."""
    with open(path, "w", encoding="ascii") as file:
        file.write(head)
        file.truncate(len(head) + 100_000_000)
    return path


@pytest.fixture(scope="module")
def compressed(tmp_path_factory):
    """The path of a gzip file that contains 100 MB of zero bytes."""
    path = tmp_path_factory.mktemp("compressed") / "zeros.gz"
    with gzip.open(path, "wb", compresslevel=1) as file:
        for _ in range(100):
            file.write(bytes(1_000_000))
    return path


@pytest.mark.parametrize("name", ["x.log", "x.asc", "x.csv", "x.trc"])
@pytest.mark.parametrize("words", [["convert"], ["candump2bench"]], ids=lambda words: words[0])
def test_a_line_without_end(compressed, tmp_path, words, name):
    """A command refuses an endless line of zeros, whether it is in /dev/zero, a file or a compressed file, and even
    after valid lines."""
    out = [tmp_path / "out.log"] if words == ["convert"] else []
    path = sparse(tmp_path / name)
    assert call(*words, path, *out) == (1, "", f"{prefix(words)}: {path}:1: {NO_LINE}\n")
    path.unlink()
    path.symlink_to("/dev/zero")
    assert call(*words, path, *out) == (1, "", f"{prefix(words)}: {path}:1: {NO_LINE}\n")
    path.unlink()
    if name == "x.log":
        head, number = 3 * FRAME, 4
    else:
        os.link(compressed, f"{path}.gz")
        assert call(*words, f"{path}.gz", *out) == (1, "", f"{prefix(words)}: {path}.gz:1: {NO_LINE}\n")
        head, number = ASC, 4
    sparse(path, head)
    assert call(*words, path, *out) == (1, "", f"{prefix(words)}: {path}:{number}: {NO_LINE}\n")
    assert not (tmp_path / "out.log").exists()


def prefix(words):
    """Returns the name that a command uses for itself in its messages."""
    return "canbusd convert" if words == ["convert"] else words[0]


def test_standard_input_without_a_line():
    with open("/dev/zero", "rb") as zeros:
        assert call("candump2bench", stdin=zeros) == (1, "", f"candump2bench: standard input:1: {NO_LINE}\n")


def test_a_log_without_end(tmp_path):
    """The conversion of an endless log stops at the maximum size of a bench's input."""
    # These frames have the maximum length, so that few lines reach the limit.
    with subprocess.Popen(["yes", f"(1795910922.000000) ecu 123##1{128 * '1'}"], stdout=subprocess.PIPE) as endless:
        said = "candump2bench: the input would have more than the 16777216 bytes that canbusd reads: cut the log\n"
        assert call("candump2bench", stdin=endless.stdout) == (1, "", said)
        endless.kill()


def test_no_blf_file(tmp_path):
    path = sparse(tmp_path / "x.blf")
    status, written, said = call("convert", path, tmp_path / "out.log")
    assert (status, written) == (1, "") and said.startswith(f"canbusd convert: {path}: ")


@pytest.mark.parametrize("command", ["report", "replay"])
@pytest.mark.parametrize("options", [[], ["--cut"]])
def test_no_record(tmp_path, command, options):
    """A large file that is not a record causes the same error message as a short one."""
    for place in (sparse(tmp_path / "x.rec"), "/dev/zero"):
        status, written, said = call(command, *options, place)
        assert (status, written) == (1, "") and said.startswith(f"canbusd {command}: {place}: bad version: `????")
    text = tmp_path / "x.txt"
    text.write_text(1000 * "neither record nor log\n")
    status, written, said = call(command, *options, text)
    assert (status, written) == (1, "") and said.startswith(f"canbusd {command}: {text}: bad version: `neither record ")


def test_a_log_beside_a_record_without_lines(tmp_path):
    """A log that does not belong to this run is not used for interface names."""
    with Bench("can0", out=tmp_path):
        pass
    (tmp_path / "can0.log").unlink()
    sparse(tmp_path / "can0.log")
    status, written, said = call("replay", tmp_path / "can0.rec")
    assert (status, written) == (0, "ok 0 entries\n") and "no log names interface 0" in said


@pytest.fixture(scope="module")
def run(tmp_path_factory):
    """The path of the record of a run with 100 attempts. A rule destroys the first attempt."""
    out = tmp_path_factory.mktemp("run")
    with Server("can0,can1", out=out, faults=Faults().next(1, id=0x123).destroyed()) as server, server.bus(
        "can0"
    ) as bus:
        for number in range(99):
            bus.send(can.Message(arbitration_id=0x123, data=[number], is_extended_id=False), timeout=5)
    return out / "can0.rec"


def test_faults_without_lines(run):
    status, written, said = call("report", "--faults", "/dev/zero", run)
    assert (status, written) == (1, "")
    assert said.splitlines()[-1] == "canbusd report: /dev/zero: no line of faults has 4,096 bytes, as its first one has"


RULES = "".join(f"at 50 next 1 from can0 id {number:03X} local crc can1\n" for number in range(0x7FF))
#: Functions that create blocks of lines for 40 MB of faults. The argument is the index of the block. In "refused", all
#: rules are refused, because 64 endless rules exist. In "ended", every rule is ended at once. The other blocks contain
#: comments or numbered script lines.
MANY = {
    "refused": lambda number: RULES.replace("at 50 ", f"at {1 + number // 15} "),
    "ended": lambda _: RULES.replace("can1\n", "can1\nat 50 nofaults\n"),
    "comments": lambda _: "".join(f"# From can{number} to can0, at any time.\n" for number in range(0x7FF)),
    "lines": lambda number: "".join(f"{2000 * number + place} local crc can1\n" for place in range(200, 2200)),
}
SPLITS = "import sys\nfor line in open(sys.argv[1], 'rb'): line.split()"


def processor_seconds(*words):
    """Runs Python with these arguments. Returns the processor time in seconds and the completed process."""
    before = resource.getrusage(resource.RUSAGE_CHILDREN)
    done = subprocess.run(
        [sys.executable, *words], env=environment(), capture_output=True, text=True, timeout=2 * WAIT, check=True
    )
    after = resource.getrusage(resource.RUSAGE_CHILDREN)
    return after.ru_utime + after.ru_stime - before.ru_utime - before.ru_stime, done


@pytest.mark.parametrize("kind", [*MANY])
def test_forty_megabytes_of_faults(run, tmp_path, kind):
    """Reading 40 MB of faults takes at most seven times as long as splitting the lines, which is 3 seconds on an idle
    processor. One of three tries has to succeed, because the load of the machine may vary."""
    for path in (run, run.with_suffix(".log")):
        os.link(path, tmp_path / path.name)
    first = "next 1 id 123 global bit\n"
    always = (
        "".join(f"at 0 always id {0x200 + number:03X} lastbit\n" for number in range(63))
        + "at 1 always id 555 lastbit\n"
    )
    lines, size, number = [first, always if kind == "refused" else ""], 0, 0
    while size < 40_000_000:
        lines.append(MANY[kind](number))
        size, number = size + len(lines[-1]), number + 1
    faults = tmp_path / "can0.rec.faults"
    faults.write_text("".join(lines))
    for _ in range(3):
        used, done = processor_seconds("-m", "canbusd", "report", tmp_path / "can0.rec")
        assert "without rules" not in done.stderr and done.stdout.startswith("<!DOCTYPE html>")
        if used < 7 * processor_seconds("-c", SPLITS, faults)[0]:
            return
    raise AssertionError(f"{used} seconds of a processor")


def test_a_record_is_read_from_its_first_byte(run):
    """A record is read from its first byte, even though its beginning has already been checked."""
    assert len(read_record(run).attempts) == 100
    words = [sys.executable, "-m", "canbusd", "replay", "--quiet", "/dev/stdin"]
    done = subprocess.run(
        words, env=environment(), input=run.read_bytes(), capture_output=True, timeout=WAIT, check=True
    )
    assert done.stdout.startswith(b"ok ")
