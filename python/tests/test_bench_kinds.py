"""A bench inside this process and a bench as a separate process: the same lines produce the same output, record and
log."""

import random
import re

import pytest

from canbusd import Bench
from canbusd._library.bench_inside import is_used
from canbusd.bench import BenchError

if not is_used():
    pytest.skip("no libcanbusd of these sources: scripts/library build", allow_module_level=True)

FAULTS = "0 lastbit\n4 global bit\n5 local form b\nnext 3 from c local crc a\n"
MESSAGES = [
    *("send 123 2 11 22", "send 124 0", "send 12345678 3 1 2 3", "send 123 9", "sendrtr 100 4", "sendfd 7FF 1 FF"),
    *("errmask 1FFFFFFF", "recvown 1", "fdframes 1", "filter 1 120 7F0", "origin 1", "loopback 0", "join 1"),
    *("status", "stats", "load", "faults", "interfaces", "restart", "down", "dance", "close", "open b"),
    *("fault next 2 from b local crc a", "fault always id 124 skip 3 global bit", "fault next", "nofaults"),
]


def lines_of(draw):
    """Yields random input lines. They use the sessions 2 to 9, some of them in raw mode, and contain messages,
    timestamps and attempts."""
    for number in range(2, 10):
        yield f"session {number}\nfeed {number} < open {'abc'[number % 3]} >" + number % 2 * "< rawmode >"
    for moment in range(400):
        number = draw.randrange(2, 10)
        messages = "".join(f"< {message} >" for message in draw.choices(MESSAGES, k=draw.randrange(1, 4)))
        yield draw.choice(
            [f"feed {number} {messages}", f"feed {number} outside < sta", "attempt", f"at {moment}.000000\nattempt"]
            + [f"drain {number}"]
        )


def written_by(bench, lines):
    """Returns the bench's output after each of the lines."""
    written = []
    for line in lines:
        bench._write(f"{line}\nfeed 1 < echo >")
        while (found := bench._line()) != "1 < echo >":
            written.append(found)
        bench._in_step = True
    return written


def both(monkeypatch, folder, **options):
    """Yields one bench of each kind. Each bench has its own output folder."""
    for kind in ("BenchInside", "BenchProcess"):
        with monkeypatch.context() as patched:
            if kind == "BenchProcess":
                patched.setenv("CANBUSD_LIBRARY", "")
            out = folder / kind
            out.mkdir()
            bench = Bench("a,b,c", out=out, **options)
        assert type(bench._lines).__name__ == kind
        yield bench


def files_of(bench):
    """Returns the contents of the bench's files, by name."""
    return {path.name: path.read_bytes() for path in bench._out.iterdir()}


OPTIONS = [
    {"faults": FAULTS, "report": True},
    {"faults": FAULTS, "ack": "peers", "auto_restart": 5, "bitrate": 250_000, "data_bitrate": 1_000_000},
    {"txqueue": 1, "rxqueue": 2},
    {"limit": 150},
]


@pytest.mark.parametrize("options", OPTIONS, ids=["faults", "bit rates", "full queues", "a full record"])
def test_they_write_the_same(monkeypatch, tmp_path, options):
    lines, found = [*lines_of(random.Random(str(options)))], []
    for bench in both(monkeypatch, tmp_path, **options):
        written = written_by(bench, lines)
        bench.stop()
        found.append((written, files_of(bench)))
    assert found[0] == found[1]
    assert len(found[0][0]) > 200 and sorted(found[0][1]) == ["a.log", "a.rec"]


@pytest.mark.parametrize(
    "line",
    ["run 1.000000", "dance", "feed 77 < echo >", "up a", "fault next", "x" * 5000, "at 1"],
    ids=lambda line: line[:20],
)
def test_they_end_with_the_same_fault(monkeypatch, tmp_path, line):
    """Both kinds of bench end with the same error, and leave no files."""
    faults = []
    for bench in both(monkeypatch, tmp_path, faults=FAULTS):
        bench.open("a").send(0x123)
        with pytest.raises(BenchError) as fault:
            bench._write(f"attempt\n{line}")
            for _ in range(3):
                bench._line()
        with pytest.raises(ValueError, match="the bench has ended"):
            bench.attempt()
        bench.stop()
        with pytest.raises(FileNotFoundError):
            bench.record()
        text = str(fault.value)
        assert bench.said == text
        faults.append((re.sub("/.*/", "", text), files_of(bench)))
    assert faults[0] == faults[1] and "bad line" in faults[0][0] and faults[0][1] == {}


def test_they_refuse_the_same(monkeypatch, tmp_path):
    for faults in ("0 lastbit\n0 good\n", "5 nonsense", "next 1 from x lastbit\n", 65 * "next 1 lastbit\n", b"\xff\n"):
        texts = []
        for library in (None, ""):
            with monkeypatch.context() as patched:
                if library is not None:
                    patched.setenv("CANBUSD_LIBRARY", library)
                path = tmp_path / "faults"
                path.write_bytes(faults if isinstance(faults, bytes) else faults.encode())
                with pytest.raises((BenchError, ValueError)) as fault:
                    Bench("a,b,c", faults=path)
                texts.append(re.sub("/.*/", "", str(fault.value)))
        assert texts[0] == texts[1]


@pytest.mark.parametrize("name", ["a.rec", "a.log"])
def test_a_file_that_cannot_be_written(monkeypatch, tmp_path, name):
    """The error names the file that cannot be written. The other file is still written, through a symbolic link."""
    texts = []
    for bench in both(monkeypatch, tmp_path):
        (bench._out / name).mkdir()
        other = ({"a.rec", "a.log"} - {name}).pop()
        (bench._out / other).symlink_to("other")
        with pytest.raises(BenchError) as fault:
            bench.stop()
        texts.append(str(fault.value).replace(str(bench._out), ""))
        assert (bench._out / "other").is_file() and (bench._out / other).is_symlink()
    assert texts[0] == texts[1]
