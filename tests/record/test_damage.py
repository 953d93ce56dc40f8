"""Tests what `canbusd audit` reports for damaged records, compared with the independent model of record_events.py. Each
byte of the record in docs/RECORD.md is changed, to 30 other bytes or, with --all-bytes, to all 255. The record is also
cut at each byte, and audited with and without `--cut`. The same is done for a record with an automatic restart (version
2), one with FD frames (version 3), and one that was written during its run (version 4). In the records of the examples
and of random runs, which contain every kind of line, bytes are changed, and lines are left out, doubled, exchanged,
moved, or given other words and replies. The program and the model must report the same first wrong line or entry, and
`ok` for the same records. A further program that --beside names, which audits like canbusd, must report the same.
"""

import glob
import itertools
import os
import re
import shutil
import subprocess

import pytest

from made_once import made_once
from record_events import audit
from record_text import REFUSALS
from run_again import Again, compile_library
from serving import ROOT, WAIT

# How many tests share the bytes of a record, so that they run in parallel.
PARTS = 6
in_parts = pytest.mark.parametrize("part", range(PARTS))

SEEN = b"0123459AFRfr#= .-:\n\r\t\0x\x7f\x80\xff"


class Tried:
    """Tries damaged records, and counts the verdicts on them."""

    def __init__(self, programs, changes_all, rng, folder, library):
        self.program, *self.beside = programs
        self.changes_all, self.rng, self.folder = changes_all, rng, folder
        self.said = {}
        # For each set of options, the running program that repeats its audit. Without a compiler the program is started
        # for each audit.
        self.library, self.started = library, {}

    def audited(self, program, data, *options):
        """Audits this record; returns the status, the output and the errors."""
        words = [program, "audit", *options, "/dev/stdin"]
        if program != self.program or self.library is None:
            done = subprocess.run(words, input=data, capture_output=True, timeout=WAIT, check=False)
            return done.returncode, done.stdout, done.stderr
        if options not in self.started:
            self.started[options] = Again(self.library, *words)
        return self.started[options].run(data)

    def one(self, data):
        """Checks that every program reports the verdict of the model on a record."""
        wanted = audit(data)
        # The other program may support more versions.
        beside = self.beside if wanted != "canbusd: bad version" else []
        for program in (self.program, *beside):
            status, output, errors = self.audited(program, data)
            first = (output or errors).decode().split("\n")[0]
            if first != wanted or status != (0 if wanted.startswith("ok") else 1):
                path = self.folder / "damaged.rec"
                path.write_bytes(data)
                pytest.fail(f"{program}: {first}, status {status}, and not {wanted}: {path}")
        self.count(wanted)

    def cut(self, data):
        """Checks the verdicts on a record that may be cut off, without and with `--cut`, and the note on its partial
        last line."""
        self.one(data)
        wanted = audit(data, cut=True)
        status, output, errors = self.audited(self.program, data, "--cut")
        torn = len(data) - data.rfind(b"\n") - 1
        note = f"note: {torn} bytes of a line without its end were not looked at\n" if torn else ""
        if wanted.startswith("ok"):
            said, right = (f"{wanted}\n", note), 0
        else:
            said, right = ("", f"{wanted}\n"), 1
        if not (output.decode() == said[0] and errors.decode().startswith(said[1])):
            pytest.fail(f"--cut: {output!r}, {errors!r}, and not {said}: {data!r}")
        assert status == right, f"--cut: status {status}: {data!r}"
        self.count(wanted)

    def count(self, said):
        kind = re.sub(r"\d+", "N", said.removeprefix("canbusd: "))
        self.said[kind] = self.said.get(kind, 0) + 1

    def __str__(self):
        return ", ".join(f"{count} {kind}" for kind, count in sorted(self.said.items()))


@pytest.fixture
def tried(request, program, rng, tmp_path):
    """Yields an object that tries the damaged records of a test, and ends its programs afterwards."""
    beside = request.config.getoption("beside")
    programs = [program, os.path.abspath(beside)] if beside else [program]
    folder = made_once(request, "run_again", compile_library) if shutil.which("gcc") else None
    library = folder and folder / "run_again.so"
    tried = Tried(programs, request.config.getoption("all_bytes"), rng, tmp_path, library)
    yield tried
    for program in tried.started.values():
        program.close()


def example():
    """Returns the record in docs/RECORD.md."""
    with open(os.path.join(ROOT, "docs", "RECORD.md"), encoding="utf-8") as page:
        text = page.read()
    lines = [line[4:] for line in text.split("    canbus record 1\n")[1].split("    end 7\n")[0].splitlines()]
    return "\n".join(["canbus record 1", *lines, "end 7", ""]).encode()


def restarted():
    """Returns the record of an interface that goes bus off, and restarts in the second attempt after that."""
    lines = [
        "open 0 256 = socket 0",
        "open 1 256 = socket 1",
        "option 0 errmask 00000140 = ok",
        "send 0 123# = number 0",
    ]
    for number in range(1, 33):
        lines.append(f"attempt 0.0000{number:02} global-bit = tried 0 0 123# destroyed 0000 {number // 32:04}")
    lines += [
        "attempt 0.000033 good = idle",
        "attempt 0.000034 good = idle restarted 0001",
        "receive 0 = error 0 20000040#0000000000000000 0.000032",
        "receive 0 = error 0 20000100#0000000000000000 0.000034",
        "send 0 123# = number 1",
        "attempt 0.000035 good = tried 0 1 123# done 0002 0000",
    ]
    return "\n".join(["canbus record 2", "bus 2 always 0000 10 100 2", *lines, f"end {len(lines)}", ""]).encode()


def with_fd():
    """Returns a record with FD frames and a classic frame, with sockets that request FD frames and a socket that does
    not."""
    lines = [
        "open 0 256 = socket 0", "open 1 1 = socket 1", "open 1 256 = socket 2", "send 0 123##0 = fd-off",
        "option 0 fd 1 = ok", "option 1 fd 1 = ok", "send 0 123##00102030405060708090A0B0C = number 0",
        "send 0 1FFFFFFF##0FF = number 1", "send 0 7FF#FF = number 2",
        "attempt 0.000001 good = tried 0 0 123##00102030405060708090A0B0C done 0002 0000",
        "attempt 0.000002 good = tried 0 1 1FFFFFFF##0FF done 0002 0000",
        "attempt 0.000003 good = tried 0 2 7FF#FF done 0002 0000",
        "receive 1 = data 0 0 123##00102030405060708090A0B0C 0.000001", "receive 2 = data 0 2 7FF#FF 0.000003",
        "close 1 = closed 0 2",
    ]  # fmt: skip
    return "\n".join(["canbus record 3", "bus 2 always 0000 10 100 0", *lines, f"end {len(lines)}", ""]).encode()


def with_flags():
    """Returns the record of `with_fd`, but with flags in its FD frames."""
    text = with_fd().replace(b"record 3", b"record 5").replace(b"123##0 = fd-off", b"123##2 = fd-off")
    return text.replace(b"##001", b"##101").replace(b"##0FF", b"##3FF")


def live(data=None):
    """Returns a record as a server writes it while it runs. By default it is the record with an automatic restart."""
    first, bus, entries = (data or restarted()).split(b"\n", 2)
    *words, capacity, limit, restart = [*bus.split(b" "), *([b"0"] if first.endswith(b"1") else [])]
    assert (capacity, limit) == (b"10", b"100")
    return b"\n".join([b"canbus record 4", b" ".join([*words, capacity, b"4294967294", restart]), entries])


def recorded(tried, words, text):
    """Runs the bench with these words and this input; returns its record."""
    path = os.path.join(tried.folder, "run.rec")
    done = subprocess.run(
        [tried.program, "bench", "--record", path, *words],
        input=text,
        capture_output=True,
        text=True,
        timeout=WAIT,
        check=False,
        cwd=ROOT,
    )
    assert done.returncode == 0, f"{words}: {done.stderr}"
    with open(path, "rb") as file:
        return file.read()


def examples(tried):
    for path in sorted(glob.glob(os.path.join(ROOT, "examples", "*.bench"))):
        with open(path, encoding="utf-8") as file:
            text = file.read()
        yield recorded(tried, re.search(r"\./canbusd bench (.*) < examples/", text)[1].split(), text)


def random_run(tried):
    """Returns the record of a run with random sessions, options, faults, bus off and restarts."""
    rng = tried.rng
    count = rng.randrange(1, 5)
    names = [f"can{number}" for number in range(count)]
    verdicts = ["good", "global bit", "global form", "lastbit"]
    for kind in ("stuff", "crc", "form"):
        verdicts.append(f"local {kind} {','.join(rng.sample(names, rng.randrange(1, count + 1)))}")
    script = os.path.join(tried.folder, "faults")
    with open(script, "w", encoding="utf-8") as file:
        severe = rng.random() < 0.5
        for number in range(200):
            file.write(f"{number} {rng.choice(verdicts[1:] if severe and number < 150 else verdicts)}\n")
    lines = []
    for session in range(1, 7):
        lines += [f"session {session}", f"feed {session} < open {rng.choice(names)} >< rawmode >"]
    has_fd = rng.random() < 0.5
    for _ in range(150):
        lines += [
            random_line(rng, rng.randrange(1, 7), has_fd),
            f"at {rng.choice([0, 1, 12345678])}.{rng.randrange(10**6):06d}",
        ]
        lines += ["attempt"] * rng.randrange(1, 4)
        if rng.random() < 0.3:
            lines.append(f"drain {rng.randrange(1, 7)}")
    words = ["--ack", rng.choice(["always", "peers"]), "--txqueue", "3", "--rxqueue", rng.choice(["1", "20"])]
    words += ["--report"] * (rng.random() < 0.5)
    words += ["--auto-restart", rng.choice(["1", "2", "7"])] * (rng.random() < 0.5)
    return recorded(tried, [*words, f"{','.join(names)}@{script}"], "\n".join(lines) + "\n")


def random_line(rng, session, has_fd):
    number = rng.choice(["123", "124", "7FF", "0", "048C0000", "00000123", "1FFFFFFF"])
    data = " ".join(f"{rng.randrange(256):x}" for _ in range(rng.randrange(9)))
    command = rng.choice(
        [
            f"send {number} {len(data.split())} {data}",
            f"sendrtr {number} {rng.randrange(9)}",
            f"send {number} 0",
            f"send {number} 1 5",
            "restart",
            "down" if rng.random() < 0.3 else "restart",
            f"recvown {rng.randrange(2)}",
            f"loopback {rng.randrange(2)}",
            f"join {rng.randrange(2)}",
            f"errmask {rng.choice(['0', '1FFFFFFF', '204', 'FFFFFFFF'])}",
            "filter 0",
            "filter 1 123 7FF",
            "filter 2 20000123 7FF 80000123 DFFFFFFF",
            "filter 1 0 0",
            "close" if rng.random() < 0.1 else "send 123 0",
        ]
    )
    if has_fd and rng.random() < 0.3:
        data = " ".join(["a5"] * rng.choice([0, 1, 8, 12, 20, 64]))
        sent = f"{number} {len(data.split())} {data}"
        verb = rng.choice(["sendfd", "sendfd", "sendfdx 1", "sendfdx 3"])
        command = rng.choice(["fdframes 1", "fdframes 1", "fdframes 0", f"{verb} {sent}"])
    return f"feed {session} < {command} >"


@in_parts
def test_bytes_of_the_example(tried, part):
    """The verdicts agree if any byte of the example is changed, and if the example is cut at any byte."""
    assert audit(example()) == "ok 7 entries", "the example"
    change_bytes(tried, example(), part=part)
    assert tried.said["ok N entries"] >= 1, "the example is not ok"


@pytest.mark.slow
def test_bytes_of_a_record_with_a_restart(tried):
    """The verdicts agree for damaged records of version 2."""
    data = restarted()
    assert audit(data) == "ok 42 entries", f"the record: {audit(data)}"
    # The attempts before bus off are all alike, so their bytes are left unchanged.
    lines = data.splitlines(True)
    change_bytes(tried, data, len(b"".join(lines[:7])), len(b"".join(lines[:36])))


@pytest.mark.slow
def test_bytes_of_a_record_with_fd_frames(tried):
    """The verdicts agree for damaged records of version 3."""
    assert audit(with_fd()) == "ok 15 entries", f"the record: {audit(with_fd())}"
    change_bytes(tried, with_fd())


@in_parts
def test_bytes_of_a_record_with_flags(tried, part):
    """The verdicts agree if any byte of a record with FD flags is changed, and if the record is cut at any byte."""
    assert audit(with_flags()) == "ok 15 entries", f"the record: {audit(with_flags())}"
    change_bytes(tried, with_flags(), part=part)


@in_parts
def test_bytes_of_a_live_record(tried, part):
    """The verdicts agree if any byte of the first lines of version 4 is changed, and if the record is cut at any byte."""
    data = live()
    assert audit(data) == "ok 42 entries", f"the record: {audit(data)}"
    lines = data.splitlines(True)
    change_bytes(tried, data, len(b"".join(lines[:3])), len(b"".join(lines[:-1])), part)
    for place in range(part, len(data), PARTS):
        tried.cut(data[:place])


@pytest.mark.slow
def test_bytes_of_a_live_record_with_fd_frames(tried):
    """The verdicts agree if any byte of the entries of version 4 is changed, also with FD frames."""
    lines = live().splitlines(True)
    change_bytes(tried, live(), len(b"".join(lines[:7])), len(b"".join(lines[:36])))
    change_bytes(tried, live(with_fd()))


def change_bytes(tried, data, skip_from=0, skip_to=0, part=None):
    """Changes and removes each byte of a record, cuts the record there, and appends bytes. Leaves out the bytes from
    `skip_from` to `skip_to`, and the bytes that other parts of the test cover."""
    tried.one(data)
    for place, byte in enumerate(data):
        if skip_from <= place < skip_to or part not in (None, place % PARTS):
            continue
        near = {byte ^ 1, byte ^ 0x20, byte ^ 0x80, (byte + 1) % 256, (byte - 1) % 256}
        for other in range(256) if tried.changes_all else {*SEEN, *near}:
            if other != byte:
                tried.one(data[:place] + bytes([other]) + data[place + 1 :])
        tried.cut(data[:place])
        tried.one(data[:place] + data[place + 1 :])
    for end in (b"", b"\n", b"x", b" ", b"\0", b"end 7\n", data):
        tried.cut(data + end)


def test_named_damages_of_the_example(tried):
    """For these damaged records, both the model and the program report the expected verdicts."""
    text = example().decode()
    damages = [
        (text.replace("canbus record 1", "canbus record 9"), "bad version"),
        ("", "bad version"),
        (text.replace("bus 2", "bus 17"), "line 2: bad line"),
        (text.replace("send 0 123#01FF", "send 0 123#01ff"), "line 5: bad line"),
        ("".join(text.splitlines(True)[:5]), "line 6: bad line"),
        (text.replace("end 7", "end 8"), "line 10: bad line"),
        (text[:-1], "line 10: bad line"),
        (text.replace("10 100", "10 6"), "entry 6: wrong"),
        (text.replace("done 0002", "done 0000"), "entry 3: wrong"),
    ]
    text = restarted().decode()
    damages += [
        (text.replace("idle restarted 0001", "idle"), "entry 37: wrong"),
        (text.replace("restarted 0001", "restarted 0000"), "line 40: bad line"),
        (text.replace("10 100 2", "10 100 0"), "line 2: bad line"),
        (text.replace("10 100 2", "10 100"), "line 2: bad line"),
        (text.replace("10 100 2", "10 100 1"), "entry 36: wrong"),
        (text.replace("record 2", "record 1"), "line 2: bad line"),
        (text.replace("record 2", "record 1").replace("10 100 2", "10 100"), "line 40: bad line"),
    ]
    text = with_fd().decode()
    without = "\n".join(text.splitlines()[:4])
    damages += [
        (text.replace("record 3", "record 1"), "line 2: bad line"),
        (text.replace("record 3", "record 1").replace("10 100 0", "10 100"), "line 6: bad line"),
        (text.replace("record 3", "record 2").replace("10 100 0", "10 100 7"), "line 6: bad line"),
        (text.replace("123##0 = fd-off", "123##0 = bus-off"), "entry 3: wrong"),
        (text.replace("123##0 = fd-off", "123# = fd-off"), "line 6: bad line"),
        (text.replace("123##0 = fd-off", "123##1 = fd-off"), "line 6: bad line"),
        (text.replace("fd 1", "fd 2", 1), "line 7: bad line"),
        (text.replace("0A0B0C", "0A0B"), "line 9: bad line"),
        (text.replace("0A0B0C", "0A0B0D", 1), "entry 9: wrong"),
        (f"{without}\nend 2\n", "bad version"),
        (f"{without}\nend 3\n", "line 5: bad line"),
    ]
    text = live().decode()
    damages += [
        (text.replace("4294967294", "4294967295"), "line 2: bad line"),
        (text.replace("4294967294", "16777216"), "line 2: bad line"),
        (text.replace("4294967294 2", "4294967294"), "line 2: bad line"),
        (text.replace("4294967294 2", "4294967294 0"), "line 40: bad line"),
        (text.replace("4294967294 2", "4294967294 1"), "entry 36: wrong"),
        (text.replace("record 4", "record 3"), "line 2: bad line"),
        (text.replace("record 4", "record 5"), "line 2: bad line"),
        (text.replace("record 4", "record 7"), "bad version"),
        (with_flags().decode().replace("record 5", "record 3"), "line 6: bad line"),
        (with_flags().decode().replace("##2", "##4"), "line 6: bad line"),
        (with_fd().decode().replace("record 3", "record 5"), "bad version"),
        (restarted().decode().replace("10 100 2", "10 16777217 2"), "line 2: bad line"),
        (with_fd().decode().replace("10 100 0", "10 16777217 0"), "line 2: bad line"),
        (live(with_fd()).decode().replace("fd-off", "number 0"), "entry 3: wrong"),
    ]
    for damaged, fault in damages:
        assert audit(damaged.encode()) == f"canbusd: {fault}", f"the replay: {fault}"
        tried.cut(damaged.encode())


def test_named_cuts(tried):
    """For these records that are cut off, both the model and the program report the expected verdicts."""
    lines = example().splitlines(True)
    wrong = [line.replace(b"done 0002", b"done 0000") for line in lines]
    bad = [line.replace(b"123#01FF", b"123#01ff") for line in lines]
    needless = b"canbus record 3\nbus 1 always 0000 10 100 0\nopen 0 1 = socket 0\n"
    cuts = [
        (b"".join(lines), "ok 7 entries"),
        (b"".join(lines[:-1]), "ok 7 entries, then cut off"),
        (b"".join(lines)[:-1], "ok 7 entries, then cut off"),
        (b"".join(lines[:5]), "ok 3 entries, then cut off"),
        (b"".join([*lines[:5], lines[5][:-1]]), "ok 3 entries, then cut off"),
        (b"".join([*lines[:5], b"\xFF\0"]), "ok 3 entries, then cut off"),
        (b"".join(lines[:2]), "ok 0 entries, then cut off"),
        (b"".join(wrong[:6]), "canbusd: entry 3: wrong"),
        (b"".join(wrong[:7])[:-2], "canbusd: entry 3: wrong"),
        (b"".join(wrong[:6])[:-2], "ok 3 entries, then cut off"),
        (b"".join(bad[:7]), "canbusd: line 5: bad line"),
        (b"".join(bad[:5])[:-1], "ok 2 entries, then cut off"),
        (b"".join(lines[:2])[:-1], "canbusd: line 2: bad line"),
        (lines[0], "canbusd: line 2: bad line"),
        (lines[0][:-1], "canbusd: bad version"),
        (b"", "canbusd: bad version"),
        (b"".join([*lines, b"x"]), "canbusd: line 11: bad line"),
        (b"".join([*lines, b"x\n"]), "canbusd: line 11: bad line"),
        # An FD frame may still follow after the cut.
        (needless, "ok 1 entries, then cut off"),
        (needless + b"end 1\n", "canbusd: bad version"),
        # A record of version 4 does not have to contain an FD frame.
        (live(example()), "ok 7 entries"),
        (live(example())[:-1], "ok 7 entries, then cut off"),
        (live(with_fd()), "ok 15 entries"),
        (live(with_fd())[:-1], "ok 15 entries, then cut off"),
        (live(), "ok 42 entries"),
        (b"canbus record 4\nbus 2 always 0000 10 16777217 0\nend 0\n", "ok 0 entries"),
        (b"canbus record 4\nbus 2 always 0000 10 16777217 0\nend 0", "ok 0 entries, then cut off"),
    ]
    for data, said in cuts:
        assert audit(data, cut=True) == said, f"the replay: {data!r}"
        tried.cut(data)


def test_files_of_one_record(tried):
    """A record that is split into two files is audited as one, wherever it is split. A missing file is reported."""
    data = example()
    first, second = tried.folder / "1.rec", tried.folder / "2.rec"
    for place in range(len(data) + 1):
        first.write_bytes(data[:place])
        second.write_bytes(data[place:])
        for option in ([], ["--cut"]):
            command = [tried.program, "audit", *option, first, second]
            done = subprocess.run(command, capture_output=True, text=True, timeout=WAIT, check=False)
            assert (done.stdout, done.stderr, done.returncode) == ("ok 7 entries\n", "", 0), f"{place}: {done}"
    command = [tried.program, "audit", first, tried.folder / "3.rec"]
    done = subprocess.run(command, capture_output=True, text=True, timeout=WAIT, check=False)
    assert done.returncode == 1 and done.stderr.startswith(f"canbusd: cannot open {tried.folder / '3.rec'}\n")
    first.write_bytes(data[:100])
    second.write_bytes(data[100:])
    command = [tried.program, "audit", second, first]
    done = subprocess.run(command, capture_output=True, text=True, timeout=WAIT, check=False)
    line = data[100:].split(b"\n")[0].decode()
    assert done.returncode == 1
    assert done.stderr.startswith(f"canbusd: bad version\n  {second} + {first}:1: {line}\n"), done.stderr


def test_what_cut_would_do_is_said(tried):
    """If the last line of a record is missing, a note says what --cut would do. Other faults get no such note."""
    text = example()
    cut = "  with --cut the {} entries before it are audited\n"
    ends = [
        (text[: text.index(b"end 7")], cut.format(7)),
        (text[:-1], cut.format(7)),
        (text[: text.index(b"0 123#01FF")], cut.format(2)),
        (text.replace(b"end 7", b"end 8"), None),
        (text + b"x", None),
        (b"canbus record 1\nbus 2", None),
        (b"", None),
    ]
    for data, note in ends:
        command = [tried.program, "audit", "/dev/stdin"]
        done = subprocess.run(command, input=data, capture_output=True, timeout=WAIT, check=False)
        errors = done.stderr.decode()
        assert ("--cut" in errors) == (note is not None) and errors.endswith(note or "\n"), errors


@in_parts
def test_lines_of_other_records(tried, part):
    """The verdicts agree if lines of the examples' records and of random runs are left out, doubled, exchanged, or
    given other replies and words."""
    for data in [*itertools.islice(examples(tried), part, None, PARTS), random_run(tried)]:
        assert audit(data).startswith("ok "), f"the replay: {audit(data)}"
        tried.one(data)
        lines = data.split(b"\n")
        for _ in range(300):
            tried.one(b"\n".join(damaged(tried.rng, lines)))


def damaged(rng, lines):
    """Returns the lines with one or two of them damaged."""
    lines = list(lines)
    for _ in range(rng.choice([1, 1, 1, 2])):
        place, other = (rng.randrange(len(lines)) for _ in range(2))
        line, how = lines[place], rng.randrange(8)
        if how == 0:
            del lines[place]
        elif how == 1:
            lines.insert(place, rng.choice([line, lines[other]]))
        elif how == 2:
            lines[place], lines[other] = lines[other], line
        elif how == 3:
            lines[place] = line.partition(b" = ")[0] + b" = " + (rng.choice([*REFUSALS, "ok", "none", "idle"])).encode()
        elif how == 4:
            lines[place] = line.partition(b" = ")[0] + b" = " + lines[other].partition(b" = ")[2]
        else:
            lines[place] = with_other_word(rng, line)
        if how in (0, 1) and rng.random() < 0.7:
            lines = [re.sub(rb"^end .*", b"end %d" % (len(lines) - 4), one) for one in lines]
    return lines


def with_other_word(rng, line):
    words = line.split(b" ")
    place = rng.randrange(len(words))
    word = words[place]
    if word.isdigit() and rng.random() < 0.7:
        # A capacity has 32 bits in canbusd, and may have more bits in other programs.
        far = 10**6 if words[0] == b"open" else 2**32
        words[place] = b"%d" % max(0, int(word) + rng.choice([-1, 1, 2, 10**6, far, 2**64]))
    elif word:
        at = rng.randrange(len(word))
        words[place] = word[:at] + rng.choice([b"0", b"1", b"2", b"3", b"4", b"F", b"R", b"8", b""]) + word[at + 1 :]
    return b" ".join(words)


def test_bytes_of_other_records(tried):
    """The verdicts agree if random bytes of random runs are changed."""
    rng = tried.rng
    for data in (random_run(tried) for _ in range(4)):
        for _ in range(400):
            place = rng.randrange(len(data))
            tried.one(data[:place] + bytes([rng.choice([*SEEN, rng.randrange(256)])]) + data[place + 1 :])
