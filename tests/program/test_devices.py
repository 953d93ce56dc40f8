"""Tests files and streams that fail, and what canbusd reports and writes in that case. Each file and stream of `bench`,
`audit` and `serve` is, in turn, closed, full (/dev/full), a folder, missing, unreadable (/proc/self/mem), not text,
endless, a pipe that nobody reads, or a file that may grow to only a few bytes. The first line that each run reports
must be the one that the manual page lists for its fault. A fault in one file must not make the other files incomplete.
"""

import contextlib
import os
import re
import resource
import signal
import subprocess

from serving import ROOT, WAIT, Pair, plain, program, serving, serving_alone

with open(os.path.join(ROOT, "examples", "first_frame.bench"), encoding="utf-8") as example:
    INPUT = example.read()
OUTPUT = """1 < hi >
2 < hi >
1 < ok >< ok >
2 < ok >< ok >
tried can0 0 done can1 -
2 < frame 123 23.424242 11223344 >
"""
UNREADABLE = "/proc/self/mem"


@contextlib.contextmanager
def unread_pipe():
    """Yields a pipe that nobody reads."""
    reader, writer = os.pipe()
    os.close(reader)
    yield writer
    os.close(writer)


@contextlib.contextmanager
def full():
    with open("/dev/full", "wb") as file:
        yield file


@contextlib.contextmanager
def nothing():
    yield None


def run(*words, closes=None, most=resource.RLIM_INFINITY, **streams):
    """Runs the program with these streams, of which one may be closed, and with a limit on its memory. Returns its
    status, its output, and the first line of its standard error."""

    def begin():
        resource.setrlimit(resource.RLIMIT_AS, (most, most))
        if closes is not None:
            os.close(closes)

    how = {
        "stdout": subprocess.PIPE,
        "stderr": subprocess.PIPE,
        "timeout": 6 * WAIT,
        "check": False,
        "preexec_fn": begin,
    }
    how.update(streams)
    if "stdin" not in how:
        how.setdefault("input", INPUT.encode())
    done = subprocess.run([program(), *words], **how)
    return done.returncode, (done.stdout or b"").decode(), (done.stderr or b"").decode().splitlines()[:1]


def expect(what, saw, status, output, fault):
    assert saw == (status, output, [f"canbusd: {fault}"] if fault else []), f"{what}: {saw}"


def test_input_of_a_bench():
    """A bench reports an input that is closed, a folder, unreadable or endless."""
    expect("closed", run("bench", "can0", closes=0), 1, "", "read fault")
    for path in ("/", UNREADABLE):
        file = os.open(path, os.O_RDONLY)
        expect(path, run("bench", "can0", stdin=file), 1, "", "read fault")
        os.close(file)
    with open("/dev/zero", "rb") as zeros:
        expect("zeros", run("bench", "can0", stdin=zeros), 1, "", "line 1: bad line")
    with subprocess.Popen(["yes", ""], stdout=subprocess.PIPE) as lines:
        expect("empty lines", run("bench", "can0", stdin=lines.stdout), 1, "", "input too long")
        lines.stdout.close()
        lines.kill()


def test_output_of_a_bench(tmp_path):
    """A bench reports an output that is closed, full, or a pipe that nobody reads, and creates no record."""
    record = os.path.join(tmp_path, "run.rec")
    words = "bench", "--record", record, "can0,can1"
    with unread_pipe() as writer:
        expect("a pipe that nobody reads", run(*words, stdout=writer), 1, "", "write fault")
    with full() as file:
        expect("full", run(*words, stdout=file), 1, "", "write fault")
        long = (INPUT + "feed 1 < echo >\n" * 2000 + "x\n").encode()
        expect("full, far from the end", run(*words, stdout=file, input=long), 1, "", "write fault")
    expect("closed", run(*words, closes=1), 1, "", "write fault")
    assert not os.path.exists(record), "a record was made"
    for words in (["--version"], ["--help"], ["bench", "--help"]):
        with full() as file:
            expect(f"{words}, full", run(*words, stdout=file), 1, "", "write fault")


def test_errors_of_a_bench():
    """If standard error is closed, full, or a pipe that nobody reads, the output and the status of a bench stay the
    same."""
    for stream in (unread_pipe, full, nothing):
        with stream() as errors:
            closes = 2 if errors is None else None
            saw = run("bench", "can0,can1", stderr=errors, closes=closes, input=(INPUT + "x\n").encode())
            expect(f"{stream.__name__}", saw, 1, OUTPUT, None)
            saw = run("bench", "can0,can0", stderr=errors, closes=closes)
            expect(f"{stream.__name__}, names", saw, 1, "", None)
            assert run("bench", stderr=errors, closes=closes)[0] == 2, "the status of a fault of the command line"


def test_script_of_a_bench(tmp_path):
    """A bench reports a script that is missing, a folder, unreadable, not text or endless."""
    bytes_ = os.path.join(tmp_path, "bytes")
    with open(bytes_, "wb") as file:
        file.write(b"0 good\n\xff\n")
    for path, fault in [
        ("none", "cannot open none"),
        ("/", "read fault"),
        (UNREADABLE, "read fault"),
        (bytes_, "read fault"),
        ("", "cannot open "),
        (f"{bytes_}/x", f"cannot open {bytes_}/x"),
    ]:
        expect(path, run("bench", f"can0,can1@{path}"), 1, "", fault)
    expect("endless", run("bench", "can0,can1@/dev/zero", most=2**28), 1, "", "no memory")


def test_record_of_a_bench(tmp_path):
    """A bench reports a record that is full, a folder, in a missing folder, or a pipe that nobody reads. Its output is
    complete."""
    for path, fault in [
        ("/dev/full", "write fault"),
        ("/", "cannot open /"),
        ("/none/run.rec", "cannot open /none/run.rec"),
    ]:
        expect(path, run("bench", "--record", path, "can0,can1"), 1, OUTPUT, fault)
    with unread_pipe() as writer:
        saw = run("bench", "--record", f"/dev/fd/{writer}", "can0,can1", pass_fds=[writer])
        faults = [["canbusd: write fault"], [f"canbusd: cannot open /dev/fd/{writer}"]]
        assert saw[:2] == (1, OUTPUT) and saw[2] in faults, f"{saw}"
    path = os.path.join(tmp_path, "run.rec")
    with open(path, "w", encoding="ascii") as file:
        file.write("of another run\n")
    for most in (0, 1, 100):
        expect(f"{most} bytes", grown("bench", "--record", path, "can0,can1", most=most), 1, OUTPUT, "write fault")
        with open(path, encoding="ascii") as file:
            assert file.read() == "of another run\n", f"the old record, after {most} bytes of a new one"
        assert os.listdir(tmp_path) == ["run.rec"]


def test_log_of_a_bench(tmp_path):
    """A bench reports a log that is full, a folder, in a missing folder, or a file that may not grow. Its output and
    its record are complete."""
    line = "(0000000023.424242) can0 123#11223344\n"
    log, record = os.path.join(tmp_path, "run.log"), os.path.join(tmp_path, "run.rec")
    for path, fault in [
        ("/dev/full", "log of can0: 0 whole lines"),
        ("/", "cannot open /"),
        ("/none/run.log", "cannot open /none/run.log"),
    ]:
        expect(path, run("bench", "--log", path, "--record", record, "can0,can1"), 1, OUTPUT, fault)
        assert run("audit", record)[0] == 0, f"the record beside {path}"
        os.remove(record)
    for most in (0, len(line) - 1, len(line)):
        fault = "log of can0: 0 whole lines" if most < len(line) else None
        expect(f"{most} bytes", grown("bench", "--log", log, "can0,can1", most=most), 1 if fault else 0, OUTPUT, fault)
        with open(log, encoding="ascii") as file:
            assert file.read() == line[:most], f"the log of {most} bytes"
    expect("another record", run("bench", "--log", log, "--record", "/dev/full", "can0,can1"), 1, OUTPUT, "write fault")
    with open(log, encoding="ascii") as file:
        assert file.read() == line, "the log beside a record that is not written"
    words = "bench", "--log", "/none/run.log", "--record", "/dev/full", "can0,can1"
    expect("neither is written: the record's fault", run(*words), 1, OUTPUT, "write fault")


def may_grow(most, errors=None):
    """Returns a function that limits the size of files to `most` bytes; larger writes are refused. It can also replace
    standard error with a pipe."""

    def begin():
        if errors is not None:
            os.dup2(errors, 2)
        signal.signal(signal.SIGXFSZ, signal.SIG_IGN)
        resource.setrlimit(resource.RLIMIT_FSIZE, (most, most))

    return begin


def grown(*words, most):
    return run(*words, preexec_fn=may_grow(most))


def test_file_of_an_audit():
    """An audit reports a record that is missing, a folder, unreadable, not text or endless, and can read a pipe."""
    for path, fault in [
        ("none", "cannot open none"),
        ("/", "read fault"),
        (UNREADABLE, "read fault"),
        ("/dev/null", "bad version"),
    ]:
        expect(path, run("audit", path), 1, "", fault)
    expect("no text", run("audit", "/dev/stdin", input=b"canbus record 1\n\xff"), 1, "", "read fault")
    expect("endless", run("audit", "/dev/zero", most=2**28), 1, "", "no memory")
    text = b"canbus record 1\nbus 1 peers 0000 1 1\nend 0\n"
    expect("a pipe", run("audit", "/dev/stdin", input=text), 0, "ok 0 entries\n", None)
    with full() as file:
        expect("output full", run("audit", "/dev/stdin", input=text, stdout=file), 1, "", "write fault")
    with unread_pipe() as writer:
        expect("output that nobody reads", run("audit", "/dev/stdin", input=text, stdout=writer), 1, "", "write fault")
    expect("output closed", run("audit", "/dev/stdin", input=text, closes=1), 1, "", "write fault")


@contextlib.contextmanager
def ended(*words, before=lambda folder: None, **how):
    """Runs a server with two buses and two frames on the first bus, and ends it. Yields the server, its status, and its
    output."""
    with serving_alone("--pace", "0", *words, "can0,can1", "can2", **how) as server:
        before(server.folder)
        pair = Pair(server)
        pair.go_on()
        pair.go_on()
        status, written = server.finish()
        yield server, status, written


def whole(server, *names):
    """Checks that these files are complete after a successful run."""
    for name in ("can0.rec", "can2.rec"):
        if name in names:
            server.audited(name)
    for name, lines in (("can0.log", 2), ("can2.log", 0)):
        if name in names:
            with open(server.path(name), encoding="utf-8") as log:
                assert len(log.readlines()) == lines, name


def test_files_of_a_server():
    """If one file of a server is a folder or full, only this file is affected."""
    names = ["can0.log", "can0.rec", "can2.log", "can2.rec"]
    faults = {"can0.log": "log of can0: 0 whole lines", "can0.rec": "write fault", "can2.rec": "write fault"}
    for name in names:

        def link(folder, name=name):
            os.symlink("/dev/full", os.path.join(folder, name))

        def make(folder, name=name):
            os.mkdir(os.path.join(folder, name))

        for before, fault in [(link, faults.get(name)), (make, f"cannot open ./{name}")]:
            with ended(before=before) as (server, status, written):
                lines = [line for line in server.said().splitlines() if not line.startswith("  ")]
                assert lines == ([f"canbusd: {fault}"] if fault else []), f"{name}: {lines}"
                assert status == (1 if fault else 0), f"{name}: status {status}"
                assert re.fullmatch(r"bus can0 entries \d+\nbus can2 entries 0\n", written), written
                whole(server, *[other for other in names if other != name])


def leave_old(folder):
    """Writes a log of an earlier run."""
    with open(os.path.join(folder, "can0.log"), "w", encoding="ascii") as log:
        log.write("old\n")


def test_logs_that_grow_to_a_limit():
    """A log that reaches a size limit contains only complete lines. The log of an earlier run is kept, and the new log
    is next to it."""
    # The length of this line for a frame with a 29-bit identifier and 4 bytes: (SSSSSSSSSS.MMMMMM) can0
    # 00000000#00000001 and LF.
    line = 43
    note = "  what was written is in ./can0.log.new: the old file ./can0.log stays as it is\n"
    for most, count, is_first in [
        (line * 2 - 1, 1, True),
        (line, 1, True),
        (line - 1, 0, True),
        (line * 2 - 1, 1, False),
        (line - 1, 0, False),
    ]:
        reader, writer = os.pipe()
        how = {"preexec_fn": may_grow(most, writer), **({} if is_first else {"before": leave_old})}
        with ended(**how) as (server, status, _), open(reader, encoding="utf-8") as errors:
            os.close(writer)
            said = errors.read()
            faults = [text for text in said.splitlines() if text.startswith("canbusd: log of ")]
            assert (status, faults) == (
                1,
                [f"canbusd: log of can0: {count} whole lines"],
            ), f"{most} bytes: {status} {faults}"
            assert said.count(note) == (0 if is_first else 1), said
            with open(server.path("can0.log" if is_first else "can0.log.new"), "rb") as log:
                text = log.read()
            assert text.count(b"\n") == count and len(text) <= most, f"{most} bytes: {text}"
            if not is_first:
                with open(server.path("can0.log"), encoding="ascii") as log:
                    assert log.read() == "old\n", f"the old log, after {most} bytes of a new one"
    with ended(preexec_fn=may_grow(line * 2)) as (server, status, _):
        assert "log of" not in server.said() and status == 1, server.said()
        whole(server, "can0.log", "can2.log")


def test_output_of_a_server():
    """A server whose output is full, closed, or a pipe that nobody reads reports this, and still writes its files."""
    words = "serve", "--listen", "127.0.0.1:0", "--until-eof", "can0"
    with full() as file:
        expect("full", run(*words, stdout=file), 1, "", "write fault")
    with unread_pipe() as writer:
        expect("a pipe that nobody reads", run(*words, stdout=writer), 1, "", "write fault")
    expect("closed", run(*words, closes=1), 1, "", "write fault")
    with serving_alone("can0,can1") as server:
        Pair(server).go_on()
        server.child.stdout.close()
        server.child.stdin.close()
        status = server.child.wait(WAIT)
        assert (status, server.said().splitlines()[0]) == (1, "canbusd: write fault"), f"{status} {server.said()}"
        server.audited("can0.rec")


def test_input_of_a_server():
    """A server with --until-eof exits if its input is empty, a folder or unreadable. Without --until-eof the input is
    not read."""
    for path in ("/", UNREADABLE, "/dev/null"):
        file = os.open(path, os.O_RDONLY)
        status, output, errors = run("serve", "--listen", "127.0.0.1:0", "--until-eof", "can0", stdin=file)
        saw = status, output.splitlines()[1:], errors
        assert saw == (0, ["bus can0 entries 0"], []), f"{path}: {saw}"
        with serving("can0,can1", launcher=False, stdin=file) as server:
            Pair(server).go_on()
        os.close(file)


def test_a_full_standard_error_of_a_server(tmp_path):
    """If standard error is full, a server's reports on failing files are lost, but its status shows the fault."""
    with full() as file:
        os.mkdir(os.path.join(tmp_path, "can0.log"))
        words = "serve", "--listen", "127.0.0.1:0", "--until-eof", "--out", tmp_path, "can0"
        status, output, errors = run(*words, stderr=file, input=b"")
        assert (status, output.splitlines()[1:], errors) == (
            1,
            ["bus can0 entries 0"],
            [],
        ), f"{status} {output} {errors}"
        expect("the record", run("audit", os.path.join(tmp_path, "can0.rec")), 0, "ok 0 entries\n", None)


def test_addresses_of_a_server(server, tmp_path):
    """A server refuses an address that is in a missing folder, an existing file, a port in use, or not an address."""
    there = tmp_path / "there"
    there.touch()
    taken = f"{server.host}:{server.port}"
    for address in (
        f"{tmp_path}/none/socket",
        there,
        tmp_path,
        taken,
        "127.0.0.1:99999",
        "nowhere.invalid:1",
        f"/{'x' * 200}",
    ):
        expect(address, run("serve", "--listen", address, "can1"), 1, "", "cannot listen")
    assert there.stat().st_size == 0, "the file is gone"
    plain(server, "can0").close()
