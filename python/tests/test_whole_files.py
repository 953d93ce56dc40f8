"""No file of the user is lost: a command either replaces a file with a complete new one or leaves the file unchanged.
"""

import errno
import os
import resource
import signal
import stat
import subprocess
import sys
import threading
from pathlib import Path

import pytest
from test_commands import call, environment

from canbusd import Bench, Server
from canbusd._words import COMMANDS, PROGRAM
from canbusd._whole_file import replaced

HERE = Path(__file__).parent
WAIT = 60
LOG = "".join(f"({1795910922 + number}.000000) ecu 123#{number:04X}\n" for number in range(2000))
# A program that runs a command, and prints which files the command writes in place, renames, truncates or removes.
TRACED = """
import os, sys

def note(event, words):
    if event == "open" and isinstance(words[0], (str, bytes)) and words[2] & (os.O_CREAT | os.O_TRUNC):
        opened.append(words)
    elif event in ("os.rename", "os.remove", "os.truncate", "os.rmdir"):
        moved.append((event, *words))

opened, moved = [], []
sys.addaudithook(note)
from canbusd.__main__ import main
try:
    name = sys.argv[1]
    if name == "candump2bench":
        from canbusd.candump2bench import main as candump2bench
        del sys.argv[1]
        candump2bench()
    else:
        main(sys.argv[1:])
finally:
    sys.stdout.flush()
    for path, _, flags in opened:
        creates, is_new, cuts = (bool(flags & one) for one in (os.O_CREAT, os.O_EXCL, os.O_TRUNC))
        if cuts or creates and not is_new:
            print(f"written in place: {path}", file=sys.stderr)
    for event, *paths in moved:
        print(event, *paths, file=sys.stderr)
"""
#: For each command, its arguments and the file that it writes, or None if it writes only to standard output.
TRIED = {
    "dump": (["dump", "-T", "50", "can0"], None),
    "send": (["send", "can0", "123#11"], None),
    "status": (["status"], None),
    "watch": (["watch", "--port", "0", "can0"], None),
    "fault": (["fault", "can0", "next 1 lastbit"], None),
    "restart": (["restart", "can0"], None),
    "down": (["down", "can0"], None),
    "up": (["up", "can0"], None),
    "restbus": (["restbus", str(HERE / "rest.dbc"), "--interface", "can0", "--for", "0.1"], None),
    "convert": (["convert", "run.log", "out.log"], "out.log"),
    "report": (["report", "run.rec"], None),
    "replay": (["replay", "run.rec"], None),
    "candump2bench": (["candump2bench", "run.log"], None),
}


def convert(folder, *words, **more):
    """Runs `convert` in this folder, and returns its exit status and its output."""
    return call("convert", *words, cwd=folder, **more)


def contents(folder):
    """Returns the contents of the files in a folder, by name."""
    return {path.name: path.read_bytes() for path in folder.iterdir()}


@pytest.fixture
def folder(tmp_path):
    """A folder with a log and a record."""
    with Bench("can0", out=tmp_path) as bench:
        bench.open("can0").send(0x123)
        bench.attempt()
    (tmp_path / "can0.rec").rename(tmp_path / "run.rec")
    (tmp_path / "can0.log").unlink()
    (tmp_path / "run.log").write_text(LOG)
    return tmp_path


def test_all_commands_are_tried():
    """All of the package's commands are tested here, with three exceptions: those for which the program writes its own
    files, sweep, which writes into canbusd-sweep, and extcap, which writes into Wireshark's folder."""
    assert {*TRIED, "sweep", "extcap"} | {*PROGRAM} == {*COMMANDS, "candump2bench"}


@pytest.mark.parametrize("name", [*TRIED])
def test_nothing_but_its_own_file_is_written(folder, name):
    words, target = TRIED[name]
    for other in ("out.part.log", "out.log.new", "out.log.part", ".out.log", "out.log~", "out.tmp", "run.html"):
        (folder / other).write_text(f"precious {other}")
    before = contents(folder)
    with Server("can0,can1") as server:
        child = subprocess.Popen(
            [sys.executable, "-c", TRACED, *words], cwd=folder, env=environment(server), stdin=subprocess.DEVNULL,
            stdout=subprocess.PIPE, stderr=subprocess.PIPE, text=True,
        )  # fmt: skip
        if name == "watch":
            child.stdout.readline()
            server.stop()
        _, said = child.communicate(timeout=WAIT)
    assert "written in place" not in said
    after = contents(folder)
    assert {path: after.get(path) for path in before} == before
    assert {*after} - {*before} == ({target} if target else set())
    # The only rename gives the draft the name of the file.
    moved = [line.split() for line in said.splitlines() if line.startswith("os.rename ")]
    assert [(line[1].startswith(".canbusd-"), line[2]) for line in moved] == ([(True, target)] if target else [])


@pytest.fixture(params=["without a name", "with a name", "without /proc"])
def drafts(request, monkeypatch):
    """Three ways to write a draft: as an unnamed file, which most file systems support, as a named file, and without
    /proc."""
    if request.param == "without /proc":
        monkeypatch.setattr("canbusd._whole_file.OWN_FILES", "/nonexistent")
    if request.param == "with a name":
        real = os.open

        def opened(path, flags, *rest, **more):
            if flags & os.O_TMPFILE == os.O_TMPFILE:
                raise OSError(errno.EOPNOTSUPP, os.strerror(errno.EOPNOTSUPP), path)
            return real(path, flags, *rest, **more)

        monkeypatch.setattr(os, "open", opened)


def test_a_fault_leaves_the_old_file(tmp_path, drafts):
    path = tmp_path / "old"
    path.write_bytes(b"old")
    with pytest.raises(ValueError, match="why"), replaced(path) as file:
        file.write(bytes(1 << 20))
        assert path.read_bytes() == b"old"
        raise ValueError("why")
    assert contents(tmp_path) == {"old": b"old"}


def test_a_new_file_has_the_mode_of_the_umask_and_an_old_one_keeps_its(tmp_path, drafts):
    before = os.umask(0o027)
    try:
        (tmp_path / "old").write_bytes(b"old")
        (tmp_path / "old").chmod(0o604)
        for name in ("old", "new"):
            with replaced(tmp_path / name) as file:
                file.write(b"new")
    finally:
        os.umask(before)
    assert contents(tmp_path) == {"old": b"new", "new": b"new"}
    assert [stat.S_IMODE((tmp_path / name).stat().st_mode) for name in ("old", "new")] == [0o604, 0o640]


@pytest.mark.skipif(os.geteuid() != 0, reason="needs root, who may write files of others")
def test_a_file_of_another_user_stays_that_users(tmp_path, drafts):
    (tmp_path / "old").write_bytes(b"old")
    os.chown(tmp_path / "old", 65534, 65533)
    with replaced(tmp_path / "old") as file:
        file.write(b"new")
    status = (tmp_path / "old").stat()
    assert (status.st_uid, status.st_gid, contents(tmp_path)) == (65534, 65533, {"old": b"new"})


def test_another_name_of_the_old_file_keeps_the_old_content(tmp_path, drafts):
    (tmp_path / "old").write_bytes(b"old")
    os.link(tmp_path / "old", tmp_path / "other")
    with replaced(tmp_path / "old") as file:
        file.write(b"new")
    assert contents(tmp_path) == {"old": b"new", "other": b"old"}


def test_a_path_without_a_folder(tmp_path, drafts, monkeypatch):
    monkeypatch.chdir(tmp_path)
    with replaced("new") as file:
        file.write(b"new")
    assert contents(tmp_path) == {"new": b"new"}


@pytest.mark.parametrize("name", ["other", "nothing", "link"])
def test_a_link_is_refused_and_stays(tmp_path, name):
    (tmp_path / "other").write_bytes(b"other")
    path = tmp_path / "link"
    path.symlink_to(name)
    with pytest.raises(OSError) as fault, replaced(path) as file:
        file.write(b"new")
    assert fault.value.errno == errno.ELOOP and fault.value.filename == str(path)
    assert os.readlink(path) == name and sorted(os.listdir(tmp_path)) == ["link", "other"]
    assert (tmp_path / "other").read_bytes() == b"other"


def test_a_link_that_somebody_makes_meanwhile_is_not_followed(tmp_path, drafts):
    (tmp_path / "other").write_bytes(b"other")
    with replaced(tmp_path / "new") as file:
        (tmp_path / "new").symlink_to("other")
        file.write(b"new")
    assert contents(tmp_path) == {"new": b"new", "other": b"other"}
    assert not (tmp_path / "new").is_symlink()


def test_a_folder_that_is_moved_meanwhile(tmp_path, drafts):
    """The folder may be moved and replaced by a link meanwhile. The file is then written into the moved folder."""
    for name in ("folder", "other"):
        (tmp_path / name).mkdir()
    (tmp_path / "other" / "file").write_bytes(b"other")
    with replaced(tmp_path / "folder" / "file") as file:
        (tmp_path / "folder").rename(tmp_path / "moved")
        (tmp_path / "folder").symlink_to("other")
        file.write(b"new")
    assert (tmp_path / "other" / "file").read_bytes() == b"other"
    assert contents(tmp_path / "moved") == {"file": b"new"} and sorted(os.listdir(tmp_path / "other")) == ["file"]


def test_a_folder_that_somebody_makes_meanwhile(tmp_path, drafts):
    with pytest.raises(IsADirectoryError) as fault, replaced(tmp_path / "new") as file:
        (tmp_path / "new").mkdir()
        file.write(b"new")
    assert fault.value.filename == str(tmp_path / "new")
    assert sorted(os.listdir(tmp_path)) == ["new"] and os.listdir(tmp_path / "new") == []


def test_a_fifo_gets_the_content_and_stays(tmp_path):
    for name in ("run.log", "run.asc", "run.blf"):
        path = tmp_path / name
        os.mkfifo(path)
        (tmp_path / "from.log").write_text(LOG)
        read = []
        reader = threading.Thread(target=lambda path=path, read=read: read.append(path.read_bytes()))
        reader.start()
        assert convert(tmp_path, "from.log", name)[0] == 0
        reader.join(WAIT)
        assert stat.S_ISFIFO(path.lstat().st_mode)
        path.unlink()
        # The pipe receives the same content as a file, except for the date in an ASC file.
        assert convert(tmp_path, "from.log", name)[0] == 0
        assert read[0].splitlines()[1:] == path.read_bytes().splitlines()[1:]
        path.unlink()


def test_devices(tmp_path):
    (tmp_path / "from.log").write_text(LOG)
    for name, device in (("null.log", "/dev/null"), ("full.log", "/dev/full"), ("out.log", "/dev/stdout")):
        (tmp_path / name).symlink_to(device)
    assert convert(tmp_path, "from.log", "null.log") == (0, "2,000 frames\n", "")
    assert convert(tmp_path, "from.log", "full.log") == (1, "", "canbusd convert: full.log: No space left on device\n")
    assert convert(tmp_path, "from.log", "out.log") == (0, f"{LOG}2,000 frames\n", "")
    assert (tmp_path / "null.log").is_symlink()


def most_bytes():
    """Limits the size of files to 1,000 bytes, which has the same effect as a full disk."""
    resource.setrlimit(resource.RLIMIT_FSIZE, (1000, 1000))


@pytest.mark.parametrize("ending", ["log", "asc", "blf"])
def test_a_full_disk_leaves_the_old_log(folder, ending):
    (folder / f"out.{ending}").write_text("old")
    (folder / f"out.part.{ending}").write_text("precious")
    before = contents(folder)
    status, written, said = convert(folder, "run.log", f"out.{ending}", preexec_fn=most_bytes)
    assert (status, written, said) == (1, "", f"canbusd convert: out.{ending}: File too large\n")
    assert contents(folder) == before


@pytest.mark.parametrize("number", [signal.SIGINT, signal.SIGTERM, signal.SIGHUP, signal.SIGKILL])
def test_one_that_is_killed_leaves_the_old_log(tmp_path, number):
    os.mkfifo(tmp_path / "from.log")
    (tmp_path / "to.log").write_text("old")
    child = subprocess.Popen(
        [sys.executable, "-m", "canbusd", "convert", "from.log", "to.log"], cwd=tmp_path, env=environment(),
        stdout=subprocess.PIPE, stderr=subprocess.PIPE,
        # Under nohup the tests ignore SIGHUP.
        preexec_fn=lambda: signal.signal(signal.SIGHUP, signal.SIG_DFL),
    )  # fmt: skip
    with open(tmp_path / "from.log", "w", encoding="ascii") as source:
        source.write(LOG)
        source.flush()
        # At this point the command has opened its draft, and waits for input.
        child.send_signal(number)
        assert child.wait(WAIT) == -number
    child.communicate()
    assert sorted(os.listdir(tmp_path)) == ["from.log", "to.log"]
    assert (tmp_path / "to.log").read_text() == "old"


def test_a_wrong_line_leaves_the_old_log(folder):
    (folder / "out.log").write_text("old")
    (folder / "run.log").write_text(f"{LOG}no frame\n")
    before = contents(folder)
    assert convert(folder, "run.log", "out.log")[0] == 1
    assert contents(folder) == before


def test_one_log_may_be_both(folder):
    assert convert(folder, "run.log", "run.log") == (0, "2,000 frames\n", "")
    assert (folder / "run.log").read_text() == LOG


def as_nobody():
    """Drops the root user's rights, because root may write everywhere."""
    if os.geteuid() == 0:
        os.setresgid(65534, 65534, 65534)
        os.setresuid(65534, 65534, 65534)


def test_what_may_not_be_written_is_refused():
    """If the user may not write to the file or to its folder, replacing the file raises PermissionError."""
    code = """
import os, sys, tempfile
from canbusd._whole_file import replaced
with tempfile.TemporaryDirectory() as folder:
    path = os.path.join(folder, "file")
    open(path, "w").close()
    for what, mode in ((path, 0o400), (folder, 0o500)):
        os.chmod(what, mode)
        try:
            with replaced(path):
                print("open")
        except PermissionError as fault:
            print(fault.filename == path, os.listdir(folder))
        os.chmod(what, 0o700)
"""
    done = subprocess.run(
        [sys.executable, "-c", code], env={**environment(), "TMPDIR": "/tmp"}, preexec_fn=as_nobody, text=True,
        capture_output=True, timeout=WAIT, check=False,
    )  # fmt: skip
    assert (done.stdout, done.stderr) == ("True ['file']\nTrue ['file']\n", "")


@pytest.mark.parametrize("run", [Server, Bench])
def test_pages_replace_old_ones_or_leave_them(tmp_path, run):
    page = tmp_path / "can0.html"
    page.write_text("old")
    with run("can0", out=tmp_path) as running:
        most = resource.getrlimit(resource.RLIMIT_FSIZE)
        running.record()
        resource.setrlimit(resource.RLIMIT_FSIZE, (1000, most[1]))
        try:
            with pytest.raises(OSError, match="File too large") as fault:
                running.report()
        finally:
            resource.setrlimit(resource.RLIMIT_FSIZE, most)
        assert fault.value.filename == str(page) and page.read_text() == "old"
        assert running.report() == page and page.read_text().startswith("<!DOCTYPE html>")
        other = tmp_path / "other"
        page.rename(other)
        page.symlink_to("other")
        kept = other.read_text()
        with pytest.raises(OSError, match="name that file itself"):
            running.report()
    assert other.read_text() == kept and page.is_symlink()
    assert sorted(os.listdir(tmp_path)) == ["can0.html", "can0.log", "can0.rec", "other"]
