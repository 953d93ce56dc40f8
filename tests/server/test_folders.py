"""Tests the folder of a server: only one server can use it, a refused start leaves it unchanged, and links to plain
files in it are not followed."""

import itertools
import os
import stat
import subprocess

import pytest

from commands import call
from serving import line_of, program, serving_alone

WHEN = ("end", "live", "none")


def start(folder, *words):
    """Starts a server that exits at once; returns its status, standard output and standard error."""
    return call(program(), "serve", "--until-eof", "--listen", "127.0.0.1:0", "--out", str(folder), *words)


def files_of(folder):
    """Returns the inode number, the time of the last change, and the content or link target of each file."""
    found = {}
    for name in os.listdir(folder):
        path, status = os.path.join(folder, name), os.lstat(os.path.join(folder, name))
        text = os.readlink(path) if os.path.islink(path) else None
        if text is None and os.path.isfile(path):
            with open(path, "rb") as file:
                text = file.read()
        found[name] = (status.st_ino, status.st_mtime_ns, text)
    return found


def leave_old(folder, *names):
    """Writes files like those that an earlier run leaves."""
    for name in names:
        (folder / name).write_text(f"old {name}\n" * 20)


@pytest.mark.parametrize("first, second", itertools.product(WHEN, WHEN))
def test_one_server_a_folder(first, second, tmp_path):
    """A second server in the same folder is refused at once, even with other buses, and changes nothing. It starts
    after the first server has ended.
    """
    leave_old(tmp_path, "can0.log", "can0.rec", "can2.rec.new")
    with serving_alone("--record", first, "can0", out=tmp_path) as server:
        before = files_of(tmp_path)
        for bus in ("can0", "can2"):
            said = f"canbusd: cannot open {tmp_path}\n  {tmp_path}: another server writes to it\n"
            assert start(tmp_path, "--record", second, bus) == (1, "", said)
            assert start(f"{tmp_path}/../{tmp_path.name}", "--record", second, bus)[:2] == (1, "")
        assert files_of(tmp_path) == before
        server.end()
    status, said, errors = start(tmp_path, "--record", second, "can0")
    assert status == 0 and said.startswith("listening "), errors


def test_a_killed_server_leaves_the_folder_free(tmp_path):
    with serving_alone("--record", "live", "can0", out=tmp_path) as server:
        server.child.kill()
        server.child.wait()
    assert start(tmp_path, "--record", "none", "can0")[0] == 0


@pytest.mark.parametrize("first, second", [("live", "live"), ("end", "live"), ("none", "end")])
def test_two_starts_at_once(first, second, tmp_path):
    """If two servers start at the same time, exactly one of them listens."""
    words = [program(), "serve", "--until-eof", "--listen", "127.0.0.1:0", "--out", str(tmp_path), "--record"]
    pipes = {"stdin": subprocess.PIPE, "stdout": subprocess.PIPE, "stderr": subprocess.DEVNULL, "text": True}
    for _ in range(20):
        both = [subprocess.Popen([*words, when, "can0"], **pipes) for when in (first, second)]
        lines = [line_of(one.stdout).split(" ")[0] for one in both]
        for one in both:
            one.communicate(timeout=60)
        assert sorted(lines) == ["", "listening"]


@pytest.mark.parametrize("when", WHEN)
def test_a_start_that_is_refused(when, tmp_path):
    """If a start is refused because of its second bus, the logs and records of earlier runs remain, including those of
    a killed run.
    """
    leave_old(tmp_path, "can0.log", "can0.rec", "can0.rec.new", "can0.log.new", "can2.log")
    (tmp_path / "can2.rec.new").mkdir()
    (tmp_path / "can4.log").mkdir()
    before = files_of(tmp_path)
    bus = "can4" if when == "none" else "can2"
    status, said, errors = start(tmp_path, "--record", when, "can0", bus)
    path = f"{tmp_path}/{'can4.log' if when == 'none' else 'can2.rec.new'}"
    assert (status, said) == (1, "") and errors.startswith(f"canbusd: cannot open {tmp_path}\n  {path}: "), errors
    assert files_of(tmp_path) == before


@pytest.mark.parametrize("when", ["end", "live"])
def test_a_fifo_for_a_record(when, tmp_path):
    """A fifo is refused before the server listens, because a record written to it could not be read again."""
    os.mkfifo(tmp_path / "can0.rec")
    said = f"canbusd: cannot open {tmp_path}\n  {tmp_path}/can0.rec: a fifo can't be a record\n"
    assert start(tmp_path, "--record", when, "can0") == (1, "", said)
    assert os.listdir(tmp_path) == ["can0.rec"]


@pytest.mark.parametrize("when", WHEN)
def test_a_fifo_where_files_are_written_first(when, tmp_path):
    """A fifo at a temporary name, which the server writes to first, is removed like any other file of that name."""
    os.mkfifo(tmp_path / "can0.rec.new")
    os.mkfifo(tmp_path / "can0.log.new")
    assert start(tmp_path, "--record", when, "can0")[0] == 0
    left = {"can0.log", "can0.rec"} if when != "none" else {"can0.log", "can0.rec.new"}
    assert set(os.listdir(tmp_path)) == left


@pytest.mark.parametrize("when, target", itertools.product(WHEN, ["others", "nothing"]))
def test_links_are_not_followed(when, target, tmp_path):
    """Links at the names of logs and records are replaced by the new files, whether they lead to a plain file or to
    nothing."""
    folder, others = tmp_path / "out", tmp_path / "others"
    folder.mkdir()
    others.write_text("of others\n")
    for name in ("can0.log", "can0.rec", "can0.log.new", "can0.rec.new"):
        (folder / name).symlink_to(tmp_path / target)
    assert start(folder, "--record", when, "can0")[0] == 0
    assert others.read_text() == "of others\n" and not (tmp_path / "nothing").exists()
    assert not (folder / "can0.log").is_symlink() and (folder / "can0.log").read_text() == ""
    assert (folder / "can0.rec").is_symlink() == (when == "none")


@pytest.mark.parametrize("when", ["live", "none"])
def test_a_link_to_a_device_is_written_to(when, tmp_path):
    (tmp_path / "can0.log").symlink_to("/dev/null")
    assert start(tmp_path, "--record", when, "can0")[0] == 0
    assert os.readlink(tmp_path / "can0.log") == "/dev/null"


def mode_of(path):
    """Returns the mode of a file, without following a link."""
    return stat.S_IMODE(os.lstat(path).st_mode)


def test_the_lock_file_of_a_folder(tmp_path):
    """Only its owner can read the lock file, and the server removes it at its end."""
    with serving_alone("can0", out=tmp_path) as server:
        assert mode_of(tmp_path / ".canbusd.lock") == 0o600
        server.end()
    assert not os.path.lexists(tmp_path / ".canbusd.lock")


def test_a_link_is_no_lock_file_of_a_folder(tmp_path):
    """A link in place of the lock file is refused, and no file is created at the target of the link."""
    folder = tmp_path / "out"
    folder.mkdir()
    (folder / ".canbusd.lock").symlink_to(tmp_path / "other")
    status, said, errors = start(folder, "can0")
    assert (status, said) == (1, "") and errors.endswith(": its lock file is a link\n"), errors
    assert not os.path.lexists(tmp_path / "other")


def test_the_lock_file_of_a_path(tmp_path):
    """The lock file for a socket path is readable only by its user. A link in its place is refused, and no file is
    created at the target of the link."""
    path, lock = tmp_path / "bus", tmp_path / "bus.lock"
    words = (program(), "serve", "--until-eof", "--listen", str(path), "can0")
    lock.symlink_to(tmp_path / "other")
    status, said, errors = call(*words)
    assert (status, said) == (1, "") and errors.endswith(": its lock file is a link\n"), errors
    assert not os.path.lexists(tmp_path / "other")
    lock.unlink()
    with subprocess.Popen(words, stdin=subprocess.PIPE, stdout=subprocess.PIPE) as child:
        assert child.stdout.readline().startswith(b"listening ")
        assert mode_of(lock) == 0o600
        child.stdin.close()
        assert child.wait() == 0
