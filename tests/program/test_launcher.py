"""Tests the launcher ./canbusd in a copy of the repository whose dist/ fits its sources, and the installed launcher.
The launcher is called from other folders, after changes to the sources, and in a copy that can't be written. Nothing is
ever built: the command rt is either not on the PATH or replaced by one that only waits.
"""

import contextlib
import functools
import hashlib
import os
import re
import shutil
import signal
import subprocess

import pytest

from made_once import made_once
from serving import ROOT, WAIT, come_true, plain, program, serving

SOURCE = "crates/can_confine/src/counters.rt"


class Copy:
    """A copy of the repository without built files, except the program in dist/."""

    def __init__(self, request, folder):
        self.folder, self.launcher = folder / "copy", folder / "copy" / "canbusd"
        self.environment = {"PATH": "/usr/bin:/bin", "HOME": str(folder), "XDG_CACHE_HOME": str(folder / "cache")}
        self.folder.mkdir()
        archive = made_once(request, "copy", archive_of_the_repository) / "copy.tar"
        subprocess.run(["tar", "-xf", archive, "-C", self.folder], check=True)

    def run(self, *words, **how):
        """Runs a command in the copy; returns the result."""
        how = {"cwd": self.folder, "env": self.environment, **how}
        return subprocess.run(words, stdin=subprocess.DEVNULL, capture_output=True, text=True, check=False, **how)

    def status(self, *words, **how):
        return self.run(*words, **how).returncode

    def make(self, *words):
        done = self.run("make", "-s", *words)
        assert done.returncode == 0, done.stderr


def append(path, text):
    """Appends a string to a file."""
    with open(path, "a", encoding="utf-8") as file:
        file.write(text)


def archive_of_the_repository(folder):
    """Creates copy.tar from the repository, with a program in dist/ that fits its sources."""
    copy = folder / "copy"
    shutil.copytree(ROOT, copy, symlinks=True, ignore=shutil.ignore_patterns(".git", "out", "__pycache__"))
    shutil.copy(program(), copy / "dist" / "canbusd")
    sources = subprocess.check_output([copy / "scripts" / "program", "sources"], text=True)
    hashed = hashlib.sha256((copy / "dist" / "canbusd").read_bytes()).hexdigest()
    (copy / "dist" / "BUILT").write_text(f"sources {sources}kit none\nprogram {hashed}\n")
    subprocess.run(["tar", "-cf", folder / "copy.tar", "-C", copy, "."], check=True)
    shutil.rmtree(copy)


@pytest.fixture
def copy(request, tmp_path):
    return Copy(request, tmp_path)


@pytest.fixture(scope="module")
def launchers(request, tmp_path_factory):
    """Returns links to a launcher in a copy and to an installed launcher, by name."""
    folder = tmp_path_factory.mktemp("launchers")
    copy = Copy(request, folder)
    copy.make("install", f"PREFIX={folder}/a place/y")
    (folder / "linked").symlink_to(copy.launcher)
    (folder / "installed").symlink_to(folder / "a place" / "y" / "bin" / "canbusd")
    return {"copy": str(folder / "linked"), "installed": str(folder / "installed")}


def on_path(folder):
    """Returns an environment whose PATH begins with this folder."""
    return {"PATH": f"{folder}:/usr/bin:/bin", "HOME": str(folder)}


def test_calls(copy, tmp_path):
    """The launcher works in repeated calls, from other folders, through a link and from the PATH, and returns the
    program's status.
    """
    assert [copy.status("./canbusd", "--version") for _ in range(2)] == [0, 0]
    assert copy.status("./canbusd", "bench") == 2
    (tmp_path / "bin").mkdir()
    (tmp_path / "bin" / "linked").symlink_to(copy.launcher)
    assert copy.status(tmp_path / "bin" / "linked", "--version", cwd="/") == 0
    assert copy.status("linked", "--version", cwd="/", env=on_path(tmp_path / "bin")) == 0
    assert copy.status("../canbusd", "--version", cwd=copy.folder / "crates") == 0


def test_changed_source(copy):
    """A program that was built from other sources is not run, whatever the timestamp of the changed file is."""
    source = copy.folder / SOURCE
    text = source.read_text()
    assert copy.status("./canbusd", "--version") == 0
    source.write_text(text + "// a change\n")
    assert copy.status("./canbusd", "--version") == 1
    source.write_text(text)
    assert copy.status("./canbusd", "--version") == 0
    source.write_text("".join(text.splitlines(True)[1:]))
    os.utime(source, (1577836800, 1577836800))
    assert copy.status("./canbusd", "--version") == 1


@pytest.mark.skipif(not shutil.which("git"), reason="no git")
def test_sources_after_those_of_dist(copy):
    """If later commits changed the sources, the launcher shows a command that restores the sources that match dist/."""
    commit = ["git", "-c", "user.name=n", "-c", "user.email=n@n.example", "commit", "-q", "-m"]
    for words in (["git", "init", "-q"], ["git", "add", "dist", "crates", "crates.txt"], [*commit, "dist"]):
        assert copy.status(*words) == 0, words
    append(copy.folder / SOURCE, "// a change\n")
    assert copy.status(*commit, "a change", "crates") == 0
    done = copy.run("./canbusd", "--version")
    shown = re.search("`(git checkout [^`]*)`", done.stderr)
    assert done.returncode == 1 and shown, done.stderr
    assert copy.status(*shown[1].split()) == 0 and copy.status("./canbusd", "--version") == 0


def test_interrupted_build(copy, tmp_path):
    """A message before the build says how to stop it, and Ctrl-C ends all its processes without another message."""
    (tmp_path / "rt").write_text("#!/bin/sh\n: >$HOME/begun\nexec sleep 600\n")
    (tmp_path / "rt").chmod(0o755)
    (copy.folder / SOURCE).write_text("// a change\n")
    how = {"cwd": copy.folder, "env": on_path(tmp_path), "stderr": subprocess.PIPE, "text": True}
    with subprocess.Popen(["./canbusd", "--version"], start_new_session=True, **how) as child:
        try:
            assert come_true((tmp_path / "begun").exists)
            os.killpg(child.pid, signal.SIGINT)
            _, said = child.communicate(timeout=WAIT)
            assert child.returncode != 0 and re.search("twenty minutes .*; Ctrl-C stops it\n$", said), said
            assert come_true(lambda: nobody_in(child.pid))
        finally:
            with contextlib.suppress(ProcessLookupError):
                os.killpg(child.pid, signal.SIGKILL)


def test_definitions_taken_away(copy):
    specs = copy.folder / "crates" / "can_confine" / "specs"
    assert copy.status("./canbusd", "--version") == 0
    specs.rename(copy.folder.parent / "specs")
    assert copy.status("./canbusd", "--version") == 1
    (copy.folder.parent / "specs").rename(specs)
    assert copy.status("./canbusd", "--version") == 0


def test_few_file_descriptors(copy):
    """The launcher reports that it has too few file descriptors, and does not claim that the program has other sources."""
    for files in range(8, 24):
        shutil.rmtree(copy.folder / "crates" / "canbusd" / "out", ignore_errors=True)
        done = copy.run("bash", "-c", f"ulimit -n {files}; exec ./canbusd --version")
        assert done.returncode == 0 if files >= 20 else done.stderr, f"{files}: {done}"
        assert "other sources" not in done.stderr, done.stderr
    shutil.rmtree(copy.folder / "crates" / "canbusd" / "out")
    assert "`ulimit -n 20`" in copy.run("bash", "-c", "ulimit -n 14; exec ./canbusd --version").stderr


def test_file_past_its_limit(copy):
    """A file that would exceed its size limit is reported as a write fault, and SIGXFSZ does not terminate the program."""
    assert copy.status("./canbusd", "--version") == 0
    record = copy.folder.parent / "run.rec"
    done = copy.run("bash", "-c", f"ulimit -f 0; printf '' | ./canbusd bench --record '{record}' can0")
    assert done.returncode == 1 and done.stderr.startswith("canbusd: write fault\n"), done
    assert not record.exists()


# Strings to append to files that are not part of the program: files of another crate, a proof file, a new .edit file,
# and a new crate in the list of crates.
OTHERS = {
    "crates/can_audit/src/lib.rt": "// a remark\n",
    "crates/can_audit/specs/Lib.antt": "-- a remark\n",
    "crates/can_confine/proofs/Lib.antt": "-- a remark\n",
    "crates/can_confine/wrong/new.edit": "",
    "crates.txt": "# A remark.\ncan_new: can_bus canbusd\n",
}
# Strings to append to files of the program: a source file, a definition, a new definition, and a line in one of its
# crates.
OWN = {
    "crates/can_frame/src/lib.rt": "// a remark\n",
    "crates/can_frame/specs/Lib.antt": "-- a remark\n",
    "crates/can_frame/specs/New.antt": "",
    "crates.txt": "can_bus: can_new\n",
}


@pytest.mark.parametrize("file", OTHERS)
def test_what_makes_no_other_program(copy, file):
    """If a file outside the program changes, the program still fits its sources, both for the launcher and for a new
    search of the sources."""
    assert copy.status("./canbusd", "--version") == 0
    append(copy.folder / file, OTHERS[file])
    assert copy.status("./canbusd", "--version") == 0
    assert copy.status("scripts/program", "fitting") == 0


@pytest.mark.parametrize("file", OWN)
def test_what_makes_another_program(copy, file):
    assert copy.status("scripts/program", "fitting") == 0
    append(copy.folder / file, OWN[file])
    assert copy.status("scripts/program", "fitting") == 1


def test_crates_of_the_program(copy):
    """The list of crates contains the program's own crate, its dependencies, and their dependencies."""
    listed = copy.run("scripts/program", "crates").stdout.split()
    assert listed[-1] == "canbusd" and {"can_frame", "can_bus", "can_server"} < set(listed)
    assert not {"can_audit", "hex", "clap"} & set(listed)


def test_damaged_program(copy):
    with open(copy.folder / "dist" / "canbusd", "ab") as file:
        file.write(b"x\n")
    assert copy.status("./canbusd", "--version") == 1


@pytest.mark.skipif(os.geteuid() == 0, reason="root may write everywhere")
def test_folder_that_cannot_be_written(copy, tmp_path):
    """If the folder can't be written, the launcher records in the user's cache which program fits."""
    copy.run("chmod", "-R", "a-w", copy.folder)
    try:
        assert copy.status("./canbusd", "--version") == 0
        assert list((tmp_path / "cache").rglob("choice"))
    finally:
        copy.run("chmod", "-R", "u+w", copy.folder)


def files_in(folder):
    return [path for path in folder.rglob("*") if not path.is_dir()]


def test_installed(copy, tmp_path):
    """An installed program works by its path, through a link and from the PATH. After it is uninstalled nothing
    remains."""
    place = tmp_path / "a place" / "y"
    copy.make("install", f"PREFIX={place}")
    launcher = place / "bin" / "canbusd"
    (tmp_path / "installed").symlink_to(launcher)
    assert copy.status(launcher, "--version") == 0
    assert copy.status(tmp_path / "installed", "--version") == 0
    assert copy.status("canbusd", "--version", cwd="/", env=on_path(place / "bin")) == 0
    copy.make("uninstall", f"PREFIX={place}")
    assert files_in(place) == []
    assert [path for path in place.rglob("*") if "canbusd" in path.name or path.name == "libexec"] == []


def test_installed_off_the_path(copy, tmp_path):
    """Installed commands of the package find the program even if it is not on the PATH, unless CANBUSD names another
    program."""
    place = tmp_path / "a place" / "y"
    copy.make("install", f"PREFIX={place}")
    record = tmp_path / "run.rec"
    assert copy.status(place / "bin" / "canbusd", "bench", "--record", record, "can0", cwd="/") == 0
    for word in ("report", "replay"):
        command = [place / "bin" / "canbusd", word, "--names", "can0", record]
        done = copy.run(*command, cwd="/")
        assert (done.returncode, done.stderr) == (0, ""), word
        assert copy.status(*command, cwd="/", env={**copy.environment, "CANBUSD": ""}) == 0
        done = copy.run(*command, cwd="/", env={**copy.environment, "CANBUSD": "/none"})
        assert done.returncode == 1 and "CANBUSD names no program: /none" in done.stderr, word


def test_installed_in_a_folder_of_the_user(copy, tmp_path):
    """make install prints the PYTHONPATH that python3 needs, or nothing if it is set already. In PREFIX, ~ is the
    user's home folder.
    """
    done = copy.run("make", "-s", "install", "PREFIX=~/a place")
    assert (done.returncode, done.stderr) == (0, ""), done
    assert (tmp_path / "a place" / "bin" / "canbusd").exists()
    said, export = done.stdout.splitlines()
    assert said.startswith("canbusd: python3 does not look for packages there")
    asks = "import canbusd; print(canbusd.__file__, canbusd.Bench('can0').audit())"
    found = copy.run("bash", "-c", f'cd / && {export.strip()} && /usr/bin/python3 -c "{asks}"')
    assert re.fullmatch(rf"{re.escape(str(tmp_path))}/a place/lib/.* ok 0 entries\n", found.stdout), found
    again = copy.run("bash", "-c", f"{export.strip()} && make -s install PREFIX='{tmp_path}/a place'")
    assert (again.returncode, again.stdout) == (0, ""), again


LISTEN = "  --listen is HOST:PORT, [V6]:PORT, or a Unix path that begins with / or .; a port is 0 to 65535\n"
JOINED = "  names of a bus are joined by commas, without spaces: can0,can1\n"


@pytest.mark.parametrize(
    "words, said",
    [
        (["can0, can1"], JOINED),
        (["--listen", "localhost", "can0"], LISTEN),
        (["--listen=29536", "can0"], LISTEN),
        (["--listen", "127.0.0.1:99999", "can0"], LISTEN),
        (["--out", "nosuchdir", "can0"], "  --out is a folder that exists: mkdir 'nosuchdir'\n"),
        (["--out=nosuchdir", "can0"], "  --out is a folder that exists: mkdir 'nosuchdir'\n"),
        # The launcher adds nothing to these messages from the program.
        (["--listen", "/none/socket", "can0"], ""),
        (["--out", ".", "--listen", "127.0.0.1:0", "can0,can0"], ""),
    ],
)
def test_a_word_that_is_refused_is_followed_by_its_cure(launchers, tmp_path, words, said):
    """The launcher adds a remedy to the program's message about a refused argument."""
    for launcher in launchers.values():
        done = subprocess.run(
            [launcher, "serve", *words],
            cwd=tmp_path,
            stdin=subprocess.DEVNULL,
            capture_output=True,
            text=True,
            check=False,
        )
        alone = subprocess.run(
            [program(), "serve", *words],
            cwd=tmp_path,
            stdin=subprocess.DEVNULL,
            capture_output=True,
            text=True,
            check=False,
        )
        assert (done.returncode, done.stderr) == (1, alone.stderr + said)


def test_staged(copy, tmp_path):
    """An installation below DESTDIR prints nothing, works there, and can be removed."""
    words = "PREFIX=/usr", f"DESTDIR={tmp_path}/staged"
    assert copy.run("make", "-s", "install", *words).stdout == ""
    assert copy.status(tmp_path / "staged" / "usr" / "bin" / "canbusd", "--version") == 0
    copy.make("uninstall", *words)
    assert files_in(tmp_path / "staged") == []


def to_launcher(number, child, _):
    os.kill(child.pid, number)


def to_all(number, child, _):
    """Sends a signal to the whole process group, as a terminal does."""
    os.killpg(child.pid, number)


def let_go(child, _):
    child.stdin.close()


def hang_up(_, client):
    client.close()


# The ways in which a server ends: its arguments, its number of sessions, the action that ends it, and the expected
# status.
ENDS = {
    "Ctrl-C": ([], 10, functools.partial(to_all, signal.SIGINT), 0),
    "SIGINT": ([], 10, functools.partial(to_launcher, signal.SIGINT), 0),
    "SIGTERM": ([], 10, functools.partial(to_launcher, signal.SIGTERM), 0),
    "SIGTERM to all": ([], 10, functools.partial(to_all, signal.SIGTERM), 0),
    "the terminal goes": ([], 10, functools.partial(to_all, signal.SIGHUP), 0),
    "Ctrl-\\": ([], 10, functools.partial(to_all, signal.SIGQUIT), 137),
    "SIGKILL": ([], 10, functools.partial(to_launcher, signal.SIGKILL), -signal.SIGKILL),
    "its sessions are used up": ([], 1, hang_up, 0),
    "--until-eof, its input ends": (["--until-eof"], 10, let_go, 0),
    "--until-eof, Ctrl-C": (["--until-eof"], 10, functools.partial(to_all, signal.SIGINT), 0),
    "--until-eof, SIGTERM": (["--until-eof"], 10, functools.partial(to_launcher, signal.SIGTERM), 0),
    "--until-eof, its sessions are used up": (["--until-eof"], 1, hang_up, 0),
}


def nobody_in(group):
    """Returns whether no process is left in a process group."""
    try:
        os.killpg(group, 0)
    except ProcessLookupError:
        return True
    return False


@pytest.mark.parametrize("place", ["copy", "installed"])
@pytest.mark.parametrize("end", ENDS)
def test_end_of_a_server(launchers, place, end):
    """A server that ends leaves no process. Except after SIGQUIT it leaves a record with the `open` and `close` of its
    session."""
    words, sessions, ends, wanted = ENDS[end]
    words = ["--sessions", str(sessions), *words, "can0"]
    with serving(*words, launcher=launchers[place], stdin=subprocess.PIPE) as server:
        client = plain(server, "can0")
        ends(server.child, client)
        assert server.child.wait(WAIT) == wanted, server.said()
        # If the launcher is killed by SIGKILL, the server ends by itself.
        assert come_true(lambda: nobody_in(server.child.pid)) if end == "SIGKILL" else nobody_in(server.child.pid)
        if end != "Ctrl-\\":
            assert server.child.stdout.read() == "bus can0 entries 2\n"
            assert server.audited("can0.rec") == 2
        client.close()


@pytest.mark.parametrize("place", ["copy", "installed"])
def test_words_of_serve(launchers, place):
    """The launcher returns the program's status for help and for a command line without a bus."""
    for words, status in ((["--help"], 0), ([], 2)):
        done = subprocess.run([launchers[place], "serve", *words], capture_output=True, check=False)
        assert done.returncode == status, done.stderr


WRONG = [
    "",
    "--verbose",
    "--ack=peers",
    "--bitrat 5",
    "can0 --bitrat 5",
    "--pace",
    "can0 --out",
    "can0 --ack z -- can1",
]


@pytest.mark.parametrize("words", WRONG)
def test_wrong_words_of_serve(launchers, words):
    """For wrong arguments the launcher prints the same messages as the program, without the option that the launcher
    adds."""
    said = []
    for command in (launchers["copy"], launchers["installed"], program()):
        done = subprocess.run([command, "serve", *words.split()], capture_output=True, text=True, check=False)
        assert done.returncode == 2 and "--until-eof" not in done.stderr, done.stderr
        said.append(done.stderr)
    assert len(set(said)) == 1


@pytest.mark.parametrize(
    "words", ["can0 --pace 1", "--pace 1 -- can0", "--pace 1 can0 --", "--pace=1 -- -can0 --until-eof"]
)
def test_places_of_words_of_serve(launchers, words):
    """Wherever its options are on the command line, a server ends cleanly when its launcher gets SIGTERM."""
    with serving(*words.split(), launcher=launchers["copy"], stdin=subprocess.PIPE) as server:
        server.child.send_signal(signal.SIGTERM)
        assert server.child.wait(WAIT) == 0, server.said()
