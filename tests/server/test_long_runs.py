"""Tests servers whose logs and records are written while they run, and servers without a record. Servers under load are
killed at random times (10 servers, or 200 with the slow tests). Their files are audited by `audit --cut` and by the
independent model of record_events.py. They must contain at least the entries that clients had seen two `--flush`
periods before the kill. Disks are full, stop, fail or are slow (failing_disk.c, compiled with cc and preloaded), or
can't be written. After 20 million entries the server uses no more memory than when both blocks of the bus were full.
100,000 ended sessions leave nothing in memory. A server under a steady load (--minutes) ends with a correct record. A
record is also compared with that of a server that has the same dialogue and writes its record at the end.
"""

import collections
import contextlib
import mmap
import os
import re
import resource
import shlex
import shutil
import signal
import struct
import subprocess
import tempfile
import threading
import time

import pytest

from commands import call
from live_records import FRONT, cut_audit, names_in
from record_events import audit
from serving import ROOT, WAIT, Pair, Plain, come_true, plain, program, serving, serving_alone, turns, writes_live

pytestmark = pytest.mark.skipif("not writes_live()", reason="the program is older than `serve --record`")
LIVE = ("--record", "live")
FAST = ("--pace", "0", "--txqueue", "1024", "--rxqueue", "65536", "--write", "16384")
FLUSH = 0.2
# How many sessions end at the same time, at most. A server has slots for 64 sessions.
AT_ONCE = 40
MOMENT = re.compile(r"\b\d+\.\d{6}\b")


def read(path):
    with open(path, encoding="ascii") as file:
        return file.read()


def run(*words, **more):
    """Runs the program; returns its status, standard output and standard error."""
    return call(program(), *words, **more)


@pytest.mark.parametrize(
    "words",
    [
        ["--record", "live"],
        ["--record", "live", "--out", ".", "--limit", "1000000"],
        ["--record", "live", "--out", ".", "--limit", "4294967294"],
        ["--record", "none", "--limit", "16777216"],
        ["--record", "always"],
        ["--record"],
        ["--record", "none", "--out", ".", "--flush", "60001"],
        ["--record", "none", "--out", ".", "--flush", "x"],
        ["--record", "none", "--out", ".", "--flush", "+5"],
    ],
)
def test_words_that_are_refused(words, tmp_path):
    status, said, errors = run("serve", "--listen", "127.0.0.1:0", *words, "can0", cwd=tmp_path)
    assert (status, said) == (2, "") and errors, f"{words}: {status} {said} {errors}"
    assert os.listdir(tmp_path) == [], "a file was made"


@pytest.mark.parametrize("record", ["live", "none"])
def test_a_folder_that_cannot_be_written(record, tmp_path):
    """A folder is refused before the server listens if it is missing, is a file, accepts no files, or contains a folder
    in place of the log."""
    (tmp_path / "file").touch()
    (tmp_path / "can0.log").mkdir()
    for folder in (tmp_path / "none", tmp_path / "file", "/proc", tmp_path):
        status, said, errors = run("serve", "--listen", "127.0.0.1:0", "--record", record, "--out", folder, "can0")
        assert (status, said) == (1, ""), f"{folder}: {status} {said} {errors}"
        assert errors.startswith(f"canbusd: cannot open {folder}\n  {folder}/can0."), f"{folder}: {errors}"


def dialogue(server, has_fd):
    """Holds the same dialogue with each server, and waits for each reply and each frame; returns these messages."""
    replies = []
    with contextlib.closing(plain(server, "can0")) as can0, contextlib.closing(plain(server, "can1")) as can1:
        for client in (can0, can1):
            commands = ["echo", "recvown 0", "errmask FFFFFFFF", *(["fdframes 1"] if has_fd else [])]
            replies += [client.answer(f"< {command} >") for command in commands]
        replies.append(can1.answer("< filter 1 123 700 >"))
        for number in range(50):
            can0.write(f"< send {100 + number % 3} 2 {number:x} 5 >")
            replies.append(MOMENT.sub("T", can1.text()))
            if has_fd:
                can0.write(f"< sendfd 1{number:02d} 12 {' '.join(['a5'] * 12)} >")
                replies.append(MOMENT.sub("T", can1.text()))
        for command in ("stats", "close"):
            replies += [client.answer(f"< {command} >") for client in (can0, can1)]
    return replies


@pytest.mark.parametrize("has_fd", [False, True])
def test_the_record_of_the_same_dialogue(has_fd):
    """Records written live and records written at the end differ only in their first two lines. The logs and the
    messages to clients are the same.
    """
    runs = {}
    for record in ("end", "live", "none"):
        with serving_alone(*(() if record == "end" else ("--record", record)), "can0,can1") as server:
            replies = dialogue(server, has_fd)
            written = server.end()
            names = ["can0.log"] if record == "none" else ["can0.log", "can0.rec"]
            assert names_in(server.folder) == names
            texts = [MOMENT.sub("T", read(server.path(name))) for name in names]
            if record != "none":
                assert written == f"bus can0 entries {server.audited('can0.rec')}\n"
            runs[record] = replies, written, *texts
    assert runs["live"][:3] == runs["end"][:3] == runs["none"]
    first, bus, *live = runs["live"][3].splitlines()
    first_of_end, bus_of_end, *end = runs["end"][3].splitlines()
    assert live == end and len(live) > 150
    assert (first, bus) == tuple(FRONT.splitlines())
    assert first_of_end == f"canbus record {3 if has_fd else 1}"
    assert bus_of_end == f"bus 2 always 0000 10 1000000{' 0' if has_fd else ''}"


def test_each_front_of_a_record_that_a_server_wrote(tmp_path):
    """A record that is cut at any byte has one entry for each complete line after the first two."""
    with serving_alone(*LIVE, "can0,can1") as server:
        dialogue(server, has_fd=True)
        server.end()
        with open(server.path("can0.rec"), "rb") as file:
            text = file.read()
    assert text.startswith(FRONT.encode()) and len(text) > 10_000
    path = tmp_path / "front"
    # Cuts the record at each byte of the first lines, and around the end of each later line.
    ends = [place for place, byte in enumerate(text) if byte == 10]
    for place in [*range(200), *(end + more for end in ends for more in (0, 1))]:
        front = text[:place]
        path.write_bytes(front)
        status, said, errors = run("audit", "--cut", path)
        entries = front.count(b"\n") - 2
        if front == text:
            assert (status, said, errors) == (0, f"ok {entries - 1} entries\n", "")
        elif entries >= 0:
            assert (status, said) == (0, f"ok {entries} entries, then cut off\n"), f"{place}: {said}{errors}"
        else:
            wanted = "bad version" if entries == -2 else "line 2: bad line"
            assert (status, said) == (1, "") and errors.startswith(f"canbusd: {wanted}\n"), f"{place}: {said}{errors}"


def test_the_files_of_a_run_that_goes_on():
    """The first lines are there from the start, each later line appears soon after its call, and the end line and the
    final name appear at the end."""
    with serving_alone(*LIVE, "can0,can1", "car0") as server:
        growing = ["can0.log", "can0.rec.new", "car0.log", "car0.rec.new"]
        assert names_in(server.folder) == [".canbusd.lock", *growing]
        assert come_true(lambda: read(server.path("can0.rec.new")) == FRONT)
        pair = Pair(server)
        for number in range(20):
            pair.go_on()
            assert come_true(lambda: read(server.path("can0.log")).count("\n") == number + 1), "no line of the log"
            assert come_true(lambda: f"data 0 {number} " in read(server.path("can0.rec.new"))), "no entry"
        entries, is_cut = cut_audit(server.path("can0.rec.new"))
        assert is_cut and entries >= 60 and cut_audit(server.path("car0.rec.new")) == (0, True)
        assert server.end() == f"bus can0 entries {server.audited('can0.rec')}\nbus car0 entries 0\n"
        assert names_in(server.folder) == ["can0.log", "can0.rec", "car0.log", "car0.rec"]
        assert read(server.path("car0.rec")) == FRONT.replace("bus 2", "bus 1") + "end 0\n"
        assert run("audit", server.path("can0.rec"))[0] == 0


@pytest.mark.parametrize("flush", ["0", "1", "60000"])
@pytest.mark.parametrize("more", [[], ["--sync"]])
def test_when_lines_are_handed_over(flush, more):
    """Lines are written out either at once, or at the latest when the server ends."""
    with serving_alone(*LIVE, "--flush", flush, *more, "can0,can1") as server:
        pair = Pair(server)
        for _ in range(10):
            pair.go_on()
        if flush != "60000":
            assert come_true(lambda: read(server.path("can0.log")).count("\n") == 10), "no line of the log"
        server.end()
        assert read(server.path("can0.log")).count("\n") == 10
        assert server.audited("can0.rec") >= 30


def test_tail_follows_the_log():
    with serving_alone("--record", "none", "--flush", "0", "can0,can1") as server:
        words = ["tail", "-n", "+1", "-f", f"--pid={server.child.pid}", server.path("can0.log")]
        with subprocess.Popen(words, stdout=subprocess.PIPE, text=True) as tail:
            pair = Pair(server)
            lines = []
            for number in range(1, 101):
                pair.go_on()
                lines.append(tail.stdout.readline())
                assert lines[-1].endswith(f" can0 00000000#{number:08X}\n"), lines[-1]
            server.end()
            assert "".join([*lines, tail.stdout.read()]) == read(server.path("can0.log"))
            assert tail.wait(WAIT) == 0


def test_without_a_record_and_a_log():
    """A server with neither a record nor a log writes no files."""
    with serving_alone("--record", "none", "can0,can1", out=None) as server:
        pair = Pair(server)
        for _ in range(100):
            pair.go_on()
        entries = int(re.fullmatch(r"bus can0 entries (\d+)\n", server.end())[1])
        assert entries >= 300 and names_in(server.folder) == []


def test_what_an_earlier_run_left():
    """The unfinished record of an earlier run is renamed, with a note. It replaces an unfinished record that was
    renamed before."""
    with tempfile.TemporaryDirectory() as folder:
        path = os.path.join(folder, "can0.rec")
        for text in ("of the first run\n" * 10, "of the second\n" * 10):
            for name in ("can0.rec.new", "can0.log", "can0.rec"):
                with open(os.path.join(folder, name), "w", encoding="ascii") as file:
                    file.write(text)
            with serving_alone(*LIVE, "can0", "can1", out=folder) as server:
                assert read(f"{path}.cut") == text and read(os.path.join(folder, "can0.log")) == ""
                # The earlier complete record stays until there is a new one.
                assert read(path) == text
                server.end(says=f"note: {path}.new of a run that was cut off is {path}.cut now")
            assert run("audit", path) == (0, "ok 0 entries\n", "")
            assert sorted(os.listdir(folder)) == ["can0.log", "can0.rec", "can0.rec.cut", "can1.log", "can1.rec"]


@pytest.mark.parametrize("record", ["end", "live"])
def test_what_a_start_that_failed_left(record, tmp_path):
    """After a failed start, which leaves a record with only the first lines, nothing is replaced: the record of a
    killed run remains, and there is no note."""
    text = FRONT + "of a run that was killed\n" * 10
    (tmp_path / "can0.rec.cut").write_text(text)
    (tmp_path / "can0.rec.new").write_text(FRONT)
    with serving_alone("--record", record, "can0", out=tmp_path) as server:
        server.end()
    assert read(tmp_path / "can0.rec.cut") == text
    assert names_in(tmp_path) == ["can0.log", "can0.rec", "can0.rec.cut"]


@pytest.mark.parametrize("record", ["end", "live", "none"])
def test_who_sets_aside_what_an_earlier_run_left(record, tmp_path):
    """A server that writes a record, live or at the end, sets aside the unfinished record of each bus. It does not do
    so if its address is refused."""
    texts = {bus: f"of {bus} in a run that was killed\n" * 10 for bus in ("can0", "can1")}
    for bus, text in texts.items():
        (tmp_path / f"{bus}.rec.new").write_text(text)
    words = "--record", record, "--out", tmp_path, *texts
    status, said, errors = run("serve", "--listen", "nowhere.invalid:1", *words)
    assert (status, said) == (1, "") and errors.startswith("canbusd: cannot listen\n")
    assert names_in(tmp_path) == ["can0.rec.new", "can1.rec.new"]
    with serving_alone("--record", record, *texts, out=tmp_path) as server:
        paths = [f"{tmp_path}/{bus}.rec" for bus in texts]
        notes = [f"note: {path}.new of a run that was cut off is {path}.cut now" for path in paths]
        server.end(says="" if record == "none" else "\n".join(notes))
    left = "rec.new" if record == "none" else "rec.cut"
    assert {bus: read(tmp_path / f"{bus}.{left}") for bus in texts} == texts
    kinds = ["log", left] if record == "none" else ["log", "rec", left]
    assert names_in(tmp_path) == [f"{bus}.{kind}" for bus in texts for kind in kinds]


@pytest.mark.parametrize("first", ["live", "none"])
@pytest.mark.parametrize("second", ["end", "live", "none"])
def test_a_second_server_by_mistake(first, second):
    """A second server at the same address or in the same folder does not start, and the files of the first server stay
    unchanged.
    """
    with serving_alone("--record", first, "can0,can1") as server:
        pair, names = Pair(server), names_in(server.folder)
        pair.go_on()
        for address, fault in [(server.address, "cannot listen"), ("127.0.0.1:0", "cannot open")]:
            words = "serve", "--listen", address, "--record", second, "--out", server.folder, "can0,can1"
            status, said, errors = run(*words)
            assert (status, said) == (1, "") and errors.startswith(f"canbusd: {fault}"), f"{address}: {said}{errors}"
            left = names_in(server.folder)
            assert set(names) <= set(left) and "can0.rec.cut" not in left, left
            pair.go_on()
        server.end()
        assert read(server.path("can0.log")).count("\n") == pair.count
        assert first == "none" or server.audited("can0.rec") >= 3 * pair.count


class Reader:
    """Reads the messages that a client gets, and stores the time of each read and the number of messages so far."""

    def __init__(self, client):
        self.client, self.moments, self.count = client, [], 0

    def read(self):
        """Reads until the connection ends."""
        with contextlib.suppress(OSError):
            while piece := self.client.socket.recv(65536):
                self.count += piece.count(b">")
                self.moments.append((time.monotonic(), self.count))

    def before(self, moment):
        """Returns how many messages had arrived by this time."""
        return max((count for when, count in self.moments if when <= moment), default=0)


class Load:
    """A session that sends numbered frames, at a rate or as fast as it can, and a session that receives them."""

    def __init__(self, server, many=50, rate=float("inf")):
        self.sender, self.receiver = Reader(plain(server, "can0")), Reader(plain(server, "can1"))
        assert self.sender.client.answer("< filter 0 >") == "< ok >"
        assert self.sender.client.answer("< ack 1 >") == "< ok >"
        self.many, self.rate, self.sent, self.is_over = many, rate, 0, threading.Event()
        works = self.sender.read, self.receiver.read, self.send
        self.threads = [threading.Thread(target=work, daemon=True) for work in works]
        for thread in self.threads:
            thread.start()

    def send(self):
        """Sends frames. At most twice `many` frames are in flight, so that none is refused."""
        begin = time.monotonic()
        with contextlib.suppress(OSError):
            while not self.is_over.is_set():
                if self.under_way() <= self.many and self.sent <= self.rate * (time.monotonic() - begin):
                    numbers = range(self.sent, self.sent + self.many)
                    self.sender.client.write("".join(f"< send 123 3 {spelled(number)} >" for number in numbers))
                    self.sent += self.many
                else:
                    time.sleep(0.0005)

    def under_way(self):
        """Returns the number of frames that were sent, but whose reply or reception is still missing."""
        return self.sent - min(self.sender.count, self.receiver.count)

    def end(self):
        """Ends both sessions, even if the server is gone."""
        self.is_over.set()
        for one in (self.sender, self.receiver):
            with contextlib.suppress(OSError):
                one.client.socket.shutdown(2)
        for thread in self.threads:
            thread.join(WAIT)
            assert not thread.is_alive()
        for one in (self.sender, self.receiver):
            one.client.close()


def spelled(number):
    return (number % 2**24).to_bytes(3, "big").hex(" ")


def kill_under_load(rng, rate):
    """Kills a server at a random time. Checks that its files are correct and that the next server sets its record
    aside. Returns how many entries the record has, and how many sends and receives the clients had seen early enough
    before the kill."""
    with serving_alone(*LIVE, *FAST, "--flush", str(round(1000 * FLUSH)), "can0,can1") as server:
        load = Load(server, rate=rate)
        # This is a random time, not a wait for an event.
        time.sleep(rng.uniform(0, 1))
        killed = time.monotonic()
        server.child.kill()
        server.child.wait()
        load.end()
        sent, received = (one.before(killed - 2 * FLUSH) for one in (load.sender, load.receiver))
        assert names_in(server.folder) == [".canbusd.lock", "can0.log", "can0.rec.new"]
        path = server.path("can0.rec.new")
        entries, is_cut = cut_audit(path, is_replayed=rate < float("inf"))
        assert is_cut, "it was killed, and its record has an end"
        text = read(path)
        lines = text[: text.rindex("\n")].split("\n")[2:]
        assert len(lines) == entries
        numbers = [int(line.split(" = number ")[1]) for line in lines if line.startswith("send ")]
        assert numbers == list(range(len(numbers)))
        taken = [int(line.split(" ")[5]) for line in lines if " = data " in line]
        assert taken == list(range(len(taken)))
        logged = compare_log(read(server.path("can0.log")), lines)
        if rate < float("inf"):
            found = f"{len(numbers)} sends, {len(taken)} receives, {logged} lines of the log"
            assert (
                len(numbers) >= sent and min(len(taken), logged) >= received
            ), f"{sent} sent, {received} received, {found}"
        if entries:
            set_aside(server, path, text)
        return entries, sent, received


def set_aside(server, path, text):
    """Checks that the next server in the folder of a killed server keeps the old record, reports this, and takes over
    and removes the lock file."""
    with serving_alone(*LIVE, "can0,can1", out=server.folder) as after:
        aside = f"{server.folder}/can0.rec.cut"
        after.end(says=f"note: {path} of a run that was cut off is {aside} now")
        assert read(aside) == text
    assert names_in(server.folder) == ["can0.log", "can0.rec", "can0.rec.cut"]


def compare_log(log, entries):
    """Compares the lines of the log with the attempts in the record. One list may be longer than the other. Returns the
    number of lines in the log."""
    lines = log[: log.rfind("\n") + 1].splitlines()
    tried = [entry.split(" ") for entry in entries if " = tried " in entry]
    wanted = [f"({words[1]:0>17}) can{words[5]} {words[7]}" for words in tried]
    both = min(len(lines), len(wanted))
    assert lines[:both] == wanted[:both]
    return len(lines)


@pytest.mark.quiet
@pytest.mark.parametrize("kills", [10, pytest.param(200, marks=pytest.mark.slow)])
def test_kills_at_random_moments(rng, kills):
    """Killed servers leave correct and up-to-date files, under a load of 15,000 entries a second that the server can
    handle."""
    runs = [kill_under_load(rng, 5000) for _ in range(kills)]
    entries = [one[0] for one in runs]
    print(f"{kills} kills, after {min(entries)} to {max(entries)} entries")
    assert max(received for _, _, received in runs) > 100, "no run was long enough"


@pytest.mark.parametrize("kills", [2, pytest.param(20, marks=pytest.mark.slow)])
def test_kills_at_full_speed(rng, kills):
    """Servers that are killed at full speed leave correct files, which may lag behind."""
    entries = [kill_under_load(rng, float("inf"))[0] for _ in range(kills)]
    print(f"{kills} kills, after {min(entries)} to {max(entries)} entries")


def settings_of_the_service():
    """Returns the settings in contrib/canbusd.service."""
    with open(os.path.join(ROOT, "contrib", "canbusd.service"), encoding="utf-8") as unit:
        return dict(re.findall(r"^(\w+)=(.*)$", unit.read(), re.M))


def test_the_service_talks_to_this_machine_only():
    """The service listens at the default address, 127.0.0.1, and the system lets it exchange packets with no other
    machine."""
    settings = settings_of_the_service()
    assert "--listen" not in settings["ExecStart"] + settings["Environment"]
    assert (settings["IPAddressDeny"], settings["IPAddressAllow"]) == ("any", "localhost")


def test_the_service_keeps_what_the_run_before_it_left(tmp_path):
    """Before each start the service moves all files of the last run together. If there are none, the files that were
    moved earlier remain."""
    settings = settings_of_the_service()
    before = shlex.split(settings["ExecStartPre"].replace("$$", "$"))

    def moves(*names):
        for name in names:
            (tmp_path / name).write_text(f"{name} {names}\n" * 10)
        subprocess.run(before, cwd=tmp_path, check=True)
        left = sorted(os.listdir(tmp_path / "previous")) if (tmp_path / "previous").exists() else []
        assert sorted(os.listdir(tmp_path)) == (["previous", "socket"] if left else ["socket"])
        return left

    (tmp_path / "socket").touch()
    assert moves() == []
    killed = ["can0.log", *(f"can0.rec{one}" for one in (".cut", ".faults.cut", ".faults.new", ".new")), "car0.log"]
    assert moves(*killed) == killed and moves() == killed
    # A failed start leaves records that have only their first lines.
    script = "# a script\n" * 100
    failed = [("can0.rec.new", FRONT), ("can0.rec.faults.new", script), ("car0.rec.cut", FRONT)]
    for name, text in [("can0.log", ""), *failed]:
        (tmp_path / name).write_text(text)
    subprocess.run(before, cwd=tmp_path, check=True)
    assert sorted(os.listdir(tmp_path / "previous")) == killed
    for name in ("can0.log", *(name for name, _ in failed)):
        (tmp_path / name).unlink()
    # A server without a record leaves only a log, here with one line.
    (tmp_path / "can0.log").write_text("(0000000000.000001) can0 123#\n")
    subprocess.run(before, cwd=tmp_path, check=True)
    assert os.listdir(tmp_path / "previous") == ["can0.log"]
    whole = ["can0.log", "can0.rec", "can0.rec.faults", "car0.log", "car0.rec"]
    assert moves(*whole) == whole
    assert (tmp_path / "previous" / "can0.rec").read_text().startswith(f"can0.rec {tuple(whole)}\n")
    # The command line of the service starts a server.
    variables = dict(word.split("=", 1) for word in shlex.split(settings["Environment"]))
    words = (
        settings["ExecStart"].replace("$OPTIONS", variables["OPTIONS"]).replace("$BUSES", variables["BUSES"]).split()
    )
    assert words[:2] == ["/usr/bin/canbusd", "serve"] and ("live" in words) is True
    done = subprocess.run(
        [program(), *words[1:], "--until-eof", "--listen", "127.0.0.1:0"],
        stdin=subprocess.DEVNULL, stdout=subprocess.PIPE, cwd=tmp_path, check=True,
    )  # fmt: skip
    assert done.stdout.endswith(b"bus can0 entries 0\n") and (tmp_path / "can0.rec").exists()


def test_a_run_after_one_that_was_killed():
    """The unfinished record of a killed run can be audited under its new name after a later run in the same folder."""
    with tempfile.TemporaryDirectory() as folder:
        path = os.path.join(folder, "can0.rec")
        with serving_alone(*LIVE, "--flush", "0", "can0,can1", out=folder) as server:
            Pair(server).go_on()
            assert come_true(lambda: " data 0 0 " in read(f"{path}.new"))
            server.child.kill()
            server.child.wait()
        entries, is_cut = cut_audit(f"{path}.new")
        assert is_cut and entries >= 5
        with serving_alone(*LIVE, "can0,can1", out=folder) as server:
            server.end(says=f"note: {path}.new of a run that was cut off is {path}.cut now")
        assert cut_audit(f"{path}.cut") == (entries, True) and cut_audit(path) == (0, False)


def not_whole(server, name="can0.rec.new"):
    """Returns the number of entries that the server reports for this unfinished record, or None if it has not reported
    any."""
    found = re.search(
        rf"^canbusd: write fault\n  \S*{re.escape(name)}: .+\n  it has the first (\d+) entries, and no end$",
        server.said(),
        re.M,
    )
    return int(found[1]) if found else None


def may_grow(most):
    """Returns a function that limits the size of files to `most` bytes; larger writes are refused."""

    def begin():
        signal.signal(signal.SIGXFSZ, signal.SIG_IGN)
        resource.setrlimit(resource.RLIMIT_FSIZE, (most, most))

    return begin


def fill(server, pair, *ready):
    """Sends frames until no function in `ready` returns None, and then checks that the bus still works."""
    for _ in turns("the disk is full, and nothing is said", 3 * WAIT):
        for _ in range(100):
            pair.go_on()
        if all(one() is not None for one in ready):
            break
    for _ in range(10):
        pair.go_on("a disk that is full")


def test_files_that_grow_to_a_limit():
    """A file that reaches a size limit ends with a complete line, the server reports how much the file contains, and
    the bus continues."""
    most = 20_000
    # The size limit also applies to the server's standard error, which stays below the limit.
    with serving_alone(*LIVE, "--pace", "0", "can0,can1", "car0,car1", preexec_fn=may_grow(most)) as server:
        pair, other = Pair(server), Pair(server, "car0", "car1")
        other.go_on()
        fill(server, pair, lambda: not_whole(server), lambda: log_lines(server))
        entries, lines = not_whole(server), log_lines(server)
        status, written = server.finish()
        assert status == 1
        assert int(re.match(r"bus can0 entries (\d+)\n", written)[1]) > entries
        check_cut(server.folder, entries, lines, most)
        # The files of the other bus are complete.
        assert names_in(server.folder) == ["can0.log", "can0.rec.new", "car0.log", "car0.rec"]
        assert server.audited("car0.rec") >= 3 and read(server.path("car0.log")).count("\n") == 1


def log_lines(server):
    """Returns the number of lines that the server reports for a log that it could not write, or None if it has not
    reported any."""
    found = re.search(r"^canbusd: log of can0: (\d+) whole lines$", server.said(), re.M)
    return int(found[1]) if found else None


def check_cut(folder, entries, lines, most):
    """Checks files that could grow no further: they contain complete lines, as many as reported, and no record looks
    complete."""
    record, log = os.path.join(folder, "can0.rec.new"), os.path.join(folder, "can0.log")
    for path in (record, log):
        assert read(path).endswith("\n") and most - 300 <= os.path.getsize(path) <= most, path
    assert cut_audit(record) == (entries, True)
    assert not os.path.exists(os.path.join(folder, "can0.rec"))
    assert read(log).count("\n") == lines


def test_a_log_on_a_full_device():
    """A log on a full device is reported at once, and the record is complete."""
    with tempfile.TemporaryDirectory() as folder:
        os.symlink("/dev/full", os.path.join(folder, "can0.log"))
        with serving_alone(*LIVE, "--pace", "0", "can0,can1", out=folder) as server:
            pair = Pair(server)
            pair.go_on()
            assert come_true(lambda: log_lines(server) == 0), server.said()
            for _ in range(100):
                pair.go_on()
            status, written = server.finish()
            assert status == 1, f"status {status}: {server.said()}"
        said = run("audit", os.path.join(folder, "can0.rec"))
        assert said == (0, written.replace("bus can0 entries ", "ok ").replace("\n", " entries\n"), "")
        assert not os.path.exists(os.path.join(folder, "can0.rec.new"))


class SmallDisk:
    """A file system of the given size in kilobytes, which a user without root rights can mount in a namespace."""

    def __init__(self, kilobytes, folder):
        script = 'mount -t tmpfs -o size="$1"k none "$2" && echo mounted && exec cat'
        words = ["unshare", "--user", "--map-root-user", "--mount", "sh", "-c", script, "sh", str(kilobytes), folder]
        self.holder = subprocess.Popen(words, stdin=subprocess.PIPE, stdout=subprocess.PIPE, stderr=subprocess.DEVNULL)
        self.is_there = self.holder.stdout.readline() == b"mounted\n"
        #: The path of the folder from outside the namespace.
        self.folder = f"/proc/{self.holder.pid}/root{folder}"

    def launcher(self, folder):
        """Writes a script that runs canbusd inside the namespace; returns its path."""
        path = os.path.join(folder, "inside")
        enter = f"nsenter --preserve-credentials --user --mount --target {self.holder.pid}"
        with open(path, "w", encoding="utf-8") as file:
            file.write(f'#!/bin/sh\nexec {enter} --wd="$PWD" {program()} "$@"\n')
        os.chmod(path, 0o755)
        return path

    def close(self):
        self.holder.communicate(timeout=WAIT)


@pytest.fixture
def disk():
    """Yields a file system of 128 kilobytes, and the folder at which it is mounted."""
    with tempfile.TemporaryDirectory() as folder:
        found = SmallDisk(128, folder) if shutil.which("unshare") and shutil.which("nsenter") else None
        try:
            if found is None or not found.is_there:
                pytest.skip("no file system may be mounted in a name space of one's own")
            yield found, folder
        finally:
            if found is not None:
                found.close()


def test_a_disk_that_is_full(disk, tmp_path):
    """On a full disk that several files share, the record ends with a complete line, the server reports this, and the
    bus continues."""
    small, folder = disk
    launcher, stdin = small.launcher(tmp_path), subprocess.PIPE
    with serving(
        "--until-eof", *LIVE, "--pace", "0", "can0,can1", launcher=launcher, out=folder, stdin=stdin
    ) as server:
        pair = Pair(server)
        pair.go_on()
        # Waits for the first line of the log now, because the record may later take all the space.
        assert come_true(lambda: read(os.path.join(small.folder, "can0.log")).count("\n") == 1), "no line of the log"
        fill(server, pair, lambda: not_whole(server))
        assert "No space left on device" in server.said()
        entries = not_whole(server)
        status, written = server.finish()
        assert status == 1 and int(re.fullmatch(r"bus can0 entries (\d+)\n", written)[1]) > entries
        path = os.path.join(small.folder, "can0.rec.new")
        assert read(path).endswith("\n") and cut_audit(path) == (entries, True)
        assert names_in(small.folder) == ["can0.log", "can0.rec.new"]
        log = read(os.path.join(small.folder, "can0.log"))
        assert compare_log(log, read(path).splitlines()[2:]) >= 1
        if log_lines(server) is not None:
            assert log.count("\n") == log_lines(server) and log.endswith("\n")


class Pipe:
    """A pipe in place of a file. The test decides when to read from it."""

    def __init__(self, path):
        os.mkfifo(path)
        self.reader = os.open(path, os.O_RDONLY | os.O_NONBLOCK)
        os.set_blocking(self.reader, True)

    def pieces(self):
        return iter(lambda: os.read(self.reader, 1 << 16), b"")

    def close(self):
        os.close(self.reader)


@pytest.fixture
def pipe():
    """Yields a pipe in place of the log, and its folder."""
    with tempfile.TemporaryDirectory() as folder, contextlib.closing(Pipe(os.path.join(folder, "can0.log"))) as made:
        yield made, folder


def waited(path):
    """Returns a pattern for the notes of a server whose log is not read in time. There is one note per minute."""
    return rf"note: bus can0: waits for {re.escape(path)}(\n[^\n]+ waits for {re.escape(path)})*"


def test_a_log_whose_reader_goes(pipe):
    """If the reader of a log disconnects, this is reported at once, with the number of lines in the log, and the record
    is complete.
    """
    log, folder = pipe
    with serving_alone(*LIVE, "--flush", "0", "can0,can1", out=folder) as server:
        pair = Pair(server)
        for number in range(1, 4):
            pair.go_on()
            assert os.read(log.reader, 1 << 16).endswith(f" can0 00000000#{number:08X}\n".encode())
        os.close(log.reader)
        pair.go_on()
        assert come_true(lambda: log_lines(server) == 3), server.said()
        assert f"canbusd: log of can0: 3 whole lines\n  {folder}/can0.log: Broken pipe" in server.said()
        for _ in range(10):
            pair.go_on()
        log.reader = os.open("/dev/null", os.O_RDONLY)
        status, written = server.finish()
        assert status == 1 and run("audit", f"{folder}/can0.rec")[0] == 0
        assert int(written.split()[-1]) == int(run("audit", f"{folder}/can0.rec")[1].split()[1])


def test_a_folder_that_is_moved():
    """A server whose folder is moved continues to write, and reports that it can't rename its record. The lock file
    stays in the moved folder."""
    with tempfile.TemporaryDirectory() as room:
        folder, other = os.path.join(room, "one"), os.path.join(room, "other")
        os.mkdir(folder)
        with serving_alone(*LIVE, "can0,can1", out=folder) as server:
            pair = Pair(server)
            pair.go_on()
            os.rename(folder, other)
            for _ in range(10):
                pair.go_on()
            status, written = server.finish()
            said = server.said()
            assert status == 1 and said.startswith(f"canbusd: write fault\n  {folder}/can0.rec: "), said
        assert names_in(other) == [".canbusd.lock", "can0.log", "can0.rec.new"]
        assert read(os.path.join(other, "can0.log")).count("\n") == pair.count
        assert run("audit", os.path.join(other, "can0.rec.new"))[1] == f"ok {written.split()[-1]} entries\n"


def test_what_is_there_in_the_place_of_a_file(tmp_path):
    """A link at the name under which the record is written is removed. A server that can't write one of its files does
    not listen."""
    other = tmp_path / "other"
    other.write_text("of another\n")
    folder = tmp_path / "linked"
    folder.mkdir()
    os.symlink(other, folder / "can0.rec.new")
    with serving_alone(*LIVE, "can0", out=folder) as server:
        server.end()
    assert names_in(folder) == ["can0.log", "can0.rec"] and other.read_text() == "of another\n"
    assert not (folder / "can0.rec").is_symlink()
    for number, (name, is_folder) in enumerate([("rec", False), ("rec", True), ("rec.new", True), ("log", True)]):
        folder = tmp_path / str(number)
        folder.mkdir()
        path = folder / f"can0.{name}"
        if is_folder:
            path.mkdir()
        else:
            os.symlink("/dev/full", path)
        status, said, errors = run("serve", "--listen", "127.0.0.1:0", *LIVE, "--out", folder, "can0")
        assert (status, said) == (1, "") and errors.startswith(f"canbusd: cannot open {folder}\n  {path}: "), errors


WRITE, SYNC, CUT = range(3)
NO_END = 2**63


class Disk:
    """A disk whose calls fail when the test requests it. The tested program has failing_disk.c preloaded."""

    def __init__(self, folder):
        self.folder = folder
        library = os.path.join(folder, "failing_disk.so")
        source = os.path.join(ROOT, "tests", "helpers", "failing_disk.c")
        subprocess.run(["cc", "-O2", "-Wall", "-Werror", "-fPIC", "-shared", "-o", library, source], check=True)
        path = os.path.join(folder, "plan")
        with open(path, "wb") as file:
            file.write(struct.pack("=6Q", 0, NO_END, 0, NO_END, 0, NO_END))
        self.environment = {**os.environ, "LD_PRELOAD": library, "DISK": path}
        with open(path, "r+b") as file:
            self.plan = mmap.mmap(file.fileno(), 48)

    def made(self, call):
        """Returns how often the program has made this call."""
        return struct.unpack_from("=Q", self.plan, 16 * call)[0]

    def allow(self, call, more):
        """Lets the program make this call `more` times; later calls fail."""
        struct.pack_into("=Q", self.plan, 16 * call + 8, self.made(call) + more)


@pytest.fixture
def failing(tmp_path):
    if not shutil.which("cc"):
        pytest.skip("no C compiler: cc")
    disk = Disk(tmp_path)
    yield disk
    disk.plan.close()


def test_when_the_disk_has_what_was_written(failing):
    """With --sync a server syncs the data that it has written before it writes more. Without --sync it never syncs."""
    for more in ([], ["--sync"]):
        before = failing.made(SYNC)
        with serving_alone(*LIVE, "--flush", "0", *more, "can0,can1", env=failing.environment) as server:
            pair = Pair(server)
            for number in range(1, 6):
                pair.go_on()
                assert come_true(lambda: read(server.path("can0.log")).count("\n") == number), "no line of the log"
                # The record is synced first, and the sync of the log may not have happened yet.
                assert not more or failing.made(SYNC) - before >= 2 * number - 1
            server.end()
        assert (failing.made(SYNC) - before >= 10) == bool(more), f"{more}: {failing.made(SYNC) - before}"


@pytest.mark.parametrize("call", [WRITE, SYNC])
@pytest.mark.parametrize("is_cut", [True, False])
def test_a_disk_that_fails(failing, call, is_cut):
    """Both files are reported at once, and contain as many complete lines as the server reports. The bus continues."""
    with serving_alone(*LIVE, "--sync", "--flush", "0", "can0,can1", env=failing.environment) as server:
        pair = Pair(server)
        for _ in range(5):
            pair.go_on()
        assert come_true(lambda: read(server.path("can0.log")).count("\n") == 5), "no line of the log"
        if not is_cut:
            failing.allow(CUT, 0)
        failing.allow(call, 0)
        pair.go_on()
        assert come_true(lambda: None not in (not_whole(server), log_lines(server))), server.said()
        assert server.said().count("Input/output error") == 2
        pair.go_on("a disk that fails")
        entries, lines = not_whole(server), log_lines(server)
        status, written = server.finish()
        assert status == 1 and int(written.split()[-1]) > entries
        # Each file is reported once, whatever happens after its fault.
        faults = [line for line in server.said().splitlines() if line.startswith("canbusd: ")]
        assert sorted(faults) == [f"canbusd: log of can0: {lines} whole lines", "canbusd: write fault"]
        assert names_in(server.folder) == ["can0.log", "can0.rec.new"]
        assert cut_audit(server.path("can0.rec.new")) == (entries, True)
        log = read(server.path("can0.log"))
        assert (log.count("\n"), log[-1]) == (lines, "\n") and lines >= 5


def test_a_disk_that_is_slow(failing):
    """A server reports at most once a minute that it waits for its files, even if each write takes longer than a
    second."""
    environment = {**failing.environment, "DISK_MILLIS": "1100"}
    begun = time.monotonic()
    with serving_alone(*LIVE, "--flush", "0", "can0,can1", env=environment) as server:
        # The record is written before the line of the log, and each of the two writes is late.
        Pair(server).go_on()
        assert come_true(lambda: read(server.path("can0.log")).count("\n") == 1), "no line of the log"
        status, _ = server.finish(patience=3 * WAIT)
        notes = server.said().splitlines()
        minutes = (time.monotonic() - begun) // 60
    assert status == 0 and notes[0] == "note: bus can0: waits for ./can0.rec.new", notes
    assert len(notes) <= 1 + minutes and all(" waits for " in note for note in notes), notes


@pytest.mark.slow
def test_a_disk_that_stands_still(pipe):
    """If nobody reads the log, calls wait and nothing is lost. Once the log is read, everything continues, and the wait
    is reported.
    """
    log, folder = pipe
    with serving_alone("--record", "none", *FAST, "can0,can1", out=folder) as server:
        load = Load(server, many=400)
        count = wait_for_stall(load)
        assert server.memory("VmRSS") < 64 * 1024
        lines = []
        thread = threading.Thread(target=lambda: lines.extend(log.pieces()), daemon=True)
        thread.start()
        assert come_true(lambda: load.sender.count > count + 1000, 6 * WAIT), "nothing goes on"
        load.end()
        status, written = server.finish(patience=6 * WAIT)
        assert status == 0 and re.fullmatch(waited(f"{folder}/can0.log"), server.said()), server.said()
        thread.join(WAIT)
        assert not thread.is_alive()
    numbers = [int(line.split("#")[1], 16) for line in b"".join(lines).decode().splitlines()]
    assert numbers == list(range(len(numbers))) and len(numbers) >= count // 2
    assert int(written.split()[-1]) >= 2 * len(numbers)


def wait_for_stall(load):
    """Waits until no client has received anything for a while, although frames are in flight; returns the number of
    replies to sends."""
    before, looks = -1, 0
    for _ in turns("it makes no more calls", 6 * WAIT):
        count = load.sender.count + load.receiver.count
        looks = looks + 1 if count == before and load.under_way() > load.many else 0
        if looks == 3:
            return load.sender.count
        before = count
        time.sleep(1)


@pytest.mark.slow
def test_memory_of_a_run_without_a_record(pipe):
    """After 20 million entries the server uses no more memory than when both blocks of the bus were first full."""
    log, folder = pipe
    words = ["--record", "none", "--pace", "0", "--txqueue", "1024", "--rxqueue", "4096", "--write", "16384"]
    with serving_alone(*words, "can0,can1", out=folder) as server:
        load = Load(server, many=500)
        # The bus fills one block while the log waits to write the other block. Then they are exchanged: the bus
        # continues, and the log waits to write the full block.
        count = wait_for_stall(load)
        for _ in log.pieces():
            if load.sender.count > count:
                break
        wait_for_stall(load)
        first = server.memory("VmRSS")
        assert first < 30 * 1024, f"{first} kilobytes"
        thread = threading.Thread(target=lambda: collections.deque(log.pieces(), maxlen=0), daemon=True)
        thread.start()
        for _ in turns("that many entries", 3600):
            if load.sender.count + 2 * load.receiver.count >= 20_000_000:
                break
            time.sleep(0.05)
        last = server.memory("VmRSS")
        load.end()
        status, written = server.finish(patience=6 * WAIT)
        assert status == 0 and re.fullmatch(waited(f"{folder}/can0.log"), server.said()), server.said()
        assert int(written.split()[-1]) >= 20_000_000
        print(f"{written.strip()}, {first} and {last} kilobytes")
        assert last <= first + 1024


@pytest.mark.parametrize("record", ["live", "none"])
def test_more_sessions_than_a_run_has_that_ends(record):
    """A server can have more than 4,000 sessions if it does not write its record at the end."""
    with serving_alone("--record", record, "--sessions", "4100", "can0,can1") as server:
        come_and_go(server, 4099)
        assert server.child.poll() is None
        come_and_go(server, 1)
        assert server.child.wait(WAIT) == 0
        if record == "live":
            assert server.audited("can0.rec") == 2 * 4100


@pytest.mark.parametrize("record", ["live", "none"])
def test_a_session_counts_once_it_is_raw(record):
    """Only sessions in raw mode count for --sessions. A session that enters raw mode after the last of these is closed,
    and the server exits when its sessions have ended."""
    with serving_alone("--record", record, "--sessions", "1", "can0,can1") as server:
        for _ in range(3):
            looks = Plain(server)
            assert (looks.text(), looks.answer("< open can0 >")) == ("< hi >", "< ok >")
            looks.close()
        late = Plain(server)
        assert (late.text(), late.answer("< open can1 >")) == ("< hi >", "< ok >")
        only = plain(server, "can0")
        late.write("< rawmode >")
        assert [late.text() for _ in range(3)] == ["< ok >", "< error too many sessions >", ""]
        late.close()
        assert only.answer("< send 123 1 7 >< stats >").startswith("< stats ")
        only.close()
        assert server.child.wait(WAIT) == 0


def come_and_go(server, count):
    """Opens `count` sessions, one after another; each opens an interface and closes it. A slot is free again after its
    client sees the end of the session, some 20 milliseconds later. Until then other sessions connect, but never more
    than the server has slots for."""
    leaving = collections.deque()
    for _ in range(count):
        client = plain(server, "can0")
        assert client.answer("< close >") == "< closed 0 0 >"
        leaving.append(client)
        if len(leaving) > AT_ONCE:
            see_off(leaving.popleft())
    for client in leaving:
        see_off(client)


def see_off(client):
    """Checks that a client sees the end of its session."""
    assert client.text() == ""
    client.close()


@pytest.mark.slow
def test_what_many_sessions_leave():
    """100,000 ended sessions leave behind no memory, threads or open files."""
    with serving_alone("--record", "none", "--sessions", "4294967295", "can0,can1") as server:
        held = server.held()
        come_and_go(server, 10_000)
        before = server.memory("VmRSS")
        come_and_go(server, 100_000)
        after = server.memory("VmRSS")
        print(f"{before} and {after} kilobytes after 10,000 and 110,000 sessions")
        assert after - before < 1024
        assert come_true(lambda: server.held() == held), f"{server.held()} in place of {held}"
        assert server.end() == "bus can0 entries 220000\n"


@pytest.mark.slow
def test_a_steady_load(request):
    """A server under a load of --entries a second for --minutes ends with a correct record."""
    rate, seconds = request.config.getoption("entries"), 60 * request.config.getoption("minutes")
    with serving_alone(*LIVE, *FAST, "can0,can1") as server:
        # Each frame adds three entries to the record: a send, an attempt and a receive.
        load = Load(server, many=100, rate=rate / 3)
        time.sleep(seconds)
        load.end()
        written = server.end(patience=600)
        said = run_long("audit", server.path("can0.rec"))
        assert said == f"ok {written.split()[-1]} entries\n"
        entries = int(written.split()[-1])
        print(f"{entries} entries in {seconds:.0f} seconds, {server.path('can0.rec')}")
        assert entries >= 0.9 * rate * seconds, "the load was not kept up"


def run_long(*words):
    """Returns the output of the program, however long it runs."""
    return subprocess.run([program(), *words], capture_output=True, text=True, check=True).stdout
