"""Tests the fault rules that `serve --out` writes next to a record in NAME.rec.faults, so that a reader knows each rule
of the run. There is a hand-written run that is compared byte for byte. In further tests, sessions add and end rules
while others send, and rule_model.py decides each attempt in the record by that file. Other tests kill servers, and
compare the files in a folder before and after a run. test_audit_rules.py tests what the lines mean.
"""

import contextlib
import os
import random
import re
import resource
import shutil
import signal
import subprocess
import threading
import time

import pytest

from commands import call
from live_records import FRONT, cut_audit, names_in
from random_rules import FRAMES, RuleMaker
from rule_model import MOST_RULES, Rule, RunFaults, rules_of, word_of
from serving import ROOT, WAIT, Plain, come_true, join, plain, program, serving_alone

WHEN = ("end", "live")
LIVE = ("--record", "live", "--flush", "0")
SCRIPT = "always id 7DF good\n"
#: How many bytes of lines may wait to be written for a bus.
MOST_BYTES = 64 << 20


def read(path):
    """Returns the content of a file with unchanged line ends."""
    with open(path, encoding="utf-8", newline="") as file:
        return file.read()


def whole_lines(path):
    """Returns the complete lines of a file that may end within a line, or an empty string if there is no file."""
    if not os.path.exists(path):
        return ""
    text = read(path)
    return text[: text.rfind("\n") + 1]


def start(folder, *words, **more):
    """Starts a server that exits at once; returns its status, output and errors."""
    options = "--until-eof", "--listen", "127.0.0.1:0", "--out", str(folder)
    return call(program(), "serve", *options, *words, **more)


def give(client, rule):
    """Gives this rule to the server; returns the answer."""
    return client.answer(f"< fault {rule} >")


class Written(RunFaults):
    """The faults of a run as a server writes them. Each line must have had an effect: there was room for each new rule,
    and a line that ends rules ended at least one."""

    def take(self, rule):
        assert len(self.rules) < MOST_RULES, f"{rule} was not taken"
        super().take(rule)

    def end(self):
        assert self.rules, "no rule was left"
        super().end()


def decided(record, faults, names):
    """Returns the rule that decides each attempt of a record with these faults, or an empty rule if none decides.
    Checks that each attempt has the verdict of the model."""
    model, found = Written(faults, names), []
    for line in record.splitlines():
        words = line.split(" ")
        if words[0] == "attempt" and words[4] == "tried":
            verdict, rule = model.decide(int(words[5]), word_of(words[7]))
            assert words[2] == verdict, f"attempt {len(found)}: {line}: and not {verdict} of rule {rule}"
            found.append(f"{rule or ''}")
    model.catch_up(10**10)
    return found


def audited(record, faults, names):
    """Returns the rules that the audit reports for the attempts in these files."""
    words = "--events", "--cut", "--faults", f"{','.join(names)}@{faults}"
    status, events, errors = call(program(), "audit", *words, "--", str(record))
    assert status == 0, errors
    return rules_of(events)


# A run that was worked out by hand. Rules 1 and 2 are in the script, which has no LF at its end. Rule 1 decides attempt
# 0, the numbered line decides attempt 1, and attempt 2 is good. Rule 3, the first rule given by a client, decides
# attempt 3, and attempt 4 is good. Then rules 2 and 4 are ended, so attempt 5 is good. Rule 5 decides attempt 6, and
# attempt 7 is good.
BY_HAND = """# of a morning: \u00e9t\u00e9

next 1 from ecu lastbit
1 global bit
always id 7DF good"""
GIVEN = """at 3 next 1 id 123 global form
at 3 next 1 from tester lastbit
at 5 nofaults
at 6 next 1 id 124 local crc ecu
at 8 always good
"""


@pytest.mark.parametrize("when", WHEN)
def test_a_run(when, tmp_path):
    """The faults of a run begin with the bytes of its own script, whether another bus has other faults or none."""
    (tmp_path / "my.script").write_text(BY_HAND, encoding="utf-8")
    words = LIVE if when == "live" else ()
    with serving_alone(*words, f"ecu,tester@{tmp_path}/my.script", "car0,car1", "body0") as server:

        def grows(name, text):
            """Waits until this file has this content, and returns whether it does. Always true for a server that writes
            its files when it ends."""
            path = server.path(f"{name}.rec.faults.new")
            return when == "end" or come_true(lambda: whole_lines(path) == text)

        assert grows("ecu", f"{BY_HAND}\n") and not any("car0.rec.faults" in name for name in names_in(server.folder))
        ecu, tester, car = plain(server, "ecu"), plain(server, "tester"), plain(server, "car1")
        ecu.write("< send 123 0 >")
        assert [tester.frame(), tester.frame()] == [("123", b"")] * 2
        assert [give(tester, "next 1 id 123 global form"), give(ecu, "next 1 from tester lastbit")] == ["< ok >"] * 2
        assert grows("ecu", f"{BY_HAND}\n" + "".join(GIVEN.splitlines(True)[:2]))
        ecu.write("< send 123 0 >")
        assert tester.frame() == ("123", b"")
        # The second `nofaults` ends no rules, so it writes no line.
        assert [ecu.answer("< nofaults >"), tester.answer("< nofaults >")] == ["< ok >"] * 2
        assert give(ecu, "next 0 good") == "< error bad rule >"
        assert give(ecu, "next 1 from car0 good") == "< error no such interface >"
        tester.write("< send 124 0 >")
        assert ecu.frame() == ("124", b"")
        assert tester.answer("<  fault  next 1\tid 124 local   crc ecu>") == "< ok >"
        tester.write("< send 124 1 1 >")
        assert ecu.frame() == ("124", b"\1")
        assert [give(tester, "always good"), give(car, "next 3 good")] == ["< ok >"] * 2
        assert grows("ecu", f"{BY_HAND}\n{GIVEN}") and grows("car0", "at 0 next 3 good\n")
        with contextlib.closing(plain(server, "body0")) as body:
            assert [body.answer("< nofaults >"), give(body, "x")] == ["< ok >", "< error bad rule >"]
        server.end()
        ruled = [f"{bus}.{kind}" for bus in ("car0", "ecu") for kind in ("log", "rec", "rec.faults")]
        assert names_in(server.folder) == ["body0.log", "body0.rec", *ruled]
        assert read(server.path("car0.rec.faults")) == "at 0 next 3 good\n"
        assert read(server.path("ecu.rec.faults")) == f"{BY_HAND}\n{GIVEN}"
        record, names = server.path("ecu.rec"), ["ecu", "tester"]
        wanted = ["1", "", "", "3", "", "", "5", ""]
        assert audited(record, server.path("ecu.rec.faults"), names) == wanted
        assert decided(read(record), f"{BY_HAND}\n{GIVEN}", names) == ["1", "", "", "3", "", "", "5", ""]


@pytest.mark.parametrize("when", WHEN)
@pytest.mark.parametrize(
    "script, written",
    [
        ("always good", "always good\n"),
        ("5 good\n", "5 good\n"),
        ("\n", "\n"),
        ("#", "#\n"),
        ("\n\n# \U0001f697 next 1 good\n\n", "\n\n# \U0001f697 next 1 good\n\n"),
    ],
    ids=["rule", "line", "blank", "comment", "several"],
)
def test_the_script_of_the_start(when, script, written, tmp_path):
    """The faults file contains the script as it was read at the start, with an LF at its end, even if the script file
    changes later."""
    (tmp_path / "my.script").write_text(script, encoding="utf-8")
    with serving_alone("--record", when, f"can0@{tmp_path}/my.script", out=tmp_path) as server:
        (tmp_path / "my.script").write_text("1 global bit\n")
        server.end()
    assert read(tmp_path / "can0.rec.faults") == written


@pytest.mark.parametrize("when", WHEN)
def test_without_faults(when):
    """If all rules are refused and `nofaults` ends no rule, no faults file is created."""
    with serving_alone("--record", when, "can0,can1") as server:
        one, other = plain(server, "can0"), plain(server, "can1")
        one.write("< send 123 0 >")
        assert other.frame() == ("123", b"")
        answers = [
            one.answer(f"< {words} >") for words in ("nofaults", "fault next 1", "fault", "faults", "nofaults 1")
        ]
        assert answers == ["< ok >", "< error bad rule >", "< error bad word count >", "< faults 0 >", answers[2]]
        server.end()
        assert names_in(server.folder) == ["can0.log", "can0.rec"]


@pytest.mark.parametrize("when", WHEN)
def test_rules_that_are_used_up(when):
    """`nofaults` writes no line if all rules are used up. If 64 rules are accepted and one more is refused, 64 are
    written."""
    with serving_alone("--record", when, "can0,can1") as server:
        one, other = plain(server, "can0"), plain(server, "can1")
        assert give(one, "next 2 lastbit") == "< ok >"
        one.write("< send 123 0 >")
        assert [other.frame() for _ in range(3)] == [("123", b"")] * 3
        assert [one.answer("< faults >"), one.answer("< nofaults >")] == ["< faults 0 >", "< ok >"]
        rules = [f"next {number} good" for number in range(1, 65)]
        assert [give(other, rule) for rule in rules] == ["< ok >"] * 64
        assert give(one, "next 65 good") == "< error too many rules >"
        one.write("< send 123 0 >")
        assert other.frame() == ("123", b"")
        # The frame has used up the first rule, so there is room for one more rule.
        assert [give(one, f"next {number} good") for number in (66, 67)] == ["< ok >", "< error too many rules >"]
        server.end()
        assert read(server.path("can0.rec.faults")) == "".join(
            ["at 0 next 2 lastbit\n", *(f"at 3 {rule}\n" for rule in rules), "at 4 next 66 good\n"]
        )


@pytest.mark.parametrize("when", WHEN)
def test_attempts_without_a_frame_are_not_counted(when, tmp_path):
    """Attempts in which an interface in bus off waits for its restart are not counted, because they have no frame."""
    (tmp_path / "my.script").write_text("next 32 global bit")
    words = ["--record", when, "--auto-restart", "5", f"can0,can1@{tmp_path}/my.script"]
    with serving_alone(*words) as server:
        one = plain(server, "can0")
        one.write("< send 123 0 >")
        assert come_true(lambda: one.answer("< faults >") == "< faults 0 >")
        assert come_true(lambda: one.answer("< status >") == "< status active 0 0 >")
        assert give(one, "next 1 good") == "< ok >"
        server.end()
        record = read(server.path("can0.rec"))
        assert (record.count(" = tried "), record.count(" = idle")) == (32, 5)
        assert read(server.path("can0.rec.faults")) == "next 32 global bit\nat 32 next 1 good\n"


# Sessions that give and end rules while others send.

BUSES = {"ecu": ["ecu", "tester", "gw"], "0": ["0", "next"]}
#: Options for frames without a pause, with a pause, and with the time that their bits take.
PACES = [("--pace", "0"), ("--pace", "1"), ("--bitrate", "1000000"), ("--bitrate", "50000", "--dbitrate", "1000000")]


class Crowd:
    """Sessions on the buses of a server, each in a thread. Two sessions send at each interface. Two sessions on each
    bus add and end rules until all frames have been sent."""

    def __init__(self, server, rng, rounds):
        self.is_over, self.faults = threading.Event(), []
        #: The rules that each bus accepted, and how often its rules were ended, by the name of the bus's first
        #: interface.
        self.taken = {first: [] for first in BUSES}
        self.ended = dict.fromkeys(BUSES, 0)
        works = []
        for first, names in BUSES.items():
            works += [(self.send, plain(server, name), random.Random(rng.random()), rounds) for name in names * 2]
            for name in rng.choices(names, k=2):
                giver = Plain(server)
                assert [giver.text(), giver.answer(f"< open {name} >")] == ["< hi >", "< ok >"]
                works.append((self.give, giver, RuleMaker(rng.random()), first))
        threads = [(threading.Thread(target=self.attend, args=work), work[0]) for work in works]
        self.senders = [thread for thread, work in threads if work == self.send]
        self.givers = [thread for thread, work in threads if work == self.give]
        for thread, _ in threads:
            thread.start()

    def attend(self, work, client, *words):
        """Calls `work` with a client until it returns or the server is gone."""
        try:
            with contextlib.suppress(OSError), contextlib.closing(client):
                work(client, *words)
        except Exception as fault:
            self.faults.append(fault)

    def send(self, client, source, rounds):
        client.write("< filter 0 >< fdframes 1 >")
        for _ in range(rounds):
            frames = source.choices(FRAMES, k=source.choice([1, 1, 1, 3, 8]))
            client.write("".join(f"< {frame} >" for frame in frames) + "< echo >")
            while (text := client.text()) != "< echo >":
                if not text:
                    return
            time.sleep(source.choice([0, 0, 0, 0.001, 0.005]))

    def give(self, client, maker, first):
        while not self.is_over.is_set():
            words = "nofaults" if maker.chance(0.15) else maker.message(BUSES[first])
            answer = client.answer(f"<{maker.spaced(words)}>")
            command, _, rule = " ".join(words.split()).partition(" ")
            if answer == "< ok >" and command == "nofaults":
                self.ended[first] += 1
            elif answer == "< ok >":
                self.taken[first].append(rule)
            elif not answer:
                return
            time.sleep(maker.random.choice([0, 0, 0.001, 0.004]))

    def end(self):
        """Waits until all frames have been sent or the server is gone, and then ends the sessions that give rules."""
        join(self.senders, 4 * WAIT)
        self.is_over.set()
        join(self.givers)
        assert not self.faults, self.faults[0]


def end_busy(server):
    """Ends a server, which may have reported that it was late."""
    status, _ = server.finish(3 * WAIT)
    assert status == 0, server.said()


def scripts(maker, folder):
    """Writes a random script, or none, for each bus; returns the scripts, and the arguments for the buses."""
    texts = {first: maker.script(names, 100) if maker.chance(0.7) else "" for first, names in BUSES.items()}
    for first, text in texts.items():
        (folder / f"{first}.script").write_text(text, encoding="utf-8")
    words = [",".join(names) + (f"@{folder}/{first}.script" if texts[first] else "") for first, names in BUSES.items()]
    return texts, words


def written(folder, first, ending=""):
    """Reads first the record of a bus and then its faults; returns the complete lines that the server has written to
    both."""
    path = f"{folder}/{first}.rec"
    return whole_lines(path + ending), whole_lines(f"{path}.faults{ending}")


def check(folder, first, script, record, faults):
    """Checks that the faults are the script followed by later lines. Checks that the verdict of each attempt, and the
    rule that the audit reports for it, are those of the model. Returns these rules, and the later lines without their
    numbers."""
    names = BUSES[first]
    front = script + "\n" * bool(script and not script.endswith("\n"))
    assert faults.startswith(front)
    lines = faults[len(front) :].splitlines()
    later = [re.fullmatch(r"at (0|[1-9][0-9]*) (\S.*)", line) for line in lines]
    assert all(later), lines
    numbers = [int(line[1]) for line in later]
    assert numbers == sorted(numbers)
    rules = decided(record, faults, names)
    for name, text in (("record", record), ("faults", faults)):
        with open(f"{folder}/{name}", "w", encoding="utf-8") as file:
            file.write(text)
    assert audited(f"{folder}/record", f"{folder}/faults", names) == rules
    return rules, [line[2] for line in later]


def alike(rules, names):
    """Returns the rules in a sorted form that does not depend on their spelling."""
    return sorted(repr(vars(Rule(0, text, names))) for text in rules)


@pytest.mark.parametrize("pace", PACES, ids=" ".join)
@pytest.mark.parametrize("count", [1, pytest.param(20, marks=pytest.mark.slow)])
@pytest.mark.parametrize("when", WHEN)
def test_rules_that_come_while_others_send(when, count, pace, rng, tmp_path):
    """The faults file has each rule that a bus accepted, at the attempt where it takes effect, and no rule that the bus
    refused."""
    decisions = 0
    for number in range(count):
        folder = tmp_path / str(number)
        folder.mkdir()
        texts, buses = scripts(RuleMaker(rng.random()), folder)
        words = [*(LIVE if when == "live" else ()), *pace, "--auto-restart", rng.choice(["1", "3", "20"]), *buses]
        with serving_alone(*words, out=folder) as server:
            crowd = Crowd(server, rng, 120)
            crowd.end()
            end_busy(server)
        for first, names in BUSES.items():
            rules, later = check(folder, first, texts[first], *written(folder, first))
            given = [line for line in later if line != "nofaults"]
            assert alike(given, names) == alike(crowd.taken[first], names)
            assert later.count("nofaults") <= crowd.ended[first]
            assert os.path.exists(folder / f"{first}.rec.faults") == bool(texts[first] or later)
            decisions += sum(map(bool, rules))
    assert decisions, "no rule decided"


@pytest.mark.parametrize("pace", PACES, ids=" ".join)
def test_faults_of_a_run_that_goes_on(pace, rng, tmp_path):
    """At any time during a run, the faults written so far are enough to explain the entries written so far."""
    texts, buses = scripts(RuleMaker(rng.random()), tmp_path)
    seen = []
    with serving_alone(*LIVE, *pace, "--auto-restart", "3", *buses, out=tmp_path) as server:
        crowd = Crowd(server, rng, 120)
        while any(thread.is_alive() for thread in crowd.senders):
            # A line of the faults is written before each entry of the record that it applies to.
            seen += [(first, *written(tmp_path, first, ".new")) for first in BUSES]
            time.sleep(0.01)
        crowd.end()
        end_busy(server)
    looks = rng.sample(seen, min(len(seen), 8))
    attempts = [len(check(tmp_path, first, texts[first], *look)[0]) for first, *look in looks]
    assert any(attempts), "no attempt was in a record before the end"


@pytest.mark.parametrize("kills", [4, pytest.param(100, marks=pytest.mark.slow)])
def test_servers_that_are_killed(kills, rng, tmp_path):
    """A killed server leaves faults that are enough to explain the written entries, and the next server sets them aside
    with the record."""
    attempts = 0
    for number in range(kills):
        folder = tmp_path / str(number)
        folder.mkdir()
        texts, buses = scripts(RuleMaker(rng.random()), folder)
        flush = rng.choice(["0", "1", "50"])
        words = ["--record", "live", "--flush", flush, *rng.choice(PACES), "--auto-restart", "3", *buses]
        with serving_alone(*words, out=folder) as server:
            crowd = Crowd(server, rng, 10_000)
            # This is a random time, not a wait for an event.
            time.sleep(rng.uniform(0.1, 1.5))
            server.child.kill()
            server.child.wait()
            crowd.end()
        files = {name: read(folder / name) for name in names_in(folder) if ".rec" in name}
        assert {name for name in files if not name.endswith(".new")} == set()
        for first, text in texts.items():
            rules, later = check(folder, first, text, *written(folder, first, ".new"))
            assert (f"{first}.rec.faults.new" in files) >= bool(text or later)
            assert cut_audit(folder / f"{first}.rec.new", is_replayed=False)[1], "it has an end"
            attempts += len(rules)
        set_aside(folder, files)
    assert attempts, "no server had made an attempt"


def set_aside(folder, files):
    """Checks that for each bus whose record has entries, the next server keeps the record together with its faults."""
    first = [name for name, text in files.items() if name.endswith(".rec.new") and text.count("\n") > 2]
    status, said, errors = start(folder, "--record", "end", *(",".join(names) for names in BUSES.values()))
    assert status == 0 and said.startswith("listening "), errors
    for name in first:
        kept = name.removesuffix(".new")
        assert f"note: {folder}/{name} of a run that was cut off is {folder}/{kept}.cut now\n" in errors
        assert read(folder / f"{kept}.cut") == files[name]
        faults = f"{kept}.faults.new"
        assert os.path.exists(folder / f"{kept}.faults.cut") == (faults in files)
        if faults in files:
            assert read(folder / f"{kept}.faults.cut") == files[faults]
    assert not [name for name in names_in(folder) if name.endswith((".new", ".faults"))]


# Folders that contain files from an earlier run.

KILLED = FRONT + "attempt 0.000000 good = idle\n" * 10


def leave(folder, **texts):
    """Writes the files of an earlier run. Each keyword is the part of a file name after the name of the bus."""
    for name, text in texts.items():
        (folder / f"can0.{name.replace('_', '.')}").write_text(text)


def left(folder):
    """Returns the contents of all faults files in a folder, by the part of their names after the name of the bus."""
    return {name.removeprefix("can0."): read(folder / name) for name in names_in(folder) if ".rec.faults" in name}


def bus_of(folder, script):
    """Returns the argument for a bus with this script, or without a script if it is empty."""
    (folder / "my.script").write_text(script)
    return f"can0@{folder}/my.script" if script else "can0"


def mine(script):
    """Returns the faults files that a run with this script leaves, or none if the script is empty."""
    return {"rec.faults": script} if script else {}


@pytest.mark.parametrize("when", [*WHEN, "none"])
@pytest.mark.parametrize("script", ["", SCRIPT], ids=["no script", "script"])
def test_faults_of_an_earlier_run(when, script, tmp_path):
    """The faults of an earlier run stay with its record until there is a new record."""
    leave(tmp_path, rec="of the record\n", rec_faults="of its faults\n", rec_faults_cut="of a cut one\n")
    before = left(tmp_path)
    with serving_alone("--record", when, bus_of(tmp_path, script), out=tmp_path) as server:
        assert left(tmp_path).items() >= before.items() and read(tmp_path / "can0.rec") == "of the record\n"
        server.end()
    assert left(tmp_path) == (before if when == "none" else {**mine(script), "rec.faults.cut": "of a cut one\n"})


@pytest.mark.parametrize("when", WHEN)
@pytest.mark.parametrize("script", ["", SCRIPT], ids=["no script", "script"])
def test_what_is_set_aside(when, script, tmp_path):
    """The record of a killed run is set aside with its own faults, if it has any, and never with those of another run."""
    for faults in ({"rec_faults_new": "next 1 lastbit\nat 5"}, {}):
        leave(tmp_path, rec_new=KILLED, rec_cut=FRONT, rec_faults_cut="of another one\n", **faults)
        status, said, errors = start(tmp_path, "--record", when, bus_of(tmp_path, script))
        assert status == 0 and said.startswith("listening "), errors
        assert f"note: {tmp_path}/can0.rec.new of a run that was cut off is {tmp_path}/can0.rec.cut now\n" in errors
        aside = {"rec.faults.cut": text for text in faults.values()}
        assert read(tmp_path / "can0.rec.cut") == KILLED and left(tmp_path) == {**aside, **mine(script)}


@pytest.mark.parametrize("when", WHEN)
@pytest.mark.parametrize("kind", ["rec.cut", "rec.faults.cut"])
def test_a_folder_where_something_is_set_aside(when, kind, tmp_path):
    """If a file of one bus can't be set aside, the start is refused, and no file of any bus is set aside."""
    killed = [tmp_path / f"{bus}.{end}" for bus in ("can0", "can2") for end in ("rec.new", "rec.faults.new")]
    for path in killed:
        path.write_text(KILLED if path.name.endswith("rec.new") else f"# of {path.name}\n")
    before = {path.name: read(path) for path in killed}
    (tmp_path / f"can2.{kind}").mkdir()
    status, said, errors = start(tmp_path, "--record", when, "can0", "can2")
    assert (status, said) == (1, "")
    assert errors == f"canbusd: cannot open {tmp_path}\n  {tmp_path}/can2.{kind}: is a directory\n"
    assert names_in(tmp_path) == sorted([*before, f"can2.{kind}"])
    assert {path.name: read(path) for path in killed} == before
    assert start(tmp_path, "--record", "none", "can2")[0] == 0
    (tmp_path / f"can2.{kind}").rmdir()
    assert start(tmp_path, "--record", when, "can0", "can2")[0] == 0
    assert {name: read(tmp_path / name.replace(".new", ".cut")) for name in before} == before


def start_beside_a_mount(place, folder, *words):
    """Starts a server as `start` does, but no file can be renamed to `place`, because something is mounted there."""
    script = 'mount --bind "$0" "$0" && exec "$@"'
    mount = ["unshare", "--user", "--map-root-user", "--mount", "sh", "-c", script, place]
    if not shutil.which("unshare") or call(*mount, "true")[0] != 0:
        pytest.skip("nothing may be mounted in a name space of one's own")
    options = "--until-eof", "--listen", "127.0.0.1:0", "--out", str(folder)
    return call(*mount, program(), "serve", *options, *words)


@pytest.mark.parametrize("when", WHEN)
@pytest.mark.parametrize("kind", ["rec.cut", "rec.faults.cut"])
def test_a_place_that_is_taken_meanwhile(when, kind, tmp_path):
    """If a rename fails because something is at its target, the start is refused, but the record and its faults are not
    lost: the next start sets both aside."""
    leave(tmp_path, rec_new=KILLED, rec_faults_new="# of it\n", rec_cut=FRONT, rec_faults_cut="# of another one\n")
    place = f"{tmp_path}/can0.{kind}"
    status, said, errors = start_beside_a_mount(place, tmp_path, "--record", when, "can0")
    assert (status, said) == (1, "")
    assert errors == f"canbusd: cannot open {tmp_path}\n  {place}: Device or resource busy (os error 16)\n"
    assert read(tmp_path / "can0.rec.new") == KILLED and read(tmp_path / "can0.rec.cut") == FRONT
    assert left(tmp_path)["rec.faults.new"] == "# of it\n"
    assert start(tmp_path, "--record", when, "can0")[0] == 0
    assert read(tmp_path / "can0.rec.cut") == KILLED and left(tmp_path) == {"rec.faults.cut": "# of it\n"}


@pytest.fixture
def killed_before(tmp_path):
    """Returns environments in which a program is killed before its first rename, before its second rename, and so on
    (killed_rename.c)."""
    if not shutil.which("cc"):
        pytest.skip("no C compiler: cc")
    library, source = tmp_path / "killed_rename.so", os.path.join(ROOT, "tests", "helpers", "killed_rename.c")
    subprocess.run(["cc", "-O2", "-Wall", "-Werror", "-fPIC", "-shared", "-o", library, source], check=True)
    return ({**os.environ, "LD_PRELOAD": str(library), "RENAME": str(number)} for number in range(1, 20))


def all_kills(folder, environments, leave_files, *words):
    """Starts a server in a new folder with these files for each environment, until one of them is not killed. Yields
    each folder after its server has ended."""
    for number, environment in enumerate(environments):
        place = folder / f"of-{number}"
        place.mkdir()
        status, _, errors = start(place, *words, *leave_files(place), env=environment)
        yield place
        if status != -signal.SIGKILL:
            assert status == 0 and number, errors
            return
    raise AssertionError("each server was killed")


@pytest.mark.parametrize("when", WHEN)
def test_kills_at_the_end(when, tmp_path, killed_before):
    """A server that is killed while it ends leaves no record next to the faults of another run."""
    later = "always id 7DE good\n"

    def earlier_run(place):
        assert start(place, "--record", when, bus_of(place, SCRIPT))[0] == 0
        return ("--txqueue", "5", bus_of(place, later))

    found = []
    for place in all_kills(tmp_path, killed_before, earlier_run, "--record", when):
        is_later = " 5 " in read(place / "can0.rec").splitlines()[1]
        faults = left(place).get("rec.faults")
        assert faults in (None, later if is_later else SCRIPT)
        found.append((is_later, faults))
    assert not found[0][0] and found[-1] == (True, later)


@pytest.mark.parametrize("when", WHEN)
def test_kills_while_something_is_set_aside(when, tmp_path, killed_before):
    """A server that is killed while it sets files aside leaves no record next to the faults of another run."""

    def killed_run(place):
        leave(place, rec_new=KILLED, rec_faults_new="# of it\n", rec_cut=FRONT, rec_faults_cut="# of another one\n")
        return ("can0",)

    for place in all_kills(tmp_path, killed_before, killed_run, "--record", when):
        is_aside = read(place / "can0.rec.cut") == KILLED
        faults = left(place).get("rec.faults.cut")
        assert faults in (None, "# of it\n" if is_aside else "# of another one\n")
    assert is_aside and faults == "# of it\n"


@pytest.mark.parametrize("when", WHEN)
@pytest.mark.parametrize("script", ["", SCRIPT], ids=["no script", "script"])
def test_what_a_start_that_failed_left(when, script, tmp_path):
    """The files of a failed start replace no files that were set aside."""
    leave(tmp_path, rec_new=FRONT, rec_cut=KILLED, rec_faults_new="next 1 lastbit\n" * 9, rec_faults_cut="of it\n")
    status, said, errors = start(tmp_path, "--record", when, bus_of(tmp_path, script))
    assert (status, errors) == (0, "") and said.startswith("listening ")
    assert left(tmp_path) == {**mine(script), "rec.faults.cut": "of it\n"}
    assert read(tmp_path / "can0.rec.cut") == KILLED


def test_without_a_record(tmp_path):
    """A server without a record writes no faults, and leaves the faults of a killed run to servers that write records."""
    leave(tmp_path, rec_new=KILLED, rec_faults_new="of it\n")
    with serving_alone("--record", "none", bus_of(tmp_path, SCRIPT), out=tmp_path) as server:
        assert give(plain(server, "can0"), "next 1 good") == "< ok >"
        server.end()
    assert left(tmp_path) == {"rec.faults.new": "of it\n"} and read(tmp_path / "can0.rec.new") == KILLED


@pytest.mark.parametrize("when", ["end", "none"])
def test_without_a_folder(when, tmp_path):
    with serving_alone("--record", when, bus_of(tmp_path, SCRIPT), out=None) as server:
        assert give(plain(server, "can0"), "next 1 good") == "< ok >"
        server.end()
        assert names_in(server.folder) == []


@pytest.mark.parametrize("when", WHEN)
@pytest.mark.parametrize("kind", ["rec.faults", "rec.faults.new"])
def test_a_place_that_takes_no_file(when, kind, tmp_path):
    """A faults file that can't be written is reported, and its bus leaves no record that looks complete."""
    (tmp_path / f"can0.{kind}" / "full").mkdir(parents=True)
    leave(tmp_path, rec="of an earlier run\n")
    status, _, errors = start(tmp_path, "--record", when, bus_of(tmp_path, SCRIPT))
    assert status == 1 and f"\n  {tmp_path}/can0.rec.faults" in errors, errors
    assert errors.startswith((f"canbusd: cannot open {tmp_path}\n", "canbusd: write fault\n"))
    assert (tmp_path / f"can0.{kind}" / "full").exists()


@pytest.mark.parametrize("when", WHEN)
@pytest.mark.parametrize("kind", ["rec.faults", "rec.faults.new"])
def test_links(when, kind, tmp_path):
    """Links at the names of faults files, to a plain file or to nothing, are not followed: the new file replaces the
    link."""
    others = tmp_path / "others"
    others.write_text("of others\n")
    for target in (others, tmp_path / "nothing"):
        (tmp_path / f"can0.{kind}").symlink_to(target)
        assert start(tmp_path, "--record", when, bus_of(tmp_path, SCRIPT))[0] == 0
        assert not (tmp_path / f"can0.{kind}").is_symlink() and left(tmp_path) == {"rec.faults": SCRIPT}
        (tmp_path / "can0.rec.faults").unlink()
    assert others.read_text() == "of others\n" and not (tmp_path / "nothing").exists()


@pytest.mark.parametrize("when", WHEN)
def test_a_fifo_where_faults_are_written_first(when, tmp_path):
    """A fifo at the name that the faults are written to first is removed, like any other file of that name."""
    os.mkfifo(tmp_path / "can0.rec.faults.new")
    assert start(tmp_path, "--record", when, bus_of(tmp_path, SCRIPT))[0] == 0
    assert left(tmp_path) == {"rec.faults": SCRIPT}


@pytest.mark.parametrize("when", WHEN)
def test_a_fifo_for_faults(when, tmp_path):
    """A fifo is refused as a faults file, just as for a record, so the server never waits for a reader when it ends."""
    os.mkfifo(tmp_path / "can0.rec.faults")
    options = "--until-eof", "--listen", "127.0.0.1:0", "--out", tmp_path, "--record", when
    words = [program(), "serve", *options, bus_of(tmp_path, SCRIPT)]
    done = subprocess.run(words, stdin=subprocess.DEVNULL, capture_output=True, text=True, timeout=WAIT, check=False)
    said = f"canbusd: cannot open {tmp_path}\n  {tmp_path}/can0.rec.faults: "
    assert (done.returncode, done.stdout) == (1, "") and done.stderr.startswith(said), done.stderr


def may_grow(most):
    """Returns a function that limits the size of files to `most` bytes; larger writes are refused."""

    def begin():
        signal.signal(signal.SIGXFSZ, signal.SIG_IGN)
        resource.setrlimit(resource.RLIMIT_FSIZE, (most, most))

    return begin


def test_a_disk_that_is_full(tmp_path):
    """Faults that do not fit on the disk are reported. The new record has no faults next to it that belong to another
    run or that look complete."""
    leave(tmp_path, rec="of an earlier run\n", rec_faults="of its faults\n")
    script = "# a comment\n" * 1000
    status, said, errors = start(tmp_path, "--record", "end", bus_of(tmp_path, script), preexec_fn=may_grow(5000))
    assert (status, said.count("bus can0 entries 0\n")) == (1, 1), errors
    assert errors.startswith(f"canbusd: write fault\n  {tmp_path}/can0.rec.faults.new: "), errors
    assert call(program(), "audit", f"{tmp_path}/can0.rec")[1] == "ok 0 entries\n"
    growing = left(tmp_path).pop("rec.faults.new", "")
    assert script.startswith(growing) and "rec.faults" not in left(tmp_path)
    # The incomplete faults replace no other file.
    assert start(tmp_path, "--record", "end", "can0")[::2] == (0, "") and left(tmp_path) == {}


def test_a_disk_that_is_full_at_the_start(tmp_path):
    """A server whose script does not fit on the disk does not start, and leaves the folder unchanged."""
    leave(tmp_path, rec="of an earlier run\n", rec_faults="of its faults\n")
    bus = bus_of(tmp_path, "# a comment\n" * 1000)
    status, said, errors = start(tmp_path, "--record", "live", bus, preexec_fn=may_grow(5000))
    assert (status, said) == (1, "") and errors.startswith(f"canbusd: cannot open {tmp_path}\n"), errors
    assert f"  {tmp_path}/can0.rec.faults.new: " in errors
    assert left(tmp_path) == {"rec.faults": "of its faults\n"} and read(tmp_path / "can0.rec") == "of an earlier run\n"


@pytest.mark.parametrize("when", WHEN)
def test_rules_that_find_no_room(when):
    """Rules that do not fit on the disk are reported and the bus continues. No faults file is left, because it would
    lack a rule."""
    rule = "next 99999999 from can1 id 00000123:1FFFFFFF good"
    words = [*(LIVE if when == "live" else ()), "can0,can1"]
    with serving_alone(*words, preexec_fn=may_grow(5000)) as server:
        one, other = plain(server, "can0"), plain(server, "can1")
        for _ in range(100):
            assert [give(one, rule), one.answer("< nofaults >")] == ["< ok >"] * 2
        one.write("< send 123 0 >")
        assert other.frame() == ("123", b"")
        assert server.finish()[0] == 1
        assert re.search(r"^canbusd: write fault\n  \S*can0\.rec\.faults\.new: File too large", server.said(), re.M)
        assert server.audited("can0.rec") >= 3
        assert names_in(server.folder) == ["can0.log", "can0.rec"]


def test_a_kill_after_rules_that_find_no_room(tmp_path):
    """After a kill the record is set aside without faults, because the written faults lack rules that apply to its
    entries."""
    with serving_alone(*LIVE, "can0,can1", out=tmp_path, preexec_fn=may_grow(5000)) as server:
        one, other = plain(server, "can0"), plain(server, "can1")
        for _ in range(100):
            assert give(one, "next 99999999 from can1 id 00000123:1FFFFFFF good") == "< ok >"
            assert one.answer("< nofaults >") == "< ok >"
        assert come_true(lambda: "canbusd: write fault\n" in server.said())
        one.write("< send 123 0 >")
        assert other.frame() == ("123", b"")
        assert come_true(lambda: "attempt" in read(tmp_path / "can0.rec.new"))
        assert read(tmp_path / "can0.rec.faults.new") == ""
        server.child.kill()
        server.child.wait()
    assert start(tmp_path, "--record", "live", "can0,can1")[0] == 0
    assert left(tmp_path) == {} and "attempt" in read(tmp_path / "can0.rec.cut")


@pytest.mark.parametrize("when", [*WHEN, "none", "nowhere"])
def test_the_most_lines_that_wait(when):
    """At most 64 MiB of lines wait for each bus. After that, rules are refused, and frames continue. The lines are
    written when the server ends. Lines that are written while the server runs do not wait, and without a faults file no
    lines are kept."""
    name = "longest-name.15"
    rule = f"always from {','.join([name] * 60)} good"
    words = ["--record", "end" if when == "nowhere" else when, f"{name},can1"]
    with serving_alone(*words, out=None if when == "nowhere" else ".") as server:
        one, other = plain(server, name), plain(server, "can1")
        lines, length, refused = [], 0, []
        while not refused and length < MOST_BYTES + 1_000_000:
            one.write(f"< fault {rule} >" * MOST_RULES)
            answers = [one.text() for _ in range(MOST_RULES)]
            taken = answers.count("< ok >")
            refused = answers[taken:]
            assert one.answer("< nofaults >") == "< ok >" and answers[:taken] == ["< ok >"] * taken
            lines.append(f"at 0 {rule}\n" * taken + "at 0 nofaults\n" * bool(taken))
            length += len(lines[-1])
        assert {*refused} == ({"< error no memory >"} if when == "end" else set())
        one.write("< send 123 0 >")
        assert other.frame() == ("123", b"")
        server.end(patience=3 * WAIT)
        assert not refused or MOST_BYTES <= length < MOST_BYTES + 2000
        if when in WHEN:
            assert read(server.path(f"{name}.rec.faults")) == "".join(lines)
