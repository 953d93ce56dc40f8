"""Tests which rule gave each attempt its verdict, as `canbusd audit --events --faults` reports it. There are tests of a
hand-written run, of each property that decides which rule applies, of the report on each kind of wrong faults file, and
of random runs and files, which are compared with rule_model.py. test_memory.py refuses memory to this command.
"""

import subprocess

import pytest

from commands import run_line
from random_rules import RECORD as RECORD_FILE
from random_rules import RuleMaker
from record_events import events_of
from rule_model import RunFaults, rules_of, with_rules
from serving import WAIT, program
from timed_benches import random_rates, rate_options

NAMES = "ecu,tester"
# Rules 1 and 2 apply from the start, although a line with a change during the run is between them. Rule 3 is given
# before attempt 3. Rules 2 and 3 are ended before attempt 4. Rule 4 is given before attempt 5, the first attempt after
# two idle ones.
FAULTS = """# of an afternoon
next 1 from ecu lastbit
1 global bit
at 3 next 1 global form

always id 123 skip 1 good
at 4 nofaults
at 5 next 2 good
"""
FRONT = """canbus record 1
bus 2 always 0000 10 100
open 0 256 = socket 0
send 0 123# = number 0
send 0 123# = number 1
send 0 123# = number 2
"""
# Each attempt with its parts. Rule 2 skips attempt 2, because rule 1 decided attempt 0 and the numbered line decided
# attempt 1. Attempt 3 shows that rule 2 comes before rule 3. In attempt 6 the verdict of rule 4 is good but the record
# has another verdict, so the line names no rule; rule 4 is used up all the same.
ATTEMPTS = """attempt 0.000000 lastbit = tried 0 0 123# lastbit 0002 0000; counts 0 8 0; rule 1
attempt 0.000001 global-bit = tried 0 0 123# destroyed 0000 0000; counts 0 16 0; counts 1 0 1
attempt 0.000002 good = tried 0 0 123# done 0002 0000; counts 0 15 0; counts 1 0 0
attempt 0.000003 good = tried 0 1 123# done 0002 0000; counts 0 14 0; rule 2
attempt 0.000004 good = tried 0 2 123# done 0002 0000; counts 0 13 0
attempt 0.000005 lastbit = idle
attempt 0.000006 good = idle
send 0 124# = number 3
send 0 124# = number 4
attempt 0.000007 good = tried 0 3 124# done 0002 0000; counts 0 12 0; rule 4
attempt 0.000008 lastbit = tried 0 4 124# lastbit 0002 0000; counts 0 20 0
attempt 0.000009 good = tried 0 4 124# done 0002 0000; counts 0 19 0
"""
# Where the bus accepted the rules: the script's two rules after the line about the bus, and the other rules before
# their attempts.
TOLD = {
    "open 0 ": "rule 1 next 1 from ecu lastbit\nrule 2 always id 123 skip 1 good\n",
    "attempt 0.000003 ": "rule 3 next 1 global form\n",
    "attempt 0.000004 ": "nofaults\n",
    "attempt 0.000007 ": "rule 4 next 2 good\n",
}
PLAIN = f"{FRONT.replace('record', 'events')}{ATTEMPTS}end 16\n"
EVENTS = "".join(
    "".join(told for begin, told in TOLD.items() if line.startswith(begin)) + line for line in PLAIN.splitlines(True)
)
RECORD = FRONT + "".join(f"{line.partition(';')[0]}\n" for line in ATTEMPTS.splitlines()) + "end 16\n"


def audited(folder, faults, *options, names=NAMES, record=RECORD):
    """Audits a record with these faults; returns the status, the output and the errors."""
    (folder / "run.rec").write_text(record)
    (folder / "run.faults").write_text(faults)
    return run_line(" ".join(["audit", "--events", *options, "--faults", f"{names}@run.faults", "run.rec"]), cwd=folder)


def test_a_run(tmp_path):
    assert audited(tmp_path, FAULTS) == (0, EVENTS, "")
    assert audited(tmp_path, FAULTS, "--cut") == (0, EVENTS, "")
    assert with_rules(events_of(RECORD.encode()), RunFaults(FAULTS, NAMES.split(","))) == EVENTS


def test_beside_time_on_the_wire(tmp_path):
    """The rule is the last part of a line, after the time on the wire."""
    status, written, errors = audited(tmp_path, FAULTS, "--bitrate", "500000")
    assert (status, errors) == (0, "") and rules_of(written) == ["1", "", "", "2", "", "4", "", ""]
    assert "; counts 0 14 0; wire 90000 96000 45 0; rule 2\n" in written


def test_a_record_that_is_cut_off(tmp_path):
    front = "".join(RECORD.splitlines(True)[:10])
    # The record has four attempts. Rules for later attempts come before the last line.
    wanted = "".join(EVENTS.splitlines(True)[:13]) + "nofaults\nrule 4 next 2 good\ncut 8\n"
    assert audited(tmp_path, FAULTS, "--cut", record=front) == (0, wanted, "")


def test_without_a_rule(tmp_path):
    """The line of an attempt without a rule has no part for it, and each accepted rule has a line."""
    nothing = "".join(f"{line.partition('; rule')[0]}\n" for line in PLAIN.splitlines())
    for faults in ("", "1 global bit\n"):
        assert audited(tmp_path, faults) == (0, nothing, "")
    for rule in ("next 9 id 125 good", "always from tester good"):
        wanted = nothing.replace("open 0 ", f"rule 1 {rule}\nopen 0 ", 1)
        assert audited(tmp_path, f"{rule}\n") == (0, wanted, "")
    wanted = nothing.replace("end 16\n", "rule 1 always good\nnofaults\nend 16\n")
    assert audited(tmp_path, "at 99 always good\nat 99 nofaults\n") == (0, wanted, "")


@pytest.mark.parametrize(
    "rule, words",
    [
        ("next 032 from tester,ecu,tester global bit", "next 32 from ecu,tester global bit"),
        ("always id 7ff skip 0 lastbit", "always id 7FF lastbit"),
        ("next 1 id 0000007f local stuff ecu", "next 1 id 0000007F local stuff ecu"),
        ("next 1 id 124:7FE global form", "next 1 id 00000124:000007FE global form"),
        ("always id 0:0 local form tester,ecu", "always local form ecu,tester"),
    ],
)
def test_words_of_a_rule(tmp_path, rule, words):
    """A rule is written with as few words as possible, and with names in the order of the interfaces."""
    status, written, errors = audited(tmp_path, rule)
    assert (status, errors) == (0, "") and written.splitlines()[2] == f"rule 1 {words}"
    assert audited(tmp_path, words)[1] == written


@pytest.mark.parametrize(
    "faults, rules",
    [
        # The first rule that matches the sender and the frame decides. Attempts 0, 1 and 6 do not match a rule with
        # `good`.
        ("always good\nalways good", ["1", "1", "1", "1", "1"]),
        ("always from tester good\nalways from tester,ecu good", ["2", "2", "2", "2", "2"]),
        ("always id 124 good\nalways good", ["2", "2", "2", "1", "1"]),
        # The first rule skips attempts 0 to 2. The second rule decides attempts 1 and 2, and skips only attempt 0.
        ("always skip 3 good\nalways skip 1 good", ["2", "1", "1", "1", "1"]),
        # A numbered line decides its attempt before any rule, and rules that are given before the same attempt keep
        # their order.
        ("3 good\nalways good\nat 4 next 1 good", ["1", "", "1", "1", "1"]),
        ("at 2 always id 124 good\nat 2 next 2 good\nalways from tester good", ["3", "3", "", "2", "2"]),
    ],
)
def test_which_one(tmp_path, faults, rules):
    status, written, errors = audited(tmp_path, faults)
    assert (status, errors) == (0, "")
    assert rules_of(written) == ["", "", *rules[:4], "", rules[4]]


def test_64_rules(tmp_path):
    """A rule that was given while 64 rules remained gets no number."""
    full = "next 1 good\n" * 64
    given = "at 0 always lastbit\nat 4 next 9 good\nat 4 next 9 global bit\n"
    # Attempts 0 and 1 use up rules 1 and 2, attempt 2 uses up rule 3, attempt 3 uses up rule 4, and so on.
    status, written, errors = audited(tmp_path, full + given)
    assert (status, errors) == (0, "") and rules_of(written) == ["", "", "3", "4", "5", "6", "", "8"]
    status, written, errors = audited(tmp_path, "next 3 good\n" * 64 + "at 8 nofaults\nat 7 nofaults\n")
    assert (status, written) == (1, "") and errors.startswith("canbusd: script line 66: bad line\n")
    late = (
        "next 1 good\n" * 4
        + "always id 7FF good\n" * 60
        + "at 0 next 9 global form\nat 4 next 1 lastbit\nat 4 always good"
    )
    status, written, errors = audited(tmp_path, late)
    # Before attempt 4 the first four rules are used up, so line 66 gives rule 65 and line 67 gives rule 66.
    assert (status, errors) == (0, "") and rules_of(written) == ["", "", "3", "4", "", "66", "", "66"]


# Lines of a file, and the report on the last of these lines: the fault, and the beginning of its note.
WRONG = [
    ("at 1", "bad line", "a line is at N RULE or at N nofaults"),
    ("at x nofaults", "bad line", "a line is at N RULE"),
    ("at +1 nofaults", "bad line", "a line is at N RULE"),
    ("at 12345678901 nofaults", "bad line", "a line is at N RULE"),
    ("at  1 nofaults", "bad line", "a line is at N RULE"),
    ("at 1 faults", "bad line", "a line is at N RULE"),
    ("at 1 nofaults ", "bad line", "a line is at N RULE"),
    ("at 1 5 global bit", "bad line", "a line is at N RULE"),
    ("at 1 at 2 nofaults", "bad line", "a line is at N RULE"),
    ("at 1 nofaults\r", "bad line", "this line ends with CR and LF"),
    ("at 1 next 1 good\r", "bad line", "this line ends with CR and LF"),
    ("at 1 next 0 good", "bad line", "next N: N has 1 to 8 digits and is not 0"),
    ("at 1 always id 1234 good", "bad line", "id ID: 3 hexadecimal digits"),
    ("at 1 next 1 from nobody good", "unknown interface", "nobody is none of ecu,tester"),
    ("at 1 next 1 local crc ecu,nobody", "unknown interface", "nobody is none of ecu,tester"),
    ("at 2 nofaults\nat 1 nofaults", "bad line", "the numbers after at do not decrease"),
    ("at 2 nofaults\nalways good\nat 1 always good", "bad line", "the numbers after at do not decrease"),
    ("next 1 from nobody good", "unknown interface", "nobody is none of ecu,tester"),
    ("5 good\n5 good", "repeated attempt", "line 2 has a verdict for this attempt"),
    ("always good\n" * 64 + "always good", "too many rules", "a bus has at most 64 rules"),
    ("At 1 nofaults", "bad line", "a line is NUMBER VERDICT"),
    ("nofaults", "bad line", "a line is NUMBER VERDICT"),
]


@pytest.mark.parametrize("lines, fault, note", WRONG)
def test_a_file_that_is_none(tmp_path, lines, fault, note):
    """If a faults file has a wrong line, no event is written, and the report shows the line."""
    status, written, errors = audited(tmp_path, f"# faults\n{lines}\n")
    number, last = lines.count("\n") + 2, lines.split("\n")[-1].replace("\r", "?")
    first, shown, why = errors.splitlines()
    assert (status, written, first) == (1, "", f"canbusd: script line {number}: {fault}")
    assert shown == f"  run.faults:{number}: {last}" and why.startswith(f"  {note}")


def test_lines_of_a_run_are_none_of_a_bus(tmp_path):
    """A bench script must not have lines that begin with `at`."""
    (tmp_path / "my.script").write_text("at 0 always good\n")
    status, written, errors = run_line("bench can0@my.script", cwd=tmp_path)
    assert (status, written) == (1, "") and errors.startswith(
        "canbusd: script line 1: bad line\n  my.script:1: at 0 always good\n"
    )


def test_names_and_files(tmp_path):
    """The names are checked first, then the faults file, and then the record."""
    (tmp_path / "my.faults").write_text("x\n")
    for word, fault in (
        ("ecu,ecu@none", "bad bus"),
        ("@my.faults", "bad bus"),
        ("ecu@none", "cannot open none"),
        ("ecu@my.faults", "script line 1: bad line"),
        ("ecu@", "cannot open "),
        ("ecu@.", "read fault"),
    ):
        status, written, errors = run_line(f"audit --events --faults {word} none.rec", cwd=tmp_path)
        assert (status, written) == (1, "") and errors.startswith(f"canbusd: {fault}\n"), errors


def test_names_by_their_places(tmp_path):
    """The position of a name in the list determines its interface."""
    faults = "always from ecu good"
    assert rules_of(audited(tmp_path, faults)[1]) == ["", "", "1", "1", "1", "1", "", "1"]
    assert rules_of(audited(tmp_path, faults, names="tester,ecu")[1]) == [""] * 8


@pytest.mark.parametrize("names", ["ecu", "ecu,tester,gateway", ",".join(f"can{i}" for i in range(16))])
def test_names_of_another_bus(tmp_path, names):
    """A wrong number of names is refused before any output, even if the record has a fault later. A fault in the first
    two lines is reported instead."""
    count = len(names.split(","))
    wanted = f"canbusd: names of another bus\n  names in --faults: {count}, interfaces of run.rec: 2\n"
    for record in (RECORD, FRONT, FRONT + "x\n", RECORD.replace("idle", "tried"), RECORD + "x"):
        for option in ([], ["--cut"]):
            assert audited(tmp_path, "always good\n", *option, names=names, record=record) == (1, "", wanted)
    for record, fault in (("", "bad version"), ("canbus record 1\nbus 2 never\n", "line 2: bad line")):
        status, written, errors = audited(tmp_path, "always good\n", names=names, record=record)
        assert (status, written) == (1, "") and errors.startswith(f"canbusd: {fault}\n")


def test_names_of_another_bus_in_parts(tmp_path):
    """A wrong number of names is refused, wherever the first of two files of the record ends."""
    (tmp_path / "run.faults").write_text("always good\n")
    for cut in range(1, len(FRONT)):
        (tmp_path / "one.rec").write_text(RECORD[:cut])
        (tmp_path / "two.rec").write_text(RECORD[cut:])
        status, written, errors = run_line("audit --events --faults ecu@run.faults one.rec two.rec", cwd=tmp_path)
        assert (status, written) == (1, "") and errors == (
            "canbusd: names of another bus\n  names in --faults: 1, interfaces of one.rec + two.rec: 2\n"
        )


# Random runs of the bench, and the faults of their buses.


def file_of(case, output, source):
    """Returns the faults of a run as a file: the lines of its script, with the changes during the run inserted between
    them."""
    later, tried = [], 0
    answers = [line for line in output if line.startswith("1 <")][2:]
    attempts = iter([line for line in output if line.startswith(("tried ", "idle"))])
    for kind, text in case.operations:
        if kind == "attempt":
            tried += next(attempts).startswith("tried ")
        elif kind == "line":
            later.append(f"at {tried} {text}")
        elif kind == "message":
            command, _, words = " ".join(text.split()).partition(" ")
            if answers.pop(0) in ("1 < ok >", "1 < error too many rules >"):
                later.append(f"at {tried} {words if command == 'fault' else command}")
    lines = case.script.split("\n")
    places = sorted(source.randint(0, len(lines)) for _ in later)
    for place, line in reversed([*zip(places, later)]):
        lines.insert(place, line)
    return "\n".join(lines)


def runs(maker, count, folder):
    """Yields `count` random runs: the names, the record, and the content of the faults file for each run."""
    while count:
        case = maker.case()
        case.write_to(folder)
        words = [program(), *case.words]
        done = subprocess.run(
            words, input=case.text.encode(), cwd=folder, capture_output=True, timeout=WAIT, check=False
        )
        # A run in which a line gives one rule too many ends with a fault, and is skipped.
        if done.returncode == 0:
            yield case.names, (folder / RECORD_FILE).read_bytes(), file_of(
                case, done.stdout.decode().splitlines(), maker.random
            )
            count -= 1


def events_with(data, names, faults, folder, *options):
    """Returns the program's events for a record with these faults."""
    (folder / "run.faults").write_text(faults)
    words = [program(), "audit", "--events", *options, "--faults", f"{','.join(names)}@run.faults", "/dev/stdin"]
    done = subprocess.run(words, input=data, cwd=folder, capture_output=True, timeout=WAIT, check=False)
    assert (done.returncode, done.stderr) == (0, b""), faults
    return done.stdout.decode()


def test_random_runs(request, cases, tmp_path):
    """Each attempt that a rule decided names this rule, and no other attempt names a rule."""
    found = 0
    for names, data, faults in runs(RuleMaker(request.config.getoption("seed")), cases // 10, tmp_path):
        wanted = with_rules(events_of(data), RunFaults(faults, names))
        assert events_with(data, names, faults, tmp_path) == wanted, faults
        found += wanted.count("; rule ")
    assert found, "no rule decided"


def test_faults_of_another_run(request, rng, cases, tmp_path):
    """If the faults are those of another run, rules that do not fit are not named, and the other rules continue as
    usual, also with time on the wire."""
    maker, found = RuleMaker(request.config.getoption("seed")), 0
    for names, data, faults in runs(maker, cases // 20, tmp_path):
        other = faults.split("\n")
        rng.shuffle(other)
        later = sorted((line for line in other if line.startswith("at ")), key=lambda line: int(line.split(" ")[1]))
        faults = "\n".join([line for line in other if not line.startswith("at ")] + later)
        rates = random_rates(rng)
        wanted = with_rules(events_of(data, rates=rates), RunFaults(faults, names))
        assert events_with(data, names, faults, tmp_path, *rate_options(rates)) == wanted, faults
        found += wanted.count("; rule ")
    assert found, "no rule decided"
