"""The rule that decided each attempt, found from the fault file that was given to the run or written by it.
test_report.py tests the page."""

import os
import random

import pytest

from canbusd._process.rates import Rates
from canbusd._run import fault_rules_of_run
from canbusd._run.fault_rules_of_run import FaultsFile, deciders, faults_beside, is_of_faults, read_ruled, taken_in
from canbusd.bench import Bench
from canbusd.record import BadRecord, parse_record, read_record, read_run

SCRIPT = "0 global bit\nnext 1 from a local crc b\nnext 1 id 124 good\n"


def ruled(record, path, *of):
    """Returns the rule that decided each attempt, according to the faults in this file."""
    return deciders(record, FaultsFile(path, *of))


def run_of(folder, script, *injected):
    """Returns the record and the attempts of a run. Node a sends 123 until it succeeds, then 124 and 125. Node b sends
    the same frames after that."""
    with Bench("a,b", faults=script or None, out=folder) as bench:
        one, other = bench.open("a"), bench.open("b")
        for identifier in (0x123, 0x124, 0x125):
            one.send(identifier)
        attempts = bench.run()
        for rule in injected:
            bench.inject(rule)
        for identifier in (0x123, 0x124, 0x125):
            other.send(identifier)
        attempts += bench.run()
        record = bench.record()
    (folder / "faults").write_text(script, encoding="utf-8")
    return record, attempts


def test_which_rule_decided(tmp_path):
    """A numbered line is not a rule. A rule can decide an attempt with the verdict `good`. The record and the bench
    agree."""
    record, attempts = run_of(tmp_path, SCRIPT)
    wanted = ["", "next 1 from a local crc b", "", "next 1 id 124 good", *[""] * 4]
    assert [attempt.fault for attempt in attempts] == ["global bit", "local crc b", *["good"] * 6]
    assert record.attempts == attempts
    assert ruled(record, tmp_path / "faults") == wanted
    again = read_run(tmp_path / "a.rec", ["a", "b"], cut=False, rates=None)
    assert not again.text and ruled(again, tmp_path / "faults", tmp_path / "a.rec") == wanted
    for faults in ("0 global bit\n", ""):
        (tmp_path / "faults").write_text(faults)
        assert ruled(record, tmp_path / "faults") == []


def test_which_of_the_rules_that_came_later_it_was(tmp_path):
    """The right rule is found even if two of the added rules cause the same fault. Added rules are numbered after those
    of the script, wherever their lines are."""
    rules = ["next 1 id 124 lastbit", "next 1 from b id 125 global form", "next 1 id 124:7FE global form"]
    record, attempts = run_of(tmp_path, SCRIPT, *rules)
    faults = [attempt.fault for attempt in attempts if attempt.winner == "b"]
    assert faults == ["good", "lastbit", "global form", "good", "global form", "good"]
    # Node a has made five attempts before the rules are added.
    later = "".join(f"at 5 {rule}\n" for rule in rules)
    of_a = ["", "next 1 from a local crc b", "", "next 1 id 124 good", ""]
    for text in (f"{SCRIPT}{later}", f"{later}at 99 nofaults\nat 99 next 1 good\n{SCRIPT}"):
        (tmp_path / "a.rec.faults").write_text(text)
        found = ruled(record, tmp_path / "a.rec.faults")
        assert found == [*of_a, "", rules[0], rules[2], "", rules[1], ""]


@pytest.mark.parametrize("ending", [".new", ".cut"])
def test_faults_whose_last_line_is_torn(tmp_path, ending):
    """An incomplete record has its faults in a file next to it, as after a server was killed. A last line without LF
    counts if it is complete.
    """
    _, _ = run_of(tmp_path, "", "next 1 lastbit")
    text = (tmp_path / "a.rec").read_text().rpartition("end ")[0]
    record = tmp_path / f"a.rec{ending}"
    whole = "at 3 next 1 from b lastbit\nat 3 next 1 from b good"
    wanted = [*[""] * 3, "next 1 from b lastbit", "next 1 from b good", "", ""]
    for cut, last, left_out in ((True, "", b""), (True, "\nat 4 next 1 from", b"at 4 next 1 from"), (False, "", b"")):
        record.write_text(text if cut else f"{text}end {text.count(chr(10)) - 2}\n")
        (tmp_path / f"a.rec.faults{ending}").write_text(whole + last)
        faults = faults_beside(record)
        assert deciders(read_record(record, ["a", "b"], cut=True), faults) == wanted
        assert faults.torn == left_out
    (tmp_path / f"a.rec.faults{ending}").write_text(f"{whole}\nat")
    for faults in (faults_beside(record), FaultsFile(tmp_path / f"a.rec.faults{ending}", record)):
        # If the record is complete, its faults must be complete too, even if the file name has the ending of an
        # incomplete record.
        with pytest.raises(BadRecord, match="^script line 3: bad line: `at`"):
            deciders(read_record(record, ["a", "b"], cut=True), faults)
    record.write_text(text)
    for only, fault in (("at", None), (f"bad\n{whole}\nat", "^script line 1: bad line: `bad`")):
        (tmp_path / f"a.rec.faults{ending}").write_text(only)
        if fault is None:
            assert deciders(read_record(record, ["a", "b"], cut=True), faults_beside(record)) == []
            continue
        with pytest.raises(BadRecord, match=fault):
            deciders(read_record(record, ["a", "b"], cut=True), faults_beside(record))


@pytest.mark.parametrize("ending", ["", ".new", ".cut"])
def test_faults_beside_a_record(tmp_path, ending):
    record = tmp_path / f"can0.rec{ending}"
    for name in ("can0.rec", "can0.faults", "can0.rec.faults", "can0.rec.faults.new", "can0.rec.faults.cut"):
        if name != f"can0.rec.faults{ending}":
            (tmp_path / name).touch()
    assert faults_beside(record) is None and faults_beside(str(record)) is None
    (tmp_path / f"can0.rec.faults{ending}").touch()
    for path in (record, str(record)):
        with faults_beside(path) as faults:
            assert (faults.path, faults.is_beside) == (str(tmp_path / f"can0.rec.faults{ending}"), True)


def test_a_name_that_looks_like_an_option(tmp_path):
    with Bench("-a,b", out=tmp_path) as bench:
        bench.open("-a").send(0x123)
        bench.attempt()
        record = bench.record()
    (tmp_path / "faults").write_text("at 0 next 1 from -a good\n")
    assert ruled(record, tmp_path / "faults") == ["next 1 from -a good"]
    (tmp_path / "faults").write_text("at 0 next 1 from c good\n")
    with pytest.raises(BadRecord, match="^script line 1: unknown interface: "):
        ruled(record, tmp_path / "faults")


def test_a_script_with_a_cr(tmp_path):
    """Only LF ends a line of a script."""
    record, _ = run_of(tmp_path, "# made by hand\rnext 1 lastbit\nnext 2 global bit\n")
    assert ruled(record, tmp_path / "faults") == ["next 2 global bit"] * 2 + [""] * 6


def test_faults_that_come_by_a_pipe(tmp_path):
    """Faults that are read from a pipe are read once."""
    record, _ = run_of(tmp_path, SCRIPT)
    wanted = ruled(record, tmp_path / "faults")
    reads, writes = os.pipe()
    os.write(writes, SCRIPT.encode())
    os.close(writes)
    assert any(wanted) and ruled(record, f"/dev/fd/{reads}") == wanted
    os.close(reads)


def test_a_record_that_comes_by_a_pipe(tmp_path):
    _, _ = run_of(tmp_path, SCRIPT)
    os.mkfifo(tmp_path / "fifo")
    record = read_run(tmp_path / "a.rec", ["a", "b"], cut=False, rates=None)
    with pytest.raises(BadRecord, match="^for its rules the record is read twice, so it has to be a file$"):
        ruled(record, tmp_path / "faults", tmp_path / "fifo")


def test_a_record_that_is_read_once(tmp_path):
    """A record that is read from a pipe is read once, with its times on the wire. Wrong faults and a wrong record are
    reported."""
    record, _ = run_of(tmp_path, SCRIPT)
    wanted = ruled(record, tmp_path / "faults")
    rates = Rates(500_000)
    reads, writes = os.pipe()
    os.write(writes, (tmp_path / "a.rec").read_bytes())
    os.close(writes)
    for path in (tmp_path / "a.rec", f"/dev/fd/{reads}"):
        found, rules = read_ruled(path, ["a", "b"], False, rates, FaultsFile(tmp_path / "faults", path))
        again = read_run(tmp_path / "a.rec", ["a", "b"], cut=False, rates=rates)
        assert rules == wanted and found.attempts == again.attempts and found.items == again.items
    os.close(reads)
    (tmp_path / "faults").write_text("next 0 good\n")
    with pytest.raises(BadRecord, match="^script line 1: bad line: ") as fault:
        read_ruled(tmp_path / "a.rec", ["a", "b"], False, None, FaultsFile(tmp_path / "faults"))
    assert is_of_faults(fault.value)
    (tmp_path / "b.rec").write_text("canbus record 1\n")
    (tmp_path / "faults").write_text(SCRIPT)
    with pytest.raises(BadRecord, match="^line 2: bad line") as fault:
        read_ruled(tmp_path / "b.rec", ["a", "b"], False, None, FaultsFile(tmp_path / "faults"))
    assert not is_of_faults(fault.value)


def record_of(*identifiers, names=("a", "b")):
    """Returns the record of a run in which the first interface sends one frame for each identifier."""
    lines = ["open 0 256 = socket 0"]
    for number, identifier in enumerate(identifiers):
        frame = f"{identifier:03X}#"
        lines += [f"send 0 {frame} = number {number}"]
        lines += [f"attempt 0.{number:06} good = tried 0 {number} {frame} done 0002 0000"]
    text = "\n".join(["canbus record 1", "bus 2 always 0000 10 10000", *lines, f"end {len(lines)}", ""])
    return parse_record(text.encode(), names=names)


FULL = "".join(f"next 1 id 7{number:02X} lastbit\n" for number in range(64))
LATE = "at 1 always lastbit\nat 1 nofaults\nat 1 next 1 id 001 good\n"
USED = "".join(f"at {number} next 1 id {number:03X} good\n" for number in range(100))


@pytest.mark.parametrize(
    "faults, rules",
    [
        # None of the 64 rules can be used up before attempt 0, so the bus refused the 65th rule. A refused rule gets no
        # number.
        (f"{FULL}at 0 next 9 id 001 global form\nat 0 nofaults\nat 0 next 1 id 000 good\n", {0: "next 1 id 000 good"}),
        # Attempt 0 has the verdict `good`. It could have used up one rule, but did not.
        (f"{FULL}at 1 next 9 id 001 good\nat 1 nofaults\nat 1 next 1 id 002 good\n", {2: "next 1 id 002 good"}),
        # All rules before attempt 2 are known.
        (f"at 0 next 1 id 000 good\n{FULL[:-22]}at 1 always good\nat 2 nofaults", {0: "next 1 id 000 good", 1: "always good"}),
        # An endless rule is never used up, and neither is a rule for more attempts than there were in the run.
        ("always id 7FF good\n" * 63 + "next 3 id 7FE good\nat 2 always lastbit\nat 2 nofaults\nat 2 always good", {2: "always good"}),
        ("always id 7FF good\n" * 63 + "next 2 id 7FE good\nat 2 always lastbit\nat 2 nofaults\nat 2 always good", {2: "always good"}),
        # Once all rules have been ended, earlier attempts no longer matter.
        ("at 1 nofaults\n" + "at 1 next 1 id 7FE good\n" * 64 + LATE, {1: "next 1 id 001 good"}),
        # USED has a hundred rules, and each of them is used up at once.
        (USED, {number: f"next 1 id {number:03X} good" for number in range(3)}),
    ],
    ids=["refused", "maybe refused", "all known", "none used up", "one used up", "ended", "all used up"],
)  # fmt: skip
def test_more_rules_than_have_a_place(tmp_path, faults, rules):
    (tmp_path / "faults").write_text(faults)
    found = ruled(record_of(0, 1, 2), tmp_path / "faults")
    assert {number: rule for number, rule in enumerate(found) if rule} == rules


def test_an_interface_that_is_called_nofaults(tmp_path):
    """An interface may be named nofaults. A rule whose last word is this name does not end other rules."""
    full = "at 0 always id 7FF local crc nofaults\n" * 63
    (tmp_path / "faults").write_text(f"{full}at 0 always good\nat 0 always local crc nofaults\n")
    record = record_of(0, names=["a", "nofaults"])
    assert ruled(record, tmp_path / "faults") == ["always good"]


def random_faults(source, attempts):
    """Returns more than 64 rules for these attempts. Most of them have the index of their attempt as identifier. Some
    apply to several attempts, some are refused because there is no room, and some are ended."""
    lines, left = [], source.choice([50, 70, 100])
    for attempt in range(attempts):
        for _ in range(source.choice([0, 1, 1, 1, 2, 3, left])):
            identifier = source.choice([attempt, attempt, source.randrange(attempts), 0x7FF])
            head = source.choice(["next 1", "next 1", "next 2", "always"])
            verdict = "good" if source.random() < 0.97 else "lastbit"
            lines.append(f"at {attempt} {head} id {identifier:03X} {verdict}")
        left = 0
        if source.random() < 0.03:
            lines.append(f"at {attempt} nofaults")
    start = [line.split(" ", 2)[2] for line in lines[: source.randrange(64)] if not line.endswith("nofaults")]
    return "".join(f"{line}\n" for line in [*lines, *start])


def test_the_rules_are_about_the_attempts(tmp_path):
    """The rule that decided an attempt always has the identifier of that attempt."""
    known = 0
    record = record_of(*range(120))
    for seed in range(40):
        (tmp_path / "faults").write_text(random_faults(random.Random(seed), 120))
        for attempt, rule in enumerate(ruled(record, tmp_path / "faults")):
            assert not rule or f" id {attempt:03X} " in f"{rule} ", (seed, attempt, rule)
            known += bool(rule)
    assert known > 1000, known


def test_only_the_rules_that_are_named_are_read(monkeypatch):
    """Of a hundred thousand rules, only those that decided an attempt are parsed."""
    read = []
    monkeypatch.setattr(fault_rules_of_run, "parse_rule", lambda text: read.append(text) or text)
    ended = [line for number in range(1, 100_001) for line in (f"rule {number} next 1 good", "nofaults")]
    attempts = ["attempt 0.000001 lastbit = tried 0 0 123# lastbit 0002 0000; rule 100001"] * 2
    events = "\n".join([*ended, "rule 100001 next 2 lastbit", *attempts])
    assert taken_in([events]).deciders() == ["next 2 lastbit"] * 2
    assert read == ["next 2 lastbit"]
