"""Fault rules: on random runs and strings, the program computes the same verdicts as rule_model.py. Every way to give a
rule works. The model computes the verdict of each attempt in a record, and the number of remaining rules in each
answer. The package decides whether a string is a rule.
"""

import itertools
import re
import shlex
import subprocess

import pytest

from canbusd.faults import lines_of
from canbusd.record import read_record
from canbusd._words import MOST_RULES
from canbusd.rules import NAMES, check_rules, is_rule, parse_rule
from random_rules import RECORD, RuleMaker
from rule_model import EXTENDED, REMOTE, RunFaults, word_of
from serving import Plain, plain, serving

LASTBIT = "next 1 lastbit"
# Matches the words before the names of senders, and these names.
SENDERS = re.compile(f"(?:next (?!0+ )[0-9]{{1,8}}|always) from ({NAMES})(?: |$)")


def fault_of(text, names, faults):
    """Returns the error for this string as a rule on a bus with these faults, or None if the bus accepts the rule."""
    try:
        rule = parse_rule(text)
    except ValueError:
        # An unknown sender is reported before other errors. Otherwise the first wrong word decides.
        senders = SENDERS.match(text)
        known = not senders or {*senders[1].split(",")} <= {*names}
        return "bad rule" if known else "no such interface"
    try:
        check_rules([rule], names)
    except ValueError:
        return "no such interface"
    return "too many rules" if len(faults.rules) == MOST_RULES else None


def answer(text, names, faults):
    """Changes the faults as a message about rules requests, and returns the answer to the message."""
    command, _, words = " ".join(text.split()).partition(" ")
    if command == "faults":
        return f"< faults {len(faults.rules)} >"
    if command == "nofaults":
        faults.end()
        return "< ok >"
    fault = fault_of(words, names, faults)
    if not fault:
        faults.take(words)
    return f"< error {fault} >" if fault else "< ok >"


def shown(verdict, rule, names):
    """Returns how the line of an attempt ends with `--show-faults`: with the fault and the number of its rule."""
    kind, _, hit = verdict.partition(":")
    members = ",".join(name for place, name in enumerate(names) if hit and int(hit, 16) >> place & 1)
    fault = "" if verdict == "good" else f"; fault {' '.join([*kind.split('-'), *filter(None, [members])])}"
    return f"{fault}; rule {rule}" if rule else fault


def run(program, words, text, folder):
    """Runs the program on this input."""
    return subprocess.run(
        [program, *words], input=text.encode(), cwd=folder, capture_output=True, timeout=60, check=False
    )


def difference(program, case, folder):
    """Returns the first difference between a run and the model, or None if they agree."""
    case.write_to(folder)
    done = run(program, case.words, case.text, folder)
    if done.returncode:
        return f"status {done.returncode}: {done.stderr!r}"
    lines = done.stdout.decode().splitlines()
    answers = [line[2:] for line in lines if line.startswith("1 <")][2:]
    tried = [line for line in lines if line.startswith(("tried ", "idle"))]
    entries = (line.split(" ") for line in (folder / RECORD).read_text().splitlines())
    attempts = [words for words in entries if words[4:5] == ["tried"]]
    faults, ends = RunFaults(case.script, case.names), []
    for kind, text in case.operations:
        if kind == "line":
            fault = fault_of(text, case.names, faults)
            if fault:
                return f"the bench took `fault {text}`, which is {fault}"
            faults.take(text)
        elif kind == "message":
            wanted, got = answer(text, case.names, faults), answers.pop(0)
            if got != wanted:
                return f"{text!r}: {got}, and not {wanted}"
        elif kind == "attempt" and tried.pop(0).startswith("tried "):
            words = attempts.pop(0)
            verdict, rule = faults.decide(int(words[5]), word_of(words[7]))
            if words[2] != verdict:
                return f"{' '.join(words)}: and not {verdict} of rule {rule}"
            ends.append(shown(verdict, rule, case.names))
    if answers or tried or attempts:
        return f"{answers} {tried} {attempts}"
    return shown_difference(program, case, folder, lines, iter(ends))


def shown_difference(program, case, folder, lines, ends):
    """Runs the same case with `--show-faults`, which adds these ends to the lines of attempts with a frame. Returns the
    first difference."""
    done = run(program, ["bench", "--show-faults", *case.words[1:]], case.text, folder)
    wanted = [line + next(ends) if line.startswith("tried ") else line for line in lines]
    pairs = itertools.zip_longest(done.stdout.decode().splitlines(), wanted)
    return next((f"{got}, and not {line}" for got, line in pairs if got != line), None)


@pytest.mark.parametrize("count", [200, pytest.param(2000, marks=pytest.mark.slow)])
def test_random_runs(request, program, tmp_path, count):
    """The model computes the same verdicts and the same answers as the program. The files of a run that differs are
    kept."""
    maker, faults = RuleMaker(request.config.getoption("seed")), []
    # Other tests cover lines that end a bench with an error. Here only a message gives a 65th rule.
    cases = filter(lambda case: not overfull(case), iter(maker.case, None))
    for number, case in enumerate(itertools.islice(cases, count)):
        differs = difference(program, case, tmp_path / str(number % 2))
        if differs:
            case.write_to(tmp_path / f"differs{number}")
            faults.append(f"{tmp_path}/differs{number}: {shlex.join(case.words)}: {differs}")
    assert not faults, "\n".join(faults[:10])


def overfull(case):
    """Returns whether a line of this case might give more rules than a bus accepts."""
    given = sum(kind in ("line", "message") for kind, _ in case.operations) + len(lines_of(case.script))
    return given > MOST_RULES and any(kind == "line" for kind, _ in case.operations)


def test_the_same_input_gives_the_same_output(request, program, tmp_path):
    maker = RuleMaker(request.config.getoption("seed"))
    for _ in range(5):
        case = maker.case()
        case.write_to(tmp_path)
        first, again = (run(program, case.words, case.text, tmp_path) for _ in range(2))
        assert (first.returncode, first.stdout, first.stderr) == (again.returncode, again.stdout, again.stderr)


def test_random_texts_in_messages(program, rng, cases, tmp_path):
    """The program and the package agree on whether a string is a rule, and on the reason if it is not."""
    maker, names = RuleMaker(rng.random()), ["can0", "can1"]
    rules = [maker.rule(names) for _ in range(cases)]
    texts = [text.encode("ascii", "ignore").decode() for text in map(maker.changed, rules)]
    lines = ["session 1", "feed 1 < open can0 >", *(f"feed 1 < nofaults >< fault {text} >" for text in texts)]
    done = run(program, ["bench", "can0,can1"], "\n".join(lines), tmp_path)
    assert done.returncode == 0, done.stderr
    answers = done.stdout.decode().splitlines()[2:]
    assert len(answers) == len(texts)
    for text, line in zip(texts, answers):
        assert line == f"1 < ok >{answer(f'fault {text}', names, RunFaults('', names))}", text


@pytest.mark.parametrize("count", [50, pytest.param(1000, marks=pytest.mark.slow)])
def test_random_texts_in_scripts_and_lines(program, rng, tmp_path, count):
    """Each invalid rule is reported with its line number and a note."""
    maker, names = RuleMaker(rng.random()), ["can0", "can1"]
    for _ in range(count):
        text = maker.changed(maker.rule(names))
        fault = fault_of(text, names, RunFaults("", names))
        reported = {"bad rule": "bad line", "no such interface": "unknown interface"}.get(fault)
        if is_rule(text):
            (tmp_path / "my.script").write_text(f"# one line before\n{text}\n")
            done = run(program, ["bench", "can0,can1@my.script"], "", tmp_path)
            check_report(done, reported and f"script line 2: {reported}", text)
        done = run(program, ["bench", "can0,can1"], f"session 1\nfault {text}\n", tmp_path)
        check_report(done, fault and "line 2: bad line", text)


def check_report(done, reported, text):
    """Checks that a run ended with this error and a note, or without an error."""
    first, *notes = done.stderr.decode().splitlines() or [""]
    assert (done.returncode, first) == ((1, f"canbusd: {reported}") if reported else (0, "")), text
    assert bool(notes) is bool(reported) and all(note.startswith("  ") for note in notes), notes


def test_64_rules(program, tmp_path):
    """A 65th rule is refused and changes nothing, whichever way it is given."""
    (tmp_path / "full.script").write_text("always good\n" * 64)
    (tmp_path / "more.script").write_text("always good\n" * 64 + "\n" + LASTBIT)
    done = run(program, ["bench", "can0@more.script"], "", tmp_path)
    check_report(done, "script line 66: too many rules", "more.script")
    asks = "session 1\nfeed 1 < open can0 >\n"
    message = "feed 1 < fault next 1 lastbit >< faults >\n"
    done = run(program, ["bench", "can0@full.script"], f"{asks}{message}", tmp_path)
    assert done.stdout.decode().splitlines()[-1] == "1 < error too many rules >< faults 64 >"
    done = run(program, ["bench", "can0@full.script"], f"{asks}fault {LASTBIT}\n", tmp_path)
    check_report(done, "line 3: bad line", "full.script")
    done = run(program, ["bench", "can0@full.script"], f"{asks}feed 1 < nofaults >\n{message}", tmp_path)
    assert done.stdout.decode().splitlines()[-1] == "1 < ok >< faults 1 >"


# The modes of a session, with the reply to a rule in each mode.
MODES = {
    "": "wrong state",
    "< open can0 >": "",
    "< open can0 >< rawmode >": "",
    "< open can0 >< rawmode >< close >": None,
}


@pytest.mark.parametrize("opening, fault", MODES.items())
def test_when_a_session_may_give_rules(program, tmp_path, opening, fault):
    """A session may give rules only after it has opened an interface."""
    lines = f"session 1\nfeed 1 {opening}< echo >\nfeed 1 < fault {LASTBIT} >< faults >< nofaults >< faults >\n"
    done = run(program, ["bench", "can0"], lines, tmp_path)
    got = done.stdout.decode().splitlines()[2:]
    wanted = [f"1 {f'< error {fault} >' * 4}" if fault else "1 < ok >< faults 1 >< ok >< faults 0 >"]
    assert got == ([] if fault is None else wanted), done.stderr


@pytest.mark.parametrize("message", ["faults 1", "nofaults 1", "faults ok"])
def test_words_too_many(program, tmp_path, message):
    done = run(program, ["bench", "can0"], f"session 1\nfeed 1 < open can0 >< {message} >\n", tmp_path)
    assert done.stdout.decode().splitlines()[-1] == "1 < ok >< error bad word count >"


def test_a_rule_without_words(program, tmp_path):
    lines = "session 1\nfeed 1 < open can0 >< fault >< Fault next 1 good >\n"
    done = run(program, ["bench", "can0"], lines, tmp_path)
    assert done.stdout.decode().splitlines()[-1] == "1 < ok >< error bad word count >< error unknown command >"


# The verdicts of a rule, and how many items two receivers get for one frame.
VERDICTS = {
    "global bit": (1, 1),
    "global form": (1, 1),
    "lastbit": (2, 2),
    "good": (1, 1),
    "local crc can1": (1, 1),
}


@pytest.mark.parametrize("verdict, copies", VERDICTS.items())
def test_a_rule_from_a_socket(verdict, copies):
    """The rule applies from the next attempt onwards, and only to the bus of the session's interface."""
    with serving("can0,can1,can2", "car0,car1") as server:
        giver, sender, *receivers = [Plain(server), *(plain(server, name) for name in ("can0", "can1", "can2"))]
        assert [giver.text(), giver.answer("< open can1 >")] == ["< hi >", "< ok >"]
        assert giver.answer(f"< fault next 1 from can0 {verdict} >") == "< ok >"
        assert giver.answer("< faults >") == "< faults 1 >"
        other, car1 = plain(server, "car0"), plain(server, "car1")
        assert other.answer("< faults >") == "< faults 0 >"
        other.write("< send 123 0 >")
        assert car1.frame() == ("123", b"")
        for number in range(2):
            sender.write(f"< send 123 1 {number} >")
        for receiver, count in zip(receivers, copies):
            wanted = [("123", b"\0")] * count + [("123", b"\1")]
            assert [receiver.frame() for _ in wanted] == wanted
        assert giver.answer("< faults >") == "< faults 0 >"
        server.end()
        record = read_record(server.path("can0.rec"), "can0,can1,can2")
        assert [attempt.fault for attempt in record.attempts][0] == verdict
        assert server.audited("can0.rec") and server.audited("car0.rec")


def test_refusals_to_a_socket():
    with serving("can0,can1", "car0") as server:
        client = plain(server, "can0")
        for text, fault in (
            ("next 1", "bad rule"),
            ("5 good", "bad rule"),
            ("next 0 good", "bad rule"),
            ("next 1 from car0 good", "no such interface"),
            ("next 1 local crc can0,car0", "no such interface"),
            ("next 1 local crc car0,", "bad rule"),
        ):
            assert client.answer(f"< fault {text} >") == f"< error {fault} >", text
            assert client.answer("< faults >") == "< faults 0 >"


def test_no_rules_keeps_the_script(program, tmp_path):
    """`nofaults` keeps the numbered lines of the script, and numbered lines are applied before rules."""
    (tmp_path / "my.script").write_text("1 global form\nalways lastbit\n2 good\n")
    asks = ["session 1", "feed 1 < open can0 >< rawmode >< send 123 0 >", "attempt", "feed 1 < nofaults >"]
    words = ["bench", "--record", RECORD, "can0@my.script"]
    done = run(program, words, "\n".join([*asks, "fault always global bit", *["attempt"] * 3, ""]), tmp_path)
    assert done.returncode == 0, done.stderr
    faults = [attempt.fault for attempt in read_record(tmp_path / RECORD, "can0").attempts]
    assert faults == ["lastbit", "global form", "good"]


def test_one_node_of_two_goes_bus_off(program, tmp_path):
    """The frame of one node is enough to take that node bus off, whatever the other node sends in between."""
    opening = "".join(f"session {n}\nfeed {n} < open {name} >< rawmode >\n" for n, name in ((1, "ecu"), (2, "tester")))
    turns = "feed 2 < send 100 0 >\nfeed 1 < send 200 0 >\nattempt\nattempt\n" * 40
    done = run(program, ["bench", "ecu,tester"], f"{opening}fault next 32 from ecu global bit\n{turns}", tmp_path)
    tried = [line for line in done.stdout.decode().splitlines() if line.startswith("tried")]
    assert [line for line in tried if " destroyed " in line] == [
        *["tried ecu 0 destroyed - -"] * 31, "tried ecu 0 destroyed - ecu",
    ]  # fmt: skip
    assert sum(line.startswith("tried tester ") and " done " in line for line in tried) == 40


ECU, OTHER = 0, 1


def planned(*lines):
    """Returns the faults of a bus whose script has these lines."""
    return RunFaults("\n".join(lines), ["ecu", "other"])


def verdicts(faults, *attempts):
    """Returns the verdicts of these attempts. An attempt is a winner and an identifier word."""
    return [faults.decide(winner, word)[0] for winner, word in attempts]


# The following tests check the model itself against the wording of the design.


def test_who_sends_and_what():
    ecu, other = (ECU, 0x123), (OTHER, 0x123)
    assert verdicts(planned("next 2 from ecu lastbit"), other, ecu, other, ecu, ecu) == [
        "good", "lastbit", "good", "lastbit", "good",
    ]  # fmt: skip
    words = [0x123, REMOTE | 0x123, EXTENDED | 0x123, 0x124, EXTENDED | REMOTE | 0x123]
    taken = {
        "123": "11000", "00000123": "00101", "123:7FF": "11101", "123:800007FF": "11000", "123:C00007FF": "10000",
        "20000123:7FF": "00010", "0:0": "11111", "20000000:0": "00000", "40000000:40000000": "01001",
    }  # fmt: skip
    for identifier, wanted in taken.items():
        faults = planned(f"always id {identifier} lastbit")
        found = ["01"[verdict == "lastbit"] for verdict in verdicts(faults, *((ECU, word) for word in words))]
        assert "".join(found) == wanted, identifier


def test_the_first_rule_that_matches_decides():
    a, b = (ECU, 1), (OTHER, 1)
    faults = planned("next 1 from other good", "next 2 skip 1 lastbit", "always global bit")
    # Only attempts that a rule decides or skips count for that rule.
    assert verdicts(faults, a, b, b, a, a) == ["global-bit", "good", "lastbit", "lastbit", "global-bit"]
    assert [rule.number for rule in faults.rules] == [3]


def test_a_line_goes_before_rules_and_counts_for_none():
    faults = planned("next 2 lastbit", "0 good", "2 local crc other,ecu")
    assert verdicts(faults, *[(ECU, 1)] * 5) == ["good", "lastbit", "local-crc:0003", "lastbit", "good"]


def test_rules_come_and_go():
    faults = planned("next 3 skip 1 lastbit", "4 global form")
    a = (ECU, 1)
    assert verdicts(faults, a, a) == ["good", "lastbit"]
    faults.take("always global bit")
    assert verdicts(faults, a) == ["lastbit"]
    faults.end()
    assert verdicts(faults, a, a, a) == ["good", "global-form", "good"]
    assert faults.rules == []


def test_which_rule_it_was():
    faults = planned("next 1 lastbit", "0 lastbit")
    assert faults.decide(ECU, 1) == ("lastbit", None)
    assert faults.decide(ECU, 1) == ("lastbit", 1)
    assert faults.decide(ECU, 1) == ("good", None)
