"""Fault scripts."""

import pytest

from canbusd.bench import Bench, BenchError
from canbusd.faults import Faults, rules_in, rules_of, script_bytes
from canbusd.server import Server, ServerError

SCRIPT = """\
0 global bit
1 global bit
3 global form
7 local stuff can0,can1
40 lastbit
41 local crc can1
99999999 good
"""


def script():
    faults = Faults().destroyed(range(2)).last_bit(40).local("crc", ["can1"], 41)
    return faults.destroyed(3, "form").local("stuff", "can0,can1", [7]).good(99999999)


def test_the_script_of_faults():
    assert str(script()) == SCRIPT
    assert str(Faults()) == ""


def test_a_fault_by_its_attempt():
    assert [script().of(number) for number in (1, 2, 7)] == ["global bit", "good", "local stuff can0,can1"]
    given = dict(line.split(" ", 1) for line in SCRIPT.splitlines())
    assert [given.get(str(number), "good") for number in range(42)] == [script().of(number) for number in range(42)]


def test_rules_in_a_script():
    """Numbered lines, comments and empty lines are not rules."""
    assert list(map(str, rules_in(f"# a comment\n\n{SCRIPT}next 1 good\nalways lastbit\n"))) == [
        "next 1 good",
        "always lastbit",
    ]
    with pytest.raises(ValueError, match="its verdict is"):
        rules_in("next 1 bad")


def test_a_line_ends_at_its_lf_only(tmp_path):
    """As in the program, only LF ends a line. So text after a CR in a comment is not a rule."""
    script = b"# made by hand\rnext 1 lastbit\nnext 2 global bit\n"
    path = tmp_path / "faults"
    path.write_bytes(script)
    assert script_bytes(path) == script
    assert list(map(str, rules_of(path))) == list(map(str, rules_in(script.decode()))) == ["next 2 global bit"]
    with Bench("a,b", faults=path) as bench:
        bench.open("a").send(0x123)
        assert [attempt.fault for attempt in bench.run()] == ["global bit", "global bit", "good"]
    with Server("a,b", faults=path, out=tmp_path) as server:
        server.inject("next 1 good")
    assert (tmp_path / "a.rec.faults").read_bytes() == script + b"at 0 next 1 good\n"


@pytest.mark.parametrize("script", [b"0 lastbit\r\n", b"next 1 lastbit\r\n", b"# caf\xe9\nnext 1 lastbit\n"])
def test_a_script_that_the_program_refuses(tmp_path, script):
    """The package passes the script to the program byte for byte, so both refuse this script."""
    path = tmp_path / "faults"
    path.write_bytes(script)
    fault = "read fault" if b"\xe9" in script else "script line 1: bad line"
    with pytest.raises(BenchError, match=fault):
        Bench("a,b", faults=path)
    with pytest.raises(ServerError, match=fault):
        Server("a,b", faults=path)


RULES = """\
next 32 from ecu global bit
next 1 id 123 skip 2 lastbit
always id 7DF local crc tester
always from ecu,gateway id 00000123 global form
next 99999999 id 12345678 skip 99999999 good
next 2 id 100:80000700 local stuff a,b
next 3 id 98DA0000:9FFF0000 lastbit
5 good
"""


def rules():
    faults = Faults().next(32, sender="ecu").destroyed().good(5)
    faults = faults.next(1, id=0x123, skip=2).last_bit().always(id=0x7DF, mask=0x7FF).local("crc", ["tester"])
    faults = faults.always(sender=["ecu", "gateway"], id=0x123, extended=True).destroyed("form")
    faults = faults.next(99999999, id=0x12345678, skip=99999999).good()
    return faults.next(2, id=0x100, mask=0x700).local("stuff", "a,b").next(3, id=0x18DA0000, mask=0x1FFF0000).last_bit()


def test_the_script_of_rules():
    assert str(rules()) == RULES
    assert rules().rules == RULES.splitlines()[:-1]
    assert rules().of(5) == rules().of(0) == "good"
    assert rules() == rules() != Faults()
    assert Faults().next(1).last_bit().next(2).last_bit() != Faults().next(2).last_bit().next(1).last_bit()


def test_rules_show_themselves_as_code():
    text = (
        "Faults().next(32, sender='ecu').destroyed().next(1, id=0x123, skip=2).last_bit()"
        ".always(id=0x7df).local('crc', ['tester']).always(sender=['ecu', 'gateway'], id=0x123, extended=True)"
        ".destroyed('form').next(99999999, id=0x12345678, skip=99999999).good()"
        ".next(2, id=0x100, mask=0x700).local('stuff', ['a', 'b']).next(3, id=0x18da0000, mask=0x1fff0000).last_bit()"
        ".good(5)"
    )
    assert repr(rules()) == text and eval(text) == rules()
    assert repr(Faults().always().good()) == "Faults().always().good()"
    assert repr(Faults().next(32, sender="ecu")) == "<the rule `next 32 from ecu` without its fault>"


@pytest.mark.parametrize(
    "wrong, said",
    [
        (lambda: Faults().next(0), "^count is a number from 1 to 99999999, not 0$"),
        (lambda: Faults().next(100000000), "^count is"),
        (lambda: Faults().next(True), "^count is"),
        (lambda: Faults().next(range(3)), "^count is"),
        (lambda: Faults().next(1, skip=-1), "^skip is a number from 0 to 99999999, not -1$"),
        (lambda: Faults().always(sender=""), "^senders are names of interfaces, not ''$"),
        (lambda: Faults().always(sender=[]), "^senders are"),
        (lambda: Faults().always(sender=3), "^senders are"),
        (lambda: Faults().always(sender="e c u"), "^senders are"),
        (lambda: Faults().always(id=-1), "^id is a number from 0 to 0x1FFFFFFF, not -1$"),
        (lambda: Faults().always(id=0x20000000), "^id is"),
        (lambda: Faults().always(id="123"), "^id is"),
        (lambda: Faults().always(id=0x800, extended=False), "^id is a number from 0 to 0x7FF, not 2048$"),
        (lambda: Faults().always(id=1, mask=0x20000000), "^mask is a number from 0 to 0x1FFFFFFF"),
        (lambda: Faults().always(mask=0x7FF), "^mask and extended belong to an id"),
        (lambda: Faults().always(extended=True), "^mask and extended belong to an id"),
        (lambda: Faults().next(1).destroyed("crc"), "^kind"),
        (lambda: Faults().next(1).local("bit", "can0"), "^kind"),
        (lambda: Faults().next(1).local("crc", []), "^names"),
        (lambda: script_bytes(Faults().next(1)), "^<the rule `next 1` without its fault>: .destroyed"),
    ],
)
def test_what_is_wrong_with_a_rule_is_named(wrong, said):
    with pytest.raises(ValueError, match=said):
        wrong()


def test_a_bus_has_at_most_64_rules():
    faults = Faults()
    for _ in range(64):
        faults.always().good()
    with pytest.raises(ValueError, match="^a bus has at most 64 rules$"):
        faults.next(1).last_bit()
    assert len(faults.rules) == 64


def test_only_rules_are_injected():
    found = rules_of("# a comment\n\n" + RULES.replace("5 good\n", ""))
    assert [str(rule) for rule in found] == RULES.splitlines()[:-1]
    assert rules_of(Faults()) == []
    for other in (rules(), "5 good", RULES):
        with pytest.raises(
            ValueError, match="^'5 good' names an attempt by number, which is only possible at the start"
        ):
            rules_of(other)


def test_a_text_of_one_line_is_a_text():
    with Bench("can0,can1", faults="0 lastbit") as bench:
        bench.open("can0").send(0x123)
        assert [attempt.outcome for attempt in bench.run()] == ["lastbit", "done"]


@pytest.mark.parametrize(
    "wrong, word",
    [
        (lambda: Faults().destroyed([1, 1]), "attempt 1"),
        (lambda: Faults().destroyed(1).last_bit(range(3)), "attempt 1"),
        (lambda: Faults().last_bit(-1), "attempts"),
        (lambda: Faults().last_bit(100000000), "attempts"),
        (lambda: Faults().last_bit(True), "attempts"),
        (lambda: Faults().last_bit("1"), "attempts"),
        (lambda: Faults().destroyed(1, "crc"), "kind"),
        (lambda: Faults().local("bit", "can0", 1), "kind"),
        (lambda: Faults().local("crc", [], 1), "names"),
        (lambda: Faults().local("crc", "can 0", 1), "names"),
        (lambda: Faults().local("crc", ["can0,can1"], 1), "names"),
    ],
)
def test_what_is_wrong_is_named(wrong, word):
    with pytest.raises(ValueError, match=word):
        wrong()


def test_a_refused_call_changes_nothing():
    faults = Faults().last_bit(5)
    with pytest.raises(ValueError):
        faults.destroyed(range(10))
    assert str(faults) == "5 lastbit\n"


def test_a_script_is_faults_a_text_or_a_path(tmp_path):
    path = tmp_path / "faults"
    path.write_text(SCRIPT)
    assert {script_bytes(given) for given in (script(), SCRIPT, path, str(path))} == {SCRIPT.encode()}
    assert script_bytes(None) == script_bytes("") == b""
    for text in ("0 lastbit", "7 local crc can1/can2", "next 1 lastbit", "always good"):
        assert script_bytes(text) == text.encode()
    for path in ("no such file", "0lastbit", "lastbit", "next", "always"):
        with pytest.raises(
            FileNotFoundError, match=f"a text begins with the number of an attempt, as '0 lastbit' .*{path}"
        ):
            script_bytes(path)
    with pytest.raises(ValueError, match="faults"):
        script_bytes(range(32))


def test_it_shows_itself_as_code():
    text = (
        "Faults().destroyed(range(0, 32)).good(33).last_bit([40, 42]).local('crc', ['can1', 'can2'], 41)"
        ".destroyed([50, 51], 'form')"
    )
    faults = eval(text)
    assert repr(faults) == text
    assert repr(Faults()) == "Faults()"
    assert faults == eval(text) and faults != Faults() and Faults() != 0
