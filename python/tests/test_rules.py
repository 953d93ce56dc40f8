"""The grammar of fault rules, and the number of remaining rules. The verdicts of rules are tested by
tests/bench/test_fault_rules.py in the repository."""

import pytest

from canbusd.rules import GivenRules, Rule, check_rules, parse_rule


@pytest.mark.parametrize(
    "text, rule",
    [
        ("next 1 good", Rule(1, "good")),
        ("always lastbit", Rule(None, "lastbit")),
        ("next 00000032 from ecu global bit", Rule(32, "global bit", ("ecu",))),
        ("next 99999999 from a,b,a global form", Rule(99999999, "global form", ("a", "b", "a"))),
        ("always id 7df local crc x,y", Rule(None, "local crc x,y", (), (0x7DF, 0x800007FF))),
        ("always id 00000123 local stuff x", Rule(None, "local stuff x", (), (0x80000123, 0x9FFFFFFF))),
        ("always id 1FFFFFFF good", Rule(None, "good", (), (0x9FFFFFFF, 0x9FFFFFFF))),
        ("next 1 id 1:2 good", Rule(1, "good", (), (1, 2))),
        ("next 1 id FFFFFFFF:DFFFFFFF good", Rule(1, "good", (), (0xFFFFFFFF, 0xDFFFFFFF))),
        ("next 1 skip 0 local form skip", Rule(1, "local form skip")),
        ("next 1 from id id 123 skip 00000007 good", Rule(1, "good", ("id",), (0x123, 0x800007FF), 7)),
    ],
)
def test_a_rule_is_read(text, rule):
    assert parse_rule(text) == rule
    assert parse_rule(str(rule)) == rule


@pytest.mark.parametrize(
    "text, said",
    [
        ("", "it begins with next or always, not ''"),
        ("Next 1 good", "it begins with next or always"),
        ("5 good", "it begins with next or always"),
        (" next 1 good", "it begins with next or always"),
        ("next good", "after next is a number of 1 to 8 digits, not 'good'"),
        ("next", "after next is a number"),
        ("next 000000001 good", "after next is a number"),
        ("next +1 good", "after next is a number"),
        ("next \u0661 good", "after next is a number"),
        ("next 0 good", "next takes at least 1 attempt"),
        ("next 00 good", "next takes at least 1 attempt"),
        ("next  1 good", "after next is a number"),
        ("always from good", "its verdict is"),
        ("always from", "after from are names of interfaces"),
        ("always from a, good", "after from are names of interfaces"),
        ("always from ,a good", "after from are names of interfaces"),
        ("always from sixteen-bytes-xx good", "after from are names of interfaces"),
        ("always id good", "after id are hexadecimal digits"),
        ("always id 12 good", "an identifier has 11 bits in 3 digits or 29 bits in 8, not '12'"),
        ("always id 800 good", "an identifier has 11 bits"),
        ("always id 0000123 good", "an identifier has 11 bits"),
        ("always id 20000000 good", "an identifier has 11 bits"),
        ("always id 123456789 good", "after id are hexadecimal digits"),
        ("always id 123: good", "after id are hexadecimal digits"),
        ("always id :123 good", "after id are hexadecimal digits"),
        ("always id 0:123456789 good", "after id are hexadecimal digits"),
        ("always id 123:7FF:1 good", "after id are hexadecimal digits"),
        ("always id 0:20000000 good", "a mask has no bit 29: 20000000; write 0"),
        ("always id 0:FFFFFFFF good", "a mask has no bit 29: FFFFFFFF; write DFFFFFFF"),
        ("always skip good", "after skip is a number"),
        ("always skip -1 good", "after skip is a number"),
        ("next 1 id 123 from can0 lastbit", "from comes before id"),
        ("always id 123 from a good", "from comes before id"),
        ("always skip 1 id 123 good", "id comes before skip"),
        ("always skip 1 from a good", "from comes before skip"),
        ("always skip 0 id 123 good", "id comes before skip"),
        ("always skip 1 skip 1 good", "skip is given twice"),
        ("always", "its verdict is"),
        ("always bad", "its verdict is"),
        ("always good ", "its verdict is"),
        ("always good\r", "its verdict is"),
        ("always  good", "its verdict is"),
        ("always global crc", "its verdict is"),
        ("always local bit a", "its verdict is"),
        ("always local crc", "its verdict is"),
        ("always local crc a b", "its verdict is"),
        ("always local crc a,", "its verdict is"),
    ],
)
def test_what_is_wrong_with_a_rule_is_said(text, said):
    with pytest.raises(ValueError) as fault:
        parse_rule(text)
    assert str(fault.value).partition("': ")[2].startswith(said)


def test_names_that_the_bus_does_not_have():
    check_rules([parse_rule("always from a local crc b")], ["a", "b"])
    for text in ("always from a,c good", "always local crc c", "always from c good"):
        with pytest.raises(ValueError, match=f"^rule '{text}': c is no interface of its bus, a,b$"):
            check_rules([parse_rule(text)], ["a", "b"])


def test_how_many_rules_are_left():
    given = GivenRules(map(parse_rule, ["next 2 lastbit", "always good"]))
    given.add(parse_rule("next 1 global bit"))
    assert len(given) == 3
    assert [str(given.gave(number)) for number in (1, 2, 1, 3)] == [
        "next 2 lastbit", "always good", "next 2 lastbit", "next 1 global bit",
    ]  # fmt: skip
    assert len(given) == 1
    given.end()
    given.add(parse_rule("next 1 good"))
    assert (len(given), str(given.gave(4)), len(given)) == (1, "next 1 good", 0)
