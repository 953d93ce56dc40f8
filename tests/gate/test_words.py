"""The lists in words/: the files that are generated from them are up to date, and agree with the programs' help."""

import glob
import importlib.machinery
import importlib.util
import os
import re
import subprocess

import pytest

from serving import ROOT

LOADER = importlib.machinery.SourceFileLoader("words", os.path.join(ROOT, "scripts", "words"))
words = importlib.util.module_from_spec(importlib.util.spec_from_loader("words", LOADER))
LOADER.exec_module(words)
PAGES = ("canbusd.1", "canbusd-run.1")


def options_in(page):
    """Returns the lines about options in a help page, by option and value."""
    found = re.findall(r"^ +(?:-h, )?(--[a-z-]+(?: \S+)?)  +(\S.*(?:\n {20,}\S.*)*)", page, re.M)
    return {re.sub("[<>]", "", form): " ".join(line.split()) for form, line in found}


def with_default(option):
    """Returns the help line of an option. The parser adds the default, unless the line names it."""
    default = option.field(3)
    return option.help + (f" [default: {default}]" if default and "[default" not in option.help else "")


def test_what_is_written():
    """Completions, manual pages, documents, help texts and the package agree with words/."""
    assert words.changed() == []


def test_a_version_is_written_once(monkeypatch):
    """A new version in words/version appears in the program, both packages, both manual pages and the name of the metadata folder."""
    monkeypatch.setattr(words, "version_and_day", lambda: ("9.8.7", "2027-01-02"))
    places = [*words.VERSIONS, words.metadata()]
    assert [name for name in places if "9.8.7" not in words.written(name)] == []
    assert set(places) <= set(words.changed())
    assert all(
        words.written(page).startswith(f'.TH {page[:-2].upper()} 1 2027-01-02 "canbusd 9.8.7"') for page in PAGES
    )
    assert words.metadata_place() == "python/src/canbusd-9.8.7.dist-info/METADATA"


def test_releases():
    """Each release has a date and a commit."""
    with open(os.path.join(ROOT, "CHANGELOG.md"), encoding="utf-8") as file:
        headings = re.findall(r"^## (.*)", file.read(), re.M)
    releases = [
        re.fullmatch(r"(\d+\.\d+\.\d+) \(\d{4}-\d\d-\d\d, commit ([0-9a-f]{8})\)", name) for name in headings[1:]
    ]
    assert headings[0] == "Unreleased" and all(releases) and releases[0][1] == words.version_and_day()[0]


@pytest.mark.parametrize("command", ["bench", "serve", "audit", "bits"])
def test_options_of_the_program(program, command):
    """The help of a command lists every option of the command, with value, description and default."""
    page = subprocess.run([program, "help", command], capture_output=True, text=True, check=True).stdout
    shown = options_in(page[page.index("Options:") : page.index("\n\n", page.index("Options:"))])
    assert shown == {
        "--help": "Print help",
        **{option.form: with_default(option) for option in words.options_of(command)},
    }


NUMBERS = [(option, command) for option in words.OF_CANBUSD if option.range[2] for command in option.commands]
# The other options that an option requires.
NEEDED = {"dbitrate": ["--bitrate", "5000"], "flush": ["--record", "none"]}
# The arguments with which each command exits at once.
REST = {
    "bench": ["can0"],
    "serve": ["--listen", "./none/socket", "can0"],
    "audit": ["--events", "none.rec"],
    "bits": ["123#"],
}


@pytest.mark.parametrize("option, command", NUMBERS, ids=[f"{command}-{option.name}" for option, command in NUMBERS])
def test_ranges(program, option, command):
    """The program accepts the smallest and the largest value of an option. It refuses values outside this range, and
    prints the range."""
    least, most, _ = option.range
    for number, is_taken in ((least - 1, False), (least, True), (most, True), (most + 1, False)):
        if number >= 0:
            line = [program, command, *NEEDED.get(option.name, []), f"--{option.name}", f"{number}", *REST[command]]
            done = subprocess.run(line, stdin=subprocess.DEVNULL, capture_output=True, text=True, check=False)
            assert (f"{least} to {most}" not in done.stderr) is is_taken, f"{number}: {done.stderr}"


def test_limits():
    """Every limit equals its constant in crates/."""
    for limit in words.LIMITS:
        crate, constant = limit.field(2).split()
        sources = "".join(words.read(path) for path in glob.glob(f"crates/{crate}/src/*.rt", root_dir=ROOT))
        found = re.findall(rf"const {constant}: \w+ = ([0-9_]+);", sources)
        assert [int(number) for number in found] == [int(limit.field(1))], limit.form


# The words of each list, and the source in crates/ that contains them. Words that are not in the source are in
# NOT_LISTED, such as the modes of socketcand and refusals that can't happen.
OF_CRATES = {
    "messages": ({word.name for word in words.MESSAGES}, "can_proto/src/verb.rt", r'word, b"(\w+)"'),
    "refusals": ({word.form for word in words.REFUSALS}, "can_proto/src/answer.rt", r'Cause::\w+ => b"([a-z ]+)"'),
    "outcomes": ({word.form for word in words.OUTCOMES}, "can_attempt/src/class.rt", r'Class::\w+ => b"(\w+)"'),
    "verdicts": (
        {one.replace("local ", "").replace(" NAMES", "") for one in words.verdicts()},
        "can_fault/src/script_lines.rt",
        r'(?:text|word) == "([a-z ]+)"',
    ),
}
NOT_LISTED = {"bcmmode", "isotpmode", "controlmode"}
NOT_LISTED |= {"bad capacity", "too many sockets", "no socket", "too many passes", "wrong station"}


@pytest.mark.parametrize("name", OF_CRATES)
def test_words_of_crates(name):
    """Every list has the same words as the source that reads or writes them."""
    listed, path, pattern = OF_CRATES[name]
    assert listed == set(re.findall(pattern, words.read(f"crates/{path}"))) - NOT_LISTED


def test_options_of_canbusd_run():
    """The help of canbusd-run lists every option of canbusd-run."""
    page = "\n".join(re.findall(r'^    "(.*)\\n"', words.read("canrun/command/main.c"), re.M))
    shown = options_in(page.replace('" ADDRESS_DEFAULT "', "127.0.0.1:29536"))
    # --virtual is left out, because it has its own paragraph.
    assert shown == {option.form: option.help for option in words.OF_RUN if option.name != "virtual"}
