"""The faults that `canbusd report` uses: from files next to the record, and from files that the user names."""

import argparse
import contextlib
import os
import subprocess

import pytest

from canbusd import Bench
from canbusd.commands import report
from forked import forked
from test_report import data_of, rules_on

RULE = "next 1 from a lastbit"
# Wrong fault files, and the program's error messages for them.
WRONG = [
    (b"next 1 globul bit\n", "script line 1: bad line: `next 1 globul bit`; after next N"),
    (b"# a comment\n5 globul bit\n", "script line 2: bad line: `5 globul bit`; "),
    (b"at 5\n", "script line 1: bad line: `at 5`; a line is at N RULE"),
    (b"at 5 next 1 good\nat 3 next 1 good\n", "script line 2: bad line: `at 3 next 1 good`; the numbers after at"),
    (b"# caf\xe9\nnext 1 good\n", "read fault: `# caf?`; this line is no UTF-8 text"),
    (b"next 1 good\r\n", "script line 1: bad line: `next 1 good?`; this line ends with CR and LF"),
]


@pytest.fixture
def reported(tmp_path):
    """A function that creates the page of a run, and returns the command's exit status, the page and the messages. In
    the run, a rule causes a fault in the last bit of a's first frame. b and c never send, so their names are not in the
    log."""

    def reported(*words, names="a,b", **more):
        if not (tmp_path / "a.log").exists():
            with Bench(names, faults=f"{RULE}\n", out=tmp_path) as bench:
                bench.open("a").send(0x123)
                assert [bench.attempt().outcome for _ in range(2)] == ["lastbit", "done"]
        status, page, said = forked("report", *words, cwd=tmp_path, **more)
        # The message about interfaces without names is removed, because it does not concern faults.
        return status, page, "".join(line for line in said.splitlines(True) if ": no log names " not in line)

    return reported


@pytest.fixture
def ruled(reported):
    """A function that creates the same page as `reported`, and returns the rules of the attempts and the command's
    messages."""

    def ruled(*words, **more):
        status, page, said = reported(*words, **more)
        assert status == 0, said
        return rules_on(page), said

    return ruled


def test_the_rule_where_not_all_names_are_known(ruled, tmp_path):
    (tmp_path / "faults").write_text(f"{RULE}\n")
    assert ruled("--faults", "faults", "a.rec") == ([RULE, ""], "")


def test_the_faults_beside_a_record(ruled, tmp_path):
    """The page shows the rules from the server's faults file, and the rules that were added during the run."""
    assert ruled("a.rec") == (["", ""], "")
    (tmp_path / "a.rec.faults").write_text(f"5 good\nat 0 {RULE}\nat 1 always good\n")
    assert ruled("a.rec") == ([RULE, "always good"], "")
    (tmp_path / "faults").write_text("always lastbit\n")
    assert ruled("--faults", "faults", "a.rec") == (["always lastbit", ""], "")


def test_the_faults_beside_a_record_that_is_cut_off(ruled, tmp_path):
    """The last line of the faults may be incomplete if the run is still going on or the server was killed."""
    assert ruled("a.rec") == (["", ""], "")
    text = (tmp_path / "a.rec").read_text()
    (tmp_path / "a.rec.new").write_text(text.rpartition("end ")[0])
    assert ruled("--cut", "a.rec.new") == (["", ""], "")
    (tmp_path / "a.rec.faults.new").write_text("at 0 always lastbit\nat 1 next")
    said = "canbusd report: a.rec.faults.new: without its last line, which is torn: `at 1 next`\n"
    assert ruled("--cut", "a.rec.new") == (["always lastbit", ""], said)
    (tmp_path / "a.rec.faults.new").write_text("at 0 always lastbit")
    assert ruled("--cut", "a.rec.new") == (["always lastbit", ""], "")


@pytest.mark.parametrize("name", ["my.new", "my.cut", "my"])
def test_a_script_without_a_last_line_feed(ruled, tmp_path, name):
    """A script without a final newline is complete, whatever the file is called."""
    (tmp_path / name).write_text(RULE)
    assert ruled("--faults", name, "a.rec") == ([RULE, ""], "")


@pytest.mark.parametrize("text, fault", WRONG)
def test_faults_that_are_wrong(reported, tmp_path, text, fault):
    """If the faults are wrong, the page has no rules. If the user has named the file, the command fails with the file
    name and the program's error message."""
    assert reported("a.rec")[0] == 0
    (tmp_path / "a.rec.faults").write_bytes(text)
    status, page, said = reported("a.rec")
    assert (status, rules_on(page)) == (0, ["", ""])
    assert said.startswith(f"canbusd report: without rules of faults: a.rec.faults: {fault}") and said.count("\n") == 1
    status, page, said = reported("--faults", "a.rec.faults", "a.rec")
    assert (status, page) == (1, "")
    assert said.startswith(f"canbusd report: a.rec.faults: {fault}") and said.count("\n") == 1


def test_faults_that_are_not_there(reported):
    for name, reason in (("none", "No such file or directory"), (".", "Is a directory")):
        assert reported("--faults", name, "a.rec") == (1, "", f"canbusd report: {name}: {reason}\n")


def test_faults_that_can_not_be_opened(tmp_path, monkeypatch, capsys):
    def refuse(record):
        raise PermissionError(13, "Permission denied", f"{record}.faults")

    monkeypatch.setattr(report, "faults_beside", refuse)
    assert report.faults_of(argparse.Namespace(faults=None, record="a.rec")) is None
    assert capsys.readouterr().err == "canbusd report: without rules of faults: a.rec.faults: Permission denied\n"


@contextlib.contextmanager
def piped(text):
    """The path of a pipe that contains this string."""
    reads, writes = os.pipe()
    os.write(writes, text.encode())
    os.close(writes)
    yield reads
    os.close(reads)


def test_faults_by_a_pipe(ruled, tmp_path):
    """Faults from a pipe or from standard input are read only once."""
    script = f"{RULE}\n"
    with piped(script) as pipe:
        assert ruled("--faults", "/dev/stdin", "a.rec", stdin=pipe) == ([RULE, ""], "")
    (tmp_path / "faults").write_text(script)
    with open(tmp_path / "faults") as file:
        assert ruled("--faults", "/dev/stdin", "a.rec", stdin=file) == ([RULE, ""], "")
    with piped(script) as pipe:
        assert ruled("--faults", f"/dev/fd/{pipe}", "a.rec") == ([RULE, ""], "")
    os.mkfifo(tmp_path / "fifo")
    with subprocess.Popen(["sh", "-c", "cat faults > fifo"], cwd=tmp_path):
        assert ruled("--faults", "fifo", "a.rec") == ([RULE, ""], "")


def test_a_bare_cr_begins_no_rule(ruled, tmp_path):
    (tmp_path / "faults").write_bytes(b"# by hand\rnext 1 lastbit\nnext 2 lastbit\n")
    assert ruled("--faults", "faults", "a.rec") == (["next 2 lastbit", ""], "")


def test_the_one_interface_without_a_name(reported, tmp_path):
    """If exactly one interface has no name, the remaining name from the faults is given to it."""
    assert reported("a.rec")[0] == 0
    rule = "next 1 from a,b lastbit"
    (tmp_path / "a.rec.faults").write_text(f"# from c\n5 local crc b\n{rule}\nat 1 always id 7DF local crc a,b\n")
    status, page, said = reported("a.rec")
    assert (status, rules_on(page), said) == (0, [rule, ""], "")
    assert data_of(page)[0]["names"] == ["a", "b"]
    # In a comparison, the name from the faults is not used, because the other run may have no faults. So both runs have
    # the same names.
    _, page, said = reported("a.rec", "a.rec")
    header, _ = data_of(page)
    assert (rules_on(page), header["names"], said) == ([rule, ""], ["a", "interface 1"], "")
    assert header["other"]["differences"] == []


@pytest.mark.parametrize("names, rule", [("a,b,c", "always from a,b lastbit"), ("a,b", "always from b,c lastbit")])
def test_interfaces_whose_names_are_not_known(reported, ruled, tmp_path, names, rule):
    """If two interfaces have no name, or there are two names for one interface, the page has no rules. If the user has
    asked for the faults, the command fails."""
    assert reported("a.rec", names=names)[0] == 0
    (tmp_path / "a.rec.faults").write_text(f"{RULE}\n{rule}\n")
    nameless = ",".join(["a", "interface-1", "interface-2"][: names.count(",") + 1])
    why = f"a.rec.faults: script line 2: unknown interface: `{rule}`; b is none of {nameless}; --names says how they are called"
    assert ruled("a.rec") == (["", ""], f"canbusd report: without rules of faults: {why}\n")
    assert reported("--faults", "a.rec.faults", "a.rec") == (1, "", f"canbusd report: {why}\n")
    if names == "a,b,c":
        assert ruled("--names", names, "a.rec") == ([RULE, ""], "")
        return
    # --names would not help here, so the error message does not mention it.
    _, said = ruled("--names", names, "a.rec")
    assert said.endswith(f"`{rule}`; c is none of a,b\n")


@pytest.mark.parametrize("words", [[], ["--faults", "a.rec.faults.new"]])
def test_a_server_that_ends_while_its_page_is_made(ruled, tmp_path, monkeypatch, capsys, words):
    """The server renames the record and the faults file while the page is being created."""
    assert ruled("a.rec") == (["", ""], "")
    monkeypatch.chdir(tmp_path)
    (tmp_path / "a.rec.faults").write_text("of another run\n")
    (tmp_path / "a.rec").rename("a.rec.new")
    (tmp_path / "a.rec.faults.new").write_text(f"at 0 {RULE}\n")
    replayed = report.replayed

    def replayed_and_ended(*given):
        record = replayed(*given)
        for name in ("a.rec", "a.rec.faults"):
            (tmp_path / f"{name}.new").rename(name)
        return record

    monkeypatch.setattr(report, "replayed", replayed_and_ended)
    parser = argparse.ArgumentParser()
    report.add_arguments(parser)
    report.run(parser.parse_args(["--cut", *words, "a.rec.new"]))
    assert rules_on(capsys.readouterr().out) == [RULE, ""]
