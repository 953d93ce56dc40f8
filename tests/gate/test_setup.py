"""scripts/setup: the packages that it installs, and its message if it lacks permission. Stand-ins for Debian's commands
record how they are called."""

import os
import shutil

import pytest

from commands import call
from serving import ROOT

SETUP = os.path.join(ROOT, "scripts", "setup")
# In these stand-ins a package is missing as long as its file exists.
COMMANDS = {
    "dpkg-query": '[ -e "$HOME/missing/$4" ] || echo installed\n',
    "id": "cat $HOME/user\n",
    "apt-get": """echo "$*" >>$HOME/calls
case "$*" in *" install "*) for word; do rm -f "$HOME/missing/$word"; done ;; esac
""",
}


class Machine:
    """A folder with the commands of a Debian system on which some packages are missing."""

    def __init__(self, folder, missing, user=0, without=()):
        self.folder = folder
        (folder / "bin").mkdir()
        (folder / "missing").mkdir()
        for name in missing:
            (folder / "missing" / name).touch()
        (folder / "user").write_text(f"{user}\n")
        for name, script in COMMANDS.items():
            if name not in without:
                (folder / "bin" / name).write_text(f"#!/bin/sh\n{script}")
                (folder / "bin" / name).chmod(0o755)
        for name in ("bash", "sh", "cat", "sed", "rm"):
            (folder / "bin" / name).symlink_to(shutil.which(name))

    def setup(self, *words):
        return call(SETUP, *words, env={"PATH": str(self.folder / "bin"), "HOME": str(self.folder)})

    def calls(self):
        path = self.folder / "calls"
        return path.read_text().splitlines() if path.exists() else []


def test_nothing_is_missing(tmp_path):
    machine = Machine(tmp_path, [])
    for words in ([], ["--yes"], ["--list"], ["check"], ["--list", "all"]):
        assert machine.setup(*words) == (0, "", "")
    assert machine.calls() == []


def test_missing_packages_are_installed(tmp_path):
    machine = Machine(tmp_path, ["python3-can", "black"])
    assert machine.setup("--list") == (0, "python3-can\nblack\n", "")
    assert machine.setup("--list", "check") == (0, "python3-can\n", "")
    assert machine.setup("--yes") == (0, "", "")
    update, install = machine.calls()
    assert update.endswith(" update") and install.endswith(" install --no-install-recommends python3-can black")
    assert machine.setup("--yes") == (0, "", "")


def test_only_those_of_the_group(tmp_path):
    machine = Machine(tmp_path, ["make", "black"])
    assert machine.setup("--yes", "check") == (0, "", "")
    assert machine.calls()[1].endswith(" make")


@pytest.mark.parametrize("words", [[], ["--yes"]])
def test_who_is_not_root(tmp_path, words):
    machine = Machine(tmp_path, ["make", "black"], user=1000)
    said = "scripts/setup: only root may install packages (sudo scripts/setup); missing: make black\n"
    assert machine.setup(*words) == (3, "", said)
    assert machine.calls() == []


def test_no_terminal_to_ask_at(tmp_path):
    machine = Machine(tmp_path, ["make"])
    status, _, said = machine.setup()
    assert status == 3 and "no terminal to ask at (--yes installs without asking); missing: make\n" in said
    assert machine.calls() == []


def test_another_distribution(tmp_path):
    machine = Machine(tmp_path, [], without=["dpkg-query", "apt-get"])
    status, written, said = machine.setup("--yes", "check")
    names = "make git gcc libc6-dev python3-can python3-pytest python3-pytest-xdist"
    assert (status, written, said) == (3, "", f"scripts/setup: there is no apt-get; missing: {names}\n")


@pytest.mark.parametrize("fails", [" update", " install "])
def test_apt_get_fails(tmp_path, fails):
    machine = Machine(tmp_path, ["make"])
    (tmp_path / "bin" / "apt-get").write_text(f'#!/bin/sh\ncase "$*" in *"{fails}"*) exit 100 ;; esac\n')
    status, _, said = machine.setup("--yes")
    assert status == 1 and said.endswith("scripts/setup: apt-get failed\n")


def test_what_apt_get_did_not_install(tmp_path):
    machine = Machine(tmp_path, ["make"])
    (tmp_path / "bin" / "apt-get").write_text("#!/bin/sh\n")
    assert machine.setup("--yes") == (3, "", "scripts/setup: apt-get did not install all of them; missing: make\n")


@pytest.mark.parametrize("words", [["--no"], ["most"], ["check", "all"], ["--yes", "--list"]])
def test_words_that_are_none(tmp_path, words):
    status, written, said = Machine(tmp_path, []).setup(*words)
    assert (status, written) == (2, "") and said.startswith("Installs the Debian or Ubuntu packages ")
