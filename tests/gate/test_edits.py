"""scripts/edits reports the right verdict on each edit. Only an open goal of the edited function counts as a refusal.
"""

import os
import shutil
import subprocess

import pytest

from running import ROOT

pytestmark = pytest.mark.kit
SCRIPTS = ("edits", "rattle_kit.py", "rust_functions.py")

CRATE = """\
//! A crate to try edits on.
#![tactic(auto)]

ghost use Rattle.std.specs.Prelude.{◌≡◌, ◌≤◌, ◌<◌, ◌+◌};

/// Returns the number after this one.
pub fn next(number: u8) -> u8
    requires { number < 255 }
    ensures { result ≡ number + 1 }
{
    number + 1
}

/// Returns the number after the next one.
pub fn after_next(number: u8) -> u8
    requires { number < 254 }
    ensures { result ≡ number + 2 }
{
    next(next(number))
}

/// Returns a number that no clause says.
pub fn any(number: u8) -> u8 {
    let found = number;
    found
}
"""

UPPER = """\
//! A crate above it.
#![tactic(auto)]

ghost use Rattle.std.specs.Prelude.{◌≡◌, ◌<◌, ◌+◌};

/// Returns the number after the next one.
pub fn second_after(number: u8) -> u8
    requires { number < 254 }
    ensures { result ≡ number + 2 }
{
    toy::next(toy::next(number))
}
"""

# The text of each edit, and the expected report on it.
EDITS = {
    "refused": ("old:     number + 1\nnew:     number", "refused: next: "),
    "overflows": ("old:     number + 1\nnew:     number + 2 - 1", "refused: next: "),
    "proved": ("old:     let found = number;\nnew:     let found = 0;", "NOT REFUSED: any is proved with it"),
    "changes_nothing": ("old:     number + 1\nnew:     number + 1", "NO EDIT: it changes nothing"),
    "is_not_there": ("old: number + 3\nnew: number", "NO EDIT: its old text is in src/lib.rt 0 times, not once"),
    "breaks_only_its_caller": (
        "old:     ensures { result ≡ number + 1 }\nnew:     ensures { number < result }",
        "NO EDIT: it edits what next promises, or takes: that shows nothing of its contract",
    ),
    "does_not_compile": ("old:     number + 1\nnew:     number + missing", "NOT JUDGED: it does not compile: "),
    "has_another_line": (
        "note: wrong\nold:     number + 1\nnew:     number",
        "NO EDIT: a line that is none of an edit's: note: wrong",
    ),
}


def make_repository(top):
    """Creates a repository with the crate and the scripts, and returns its path."""
    if shutil.which("rt") is None:
        pytest.skip("there is no rt: the Rattle kit is not public")
    for folder in ("scripts", "crates/toy/src", "crates/toy/wrong"):
        (top / folder).mkdir(parents=True)
    for name in SCRIPTS:
        shutil.copy(os.path.join(ROOT, "scripts", name), top / "scripts")
    (top / "crates.txt").write_text("toy:\n", encoding="utf-8")
    (top / "crates/toy/src/lib.rt").write_text(CRATE, encoding="utf-8")
    return top


@pytest.fixture(scope="module")
def tried(tmp_path_factory):
    """The finished run of scripts/edits on all edits of a crate, and the repository of that crate."""
    top = make_repository(tmp_path_factory.mktemp("edits"))
    for name, (pairs, _) in EDITS.items():
        (top / f"crates/toy/wrong/{name}.edit").write_text(f"file: src/lib.rt\n{pairs}\n", encoding="utf-8")
    environment = {**os.environ, "CANBUSD_KEPT": str(top / "kept")}
    done = subprocess.run(
        [top / "scripts/edits"],
        env=environment,
        stdout=subprocess.PIPE,
        stderr=subprocess.STDOUT,
        text=True,
        timeout=900,
    )
    return done, top


@pytest.mark.parametrize("name", EDITS)
def test_an_edit_is_called_what_it_is(tried, name):
    done, _ = tried
    line = next((line for line in done.stdout.split("\n") if line.startswith(f"toy/{name}: ")), done.stdout)
    assert line.startswith(f"toy/{name}: {EDITS[name][1]}"), done.stdout


def test_what_is_not_refused_is_a_failure(tried):
    done, _ = tried
    refused = sum(wanted.startswith("refused: ") for _, wanted in EDITS.values())
    assert done.stdout.split("\n")[-2] == f"{refused} passed, {len(EDITS) - refused} failed"
    assert done.returncode == 1


def test_a_refusal_is_kept(tried):
    """The next run reuses a refusal until a file of the crate changes."""
    _, top = tried
    words = [top / "scripts/edits", "toy/refused"]
    environment = {**os.environ, "CANBUSD_KEPT": str(top / "kept")}
    again = subprocess.run(words, env=environment, stdout=subprocess.PIPE, text=True, timeout=900, check=True)
    assert again.stdout.startswith("toy/refused: refused by an earlier run: next: ")
    source = top / "crates/toy/src/lib.rt"
    source.write_text(source.read_text(encoding="utf-8").replace("A crate", "Another crate"), encoding="utf-8")
    anew = subprocess.run(words, env=environment, stdout=subprocess.PIPE, text=True, timeout=900, check=True)
    assert anew.stdout.startswith("toy/refused: refused: next: ")


def test_a_crate_without_edits_is_named(tried):
    _, top = tried
    done = subprocess.run([top / "scripts/edits", "none"], stderr=subprocess.PIPE, text=True, timeout=60)
    assert done.returncode == 2 and "there is no folder crates/none/wrong" in done.stderr


@pytest.fixture
def upper(tmp_path):
    """A repository with a second crate that depends on the first. The second crate is not built, and has one edit."""
    top = make_repository(tmp_path / "repository")
    (top / "crates.txt").write_text("toy:\nupper: toy\n", encoding="utf-8")
    for folder in ("src", "wrong"):
        (top / "crates/upper" / folder).mkdir(parents=True)
    (top / "crates/upper/src/lib.rt").write_text(UPPER, encoding="utf-8")
    edit = "file: src/lib.rt\nold:     toy::next(toy::next(number))\nnew:     toy::next(number)\n"
    (top / "crates/upper/wrong/one_step.edit").write_text(edit, encoding="utf-8")
    return top


def test_edits_wait_for_what_is_proved_beside_them(upper, tmp_path):
    """A crate that is already proved is not checked again without its edit, so only one check runs."""
    log = tmp_path / "log"
    log.write_text("rt: toys proved\n", encoding="utf-8")
    environment = {**os.environ, "CANBUSD_KEPT": str(tmp_path / "kept")}
    words = [upper / "scripts/edits", "--follow", log, "upper"]
    with subprocess.Popen(words, env=environment, stdout=subprocess.PIPE, stderr=subprocess.STDOUT, text=True) as child:
        subprocess.run(["rt", "lib"], cwd=upper / "crates/toy", stdout=subprocess.DEVNULL, timeout=900, check=True)
        with open(log, "a", encoding="utf-8") as file:
            file.write("rt: toy proved\nrt: upper proved\n")
        said = child.communicate(timeout=900)[0]
    assert said.startswith("upper/one_step: refused: second_after: ") and said.endswith("\n1 passed, 0 failed\n")


def test_edits_do_not_wait_for_a_run_that_has_ended(upper, tmp_path):
    log = tmp_path / "log"
    log.write_text("rt: toy NOT PROVED\n0 passed, 2 failed\n", encoding="utf-8")
    environment = {**os.environ, "CANBUSD_KEPT": str(tmp_path / "kept")}
    words = [upper / "scripts/edits", "--follow", log, "upper"]
    done = subprocess.run(words, env=environment, stdout=subprocess.PIPE, text=True, timeout=60)
    assert done.stdout.startswith("upper/one_step: NOT JUDGED: toy is not built: ") and done.returncode == 1
