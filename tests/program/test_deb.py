"""Tests the package that scripts/deb creates: what lintian reports, and, in a clean Debian of each suite, how apt
installs the package, what the package runs, and what is left after its removal. If the glibc of a suite is too old, apt
must refuse the package. BASES names a folder with a debootstrap of each suite (debootstrap --variant=minbase). Without
BASES the tests create them.
"""

import os
import re
import shutil
import subprocess

import pytest

from serving import ROOT, program

TOOLS = ["debootstrap", "lintian", "dpkg-deb"]
pytestmark = [
    pytest.mark.slow,
    pytest.mark.root,
    pytest.mark.skipif(not all(map(shutil.which, TOOLS)), reason=f"not installed: one of {', '.join(TOOLS)}"),
]
EXAMPLES = os.path.join(ROOT, "examples")
APT_INSTALL = "apt-get update -qq && apt-get install -qq -y --no-install-recommends /tmp/canbusd_*.deb"
# Starts a server in a folder, ends it, and audits its record. (A background job of a script gets no SIGINT.)
SERVES = """cd "$0" && : >served
canbusd "$@" >served & server=$!
until grep -qs listening served; do sleep 0.1; kill -0 $server || exit 1; done
kill -TERM $server; wait $server && canbusd audit can0.rec"""


@pytest.fixture(scope="module")
def package(tmp_path_factory):
    """Builds the package; returns its path."""
    folder = tmp_path_factory.mktemp("package")
    maker = {"DEBFULLNAME": "Tester", "DEBEMAIL": "tester@lists.debian.org"}
    subprocess.run([os.path.join(ROOT, "scripts", "deb")], cwd=folder, env={**os.environ, **maker}, check=True)
    return next(folder.glob("canbusd_*_amd64.deb"))


@pytest.fixture(scope="module")
def glibc(package):
    """Returns the glibc version that the package depends on."""
    depends = subprocess.check_output(["dpkg-deb", "-f", package, "Depends"], text=True)
    return re.search(r"libc6 \(>= ([0-9.]*)\)", depends)[1]


class Debian:
    """A clean Debian, with the package and the test files in /tmp."""

    def __init__(self, folder, suite, package):
        self.folder = folder / suite
        if "BASES" in os.environ:
            subprocess.run(["cp", "-a", os.path.join(os.environ["BASES"], suite), self.folder], check=True)
        else:
            subprocess.run(["debootstrap", "--variant=minbase", suite, self.folder], check=True)
        tests = os.path.join(EXAMPLES, "python")
        tried = [package, os.path.join(EXAMPLES, "first_frame.bench")]
        for path in [*tried, *(os.path.join(tests, name) for name in os.listdir(tests) if name.endswith(".py"))]:
            shutil.copy(path, self.folder / "tmp")

    def run(self, *words):
        """Runs a command in the Debian; returns the result."""
        environment = ["PATH=/usr/sbin:/usr/bin:/sbin:/bin", "DEBIAN_FRONTEND=noninteractive"]
        return subprocess.run(
            ["chroot", self.folder, "env", "-i", *environment, *words],
            stdin=subprocess.DEVNULL,
            stdout=subprocess.PIPE,
            stderr=subprocess.STDOUT,
            text=True,
            check=False,
        )

    def does(self, *words):
        """Runs a command that must succeed; returns its output."""
        done = self.run(*words)
        assert done.returncode == 0, done.stdout
        return done.stdout

    def has_glibc(self, least):
        version = self.does("dpkg-query", "-f", "${Version}", "-W", "libc6")
        return not subprocess.run(["dpkg", "--compare-versions", version, "ge", least], check=False).returncode

    def serves(self, user, folder, *words):
        """Starts a server in the folder as this user, and ends it."""
        path = self.folder / folder.strip("/")
        path.mkdir(parents=True, exist_ok=True)
        os.chown(path, user, user)
        as_user = ["setpriv", "--reuid", str(user), "--regid", str(user), "--clear-groups"]
        self.does("timeout", "30", *as_user, "sh", "-c", SERVES, folder, *words)


def expected(name):
    with open(os.path.join(EXAMPLES, f"{name}.out"), encoding="utf-8") as file:
        return file.read()


def test_lintian(package):
    subprocess.run(["lintian", "--allow-root", "--fail-on", "error", package], check=True)


def test_readme_says_which_glibc(glibc):
    with open(os.path.join(ROOT, "README.md"), encoding="utf-8") as readme:
        assert f"glibc {glibc}" in readme.read()


def try_program(debian):
    """Runs a bench and its audit, an example of the documentation, and servers."""
    bench = "cd /tmp && canbusd bench --record run.rec can0,can1 <first_frame.bench"
    assert debian.does("sh", "-c", bench) == expected("first_frame")
    debian.does("canbusd", "audit", "/tmp/run.rec")
    bench = "canbusd bench can0,can1@examples/last_bit.script <examples/last_bit.bench"
    assert debian.does("sh", "-c", f"cd /usr/share/doc/canbusd && {bench}") == expected("last_bit")
    debian.serves(0, "/tmp/served", "serve", "--listen", "./socket", "--out", ".", "can0")
    # This is the command from contrib/Dockerfile, run as its user and in its folder, but on a free port.
    with open(os.path.join(ROOT, "contrib", "Dockerfile"), encoding="utf-8") as file:
        recipe = file.read()
    words = re.search(r"^CMD \[(.*)\]$", recipe, re.M)[1].replace('"', "").replace(":29536", ":0").split(", ")
    debian.serves(65534, re.search(r"^WORKDIR (.*)$", recipe, re.M)[1], *words)


def try_tools(debian):
    """Tests python-can and pytest with the package, creates the page of a run, and plays a log."""
    debian.does(
        "apt-get", "install", "-qq", "-y", "--no-install-recommends", "python3", "python3-can", "python3-pytest"
    )
    debian.does("python3", "-c", 'import can\nassert "canbusd" in can.interfaces.BACKENDS')
    debian.does("sh", "-c", "cd /tmp && python3 -m pytest -q -p no:cacheprovider /tmp/test_door.py")
    debian.does("sh", "-c", 'canbusd report /tmp/run.rec | grep -q "</html>"')
    debian.does("sh", "-c", 'echo "(1.000000) can0 123#11" | candump2bench | canbusd bench can0')


def try_unit(debian, folder):
    """Checks that systemd accepts the unit file."""
    if not shutil.which("systemd-analyze"):
        return
    unit = (debian.folder / "usr/lib/systemd/system/canbusd.service").read_text()
    (folder / "canbusd.service").write_text(unit.replace("/usr/bin/canbusd", f"{debian.folder}/usr/bin/canbusd"))
    words = ["systemd-analyze", "--man=no", "verify", folder / "canbusd.service"]
    said = subprocess.run(words, stdout=subprocess.PIPE, stderr=subprocess.STDOUT, text=True, check=False).stdout
    assert said == ""


def traces(debian):
    """Returns the files that the package left behind, except logs and caches."""
    kept = [debian.folder / place for place in ("tmp", "var/log", "var/cache", "proc", "sys")]
    found = [path for word in ("canbusd", "candump2bench") for path in debian.folder.rglob(f"*{word}*")]
    return [path for path in found if not any(place in path.parents for place in kept)]


@pytest.mark.parametrize("suite", ["bookworm", "bullseye"])
def test_package(package, glibc, suite, tmp_path):
    """The package is installed, runs and is removed without a trace. If glibc is too old, apt refuses the package and
    the program does not run."""
    debian = Debian(tmp_path, suite, package)
    if debian.has_glibc(glibc):
        debian.does("sh", "-c", APT_INSTALL)
        try_program(debian)
        try_tools(debian)
        try_unit(debian, tmp_path)
        debian.does("apt-get", "purge", "-qq", "-y", "canbusd")
        assert traces(debian) == []
    else:
        assert debian.run("sh", "-c", APT_INSTALL.replace("&&", ";")).returncode != 0
        shutil.copy(program(), debian.folder / "tmp" / "program")
        assert debian.run("/tmp/program", "--version").returncode != 0
