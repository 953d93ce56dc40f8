"""The wheel, and pip run in the clone: the package contains the programs, and identical sources produce an identical
wheel."""

import configparser
import os
import re
import shutil
import signal
import subprocess
import sys
import tarfile
import zipfile

import pytest

import canbusd
from common import PYTHON, WAIT
from made_once import made_once

CLONE = PYTHON.parent
NAME = f"canbusd-{canbusd.__version__}-py3-none-manylinux_2_34_x86_64.whl"
SCRIPT = [CLONE / "scripts" / "python-package", "wheel"]


def done(*words, **options):
    """Runs a process that must succeed, and returns the completed process."""
    finished = subprocess.run(words, capture_output=True, text=True, timeout=300, check=False, **options)
    assert finished.returncode == 0, finished.stdout + finished.stderr
    return finished


@pytest.fixture(scope="module")
def wheel(request):
    """Builds the wheel."""
    env = {**os.environ, "PYTHON": sys.executable}
    return made_once(request, "wheel", lambda folder: done(*SCRIPT, folder, env=env)) / NAME


@pytest.fixture
def environment(tmp_path):
    """A function that runs Python in a virtual environment in a new folder. No environment variable names a program.
    The system's python-can and pip are used."""
    done(sys.executable, "-m", "venv", "--system-site-packages", "--without-pip", tmp_path / "venv")
    kept = {name: value for name, value in os.environ.items() if not name.startswith(("CANBUSD", "PYTHON"))}

    def run(*words):
        env = {**kept, "PATH": "/usr/bin:/bin", "PIP_DISABLE_PIP_VERSION_CHECK": "1"}
        return done(tmp_path / "venv" / "bin" / "python", *words, cwd=tmp_path, env=env)

    return run


def test_the_same_sources_give_the_same_wheel(wheel, tmp_path):
    done(*SCRIPT, tmp_path, env={**os.environ, "PYTHON": sys.executable, "TZ": "Asia/Tokyo"}, umask=0o077)
    assert (tmp_path / NAME).read_bytes() == wheel.read_bytes()


PROGRAMS = [
    *("canbusd", "canbusd-bridge", "canbusd-run", "libcanbusd-run.so", "libcanbusd-virtual.so", "libcanbusd.so.0"),
    "serve",
]


def test_what_is_in_the_wheel(wheel, tmp_path):
    """The wheel contains the same programs that `make install` installs."""
    done("make", "-s", "-C", CLONE, "install", f"PREFIX={tmp_path}")
    with zipfile.ZipFile(wheel) as opened:
        names = opened.namelist()
        assert sorted(name for name in names if name.startswith("canbusd/program/")) == [
            f"canbusd/program/{name}" for name in PROGRAMS
        ]
        for name in PROGRAMS:
            entry = opened.getinfo(f"canbusd/program/{name}")
            assert opened.read(entry) == (tmp_path / "libexec" / "canbusd" / name).read_bytes(), name
            assert entry.external_attr >> 16 & 0o777 == 0o755
    modules = [
        f"canbusd/{path.relative_to(PYTHON / 'src' / 'canbusd')}" for path in PYTHON.rglob("src/canbusd/**/*.py")
    ]
    assert set(modules) == {name for name in names if name.endswith(".py")}
    assert {"canbusd/py.typed", "canbusd/_page/page.js"} <= set(names)


@pytest.mark.skipif(shutil.which("gcc") is None, reason="no gcc to build canbusd-run with")
def test_changed_sources_give_another_wheel(tmp_path):
    """If canbusd-run in dist/ was built from other sources, the wheel contains one that is built from these sources."""
    copy = copy_of_clone(tmp_path / "clone")
    with open(copy / "canrun" / "command" / "main.c", "a") as source:
        source.write('const char changed[] = "changed by a test";\n')
    done(copy / "scripts" / "python-package", "wheel", tmp_path, env={**os.environ, "PYTHON": sys.executable})
    (wheel,) = tmp_path.glob("*.whl")
    with zipfile.ZipFile(wheel) as opened:
        assert b"changed by a test" in opened.read("canbusd/program/canbusd-run")
        assert opened.read("canbusd/program/canbusd") == program_of(CLONE).read_bytes()


def copy_of_clone(copy):
    """Copies the sources that the wheel is built from. The proved sources are a link to those of the repository."""
    ignored = shutil.ignore_patterns("out", "tests", "build", "*.egg-info", "__pycache__", ".*")
    for name in ("python", "scripts", "canrun", "libcanbusd", "dist", "tools"):
        shutil.copytree(CLONE / name, copy / name, ignore=ignored)
    for name in ("canbusd.1", "crates.txt"):
        shutil.copy(CLONE / name, copy / name)
    (copy / "crates").symlink_to(CLONE / "crates")
    return copy


def program_of(clone):
    """Returns the program that was built from the sources of this repository."""
    return clone / done(clone / "scripts" / "program", "choose").stdout.strip()


def test_its_commands_are_those_of_make_install(wheel, tmp_path):
    done("make", "-s", "-C", CLONE, "install", f"PREFIX={tmp_path}")
    with zipfile.ZipFile(wheel) as opened:
        (name,) = (name for name in opened.namelist() if name.endswith("/entry_points.txt"))
        found = configparser.ConfigParser(delimiters="=")
        found.read_string(opened.read(name).decode())
    assert {*found["console_scripts"]} == {"canbusd", "canbusd-run", "candump2bench"} == {*os.listdir(tmp_path / "bin")}


@pytest.mark.skipif(shutil.which("objdump") is None, reason="no objdump (binutils) to look at symbols with")
def test_its_platform_is_that_of_the_program():
    for file in (CLONE / "dist").iterdir():
        if file.read_bytes()[:4] == b"\x7fELF":
            # A statically linked program uses no shared libraries, so objdump finds no dynamic symbols.
            symbols = subprocess.run(["objdump", "-T", file], capture_output=True, text=True, check=False).stdout
            assert max(map(int, re.findall(r"GLIBC_2\.(\d+)", symbols)), default=0) <= 34, file


def tries_the_package(environment, folder):
    """Runs the test from README, and the program's commands."""
    (text,) = re.findall(r"^```python\n(.*?)^```$", (CLONE / "README.md").read_text(), re.M | re.S)
    (folder / "test_bus_off.py").write_text(text)
    assert "1 passed" in environment("-m", "pytest", "-q", "test_bus_off.py").stdout
    place = environment("-c", "from canbusd._process.program import find_program; print(find_program())").stdout
    assert place.startswith(str(folder / "venv"))
    (folder / "run.bench").write_text("session 1\nfeed 1 < open can0 >\n")
    with open(folder / "run.bench") as lines:
        written = subprocess.run(
            [folder / "venv" / "bin" / "python", "-m", "canbusd", "bench", "--record", "run.rec", "can0"],
            stdin=lines, cwd=folder, env={"PATH": "/usr/bin:/bin"}, capture_output=True, text=True, timeout=WAIT,
            check=True,
        )  # fmt: skip
    assert written.stdout == "1 < hi >\n1 < ok >\n"
    assert environment("-m", "canbusd", "audit", "run.rec").stdout == "ok 0 entries\n"
    tries_the_commands(folder / "venv" / "bin", folder)


def tries_the_commands(bin, folder):
    """Runs the commands on the PATH: those of the program and of the package, canbusd-run, and candump2bench."""
    env = {"PATH": f"{bin}:/usr/bin:/bin", "HOME": str(folder)}

    def written(*words, **options):
        return done(*words, cwd=folder, env=env, **options).stdout

    assert (
        re.fullmatch(r"canbusd (\S+)(?: \([0-9a-f]{8}\+?\))?\n", written("canbusd", "--version"))[1]
        == canbusd.__version__
    )
    assert written("canbusd", "help", "bench") == written("canbusd", "bench", "--help")
    assert written("canbusd", "audit", "run.rec") == "ok 0 entries\n"
    assert "</html>" in written("canbusd", "report", "--names", "can0", "run.rec")
    (folder / "run.log").write_text("(1.000000) can0 123#1122\n")
    bench = written("candump2bench", "--listen", "can1", "run.log")
    assert "1 < frame 123 1.000000 1122 >\n" in written("canbusd", "bench", "can1,can0", input=bench)
    with subprocess.Popen(
        ["canbusd", "serve", "--listen", "./socket", "can0,can1"],
        cwd=folder,
        env=env,
        stdout=subprocess.PIPE,
        text=True,
    ) as server:
        assert server.stdout.readline() == "listening ./socket\n"
        env["CANBUSD_ADDRESS"] = "./socket"
        written("canbusd", "send", "can0", "123#11")
        assert written("canbusd-run", "env").count("CANBUSD_INTERFACES=can0,can1") == 1
        server.send_signal(signal.SIGINT)
        assert server.wait(timeout=WAIT) == 0
    # The result is the same if CANBUSD names the package's own command.
    env["CANBUSD"] = str(bin / "canbusd")
    assert written("canbusd", "audit", "run.rec") == "ok 0 entries\n"


def test_the_wheel_needs_no_clone(wheel, environment, tmp_path):
    environment("-m", "pip", "install", "--quiet", "--no-index", "--no-deps", wheel)
    tries_the_package(environment, tmp_path)
    with subprocess.Popen(
        [tmp_path / "venv" / "bin" / "python", "-m", "canbusd", "serve", "--listen", "127.0.0.1:0", "can0"],
        cwd=tmp_path, env={"PATH": "/usr/bin:/bin"}, stdout=subprocess.PIPE, text=True,
    ) as server:  # fmt: skip
        assert server.stdout.readline().startswith("listening ")
        server.send_signal(signal.SIGTERM)
        assert server.communicate(timeout=WAIT)[0] == "bus can0 entries 0\n"
    assert server.returncode == 0


def test_pip_installs_the_same_from_the_clone(wheel, environment, tmp_path):
    clone = copy_of_clone(tmp_path / "clone")
    environment("-m", "pip", "install", "--quiet", "--no-index", "--no-deps", "--no-build-isolation", clone / "python")
    (package,) = (tmp_path / "venv" / "lib").glob("python3*/site-packages/canbusd")
    with zipfile.ZipFile(wheel) as opened:
        for name in opened.namelist():
            # The copied clone has no git repository, so its commit is unknown.
            if name.startswith("canbusd/") and name != "canbusd/COMMIT":
                assert (package.parent / name).read_bytes() == opened.read(name), name
    tries_the_package(environment, tmp_path)


def test_a_source_distribution_says_where_the_program_is(environment, tmp_path):
    source = tmp_path / "source"
    shutil.copytree(PYTHON, source, ignore=shutil.ignore_patterns("build", "*.egg-info", "__pycache__", ".*"))
    make = "import setuptools.build_meta as made; made.build_sdist('dist')"
    done(sys.executable, "-W", "ignore", "-c", make, cwd=source)
    (archive,) = (source / "dist").iterdir()
    with tarfile.open(archive) as opened:
        about = opened.extractfile(f"canbusd-{canbusd.__version__}/PKG-INFO").read().decode()
    assert "take the programs of the\nclone that `make install` takes: those that fit its sources" in about
    words = ["--quiet", "--no-index", "--no-deps", "--no-build-isolation", archive]
    environment("-m", "pip", "wheel", "--wheel-dir", tmp_path, *words)
    assert (tmp_path / f"canbusd-{canbusd.__version__}-py3-none-any.whl").exists()
    environment("-m", "pip", "install", *words)
    said = environment(
        "-c", "import canbusd\ntry: canbusd.Server('can0')\nexcept canbusd.ProgramNotFound as e: print(e)"
    )
    assert "install the wheel" in said.stdout
    # The PATH contains the package's own command, but not the program.
    own = [tmp_path / "venv" / "bin" / "canbusd", "audit", "run.rec"]
    path = {"PATH": f"{own[0].parent}:/usr/bin:/bin"}
    said = subprocess.run(own, env=path, capture_output=True, text=True, timeout=WAIT, check=False)
    assert said.returncode == 1 and "no program canbusd" in said.stderr
