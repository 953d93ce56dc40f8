"""libcanbusd from C, C++ and Rust: its calls with sanitizers, its symbols, and the examples with CMake, meson and
pkg-config."""

import os
import re
import shutil
import subprocess
from pathlib import Path

import pytest

from bench_cases import named_cases

ROOT = Path(__file__).resolve().parents[2]
HERE, EXAMPLES = ROOT / "tests" / "library", ROOT / "examples" / "library"
HEADER = ROOT / "libcanbusd" / "canbusd.h"
STRICT = ["-std=c11", "-Wall", "-Wextra", "-Wpedantic", "-Werror"]


def find_library():
    found = subprocess.run([ROOT / "scripts" / "library", "fitting"], capture_output=True, text=True)
    if found.returncode:
        pytest.skip("no libcanbusd of these sources: scripts/library build", allow_module_level=True)
    return (ROOT / found.stdout.strip()).parent


OUT = find_library()


def run(*words, **more):
    done = subprocess.run([str(word) for word in words], capture_output=True, text=True, timeout=280, **more)
    assert done.returncode == 0, done.stdout + done.stderr
    return done.stdout


@pytest.fixture(scope="module")
def installed(tmp_path_factory):
    """Installs the library, and returns the folder."""
    prefix = tmp_path_factory.mktemp("prefix")
    run(ROOT / "scripts" / "library", "install", prefix)
    return prefix


def environment(prefix):
    places = {
        "PKG_CONFIG_PATH": prefix / "lib" / "pkgconfig",
        "LD_LIBRARY_PATH": prefix / "lib",
        "CMAKE_PREFIX_PATH": prefix,
    }
    return {**os.environ, **{name: str(place) for name, place in places.items()}}


def checked(source, to):
    """Compiles a program with the static library and with sanitizers."""
    checks = ["-D_GNU_SOURCE", "-g", "-O1", "-fsanitize=address,undefined", "-fno-sanitize-recover=all"]
    run("gcc", *STRICT, *checks, "-I", HEADER.parent, HERE / source, OUT / "libcanbusd.a", "-o", to)
    return to


@pytest.fixture(scope="module")
def benches(tmp_path_factory):
    return checked("benches.c", tmp_path_factory.mktemp("benches") / "benches")


def test_calls_of_benches(benches):
    """Benches refuse invalid calls and keep their state. Misuse is tested only if its result is defined."""
    run(benches)


# A bit rate for a bus by name is only possible on the command line, so these cases are left out.
CASES = [case for case in named_cases() if "=" not in " ".join(case.values[0].words)]


@pytest.mark.parametrize("step", (1, 1000000), ids=("line by line", "at once"))
@pytest.mark.parametrize("case", CASES)
def test_a_bench_puts_out_what_the_rules_give(benches, case, step):
    """A bench of the library produces the expected output for each case in tests/bench, whether a call passes one line
    or all lines."""
    found = dict(zip(case.words, case.words[1:]))
    names, _, script = case.words[-1].partition("@")
    words = [names, {"peers": 1}.get(found.get("--ack"), 0), found.get("--limit", 1000000)]
    words += [found.get(word, 0) for word in ("--auto-restart", "--bitrate", "--dbitrate")]
    words += [int("--show-faults" in found), case.script if script else "", step]
    assert run(benches, *words, input=case.input) == case.output


def test_calls(tmp_path):
    """Every call works with sanitizers, and so does misuse if its result is defined. The audit accepts the record."""
    run(checked("calls.c", tmp_path / "calls"), tmp_path / "run.rec")
    program = os.environ.get("CANBUSD") or ROOT / "canbusd"
    assert re.fullmatch(r"ok \d+ entries\n", run(program, "audit", tmp_path / "run.rec"))


def test_only_what_the_header_has_can_be_seen():
    declared = set(re.findall(r"^(?:uint32_t|void|const char \*) ?\*?(canbusd_\w+)\(", HEADER.read_text(), re.M))
    for file, words in (("libcanbusd.so.0", ["-D", "--defined-only"]), ("libcanbusd.a", ["-g", "--defined-only"])):
        seen = re.findall(r" T (\w+)", run("nm", *words, OUT / file))
        assert set(seen) == declared and len(seen) == len(declared) == 25


def test_soname_has_the_version_of_the_header():
    version = re.search(r"#define CANBUSD_ABI (\d+)", HEADER.read_text())[1]
    assert f"Library soname: [libcanbusd.so.{version}]" in run("readelf", "-d", OUT / f"libcanbusd.so.{version}")


def test_header_is_one_of_cpp(tmp_path):
    source = tmp_path / "header.cpp"
    source.write_text(
        "#include <canbusd.h>\nint main() { canbusd_config config = CANBUSD_CONFIG; return config.ack; }\n"
    )
    run("g++", "-std=c++11", "-Wall", "-Wextra", "-Werror", "-I", HEADER.parent, source, "-o", tmp_path / "header")


def test_example_by_pkg_config(installed, tmp_path):
    found = environment(installed)
    words = run("pkg-config", "--cflags", "--libs", "canbusd", env=found).split()
    run("gcc", *STRICT, EXAMPLES / "test_ecu.c", EXAMPLES / "ecu.c", *words, "-o", tmp_path / "test_ecu")
    assert run(tmp_path / "test_ecu", env=found) == "ok\n"


def test_example_by_cmake(installed, tmp_path):
    if not shutil.which("cmake"):
        pytest.skip("no cmake")
    run("cmake", "-S", EXAMPLES, "-B", tmp_path, env=environment(installed))
    run("cmake", "--build", tmp_path)
    run("ctest", cwd=tmp_path)


def test_example_by_meson(installed, tmp_path):
    if not shutil.which("meson"):
        pytest.skip("no meson")
    run("meson", "setup", tmp_path, EXAMPLES, env=environment(installed))
    run("meson", "test", "-C", tmp_path, env=environment(installed))


def test_example_of_rust(installed, tmp_path):
    if not shutil.which("rustc"):
        pytest.skip("no rustc")
    run(
        "rustc",
        EXAMPLES / "first_frame.rs",
        "-L",
        installed / "lib",
        "-l",
        "static=canbusd",
        "-o",
        tmp_path / "first_frame",
    )
    assert run(tmp_path / "first_frame") == "ok\n"
