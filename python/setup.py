"""Adds the programs, and the launcher of servers, to wheels. The scripts in `scripts/` select the same files as for
`make install`. All other settings are in pyproject.toml.

A source distribution is not part of a clone. So a wheel that is built from it contains no program, and is for any
platform.
"""

import contextlib
import functools
import shutil
import subprocess
from pathlib import Path

from setuptools import setup
from setuptools.command.build_py import build_py

try:
    from setuptools.command.bdist_wheel import bdist_wheel
except ImportError:
    # Before setuptools 70.1.
    from wheel.bdist_wheel import bdist_wheel

# If a copy of this folder is built, a link next to the copy leads to the scripts of the clone.
SCRIPTS = (Path(__file__).resolve().parents[1] / "scripts").resolve()
CLONE = SCRIPTS.parent
# The proved program, and the canbusd-run in dist/, work with glibc 2.34 or later (`scripts/program glibc`).
LEAST_GLIBC = 34


def said(script, verb):
    """Returns the output lines of a script in the clone. They name the files that match the current sources, either
    built here or from dist/."""
    return subprocess.check_output([SCRIPTS / script, verb], text=True).splitlines()


@functools.lru_cache(maxsize=None)
def program_files():
    """Returns the files that are copied to the folder `program` of the package; an empty list outside of a clone."""
    if not (SCRIPTS / "program").is_file():
        return []
    programs = said("program", "choose")
    # Without gcc there may be no canbusd-run, as with `make install`. In this case, the script has printed the reason.
    with contextlib.suppress(subprocess.CalledProcessError):
        programs += said("run-program", "files")
    with contextlib.suppress(subprocess.CalledProcessError):
        programs += said("library", "fitting")
    return sorted(CLONE / name for name in [*programs, "tools/serve"])


class BuildWithProgram(build_py):
    """Copies the program into the package. An editable install uses the program in its clone instead."""

    def run(self):
        super().run()
        if getattr(self, "editable_mode", False):
            return
        folder = Path(self.build_lib, "canbusd", "program")
        shutil.rmtree(folder, ignore_errors=True)
        for file in program_files():
            folder.mkdir(exist_ok=True)
            copy = shutil.copyfile(file, folder / file.name)
            copy.chmod(0o755 if file.stat().st_mode & 0o100 else 0o644)


class PlatformWheel(bdist_wheel):
    """A wheel for any version of Python 3, and for the platform of the program."""

    def get_tag(self):
        names = {file.name for file in program_files()}
        if not names:
            return super().get_tag()
        (needed,) = said("run-program", "glibc") if "canbusd-run" in names else ["2.0"]
        return "py3", "none", f"manylinux_2_{max(LEAST_GLIBC, int(needed.split('.')[1]))}_x86_64"


setup(cmdclass={"build_py": BuildWithProgram, "bdist_wheel": PlatformWheel})
