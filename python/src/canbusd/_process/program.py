"""The program `canbusd`: finds it, runs it, and returns its verdict on a record."""

import os
import shutil
import subprocess
from collections.abc import Sequence
from pathlib import Path
from typing import NoReturn, Optional, Union

#: Maps a variable to an option of pytest's ini file, if that option and not the user has set the variable.
SET_BY: dict[str, str] = {}


class ServerError(RuntimeError):
    """The server could not be started, or it ended with an error. The exception's text is canbusd's message."""


class BenchError(RuntimeError):
    """The bench ended with an error. The exception's text is canbusd's message."""


class ProgramNotFound(FileNotFoundError):
    """The program `canbusd` was not found."""


def find_program(name: str = "canbusd") -> str:
    """Returns the path of a program: the path in `$CANBUSD`, the program in the package, the program in the repository
    that contains the package, or the program on the PATH.

    A wheel contains the programs in its package. If the package is in a clone of the repository, the program is
    `./canbusd` in the clone. The name of the variable depends on `name`: for canbusd-run it is `$CANBUSD_RUN`. Commands
    that pip created for this package are ignored.
    """
    variable = name.upper().replace("-", "_")
    given = os.environ.get(variable)
    if given:
        found: Optional[str] = shutil.which(given)
        if found is None:
            raise ProgramNotFound(f"{SET_BY.get(variable, variable)} names no program: {given}")
        if not is_own_command(found):
            return os.path.abspath(found)
    package = Path(__file__).resolve().parents[1]
    packed, clone = package / "program" / name, package.parent.parent.parent
    if packed.is_file():
        return str(packed)
    if (clone / name).is_file() and (clone / "crates.txt").is_file():
        return str(clone / name)
    places = (shutil.which(name, path=place) for place in os.get_exec_path())
    found = next((place for place in places if place is not None and not is_own_command(place)), None)
    if found is None:
        raise ProgramNotFound(
            f"no program {name}: this package was installed without it and it is not on the PATH; install the wheel, or "
            f"set {variable} to the path of the program"
        )
    return found


def is_own_command(path: str) -> bool:
    """Returns whether this is a command that pip created for the package. Such a command would only search for the
    program again."""
    try:
        with open(path, "rb") as file:
            return b"from canbusd." in file.read(1024)
    except OSError:
        # The file may be executable but not readable, so it counts as a program.
        return False


def run_program(name: str, words: Sequence[str]) -> NoReturn:
    """Replaces this process with the program, called with these arguments. If there is a launcher next to the program,
    the launcher starts the server and ends it at Ctrl-C."""
    program = find_program(name)
    launcher = os.path.join(os.path.dirname(program), "serve")
    has_launcher = name == "canbusd" and words[0] == "serve" and os.path.isfile(launcher)
    command = [launcher, program, *words] if has_launcher else [program, *words]
    os.execv(command[0], command)


def audited(path: Union[str, "os.PathLike[str]"], cut: bool = False) -> str:
    """Returns the verdict of `canbusd audit` on the record in this file: `ok 7 entries`, or the error and the line.

    With `cut` the record may lack its last line. The verdict is then `ok 7 entries, then cut off`.
    """
    words = [find_program(), "audit", *(["--cut"] if cut else []), "--", os.fspath(path)]
    done = subprocess.run(words, stdin=subprocess.DEVNULL, capture_output=True, text=True, check=False)
    return (done.stdout if done.returncode == 0 else done.stderr).strip()
