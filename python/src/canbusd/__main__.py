"""The command `canbusd COMMAND ..`, which is also `python3 -m canbusd COMMAND ..`."""

import argparse
import difflib
import importlib
import sys
from collections.abc import Callable, Sequence
from pathlib import Path
from typing import Any, NoReturn, Optional

from canbusd import __version__
from canbusd._process.program import run_program
from canbusd._words import COMMANDS, PROGRAM
from canbusd.commands._command import run_command

TEXT = """\
commands:
{commands}

`canbusd COMMAND --help` has the options of each, and examples. All but fault, report, replay and those of the
program need python-can.

  canbusd serve can0,can1
  canbusd dump can0
  canbusd send can1 123#DEADBEEF

canbusd-run runs programs with CAN sockets, such as candump; candump2bench turns a log into an input of `bench`.
"""


def module_of(name: str) -> Any:
    """Returns the module of a command. The modules of other commands are not imported, because commands for reports
    work without python-can."""
    return importlib.import_module(f"canbusd.commands.{name}")


def parser_of(name: str) -> argparse.ArgumentParser:
    """Returns the argument parser of a command."""
    module = module_of(name)
    parser = argparse.ArgumentParser(
        prog=f"canbusd {name}",
        description=module.__doc__,
        epilog=getattr(module, "EPILOG", None),
        formatter_class=argparse.RawDescriptionHelpFormatter,
    )
    module.add_arguments(parser)
    return parser


def help_text() -> str:
    """Returns the list of commands, one per line, followed by how to get more help."""
    return TEXT.format(commands="\n".join(f"  {name:<9}{text}" for name, text in COMMANDS.items()))


def version_text() -> str:
    """Returns the version string. For an installed package, it includes the commit that the package was built from."""
    try:
        commit = (Path(__file__).parent / "COMMIT").read_text(encoding="utf-8").strip()
    except OSError:
        return f"canbusd {__version__}"
    return f"canbusd {__version__} ({commit})"


def main_parser() -> argparse.ArgumentParser:
    """Returns the parser for the options before the command and for the name of the command."""
    parser = argparse.ArgumentParser(
        prog="canbusd",
        usage="canbusd COMMAND ..",
        description="Simulated CAN buses",
        epilog=help_text(),
        formatter_class=argparse.RawDescriptionHelpFormatter,
        add_help=False,
    )
    parser.add_argument("-h", "--help", action="help", help="show this help; after COMMAND, that of the command")
    parser.add_argument("-V", "--version", action="version", version=version_text(), help="show the version")
    parser.add_argument("command", nargs="?", metavar="COMMAND", help=argparse.SUPPRESS)
    return parser


def command_named(words: Sequence[str]) -> str:
    """Returns the command that the first word names, and exits with an error if there is no such command."""
    parser = main_parser()
    found, unknown = parser.parse_known_args(words[:1])
    if unknown:
        parser.error(f"no option {unknown[0]}; the command comes first")
    name: Optional[str] = found.command
    if name is None:
        parser.error("the following arguments are required: COMMAND")
    if name not in COMMANDS:
        near = difflib.get_close_matches(name, COMMANDS, 1)
        parser.error(f"no command {name}{f'; did you mean {near[0]}?' if near else ''}")
    return name


def carry_out(words: Sequence[str]) -> Optional[int]:
    """Runs the command that the words name, and returns its exit status."""
    name = command_named(words)
    if name in PROGRAM:
        run_program("canbusd", words)
    try:
        options = parser_of(name).parse_args(words[1:])
    except ImportError as fault:
        if type(fault).__name__ != "NoPythonCan":
            raise
        sys.exit(f"canbusd {name}: {fault}")
    run: Callable[[argparse.Namespace], Optional[int]] = module_of(name).run
    return run(options)


def main(given: Optional[list[str]] = None) -> NoReturn:
    """Runs the command that the command line arguments name."""
    arguments = sys.argv[1:] if given is None else given
    if arguments[:1] == ["help"]:
        # `help COMMAND` is the same as `COMMAND --help`.
        arguments = [*arguments[1:2], "--help"]
    first = "".join(arguments[:1])
    run_command(lambda: carry_out(arguments), f"canbusd {first}" if first in COMMANDS else "canbusd")


def canbusd_run() -> NoReturn:
    """Runs the canbusd-run that the wheel contains. The program replaces this process."""
    run_command(lambda: run_program("canbusd-run", sys.argv[1:]), "canbusd-run")


if __name__ == "__main__":
    main()
