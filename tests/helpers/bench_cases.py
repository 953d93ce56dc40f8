"""The cases of tests/bench, which describe benches as text.

Each file contains several cases. A line with `$` contains the arguments of the command, `@` a line of the script that
the arguments name, `<` a line of input, and `>` a line of output. A line of input after `<~` has no LF. A line that
begins with `#` is a comment.
"""

import glob
import os

import pytest

from serving import ROOT


class Case:
    """The arguments of a command, the script that they name, the input and the expected output."""

    def __init__(self, words):
        self.words, self.script, self.input, self.output = words.split(" "), "", "", ""

    def add(self, mark, line):
        if mark == "@":
            self.script += line + "\n"
        elif mark == "<":
            self.input += line + "\n"
        elif mark == "<~":
            self.input += line
        else:
            assert mark == ">", f"{mark} begins no line of a case"
            self.output += line + "\n"


def cases_of(path):
    cases = []
    with open(path, encoding="utf-8", newline="\n") as file:
        lines = file.read().split("\n")
    for line in filter(None, lines):
        mark, _, rest = line.partition(" ")
        if mark == "$":
            cases.append(Case(rest))
        elif mark != "#":
            cases[-1].add(mark, rest)
    return cases


def named_cases():
    for path in sorted(glob.glob(os.path.join(ROOT, "tests", "bench", "*.txt"))):
        name = os.path.basename(path)[: -len(".txt")]
        for number, case in enumerate(cases_of(path), 1):
            yield pytest.param(case, id=f"{name}-{number}")
