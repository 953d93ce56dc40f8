"""Definitions and clauses are readable: a reader has to trust the definitions that contracts cite, so their lines are
short. A line has at most 120 characters in the specs/ folder of a crate, and 100 in a clause in the sources. A
definition has at most 25 lines, except for tables with one line per case.
"""

import glob
import os
import re
from typing import Iterator, List, Tuple

from serving import ROOT

CRATES = os.path.join(ROOT, "crates")
DEFINITION = re.compile(r"(?:(?:abbrev|unfoldable)(?: pub)?|pub data|pub record) (\S+)")
CLAUSE = re.compile(r"\s*(?:requires|ensures|ghost (?!use ))")
# These tables have one line for each case, field or step.
TABLES = {"Headline", "arguments_of", "cause_text", "entry_in", "named"}


def lines_of(path: str) -> List[str]:
    with open(path, encoding="utf-8") as file:
        return file.read().splitlines()


def specs() -> List[str]:
    return sorted(glob.glob(os.path.join(CRATES, "*", "specs", "**", "*.antt"), recursive=True))


def sources() -> List[str]:
    return sorted(glob.glob(os.path.join(CRATES, "*", "src", "**", "*.rt"), recursive=True))


def clause_lines(lines: List[str]) -> Iterator[Tuple[int, str]]:
    """Yields the numbered lines of clauses. A clause begins at its first word, and ends at its closing brace."""
    open_braces = 0
    for number, line in enumerate(lines, 1):
        if open_braces or CLAUSE.match(line):
            yield number, line
            open_braces += line.count("{") - line.count("}")


def definitions(lines: List[str]) -> Iterator[Tuple[str, int]]:
    """Yields each definition with its number of lines. A definition ends before an empty line, a comment without indentation, or
    the next definition."""
    name, count = "", 0
    for line in lines + [""]:
        found = DEFINITION.match(line)
        if name and (found or not line or line.startswith("--")):
            yield name, count
            name = ""
        if found:
            name, count = found[1], 0
        count += 1


def test_lines_of_definitions_are_short() -> None:
    long = [(path, number) for path in specs() for number, line in enumerate(lines_of(path), 1) if len(line) > 120]
    assert specs() and not long


def test_lines_of_clauses_are_short() -> None:
    long = [(path, number) for path in sources() for number, line in clause_lines(lines_of(path)) if len(line) > 100]
    assert sources() and not long


def test_definitions_are_short() -> None:
    long = {name for path in specs() for name, count in definitions(lines_of(path)) if count > 25}
    assert long == TABLES
