"""Finds the fault rule that gave each attempt of a run its verdict. The program reports these rules if it is given the
run's faults."""

import contextlib
import dataclasses
import functools
import os
import re
import tempfile
from collections.abc import Callable, Iterable, Iterator, Sequence
from pathlib import Path
from types import TracebackType
from typing import BinaryIO, Optional, TypeVar

from canbusd._process.rates import Rates
from canbusd._run.events import BadRecord, Events
from canbusd._run.workers import take_all
from canbusd.record import Path as AnyPath, Record, check_beginning, check_no_log, is_named, record_of
from canbusd.rules import NAMES, Rule, parse_rule

Found = TypeVar("Found")
# More bytes than any line of a faults file has: a line has at most two lists of 16 interface names, and a few words.
LONGEST_LINE = 4096
# The endings of file names while a run continues, and after it was cut off.
GROWING = (".new", ".cut")
# The program's message if the number of names differs from the number of interfaces on the record's bus.
OTHER_BUS = "names of another bus"
# Matches the interface names in lines of faults. This is a regular expression because a file may have a million lines.
NAMED = re.compile(rb" (?:from|local (?:stuff|crc|form)) (\S+)")
JOINED = re.compile(NAMES)


class FaultsFile:
    """The file with the fault script of a run, or with the faults that a server wrote.

    The file is opened at once, because a server renames its files when it ends. It is read only once, because a pipe
    can't be read again. If the record is a regular file, it stays open together with this file.
    """

    def __init__(self, path: AnyPath, record: Optional[AnyPath] = None, is_beside: bool = False) -> None:
        self.path = os.fspath(path)
        #: Whether the file is next to the record, in the path to which a server writes it.
        self.is_beside = is_beside
        #: The last line if it was incomplete and was therefore left out.
        self.torn = b""
        self._file = open(path, "rb")
        self.record = open(record, "rb") if record is not None and os.path.isfile(record) else None

    def __enter__(self) -> "FaultsFile":
        return self

    def __exit__(
        self,
        kind: Optional[type[BaseException]],
        fault: Optional[BaseException],
        traceback: Optional[TracebackType],
    ) -> None:
        self._file.close()
        if self.record is not None:
            self.record.close()

    @functools.cached_property
    def text(self) -> bytes:
        """The content of the file. Raises BadRecord if the file begins with something that can't be a line of faults."""
        first = self._file.read(LONGEST_LINE)
        if len(first) == LONGEST_LINE and b"\n" not in first:
            raise BadRecord(f"no line of faults has {LONGEST_LINE:,} bytes, as its first one has", "script line 1")
        return first + self._file.read()

    def read(self, by: Callable[[bytes], Found], is_cut: bool) -> Found:
        """Applies the function `by` to the content of the file and returns the result.

        If the record was cut off, the faults file next to it may end with an incomplete line. Such a line belongs to no
        entry. It is left out if the program can't read it.
        """
        try:
            return by(self.text)
        except BadRecord as fault:
            whole = self.text[: self.text.rfind(b"\n") + 1]
            if not (is_of_faults(fault) and self.is_beside and is_cut) or whole == self.text:
                raise
            self.torn = self.text[len(whole) :]
            return by(whole)


def is_of_faults(fault: BadRecord) -> bool:
    """Returns whether the error is in the faults and not in the record. The program checks the faults first."""
    return (fault.verdict or "").startswith(("script line ", "bad bus"))


def faults_beside(record: AnyPath) -> Optional[FaultsFile]:
    """Opens the faults file that a server wrote next to this record; returns None if the run had no faults. The file is
    can0.rec.faults for can0.rec, and can0.rec.faults.new for can0.rec.new."""
    path = Path(record)
    stem, ending = (path.stem, path.suffix) if path.suffix in GROWING else (path.name, "")
    faults = path.with_name(f"{stem}.faults{ending}")
    return FaultsFile(faults, record, is_beside=True) if faults.is_file() else None


def with_names(record: Record, faults: FaultsFile) -> Record:
    """Returns the record with a name for its unnamed interface, if there is exactly one and if the faults name exactly
    one interface that the record does not. Otherwise returns the record unchanged."""
    unnamed = [place for place, name in enumerate(record.names) if not is_named(name)]
    if len(unnamed) != 1:
        return record
    missing = [*names_in(faults.text).difference(record.names)]
    if len(missing) != 1:
        return record
    names = [*record.names]
    names[unnamed[0]] = missing[0]
    return dataclasses.replace(record, names=tuple(names))


def names_in(faults: bytes) -> set[str]:
    """Returns the interface names in a faults file, which may have a million lines. Names in comments are ignored."""
    if faults.startswith(b"#") or b"\n#" in faults:
        faults = b"\n".join(line for line in faults.split(b"\n") if not line.startswith(b"#"))
    found = (names.decode(errors="replace") for names in {*NAMED.findall(faults)})
    return {name for names in found if JOINED.fullmatch(names) for name in names.split(",")}


def read_ruled(
    path: AnyPath, names: Sequence[str], cut: bool, rates: Optional[Rates], faults: FaultsFile
) -> tuple[Record, list[str]]:
    """Returns the record in this file, as `read_run` does, and its rules, as `deciders` does. The file is read once, so
    it may be a pipe.

    After a BadRecord, `is_of_faults` returns whether the error is in the faults or in the record.
    """
    check_no_log(path)
    with faults, contextlib.ExitStack() as stack:
        file = faults.record or stack.enter_context(open(path, "rb"))
        check_beginning(file)
        found = faults.read(lambda text: ruled_in(file, text, path, names, cut, rates), cut)
    return found


def ruled_in(
    file: BinaryIO, text: bytes, path: AnyPath, names: Sequence[str], cut: bool, rates: Optional[Rates]
) -> tuple[Record, list[str]]:
    """Returns the record in this file, and the rules of its attempts. `text` is the faults file."""
    taken = TakenRules()
    given = names.split(",") if isinstance(names, str) else names
    with bus_with(given, text) as bus, Events(cut, rates, file, bus) as events:
        try:
            record = record_of(taken.without(events.texts_of_file()), b"", path, names, rates, take_all)
        except BadRecord as fault:
            if fault.verdict != OTHER_BUS:
                raise
            raise BadRecord(
                f"its bus has another number of interfaces than names are given: {','.join(given)}"
            ) from None
    return record, taken.deciders()


def deciders(record: Record, faults: FaultsFile) -> list[str]:
    """Returns, for each attempt with a frame, the rule that gave it its verdict, or the empty string if no rule did.

    The list is empty if no rule gave any verdict. An error in the faults raises BadRecord. If the record was cut off,
    the faults file next to it may end with an incomplete line. Such a line belongs to no entry. It is left out if the
    program can't read it.
    """
    with faults:
        return faults.read(lambda text: rules_of(record, text, faults), record.is_cut)


def rules_of(record: Record, text: bytes, faults: FaultsFile) -> list[str]:
    """Returns the rule of each attempt, as `deciders` does. `text` is the content of the faults file."""
    if not text:
        return []
    file = None if record.text else faults.record
    if file is not None:
        file.seek(0)
    elif not record.text:
        raise BadRecord("for its rules the record is read twice, so it has to be a file")
    with bus_with(record.names, text) as bus, Events(record.is_cut, file=file, faults=bus) as events:
        texts = events.texts(record.text) if file is None else events.texts_of_file()
        return taken_in(texts).deciders()


@contextlib.contextmanager
def bus_with(names: Sequence[str], text: bytes) -> Iterator[str]:
    """Yields the program's argument for a bus with these interface names and with the faults in `text`."""
    with tempfile.NamedTemporaryFile() as script:
        script.write(text)
        script.flush()
        # An interface without a name is called `interface 1` here. The program's own name for it has hyphens instead of
        # spaces.
        yield f"{','.join(names).replace(' ', '-')}@{script.name}"


def unused_rules(names: Sequence[str], faults: FaultsFile) -> list[Rule]:
    """Returns the rules with a count, such as `next 1 ..`, that were neither used for an attempt nor ended by a
    command.

    `faults` is the file that a server wrote next to a complete record.
    """
    with faults:
        if not faults.text or faults.record is None:
            return []
        with Events(file=faults.record, faults=f"{','.join(names)}@{faults.path}") as events:
            return taken_in(events.texts_of_file()).unused()


def taken_in(events: Iterable[str]) -> "TakenRules":
    """Collects the fault rules from event lines."""
    taken = TakenRules()
    for _ in taken.without(events):
        pass
    return taken


class TakenRules:
    """Collects the fault rules of a bus from event lines, by the rule numbers in these lines."""

    def __init__(self) -> None:
        # The rules as the program prints them. `_first` is the number of the first rule that no command has ended.
        self._words: dict[int, str] = {}
        self._first = 1
        # For each attempt with a frame, the number of the rule that gave its verdict, or 0 if no rule did.
        self._numbers: list[int] = []

    def without(self, events: Iterable[str]) -> Iterator[str]:
        """Yields the event lines as they would be without faults, and collects the rules from the lines."""
        for text in events:
            lines = "\n".join(filter(None, map(self._take, text.split("\n"))))
            if lines:
                yield lines

    def _take(self, line: str) -> str:
        """Collects the rule in a line, and returns the line without the rule."""
        if line.startswith("attempt "):
            line, _, number = line.partition("; rule ")
            if " = tried " in line:
                self._numbers.append(int(number or 0))
            return line
        if line.startswith("rule "):
            _, number, words = line.split(" ", 2)
            self._words[int(number)] = words
            return ""
        if line == "nofaults":
            self._first = len(self._words) + 1
            return ""
        return line

    def deciders(self) -> list[str]:
        """Returns the rule of each attempt, as the module's function `deciders` does."""
        texts = {number: str(parse_rule(self._words[number])) for number in {*self._numbers} - {0}}
        return [texts.get(number, "") for number in self._numbers] if texts else []

    def unused(self) -> list[Rule]:
        """Returns the rules with a count that were neither used for an attempt nor ended by a command."""
        left = {*range(self._first, len(self._words) + 1)}.difference(self._numbers)
        rules = (parse_rule(self._words[number]) for number in sorted(left))
        return [rule for rule in rules if rule.count is not None]
