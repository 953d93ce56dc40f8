"""Finds the functions in a formatted .rt file: their positions, and their names in the check.

This relies on the layout of `rt fmt`: an item ends with the first closing brace at its own indent. If a function has
another name in the check, scripts/edits notices that before it relies on the name.
"""

import os
import re
from dataclasses import dataclass
from typing import Dict, Iterator, List, Optional, Tuple

# The module of each struct and enum, and the number of its type parameters.
Types = Dict[str, Tuple[str, int]]


@dataclass(frozen=True)
class Function:
    """A function with a body that begins with a brace at the end of a line."""

    name: str
    start: int
    body: int
    end: int
    indent: str


@dataclass(frozen=True)
class Owner:
    """An impl or a trait. If its name is empty, the names of its functions in the check are unknown."""

    start: int
    end: int
    name: str
    module: str


def module_of(path: str) -> str:
    """Returns a::b for src/a/b.rt, and an empty string for the crate root."""
    inner = path[len("src/") : -len(".rt")].replace("/", "::")
    return "" if inner in ("lib", "main") else inner


def sources_of(folder: str) -> Iterator[str]:
    """Yields the paths of the crate's sources, relative to its folder."""
    for at, _, names in sorted(os.walk(f"{folder}/src")):
        yield from (os.path.relpath(f"{at}/{name}", folder) for name in sorted(names) if name.endswith(".rt"))


def text_of(path: str) -> str:
    with open(path, encoding="utf-8") as file:
        return file.read()


def types_of(folder: str) -> Types:
    """Returns the module of each type in the crate, because the names of the type's functions begin with that module."""
    pattern = re.compile(r"(?m)^\s*(?:pub(?:\([^)]*\))?\s+)?(?:struct|enum|union)\s+(\w+)")
    found = {}
    for path in sources_of(folder):
        text = text_of(f"{folder}/{path}")
        for match in pattern.finditer(text):
            found[match[1]] = module_of(path), len(parameters_of(text[match.end() :])[0])
    return found


def parameters_of(text: str) -> Tuple[List[str], str]:
    """Splits a string that may begin with a list in <>. Returns the parameters in the list without lifetimes, and the
    rest of the string."""
    if not text.startswith("<"):
        return [], text
    depth = end = 0
    words, level = [""], 0
    for end, char in enumerate(text):
        depth += (char == "<") - (char == ">" and text[end - 1] != "-")
        if not depth:
            break
        if end == 0:
            continue
        level += (char in "<([") - (char in ">)]")
        if char == "," and not level:
            words.append("")
        else:
            words[-1] += char
    kept = [word.strip() for word in words]
    return [word for word in kept if word and not word.startswith("'")], text[end + 1 :]


def short(name: str) -> str:
    """Returns the last word of a path, without its type arguments."""
    while re.search(r"<[^<>]*>", name):
        name = re.sub(r"<[^<>]*>", "", name)
    return re.sub(r"\W", "", name.strip().split("::")[-1])


def arguments_of(name: str, parameters: List[str]) -> str:
    """Returns the suffix that the trait's arguments add to the name of an impl: From<AllocError> becomes
    FromAllocError."""
    inside = re.search(r"<(.*)>\s*$", name.strip())
    words = re.split(r",\s*(?![^<]*>)", inside[1]) if inside else []
    words = [short(word) for word in words if not word.strip().startswith("'")]
    return "".join(word[:1].upper() + word[1:] for word in words if word not in parameters)


def end_of(text: str, at: int, indent: str) -> int:
    """Returns the position after the end of an item, which is the first closing brace at its indent."""
    match = re.compile(rf"(?m)^{indent}\}}").search(text, at)
    return match.end() if match else len(text)


def owners_of(text: str, module: str, types: Types) -> List[Owner]:
    pattern = r"(?m)^([ \t]*)(?:unsafe\s+)?(impl|(?:pub(?:\([^)]*\))?\s+)?trait)\b([^{}]*?)\{$"
    found = []
    for match in re.finditer(pattern, text):
        parameters, head = parameters_of(match[3].lstrip())
        parameters = [re.match(r"(?:const\s+)?(\w+)", word)[1] for word in parameters]  # type: ignore[index]
        head = re.split(r"\bwhere\b|\bensures\b|\brequires\b", head)[0]
        head = re.sub(r"\s+", " ", head).strip()
        name, home = owner_name("trait" in match[2], head, parameters, module, types)
        found.append(Owner(match.start(), end_of(text, match.end(), match[1]), name, home))
    return found


def owner_name(is_trait: bool, head: str, parameters: List[str], module: str, types: Types) -> Tuple[str, str]:
    """Returns the name of an impl or a trait, and the module in the names of its functions."""
    if is_trait:
        return short(re.match(r"\w+", head)[0]), module  # type: ignore[index]
    what, _, of = head.partition(" for ")
    if of and short(what) == "Drop":
        return "", ""
    if of:
        return short(of) + short(what) + arguments_of(what, parameters), module
    name = short(what)
    home, count = types.get(name, (module, 0))
    words = parameters_of(re.sub(r"^[\w:]+", "", what.strip()))[0]
    given = [word for word in words if word != "_"]
    if len(given) != count or not set(given) <= set(parameters):
        return name + "".join(f"+{word}" for word in given), module
    return name, home


def body_of(text: str, at: int, indent: str) -> Optional[int]:
    """Returns the position of the opening brace of the body of the function at this line, which comes after the
    function's clauses. Returns None if there is no body, or if it begins on the function's first line."""
    depth = 0
    for number, line in enumerate(text[at:].split("\n")):
        code = re.sub(r"\s*//.*", "", line).rstrip()
        is_clause = re.match(r"\s*(ensures|requires|ghost|where|invariant)\b", code)
        opens = len(re.findall(r"[{(\[]", code)) - len(re.findall(r"[})\]]", code))
        ends_head = depth + opens == 1 and code.endswith(" {") and not is_clause
        if depth == 0 and code == indent + "{" or ends_head and (number == 0 or line.startswith(indent + ")")):
            return at + len(code) - 1
        depth += opens
        is_whole = code.endswith(";") or number == 0 and code.endswith("}")
        if code == indent + "{}" or depth == 0 and is_whole:
            return None
        at += len(line) + 1
    return None


def functions_of(text: str, module: str, types: Types) -> List[Function]:
    """Returns the functions in a file that have a body, in order."""
    owners, found = owners_of(text, module, types), []
    pattern = r'(?m)^([ \t]*)(?:pub(?:\([^)]*\))?\s+)?(?:const\s+)?(?:unsafe\s+)?(?:extern "C"\s+)?fn\s+(\w+)'
    for match in re.finditer(pattern, text):
        body = body_of(text, match.start(), match[1])
        owner = next((it for it in reversed(owners) if it.start < match.start() < it.end), None)
        if body is None or owner and not owner.name:
            continue
        path = [owner.module, owner.name, match[2]] if owner else [module, match[2]]
        name = "::".join(word for word in path if word)
        found.append(Function(name, match.start(), body, end_of(text, body, match[1]), match[1]))
    return found
