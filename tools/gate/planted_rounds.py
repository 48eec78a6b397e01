"""Wrong bodies tried together: what one is, and rounds of them, in each at most one a function.

A function is proved against the contracts of those that it calls and never sees their bodies, so a wrong body leaves
each other function as it was, and one check tells of several. A wrong body that isn't within one function's body is
of no function, and is tried by itself.
"""

from __future__ import annotations

import dataclasses
import pathlib
import re

FUNCTION = re.compile(r"(?P<indent> *)(?:pub(?:\([^)]*\))? )?(?:const )?fn (?P<name>\w+)")
HEADER = re.compile(r"impl\b")
WORD = re.compile(r"\w+")


@dataclasses.dataclass(frozen=True)
class Function:
    """Where a function lies: its file, the type and the trait whose it is, if any, and its name."""

    file: str
    owner: str
    name: str

    def has(self, proved, crate):
        """Whether this is the name by which a check tells of the function, or of a closure in it."""
        if not self.owner:
            parts = [crate, *pathlib.PurePath(self.file).with_suffix("").parts[1:]]
            place = "::".join(it for it in parts if it != "lib")
            return proved == f"{place}::{self.name}" or proved.startswith(f"{place}::fn::{self.name}::")
        own = f"::{self.owner}::{self.name}"
        return proved.endswith(own) or f"::fn{own}::" in proved


@dataclasses.dataclass(frozen=True)
class Edit:
    """A wrong body: its name, the file below the crate's folder, what it replaces there, and whose body that is."""

    name: str
    file: str
    pairs: tuple
    function: Function | None


def applied(text, edits):
    """A file's text with these wrong bodies. ValueError where what one replaces isn't there just once."""
    changes = []
    for edit in edits:
        for old, new in edit.pairs:
            if text.count(old) != 1:
                raise ValueError(f"{edit.name}: an old: text is in {edit.file} {text.count(old)} times")
            changes.append((text.index(old), old, new))
    for at, old, new in sorted(changes, reverse=True):
        text = text[:at] + new + text[at + len(old):]
    return text


def owner_of(line):
    """The type that an impl is of, and behind it the trait; '' where the line begins no impl."""
    if not HEADER.match(line):
        return ""
    rest, depth = line[len("impl"):], 0
    plain = ""
    for sign in rest:
        depth += (sign == "<") - (sign == ">")
        plain += sign if depth == 0 and sign != ">" else ""
    first, _, of = plain.partition(" for ")
    names = [WORD.search(it)[0] for it in (of, first) if WORD.search(it)]
    return "".join(names)


def function_at(lines, at, file):
    """The function in whose body this line is. None where it is in no body."""
    begins = next((it for it in range(at, -1, -1) if FUNCTION.match(lines[it])), None)
    if begins is None:
        return None
    indent = FUNCTION.match(lines[begins])["indent"]
    opens = (it for it in range(begins, at) if lines[it] == indent + "{" or (it == begins and lines[it].endswith(" {")))
    opened = next(opens, None)
    if opened is None or indent + "}" in lines[opened:at]:
        return None
    header = next((it for it in lines[begins::-1] if it and not it.startswith((" ", "}", "//", "#"))), "")
    owner = owner_of(header) if indent else ""
    return Function(file, owner, FUNCTION.match(lines[begins])["name"])


def edit_of(path, folder):
    """The wrong body that a file tells of, of the crate in this folder."""
    told = path.read_text().splitlines()
    file = next(it[len("file: "):].strip() for it in told if it.startswith("file: "))
    olds, news = ([it[5:] for it in told if it.startswith(word)] for word in ("old: ", "new: "))
    text = (folder / file).read_text()
    ats = [text[: text.find(old)].count("\n") for old in olds if old in text]
    functions = {function_at(text.splitlines(), at, file) for at in ats} if file.startswith("src/") else {None}
    return Edit(path.stem, file, tuple(zip(olds, news)), functions.pop() if len(functions) == 1 else None)


def rounds_of(edits):
    """The edits in rounds, in each at most one a function, and last those that are of none."""
    rounds = []
    for edit in (it for it in edits if it.function):
        free = next((it for it in rounds if edit.function not in [other.function for other in it]), None)
        if free is None:
            rounds.append(free := [])
        free.append(edit)
    return rounds, [it for it in edits if not it.function]
