#!/usr/bin/env -S python3 -B
"""Compares the list of functions with many arguments, `self` among them, in tests/arguments.txt with the sources.

A function of more than five arguments has to be in that list, by crate and name, below a reason; and each function of
the list has to be such a one. With --list they are printed, with their files and numbers of arguments.
"""

import collections
import glob
import re
import sys

from common import TOP, done, same, text_of

MOST = 5
LIST = "tests/arguments.txt"
COMMENT = re.compile(r"//[^\n]*")
FUNCTION = re.compile(r"\bfn (\w+)\s*")
# A crate with its functions, which may go on in further lines.
ENTRY = re.compile(r"(\w+):((?:\s+\w+)+)")
OPENING, CLOSING = "([{<", ")]}>"


def closed_at(text, at):
    """Behind the bracket that closes the one at this place; a `>` of an arrow closes none."""
    depth = 0
    for place in range(at, len(text)):
        letter = text[place]
        depth += letter in OPENING
        depth -= letter in CLOSING and text[place - 1 : place + 1] not in ("->", "=>")
        if depth == 0:
            return place + 1
    raise ValueError(text[at : at + 60])


def arguments_in(text):
    """How many arguments stand in a list of them, which begins and ends with a parenthesis."""
    count, place, begun = 0, 1, 1
    while place < len(text) - 1:
        if text[place] in OPENING:
            place = closed_at(text, place)
        elif text[place] == ",":
            count += 1
            place = begun = place + 1
        else:
            place += 1
    return count + bool(text[begun:-1].strip())


def functions_in(text):
    """Each function of a source, with its number of arguments."""
    text = COMMENT.sub("", text)
    for found in FUNCTION.finditer(text):
        at = found.end()
        if text[at] == "<":
            at = re.compile(r"\s*").match(text, closed_at(text, at)).end()
        if text[at] == "(":
            yield found[1], arguments_in(text[at : closed_at(text, at)])


def in_sources():
    """The functions of more arguments, as crate and name, and where they stand."""
    found = collections.defaultdict(list)
    for path in sorted(glob.glob(f"{TOP}/crates/*/src/**/*.rt", recursive=True)):
        path = path.removeprefix(f"{TOP}/")
        crate, file = path.removeprefix("crates/").split("/src/")
        for name, count in functions_in(text_of(path)):
            if count > MOST:
                found[crate, name].append(f"{file}: {count}")
    return found


def in_list():
    """The functions of the list, as crate and name. A line that belongs to no entry is an error."""
    listed = set()
    for line in text_of(LIST).replace("\n    ", " ").splitlines():
        if line and not line.startswith("#"):
            crate, functions = ENTRY.fullmatch(line).groups()
            listed |= {(crate, name) for name in functions.split()}
    return listed


def main():
    found = in_sources()
    if "--list" in sys.argv[1:]:
        for (crate, name), places in sorted(found.items()):
            print(f"{crate} {name}: {', '.join(places)}")
        return
    shown = lambda functions: [f"{crate}::{name}" for crate, name in sorted(functions)]
    same("functions of more than five arguments that no reason is given for", shown(found.keys() - in_list()), [])
    same("functions in the list that have no more, or are not there", shown(in_list() - found.keys()), [])
    done()


main()
