#!/usr/bin/env -S python3 -B
"""Compares what `recw uses` writes with a second description of it: uses.py [PROGRAM].

Here a text is cut into words and marks, and a word is told by its section and by the colons beside it, without the
grammar. The texts are all examples, random specifications and random texts that are mostly wrong. Of each some places
are asked with --at; the words of such an answer are given a new name, and the values have to be the same but for it.
At the end a text of 16 MiB is told within two seconds.
"""

import random
import re
import subprocess
import sys
import tempfile
import time
from pathlib import Path
from typing import NamedTuple

import specifications
from common import TOP, done, program, same

SECTIONS = ("SORTS", "CONS", "OPNS", "VARS", "RULES", "EVAL")
RESERVED = {"REC-SPEC", *SECTIONS, "END-SPEC", "if", "and-if"}
TOKEN = re.compile(r"%[^\n]*|(?P<word>\w(?:[\w']|-(?=\w))*)|(?P<mark>->/<-|-><-|->|\S)", re.ASCII)
COUNT = 150
# Twice what 16 MiB may take on an idle machine, and how often they are tried.
SECONDS, TURNS = 4, 5
LARGEST = 16 * 1024 * 1024


class Told(NamedTuple):
    """A word: its first byte, whether it is a sort, its bytes, its kind, its declaration and its sorts."""

    at: int
    is_sort: bool
    word: str
    kind: str
    declared: int
    sorts: str


def cut(text):
    """The words and marks of a text with their first bytes, in the order of the text."""
    return [(it.start(), it[0]) for it in TOKEN.finditer(text) if it.lastgroup]


def placed(text):
    """The plain words behind the name: first byte, word, section, and the marks or words on both sides."""
    words, section = [(0, ""), *cut(text), (len(text), "")], ""
    for (_, before), (at, word), (_, behind) in zip(words, words[1:], words[2:]):
        if word in SECTIONS:
            section = word
        elif section and word not in RESERVED and TOKEN.fullmatch(word).lastgroup == "word":
            yield at, word, section, before, behind


def is_sort(section, before, behind):
    """Whether a word is a sort: all words of SORTS; those of CONS and OPNS that no colon follows; and those of VARS
    behind a colon."""
    if section == "VARS":
        return before == ":"
    return section == "SORTS" or (section in ("CONS", "OPNS") and behind != ":")


def tell(text):
    """The words of a specification's text."""
    words = [(at, it, section, is_sort(section, before, behind)) for at, it, section, before, behind in placed(text)]
    sorts, names = {}, {}
    for index, (at, word, section, sort) in enumerate(words):
        if section == "SORTS":
            sorts.setdefault(word, ("sort", at, ""))
        elif section in ("CONS", "OPNS") and not sort:
            own = []
            for _, other, of, also in words[index + 1 :]:
                if of != section or not also:
                    break
                own.append(other)
            shown = " ".join([*own[:-1], "->", own[-1]])
            names.setdefault(word, ("constructor" if section == "CONS" else "operator", at, shown))
        elif section == "VARS" and not sort:
            of = next(it for _, it, _, also in words[index:] if also)
            names.setdefault(word, ("variable", at, of))
    for at, word, section, sort in words:
        none = ("sort", -1, "") if sort else ("undeclared", -1, "")
        yield Told(at, sort, word, *(sorts if sort else names).get(word, none))


def spot(text, at):
    return f"{text.count(chr(10), 0, at) + 1}:{at - text.rfind(chr(10), 0, at)}"


def line(name, text, told):
    declared = spot(text, told.declared) if told.declared >= 0 else "-"
    sorts = f": {told.sorts}" if told.sorts else ""
    return f"{name}:{spot(text, told.at)}: {told.kind} {told.word}: {declared}{sorts}\n"


def recw(*words, text=""):
    """Runs the program on a text, and returns its status and its output."""
    how = {"stdout": subprocess.PIPE, "stderr": subprocess.DEVNULL, "check": False}
    run = subprocess.run([program(), *words], input=text.encode("latin-1"), **how)
    return run.returncode, run.stdout.decode("latin-1")


def lines_at(text, words, at):
    """The words that name the same as the one with this byte."""
    here = [it for it in words if it.at <= at < it.at + len(it.word)]
    return [it for it in words if here and (it.is_sort, it.word) == (here[0].is_sort, here[0].word)]


def compare(what, text, chance):
    """Compares all words of a text, and those at some places. Returns the words, if there are any."""
    _, found = recw("check", "-", text=text)
    outside = re.match(r"<stdin>:\d+:\d+: error: .* \[(?:G|L1)\]\n", found)
    if outside:
        same(f"{what}: outside", (1, found), recw("uses", text=text))
        return []
    words = [*tell(text)]
    same(what, (0, "".join(line("<stdin>", text, it) for it in words)), recw("uses", text=text))
    for at in [0, len(text) - 1, *(chance.randrange(len(text)) for _ in range(3))]:
        wanted = "".join(line("<stdin>", text, it) for it in lines_at(text, words, at))
        same(f"{what} at {spot(text, at)}", (0, wanted), recw("uses", "--at", spot(text, at), text=text))
    return words


def renamed(text, place, new):
    """The text with a new name in place of each word that `--at` tells."""
    starts = [0, *(it.end() for it in re.finditer("\n", text))]
    _, found = recw("uses", "--at", place, text=text)
    for row in reversed(found.splitlines()):
        line_of, column, _, _, old = re.match(r"<stdin>:(\d+):(\d+): (\w+)( )([\w'-]+)", row).groups()
        at = starts[int(line_of) - 1] + int(column) - 1
        text = text[:at] + new + text[at + len(old) :]
    return text


def rename(what, text, words, chance):
    """Renames a word, and compares the values."""
    told = chance.choice(words)
    new = renamed(text, spot(text, told.at), "q9")
    old = recw("eval", "--count", "--steps", "2000", "-", text=text)
    shown = re.compile(rf'"{re.escape(told.word)}"|\b{re.escape(told.word)}\b(?!")')
    wanted = old if told.is_sort else (old[0], "".join(renamed_line(it, shown) for it in old[1].splitlines(True)))
    same(f"{what}: {told.word} renamed", wanted, recw("eval", "--count", "--steps", "2000", "-", text=new))


def renamed_line(text, shown):
    """A line of values with the new name."""
    value, tab, count = text.partition("\t")
    return text if text.startswith("!") else shown.sub("q9", value) + tab + count


def largest():
    """A text of 16 MiB."""
    head = "REC-SPEC L SORTS N CONS z : -> N s : N -> N OPNS plus : N N -> N VARS X Y : N RULES\n"
    rule = "  plus(s(X),Y) -> s(plus(X,Y))\n"
    return head + rule * ((LARGEST - len(head) - 9) // len(rule)) + "END-SPEC\n"


def main():
    chance = random.Random(75)
    for path in sorted(Path(TOP, "examples").rglob("*.rec")):
        text = path.read_text(encoding="latin-1")
        name = str(path.relative_to(TOP))
        words = compare(name, text, chance)
        found = subprocess.run([program(), "uses", name], cwd=TOP, stdout=subprocess.PIPE, check=False).stdout
        same(f"{name} by its name", "".join(line(name, text, it) for it in words), found.decode("latin-1"))
    for number, (text, _, _) in enumerate(specifications.some(COUNT)):
        words = compare(f"random specification {number}", text, chance)
        if words and recw("eval", "--steps", "0", "-", text=text)[0] == 0:
            rename(f"random specification {number}", text, words, chance)
    with tempfile.NamedTemporaryFile("w", suffix=".rec") as file:
        file.write(largest())
        file.flush()
        least = SECONDS + 1
        for _ in range(TURNS):
            began = time.monotonic()
            subprocess.run([program(), "uses", file.name], stdout=subprocess.DEVNULL, check=True)
            least = min(least, time.monotonic() - began)
        print(f"16 MiB: {least:.1f} s")
        same("16 MiB are told in time", True, least <= SECONDS)
    done()


if __name__ == "__main__":
    sys.exit(main())
