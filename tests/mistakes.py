#!/usr/bin/env -S python3 -B
"""Compares messages about wrong specifications with those that mistakes.txt wants: mistakes.py [PROGRAM] [NAME..]

Each row is given to `recw check --explain` and to `recw eval --explain`. Both must have each message at its place. A
message after `todo` is one that the program does not have yet; the last lines count these. --write renews the marks.
NAME is a part of the names of the rows that are tried.

For these rows, the specifications of examples/ and others with an error, `eval`, `trace`, `serve` and `check` with
`--explain`, and `check --format json` must also say the same: location, code and words.
"""

import glob
import json
import os
import re
import subprocess
import sys
from typing import NamedTuple

from common import FAILURES, TOP, done, program, same, text_of

LISTED = "tests/mistakes.txt"
ENCODINGS = {"crlf": "ascii", "empty": "ascii"}
PLACE = re.compile(r"<stdin>:\d+:\d+: ")
MESSAGE = re.compile(r"(todo )?(\d+:\d+)(?: ([A-Z]\d*))?: (.+)")


class Message(NamedTuple):
    """A message that is wanted: its place, the code of the error or None for a hint, a part of it, and its line."""

    is_todo: bool
    place: str
    code: str
    part: str
    line: int


class Row(NamedTuple):
    """A wrong text, the messages that it needs, none if it is valid, and whether it must have no hint."""

    name: str
    text: bytes
    messages: list
    is_bare: bool


def escaped(line):
    """A line of the list with its escapes replaced."""
    return re.sub(r"\\(x[0-9a-f]{2}|.)", lambda it: it[0].encode().decode("unicode_escape"), line)


def rows():
    """The rows of the list."""
    base = text_of("examples/add.rec")
    lines = text_of(LISTED).split("\n")
    begins = [at for at, it in enumerate(lines) if it.startswith("## ")] + [len(lines)]
    for begin, end in zip(begins, begins[1:]):
        name, text, whole, encoding, messages = lines[begin][3:], base, [], "utf-8", []
        changes = []
        is_bare = "no hint" in lines[begin:end]
        for at in range(begin + 1, end):
            line = lines[at]
            if line[:2] in ("- ", "+ "):
                if line[0] == "-" and (not changes or changes[-1][1]):
                    changes.append(([], []))
                changes[-1][line[0] == "+"].append(f"{escaped(line[2:])}\n")
            elif line[:1] == "|":
                whole.append(f"{escaped(line[2:])}\n")
            elif line.startswith("as "):
                encoding = line[3:]
            elif line and line not in ("valid", "no hint"):
                todo, place, code, part = MESSAGE.fullmatch(line).groups()
                messages.append(Message(bool(todo), place, code, part, at))
        for old, new in changes:
            assert text.count("".join(old)) == 1, name
            text = text.replace("".join(old), "".join(new))
        text = "".join(whole) if whole else text
        if encoding == "crlf":
            text = text.replace("\n", "\r\n")
        data = b"" if encoding == "empty" else text.encode(ENCODINGS.get(encoding, encoding))
        yield Row(name, data, messages, is_bare)


def answer(words, text):
    """The status of the program, and the lines that it writes."""
    ran = subprocess.run([program(), *words], input=text, capture_output=True, check=False, timeout=60)
    return ran.returncode, (ran.stdout + ran.stderr).decode("utf-8", "replace").splitlines()


WORDS = {}  # the description of each code


def has_message(lines, message):
    """Whether one of the lines is a message, in the form of GNU or with the code first."""
    for line in lines:
        found = re.match(rf"[^:]*:{message.place}: (.*)", line)
        if found and message.part in found[1]:
            if not message.code or re.match(rf"{message.code}\b", found[1]) or f"[{message.code}]" in found[1]:
                return True
    return False


class Said(NamedTuple):
    """An explanation: the line of the error without its details, these, the source line with the caret, and hints."""

    place: str
    code: str
    details: str
    shown: list
    hints: list


def explained_by_eval(lines):
    """The explanation on standard error, or None if there is none."""
    found = [(at, re.fullmatch(r"<stdin>:(\d+:\d+): ([A-Z]\d*): (.*)", it)) for at, it in enumerate(lines)]
    for at, it in found:
        if it:
            assert it[3].startswith(WORDS[it[2]]), it[3]
            return Said(it[1], it[2], it[3][len(WORDS[it[2]]) :], lines[at + 1 : at + 3], lines[at + 3 :])
    return None


def explained_by_check(lines):
    """The explanations of `check --explain`, one for each finding."""
    found, at = [], 0
    while at < len(lines):
        it = re.fullmatch(r"<stdin>:(\d+:\d+): (?:error|warning): (.*) \[([A-Z]\d*)\]", lines[at])
        if it:
            found.append(Said(it[1], it[3], "", lines[at + 1 : at + 3], []))
            at += 3
            if lines[at : at + 1] and lines[at].startswith("    "):
                found[-1] = found[-1]._replace(details=f"; {lines[at][4:]}")
                at += 1
        else:
            found[-1].hints.extend(lines[at : at + 3])
            at += 3
    return found


def try_object(name, line, said, shown):
    """Compares an object of `check --format json` with an explanation; `shown` is its line's message."""
    told = json.loads(line)
    same(f"{name}: the place of an object", (said.place, said.code), (f"{told['line']}:{told['column']}", told["code"]))
    *others, last = told["expected"] or [""]
    details = said.details
    expected = f"; expected {', '.join(others)}{' or ' if others else ''}{last}" if last else ""
    meant = f"; did you mean `{told['suggestion']}`?"
    hint = f"; {said.hints[0].removeprefix('<stdin>:')}" if said.hints else ""
    if hint and hint.startswith(f"; {said.place}: ") and told["suggestion"]:
        meant = {",": "commas"}.get(told["suggestion"], told["suggestion"].strip())
        same(f"{name}: the suggestion of a hint: {hint}", True, meant in hint)
        hint = ""
    elif told["suggestion"]:
        same(f"{name}: the suggestion of an object: {details}", True, details.endswith(meant))
        details = details.removesuffix(meant)
    same(f"{name}: the expected tokens of an object: {details}", True, details.endswith(expected))
    same(f"{name}: the message of an object", shown + details.removesuffix(expected) + hint, told["message"])


def try_same(name, text):
    """Compares what the commands say about a text."""
    wanted = None
    for words in (["eval", "--steps=0"], ["trace", "--steps=0"], ["serve"]):
        files = ["-", os.devnull] if words == ["serve"] else ["-"]
        said = explained_by_eval(answer([*words, "--explain", *files], text)[1])
        wanted = said if words[0] == "eval" else wanted
        same(f"{name}: {words[0]} says as eval", wanted, said)
    status, plain = answer(["check", "-"], text)
    explained = answer(["check", "--explain", "-"], text)
    lines = [it for it in explained[1] if re.search(r"^\S.* \[[A-Z]\d*\]$", it)]
    same(f"{name}: check with lines", (status, plain), (explained[0], lines))
    told = explained_by_check(explained[1])
    same(f"{name}: check says as eval", [wanted] if wanted else [], [it for it in told if not it.code.startswith("W")][:1])
    objects = answer(["check", "--format", "json", "-"], text)
    same(f"{name}: check with objects", (status, len(plain)), (objects[0], len(objects[1])))
    for said, line, found in zip(told, plain, objects[1]):
        try_object(name, found, said, re.fullmatch(r".*?: (?:error|warning): (.*) \[\w+\]", line)[1])


def try_row(row):
    """Compares the messages of a row, and returns the marks of its lines that should be others."""
    marks = {}
    status, checked = answer(["check", "--explain", "-"], row.text)
    _, explained = answer(["eval", "--explain", "-"], row.text)
    if not row.messages:
        same(f"{row.name}: valid", (0, []), (status, [it for it in checked if "error" in it]))
        same(f"{row.name}: evaluated", [], [it for it in explained if it.startswith("!")])
        return marks
    same(f"{row.name}: status", 1, status)
    if row.is_bare:
        same(f"{row.name}: hints", 1, len([it for it in explained if PLACE.match(it)]))
    # the line of each finding with what is said below its source line
    joined = []
    for one in explained_by_check(checked):
        joined += (f"-:{one.place}: {WORDS[one.code]}{one.details} [{one.code}]", *one.hints)
    for message in row.messages:
        is_there = has_message(explained, message) and has_message(joined, message)
        if is_there == message.is_todo:
            marks[message.line] = not is_there
        if not is_there and not message.is_todo:
            FAILURES.append(row.name)
            print(f"FAILED {row.name}: {message.place} {message.code or 'hint'}: {message.part}")
            print("".join(f"    {it}\n" for it in [*checked, *explained]), end="")
        elif is_there and message.is_todo:
            print(f"{row.name}: not todo any more: {message.part}")
    return marks


# A specification with an error of each rule, and with several.
BROKEN = (
    "SORTS A B A END-SPEC", "SORTS A CONS a : -> A OPNS a : -> A END-SPEC", "SORTS A VARS X Y X : A END-SPEC",
    "SORTS A CONS a : -> A VARS a : A END-SPEC", "SORTS A B VARS X : C END-SPEC", "VARS X : C END-SPEC",
    "SORTS A CONS zero : -> A EVAL zeor END-SPEC", "SORTS A CONS a : -> A EVAL b END-SPEC",
    "SORTS A CONS a : -> A EVAL a(a) END-SPEC", "SORTS A OPNS f : A -> A VARS X : A RULES f(X) -> X(X) END-SPEC",
    "SORTS A B CONS b : -> B OPNS f : A -> A EVAL f(b) END-SPEC", "SORTS A CONS a : -> A RULES a -> a END-SPEC",
    "SORTS A B CONS b : -> B OPNS f : A -> A VARS X : A RULES f(X) -> b END-SPEC",
    "SORTS A OPNS f : A -> A VARS X Y : A RULES f(X) -> Y END-SPEC", "SORTS A VARS X : A EVAL X END-SPEC",
    "SORTS A B A CONS a : -> C OPNS f : A -> A VARS X X : A\nRULES f(a,a) -> b a -> Y\nEVAL f(a,X) END-SPEC", "",
)


def try_words():
    """Compares what the commands say about specifications of examples, with an error of each rule, and cut off."""
    paths = sorted(glob.glob(f"{TOP}/examples/**/*.rec", recursive=True))
    texts = [(os.path.relpath(it, TOP), text_of(os.path.relpath(it, TOP)).encode()) for it in paths]
    texts += [(it, f"REC-SPEC E {it}".encode()) for it in BROKEN]
    add = text_of("examples/add.rec").encode()
    texts += [(f"the first {end} bytes of add.rec", add[:end]) for end in range(0, len(add), 7)]
    for name, text in texts:
        try_same(name, text)


def write(marks):
    """Renews the marks of the list."""
    lines = text_of(LISTED).split("\n")
    for at, is_todo in marks.items():
        line = lines[at].removeprefix("todo ")
        lines[at] = f"todo {line}" if is_todo else line
    with open(f"{TOP}/{LISTED}", "w", encoding="utf-8") as file:
        file.write("\n".join(lines))


def main():
    renews = "--write" in sys.argv
    sys.argv[1:] = [it for it in sys.argv[1:] if it != "--write"]
    names = sys.argv[2:]
    listed = subprocess.run([program(), "help", "refusals"], capture_output=True, text=True, check=False)
    WORDS.update(line.split(None, 1) for line in listed.stdout.splitlines())
    tried = [it for it in rows() if not names or any(one in it.name for one in names)]
    marks = {}
    for row in tried:
        marks.update(try_row(row))
        try_same(row.name, row.text)
    if not names:
        try_words()
    if renews:
        write(marks)
    todo = [it.name for it in tried if any(one.is_todo for one in it.messages)]
    same("at least 57 wrong specifications", True, bool(names) or len([it for it in tried if it.messages]) >= 57)
    print(f"{len(tried)} specifications, of which {len(todo)} wait for a message")
    done()


if __name__ == "__main__":
    main()
