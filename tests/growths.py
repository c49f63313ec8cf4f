#!/usr/bin/env -S python3 -B
"""Compares the functions of the libraries that can report out of memory with tests/growths.txt: growths.py [--write].

No clause can state that an allocation really failed. So each function that reports out of memory itself is listed, with
a digest of its code and with the lines that make the report, each with the allocation that failed or the call whose
answer it passes on. A new line is seen, and so is a wider condition in front of a listed one. With --write the list is
written anew: reasons are kept for the lines that had one, and each function that changed is printed, to be read.
"""

import collections
import glob
import hashlib
import re
import sys
from typing import NamedTuple

from common import TOP, done, same, text_of

LIST = "tests/growths.txt"
# Programs and crates of tests report to no caller.
OTHERS = {"example_client", "recw", "recw_cli"}
OTHERS |= {f"test_{kind}" for kind in ("alloc_failure", "engine", "rec", "runs", "store", "text")}
TYPES = re.compile(r"(Result|From|Fault)<[^={]*AllocError>+")
# The error, the reply line of a session, the flag of a request that did not fit, and the error of a call that is
# dropped, whatever is reported in its place.
MADE = re.compile(r"\bAllocError\b|\b\w+::Memory\b|!memory|\bis_lost\b\s*[:=](?!=)")
DROPPED = re.compile(r"\bErr\(_\w*\) =>|\bif let Err\(_")
# Under another name, or without its type's, the report could not be seen.
RENAMED = re.compile(r"(pub )?use\b.*(\bAllocError as\b|\bMemory\b)")
NO_REASON = "?"
TOKEN = re.compile(
    r"""//[^\n]*|(?P<token>b?r?"(?:[^"\\]|\\.)*"|b?'(?:[^'\\\n]|\\[^\n]*?)'|'\w+|\w+|\S)""", re.DOTALL | re.VERBOSE
)


class Function(NamedTuple):
    """A function: its name with its type's, the digest of its code, and the lines that report out of memory."""

    file: str
    name: str
    digest: str
    lines: tuple


def tokens_of(text):
    """The tokens of a source with their offsets; comments are left out."""
    return [(it["token"], it.start()) for it in TOKEN.finditer(text) if it["token"]]


def end_of_block(tokens, at):
    """The number behind the brace that closes the one at this number."""
    depth = 0
    while True:
        depth += {"{": 1, "}": -1}.get(tokens[at][0], 0)
        at += 1
        if depth == 0:
            return at


def body_of(tokens, at):
    """Where the body of the function whose `fn` is at this number begins and ends, and its signature without clauses;
    a function without body ends at once."""
    signature = []
    while tokens[at][0] not in "{;":
        if tokens[at][0] in ("requires", "ensures"):
            while tokens[at][0] != "{":
                at += 1
            at = end_of_block(tokens, at)
        else:
            signature.append(tokens[at][0])
            at += 1
    return at, end_of_block(tokens, at) if tokens[at][0] == "{" else at, signature


def digest_of(words):
    """A digest of these tokens. A comma in front of a closing bracket is a matter of layout."""
    kept = [it for it, after in zip(words, [*words[1:], ""]) if it != "," or after not in (")", "]", "}")]
    return hashlib.sha256("\n".join(kept).encode()).hexdigest()[:12]


def makes(line):
    """Whether the line reports out of memory, and does not only look for it: before an arrow, or after `let`."""
    made = re.split(r"=>|\blet\b.*? = ", line)[-1]
    return bool(MADE.search(TYPES.sub("", made)) or DROPPED.search(line))


def code_lines(text):
    """The lines of code that report out of memory, but for those of declarations."""
    stripped = [it.split("//")[0].strip() for it in text.splitlines()]
    code = [it for it in stripped if not re.match(r"(pub )?(ghost|use|ensures|requires|impl|fn)\b", it)]
    return tuple(it for it in code if makes(it))


def type_of(words):
    """The name of the type that a block of this head is of: `impl From<A> for B` is of `B`."""
    head = re.sub(r"<[^<>]*>", "", re.sub(r"<[^<>]*>", "", " ".join(words).replace("- >", "->")))
    names = re.findall(r"[A-Za-z_]\w*", head.split(" for ")[-1])
    return names[-1] if names else ""


def functions_of(file):
    """The functions of a file that report out of memory, in its order; tests are left out."""
    text = text_of(file).split("#[cfg(test)]")[0]
    tokens = tokens_of(text)
    at, owners, outside, last = 0, [], [], 0
    while at < len(tokens):
        word = tokens[at][0]
        owners = [it for it in owners if at < it[1]]
        if word in ("impl", "trait") and (at == 0 or tokens[at - 1][0] in ("}", ";", "]", "pub", "{", ")")):
            start = at
            while tokens[at][0] not in "{;":
                at += 1
            owners.append((type_of([it for it, _ in tokens[start + 1 : at]]), end_of_block(tokens, at)))
        elif word == "fn" and re.match(r"\w", tokens[at + 1][0]):
            begin, end, signature = body_of(tokens, at)
            if end > begin:
                outside.append(text[last : tokens[at][1]])
                last = tokens[end - 1][1] + 1
                lines = code_lines(text[tokens[begin][1] : last])
                if lines:
                    name = "::".join([*[it for it, _ in owners if it], tokens[at + 1][0]])
                    yield Function(file, name, digest_of(signature + [it for it, _ in tokens[begin:end]]), lines)
            at = end
            continue
        at += 1
    lines = code_lines(re.sub(r"(?s)(struct|enum) \w+.*?\n\}", "", "".join([*outside, text[last:]])))
    if lines:
        yield Function(file, "-", digest_of(lines), lines)


def files():
    for file in sorted(glob.glob("crates/*/src/**/*.rt", root_dir=TOP, recursive=True)):
        if file.split("/")[1] not in OTHERS:
            yield file


def listed():
    """The functions of the list, and the reason of each line under its file, function and text."""
    found, reasons = [], collections.defaultdict(list)
    for line in text_of(LIST).splitlines():
        if line.startswith("crates/"):
            found.append(Function(*line.split(" "), ()))
        elif line.startswith("    "):
            code, _, reason = line.strip().partition(" ## ")
            found[-1] = found[-1]._replace(lines=(*found[-1].lines, code))
            reasons[found[-1].file, found[-1].name, code].append(reason)
    return found, reasons


def write(have):
    """Writes the list with its reasons. A line of a new function has the reason that it had in another file, or in a
    function of this file that is gone; so both are to be read."""
    old, reasons = listed()
    kept = {it[:2] for it in have}
    moved, renamed = collections.defaultdict(list), collections.defaultdict(list)
    for (file, name, code), told in reasons.items():
        if (file, name) not in kept:
            moved[name, code] += told
            renamed[file, code] += told
    head = text_of(LIST).split("\ncrates/")[0].rstrip("\n").splitlines()
    out = [*head, ""]
    for function in have:
        out.append(" ".join(function[:3]))
        for code in function.lines:
            own = reasons[(*function[:2], code)]
            told = own or moved[function.name, code] or renamed[function.file, code] or [NO_REASON]
            out.append(f"    {code} ## {told.pop(0) if len(told) > 1 else told[0]}")
    with open(f"{TOP}/{LIST}", "w", encoding="utf-8") as file:
        file.write("\n".join(out) + "\n")
    for mark, some, others in (("-", old, have), ("+", have, old)):
        for function in sorted((collections.Counter(some) - collections.Counter(others)).elements()):
            print(f"{mark} {' '.join(function[:3])}")


def main():
    have = [it for file in files() for it in functions_of(file)]
    if "--write" in sys.argv[1:]:
        write(have)
    wanted, reasons = listed()
    same(
        "names of memory that are hidden",
        [],
        [f"{file}: {line}" for file in files() for line in text_of(file).splitlines() if RENAMED.match(line.strip())],
    )
    before, after = collections.Counter(wanted), collections.Counter(have)
    same("functions that are new or changed", [], sorted((after - before).elements()))
    same("functions that are gone or were changed", [], sorted((before - after).elements()))
    unread = sorted(it for it, told in reasons.items() if {NO_REASON, ""} & set(told))
    same("lines whose reason is ? in the list", [], unread)
    done()


if __name__ == "__main__":
    main()
