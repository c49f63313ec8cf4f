#!/usr/bin/env -S python3 -B
"""Compares what `recw eval --stuck` tells with a second description of it, over the values that `recw eval` prints:
stuck.py [PROGRAM].

Each value is read as a term, its applications of operators are found, each behind those inside of it and from left to
right, and of each the rules whose left sides it is: none of them can have fired, so that their conditions fail. Then
come great depth, a value that shares much, and runs that end otherwise.
"""

import random
import re
import sys
import tempfile

import specifications
from attempts import NO_CELLS, NO_WRITE, at_stack, check, check_long, passed, recw
from common import FAILURES, text_of
from oracles import Terms, shown
from traces import HEAD, SECTIONS, Specification, place_of, with_conditions, write

COUNT = 400
BUDGETS = (0, 1, 2, 5, 16, 1000)
WIDTH = 60
LEVELS = 1_000_000
# How often a value is doubled, and so how many bytes about it has: 2 to that power.
DOUBLINGS = 18


def operators(text):
    """The names that are declared in OPNS."""
    words = Terms(re.sub("%.*", lambda it: " " * len(it[0]), text))
    if "OPNS" not in words.tokens:
        return set()
    begin = words.tokens.index("OPNS") + 1
    end = min(words.tokens.index(it) for it in SECTIONS[SECTIONS.index("OPNS") + 1 :] if it in words.tokens)
    return {name for name, mark in zip(words.tokens[begin:end], words.tokens[begin + 1 : end]) if mark == ":"}


def calls(tree, names, found):
    """The different calls in a tree, each behind those inside of it, from left to right."""
    for it in tree[1:]:
        calls(it, names, found)
    if tree[0] in names and tree not in found:
        found.append(tree)
    return found


def line(spec, number, call):
    """The line of a call in the term with this number."""
    text = shown(call)
    text = text if len(text) <= WIDTH else f"{text[: WIDTH - 3]}..."
    places = [place_of(spec.text, it.place) for it in spec.rules if spec.matches(it.left, call, {})]
    told = ", ".join(f"{line}:{column}" for line, column in places)
    return f"stuck: term {number}: {text}: {f'the conditions of {told} fail' if places else 'no rule matches'}\n"


def report(spec, names, values):
    """The lines that are due for the lines of values."""
    trees = [(at, Terms(it).term()) for at, it in enumerate(values.splitlines(), 1) if not it.startswith("!")]
    return "".join(line(spec, at, call) for at, tree in trees for call in calls(tree, names, []))


def compare(chance, number, at):
    """A specification: how many calls its values hold, and how many of these have a rule that matches."""
    text, terms = with_conditions(chance)
    files = [write(f"{at}/spec", text), write(f"{at}/terms", terms)]
    words = ["--steps", str(chance.choice(BUDGETS)), *chance.choice([[], ["--count"], ["--limit-annotations"]])]
    words += chance.choice([[], ["--memo", "0"], ["--reclaim", "1"], ["--explain"]])
    plain = recw("eval", *words, *files)
    due = report(Specification(text), operators(text), plain[1])
    wanted = (5 if due else 0, plain[1], due)
    check(f"specification {number}: {words}", ((0, ""), wanted), (plain[::2], recw("eval", "--stuck", *words, *files)))
    if due or "!limit" in plain[1]:
        check(f"specification {number}: a status", 5, recw("eval", "--stuck", "--limit-status", *words, *files)[0])
    return due.count("\n"), due.count("conditions")


def try_random(at):
    chance = random.Random(3)
    told, failing = map(sum, zip(*(compare(chance, number, at) for number in range(COUNT))))
    print(f"{COUNT} specifications: {told} calls in values, {failing} with conditions that fail")
    check("calls", True, told > COUNT / 4 and 0 < failing < told)


def try_given(at):
    """Given terms: those of a file and those among the words, whose annotations are not told."""
    file = write(f"{at}/spec", f"{HEAD}f(z) -> z if z -><- s(z)\n  f(X) -> z if X -><- s(s(z))\nEVAL f(s(z)) END-SPEC")
    here, there = "f(z): the conditions of 2:1, 3:3 fail\n", "stuck: term 1: f(s(z)): the conditions of 3:3 fail\n"
    both = f"{there}stuck: term 2: {here}stuck: term 3: {here}"
    due = (5, "f(s(z))\ns(f(z)){n(1),[2]}\nf(z){}\n".replace("{}", ""), both)
    check("-e", due, recw("eval", "--stuck", "-e", "s(f(z)){n(1),[2]}", "-e", "f(z){}", file))
    terms = write(f"{at}/terms", "[s(f(z)){n(1),[2]},f(z){}]")
    check("TERMS", due, recw("eval", "--stuck", file, terms))
    due = (5, "f(s(z))\nf(z){f(z)}\n", f"{there}stuck: term 2: {here}")
    check("annotated", due, recw("eval", "--stuck", "-e", "f(z){f(z)}", file))
    long = f"f({'s(' * 40}z{')' * 40})"
    told = f"stuck: term 2: {long[: WIDTH - 3]}...: the conditions of 3:3 fail\n"
    for notes in ("", "{n}"):
        due = (5, f"f(s(z))\n{long}{notes}\n", f"{there}{told}")
        check(f"a long one {notes}", due, recw("eval", "--stuck", "-e", f"{long}{notes}", file))
    for width in range(WIDTH - 3, WIDTH + 4):
        name = "g" * (width - 3)
        file = write(f"{at}/wide", f"REC-SPEC W SORTS N CONS z : -> N OPNS {name} : N -> N EVAL {name}(z) END-SPEC")
        text = f"{name}(z)" if width <= WIDTH else f"{name[: WIDTH - 3]}..."
        for word in ([], ["-e", f"{name}(z){{z}}"]):
            values = f"{name}(z)\n" + (f"{name}(z){{z}}\n" if word else "")
            numbers = (1, 2) if word else (1,)
            due = (5, values, "".join(f"stuck: term {it}: {text}: no rule matches\n" for it in numbers))
            check(f"{width} bytes {word}", due, recw("eval", "--stuck", *word, file))


def try_great(at):
    """A call within a deep value, calls within calls, and a value that shares much, on a small stack."""
    how = {"before": at_stack(256)}
    within = f"{'s(' * LEVELS}f(z){')' * LEVELS}"
    file = write(f"{at}/one", f"{HEAD}f(s(X)) -> X EVAL {within} END-SPEC")
    due = (5, f"{within}\n", "stuck: term 1: f(z): no rule matches\n")
    check_long(f"{LEVELS} levels", due, recw("eval", "--stuck", file, **how))
    high = f"{'f(' * LEVELS}z{')' * LEVELS}"
    file = write(f"{at}/each", f"{HEAD}f(s(X)) -> X EVAL {high} END-SPEC")
    # beyond so many calls the text that is shown has no end
    texts = [f"{'f(' * it}z{')' * it}" for it in range(1, WIDTH)]
    texts = [it if len(it) <= WIDTH else f"{it[: WIDTH - 3]}..." for it in texts]
    texts += [f"{high[: WIDTH - 3]}..."] * (LEVELS - len(texts))
    lines = [f"stuck: term 1: {it}: no rule matches\n" for it in texts]
    check_long(f"{LEVELS} calls", (5, f"{high}\n", "".join(lines)), recw("eval", "--stuck", file, **how))
    file = write(
        f"{at}/shared",
        "REC-SPEC S SORTS N CONS z : -> N s : N -> N OPNS d : N -> N g : N N -> N VARS X : N RULES "
        f"d(z) -> z\n  d(s(X)) -> g(d(X),d(X)) EVAL d({'s(' * DOUBLINGS}z{')' * DOUBLINGS}) END-SPEC",
    )
    status, values, told = recw("eval", "--stuck", file, **how)
    check("a value that shares much", (5, DOUBLINGS, 2**DOUBLINGS), (status, told.count("\n"), values.count("z")))


def try_ends(at):
    """Texts that are refused, files that are not there, and want of cells end as without the option."""
    good = write(f"{at}/good", text_of("examples/add.rec"))
    wrong = write(f"{at}/wrong", "REC-SPEC E SORTS : END-SPEC")
    for files in ([good], [wrong], [wrong, wrong], [good, wrong], [good, "none"], ["none"], [at], [good, "q.trm"]):
        for words in ([], ["--explain"], ["--steps", "1"], ["--steps", "1", "--limit-status"], ["--depth", "1"]):
            due = recw("eval", *words, *files)
            check(f"{words} {files}", due, recw("eval", "--stuck", *words, *files))
    file = write(f"{at}/spec", f"{HEAD}f(s(X)) -> X EVAL f(s(s(s(f(z))))) s(z) f(f(z)) END-SPEC")
    due = recw("eval", "--stuck", file)
    check("calls", (5, "s(s(f(z)))\ns(z)\nf(f(z))\n"), due[:2])
    for cells in range(1, 65):
        plain, told = (recw("eval", *words, "--cells", str(cells), file) for words in ([], ["--stuck"]))
        check(f"{cells} cells", told, due if plain[0] == 0 else plain)
        check(f"{cells} cells: an end", True, plain in ((0, due[1], ""), (*plain[:2], NO_CELLS[1])))
    with open("/dev/full", "wb") as full:
        check("no room", NO_WRITE, refused(full, file))


def refused(out, file):
    """The status and what is told where an output is refused."""
    status, _, told = recw("eval", "--stuck", file, capture_output=False, stdout=out, stderr=-1)
    return status, told


def main():
    with tempfile.TemporaryDirectory() as at:
        for group in (try_random, try_given, try_ends, try_great):
            group(at)
    print(f"{passed()} passed, {len(FAILURES)} failed")
    sys.exit(1 if FAILURES else 0)


if __name__ == "__main__":
    main()
