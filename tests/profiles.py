#!/usr/bin/env -S python3 -B
"""Compares what `recw eval --profile` tells with a second description of it, and looks at what `--progress` shows:
profiles.py [PROGRAM].

Specifications are evaluated here with a count for each rule: how often it was the first to match where a step was left
for it, how often it fired, and how often one of its conditions failed. With no results remembered the program has to
tell the same numbers; with some the steps that they stand for make up what is missing. Beside `--stuck` the lines of
both are the same as with each of them. Then come runs that end otherwise, and a run of some seconds before a pipe and
before a terminal.
"""

import os
import pty
import random
import re
import subprocess
import sys
import tempfile
import time

from attempts import EXAMPLES, NO_CELLS, NO_WRITE, check, passed, recw
from common import FAILURES, program, text_of
from oracles import Terms
from traces import HEAD, Over, Specification, place_of, rule_text, with_conditions, write

COUNT = 300
WIDTH = 60
BUDGETS = (0, 1, 2, 3, 5, 8, 12, 16)
RULE = re.compile(r"profile: (\d+):(\d+): (\d+) matched, (\d+) applied, (\d+) failed\t([^\t]+)")
# The same on a terminal.
ALIGNED = re.compile(r"profile: (\d+):(\d+): +(\d+) matched, +(\d+) applied, +(\d+) failed  (\S.*)")
STEPS = re.compile(r"profile: steps: (\d+) spent, (\d+) matched, (\d+) saved by (\d+) memo hits")
CELLS = re.compile(r"profile: cells: (\d+) made, (\d+) in use at most")
RECLAIMS = re.compile(r"profile: garbage collections: (\d+)")
SHOWN = re.compile(r"\rrecw: term (\d+): ([\d,]+) of ([\d,]+) steps, ([\d,]+) cells\x1b\[K")
WIPED = "\r\x1b[K"
# Two rules in turn without an end behind a term that has none, and a number that is the sum of the two before it.
TURNS = f"{HEAD}f(z) -> f(s(z))\nf(s(X)) -> f(X)\nEVAL z f(z) END-SPEC"
# A rule of more than the bytes that are shown, with comments in it.
LONG_RULE = f"{HEAD}f( % none\n  z) ->\n{'s(' * 30}z{')' * 30}\nEVAL f(z) END-SPEC"
SUMS = "REC-SPEC S SORTS N CONS z : -> N s : N -> N p : N N -> N OPNS f : N -> N VARS X : N RULES f(z) -> z\n"
SUMS += "f(s(z)) -> s(z)\nf(s(s(X))) -> p(f(s(X)),f(X))\nEVAL f("
# How many seconds a long run is to take about, and how many lines it may show in each.
LONG, RATE = 4, 10


class Counting(Specification):
    """A specification that counts how often each rule matched, fired and failed."""

    def __init__(self, text):
        super().__init__(text)
        self.counts = [[0, 0, 0] for _ in self.rules]

    def first_rule(self, budget, tree):
        for number, rule in enumerate(self.rules):
            values = {}
            if self.matches(rule.left, tree, values):
                if budget == 0:
                    raise Over
                self.counts[number][0] += 1
                holds, budget = self.holds(budget - 1, values, rule.conditions)
                self.counts[number][1 if holds else 2] += 1
                if holds:
                    return (number, values), budget
        return None, budget

    def spend(self, budget, term):
        """How many steps a term takes; all that there are where these are too few."""
        try:
            return budget - self.evaluate(budget, {}, term)[1]
        except Over:
            return budget

    def lines(self):
        """The lines of the rules: those that matched most first."""
        places = [place_of(self.text, it.place) for it in self.rules]
        texts = [cut(rule_text(self, number), WIDTH) for number in range(len(self.rules))]
        lines = [(*place, *counts, text) for place, counts, text in zip(places, self.counts, texts)]
        return sorted(lines, key=lambda it: (-it[2], it[:2]))


def cut(text, width):
    """A text of at most so many bytes."""
    return text if len(text) <= width else f"{text[: width - 3]}..."


def profile_of(what, told):
    """The numbers of a profile: those of each rule, of the steps, of the cells and of the reclaims."""
    lines = told.splitlines()
    rules = [RULE.fullmatch(it) for it in lines[:-3]]
    rest = [kind.fullmatch(it) for kind, it in zip((STEPS, CELLS, RECLAIMS), lines[-3:])]
    check(f"{what}: lines", True, told.endswith("\n") and len(rest) == 3 and all(rules) and all(rest))
    numbers = [tuple(map(int, it.groups())) if it else () for it in rest]
    return [numbers_of(it) for it in rules], *numbers


def numbers_of(found):
    """The numbers of the line of a rule, and its text."""
    return (*map(int, found.groups()[:5]), found[6]) if found else ()


def check_sums(what, profile):
    """What holds of the numbers of any profile."""
    rules, steps, cells, _ = profile
    check(f"{what}: rules that matched", steps[1], sum(it[2] for it in rules))
    check(f"{what}: steps", steps[0], steps[1] + steps[2])
    # a call that no rule matches has a result too, which stands for no step
    check(f"{what}: results", True, steps[2] == 0 or steps[3] > 0)
    check(f"{what}: rules that end", True, all(it[2] >= it[3] + it[4] for it in rules))
    check(f"{what}: cells", True, cells[1] > 0 or cells[0] == 0)


def profiled(what, words, files):
    """The profile of a run that is otherwise as without it, and the lines of its values."""
    plain = recw("eval", *words, *files)
    status, values, told = recw("eval", "--profile", *words, *files)
    check(f"{what}: the rest", plain, (status, values, ""))
    return profile_of(what, told), values


def check_calls(what, words, files):
    """Beside `--stuck` the profile comes first, and the rest is as without it: how many calls are told."""
    told = recw("eval", "--profile", *words, *files)[2]
    status, values, calls = recw("eval", "--stuck", *words, *files)
    due = (status, values, f"{told}{calls}")
    check(f"{what}: beside calls", due, recw("eval", "--stuck", "--profile", *words, *files))
    return calls.count("\n")


def spent_by(values):
    """How many steps the lines of `--count` tell of."""
    return sum(int(it.split("\t")[1]) for it in values.splitlines())


def compare(chance, number, at):
    """A specification: how many rules fired, how many failed, how many results were remembered, how many calls told."""
    text, terms = with_conditions(chance)
    spec, budget = Counting(text), chance.choice(BUDGETS)
    files = [write(f"{at}/spec", text), write(f"{at}/terms", terms)]
    given = [*spec.terms, *(it for it, _ in Terms(terms[1:]).all_with_annotations())]
    spent = sum(spec.spend(budget, it) for it in given)
    words = ["--count", "--steps", str(budget)]
    what = f"specification {number}: {budget}"
    profile, values = profiled(f"{what}, none remembered", [*words, "--memo", "0"], files)
    check_sums(f"{what}, none remembered", profile)
    check(f"{what}: rules", spec.lines(), profile[0])
    check(f"{what}: steps", (spent, spent, 0, 0), profile[1])
    profile, _ = profiled(f"{what}, remembered", words, files)
    check_sums(f"{what}, remembered", profile)
    if "!limit" not in values:
        counted = spent_by(values)
        check(f"{what}: steps of --count", (counted, counted), (spent, profile[1][0]))
        for of in profile[0]:
            check(f"{what}: a rule ends", of[2], of[3] + of[4])
    calls = check_calls(what, words, files)
    return sum(it[1] for it in spec.counts), sum(it[2] for it in spec.counts), profile[1][3], calls


def try_random(at):
    chance = random.Random(4)
    fired, failed, remembered, calls = map(sum, zip(*(compare(chance, number, at) for number in range(COUNT))))
    print(f"{COUNT} specifications: {fired} rules fired, {failed} failed, {remembered} results were remembered")
    print(f"beside {calls} calls in values")
    check("rules", True, fired > COUNT and failed > 0)
    check("calls", True, calls > COUNT / 4)


def try_examples(at):
    """Numbers that were worked out by hand, and those of the examples."""
    alone = ["--memo", "0"]
    profile, _ = profiled("add.rec", alone, ["add.rec", "add.trm"])
    rules = [(11, 3, 2, 2, 0, "plus(z,Y) -> Y"), (12, 3, 2, 2, 0, "plus(s(X),Y) -> s(plus(X,Y))")]
    check("add.rec", (rules, (4, 4, 0, 0)), profile[:2])
    # without the input term the second rule is used more often, and comes first
    profile, _ = profiled("add.rec alone", alone, ["add.rec"])
    rules = [(12, 3, 2, 2, 0, "plus(s(X),Y) -> s(plus(X,Y))"), (11, 3, 1, 1, 0, "plus(z,Y) -> Y")]
    check("add.rec alone", (rules, (3, 3, 0, 0)), profile[:2])
    # the first rule of f and that of g take a step each, the condition fails, and the second rule of f takes one
    profile, _ = profiled("cond.rec", alone, ["rows/cond.rec"])
    numbers = [(6, 3, 1, 0, 1), (7, 3, 1, 1, 0), (8, 3, 1, 1, 0)]
    check("cond.rec", (numbers, (3, 3, 0, 0)), ([it[:5] for it in profile[0]], profile[1]))
    file = write(f"{at}/long", LONG_RULE)
    profile, _ = profiled("a long rule", alone, [file])
    check("a long rule", [(2, 1, 1, 1, 0, f"f( z) -> {'s(' * 24}...")], profile[0])
    file = write(f"{at}/none", "REC-SPEC N SORTS N CONS z : -> N EVAL z END-SPEC")
    profile, _ = profiled("no rules", alone, [file])
    check("no rules", ([], (0, 0, 0, 0), (0,)), (*profile[:2], profile[3]))
    file = write(f"{at}/turns", TURNS)
    profile, _ = profiled("reclaims", ["--steps", "1000", "--reclaim", "1", *alone], [file])
    rules = [(2, 1, 500, 500, 0, "f(z) -> f(s(z))"), (3, 1, 500, 500, 0, "f(s(X)) -> f(X)")]
    check("reclaims", (rules, True), (profile[0], profile[3][0] > 0))
    results = 0
    for file in ("add.rec", "derive.rec", "lambda.rec", "tautology.rec", "while.rec", "tutorial/sort.rec"):
        profile, values = profiled(file, ["--count"], [file])
        check_sums(file, profile)
        check(f"{file}: steps of --count", spent_by(values), profile[1][0])
        results += profile[1][3]
    # each number is the sum of the two before it, so that the results of all are asked for again
    file = write(f"{at}/sums", f"{SUMS}{'s(' * 20}z{')' * 20}) END-SPEC")
    profile, values = profiled("sums", ["--count"], [file])
    check_sums("sums", profile)
    check("sums: steps of --count", spent_by(values), profile[1][0])
    print(f"examples: {results} results were remembered, {profile[1][3]} of sums")
    check("results", True, profile[1][3] > 0)


def try_ends(at):
    """Texts that are refused have no profile, and what ends by a fault has one before the line of that."""
    good = write(f"{at}/good", text_of("examples/add.rec"))
    wrong = write(f"{at}/wrong", "REC-SPEC E SORTS : END-SPEC")
    for files in ([wrong], [wrong, wrong], [good, wrong], [good, "none"], ["none"], [at], [good, "q.trm"]):
        for words in ([], ["--explain"]):
            due = recw("eval", *words, *files)
            for calls in ([], ["--stuck"]):
                check(f"{words} {files}", due, recw("eval", "--profile", "--progress", *calls, *words, *files))
    for cells in range(1, 65):
        plain, told = (recw("eval", *words, "--cells", str(cells), good) for words in ([], ["--profile"]))
        check(f"{cells} cells", plain[:2], told[:2])
        check(f"{cells} cells: the line", True, told[2].endswith(plain[2]))
        check_sums(f"{cells} cells", profile_of(f"{cells} cells", told[2].removesuffix(plain[2])))
        check(f"{cells} cells: an end", True, plain[::2] in ((0, ""), NO_CELLS))
        both = recw("eval", "--stuck", "--profile", "--cells", str(cells), good)
        check(f"{cells} cells: beside calls, of which there are none", told, both)
    for words in (["--stuck", "--stuck"], ["--progress", "--progress"], ["--profile", "--profile"]):
        status, values, told = recw("eval", *words, good)
        check(f"{words}", (2, "", True), (status, values, told.startswith("error: ")))
    with open("/dev/full", "wb") as full:
        status, _, told = recw("eval", "--profile", good, capture_output=False, stdout=full, stderr=-1)
        check("no room for values", (NO_WRITE[0], True), (status, told.endswith(f"\n{NO_WRITE[1]}")))
        status, values, _ = recw("eval", "--profile", good, capture_output=False, stdout=-1, stderr=full)
        check("no room for a profile", (0, "s(s(s(z)))\n"), (status, values))


def try_terminal():
    """On a terminal the columns are aligned, and the texts of the rules are cut to its width."""
    words = ["eval", "--profile", f"{EXAMPLES}/add.rec", "-e", "plus(s(s(s(s(s(s(s(s(z)))))))),z)"]
    plain = profile_of("a pipe", before_pipe(*words)[2])
    for columns in (40, 60, 79, 80, 200):
        lines = before_terminal(*words, columns=columns)[2].splitlines()
        rules = [ALIGNED.fullmatch(it) for it in lines[:-3]]
        check(f"{columns} columns: lines", True, len(rules) == 2 and all(rules))
        found = [numbers_of(it) for it in rules]
        check(f"{columns} columns: numbers", [it[:5] for it in plain[0]], [it[:5] for it in found])
        check(f"{columns} columns: aligned", 1, len({it.start(6) for it in rules}))
        width = max(columns - 1 - rules[0].start(6), 20)
        check(f"{columns} columns: texts", [cut(it[5], width) for it in plain[0]], [it[5] for it in found])


def number_of(text):
    return int(text.replace(",", ""))


def check_shown(what, shown, seconds, budget):
    """Lines of a long run, each wiped in the end."""
    at, lines = 0, []
    while at < len(shown):
        if shown.startswith(WIPED, at):
            lines.append(())
            at += len(WIPED)
            continue
        found = SHOWN.match(shown, at)
        check(f"{what}: a line", True, bool(found))
        if not found:
            return
        lines.append(tuple(map(number_of, found.groups())))
        at = found.end()
    told = [it for it in lines if it]
    print(f"{what}: {len(told)} lines in {seconds:.1f} s")
    check(f"{what}: so many lines", True, 0 < len(told) <= RATE * seconds + 1)
    check(f"{what}: wiped", (), lines[-1])
    check(f"{what}: wiped once a term", lines.count(()), len({it[0] for it in told}))
    check(f"{what}: in order", told, sorted(told, key=lambda it: it[:2]))
    check(f"{what}: the second term, of so many", {(2, budget)}, {(it[0], it[2]) for it in told})
    check(f"{what}: no more", True, all(0 <= it[1] <= budget for it in told))


def before_pipe(*words):
    """The status, the standard output and what is shown, byte for byte."""
    ran = subprocess.run([program(), *words], capture_output=True, cwd=EXAMPLES, check=False)
    return ran.returncode, ran.stdout.decode(), ran.stderr.decode()


def before_terminal(*words, columns=80):
    """The same before a terminal of so many columns."""
    master, slave = pty.openpty()
    how = {"stdout": subprocess.PIPE, "stderr": slave, "env": {**os.environ, "COLUMNS": str(columns)}}
    with subprocess.Popen([program(), *words], **how) as child:
        os.close(slave)
        shown = b""
        while True:
            try:
                more = os.read(master, 65536)
            except OSError:
                break
            if not more:
                break
            shown += more
        values = child.stdout.read()
    os.close(master)
    return child.returncode, values.decode(), shown.decode()


def long_run(file):
    """How many steps a term of the file may take so that it takes about so many seconds."""
    steps, seconds = 1_000_000, 0
    while seconds < 0.3:
        steps *= 3
        begin = time.monotonic()
        recw("eval", "--steps", str(steps), file)
        seconds = time.monotonic() - begin
    return int(steps * LONG / seconds)


def try_progress(at):
    """A run of some seconds shows how far it is, where that is asked for or seen, and leaves nothing of it."""
    file = write(f"{at}/turns", TURNS)
    steps = long_run(file)
    words = ["eval", "--steps", str(steps), file]
    due = (0, f"z\n!limit {steps}\n")
    check("a long run", (*due, ""), recw(*words))
    begin = time.monotonic()
    status, values, shown = before_pipe(*words, "--progress")
    check("a long run before a pipe", due, (status, values))
    check_shown("a pipe", shown, time.monotonic() - begin, steps)
    begin = time.monotonic()
    status, values, shown = before_pipe(*words, "--progress", "--profile", "--stuck")
    check("a long run that is told of", due, (status, values))
    shown, wiped, told = shown.rpartition(WIPED)
    check_shown("a long run that is told of", f"{shown}{wiped}", time.monotonic() - begin, steps)
    check_sums("a long run that is told of", profile_of("a long run that is told of", told))
    begin = time.monotonic()
    status, values, shown = before_terminal(*words)
    check("a long run before a terminal", due, (status, values))
    check_shown("a terminal", shown, time.monotonic() - begin, steps)
    status, values, shown = before_terminal(*words, columns=30)
    check("a long run before a narrow terminal", due, (status, values))
    check("a narrow terminal: columns", {0, 29}, {len(it) for it in re.findall(r"\r([^\r]*)\x1b\[K", shown)})
    short = before_pipe("eval", "--progress", "add.rec", "add.trm")
    check("a short run", (0, "s(s(s(z)))\ns(z)\n", ""), short)
    short = before_terminal("eval", "--steps", "1000", file)
    check("a short run before a terminal", (0, "z\n!limit 1000\n", ""), short)


def main():
    with tempfile.TemporaryDirectory() as at:
        for group in (try_random, try_examples, try_ends, try_progress):
            group(at)
    try_terminal()
    print(f"{passed()} passed, {len(FAILURES)} failed")
    sys.exit(1 if FAILURES else 0)


if __name__ == "__main__":
    main()
