#!/usr/bin/env -S python3 -B
"""Measures how a program's time grows with the size of its text: growth.py PROGRAM [REPEATS].

Processor time in seconds, the least of the repeats (2 where none are named); what is printed is Markdown. The texts
have 1, 4 and 16 MiB where no size is named.
"""

import datetime
import os
import platform
import subprocess
import sys
import tempfile

MEBIBYTES = (1, 4, 16)


def wide_list(size):
    return f"[{','.join(['0'] * (size // 2 - 1))}]"


def nested(opening, inner, closing, size):
    """As deep as the text's size allows."""
    levels = (size - len(inner)) // len(opening + closing)
    return opening * levels + inner + closing * levels


def few_parts(size):
    """A term `f(x,x)` of as many levels as the size allows."""
    text = "a"
    while 2 * len(text) + 4 <= size:
        text = f"f({text},{text})"
    return text


SHAPES = {
    "a wide list `[0,0,..]`": wide_list,
    "a list without its end `[0,0,..`": lambda size: wide_list(size)[:-1],
    "a deep term `f(f(..))`": lambda size: nested("f(", "a", ")", size),
    "a deep list `[[..]]`": lambda size: nested("[", "", "]", size),
    "annotations of annotations `a{a{..}}`": lambda size: nested("a{", "a", "}", size),
    "1,000 levels of a name of 1, 4, 16 KiB": lambda size: nested(f"{'n' * (size // 1000 - 2)}(", "a", ")", size),
    "a term `f(x,x)` of few parts": few_parts,
}
COMMANDS = (("aterm",), ("share",), ("match", "<term>"))
INTEGERS = (40_000, 153_000, 1_500_000)
ARGUMENTS = (8, 32, 120)
LEVELS = (10_000, 100_000, 1_000_000)
DECLARATIONS = (12_500, 50_000, 160_000)
STEPS = (10**6, 10**7, 10**8)

NATURALS = "REC-SPEC N SORTS N B CONS z : -> N s : N -> N yes : -> B"
SUM = "plus : N N -> N"
SUM_RULES = "plus(z,Y) -> Y plus(s(X),Y) -> s(plus(X,Y))"
ENDLESS = f"{NATURALS} OPNS f : N -> N VARS X : N RULES f(X) -> f(X) EVAL f(z) END-SPEC"


def numeral(levels):
    return f"{'s(' * levels}z{')' * levels}"


def addition(levels):
    return f"{NATURALS} OPNS {SUM} VARS X Y : N RULES {SUM_RULES} EVAL plus({numeral(levels)},z) END-SPEC"


def comparison(levels):
    """A condition that compares two values of so many levels."""
    rules = f"{SUM_RULES} same(X,Y) -> yes if plus(X,z) -><- plus(Y,z)"
    terms = f"same({numeral(levels)},{numeral(levels)})"
    return f"{NATURALS} OPNS {SUM} same : N N -> B VARS X Y : N RULES {rules} EVAL {terms} END-SPEC"


def declarations(count):
    names = [f"constructor_{it:07}" for it in range(count)]
    declared = " ".join(f"{it} : -> N" for it in names)
    terms = " ".join(f"h({it}) {it} h({it})" for it in names)
    return f"REC-SPEC D SORTS N CONS {declared} OPNS h : N -> N EVAL {terms} END-SPEC"


class Meter:
    """Processor times of a program, the least of some runs each."""

    def __init__(self, program, repeats):
        self.program, self.repeats = program, repeats

    def of_words(self, words):
        times = []
        for _ in range(self.repeats):
            child = subprocess.Popen([self.program, *words], stdout=subprocess.DEVNULL)
            _, status, used = os.wait4(child.pid, 0)
            child.returncode = os.waitstatus_to_exitcode(status)
            times.append(used.ru_utime + used.ru_stime)
        return min(times)

    def of_text(self, words, text):
        with tempfile.NamedTemporaryFile("w", encoding="utf-8") as file:
            file.write(text)
            file.flush()
            return self.of_words([*words, file.name])


def shown(time):
    return f"{time:.2f}" if time < 10 else f"{time:.0f}"


def table(head, columns, rows):
    """A table of seconds, each row printed once it is there."""
    print(f"\n| {head} | {' | '.join(columns)} |\n|---|{'---|' * len(columns)}", flush=True)
    for name, times in rows:
        print(f"| {name} | {' | '.join(map(shown, times))} |", flush=True)


def numbers(counts):
    return [f"{it:,}" for it in counts]


def print_terms(meter):
    for command in COMMANDS:
        rows = (
            (name, [meter.of_text(command, shape(it << 20)) for it in MEBIBYTES]) for name, shape in SHAPES.items()
        )
        table(f"`recw {' '.join(command)}`", [f"{it} MiB" for it in MEBIBYTES], rows)
    lists = [f"[{','.join(map(str, range(it)))}]" for it in INTEGERS]
    rows = ((f"`recw {' '.join(it)}`", [meter.of_text(it, text) for text in lists]) for it in COMMANDS)
    table("Different integers in a list", numbers(INTEGERS), rows)
    words = [["make", "[<term>]", f"[[{','.join(['0'] * (it << 9))}]]"] for it in ARGUMENTS]
    rows = [("`recw make '[<term>]'`", [meter.of_words(it) for it in words])]
    table("A list of so many KiB as an argument", numbers(ARGUMENTS), rows)


def print_specifications(meter):
    evaluate = ("eval", "--steps", str(10**12))
    rows = (
        (name, [meter.of_text(evaluate, text(it)) for it in LEVELS])
        for name, text in (("addition", addition), ("two sums that a condition compares", comparison))
    )
    table("Levels", numbers(LEVELS), rows)
    rows = [("`recw eval`", [meter.of_text(evaluate, declarations(it)) for it in DECLARATIONS])]
    table("Declarations, with three terms each", numbers(DECLARATIONS), rows)
    rows = [("a term without a value", [meter.of_text(("eval", "--steps", str(it)), ENDLESS) for it in STEPS])]
    table("Steps", numbers(STEPS), rows)


def main():
    repeats = int(sys.argv[2]) if len(sys.argv) > 2 else 2
    meter = Meter(os.path.realpath(sys.argv[1]), repeats)
    print(f"On {datetime.date.today():%-d %B %Y}, {os.cpu_count()} processors ({platform.machine()}), in seconds:")
    print_terms(meter)
    print_specifications(meter)


main()
