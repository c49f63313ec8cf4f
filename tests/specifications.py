"""Random specifications, most of them good, and lists of terms for them."""

import random

SORTS = ["A", "B"]
BUILT = {"z": ([], "A"), "s": (["A"], "A"), "b": ([], "B"), "c": (["A", "B"], "B"), "0": ([], "A")}
RULED = {"f": (["A"], "A"), "g": (["A", "A"], "A"), "h": (["B"], "A"), "k": (["B", "A"], "B")}
ALL = {**BUILT, **RULED}
VARIABLES = {"X": "A", "Y": "A", "V": "B"}
PIECES = ["if", "and-if", "->", "-><-", "->/<-", "(", ")", ",", ":", "END-SPEC", "RULES", "X", "q", "A", "%", "\n", "é"]
PIECES.append("")


def term(chance, sort, symbols, variables, depth):
    """A term of a sort."""
    free = [name for name, of in variables.items() if of == sort]
    if free and chance.random() < 0.4:
        return chance.choice(free)
    known = [name for name, (_, of) in symbols.items() if of == sort]
    small = [name for name in known if depth > 0 or not symbols[name][0]]
    name = chance.choice(small or [it for it in BUILT if BUILT[it] == ([], sort)])
    arguments = [term(chance, it, symbols, variables, depth - 1) for it in ALL[name][0]]
    return f"{name}({','.join(arguments)})" if arguments else name


def rule(chance, inside=None):
    """A rule, and conditions now and then; its left-hand side has symbols of `inside`, constructors if it is missing."""
    name = chance.choice([*RULED])
    sorts, sort = RULED[name]
    left = f"{name}({','.join(term(chance, it, inside or BUILT, VARIABLES, 2) for it in sorts)})"
    there = {it: of for it, of in VARIABLES.items() if it in left}
    right = term(chance, sort, ALL, there, chance.choice([1, 2, 3]))
    conditions = []
    while chance.random() < 0.25:
        of = chance.choice(SORTS)
        sides = [term(chance, of, ALL, there, 2) for _ in range(2)]
        conditions.append(chance.choice([" -><- ", " ->/<- "]).join(sides))
    behind = f" if {' and-if '.join(conditions)}" if conditions else ""
    return f"  {left} -> {right}{behind}"


def declared(symbols):
    return [f"  {name} : {''.join(f'{it} ' for it in sorts)}-> {sort}" for name, (sorts, sort) in symbols.items()]


def spoilt(chance, text):
    """The text with one thing changed, which is mostly wrong then."""
    at = chance.randrange(len(text))
    return text[:at] + chance.choice(PIECES) + text[at + chance.randrange(4) :]


def specification(chance, inside=None):
    rules = [rule(chance, inside) for _ in range(chance.randrange(1, 9))]
    terms = [f"  {term(chance, chance.choice(SORTS), ALL, {}, 4)}" for _ in range(chance.randrange(4))]
    variables = ["  X Y : A", "  V : B"]
    lines = ["REC-SPEC R", "SORTS A B", "CONS", *declared(BUILT), "OPNS", *declared(RULED), "VARS", *variables]
    return "\n".join([*lines, "RULES", *rules, "EVAL", *terms, "END-SPEC"]) + "\n"


def given(chance):
    """A list of terms, some with annotations."""
    shown = [term(chance, chance.choice(SORTS), ALL, {}, 3).replace("0", '"0"') for _ in range(chance.randrange(3))]
    return f"[{', '.join(it + chance.choice(['', '', '{n(1)}']) for it in shown)}]"


def some(count, seed=1):
    """So many specifications, each with terms or none, and the limits of its run."""
    chance = random.Random(seed)
    for _ in range(count):
        spec, terms = specification(chance), given(chance) if chance.random() < 0.4 else None
        if chance.random() < 0.3:
            spec = spoilt(chance, spec)
        if terms and chance.random() < 0.3:
            terms = spoilt(chance, terms)
        limits = {"steps": chance.choice([0, 3, 50, 2000]), "cells": chance.choice([16777216, 16777216, 40, 12])}
        yield spec, terms, limits
