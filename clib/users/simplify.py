#!/usr/bin/env -S python3 -B
"""Simplifies expressions of Python, by rules over terms of its own `ast`.

    simplify.py 'x*1 + 0' '(a+b) - (a+b)'

A subexpression that comes again is one term, and is simplified once.
"""

import ast
import os
import sys
from typing import Dict, Optional

sys.path.insert(0, os.path.dirname(os.path.dirname(os.path.realpath(__file__))))

from percalesilt import APPL, INT, Store, Term

SIGNS: Dict[type, str] = {ast.Add: "add", ast.Sub: "sub", ast.Mult: "mul"}
SPELT = {"add": "+", "sub": "-", "mul": "*"}


def term_of(store: Store, node: ast.expr) -> Term:
    """The term of an expression of names, integers, +, - and *; other names are quoted."""
    if isinstance(node, ast.BinOp) and type(node.op) in SIGNS:
        return store.appl(SIGNS[type(node.op)], term_of(store, node.left), term_of(store, node.right))
    if isinstance(node, ast.UnaryOp) and isinstance(node.op, ast.USub):
        return store.appl("sub", 0, term_of(store, node.operand))
    if isinstance(node, ast.Constant) and type(node.value) is int:
        return store.int(node.value)
    if isinstance(node, ast.Name):
        return store.appl("name", store.appl(node.id, quoted=True))
    raise ValueError(f"not simplified: {ast.unparse(node)}")


def rule(store: Store, name: str, left: Term, right: Term) -> Optional[Term]:
    """What the first rule that fits makes of an operation on simplified operands, or None."""
    zero, one = store.int(0), store.int(1)
    if left.kind == INT and right.kind == INT:
        a, b = left.value, right.value
        value = {"add": a + b, "sub": a - b, "mul": a * b}[name]
        return store.int(value) if -(2**31) <= value < 2**31 else None
    if name == "mul" and zero in (left, right) or name == "sub" and left == right:
        return zero
    if name == "add" and left == zero or name == "mul" and left == one:
        return right
    if name in ("add", "sub") and right == zero or name == "mul" and right == one:
        return left
    return None


def simplified(store: Store, term: Term, known: Dict[Term, Term]) -> Term:
    """The simplest term that the rules make of it; `known` remembers that of each one."""
    if term not in known:
        known[term] = term
        if term.kind == APPL and term.name in SPELT:
            left, right = (simplified(store, it, known) for it in term.args)
            known[term] = rule(store, term.name, left, right) or store.appl(term.name, left, right)
    return known[term]


def text_of(term: Term) -> str:
    if term.kind == INT:
        return str(term.value)
    if term.name == "name":
        return term.args[0].name
    left, right = map(text_of, term.args)
    return f"({left} {SPELT[term.name]} {right})"


def simplify(text: str) -> str:
    with Store() as store:
        term = term_of(store, ast.parse(text, mode="eval").body)
        return ast.unparse(ast.parse(text_of(simplified(store, term, {})), mode="eval"))


if __name__ == "__main__":
    for text in sys.argv[1:]:
        print(simplify(text))
