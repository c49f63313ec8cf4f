#!/usr/bin/env -S python3 -B
"""Simplifies conditions of Python, by a specification that evaluates terms of its own `ast`.

    logic.py 'a and not not (b or True)' 'not (a and False)'
"""

import ast
import os
import sys
from typing import Dict

sys.path.insert(0, os.path.dirname(os.path.dirname(os.path.realpath(__file__))))

from percalesilt import Store, Term

RULES = """
REC-SPEC Logic
SORTS Name Cond
CONS
  true : -> Cond
  false : -> Cond
  var : Name -> Cond
{names}
OPNS
  and : Cond Cond -> Cond
  or : Cond Cond -> Cond
  not : Cond -> Cond
VARS X : Cond
RULES
  and(true, X) -> X
  and(X, true) -> X
  and(false, X) -> false
  and(X, false) -> false
  and(X, X) -> X
  or(false, X) -> X
  or(X, false) -> X
  or(true, X) -> true
  or(X, true) -> true
  or(X, X) -> X
  not(true) -> false
  not(false) -> true
  not(not(X)) -> X
END-SPEC
"""
JOINED: Dict[type, str] = {ast.And: "and", ast.Or: "or"}


def term_of(store: Store, node: ast.expr) -> Term:
    """The term of a condition of names, True, False, `and`, `or` and `not`."""
    if isinstance(node, ast.BoolOp):
        *others, last = (term_of(store, it) for it in node.values)
        for other in reversed(others):
            last = store.appl(JOINED[type(node.op)], other, last)
        return last
    if isinstance(node, ast.UnaryOp) and isinstance(node.op, ast.Not):
        return store.appl("not", term_of(store, node.operand))
    if isinstance(node, ast.Constant) and isinstance(node.value, bool):
        return store.appl("true" if node.value else "false")
    if isinstance(node, ast.Name):
        return store.appl("var", store.appl(f"n_{node.id}"))
    raise ValueError(f"not simplified: {ast.unparse(node)}")


def node_of(term: Term) -> ast.expr:
    """The condition of a term."""
    if term.name in ("true", "false"):
        return ast.Constant(term.name == "true")
    if term.name == "var":
        return ast.Name(term.arg(0).name.removeprefix("n_"), ast.Load())
    if term.name == "not":
        return ast.UnaryOp(ast.Not(), node_of(term.arg(0)))
    return ast.BoolOp(ast.And() if term.name == "and" else ast.Or(), [node_of(it) for it in term.args])


def simplify(text: str) -> str:
    tree = ast.parse(text, mode="eval").body
    names = sorted({it.id for it in ast.walk(tree) if isinstance(it, ast.Name)})
    with Store() as store:
        spec = store.specify(RULES.format(names="\n".join(f"  n_{it} : -> Name" for it in names)))
        value, _ = spec.normalise(term_of(store, tree))
        return ast.unparse(node_of(value))


if __name__ == "__main__":
    for text in sys.argv[1:]:
        print(simplify(text))
