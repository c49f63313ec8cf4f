#!/usr/bin/env -S python3 -B
"""The types of the package percalesilt: mypy --strict accepts this program, and it runs.

Each line that ends with `type: ignore` has a wrong type, which mypy has to find: it refuses a comment that is not
needed.
"""

import os
import sys
from typing import List, Optional, Tuple

sys.path.insert(0, os.path.dirname(os.path.dirname(os.path.realpath(__file__))))

from percalesilt import Code, Fault, Kind, Pattern, Spec, Store, SyntaxFault, Symbol, Term

ADD = """REC-SPEC Add SORTS Nat CONS z : -> Nat s : Nat -> Nat OPNS plus : Nat Nat -> Nat VARS X Y : Nat
RULES plus(z,Y) -> Y plus(s(X),Y) -> s(plus(X,Y)) EVAL plus(s(s(z)),s(z)) z END-SPEC"""


def right(store: Store) -> None:
    term: Term = store.appl("f", 1, [2, (3,)], store.parse(b"a"))
    args: List[Term] = term.args
    kind: Kind = term.kind
    number: int = int(args[0]) + args[0].value + term.arity + len(args[1]) + store.cells
    name: str = term.name
    data: bytes = term.name_bytes + bytes(term)
    item: Term = args[1][0]
    items: List[Term] = args[1][0:1] + list(args[1])
    notes: List[Term] = term.noted(1, [item]).annotations
    pattern: Pattern = store.pattern("f(<int>,<list>)")
    found: Optional[List[Term]] = pattern.match(term)
    symbol: Symbol = store.symbol("g", 1)
    spec: Spec = store.specify(ADD, memo=0)
    value: Tuple[Term, int] = spec.normalise(spec.terms[0], steps=1000)
    assert kind == Kind.APPL and number and name == "f" and data and items and found is not None
    assert len(notes) == 2 and str(symbol(item)) == "g(2)" and value[1] == 3
    try:
        store.parse("f(")
    except SyntaxFault as fault:
        code: Code = fault.code
        place: Optional[int] = fault.place
        assert isinstance(fault, Fault) and code == Code.SYNTAX and place == 2


def wrong(store: Store) -> None:
    store.int("1")  # type: ignore[arg-type]
    store.appl(1)  # type: ignore[arg-type]
    store.parse(store.int(1))  # type: ignore[arg-type]
    store.appl("f", 1.5)  # type: ignore[arg-type]
    store.reserve(None)  # type: ignore[arg-type]
    number: int = store.int(1)  # type: ignore[assignment]
    store.int(number).value = 2  # type: ignore[misc]
    store.pattern("f").match(1).pop()  # type: ignore[union-attr]


if __name__ == "__main__":
    with Store() as used:
        right(used)
    print("typed.py: as wanted")
