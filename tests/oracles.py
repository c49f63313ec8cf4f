#!/usr/bin/env -S python3 -B
"""Works out what four of the examples come to, by ordinary programs for what they are about:

    tests/oracles.py NAME

prints a line for each term of EVAL of examples/NAME.rec, and then for each of examples/NAME.trm. No rule of the
specification is read: a program of the language `while` is run over Python's integers, a formula is decided by a
table of truth, a term of the lambda calculus is typed and normalised with names in place of numbers, and a derivative
is simplified by functions over tuples and compared with difference quotients.
"""

import cmath
import itertools
import math
import re
import sys

from common import text_of

TOKEN = re.compile(r"""[A-Za-z0-9_](?:[\w']|-(?=[\w']))*|"[^"]*"|->/<-|-><-|->|[(),:\[\]{}]""")
PLAIN = re.compile(r"[A-Za-z_][A-Za-z0-9_\-+*$.]*")


class Terms:
    """Reads terms as tuples of a name and its arguments, and what stands in braces behind one as text."""

    def __init__(self, text):
        found = list(TOKEN.finditer(text))
        self.tokens = [it[0] for it in found]
        self.places = [it.start() for it in found]
        self.at = 0

    def next(self):
        self.at += 1
        return self.tokens[self.at - 1]

    def comes(self, token):
        found = self.at < len(self.tokens) and self.tokens[self.at] == token
        self.at += found
        return found

    def term(self):
        name, arguments = self.next().strip('"'), []
        if self.comes("("):
            arguments.append(self.term())
            while self.comes(","):
                arguments.append(self.term())
            self.next()
        return (name, *arguments)

    def annotations(self):
        if not self.comes("{"):
            return ""
        begin = self.at
        while self.next() != "}":
            pass
        return "{" + "".join(self.tokens[begin : self.at])

    def all_with_annotations(self):
        while self.at < len(self.tokens) and self.tokens[self.at] != "]":
            yield self.term(), self.annotations()
            self.comes(",")


def terms_of(name):
    """The terms of the specification, and the given ones, each with its annotations."""
    text = re.sub(r"%.*", "", text_of(f"examples/{name}.rec"))
    own = text[text.index("\nEVAL") + 5 : text.index("END-SPEC")]
    yield from Terms(own).all_with_annotations()
    yield from Terms(text_of(f"examples/{name}.trm").strip()[1:]).all_with_annotations()


def shown(term):
    name, *arguments = term
    name = name if PLAIN.fullmatch(name) else f'"{name}"'
    return f"{name}({','.join(map(shown, arguments))})" if arguments else name


def unary(number):
    return ("z",) if number == 0 else ("s", unary(number - 1))


def number_of(term):
    return 0 if term[0] == "z" else 1 + number_of(term[1])


# the language of loops

def binary(number):
    if number == 0:
        return ("zero",)
    return ("odd" if number % 2 else "even", binary(number // 2))


def from_binary(term):
    return 0 if term[0] == "zero" else 2 * from_binary(term[1]) + (term[0] == "odd")


def amount(expression, store):
    kind, *rest = expression
    if kind == "number":
        return from_binary(rest[0])
    if kind == "get":
        return store.get(rest[0][0], 0)
    left, right = (amount(it, store) for it in rest)
    return {
        "add": lambda: left + right,
        "take": lambda: max(left - right, 0),
        "times": lambda: left * right,
        "rest": lambda: left % right if right else left,
    }[kind]()


def is_true(test, store):
    kind, *rest = test
    if kind == "not":
        return not is_true(rest[0], store)
    if kind == "both":
        return is_true(rest[0], store) and is_true(rest[1], store)
    left, right = (amount(it, store) for it in rest)
    return left < right if kind == "below" else left == right


def execute(command, store):
    kind, *rest = command
    if kind == "assign":
        store[rest[0][0]] = amount(rest[1], store)
    elif kind == "then":
        execute(rest[0], store)
        execute(rest[1], store)
    elif kind == "choice":
        execute(rest[1] if is_true(rest[0], store) else rest[2], store)
    elif kind == "while":
        while is_true(rest[0], store):
            execute(rest[1], store)


def store_of(term):
    return {} if term[0] == "empty" else {term[1][0]: from_binary(term[2]), **store_of(term[3])}


def of_while(term):
    kind, first, second = term
    store = store_of(second)
    if kind == "value":
        return binary(amount(first, store))
    execute(first, store)
    found = ("empty",)
    for variable, value in reversed(store.items()):
        found = ("holds", (variable,), binary(value), found)
    return found


# propositional logic

def names_in(formula):
    if formula[0] == "is":
        return [formula[1][0]]
    return list(dict.fromkeys(it for part in formula[1:] for it in names_in(part)))


def holds(formula, assignment):
    kind, *rest = formula
    if kind == "is":
        return assignment[rest[0][0]]
    left, *right = (holds(it, assignment) for it in rest)
    return {
        "not": lambda: not left,
        "and": lambda: left and right[0],
        "or": lambda: left or right[0],
        "implies": lambda: not left or right[0],
        "iff": lambda: left == right[0],
    }[kind]()


def of_tautology(term):
    formula = term[1]
    names = names_in(formula)
    if term[0] == "variables":
        found = ("none",)
        for name in reversed(names):
            found = ("also", (name,), found)
        return found
    for values in itertools.product([True, False], repeat=len(names)):
        assignment = dict(zip(names, values))
        if not holds(formula, assignment):
            found = ("unset",)
            for name in names:
                found = ("set", (name,), ("true" if assignment[name] else "false",), found)
            return ("fails", found)
    return ("valid",)


# the lambda calculus, with names

FRESH = itertools.count()


def named(term, names):
    kind, *rest = term
    if kind == "variable":
        index = number_of(rest[0])
        return ("variable", names[index] if index < len(names) else None)
    if kind == "function":
        name = next(FRESH)
        return ("function", name, rest[0], named(rest[1], [name, *names]))
    return (kind, *(named(it, names) for it in rest))


def numbered(term, names):
    kind, *rest = term
    if kind == "variable":
        return ("variable", unary(names.index(rest[0])))
    if kind == "function":
        return ("function", rest[1], numbered(rest[2], [rest[0], *names]))
    return (kind, *(numbered(it, names) for it in rest))


def type_of(term, types):
    """The type, or None where there is none."""
    kind, *rest = term
    if kind == "variable":
        return types.get(rest[0])
    if kind in ("yes", "no"):
        return ("truth",)
    if kind == "function":
        body = type_of(rest[2], {**types, rest[0]: rest[1]})
        return body and ("arrow", rest[1], body)
    found = [type_of(it, types) for it in rest]
    if None in found:
        return None
    if kind == "apply":
        fits = found[0][0] == "arrow" and found[0][1] == found[1]
        return found[0][2] if fits else None
    return found[1] if found[0] == ("truth",) and found[1] == found[2] else None


def put_in(term, name, other):
    kind, *rest = term
    if kind == "variable":
        return other if rest[0] == name else term
    if kind == "function":
        # each copy of what is put in has binders of its own, so that no name is caught
        fresh = next(FRESH)
        body = put_in(rest[2], rest[0], ("variable", fresh))
        return ("function", fresh, rest[1], put_in(body, name, other))
    return (kind, *(put_in(it, name, other) for it in rest))


def step(term):
    """The term after its leftmost outermost reduction, or None."""
    kind, *rest = term
    if kind == "apply" and rest[0][0] == "function":
        return put_in(rest[0][3], rest[0][1], rest[1])
    if kind == "when" and rest[0][0] in ("yes", "no"):
        return rest[1] if rest[0][0] == "yes" else rest[2]
    if kind in ("variable", "yes", "no"):
        return None
    parts = range(3, 4) if kind == "function" else range(1, len(term))
    for at in parts:
        after = step(term[at])
        if after is not None:
            return (*term[:at], after, *term[at + 1 :])
    return None


def of_lambda(term):
    if term[0] == "type":
        context, names, types = term[2], [], {}
        while context[0] == "binder":
            names.append(next(FRESH))
            types[names[-1]] = context[1]
            context = context[2]
        found = type_of(named(term[1], names), types)
        return ("typed", found) if found else ("wrong",)
    inner = named(term[1], [])
    found = type_of(inner, {})
    if found is None:
        return ("ill-typed",)
    while inner is not None:
        last, inner = inner, step(inner)
    return ("normal-form", found, numbered(last, []))


# derivatives

def simple_sum(left, right):
    numbers = [it[1] for it in (left, right) if it[0] == "number"]
    if ("number", 0) in (left, right):
        return right if left == ("number", 0) else left
    if len(numbers) == 2:
        return ("number", sum(numbers))
    if right == ("minus", left) or left == ("minus", right):
        return ("number", 0)
    return simple_product(("number", 2), left) if left == right else ("sum", left, right)


def factors(expression):
    """The sign, the number and the other factors of a product."""
    if expression[0] == "minus":
        sign, number, rest = factors(expression[1])
        return -sign, number, rest
    if expression[0] == "number":
        return 1, expression[1], []
    if expression[0] == "times":
        (sign, number, left), (other, second, right) = factors(expression[1]), factors(expression[2])
        return sign * other, number * second, left + right
    return 1, 1, [expression]


def joined(left, right):
    """A product of two expressions without numbers, of which the first is no product."""
    if left == right:
        return simple_power(left, 2)
    if right[0] == "power" and right[1] == left:
        return simple_power(left, right[2] + 1)
    if left[0] == "cos" and right[0] == "sin":
        return ("times", right, left)
    if left[0] == "cos" and right[0] == "times" and right[1][0] == "sin":
        return joined(right[1], joined(left, right[2]))
    return ("times", left, right)


def simple_product(left, right):
    (sign, number, first), (other, second, rest) = factors(left), factors(right)
    number *= second
    if number == 0:
        return ("number", 0)
    found = None
    if rest:
        found = rest[-1]
        for it in reversed(rest[:-1]):
            found = ("times", it, found)
    for it in reversed(first):
        found = it if found is None else joined(it, found)
    if found is None:
        found = ("number", number)
    elif found[0] == "number":
        found = ("number", number * found[1])
    elif number != 1:
        found = ("times", ("number", number), found)
    return ("minus", found) if sign * other < 0 else found


def simple_power(base, exponent):
    if exponent == 0:
        return ("number", 1)
    if exponent == 1 or base in (("number", 0), ("number", 1)):
        return base
    if base[0] == "power":
        return simple_power(base[1], base[2] * exponent)
    return ("power", base, exponent)


def opposite(expression):
    if expression == ("number", 0):
        return expression
    return expression[1] if expression[0] == "minus" else ("minus", expression)


def simple(expression):
    kind, *rest = expression
    if kind in ("number", "x"):
        return expression
    if kind == "power":
        return simple_power(simple(rest[0]), rest[1])
    parts = [simple(it) for it in rest]
    how = {"minus": opposite, "sum": simple_sum, "times": simple_product}
    return how[kind](*parts) if kind in how else (kind, *parts)


def derived(expression):
    kind, *rest = expression
    if kind == "number":
        return ("number", 0)
    if kind == "x":
        return ("number", 1)
    first = derived(rest[0])
    if kind == "minus":
        return opposite(first)
    if kind == "sum":
        return simple_sum(first, derived(rest[1]))
    if kind == "times":
        return simple_sum(simple_product(first, rest[1]), simple_product(rest[0], derived(rest[1])))
    if kind == "power":
        if rest[1] == 0:
            return ("number", 0)
        outer = simple_product(("number", rest[1]), simple_power(rest[0], rest[1] - 1))
        return simple_product(outer, first)
    if kind == "cos":
        return opposite(simple_product(first, ("sin", rest[0])))
    return simple_product(first, ("cos" if kind == "sin" else "exp", rest[0]))


def worked_out(expression, x):
    kind, *rest = expression
    if kind == "number":
        return rest[0]
    if kind == "x":
        return x
    if kind == "power":
        return worked_out(rest[0], x) ** rest[1]
    parts = [worked_out(it, x) for it in rest]
    how = {"minus": lambda it: -it, "sum": lambda l, r: l + r, "times": lambda l, r: l * r}
    return {**how, "sin": cmath.sin, "cos": cmath.cos, "exp": cmath.exp}[kind](*parts)


def compare_slopes(expression, slope):
    """Stops where the slope is not that of the expression: a step in the imaginary direction loses no digits."""
    for x in (-1.3, -0.2, 0.7, 2.1):
        wanted = worked_out(expression, complex(x, 1e-20)).imag / 1e-20
        found = complex(worked_out(slope, x)).real
        if not math.isclose(wanted, found, rel_tol=1e-9, abs_tol=1e-9):
            sys.exit(f"not the derivative at {x}: {expression}, {slope}")


def from_rec(term):
    kind, *rest = term
    if kind == "number":
        return ("number", number_of(rest[0]))
    if kind == "power":
        return ("power", from_rec(rest[0]), number_of(rest[1]))
    return (kind, *map(from_rec, rest))


def to_rec(expression):
    kind, *rest = expression
    if kind == "number":
        return ("number", unary(rest[0]))
    if kind == "power":
        return ("power", to_rec(rest[0]), unary(rest[1]))
    return (kind, *map(to_rec, rest))


def of_derive(term):
    kind, *rest = term
    expression = from_rec(rest[-1])
    if kind == "simplify":
        return to_rec(simple(expression))
    count = number_of(rest[0]) if kind == "nth" else 1
    for _ in range(count):
        before = simple(expression) if kind == "nth" else expression
        expression = derived(before)
        compare_slopes(before, expression)
    return to_rec(simple(expression) if kind == "nth" else expression)


WORKED = {"while": of_while, "lambda": of_lambda, "derive": of_derive, "tautology": of_tautology}


def values(name):
    """The lines that `recw eval NAME.rec NAME.trm` has to write."""
    return "".join(f"{shown(WORKED[name](term))}{annotations}\n" for term, annotations in terms_of(name))


if __name__ == "__main__":
    print(values(sys.argv[1]), end="")
