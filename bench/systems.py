"""Systems of rewriting rules, of a size each, with their texts for the program and for Maude."""

from dataclasses import dataclass

NUMBERS = {
    "sorts": ["Nat", "Truth"],
    "cons": ["z : -> Nat", "s : Nat -> Nat", "yes : -> Truth", "no : -> Truth"],
    "opns": ["plus : Nat Nat -> Nat", "least : Nat Nat -> Truth"],
    "vars": ["X Y Z : Nat"],
    "rules": [
        "plus(z,Y) -> Y",
        "plus(s(X),Y) -> s(plus(X,Y))",
        "least(z,Y) -> yes",
        "least(s(X),z) -> no",
        "least(s(X),s(Y)) -> least(X,Y)",
    ],
}
LISTS = {
    "sorts": ["List"],
    "cons": ["nil : -> List", "cons : Nat List -> List"],
    "opns": ["sum : List -> Nat"],
    "vars": ["L M N : List"],
    "rules": ["sum(nil) -> z", "sum(cons(X,L)) -> plus(X,sum(L))"],
}


@dataclass
class System:
    """The parts of a specification, as words, and its one term to evaluate."""

    name: str
    parts: dict
    term: str

    def rec(self):
        text = [f"REC-SPEC {self.name}"]
        for title in ("sorts", "cons", "opns", "vars", "rules"):
            text += [title.upper(), *(f"  {it}" for it in self.parts[title])]
        return "\n".join([*text, "EVAL", f"  {self.term}", "END-SPEC", ""])

    def maude(self):
        text = [f"fmod {self.name.upper()} is"]
        text += [f"sort {it} ." for it in self.parts["sorts"]]
        text += [f"op {it} [ctor] ." for it in self.parts["cons"]]
        text += [f"op {it} ." for it in self.parts["opns"]]
        text += [f"vars {it} ." for it in self.parts["vars"]]
        text += [equation(it) for it in self.parts["rules"]]
        return "\n".join([*text, "endfm", f"reduce {self.term} .", "quit", ""])


def equation(rule):
    """A rule, which has one condition at most, as an equation of Maude."""
    rule, _, condition = rule.partition(" if ")
    left, right = rule.split(" -> ")
    if not condition:
        return f"eq {left} = {right} ."
    first, sign, second = condition.partition(" -><- ") if " -><- " in condition else condition.partition(" ->/<- ")
    return f"ceq {left} = {right} if {first} {'==' if '><' in sign else '=/='} {second} ."


def joined(*parts):
    titles = ("sorts", "cons", "opns", "vars", "rules")
    return {title: [it for part in parts for it in part.get(title, [])] for title in titles}


def number(n):
    return "s(" * n + "z" + ")" * n


def numbers(count, below):
    """A list of numbers that look as if drawn by chance; the same at each call."""
    text, seed = "nil", 1
    for _ in range(count):
        seed = seed * 1103515245 + 12345 & 0x7FFFFFFF
        text = f"cons({number((seed >> 16) % below)},{text})"
    return text


def fibonacci(n):
    """The numbers of Fibonacci by their two equations: the same calls come again and again."""
    rules = ["fib(z) -> z", "fib(s(z)) -> s(z)", "fib(s(s(X))) -> plus(fib(s(X)),fib(X))"]
    own = {"opns": ["fib : Nat -> Nat"], "rules": rules}
    return System("Fibonacci", joined(NUMBERS, own), f"fib({number(n)})")


def insertion(n):
    """So many numbers sorted by insertion, with a condition at each comparison."""
    rules = [
        "sort(nil) -> nil",
        "sort(cons(X,L)) -> put(X,sort(L))",
        "put(X,nil) -> cons(X,nil)",
        "put(X,cons(Y,L)) -> cons(X,cons(Y,L)) if least(X,Y) -><- yes",
        "put(X,cons(Y,L)) -> cons(Y,put(X,L)) if least(X,Y) -><- no",
    ]
    own = {"opns": ["sort : List -> List", "put : Nat List -> List"], "rules": rules}
    return System("Insertion", joined(NUMBERS, LISTS, own), f"sum(sort({numbers(n, 30)}))")


def ludic(n):
    """How many ludic numbers there are up to a hundred times a number: behind each one that is left, of the rest
    each so-manieth is struck out."""
    rules = [
        "times(z,Y) -> z",
        "times(s(X),Y) -> plus(Y,times(X,Y))",
        "from(X,z) -> nil",
        "from(X,s(Y)) -> cons(X,from(s(X),Y))",
        "left(nil) -> z",
        "left(cons(X,L)) -> s(left(strike(X,X,L)))",
        "strike(X,Y,nil) -> nil",
        "strike(X,s(s(Y)),cons(Z,L)) -> cons(Z,strike(X,s(Y),L))",
        "strike(X,s(z),cons(Z,L)) -> strike(X,X,L)",
    ]
    opns = ["times : Nat Nat -> Nat", "from : Nat Nat -> List", "left : List -> Nat", "strike : Nat Nat List -> List"]
    own = {"opns": opns, "rules": rules}
    term = f"left(from(s(s(z)),times({number(n)},{number(100)})))"
    return System("Ludic", joined(NUMBERS, LISTS, own), term)


def trees(n):
    """A full tree of so many levels whose leaves hold the ways to them, turned around twice and counted."""
    rules = [
        "grow(z,L) -> leaf(L)",
        "grow(s(Y),L) -> fork(grow(Y,cons(z,L)),grow(Y,cons(s(z),L)))",
        "turn(leaf(L)) -> leaf(L)",
        "turn(fork(T,U)) -> fork(turn(U),turn(T))",
        "leaves(leaf(L),Y) -> s(Y)",
        "leaves(fork(T,U),Y) -> leaves(T,leaves(U,Y))",
    ]
    own = {
        "sorts": ["Tree"],
        "cons": ["leaf : List -> Tree", "fork : Tree Tree -> Tree"],
        "opns": ["grow : Nat List -> Tree", "turn : Tree -> Tree", "leaves : Tree Nat -> Nat"],
        "vars": ["T U : Tree"],
        "rules": rules,
    }
    return System("Trees", joined(NUMBERS, LISTS, own), f"leaves(turn(turn(grow({number(n)},nil))),z)")


def counter(n):
    """A counter of binary digits that goes up by one so many times: nothing comes again."""
    rules = [
        "up(end) -> one(end)",
        "up(nought(B)) -> one(B)",
        "up(one(B)) -> nought(up(B))",
        "count(end,s(X),B) -> count(end,X,up(B))",
        "count(end,z,B) -> B",
        "times(z,Y,B) -> B",
        "times(s(X),Y,B) -> times(X,Y,count(end,Y,B))",
    ]
    own = {
        "sorts": ["Digits"],
        "cons": ["end : -> Digits", "nought : Digits -> Digits", "one : Digits -> Digits"],
        "opns": ["up : Digits -> Digits", "count : Digits Nat Digits -> Digits", "times : Nat Nat Digits -> Digits"],
        "vars": ["B : Digits"],
        "rules": rules,
    }
    return System("Counter", joined(NUMBERS, own), f"times({number(n)},{number(1000)},end)")


# Each system with its three sizes, the last one of about a million steps.
SYSTEMS = [
    (fibonacci, (18, 22, 25)),
    (insertion, (100, 250, 500)),
    (ludic, (10, 40, 120)),
    (trees, (12, 14, 17)),
    (counter, (20, 80, 300)),
]
