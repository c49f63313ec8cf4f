"""Checks of specifications: every place is told, texts of great length and depth, refused memory, streams that fail."""

import itertools
import json
import os
import random
import re
import subprocess
import time

from attempts import EXAMPLES, NO_MEMORY, NO_READ, NO_WRITE, at_stack, check, check_long, recw, room, run, write_file
from common import TOP, program
from oracles import Terms
from refuse import answer, is_allowed
from specifications import BUILT, RULED, VARIABLES, declared, term

# Specifications of examples/check with the lines of their checks, and the status with --strict, by docs/reference/cli.md.
WORKED = {
    "unused": (0, (
        "2:11: warning: unused sort: Bool [W4]",
        "6:3: warning: unused symbol: minus [W4]",
        "8:7: warning: unused variable: Z [W4]",
    )),
    "tried": (0, (
        "10:3: warning: unreachable rule: an earlier rule without conditions matches all that it matches: 9:3 [W1]",
    )),
    "inner": (0, (
        "9:9: warning: rule cannot match: this argument is rewritten first: 8:3 [W2]",
    )),
    "uncovered": (0, (
        "6:3: warning: missing case: no left-hand side matches this call: half(s(z)) [W3]",
    )),
    "broken": (1, (
        "7:8: error: undeclared symbol or variable in RULES or EVAL: zero [S5]",
        "8:21: error: undeclared symbol or variable in RULES or EVAL: add [S5]",
        "10:10: error: undeclared symbol or variable in RULES or EVAL: zero [S5]",
    )),
}


def lines_of(name):
    return "".join(f"{name}:{line}\n" for line in WORKED[name.rsplit('/')[-1][:-4]][1])


def try_worked():
    for name, (status, _) in WORKED.items():
        file = f"check/{name}.rec"
        check(f"check {file}", (status, lines_of(file), ""), recw("check", file))
        check(f"check --strict {file}", (1, lines_of(file), ""), recw("check", "--strict", file))
    both = ("check/unused.rec", "add.rec", "check/broken.rec")
    check("check of several", (1, lines_of(both[0]) + lines_of(both[2]), ""), recw("check", *both))
    for name in ("add", "derive", "lambda", "tautology", "while"):
        check(f"check --strict {name}.rec", (0, "", ""), recw("check", "--strict", f"{name}.rec"))
    text = open(f"{TOP}/examples/check/unused.rec", encoding="ascii").read()
    due = lines_of("check/unused.rec").replace("check/unused.rec", "<stdin>")
    check("check of standard input", (0, due, ""), recw("check", "-", input=text))
    check("check without a file", 2, recw("check")[0])
    check("check of standard input twice", 2, recw("check", "-", "-")[0])


# Comments after a specification of examples/check, and whether they silence its warning.
COMMENTS = (
    ("uncovered", "% recw: allow W3 half", True),
    ("uncovered", "% recw: allow W3 half \t\r", True),
    ("uncovered", "% recw: allow W4 plus\n% recw: allow W3 half\n%", True),
    ("tried", "% recw: allow W1 max", True),
    ("inner", "% recw: allow W2 plus", True),
    ("uncovered", "% recw: allow W3 plus", False),
    ("uncovered", "% recw: allow W3 hal", False),
    ("uncovered", "% recw: allow W5 half", False),
    ("inner", "% recw: allow W2 twice", False),
    ("uncovered", "% recw: allow W3 half plus", False),
    ("uncovered", "%% recw: allow W3 half", False),
    ("uncovered", "% recw:  allow W3 half", False),
    ("broken", "% recw: allow S5 zero\n% recw: allow S5 add", False),
)


def try_comments():
    for name, comment, is_silenced in COMMENTS:
        text = open(f"{TOP}/examples/check/{name}.rec", encoding="ascii").read()
        lines = lines_of(f"check/{name}.rec").replace(f"check/{name}.rec", "<stdin>")
        due = (0, "", "") if is_silenced else (1, lines, "")
        check(f"check --strict of {name} with {comment}", due, recw("check", "--strict", "-", input=text + comment))


# Rules over a, b and f of one argument, and g of two, the first of them on line 7: the place of each warning of
# rules, and the rule that is shown behind it.
RULES = (
    ("f(X) -> a; f(a) -> a", "8:1 W1 7:1"),
    ("f(a) -> a; f(X) -> a", ""),
    ("f(X) -> a if X -><- a; f(a) -> a", ""),
    ("f(b(X)) -> a; f(X) -> a; f(b(b(X))) -> a", "9:1 W1 7:1"),
    ("g(X,Y) -> a; f(X) -> a", ""),
    ("g(X,Y) -> a; g(X,X) -> a", "8:1 W1 7:1"),
    ("g(X,X) -> a; g(X,Y) -> a", ""),
    ("g(X,X) -> a; g(b(Y),b(Y)) -> a", "8:1 W1 7:1"),
    ("g(X,X) -> a; g(b(Y),b(X)) -> a", ""),
    ("g(X,b(Y)) -> a; g(Y,b(a)) -> a", "8:1 W1 7:1"),
    ("f(X) -> a; g(f(a),X) -> a", "8:3 W2 7:1"),
    ("g(b(f(X)),Y) -> a; f(X) -> b(X)", "7:5 W2 8:1"),
    ("f(f(f(X))) -> a; f(X) -> a", "7:3 W2 8:1; 7:5 W2 8:1"),
    ("g(f(X),Y) -> a; f(b(X)) -> a", ""),
    ("g(f(a),X) -> a; f(X) -> a if X -><- a", ""),
)
FORM = "REC-SPEC T\nSORTS A\nCONS a : -> A b : A -> A\nOPNS f : A -> A g : A A -> A\nVARS X Y : A\nRULES\n{}\nEVAL f(g(a,b(a))) END-SPEC"


def try_rules():
    for rules, due in RULES:
        status, out, err = recw("check", "-", input=FORM.format(rules.replace("; ", "\n")))
        told = re.findall(r"^<stdin>:(\S+): warning: .*: (\S+) \[(W[12])\]$", out, re.M)
        told = "; ".join(f"{at} {code} {rule}" for at, rule, code in told)
        check(f"check of {rules}", (0, due, ""), (status, told, err))


# Declarations, rules and a term, and all errors of the specification, the reported one first. The declarations are on
# line 1, the rules on line 2, the term on line 3.
ERRORS = (
    # a misspelt sort is one error, whatever is compared with it
    ("SORTS A B CONS a : -> A b : -> B OPNS f : Aa A -> Ab VARS X : A", "f(a,b) -> a f(b,X) -> b f(b) -> a", "f(a,a)",
     "1:54 S4 Aa; 1:62 S4 Ab; 2:11 S7 b; 2:31 S6 f"),
    # so is a misspelt symbol or variable
    ("SORTS A CONS a : -> A OPNS f : A -> A VARS X : A", "g(X) -> Y f(g(a)) -> g(Z)", "g(g(a))",
     "2:7 S5 g; 2:15 S5 Y; 2:19 S5 g; 2:28 S5 g; 2:30 S5 Z; 3:6 S5 g; 3:8 S5 g"),
    # a later rule earlier in the text: the reported one is first
    ("SORTS A CONS a : -> A OPNS f : A -> A VARS X Y : A", "f(X) -> Y a -> a", "f(X,a)",
     "3:6 S6 f; 2:15 S10 Y; 2:17 S8 a; 3:8 S11 X"),
    # arguments are judged if there are as many as declared
    ("SORTS A B CONS a : -> A b : -> B OPNS f : A A -> A VARS", "f(b) -> b f(b,b) -> a", "f(a,b)",
     "2:7 S6 f; 2:7 S9 f; 2:19 S7 b; 2:21 S7 b; 3:10 S7 b"),
    # names that are declared twice
    ("SORTS A A CONS a : -> A OPNS a : -> A f : A -> A VARS X X f : A", "f(X) -> X if b -><- a", "X",
     "1:20 S1 A; 1:41 S2 a; 1:68 S3 X; 1:70 S3 f; 2:20 S5 b; 3:6 S11 X"),
    # a variable is no operator and takes no arguments
    ("SORTS A CONS a : -> A OPNS f : A -> A VARS X : A", "X -> X f(X(a)) -> a", "a", "2:16 S6 X; 2:7 S8 X"),
    # conditions
    ("SORTS A B CONS a : -> A b : -> B OPNS f : A -> A VARS X Y : A", "f(X) -> b if a -><- b and-if X -><- Y", "b",
     "2:7 S9 f; 2:20 S9 a; 2:43 S10 Y"),
)


def try_errors():
    for declarations, rules, term, due in ERRORS:
        text = f"REC-SPEC T {declarations}\nRULES {rules}\nEVAL {term} END-SPEC"
        status, out, err = recw("check", "-", input=text)
        told = re.findall(r"^<stdin>:(\S+): error: .*: (\S+) \[(S\d+)\]$", out, re.M)
        told = "; ".join(f"{at} {code} {word}" for at, word, code in told)
        check(f"errors of {declarations}; {rules}; {term}", (1, due, ""), (status, told, err))
        first = due.split()[:2]
        reported = recw("eval", "-", input=text)
        check(f"the error that eval reports of {declarations}; {rules}", f"!spec {first[1]}\n", reported[1])


# Rules over the same, where f is declared on line 4 at column 6 and g at column 17: the call that is shown of each.
# An operator without rules is one of the symbols of which terms are made.
CALLS = (
    ("f(X) -> a", ""),
    ("f(a) -> a", "4:6 f(b(a))"),
    ("f(b(X)) -> a", "4:6 f(a)"),
    ("f(a) -> a; f(b(X)) -> a", "4:6 f(g(a,a))"),
    ("f(a) -> a; f(b(X)) -> a; f(g(X,Y)) -> a", ""),
    ("f(a) -> a; f(b(a)) -> a; f(g(X,Y)) -> a", "4:6 f(b(b(a)))"),
    ("f(f(X)) -> a", "4:6 f(a)"),
    ("f(X) -> a if X -><- b(X)", ""),
    ("g(a,X) -> a; g(X,a) -> a", "4:17 g(b(a),b(a))"),
    ("g(X,b(Y)) -> a; f(X) -> a", "4:17 g(a,a)"),
    ("g(X,X) -> a; f(X) -> a", "4:17 g(a,b(a))"),
    ("g(X,X) -> a; g(X,Y) -> b(X); f(X) -> a", ""),
    ("f(a) -> a; g(X,a) -> a", "4:6 f(b(a)); 4:17 g(a,b(a))"),
)


def try_calls():
    for rules, due in CALLS:
        status, out, err = recw("check", "-", input=FORM.format(rules.replace("; ", "\n")))
        told = re.findall(r"^<stdin>:(\S+): warning: missing case: no left-hand side matches this call: (\S+) \[W3\]$", out, re.M)
        check(f"calls of {rules}", (0, due, ""), (status, "; ".join(" ".join(it) for it in told), err))


# A call of three arguments, two of which have to be equal, in every order of its arguments and rules.
REPEATED = "REC-SPEC NL SORTS N L CONS z : -> N s : N -> N nil : -> L c : N L -> L\nOPNS p : {} -> N VARS X Y : N V : L RULES\n{}\nEVAL p({}) END-SPEC"


def try_repeated():
    """The order of arguments and rules does not decide whether a missing case of repeated variables is found."""
    for order in itertools.permutations(range(3)):
        def call(*parts):
            return f"p({','.join(parts[it] for it in order)})"

        sorts = " ".join("NNL"[it] for it in order)
        rules = (f"{call('X', 'Y', 'nil')} -> z", f"{call('X', 'Y', 'c(X,V)')} -> X")
        for pair in (rules, rules[::-1]):
            text = REPEATED.format(sorts, "\n".join(pair), ",".join(("z", "z", "nil")[it] for it in order))
            _, out, _ = recw("check", "-", input=text)
            told = re.findall(r"^<stdin>:2:6: warning: missing case: .*: (\S+) \[W3\]$", out, re.M)
            check(f"one call of {pair}", 1, len(told))
            lefts = [Terms(it.split(" -> ")[0]).term() for it in pair]
            shown = Terms(told[0]).term()
            parts = [shown[1 + order.index(it)] for it in range(3)]
            check(f"{told[0]} has a cons", ("c", 3), (parts[2][0], len(parts[2])))
            check(f"{told[0]} has different terms", True, parts[0] != parts[2][1])
            check(f"none of {pair} matches {told[0]}", False, any(matches(it, shown, {}) for it in lefts))


# Rules over the same sorts as above: the lines of operators without rules and of missing cases. Constructors are shown
# if they can be, and an operator that nothing uses never is.
OPERATORS = (
    ("f(X) -> a", "g(a,a)", "4:17 W5"),
    ("f(X) -> a", "f(a)", "4:17 W4"),
    ("f(a) -> a", "f(a)", "4:6 W3 f(b(a)); 4:17 W4"),
    ("f(a) -> a; f(b(X)) -> a", "f(a)", "4:17 W4"),
    ("f(a) -> a; f(b(X)) -> a", "g(a,a)", "4:6 W3 f(g(a,a)); 4:17 W5"),
    ("f(a) -> g(a,a); f(b(X)) -> a", "f(a)", "4:6 W3 f(g(a,a)); 4:17 W5"),
)


def try_operators():
    for rules, value, due in OPERATORS:
        text = FORM.format(rules.replace("; ", "\n")).replace("EVAL f(g(a,b(a)))", f"EVAL {value}")
        _, out, _ = recw("check", "-", input=text)
        told = re.findall(r"^<stdin>:(\S+): warning: .*:( \S+) \[(W[345])\]$", out, re.M)
        told = [f"{at} {code}{call if code == 'W3' else ''}" for at, call, code in told]
        check(f"operators of {rules} and {value}", due, "; ".join(it for it in told if it.startswith("4:")))


def matches(left, of, values):
    """Whether a left side matches a term, both as tuples of a name and arguments."""
    if left[0] in VARIABLES:
        return values.setdefault(left[0], of) == of
    if left[0] != of[0] or len(left) != len(of):
        return False
    return all(matches(it, part, values) for it, part in zip(left[1:], of[1:]))


def is_of(of, sort, symbols):
    """Whether a term is one of these symbols, of this sort."""
    sorts, own = symbols.get(of[0], ([], None))
    return own == sort and len(sorts) == len(of) - 1 and all(map(is_of, of[1:], sorts, itertools.repeat(symbols)))


def terms_of(symbols, depth):
    """All terms of these symbols up to a depth, by their sorts."""
    found = {"A": [], "B": []}
    for _ in range(depth):
        known, found = found, {"A": [], "B": []}
        for name, (sorts, sort) in symbols.items():
            found[sort] += [(name, *it) for it in itertools.product(*(known[of] for of in sorts))]
    return found


def count_variables(left):
    """How often each variable stands in a left side."""
    if left[0] in VARIABLES:
        return [left[0]]
    return [it for part in left[1:] for it in count_variables(part)]


def try_random_calls():
    """Each call that is shown is one, and where none is shown none of small terms is there, if no variable is repeated."""
    chance = random.Random(29)
    head = ["REC-SPEC R", "SORTS A B", "CONS", *declared(BUILT), "OPNS", *declared(RULED), "VARS", "  X Y : A", "  V : B"]
    places = {f"{head.index(line) + 1}:3": line.split()[0] for line in declared(RULED)}
    shown = complete = 0
    for _ in range(150):
        names = chance.sample([*RULED], chance.randrange(1, 3))
        sides = []
        for name in (chance.choice(names) for _ in range(chance.randrange(1, 9))):
            parts = ",".join(term(chance, it, BUILT, VARIABLES, chance.randrange(3)) for it in RULED[name][0])
            sides.append(f"{name}({parts})")
        rules = [f"  {it} -> {'z' if RULED[it[0]][1] == 'A' else 'b'}" for it in sides]
        used = chance.sample([*RULED], chance.randrange(2))
        values = [f"{it}({','.join(term(chance, of, BUILT, {}, 1) for of in RULED[it][0])})" for it in used]
        text = "\n".join([*head, "RULES", *rules, "EVAL", *values, "END-SPEC"])
        status, out, _ = recw("check", "-", input=text)
        check(f"check of {sides}", 0, status)
        told = re.findall(r"^<stdin>:(\S+): warning: missing case: no left-hand side matches this call: (.*) \[W3\]$", out, re.M)
        told = {places[at]: Terms(call).term() for at, call in told}
        check(f"one call at most of each operator of {sides}", len(told), out.count(" [W3]"))
        lefts = [Terms(it).term() for it in sides]
        ruled = {it[0] for it in lefts}
        symbols = {it: of for it, of in {**BUILT, **RULED}.items() if it in BUILT or it in {*used} - ruled}
        without = sorted(re.findall(r": (\S+) \[W5\]$", out, re.M))
        check(f"operators without rules of {sides} and {values}", sorted({*used} - ruled), without)
        for name, call in told.items():
            shown += 1
            is_call = name in ruled and is_of(call, RULED[name][1], {**symbols, name: RULED[name]})
            is_call = is_call and all(is_of(*it, symbols) for it in zip(call[1:], RULED[name][0]))
            check(f"{call} is a call over terms, of {sides}", True, is_call)
            check(f"none of {sides} matches {call}", False, any(matches(it, call, {}) for it in lefts))
        terms = terms_of(symbols, 3 if len(symbols) < 9 else 2)
        for name in ruled - {*told}:
            own = [it for it in lefts if it[0] == name]
            if any(len({*count_variables(it)}) < len(count_variables(it)) for it in own):
                continue
            complete += 1
            calls = itertools.product([name], *(terms[it][:150] for it in RULED[name][0]))
            open_ones = [it for it in calls if not any(matches(of, it, {}) for of in own)]
            check(f"all calls of {name} are covered by {sides}", [], open_ones[:1])
    check("calls are shown, and operators are complete", True, shown > 20 and complete > 5)


# Specifications with all details of errors, and the members `expected` and `suggestion` and the end of `message` of the
# first object; None for a hint, which tests/mistakes.py compares.
DETAILS = (
    ("SORTS A B A", [], None, "A is already declared on line 1"),
    ("SORTS A CONS a : -> A VARS a : A", [], None, "the symbol a is already declared on line 1"),
    ("SORTS A B VARS X : C", [], None, "declared sorts are A, B"),
    ("SORTS A CONS zero : -> A EVAL zeor", [], "zero", ""),
    ("SORTS A CONS a : -> A EVAL a(a,a)", [], None, "a takes 0 arguments, found 2"),
    ("SORTS A B CONS b : -> B OPNS f : B A -> A EVAL f(b,b)", [], None, "expected A, found B, in argument 2 of f"),
    ("SORTS A B CONS b : -> B OPNS f : A -> A VARS X : A RULES f(X) -> b", [], None, "A on the left, B on the right"),
    ("SORTS A VARS X : A EVAL X", [], None, ""),
    ("SORTS A CONS a : -> A EVAL b", [], None, "declare it in CONS or OPNS"),
    ("SORTS A EVAL )", ["an identifier", "`END-SPEC`"], None, None),
    ("SORTS A OPNS f : => A", ["an identifier", "`->`"], "->", ""),
    ("SORTS A SORTS B", ["an identifier", "`CONS`", "`OPNS`", "`VARS`", "`RULES`", "`EVAL`", "`END-SPEC`"], None, None),
)
LINE = re.compile(r"(.*):(\d+):(\d+): (error|warning): (.*) \[(\w+)\]", re.DOTALL)
WORD = re.compile(rb"[A-Za-z0-9_](?:[A-Za-z0-9_']|-(?=[A-Za-z0-9_]))*|->/<-|-><-|->|[\x00-\x7f]|[\x80-\xff][\x80-\xbf]*|", re.DOTALL)


def object_of(line, text):
    """The members of an object that its line and the text decide, with the line's message as the begin of its own."""
    name, row, column, severity, message, code = LINE.fullmatch(line).groups()
    rows = text.split(b"\n")
    at = sum(len(it) + 1 for it in rows[: int(row) - 1]) + int(column) - 1
    end = at if code == "L1" else WORD.match(text, at).end()
    ends = {"end_line": text.count(b"\n", 0, end) + 1, "end_column": end - text.rfind(b"\n", 0, end)}
    begin = {"file": name, "line": int(row), "column": int(column)}
    return {**begin, **ends, "severity": severity, "code": code, "message": message}


def try_object_lines(name, text):
    """Compares the objects of a text with its lines, and returns them."""
    status, out, err = recw("check", "-", input=text.decode("latin-1"))
    found = recw("check", "--format", "json", "-", input=text.decode("latin-1"))
    check(f"status of the objects of {name}", (status, err), found[::2])
    objects = [json.loads(it) for it in found[1].splitlines()]
    lines = out.splitlines()
    check(f"number of objects of {name}", len(lines), len(objects))
    members = ["file", "line", "column", "end_line", "end_column", "severity", "code", "message", "expected", "suggestion"]
    for line, it in zip(lines, objects):
        wanted = object_of(line, text)
        if it["code"] == "G" and it["suggestion"]:
            # the part that the suggestion replaces may be longer than a token
            wanted["end_column"] = max(wanted["end_column"], it["end_column"])
        check(f"members of {name}: {line}", members, [*it])
        is_same = all(it[key] == value for key, value in wanted.items() if key != "message")
        check(f"object of {name}: {line}: {it}", True, is_same and it["message"].startswith(wanted["message"]))
        if it["severity"] == "warning":
            said = (it["message"], it["expected"], it["suggestion"])
            check(f"a warning of {name}", (wanted["message"], [], None), said)
    return objects


def try_objects():
    for name in WORKED:
        text = open(f"{TOP}/examples/check/{name}.rec", "rb").read()
        try_object_lines(name, text)
    for rules, _ in RULES:
        try_object_lines(rules, FORM.format(rules.replace("; ", "\n")).encode())
    for declarations, rules, term, _ in ERRORS:
        text = f"REC-SPEC T {declarations}\nRULES {rules}\nEVAL {term} END-SPEC"
        try_object_lines(declarations, text.encode())
    for text, expected, suggestion, detail in DETAILS:
        (it, *_) = try_object_lines(text, f"REC-SPEC T {text} END-SPEC".encode())
        check(f"object of {text}", (expected, suggestion), (it["expected"], it["suggestion"]))
        if detail is not None:
            is_told = it["message"].endswith(f"; {detail}") if detail else "; " not in it["message"]
            check(f"detail of {text}: {it}", True, is_told)
    text = open(f"{TOP}/examples/add.rec", "rb").read()
    for end in range(0, len(text), 3):
        try_object_lines(f"the first {end} bytes of add.rec", text[:end])
    for word in ("é", "𝄞", "->-><-", "-><-", "->/<-", "--", "A-->B", "a-b'-", "'", "\x01"):
        try_object_lines(word, text.replace(b"plus(z,Y)", word.encode()))
    with room() as at:
        for name in ('q"\\.rec', "é𝄞.rec", "new\nline.rec"):
            write_file(f"{at}/{name}", "REC-SPEC T SORTS A END-SPEC")
            out = run(program(), "check", "--format=json", name, cwd=at)[1]
            check(f"the name {name!r}", name, json.loads(out.encode("latin-1"))["file"])


def try_terminal():
    """What a terminal gets: explanations with colours, but for NO_COLOR and objects."""
    plain = recw("check", "--explain", "check/broken.rec")[1]
    coloured = plain.replace(": error: ", ": \x1b[1;31merror:\x1b[0m ")
    objects = recw("check", "--format", "json", "check/broken.rec")[1]
    for names, words, due in (
        ({}, (), coloured), ({"NO_COLOR": ""}, (), coloured), ({"NO_COLOR": "1"}, (), plain),
        ({"TERM": "dumb"}, (), plain), ({}, ("--format", "json"), objects),
    ):
        env = {**{key: it for key, it in os.environ.items() if key != "NO_COLOR"}, "TERM": "xterm", **names}
        found = on_terminal([program(), "check", *words, "check/broken.rec"], env)
        check(f"check on a terminal with {names} and {words}", due, found)


def on_terminal(words, env):
    """What a program writes on a terminal."""
    ours, theirs = os.openpty()
    child = subprocess.Popen(words, stdin=theirs, stdout=theirs, stderr=theirs, cwd=EXAMPLES, env=env)
    os.close(theirs)
    found = b""
    while True:
        try:
            part = os.read(ours, 65536)
        except OSError:
            part = b""
        if not part:
            break
        found += part
    child.wait()
    os.close(ours)
    return found.decode().replace("\r\n", "\n")


def try_cut():
    """Each beginning of a specification is outside the grammar at its end, or at a word that is cut."""
    text = open(f"{TOP}/examples/add.rec", encoding="ascii").read().strip()
    for end in range(len(text)):
        status, out, err = recw("check", "-", input=text[:end])
        check(f"check of the first {end} bytes of add.rec", (1, 1, ""), (status, out.count("\n"), err))
        check(f"the line of the first {end} bytes", True, out.startswith("<stdin>:") and out.endswith(": error: syntax error in the specification [G]\n"))


def rules(count):
    """A specification of so many rules for as many symbols, each of which is used."""
    names = range(count)
    return "\n".join((
        "REC-SPEC Many SORTS A CONS a : -> A b : A -> A OPNS",
        *(f"f{it} : A A -> A" for it in names),
        "VARS X Y : A RULES",
        *(f"f{it}(b(X),Y) -> f{(it + 1) % count}(X,b(Y))" for it in names),
        "EVAL f0(b(a),a) END-SPEC",
    ))


def few_operators(count):
    """A specification of so many rules of two operators, none of which matches what another one does."""
    names = range(count // 2)
    return "\n".join((
        "REC-SPEC Few SORTS A CONS",
        *(f"c{it} : -> A" for it in names),
        "OPNS f : A A -> A g : A A -> A VARS X : A RULES",
        *(f"f(c{it},X) -> g(X,c{it})\ng(X,c{it}) -> X" for it in names),
        "EVAL f(c0,c0) END-SPEC",
    ))


def try_great():
    """Many rules, great depth and many places."""
    with room() as at:
        file = write_file(f"{at}/many.rec", rules(2000))
        start = time.monotonic()
        line = "{}:{}:1: warning: missing case: no left-hand side matches this call: f{}(a,a) [W3]\n"
        due = "".join(line.format(file, it + 2, it) for it in range(2000))
        check_long("check of 2,000 rules", (0, due, ""), recw("check", file))
        check("2,000 rules in under a second", True, time.monotonic() - start < 1)
        file = write_file(f"{at}/few.rec", few_operators(2000))
        start = time.monotonic()
        check("check of 2,000 rules of two operators", (0, "", ""), recw("check", file))
        check("2,000 rules of two operators in under a second", True, time.monotonic() - start < 1)
        depth = 1_000_000
        deep = f"REC-SPEC D SORTS A CONS a : -> A OPNS f : A -> A VARS X : A RULES f(X) -> X EVAL {'f(' * depth}Y{')' * depth} END-SPEC"
        line = f"deep.rec:1:{deep.index('Y') + 1}: error: undeclared symbol or variable in RULES or EVAL: Y [S5]\n"
        write_file(f"{at}/deep.rec", deep)
        for kib in (8192, 256):
            found = run(program(), "check", "deep.rec", before=at_stack(kib), cwd=at)
            check_long(f"check at depth {depth} on a stack of {kib} KiB", (1, line, ""), found)
        # a left side of a million nested calls: its own rule matches none of the calls inside
        nested = f"REC-SPEC N SORTS A CONS a : -> A OPNS f : A -> A VARS X : A RULES\n{'f(' * depth}X{')' * depth} -> X\nEVAL f(a) END-SPEC"
        write_file(f"{at}/nested.rec", nested)
        start = time.monotonic()
        line = f"nested.rec:1:{nested.index('f : A') + 1}: warning: missing case: no left-hand side matches this call: f(a) [W3]\n"
        check("check of nested calls", (0, line, ""), run(program(), "check", "nested.rec", cwd=at))
        check("a million nested calls in seconds", True, time.monotonic() - start < 20)
        calls = 200_000
        inner = f"REC-SPEC I SORTS A CONS a : -> A OPNS f : A -> A VARS X : A RULES\nf(X) -> a\n{'f(' * calls}X{')' * calls} -> X\nEVAL f(a) END-SPEC"
        write_file(f"{at}/calls.rec", inner)
        due = "calls.rec:3:1: warning: unreachable rule: an earlier rule without conditions matches all that it matches: 2:1 [W1]\n"
        due += "".join(f"calls.rec:3:{2 * it + 1}: warning: rule cannot match: this argument is rewritten first: 2:1 [W2]\n" for it in range(1, calls))
        start = time.monotonic()
        check_long("check of 200,000 nested calls that are rewritten first", (0, due, ""), run(program(), "check", "calls.rec", cwd=at))
        check("200,000 nested calls in seconds", True, time.monotonic() - start < 20)
        wide = f"REC-SPEC W SORTS A CONS a : -> A OPNS VARS RULES EVAL\n{'b ' * 200_000}END-SPEC"
        write_file(f"{at}/wide.rec", wide)
        due = "".join(f"wide.rec:2:{2 * it + 1}: error: undeclared symbol or variable in RULES or EVAL: b [S5]\n" for it in range(200_000))
        check_long("check of 200,000 places", (1, due, ""), run(program(), "check", "wide.rec", cwd=at))
        # half a million comments that silence other warnings, and one that silences this one
        allowed = "".join(f"% recw: allow W3 f{it}\n" for it in range(500_000))
        write_file(f"{at}/allowed.rec", "REC-SPEC C SORTS A CONS a : -> A b : -> A OPNS f499999 : A -> A RULES f499999(a) -> b EVAL b END-SPEC\n" + allowed)
        start = time.monotonic()
        check("check with half a million comments", (0, "", ""), run(program(), "check", "allowed.rec", cwd=at))
        check("half a million comments in seconds", True, time.monotonic() - start < 5)


def try_streams():
    check("check of no file", NO_READ, recw("check", "none.rec")[::2])
    check("check of a folder", NO_READ, recw("check", ".")[::2])
    found = recw("check", "check/unused.rec", "none.rec", "check/broken.rec")
    check("check stops at a file that is not there", (4, lines_of("check/unused.rec"), NO_READ[1]), found)
    full = run("sh", "-c", f'exec "{program()}" check check/broken.rec >/dev/full')
    check("check onto a full device", NO_WRITE, full[::2])


def try_refused():
    """Each request for memory is refused in turn: nothing is written, or all."""
    total = 0
    for name, (status, _) in WORKED.items():
        words = [program(), "check", f"check/{name}.rec"]
        allowed = ((status, "", lines_of(words[2])), (*NO_MEMORY, ""))
        for request, count in answer(words, EXAMPLES)["counts"].items():
            total += count
            for number in range(1, count + 1):
                it = answer(words, EXAMPLES, (request, number))
                found = (it["status"], it["err"], it["out"])
                check(f"check of {name}: {request} {number} refused: {found}", True, found in allowed)
    return total


def try_checks():
    """How many requests for memory were refused."""
    for group in (try_worked, try_comments, try_rules, try_errors, try_calls, try_repeated, try_operators, try_random_calls, try_objects, try_terminal, try_cut, try_great, try_streams):
        group()
    if not is_allowed():
        print("not tried: checks without memory: no program can be traced here")
        return 0
    return try_refused()
