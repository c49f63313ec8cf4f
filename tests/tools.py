#!/usr/bin/env -S python3 -B
"""Tests the programs of the folder tools: tools.py [PROGRAM].

Values by Maude, on the examples and 1,000 random specifications, are those of the definition of
evaluation in tests/traces.py, and of the program if it is named. A .trs file that is read back has the
rules of its specification. Random JSON texts come back as they were. Maude is left out with a message
if it is not installed.
"""

import argparse
import ast
import glob
import importlib.util
import itertools
import json
import os
import random
import re
import shutil
import subprocess
import sys
import tempfile
import threading

import specifications
from common import FAILURES, TOP, done, program, same, text_of
from oracles import shown
from traces import Over, Specification

NAMES = ["rec2maude", "rec2trs", "trs2rec", "json2aterm"]
COUNT = 1000
# The longest run of Maude; it takes some seconds.
MAUDE_SECONDS = 120
# The step limit: each term of the examples that has a value takes less.
STEPS = 5000
MAUDE = ["maude", "-no-banner", "-no-wrap", "-no-ansi-color", "-no-advise"]
HAS_PROGRAM = len(sys.argv) > 1

# Words for the symbols of random specifications: all marks, and words that a tool reserves.
WORDS = {"f": "f_", "g": "f_'", "h": "_", "k": "COMMENT", "s": "is-1", "z": "007", "b": "eq", "c": "c'-d"}
WORDS.update({"X": "_x", "Y": "VAR", "V": "RULES'", "A": "a_A", "B": "sort", "R": "r_'"})

# The names that .trs files have for some of these.
RENAMED = {"VAR": "VAR1", "COMMENT": "COMMENT1"}
ROUNDS = 300
# Values of which two rules of an operator may match the same ones.
SMALL = [("z",), ("0",), ("b",), ("s", ("z",)), ("s", ("0",)), ("c", ("z",), ("b",)), ("s", ("s", ("z",)))]

ACKERMANN = """(COMMENT (by "(" and (others)))
(VAR x y)
(STRATEGY INNERMOST)
(RULES
  ack(0,y)->s(y)   ack(s(x),0)->ack(x,s(0))
  ack( s(x) , s(y) ) -> ack(x,ack(s(x),y))
  +(0,y) -> y
  +(s(x),y) -> s(+(x,y))
  if(x,y) -> x | +(x,y) -> s(0)
  if(x,y) -> y | +(x,x) -> y, +(x,y) -><- +(y,x)
  if-not(x) -> x | +(x,x) -> z, +(x,0) -> z
  minus(x,y) -> x
  -(x,x) -> if(x,x)
)
"""

# Systems, terms and their values.
SYSTEMS = [
    (ACKERMANN, ["ack(s(s(0)),s(0))", "+(s(0),0)"], ["s(s(s(s(s(\"0\")))))", 's("0")']),
    (ACKERMANN, ["if(s(0),0)", "if(0,0)", "if(0,s(s(0)))"], ['s("0")', '"0"', 'if_2("0",s(s("0")))']),
    (ACKERMANN.replace(" z", " Z").replace("(VAR", "(VAR Z"), ["if-not(0)", "if-not(s(0))"], ['"0"', 'if-not(s("0"))']),
    ("(RULES a -> b a -> c)", ["a", "f(a,++(d))"], ["b", "f(b,plus_plus(d))"]),
    (
        "(CONDITIONTYPE JOIN)(VAR x)(RULES f(x) -> b | g(x) == g(b) g(a) -> b g(b) -> b)",
        ["f(a)", "f(c)"],
        ["b", "f(c)"],
    ),
    ("(FORMAT (x) \"(\")(RULES)", ["f(a)"], ["f(a)"]),
    ("", [], []),
]

# Systems that are rejected, and where.
REJECTED = [
    ("(VAR x) (RULES x -> a)", "1:16: error: a left-hand side is a variable"),
    ("(VAR x) (RULES f(a) -> x)", "1:24: error: the variable x is not in the left-hand side"),
    ("(VAR x y) (RULES f(x) -> x | x -> y)", "1:35: error: the variable y is not in the left-hand side"),
    ("(RULES f(a) -> b\nb -> f)", "2:6: error: f has 0 arguments here and 1 elsewhere"),
    ("(VAR x) (RULES f(x(a)) -> a)", "1:18: error: x has 1 arguments here and 0 elsewhere"),
    ("(RULES a -> b | b -> a)", "1:22: error: the right-hand side of a condition holds an operator"),
    ("(CONDITIONTYPE SEMI-EQUATIONAL)", "1:16: error: SEMI-EQUATIONAL conditions have no counterpart in REC"),
    ("(RULES a ->= b)", "1:10: error: a relative rule has no counterpart in REC"),
    ("(THEORY (AC f))", "1:2: error: THEORY has no counterpart in REC"),
    ("(STRATEGY OUTERMOST)", "1:11: error: the strategy OUTERMOST is not that of REC"),
    ("(STRATEGY CONTEXTSENSITIVE (f 1))", "1:11: error: the strategy CONTEXTSENSITIVE is not that of REC"),
    ("(RULES a -> b", "1:14: error: expected a name, found the end of the text"),
    ("(COMMENT (", "1:11: error: expected ), found the end of the text"),
    ("(RULES a b)", "1:10: error: expected ->, found b"),
    ("(RULES) a", "1:9: error: expected the end of the text, found a"),
]

# Changes of examples/add.rec, and the notes on what a .trs file of it does not say.
NOTES = [
    ("Add", "Sum", []),
    ("SORTS Nat", "SORTS Nat Bool", ["sorts are dropped"]),
    ("plus(z,Y)", "plus(X,Y)", ["line 12: the order of the rules of plus is dropped: see line 11"]),
    ("plus(z,Y) -> Y", "plus(X,s(X)) -> X", ["line 12: the order of the rules of plus is dropped: see line 11"]),
    # X would be s(X)
    (
        "plus(s(X),Y) -> s(plus(X,Y))",
        "plus(X,X) -> X plus(X,s(X)) -> X",
        ["line 12: the order of the rules of plus is dropped: see line 11"],
    ),
    ("plus(z,Y) -> Y\n  plus(s(X),Y) -> s(plus(X,Y))", "plus(X,X) -> X plus(X,s(X)) -> X", []),
    ("-> Y\n", "-> Y if Y -><- z and-if z -><- plus(z,z)\n", []),
    (
        "-> Y\n",
        "-> Y if plus(Y,Y) -><- plus(z,z)\n",
        ["line 11: plus(Y,Y) and plus(z,z) may meet in a term that is no value", "the innermost strategy is dropped"],
    ),
    ("-> Y\n", "-> Y if Y ->/<- z\n", ["line 11: dropped: Y ->/<- z", "the innermost strategy is dropped"]),
]

JSON_COUNT = 3000
DEEP = 100_000

JSON_ROWS = [
    (" [ ] ", "[]"),
    ("{}", "object([])"),
    ('{"a":1,"a":[null,true,false]}', 'object([pair("a",1),pair("a",[null,true,false])])'),
    ("[-0,-7,1.50,2147483648]", '[number("-0"),-7,number("1.50"),number("2147483648")]'),
    ('"\\u00e9\\n\\"\\u0000"', r'"\303\251\n\"\000"'),
    ('"\\ud83d\\ude00"', r'"\360\237\230\200"'),
    ('"\\ud800"', r'"\355\240\200"'),
]
BACK_ROWS = [
    (' object ( [ pair ( "a" , -007 ) ] ) { } ', '{"a":-7}'),
    (r'["\141","\355\240\200",null()]', '["a","\\ud800",null]'),
    (r'"\000\177\303\251"', '"\\u0000\x7f\u00e9"'.encode().decode("latin-1")),
]
JSON_REJECTED = [
    ("", "1:1: error: expected string or number or literal or [ or {"),
    ("[1,]", "1:4: error: expected string or number or literal or [ or {"),
    ('{"a" 1}', "1:6: error: expected :"),
    ("{1:1}", "1:2: error: expected string"),
    ("[1 2]", "1:4: error: expected , or ]"),
    ("[1]\n]", "2:1: error: expected end"),
    ("[01]", "1:3: error: expected , or ]"),
    ("NaN", "1:1: error: no token begins here, or it does not end"),
    ('["a\tb"]', "1:2: error: no token begins here, or it does not end"),
    ('["\\x41"]', "1:2: error: no token begins here, or it does not end"),
    ('["\xff"]', "1:3: error: the text is not UTF-8"),
]
BACK_REJECTED = [
    ("f(a)", "1:1: error: this term has no JSON text"),
    ('[1,"null"("a")]', "1:4: error: expected a quoted name without arguments"),
    ("[null(a)]", "1:2: error: this term has no JSON text"),
    ("[<int>]", "1:2: error: this term has no JSON text"),
    ("[()]", "1:2: error: this term has no JSON text"),
    ("[1{a}]", "1:2: error: JSON has no annotations; --drop-annotations leaves them out"),
    ('number("1")', "1:8: error: expected a number of JSON in quotes that is no integer of 32 bits"),
    ('number("01")', "1:8: error: expected a number of JSON in quotes that is no integer of 32 bits"),
    ("object([a])", '1:9: error: expected pair("..",VALUE)'),
    ("object([pair(a,1)])", "1:14: error: expected a quoted name without arguments"),
    (r'"\377"', "1:1: error: the bytes of this name are not UTF-8"),
    (r'"\355\240\275\355\270\200"', "1:1: error: the bytes of this name are not UTF-8"),
    ("[1,\n2147483648]", "2:1: error: the integer is out of range"),
    ("a{b}{c}", "1:5: error: expected end"),
    ("<a,b>", "1:3: error: expected >"),
    ('"a', "1:1: error: no token begins here, or it does not end"),
    ("[1,]", "1:4: error: expected integer or name or quoted or ( or [ or <"),
]

# What random specifications do not have, each with the values of its terms, by hand.
ROWS = [
    ("REC-SPEC R END-SPEC", []),
    (
        "REC-SPEC R SORTS A B CONS a : -> A OPNS n : -> A m : -> A VARS X : A RULES n -> a if a ->/<- n "
        "EVAL m END-SPEC",
        ["m"],
    ),
    ("REC-SPEC R SORTS A CONS a : -> A b : -> A OPNS n : -> A RULES n -> a if a -><- b n -> b EVAL n END-SPEC", ["b"]),
    # a value is not evaluated again: g(a) is stuck, and h takes it as it is
    (
        "REC-SPEC R SORTS A CONS a : -> A s : A -> A OPNS g : A -> A h : A -> A VARS X : A "
        "RULES g(s(X)) -> X h(g(X)) -> s(g(X)) EVAL h(g(a)) h(g(s(a))) END-SPEC",
        ["s(g(a))", "h(a)"],
    ),
    # the second condition would not end, and is not tried
    (
        "REC-SPEC R SORTS A CONS a : -> A b : -> A OPNS l : A -> A f : A A -> A VARS X Y : A RULES l(X) -> l(X) "
        "f(X,X) -> a f(X,Y) -> a if X -><- Y and-if l(X) -><- a f(X,Y) -> b if X ->/<- Y EVAL f(b,b) f(a,b) END-SPEC",
        ["a", "b"],
    ),
]


def tool(name):
    """A tool as a module."""
    spec = importlib.util.spec_from_file_location(name, f"{TOP}/tools/{name}.py")
    module = importlib.util.module_from_spec(spec)
    spec.loader.exec_module(module)
    return module


TOOL = {it: tool(it) for it in NAMES}


def run(name, *words, text="", **how):
    """The status and both outputs of a tool, which finds nothing but the standard library."""
    how = {"cwd": TOP, "capture_output": True, "check": False, **how}
    data = text.encode("latin-1") if isinstance(text, str) else text
    ran = subprocess.run([sys.executable, "-BIS", f"tools/{name}.py", *words], input=data, **how)
    return ran.returncode, ran.stdout.decode("latin-1"), ran.stderr.decode("latin-1")


# All tools


def check_tool(name):
    """Help with an example, statuses, and nothing that Python 3.8 does not have."""
    source = text_of(f"tools/{name}.py")
    ast.parse(source, feature_version=(3, 8))
    status, out, err = run(name, "--help")
    same(f"{name}: help", (0, ""), (status, err))
    for command in re.findall(r"^Example: (.*)$", out, re.M):
        ran = subprocess.run(["sh", "-c", command], cwd=TOP, capture_output=True, text=True, check=False)
        printed = re.search(r"^prints\n\n((?:  .*\n)*)", out, re.M)
        due = re.sub("^  ", "", printed[1], flags=re.M) if printed else ran.stdout
        same(f"{name}: {command}", (0, due, ""), (ran.returncode, ran.stdout, ran.stderr))
    same(f"{name}: examples", 1, len(re.findall("^Example: ", out, re.M)))
    same(f"{name}: a wrong option", 2, run(name, "--none")[0])
    missing = (4, "", f"{name}.py: none: No such file or directory\n")
    same(f"{name}: a missing file", missing, run(name, "none"))
    with open("/dev/full", "wb") as full:
        words = [sys.executable, f"tools/{name}.py", f"{TOP}/examples/add.rec"]
        if name in ("rec2maude", "rec2trs"):
            ran = subprocess.run(words, cwd=TOP, stdout=full, stderr=subprocess.PIPE, text=True, check=False)
            due = (4, f"{name}.py: {TOP}/examples/add.rec: No space left on device\n")
            same(f"{name}: a full device", due, (ran.returncode, ran.stderr))


def check_reader():
    """Both tools that read specifications have one reader, which rejects a wrong text at the error."""
    whole = re.compile(r"# The reader of REC.*# The end of the reader[^\n]*", re.S)
    parts = [whole.search(text_of(f"tools/{it}.py")) for it in NAMES[:2]]
    same("the reader of specifications", parts[0][0], parts[1][0])
    text = text_of("examples/add.rec")
    for before, after, place in (
        ("SORTS Nat", "SORTS Nat Nat", "2:11: error: Nat is declared twice"),
        ("X Y", "X z", "9:5: error: z is declared twice"),
        ("z : -> Nat", "z : -> Bool", "4:10: error: no sort is called Bool"),
        ("-> Y", "-> Z", "11:16: error: Z is neither a symbol nor a variable"),
        ("-> Y", "-> X", "11:16: error: the variable X is not bound here"),
        ("-> Y", "-> s(z,z)", "11:16: error: s takes 1 arguments, not 2"),
        ("plus(z,Y)", "s(Y)", "11:3: error: s is not an operator"),
        ("END-SPEC", "plus(X,z) END-SPEC", "15:6: error: the variable X is not bound here"),
        ("END-SPEC", "", "16:1: error: expected END-SPEC, found the end of the text"),
        ("Nat Nat ->", "Nat Nat =>", "7:18: error: unexpected character '='"),
    ):
        for name in NAMES[:2]:
            due = (1, "", f"<stdin>:{place}\n")
            same(f"{name}: {after or 'no end'}", due, run(name, text=text.replace(before, after)))


def check_examples():
    """The commands of tools/README.md print what it says."""
    with tempfile.TemporaryDirectory() as room:
        os.makedirs(f"{room}/bin")
        os.symlink(program(), f"{room}/bin/recw")
        for it in ("tools", "examples"):
            os.symlink(f"{TOP}/{it}", f"{room}/{it}")
        how = {"cwd": room, "env": {**os.environ, "PATH": f"{room}/bin:{os.environ['PATH']}"}}
        for block in re.findall(r"^```console\n(.*?)^```$", text_of("tools/README.md"), re.M | re.S):
            for command, due in re.findall(r"^\$ (.*)\n((?:(?!\$ ).*\n)*)", block, re.M):
                if "maude " in command and not shutil.which("maude") or "recw " in command and not HAS_PROGRAM:
                    print(f"not tried: {command}")
                    continue
                ran = subprocess.run(["sh", "-c", command], capture_output=True, text=True, check=False, **how)
                same(f"tools/README.md: {command}", due, ran.stdout + ran.stderr)


# Specifications and their values


def good_examples():
    """The texts of the examples that keep all rules, by name."""
    for file in sorted(glob.glob("examples/**/*.rec", root_dir=TOP, recursive=True)):
        if not file.endswith("broken.rec") and "/join/" not in file:
            yield file, text_of(file)


def random_specifications(count, seed):
    """Good specifications; a third of them have operators in left-hand sides, and a third other words."""
    chance = random.Random(seed)
    for number in range(count):
        text = specifications.specification(chance, specifications.ALL if chance.random() < 0.3 else None)
        if chance.random() < 0.3:
            text = re.sub(r"[\w'-]+", lambda it: WORDS.get(it[0], it[0]), text)
        yield f"specification {number}", text


def defined(text):
    """The value of each term and its steps by the definition; None for one that takes more than STEPS."""
    spec = Specification(text)
    for term in spec.terms:
        try:
            value, left = spec.evaluate(STEPS, {}, term)
            yield shown(value), STEPS - left
        except Over:
            yield None


def program_lines(text, *words):
    """What the program writes for a specification."""
    how = {"input": text, "stdout": subprocess.PIPE, "text": True, "check": False}
    return subprocess.run([program(), "eval", *words, "-"], **how).stdout.splitlines()


def check_program(what, text, due):
    """The program's values and steps are those of the definition."""
    if HAS_PROGRAM:
        lines = [f"{it[0]}\t{it[1]}" if it else f"!limit {STEPS}" for it in due]
        same(f"{what}: the program", lines, program_lines(text, "--count", "--steps", str(STEPS)))


# Maude


def maude_values(specs):
    """The values of specifications by Maude, in one run."""
    with tempfile.NamedTemporaryFile("w", suffix=".maude") as file:
        for spec in specs:
            text = TOOL["rec2maude"].Module(spec).text()
            file.write(text[: text.rindex("quit\n")])
        file.write("quit\n")
        file.flush()
        how = {"stdin": subprocess.DEVNULL, "capture_output": True, "text": True, "check": False}
        try:
            ran = subprocess.run([*MAUDE, file.name], timeout=MAUDE_SECONDS, **how)
        except subprocess.TimeoutExpired:
            same("Maude ends", True, False)
            return []
    same("Maude's messages", "", ran.stderr)
    return TOOL["rec2maude"].values(ran.stdout).splitlines()


def without_limits(text, due):
    """The specification for Maude, with the terms that have a value, and these values."""
    spec = TOOL["rec2maude"].Spec(text)
    spec.terms = [term for term, it in zip(spec.terms, due) if it]
    return spec, [it[0] for it in due if it]


def check_maude():
    """Maude's values are those of the definition."""
    if not shutil.which("maude"):
        print("not tried: Maude is not installed")
        return
    asked, wanted, names, limits = [], [], [], 0
    for what, text in [*good_examples(), *random_specifications(COUNT, 7)]:
        due = list(defined(text))
        check_program(what, text, due)
        spec, values = without_limits(text, due)
        asked.append(spec)
        wanted += values
        names += [(what, text)] * len(values)
        limits += due.count(None)
    for number, (text, values) in enumerate(ROWS):
        asked.append(TOOL["rec2maude"].Spec(text))
        wanted += values
        names += [(f"row {number}", text)] * len(values)
    found = maude_values(asked)
    same("the number of Maude's values", len(wanted), len(found))
    differing = [it for it in zip(names, wanted, found) if it[1] != it[2]]
    for (what, text), value, other in differing[:3]:
        same(f"{what} by Maude:\n{text}", value, other)
    operators = {*specifications.RULED, *(WORDS[it] for it in specifications.RULED)}
    stuck = sum(bool(operators & set(re.findall(r"[^(),\"]+", it))) for it in wanted)
    values = f"{len(wanted)} values by Maude, {stuck} of them with calls"
    print(f"{len(asked)} specifications: {values}; {limits} terms over the step limit")


# Systems of the TPDB


def condition_sides(spec, condition):
    """The two sides of a condition in a .trs file: the one without operators is the second."""
    left, right, is_equal = condition
    operators = {rule.left[0] for rule in spec.rules}

    def has_operator(term):
        return term[0] in operators or any(map(has_operator, term[1:]))

    return (right, left, is_equal) if has_operator(right) and not has_operator(left) else condition


def system_of(text, **options):
    """The .trs text of a specification, and the notes."""
    module = TOOL["rec2trs"]
    options = argparse.Namespace(**{"unconditional": False, "cops": False, **options})
    system = module.System(module.Spec(text), text, options)
    return system.text(), system.notes


def specification_of(text, terms=()):
    """The specification of a .trs text."""
    module = TOOL["trs2rec"]
    system = module.System(text)
    for term in terms:
        system.add_term(term)
    return module.specification(system)


def check_round_trip(what, text):
    """A specification that is read back has the same rules, but for conditions by `->/<-`, and the same values."""
    own = Specification(text)
    system, notes = system_of(text)
    back = specification_of(system, [trs_text(it) for it in own.terms])
    due = []
    for rule in own.rules:
        conditions = [condition_sides(own, it) for it in rule.conditions if it[2]]
        due.append(renamed_rule((rule.left, rule.right, conditions)))
    found = [(it.left, it.right, it.conditions) for it in Specification(back).rules]
    same(f"{what}: rules of {system}", due, found)
    dropped = [it for rule in own.rules for it in rule.conditions if not it[2]]
    same(f"{what}: dropped conditions", len(dropped), sum(": dropped: " in it for it in notes))
    if not dropped:
        values = [it and (renamed_text(it[0]), it[1]) for it in defined(text)]
        same(f"{what}: values", values, list(defined(back)))
        check_program(f"{what}, read back", back, values)
    check_strategy(what, own, system, notes)
    check_unconditional(what, text)
    return not dropped, notes


def check_strategy(what, own, system, notes):
    """The innermost strategy is there if no rule has conditions, or if nothing but sorts is dropped."""
    due = {*notes} <= {"sorts are dropped"} or not any(rule.conditions for rule in own.rules)
    same(f"{what}: strategy", due, "(STRATEGY INNERMOST)" in system)


def check_unconditional(what, text):
    """With --unconditional a rule has a rule more for each term of its conditions."""
    own = Specification(text)
    due = []
    for rule in own.rules:
        sides = [side for condition in rule.conditions for side in condition[:2]]
        due += [(rule.left, it, []) for it in (rule.right, *sides)]
    system, _ = system_of(text, unconditional=True)
    found = [tuple(it)[1:] for it in Specification(specification_of(system)).rules]
    same(f"{what}: without conditions", list(map(renamed_rule, due)), found)


def check_order(what, text, notes):
    """Operators two of whose rules match one of the small terms have a note on their order."""
    own = Specification(text)
    overlapping = set()
    for rule in own.rules:
        for arguments in itertools.product(SMALL, repeat=len(rule.left) - 1):
            tree = (rule.left[0], *arguments)
            if sum(own.matches(it.left, tree, {}) for it in own.rules) > 1:
                overlapping.add(rule.left[0])
    noted = set(re.findall(r"the order of the rules of (\S+) is dropped", "\n".join(notes)))
    same(f"{what}: the order of rules", set(), overlapping - noted)


def trs_text(term):
    name, *arguments = term
    name = RENAMED.get(name, name)
    return f"{name}({','.join(map(trs_text, arguments))})" if arguments else name


def renamed_term(term):
    return (RENAMED.get(term[0], term[0]), *map(renamed_term, term[1:]))


def renamed_rule(rule):
    left, right, conditions = rule
    sides = [(renamed_term(a), renamed_term(b), it) for a, b, it in conditions]
    return renamed_term(left), renamed_term(right), sides


def renamed_text(text):
    return re.sub(r"[\w'-]+", lambda it: RENAMED.get(it[0], it[0]), text)


def check_systems():
    """Round trips of the examples and of random specifications, and what is rejected."""
    alike = total = 0
    for what, text in [*good_examples(), *random_specifications(ROUNDS, 11)]:
        same_rules, notes = check_round_trip(what, text)
        alike, total = alike + same_rules, total + 1
        check_order(what, text, notes)
    print(f"{total} specifications as .trs and back: {alike} with the same values, {total - alike} lose conditions")
    for text, terms, due in SYSTEMS:
        words = [word for term in terms for word in ("-e", term)]
        status, out, err = run("trs2rec", *words, text=text)
        same(f"trs2rec: {text}", (0, "", due), (status, err, [it and it[0] for it in defined(out)]))
    for text, due in REJECTED:
        same(f"trs2rec: {text}", (1, "", f"<stdin>:{due}\n"), run("trs2rec", text=text))
    due = (1, "", "trs2rec.py: error: -e f(x): the variable x is not in the left-hand side\n")
    same("trs2rec: -e", due, run("trs2rec", "-e", "f(x)", text="(VAR x)"))
    for before, after, notes in NOTES:
        text = text_of("examples/add.rec").replace(before, after)
        due = "".join(f"<stdin>: note: {it}\n" for it in notes)
        status, out, err = run("rec2trs", text=text)
        same(f"rec2trs: {after}", (0, due), (status, err))
        same(f"rec2trs: {after}: comment", notes, re.findall('^  "(.*)"$', out, re.M))


# JSON


def some_string(chance):
    """A text of JSON for a string, with escapes of all kinds."""
    pieces = ["a", "Z", " ", "'", "\\u0000", "\\u00e9", "\\ud800", "\\udc00", "\\ud83d\\ude00", "\\n", '\\"']
    pieces += ["\\\\", "\\/", "\\t"]
    pieces += ["\\b", "\\f", "\\r", "\x7f", "\u00e9", "\u20ac", "\U0001f600", "(", "{", ",", "null", "\\u0041"]
    return '"' + "".join(chance.choice(pieces) for _ in range(chance.randrange(6))) + '"'


def some_number(chance):
    numbers = ["0", "-0", "1", "-1", "2147483647", "-2147483648", "2147483648", "-2147483649", "1.50", "-0.0"]
    numbers += ["1e5", "1E+05", "10000000000", "123456789012345678901234567890"]
    return chance.choice([*numbers, str(chance.randrange(-(10**6), 10**6))])


def some_json(chance, depth):
    """A random text of JSON."""
    kind = chance.randrange(6 if depth else 4)
    blank = chance.choice(["", "", " ", "\n\t", "\r"])
    if kind < 4:
        text = [some_string, some_number, lambda it: it.choice(["null", "true"]), lambda it: "false"][kind](chance)
        return blank + text + blank
    items = [some_json(chance, depth - 1) for _ in range(chance.randrange(4))]
    if kind == 4:
        return f"{blank}[{','.join(items) or blank}]{blank}"
    keys = [chance.choice(['"k"', some_string(chance)]) for _ in items]
    return f"{{{','.join(f'{key}{blank}:{it}' for key, it in zip(keys, items)) or blank}}}{blank}"


class Digits(str):
    """A number by its text."""


class Pairs(list):
    """An object with all its pairs, in their order."""


def json_value(text):
    """What Python reads of a JSON text, with texts for numbers and lists of pairs for objects."""
    return json.loads(text, parse_int=Digits, parse_float=Digits, object_pairs_hook=Pairs)


def quoted(text):
    escaped = {0x0A: "\\n", 0x09: "\\t", 0x0D: "\\r", 0x22: '\\"', 0x5C: "\\\\"}
    data = text.encode("utf-8", "surrogatepass")
    return '"' + "".join(escaped.get(it, chr(it) if 0x20 <= it <= 0x7E else f"\\{it:03o}") for it in data) + '"'


def term_text(value):
    """The printed text of the term of a value, by the table in the help."""
    if isinstance(value, Digits):
        small = str(value) != "-0" and re.fullmatch("-?[0-9]+", value) and -(2**31) <= int(value) < 2**31
        return str(value) if small else f'number("{value}")'
    if isinstance(value, str):
        return quoted(value)
    if isinstance(value, Pairs):
        return f"object([{','.join(f'pair({quoted(key)},{term_text(it)})' for key, it in value)}])"
    if isinstance(value, list):
        return f"[{','.join(map(term_text, value))}]"
    return {None: "null", True: "true", False: "false"}[value]


def is_term(text):
    """Whether a text is in the grammar of annotated terms: what is inside of all else becomes a single letter."""
    text = re.sub(r'"(?:[^"\\]|\\[ntr\\"]|\\[0-3][0-7][0-7])*"', "q", text)
    text = re.sub(r"-?[0-9]+", "[]", re.sub(r"[A-Za-z_][\w+*$.-]*", "q", text))
    before = ""
    while before != text:
        before = text
        text = re.sub(r"q?\((?:q(?:,q)*)?\)|\[(?:q(?:,q)*)?\]|<q>", "q", text)
    return text == "q"


def check_json():
    """Random texts there and back, by hand and, if it is named, by the program; and what is rejected."""
    chance, module, terms = random.Random(3), TOOL["json2aterm"], []
    for number in range(JSON_COUNT):
        text = some_json(chance, chance.randrange(5))
        value = json_value(text)
        term = module.term_of(text.encode())
        same(f"JSON {number}: {text}", term_text(value), term)
        same(f"JSON {number}: {text} is a term", True, is_term(term))
        back = module.json_of(module.read_term(term.encode()))
        same(f"JSON {number}: {text} and back", value, json_value(back))
        same(f"JSON {number}: {back} and back", term, module.term_of(back.encode()))
        terms.append(term)
    if HAS_PROGRAM:
        every = f"[{','.join(terms)}]\n"
        ran = subprocess.run([program(), "aterm"], input=every, stdout=subprocess.PIPE, text=True, check=False)
        same("JSON by the program", True, ran.stdout == every)
    for text, due in JSON_ROWS:
        same(f"JSON {text}", (0, due + "\n", ""), run("json2aterm", text=text))
    for text, due in BACK_ROWS:
        same(f"JSON of {text}", (0, due + "\n", ""), run("json2aterm", "--back", text=text))
    for text, due in JSON_REJECTED:
        same(f"JSON {text}", (1, "", f"<stdin>:{due}\n"), run("json2aterm", text=text))
    for text, due in BACK_REJECTED:
        same(f"JSON of {text}", (1, "", f"<stdin>:{due}\n"), run("json2aterm", "--back", text=text))
    due = (0, '{"a":[1]}\n', "")
    text = 'object([pair("a"{b},[1{<c>}]{d})]{e}){f}'
    same("dropped annotations", due, run("json2aterm", "--back", "--drop-annotations", text=text))
    same("a wrong option", 2, run("json2aterm", "--drop-annotations")[0])
    deep = "[" * DEEP + "]" * DEEP
    same("deep JSON", True, deep == module.json_of(module.read_term(module.term_of(deep.encode()).encode())))
    print(f"{JSON_COUNT} texts of JSON there and back")


def main():
    for name in NAMES:
        check_tool(name)
    check_reader()
    check_examples()
    check_maude()
    check_systems()
    check_json()
    done()


if __name__ == "__main__":
    # the definition recurses
    sys.setrecursionlimit(200_000)
    threading.stack_size(512 << 20)
    MAIN = threading.Thread(target=main)
    MAIN.start()
    MAIN.join()
    sys.exit(1 if FAILURES else 0)
