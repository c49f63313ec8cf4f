#!/usr/bin/env -S python3 -B
"""Compares the tables of `recw` with a second description of tables: tables.py [PROGRAM].

Here a term is a tree, a part of it is known by its text, and a table is written and read by recursion. The terms and
tables are random, 30,000 in all; a quarter of the tables are wrong. `eval` gets many terms at a time, as a text and as
a table, and `serve` many tables; each other command is run over many files by one shell. At the end come terms that are
far larger than their tables.
"""

import random
import re
import subprocess
import tempfile
import time
from collections import Counter
from typing import NamedTuple

from attempts import TRIED, check, check_long, passed, recw, room, write_file
from common import FAILURES, program

# How many terms or tables each command gets.
COUNTS = {
    ("aterm", "--to-table"): 3000,
    ("aterm", "--from-table"): 3000,
    ("aterm", "--from-table", "--to-table"): 2000,
    ("share", "--to-table"): 2000,
    ("share", "--from-table", "--to-table"): 2000,
}
RUNS, TERMS = 40, 200
# How many tables of input terms are tried.
GIVEN = 1000
# How many sessions are tried, and how many requests each has.
SESSIONS, REQUESTS = 300, 30
# Names as they are printed, some of which are longer than a number of an element.
NAMES = ["a", "f", "pair", "longer-name.x", "seven_7", "nine_byte", '"f"', '"q\\"\\\\\\n"', '"\\377\\000"', '""', ""]
INTEGERS = [0, 1, -1, 7, 12345678, 123456789, 2147483647, -2147483648]
# Up to which length a number of an element is not worth its place, in bytes.
SHORT = 8
# The longest text of a term that `aterm --from-table` writes, in bytes.
LONGEST = 16777216
CONSTRUCTORS = {"z": 0, "leaf": 0, "a-long-leaf": 0, "s": 1, "pair": 2, "node": 2, "three": 3}
# A specification by which a value has twice as many leaves for each `s`.
DOUBLE = """REC-SPEC D SORTS N T CONS z : -> N s : N -> N leaf : -> T node : T T -> T
OPNS d : N -> T twice : T -> T VARS X : N Y : T
RULES d(z) -> leaf d(s(X)) -> twice(d(X)) twice(Y) -> node(Y,Y) END-SPEC
"""
# The sort of each of its symbols, and the sorts of the arguments.
SYMBOLS = {
    **{"z": ("N", ""), "s": ("N", "N"), "leaf": ("T", ""), "node": ("T", "TT")},
    **{"d": ("T", "N"), "twice": ("T", "T")},
}
# The longest value of a request that is tried, in bytes.
LARGE = 5000
# Texts that are no terms, no tables, and tables with a wrong placeholder.
REFUSED = {
    "A": ["", "[a", "[a,<>]", "[a,<0,0>]", "[a,<2147483648>]", "[a,<-2147483649>]"],
    "R1": ["a", "3", "<0>", "f([a])", "[]", "[]{a}", "[a]{b}", "[<9>]{b}", "[<foo>]{<[a]>}"],
    "R2": [
        *("[<0>]", "[a,<1>]", "[a,<2>,b]", "[a,b,f(c,<2>)]", "[a,<2147483647>]", "[a,<-1>]", "[a,<-2147483648>]"),
        *("[a,<foo>]", '[a,<"0">]', "[a,<f(0)>]", "[a,<0>{b}]", "[a,<0{b}>]", "[a,<<0>>]"),
        *("[a,<[]>]", "[a,<[b,c]>]", "[a,<[b]{c}>]", "[a,<[<1>]>]", "[a,b{<foo>}]", "[a,<[b]>{<7>}]", "[f(<0>),b]"),
    ],
}


class Tree:
    """A term: its kind, its number or its name as it is printed, what is in it, and its annotations."""

    def __init__(self, kind, head="", items=(), notes=()):
        self.kind, self.head, self.items, self.notes = kind, head, items, notes
        self.text = self.spelled([it.text for it in items], [it.text for it in notes])

    def spelled(self, items, notes):
        """The text with these texts in it."""
        inside = ",".join(items)
        body = {
            "integer": f"{self.head}",
            "application": f"{self.head}({inside})" if items or not self.head else self.head,
            "list": f"[{inside}]",
            "placeholder": f"<{inside}>",
        }[self.kind]
        return f"{body}{{{','.join(notes)}}}" if notes else body

    def parts(self):
        """The terms one step inside."""
        return [*self.items, *self.notes]


class Wrong(Exception):
    """A term is no table, by the rule that is named."""


class Large(Exception):
    """A value is too long for a test."""


class Case(NamedTuple):
    """What a command gets, and the lines and the status that it should have."""

    text: str
    lines: list
    status: int


# ---- tables


def different(tree, found):
    """The different terms in a tree by their texts, each after those in it."""
    for it in tree.parts():
        different(it, found)
    found.setdefault(tree.text, tree)
    return found


def table(tree):
    """The text of the table of a tree."""
    found = different(tree, {})
    uses = Counter(part.text for it in found.values() for part in it.parts())
    shared = [text for text in found if uses[text] > 1 and len(text) > SHORT]
    numbers = {text: number for number, text in enumerate(shared)}

    def element(it):
        items, notes = ([written(part) for part in of] for of in (it.items, it.notes))
        return it.spelled([f"[{items[0]}]"] if it.kind == "placeholder" else items, notes)

    def written(it):
        return f"<{numbers[it.text]}>" if it.text in numbers else element(it)

    return f"[{','.join([*(element(found[text]) for text in shared), written(tree)])}]"


def opened(tree, terms):
    """The tree of an element after elements with these terms."""
    if tree.kind != "placeholder":
        items, notes = ([opened(it, terms) for it in of] for of in (tree.items, tree.notes))
        return Tree(tree.kind, tree.head, items, notes)
    (inner,) = tree.items
    if inner.kind == "integer" and not inner.notes and not tree.notes and 0 <= inner.head < len(terms):
        return terms[inner.head]
    if inner.kind == "list" and len(inner.items) == 1 and not inner.notes:
        return Tree("placeholder", "", [opened(inner.items[0], terms)], [opened(it, terms) for it in tree.notes])
    raise Wrong("R2")


def term_of(tree):
    """The tree of a table."""
    if tree.kind != "list" or tree.notes or not tree.items:
        raise Wrong("R1")
    terms = []
    for it in tree.items:
        terms.append(opened(it, terms))
    return terms[-1]


def cells(tree):
    """The number of cells of a tree: one for each part, list of arguments, list of annotations, and tail of a list."""
    found = set()

    def add(it):
        if it.text in found:
            return
        found.add(it.text)
        if it.kind == "list" and it.items:
            add(it.items[0])
            add(Tree("list", "", it.items[1:]))
        elif it.kind == "application":
            add(Tree("list", "", it.items))
        elif it.kind == "placeholder":
            add(it.items[0])
        if it.notes:
            add(Tree("list", "", it.notes))

    add(tree)
    return len(found)


# ---- random terms and tables


def term(chance, known, depth):
    """A random tree, in which trees that were made before are used again."""
    if known and chance.random() < 0.35:
        return chance.choice(known)
    small = ["integer", "application", "application", "application", "list"]
    kind = chance.choice([*small, "list", "placeholder", "placeholder"] if depth else small)
    count = {"integer": 0, "placeholder": 1}.get(kind, chance.randrange(1, 4) if depth else 0)
    items = [term(chance, known, depth - 1) for _ in range(count)]
    noted = chance.randrange(3) if depth and chance.random() < 0.2 else 0
    notes = [term(chance, known, depth - 1) for _ in range(noted)]
    head = {"integer": chance.choice(INTEGERS), "application": chance.choice(NAMES)}.get(kind, "")
    known.append(Tree(kind, head, items, notes))
    return known[-1]


def number_of(chance, count):
    """A placeholder of a number, mostly of one of `count` elements."""
    others = [count, count + 1, *INTEGERS]
    number = chance.randrange(count) if count and chance.random() < 0.985 else chance.choice(others)
    return Tree("placeholder", "", [Tree("integer", number)])


def element(chance, count, depth):
    """A random element after `count` elements, which is now and then wrong."""
    if chance.random() < ((0.3 if depth else 0.6) if count else 0.02):
        return number_of(chance, count)
    if not depth:
        return term(chance, [], 0)
    kind = chance.choice(["application", "list", "placeholder"])
    items = [element(chance, count, depth - 1) for _ in range(chance.randrange(1, 4))]
    notes = [element(chance, count, depth - 1)] if chance.random() < 0.2 else []
    if kind == "placeholder":
        listed = Tree("list", "", items[:1])
        spoilt = [Tree("list", "", items + items), items[0], Tree("list", "", items[:1], items[:1])]
        items = [chance.choice(spoilt) if chance.random() < 0.03 else listed]
    return Tree(kind, chance.choice(NAMES) if kind == "application" else "", items, notes)


def table_tree(chance):
    """A random table, of which some are wrong."""
    elements = []
    for _ in range(chance.randrange(1, 8)):
        elements.append(element(chance, len(elements), chance.randrange(4)))
    spoilt = [Tree("list"), Tree("list", "", elements, elements[:1]), elements[0]]
    return chance.choice(spoilt) if chance.random() < 0.05 else Tree("list", "", elements)


def case(words, tree):
    """What the command with these words should write for a tree."""
    try:
        tree, text = term_of(tree) if "--from-table" in words else tree, tree.text
    except Wrong as fault:
        return Case(tree.text, [f"!term {fault}"], 1)
    lines = [table(tree) if "--to-table" in words else tree.text]
    return Case(text, [*lines, f"cells {cells(tree)}"] if words[0] == "share" else lines, 0)


def cases(chance, words):
    """Random cases of a command, without those whose terms are too long for a test."""
    while True:
        found = case(words, table_tree(chance) if "--from-table" in words else term(chance, [], chance.randrange(6)))
        if max(map(len, found.lines)) < 5000:
            yield found


def run_files(folder, words, texts):
    """The output of a command over a file with each of these texts, with the status after each."""
    for number, text in enumerate(texts):
        write_file(f"{folder}/{number}", text)
    script = 'for it in $(seq 0 $(($1 - 1))); do "$2" $3 "$4/$it"; echo "status $?"; done'
    words = ["sh", "-c", script, "sh", str(len(texts)), program(), " ".join(words), folder]
    return subprocess.run(words, capture_output=True, encoding="latin-1", check=False).stdout


def compare_files(chance, words, count):
    """Compares a command over random files, and the numbers of those that are rejected."""
    wanted = [it for it, _ in zip(cases(chance, words), range(count))]
    with room() as folder:
        found = iter(run_files(folder, words, [it.text for it in wanted]).splitlines())
    for it in wanted:
        lines = []
        for line in found:
            lines.append(line)
            if line.startswith("status "):
                break
        check(f"{' '.join(words)}: {it.text}", [*it.lines, f"status {it.status}"], lines)
    return Counter(it.lines[0] for it in wanted if it.status)


# ---- values


def value(chance, known, depth):
    """A random term of constructors."""
    if known and chance.random() < 0.3:
        return chance.choice(known)
    name = chance.choice([it for it in CONSTRUCTORS if depth or not CONSTRUCTORS[it]])
    known.append(Tree("application", name, [value(chance, known, depth - 1) for _ in range(CONSTRUCTORS[name])]))
    return known[-1]


def compare_values(chance, folder):
    """Compares the tables of values, each with annotations or none."""
    signatures = "\n".join(f"{name} : {'T ' * count}-> T" for name, count in CONSTRUCTORS.items())
    spec = write_file(f"{folder}/values.rec", f"REC-SPEC V SORTS T CONS\n{signatures}\nEND-SPEC\n")
    for run in range(RUNS):
        given = []
        for _ in range(TERMS):
            known = []
            tree = value(chance, known, chance.randrange(6))
            notes = [term(chance, known, 3)] if chance.random() < 0.3 else []
            given.append(Tree(tree.kind, tree.head, tree.items, notes))
        given = [it for it in given if len(it.text) < 5000]
        terms = write_file(f"{folder}/values.trm", f"[{','.join(it.text for it in given)}]")
        status, found, errors = recw("eval", "--to-table", spec, terms)
        check(f"values {run}: status", (0, ""), (status, errors))
        for it, line in zip(given, found.splitlines()):
            check(f"value {it.text}", table(it), line)
        check(f"values {run}: lines", len(given), found.count("\n"))
        tables = write_file(f"{folder}/values.tab", table(Tree("list", "", given)))
        check(f"values {run}: of a table", (0, found, ""), recw("eval", "--terms-table", "--to-table", spec, tables))


def compare_given(chance, folder):
    """Compares input terms in tables, some of them wrong, with the text of the list that the table gives."""
    spec = write_file(f"{folder}/double.rec", DOUBLE)
    texts, lists = [], []
    while len(texts) < GIVEN:
        tree = table_tree(chance) if chance.random() < 0.5 else table_of_values(chance)
        try:
            given = term_of(tree).text
        except Wrong as fault:
            given = str(fault)
        if len(given) < 5000:
            texts.append(tree.text)
            lists.append(given)
    with room() as tables, room() as plain:
        found = outcomes(tables, ("eval", "--terms-table", spec), texts)
        wanted = outcomes(plain, ("eval", spec), lists)
    for text, given, one, other in zip(texts, lists, found, wanted, strict=True):
        check(f"terms {text}", (f"!terms {given}\n", "1") if given in ("R1", "R2") else other, one)


def outcomes(folder, words, texts):
    """The lines and the status of a command for each of these texts."""
    return re.findall(r"((?:.*\n)*?)status (\d)\n", run_files(folder, words, texts))


def table_of_values(chance):
    """A table of a list of calls and values of the specification above."""
    elements = [Tree("application", "leaf")]
    for _ in range(chance.randrange(4)):
        elements.append(Tree("application", "node", [number_of(chance, len(elements)) for _ in range(2)]))
    calls = [Tree("application", "twice", [number_of(chance, len(elements))]) for _ in range(chance.randrange(3))]
    return Tree("list", "", [*elements, Tree("list", "", [number_of(chance, len(elements)), *calls])])


# ---- sessions


def subterms(tree):
    """The term and all terms in it that are not in annotations."""
    return [tree, *(part for it in tree.items for part in subterms(it))]


def broken_rule(tree):
    """The lowest-numbered rule that a request breaks, by docs/reference/rec.md; None if it breaks none."""
    parts = subterms(tree)
    if any(it.kind != "application" for it in parts):
        return "T2"
    if any(it.notes for it in parts[1:]):
        return "T3"
    if any(it.head not in SYMBOLS for it in parts):
        return "T4"
    if any(len(it.items) != len(SYMBOLS[it.head][1]) for it in parts):
        return "T5"
    wanted = [(one.head, sort) for it in parts for one, sort in zip(it.items, SYMBOLS[it.head][1])]
    return "T6" if any(SYMBOLS[name][0] != sort for name, sort in wanted) else None


def twice(tree):
    """The value of a call of `twice`."""
    if len(tree.text) > LARGE:
        raise Large
    return Tree("application", "node", [tree, tree])


def value_of(tree):
    """The value of a term by the specification above, and the steps to it."""
    found = [value_of(it) for it in tree.items]
    items, steps = [it for it, _ in found], sum(spent for _, spent in found)
    if tree.head == "twice":
        return twice(items[0]), steps + 1
    if tree.head != "d":
        return Tree("application", tree.head, items), steps
    tree, number = Tree("application", "leaf"), items[0]
    while number.head == "s":
        tree, number, steps = twice(tree), number.items[0], steps + 2
    return tree, steps + 1


def response(tree, steps, as_table):
    """The response to a table within so many steps."""
    try:
        tree = term_of(tree)
    except Wrong as fault:
        return f"!term {fault}"
    if rule := broken_rule(tree):
        return f"!term {rule}"
    found, spent = value_of(tree)
    if spent > steps:
        return f"!limit {steps}"
    found = Tree(found.kind, found.head, found.items, tree.notes)
    return f"{table(found) if as_table else found.text}\t{spent}"


def call(chance, sorts, sort, depth):
    """A random element of this sort after elements of these sorts, which is now and then of another one."""
    sort = chance.choice("NT") if chance.random() < 0.02 else sort
    known = [number for number, it in enumerate(sorts) if it == sort]
    if known and chance.random() < 0.4:
        return Tree("placeholder", "", [Tree("integer", chance.choice(known))])
    name = chance.choice([name for name, (of, wanted) in SYMBOLS.items() if of == sort and (depth or not wanted)])
    wanted = SYMBOLS[name][1]
    if chance.random() < 0.01:
        wanted = chance.choice([wanted + "N", wanted[1:]])
    return Tree("application", name, [call(chance, sorts, it, depth - 1) for it in wanted])


def table_of_calls(chance):
    """A table of a call of the specification above, of which some are wrong."""
    sorts, elements = [], []
    for _ in range(chance.randrange(1, 6)):
        sort, count = chance.choice("NTT"), len(sorts)
        it = call(chance, sorts, sort, chance.randrange(4))
        if chance.random() < 0.3 and it.kind == "application":
            it = Tree(it.kind, it.head, it.items, [element(chance, count, 1)])
        elements.append(element(chance, count, 2) if chance.random() < 0.06 else it)
        sorts.append(sort)
    return Tree("list", "", elements)


def request(chance, steps, as_table):
    """A random request, and the response to it."""
    while True:
        tree = table_tree(chance) if chance.random() < 0.2 else table_of_calls(chance)
        try:
            line = response(tree, steps, as_table)
        except Large:
            continue
        if chance.random() < 0.05 and tree.kind == "list" and not tree.notes:
            # The brackets around the list are left open.
            return tree.text[: chance.randrange(len(tree.text))], "!term A"
        if max(len(tree.text), len(line)) < LARGE:
            return tree.text, line


def compare_sessions(chance, folder):
    """Compares sessions whose requests are tables, and counts the kinds of responses."""
    spec = write_file(f"{folder}/double.rec", DOUBLE)
    kinds = Counter()
    for number in range(SESSIONS):
        steps, as_table = chance.choice((0, 1, 4, 10, 1000)), chance.random() < 0.4
        asked = [request(chance, steps, as_table) for _ in range(REQUESTS)]
        words = ["serve", "--from-table", "--count", "--steps", str(steps), *(["--to-table"] if as_table else [])]
        text = "".join(f"{it}\n" for it, _ in asked)
        status, found, errors = recw(*words, spec, input=text)
        check(f"session {number}", (0, "", len(asked)), (status, errors, found.count("\n")))
        for (it, line), one in zip(asked, found.splitlines()):
            check(f"request {it}, {steps} steps", line, one)
            kinds[line.split()[-1] if line.startswith("!term") else "limit" if line.startswith("!") else "value"] += 1
    return kinds


# ---- hard cases


def doubling(first, height):
    """The text of a table whose elements have the element before them twice."""
    return f"[{','.join([first, *(f'node(<{it}>,<{it}>)' for it in range(height))])}]"


def compare_large(folder):
    """Compares terms of 2^60 and 2^1000 leaves, and a term with a million references."""
    spec = write_file(f"{folder}/double.rec", DOUBLE)
    for height in (60, 1000):
        file = write_file(f"{folder}/doubling", doubling("leaf", height))
        wanted = doubling("node(leaf,leaf)", height - 1)
        check(f"2^{height} leaves", (0, f"{wanted}\n", ""), recw("aterm", "--from-table", "--to-table", file))
        shared = (0, f"{wanted}\ncells {3 * height + 2}\n", "")
        check(f"2^{height} leaves: cells", shared, recw("share", "--from-table", "--to-table", file))
        check(f"2^{height} leaves: text", (0, f"!bytes {LONGEST}\n", ""), recw("aterm", "--from-table", file))
        call = f"d({'s(' * height}z{')' * height})"
        check(f"2^{height} leaves: value", (0, f"{wanted}\n", ""), recw("eval", "--to-table", "-e", call, spec))
        given = write_file(f"{folder}/given", f"{doubling('leaf', height)[:-1]},[<{height}>,twice(<{height}>)]]")
        twice = doubling("node(leaf,leaf)", height)
        found = recw("eval", "--terms-table", "--to-table", spec, given)
        check(f"2^{height} leaves: input terms", (0, f"{wanted}\n{twice}\n", ""), found)
        text = f"{doubling('leaf', height)}\n{doubling('leaf', height)[:-1]},twice(<{height}>)]\nz"
        found = recw("serve", "--from-table", "--to-table", spec, input=text)
        check(f"2^{height} leaves: requests", (0, f"{wanted}\n{twice}\n!term R1\n", ""), found)
    many = f"[pair(a,b),f({','.join(['<0>'] * 1_000_000)})]"
    file = write_file(f"{folder}/many", many)
    check_long("a million references", (0, f"{many}\n", ""), recw("aterm", "--from-table", "--to-table", file))
    text = many[len("[pair(a,b),") : -1].replace("<0>", "pair(a,b)")
    check_long("a million references: text", (0, f"{text}\n", ""), recw("aterm", "--from-table", file))


def compare_refused(folder):
    """Compares texts that are rejected, and a text that is too long."""
    spec = write_file(f"{folder}/double.rec", DOUBLE)
    for code, texts in REFUSED.items():
        for words in COUNTS:
            if "--from-table" in words:
                found = run_files(folder, words, texts)
                check(f"{' '.join(words)}: {code}", f"!term {code}\nstatus 1\n" * len(texts), found)
        found = run_files(folder, ("eval", "--terms-table", spec), texts)
        check(f"eval --terms-table: {code}", f"!terms {code}\nstatus 1\n" * len(texts), found)
        found = recw("serve", "--from-table", spec, input="".join(f"{it}\n" for it in texts))
        check(f"serve --from-table: {code}", (0, f"!term {code}\n" * len(texts), ""), found)
    long = write_file(f"{folder}/long", f"[{' ' * LONGEST}a]")
    check("a long text", (1, "!term L1\n", ""), recw("aterm", "--from-table", long))
    check("a long request", (0, "!term L1\n", ""), recw("serve", "--from-table", spec, long))


def main():
    chance, begin = random.Random(1), time.monotonic()
    rejected = Counter()
    for words, count in COUNTS.items():
        rejected += compare_files(chance, words, count)
    with tempfile.TemporaryDirectory() as folder:
        compare_values(chance, folder)
        compare_given(chance, folder)
        responses = compare_sessions(chance, folder)
        compare_large(folder)
        compare_refused(folder)
    kinds = f"{dict(rejected)}, {dict(responses)}"
    print(f"tables.py: {passed()} of {len(TRIED)} as wanted, {kinds}, {time.monotonic() - begin:.0f} s")
    raise SystemExit(1 if FAILURES else 0)


if __name__ == "__main__":
    main()
