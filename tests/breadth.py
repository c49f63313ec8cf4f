"""Texts of great breadth, at which no call may say that it wants memory; and each error of a read and of a write."""

import errno
import os
from concurrent.futures import ProcessPoolExecutor
from functools import partial

from attempts import CLOSED, NO_READ, NO_WRITE, check, check_long, recw, room, run, write_file
from common import program
from memory import CALLER
from refuse import failing

# Elements, arguments, annotations, symbols, given terms, and bytes of a name.
MANY = 100000
# Placeholders, bindings, terms to evaluate, sorts, symbols, rules and conditions.
SOME = 1000
# Elements within a word of a command line, which has at most 131072 bytes.
IN_A_WORD = 60000
NAME = "n" * MANY
QUOTED = '"' + "\\n" * MANY + '"'
SORTS = "REC-SPEC B SORTS N CONS z : -> N s : N -> N"


def listed(items):
    return ",".join(map(str, items))


def lines(items):
    return "".join(f"{it}\n" for it in items)


def numbered(letter):
    return [f"{letter}{it}" for it in range(SOME)]


def is_whole(what, due, *words, **how):
    """The run's output is this, in full, and nothing is wrong."""
    check_long(f"{what}: {words[0]}", (0, due, ""), recw(*words, **how))


def try_texts():
    """Reading and writing, and the cells of what is read: of n different items a list has 2 n + 1."""
    items, symbols = listed(range(MANY)), listed(f"a{it}" for it in range(MANY))
    texts = {
        "elements": (f"[{items}]", 2 * MANY + 1),
        "arguments": (f"f({items})", 2 * MANY + 2),
        "annotations": (f"[]{{{items}}}", 2 * MANY + 2),
        "symbols": (f"[{symbols}]", 2 * MANY + 1),
        "a long name": (NAME, 2),
        "a long name in quotes": (QUOTED, 2),
    }
    for what, (text, cells) in texts.items():
        is_whole(what, f"{text}\n", "aterm", input=text)
        is_whole(what, f"{text}\ncells {cells}\n", "share", input=text)
        found = recw("share", "--dot", "--nodes", str(2 * cells), input=text)
        nodes, edges = found[1].count("];\n  n"), found[1].count(" -> ")
        check(f"{what}: the graph", (0, True, ""), (found[0], nodes - edges == cells, found[2]))
    levels = "a{" * MANY + "a" + "}" * MANY
    is_whole("levels of annotations", f"{levels}\n", "aterm", input=levels)
    is_whole("levels of annotations", f"{levels}\ncells {2 * MANY + 2}\n", "share", input=levels)
    laid = "[\n " + items.replace(",", ",\n ") + "\n]\n"
    is_whole("elements on lines", laid, "aterm", "--indent", "1", input=f"[{items}]")


def try_patterns():
    items, blanks = listed(range(SOME)), listed(["<int>"] * SOME)
    each = lines(["yes", *range(SOME)])
    is_whole("placeholders", each, "match", f"f({blanks})", input=f"f({items})")
    is_whole("placeholders in a list", each, "match", f"[{blanks}]", input=f"[{items}]")
    is_whole("placeholders", f"f({items})\n", "make", f"f({blanks})", f"[{items}]")
    rest = f"[{listed(range(MANY))}]"
    is_whole("a rest", f"yes\n{rest}\n", "match", "[<list>]", input=rest)
    is_whole("a long name", "yes\n", "match", NAME, input=NAME)
    is_whole("a long name", f"{NAME}\n", "make", NAME, "[]")
    zeros = f"[{listed([0] * IN_A_WORD)}]"
    is_whole("a pattern of many elements", "yes\n", "match", zeros, input=zeros)
    is_whole("a pattern of many elements", f"{zeros}\n", "make", zeros, "[]")
    is_whole("an argument of many elements", f"{zeros}\n", "make", "<term>", f"[{zeros}]")


def specification(rest):
    return f"{SORTS} {rest} END-SPEC"


def try_specifications():
    """What each specification is due, with the values of 1,000 terms, and of one that has 1,000 of each thing."""
    terms = " ".join(["s(z)"] * SOME)
    names, sorts = numbered("c"), " ".join(numbered("S"))
    declared = " ".join(f"{name} : -> N" for name in names)
    operators = " ".join(f"f{it} : N -> N" for it in range(SOME))
    rules = " ".join(f"f{it}(X) -> {name}" for it, name in enumerate(names))
    calls = " ".join(f"f{it}(z)" for it in range(SOME))
    variables, ends = numbered("X"), " ".join(["N"] * SOME)
    bound = f"g({listed(variables)}) -> h({listed(reversed(variables))})"
    wide = f"CONS h : {ends} -> N OPNS g : {ends} -> N VARS {' '.join(variables)} : N RULES {bound}"
    conditions = " and-if ".join(["X -><- X"] * SOME)
    specs = {
        "terms": (specification(f"EVAL {terms}"), lines(["s(z)"] * SOME)),
        "a long word": (f"REC-SPEC {NAME} SORTS N CONS {NAME} : -> N EVAL {NAME} END-SPEC", f"{NAME}\n"),
        "rules": (
            f"REC-SPEC B SORTS N {sorts} CONS z : -> N {declared} OPNS {operators} VARS X : N "
            f"RULES {rules} EVAL {calls} END-SPEC",
            lines(names),
        ),
        "bindings": (
            f"REC-SPEC B SORTS N {wide.replace('CONS', f'CONS {declared}')} EVAL g({listed(names)}) END-SPEC",
            f"h({listed(reversed(names))})\n",
        ),
        "conditions": (
            specification(f"OPNS f : N -> N VARS X : N RULES f(X) -> z if {conditions} EVAL f(s(z))"),
            "z\n",
        ),
        "arguments": (
            f"REC-SPEC B SORTS N CONS z : -> N a : {' '.join(['N'] * MANY)} -> N OPNS i : N -> N VARS X : N "
            f"RULES i(X) -> X EVAL i(a({listed(['z'] * MANY)})) END-SPEC",
            f"a({listed(['z'] * MANY)})\n",
        ),
    }
    for what, (text, due) in specs.items():
        is_whole(what, due, "eval", input=text)


def try_given(at):
    """Terms that differ, so that each has cells of its own, and results of as many calls."""
    spec = write_file(f"{at}/spec", specification("p : N N -> N OPNS d : N -> N VARS X : N RULES d(X) -> p(X,X)"))
    bits = [f"{it:017b}" for it in range(MANY // 10)]
    trees = []
    for word in bits:
        tree = "z"
        for bit in word:
            tree = f"s({tree})" if bit == "0" else f"p({tree},z)"
        trees.append(tree)
    given = write_file(f"{at}/terms", f"[{listed(f'd({tree})' for tree in trees)}]")
    due = lines(f"p({tree},{tree})" for tree in trees)
    is_whole("given terms", due, "eval", "--memo", "1048576", spec, given)
    many = write_file(f"{at}/many", f"[{listed(['d(z)'] * MANY)}]")
    is_whole("a list of given terms", lines(["p(z,z)"] * MANY), "eval", spec, many)


def try_callers():
    """Both banks by themselves, which search and grow in other ways."""
    if not os.path.exists(CALLER):
        print(f"not tried: breadth of banks: {CALLER} is not there; rt run in crates/test_alloc_failure builds it")
        return
    due = (0, "ready\ndone\n20000 cells\nroom for them\n", "")
    for kind in ("plain", "shared"):
        check(f"{kind}: twenty thousand cells", due, run(CALLER, kind, "broad"))


def try_breadth():
    try_texts()
    try_patterns()
    try_specifications()
    with room() as at:
        try_given(at)
    try_callers()


def try_errors():
    """Each number of an error, at the first read of a file and at the first write.

    The program's buffer may try an interrupted write again, and a closed pipe has no message. How many calls failed.
    """
    numbers = sorted(errno.errorcode)
    with room() as at, ProcessPoolExecutor(len(os.sched_getaffinity(0))) as pool:
        words = [program(), "aterm", write_file(f"{at}/term", "f(a)")]
        for call, told in (("read", NO_READ), ("write", NO_WRITE)):
            runs = pool.map(partial(failing, words, at, call), numbers, chunksize=16)
            for number, it in zip(numbers, runs):
                again = (call, number) == ("write", errno.EINTR) and (it["status"], it["out"]) == (0, "f(a)\n")
                wanted = CLOSED if (call, number) == ("write", errno.EPIPE) else told
                met = it["counts"] is not None and (it["status"], it["err"], it["out"]) == (*wanted, "")
                check(f"{call}: {errno.errorcode[number]}: {it}", True, met or again)
    return 2 * len(numbers)
