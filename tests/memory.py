"""Each request for memory is refused in turn: of whole runs of the program, and of single calls of its crates.

Of calls over an arena each block has to go back, too.
"""

import concurrent.futures
import os
import re
from functools import partial

from attempts import EXAMPLES, NO_MEMORY, check, recw, room, write_file
from common import TOP, program, rows, text_of
from refuse import REQUESTS, answer, blocks

# How many requests one process refuses before it asks for more.
SHARE = 16
# The program that makes one call of a crate.
CALLER = f"{TOP}/crates/test_alloc_failure/out/test_alloc_failure"
# Other runs: the words, and the output that docs/reference gives.
OTHERS = (
    (["aterm", "term"], "f ( a , [ 1 , -007 ] ) { b }", "f(a,[1,-7]){b}\n"),
    (["aterm", "--indent", "2", "term"], "f(a,\"b\"){[]}", 'f(\n  a,\n  "b"\n){\n  []\n}\n'),
    (["aterm", "--indent", "2", "--width", "8", "term"], "f(a,[1,2])", "f(\n  a,\n  [1,2]\n)\n"),
    (["share", "term"], "f(a,a)", "f(a,a)\ncells 5\n"),
    (["share", "term"], "[1,[1]]", "[1,[1]]\ncells 5\n"),
    (["share", "term"], "[a]{b}", "[a]{b}\ncells 5\n"),
    (
        ["share", "--dot", "--nodes", "3", "term"],
        '<1>{"x"}',
        'digraph term {\n  node [shape=box, fontname="monospace"];\n  n0 [label="<>"];\n  n0 -> n1 [label="inner"];\n'
        '  n0 -> n2 [label="annotations"];\n  n1 [label="1"];\n  n2 [label="."];\n'
        '  rest [label="2 more", style=dashed];\n}\n',
    ),
    (
        ["trace", "--count", "term"],
        text_of("examples/rows/cond.rec"),
        "7:3: f(z) -> s(z)\t3\ns(z)\t3\n",
    ),
    (
        ["trace", "--whole", "--width", "9", "--first", "1", "--last", "1", "term"],
        text_of("examples/add.rec"),
        "0:0: plus(s...\n12:3: s(plus...\n... 1 more\n11:3: s(s(s(...\ns(s(s(z)))\n",
    ),
    (
        ["trace", "--symbol", "plus", "--last", "1", "--term", "2", "-e", "plus(s(z),z)", "term"],
        text_of("examples/add.rec"),
        "... 1 more\n11:3: plus(z,z) -> z\ns(z)\n",
    ),
    (["eval", "--only-terms", "-e", "plus(z,z){n}", "-e", "z", "term"], text_of("examples/add.rec"), "z{n}\nz\n"),
    (["eval", "--term", "2", "-e", "plus(z,z){n}", "-e", "z", "term"], text_of("examples/add.rec"), "z{n}\n"),
    (["eval", "--bytes", "10", "term"], text_of("examples/add.rec"), "s(s(s(z)))\n"),
    (["eval", "--bytes", "9", "term"], text_of("examples/add.rec"), "!bytes 9\n"),
    (["match", "f(<int>,<list>)", "term"], "f(1,2,3)", "yes\n1\n[2,3]\n"),
    (["match", "f(<int>,<list>)", "term"], "f(1)", "yes\n1\n[]\n"),
    (["match", "f(<int>,<list>)", "term"], "f(a)", "no\n"),
    (["make", "f(<int>,<list>)", "[1,[2,3]]"], "", "f(1,2,3)\n"),
)
# One that tells of calls, with its output, and what it tells.
CALLS = (
    "stuck: term 1: f(z): the conditions of 2:1 fail\n"
    "stuck: term 2: f(s(z)): no rule matches\nstuck: term 2: f(f(s(z))): no rule matches\n"
)
STUCK = (
    ["eval", "--stuck", "-e", "f(f(s(z))){n}", "term"],
    "REC-SPEC C SORTS N CONS z : -> N s : N -> N OPNS f : N -> N RULES\nf(z) -> z if z -><- s(z) EVAL s(f(z)) END-SPEC",
    "s(f(z))\nf(f(s(z))){n}\n",
)
# One that tells what it took, with its output, and what it tells where nothing is refused, or behind a refusal; before
# anything is evaluated that is nothing.
PROFILED = ["eval", "--profile", "--memo", "0", "rows/cond.rec"], "s(z)\n"
PROFILE = re.compile(
    r"(profile: [678]:3: [01] matched, [01] applied, [01] failed\t[^\t\n]+\n){3}"
    r"profile: steps: [0-3] spent, [0-3] matched, 0 saved by 0 memo hits\n"
    r"profile: cells: \d+ made, \d+ in use at most\nprofile: garbage collections: 0\n"
)
NO_PROFILE = "profile: out of memory\n"
# What a bank has behind a call, where the protected term and its 14 parts alone are left: crates/test_alloc_failure/src/banks.rt
# counts them.
ROOTS = ["65534 protections left", "f(g(a),[1,<7>]){b}", "14 cells kept"]
# What is due of each call: the lines after a refusal alone, and those at the end.
BANKS = {
    "int": (["the same cells"], ["77", *ROOTS]),
    "nil": (["the same cells"], ["[]", "65534 protections left", "<7>", "2 cells kept"]),
    "cons": (["the same cells"], ["[1]", *ROOTS]),
    "appl": (["the same cells"], ["g(b)", *ROOTS]),
    "hole": (["the same cells"], ["<1>", *ROOTS]),
    "annotated": (["the same cells"], ["1{b}", *ROOTS]),
    "symbol": (["the same cells"], ["the same symbol", *ROOTS]),
    "reserve": (["the same cells"], ["room for them", *ROOTS]),
}
OTHER_CALLS = {
    "shared new": ([], ["0 cells"]),
    "shared thousand": ([], ["1100 cells"]),
    "store intern": (["without the name"], ["the known symbol", "the new symbol"]),
    "store arena": ([], ["0 cells"]),
    "store take": (["the same cells"], ["one cell more"]),
    "store reserve": ([], ["the same cells", "room for them"]),
    "store rehash": (["the same chains"], ["the same cells", "64 chains"]),
    "text read": ([], ["[kept]", "f(g(a),[1,<7>]){b}", "0 cells kept"]),
    "text write": ([], ["a beginning", "f(g(a),[1,<7>]){b}"]),
    "text pattern": ([], ["matched", "1", "[2,3]"]),
    "text matches": ([], ["without bindings after a fault", "f(1,[2,3]{x})", "matched", "1", "[2,3]"]),
    "text make": ([], ["[2,3]", "f(1,[2,3]{x})"]),
    "specification read": ([], ["the text", "4 rules", "2 terms"]),
    "specification check": ([], ["4 symbols", "the text", "4 rules", "2 terms"]),
    "specification terms": ([], ["accepted"]),
    "specification links": ([], ["the same cells", "4 symbols", *ROOTS]),
    "specification build": ([], ["4 left sides"]),
    "specification next": ([], ["without values after a fault", "the second rule", "2 values"]),
    "engine memo": ([], ["remembered"]),
    "engine new": ([], ["2 terms"]),
    "engine eval_term": ([], ["[kept]", "twice(s(s(z)))"]),
    "engine normalise": ([], ["[kept]", "s(s(s(s(z))))", "4 steps"]),
}
# Calls that may answer in full though a request is refused: a shared bank's chains may stay longer, the check of a
# specification collects letters, which goes on without the room that it asks for ahead, and where there is no room for
# the terms of new results a reclaim is handed the others alone.
SPARING = ("shared", "specification check", "engine normalise")
# Calls that ask for no memory, so that none of their requests can be refused.
FREE = {
    "plain new": ["0 cells"],
    "plain readers": ["5 levels", "filled", *ROOTS],
    "shared readers": ["5 levels", "filled", *ROOTS],
    "plain reclaim": ["65534 protections left", "0 protections left", *ROOTS[1:]],
    "shared reclaim": ["65534 protections left", "0 protections left", *ROOTS[1:]],
    "store collect": ["1 cells"],
}
# Calls over an arena, which ends with them. That of `store reserve` has three blocks of cells.
ARENAS = ("shared", "store")


def refused(programs, **how):
    """What each program answers where nothing is refused, and then where each request is refused in turn.

    As many programs run side by side as there are processors for this process.
    """
    with concurrent.futures.ProcessPoolExecutor(len(os.sched_getaffinity(0))) as pool:
        ample = [pool.submit(answer, words, EXAMPLES, **how) for words in programs]
        wanting = []
        for words, run in zip(programs, ample):
            counts = run.result()["counts"].items()
            requests = [(name, number) for name, count in counts for number in range(1, count + 1)]
            wanting.append(pool.map(partial(answer, words, EXAMPLES, **how), requests, chunksize=SHARE))
        for run, others in zip(ample, wanting):
            yield [run.result(), *others]


def count_refused(what, answers):
    """How many requests were refused, of which each has its answer."""
    count = sum(answers[0]["counts"].values()) if answers else 0
    check(f"{what}: answers", 1 + count, len(answers))
    return count


def whole_runs(at):
    """The words of each run, its output, and its status with what it tells."""
    known = recw("eval", "--help")[1]
    for files, options, output in rows():
        if all(word in known for word in re.findall(r"--\w+", options)):
            yield ["eval", *options.split(), *files.split()], output, (0, "")
    for number, (words, text, output) in enumerate((*OTHERS, STUCK)):
        term = write_file(f"{at}/{number}", text)
        end = (5, CALLS) if words == STUCK[0] else (0, "")
        yield [term if it == "term" else it for it in words], output, end


def try_whole_run(words, output, end, answers):
    line = " ".join(words)
    check(f"{line}: wants memory", True, any((it["status"], it["err"]) == NO_MEMORY for it in answers))
    for it in answers:
        found = (it["status"], it["err"])
        kept = found == NO_MEMORY and output.startswith(it["out"])
        what = f"{line}: {it['refused']}: {found} {it['out']!r}"
        check(what, True, kept or (*found, it["out"]) == (*end, output))
    return count_refused(line, answers)


def try_profile():
    """A run that tells what it took does so where a request is refused behind its beginning too: how many were."""
    words, output = PROFILED
    line = " ".join(words)
    (answers,) = refused([[program(), *words]])
    for it in answers:
        status, fault = NO_MEMORY if it["status"] else (0, "")
        told = it["err"].removesuffix(fault)
        kept = it["status"] == status and f"{told}{fault}" == it["err"] and output.startswith(it["out"])
        kept &= bool(PROFILE.fullmatch(told)) or told == NO_PROFILE or status != 0 and not told
        kept &= status != 0 or it["out"] == output
        check(f"{line}: {it['refused']}: {it['status']} {it['err']!r} {it['out']!r}", True, kept)
    for wanted in (NO_PROFILE, NO_MEMORY[1]):
        check(f"{line}: tells {wanted}", True, any(wanted in it["err"] for it in answers))
    check(f"{line}: tells all", True, bool(PROFILE.fullmatch(answers[0]["err"])))
    return count_refused(line, answers)


def try_memory():
    """How many requests were refused."""
    count = try_profile()
    with room() as at:
        runs = list(whole_runs(at))
        for (words, *due), answers in zip(runs, refused([[program(), *words] for words, *_ in runs])):
            count += try_whole_run(words, *due, answers)
    return count


def calls():
    """Each row of the caller, the lines that are due after a refusal alone, and those that are due at the end."""
    for kind in ("plain", "shared"):
        for call, due in BANKS.items():
            yield f"{kind} {call}", due
    yield from OTHER_CALLS.items()


def lines(*items):
    return "".join(f"{it}\n" for it in items)


def is_due(row, text, refusal, ending):
    """Whether a row told that memory was wanting, or answered in full where it may."""
    if text == lines("ready", "done") + ending:
        return row.startswith(SPARING)
    return text == lines("ready", "memory", *refusal) + ending


def refused_calls(due):
    """Each row with what is due of it, and the answers where each request of the call alone is refused."""
    return zip(due, refused([[CALLER, *row.split()] for row, _ in due], alone=True))


def try_call(row, refusal, ending, answers):
    first, *others = answers
    check(f"{row}: nothing is refused", (0, lines("ready", "done") + ending), (first["status"], first["out"]))
    check(f"{row}: wants memory", True, any(it["out"].startswith(lines("ready", "memory")) for it in others))
    for it in others:
        due = it["status"] == 0 and is_due(row, it["out"], refusal, ending)
        check(f"{row}: {it['refused']}: {it['out']!r}", True, due)
    return count_refused(row, answers)


def try_blocks(row):
    """Each block that a call in full asks for goes back."""
    it = blocks([CALLER, *row.split()], EXAMPLES)
    count = it["counts"]["asked"]
    wanted = {"status": 0, "err": "", "counts": {"asked": count, "given back": count}}
    check(f"{row}: asks for blocks", True, count > 0)
    check(f"{row}: each block goes back", wanted, {name: it[name] for name in wanted})


def try_crates():
    """How many requests were refused."""
    if not os.path.exists(CALLER):
        print(f"not tried: crates: {CALLER} is not there; rt run in crates/test_alloc_failure builds it")
        return 0
    count = 0
    for (row, (refusal, ending)), answers in refused_calls(list(calls())):
        count += try_call(row, refusal, lines(*ending), answers)
    for (row, ending), answers in refused_calls(list(FREE.items())):
        free = {"refused": None, "counts": dict.fromkeys(REQUESTS, 0), "status": 0, "err": ""}
        check(f"{row}: asks for no memory", [{**free, "out": lines("ready", "done", *ending)}], answers)
    for row in [*dict(calls()), *FREE]:
        if row.startswith(ARENAS):
            try_blocks(row)
    return count
