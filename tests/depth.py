"""Texts of great depth and of the greatest length, on small stacks: what is due is worked out here."""

from attempts import NO_MEMORY, at_stack, check, check_long, recw, room, write_file
from common import text_of

# Kilobytes of stack; what is promised needs no more than the second.
STACKS = (8192, 256)
LONGEST = 16777216
LEVELS = 2000000
# One word of a command line has at most 131072 bytes, and a small stack takes fewer.
WORD_LEVELS = 30000
# Kilobytes of all memory, the program's own text among them.
LITTLE = 32768
# The same for a million calls that wait.
SOME = 131072
TOO_DEEP = "recw: too deep\n"
SORTS = "REC-SPEC D SORTS N CONS z : -> N s : N -> N"


def tower(levels, inner="z"):
    return "s(" * levels + inner + ")" * levels


def check_run(what, wanted, *words, **how):
    """The run's status, its output, and nothing on standard error."""
    check_long(what, (*wanted, ""), recw(*words, **how))


def brackets(stack, at):
    deep = "[" * LEVELS + "]" * LEVELS
    file = write_file(f"{at}/deep", deep)
    before = at_stack(stack)
    what = f"{LEVELS} brackets, {stack} KiB of stack"
    check_run(f"aterm: {what}", (0, f"{deep}\n"), "aterm", file, before=before)
    check_run(f"share: {what}", (0, f"{deep}\ncells {LEVELS}\n"), "share", file, before=before)
    laid = "[\n" * (LEVELS - 1) + "[]" + "\n]" * (LEVELS - 1)
    check_run(f"aterm --indent 0: {what}", (0, f"{laid}\n"), "aterm", "--indent", "0", file, before=before)
    check_run(f"match: {what}", (0, f"yes\n{deep}\n"), "match", "<term>", file, before=before)
    word = "[" * WORD_LEVELS + "]" * WORD_LEVELS
    what = f"{WORD_LEVELS} brackets in a word, {stack} KiB of stack"
    check_run(f"make: {what}", (0, f"[{word}]\n"), "make", "[<term>]", f"[{word}]", before=before)
    check_run(f"make: {what}, as a pattern", (0, f"{word}\n"), "make", word, "[]", before=before)
    check_run(f"match: {what}", (0, "no\n"), "match", word, file, before=before)


def unended(stack, at):
    """Deep texts that break off: the place is the end."""
    for mark in "[(<":
        file = write_file(f"{at}/unended", mark * LEVELS)
        wanted = (1, "!term A\n", f"recw: term A at byte {LEVELS}\n")
        found = recw("aterm", file, before=at_stack(stack))
        check_long(f"{LEVELS} times {mark}, {stack} KiB of stack", wanted, found)


def sums(stack, at):
    spec = text_of("examples/add.rec")
    high = tower(100000)
    terms = write_file(f"{at}/terms", f"[plus({high},z)]")
    for steps, line in ((100001, high), (100000, "!limit 100000")):
        words = ("eval", "--steps", str(steps), write_file(f"{at}/spec", spec), terms)
        what = f"the sum of 100000 and 0 in {steps} steps, {stack} KiB of stack"
        check_run(what, (0, f"s(s(s(z)))\n{line}\n"), *words, before=at_stack(stack))


def left_sides(stack, at):
    rule = f"f({tower(100000, 'X')}) -> X"
    spec = f"{SORTS} OPNS f : N -> N VARS X : N RULES {rule} EVAL f({tower(100000)}) END-SPEC"
    file = write_file(f"{at}/spec", spec)
    for steps, line in ((1, "z"), (0, "!limit 0")):
        what = f"a left side of 100000 levels in {steps} steps, {stack} KiB of stack"
        check_run(what, (0, f"{line}\n"), "eval", "--steps", str(steps), file, before=at_stack(stack))


def comparisons(stack, at):
    """A copy takes a step for each level and one more, and then the rule with the condition takes one."""
    rules = "d(z) -> z d(s(X)) -> s(d(X)) e(X,Y) -> z if X -><- Y"
    high = tower(1000000)
    terms = f"e(d({high}),{high})"
    spec = f"{SORTS} OPNS d : N -> N e : N N -> N VARS X Y : N RULES {rules} EVAL {terms} END-SPEC"
    file = write_file(f"{at}/spec", spec)
    for steps, line in ((1000002, "z"), (1000001, "!limit 1000001")):
        what = f"values of 1000000 levels, compared in {steps} steps, {stack} KiB of stack"
        check_run(what, (0, f"{line}\n"), "eval", "--steps", str(steps), file, before=at_stack(stack))


def longest_terms():
    """Each text of the greatest length with the text that is printed: a wide list, a deep term, and one name."""
    wide = "[" + "0," * 8388606 + "0]"
    deep = "f(" * 5592404 + "a" + ")" * 5592404
    name = '"' + "a" * (LONGEST - 2) + '"'
    for text in (wide, deep, name):
        yield text.ljust(LONGEST), text


def lengths(stack, at):
    before = at_stack(stack)
    for number, (text, printed) in enumerate(longest_terms()):
        what = f"a term of {LONGEST} bytes, number {number}, {stack} KiB of stack"
        check_run(what, (0, f"{printed}\n"), "aterm", write_file(f"{at}/term", text), before=before)
    longer = write_file(f"{at}/term", text + " ")
    for words in (["aterm"], ["match", "<term>"], ["share"]):
        check_run(f"{words[0]} of one byte more", (1, "!term L1\n"), *words, longer, before=before)


def long_specifications(stack, at):
    before = at_stack(stack)
    head, end = f"{SORTS} EVAL", " END-SPEC"
    count = (LONGEST - len(head) - len(end)) // 2
    text = (head + " z" * count + end).ljust(LONGEST)
    file = write_file(f"{at}/spec", text)
    what = f"a specification of {LONGEST} bytes, {stack} KiB of stack"
    check_run(what, (0, "z\n" * count), "eval", file, before=before)
    write_file(f"{at}/longer", text + "%")
    check_run("a specification of one byte more", (1, "!spec L1\n"), "eval", f"{at}/longer", before=before)
    short = write_file(f"{at}/short", f"{SORTS} EVAL z END-SPEC")
    terms = write_file(f"{at}/terms", ("[" + "z," * 8388606 + "z]").ljust(LONGEST))
    what = f"given terms of {LONGEST} bytes, {stack} KiB of stack"
    check_run(what, (0, "z\n" * 8388608), "eval", short, terms, before=before)
    write_file(f"{at}/terms", " " * (LONGEST + 1))
    check_run("given terms of one byte more", (1, "!terms L1\n"), "eval", short, terms, before=before)


def steps_without_end(stack, at):
    """A hundred million steps on terms of a few cells, in little memory."""
    rules = "f(z) -> f(s(z)) f(s(X)) -> f(X)"
    spec = f"{SORTS} OPNS f : N -> N VARS X : N RULES {rules} EVAL f(z) END-SPEC"
    file = write_file(f"{at}/spec", spec)
    what = f"10^8 steps, {stack} KiB of stack, {LITTLE} KiB of memory"
    words = ["eval", "--steps", "100000000", file]
    check_run(what, (0, "!limit 100000000\n"), *words, before=at_stack(stack, LITTLE))


def graphs(stack, at):
    """The list in a list is the second part, the empty one the third."""
    file = write_file(f"{at}/deep", "[" * LEVELS + "]" * LEVELS)
    lines = ["digraph term {", '  node [shape=box, fontname="monospace"];']
    for part in (0, 1, 3, 4, 5):
        lines.append(f'  n{part} [label="."];')
        lines += [f'  n{part} -> n{part + 1 + (part == 1)} [label="head"];'] if part < 5 else []
        lines += [f'  n{part} -> n2 [label="tail"];', *(['  n2 [label="[]"];'] if part == 1 else [])]
    lines += [f'  rest [label="{LEVELS - 6} more", style=dashed];', "}"]
    due = "".join(f"{it}\n" for it in lines)
    words = ["share", "--dot", "--nodes", "6", file]
    check_run(f"share --dot: {LEVELS} brackets, {stack} KiB of stack", (0, due), *words, before=at_stack(stack))


def default_budget(stack, _):
    what = f"a condition that asks for itself, {stack} KiB of stack"
    check_run(what, (0, "!limit 1000000\n"), "eval", "rows/loop.rec", before=at_stack(stack))


def calls_that_wait(stack, at):
    """As many calls as are needed may wait, or one fewer; a bound on them is one on memory."""
    rules = "f(z) -> z f(s(X)) -> s(f(X))"
    spec = write_file(f"{at}/spec", f"{SORTS} OPNS f : N -> N VARS X : N RULES {rules} EVAL z END-SPEC")
    for depth in (0, 1, 2, 17, 1000):
        # the term waits for its call, of any symbol, and so does each right side with a call
        value = tower(depth)
        words = ["eval", "--memo", "0", "-e", f"f({value})", spec, "--depth"]
        for calls, due in ((depth + 1, (0, f"z\n{value}\n", "")), (depth, (3, "z\n" if depth else "", TOO_DEEP))):
            found = recw(*words, str(calls), before=at_stack(stack))
            check_long(f"{depth + 1} calls, of which {calls} may wait, {stack} KiB of stack", due, found)
    words = ["eval", "--steps", str(10**18), "rows/loop.rec"]
    for depth in (0, 1, 1000, 1000000):
        found = recw(*words, "--depth", str(depth), before=at_stack(stack, SOME))
        check(f"calls without end, of which {depth} may wait, {SOME} KiB of memory", (3, "", TOO_DEEP), found)
    found = recw(*words, before=at_stack(stack, SOME))
    check(f"calls without end, {SOME} KiB of memory", (NO_MEMORY[0], "", NO_MEMORY[1]), found)


GROUPS = (
    brackets,
    unended,
    sums,
    left_sides,
    comparisons,
    lengths,
    long_specifications,
    steps_without_end,
    graphs,
    default_budget,
    calls_that_wait,
)


def try_depth():
    for stack in STACKS:
        for group in GROUPS:
            with room() as at:
                group(stack, at)
