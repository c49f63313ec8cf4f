"""Conversations: what is asked is cut off, too long or refused memory, and streams fail."""

import os
import signal
import subprocess
import time

from attempts import CLOSED, EXAMPLES, NO_MEMORY, NO_READ, NO_WRITE, at_stack, check, check_long, recw, room, write_file
from common import program
from refuse import answer, is_allowed

# KiB of memory in which a million calls can wait.
DEEP = 300_000
# The most bytes of a request.
LONGEST = 16_777_216
# Twenty requests for examples/q.rec within one step, and their answers with the steps, by docs/reference/cli.md.
TWENTY = (
    ("f(a)", "a\t1"),
    ("b", "b\t0"),
    ("f(f(a))", "!limit 1"),
    (" f ( a ) ", "a\t1"),
    ("f(a){b,[3]}", "a{b,[3]}\t1"),
    ("", "!term A"),
    ("f(a", "!term A"),
    ("f(a) b", "!term A"),
    ("\0", "!term A"),
    ("3", "!term T2"),
    ("[a]", "!term T2"),
    ("f(<a>)", "!term T2"),
    ("f(a{b})", "!term T3"),
    ("c", "!term T4"),
    ('"a"', "!term T4"),
    ("f(a,a)", "!term T5"),
    ("f", "!term T5"),
    ("f(b)", "!term T6"),
    ('a{"long name with blanks"}', 'a{"long name with blanks"}\t0'),
    ("f(a)", "a\t1"),
)
INPUT = "".join(f"{request}\n" for request, _ in TWENTY)
OUTPUT = "".join(f"{due}\n" for _, due in TWENTY)
WORDS = ("serve", "--steps", "1", "--count", "q.rec")
# More requests of the same kinds.
MORE = (("% a", "!term A"), ("<a>", "!term T2"), ("f([])", "!term T2"), ("X", "!term T4"))
# A value with twice as many leaves for each s, in two steps.
DOUBLING = (
    "REC-SPEC Double SORTS Nat Tree CONS z : -> Nat s : Nat -> Nat leaf : -> Tree node : Tree Tree -> Tree "
    "OPNS d : Nat -> Tree dup : Tree -> Tree VARS X : Nat T : Tree "
    "RULES d(z) -> leaf d(s(X)) -> dup(d(X)) dup(T) -> node(T,T) EVAL END-SPEC"
)
# Each beginning of a request, and its answer.
CUT = (("p", "!term T4"), ("plus", "!term T5"), ("plus(", "!term A"), ("plus(z,z)", "z"))


def try_cuts():
    """A conversation whose input ends at each byte."""
    request = "plus(s(z),z)"
    whole = {"plus": "!term T5", request: "s(z)", **{request[:end]: "!term T4" for end in (1, 2, 3)}}
    for end in range(len(request) + 1):
        due = f"{whole.get(request[:end], '!term A')}\n" if end else ""
        found = recw("serve", "add.rec", input=f"z\n{request[:end]}")
        check(f"a conversation cut behind {end} bytes", (0, f"z\n{due}", ""), found)
    for text, due in CUT:
        check(f"{text!r} and a line end", (0, f"{due}\n", ""), recw("serve", "add.rec", input=f"{text}\n"))


def try_ends():
    """What the requests of an input are."""
    for text, due in (("", ""), ("\n", "!term A\n"), ("z", "z\n"), ("z\n\nz", "z\n!term A\nz\n"), ("z\r\n", "z\n")):
        check(f"requests {text!r}", (0, due, ""), recw("serve", "add.rec", input=text))
    check("twenty requests", (0, OUTPUT, ""), recw(*WORDS, input=INPUT))
    for request, due in MORE:
        check(f"the request {request!r}", (0, f"{due}\n", ""), recw(*WORDS, input=request))
    for options in (("--memo", "0"), ("--reclaim", "1"), ("--memo", "1", "--reclaim", "1")):
        check(f"twenty requests, {options}", (0, OUTPUT, ""), recw(*WORDS, *options, input=INPUT))
    refused = recw("serve", "/dev/null", input=INPUT)
    check("a refused specification", (1, "!spec G\n", "recw: spec G at byte 0\n"), refused)


def try_explained():
    """What is told of requests that are refused."""
    told = recw(*WORDS, "--explain", input=INPUT)
    lines = [it for it in told[2].splitlines() if it.startswith("<stdin>:")]
    refused = [number + 1 for number, (_, due) in enumerate(TWENTY) if due.startswith("!term")]
    check("explained requests", refused, [int(it.split(":")[1]) for it in lines])
    check("the output beside it", (0, OUTPUT), told[:2])
    check("the first one told", True, lines[0].startswith("<stdin>:6:1: A: "))
    check("a count of arguments", True, "<stdin>:16:1: T5: " in told[2] and "; f takes 1 argument, found 2" in told[2])


def try_cells():
    """Each number of cells: a request has its answer, or tells that it lacked cells."""
    met = set()
    for cells in range(1, 65):
        status, lines, told = recw(*WORDS, "--cells", str(cells), input=INPUT)
        check(f"{cells} cells: end", (0, ""), (status, told))
        found = lines.splitlines()
        check(f"{cells} cells: answers", len(TWENTY), len(found))
        for (request, due), line in zip(TWENTY, found):
            met.add(line == "!cells")
            check(f"{cells} cells: {request!r}", True, line in (due, "!cells"))
    check("cells: some are wanting, some are not", {True, False}, met)


def try_long():
    """Requests of the most bytes, of one more and of many more, between others."""
    blanks = " " * (LONGEST - 1)
    for before, due in ((blanks, "z"), (blanks + " ", "!term L1"), (blanks * 3, "!term L1")):
        text = f"z\n{before}z\nplus(z,z)\n"
        check_long(f"a request of {len(before) + 1} bytes", (0, f"z\n{due}\nz\n", ""), recw("serve", "add.rec", input=text))
    nuls = "\0" * (LONGEST + 1)
    check_long("NUL bytes", (0, "!term L1\nz\n", ""), recw("serve", "add.rec", input=f"{nuls}\nz"))


def try_slow():
    """Bytes that come one by one, and a client that waits for each answer."""
    with subprocess.Popen([program(), *WORDS], cwd=EXAMPLES, stdin=subprocess.PIPE, stdout=subprocess.PIPE) as child:
        for request, due in TWENTY:
            for byte in f"{request}\n".encode("latin-1"):
                os.write(child.stdin.fileno(), bytes([byte]))
                time.sleep(0.0005)
            check(f"waiting for {request!r}", due, child.stdout.readline().decode("latin-1").rstrip("\n"))
        child.stdin.close()
        check("the end behind them", (b"", 0), (child.stdout.read(), child.wait(timeout=10)))


def try_closed():
    """Who reads goes away, and a signal ends a conversation that waits."""
    ends = os.pipe()
    os.close(ends[0])
    how = {"stdin": subprocess.PIPE, "stdout": ends[1], "stderr": subprocess.PIPE, "cwd": EXAMPLES}
    with subprocess.Popen([program(), *WORDS], **how) as child:
        os.close(ends[1])
        told = child.communicate(INPUT.encode("latin-1"), timeout=10)[1].decode("latin-1")
    check("nobody reads", CLOSED, (child.returncode, told))
    for number in (signal.SIGINT, signal.SIGTERM, signal.SIGHUP):
        how = {"stdin": subprocess.PIPE, "stdout": subprocess.PIPE, "stderr": subprocess.PIPE, "cwd": EXAMPLES}
        with subprocess.Popen([program(), "serve", "add.rec"], **how) as child:
            child.stdin.write(b"z\n")
            child.stdin.flush()
            first = child.stdout.readline()
            child.send_signal(number)
            rest, told = child.communicate(timeout=10)
        check(f"{number.name} while it waits", (-number, b"z\n", b"", b""), (child.returncode, first, rest, told))


def try_folders(at):
    check("requests from a folder", (4, "", NO_READ[1]), recw("serve", "add.rec", at))
    check("requests from no file", (4, "", NO_READ[1]), recw("serve", "add.rec", f"{at}/none"))
    file = write_file(f"{at}/requests", INPUT)
    check("requests from a file", (0, OUTPUT, ""), recw(*WORDS, file))
    with open("/dev/full", "wb") as full:
        how = {"stdout": full, "stderr": subprocess.PIPE, "capture_output": False}
        status, _, told = recw(*WORDS, file, **how)
    check("a full device", NO_WRITE, (status, told))


def is_kept(lines):
    """Whether each line is what is due, but for one at most that tells of want of memory."""
    due = OUTPUT.splitlines()
    wanting = sum(line == "!memory" and line != wanted for line, wanted in zip(lines, due))
    return len(lines) == len(due) and wanting <= 1 and all(it in (wanted, "!memory") for it, wanted in zip(lines, due))


def try_refused(at):
    """Each request for memory is refused in turn: one answer at most tells of it, or the run did not begin."""
    words = [program(), *WORDS, write_file(f"{at}/requests", INPUT)]
    counts = answer(words, EXAMPLES)["counts"]
    met = 0
    for name, count in counts.items():
        for number in range(1, count + 1):
            it = answer(words, EXAMPLES, (name, number))
            found = (it["status"], it["err"])
            kept = found == (0, "") and is_kept(it["out"].splitlines())
            met += "!memory" in it["out"]
            check(f"a conversation: {name} {number} refused: {found} {it['out']!r}", True, kept or (*found, it["out"]) == (*NO_MEMORY, ""))
    check("a conversation: some requests met want of memory", True, met > 20)
    return sum(counts.values())


def try_deep():
    """Requests for which more calls would wait than may, between others."""
    # the term waits for its call, and so does each right side with a call
    requests = "".join(f"plus({'s(' * count}z{')' * count},z)\n" for count in (2, 3, 4, 3, 0))
    words = ["serve", "--memo", "0", "add.rec"]
    for depth in range(7):
        due = "".join(f"{'s(' * it}z{')' * it}\n" if it + 1 <= depth else "!depth\n" for it in (2, 3, 4, 3, 0))
        check(f"requests where {depth} calls may wait", (0, due, ""), recw(*words, "--depth", str(depth), input=requests))
    found = recw("serve", "--steps", str(10**18), "rows/loop.rec", input="z\nf(z)\nz(\nf(z)\nz\n", before=at_stack(8192, DEEP))
    check(f"calls without end, {DEEP} KiB of memory", (0, "z\n!depth\n!term A\n!depth\nz\n", ""), found)


def memory_of(child, kind="VmRSS"):
    """How many KiB of memory a process has, or has had at most (VmHWM)."""
    with open(f"/proc/{child.pid}/status", encoding="ascii") as file:
        return next(int(it.split()[1]) for it in file if it.startswith(f"{kind}:"))


def within(line, most):
    """The line of a result where a result has at most so many bytes."""
    value = line.split("\t")[0]
    return line if value.startswith("!") or len(value) <= most else f"!bytes {most}"


def doubled(count):
    """The request for a value of 2^count leaves."""
    return f"d({'s(' * count}z{')' * count})\n".encode("ascii")


def try_bytes(at):
    """Results that are longer than they may be, between others: of few bytes, and of 2^60 leaves in a few cells."""
    given = write_file(f"{at}/given", "[f(a){b,[3]},f(f(a)){b},b]")
    for most in range(24):
        bound = ("--bytes", str(most))
        due = "".join(f"{within(it, most)}\n" for _, it in TWENTY)
        check(f"twenty requests, {most} bytes", (0, due, ""), recw(*WORDS, *bound, input=INPUT))
        lines = [within(it, most) for it in ("a\t1", "a{b,[3]}\t1", "!limit 1", "b\t0")]
        found = recw("eval", "--count", "--steps", "1", *bound, "q.rec", given)
        check(f"given terms, {most} bytes", (0, "".join(f"{it}\n" for it in lines), ""), found)
        notes = ("", "{b,[3]}" if lines[1].startswith("!") else "", "{b}", "")
        due = "".join(f"{line}{more}\n" for line, more in zip(lines, notes))
        found = recw("eval", "--count", "--steps", "1", *bound, "--limit-annotations", "q.rec", given)
        check(f"given terms, {most} bytes, annotations", (0, due, ""), found)
    spec = write_file(f"{at}/doubling", DOUBLING)
    found = recw("eval", "--limit-status", "--bytes", "36", "-e", "d(s(s(z)))", "-e", "d(s(z))", spec)
    check("a doubled value of 37 bytes", (5, "!bytes 36\nnode(leaf,leaf)\n", ""), found)
    with subprocess.Popen([program(), "serve", spec], stdin=subprocess.PIPE, stdout=subprocess.PIPE) as child:
        began = time.monotonic()
        peaks = []
        for batch in (1, 20):
            for _ in range(batch):
                child.stdin.write(doubled(60) + doubled(1))
                child.stdin.flush()
                found = [child.stdout.readline() for _ in range(2)]
                check("2^60 leaves, and two", [b"!bytes 16777216\n", b"node(leaf,leaf)\n"], found)
            peaks.append(memory_of(child, "VmHWM"))
            print(f"2^60 leaves {batch} times: {time.monotonic() - began:.2f} s, {peaks[-1]} KiB")
        child.stdin.close()
        child.wait(timeout=10)
    check(f"memory for one request of 2^60 leaves, and for more, in KiB: {peaks}", True, peaks[1] <= min(1.05 * peaks[0], 97_000))
    with subprocess.Popen([program(), "serve", "--bytes", "9999", spec], stdin=subprocess.PIPE, stdout=subprocess.PIPE) as child:
        out = child.communicate(doubled(60) * 1000, timeout=60)[0]
    check_long("2^60 leaves, 1,000 times", b"!bytes 9999\n" * 1000, out)


# Requests that differ by a number: of strangers' names, over the limit, refused, with annotations, out of cells.
KINDS = ("n{0}(z)", "plus(s(s(z)),z)", "z(((", "z{{n{0},{0}}}", "plus(s(z),s(z)){{[{0}]}}", "[{0}]", '"q{0}"')


def try_days():
    """Memory stays as it is over many different requests."""
    # a number of a thousand, which is more cells than there are
    large = "s(" * 3000 + "z" + ")" * 3000
    words = [program(), "serve", "--steps", "2", "--cells", "4096", "add.rec"]
    with subprocess.Popen(words, cwd=EXAMPLES, stdin=subprocess.PIPE, stdout=subprocess.PIPE) as child:
        sizes = []
        for batch in range(21):
            lines = [KINDS[it % len(KINDS)].format(batch * 10_000 + it) for it in range(10_000)]
            lines[::1000] = [large] * 10
            child.stdin.write("".join(f"{it}\n" for it in lines[:5000]).encode("latin-1"))
            child.stdin.flush()
            for _ in range(5000):
                child.stdout.readline()
            sizes.append(memory_of(child))
        child.stdin.close()
        child.wait(timeout=10)
    # the allocator's free blocks settle in the first third
    first, last = max(sizes[:7]), max(sizes[14:])
    check(f"memory in the first and the last third of 105,000 requests, in KiB: {first} and {last}", True, last <= 1.05 * first)


def try_conversations():
    """How many requests for memory were refused."""
    for group in (try_ends, try_cuts, try_explained, try_cells, try_long, try_slow, try_closed, try_deep, try_days):
        group()
    with room() as at:
        try_folders(at)
        try_bytes(at)
        if not is_allowed():
            print("not tried: conversations without memory: no program can be traced here")
            return 0
        return try_refused(at)
