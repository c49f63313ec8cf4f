"""Files, pipes and signals that go wrong: each read and each write fails in turn, and what a system has besides."""

import errno
import os
import pty
import shutil
import signal
import subprocess
import time
import tty

from attempts import CLOSED, CLOSED_EXPLAINED, EXAMPLES, NO_READ, NO_WRITE, check, recw, room, write_file
from checks import lines_of
from common import program, text_of
from conversations import INPUT, OUTPUT
from memory import CALLS, PROFILED, STUCK
from refuse import failing

# More than the program keeps before it writes.
LONG = f"[{','.join(['1'] * 100000)}]"
REFUSED = "REC-SPEC E SORTS : END-SPEC"
# What a trace of add.rec ends with, one of add.trm, and the graph of a name.
FIRED = "11:3: plus(z,s(z)) -> s(z)\n"
TRACED = f"... 2 more\n{FIRED}s(s(s(z)))\n"
GRAPH = (
    'digraph term {\n  node [shape=box, fontname="monospace"];\n  n0 [label="a"];\n  n0 -> n1 [label="args"];\n'
    '  n1 [label="[]"];\n}\n'
)
DONE = (0, "")
# What is tried with each read and each write refused: the words, the text of each file that they name, the output, and
# the end of a run in which nothing is refused.
RUNS = (
    ("eval --steps 3 in", {"in": "examples/add.rec"}, "s(s(s(z)))\n", DONE),
    ("eval --steps 3 in terms", {"in": "examples/add.rec", "terms": "examples/add.trm"}, "s(s(s(z)))\ns(z)\n", DONE),
    ("aterm in", {"in": "f ( a , [ 1 , -007 ] ) { b }"}, "f(a,[1,-7]){b}\n", DONE),
    ("aterm --indent 1 in", {"in": "f(a)"}, "f(\n a\n)\n", DONE),
    ("share in", {"in": "[a]{b}"}, "[a]{b}\ncells 5\n", DONE),
    ("share --dot in", {"in": "a"}, GRAPH, DONE),
    (
        "trace --last 1 in terms",
        {"in": "examples/add.rec", "terms": "examples/add.trm"},
        f"{TRACED}{FIRED}s(z)\n",
        DONE,
    ),
    ("trace in", {"in": REFUSED}, "!spec G\n", (1, "recw: spec G at byte 17\n")),
    ("match f(<int>,<list>) in", {"in": "f(1,2,3)"}, "yes\n1\n[2,3]\n", DONE),
    ("aterm in", {"in": LONG}, f"{LONG}\n", DONE),
    ("eval in", {"in": REFUSED}, "!spec G\n", (1, "recw: spec G at byte 17\n")),
    ("serve --steps 1 --count in requests", {"in": "examples/q.rec", "requests": INPUT}, OUTPUT, DONE),
)
# The calls, what is answered in place of what was asked for, and what is told then.
REFUSALS = (
    ("read", "error=EIO", NO_READ),
    ("read", "error=EINTR", NO_READ),
    ("write", "error=EIO", NO_WRITE),
    ("write", "error=ENOSPC", NO_WRITE),
    ("write", "error=EINTR", NO_WRITE),
    ("write", "retval=0", NO_WRITE),
)


def traced(at, path, how, number, words):
    """A run in which the call's request of a number for a file is met in another way."""
    before = ["strace", "-qq", "-o", f"{at}/trace", "-P", path, "-e", f"inject={how}:when={number}"]
    with open(f"{at}/out", "w", encoding="latin-1") as out:
        how = {"cwd": at, "capture_output": False, "stdout": out, "stderr": subprocess.PIPE}
        status, _, told = recw(*words, before=before, **how)
    with open(f"{at}/out", encoding="latin-1") as out, open(f"{at}/trace", encoding="latin-1") as trace:
        return "(INJECTED)" in trace.read(), out.read(), (status, told)


def refuse_in_turn(at, words, path, refusal, output, end):
    """Each request of the call for the file is refused: of a read nothing is written, of a write a beginning; what was
    answered before a read of requests is.

    How many requests were refused.
    """
    call, how, told = refusal
    for number in range(1, 1000):
        met, written, ended = traced(at, path, f"{call}:{how}", number, words)
        if not met:
            break
        what = f"{' '.join(words)}: {call} {number} of {os.path.basename(path)}: {how}"
        kept = "" if call == "read" and not path.endswith("/requests") else output[: len(written)]
        # the program's buffer may try an interrupted write again
        again = (call, how) == ("write", "error=EINTR") and (written, ended) == (output, end)
        check(what, True, (ended == told and written == kept) or again)
    check(f"{' '.join(words)}: calls of {call} of {os.path.basename(path)}", True, number > 1)
    return number - 1


def try_files():
    """How many reads and writes were refused."""
    count = 0
    for line, files, output, end in RUNS:
        words = line.split()
        for call, how, told in REFUSALS:
            for name in files if call == "read" else ["out"]:
                with room() as at:
                    for file, text in files.items():
                        write_file(f"{at}/{file}", text_of(text) if text.startswith("examples/") else text)
                    count += refuse_in_turn(at, words, f"{at}/{name}", (call, how, told), output, end)
    return count


# What is tried with each read and each write failing in turn, where a program can be traced: the words, the output, what
# is told, and the status.
STREAMS = (
    (["eval", "--steps", "3", "add.rec", "add.trm"], "s(s(s(z)))\ns(z)\n", "", 0),
    (["eval", "in"], "!spec G\n", "recw: spec G at byte 17\n", 1),
    ([*STUCK[0][:-1], "stuck"], STUCK[2], CALLS, 5),
    (PROFILED[0], PROFILED[1], None, 0),
    (["trace", "--last", "1", "add.rec", "add.trm"], f"{TRACED}{FIRED}s(z)\n", "", 0),
    (["serve", "--steps", "1", "--count", "q.rec", "requests"], OUTPUT, "", 0),
    (["check", "check/unused.rec", "check/broken.rec"], lines_of("check/unused.rec") + lines_of("check/broken.rec"), "", 1),
    (["check", "check/uncovered.rec"], lines_of("check/uncovered.rec"), "", 0),
    (["aterm", "--indent", "1", "term"], "f(\n a\n)\n", "", 0),
    (["share", "term"], "f(a)\ncells 4\n", "", 0),
    (["share", "--dot", "name"], GRAPH, "", 0),
    (["match", "f(<term>)", "term"], "yes\na\n", "", 0),
)
# The text of each file that they name and that examples/ does not have.
NAMED = {"in": REFUSED, "stuck": STUCK[1], "requests": INPUT, "term": "f(a)", "name": "a"}
# the number of standard error
ERR = 2


def is_met(call, it, output, told, status):
    """Whether a run is as it has to be where one call failed: a beginning of the output, and which error it was."""
    # no message can be written about standard error itself
    if it["counts"] == ERR:
        return it["status"] in (status, NO_WRITE[0]) and output.startswith(it["out"])
    wanted, message = NO_READ if call == "read" else NO_WRITE
    # reports stand before the error
    before = it["err"].removesuffix(message)
    is_told = it["err"].endswith(message) and (told is None or told.startswith(before))
    return it["status"] == wanted and is_told and output.startswith(it["out"])


def try_streams():
    """Each read and each write fails in its turn: which error is told, and what was written before.

    How many calls failed.
    """
    count = 0
    with room() as at:
        for name, text in NAMED.items():
            write_file(f"{at}/{name}", text)
        for words, output, told, status in STREAMS:
            placed = [program(), *(f"{at}/{it}" if it in NAMED else it for it in words)]
            what = " ".join(words)
            for call in ("read", "write"):
                for which in range(1, 1000):
                    it = failing(placed, EXAMPLES, call, errno.EIO, which)
                    if it["counts"] is None:
                        same_told = told is None or it["err"].replace(f"{at}/", "") == told
                        check(f"{what}: no {call} fails: {it}", True, (it["status"], it["out"]) == (status, output) and same_told)
                        break
                    count += 1
                    check(f"{what}: {call} {which} fails: {it}", True, is_met(call, it, output, told, status))
                check(f"{what}: calls of {call}", True, which > 1)
    return count


# Each file that the program may be given, as words in which it stands for X, with what is read before it.
PLACES = (
    "eval X",
    "eval add.rec X",
    "trace X",
    "trace add.rec X",
    "aterm X",
    "share X",
    "share --dot X",
    "match <term> X",
)
ENDLESS = ("!spec L1\n", "!terms L1\n", "!spec L1\n", "!terms L1\n", *["!term L1\n"] * 4)


def with_file(words, path):
    return [path if it == "X" else it for it in words.split()]


def as_nobody():
    """The words before a program that is to run without rights, where this one has all of them."""
    if os.geteuid() != 0:
        return ()
    return ("setpriv", "--reuid=65534", "--regid=65534", "--clear-groups")


def try_places(at):
    closed = write_file(f"{at}/closed", "z")
    os.chmod(closed, 0)
    open_to_all = shutil.copy(program(), f"{at}/recw")
    os.chmod(at, 0o755)
    os.chmod(open_to_all, 0o755)
    for words, line in zip(PLACES, ENDLESS):
        check(f"{words}: a folder", (4, "", NO_READ[1]), recw(*with_file(words, at)))
        check(f"{words}: no file", (4, "", NO_READ[1]), recw(*with_file(words, f"{at}/none")))
        check(f"{words}: an endless file", (1, line, ""), recw(*with_file(words, "/dev/zero")))
        how = {"cwd": at, "capture_output": True, "encoding": "latin-1", "check": False}
        shutil.copy(f"{EXAMPLES}/add.rec", at)
        ran = subprocess.run([*as_nobody(), open_to_all, *with_file(words, closed)], **how)
        check(f"{words}: a file that may not be read", (4, "", NO_READ[1]), (ran.returncode, ran.stdout, ran.stderr))


def try_input(at):
    closed = {"before": ("sh", "-c", '"$@" <&-', "sh")}
    specs, terms = ("eval", "trace -"), ("aterm", "share", "share --dot", "match a")
    for words, text in (*((it, "spec") for it in specs), *((it, "term") for it in terms)):
        with open("/dev/zero", "rb") as endless:
            check(f"{words}: an endless input", (1, f"!{text} L1\n", ""), recw(*words.split(), stdin=endless))
        folder = os.open(at, os.O_RDONLY)
        check(f"{words}: a folder as input", (4, "", NO_READ[1]), recw(*words.split(), stdin=folder))
        os.close(folder)
        check(f"{words}: a closed input", (4, "", NO_READ[1]), recw(*words.split(), **closed))


# The words, the text on standard input, and what is due.
LINES = (
    ("eval --steps 3", text_of("examples/add.rec"), "s(s(s(z)))\n"),
    ("eval", REFUSED, "!spec G\n"),
    ("aterm", "f(a)", "f(a)\n"),
    ("aterm", LONG, f"{LONG}\n"),
    ("aterm --indent 1", "f(a)", "f(\n a\n)\n"),
    ("share", "f(a,a)", "f(a,a)\ncells 5\n"),
    ("share --dot", "a", GRAPH),
    ("trace --last 1 -", text_of("examples/add.rec"), TRACED),
    ("match f(<int>,<list>)", "f(1,2,3)", "yes\n1\n[2,3]\n"),
    ("make f(<int>) [1]", "", "f(1)\n"),
    ("make a b", "", "!args T1\n"),
    ("--help", "", None),
    ("help refusals", "", None),
    ("--version", "", None),
)


def try_full(at):
    """No byte can be written: status 4, also where the text would be refused, and no place is told."""
    for words, text, _ in LINES:
        spec = write_file(f"{at}/text", text)
        with open(spec, "rb") as given, open("/dev/full", "wb") as full:
            how = {"stdin": given, "stdout": full, "stderr": subprocess.PIPE, "capture_output": False}
            status, _, told = recw(*words.split(), **how)
        check(f"{words}: a full device", NO_WRITE, (status, told))
        with open(spec, "rb") as given:
            status, _, told = recw(*words.split(), stdin=given, before=("sh", "-c", '"$@" >&-', "sh"))
        check(f"{words}: a closed output", NO_WRITE, (status, told))


def try_pipe(at):
    """Who reads the output goes away, before the first byte or after it; the signal of that does not end the run."""
    for words, text, output in LINES:
        explained = [(0, ("--explain",), CLOSED_EXPLAINED)] if output else []
        for taken, more, due in ((0, (), CLOSED), (1, (), CLOSED), *explained):
            with open(write_file(f"{at}/text", text), "rb") as given:
                ends = os.pipe()
                how = {"stdin": given, "stdout": ends[1], "stderr": subprocess.PIPE, "cwd": EXAMPLES}
                if not taken:
                    os.close(ends[0])
                with subprocess.Popen([program(), *words.split(), *more], **how) as child:
                    os.close(ends[1])
                    if taken:
                        os.read(ends[0], 1)
                        os.close(ends[0])
                    told = child.stderr.read().decode("latin-1")
            whole = taken and text is not LONG and child.returncode < 2
            what = f"{words} {' '.join(more)}: a pipe that is closed after {taken} bytes: {child.returncode} {told!r}"
            check(what, True, whole or (child.returncode, told) == due)


# Words whose line or message on standard error, or what is told behind it, cannot be written, with the status and the
# output.
UNTOLD = (
    ("eval X", 4, ""),
    ("aterm", 1, "!term A\n"),
    ("eval --steps x", 2, ""),
    ("match --test <x>", 2, "!pattern P1\n"),
    ("eval --explain X", 4, ""),
    ("aterm --explain", 1, "!term A\n"),
    ("eval --explain - -e z(", 1, "!spec G\n"),
    ("eval --explain add.rec -e 0", 1, "!terms T2\n"),
    ("eval --explain add.rec -e z -e z(", 1, "!terms A\n"),
    ("match --explain <x>", 1, "!pattern P1\n"),
    ("eval --limit-status --steps 2 add.rec", 5, "!limit 2\n"),
    ("eval --stuck rows/irr.rec", 5, "h(z)\n"),
    ("eval --profile rows/irr.rec", 0, "h(z)\n"),
)


def try_errors():
    """A line on standard error that cannot be written is left out, and the status stays."""
    for words, status, line in UNTOLD:
        with open("/dev/full", "wb") as full:
            how = {"stderr": full, "stdout": subprocess.PIPE, "capture_output": False, "stdin": subprocess.DEVNULL}
            check(f"{words}: errors to a full device", (status, line), recw(*words.split(), **how)[:2])
        closed = ("sh", "-c", '"$@" 2>&-', "sh")
        how = {"before": closed, "stdin": subprocess.DEVNULL}
        check(f"{words}: closed errors", (status, line), recw(*words.split(), **how)[:2])


def try_signals(at):
    """A run that is interrupted ends by the signal, and leaves no line that is not due."""
    loop = "REC-SPEC L SORTS N CONS z : -> N OPNS f : N -> N VARS X : N RULES f(X) -> f(X) EVAL z f(z) END-SPEC"
    file = write_file(f"{at}/loop", loop)
    for number in (signal.SIGINT, signal.SIGTERM, signal.SIGHUP):
        how = {"stdout": subprocess.PIPE, "stderr": subprocess.PIPE, "encoding": "latin-1"}
        with subprocess.Popen([program(), "eval", "--steps", str(10**18), file], **how) as child:
            time.sleep(0.5)
            child.send_signal(number)
            output, told = child.communicate(timeout=10)
        # the value before has been shown
        check(f"{number.name}", (-number, "z\n", ""), (child.returncode, output, told))


def on_terminal(words):
    """What the program tells where standard error is a terminal."""
    ends = pty.openpty()
    tty.setraw(ends[1])
    how = {"stdin": subprocess.DEVNULL, "stdout": subprocess.PIPE, "stderr": ends[1], "cwd": EXAMPLES}
    with subprocess.Popen([program(), *words], **how) as child:
        os.close(ends[1])
        told = b""
        while True:
            try:
                piece = os.read(ends[0], 65536)
            except OSError:
                break
            told += piece
            if not piece:
                break
        output = child.stdout.read()
    os.close(ends[0])
    return child.returncode, output.decode("latin-1"), told.decode("latin-1")


def try_reader():
    """Somebody who reads standard error is told more without asking, and no control byte reaches a terminal."""
    missing = "recw: read failed\nno\\x1b[31msuch: No such file or directory\n"
    words = ("eval", "no\x1b[31msuch")
    check("a terminal: no file", (4, "", missing), on_terminal(words))
    how = {"env": {**os.environ, "RECW_EXPLAIN": ""}}
    check("RECW_EXPLAIN: no file", (4, "", missing), recw(*words, **how))
    check("neither: no file", (4, "", NO_READ[1]), recw(*words))
    ended = "!spec G\n", "recw: spec G at byte 0\n<stdin>:1:1: G: syntax error in the specification; the text is empty"
    status, output, told = on_terminal(["eval"])
    check("a terminal: no text", (1, *ended), (status, output, told.partition("; expected")[0]))
    status, output, told = on_terminal(["x\x1b[31m.rec"])
    check("a terminal: a word that is no command", (2, "", False), (status, output, "\x1b" in told))
    check("a terminal: that word", True, "recw eval 'x\\x1b[31m.rec'\n" in told)


def try_lines(at):
    """A line is seen before the next term comes to an end, also behind many short ones."""
    for count in (1, 1000, 3000):
        names = " ".join(["z"] * count)
        rules = "VARS X : N RULES f(X) -> f(X)"
        loop = f"REC-SPEC L SORTS N CONS z : -> N OPNS f : N -> N {rules} EVAL {names} f(z) END-SPEC"
        file = write_file(f"{at}/loop", loop)
        with subprocess.Popen([program(), "eval", "--steps", str(10**18), file], stdout=subprocess.PIPE) as child:
            time.sleep(0.5)
            os.set_blocking(child.stdout.fileno(), False)
            seen = child.stdout.read() or b""
            child.kill()
        lines = seen.decode("latin-1").count("z\n")
        check(f"{count} lines before a term without an end", True, lines == count if count <= 1000 else lines >= 1000)


def try_program():
    for group in (try_places, try_input, try_full, try_pipe, try_lines):
        with room() as at:
            group(at)
    try_errors()
    try_reader()
    with room() as at:
        try_signals(at)
