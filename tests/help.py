#!/usr/bin/env -S python3 -B
"""Compares the program's help with the sources that tests/options.py reads, the error codes with the reference, and the
arguments of the command line with what the program makes of them."""

import os
import re
import shlex
import shutil
import subprocess

import options
from common import TOP, done, program, run, same, tables, text_of


def help_of(*command):
    return run([program(), *command, "--help"])


def commands():
    """The commands with what the help says about each."""
    listed = help_of().split("Commands:\n")[1].split("\n\n")[0]
    return dict(re.findall(r"^  (\S+) +(.*)$", listed, re.M))


def options_of(command):
    """The options of a command, but for the one that prints help."""
    section = help_of(command).partition("Options:\n")[2].split("\n\n")[0]
    row = r"^ +(?:-\w, )?(--[\w-]+)(?: <([\w:]+)>)? +(.*?)(?: \[default: (\S+)\])?$"
    return [it for it in re.findall(row, section, re.M) if it[0] != "--help"]


REFERENCE = ("docs/reference/aterm.md", "docs/reference/rec.md", "docs/reference/cli.md")
# The errors in words.
WORDS = {
    "L1": "the text has more than 16777216 bytes",
    "G": "syntax error in the specification",
    "S1": "duplicate sort",
    "S2": "duplicate symbol in CONS and OPNS, even with other sorts",
    "S3": "duplicate variable, or variable with the name of a symbol",
    "S4": "undeclared sort in CONS, OPNS or VARS",
    "S5": "undeclared symbol or variable in RULES or EVAL",
    "S6": "wrong number of arguments of a symbol, or arguments of a variable",
    "S7": "argument of the wrong sort",
    "S8": "left-hand side that does not start with an operator (a symbol of OPNS)",
    "S9": "rule or condition whose two sides have different sorts",
    "S10": "variable that is not in the left-hand side of its rule",
    "S11": "variable in an EVAL term",
    "A": "syntax error in the annotated term",
    "T1": "input terms or arguments that are not one list without annotations",
    "T2": "integer, list or placeholder as a subterm of an input term",
    "T3": "annotations on a subterm that is not a whole input term",
    "T4": "undeclared symbol, or wrong quotes (only plain names have none)",
    "T5": "wrong number of arguments",
    "T6": "argument of the wrong sort",
    "P1": "placeholder other than <term>, <int>, <str>, <appl>, <placeholder>, <list>",
    "P2": "placeholder with annotations",
    "M1": "wrong number of arguments for the pattern",
    "M2": "argument that does not match its placeholder",
    "R1": "table that is not a list without annotations, or has no element",
    "R2": "placeholder of a table that is not <N>, N being an earlier element, nor <[TERM]>",
}


def check_refusals():
    """Compares the errors in words, and those that the reference has with an example and a fix."""
    told = dict(line.split(None, 1) for line in run([program(), "help", "refusals"]).splitlines())
    same("errors in words", WORDS, told)
    named = {it for name in REFERENCE for it in re.findall(r"`([LGASPTMR]\d*)`", text_of(name))}
    same("errors of the reference", set(told), named)
    # L1 and G are explained in paragraphs
    mended = {"`L1`", "`G`"}
    for name in REFERENCE:
        for head, rows in tables(text_of(name)):
            if head[-1] == "Fix":
                mended |= {f"`{it}`" for it in re.findall(r"error `(\w+)`", " ".join(head))}
                mended |= {row[0] for row in rows if row[-1]}
    same("errors without a fix", set(), {f"`{it}`" for it in told} - mended)


def check_codes():
    """Compares the help of each code with the list and with the lines of `check`, and its parts."""
    warnings = re.findall(r"^\| `(W\d)` \| (\w[^:|]*)", text_of("docs/reference/cli.md"), re.M)
    same("warnings of the reference", [f"W{it}" for it in range(1, 6)], [it for it, _ in warnings])
    for code in [*WORDS, *(it for it, _ in warnings)]:
        shown = re.fullmatch(r"(\w+) +(.*)\n\nExample: (.+)\nFix: (.+)\n", run([program(), "help", code]))
        same(f"help of {code}", (code, True), (shown[1], all(shown.groups())) if shown else None)
        if code in WORDS and shown:
            same(f"help of {code}: words", WORDS[code], shown[2])


def obeyed(words, text=""):
    """The status and both outputs for the words of a shell, in the folder of examples."""
    how = {"cwd": f"{TOP}/examples", "input": text, "capture_output": True, "text": True, "check": False}
    ran = subprocess.run([program(), *shlex.split(words)], **how)
    return ran.returncode, ran.stdout, ran.stderr


# Words that print the help of a command, and the command, which is empty for the program's own help.
HELPS = (
    ("-h", ""), ("help", ""), ("-hx", ""), ("--help x", ""), ("eval -h", "eval"), ("eval -hx", "eval"),
    ("eval -hh", "eval"), ("help eval", "eval"), ("match --help", "match"), ("match a b --help", "match"),
    ("match --help a b c", "match"), ("match --help -x", "match"),
)
# Words that are wrong: what is no command, what is no option, what is given twice, in part, or with a value, numbers
# that are none or out of range, and what is missing, too much, or of another command.
WRONG = (
    "help x", "help eval x", "help -h", "help --", "help refusals x", "-", "x", "''", "EVAL", "ev", "--", "-- eval",
    "-xh", "eval -xh", "eval -V", "eval --version", "eval --he", "eval --step 3", "eval --help=x", "eval --count=1",
    "eval --profile=1", "x --help", "match a b c --help", "eval --steps x --help", "eval --steps --help",
    "eval --steps", "eval --steps -- 3", "eval -3", "eval -e -3", "eval --steps -3", "eval --steps=-3", "eval --steps=",
    "eval --steps ''", "eval --steps ' 3'", "eval --steps 0x3", "eval --count --count", "eval --explain --explain",
    "eval - -", "eval -e", "eval add.rec add.trm -e z", "eval --strict", "eval --whole add.rec", "eval --test",
    "--steps 3", "--explain", "serve", "serve -", "serve - -", "serve -e z add.rec", "serve --limit-status add.rec",
    "serve --stuck add.rec", "serve --progress add.rec", "trace", "trace - -", "trace -e z add.rec add.trm",
    "trace --memo 0 add.rec", "trace --stuck add.rec", "trace --profile add.rec", "trace --width 2 add.rec",
    "trace --width x add.rec", "trace --last 1073741825 add.rec", "trace --first -1 add.rec", "trace --rule 3 add.rec",
    "trace --rule 3:5:7 add.rec", "trace --rule 0:1 add.rec", "trace --rule 3: add.rec", "trace --rule x add.rec",
    "trace --rule 3:5 --rule 4:5 add.rec", "share --nodes 5", "share --dot --nodes 0", "share --indent 2",
    "share --limit-annotations", "aterm --dot", "aterm --indent 65", "aterm --indent", "aterm --indent -1", "check",
    "check - -", "check --format add.rec", "check --format xml add.rec", "check --format json --format json add.rec",
    "help S12", "help s5", "help S5 x", "uses --format json", "match -7", "make -7 []", "make a -7", "match --test a --test",
    "match --limit-status a", "uses - -", "uses a b", "uses --at 3", "uses --at 3:5:7", "uses --at 0:1", "uses --at x:1",
    "uses --at 3:5 --at 4:5", "uses --explain", "uses --rule 3:5", "join", "join - -", "join --explain add.rec",
    "eval --join", "eval --join -", "eval --join - add.rec -", "check --join - -", "serve --join add.rec add.rec",
    "eval --only-terms add.rec", "eval --only-terms --term 1 add.rec add.trm", "eval --term 0 add.rec",
    "eval --terms-table add.rec", "eval --terms-table -e z add.rec", "trace --terms-table add.rec add.trm",
    "eval --term z add.rec", "eval --term 1 --term 2 add.rec", "eval --term 1000000000000000001 add.rec",
    "serve --term 1 add.rec", "serve --only-terms add.rec", "trace --only-terms add.rec add.trm", "serve --terms-table add.rec",
    "trace --term -1 add.rec", "trace --rule 3:5 add.rec", "trace --rule 12:4 add.rec", "trace --symbol pls add.rec",
    "trace --symbol X add.rec", "trace --symbol '' add.rec", "trace --rules --rules add.rec", "aterm --width 8",
    "aterm --indent 2 --width 0", "aterm --indent 2 --width x", "aterm --indent 2 --to-table",
    "aterm --indent 2 --from-table", "aterm --indent 2 --width 9 --from-table", "aterm --to-table --bytes 3",
    "aterm --bytes 1000000000000000001", "aterm --bytes x", "aterm --to-table --to-table", "share --from-table",
    "aterm --width 8 --to-table", "share --nodes 5 --to-table", "share --dot --to-table",
    "share --from-table --dot --to-table", "share --to-table --bytes 3", "match --from-table a",
 "eval --input z add.rec add.trm", "eval --input",
)
# Words, others that do the same, and the text on standard input.
EQUAL = (
    ("eval --steps +3", "eval --steps 3", "examples/add.rec"),
    ("eval --steps 0003", "eval --steps 3", "examples/add.rec"),
    ("", "eval", "examples/add.rec"),
    ("eval --", "eval", "examples/add.rec"),
    ("eval -", "eval", "examples/add.rec"),
    ("aterm -", "aterm", "examples/add.trm"),
    ("share -", "share", "examples/add.trm"),
    ("match '<list>' -", "match '<list>'", "examples/add.trm"),
    ("eval add.rec -- add.trm", "eval add.rec add.trm", "examples/add.trm"),
    ("eval add.rec -", "eval add.rec add.trm", "examples/add.trm"),
    ("eval -e 'plus(z,s(z))' add.rec", "eval add.rec add.trm", "examples/add.trm"),
    ("eval --input='plus(z,s(z))' add.rec", "eval add.rec add.trm", "examples/add.trm"),
    ("trace -e 'plus(z,s(z))' add.rec", "trace add.rec add.trm", "examples/add.trm"),
    ("trace --input 'plus(z,s(z))' -", "trace add.rec add.trm", "examples/add.rec"),
    ("aterm --width=1 --indent=2", "aterm --indent 2", "examples/add.trm"),
    ("aterm --from-table", "aterm --from-table --bytes 16777216", "examples/add.trm"),
    ("aterm --bytes 1000000000000000000", "aterm", "examples/add.trm"),
    ("share --dot --from-table", "share --dot --nodes 2000 --from-table", "examples/add.trm"),
    ("check --join join/nat.rec --format gnu join/main.rec", "check --join join/nat.rec join/main.rec", "examples/add.rec"),
    ("serve add.rec -", "serve add.rec", "examples/add.trm"),
    ("serve - add.trm", "serve add.rec add.trm", "examples/add.rec"),
    ("trace -", "trace add.rec", "examples/add.rec"),
    ("trace add.rec -", "trace add.rec add.trm", "examples/add.trm"),
    ("uses -", "uses", "examples/add.rec"),
    ("uses --at=07:+3", "uses --at 7:3", "examples/add.rec"),
    ("-V", "--version", "examples/add.rec"),
)
NO_FILE = (4, "", "recw: read failed\n")
NO_PATTERN = (1, "!pattern A\n", "recw: pattern A at byte 0\n")
# Words that name a file or a pattern, with a text on standard input and what is left.
NAMES = (
    ("eval -- --count", "", NO_FILE),
    ("eval ./-", "", NO_FILE),
    ("eval help", "", NO_FILE),
    ("eval ''", "", NO_FILE),
    ("match -", "a", NO_PATTERN),
    ("match -- -", "a", NO_PATTERN),
    ("match ''", "a", NO_PATTERN),
    ("match help", "help", (0, "yes\n", "")),
    ("match -- -7", "-7", (0, "yes\n", "")),
    ("match ' -7'", "-7", (0, "yes\n", "")),
    ("make -- -7 []", "", (0, "-7\n", "")),
)


def check_words():
    """What the program makes of words."""
    for words, command in HELPS:
        same(f"words: {words}", (0, help_of(*command.split()), ""), obeyed(words))
    for words in WRONG:
        status, output, told = obeyed(words)
        same(f"words: {words}", (2, "", "error: "), (status, output, told[:7]))
    for words, others, name in EQUAL:
        same(f"words: {words}", obeyed(others, text_of(name)), obeyed(words, text_of(name)))
    for words, text, wanted in NAMES:
        same(f"words: {words}", wanted, obeyed(words, text))
    for words in ([b"\xff"], [b"eval", b"\xff.rec"], [b"--help", b"\xff"]):
        ran = subprocess.run([program(), *words], capture_output=True, stdin=subprocess.DEVNULL, check=False)
        same(f"words: {words}", (2, b"", b"error: "), (ran.returncode, ran.stdout, ran.stderr[:7]))


def check_version():
    """The program can't know what it was proved with, and says nothing of it."""
    same("version", "recw 0.1.0\n", run([program(), "--version"]))


def check_width():
    """The page's tables stay within 80 columns."""
    if not shutil.which("man"):
        print("not tried: man is not here")
        return
    how = {**os.environ, "MANWIDTH": "80", "MANROFFOPT": "", "LC_ALL": "C"}
    shown = run(["man", "--no-hyphenation", f"{TOP}/recw.1"], env=how, stderr=subprocess.DEVNULL)
    plain = re.sub(r".\x08|\x1b\[[0-9;]*m", "", shown)
    same("manual: columns", [], [it for it in plain.splitlines() if len(it) > 80])
    wanted = re.findall(r"^ +--\S+ \S+ .*$|^ +--[\w-]+ +off .*$", plain, re.M)
    same("manual: rows of the table on a line each", True, len(wanted) >= 8)


def check_page():
    check_width()
    if shutil.which("mandoc"):
        same("manual: mandoc -Tlint", "", run(["mandoc", "-Tlint", f"{TOP}/recw.1"]))
    else:
        print("not tried: mandoc is not here")


def check_help():
    """Compares what the program prints with the sources, which tests/options.py compares with all else."""
    known = options.commands()
    abouts = {it.name: it.about for it in known}
    same("commands of the help", {**abouts, options.HELP_COMMAND[0]: options.HELP_COMMAND[1]}, commands())
    for it in known:
        wanted = [(row.name, row.value, row.about, row.default) for row in it.options]
        same(f"options of {it.name}", sorted(wanted), sorted(options_of(it.name)))


def main():
    check_help()
    check_refusals()
    check_codes()
    check_words()
    check_version()
    check_page()
    done()


main()
