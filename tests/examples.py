#!/usr/bin/env -S python3 -B
"""Runs each example of the documents, and compares its output.

The examples are the rows of the table of examples/README.md, the specifications that tests/oracles.py
works out too, the blocks marked `console` of the Markdown files, where each line `$ COMMAND` is
followed by what it prints, those of the manual page, and the tables of docs/reference and corners.md. An example with
an option that the program's help does not have is named, and not run.
"""

import glob
import os
import re
import shlex
import shutil
import stat
import subprocess
import sys
import tempfile

import oracles
from common import TOP, done, program, quoted, rows, run, same, tables, text_of

# What takes no end of time where results are not remembered.
NEEDS = {"rows/fast.rec": ["--memo"]}


def check_table(known):
    tried = set()
    for files, options, output in rows():
        tried.update(files.split())
        needed = [it for it in options.split() if it.startswith("--")] + NEEDS.get(files, [])
        unknown = [it for it in needed if it not in known]
        if unknown:
            print(f"not tried: {files} {options}: the program has no {unknown[0]}")
            continue
        words = [program(), "eval", *options.split(), *files.split()]
        how = {"capture_output": True, "text": True, "check": False, "timeout": 60}
        ran = subprocess.run(words, cwd=f"{TOP}/examples", **how)
        same(f"examples/README.md: {files} {options}", (0, output, ""), (ran.returncode, ran.stdout, ran.stderr))
    for name in oracles.WORKED:
        tried.update([f"{name}.rec", f"{name}.trm"])
    there = {it for it in glob.glob("**/*.*", root_dir=f"{TOP}/examples", recursive=True) if not it.endswith(".md")}
    there = {it for it in there if not it.startswith(("tutorial/", "check/", "join/")) and not it.endswith(".py")}
    same("examples/README.md: files", sorted(there), sorted(tried))


def check_oracles():
    """What four specifications come to, beside what programs of another kind make of their terms."""
    for name in oracles.WORKED:
        words = [program(), "eval", f"{TOP}/examples/{name}.rec", f"{TOP}/examples/{name}.trm"]
        ran = subprocess.run(words, capture_output=True, text=True, check=False, timeout=60)
        same(f"examples/{name}.rec", (0, oracles.values(name), ""), (ran.returncode, ran.stdout, ran.stderr))


def consoles():
    """Each block of commands of the documents with what they are said to print."""
    for file in ["README.md", "examples/README.md", *sorted(glob.glob("docs/**/*.md", root_dir=TOP, recursive=True))]:
        for block in re.findall(r"^```console\n(.*?)^```$", text_of(file), re.M | re.S):
            yield file, block
    page = text_of("recw.1")
    for block in re.findall(r"^\.Bd -literal.*?\n(.*?)^\.Ed$", page, re.M | re.S):
        yield "recw.1", block.replace("\\-", "-").replace("\\(aq", "'").replace("\\&", "")


def check_consoles(room):
    # both names that the documents call the program by
    os.makedirs(f"{room}/bin")
    for name in ("recw", "bin/recw"):
        os.symlink(program(), f"{room}/{name}")
    os.symlink(f"{TOP}/examples", f"{room}/examples")
    how = {"cwd": room, "env": {**os.environ, "PATH": f"{room}/bin:{os.environ['PATH']}"}}
    tried = set()
    for file, block in consoles():
        for command, output in re.findall(r"^\$ (.*)\n((?:(?!\$ ).*\n)*)", block, re.M):
            same(f"{file}: {command}", output, run(["sh", "-c", command], **how))
            tried.add(file)
    same("documents with commands", True, {"README.md", "recw.1"} <= tried)


def check_helps(known, room):
    """Each `Example: COMMAND` of the help runs."""
    for file in glob.glob(f"{TOP}/examples/*.*"):
        os.symlink(file, f"{room}/{os.path.basename(file)}")
    how = {"cwd": room, "env": {**os.environ, "PATH": f"{room}/bin:{os.environ['PATH']}"}}
    for command in known:
        for example in re.findall(r"^Example: (.*)$", run([program(), command, "--help"]), re.M):
            ran = subprocess.run(["sh", "-c", example], capture_output=True, text=True, check=False, **how)
            same(f"help: {example}", (0, ""), (ran.returncode, ran.stderr))


def check_client():
    """The client of a process that stays."""
    words = [f"{TOP}/examples/client.py", program(), f"{TOP}/examples/add.rec", "plus(s(z),s(z))", "plus(z,z){a}", "3"]
    due = "plus(s(z),s(z)) is s(s(z))\nplus(z,z){a} is z{a}\n3 is !term T2\nits value is !term A\n"
    same("examples/client.py", due, run([sys.executable, *words]))


def once(path, whom):
    """The program, but the first time it answers ten requests and kills a process in place of the others."""
    recw = f'{shlex.quote(program())} "$@"'
    with open(path, "w", encoding="utf-8") as file:
        file.write(f"#!/bin/sh\nif mkdir {shlex.quote(path)}.met 2>/dev/null; then head -n 10 | {recw}; kill -9 {whom}; fi\n")
        file.write(f"exec {recw}\n")
    os.chmod(path, os.stat(path).st_mode | stat.S_IXUSR)
    return path


def with_dask():
    """A Python that has Dask, if there is one."""
    for python in (sys.executable, "/usr/bin/python3"):
        how = {"stdout": subprocess.DEVNULL, "stderr": subprocess.DEVNULL, "check": False}
        if shutil.which(python) and subprocess.run([python, "-c", "import dask.bag, distributed"], **how).returncode == 0:
            return python
    return None


def check_scale(room):
    """The answers of requests that are divided between processes are those of one."""
    spec = f"{TOP}/examples/add.rec"
    text = "".join(f"plus(s(s(s(z))),s(z)){{{it}}}\n" for it in range(20_000)) + "3\nz("
    due = run([program(), "serve", spec], input=text)
    same("docs/SCALE.md: one process", True, due.startswith("s(s(s(s(z)))){0}\n") and due.endswith("\n!term T2\n!term A\n"))
    if shutil.which("parallel"):
        for recw in (program(), once(f"{room}/parallel", "$$")):
            words = ["parallel", "--pipe", "--keep-order", "--retries", "3", "--block", "50k", recw, "serve", spec]
            same(f"docs/SCALE.md: parallel {recw}", True, due == run(words, input=text, stderr=subprocess.DEVNULL))
    else:
        print("not tried: GNU parallel is not here")
    python = with_dask()
    if not python:
        print("not tried: Dask is not here")
        return
    # a name is looked up in PATH, not in the folder that it is run in
    os.mkdir(f"{room}/elsewhere")
    os.symlink("/bin/false", f"{room}/elsewhere/recw")
    how = {"cwd": f"{room}/elsewhere", "env": {**os.environ, "PATH": f"{room}/bin:{os.environ['PATH']}"}}
    for recw in (program(), once(f"{room}/cluster", "$PPID"), "recw"):
        words = [python, f"{TOP}/examples/cluster.py", recw, spec, "2"]
        same(f"docs/SCALE.md: {recw}", True, due == run(words, input=text, stderr=subprocess.DEVNULL, timeout=300, **how))


def check_specifications():
    """Each specification that a document shows stands in the file that is named before it."""
    shown = set()
    for file in glob.glob("docs/*.md", root_dir=TOP):
        named = r"\(\.\./(examples/\S+\.rec)\):\n\n```rec\n(.*?)^```$"
        for name, block in re.findall(named, text_of(file), re.M | re.S):
            same(f"{file}: {name}", text_of(name), block)
            shown.add(name)
    same("specifications that documents show", set(glob.glob("examples/tutorial/*.rec", root_dir=TOP)), shown)
    shown = re.search(r"^```rec\n(REC-SPEC Q .*?)^```$", text_of("docs/reference/rec.md"), re.M | re.S)[1]
    same("docs/reference/rec.md: examples/q.rec", text_of("examples/q.rec"), shown)


def recw(*words, text=""):
    """The status and both outputs of the program, with a text on standard input."""
    ran = subprocess.run([program(), *words], input=text, capture_output=True, text=True, check=False, timeout=60)
    return ran.returncode, ran.stdout, ran.stderr


def with_offsets(texts, cell):
    """The texts of a cell, each with its number of another cell, which has one for each, one for all, or none."""
    found = [int(it) for it in re.findall(r"\d+", cell)] or [None]
    texts = quoted(texts)
    numbers = found * len(texts) if len(found) == 1 else found
    same(f"an offset for each of {texts}", len(texts), len(numbers))
    return zip(texts, numbers)


def check_cells(rows_of_table):
    for text, count, _ in rows_of_table:
        text = quoted(text)[0]
        same(f"cells of {text}", (0, f"{text}\ncells {count}\n", ""), recw("share", text=text))


def check_printed(rows_of_table):
    for texts, printed in rows_of_table:
        same(f"as many as {texts}", len(quoted(texts)), len(quoted(printed)))
        for text, line in zip(quoted(texts), quoted(printed)):
            same(f"aterm {text}", (0, f"{line}\n", ""), recw("aterm", text=text))


def check_outside_terms(rows_of_table):
    for texts, places, _ in [*rows_of_table, ("``", "0", "")]:
        for text, at in with_offsets(texts, places):
            same(f"aterm {text}", (1, "!term A\n", f"recw: term A at byte {at}\n"), recw("aterm", text=text))


def check_outside_specifications(rows_of_table):
    for texts, places in [*rows_of_table, ("``", "0")]:
        for text, at in with_offsets(texts, places):
            wanted = (0, "", "") if at is None else (1, "!spec G\n", f"recw: spec G at byte {at}\n")
            same(f"eval {text}", wanted, recw("eval", text=text))


def check_patterns(rows_of_table):
    for code, _, patterns, _ in rows_of_table:
        for it in quoted(patterns):
            same(f"match {it}", (1, f"!pattern {quoted(code)[0]}\n", ""), recw("match", it, text="a"))
    for it in ("<int()>", "<int{}>"):
        same(f"match {it}", (0, "yes\n1\n", ""), recw("match", it, text="1"))


def check_matches(rows_of_table):
    for pattern, term, output in rows_of_table:
        pattern, term = quoted(pattern)[0], quoted(term)[0]
        wanted = "".join(f"{it}\n" for it in quoted(output))
        same(f"match {pattern} {term}", (0, wanted, ""), recw("match", pattern, text=term))


def check_arguments(rows_of_table):
    for code, _, pattern, arguments, _ in rows_of_table:
        for it in quoted(arguments):
            wanted = (1, f"!args {quoted(code)[0]}\n", "")
            same(f"make {pattern} {it}", wanted, recw("make", quoted(pattern)[0], it))


def check_made(rows_of_table):
    for pattern, arguments, output in rows_of_table:
        words = ("make", quoted(pattern)[0], quoted(arguments)[0])
        same(f"{words}", (0, f"{quoted(output)[0]}\n", ""), recw(*words))


def check_opened(rows_of_table):
    for table, term in rows_of_table:
        wanted = (0, f"{quoted(term)[0]}\n", "")
        same(f"aterm --from-table {table}", wanted, recw("aterm", "--from-table", text=quoted(table)[0]))


def check_tables(rows_of_table):
    for term, table in rows_of_table:
        term, table = quoted(term)[0], quoted(table)[0]
        same(f"aterm --to-table {term}", (0, f"{table}\n", ""), recw("aterm", "--to-table", text=term))
        same(f"aterm --from-table {table}", (0, f"{term}\n", ""), recw("aterm", "--from-table", text=table))
    leaves = "[node(leaf,leaf)" + "".join(f",node(<{it}>,<{it}>)" for it in range(59)) + "]"
    same("bytes of a table of 2^60 leaves", 941, len(leaves))
    same("a table of 2^60 leaves", (0, f"{leaves}\n", ""), recw("aterm", "--from-table", "--to-table", text=leaves))
    same("2^60 leaves", (0, "!bytes 16777216\n", ""), recw("aterm", "--from-table", text=leaves))


def check_no_tables(rows_of_table):
    for code, _, texts, _ in rows_of_table:
        for text in quoted(texts):
            for words in (("aterm", "--from-table"), ("share", "--from-table", "--to-table"), ("share", "--from-table", "--dot")):
                same(f"{words} {text}", (1, f"!term {quoted(code)[0]}\n", ""), recw(*words, text=text))


SECTIONS = "SORTS|CONS|OPNS|VARS|RULES|EVAL|END-SPEC"
# The offset of the error in each changed part of examples/q.rec.
LOCATIONS = {
    "SORTS A B A": 10,
    "OPNS f : A -> A a : -> A": 16,
    "VARS X Y X : A": 9,
    "VARS X a : A": 7,
    "VARS X Y : C": 11,
    "EVAL f(c)": 7,
    "EVAL f(a,a) c": 12,
    "EVAL f(a,a)": 5,
    "EVAL f()": 5,
    "RULES f(X(a)) -> X": 8,
    "EVAL f(b)": 7,
    "RULES f(b) -> a": 8,
    "RULES a -> a": 6,
    "RULES X -> a": 6,
    "RULES f(X) -> b": 6,
    "RULES f(X) -> X if a -><- b": 19,
    "RULES f(X) -> Y": 14,
    "EVAL f(X)": 7,
}


def changed(part):
    """The specification examples/q.rec with these sections in place of its own."""
    text = text_of("examples/q.rec")
    for section in re.findall(rf"(?:{SECTIONS})\b.*?(?=\s(?:{SECTIONS})\b|$)", part):
        own = rf"\b{section.split()[0]}\b.*?(?=\s+(?:{SECTIONS})\b)"
        text = re.sub(own, lambda _, it=section: it, text, count=1, flags=re.S)
    return text


def check_rules(rows_of_table):
    tried = set()
    for code, violation, _, parts, _ in rows_of_table:
        for part in quoted(parts):
            text = changed(part)
            if code == "none":
                same(f"eval {part}", (0, "a\n", ""), recw("eval", text=text))
                continue
            code, message = code.strip("`"), quoted(violation)[0]
            at = text.index(part) + LOCATIONS[part]
            wanted = (1, f"!spec {code}\n", f"recw: spec {code} at byte {at}\n")
            same(f"eval {part}", wanted, recw("eval", text=text))
            line, column = text[:at].count("\n") + 1, at - text.rfind("\n", 0, at)
            word = re.match(r"\w+", text[at:])[0]
            found = recw("check", "-", text=text)[1].splitlines()[:1]
            same(f"check {part}", [f"<stdin>:{line}:{column}: error: {message}: {word} [{code}]"], found)
            tried.add(part)
    same("changed parts", set(LOCATIONS), tried)


# Where lists of input terms leave the grammar.
CUT_TERMS = {"[f(a": 4, "[x']": 2}
# Symbols whose names are not plain, and lists of them.
NOT_PLAIN = "REC-SPEC N SORTS N CONS x' : -> N 0 : -> N 1a : -> N EVAL END-SPEC"
LISTS = (
    ("[\"x'\",\"0\",\"1a\"]", (0, "\"x'\"\n\"0\"\n\"1a\"\n", "")),
    ("[0]", (1, "!terms T2\n", "")),
    ("[1a]", (1, "!terms A\n", "recw: terms A at byte 2\n")),
)


def check_terms(rows_of_table):
    for code, _, lists, _ in rows_of_table:
        for text in quoted(lists):
            status, output, told = recw("eval", "--steps", "1", f"{TOP}/examples/q.rec", "-", text=text)
            if code == "none":
                same(f"input terms {text}", (0, True, ""), (status, output.startswith("a\n"), told))
                continue
            told_of = f"recw: terms A at byte {CUT_TERMS[text]}\n" if code == "`A`" else ""
            same(f"input terms {text}", (1, f"!terms {quoted(code)[0]}\n", told_of), (status, output, told))
    with tempfile.NamedTemporaryFile("w", suffix=".rec", encoding="utf-8") as file:
        file.write(NOT_PLAIN)
        file.flush()
        for text, wanted in LISTS:
            same(f"input terms {text} of names that are not plain", wanted, recw("eval", file.name, "-", text=text))


def check_steps(rows_of_table):
    spec = re.search(r"^REC-SPEC R .*?^EVAL END-SPEC$", text_of("docs/reference/rec.md"), re.M | re.S)[0]
    for term, limit, result, steps, _ in rows_of_table:
        words = ("eval", "--count", "--steps", limit, "-e", quoted(term)[0], "-")
        line = f"{quoted(result)[0]}\t{steps}".rstrip("\t")
        same(f"{words}", (0, f"{line}\n", ""), recw(*words, text=spec))


def check_statuses(rows_of_table, how):
    for status, _, example, _ in rows_of_table:
        command = quoted(example)[0]
        ran = subprocess.run(["sh", "-c", command], capture_output=True, check=False, **how)
        same(f"status of {command}", int(status), ran.returncode)


def check_reference(room):
    """The tables of docs/reference and tests/corners.md, by the names of their columns."""
    how = {"cwd": room, "env": {**os.environ, "PATH": f"{room}/bin:{os.environ['PATH']}"}}
    known = {
        ("Term", "Cells", "Parts"): check_cells,
        ("Text", "Printed text"): check_printed,
        ("Text", "Offset of error `A`", "Fix"): check_outside_terms,
        ("Error", "Meaning", "Examples", "Fix"): check_patterns,
        ("Pattern", "Term", "Output of `recw match`"): check_matches,
        ("Error", "Meaning", "Pattern", "Arguments", "Fix"): check_arguments,
        ("Error", "Meaning", "Texts", "Fix"): check_no_tables,
        ("Table", "Term"): check_opened,
        ("Term", "Table"): check_tables,
        ("Pattern", "Arguments", "Output of `recw make`"): check_made,
        ("Specification", "Offset of error `G`"): check_outside_specifications,
        ("Error", "Violation", "Locations", "Examples", "Fix"): check_rules,
        ("Error", "Violation", "Examples", "Fix"): check_terms,
        ("Term", "n", "Result", "Steps", "Reason"): check_steps,
        ("Status", "Meaning", "Example", "Fix"): lambda it: check_statuses(it, how),
    }
    tried = set()
    for file in [*sorted(glob.glob("docs/reference/*.md", root_dir=TOP)), "tests/corners.md"]:
        for head, rows_of_table in tables(text_of(file)):
            if head in known:
                known[head](rows_of_table)
                tried.add(head)
    same("tables of docs/reference", set(known), tried)


def main():
    known = shlex.split(run([program(), "eval", "--help"]).replace("'", ""))
    with tempfile.TemporaryDirectory() as room:
        check_table(known)
        check_oracles()
        check_specifications()
        check_consoles(room)
        check_reference(room)
        check_helps(["eval", "serve", "trace", "aterm", "share", "match", "make", "check"], room)
        check_client()
        check_scale(room)
    done()


main()
