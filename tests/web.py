#!/usr/bin/env -S python3 -B
"""Tries the page of web/: web.py [PROGRAM [PART..]].

    heap        random requests of the module's heap beside a model, and its helpers beside the C library's
    colours     each colour of a text beside what is behind it: a contrast of 4.5 at least, by day and by night
    scripts     the scripts that read and lay out a graph, and that read a trace, beside what was worked out by hand
    module      the page's module beside the program: examples, refused texts, 300 random specifications
    browser     Chromium goes through the page; `browser=FOLDER` leaves pictures there

Without words these are all. What a command or the page is missing for is passed over, and said.
"""

import base64
import glob
import itertools
import json
import os
import random
import re
import shutil
import subprocess
import sys
import tempfile

import specifications
import web_browser
from common import TOP, done, program, quoted, same, text_of

PAGE = f"{TOP}/web/out/recw.html"
USUAL = {"steps": 1000000, "cells": 16777216, "count": True}


def is_there(part, *commands):
    """Whether there are these commands; which one is missing is said."""
    missing = [it for it in commands if shutil.which(it) is None]
    if missing:
        print(f"not tried: {part}, since there is no {missing[0]}")
    return not missing


def has_page(part):
    """Whether the page is there, and made of what stands here."""
    sources = [it for it in glob.glob(f"{TOP}/web/*") if os.path.isfile(it)]
    sources += glob.glob(f"{TOP}/crates/r[ex]*/src/**/*.rt", recursive=True)
    if not os.path.exists(PAGE):
        print(f"not tried: {part}, since web/build did not make the page here")
        return False
    newer = [it for it in sources if os.path.getmtime(it) > os.path.getmtime(PAGE)]
    if newer:
        print(f"not tried: {part}, since {os.path.relpath(newer[0], TOP)} is newer than the page")
    return not newer


def heap():
    if not is_there("the heap", "cc"):
        return
    words = ["-std=gnu11", "-Wall", "-Wextra", "-Werror", "-O1", "-fsanitize=undefined", "-fno-sanitize-recover=all"]
    with tempfile.TemporaryDirectory() as folder:
        for it in ("heap_test", "helpers_test"):
            subprocess.run(["cc", *words, "-o", f"{folder}/{it}", f"{TOP}/web/{it}.c"], check=True)
            said = subprocess.run([f"{folder}/{it}"], stdout=subprocess.PIPE, text=True, check=False).stdout
            same(f"{it}.c", "all as wanted\n", said)


def scripts():
    if is_there("the scripts", "node"):
        words = ["node", f"{TOP}/tests/web_scripts.js"]
        said = subprocess.run(words, capture_output=True, text=True, check=False).stdout
        same("web_scripts.js", "all as wanted\n", said)


def light_of(colour):
    """The relative luminance of a colour, by the definition of the Web Content Accessibility Guidelines."""
    parts = [int(colour[at : at + 2], 16) / 255 for at in (1, 3, 5)]
    linear = [it / 12.92 if it <= 0.04045 else ((it + 0.055) / 1.055) ** 2.4 for it in parts]
    return 0.2126 * linear[0] + 0.7152 * linear[1] + 0.0722 * linear[2]


def contrast(one, other):
    low, high = sorted([light_of(one), light_of(other)])
    return (high + 0.05) / (low + 0.05)


# What stands on what.
ON = {
    "paper": ["ink", "quiet", "strong", "bad", "warn", "name"],
    "sheet": ["ink", "quiet", "strong", "bad", "warn", "keyword", "type", "name", "variable", "mark", "comment"],
    "bad-paper": ["ink", "bad"],
    "here-paper": ["ink", "strong", "bad", "keyword", "type", "name", "variable", "mark", "comment"],
    "strong": ["on-strong"],
}


def colours():
    for scheme, block in zip(("light", "dark"), re.findall(r":root \{(.*?)\}", text_of("web/page.css"), re.S)):
        found = dict(re.findall(r"--([\w-]+): (#\w{6})", block))
        low = [(it, back) for back, all_on in ON.items() for it in all_on if contrast(found[it], found[back]) < 4.5]
        same(f"contrasts by {scheme}", [], low)


def explanation(path, folder, name, texts):
    """What the program explains of an error: its source, code and offset, and the lines without names of texts."""
    paths = [f"{folder}/{i}" for i in range(len(texts))]
    words = [name.split("_")[0], "--explain"]
    if name in ("match", "make"):
        words += ["--", os.fsdecode(texts[0]), paths[1] if name == "match" else os.fsdecode(texts[1])]
    else:
        words += paths
    ran = subprocess.run([path, *words], capture_output=True, check=False)
    source, code = re.match(r"!(\w+) (\w+)\n", ran.stdout.decode()).groups()
    told = ran.stderr.decode().splitlines()
    at = re.match(r"recw: \w+ \w+ at byte (\d+)$", told[0])
    lines = [re.sub(r"^(?:.*/\d|PATTERN|ARGS|<stdin>)(?=:\d+:\d+: |: )(:(?=\d)|: )", "", it) for it in told[bool(at) :]]
    error = {"source": source, "code": code, "at": int(at[1]) if at else None}
    return error, [it for it in lines if not it.startswith("    ")]


def explained(path, of_page, folder, name, texts):
    """The page explains an error as the program does, of texts that are ASCII: others have other columns."""
    of_pattern = {"match": ["pattern", "term"], "make": ["pattern", "args"]}
    known = {"eval": ["spec"], "eval_terms": ["spec", "terms"], **of_pattern}.get(name, ["term"])
    if not all(it.isascii() and len(it) < 100000 for it in texts):
        return 0
    error, wanted = explanation(path, folder, name, texts)
    by_name = {key: it.decode() for key, it in zip(known, texts)}
    found = of_page.send({"name": "explain", "error": error, "texts": by_name})
    same(f"explanation of {error} in {by_name}", wanted, found)
    return 1


def edited(text, count, seed):
    """A text with some of its tokens left out, put in twice, or put elsewhere, in so many ways."""
    chance = random.Random(seed)
    tokens = re.findall(r"[A-Za-z0-9_'-]+|\s+|.", text)
    for _ in range(count):
        made = list(tokens)
        for _ in range(chance.choice([1, 1, 2, 3])):
            i = chance.randrange(len(made) + 1)
            other = [chance.choice([*tokens, "?", "-", '"'])]
            made[i : i + chance.choice([0, 1])] = [] if chance.random() < 0.4 else other
        yield "".join(made)


class Module:
    """The module of the page, in node."""

    # A node that takes memories of 64 bits only when it is asked to.
    WIDE = "--experimental-wasm-memory64"

    def __enter__(self):
        known = subprocess.run(["node", "--v8-options"], stdout=subprocess.PIPE, text=True, check=False).stdout
        words = ["node", *[self.WIDE] * (self.WIDE in known), f"{TOP}/tests/web_module.js", PAGE]
        self.node = subprocess.Popen(words, stdin=subprocess.PIPE, stdout=subprocess.PIPE, text=True)
        return self

    def __exit__(self, *_):
        self.node.stdin.close()
        self.node.wait()

    def ask(self, name, texts, options=None):
        texts = [base64.b64encode(it).decode() for it in texts]
        return self.send({"name": name, "texts": texts, "options": options})

    def send(self, asked):
        self.node.stdin.write(json.dumps(asked) + "\n")
        self.node.stdin.flush()
        return json.loads(self.node.stdout.readline())

    def answer(self, name, texts, options):
        found = self.ask(name, texts, options)
        return found["status"], found["told"], base64.b64decode(found["out"])


def native(path, folder, name, texts, options):
    """The same of the program."""
    paths = []
    for i, text in enumerate(texts):
        paths.append(f"{folder}/{i}")
        with open(paths[-1], "wb") as file:
            file.write(text)
    words = [name, *paths]
    if name.startswith(("eval", "trace", "profile")):
        numbers = [key for key in ("steps", "cells", "memo", "reclaim", "width") if key in options]
        limits = [it for key in numbers for it in (f"--{key}", str(options[key]))]
        flags = [f"--{key}" for key in ("count", "whole") if options.get(key)]
        bound = [] if name.startswith("trace") else ["--bytes", "1000000"]
        words = [name.split("_", 1)[0].replace("profile", "eval"), *limits, *bound, *flags, *paths]
        words += ["--profile"] * (name == "profile")
    elif name == "share_dot":
        words = ["share", "--dot", "--nodes", str(options["nodes"]), *paths]
    elif name == "match":
        words = [name, "--", os.fsdecode(texts[0]), paths[1]]
    elif name == "make":
        words = [name, "--", *map(os.fsdecode, texts)]
    ran = subprocess.run([path, *words], capture_output=True, check=False)
    return ran.returncode, ran.stderr.decode(), ran.stdout


def runs():
    """The runs that are compared: a name, the texts, and the options."""
    tables = itertools.cycle([{}, {"memo": 0, "reclaim": 1}, {"memo": 3, "reclaim": 100}])
    for name, texts, options in evaluations():
        yield name, texts, options
        yield "check", texts[:1], None
        yield "profile", [texts[0], texts[1] if len(texts) > 1 else b"[]"], {**options, **next(tables)}
        # of a trace first the lines without whole terms, and then those with them
        for whole in (False, True):
            limits = {**options, "steps": min(options["steps"], 2000), "width": 400}
            yield name.replace("eval", "trace"), texts, {**limits, "whole": whole}
    terms = re.sub(r"```.*?```", "", text_of("docs/reference/aterm.md"), flags=re.S)
    texts = [it.encode() for it in quoted(terms) if it]
    for text in texts:
        yield "aterm", [text], None
        yield "share", [text], None
        for nodes in (1, 3, 300):
            yield "share_dot", [text], {"nodes": nodes}
    # more output than the first room has: each byte of the name is printed as four
    yield "aterm", [b'"' + b"\xff" * 5000000 + b'"'], None
    for pair in zip(texts, texts[1:]):
        yield "match", [*pair], None
        yield "make", [*pair], None
    yield from mistakes()


def mistakes():
    """Runs over texts of which most have errors, of all codes."""
    base = text_of("examples/q.rec")
    for it in [*edited(base, 200, 1), *edited(text_of("examples/tutorial/sort.rec"), 100, 2)]:
        yield "eval", [it.encode()], {**USUAL, "steps": 1000}
    for it in edited("[f(a),f(f(a)){n(1),[2]},b{c}]", 300, 3):
        yield "eval_terms", [base.encode(), it.encode()], USUAL
    quoting = b"REC-SPEC Q SORTS A B CONS a : -> A x' : -> B 0 : -> A OPNS g : A B -> B VARS X : A EVAL END-SPEC"
    for it in edited("""["0","x'",g("0","x'"),g("\\060",g(a,"x'")),a{1}]""", 300, 4):
        yield "eval_terms", [quoting, it.encode()], USUAL
    pattern = "f(<int>,g(<appl>){<list>},<term>,[<str>,<list>]){<placeholder>}"
    args = '[7,a(b),[n],x,"s",[1,2],<int>]'
    for it in edited(pattern, 200, 5):
        yield "make", [it.encode(), args.encode()], None
    for it in edited(args, 200, 6):
        yield "make", [pattern.encode(), it.encode()], None


def evaluations():
    """The specifications and given terms of these, with limits."""
    for path in sorted(glob.glob(f"{TOP}/examples/**/*.rec", recursive=True)):
        spec = text_of(os.path.relpath(path, TOP)).encode()
        limited = {**USUAL, "steps": 20000} if path.endswith("loop.rec") else USUAL
        yield "eval", [spec], limited
        if os.path.exists(f"{path[:-4]}.trm"):
            with open(f"{path[:-4]}.trm", "rb") as file:
                yield "eval_terms", [spec, file.read()], USUAL
    # each beginning of a specification up to one of its tokens, and each with a byte that is no token there
    text = text_of("examples/dup.rec").encode()
    for it in re.finditer(rb"\S+", text):
        yield "eval", [text[: it.end()]], USUAL
        yield "eval", [text[: it.start()] + b"?" + text[it.start() :]], USUAL
    rules = text_of("docs/reference/rec.md")
    for spec in re.findall(r"`(REC-SPEC [^`]*)`", rules):
        yield "eval", [spec.encode()], USUAL
    base = text_of("examples/q.rec").encode()
    for terms in quoted(rules[rules.index("## Input terms") : rules.index("## Evaluation")]):
        yield "eval_terms", [base, terms.encode()], USUAL
    for spec, terms, limits in specifications.some(300):
        texts = [spec.encode()] if terms is None else [spec.encode(), terms.encode()]
        yield "eval" if terms is None else "eval_terms", texts, {**USUAL, **limits}


def module(path):
    if not is_there("the module", "node") or not has_page("the module"):
        return
    counts, statuses, places, last, explanations = 0, {}, 0, b"", 0
    with Module() as of_page, tempfile.TemporaryDirectory() as folder:
        exports = of_page.ask("exports", [])
        if exports is None:
            print("not tried: the module, since this node takes no memory of 64 bits, and there was no wasm-opt")
            return
        for name, texts, options in runs():
            if f"recw_{name}" not in exports:
                same(f"the module has {name}", name, None)
                return
            # the lines of a check begin with the name of the file
            given = [f"{folder}/0".encode(), *texts] if name == "check" else texts
            wanted, found = native(path, folder, name, texts, options), of_page.answer(name, given, options)
            # a run of the module that met a fault hands nothing over
            wanted = (*wanted[:2], b"") if wanted[0] == 3 else wanted
            same(f"{name} of {[it[:2000] for it in texts]} with {options}", wanted, found)
            if name.startswith("trace") and options["whole"] and found[0] == 0:
                there = of_page.ask("places", [last, found[2]])
                same(f"redexes that are not found in the trace of {texts}", 0, there["lost"])
                places += there["found"]
            last = found[2]
            counts += 1
            if found[0] == 1 and name in ("eval", "eval_terms", "aterm", "match", "make"):
                explanations += explained(path, of_page, folder, name, texts)
            statuses[found[0]] = statuses.get(found[0], 0) + 1
    same("runs end in each way", [0, 1, 3], sorted(statuses))
    same("there are redexes", True, places > 1000)
    same("there are explanations", True, explanations > 1000)
    by_status = dict(sorted(statuses.items()))
    print(f"module: {counts} runs, by status {by_status}; {places} redexes in whole terms; {explanations} explanations")


def browser(pictures=None):
    if is_there("the browser", "chromium", "chromedriver") and has_page("the browser"):
        web_browser.go_through(PAGE, pictures)


def main():
    for part in sys.argv[2:] or ["heap", "colours", "scripts", "module", "browser"]:
        name, _, folder = part.partition("=")
        known = {"heap": heap, "colours": colours, "scripts": scripts, "module": lambda: module(program())}
        known.get(name, lambda: browser(folder))()
    done()


main()
