#!/usr/bin/env -S python3 -B
"""Compares highlighting by Vim, by the TextMate grammar, and by the page of web/ with the tokens of the reference, on all
examples; and what editors read of the lines of a check. Tests the files and the task of the extension for Visual Studio
Code. With a program, tests the language server, also with Neovim, Emacs and the client of the extension, and the prompt,
on a terminal: editors.py [PROGRAM]"""

import glob
import json
import os
import re
import shutil
import sys
import tempfile

from common import TOP, done, run, same
from language_server import try_server
from new_user import try_new_user
from prompt_session import try_prompt

SECTIONS = {"REC-SPEC", "SORTS", "CONS", "OPNS", "VARS", "RULES", "EVAL", "END-SPEC"}

# The tokens' table of docs/reference/rec.md, and words of sections within other words.
TRICKY = """REC-SPEC T % comment: SORTS -> if é
SORTS A a-CONS CONSX B' -CONS
CONS a : A B -> A b: ->A OPNS-x : -> A é CONS' :->B
VARS X Y : A Z:B
RULES a->b f(X)->if a-b a-1 a'-b if-X and-ifs END-SPECS if' END-SPEC' If rec-spec 0 007 1a x' _
a--b a-'b a- 'a a-><-b a->/<-b ->-><- -><b ->/<b b%x
f ( a , g(b) ) and-if ? SORTS-
EVAL f(a)END-SPEC-
END-SPEC%
"""

SORT = ("recSort", "entity.name.type")
DECLARED = ("recDeclared", "entity.name.function")
VARIABLE = ("recVariable", "variable.other")
APPLIED = ("recApplied", "entity.name.function")
OTHER = ("recWord", "meta.word")

# What some words are, by their lines, from 0, in Vim and in the grammar.
WORDS = {
    "add.rec": {
        0: {"Add": OTHER},
        1: {"Nat": SORT},
        3: {"z": DECLARED, "Nat": SORT},
        4: {"s": DECLARED, "Nat": SORT},
        6: {"plus": DECLARED, "Nat": SORT},
        8: {"X": VARIABLE, "Y": VARIABLE, "Nat": SORT},
        10: {"plus": APPLIED, "z": OTHER, "Y": OTHER},
    },
    "tricky": {
        1: {"A": SORT, "a-CONS": SORT, "B'": SORT},
        2: {"a": DECLARED, "A": SORT, "B": SORT, "b": DECLARED},
        3: {"X": VARIABLE, "A": SORT, "Z": VARIABLE, "B": SORT},
        6: {"f": APPLIED, "a": OTHER, "g": APPLIED, "b": OTHER},
    },
}

# The kind of token that each group and scope stands for.
KINDS = {
    "": "layout",
    "recComment": "comment",
    "recSection": "section",
    "recConditional": "conditional",
    "recArrow": "arrow",
    "recCondition": "condition",
    "recMark": "mark",
    "recError": "bad",
    **dict.fromkeys(["recWord", "recSort", "recDeclared", "recVariable", "recApplied"], "word"),
    "comment.line.percentage": "comment",
    "keyword.control.section": "section",
    "keyword.control.conditional": "conditional",
    "keyword.operator.arrow": "arrow",
    "keyword.operator.condition": "condition",
    "punctuation.separator": "mark",
    "invalid.illegal": "bad",
    **dict.fromkeys(["meta.word", "entity.name.type", "entity.name.function", "variable.other"], "word"),
}


def kinds_of(line):
    """The kind of each character of a line, by the definition of tokens."""
    kinds = []
    while len(kinds) < len(line):
        rest = line[len(kinds) :]
        word = re.match(r"[A-Za-z0-9_](?:[A-Za-z0-9_']|-(?=[A-Za-z0-9_]))*", rest)
        mark = re.match(r"->/<-|-><-|->|[:(),]", rest)
        if rest[0] in " \t\r":
            kinds += ["layout"]
        elif rest[0] == "%":
            kinds += ["comment"] * len(rest)
        elif word and word[0] in SECTIONS:
            kinds += ["section"] * len(word[0])
        elif word and word[0] in ("if", "and-if"):
            kinds += ["conditional"] * len(word[0])
        elif word:
            kinds += ["word"] * len(word[0])
        elif mark:
            kind = {"->": "arrow", "-><-": "condition", "->/<-": "condition"}.get(mark[0], "mark")
            kinds += [kind] * len(mark[0])
        else:
            kinds += ["bad"]
    return kinds


def vim_groups(text, room):
    """The name of the syntax item of each character, line by line."""
    with open(f"{room}/text.rec", "w", encoding="utf-8") as file:
        file.write(text)
    with open(f"{room}/dump.vim", "w", encoding="utf-8") as file:
        file.write(f"""
set encoding=utf-8 nocompatible runtimepath^={TOP}/editors/vim
filetype plugin on
syntax on
edit {room}/text.rec
let s:lines = []
for s:line in range(1, line('$'))
  let s:text = getline(s:line)
  let s:at = map(range(strchars(s:text)), 'byteidx(s:text, v:val) + 1')
  call add(s:lines, join(map(s:at, 'synIDattr(synID(s:line, v:val, 1), "name")'), ','))
endfor
call writefile(s:lines, '{room}/groups')
qall!
""")
    run(["vim", "-es", "-n", "-i", "NONE", "-u", f"{room}/dump.vim"])
    with open(f"{room}/groups", encoding="utf-8") as file:
        return [line.split(",") if line else [] for line in file.read().split("\n")[:-1]]


class Grammar:
    """What of TextMate grammars rec.tmLanguage.json uses: match, begin and end with one capture, include."""

    def __init__(self):
        with open(f"{TOP}/editors/vscode/rec.tmLanguage.json", encoding="utf-8") as file:
            self.whole = json.load(file)

    def flat(self, patterns):
        for it in patterns:
            if "include" in it:
                inner = self.whole["repository"][it["include"][1:]]
                yield from self.flat([inner] if "match" in inner or "begin" in inner else inner["patterns"])
            else:
                yield it

    def scopes(self, text):
        """The innermost scope of each character, line by line."""
        stack = [self.whole]
        return [self.line(line, stack) for line in text.split("\n")[:-1]]

    def line(self, line, stack):
        scopes, at = [""] * len(line), 0
        while True:
            region = stack[-1]
            # the end of a region comes before what begins at the same place
            tried = [(region, region["end"])] if len(stack) > 1 else []
            tried += [(it, it.get("match") or it["begin"]) for it in self.flat(region["patterns"])]
            found = [(it, re.compile(how).search(line, at)) for it, how in tried]
            found = [(it, match) for it, match in found if match]
            if not found:
                return scopes
            item, match = min(found, key=lambda it: it[1].start())
            if item is region:
                stack.pop()
                name = item["endCaptures"]["1"]["name"] if match[0] else ""
            elif "begin" in item:
                stack.append(item)
                name = item["beginCaptures"]["1"]["name"]
            else:
                name = item["name"]
            scopes[match.start() : match.end()] = [name.removesuffix(".rec")] * len(match[0])
            at = match.end()


PARTS = """const [, script, grammar] = process.argv, fs = require('fs');
const found = require(script).namedParts(JSON.parse(fs.readFileSync(grammar)), fs.readFileSync(0, 'utf8'));
process.stdout.write(JSON.stringify(found));"""


def page_scopes(text):
    """The scope of each character, line by line, as the page finds it."""
    words = ["node", "-e", PARTS, f"{TOP}/web/grammar.js", f"{TOP}/editors/vscode/rec.tmLanguage.json"]
    scopes = [""] * len(text)
    for part in json.loads(run(words, input=text)):
        scopes[part["from"] : part["to"]] = [part["name"].replace("-", ".")] * (part["to"] - part["from"])
    ends = [at for at, it in enumerate(text) if it == "\n"]
    return [scopes[begin:end] for begin, end in zip([0, *[it + 1 for it in ends]], ends)]


def check(name, text, found, which):
    wanted = [kinds_of(line) for line in text.split("\n")[:-1]]
    for at, (line, kinds) in enumerate(zip(text.split("\n"), wanted)):
        same(f"{which}, {name}, {line!r}", kinds, [KINDS.get(it, it) for it in found[at]])
    for row, words in WORDS.get(name, {}).items():
        line = text.split("\n")[row]
        for word, names in words.items():
            column = re.search(rf"(?<![\w'-]){re.escape(word)}(?![\w'-])", line).start()
            index = 0 if which == "vim" else 1
            same(f"{which}, {name}, {line!r}, {word}", names[index], found[row][column])


# Lines of a check, and what is read of each: the file, the line, the column, the code, the rest, and the severity.
LINES = (
    (
        "check/a.rec:7:8: error: undeclared symbol or variable in RULES or EVAL: zero [S5]",
        ("check/a.rec", "7", "8", "S5", "undeclared symbol or variable in RULES or EVAL: zero", "error"),
    ),
    (
        "b.rec:1:1: error: syntax error in the specification [G]",
        ("b.rec", "1", "1", "G", "syntax error in the specification", "error"),
    ),
    (
        "c d.rec:12:30: warning: unused variable: Z [W4]",
        ("c d.rec", "12", "30", "W4", "unused variable: Z", "warning"),
    ),
)

# A stand-in for Visual Studio Code: it prints the tasks that an extension provides.
EDITOR = """
const [, folder] = process.argv, Module = require('module'), load = Module._load;
class ShellExecution { constructor(command, args, options) { Object.assign(this, { command, args, options }); } }
class Task {
  constructor(definition, scope, name, source, run, matchers) {
    Object.assign(this, { definition, scope, name, source, run, matchers });
  }
}
const workspace = { getConfiguration: () => ({ get: (key, value) => value }) };
const tasks = { registerTaskProvider: (type, provider) => ({ type, provider }) };
const vscode = { ShellExecution, Task, TaskScope: { Workspace: 2 }, TaskGroup: { Build: 'build' }, workspace, tasks };
Module._load = (name, ...more) => (name === 'vscode' ? vscode : load(name, ...more));
const context = { subscriptions: [] };
require(folder).activate(context);
const [{ type, provider }] = context.subscriptions;
const given = provider.provideTasks();
process.stdout.write(JSON.stringify({ type, given, again: provider.resolveTask(given[0]) }));
"""


def severity_of(matcher, found):
    """The severity of a problem, as Visual Studio Code reads it."""
    word = found[matcher["pattern"]["severity"]]
    return word if word in ("error", "warning", "info") else matcher["severity"]


def check_extension():
    """The extension names files that are there, and its task checks the open file."""
    folder = f"{TOP}/editors/vscode"
    with open(f"{folder}/package.json", encoding="utf-8") as file:
        about = json.load(file)
    with open(f"{folder}/language-configuration.json", encoding="utf-8") as file:
        word = re.compile(json.load(file)["wordPattern"])
    same("language configuration: words", ["a-b", "B'", "c", "0x_"], word.findall("a-b B'-> %c- 0x_"))
    given = about["contributes"]
    named = [about["main"], given["languages"][0]["configuration"], given["grammars"][0]["path"]]
    same("extension: files", [], [it for it in named if not os.path.exists(f"{folder}/{it}")])
    with open(f"{folder}/rec.tmLanguage.json", encoding="utf-8") as file:
        same("extension: scope", json.load(file)["scopeName"], given["grammars"][0]["scopeName"])
    same("extension: language", given["languages"][0]["id"], given["grammars"][0]["language"])
    if not shutil.which("node"):
        print("not tried: the task of the extension, since there is no node")
        return
    found = json.loads(run(["node", "-e", EDITOR, folder]) or "{}")
    same("extension: kind of task", given["taskDefinitions"][0]["type"], found.get("type"))
    same("extension: the task that is named", found.get("given"), [found.get("again")])
    task = found["given"][0]
    same("extension: definition", {"type": "recw", "command": "check"}, task["definition"])
    same("extension: command", ["recw", "check", "${relativeFile}"], [task["run"]["command"], *task["run"]["args"]])
    same("extension: matchers", [f"${it['name']}" for it in given["problemMatchers"]], task["matchers"])


def check_lines(room):
    """The lines of a check are read by the problem matcher, and by Vim's compiler."""
    with open(f"{TOP}/editors/vscode/package.json", encoding="utf-8") as file:
        matcher = json.load(file)["contributes"]["problemMatchers"][0]
    pattern = matcher["pattern"]
    for line, wanted in LINES:
        match = re.fullmatch(pattern["regexp"], line)
        parts = ("file", "line", "column", "code", "message")
        found = match and (*(match[pattern[it]] for it in parts), severity_of(matcher, match))
        same(f"problem matcher: {line}", wanted, found)
    if not shutil.which("vim") or "+quickfix" not in run(["vim", "--version"]):
        print("not tried: vim with quickfix is not here")
        return
    with open(f"{room}/lines", "w", encoding="utf-8") as file:
        file.write("".join(f"{line}\n" for line, _ in LINES))
    with open(f"{room}/make.vim", "w", encoding="utf-8") as file:
        file.write(f"""
set nocompatible runtimepath^={TOP}/editors/vim
compiler recw
cgetfile {room}/lines
call writefile(map(getqflist(), 'bufname(v:val.bufnr).";".v:val.lnum.";".v:val.col'), '{room}/found')
qall!
""")
    run(["vim", "-es", "-n", "-i", "NONE", "-u", f"{room}/make.vim"])
    with open(f"{room}/found", encoding="utf-8") as file:
        found = file.read().splitlines()
    same("vim: places of a check", [";".join(wanted[:3]) for _, wanted in LINES], found)


def main():
    texts = {"tricky": TRICKY}
    for path in sorted(glob.glob(f"{TOP}/examples/**/*.rec", recursive=True)):
        with open(path, encoding="utf-8") as file:
            texts[path.rpartition("/")[2]] = file.read()
    grammar = Grammar()
    has_vim = shutil.which("vim") and "+syntax" in run(["vim", "--version"])
    if not has_vim:
        print("not tried: vim with syntax is not here")
    has_node = shutil.which("node")
    if not has_node:
        print("not tried: the colours of the page, since there is no node")
    check_extension()
    with tempfile.TemporaryDirectory() as room:
        check_lines(room)
        try_server(room)
        if len(sys.argv) > 1:
            try_new_user()
        try_prompt(room)
        for name, text in texts.items():
            check(name, text, grammar.scopes(text), "grammar")
            if has_node:
                check(name, text, page_scopes(text), "page")
            if has_vim:
                check(name, text, vim_groups(text, room), "vim")
    done()


main()
