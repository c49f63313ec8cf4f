#!/usr/bin/env -S python3 -B
"""Compares the commands and options of the help with the manual page, the reference and the completions.

    options.py [--write]

The help is read from the sources of crates/recw_cli, so no built program is needed; tests/help.py compares it with
what the program prints. Completions are tried in the shells that are installed. The lists of options in completions/ are between lines with `options begin` and `options end`;
--write writes them anew.
"""

import re
import shutil
import sys
from typing import NamedTuple

from common import TOP, done, run, same, tables, text_of

SOURCES = ("crates/recw_cli/src/arguments.rt", "crates/recw_cli/src/command.rt")
# What clap adds to the list of commands, and a topic of help that is no command.
HELP_COMMAND = ("help", "Print this message or the help of the given subcommand(s)")
TOPICS = {"refusals": "Print the error codes and their meanings"}
# How a word of the command line is completed; any other is a text.
FILES = {"SPEC", "TERMS", "FILE"}
TOKEN = re.compile(r'\s+|//[^\n]*|(?P<text>"(?:[^"\\]|\\.)*")|(?P<word>\w+(?:::\w+)*)|(?P<mark>.)', re.DOTALL)


class Option(NamedTuple):
    """An option: its value's name and its default are empty if it has none."""

    name: str
    value: str
    about: str
    default: str
    short: str
    repeats: bool
    choices: tuple


class Word(NamedTuple):
    """An argument without dashes."""

    name: str
    needed: bool
    repeats: bool


class Command(NamedTuple):
    """A subcommand."""

    name: str
    about: str
    words: list
    options: list


class Reader:
    """Reads values of constants in a source: structures as dictionaries, calls as tuples, lists, texts and words."""

    def __init__(self, text, at, known):
        self.tokens = (it for it in TOKEN.finditer(text, at) if it.lastgroup)
        self.known = known
        self.step()

    def step(self):
        found = next(self.tokens)
        self.kind, self.token = found.lastgroup, found[0]

    def take(self, mark):
        if self.token != mark:
            raise ValueError(f"{mark} is missing before {self.token}")
        self.step()

    def items(self, end):
        while self.token != end:
            yield self.value()
            if self.token == ",":
                self.step()

    def value(self):
        if self.token == "&":
            self.step()
        if self.kind == "text":
            text = re.sub(r"\\\n\s*", "", self.token[1:-1])
            self.step()
            return text.replace("\\n", "\n").replace('\\"', '"')
        if self.token in "[(":
            end = "])"["[(".index(self.token)]
            self.step()
            found = list(self.items(end))
            self.step()
            return found
        word = self.token
        self.step()
        if self.token == "as":
            self.step()
            self.step()
        if self.token == "{":
            return self.fields()
        if self.token == "(":
            return (word, *self.value())
        return self.known.get(word, word)

    def fields(self):
        self.take("{")
        found = {}
        while self.token != "}":
            name = self.token
            self.step()
            self.take(":")
            found[name] = self.value()
            if self.token == ",":
                self.step()
        # the token after a structure may be the last one
        self.token, self.kind = "", "end"
        for it in self.tokens:
            self.kind, self.token = it.lastgroup, it[0]
            break
        return found


def constants():
    """The constants of the sources that are structures or lists, by their names."""
    known = {}
    pattern = re.compile(r"^(?:pub )?(?:const|static) (\w+): (?:Argument|Subcommand|\[Subcommand; \d+\]) = ", re.M)
    for name in SOURCES:
        text = text_of(name)
        found = list(pattern.finditer(text))
        # lists name constants that come later
        for it in [*(it for it in found if "[" not in it[0]), *(it for it in found if "[" in it[0])]:
            known[it[1]] = Reader(text, it.end(), known).value()
    return known


def option_of(argument):
    kind = argument["kind"]
    value, default, short, repeats, choices = "", "", "", False, ()
    if isinstance(kind, tuple):
        name, given = kind[0].rpartition(":")[2], kind[1]
        if isinstance(given, dict):
            value = given["called"]
            default = given["default"][1] if isinstance(given["default"], tuple) else ""
            choices = tuple(given.get("names", ()))
        elif name == "Input":
            value, short, repeats = "TERM", "-e", True
        elif name in ("FlagWithout", "FlagBeside"):
            pass
        elif name == "Files":
            value, repeats = given, True
        else:
            value = given
    return Option(f"--{argument['name']}", value, argument["help"], default, short, repeats, choices)


def commands():
    """The subcommands in the order of the help, without `help`."""
    found, known = [], constants()
    for it in (*known["EVALUATING"], *known["ON_TERMS"], *known["ON_SPECIFICATIONS"]):
        words, options = [], []
        for argument in it["arguments"]:
            kind = argument["kind"]
            plain = kind.rpartition(":")[2] if isinstance(kind, str) else ""
            if plain in ("Word", "Needed", "Several"):
                words.append(Word(argument["name"], plain != "Word", plain == "Several"))
            else:
                options.append(option_of(argument))
        found.append(Command(it["name"], it["about"], words, options))
    return found


def quoted(text):
    return "'" + text.replace("'", "'\\''") + "'"


def names_of(option):
    return [it for it in (option.short, option.name) if it]


def bash_lists(found):
    """Of each command its words, and its options with the names of their values."""
    yield "_recw_commands=("
    for it in found:
        kinds = ["files" if word.repeats else "file" if word.name in FILES else "text" for word in it.words]
        yield f"    {quoted(' '.join([it.name, *kinds]))}"
    yield "    'help command'"
    yield ")"
    yield "declare -A _recw_options=("
    for it in found:
        values = ["|".join(option.choices) or option.value for option in it.options]
        names = [name + (f"={value}" if value else "") for option, value in zip(it.options, values) for name in names_of(option)]
        yield f"    [{it.name}]={quoted(' '.join(names))}"
    yield ")"
    yield f"_recw_topics=({' '.join(TOPICS)})"


def zsh_text(text):
    return text.replace("[", "\\[").replace("]", "\\]").replace(":", "\\:")


def zsh_options(options):
    """Of each option its name, where its value may follow, what it is for, and its value."""
    for option in options:
        choices = f"({' '.join(option.choices)})" if option.choices else "_files" if option.value in FILES else " "
        about, value = f"[{zsh_text(option.about)}]", f":{zsh_text(option.value)}:{choices}" if option.value else ""
        for name in names_of(option):
            place = "" if not value else "=" if name.startswith("--") else "+"
            yield f"{'*' if option.repeats else ''}{name}{place}{about}{value}"


def zsh_lists(found):
    yield "local -a commands topics help version"
    yield "local options arguments"
    yield "commands=("
    for name, about in [*((it.name, it.about) for it in found), HELP_COMMAND]:
        yield f"    {quoted(f'{name}:{about}')}"
    yield ")"
    for it in found:
        yield f"local -a {it.name}_options {it.name}_words"
        yield f"{it.name}_options=("
        for option in zsh_options(it.options):
            yield f"    {quoted(option)}"
        yield ")"
        words = (f"{'*' if word.repeats else place}:{word.name}:{'_files' if word.name in FILES else ' '}"
                 for place, word in enumerate(it.words, 1))
        yield f"{it.name}_words=({' '.join(quoted(word) for word in words)})"
    yield "topics=("
    for name, about in TOPICS.items():
        yield f"    {quoted(f'{name}:{about}')}"
    yield ")"


def fish_lists(found):
    names = " ".join([*(it.name for it in found), "help"])
    yield f"set -l first 'not __fish_seen_subcommand_from {names}'"
    for name, about in [*((it.name, it.about) for it in found), HELP_COMMAND]:
        yield f'complete -c recw -n "$first; or $help" -a {name} -d {quoted(about)}'
    for name, about in TOPICS.items():
        yield f"complete -c recw -n $help -a {name} -d {quoted(about)}"
    with_files = " ".join(it.name for it in found if any(word.name in FILES for word in it.words))
    yield f"complete -c recw -n '__fish_seen_subcommand_from {with_files}' -F"
    for it in found:
        for option in it.options:
            short = f"-s {option.short[1:]} " if option.short else ""
            choices = f"-x -a {quoted(' '.join(option.choices))} " if option.choices else ""
            value = choices or ("-r " if option.value in FILES else "-x " if option.value else "")
            head = f"complete -c recw -n '__fish_seen_subcommand_from {it.name}'"
            yield f"{head} {short}-l {option.name[2:]} {value}-d {quoted(option.about)}"


COMPLETIONS = {"recw.bash": bash_lists, "_recw": zsh_lists, "recw.fish": fish_lists}
LISTS = re.compile(r"(?<=# options begin\n).*(?=# options end\n)", re.DOTALL)


def check_completions(found, anew):
    for name, lists in COMPLETIONS.items():
        path = f"completions/{name}"
        wanted = "\n".join([*lists(found), ""])
        if anew:
            text = LISTS.sub(lambda _, wanted=wanted: wanted, text_of(path))
            with open(f"{TOP}/{path}", "w", encoding="utf-8") as file:
                file.write(text)
        have = LISTS.search(text_of(path))
        same(f"{path} (--write renews its lists)", wanted.splitlines(), have[0].splitlines() if have else None)


def row_of(option):
    """A row of a table of options: name, value and default."""
    return option.name, option.value, option.default or ("none" if option.value else "off")


def rows_of_table(found):
    """The rows that the tables of the manual page need: of all commands, each different row once."""
    rows = []
    for it in found:
        # a command with a default of its own has it in the text
        if it.name != "serve":
            rows += [row for row in map(row_of, it.options) if row not in rows]
    return rows


def synopsis_of(it):
    """The words of a command, with brackets around those that may be left out."""
    shown = ""
    for word in reversed(it.words):
        both = f"{word.name}{'...' if word.repeats else ''}{' ' if shown else ''}{shown}"
        shown = both if word.needed else f"[{both}]"
    return shown


def words_of_synopsis(part):
    """The words of a command in the synopsis, and those of them that may be left out."""
    named, optional = [], []
    for line in part.splitlines():
        before = ""
        for name in re.findall(r"\S+", line.removeprefix(".")):
            if before == "Ar" and name.isupper() and "Fl" not in line.split(name)[0].split("Op")[-1]:
                named.append(name)
                if "Op" in line.split(f"Ar {name}")[0]:
                    optional.append(name)
            before = name
    return named, optional


def check_manual(found):
    page = text_of("recw.1")
    synopsis = page.split(".Sh SYNOPSIS")[1].split(".Sh ")[0]
    shown = {}
    for part in synopsis.split("\n.Nm\n"):
        lines = [it.removeprefix(".").split() for it in part.splitlines()]
        for line in lines:
            if line and line[0] == "Cm":
                shown[line[1]] = part
    names = [*(it.name for it in found), "help"]
    same("manual: commands of the synopsis", names, list(shown))
    same("manual: commands", names, re.findall(r"^\.It Cm (\w+)", page, re.M))
    for it in found:
        part = shown.get(it.name, "")
        named, optional = words_of_synopsis(part)
        same(f"manual: words of {it.name}", [word.name for word in it.words], named)
        wanted = [word.name for word in it.words if not word.needed]
        same(f"manual: words of {it.name} that may be left out", wanted, optional)
        if "Ar option ..." not in part:
            own = {option.name[2:] for option in it.options} - {"explain"}
            same(f"manual: options of {it.name} in the synopsis", own, set(re.findall(r"Fl -([\w-]+)", part)))
    row = r"^\.It Fl -([\w-]+)(?: Ar ([\w:]+))? Ta (\S+) Ta ."
    rows = [(f"--{it[0]}", it[1], it[2]) for it in re.findall(row, page, re.M)]
    same("manual: rows of the tables of options", sorted(rows_of_table(found)), sorted(set(rows)))


def check_reference(found):
    """Compares the synopses and the tables of options of docs/reference/cli.md."""
    page = text_of("docs/reference/cli.md")
    sections = re.split(r"^## ", page, flags=re.M)
    for it in found:
        section = next((s for s in sections if s.startswith(f"recw {it.name}\n\n`recw {it.name} ")), "")
        head = section.partition("\n\n`")[2].partition("`")[0]
        words = re.sub(r"\[--[^\]]*\]|\[OPTIONS\]", "", head.removeprefix(f"recw {it.name}"))
        same(f"reference: words of {it.name}", synopsis_of(it), " ".join(words.split()))
        found_options = re.findall(r"--[\w-]+", head)
        for columns, rows in tables(section):
            for cells in rows if columns[0] == "Option" else ():
                named = re.findall(r"(--[\w-]+)(?: ([A-Z:]+))?", cells[0])
                found_options += [name for name, _ in named]
                for option in it.options:
                    if len(named) == 1 and option.name == named[0][0]:
                        default = option.default or cells[1]
                        have = (named[0][1], cells[1])
                        same(f"reference: {it.name} {option.name}", (option.value, default), have)
        wanted = sorted(option.name for option in it.options)
        same(f"reference: options of {it.name}", wanted, sorted(set(found_options)))


def check_bash(names, options):
    script = """
        source "$0/completions/recw.bash"
        COMP_WORDS=("$@"); COMP_CWORD=$(($# - 1)); _recw; printf '%s\\n' "${COMPREPLY[@]}"
    """

    def offered(*words):
        return run(["bash", "-c", script, TOP, *words], cwd=f"{TOP}/examples").split()

    same("bash: commands", sorted(names), sorted(offered("recw", "")))
    same("bash: commands of help", sorted([*names, *TOPICS]), sorted(offered("recw", "help", "")))
    same("bash: one command", ["share"], offered("recw", "sh"))
    for name in names:
        wanted = ["--help", *[each for it in options[name] for each in names_of(it)]]
        same(f"bash: options of {name}", sorted(wanted), sorted(offered("recw", name, "-")))
    with_files = (["eval"], ["eval", "q.rec"], ["eval", "-e", "z"], ["aterm"], ["share"], ["match", "x"])
    with_more = (["check"], ["check", "--strict", "a", "b"], ["join", "a", "b"], ["trace", "a"])
    for words in (*with_files, *with_more, ["trace", "--rule", "3", ":", "5", "a"]):
        same(f"bash: files behind {words}", ["add.rec", "add.trm"], offered("recw", *words, "add"))
    for words in (["--format", ""], ["--format", "="], ["a", "--format", "=", ""]):
        same(f"bash: values behind {words}", ["gnu", "json"], offered("recw", "check", *words))
    same("bash: one value", ["json"], offered("recw", "check", "--format", "j"))
    with_none = (["match"], ["make"], ["make", "x"], ["aterm", "x"], ["eval", "a", "b"], ["share", "--nodes"], ["eval", "-e"])
    for words in (*with_none, ["trace", "a", "b"]):
        same(f"bash: no files behind {words}", [], offered("recw", *words, "add"))
    for option in options["eval"]:
        wanted = [] if option.value and option.value not in FILES else ["add.rec", "add.trm"]
        same(f"bash: behind {option.name}", wanted, offered("recw", "eval", option.name, "add"))
        if option.value:
            for value in (["3"], ["=", "3"]):
                words = ["recw", "eval", option.name, *value]
                same(f"bash: behind {words}", ["add.rec", "add.trm"], offered(*words, "add"))
                same(f"bash: third file behind {words}", [], offered(*words, "a", "b", "add"))


def check_fish(names, abouts, options):
    def offered(line):
        script = 'source $argv[1]/completions/recw.fish; complete -C "$argv[2]"'
        lines = run(["fish", "--no-config", "-c", script, TOP, line], cwd=f"{TOP}/examples")
        return sorted(tuple(it.split("\t")) for it in lines.splitlines())

    help_option = ("--help", "Print help")
    same("fish: commands", sorted(abouts.items()), offered("recw "))
    same("fish: commands of help", sorted([*abouts.items(), *TOPICS.items()]), offered("recw help "))
    for name in names:
        wanted = [(it.name, it.about) for it in options[name]]
        same(f"fish: options of {name}", sorted([help_option, *wanted]), offered(f"recw {name} --"))
    same("fish: values", [("gnu",), ("json",)], [it[:1] for it in offered("recw check --format ")])
    lines = ("eval", "eval --count", "trace", "trace --whole a", "aterm", "share", "match x", "check", "check a")
    for line in lines:
        same(f"fish: files behind {line}", [("add.rec",), ("add.trm",)], offered(f"recw {line} add"))
    for line in ("make", *[f"eval {it.name}" for it in options["eval"] if it.value and it.value not in FILES]):
        same(f"fish: no files behind {line}", [], offered(f"recw {line} add"))


def check_zsh(abouts, options):
    script = """
        _describe() { print -rl -- "${(@P)4}" }
        _arguments() { print -rl -- "$@" }
        complete() { source $file }
        file=$1 words=("${@:2}") CURRENT=$(($# - 1)); complete
    """

    def offered(*words):
        file = f"{TOP}/completions/_recw"
        return run(["zsh", "--no-rcs", "-c", script, "zsh", file, *words]).splitlines()

    helps = ["(- *)-h[Print help]", "(- *)--help[Print help]"]
    listed = [f"{name}:{about}" for name, about in abouts.items()]
    versions = ["(- *)-V[Print version]", "(- *)--version[Print version]"]
    same("zsh: commands", [*listed, *helps, *versions], offered("recw", ""))
    topics = [f"{name}:{about}" for name, about in TOPICS.items()]
    same("zsh: commands of help", [*listed, *topics], offered("recw", "help", ""))
    for name in abouts:
        own = list(zsh_options(options[name]))
        found = [it for it in offered("recw", name, "-") if "-" in it.partition("[")[0]]
        same(f"zsh: options of {name}", [*helps, *own] if name != "help" else [], found)


def check_shells(found):
    abouts = {**{it.name: it.about for it in found}, HELP_COMMAND[0]: HELP_COMMAND[1]}
    options = {**{it.name: it.options for it in found}, "help": []}
    shells = {
        "bash": lambda: check_bash(list(abouts), options),
        "fish": lambda: check_fish(list(abouts), abouts, options),
        "zsh": lambda: check_zsh(abouts, options),
    }
    for shell, check in shells.items():
        if shutil.which(shell):
            check()
        else:
            print(f"not tried: {shell} is not here")


def main():
    found = commands()
    same("commands", True, len(found) > 5 and all(it.about and (it.options or it.words) for it in found))
    check_completions(found, sys.argv[1:] == ["--write"])
    check_shells(found)
    check_manual(found)
    check_reference(found)
    done()


if __name__ == "__main__":
    main()
