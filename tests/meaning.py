#!/usr/bin/env -S python3 -B
"""Checks the definitions that public contracts reach: meaning.py [--list | --write].

A reader has to believe the definitions that the clauses of public functions cite, and those that these cite in turn.
Each of them has to have a comment: above it or above its paragraph, or in a list of the file's names in a comment.
tests/meaning.txt has the number of definitions without one for each file that still has some; this number may only
fall, and --write renews it and the table of docs/MEANING.md. The table of docs/MEANING.md has to name each file with such definitions: those that the
runs of the program reach in one column, all others in the next one. The files that no public contract reaches, and
only these, are in specs/Inner. With --list each file is printed with how it is reached, and each definition without a
comment.
"""

import collections
import glob
import re
import sys

from common import TOP, done, quoted, same, tables, text_of

# the runs of the program, whose contracts are the headline
RUNS = {
    "rec_run": {"run_given", "run_over", "run", "run_at"},
    "rx_run": {"print_term", "share_term", "match_term", "make_term"},
}
# the crates of tests are no libraries
TESTS = {"test_store"}
IMPORT = re.compile(r"^\s*(?:ghost )?use Rattle\.(\w+)\.specs\.([\w.]+?)(?:\.\{(.*?)\}| as (\w+))?;?\s*$")
WORD = re.compile(r"[^\s(){}\[\],;`\"@λ]+")
ITEM = re.compile(r"^(?:abbrev |record |data |ruleset )?(?:pub )?(?:abbrev |record |data )?([^\s(){}:]+)")
PUBLIC = re.compile(r"^\s*pub (?:const )?(?:unsafe )?(?:extern \"C\" )?fn (\w+)")
# the methods of a trait are as public as the trait
TRAIT = re.compile(r"^(?:pub trait|(?:unsafe )?impl\b.* for )\b")
METHOD = re.compile(r"^ {4}(?:unsafe )?fn (\w+)")
LISTED = "tests/meaning.txt"
# a clause of the run that a reporter observes cites what it says of a value
FACT = re.compile(r"^\s*(?:pub ghost \w+:|ghost says =)")
# the head of a function ends where its body begins
BODY = re.compile(r"^\s*\{\s*\}?\s*$|^.*\)\s*(?:->\s*[^{]*)?\{\s*$|^.*;\s*$")


def lines_joined(text):
    """The lines of a text, where an import over several lines is one."""
    kept = ""
    for line in text.splitlines():
        kept += line if not kept else " " + line.strip()
        if re.match(r"\s*(?:ghost )?use [^;]*\{[^}]*$", kept):
            continue
        yield kept
        kept = ""


class File:
    """A file of definitions: what each of its words cites, and what it brings in."""

    def __init__(self, path):
        self.path = path
        self.imports = Imports()
        self.words = collections.defaultdict(set)
        item = None
        for line in lines_joined(text_of(path)):
            if line.startswith("--"):
                continue
            if IMPORT.match(line):
                self.imports.add(line)
                continue
            found = ITEM.match(line)
            if found and not line[0].isspace():
                item = found.group(1)
            if item and not line.startswith(("use ", "pub use ", "mod ", "pub mod ")):
                self.words[item] |= set(WORD.findall(line.split("-- ")[0]))


class Imports:
    """Which file a word comes from."""

    def __init__(self):
        self.words = {}
        self.modules = {}

    def add(self, line):
        crate, module, names, short = IMPORT.match(line).groups()
        path = f"crates/{crate}/specs/{module.replace('.', '/')}.antt"
        if names is None:
            self.modules[short or module.split(".")[-1]] = path
            return
        for name in filter(None, (it.strip() for it in names.split(","))):
            own, _, new = name.partition(" as ")
            self.words[new or own] = path, own

    def of(self, word):
        """The file and the word there, or None."""
        if word in self.words:
            return self.words[word]
        head, _, rest = word.partition(".")
        return (self.modules[head], rest) if rest and head in self.modules else None


def spec_files():
    found = glob.glob("crates/*/specs/**/*.antt", root_dir=TOP, recursive=True)
    return {it: File(it) for it in sorted(found) if not it.endswith(("/Lib.antt", "/Inner.antt"))}


def exported(crate):
    """The names that a crate's root file hands out, and whether it declares modules that are public."""
    text = " ".join(lines_joined(text_of(f"crates/{crate}/src/lib.rt")))
    names = set()
    for used in re.findall(r"pub use ([^;]*);", text):
        names |= set(re.findall(r"\w+", used))
    return names, set(re.findall(r"pub mod (\w+);", text))


def clauses_of(path):
    """Each public function of a source, with the words of its clauses by the file that they come from."""
    imports, name, words, in_trait = Imports(), None, set(), False
    for line in lines_joined(text_of(path)):
        if IMPORT.match(line):
            imports.add(line)
            continue
        if line[:1].strip():
            in_trait = bool(TRAIT.match(line))
        if FACT.match(line):
            yield "", {it for it in map(imports.of, WORD.findall(line)) if it}
        found = PUBLIC.match(line) or in_trait and METHOD.match(line)
        if found:
            name, words = found.group(1), set()
        if name is None:
            continue
        words |= set(WORD.findall(line.split("//")[0]))
        if BODY.match(line):
            yield name, {it for it in map(imports.of, words) if it}
            name = None


def public_clauses(wanted):
    """The words of specs/ that public functions cite: of all crates, or of the functions that are named."""
    for root in sorted(glob.glob("crates/*/src/lib.rt", root_dir=TOP)):
        crate = root.split("/")[1]
        for path in sorted(glob.glob(f"crates/{crate}/src/**/*.rt", root_dir=TOP, recursive=True)):
            for name, cited in clauses_of(path):
                if wanted is None or name in wanted.get(crate, ()):
                    yield from cited


def reached(files, first):
    """The words that are cited, in turn, each with its file."""
    seen, due = set(), list(first)
    while due:
        path, word = due.pop()
        if (path, word) in seen or path not in files:
            continue
        seen.add((path, word))
        file = files[path]
        for other in file.words.get(word, ()):
            there = file.imports.of(other)
            if there:
                due.append(there)
            elif other in file.words:
                due.append((path, other))
            elif other.partition(".")[0] in file.words:
                due.append((path, other.partition(".")[0]))
    return seen


def uncommented(path):
    """The definitions of a file that have no comment, neither above their paragraph nor by their name."""
    lines = text_of(path).splitlines()
    named = set(re.findall(r"[^\s,;:.`()]+", " ".join(it[2:] for it in lines if it.startswith("--"))))
    found, explained = {}, False
    for line in lines:
        if not line or line.startswith("--"):
            explained = bool(line)
        elif not line[0].isspace() and not re.match(r"(?:pub )?(?:use|mod) ", line):
            item = ITEM.match(line)
            if item and item[1] not in found:
                found[item[1]] = explained or item[1] in named
    return {it for it, explained in found.items() if not explained}


def without_comment(files, words):
    """For each file its reached definitions without a comment."""
    found = {}
    for path in files:
        bare = {word for it, word in words if it == path and word in files[path].words} & uncommented(path)
        if bare:
            found[path] = sorted(bare)
    return found


def allowed():
    """How many definitions of a file may still be without a comment."""
    rows = (it.split() for it in text_of(LISTED).splitlines() if it and not it.startswith("#"))
    return {path: int(count) for path, count in rows}


def write(bare):
    head = "# Files with definitions that public contracts reach and that have no comment, with their number. It may only"
    with open(f"{TOP}/{LISTED}", "w", encoding="utf-8") as file:
        file.write(f"{head}\n# fall; `tests/meaning.py --write` renews this list.\n")
        file.writelines(f"{path} {len(words)}\n" for path, words in sorted(bare.items()))


def write_table(runs, others):
    """Puts these files into the table of docs/MEANING.md, by its crates in their order."""
    text = text_of("docs/MEANING.md")
    for line in re.findall(r"^\| `\w+` \|.*$", text[text.index("| Crate |") :], re.M):
        crate = quoted(line)[0]
        cells = (", ".join(f"`{it}`" for it in sorted(names_in(crate, files))) for files in (runs, others))
        text = text.replace(line, f"| `{crate}` | " + " | ".join(cells) + " |")
    with open(f"{TOP}/docs/MEANING.md", "w", encoding="utf-8") as file:
        file.write(text.replace("|  |", "| |"))


def names_in(crate, files):
    """The names of those of these files that are of a crate."""
    folder = f"crates/{crate}/specs/"
    return {it[len(folder) : -len(".antt")] for it in files if it.startswith(folder)}


def named_files():
    """The files of the table of docs/MEANING.md: those that runs reach, and those that other public contracts do."""
    columns = set(), set()
    for head, rows in tables(text_of("docs/MEANING.md")):
        if head[0] == "Crate":
            for crate, *cells in rows:
                for column, cell in zip(columns, cells):
                    column |= {f"crates/{quoted(crate)[0]}/specs/{it}.antt" for it in quoted(cell)}
    return columns


def main():
    files = spec_files()
    runs = {path for path, _ in reached(files, public_clauses(RUNS))}
    words = reached(files, public_clauses(None))
    public = {path for path, _ in words}
    bare = without_comment(files, words)
    if sys.argv[1:] == ["--list"]:
        for path in files:
            kind = "run" if path in runs else "public" if path in public else "inner"
            print(f"{kind:<7} {len(text_of(path).splitlines()):>4} {path} {' '.join(bare.get(path, ()))}".rstrip())
        return
    others = {it for it in public - runs if it.split("/")[1] not in TESTS}
    if sys.argv[1:] == ["--write"]:
        write(bare)
        write_table(runs, others)
        return
    named_for_runs, named_for_others = named_files()
    same("files that runs reach, in docs/MEANING.md", sorted(runs), sorted(named_for_runs))
    same("files that other public contracts reach, in docs/MEANING.md", sorted(others), sorted(named_for_others))
    inner = {it for it in files if "/Inner/" in it}
    beside = {it for it in set(files) - public - inner if it.split("/")[1] not in TESTS}
    same("files outside of specs/Inner that no public contract reaches", [], sorted(beside))
    same("files of specs/Inner that a public contract reaches", [], sorted(inner & public))
    most = allowed()
    for path, names in bare.items():
        if len(names) > most.get(path, 0):
            same(f"definitions without a comment: {path}", most.get(path, 0), names)
    same(f"files of {LISTED} that are not there", [], sorted(set(most) - set(files)))
    done()


main()
