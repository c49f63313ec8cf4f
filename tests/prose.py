#!/usr/bin/env -S python3 -B
"""Counts phrases that are hard to read, per 1,000 words: prose.py [--all | --write] [TEXT..].

Measured are each Markdown document, the manual page, and of each crate its doc comments, its strings (help and
messages) and the comments of its definitions. Code and code marks are left out. A text may not be over its bound, and
no doc comment may begin with "The same". tests/prose.txt lists the texts of crates that still are over, with their
figures, and of each crate the number of such comments; a figure may only fall, and --write renews the list. There is a
line for each text that fails, with the phrases that it has most of, and the status is 1 if there is one. TEXT is a part
of a text's name, as `docs/C.md` or `rx_term`. With --all there is a line for each text, and for each such comment. A
low number does not make a text good: docs/GLOSSARY.md has the words to use.
"""

import argparse
import collections
import glob
import math
import os
import re

from common import TOP, done, same, text_of

LISTED = "tests/prose.txt"

# The most phrases per 1,000 words: of a document or the manual page, and of a part of a crate.
BOUNDS = (8.0, 12.0)
# Shorter texts say nothing about a rate.
LEAST_WORDS = 60
# A phrase, and what to write in its place.
PHRASES = {
    "stand": (r"stands?|stood|standing", "is, is stored, is written"),
    "behind": (r"behind", "after"),
    "beside": (r"besides?", "with, next to, in addition"),
    "where": (r"where", "if, when"),
    "what": (r"what", "a noun: the result, the rule"),
    "comes to": (r"comes? to|came to", "evaluates to"),
    "due": (r"due", "specified, expected"),
    "tell": (r"tells?|told|telling", "reports, shows, prints"),
    "say": (r"says?|said", "states, shows, prints"),
    "ask": (r"asks?|asked|asking", "requests, checks"),
    "want of": (r"want of", "out of"),
    "but for": (r"but for", "except"),
    "so many": (r"(?:so|as) many", "the number"),
    "bear": (r"bears?", "has"),
    "else": (r"else", "otherwise, or a second sentence"),
    "give up, give back": (r"giv(?:es?|en|ing) (?:up|back)", "frees, drops"),
    "whoever": (r"whoever|somebody|nobody", "the caller, the reader"),
    "of which": (r"of which", "a second sentence"),
    "goes on": (r"(?:goes|go|went) on", "continues"),
    "is handed": (r"(?:is|are|was|were) handed", "is passed, is returned"),
    "takes the place of": (r"(?:takes?|took|in) the place of", "replaces"),
}
PATTERN = re.compile("|".join(rf"\b({it})\b" for it, _ in PHRASES.values()), re.IGNORECASE)
THE_SAME = re.compile(r"\s*///\s*The same\b|\s*//!\s*The same\b")
SKIPPED = {".git", "out", "build", "__pycache__"}


def without_marks(text):
    """A text with a word in place of each piece of code."""
    return re.sub(r"(`+)(?!`).+?(?<!`)\1(?!`)", "code", text, flags=re.DOTALL)


def document(name):
    return without_marks(re.sub(r"^( *)(```+).*?^\1\2 *$", "", text_of(name), flags=re.MULTILINE | re.DOTALL))


def manual():
    """The words of the manual page that are shown, without its literal examples and its requests' names."""
    text = re.sub(r"^\.Bd -literal.*?^\.Ed$", "", text_of("recw.1"), flags=re.MULTILINE | re.DOTALL)
    return re.sub(r"^\.\w+|(?<= )(?:Ar|Fl|Cm|Ql|Sq|Ta|Op|Sy|Nm)(?= )", "", text, flags=re.MULTILINE)


def documents():
    for folder, folders, files in os.walk(TOP):
        folders[:] = sorted(it for it in folders if it not in SKIPPED)
        for it in sorted(files):
            if it.endswith(".md"):
                yield os.path.relpath(f"{folder}/{it}", TOP)


def sources(crate):
    return sorted(glob.glob(f"crates/{crate}/src/**/*.rt", root_dir=TOP, recursive=True))


def doc_comments(crate):
    """The doc comments, without the code in them."""
    kept = []
    for file in sources(crate):
        fenced = False
        for line in text_of(file).splitlines():
            found = re.match(r"\s*//[/!] ?(.*)", line)
            if found and found[1].startswith("```"):
                fenced = not fenced
            elif found and not fenced:
                kept.append(found[1])
            elif not found:
                fenced = False
                kept.append("")
    return without_marks("\n".join(kept))


def strings(crate):
    """The strings of three words or more, but those of tests."""
    kept = []
    for file in sources(crate):
        if "/tests" not in file:
            code = re.sub(r"(?m)^\s*//.*$", "", text_of(file).split("#[cfg(test)]")[0])
            code = re.sub(r"b?'(?:\\.|[^'\\])'", "", code)
            kept += [it for it in re.findall(r'"((?:[^"\\]|\\.)*)"', code, re.DOTALL) if len(it.split()) > 2]
    return "\n".join(kept)


def definitions(crate):
    kept = []
    for file in sorted(glob.glob(f"crates/{crate}/specs/**/*.antt", root_dir=TOP, recursive=True)):
        kept += [it.strip()[2:] for it in text_of(file).splitlines() if it.lstrip().startswith("--")]
    return without_marks("\n".join(kept))


def texts():
    """Each text with its name and its bound."""
    for name in documents():
        yield name, BOUNDS[0], document(name)
    yield "recw.1", BOUNDS[0], manual()
    for crate in sorted(os.listdir(f"{TOP}/crates")):
        for what, part in (("doc comments", doc_comments), ("strings", strings), ("definitions", definitions)):
            yield f"{crate}: {what}", BOUNDS[1], part(crate)


def same_comments():
    """Of each crate the doc comments that begin with "The same", which cannot be read alone."""
    for crate in sorted(os.listdir(f"{TOP}/crates")):
        found = []
        for file in sources(crate):
            before = ""
            for number, line in enumerate(text_of(file).splitlines(), 1):
                if THE_SAME.match(line) and not re.match(r"\s*//[/!]", before):
                    found.append(f"{file}:{number}")
                before = line
        yield f'{crate}: doc comments that begin with "The same"', found


def rate_of(text):
    """The phrases per 1,000 words with those that are most frequent, and the number of words."""
    words = len(re.findall(r"[A-Za-z']+", text))
    found = collections.Counter(list(PHRASES)[it.lastindex - 1] for it in PATTERN.finditer(text))
    most = ", ".join(f"{name} {count}" for name, count in found.most_common(5))
    return 1000 * sum(found.values()) / max(words, 1), words, most


def allowed():
    """The figure that each listed text may have."""
    rows = (it.split(None, 1) for it in text_of(LISTED).splitlines() if it and not it.startswith("#"))
    return {name: float(figure) for figure, name in rows}


def write(figures):
    with open(f"{TOP}/{LISTED}", "w", encoding="utf-8") as file:
        file.write(
            "# Texts of crates that are over the bound of tests/prose.py, with their phrases per 1,000 words, and the\n"
            '# number of doc comments that begin with "The same". A figure may only fall; `tests/prose.py --write`\n'
            "# renews the list.\n"
        )
        file.writelines(f"{figure:g} {name}\n" for name, figure in figures)


def measured():
    """Each text with its bound, its figure, rounded up to a tenth, and a line on it."""
    for name, bound, text in texts():
        rate, count, most = rate_of(text)
        if count >= LEAST_WORDS:
            yield name, bound, math.ceil(10 * rate) / 10, f"{rate:6.1f} of {bound:g}  {count:6} words  {name}: {most}"
    for name, found in same_comments():
        yield name, 0, len(found), "\n".join(f'{it}: a doc comment that begins with "The same"' for it in found)


def main():
    parser = argparse.ArgumentParser(description="Counts phrases that are hard to read, per 1,000 words.")
    parser.add_argument("--all", action="store_true", help="print each text")
    parser.add_argument("--write", action="store_true", help=f"renew {LISTED}")
    parser.add_argument("texts", nargs="*", metavar="TEXT", help="parts of the names of texts")
    words = parser.parse_args()
    if words.write:
        write([(name, figure) for name, bound, figure, _ in measured() if figure > bound and ": " in name])
        return
    listed = allowed()
    for name, bound, figure, line in measured():
        if words.texts and not any(it in name for it in words.texts):
            continue
        most = max(bound, listed.get(name, 0))
        if words.all and line:
            print(line)
        if figure > most:
            same(f"phrases that are hard to read, at most: {line}", most, figure)
    done()


if __name__ == "__main__":
    main()
