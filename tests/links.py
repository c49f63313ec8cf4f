#!/usr/bin/env -S python3 -B
"""Checks the links of all Markdown documents and of the manual page: links.py.

A link has to lead to a file of the repository, and its anchor to a heading. A name in code marks that looks like a
file of the repository has to be one, in the text and in blocks of commands. A name in code marks of docs/PROOFS.md has
to be in a source of a crate or in a script of tests/, or be that of a mutant. Of the Debian package the links of each
installed document have to lead to installed files. Links to other sites
are not followed.
"""

import glob
import os
import re
import sys
import urllib.parse

from common import TOP, done, same, text_of

sys.path.insert(0, f"{TOP}/packaging")
import contents
import released

SKIPPED = {".git", "out", "build", "__pycache__", "must-fail", "must-pass"}
# Made by commands, so not there in a clone.
MADE = re.compile(r"(^|/)(out|build)(/|$)|SHA256SUMS|\.log$")
LINK = re.compile(
    r"!?\[(?:[^\[\]]|\[[^\]]*\])*\]\(([^()\s]+)(?:\s+\"[^\"]*\")?\)|^ {0,3}\[[^\]]+\]: (\S+)", re.MULTILINE
)
FENCE = re.compile(r"^( *)(```+|~~~+)([^\n]*)\n(.*?)^\1\2 *$", re.MULTILINE | re.DOTALL)
CODE = re.compile(r"(`+)(?!`)(.+?)(?<!`)\1(?!`)", re.DOTALL)
PATH = re.compile(r"[\w.*{},-]+(?:/[\w.*{},-]+)+/?")
NAME = re.compile(r"[\w-]+\.(?:py|sh|md|rt|antt|c|h|js|css|html|svg|png|txt|rec|trm|1|map|json|vim|edit)")
# Names in code marks of files that belong to something else, and parts of paths that a reader replaces.
FOREIGN = {"START-HERE.md", "tasks.json", "package.json", "source.rec"}
REPLACED = re.compile(r"(^|/)(NAME|WORD|CRATE|FOLDER|FILE)([./]|$)")


def documents():
    for folder, folders, files in os.walk(TOP):
        folders[:] = sorted(it for it in folders if it not in SKIPPED)
        for it in sorted(files):
            if it.endswith(".md"):
                yield os.path.relpath(f"{folder}/{it}", TOP)


def anchors_of(text):
    """The anchors of a document's headings, as GitHub makes them, and those that it sets itself."""
    found, seen = set(re.findall(r"<a (?:id|name)=\"([^\"]+)\"", text)), {}
    for heading in re.findall(r"^#{1,6} +(.+?) *#*$", FENCE.sub("", text), re.MULTILINE):
        plain = re.sub(r"\[([^\]]*)\]\([^)]*\)", r"\1", heading).replace("`", "").lower()
        slug = re.sub(r"[^\w\- ]", "", plain).replace(" ", "-")
        number = seen.get(slug, -1) + 1
        seen[slug] = number
        found.add(f"{slug}-{number}" if number else slug)
    return found


def links_of(text):
    """The links of a document that lead to files, without code."""
    bare = CODE.sub("", FENCE.sub("", text))
    for found in LINK.finditer(bare):
        link = found[1] or found[2]
        if not re.match(r"[a-z][a-z0-9+.-]*:", link):
            yield link


def dead_links(documents_with_text, exists, read):
    """The links that lead nowhere, each with its document; `exists` and `read` know the files by their paths."""
    for document, text in documents_with_text:
        for link in links_of(text):
            path, _, anchor = urllib.parse.unquote(link).partition("#")
            target = os.path.normpath(os.path.join(os.path.dirname(document), path)) if path else document
            if not exists(target):
                yield f"{document}: {link}: no such file"
            elif anchor and (not target.endswith(".md") or anchor not in anchors_of(read(target))):
                yield f"{document}: {link}: no such anchor"


def is_there(path):
    """Whether the repository has files of this name, which may be a pattern, and may begin with a crate's name."""
    path = path.rstrip("/")
    names = [path]
    while any("{" in it for it in names):
        names = [re.sub(r"\{[^{}]*\}", one, it, count=1) for it in names for one in choices(it)]
    return all(
        any(glob.glob(f"{TOP}/{folder}{it}{end}") for folder in ("", "crates/") for end in ("", ".antt", ".rt", ".py"))
        for it in names
    )


def is_mutant(word):
    """Whether a crate and a name are those of a mutant."""
    crate, _, name = word.partition("/")
    return os.path.exists(f"{TOP}/crates/{crate}/must-fail/{name}.edit")


def choices(path):
    found = re.search(r"\{([^{}]*)\}", path)
    return found[1].split(",") if found else [""]


def tops():
    """The first names of paths of the repository: its folders, and the crates."""
    return {it for it in os.listdir(TOP) if os.path.isdir(f"{TOP}/{it}")} | set(os.listdir(f"{TOP}/crates"))


def dead_names(document, text):
    """Names in code marks and in blocks of commands that look like files of the repository, and are none."""
    first, folder = tops(), os.path.dirname(document)
    blocks = [it[4] for it in FENCE.finditer(text) if not it[3].startswith(("rust", "rec", "c", "python"))]
    marks = [it[2] for it in CODE.finditer(FENCE.sub("", text))]
    for code in [*blocks, *marks]:
        for word in re.findall(r"[^\s\"'()<>=:;|]+", code):
            word = word.rstrip(".,")
            if MADE.search(word) or REPLACED.search(word) or is_mutant(word):
                continue
            if PATH.fullmatch(word) and word.split("/")[0] in first:
                # commands in the tables of the formats are those of somebody in the folder of examples
                if not any(is_there(os.path.join(it, word)) for it in ("", folder, "examples")):
                    yield f"{document}: {word}"
    for code in marks:
        if NAME.fullmatch(code) and code not in FOREIGN and not MADE.search(code):
            if not any(glob.glob(f"{TOP}/{it}/{code}") for it in ("", "*", "*/*", "*/*/*")):
                yield f"{document}: {code}"


def unknown_names():
    """The names of docs/PROOFS.md that no source has."""
    patterns = ("crates/*/src/**/*.rt", "crates/*/specs/**/*.antt", "clib/*.h", "tests/*.*")
    files = [it for pattern in patterns for it in glob.glob(pattern, root_dir=TOP, recursive=True)]
    files = [it for it in files if os.path.isfile(f"{TOP}/{it}")]
    known = {it for file in files for it in re.findall(r"\w+", f"{file} {text_of(file)}")}
    known |= {os.path.basename(it)[:-5] for it in glob.glob(f"{TOP}/crates/*/must-fail/*.edit")}
    for found in CODE.finditer(text_of("docs/PROOFS.md")):
        if not REPLACED.search(found[2]):
            yield from (it for it in re.findall(r"\b[A-Za-z]\w+", found[2]) if it not in known)


def dead_of_manual():
    """Paths of the manual page: those that it marks, and those of its examples."""
    page = text_of("recw.1")
    for path in re.findall(r"^\.Pa (\S+)", page, re.MULTILINE) + re.findall(r"(?<![\w/])examples/[\w./-]+", page):
        if not path.startswith(("/", "~")) and not os.path.exists(f"{TOP}/{path}"):
            yield f"recw.1: {path}"


def installed():
    """What the package of the program installs, by path below /usr, with stand-ins for what is built."""
    files = contents.program("0.0.0", b"", b"", released.archived({"CRATE/LICENSE": (0o644, b"")}), 0)
    return {path: data for path, (mode, data) in files.items() if mode != "link"}


def dead_of_package():
    """Links of installed documents to files that are not installed, and installed paths that texts name."""
    files = installed()
    folders = {os.path.dirname(it) for it in files}
    folders |= {"/".join(it.split("/")[:n]) for it in folders for n in range(1, it.count("/") + 1)}
    texts = [(name, code.decode()) for name, code in sorted(files.items()) if name.endswith(".md")]
    yield from dead_links(texts, (files.keys() | folders).__contains__, lambda path: files[path].decode())
    named = [*texts, ("share/doc/recw/copyright", files["share/doc/recw/copyright"].decode())]
    for name, text in named:
        for path in re.findall(r"/usr/(share/doc/recw[\w./-]*[\w-])", text):
            if path not in files and path not in folders and "/licenses" not in path:
                yield f"{name}: /usr/{path}"


def main():
    texts = [(it, text_of(it)) for it in documents()]
    same("documents", True, len(texts) > 10)
    same("links", [], list(dead_links(texts, lambda path: os.path.exists(f"{TOP}/{path}"), text_of)))
    same("file names", [], [it for name, text in texts for it in dead_names(name, text)])
    same("names of docs/PROOFS.md", [], list(unknown_names()))
    same("manual page", [], list(dead_of_manual()))
    same("links of the package", [], list(dead_of_package()))
    done()


if __name__ == "__main__":
    main()
