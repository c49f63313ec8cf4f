"""What the checks of this folder share: the program that is tried, and the list of what was not as wanted."""

import os
import re
import subprocess
import sys

# what the program tells is compared as where nobody asked for more
os.environ.pop("RECW_EXPLAIN", None)
TOP = os.path.dirname(os.path.dirname(os.path.realpath(__file__)))
FAILURES = []
# What the table says in words.
IN_WORDS = {
    "`h(c1)` to `h(c20)`, twenty lines": "".join(f"h(c{it})\n" for it in range(1, 21)),
    "`z` in thirty times `s(..)`": "s(" * 30 + "z" + ")" * 30 + "\n",
}


def program():
    """The program that the command line names, else the script at the top, which builds it."""
    return os.path.realpath(sys.argv[1]) if len(sys.argv) > 1 else f"{TOP}/recw"


def text_of(name):
    with open(f"{TOP}/{name}", encoding="utf-8") as file:
        return file.read()


def run(words, **how):
    """Runs the words and returns what they wrote on standard output."""
    return subprocess.run(words, stdout=subprocess.PIPE, text=True, check=False, **how).stdout


def same(what, wanted, found):
    if wanted != found:
        FAILURES.append(what)
        print(f"FAILED {what}\n  want: {wanted!r}\n  have: {found!r}")


def quoted(cell):
    return re.findall(r"`([^`]*)`", cell)


def tables(text):
    """The tables of a document: the names of the columns, and the rows, each a list of cells."""
    head, found = None, []
    for line in [*text.splitlines(), ""]:
        cells = [it.strip() for it in line.split("|")[1:-1]] if line.startswith("|") else []
        if not cells and head:
            yield tuple(head), found[1:]
            head, found = None, []
        elif head:
            found.append(cells)
        else:
            head = cells


def rows():
    """The file words, the options and the output of each row of the table, a row for each list of options."""
    files = ""
    for line in text_of("examples/README.md").splitlines():
        cells = [it.strip() for it in line.split("|")[1:-1]]
        if len(cells) != 4 or cells[0] == "File" or set(cells[0]) == {"-"}:
            continue
        files = quoted(cells[0])[0] if cells[0] else files
        output = IN_WORDS.get(cells[3]) or "".join(f"{it}\n" for it in quoted(cells[3]))
        options, *more = quoted(cells[2])
        for extra in ["", *more]:
            yield files, f"{options} {extra}".strip(), output.replace("<tab>", "\t")


def done():
    name = os.path.basename(sys.argv[0])
    print(f"{name}: {f'{len(FAILURES)} failed' if FAILURES else 'all as wanted'}")
    sys.exit(1 if FAILURES else 0)
