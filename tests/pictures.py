#!/usr/bin/env python3
"""Draws the shared graphs of the documents by Graphviz: tests/pictures.py [PROGRAM]

docs/share.svg is the graph of `f(a,a)`, and docs/share_larger.svg that of a term whose parts stand at several places,
one of them with an annotation.
"""

import os
import re
import shutil
import sys

from common import TOP, program, run

PICTURES = {
    "share.svg": "f(a,a)",
    "share_larger.svg": "plus(times(x,x),times(x,[x,2])){seen(times(x,x))}",
}
# What Graphviz tells of itself would change the picture with each version of it.
COMMENT = re.compile(r"<!--.*?-->\n?", re.DOTALL)


def draw(name, term):
    graph = run([program(), "share", "--dot"], input=term)
    with open(os.path.join(TOP, "docs", name), "w", encoding="utf-8") as file:
        file.write(COMMENT.sub("", run(["dot", "-Tsvg"], input=graph)))


def main():
    if not shutil.which("dot"):
        sys.exit("no pictures: Graphviz is not here")
    for name, term in PICTURES.items():
        draw(name, term)


if __name__ == "__main__":
    main()
