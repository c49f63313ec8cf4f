#!/usr/bin/env python3
"""Compares what `share --dot` writes with what `aterm` and `share` say: tests/dot.py [PROGRAM]

A graph has as many nodes as `share` counts cells, in the order in which they are found level by level, and the term
that is read off its nodes and edges is the one that `aterm` prints. Of a graph that is cut short the first nodes stay,
with the edges among them. Where Graphviz is here it draws each of the texts in TERMS. The graph and the size that
`eval` prints of a value are those of its text.
"""

import glob
import os
import random
import re
import shutil
import subprocess

from common import TOP, done, program, run, same, text_of

HEAD = 'digraph term {\n  node [shape=box, fontname="monospace"];\n'
NODE = re.compile(r'  n(\d+) \[label="((?:[^"\\]|\\.)*)"\];')
EDGE = re.compile(r'  n(\d+) -> n(\d+) \[label="(\w+)"\];')
REST = re.compile(r'  rest \[label="(\d+) more", style=dashed\];')
# Every kind of node, marks that Graphviz reads, and parts that are shared across kinds.
TERMS = (
    "a", "7", "[]", "()", '""', "<int>", "f(a,a)", "[1,[1],[1,1]]", "f(){a}", "<7>{7}", "(a,(a))", "-2147483648{[]}",
    '"a\\"b\\\\c&lt;\\n\\001\\377"(x,"x")', "f([a,b],[b],[])", "f(g(h(a)),h(a),g(h(a)){a,g(a)})", "[[[[[[[[[[]]]]]]]]]]",
)
# As the lines of the graph of f(a,a) follow from the order of its parts.
TWICE = HEAD + """  n0 [label="f"];
  n0 -> n1 [label="args"];
  n1 [label="."];
  n1 -> n2 [label="head"];
  n1 -> n3 [label="tail"];
  n2 [label="a"];
  n2 -> n4 [label="args"];
  n3 [label="."];
  n3 -> n2 [label="head"];
  n3 -> n4 [label="tail"];
  n4 [label="[]"];
}
"""
DEEP = 1000000


def graph(text, *words):
    return run([program(), "share", "--dot", *words], input=text)


def aterm(text):
    return run([program(), "aterm"], input=text)


def cells(text):
    return int(run([program(), "share"], input=text).rsplit(" ", 1)[1])


def name_of(label):
    return label.replace("&amp;", "&").replace('\\"', '"').replace("\\\\", "\\")


class Graph:
    """The nodes of a text and the edges from each, in order, and how many nodes are left out."""

    def __init__(self, text):
        self.labels, self.edges, self.left_out, self.strange = [], [], 0, []
        for line in text.removeprefix(HEAD).removesuffix("}\n").splitlines():
            node, edge, rest = NODE.fullmatch(line), EDGE.fullmatch(line), REST.fullmatch(line)
            if node and int(node[1]) == len(self.labels):
                self.labels.append(name_of(node[2]))
                self.edges.append({})
            elif edge and int(edge[1]) == len(self.labels) - 1:
                self.edges[-1][edge[3]] = int(edge[2])
            elif rest:
                self.left_out = int(rest[1])
            else:
                self.strange.append(line)

    def first_seen(self):
        """The nodes that edges lead to, in the order in which they come up first, behind the root."""
        return list(dict.fromkeys([0, *(to for edges in self.edges for to in edges.values())]))

    def items(self, node):
        texts = []
        while "head" in self.edges[node]:
            texts.append(self.term(self.edges[node]["head"]))
            node = self.edges[node]["tail"]
        return texts

    def term(self, node):
        """The printed text of the term of a node."""
        label, edges = self.labels[node], self.edges[node]
        if label in (".", "[]"):
            body = f"[{','.join(self.items(node))}]"
        elif label == "<>":
            body = f"<{self.term(edges['inner'])}>"
        elif "args" in edges:
            items = self.items(edges["args"])
            body = f"{'' if label == '()' else label}({','.join(items)})" if items else label
        else:
            body = label
        notes = f"{{{','.join(self.items(edges['annotations']))}}}" if "annotations" in edges else ""
        return body + notes


def try_whole(text):
    found, count = Graph(graph(text)), cells(text)
    same(f"strange lines of {text}", [], found.strange)
    same(f"nodes of {text}", (count, 0), (len(found.labels), found.left_out))
    same(f"order of {text}", list(range(count)), found.first_seen())
    same(f"term of {text}", aterm(text), found.term(0) + "\n")


def try_cut(text):
    """Each number of nodes up to one more than there are."""
    whole = Graph(graph(text))
    count = len(whole.labels)
    for nodes in range(1, count + 2):
        found, kept = Graph(graph(text, "--nodes", str(nodes))), min(nodes, count)
        edges = [{name: to for name, to in it.items() if to < nodes} for it in whole.edges[:kept]]
        same(f"{nodes} nodes of {text}", (whole.labels[:kept], edges), (found.labels, found.edges))
        same(f"left out of {text} by {nodes} nodes", count - kept, found.left_out)


def some_term(chance, depth):
    """The text of a term that has few different parts, so that many are shared."""
    def some(most):
        return ",".join(some_term(chance, depth - 1) for _ in range(chance.randrange(most + 1)))
    if depth == 0:
        body = chance.choice(["a", "b", "7", "-7", "[]", "()", '"\\\\ &"'])
    else:
        body = chance.choice([f"f({some(3)})", f"g({some(2)})", f"[{some(3)}]", f"<{some_term(chance, depth - 1)}>", "a"])
    return f"{body}{{{some(2)}}}" if depth and chance.random() < 0.2 else body


def try_random():
    for seed in range(300):
        chance = random.Random(seed)
        text = some_term(chance, chance.randrange(6))
        try_whole(text)
        if seed % 30 == 0:
            try_cut(text)


def try_deep():
    """A term that is a million levels deep, and as wide a list."""
    deep = graph("s(" * DEEP + "z" + ")" * DEEP, "--nodes", str(2 ** 30))
    same("a deep term", (DEEP, DEEP), (deep.count('[label="s"];'), deep.count('[label="."];')))
    wide = f"[{','.join(map(str, range(DEEP)))}]"
    same("a wide list", True, f'label="{2 * DEEP + 1 - 3} more"' in graph(wide, "--nodes", "3"))


def try_refused():
    for text in ("f(a,)", "", "f(", "{a}"):
        asked = [[program(), "share", *words] for words in ([], ["--dot"])]
        same(f"refusal of {text!r}", *((it.stdout, it.returncode) for it in (
            subprocess.run(words, input=text, text=True, capture_output=True, check=False) for words in asked)))


def try_values():
    """Each value of the examples, and one with 2^60 leaves."""
    for name in ("add", "derive", "lambda", "q", "tautology", "while"):
        words = [program(), "eval", f"{TOP}/examples/{name}.rec", f"{TOP}/examples/{name}.trm"]
        for number, line in enumerate(run([*words, "--sizes"]).splitlines(), 1):
            if not line.startswith("!"):
                value, size = line.rsplit("\t", 1)
                same(f"size of value {number} of {name}", cells(value), int(size))
                same(f"graph of value {number} of {name}", graph(value), run([*words, "--dot", str(number)]))
    leaves = f"d({'s(' * 60}z{')' * 60}){{id(7)}}"
    words = [program(), "eval", "-e", leaves, f"{TOP}/examples/tutorial/double.rec"]
    drawn = Graph(run([*words, "--dot", "2"]))
    table, size = run([*words, "--only-terms", "--to-table", "--sizes"]).split("\t")
    same("nodes of 2^60 leaves", 3 * 60 + 2 + 4, len(drawn.labels))
    same("cells of 2^60 leaves", 3 * 60 + 2 + 4, int(size))
    doubles = "".join(f",node(<{it}>,<{it}>)" for it in range(59))
    same("table of 2^60 leaves", f"[node(leaf,leaf){doubles}{{id(7)}}]", table)
    request = run([program(), "serve", "--to-table", f"{TOP}/examples/tutorial/double.rec"], input=leaves)
    same("response with 2^60 leaves", f"{table}\n", request)


def try_drawing():
    if not shutil.which("dot"):
        print("not tried: Graphviz is not here")
        return
    for text in TERMS:
        drawn = run(["dot", "-Tsvg"], input=graph(text))
        same(f"drawing of {text}", cells(text), drawn.count('class="node"'))


def main():
    same("f(a,a)", TWICE, graph("f(a,a)"))
    for text in TERMS:
        try_whole(text)
        try_cut(text)
    for name in sorted(glob.glob(f"{TOP}/examples/*.trm")):
        try_whole(text_of(os.path.relpath(name, TOP)))
    try_random()
    try_deep()
    try_refused()
    try_values()
    try_drawing()
    done()


if __name__ == "__main__":
    main()
