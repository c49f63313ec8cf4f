#!/usr/bin/env -S python3 -B
"""Random calls of the package percalesilt by four threads over four stores, compared with a model.

    random_terms.py [CALLS [SEED]]

The model has trees in plain Python, with the meaning that docs/reference/aterm.md gives them: how they are printed and read,
what their parts are, and what matches, is made and is evaluated. A tree is a tuple of a kind, a value, the trees that
it is made of, and its annotations. The threads share the terms of each store, so terms die in other threads than those
that made them. At times all threads end, and what each store holds is compared.
"""

import copy
import os
import random
import re
import sys
import threading
from typing import Any, Callable, Dict, Iterable, Iterator, List, NoReturn, Optional, Sequence, Set, Tuple

sys.path.insert(0, os.path.dirname(os.path.dirname(os.path.realpath(__file__))))

from percalesilt import (
    Kind,
    KindFault,
    LimitReached,
    NameFault,
    OutOfCells,
    Pattern,
    RangeFault,
    RuleFault,
    Spec,
    StaleFault,
    Store,
    SyntaxFault,
    Term,
    UnknownFault,
    UnspecifiedFault,
)

# a kind, a value, the trees that it is made of, and its annotations
Tree = Tuple[str, Any, Tuple[Any, ...], Tuple[Any, ...]]
# with its quotes and its number of arguments
Name = Tuple[bytes, bool, int]

# the last store is small, and is full at times
CELLS = (2**30, 100000, 100000, 300)
HELD, LARGEST, ROUNDS = 60, 60, 20
INT, APPL, LIST, HOLE = "int", "appl", "list", "hole"
PLAIN = (b"f", b"g", b"plus", b"", b"z", b"s", b"a-b.c", b"_")
QUOTED = (b"", b"f", b"a b", b'"\\\n\t\r', b"\x00\x01\x7f\x80\xff", "é→".encode(), b"\xe9t\xc3", b"\\303\\251")
BAD_NAMES = (b"0", b"a b", b"-", b"f(", b"\xe9", b"a\n")
ARITIES = {b"z": 0, b"s": 1, b"plus": 2, b"twice": 1}
SPECS = [
    f"""REC-SPEC {name} SORTS N CONS z : -> N s : N -> N OPNS plus : N N -> N twice : N -> N VARS X Y : N
RULES plus(z,Y) -> Y plus(s(X),Y) -> s(plus(X,Y)) twice(X) -> plus(X,X) EVAL plus(s(z),s(z)) twice(s(s(z))) END-SPEC"""
    for name in ("One", "Two")
]
PATTERNS = (
    "<term>", "<int>", "<str>", "<appl>", "<placeholder>", "<list>", "7", "f", "f(<term>)", "f(<int>,<term>)",
    "f(<list>)", "g(<term>,<list>)", "[]", "[<list>]", "[<term>,<list>]", "[<list>,<list>]", "<term>",
    "f(<list>){<list>}", "[<list>]{<term>}", "plus(f(<list>),<term>){<int>}", "\"f\"(<list>)", "(<list>)", "z{<list>}",
)  # fmt: skip
BAD_NUMBERS = (-1, 2**30 + 1, 2**31, 2**32, 2**32 + 1, 2**64, -(2**31) - 1)


class Wrong(Exception):
    pass


def same(what: str, wanted: object, found: object) -> None:
    if wanted != found:
        raise Wrong(f"{what}: {found!r}, not {wanted!r}")


# ---- trees


def integer(value: int) -> Tree:
    return (INT, value, (), ())


def appl(name: bytes, quoted: bool, args: Iterable[Tree] = ()) -> Tree:
    return (APPL, (name, quoted), tuple(args), ())


def listed(items: Iterable[Tree]) -> Tree:
    return (LIST, None, tuple(items), ())


def noted(tree: Tree, annotations: Iterable[Tree]) -> Tree:
    return (*tree[:3], tuple(annotations))


def size_of(tree: Tree) -> int:
    return 1 + sum(map(size_of, tree[2])) + sum(map(size_of, tree[3]))


def parts_of(tree: Tree, found: Set[Tree]) -> Set[Tree]:
    """Adds the parts of a tree to a set."""
    left = [tree]
    while left:
        it = left.pop()
        if it in found:
            continue
        found.add(it)
        kind, _, inside, annotations = it
        if annotations:
            left.append(listed(annotations))
        if kind == APPL:
            left.append(listed(inside))
        elif kind == LIST and inside:
            left += [inside[0], listed(inside[1:])]
        elif kind == HOLE:
            left.append(inside[0])
    return found


def names_of(tree: Tree, found: Set[Name]) -> Set[Name]:
    """Adds the names of a tree to a set."""
    if tree[0] == APPL:
        found.add((tree[1][0], tree[1][1], len(tree[2])))
    for it in (*tree[2], *tree[3]):
        names_of(it, found)
    return found


def taken_by(tree: Tree) -> Set[Tree]:
    """The trees whose cells reading a text takes: a part with annotations is first made without them."""
    parts = parts_of(tree, set())
    return parts | {noted(it, ()) for it in parts if it[3]}


def spelt(byte: int) -> bytes:
    """A byte between quotes, as it is printed."""
    known = {0x22: b'\\"', 0x5C: b"\\\\", 0x0A: b"\\n", 0x09: b"\\t", 0x0D: b"\\r"}
    return known.get(byte) or (bytes([byte]) if 0x20 <= byte <= 0x7E else b"\\%03o" % byte)


def name_text(name: bytes, quoted: bool) -> bytes:
    return b'"' + b"".join(map(spelt, name)) + b'"' if quoted else name


def text_of(tree: Tree) -> bytes:
    """The printed text."""
    kind, value, inside, annotations = tree
    items = b",".join(map(text_of, inside))
    if kind == INT:
        text = b"%d" % value
    elif kind == LIST:
        text = b"[" + items + b"]"
    elif kind == HOLE:
        text = b"<" + items + b">"
    else:
        text = name_text(*value)
        if inside or text == b"":
            text += b"(" + items + b")"
    return text + (b"{" + b",".join(map(text_of, annotations)) + b"}" if annotations else b"")


# ---- reading, by docs/reference/aterm.md

TOKEN = re.compile(
    rb"[ \t\n\r]*(?:(?P<int>-?[0-9]+)|(?P<name>[A-Za-z_][A-Za-z0-9_\-+*$.]*)"
    rb'|(?P<quoted>"(?:[^"\\]|\\[ntr\\"]|\\[0-3][0-7][0-7])*")|(?P<mark>[][(){}<>,])|(?P<end>\Z))',
    re.DOTALL,
)
ITEM = re.compile(rb"\\([0-7]{3}|.)|([^\\])", re.DOTALL)


class Outside(Exception):
    """A text is outside the grammar, at an offset."""


def unescaped(found: "re.Match[bytes]") -> bytes:
    escape, itself = found.groups()
    if itself is not None:
        return itself
    return bytes([int(escape, 8)]) if len(escape) == 3 else {b"n": b"\n", b"t": b"\t", b"r": b"\r"}.get(escape, escape)


class Reader:
    def __init__(self, text: bytes) -> None:
        self.text, self.next, self.token, self.kind, self.at = text, 0, b"", "", 0
        self.move()

    def move(self) -> None:
        found = TOKEN.match(self.text, self.next)
        if found is None:
            # no token begins after the layout
            rest = self.text[self.next :]
            self.kind, self.at = "bad", self.next + len(rest) - len(rest.lstrip(b" \t\n\r"))
            return
        self.kind = str(found.lastgroup)
        self.at, self.next, self.token = found.start(self.kind), found.end(), found.group(self.kind)
        if self.kind == "int" and not -(2**31) <= int(self.token) < 2**31:
            self.kind = "bad"

    def refuse(self) -> NoReturn:
        raise Outside(self.at)

    def is_mark(self, *marks: bytes) -> bool:
        return self.kind == "mark" and self.token in marks

    def take(self, mark: bytes) -> None:
        if not self.is_mark(mark):
            self.refuse()
        self.move()

    def terms(self, ends: bytes) -> Tuple[Tree, ...]:
        if self.is_mark(ends):
            self.move()
            return ()
        found = [self.term()]
        while self.is_mark(b","):
            self.move()
            found.append(self.term())
        self.take(ends)
        return tuple(found)

    def body(self) -> Tree:
        kind, token = self.kind, self.token
        if kind == "int":
            self.move()
            return integer(int(token))
        if kind in ("name", "quoted"):
            name = ITEM.sub(unescaped, token[1:-1]) if kind == "quoted" else token
            self.move()
            args: Tuple[Tree, ...] = ()
            if self.is_mark(b"("):
                self.move()
                args = self.terms(b")")
            return appl(name, kind == "quoted", args)
        if self.is_mark(b"(", b"["):
            self.move()
            return appl(b"", False, self.terms(b")")) if token == b"(" else listed(self.terms(b"]"))
        self.take(b"<")
        inner = self.term()
        self.take(b">")
        return (HOLE, None, (inner,), ())

    def term(self) -> Tree:
        tree = self.body()
        if self.is_mark(b"{"):
            self.move()
            tree = noted(tree, self.terms(b"}"))
        return tree

    def whole(self) -> Tree:
        tree = self.term()
        if self.kind != "end":
            self.refuse()
        return tree


def read(text: bytes) -> Tree:
    return Reader(text).whole()


# ---- tables, in which `<k>` is an earlier element and `<[t]>` a placeholder


def within(tree: Tree) -> Tuple[Tree, ...]:
    return (*tree[2], *tree[3])


def subterms_of(tree: Tree, found: Dict[Tree, int]) -> Dict[Tree, int]:
    """Adds the different subterms of a tree, each after those inside of it, and how often they are used."""
    if tree not in found:
        for it in within(tree):
            subterms_of(it, found)
            found[it] += 1
        found[tree] = 0
    return found


def table_of(tree: Tree) -> Tree:
    """The table of a tree."""
    shared = [it for it, uses in subterms_of(tree, {}).items() if uses > 1 and len(text_of(it)) > 8]

    def element(it: Tree) -> Tree:
        kind, value, inside, annotations = it
        items = tuple(map(written, inside))
        return (kind, value, (listed(items),) if kind == HOLE else items, tuple(map(written, annotations)))

    def written(it: Tree) -> Tree:
        return (HOLE, None, (integer(shared.index(it)),), ()) if it in shared else element(it)

    return listed([*map(element, shared), written(tree)])


class Unopened(Exception):
    """A tree is no table, by a rule."""


def opened(tree: Tree, earlier: Sequence[Tree]) -> Tree:
    """The tree of an element, after those with these trees."""
    kind, value, inside, annotations = tree
    if kind == HOLE:
        inner: Tree = inside[0]
        number: int = inner[1] if inner[0] == INT and not inner[3] and not annotations else -1
        if 0 <= number < len(earlier):
            return earlier[number]
        if inner[0] != LIST or len(inner[2]) != 1 or inner[3]:
            raise Unopened("R2")
        inside = inner[2]
    return (kind, value, tuple(opened(it, earlier) for it in inside), tuple(opened(it, earlier) for it in annotations))


def tree_of_table(tree: Tree) -> Tree:
    kind, _, elements, annotations = tree
    if kind != LIST or not elements or annotations:
        raise Unopened("R1")
    trees: List[Tree] = []
    for it in elements:
        trees.append(opened(it, trees))
    return trees[-1]


# ---- patterns, by section 3


def word_of(pattern: Tree) -> Optional[str]:
    """The word of a placeholder, None for other trees."""
    return pattern[2][0][1][0].decode() if pattern[0] == HOLE else None


def fits(word: str, tree: Tree) -> bool:
    kind, value, inside, _ = tree
    if word == "str":
        return kind == APPL and value[1] and not inside
    return word == "term" or kind == {"int": INT, "appl": APPL, "placeholder": HOLE, "list": LIST}[word]


def matched(pattern: Tree, tree: Tree) -> Optional[List[Tree]]:
    """The bindings, None if the pattern does not match."""
    word = word_of(pattern)
    if word:
        return [tree] if fits(word, tree) else None
    if pattern[:2] != tree[:2]:
        return None
    found, further = matched_items(pattern[2], tree[2]), matched_items(pattern[3], tree[3])
    return None if found is None or further is None else found + further


def matched_items(patterns: Sequence[Tree], trees: Sequence[Tree]) -> Optional[List[Tree]]:
    found: List[Tree] = []
    for place, pattern in enumerate(patterns):
        if place == len(patterns) - 1 and word_of(pattern) == "list":
            return [*found, listed(trees[place:])] if place <= len(trees) else None
        part = matched(pattern, trees[place]) if place < len(trees) else None
        if part is None:
            return None
        found += part
    return found if len(patterns) == len(trees) else None


def places_of(pattern: Tree) -> int:
    """How many placeholders a pattern has."""
    return 1 if word_of(pattern) else sum(map(places_of, (*pattern[2], *pattern[3])))


class Misfit(Exception):
    pass


def made(pattern: Tree, given: Iterator[Tree]) -> Tree:
    """The tree that a pattern makes of an iterator over trees."""
    word = word_of(pattern)
    if word:
        tree = next(given)
        if not fits(word, tree):
            raise Misfit
        return tree
    inside = made_items(pattern[2], given)
    return (*pattern[:2], inside, made_items(pattern[3], given))


def made_items(patterns: Sequence[Tree], given: Iterator[Tree]) -> Tuple[Tree, ...]:
    found: List[Tree] = []
    for place, pattern in enumerate(patterns):
        if place == len(patterns) - 1 and word_of(pattern) == "list":
            rest = next(given)
            if rest[0] != LIST or rest[3]:
                raise Misfit
            found += rest[2]
        else:
            found.append(made(pattern, given))
    return tuple(found)


# ---- evaluation, by sections 7 and 8


def broken_rule(tree: Tree) -> Optional[str]:
    """The first rule of terms that a tree breaks, or None."""
    nodes, left = [], [tree]
    while left:
        it = left.pop()
        nodes.append(it)
        left.extend(it[2] if it[0] == APPL else ())
    if any(it[0] != APPL for it in nodes):
        return "T2"
    if any(it[3] for it in nodes[1:]):
        return "T3"
    if any(it[1][1] or it[1][0] not in ARITIES for it in nodes):
        return "T4"
    return "T5" if any(ARITIES[it[1][0]] != len(it[2]) for it in nodes) else None


def number_of(tree: Tree) -> Tuple[int, int]:
    """The number that a tree stands for, and the steps that its evaluation takes."""
    name, values = tree[1][0], [number_of(it) for it in tree[2]]
    steps = sum(it[1] for it in values)
    if name == b"plus":
        return values[0][0] + values[1][0], steps + values[0][0] + 1
    if name == b"twice":
        return 2 * values[0][0], steps + values[0][0] + 2
    return sum(it[0] + 1 for it in values), steps


def numeral(number: int) -> Tree:
    tree = appl(b"z", False)
    for _ in range(number):
        tree = appl(b"s", False, [tree])
    return tree


EVAL = [read(b"plus(s(z),s(z))"), read(b"twice(s(s(z)))")]


# ---- the calls


class Shared:
    """A store with what all threads hold of it: terms with their trees, and patterns with theirs."""

    def __init__(self, cells: int) -> None:
        self.is_small = cells < 1000
        self.store = Store(cells)
        self.held: List[Tuple[Term, Tree]] = []
        self.patterns: List[Tuple[Pattern, Tree]] = []
        # the names that the store has, and those that it may have since a call failed
        self.names: Set[Name] = set()
        self.tried: Set[Name] = set()
        self.specify(SPECS[0])

    def specify(self, text: str, memo: int = 65536, reclaim: int = 1048576) -> Spec:
        names = {(name, False, arity) for name, arity in ARITIES.items()}
        self.tried |= names
        spec = self.store.specify(text, memo, reclaim)
        self.names |= names
        return spec

    @property
    def spec(self) -> Spec:
        """The specification in use; there is always one."""
        spec = self.store.spec
        assert spec is not None
        return spec


class Caller:
    """One thread's calls."""

    def __init__(self, seed: int, shared: List[Shared]) -> None:
        self.dice, self.shared, self.calls, self.left = random.Random(seed), shared, 0, 0

    def run(self, count: int) -> None:
        self.left = count
        usual: List[Callable[[], None]] = [self.spell, self.build, self.take_apart, self.compare, self.symbol] * 3
        usual += [self.match, self.make, self.pattern, self.misspell, self.drop, self.annotate, self.copy_and_print]
        usual += [self.limits, self.tables]
        rare = [self.normalise, self.normalise, self.reclaim, self.specify, self.numbers, self.other_stores, self.names]
        while self.left > 0:
            self.at = self.dice.choice(self.shared)
            self.store = self.at.store
            call = self.dice.choice(rare if self.dice.random() < 0.1 else usual)
            try:
                call()
            except OutOfCells:
                if not self.at.is_small:
                    raise
                # another thread may have freed some meanwhile
                del self.at.held[: HELD // 2]
                self.reclaim()

    def count(self, calls: int = 1) -> None:
        self.calls += calls
        self.left -= calls

    def hold(self, term: Term, tree: Tree) -> None:
        """Keeps a term, in the place of another one if there are many; that one may be used by other threads."""
        held = self.at.held
        if size_of(tree) > LARGEST:
            return
        if len(held) < HELD:
            held.append((term, tree))
        else:
            held[self.dice.randrange(HELD // 2)] = (term, tree)

    def checked(self, what: str, tree: Tree, term: Term) -> None:
        """The term has the text of the tree."""
        self.count()
        same(what, text_of(tree), bytes(term))
        self.hold(term, tree)

    def pick(self) -> Tuple[Term, Tree]:
        """A term and its tree."""
        held = list(self.at.held)
        if held and self.dice.random() < 0.9:
            found = self.dice.choice(held)
            return found
        self.count()
        value = self.dice.choice((0, -1, 7, 2**31 - 1, -(2**31), self.dice.randrange(100)))
        return self.store.int(value), integer(value)

    def pick_some(self) -> List[Tuple[Term, Tree]]:
        return [self.pick() for _ in range(self.dice.choice((0, 1, 1, 2, 2, 3)))]

    def some_name(self) -> Tuple[bytes, bool]:
        return self.dice.choice([*((it, False) for it in PLAIN), *((it, True) for it in QUOTED)])

    def some_tree(self, depth: int) -> Tree:
        """A tree that owes nothing to the store."""
        kind = self.dice.choice((INT, APPL, APPL, APPL, LIST, HOLE)) if depth else self.dice.choice((INT, APPL))
        inside = [self.some_tree(depth - 1) for _ in range(self.dice.randrange(3))] if depth else []
        if kind == INT:
            tree = integer(self.dice.choice((0, 1, -5, 2**31 - 1, -(2**31))))
        elif kind == APPL:
            tree = appl(*self.some_name(), inside)
        elif kind == LIST:
            tree = listed(inside)
        else:
            tree = (HOLE, None, (self.some_tree(depth - 1),), ())
        return noted(tree, [self.some_tree(0)]) if self.dice.random() < 0.15 else tree

    def layout(self) -> bytes:
        return self.dice.choice((b"",) * 6 + (b" ", b"\n", b" \t\r\n"))

    def some_text(self, tree: Tree) -> bytes:
        """One of the texts of a tree."""
        kind, value, inside, annotations = tree
        between = self.layout() + b"," + self.layout()
        items = self.layout() + between.join(map(self.some_text, inside)) + self.layout()
        if kind == INT:
            zeros = b"0" * self.dice.choice((0, 0, 0, 2))
            text = (b"-" if value < 0 or value == 0 and zeros else b"") + zeros + b"%d" % abs(value)
        elif kind == LIST:
            text = b"[" + items + b"]"
        elif kind == HOLE:
            text = b"<" + items + b">"
        else:
            name, quoted = value
            text = b'"' + b"".join(map(self.some_spelling, name)) + b'"' if quoted else name
            if inside or text == b"" or self.dice.random() < 0.1:
                text += b"(" + items + b")"
        if annotations or self.dice.random() < 0.05:
            text += self.layout() + b"{" + between.join(map(self.some_text, annotations)) + b"}"
        return self.layout() + text + self.layout()

    def some_spelling(self, byte: int) -> bytes:
        """A byte between quotes."""
        if byte not in b'"\\' and self.dice.random() < 0.5:
            return bytes([byte])
        return b"\\%03o" % byte if self.dice.random() < 0.3 else spelt(byte)

    def parse(self, text: bytes, tree: Tree) -> Term:
        """The term of a text, whose names the store has then."""
        names = names_of(tree, set())
        self.at.tried |= names
        try:
            term = self.store.parse(text.decode() if self.dice.random() < 0.5 else text)
        except UnicodeDecodeError:
            term = self.store.parse(text)
        self.at.names |= names
        return term

    def spell(self) -> None:
        tree = self.some_tree(3)
        text = self.some_text(tree)
        same("the model reads", tree, read(text))
        self.count()
        self.checked("parse", tree, self.parse(text, tree))

    def limits(self) -> None:
        """A text is read if there are just as many cells and names as it takes, and else not."""
        tree = self.some_tree(3)
        text = self.some_text(tree)
        cells, names = len(taken_by(tree)), len(names_of(tree, set()))
        self.count(4)
        with Store(cells, names=names) as store:
            term = store.parse(text)
            same("read", (text_of(tree), cells, names), (bytes(term), store.cells, store.names))
            store.reclaim()
            same("parts", len(parts_of(tree, set())), store.cells)
            same("read again", True, store.parse(text) is term)
        for fewer in ((cells - 1, names), (cells, names - 1)):
            if fewer[0] < 1 or fewer[1] < 0:
                continue
            with Store(fewer[0], names=fewer[1]) as store:
                try:
                    store.parse(text)
                except OutOfCells:
                    continue
            raise Wrong(f"{text!r} is read with {fewer}, and takes {cells}, {names}")

    def tables(self) -> None:
        """The table of a term, which is read again, and some table or a term that is none."""
        term, tree = self.pick()
        self.count(2)
        text = text_of(table_of(tree))
        same("table", text, term.table())
        same("the tree of its table", tree, tree_of_table(table_of(tree)))
        same("the term of its table", True, self.store.parse_table(text) is term)
        table = listed(self.some_element(2, it) for it in range(self.dice.choice((0, 1, 2, 2, 3, 4))))
        if self.dice.random() < 0.05:
            table = noted(table, [integer(1)])
        text = self.some_text(table)
        self.at.tried |= names_of(table, set())
        try:
            wanted = tree_of_table(table)
        except Unopened as unopened:
            try:
                self.store.parse_table(text)
            except RuleFault as fault:
                same(f"the fault of {text!r}", (unopened.args[0], None), (fault.reason, fault.place))
                return
            raise Wrong(f"{text!r} is a table")
        made = self.store.parse_table(text)
        self.at.names |= names_of(table, set())
        self.checked("parse_table", wanted, made)

    def some_element(self, depth: int, count: int) -> Tree:
        """A tree in an element of a table after `count` others."""
        if count and self.dice.random() < 0.4:
            places = (-1, count, 2**31 - 1) if self.dice.random() < 0.02 else range(count)
            return (HOLE, None, (integer(self.dice.choice(places)),), ())
        kind, value, inside, annotations = self.some_tree(depth)
        items = tuple(self.some_element(depth - 1, count) for _ in inside)
        if kind == HOLE and self.dice.random() < 0.98:
            items = (listed(items),)
        return (kind, value, items, annotations and (self.some_element(0, count),))

    def misspell(self) -> None:
        """A text with some bytes changed, which is in the grammar or not."""
        text = self.some_text(self.some_tree(2))
        for _ in range(self.dice.choice((1, 1, 2))):
            place = self.dice.randrange(len(text) + 1)
            other = self.dice.choice((b"", b",", b")", b"]", b"{", b'"', b"1", b"\\"))
            text = text[:place] + other + text[place + self.dice.randrange(3) :]
        self.count()
        try:
            tree = read(text)
        except Outside as outside:
            place = outside.args[0]
            lines = text[:place].split(b"\n")
            try:
                self.store.parse(text)
            except SyntaxFault as fault:
                found = (fault.reason, fault.place, fault.line, fault.column)
                same(f"the fault of {text!r}", ("A", place, len(lines), len(lines[-1]) + 1), found)
                return
            raise Wrong(f"{text!r} is read")
        self.checked("parse", tree, self.parse(text, tree))

    def build(self) -> None:
        parts = self.pick_some()
        terms, trees = [it for it, _ in parts], [it for _, it in parts]
        if sum(map(size_of, trees)) > LARGEST:
            return
        self.count()
        which = self.dice.randrange(3)
        if which == 0:
            self.checked("list", listed(trees), self.store.list(terms))
        elif which == 1 and parts:
            self.checked("hole", (HOLE, None, (trees[0],), ()), self.store.hole(terms[0]))
        else:
            name, quoted = self.some_name()
            self.at.tried.add((name, quoted, len(trees)))
            term = self.store.appl(name, *terms, quoted=quoted)
            self.at.names.add((name, quoted, len(trees)))
            self.checked("appl", appl(name, quoted, trees), term)

    def symbol(self) -> None:
        parts = self.pick_some()
        name, quoted = self.some_name()
        self.count(2)
        symbol = self.store.symbol(name, len(parts), quoted)
        self.at.names.add((name, quoted, len(parts)))
        tree = appl(name, quoted, [it for _, it in parts])
        self.checked("symbol", tree, symbol(*(it for it, _ in parts)))
        self.count()
        try:
            symbol(1, 2, 3, 4)
        except RangeFault:
            return
        raise Wrong("a symbol takes any number of arguments")

    def annotate(self) -> None:
        term, tree = self.pick()
        parts = self.pick_some()
        self.count()
        self.checked("noted", noted(tree, [it for _, it in parts]), term.noted(*(it for it, _ in parts)))

    def compare(self) -> None:
        """Equal trees are one term."""
        (one, first), (two, second) = self.pick(), self.pick()
        same("one term", first == second, one is two)
        same("equality", first == second, one == two)
        self.count()
        same("parsed again", True, self.store.parse(bytes(one) if self.dice.random() < 0.5 else str(one)) is one)

    def copy_and_print(self) -> None:
        term, tree = self.pick()
        same("a copy", True, copy.copy(term) is term and copy.deepcopy([term])[0] is term)
        self.count()
        text = str(term)
        same("printed", tree, read(text.encode()))
        same("in one line", True, text.isprintable())
        same("format", f"{text:>20}", f"{term:>20}")

    def take_apart(self) -> None:
        term, (kind, value, inside, annotations) = self.pick()
        self.count(8)
        wanted = {INT: Kind.INT, APPL: Kind.APPL, HOLE: Kind.HOLE, LIST: Kind.CONS if inside else Kind.NIL}[kind]
        same("kind", wanted, term.kind)
        same("value", kind == INT, hasattr(term, "value"))
        same("name", kind == APPL, hasattr(term, "name"))
        same("inner", kind == HOLE, hasattr(term, "inner"))
        same("head", wanted == Kind.CONS, hasattr(term, "head"))
        found = term.annotations
        same("annotations", len(annotations), len(found))
        for part, tree in zip(found, annotations):
            self.checked("annotation", tree, part)
        if kind == INT:
            same("int", (value, value), (term.value, int(term)))
        elif kind == HOLE:
            self.checked("inner", inside[0], term.inner)
        else:
            self.take_items_apart(term, kind, value, inside)

    def take_items_apart(self, term: Term, kind: str, value: object, inside: Tuple[Tree, ...]) -> None:
        self.count(len(inside))
        if kind == APPL:
            same("name", value, (term.name_bytes, term.quoted))
            same("arity", len(inside), term.arity)
            items = term.args
        else:
            items = list(term) if self.dice.random() < 0.5 else [term[it] for it in range(len(term))]
            if inside:
                self.checked("head", inside[0], term.head)
                self.checked("tail", listed(inside[1:]), term.tail)
        same("items", len(inside), len(items))
        for part, tree in zip(items, inside):
            self.checked("item", tree, part)
        place = self.dice.randrange(-3, 6)
        try:
            part = term.arg(place) if kind == APPL else term[place]
        except (RangeFault, IndexError):
            same("place", False, place in range(0 if kind == APPL else -len(inside), len(inside)))
        else:
            self.checked("place", inside[place], part)

    def pattern(self) -> None:
        patterns = self.at.patterns
        self.count()
        if len(patterns) > 6:
            pattern, _ = patterns.pop()
            if self.dice.random() < 0.5:
                pattern.free()
                try:
                    pattern.match(1)
                except UnknownFault:
                    return
                raise Wrong("a pattern that was freed matches")
            return
        text = self.dice.choice(PATTERNS)
        patterns.append((self.store.pattern(text), read(text.encode())))
        bad, wanted = self.dice.choice((("<x>", "P1"), ("<int>{a}", "P2"), ("[<int(a)>,<int>{a}]", "P1")))
        try:
            self.store.pattern(bad)
        except RuleFault as fault:
            same("the fault of a pattern", wanted, fault.reason)
            return
        raise Wrong(f"{bad} is a pattern")

    def some_pattern(self) -> Optional[Tuple[Pattern, Tree]]:
        """A pattern of some thread, which may free it."""
        patterns = list(self.at.patterns)
        return self.dice.choice(patterns) if patterns else None

    def match(self) -> None:
        some = self.some_pattern()
        term, tree = self.pick()
        if some is None:
            return
        pattern, model = some
        self.count()
        wanted = matched(model, tree)
        try:
            found = pattern.match(term)
            if wanted is not None and found is not None:
                same("made again", True, pattern.make(*found) is term)
        except UnknownFault:
            # another thread freed it
            return
        same("match", wanted is None, found is None)
        if found is not None and wanted is not None:
            same("bindings", len(wanted), len(found))
            for part, tree in zip(found, wanted):
                self.checked("binding", tree, part)

    def make(self) -> None:
        some = self.some_pattern()
        if some is None:
            return
        pattern, model = some
        count = places_of(model) if self.dice.random() < 0.8 else self.dice.randrange(3)
        parts = [self.pick() for _ in range(count)]
        self.count()
        wanted: Optional[Tree] = None
        reason = "M1"
        if count == places_of(model):
            try:
                wanted = made(model, iter([it for _, it in parts]))
                self.at.tried |= names_of(wanted, set())
            except Misfit:
                reason = "M2"
        try:
            term = pattern.make(*(it for it, _ in parts))
        except UnknownFault:
            return
        except (KindFault, RangeFault) as fault:
            same("the fault of make", (None, reason), (wanted, fault.reason))
            return
        if wanted is None:
            raise Wrong(f"{reason} is made")
        self.at.names |= names_of(wanted, set())
        self.checked("make", wanted, term)

    def some_term(self, depth: int) -> Tree:
        name = self.dice.choice((b"z", b"s", b"s", b"plus", b"twice")) if depth else b"z"
        return appl(name, False, [self.some_term(depth - 1) for _ in range(ARITIES[name])])

    def normalise(self) -> None:
        spec = self.at.spec
        if self.dice.random() < 0.3:
            term, tree = self.pick()
        else:
            tree = self.some_term(4)
            term = self.parse(text_of(tree), tree)
        limit = self.dice.choice((0, 1, 5, 1000, 2**64 - 1))
        self.count(2)
        rule = broken_rule(tree)
        number, steps = (0, 0) if rule else number_of(tree)
        try:
            value, taken = spec.normalise(term, limit)
        except UnspecifiedFault:
            same("specified", True, self.at.spec._mark is not spec._mark)
        except RuleFault as fault:
            same("the fault of a term", rule, fault.reason)
        except LimitReached:
            same("the limit is reached", (None, True), (rule, steps > limit))
        else:
            same("evaluated", (None, steps), (rule, taken))
            self.checked("value", noted(numeral(number), tree[3]), value)

    def specify(self) -> None:
        self.count()
        before = self.at.spec
        try:
            self.store.specify("REC-SPEC A SORTS B\n B END-SPEC")
        except RuleFault as fault:
            same("the fault of a specification", ("S1", 2, 2), (fault.reason, fault.line, fault.column))
        else:
            raise Wrong("a specification breaks a rule")
        if self.dice.random() < 0.3:
            memo, reclaim = self.dice.choice((0, 1, 64)), self.dice.choice((1, 50, 10000))
            self.at.specify(self.dice.choice(SPECS), memo, reclaim)
            return
        try:
            terms = before.terms
        except UnspecifiedFault:
            return
        same("terms below EVAL", len(EVAL), len(terms))
        for term, tree in zip(terms, EVAL):
            self.checked("term below EVAL", tree, term)

    def drop(self) -> None:
        held = self.at.held
        for _ in range(self.dice.randrange(4)):
            try:
                held.pop(self.dice.randrange(HELD))
            except IndexError:
                pass

    def reclaim(self) -> None:
        self.count(2)
        self.store.reclaim()
        same("cells", True, 0 <= self.store.cells <= 2**30)

    def numbers(self) -> None:
        """A number out of range is refused, whatever else is wrong."""
        term, _ = self.pick()
        spec = self.at.spec
        calls: List[Tuple[Callable[[int], object], int, int]] = [
            (Store, 1, 2**30),
            (lambda it: Store(names=it), 0, 2**32 - 1),
            (self.store.limit_names, 0, 2**32 - 1),
            (self.store.int, -(2**31), 2**31 - 1),
            (self.store.reserve, 0, 2**32 - 1),
            (term.arg, 0, 2**32 - 1),
            (lambda it: self.store.symbol("f", it), 0, 2**32 - 1),
            (lambda it: self.store.specify("", memo=it), 0, 2**20),
            (lambda it: self.store.specify("", reclaim=it), 1, 2**30),
            (lambda it: spec.normalise(term, it), 0, 2**64 - 1),
        ]
        call, least, most = self.dice.choice(calls)
        number = self.dice.choice(BAD_NUMBERS)
        if least <= number <= most:
            return
        self.count()
        try:
            call(number)
        except RangeFault:
            return
        raise Wrong(f"{number} is taken")

    def other_stores(self) -> None:
        other = self.dice.choice([it for it in self.shared if it is not self.at])
        term, _ = self.pick()
        self.count()
        try:
            other.store.appl("f", term)
        except StaleFault:
            return
        raise Wrong("a term of another store is taken")

    def names(self) -> None:
        self.count()
        try:
            self.store.appl(self.dice.choice(BAD_NAMES))
        except NameFault:
            return
        raise Wrong("a bad name is taken")


def in_threads(callers: List[Caller], count: int) -> None:
    failures: List[BaseException] = []

    def caught(caller: Caller) -> None:
        try:
            caller.run(count)
        except BaseException as failure:
            failures.append(failure)

    threads = [threading.Thread(target=caught, args=(it,)) for it in callers]
    for thread in threads:
        thread.start()
    for thread in threads:
        thread.join()
    if failures:
        raise failures[0]


def settle(shared: Shared) -> None:
    """A store has the parts of what is held, and nothing else."""
    parts: Set[Tree] = set()
    for term, tree in shared.held:
        same("text", text_of(tree), bytes(term))
        parts_of(tree, parts)
        del term
    shared.store.reclaim()
    same("cells", len(parts), shared.store.cells)
    if not len(shared.names) <= shared.store.names <= len(shared.names | shared.tried):
        raise Wrong(f"{shared.store.names} names, and {len(shared.names)} are known")
    if not shared.is_small:
        same("names", len(shared.names), shared.store.names)


def main() -> None:
    count = int(sys.argv[1]) if len(sys.argv) > 1 else 20000
    seed = int(sys.argv[2]) if len(sys.argv) > 2 else 1
    # threads take turns often
    sys.setswitchinterval(0.0005)
    shared = [Shared(it) for it in CELLS]
    callers = [Caller(seed * 4 + it, shared) for it in range(4)]
    for _ in range(ROUNDS):
        in_threads(callers, max(1, count // (4 * ROUNDS)))
        for it in shared:
            settle(it)
    for it in shared:
        it.held.clear()
        it.patterns.clear()
        settle(it)
        same("cells at the end", 0, it.store.cells)
        it.store.close()
    print(f"random_terms.py: {sum(it.calls for it in callers)} calls as wanted")


if __name__ == "__main__":
    main()
