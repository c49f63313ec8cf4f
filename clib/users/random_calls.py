#!/usr/bin/env -S python3 -B
"""Random calls of the library, compared with a model: a dict from what a term is made of to its reference.

    random_calls.py [CALLS [SEED]]
"""

import ctypes
import os
import random
import sys
from collections import Counter
from typing import Any, Callable, Dict, Iterator, List, Optional, Sequence, Set, Tuple

sys.path.insert(0, os.path.dirname(os.path.dirname(os.path.realpath(__file__))))

from percalesilt import (
    APPL, CONS, FULL, HOLE, INT, KIND, LIMIT, NAME, NIL, OK, RANGE, RULE, STALE, SYNTAX, UNKNOWN, UNMATCHED, UNPROTECTED,
    UNSPECIFIED, BOOL, I32, SIZE, U32, U64, Handle, library,
)

Number = int
# a kind, its own value, the references of what it is made of, and that of its annotations
Node = Tuple[int, Any, Tuple[int, ...], Optional[int]]
# a name and its arguments, each a tree or a reference
Tree = Tuple[bytes, List[Any]]
# what is spelt in a table: a kind, which of a list is CONS, its own value, what is inside of it, and its annotations
Part = Tuple[int, Any, Tuple[Any, ...], Tuple[Any, ...]]
# with its quotes and its number of arguments
Name = Tuple[bytes, bool, int]

CELLS = 3000
PLAIN, QUOTED = (b"f", b"g", b"plus", b""), (b"a b", b"\"\\\n\x01\xff", b"f")
NAMES = [*((it, False) for it in PLAIN), *((it, True) for it in QUOTED)]
BAD_NAMES = [b"0", b"a b", b"-", b"f(", b"\xe9"]
# Doubling and addition, whose values and steps the model knows; a term to evaluate is a number.
SPEC = b"""REC-SPEC Twice SORTS N CONS z : -> N s : N -> N OPNS plus : N N -> N twice : N -> N VARS X Y : N
RULES plus(z,Y) -> Y plus(s(X),Y) -> s(plus(X,Y)) twice(X) -> plus(X,X) EVAL plus(s(z),s(z)) twice(s(s(z))) END-SPEC"""
ARITIES = {b"z": 0, b"s": 1, b"plus": 2, b"twice": 1}
EVAL: List[Tree] = [(b"plus", [(b"s", [(b"z", [])])] * 2), (b"twice", [(b"s", [(b"s", [(b"z", [])])])])]
BAD_SPECS = [(SYNTAX, 20, 0, b"REC-SPEC A SORTS B B"), (RULE, 19, 1, b"REC-SPEC A SORTS B B END-SPEC"), (SYNTAX, 0, 0, b"")]
# A pattern is a placeholder's kind; a number; a name and its arguments, of which the last may be the rest, `...`; or a
# list in the same way. The code, the place and the rule of what is none.
PATTERNS: List[Any] = [
    "term", "int", "str", "appl", "placeholder", "list", 7, (b"f", []), (b"f", ["term"]), (b"f", ["int", "term"]),
    (b"g", []), (b"f", ["..."]), (b"f", ["term", "..."]), (b"plus", [(b"f", ["..."]), "term"]), [], ["..."],
    ["term", "..."], ["term", "term"], [[], "list", 3],
]
BAD_PATTERNS: List[Tuple[int, Optional[int], int, bytes]] = [(SYNTAX, 4, 0, b"f(1,,2)"), (RULE, None, 1, b"[<int>{1},<a>]"), (RULE, None, 2, b"f(<int>{1})")]
FITS = {"int": INT, "appl": APPL, "placeholder": HOLE}
ESCAPES = {34: b'\\"', 92: b"\\\\", 10: b"\\n", 9: b"\\t", 13: b"\\r"}


def spelt(byte: int) -> bytes:
    """A byte between quotes."""
    return ESCAPES.get(byte, b"%c" % byte if 32 <= byte <= 126 else b"\\%03o" % byte)


class Wrong(Exception):
    pass


def body_text(kind: int, value: Any, inside: Sequence[bytes], hole: bytes) -> bytes:
    """The text of a term without its annotations, with these texts inside of it."""
    if kind == INT:
        return b"%d" % value
    if kind == HOLE:
        return hole % inside[0]
    items = b",".join(inside)
    if kind != APPL:
        return b"[" + items + b"]"
    name, quoted = value
    text: bytes = b'"' + b"".join(map(spelt, name)) + b'"' if quoted else name
    return text + b"(" + items + b")" if items or not text else text


def part_text(part: Part) -> bytes:
    kind, value, inside, notes = part
    text = body_text(kind, value, list(map(part_text, inside)), b"<%s>")
    return text + b"{" + b",".join(map(part_text, notes)) + b"}" if notes else text


def part_names(part: Part) -> Set[Name]:
    kind, value, inside, notes = part
    found: Set[Name] = {(value[0], value[1], len(inside))} if kind == APPL else set()
    return found.union(*map(part_names, (*inside, *notes)))


def number_in(part: Part) -> Optional[int]:
    """The number of an element that a part stands for, or None."""
    kind, _, inside, notes = part
    if kind != HOLE or notes or inside[0][0] != INT or inside[0][3]:
        return None
    number: int = inside[0][1]
    return number


def is_open(part: Part, count: int) -> bool:
    """Whether each placeholder is the number of one of `count` elements or a list of one item."""
    kind, _, inside, notes = part
    number = number_in(part)
    if number is not None:
        return 0 <= number < count
    if kind == HOLE:
        kind, _, inside, more = inside[0]
        if kind != CONS or len(inside) != 1 or more:
            return False
    return all(is_open(it, count) for it in (*inside, *notes))


def table_rule(part: Part) -> Optional[int]:
    """The first rule of tables that what is spelt breaks, or None."""
    kind, _, elements, notes = part
    if kind != CONS or not elements or notes:
        return 1
    return None if all(is_open(it, place) for place, it in enumerate(elements)) else 2


def number_of(tree: Tree) -> Tuple[int, int]:
    """The number that a tree comes to, and in how many steps."""
    name, args = tree
    values = [number_of(it) for it in args]
    steps = sum(it[1] for it in values)
    if name == b"plus":
        return values[0][0] + values[1][0], steps + values[0][0] + 1
    if name == b"twice":
        return 2 * values[0][0], steps + values[0][0] + 2
    return sum(it[0] + 1 for it in values), steps


def numeral(number: int) -> Tree:
    tree: Tree = (b"z", [])
    for _ in range(number):
        tree = (b"s", [tree])
    return tree


def pattern_text(pattern: Any) -> bytes:
    """The text of a pattern."""
    if isinstance(pattern, str):
        return b"<list>" if pattern == "..." else b"<%s>" % pattern.encode()
    if isinstance(pattern, int):
        return b"%d" % pattern
    name, parts = pattern if isinstance(pattern, tuple) else (None, pattern)
    inside: bytes = b",".join(map(pattern_text, parts))
    word: bytes = b"" if name is None else name
    return b"[" + inside + b"]" if name is None else word + (b"(" + inside + b")" if inside else b"")


class Model:
    """Nodes by reference, and references by node. A node is a kind, its own value, the references of what it is made
    of, and that of its annotations, or None."""

    def __init__(self) -> None:
        self.at: Dict[int, Node] = {}
        self.of: Dict[Node, int] = {}
        self.roots: Dict[int, int] = {}

    def add(self, number: int, node: Node) -> None:
        if number in self.at:
            raise Wrong(f"{number} is given to {node}, and is {self.at[number]}")
        self.at[number], self.of[node] = node, number

    def is_list(self, number: int) -> bool:
        node = self.at[number]
        return node[0] in (NIL, CONS) and node[3] is None

    def parts(self, number: int) -> Tuple[int, ...]:
        _, _, made_of, annotations = self.at[number]
        return made_of if annotations is None else (*made_of, annotations)

    def reclaim(self, kept: Sequence[int]) -> None:
        reached: Set[int] = set()
        left = [*kept, *self.roots]
        while left:
            number = left.pop()
            if number not in reached:
                reached.add(number)
                left.extend(self.parts(number))
        for number in [it for it in self.at if it not in reached]:
            del self.of[self.at.pop(number)]

    def items(self, number: int) -> Iterator[int]:
        while self.at[number][0] == CONS:
            yield self.at[number][2][0]
            number = self.at[number][2][1]

    def inside(self, number: int) -> List[int]:
        """The items of a list, the arguments of an application, or what is in a placeholder."""
        kind, _, made_of, _ = self.at[number]
        return list(made_of) if kind == HOLE else list(self.items(made_of[0] if kind == APPL else number))

    def notes(self, number: int) -> List[int]:
        annotations = self.at[number][3]
        return [] if annotations is None else list(self.items(annotations))

    def text_with(self, number: int, inner: Callable[[int], bytes], hole: bytes = b"<%s>") -> bytes:
        """The text of a term, with these texts of what is inside of it and of its annotations."""
        kind, value, _, _ = self.at[number]
        text = body_text(kind, value, list(map(inner, self.inside(number))), hole)
        notes = self.notes(number)
        return text + b"{" + b",".join(map(inner, notes)) + b"}" if notes else text

    def text(self, number: int) -> bytes:
        return self.text_with(number, self.text)

    def fronts(self, number: int, found: Dict[int, bytes]) -> Dict[int, bytes]:
        """The different subterms of a term, each after those inside of it, with up to 9 bytes of their texts."""
        if number not in found:
            for it in (*self.inside(number), *self.notes(number)):
                self.fronts(it, found)
            found[number] = self.text_with(number, found.__getitem__)[:9]
        return found

    def table(self, number: int) -> bytes:
        """The text of the table of a term."""
        fronts = self.fronts(number, {})
        uses = Counter(part for it in fronts for part in (*self.inside(it), *self.notes(it)))
        shared = [it for it, front in fronts.items() if uses[it] > 1 and len(front) > 8]
        places = {it: b"<%d>" % place for place, it in enumerate(shared)}

        def element(it: int) -> bytes:
            return self.text_with(it, written, b"<[%s]>")

        def written(it: int) -> bytes:
            return places.get(it) or element(it)

        return b"[" + b",".join([*map(element, shared), written(number)]) + b"]"

    def fits(self, kind: str, number: int) -> bool:
        """Whether a placeholder of a kind matches a term."""
        node = self.at[number]
        if kind == "list":
            return node[0] in (NIL, CONS)
        if kind == "str":
            return node[0] == APPL and node[1][1] and self.at[node[2][0]][0] == NIL
        return kind == "term" or node[0] == FITS[kind]

    def bindings(self, pattern: Any, number: int) -> Optional[List[Any]]:
        """What a pattern binds in a term: references, and of the rest of a list its items; None where it does not
        match."""
        if isinstance(pattern, str):
            return [number] if self.fits(pattern, number) else None
        kind, value, made_of, annotations = self.at[number]
        if annotations is not None:
            return None
        if isinstance(pattern, int):
            return [] if kind == INT and value == pattern else None
        if isinstance(pattern, tuple):
            if kind != APPL or value != (pattern[0], False):
                return None
            return self.bindings_of(pattern[1], list(self.items(made_of[0])))
        return self.bindings_of(pattern, list(self.items(number))) if kind in (NIL, CONS) else None

    def bindings_of(self, patterns: Sequence[Any], items: List[int]) -> Optional[List[Any]]:
        found: List[Any] = []
        for place, pattern in enumerate(patterns):
            if pattern == "..." or pattern == "list" and place == len(patterns) - 1:
                return [*found, items[place:]] if place <= len(items) else None
            part = self.bindings(pattern, items[place]) if place < len(items) else None
            if part is None:
                return None
            found.extend(part)
        return found if len(items) == len(patterns) else None

    def rule(self, number: int) -> Optional[int]:
        """The first rule of terms that a term breaks, or None."""
        nodes: List[int] = []
        inner: List[int] = []
        left = [(number, True)]
        while left:
            number, is_root = left.pop()
            nodes.append(number)
            if not is_root:
                inner.append(number)
            kind, _, made_of, _ = self.at[number]
            if kind == APPL:
                left.extend((it, False) for it in self.items(made_of[0]))
        if any(self.at[it][0] != APPL for it in nodes):
            return 2
        if any(self.at[it][3] is not None for it in inner):
            return 3
        names = [self.at[it][1] for it in nodes]
        if any(quoted or name not in ARITIES for name, quoted in names):
            return 4
        counts = [len(list(self.items(self.at[it][2][0]))) for it in nodes]
        return 5 if any(ARITIES[name] != count for (name, _), count in zip(names, counts)) else None

    def call_rule(self, name: bytes, quoted: bool, args: Sequence[int]) -> Optional[int]:
        """The first rule of terms that a call breaks, or None."""
        if quoted or name not in ARITIES:
            return 4
        if ARITIES[name] != len(args):
            return 5
        roots = [self.at[it][:2] for it in args]
        return None if all(kind == APPL and not own[1] and own[0] in ARITIES for kind, own in roots) else 6

    def applies(self, number: int, name: bytes) -> Optional[List[int]]:
        """The arguments of a term without annotations that applies a declared name to as many as it takes."""
        kind, value, _, annotations = self.at[number]
        args = self.inside(number)
        return args if (kind, value, annotations, len(args)) == (APPL, (name, False), None, ARITIES[name]) else None

    def added(self, number: int, other: int) -> Tuple[Any, int]:
        """What the call of `plus` on values comes to, and in how many steps."""
        below = self.applies(number, b"s")
        if below is not None:
            tree, steps = self.added(below[0], other)
            return (b"s", [tree]), steps + 1
        return (other, 1) if self.applies(number, b"z") is not None else ((b"plus", [number, other]), 0)

    def called(self, name: bytes, args: List[int]) -> Tuple[Any, int]:
        """What a call on values comes to, and in how many steps."""
        if name == b"plus":
            return self.added(*args)
        if name == b"twice":
            tree, steps = self.added(args[0], args[0])
            return tree, steps + 1
        return (name, args), 0

    def tree(self, number: int) -> Tree:
        """The tree of a term that keeps the rules, but for annotations."""
        _, (name, _), made_of, _ = self.at[number]
        return name, [self.tree(it) for it in self.items(made_of[0])]


class Run:
    def __init__(self, seed: Number) -> None:
        self.dice = random.Random(seed)
        self.library, self.handle, self.model = library(), Handle(0, None), Model()
        self.by_handle = ctypes.byref(self.handle)
        self.out, self.kind, self.value, self.length, self.flag = U32(), U32(), I32(), SIZE(), BOOL()
        self.numbers: List[Number] = []
        self.is_specified = False
        self.taken = U64()
        self.patterns: Dict[Number, Any] = {}
        self.bound: List[Number] = []
        self.symbols: Dict[Number, Name] = {}
        # what counts as a name, and how many were asked for in vain
        self.names: Set[Name] = set()
        self.refused = 0
        self.same("open", OK, self.library.psilt_open(self.by_handle, CELLS))

    def same(self, what: str, want: object, have: object) -> None:
        if want != have:
            raise Wrong(f"{what}: {have!r}, not {want!r}")

    def call(self, name: str, *words: Any) -> Number:
        self.out.value = 4242
        code: Number = getattr(self.library, f"psilt_{name}")(self.by_handle, *words)
        return code

    def pick(self) -> Number:
        """A reference, in one of thirty picks a number that may be none."""
        if not self.numbers or self.dice.random() < 0.03:
            return self.dice.choice((0, 1, CELLS - 1, CELLS, 2**31, 2**32 - 1, self.dice.randrange(2 * CELLS)))
        return self.dice.choice(self.numbers)

    def pick_list(self) -> Number:
        number = self.pick()
        for _ in range(4):
            if number in self.model.at and self.model.is_list(number):
                break
            number = self.pick()
        return number

    def gives(
        self,
        name: str,
        node: Callable[[], Node],
        words: Tuple[Any, ...],
        given: Tuple[Number, ...] = (),
        suits: Callable[[], bool] = lambda: True,
    ) -> Number:
        """A call that makes one node, where the references are there and suit."""
        model = self.model
        code = self.call(name, *words, ctypes.byref(self.out))
        number = self.out.value
        if any(it not in model.at for it in given):
            want = STALE
        elif not suits():
            want = KIND
        else:
            made = node()
            if made in model.of:
                want = OK
                self.same(name, model.of[made], number)
            elif len(model.at) == CELLS:
                want = FULL
            else:
                want = OK
                if code == OK:
                    model.add(number, made)
                    self.numbers.append(number)
        self.same(name, want, code)
        self.same(f"{name} writes", True, (code == OK) or number == 4242)
        return number

    def int(self) -> None:
        value = self.dice.choice((self.dice.randrange(-5, 30), -(2**31), 2**31 - 1))
        self.gives("int", lambda: (INT, value, (), None), (value,))

    def nil(self) -> Number:
        return self.gives("nil", lambda: (NIL, None, (), None), ())

    def cons(self) -> None:
        head, tail = self.pick(), self.pick_list()
        self.cons_of(head, tail)

    def cons_of(self, head: Number, tail: Number) -> Number:
        given = (head, tail)
        return self.gives("cons", lambda: (CONS, None, given, None), given, given, lambda: self.model.is_list(tail))

    def hole(self) -> None:
        inner = self.pick()
        self.gives("hole", lambda: (HOLE, None, (inner,), None), (inner,), (inner,))

    def annotate(self) -> None:
        term, notes = self.pick(), self.pick_list()

        def node() -> Node:
            kind, value, made_of, _ = self.model.at[term]
            return kind, value, made_of, None if self.model.at[notes][0] == NIL else notes

        self.gives("annotate", node, (term, notes), (term, notes), lambda: self.model.is_list(notes))

    def appl(self) -> None:
        model, args = self.model, [self.pick() for _ in range(self.dice.choice((0, 0, 1, 1, 2, 2, 3, 5)))]
        numbers = (U32 * max(1, len(args)))(*args)
        if self.dice.random() < 0.05:
            name = self.dice.choice(BAD_NAMES)
            code = self.call("appl", name, len(name), False, numbers, len(args), ctypes.byref(self.out))
            self.same("appl", NAME, code)
            return
        name, quoted = self.dice.choice(NAMES)
        code = self.call("appl", name, len(name), quoted, numbers, len(args), ctypes.byref(self.out))
        number = self.out.value
        if any(it not in model.at for it in args):
            self.same("appl", STALE, code)
            return
        if code not in (OK, FULL):
            raise Wrong(f"appl: {code}")
        # The list of the arguments is there now, from its end on, or as much of it as there was room for. It is made
        # once more, which takes no cell.
        before = len(model.at)
        self.names.add((name, quoted, len(args)))
        found = self.learn(args, CELLS if code == FULL else None)
        if code == FULL:
            if found is not None and (APPL, (name, quoted), (found,), None) in model.of:
                raise Wrong("appl: full, and it is there")
            self.same("appl: cells", CELLS, len(model.at))
            return
        assert found is not None
        node = (APPL, (name, quoted), (found,), None)
        if node in model.of:
            self.same("appl", model.of[node], number)
            self.same("appl: new cells", 0, len(model.at) - before)
        else:
            model.add(number, node)
            self.numbers.append(number)

    def learn(self, args: Sequence[Number], full_at: Optional[Number]) -> Optional[Number]:
        """The list of some references, whose nodes come into the model; None where there was no room for all."""

        def is_there(node: Node) -> bool:
            return len(self.model.at) != full_at or node in self.model.of

        if not is_there((NIL, None, (), None)):
            return None
        made = self.nil()
        for it in reversed(args):
            if not is_there((CONS, None, (it, made), None)):
                return None
            made = self.cons_of(it, made)
        return made

    def learnt(self, args: Sequence[Number]) -> Number:
        """The list of some references, for which there is room."""
        found = self.learn(args, None)
        assert found is not None
        return found

    def reads(self, name: str, want: Tuple[Number, Any], words: Tuple[Any, ...]) -> None:
        code = self.call(name, *words, ctypes.byref(self.out))
        self.same(name, (want[0], want[1] if want[0] == OK else 4242), (code, self.out.value))

    def look(self) -> None:
        number = self.pick()
        node: Optional[Node] = self.model.at.get(number)
        code = self.call("kind", number, ctypes.byref(self.kind), ctypes.byref(self.value))
        self.same("kind", OK if node else STALE, code)
        self.same("holds", code, self.call("holds", number))
        if node:
            self.same("kind", node[0], self.kind.value)
            if node[0] == INT:
                self.same("value", node[1], self.value.value)

        other = (KIND if node else STALE, 0)

        def part(name: str, kind: Number, place: Number) -> None:
            found = (OK, node[2][place]) if node is not None and node[0] == kind else other
            self.reads(name, found, (number,))

        part("head", CONS, 0)
        part("args", APPL, 0)
        part("inner", HOLE, 0)
        self.reads("annotations", (OK, node[3]) if node and node[3] is not None else other, (number,))
        part("tail", CONS, 1)
        args = list(self.model.items(node[2][0])) if node and node[0] == APPL else None
        place = self.dice.choice((0, 1, 2, 4, 2**32 - 1))
        self.reads("arity", other if args is None else (OK, len(args)), (number,))
        found = (OK, args[place]) if args and place < len(args) else (RANGE, 0)
        self.reads("arg", other if args is None else found, (number, place))
        code = self.call("quoted", number, ctypes.byref(self.flag))
        self.same("quoted", other[0] if args is None else OK, code)
        if args is not None:
            name, quoted = self.model.at[number][1]
            self.same("quoted", quoted, self.flag.value)
            self.same("name", OK, self.call("name", number, ctypes.byref(self.length)))
            self.same("name", name, self.text())

    def text(self) -> bytes:
        buffer = ctypes.create_string_buffer(self.length.value + 1)
        self.same("text", OK, self.call("text", buffer, self.length.value))
        return buffer.raw[: self.length.value]

    def print_within(self) -> None:
        number = self.pick()
        if number not in self.model.at:
            self.same("print_within", STALE, self.call("print_within", number, 9, ctypes.byref(self.length)))
            return
        self.same("print", OK, self.call("print", number, ctypes.byref(self.length)))
        size = self.length.value
        most = min(2000, max(0, size + self.dice.choice((-9, -2, -1, 0, 1, 9))))
        self.length.value = 4242
        code = self.call("print_within", number, most, ctypes.byref(self.length))
        if size > most:
            self.same("print_within", (RANGE, 4242), (code, self.length.value))
        else:
            self.same("print_within", (OK, size), (code, self.length.value))
            self.same("text", self.model.text(number), self.text())

    def print(self) -> None:
        number = self.pick()
        code = self.call("print", number, ctypes.byref(self.length))
        if number not in self.model.at:
            self.same("print", STALE, code)
            return
        self.same("print", OK, code)
        if self.length.value > 2000:
            return
        text = self.model.text(number)
        self.same("text", text, self.text())
        annotated = self.annotated(number)
        if len(self.model.at) + len(annotated) > CELLS:
            return
        spaced = text.replace(b",", self.dice.choice((b",", b" ,", b", \n"))) if b'"' not in text else text
        self.same("read", OK, self.call("read", spaced, len(spaced), ctypes.byref(self.out)))
        self.same("read", number, self.out.value)
        # A reader makes a term before it makes it with annotations, so each is there without its own now.
        for it in annotated:
            self.without(it, self.nil())

    def print_table(self) -> None:
        """The table of a term, which is read again."""
        number, size = self.pick(), ctypes.byref(self.length)
        code = self.call("print_table", number, size)
        self.same("print_table", OK if number in self.model.at else STALE, code)
        if code == STALE:
            return
        text = self.text()
        if self.call("print_within", number, 2000, size) == OK:
            self.same("table", self.model.table(number), text)
        # there is to be room for what is made without annotations, and for what is in placeholders of the table
        if len(self.model.at) + 3 * text.count(b"<") + text.count(b"{") + 1 < CELLS:
            self.reads("read_table", (OK, number), (text, len(text)))
            self.settle(list(self.model.at))

    def some_part(self, depth: Number, count: Number) -> Part:
        """What is spelt in an element that comes after `count` others."""
        kind = self.dice.choice((INT, APPL, APPL, CONS, HOLE, HOLE, HOLE)) if depth else self.dice.choice((INT, HOLE))
        inside = tuple(self.some_part(depth - 1, count) for _ in range(self.dice.randrange(4))) if depth else ()
        notes = (self.some_part(0, count),) if self.dice.random() < 0.1 else ()
        if kind in (APPL, CONS):
            return kind, self.dice.choice(NAMES) if kind == APPL else None, inside, notes
        number: Part = (INT, self.dice.randrange(-5, 30), (), notes)
        if kind == INT:
            return number
        if count and (not depth or self.dice.random() < 0.7):
            return HOLE, None, ((INT, self.dice.randrange(count), (), ()),), ()
        return HOLE, None, ((CONS, None, inside[:1] or (number,), ()),), notes

    def spoilt(self, part: Part) -> Part:
        """A placeholder that may be neither the number of an earlier element nor a list of one item."""
        kind, value, inside, notes = part
        note: Part = (INT, 1, (), ())
        wrong: Sequence[Part] = (
            part, (HOLE, None, (part,), ()), (HOLE, None, ((CONS, None, (), ()),), ()),
            (HOLE, None, ((CONS, None, (part, part), ()),), ()), (HOLE, None, ((CONS, None, (part,), (note,)),), ()),
            (HOLE, None, ((INT, 0, (), (note,)),), ()), (HOLE, None, ((INT, 0, (), ()),), (note,)),
            *((HOLE, None, ((INT, it, (), ()),), ()) for it in (-1, 0, 3, 5, 2**31 - 1)),
        )
        return self.dice.choice(wrong)

    def read_table(self) -> None:
        """The term of some table, or what is wrong with it."""
        if len(self.model.at) + 500 > CELLS:
            return
        elements = [self.some_part(2, it) for it in range(self.dice.choice((0, 1, 2, 3, 5)))]
        if elements and self.dice.random() < 0.2:
            place = self.dice.randrange(len(elements))
            elements[place] = self.spoilt(elements[place])
        notes = (elements[0],) if elements and self.dice.random() < 0.05 else ()
        table: Part = (CONS, None, tuple(elements), notes)
        if elements and self.dice.random() < 0.03:
            table = elements[0]
        text, rule = part_text(table), table_rule(table)
        self.reads("read_table", (SYNTAX, 0), (text + b",", len(text) + 1))
        self.reads("place", (OK, len(text)), ())
        self.reads("rule", (OK, 0), ())
        code = self.call("read_table", text, len(text), ctypes.byref(self.out))
        number = self.out.value
        self.same("read_table", RULE if rule else OK, code)
        if rule:
            self.same("read_table writes", 4242, number)
            self.reads("rule", (OK, rule), ())
            self.reads("place", (OK, len(text)), ())
        if rule == 1:
            return
        # after the second rule some of the names and of the parts may be there
        for name in part_names(table) if rule else ():
            self.learn_symbol(name)
        if rule:
            self.settle(list(self.model.at))
            return
        self.names |= part_names(table)
        cells = U32()
        self.same("cells", OK, self.library.psilt_cells(self.by_handle, ctypes.byref(cells)))
        made: List[Number] = []
        for it in table[2]:
            made.append(self.made_part(it, made))
        self.same("the term of a table", made[-1], number)
        self.same("the cells of a table", len(self.model.at), cells.value)

    def made_part(self, part: Part, earlier: Sequence[Number]) -> Number:
        """The reference of what is spelt in an element, whose nodes come into the model."""
        kind, value, inside, notes = part
        number = number_in(part)
        if number is not None:
            return earlier[number]
        # of the list in a placeholder only the item is made
        given = [self.made_part(it, earlier) for it in (inside[0][2] if kind == HOLE else inside)]
        if kind == INT:
            made = self.gives("int", lambda: (INT, value, (), None), (value,))
        elif kind == HOLE:
            inner = given[0]
            made = self.gives("hole", lambda: (HOLE, None, (inner,), None), (inner,))
        else:
            made = self.applied(value[0], value[1], given) if kind == APPL else self.learnt(given)
        if not notes:
            return made
        noted = self.learnt([self.made_part(it, earlier) for it in notes])
        return self.gives("annotate", lambda: (*self.model.at[made][:3], noted), (made, noted), (made, noted))

    def annotated(self, number: Number) -> List[Number]:
        """The parts of a term that have annotations."""
        reached: Set[Number] = set()
        left = [number]
        while left:
            part = left.pop()
            if part not in reached:
                reached.add(part)
                left.extend(self.model.parts(part))
        return [it for it in reached if self.model.at[it][3] is not None]

    def without(self, term: Number, nil: Number) -> None:
        kind, value, made_of, _ = self.model.at[term]
        self.gives("annotate", lambda: (kind, value, made_of, None), (term, nil), (term, nil))

    def protect(self) -> None:
        number = self.pick()
        roots = self.model.roots
        if self.dice.random() < 0.5:
            self.same("protect", OK if number in self.model.at else STALE, self.call("protect", number))
            if number in self.model.at:
                roots[number] = roots.get(number, 0) + 1
            return
        number = self.dice.choice(list(roots)) if roots and self.dice.random() < 0.9 else number
        self.same("unprotect", OK if number in roots else UNPROTECTED, self.call("unprotect", number))
        if number in roots:
            roots[number] -= 1
            if not roots[number]:
                del roots[number]

    def reclaim(self) -> None:
        kept = [self.pick() for _ in range(self.dice.choice((0, 1, 3, 20)))]
        code = self.call("reclaim", (U32 * max(1, len(kept)))(*kept), len(kept))
        stale = any(it not in self.model.at for it in kept)
        self.same("reclaim", STALE if stale else OK, code)
        if not stale:
            self.model.reclaim(kept)
            self.numbers = list(self.model.at)
            self.bound = []

    def pattern(self) -> None:
        """A pattern more, one less, or none."""
        size = ctypes.byref(self.length)
        if self.dice.random() < 0.2:
            code, place, rule, text = self.dice.choice(BAD_PATTERNS)
            self.same("pattern", code, self.call("pattern", text, len(text), size))
            if place is not None:
                self.reads("place", (OK, place), ())
            self.reads("rule", (OK, rule), ())
        elif self.dice.random() < 0.5 or len(self.patterns) > 9:
            number = self.pick_number(self.patterns)
            code = OK if number in self.patterns else UNKNOWN
            self.same("pattern_free", code, self.call("pattern_free", number))
            self.patterns.pop(number, None)
        else:
            pattern = self.dice.choice(PATTERNS)
            text = pattern_text(pattern)
            self.same("pattern", OK, self.call("pattern", text, len(text), size))
            self.same("pattern", False, self.length.value in self.patterns)
            self.patterns[self.length.value] = pattern

    def pick_number(self, known: Dict[Number, Any]) -> Number:
        """The number of a pattern or a symbol, in one of ten picks one that may be none's."""
        if not known or self.dice.random() < 0.1:
            return self.dice.choice((0, 1, 5, 2**32, 2**64 - 1))
        return self.dice.choice(list(known))

    def matches(self) -> None:
        number, term = self.pick_number(self.patterns), self.pick()
        # There is to be room for all lists that a match may make.
        lists = self.annotated_lists(term) if term in self.model.at else []
        if len(self.model.at) + len(lists) + 10 > CELLS:
            return
        self.length.value = 4242
        code = self.call("match", number, term, ctypes.byref(self.length))
        pattern = self.patterns.get(number)
        if pattern is None or term not in self.model.at:
            self.same("match", UNKNOWN if pattern is None else STALE, code)
            self.same("match writes", 4242, self.length.value)
            return
        found = self.model.bindings(pattern, term)
        self.same("match", UNMATCHED if found is None else OK, code)
        if found is None:
            self.same("match writes", 4242, self.length.value)
            self.settle_lists(lists)
            return
        self.same("match", len(found), self.length.value)
        self.settle_lists(lists)
        self.bound = [self.learnt(it) if isinstance(it, list) else it for it in found]
        self.fill(number, self.bound, term)

    def annotated_lists(self, number: Number) -> List[Number]:
        return [it for it in self.annotated(number) if self.model.at[it][0] in (NIL, CONS)]

    def settle_lists(self, lists: List[Number]) -> None:
        """A match may have made lists without their annotations, which come into the model."""
        nil = self.nil()
        for it in lists:
            self.without(it, nil)

    def fill(self, number: Number, args: List[Number], term: Number) -> None:
        """The term that was matched is made again, and none of other references."""
        numbers = (U32 * max(1, len(args)))(*args)
        self.reads("make", (OK, term), (number, numbers, len(args)))
        self.reads("make", (RANGE, 0), (number, (U32 * (len(args) + 1))(*args, term), len(args) + 1))
        wrong = (U32 * (len(args) + 2))(*args[1:], 2**32 - 1, 2**32 - 1)
        self.reads("make", (RANGE, 0), (number, wrong, len(args) + 1))
        self.reads("make", (UNKNOWN, 0), (2**64 - 1, wrong, len(args)))
        if args:
            self.reads("make", (STALE, 0), (number, wrong, len(args)))

    def bindings(self) -> None:
        place = self.dice.choice((0, 1, 2, 2**64 - 1))
        found = (OK, self.bound[place]) if place < len(self.bound) else (RANGE, 0)
        self.reads("bound", found, (place,))

    def symbol(self) -> None:
        if self.dice.random() < 0.1:
            name = self.dice.choice(BAD_NAMES)
            self.same("symbol", NAME, self.call("symbol", name, len(name), False, 0, ctypes.byref(self.length)))
            return
        (name, quoted), arity = self.dice.choice(NAMES), self.dice.choice((0, 1, 2, 3, 2**32 - 1))
        self.learn_symbol((name, quoted, arity))

    def learn_symbol(self, symbol: Name) -> None:
        """The number of a symbol comes into the model."""
        name, quoted, arity = symbol
        self.same("symbol", OK, self.call("symbol", name, len(name), quoted, arity, ctypes.byref(self.length)))
        self.names.add(symbol)
        is_new = self.length.value not in self.symbols
        self.same("symbol", not is_new, (name, quoted, arity) in self.symbols.values())
        self.symbols[self.length.value] = self.symbols.get(self.length.value, (name, quoted, arity))
        self.same("symbol", (name, quoted, arity), self.symbols[self.length.value])

    def apply(self) -> None:
        model, number = self.model, self.pick_number(self.symbols)
        name, quoted, arity = self.symbols.get(number, (None, None, 2))
        count = arity if arity < 4 and self.dice.random() < 0.9 else 2
        args = [self.pick() for _ in range(count)]
        if len(model.at) + 10 > CELLS:
            return
        code = self.call("apply", number, (U32 * max(1, count))(*args), count, ctypes.byref(self.out))
        stale = any(it not in model.at for it in args)
        if name is None or count != arity or stale:
            self.same("apply", UNKNOWN if name is None else RANGE if count != arity else STALE, code)
            self.same("apply writes", 4242, self.out.value)
            return
        self.same("apply", OK, code)
        made, node = self.out.value, (APPL, (name, quoted), (self.learnt(args),), None)
        if node not in model.of:
            model.add(made, node)
            self.numbers.append(made)
        self.same("apply", model.of[node], made)

    def made(self, tree: Any) -> Number:
        """The reference of a tree, whose nodes come into the model; there is room for them."""
        if isinstance(tree, int):
            return tree
        name, args = tree
        return self.applied(name, False, [self.made(it) for it in args])

    def applied(self, name: bytes, quoted: bool, given: Sequence[Number]) -> Number:
        """The application of a name, which comes into the model; there is room for it."""
        numbers = (U32 * max(1, len(given)))(*given)
        code = self.call("appl", name, len(name), quoted, numbers, len(given), ctypes.byref(self.out))
        self.same("appl", OK, code)
        self.names.add((name, quoted, len(given)))
        number, node = self.out.value, (APPL, (name, quoted), (self.learnt(given),), None)
        if node not in self.model.of:
            self.model.add(number, node)
            self.numbers.append(number)
        self.same("appl", self.model.of[node], number)
        return number

    def some_tree(self, depth: Number) -> Tree:
        name = self.dice.choice((b"z", b"s", b"s", b"plus", b"twice")) if depth else b"z"
        return name, [self.some_tree(depth - 1) for _ in range(ARITIES[name])]

    def specify(self) -> None:
        if self.dice.random() < 0.3:
            self.same("spec_free", OK if self.is_specified else UNSPECIFIED, self.call("spec_free"))
            self.is_specified = False
        elif self.dice.random() < 0.3:
            code, place, rule, text = self.dice.choice(BAD_SPECS)
            self.same("spec", code, self.call("spec", text, len(text), 0, 1))
            self.reads("place", (OK, place), ())
            self.reads("rule", (OK, rule), ())
        elif self.dice.random() < 0.2:
            memo, reclaim = self.dice.choice(((2**20 + 1, 1), (2**32 - 1, 1), (0, 0), (0, 2**30 + 1)))
            self.same("spec", RANGE, self.call("spec", SPEC, len(SPEC), memo, reclaim))
        else:
            memo, reclaim = self.dice.choice((0, 1, 64)), self.dice.choice((1, 50, 10000))
            self.same("spec", OK, self.call("spec", SPEC, len(SPEC), memo, reclaim))
            self.names |= {(name, False, arity) for name, arity in ARITIES.items()}
            self.is_specified = True

    def normalise(self) -> None:
        model = self.model
        number = self.pick()
        if self.dice.random() < 0.7 and len(model.at) + 200 < CELLS:
            number = self.made(self.some_tree(3))
        steps = self.dice.choice((0, 1, 5, 1000, 2**64 - 1))
        taken = ctypes.byref(self.taken)
        is_full = len(model.at) + 500 > CELLS
        self.taken.value = 4242
        code = self.call("normalise", number, steps, ctypes.byref(self.out), taken)
        value = self.out.value
        if code != OK:
            self.same("normalise writes", (4242, 4242), (value, self.taken.value))
        if not self.is_specified or number not in model.at:
            self.same("normalise", STALE if self.is_specified else UNSPECIFIED, code)
            return
        if is_full and code == FULL:
            self.settle([number])
            return
        rule = model.rule(number)
        if rule:
            self.same("normalise", RULE, code)
            self.reads("rule", (OK, rule), ())
            self.settle([number])
            return
        wanted, needed = number_of(model.tree(number))
        self.same("normalise", OK if needed <= steps else LIMIT, code)
        if code == OK:
            self.same("taken", needed, self.taken.value)
            self.settle([number], value)
            self.is_value(value, numeral(wanted), model.at[number][3])
        self.settle([number])

    def call_symbol(self) -> None:
        """The call of a symbol on terms, which are not evaluated."""
        model = self.model
        if self.dice.random() < 0.8:
            name = self.dice.choice(sorted(ARITIES))
            self.learn_symbol((name, False, ARITIES[name] + (self.dice.random() < 0.1)))
            number = self.length.value
        else:
            number = self.pick_number(self.symbols)
        symbol, quoted, arity = self.symbols.get(number, (None, False, 2))
        count = arity if arity < 4 and self.dice.random() < 0.9 else 2
        args = [self.pick() for _ in range(count)]
        if self.dice.random() < 0.8 and len(model.at) + 200 < CELLS:
            args = [self.made(self.dice.choice((self.some_tree(3), numeral(self.dice.randrange(9))))) for _ in args]
        steps = self.dice.choice((0, 1, 5, 1000, 2**64 - 1))
        is_full = len(model.at) + 500 > CELLS
        self.taken.value = 4242
        numbers, taken = (U32 * max(1, count))(*args), ctypes.byref(self.taken)
        code = self.call("call", number, numbers, count, steps, ctypes.byref(self.out), taken)
        value = self.out.value
        if code != OK:
            self.same("call writes", (4242, 4242), (value, self.taken.value))
        if not self.is_specified or symbol is None or count != arity or any(it not in model.at for it in args):
            unknown = UNKNOWN if symbol is None else RANGE if count != arity else STALE
            self.same("call", unknown if self.is_specified else UNSPECIFIED, code)
            return
        self.bound = []
        if is_full and code == FULL:
            self.settle(args)
            return
        rule = model.call_rule(symbol, quoted, args)
        if rule:
            self.same("call", RULE, code)
            self.reads("rule", (OK, rule), ())
            return
        tree, needed = model.called(symbol, args)
        self.same("call", OK if needed <= steps else LIMIT, code)
        if code == OK:
            self.same("taken", needed, self.taken.value)
            self.settle(args, value)
            self.is_value(value, tree, None)
        self.settle(args)

    def settle(self, kept: Sequence[Number], value: Optional[Number] = None) -> None:
        """What an evaluation may have given up or made is given up, but for its value."""
        held = [*kept] if value is None else [*kept, value]
        self.bound = []
        self.same("reclaim", OK, self.call("reclaim", (U32 * len(held))(*held), len(held)))
        self.model.reclaim(kept)
        self.numbers = list(self.model.at)

    def is_value(self, value: Number, tree: Any, annotations: Optional[Number]) -> None:
        """The value is that of a tree, and its nodes, which are there, come into the model."""
        before = len(self.model.at)
        cells = U32()
        self.same("cells", OK, self.library.psilt_cells(self.by_handle, ctypes.byref(cells)))
        made = self.made(tree)
        if annotations is not None:
            node = lambda: (*self.model.at[made][:3], annotations)
            made = self.gives("annotate", node, (made, annotations), (made, annotations))
        self.same("value", made, value)
        self.same("value's cells", True, before <= cells.value <= len(self.model.at))

    def eval_terms(self) -> None:
        code = self.call("eval_terms", ctypes.byref(self.out))
        self.same("eval_terms", (OK, len(EVAL)) if self.is_specified else (UNSPECIFIED, 4242), (code, self.out.value))
        if len(self.model.at) + 100 > CELLS:
            return
        place = self.dice.choice((0, 1, 2, 2**32 - 1))
        code = self.call("eval_term", place, ctypes.byref(self.out))
        number = self.out.value
        if not self.is_specified or place >= len(EVAL):
            self.same("eval_term", (RANGE if self.is_specified else UNSPECIFIED, 4242), (code, number))
            return
        self.same("eval_term", OK, code)
        self.settle([], number)
        self.same("eval_term", self.made(EVAL[place]), number)

    def count(self) -> None:
        self.reads("cells", (OK, len(self.model.at)), ())
        self.same("spare", OK, self.call("spare", ctypes.byref(self.out)))
        self.same("room", True, self.out.value + len(self.model.at) <= CELLS)

    def limit(self) -> None:
        """How many names there are; and at a limit those that are there are taken, and no other ones."""
        self.reads("names", (OK, len(self.names)), ())
        if not self.names or self.dice.random() < 0.9:
            return
        self.same("limit_names", OK, self.call("limit_names", self.dice.choice((0, len(self.names) // 2, len(self.names)))))
        self.refused += 1
        name = b"unknown%d" % self.refused
        no_terms = (U32 * 1)()
        self.reads("appl", (FULL, 0), (name, len(name), self.dice.random() < 0.5, no_terms, 0))
        self.reads("read", (FULL, 0), (b"[1," + name + b"]", len(name) + 4))
        self.reads("read_table", (FULL, 0), (b"[1," + name + b"]", len(name) + 4))
        code = self.call("symbol", name, len(name), False, 0, ctypes.byref(self.length))
        self.same("symbol", FULL, code)
        self.learn_symbol(self.dice.choice(sorted(self.names)))
        self.reads("names", (OK, len(self.names)), ())
        self.same("limit_names", OK, self.call("limit_names", 2**32 - 1))
        # what the text needs but for its name may be there now
        if len(self.model.at) < CELLS:
            self.gives("int", lambda: (INT, 1, (), None), (1,))
        if len(self.model.at) < CELLS:
            self.nil()

    def turns(self, count: Number) -> Number:
        usual: List[Callable[[], object]] = [*[self.int] * 4, self.nil, *[self.cons] * 8, *[self.hole] * 2]
        usual += [*[self.annotate] * 4, *[self.appl] * 8, *[self.look] * 4, self.print, self.print_within, *[self.protect] * 2, self.count]
        usual += [*[self.matches] * 2, self.bindings, self.pattern, self.symbol, *[self.apply] * 2]
        usual += [self.print_table, self.read_table]
        rare: List[Callable[[], object]] = [self.specify, *[self.normalise] * 4, self.eval_terms, *[self.limit] * 2]
        rare += [self.call_symbol] * 4
        counted = 0
        while counted < count:
            if len(self.model.at) == CELLS and self.dice.random() < 0.02 or self.dice.random() < 0.0002:
                self.reclaim()
                counted += 1
            call = self.dice.choice(rare if self.dice.random() < 0.01 else usual)
            call()
            counted += 13 if call == self.look else 2 if call in (self.print, self.print_within, self.count) else 1
        self.same("close", OK, self.library.psilt_close(self.by_handle))
        return counted


def main() -> None:
    count = int(sys.argv[1]) if len(sys.argv) > 1 else 1000000
    seed = int(sys.argv[2]) if len(sys.argv) > 2 else 1
    print(f"random_calls.py: {Run(seed).turns(count)} calls as wanted")


if __name__ == "__main__":
    main()
