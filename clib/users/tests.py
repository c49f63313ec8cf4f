#!/usr/bin/env -S python3 -B
"""Tests of the package percalesilt."""

import copy
import gc
import os
import pickle
import re
import signal
import sys
import threading
import time
import unittest
from typing import Any, Callable, Dict, List, Optional, Type

sys.path.insert(0, os.path.dirname(os.path.dirname(os.path.realpath(__file__))))

import percalesilt
from percalesilt import (
    APPL,
    CLOSED,
    CONS,
    FULL,
    HOLE,
    INT,
    INTERRUPTED,
    KIND,
    LIMIT,
    NAME,
    NIL,
    RANGE,
    RULE,
    STALE,
    SYNTAX,
    UNKNOWN,
    UNSPECIFIED,
    Code,
    Fault,
    Interrupted,
    Kind,
    LimitReached,
    OutOfCells,
    RuleFault,
    Spec,
    Store,
    SyntaxFault,
    Term,
)
from percalesilt._library import Calls, version_of

TOP = os.path.dirname(os.path.dirname(os.path.dirname(os.path.realpath(__file__))))

ADD = '''REC-SPEC Add SORTS Nat CONS z : -> Nat s : Nat -> Nat OPNS plus : Nat Nat -> Nat VARS X Y : Nat
RULES plus(z,Y) -> Y plus(s(X),Y) -> s(plus(X,Y)) EVAL plus(s(s(z)),s(z)) z END-SPEC'''

PAIRS = '''REC-SPEC Pairs SORTS Nat Pair CONS z : -> Nat s : Nat -> Nat p : Nat Nat -> Pair
OPNS dup : Nat -> Pair 2p : Nat -> Pair plus : Nat Nat -> Nat VARS X Y : Nat
RULES dup(X) -> p(X,X) 2p(X) -> p(z,X) plus(z,Y) -> Y plus(s(X),Y) -> s(plus(X,Y)) END-SPEC'''


class WithStore(unittest.TestCase):
    def setUp(self) -> None:
        self.store = Store()

    def tearDown(self) -> None:
        self.store.close()

    store: Store

    def fails(self, code: int, call: Callable[..., object], *words: Any, **more: Any) -> Fault:
        with self.assertRaises(Fault) as raised:
            call(*words, **more)
        self.assertEqual(raised.exception.code, code)
        return raised.exception

    def cells_left(self) -> int:
        """How many cells a reclaim leaves when garbage is collected."""
        gc.collect()
        self.store.reclaim()
        return self.store.cells


class Terms(WithStore):
    def test_texts(self) -> None:
        term = self.store.parse(" plus ( x{at(3,7)} , -0012 ) ")
        self.assertEqual(str(term), "plus(x{at(3,7)},-12)")
        self.assertEqual(self.store.parse(str(term)), term)
        self.assertIs(self.store.parse(str(term)), term)
        self.assertEqual(repr(term), "<plus(x{at(3,7)},-12)>")

    def test_a_text_outside_the_grammar(self) -> None:
        fault = self.fails(SYNTAX, self.store.parse, "f(1,,2)")
        self.assertEqual(fault.place, 4)
        self.assertEqual(str(fault), "A at line 1, column 5: syntax error in the annotated term")

    def test_kinds(self) -> None:
        kinds = [self.store.parse(it).kind for it in ("7", "[]", "[1]", "f", "<int>")]
        self.assertEqual(kinds, [INT, NIL, CONS, APPL, HOLE])

    def test_making(self) -> None:
        term = self.store.appl("f", 1, [2, [3]], self.store.appl("a b", quoted=True))
        self.assertEqual(str(term), 'f(1,[2,[3]],"a b")')
        self.assertEqual(str(self.store.hole(term.args[0])), "<1>")
        self.assertEqual(str(term.noted(4, self.store.parse("at(3)"))), 'f(1,[2,[3]],"a b"){4,at(3)}')
        self.assertIs(term.noted(4).noted(), term)

    def test_taking_apart(self) -> None:
        term = self.store.parse("f(1,[2,3],<int>){n,m}")
        self.assertEqual((term.name, term.quoted, term.arity), ("f", False, 3))
        self.assertEqual([str(it) for it in term.args], ["1", "[2,3]", "<int>"])
        self.assertEqual([str(it) for it in term.annotations], ["n", "m"])
        self.assertEqual(term.args[0].annotations, [])
        self.assertEqual([it.value for it in term.arg(1)], [2, 3])
        self.assertEqual(str(term.arg(2).inner), "int")
        self.assertEqual(str(term.arg(1).head), "2")
        self.assertEqual(str(term.arg(1).tail), "[3]")

    def test_evaluating(self) -> None:
        before = self.store.parse("plus(s(z),s(z)){note}")
        spec = self.store.specify(ADD)
        value, steps = spec.normalise(before)
        self.assertEqual((str(value), steps), ("s(s(z)){note}", 2))
        self.assertIs(self.store.parse("s(s(z)){note}"), value)
        self.assertEqual([str(it) for it in spec.terms], ["plus(s(s(z)),s(z))", "z"])
        self.assertEqual([(str(v), n) for v, n in map(spec.normalise, spec.terms)], [("s(s(s(z)))", 3), ("z", 0)])
        self.store.reclaim()
        self.assertEqual((str(before), str(value)), ("plus(s(z),s(z)){note}", "s(s(z)){note}"))

    def test_what_is_not_evaluated(self) -> None:
        spec = self.store.specify(ADD)
        self.fails(LIMIT, spec.normalise, self.store.parse("plus(s(z),z)"), 1)
        fault = self.fails(RULE, spec.normalise, self.store.parse("s(q)"))
        self.assertEqual((fault.rule, fault.place), (4, None))
        self.assertEqual(self.fails(RULE, spec.normalise, 7).rule, 2)
        self.assertEqual(self.fails(SYNTAX, self.store.specify, "REC-SPEC A SORTS B B").place, 20)
        fault = self.fails(RULE, self.store.specify, "REC-SPEC A SORTS B B END-SPEC")
        self.assertEqual((fault.rule, fault.place), (1, 19))
        self.assertEqual(len(spec.terms), 2)

    def test_calling(self) -> None:
        spec = self.store.specify(PAIRS)
        one, two = self.store.parse("s(z)"), self.store.parse("s(s(z))")
        self.assertEqual(spec.call("plus", one, one), (two, 2))
        self.assertEqual(spec.call(self.store.symbol("plus", 2), one, one, steps=2), (two, 2))
        self.assertEqual(spec.call("s", one, steps=0), (two, 0))
        self.assertEqual(spec.call(b"z"), (self.store.parse("z"), 0))
        # an argument is not evaluated, and keeps its annotations
        pair, steps = spec.call("dup", self.store.parse("plus(z,z){note}"))
        self.assertEqual((str(pair), steps), ("p(plus(z,z){note},plus(z,z){note})", 1))
        # a name that is not plain is quoted
        pair, steps = spec.call("2p", one)
        self.assertEqual((str(pair), steps), ("p(z,s(z))", 1))
        self.store.reclaim()
        self.assertEqual((str(one), str(two), str(pair)), ("s(z)", "s(s(z))", "p(z,s(z))"))
        # a term of 2^60 leaves
        tree = self.store.parse("leaf")
        grow = self.store.specify("REC-SPEC T SORTS T CONS leaf : -> T node : T T -> T OPNS dup : T -> T VARS X : T "
                                  "RULES dup(X) -> node(X,X) END-SPEC")
        for _ in range(60):
            tree, steps = grow.call("dup", tree)
        self.assertEqual((steps, tree.arity), (1, 2))
        self.assertRaises(percalesilt.RangeFault, tree.text, 1000000)

    def test_what_is_not_called(self) -> None:
        spec = self.store.specify(PAIRS)
        one, pair = self.store.parse("s(z)"), self.store.parse("p(z,z)")
        self.fails(LIMIT, spec.call, "plus", one, one, steps=1)
        rules = [("minus", (one,), 4), ("plus", (one,), 5), ("dup", (pair,), 6), ("dup", (7,), 6), ("dup", ([],), 6)]
        for name, values, rule in rules:
            fault = self.fails(RULE, spec.call, name, *values)
            self.assertEqual((fault.rule, fault.reason, fault.place), (rule, f"T{rule}", None))
        self.fails(RULE, spec.call, self.store.symbol("dup", 1, quoted=True), one)
        self.fails(RANGE, spec.call, self.store.symbol("dup", 1), one, one)
        self.fails(UNKNOWN, spec.call, Store().symbol("dup", 1), one)
        self.fails(STALE, spec.call, "dup", Store().parse("z"))
        for steps in (-1, 2**64):
            with self.assertRaises((OverflowError, ValueError)):
                spec.call("dup", one, steps=steps)
        self.assertRaises(TypeError, spec.call, "dup", "z")
        self.assertRaises(TypeError, spec.call, 7, one)
        names = self.store.names
        spec.free()
        self.fails(UNSPECIFIED, spec.call, "new", one)
        self.assertEqual(self.store.names, names)

    def test_one_specification_at_a_time(self) -> None:
        first = self.store.specify(ADD)
        second = self.store.specify("REC-SPEC B SORTS S CONS a : -> S EVAL a END-SPEC")
        self.fails(UNSPECIFIED, first.normalise, self.store.parse("z"))
        self.assertEqual([str(it) for it in second.terms], ["a"])
        second.free()
        self.fails(UNSPECIFIED, lambda: second.terms)

    def test_patterns(self) -> None:
        pattern = self.store.pattern("f(<int>,<list>)")
        pair = self.store.pattern("<term>")
        term = self.store.parse("f(7,[a]{n},b)")
        found = pattern.match(term)
        assert found is not None
        self.assertEqual([str(it) for it in found], ["7", "[[a]{n},b]"])
        self.assertIs(pattern.make(*found), term)
        self.assertEqual(str(pattern.make(7, [])), "f(7)")
        self.assertIsNone(pattern.match(self.store.parse("f(a)")))
        self.assertEqual(pair.match(3), [self.store.int(3)])
        self.assertEqual(self.store.pattern("f").match(self.store.appl("f")), [])

    def test_patterns_that_are_refused(self) -> None:
        self.assertEqual(self.fails(SYNTAX, self.store.pattern, "f(1,,2)").place, 4)
        fault = self.fails(RULE, self.store.pattern, "f(<integer>)")
        self.assertEqual((fault.rule, fault.place), (1, None))
        self.assertEqual(self.fails(RULE, self.store.pattern, "<int>{n}").rule, 2)
        pattern = self.store.pattern("f(<int>)")
        self.fails(RANGE, pattern.make)
        self.fails(KIND, pattern.make, [])
        pattern.free()
        self.fails(UNKNOWN, pattern.match, 1)
        self.fails(UNKNOWN, pattern.make, 1)

    def test_patterns_that_are_let_go(self) -> None:
        first, second = self.store.pattern("a"), self.store.pattern("b")
        numbers = first.number, second.number
        del first
        gc.collect()
        self.assertEqual(self.store.pattern("c").number, numbers[0])
        self.assertEqual(second.match(self.store.appl("b")), [])

    def test_symbols(self) -> None:
        f, quoted = self.store.symbol("f", 2), self.store.symbol("f", 2, quoted=True)
        self.assertEqual(self.store.symbol("f", 2).number, f.number)
        self.assertIs(f(1, [2]), self.store.parse("f(1,[2])"))
        self.assertIs(quoted(1, [2]), self.store.parse('"f"(1,[2])'))
        self.store.reclaim()
        self.assertEqual(str(f(3, 4)), "f(3,4)")
        self.fails(RANGE, f, 1)
        self.fails(RANGE, self.store.symbol, "f", -1)
        self.fails(NAME, self.store.symbol, "0", 0)

    def test_bytes_of_names(self) -> None:
        term = self.store.appl(bytes(range(256)), quoted=True)
        self.assertEqual(term.name_bytes, bytes(range(256)))
        self.assertIs(self.store.appl(term.name, quoted=True), term)
        self.assertIs(self.store.parse(str(term)), term)

    def test_faults(self) -> None:
        term = self.store.parse("f(1)")
        self.fails(KIND, lambda: term.head)
        self.fails(KIND, lambda: term.value)
        self.fails(KIND, list, term)
        self.fails(RANGE, term.arg, 1)
        self.fails(RANGE, self.store.int, 2**31)
        self.fails(NAME, self.store.appl, "0")
        self.fails(RANGE, Store, 0)
        with Store() as other:
            self.fails(STALE, self.store.appl, "g", other.int(1))
            self.assertNotEqual(other.parse("f(1)"), term)

    def test_what_is_alive_stays(self) -> None:
        kept = self.store.parse("f(1,2)")
        gone = self.store.parse("g(3,4)")
        self.store.reclaim()
        self.assertEqual(str(gone), "g(3,4)")
        del gone
        gc.collect()
        self.store.reclaim()
        self.assertEqual(str(kept), "f(1,2)")
        # f(1,2), [1,2], [2], [], 1, 2
        self.assertEqual(self.store.cells, 6)
        del kept
        gc.collect()
        self.store.reclaim()
        self.assertEqual(self.store.cells, 0)

    def test_what_is_alive_stays_over_evaluations(self) -> None:
        kept, gone = self.store.parse("f(1,2)"), self.store.parse("g(3,4)")
        spec = self.store.specify(ADD)
        for turn in range(3):
            del gone
            value, _ = spec.normalise(self.store.parse("plus(s(z),s(z))"))
            later = self.store.parse(f"h({turn})")
            gone = spec.terms[0]
            self.assertEqual((str(kept), str(value), str(later)), ("f(1,2)", "s(s(z))", f"h({turn})"))
            self.assertEqual(str(gone), "plus(s(s(z)),s(z))")
        self.assertIs(self.store.parse("f(1,2)"), kept)
        del gone, value, later
        self.assertEqual(self.cells_left(), 6)
        del kept
        self.assertEqual(self.cells_left(), 0)

    def test_a_full_store(self) -> None:
        with Store(cells=3) as store:
            self.assertEqual(str(store.list([1])), "[1]")
            self.fails(FULL, store.parse, "f(2)")
            self.fails(FULL, store.reserve, 1)

    def test_cells_that_reading_takes(self) -> None:
        """A part with annotations is first made without them."""
        for text, taken, parts in (("a{b}", 5, 4), ("f(x){1}", 7, 6), ("[a{}]", 3, 3), ("[a]{b}", 6, 5), ("a{a}", 4, 4)):
            with Store(cells=taken) as store:
                term = store.parse(text)
                self.assertEqual(store.cells, taken)
                store.reclaim()
                self.assertEqual(store.cells, parts)
                self.assertIs(store.parse(text), term)
            with Store(cells=taken - 1) as store:
                self.fails(FULL, store.parse, text)
        with Store(cells=5) as store:
            term = store.parse("a{b}")
            store.reclaim()
            seven = store.int(7)
            # the term is there, and `a` is not
            self.fails(FULL, store.parse, "a{b}")
            self.assertEqual((str(term), str(seven)), ("a{b}", "7"))

    def test_a_closed_store(self) -> None:
        term = self.store.parse("f(1)")
        self.store.close()
        self.fails(CLOSED, str, term)
        self.fails(CLOSED, self.store.int, 1)

    def test_words(self) -> None:
        with open(f"{TOP}/clib/percalesilt.h", encoding="utf-8") as file:
            text = file.read()
        for code, words in enumerate(percalesilt.WORDS):
            self.assertIn(f'return "{words}";', text)
            self.assertEqual(str(Fault(code)), words)
            self.assertIn(f"PSILT_{Code(code).name} = {code}", text)
        for kind in Kind:
            self.assertIn(f"PSILT_KIND_{kind.name} = {kind.value}", text)
        for name in percalesilt.CALLS:
            self.assertIn(f"psilt_code psilt_{name}(", text)
        self.assertEqual(text.count("\npsilt_code psilt_"), len(percalesilt.CALLS))
        self.assertIn("typedef uint32_t psilt_code;", text)


class Tables(WithStore):
    """Texts in which each shared subterm is written once."""

    def test_tables(self) -> None:
        tables = {
            "a": "[a]",
            "[]": "[[]]",
            "f(pair(a,b),pair(a,b),<7>)": "[pair(a,b),f(<0>,<0>,<[7]>)]",
            # a text of 8 bytes is not shared
            "f(pai(a,b),pai(a,b))": "[f(pai(a,b),pai(a,b))]",
            "[pair(a,b){c},g(pair(a,b){c}),g(pair(a,b){c})]": "[pair(a,b){c},g(<0>),[<0>,<1>,<1>]]",
            # the printed text of this name has 10 bytes
            'f(1){"é","é"}': '["\\303\\251",f(1){<0>,<0>}]',
        }
        for text, table in tables.items():
            term = self.store.parse(text)
            self.assertEqual(term.table(), table.encode())
            self.assertIs(self.store.parse_table(table), term)
            self.assertIs(self.store.parse_table(f" {table}\n".encode()), term)
            with Store() as other:
                self.assertEqual(other.parse_table(table).table(), table.encode())
        # what nothing uses, and a short element
        self.assertIs(self.store.parse_table("[pair(a,b),c,g(<1>)]"), self.store.parse("g(c)"))
        self.assertIs(self.store.parse_table('["é",<0>]'), self.store.parse('"é"'))

    def test_a_term_of_many_leaves(self) -> None:
        term = self.store.parse("leaf")
        for _ in range(60):
            term = self.store.appl("node", term, term)
        table = term.table()
        self.assertEqual(table[:43], b"[node(leaf,leaf),node(<0>,<0>),node(<1>,<1>")
        self.assertEqual((table[-16:], table.count(b"node")), (b",node(<58>,<58>)]"[-16:], 60))
        self.assertIs(self.store.parse_table(table), term)
        with Store() as other:
            copied = other.parse_table(table)
            other.reclaim()
            self.assertEqual((other.cells, copied.table()), (182, table))

    def test_texts_that_spell_no_table(self) -> None:
        fault = self.fails(SYNTAX, self.store.parse_table, "[a,\n,b]")
        self.assertEqual((fault.reason, fault.place, fault.line, fault.column), ("A", 4, 2, 1))
        for text in ("a", "7", "[]", "[a]{b}", "<[a]>", "f([a])"):
            fault = self.fails(RULE, self.store.parse_table, text)
            self.assertEqual((fault.reason, fault.rule, fault.place), ("R1", 1, None))
        numbers = ("<1>", "<-1>", "<2147483647>", "<0>{b}", "<0{b}>")
        for inside in (*numbers, "<[b,c]>", "<[b]{c}>", "<[]>", "<foo>", "<<0>>"):
            fault = self.fails(RULE, self.store.parse_table, f"[a,{inside}]")
            self.assertEqual((fault.reason, fault.rule, fault.place), ("R2", 2, None))
            self.assertRaises(RuleFault, self.store.parse_table, f"[a,f([{inside}]),b]")
        words = "R2: placeholder of a table that is not <N>, N being an earlier element, nor <[TERM]>"
        self.assertEqual(str(fault), words)
        self.assertEqual(self.fails(RANGE, self.store.parse_table, b" " * (2**24 + 1)).reason, "L1")
        self.assertRaises(TypeError, self.store.parse_table, 7)

    def test_limits_of_tables(self) -> None:
        with Store(cells=9, names=4) as store:
            term = store.parse_table("[pair(a,b),f(<0>,<0>)]")
            self.assertEqual((store.cells, store.names, str(term)), (9, 4, "f(pair(a,b),pair(a,b))"))
            self.fails(FULL, store.parse_table, "[new,a]")
            self.fails(FULL, store.parse_table, "[7]")
            self.assertEqual(store.names, 4)
            # the numbers of elements take no cells
            store.reclaim()
            self.assertEqual(store.cells, 9)
        self.fails(CLOSED, term.table)
        self.fails(CLOSED, store.parse_table, "[a]")


class Bounds(WithStore):
    def test_a_text_within_a_bound(self) -> None:
        term = self.store.parse('f("é",[1,2]{a})')
        whole, size = str(term), len(bytes(term))
        self.assertEqual(size, 22)
        for most in (size, size + 1, 2**63):
            self.assertEqual(term.text(most), whole)
        for most in (size - 1, 1, 0):
            self.assertIn(f"more than {most} bytes", str(self.fails(RANGE, term.text, most)))
        self.refused(term.text, -1)
        self.assertEqual(self.store.parse("a").text(1), "a")

    def test_a_text_that_is_never_made(self) -> None:
        """A tree of 2^60 leaves."""
        term, node = self.store.parse("leaf"), self.store.symbol("node", 2)
        for _ in range(60):
            term = node(term, term)
        self.fails(RANGE, term.text, 1000000)
        self.assertEqual(term.args[0].args[1].kind, APPL)
        self.store.close()
        self.fails(CLOSED, term.text, 10)

    def refused(self, call: Callable[..., object], *words: Any) -> None:
        self.assertRaises((OverflowError, ValueError), call, *words)


class Names(WithStore):
    """Names are kept, and there may be a limit of them."""

    def test_which_calls_add_names(self) -> None:
        def adds(count: int, call: Callable[..., object], *words: Any) -> Any:
            before = self.store.names
            result = call(*words)
            self.assertEqual(self.store.names - before, count)
            return result

        adds(4, self.store.parse, 'f(a,f,"a")')
        adds(0, self.store.parse, '[f,a,"a"]')
        adds(1, self.store.appl, "g", 1)
        adds(0, self.store.appl, "g", 2)
        adds(1, self.store.symbol, "g", 2)
        pattern = adds(0, self.store.pattern, "h(<term>,<list>)")
        adds(1, pattern.make, 1, [2])
        adds(1, pattern.make, 1, [])
        adds(0, pattern.match, self.store.int(7))
        spec = adds(3, self.store.specify, ADD)
        adds(0, spec.normalise, self.store.parse("plus(z,s(z))"))
        adds(0, lambda: spec.terms)
        self.assertEqual(self.cells_left(), 0)
        adds(0, self.store.parse, "[f,g(1)]")

    def test_a_limit(self) -> None:
        with Store(names=3) as store:
            kept = store.parse("f(a,b)")
            self.assertEqual(store.names, 3)
            for text in ("c", "f(a)", '"a"', "[a,b,c]"):
                self.fails(FULL, store.parse, text)
            self.fails(FULL, store.appl, "c")
            self.fails(FULL, store.symbol, "f", 1)
            self.fails(FULL, store.specify, ADD)
            self.fails(FULL, store.pattern("c").make)
            self.assertEqual((str(store.appl("f", 1, [store.appl("a")])), str(store.pattern("b").make())), ("f(1,[a])", "b"))
            store.limit_names(4)
            self.assertEqual(str(store.parse("[c,a]")), "[c,a]")
            self.fails(FULL, store.parse, "d")
            store.limit_names(0)
            self.assertEqual((str(store.parse("c{a}")), str(kept), store.names), ("c{a}", "f(a,b)", 4))
            words = str(self.fails(FULL, store.parse, "d"))
            self.assertEqual(words, "out of cells or names")

    def test_its_range(self) -> None:
        for most in (-1, 2**32):
            self.fails(RANGE, self.store.limit_names, most)
            self.fails(RANGE, lambda it: Store(names=it), most)
        self.assertRaises(TypeError, self.store.limit_names, "1")
        self.fails(CLOSED, lambda: closed().names)
        self.fails(CLOSED, closed().limit_names, 1)


class Versions(unittest.TestCase):
    def test_one_version(self) -> None:
        """The header, the library, the package and recw are of one version."""
        with open(f"{TOP}/clib/percalesilt.h", encoding="utf-8") as file:
            parts = re.findall(r"#define PSILT_VERSION_M?[AIP][A-Z]* ([0-9]+)\n", file.read())
        self.assertEqual(".".join(parts), percalesilt.VERSION)
        self.assertEqual(version_of(percalesilt.library()), percalesilt.VERSION)
        with open(f"{TOP}/crates/recw_cli/src/command.rt", encoding="utf-8") as file:
            self.assertIn(f'const VERSION: &str = "{percalesilt.VERSION}";', file.read())


class Numbers(WithStore):
    """What is outside its range is refused before the library is called."""

    def refused(self, call: Callable[..., object], *words: Any, **more: Any) -> None:
        with self.assertRaises((OverflowError, ValueError)):
            call(*words, **more)

    def test_ranges(self) -> None:
        term = self.store.parse("f(1,2)")
        spec = self.store.specify(ADD)
        for cells in (0, -1, 2**30 + 1, 2**32 + 5):
            self.refused(Store, cells)
        for place in (-1, 2, 2**32, 2**64):
            self.refused(term.arg, place)
        for steps in (-1, 2**64):
            self.refused(spec.normalise, self.store.parse("z"), steps=steps)
        for memo in (-1, 2**20 + 1, 2**32):
            self.refused(self.store.specify, ADD, memo=memo)
        for reclaim in (-1, 0, 2**30 + 1, 2**32 + 1):
            self.refused(self.store.specify, ADD, reclaim=reclaim)
        for count in (-1, 2**32, 2**32 + 1):
            self.refused(self.store.reserve, count)
        for value in (-(2**31) - 1, 2**31, 2**32):
            self.refused(self.store.int, value)
            self.refused(self.store.appl, "f", value)
        for arity in (-1, 2**32):
            self.refused(self.store.symbol, "f", arity)
        # nothing was done
        self.assertEqual(str(spec.normalise(self.store.parse("plus(z,z)"))[0]), "z")

    def test_words(self) -> None:
        fault = self.fails(RANGE, self.store.int, 2**31)
        self.assertEqual(
            str(fault), "a number outside its range: value is 2147483648, not in -2147483648 to 2147483647"
        )

    def test_what_is_no_number(self) -> None:
        for number in (1.0, "1", None):
            self.assertRaises(TypeError, Store, number)
            self.assertRaises(TypeError, self.store.int, number)
            self.assertRaises(TypeError, self.store.reserve, number)

    def test_a_text_that_is_too_long(self) -> None:
        fault = self.fails(RANGE, self.store.parse, b" " * (2**24 + 1))
        self.assertEqual(str(fault), "L1: the text has more than 16777216 bytes")


class Objects(WithStore):
    def test_copies_are_the_term(self) -> None:
        term = self.store.parse("f([1])")
        held = copy.deepcopy({"a": [term]})
        self.assertIs(copy.copy(term), term)
        self.assertIs(held["a"][0], term)
        number = term.number
        del term
        self.assertEqual(self.cells_left(), 5)
        self.assertEqual(held["a"][0].number, number)
        del held
        self.assertEqual(self.cells_left(), 0)

    def test_pickling_fails_with_a_sentence(self) -> None:
        for held in (self.store, self.store.parse("f"), self.store.pattern("f"), self.store.symbol("f", 0)):
            with self.assertRaisesRegex(TypeError, "cannot be (copied or )?pickled"):
                pickle.dumps(held)
        with self.assertRaisesRegex(TypeError, "cannot be copied or pickled"):
            copy.copy(self.store)
        fault = self.fails(SYNTAX, self.store.parse, "f(")
        again = pickle.loads(pickle.dumps(fault))
        self.assertEqual((type(again), str(again)), (SyntaxFault, str(fault)))

    def test_attributes_of_each_kind(self) -> None:
        names = ("value", "name", "quoted", "arity", "args", "head", "tail", "inner")
        for text, wanted in {
            "7{n}": ["value"],
            "[]": [],
            "[1]": ["head", "tail"],
            "f(1)": ["name", "quoted", "arity", "args"],
            "<int>": ["inner"],
        }.items():
            term = self.store.parse(text)
            self.assertEqual([it for it in names if hasattr(term, it)], wanted)
        with self.assertRaisesRegex(AttributeError, "only an integer has 'value'"):
            getattr(self.store.parse("f"), "value")

    def test_strings_are_no_values(self) -> None:
        pattern, symbol = self.store.pattern("<term>"), self.store.symbol("f", 1)
        calls: List[Callable[..., object]] = [self.store.list, pattern.match, pattern.make, symbol, self.store.hole]
        texts: List[Any] = ["ab", b"ab", ""]
        others: List[Any] = [1.5, None, {1: 2}, {1}]
        for text in texts:
            for call in calls:
                with self.assertRaisesRegex(TypeError, "pass a list"):
                    call(text)
            with self.assertRaisesRegex(TypeError, "pass a list"):
                self.store.appl("f", text)
        for other in others:
            with self.assertRaisesRegex(TypeError, "a value is a Term, an integer or a list"):
                self.store.appl("f", other)
        self.assertEqual(str(self.store.appl("f", (1, 2), range(2), (it for it in [3]))), "f([1,2],[0,1],[3])")

    def test_items_of_a_list(self) -> None:
        items = self.store.parse("[a,7,[b]]{note}")
        self.assertEqual(len(items), 3)
        self.assertEqual([str(it) for it in items], ["a", "7", "[b]"])
        self.assertEqual([str(items[it]) for it in (0, 2, -1, -3)], ["a", "[b]", "[b]", "a"])
        self.assertEqual([str(it) for it in items[1:]], ["7", "[b]"])
        self.assertEqual([str(it) for it in reversed(items)], ["[b]", "7", "a"])
        self.assertIn(self.store.int(7), items)
        self.assertNotIn(self.store.int(8), items)
        for place in (3, -4):
            self.assertRaises(IndexError, lambda at: items[at], place)
        self.assertEqual((len(self.store.parse("[]")), list(self.store.parse("[]"))), (0, []))
        for text in ("7", "f(1)", "<int>"):
            self.assertRaises(TypeError, len, self.store.parse(text))
            self.assertRaises(TypeError, iter, self.store.parse(text))
            self.assertRaises(TypeError, lambda it: it[0], self.store.parse(text))

    def test_items_in_constant_time(self) -> None:
        """The last items of a list take as many calls as the first ones, and each item takes few."""
        items = self.store.list(range(20000))
        self.assertEqual(len(items), 20000)
        self.store.reclaim()
        counted = Counted(items.store._calls)
        items.store._calls = counted
        self.assertEqual([int(items[it]) for it in range(19000, 20000)], list(range(19000, 20000)))
        self.assertLessEqual(counted.calls, 3100)
        counted.calls = 0
        self.assertEqual(sum(int(it) for it in self.store.parse(str(items))), sum(range(20000)))
        self.assertLess(counted.calls, 120000)
        counted.calls = 0
        self.assertEqual(int(next(iter(self.store.parse(f"[-1,{str(items)[1:]}")))), -1)
        self.assertLess(counted.calls, 20)

    def test_numbers_and_truth(self) -> None:
        self.assertEqual((int(self.store.int(-7)), f"{self.store.int(-7):>4}"), (-7, "  -7"))
        self.assertRaises(TypeError, int, self.store.parse("f"))
        self.assertTrue(all(map(self.store.parse, ("0", "[]", "()", "<int>", "f"))))
        self.assertEqual("{:.3}|{:5}|{}".format(*map(self.store.parse, ("abcd", "f", "[1]"))), "abc|f    |[1]")

    def test_matching_by_shape(self) -> None:
        self.assertEqual(Term.__match_args__, ("name", "args"))
        if sys.version_info >= (3, 10):
            found: Dict[str, str] = {}
            exec(SHAPES, {"Term": Term, "Kind": Kind, "parse": self.store.parse, "found": found})
            self.assertEqual(found, {"plus(1,a)": "sum of 1 and a", "7": "number 7", "[]": "other", "f(1)": "other"})

    def test_codes_and_kinds(self) -> None:
        self.assertIs(self.store.parse("f").kind, Kind.APPL)
        self.assertEqual([it.name for it in Kind], ["INT", "NIL", "CONS", "APPL", "HOLE"])
        self.assertEqual(repr(self.fails(CLOSED, closed().int, 1).code), "<Code.CLOSED: 3>")

    def test_terms_are_made_by_stores(self) -> None:
        self.assertRaises(TypeError, Term)
        for name in ("number", "store", "value", "args"):
            self.assertRaises(AttributeError, setattr, self.store.parse("f"), name, 1)

    def test_subclasses_of_faults(self) -> None:
        spec = self.store.specify(ADD)
        self.assertRaises(SyntaxFault, self.store.parse, "f(")
        self.assertRaises(RuleFault, self.store.pattern, "<x>")
        self.assertRaises(LimitReached, spec.normalise, self.store.parse("plus(z,z)"), 0)
        with Store(2) as small:
            self.assertRaises(OutOfCells, small.parse, "f(1)")
        classes = [percalesilt._faults.FAULTS[it] for it in Code if it != Code.OK]
        self.assertEqual(len(set(classes)), len(Code) - 1)
        self.assertTrue(all(issubclass(it, Fault) for it in classes))

    def test_words_of_faults(self) -> None:
        text = "REC-SPEC A\nSORTS B\nCONS b : -> B\nEVAL c END-SPEC"
        fault = self.fails(RULE, self.store.specify, text)
        self.assertEqual((fault.reason, fault.rule, fault.line, fault.column, fault.place), ("S5", 5, 4, 6, 38))
        words = "S5 at line 4, column 6: undeclared symbol or variable in RULES or EVAL"
        self.assertEqual(str(fault), words)
        fault = self.fails(SYNTAX, self.store.specify, "REC-SPEC A\nB")
        self.assertEqual(str(fault), "G at line 2, column 1: syntax error in the specification")
        spec = self.store.specify(ADD)
        fault = self.fails(RULE, spec.normalise, self.store.parse("s(z,z)"))
        self.assertEqual(str(fault), "T5: wrong number of arguments")
        fault = self.fails(RULE, self.store.pattern, "<int>{a}")
        self.assertEqual(str(fault), "P2: placeholder with annotations")
        pattern = self.store.pattern("f(<int>)")
        words = "M1: wrong number of arguments for the pattern"
        self.assertEqual(str(self.fails(RANGE, pattern.make)), words)
        words = "M2: argument that does not match its placeholder"
        self.assertEqual(str(self.fails(KIND, pattern.make, [])), words)

    def test_words_are_those_of_recw(self) -> None:
        with open(f"{TOP}/crates/recw_cli/src/refusals.rt", encoding="utf-8") as file:
            words = " ".join(file.read().replace("\\\n", " ").split())
        # all but T1, which is of lists of terms
        self.assertEqual(len(percalesilt.REASONS), 25)
        for sentence in percalesilt.REASONS.values():
            self.assertIn(f'"{sentence}"', words)


SHAPES = """
for term in map(parse, ("plus(1,a)", "7", "[]", "f(1)")):
    match term:
        case Term("plus", [left, right]):
            found[str(term)] = f"sum of {left} and {right}"
        case Term(value=value):
            found[str(term)] = f"number {value}"
        case _:
            found[str(term)] = "other"
"""


def closed() -> Store:
    store = Store()
    store.close()
    return store


class Counted(Calls):
    """The calls of a library, which are counted."""

    def __init__(self, calls: Calls) -> None:
        self.inner, self.calls = calls, 0

    def __getattr__(self, name: str) -> Any:
        call = getattr(self.inner, name)

        def counted(*words: Any) -> Any:
            self.calls += 1
            return call(*words)

        return counted


class Texts(WithStore):
    """Terms are bytes, and str is UTF-8."""

    def test_utf8(self) -> None:
        term = self.store.parse('f("é→","\\303\\251")')
        self.assertEqual(str(term), 'f("é→","é")')
        self.assertEqual(bytes(term), rb'f("\303\251\342\206\222","\303\251")')
        self.assertEqual([it.name for it in term.args], ["é→", "é"])
        self.assertEqual(term.args[0].name_bytes, "é→".encode())
        texts: List[Any] = [str(term), bytes(term), bytearray(bytes(term)), memoryview(bytes(term)), str(term).encode()]
        for text in texts:
            self.assertIs(self.store.parse(text), term)
        self.assertIs(self.store.appl("é", quoted=True), self.store.appl("é".encode(), quoted=True))
        self.assertIs(self.store.symbol("é", 0, quoted=True)(), term.args[1])
        self.assertEqual(self.store.pattern('f("é→",<str>)').match(term), [term.args[1]])

    def test_what_is_not_utf8(self) -> None:
        for name in (b"\xe9", b"a\xc3", b"\xed\xa0\x80", b"\x00\x1f\x7f", "\x85\u2028".encode(), rb"\303\251", b'"\\'):
            term = self.store.appl(name, quoted=True)
            self.assertEqual(term.name_bytes, name)
            self.assertTrue(str(term).isprintable())
            self.assertIs(self.store.parse(str(term)), term)
            self.assertIs(self.store.parse(bytes(term)), term)
            self.assertIs(self.store.appl(term.name, quoted=True), term)
        self.assertEqual(str(self.store.appl(b"\xe9", quoted=True)), '"\\351"')

    def test_a_printed_text_that_is_too_long(self) -> None:
        """The longest text that is read again, and one byte more."""
        term = self.store.appl(b"n" * (2**24 - 2), quoted=True)
        self.assertIs(self.store.parse(bytes(term)), term)
        longer = self.store.appl(b"n" * (2**24 - 1), quoted=True)
        self.assertEqual(len(bytes(longer)), 2**24 + 1)
        self.assertEqual(self.fails(RANGE, self.store.parse, bytes(longer)).reason, "L1")

    def test_what_is_no_text(self) -> None:
        others: List[Any] = [7, None, ["f"]]
        for other in others:
            self.assertRaises(TypeError, self.store.parse, other)
            self.assertRaises(TypeError, self.store.appl, other)
        self.assertRaises(UnicodeEncodeError, self.store.parse, '"\ud800"')


class Threads(WithStore):
    def test_terms_that_another_thread_drops(self) -> None:
        kept: List[object] = [self.store.parse(f"f({it},[{it}])") for it in range(1000)]
        kept += [self.store.pattern(f"f({it})") for it in range(100)]
        thread = threading.Thread(target=kept.clear)
        thread.start()
        thread.join()
        self.assertEqual(self.cells_left(), 0)
        self.assertEqual(self.store.pattern("a").number, 0)

    def test_dropping_takes_no_lock(self) -> None:
        """A term can be dropped while another thread is in a call of the store."""
        kept = [self.store.parse("f(1)")]
        with self.store._lock:
            thread = threading.Thread(target=kept.clear)
            thread.start()
            thread.join(10)
            self.assertFalse(thread.is_alive())
        self.assertEqual(self.cells_left(), 0)

    def test_nested_calls(self) -> None:
        """A finalizer that prints in the middle of a print, and one that frees terms there."""
        inner, outer, calls = self.store.parse("inner"), self.store.parse("f(outer)"), self.store._calls
        nested = Nested(calls, "print", lambda: bytes(inner))
        self.store._calls = nested
        self.assertEqual(bytes(outer), b"f(outer)")
        self.store._calls = Nested(calls, "print", self.store.reclaim)
        self.assertRaises(RuntimeError, bytes, outer)
        self.store._calls = calls

    def test_a_term_that_is_made_before_others_are_freed(self) -> None:
        """A finalizer makes a term while the terms that are alive are protected."""
        late, calls, kept = [], self.store._calls, self.store.parse("f(1)")
        spec = self.store.specify(ADD)
        make = lambda: late.append(self.store.parse("late(2,3)"))
        for name in ("protect", "eval_terms"):
            self.store._calls = Nested(calls, name, make)
            self.assertEqual((str(spec.normalise(self.store.parse("z"))[0]), str(spec.terms[1])), ("z", "z"))
            self.store._calls = calls
            self.assertEqual((str(late.pop()), str(kept)), ("late(2,3)", "f(1)"))
        spec.free()
        del kept
        self.assertEqual(self.cells_left(), 0)

    def test_nested_matches(self) -> None:
        """A finalizer matches another pattern before the bindings are read."""
        one, two = self.store.pattern("f(<int>,<term>)"), self.store.pattern("<term>")
        term, calls = self.store.parse("f(1,a)"), self.store._calls
        for name in ("match", "bound"):
            self.store._calls = Nested(calls, name, lambda: two.match(9))
            self.assertEqual([str(it) for it in one.match(term) or ()], ["1", "a"])
            self.store._calls = calls
            self.store.reclaim()

    def test_one_object_for_each_term(self) -> None:
        found: List[List[Term]] = [[] for _ in range(4)]

        def make(into: List[Term]) -> None:
            into.extend(self.store.parse(f"g({it})") for it in range(2000))

        threads = [threading.Thread(target=make, args=(it,)) for it in found]
        for thread in threads:
            thread.start()
        for thread in threads:
            thread.join()
        self.assertEqual({len(set(map(id, it))) for it in zip(*found)}, {1})
        found.clear()
        self.assertEqual(self.cells_left(), 0)

    def test_a_store_that_nothing_refers_to(self) -> None:
        """It is closed without the collector, and its terms keep it open."""
        store = Store()
        store.specify(ADD)
        closing, term = store._closing, store.parse("f(1)")
        gc.disable()
        try:
            del store
            self.assertTrue(closing.alive)
            self.assertEqual(str(term), "f(1)")
            del term
            self.assertFalse(closing.alive)
        finally:
            gc.enable()


LOOP = "REC-SPEC Loop SORTS S CONS a : -> S OPNS f : S -> S g : S -> S VARS X : S RULES f(X) -> f(g(X)) g(X) -> X END-SPEC"


class Alarm(Exception):
    """What a signal handler raises."""


class Interrupts(WithStore):
    """An evaluation that does not end is stopped within 100 ms."""

    def setUp(self) -> None:
        super().setUp()
        self.spec = self.store.specify(LOOP, memo=0)
        self.term = self.store.parse("f(a)")
        self.asked = 0.0

    spec: Spec

    def endless(self) -> None:
        self.spec.normalise(self.term, 2**64 - 1)

    def asking(self, delay: float, how: Callable[[], object]) -> threading.Thread:
        """A thread that asks for a stop, some time after an evaluation was begun."""

        def ask() -> None:
            while not self.store._runs:
                time.sleep(0.0002)
            time.sleep(delay)
            self.asked = time.monotonic()
            how()

        thread = threading.Thread(target=ask)
        thread.start()
        return thread

    def stops(self, kind: Type[BaseException]) -> float:
        """How long an evaluation goes on after it was asked to stop."""
        self.assertRaises(kind, self.spec.normalise, self.term, 2**64 - 1)
        late = time.monotonic() - self.asked
        # nothing of it is left for the next one
        self.assertEqual(self.spec.normalise(self.store.parse("g(a)")), (self.store.parse("a"), 1))
        return late

    def stops_at(self, number: int, handler: Any, kind: Type[BaseException]) -> None:
        """By a signal in the midst of an evaluation, whose handler was installed or is the usual one."""
        before = signal.signal(number, handler)
        try:
            self.stops_when_asked(lambda: os.kill(os.getpid(), number), kind)
        finally:
            signal.signal(number, before)

    def stops_when_asked(self, how: Callable[[], object], kind: Type[BaseException]) -> None:
        """At several times; a machine with other work may be late, but not each time."""
        late = []
        for delay in (0.0, 0.001, 0.01, 0.1):
            thread = self.asking(delay, how)
            late.append(self.stops(kind))
            thread.join()
        self.assertLess(min(late), 0.1)

    def test_keys(self) -> None:
        self.stops_at(signal.SIGINT, signal.default_int_handler, KeyboardInterrupt)

    def test_a_signal_handler_that_raises(self) -> None:
        def handler(*_: object) -> None:
            raise Alarm

        self.stops_at(signal.SIGALRM, handler, Alarm)

    def test_a_signal_handler_that_asks(self) -> None:
        self.stops_at(signal.SIGUSR1, lambda *_: self.store.interrupt(), Interrupted)

    def test_another_thread(self) -> None:
        self.stops_when_asked(self.store.interrupt, Interrupted)

    def test_evaluations_of_several_threads(self) -> None:
        """One is at it and three wait for it; all are stopped, and another store goes on."""
        raised: List[BaseException] = []

        def run() -> None:
            try:
                self.endless()
            except Interrupted as failure:
                raised.append(failure)

        threads = [threading.Thread(target=run) for _ in range(4)]
        for thread in threads:
            thread.start()
        time.sleep(0.05)
        with Store() as other:
            self.store.interrupt()
            self.assertRaises(LimitReached, other.specify(LOOP).normalise, other.parse("f(a)"))
        for thread in threads:
            thread.join(10)
        self.assertEqual([it.code for it in raised if isinstance(it, Fault)], [INTERRUPTED] * 4)

    def test_where_nothing_runs(self) -> None:
        self.store.interrupt()
        self.assertRaises(LimitReached, self.spec.normalise, self.term, 200000)
        self.store.close()
        self.store.interrupt()

    def test_what_is_left(self) -> None:
        """Terms that are alive stay, those of the evaluation go, and errors have no cells."""
        kept = self.store.parse("h([1,2],f(a))")
        thread = self.asking(0.02, self.store.interrupt)
        self.stops(Interrupted)
        thread.join()
        self.assertEqual((str(kept), str(self.term)), ("h([1,2],f(a))", "f(a)"))
        fault = self.fails(LIMIT, self.spec.normalise, self.term, 100000)
        self.assertIsNone(fault.__context__)
        self.spec.free()
        del kept, self.term, fault
        gc.disable()
        try:
            self.assertEqual(self.cells_left(), 0)
        finally:
            gc.enable()

    def test_the_limit_of_the_command_line(self) -> None:
        """It is that of the table in docs/reference/cli.md, unless another one is given."""
        with open(f"{TOP}/docs/reference/cli.md", encoding="utf-8") as file:
            limit = re.findall(r"^\| `--steps N` \| ([0-9]+) \|", file.read(), re.M)
        self.assertEqual([str(percalesilt.STEPS)], limit)
        self.fails(LIMIT, self.spec.normalise, self.term)


class Nested(Calls):
    """The calls of a library, of which one is followed by something else, as by a finalizer."""

    def __init__(self, calls: Calls, name: str, also: Callable[[], object]) -> None:
        self.inner, self.nested = calls, name
        self.also: Optional[Callable[[], object]] = also

    def __getattr__(self, name: str) -> Any:
        call = getattr(self.inner, name)

        def nested(*words: Any) -> Any:
            code = call(*words)
            if name == self.nested and self.also is not None:
                also, self.also = self.also, None
                also()
            return code

        return nested


if __name__ == "__main__":
    unittest.main()
