#!/usr/bin/env python3
"""Translate a REC specification to a term rewriting system in the text format of the TPDB (.trs).

Rules, variables and the innermost strategy are written; the terms of EVAL are not. A condition of REC
asks for equal values. It becomes an oriented condition:

  s -><- t   s -> t if t holds no operator that has rules, t -> s if s holds none,
             else s -> V, t -> V with a variable V of its own

What a .trs file cannot express is dropped, and the result is a superset: it has each rewriting step of
the specification, and others too. Each case is a note on standard error and in the COMMENT section:

  sorts      dropped: there are terms that are not well-sorted (a note if there is more than one sort)
  order      dropped: REC applies the first rule that matches. If the left-hand sides of two rules of an
             operator have a common instance, the result may apply the later one.
  s ->/<- t  dropped: the rule also applies if the values are equal
  s -> V, t -> V
             s and t may meet in a term that is no value, for instance if they have none
  strategy   dropped if there are conditions and one of the last three cases occurs: a call that is a
             value in REC, since no rule applies, may be rewritten by the result, and what REC rewrites
             around it would not be innermost; and with --cops, since that format has no strategy

Without a note the innermost rewriting steps are those of the specification. A superset is enough to
prove that evaluation ends; it cannot show that it does not end, and confluence of the result says nothing
about REC, whose evaluation is deterministic. For a tool that does not know conditions, or ignores the
evaluation of their terms, use --unconditional.
"""

import argparse
import os
import re
import sys
from itertools import combinations
from typing import NamedTuple

EXAMPLE = """
Example: tools/rec2trs.py examples/add.rec

prints

  (VAR X Y)
  (STRATEGY INNERMOST)
  (RULES
    plus(z,Y) -> Y
    plus(s(X),Y) -> s(plus(X,Y))
  )

Exit status: 0 done, 1 the text is rejected, 2 wrong arguments, 4 a read or a write failed.
"""

# The reader of REC specifications is the same text in rec2maude.py and rec2trs.py, so that each is a single file.

RESERVED = {"REC-SPEC", "SORTS", "CONS", "OPNS", "VARS", "RULES", "EVAL", "END-SPEC", "if", "and-if"}
TOKEN = re.compile(
    r"(?P<layout>(?:[ \t\n\r]|%[^\n]*)+)"
    r"|(?P<word>[A-Za-z0-9_](?:[A-Za-z0-9_']|-(?=[A-Za-z0-9_]))*)"
    r"|(?P<mark>->/<-|-><-|->|[:(),])"
)


class InputError(Exception):
    """A text that is rejected: the offset of the error and what is wrong."""

    def __init__(self, offset, message):
        super().__init__(message)
        self.offset, self.message = offset, message


class Token(NamedTuple):
    offset: int
    text: str
    is_word: bool


class Term(NamedTuple):
    offset: int
    name: str
    arguments: list


class Condition(NamedTuple):
    """Two terms whose values have to be equal, or different."""

    left: Term
    right: Term
    is_equal: bool


class Rule(NamedTuple):
    left: Term
    right: Term
    conditions: list


class Declaration(NamedTuple):
    arguments: list
    sort: str


def tokens_of(text):
    """The tokens of a specification, the last one empty."""
    at = 0
    while at < len(text):
        found = TOKEN.match(text, at)
        if not found:
            raise InputError(at, f"unexpected character {text[at]!r}")
        if found.lastgroup != "layout":
            is_word = found.lastgroup == "word" and found[0] not in RESERVED
            yield Token(at, found[0], is_word)
        at = found.end()
    yield Token(len(text), "", False)


def subterms(term):
    """The term and all terms in it."""
    rest = [term]
    while rest:
        term = rest.pop()
        yield term
        rest.extend(reversed(term.arguments))


def spelled(term, name_of, head=None):
    """The text of a term with these names; `head` replaces the first one."""
    pieces, rest = [], [term]
    while rest:
        it = rest.pop()
        if isinstance(it, str):
            pieces.append(it)
            continue
        pieces.append(head or name_of(it.name))
        head = None
        if it.arguments:
            inside = [part for argument in it.arguments for part in (",", argument)]
            rest += [")", *reversed(inside[1:]), "("]
    return "".join(pieces)


class Spec:
    """A specification that is read and checked."""

    def __init__(self, text):
        if len(text) > 16777216:
            raise InputError(0, "the text has more than 16777216 bytes")
        self.tokens, self.at = list(tokens_of(text)), 0
        self.sorts, self.variables, self.rules, self.terms = {}, {}, [], []
        self.constructors, self.operators = {}, {}
        self.need("REC-SPEC")
        self.name = self.word()
        self.read_declarations()
        self.symbols = {**self.constructors, **self.operators}
        self.read_terms()
        self.need("END-SPEC")
        self.need("")
        for rule in self.rules:
            self.check_rule(rule)
        for term in self.terms:
            self.check_term(term, {})

    # Tokens

    def takes(self, text):
        """Whether the next token is this one, which is taken then."""
        found = self.tokens[self.at].text == text and not self.tokens[self.at].is_word
        self.at += found
        return found

    def need(self, text):
        if not self.takes(text):
            self.unexpected(text or "the end of the text")

    def unexpected(self, expected):
        offset, text, _ = self.tokens[self.at]
        raise InputError(offset, f"expected {expected}, found {text or 'the end of the text'}")

    def word(self):
        if not self.tokens[self.at].is_word:
            self.unexpected("a word")
        self.at += 1
        return self.tokens[self.at - 1].text

    def items(self, section, item):
        """The items of a section; none if it is missing."""
        if self.takes(section):
            while self.tokens[self.at].is_word:
                yield item()

    # Sections

    def read_declarations(self):
        for _ in self.items("SORTS", lambda: self.declare(self.sorts, (), None)):
            pass
        for section, symbols in (("CONS", self.constructors), ("OPNS", self.operators)):
            for _ in self.items(section, lambda into=symbols: self.read_symbol(into)):
                pass
        for _ in self.items("VARS", self.read_variables):
            pass

    def read_terms(self):
        self.rules = list(self.items("RULES", self.rule))
        self.terms = list(self.items("EVAL", self.term))

    def declare(self, names, others, value):
        """Takes a word that none of these has yet."""
        offset = self.tokens[self.at].offset
        name = self.word()
        if name in names or any(name in it for it in others):
            raise InputError(offset, f"{name} is declared twice")
        names[name] = value
        return name

    def sort(self):
        offset = self.tokens[self.at].offset
        name = self.word()
        if name not in self.sorts:
            raise InputError(offset, f"no sort is called {name}")
        return name

    def read_symbol(self, into):
        name = self.declare(into, (self.constructors, self.operators), None)
        self.need(":")
        arguments = []
        while not self.takes("->"):
            arguments.append(self.sort())
        into[name] = Declaration(arguments, self.sort())

    def read_variables(self):
        names = []
        while not self.takes(":"):
            names.append(self.declare(self.variables, (self.constructors, self.operators), None))
        self.variables.update(dict.fromkeys(names, self.sort()))

    def rule(self):
        left = self.term()
        self.need("->")
        right, conditions = self.term(), []
        more = self.takes("if")
        while more:
            first = self.term()
            is_equal = self.takes("-><-")
            if not is_equal:
                self.need("->/<-")
            conditions.append(Condition(first, self.term(), is_equal))
            more = self.takes("and-if")
        return Rule(left, right, conditions)

    def term(self):
        """A term of any depth."""
        unfinished = []
        while True:
            term = Term(self.tokens[self.at].offset, self.word(), [])
            if self.takes("(") and not self.takes(")"):
                unfinished.append(term)
                continue
            while unfinished:
                unfinished[-1].arguments.append(term)
                if self.takes(","):
                    break
                self.need(")")
                term = unfinished.pop()
            else:
                return term

    # Sorts

    def sort_of(self, term):
        name = term.name
        return self.variables[name] if name in self.variables else self.symbols[name].sort

    def check_term(self, term, variables):
        """Rejects unknown words, wrong numbers and sorts of arguments, and other variables than these."""
        for it in subterms(term):
            if it.name not in self.symbols and it.name not in self.variables:
                raise InputError(it.offset, f"{it.name} is neither a symbol nor a variable")
            if it.name in self.variables and it.name not in variables:
                raise InputError(it.offset, f"the variable {it.name} is not bound here")
            expected = self.symbols[it.name].arguments if it.name in self.symbols else []
            if len(expected) != len(it.arguments):
                message = f"{it.name} takes {len(expected)} arguments, not {len(it.arguments)}"
                raise InputError(it.offset, message)
        for it in subterms(term):
            for argument, sort in zip(it.arguments, it.arguments and self.symbols[it.name].arguments):
                self.check_sort(argument, sort)

    def check_sort(self, term, sort):
        if self.sort_of(term) != sort:
            raise InputError(term.offset, f"a term of sort {self.sort_of(term)}, expected {sort}")

    def check_rule(self, rule):
        if rule.left.name not in self.operators:
            raise InputError(rule.left.offset, f"{rule.left.name} is not an operator")
        self.check_term(rule.left, self.variables)
        bound = {it.name for it in subterms(rule.left) if it.name in self.variables}
        for left, right in [rule[:2], *(it[:2] for it in rule.conditions)]:
            self.check_term(left, bound)
            self.check_term(right, bound)
            self.check_sort(right, self.sort_of(left))


# The end of the reader of REC specifications.


# Words of the format, which no name may be.
KEYWORDS = {"VAR", "RULES", "STRATEGY", "THEORY", "EQUATIONS", "COMMENT", "CONDITIONTYPE", "SIG"}
KEYWORDS |= {"INNERMOST", "OUTERMOST", "CONTEXTSENSITIVE"}


def unify(left, right, variables):
    """Whether two terms have a common instance; variables are pairs of a side, 0 or 1, and a name."""
    bound = {}

    def resolved(side, term):
        while term.name in variables and (side, term.name) in bound:
            side, term = bound[side, term.name]
        return side, term

    def occurs(variable, side, term):
        rest = [(side, term)]
        while rest:
            side, term = resolved(*rest.pop())
            if (side, term.name) == variable:
                return True
            rest.extend((side, it) for it in term.arguments)
        return False

    rest = [((0, left), (1, right))]
    while rest:
        first, second = (resolved(*it) for it in rest.pop())
        if first[1].name not in variables:
            first, second = second, first
        (side, term), (other, found) = first, second
        if term.name not in variables:
            if term.name != found.name:
                return False
            rest.extend(((side, a), (other, b)) for a, b in zip(term.arguments, found.arguments))
        elif (side, term.name) != (other, found.name):
            if occurs((side, term.name), other, found):
                return False
            bound[side, term.name] = second
    return True


class System:
    """The sections of a .trs file, and what they do not say of the specification."""

    def __init__(self, spec, text, options):
        self.spec, self.text_read, self.options = spec, text, options
        self.notes, self.variables = [], list(spec.variables)
        self.rewritten = {rule.left.name for rule in spec.rules}
        self.taken = {*spec.symbols, *spec.variables, *KEYWORDS}
        spelled_alike = [it for it in [*spec.symbols, *spec.variables] if it in KEYWORDS]
        self.names = {name: self.fresh(name) for name in spelled_alike}
        self.rules = [line for rule in spec.rules for line in self.lines_of(rule)]
        self.note_order()
        self.is_innermost = not options.cops and not (self.notes and any(it.conditions for it in spec.rules))
        if not self.is_innermost:
            self.note(None, "the innermost strategy is dropped")
        if len(spec.sorts) > 1:
            self.note(None, "sorts are dropped")

    def fresh(self, name):
        """A name that no symbol and no variable has."""
        number = 1
        while f"{name}{number}" in self.taken:
            number += 1
        self.taken.add(f"{name}{number}")
        return f"{name}{number}"

    def note(self, term, message):
        line = f"line {self.line_of(term)}: " if term else ""
        self.notes.append(line + message)

    def line_of(self, term):
        return self.text_read.count("\n", 0, term.offset) + 1

    def note_order(self):
        """One note for each operator two of whose rules apply to one term."""
        rules = {name: [] for name in self.spec.operators}
        for rule in self.spec.rules:
            rules[rule.left.name].append(rule.left)
        for name, lefts in rules.items():
            for first, second in combinations(lefts, 2):
                if unify(first, second, self.spec.variables):
                    line = self.line_of(first)
                    self.note(second, f"the order of the rules of {name} is dropped: see line {line}")
                    break

    def shown(self, term):
        return spelled(term, lambda name: self.names.get(name, name))

    def lines_of(self, rule):
        left, right = self.shown(rule.left), self.shown(rule.right)
        if self.options.unconditional:
            sides = [self.shown(it) for condition in rule.conditions for it in condition[:2]]
            if sides:
                self.note(rule.left, "conditions are dropped, their terms are right-hand sides")
            return [f"{left} -> {it}" for it in [right, *sides]]
        conditions = [it for condition in rule.conditions for it in self.condition(condition)]
        return [f"{left} -> {right}{' | ' if conditions else ''}{', '.join(conditions)}"]

    def condition(self, condition):
        """The oriented conditions of a condition."""
        left, right = (self.shown(it) for it in condition[:2])
        mark = "==" if self.options.cops else "->"
        if not condition.is_equal:
            self.note(condition.left, f"dropped: {left} ->/<- {right}")
            return []
        if not self.is_rewritten(condition.right):
            return [f"{left} {mark} {right}"]
        if not self.is_rewritten(condition.left):
            return [f"{right} {mark} {left}"]
        self.note(condition.left, f"{left} and {right} may meet in a term that is no value")
        variable = self.fresh("V")
        self.variables.append(variable)
        return [f"{left} {mark} {variable}", f"{right} {mark} {variable}"]

    def is_rewritten(self, term):
        """Whether a term holds an operator that has rules."""
        return any(it.name in self.rewritten for it in subterms(term))

    def text(self):
        variables = [self.names.get(it, it) for it in self.variables]
        conditional = any(" | " in it for it in self.rules)
        lines = ["(CONDITIONTYPE ORIENTED)"] if conditional else []
        lines += [f"(VAR {' '.join(variables)})"] if variables else []
        lines += ["(STRATEGY INNERMOST)"] if self.is_innermost else []
        lines += ["(RULES", *(f"  {it}" for it in self.rules), ")"]
        if self.notes:
            # strings, since a comment is made of names and strings
            comments = [f'  "{it}"' for it in self.notes]
            lines += ["(COMMENT a superset of the rewriting steps of the specification", *comments, ")"]
        return "".join(f"{it}\n" for it in lines)


def arguments():
    how = {"epilog": EXAMPLE, "formatter_class": argparse.RawDescriptionHelpFormatter}
    parser = argparse.ArgumentParser(description=__doc__, **how)
    parser.add_argument("file", nargs="?", default="-", help="the specification; `-`, the default, is standard input")
    unconditional = "write rules from each left-hand side to the terms of its conditions in the place of conditions"
    parser.add_argument("--unconditional", action="store_true", help=unconditional)
    cops = "write conditions with `==` and no strategy, as the database of confluence problems does"
    parser.add_argument("--cops", action="store_true", help=cops)
    return parser.parse_args()


def main():
    options = arguments()
    text, name = "", "<stdin>" if options.file == "-" else options.file
    try:
        with open(0 if options.file == "-" else options.file, encoding="latin-1", newline="") as file:
            text = file.read()
        system = System(Spec(text), text, options)
        sys.stdout.write(system.text())
        sys.stdout.flush()
        sys.stderr.write("".join(f"{name}: note: {it}\n" for it in system.notes))
    except InputError as error:
        before = text[: error.offset].split("\n")
        sys.stderr.write(f"{name}:{len(before)}:{len(before[-1]) + 1}: error: {error.message}\n")
        return 1
    except OSError as error:
        if not isinstance(error, BrokenPipeError):
            sys.stderr.write(f"rec2trs.py: {error.filename or options.file}: {error.strerror}\n")
        # what is left in the buffer of a closed pipe is not written at exit
        os.dup2(os.open(os.devnull, os.O_WRONLY), 1)
        return 4
    return 0


if __name__ == "__main__":
    sys.exit(main())
