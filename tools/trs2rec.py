#!/usr/bin/env python3
"""Translate a term rewriting system in the text format of the TPDB (.trs) to a REC specification.

The specification has one sort U, the symbols that head a left-hand side as operators, the other ones as
constructors, and the rules in their order. Sections VAR, RULES, STRATEGY INNERMOST and CONDITIONTYPE are
read, COMMENT and unknown ones are skipped. A condition `s -> t` or `s == t` becomes `s -><- t`; two
conditions `s -> V, t -> V` with a variable V that is in nothing else become one.

REC evaluates leftmost-innermost and applies the first rule that matches. So the specification makes one
choice where the system has several, and an evaluation is one of the reductions of the system. The values
are those of the system if its normal forms are unique.

Rejected: a left-hand side that is a variable, a variable that is in a right-hand side or a condition and
not in the left-hand side, a symbol with two numbers of arguments, an oriented condition whose right-hand
side holds an operator, semi-equational conditions, relative rules `->=`, theories, equations, and the
strategies OUTERMOST and CONTEXTSENSITIVE.

A name that is no word of REC is replaced; a comment of the specification lists such names.
"""

import argparse
import os
import re
import sys
from typing import NamedTuple

EXAMPLE = """
Example: echo '(VAR x) (STRATEGY INNERMOST) (RULES +(0,x) -> x)' | tools/trs2rec.py -e '+(0,s(0))'

prints

  % + is plus
  REC-SPEC Imported
  SORTS U
  CONS
    0 : -> U
    s : U -> U
  OPNS
    plus : U U -> U
  VARS
    x : U
  RULES
    plus(0,x) -> x
  EVAL
    plus(0,s(0))
  END-SPEC

Exit status: 0 done, 1 the text is rejected, 2 wrong arguments, 4 a read or a write failed.
"""

TOKEN = re.compile(r'\s+|->=|-><-|->|==|[()|,]|"[^"]*"|"|(?:(?!->|==)[^\s()|,"])+')
WORD = re.compile(r"[A-Za-z0-9_](?:[A-Za-z0-9_']|-(?=[A-Za-z0-9_]))*")
RESERVED = {"REC-SPEC", "SORTS", "CONS", "OPNS", "VARS", "RULES", "EVAL", "END-SPEC", "if", "and-if"}
MARKS = {"(", ")", "|", ",", "->", "->=", "-><-", "==", ""}
# What marks are called in names, where they are no part of a word.
CALLED = {"+": "plus", "*": "times", "-": "minus", "/": "div", "<": "lt", ">": "gt", "=": "eq", "!": "not"}
CALLED.update({"&": "and", ".": "dot", ":": "cons", "#": "sharp", "@": "at", "^": "power", "%": "mod", "~": "neg"})


class InputError(Exception):
    """A text that is rejected: the offset of the error, None in a term of the command line, and what is wrong."""

    def __init__(self, offset, message):
        super().__init__(message)
        self.offset, self.message = offset, message


class Token(NamedTuple):
    offset: int
    text: str


class Term(NamedTuple):
    offset: int
    name: str
    arguments: list


class Condition(NamedTuple):
    left: Term
    mark: str
    right: Term


class Rule(NamedTuple):
    left: Term
    right: Term
    conditions: list


def tokens_of(text):
    """The tokens of a system, the last one empty."""
    at = 0
    while at < len(text):
        found = TOKEN.match(text, at)
        if not found:
            raise InputError(at, f"unexpected character {text[at]!r}")
        if not found[0].isspace():
            yield Token(at, found[0])
        at = found.end()
    yield Token(len(text), "")


def subterms(term):
    """The term and all terms in it."""
    rest = [term]
    while rest:
        term = rest.pop()
        yield term
        rest.extend(reversed(term.arguments))


class Parser:
    """Reads tokens one by one."""

    def __init__(self, text):
        self.tokens, self.at = list(tokens_of(text)), 0

    def next(self):
        self.at += 1
        return self.tokens[self.at - 1]

    def sees(self, text):
        return self.tokens[self.at].text == text

    def takes(self, text):
        found = self.sees(text)
        self.at += found
        return found

    def need(self, text):
        if not self.takes(text):
            self.unexpected(text or "the end of the text")

    def unexpected(self, expected):
        offset, text = self.tokens[self.at]
        raise InputError(offset, f"expected {expected}, found {text or 'the end of the text'}")

    def name(self):
        text = self.tokens[self.at].text
        if text in MARKS or text.startswith('"'):
            self.unexpected("a name")
        return self.next()

    def term(self):
        """A term of any depth."""
        unfinished = []
        while True:
            term = Term(*self.name(), [])
            if self.takes("(") and not self.takes(")"):
                unfinished.append(term)
                continue
            while unfinished:
                unfinished[-1].arguments.append(term)
                if self.takes(","):
                    break
                self.need(")")
                term = unfinished.pop()
            else:
                return term

    def rule(self):
        left = self.term()
        if self.sees("->="):
            raise InputError(self.tokens[self.at].offset, "a relative rule has no counterpart in REC")
        self.need("->")
        right, conditions = self.term(), []
        more = self.takes("|")
        while more:
            first = self.term()
            if not any(map(self.sees, ("->", "==", "-><-"))):
                self.unexpected("->, == or -><-")
            conditions.append(Condition(first, self.next().text, self.term()))
            more = self.takes(",")
        return Rule(left, right, conditions)

    def skip(self):
        """Skips the rest of a section."""
        depth = 1
        while depth:
            offset, text = self.next()
            if text == "":
                raise InputError(offset, "expected ), found the end of the text")
            depth += (text == "(") - (text == ")")


class System:
    """A system that is read, and checked for what REC cannot express."""

    def __init__(self, text):
        self.variables, self.rules, self.terms = set(), [], []
        self.condition_type, self.is_innermost = "ORIENTED", False
        parser = Parser(text)
        while parser.takes("("):
            self.read_section(parser)
        parser.need("")
        # the numbers of arguments, in the order of the text, and the variables that are in a rule
        self.arities, self.used = {}, {}
        self.operators = {rule.left.name for rule in self.rules}
        self.rules = [self.checked(it) for it in self.rules]

    def read_section(self, parser):
        offset, word = parser.name()
        if word == "VAR":
            while not parser.takes(")"):
                self.variables.add(parser.name().text)
        elif word == "RULES":
            while not parser.takes(")"):
                self.rules.append(parser.rule())
        elif word == "CONDITIONTYPE":
            offset, self.condition_type = parser.name()
            if self.condition_type not in ("ORIENTED", "JOIN"):
                raise InputError(offset, f"{self.condition_type} conditions have no counterpart in REC")
            parser.need(")")
        elif word == "STRATEGY":
            offset, strategy = parser.name()
            if strategy != "INNERMOST":
                raise InputError(offset, f"the strategy {strategy} is not that of REC")
            self.is_innermost = True
            parser.need(")")
        elif word in ("THEORY", "EQUATIONS"):
            raise InputError(offset, f"{word} has no counterpart in REC")
        else:
            parser.skip()

    def add_term(self, text):
        """Adds a term of the command line."""
        try:
            parser = Parser(text)
            self.terms.append(parser.term())
            parser.need("")
            self.check_term(self.terms[-1], ())
        except InputError as error:
            raise InputError(None, f"-e {text}: {error.message}") from error

    def check_term(self, term, bound):
        """Rejects variables that are not bound and symbols with two numbers of arguments."""
        for it in subterms(term):
            if it.name in self.variables and it.name not in bound:
                raise InputError(it.offset, f"the variable {it.name} is not in the left-hand side")
            expected = 0 if it.name in self.variables else self.arities.setdefault(it.name, len(it.arguments))
            if len(it.arguments) != expected:
                message = f"{it.name} has {len(it.arguments)} arguments here and {expected} elsewhere"
                raise InputError(it.offset, message)

    def checked(self, rule):
        """The rule with conditions of REC, which have two sides."""
        if rule.left.name in self.variables:
            raise InputError(rule.left.offset, "a left-hand side is a variable")
        bound = dict.fromkeys(it.name for it in subterms(rule.left) if it.name in self.variables)
        self.used.update(bound)
        self.check_term(rule.left, bound)
        self.check_term(rule.right, bound)
        conditions = list(self.joined(rule, bound))
        for left, mark, right in conditions:
            self.check_term(left, bound)
            self.check_term(right, bound)
            is_oriented = mark == "->" or mark == "==" and self.condition_type == "ORIENTED"
            if is_oriented and any(it.name in self.operators for it in subterms(right)):
                raise InputError(right.offset, "the right-hand side of a condition holds an operator")
        return Rule(rule.left, rule.right, conditions)

    def joined(self, rule, bound):
        """The conditions, in which `s -> V, t -> V` is a single one if V is in nothing else."""
        sides = [side for condition in rule.conditions for side in (condition.left, condition.right)]
        names = [it.name for side in sides for it in subterms(side)]
        rest = list(rule.conditions)
        while rest:
            first = rest.pop(0)
            name = first.right.name
            is_free = name in self.variables and name not in bound and names.count(name) == 2
            if rest and is_free and first.mark == rest[0].mark and rest[0].right.name == name:
                first = Condition(first.left, "-><-", rest.pop(0).left)
            yield first


class Names:
    """The words of REC for the names of a system."""

    def __init__(self, names):
        self.words = {it: it for it in names if WORD.fullmatch(it) and it not in RESERVED}
        self.taken, self.replaced = {*self.words, *RESERVED}, {}
        for name in names:
            if name not in self.words:
                self.replaced[name] = self.words[name] = self.word(name)

    def word(self, name):
        """A word that no other name has."""
        parts = [CALLED.get(it[0], it[0]) for it in re.finditer(r"[A-Za-z0-9_']+|.", name)]
        parts = [it for it in parts if re.fullmatch(r"[A-Za-z0-9_']+", it)]
        word = base = "_".join(parts).strip("'") or "n"
        number = 1
        while word in self.taken:
            number += 1
            word = f"{base}_{number}"
        self.taken.add(word)
        return word

    def shown(self, term):
        pieces, rest = [], [term]
        while rest:
            it = rest.pop()
            if isinstance(it, str):
                pieces.append(it)
                continue
            pieces.append(self.words[it.name])
            if it.arguments:
                inside = [part for argument in it.arguments for part in (",", argument)]
                rest += [")", *reversed(inside[1:]), "("]
        return "".join(pieces)


def specification(system):
    """The text of a specification."""
    names = Names([*system.used, *system.arities])
    lines = [f"% {name} is {word}" for name, word in names.replaced.items()]
    if not system.is_innermost:
        lines.append("% the system has no innermost strategy")
    lines += ["REC-SPEC Imported", "SORTS U"]
    constructors = [it for it in system.arities if it not in system.operators]
    operators = [it for it in system.arities if it in system.operators]
    for section, symbols in (("CONS", constructors), ("OPNS", operators)):
        declared = [f"  {names.words[it]} : {'U ' * system.arities[it]}-> U" for it in symbols]
        lines += [section, *declared]
    if system.used:
        lines += ["VARS", f"  {' '.join(names.words[it] for it in system.used)} : U"]
    lines.append("RULES")
    for left, right, conditions in system.rules:
        sides = [f"{names.shown(it.left)} -><- {names.shown(it.right)}" for it in conditions]
        lines.append(f"  {names.shown(left)} -> {names.shown(right)}{' if ' if sides else ''}{' and-if '.join(sides)}")
    lines += ["EVAL", *(f"  {names.shown(it)}" for it in system.terms), "END-SPEC"]
    return "".join(f"{it}\n" for it in lines)


def arguments():
    how = {"epilog": EXAMPLE, "formatter_class": argparse.RawDescriptionHelpFormatter}
    parser = argparse.ArgumentParser(description=__doc__.replace("%", "%%"), **how)
    parser.add_argument("file", nargs="?", default="-", help="the system; `-`, the default, is standard input")
    term = "a term for EVAL, with the names of the system; may be given several times"
    parser.add_argument("-e", action="append", default=[], metavar="TERM", help=term)
    return parser.parse_args()


def main():
    options = arguments()
    text, name = "", "<stdin>" if options.file == "-" else options.file
    try:
        with open(0 if options.file == "-" else options.file, encoding="latin-1", newline="") as file:
            text = file.read()
        system = System(text)
        for term in options.e:
            system.add_term(os.fsencode(term).decode("latin-1"))
        sys.stdout.buffer.write(specification(system).encode("latin-1"))
        sys.stdout.flush()
    except InputError as error:
        if error.offset is None:
            name = "trs2rec.py"
        else:
            before = text[: error.offset].split("\n")
            name += f":{len(before)}:{len(before[-1]) + 1}"
        sys.stderr.write(f"{name}: error: {error.message}\n")
        return 1
    except OSError as error:
        if not isinstance(error, BrokenPipeError):
            sys.stderr.write(f"trs2rec.py: {error.filename or options.file}: {error.strerror}\n")
        # what is left in the buffer of a closed pipe is not written at exit
        os.dup2(os.open(os.devnull, os.O_WRONLY), 1)
        return 4
    return 0


if __name__ == "__main__":
    sys.exit(main())
